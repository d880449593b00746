#!/usr/bin/env python3
"""Prints docs/CONTRACTS.md: the public calls of each crate, what each is for, and the names of its clauses.

    tools/gate/contracts.py >docs/CONTRACTS.md

All of it is taken from crates.txt and from the sources, so the page is made anew after a change of a public call.
"""

import re

from public_calls import crates, handed_on, implementations, public_calls, root_of

HEAD = """# The contracts

Made by `tools/gate/contracts.py` from the sources; `.ci/own` refuses a page that differs. It lists the crates, lowest
first, and of each the calls that other crates can make, with what their comments say and the names of their clauses.
[PROOFS.md](PROOFS.md) says in words what the whole program promises; what a clause says is in the source.

- *Call*: a function, or a method behind its type or trait. A *law* is a function that does nothing when it runs: its
  contract is a theorem.
- *Other answers*: the type of the error that a call can give, and `None` where it can give nothing.
- *Clauses*: what the call ensures, by the names of its clauses; a dot (·) is a clause without a name. After *requires*
  are the clauses that its caller has to keep. Those of a trait's method hold for each type that implements the trait;
  a type that says more of the method has a line of its own.

Each call is safe and ends besides: it does not panic, overflow, read past an end or run for ever. Conversions between
errors (`From`), copies, comparisons and printing are left out.
"""


def cell(text):
    """A text as a cell of a table: each paragraph of it in one line."""
    paragraphs = [" ".join(paragraph.split()) for paragraph in text.split("\n\n")]
    return "<br>".join(paragraph.replace("|", "\\|") for paragraph in paragraphs if paragraph)


def code(names):
    """Names, each as code."""
    return ", ".join("`%s`" % name for name in names)


def clauses(names):
    """Names of clauses, those without a name as a dot."""
    return ", ".join(name if name == "·" else "`%s`" % name for name in names)


def last_part(text):
    """What follows the last comma that is in no brackets."""
    depth, start = 0, 0
    for place, sign in enumerate(text):
        depth += (sign in "<([") - (sign in ">)]")
        start = place + 1 if sign == "," and not depth else start
    return text[start:].strip()


def other_answers(call):
    """The type of the error that a call can give, and whether it can give nothing."""
    result = re.fullmatch(r"(?:\w+::)*Result<(.*)>", call.result)
    error = last_part(result.group(1)) if result else ""
    value = result.group(1) if result else call.result
    return code([error] * bool(error) + ["None"] * value.startswith("Option<"))


def meaning(call):
    """What the comment of a call says, or of which trait it is a method."""
    return cell(call.doc) or ("As `%s` says" % call.trait if call.trait else "")


def line_of(call):
    """The line of a call in the table of its crate."""
    required = "; requires " + clauses(call.requires) if call.requires else ""
    name = "`%s`%s" % (call.path, ", a law" * call.is_law)
    return "| %s | %s | %s | %s%s |" % (name, meaning(call), other_answers(call), clauses(call.ensures), required)


def first_sentence(crate):
    """The first sentence of the comment at the head of a crate."""
    head = re.match(r"(?://!.*\n)*", root_of(crate).read_text(encoding="utf-8")).group()
    first = re.sub(r"^//! ?", "", head, flags=re.M).partition("\n\n")[0]
    return re.match(r".*?\.(?=\s|$)", " ".join(first.split())).group()


def is_listed(call):
    """Whether a call has a line: conversions between errors have none."""
    return call.trait != "From"


def links(names):
    """A link to the section of each crate."""
    return ", ".join("[`%s`](#%s)" % (name, name) for name in names)


def section(crate):
    """The lines on a crate."""
    yield from ["", "## `%s`" % crate, "", first_sentence(crate)]
    calls = [call for call in public_calls(crate) if is_listed(call)]
    if calls:
        yield from ["", "| Call | Meaning | Other answers | Clauses |", "|---|---|---|---|"]
        yield from map(line_of, calls)
    for trait, types in sorted(implementations(crate).items()):
        yield from ["", "`%s` is implemented by %s." % (trait, code(sorted(types)))]
    for below, names in sorted(handed_on(crate)[1].items()):
        yield from ["", "It hands on, of `%s`: %s." % (below, code(sorted(names)))]


def main():
    print(HEAD)
    print("%s." % links(crates()))
    print("\n".join(line for crate in crates() for line in section(crate)))


if __name__ == "__main__":
    main()
