#!/usr/bin/env python3
"""Looks up each clause and each must-fail edit that docs/PROOFS.md names.

    tools/gate/causes.py     prints a line for each that the source does not have, and how many there are

A reference to a clause is `crate::call`: `clause`, `clause` ..; the call is a function, or a method behind its type or
trait. A clause is an `ensures` of the call, `·` one without a name, or what the implementation of a trait of std gives.
A reference to an edit is `crate/edit`.
"""

import functools
import re
import sys

from public_calls import TOP, calls_of

PAGE = TOP / "docs/PROOFS.md"
REFERENCE = re.compile(r"`(deny_\w+)::([\w:]+)`:((?:,? `[\w·]+`(?!:))+)")
EDIT = re.compile(r"`(deny_\w+)/([\w-]+)`")


@functools.cache
def clauses_of(crate):
    """The clauses of each call of a crate, by its name behind that of its owner."""
    found = {}
    for call in calls_of(crate):
        found.setdefault(call.path, set()).update(call.ensures)
    return found


def references_in(text):
    """Each clause that a text names: its crate, its call and its own name."""
    for crate, call, clauses in REFERENCE.findall(text):
        for clause in re.findall("`(.+?)`", clauses):
            yield crate, call, clause


def missing_clauses(references):
    """A line for each clause that its call has not."""
    for crate, call, clause in references:
        if clause not in clauses_of(crate).get(call, ()):
            yield "%s::%s has no clause %s" % (crate, call, clause)


def missing_edits(edits):
    """A line for each edit that is not there."""
    for crate, edit in edits:
        path = TOP / "crates" / crate / "must-fail" / (edit + ".edit")
        if not path.is_file():
            yield "there is no %s" % path.relative_to(TOP)


def main():
    text = PAGE.read_text(encoding="utf-8")
    references, edits = list(references_in(text)), EDIT.findall(text)
    missing = [*missing_clauses(references), *missing_edits(edits)]
    counts = len(references), len(edits), len(missing)
    print("\n".join(missing + ["%d clauses and %d edits are named, %d are missing" % counts]))
    sys.exit(bool(missing))


if __name__ == "__main__":
    main()
