"""What the standard library replaces: the crates, by a policy and a table of replacements, and what is told of them."""

from readings.metadata import minor_of
from readings.policy import Label
from readings.replacements import Bad, read_table
from readings.rules import SEVERITY, Finding, of_crate


class Replacing:
    """What a policy says of crates that are replaced."""

    def __init__(self, written):
        said = {name: value.value for name, value in written.items()}
        self.scope, self.level = said.get("scope", "workspace"), said.get("level", "deny")
        self.minor = minor_of(said.get("rust-version"))
        self.ignored, self.free = said.get("ignore", []), said.get("ignore-rust-version", "none")

    def looks_at_some(self):
        return self.scope != "none"


def replacing_of(policy):
    """None where the policy asks for no table."""
    written = policy.get("std-replacements", None)
    replacing = None if written is None else Replacing(written)
    return replacing if replacing and replacing.looks_at_some() else None


def table_for(policy, whole):
    """The table that a policy asks for, from bytes or None; `Bad` where it asks for one that is not there."""
    if replacing_of(policy) is None:
        return {}
    if whole is None:
        raise Bad(0)
    return read_table(whole)


# ---- which crates


def is_in(scope, crate):
    return {"none": False, "workspace": crate.is_member, "transitive": not crate.is_member, "all": True}[scope]


def satisfies(replacing, items, parent):
    """A dependent may use something stable, or none is to be held to its version of Rust."""
    minor = replacing.minor if parent.rust_minor is None else parent.rust_minor
    since = [int(kind.split()[1]) for kind, _ in items if kind.startswith("stable")]
    return is_in(replacing.free, parent) or minor is None or any(number <= minor for number in since)


def is_replaced(replacing, graph, table, crate):
    items = table.get(crate.name.encode()) if crate.is_public else None
    asked = [parent for parent in graph.dependents(crate) if is_in(replacing.scope, parent)]
    return items is not None and any(satisfies(replacing, items, parent) for parent in asked)


# ---- the note


def replacement_lines(crate, texts):
    name, url, std_name, std_url, note = texts
    yield "```diff"
    yield "- [%s::%s](%s)" % (crate.replace("-", "_"), name, url)
    yield "+ [%s](%s)" % (std_name, std_url)
    yield "```"
    yield ""
    if note:
        yield "  " + note
        yield ""


def note_lines(crate, items):
    yield "## Stable"
    heading, last = "stable", 0
    for kind, texts in items:
        word, *minor = kind.split()
        if word != heading:
            yield "## " + word.capitalize()
            heading = word
        if minor and int(minor[0]) != last:
            last = int(minor[0])
            yield "### 1.%d.0" % last
        if word == "unavailable":
            yield "  - %s::%s - %s" % (crate, *texts)
        else:
            yield from replacement_lines(crate, texts)


def note_of(crate, items):
    """The one note of a replaced crate, each of its lines with an end."""
    decoded = [(kind, [text.decode() for text in texts]) for kind, texts in items]
    return "".join(line + "\n" for line in note_lines(crate, decoded))


# ---- what stands


def replaced_finding(replacing, table, crate):
    message = "crate '%s' is partially or fully replaced in std and/or core" % crate
    notes = [note_of(crate.name, table[crate.name.encode()])]
    severity = SEVERITY[replacing.level]
    return of_crate(crate, "replaced-in-std", severity, message, notes=notes, section="std")


def unmatched_finding(entry):
    labels = [Label(entry.spec.span, "unmatched ignore configuration")]
    if "reason" in entry.more:
        labels.append(Label(entry.more["reason"].span, "ignore reason"))
    message = "std replacement ignore '%s' was not encountered" % entry.spec
    key = {"entry": entry.spec.span}
    return Finding("unused", "unmatched-replacement-ignore", "warning", message, labels, **key)


def std_rules(policy, graph, table):
    """Replaced crates that no entry passes over, and entries that pass none over."""
    replacing = replacing_of(policy)
    if replacing is None:
        return
    hit = set()
    for crate in graph.crates:
        if is_replaced(replacing, graph, table, crate):
            speaking = [number for number, entry in enumerate(replacing.ignored) if entry.spec.matches(crate)]
            if speaking:
                hit.add(speaking[0])
            else:
                yield replaced_finding(replacing, table, crate)
    for number, entry in enumerate(replacing.ignored):
        if number not in hit:
            yield unmatched_finding(entry)
