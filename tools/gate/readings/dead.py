"""Entries of a policy: those that something hits, and those that are dead, which can be taken out."""

from readings.building import bypass_entries
from readings.licensing import Licensing, expression_of
from readings.replaced import is_replaced, replacing_of
from readings.rules import Rules, wrapper_for, wrappers_of

# The codes that tell of an entry that comes to nothing.
UNUSED = [
    "unmatched-skip", "unnecessary-skip", "unmatched-skip-root", "unused-wrapper", "unmatched-bypass",
    "unmatched-path-bypass", "unmatched-glob", "unmatched-replacement-ignore", "license-not-encountered",
    "license-exception-not-encountered",
]


def entries(policy):
    """The kind and the range of each entry that can be dead."""
    replacing = replacing_of(policy)
    licensing = Licensing(policy.licenses or {})
    specs = [("skip", policy.entries("skip")), ("skip-root", policy.entries("skip-tree"))]
    specs += [("replacement-ignore", replacing.ignored if replacing else [])]
    specs += [("license-exception", licensing.exceptions)]
    found = [(kind, entry.spec.span) for kind, list_ in specs for entry in list_]
    found += [("wrapper", wrapper.span) for ban in policy.banned() for wrapper in wrappers_of(ban)]
    found += bypass_entries(policy)
    return found + [("license-allow", licence.span) for licence in licensing.allow]


# ---- hits


def skip_hits(rules):
    for entry in rules.policy.entries("skip"):
        if any(rules.counts(crate) for crate in rules.matched(entry)):
            yield "skip", entry.spec.span
    for entry in rules.policy.entries("skip-tree"):
        if rules.matched(entry):
            yield "skip-root", entry.spec.span


def wrapper_hits(rules):
    """The first wrapper of the name of each crate that asks for one that is banned and not exempt."""
    for ban in rules.policy.banned():
        for crate in rules.matched(ban):
            parents = [] if rules.is_exempt(crate) else rules.graph.dependents(crate)
            for wrapper in filter(None, (wrapper_for(ban, parent) for parent in parents)):
                yield "wrapper", wrapper.span


def ignore_hits(policy, graph, table):
    """The first entry that speaks of each crate that is replaced."""
    replacing = replacing_of(policy)
    for crate in graph.crates if replacing else []:
        if is_replaced(replacing, graph, table, crate):
            speaking = [entry.spec.span for entry in replacing.ignored if entry.spec.matches(crate)]
            yield from (("replacement-ignore", span) for span in speaking[:1])


def licence_hits(policy, graph):
    """What satisfies each requirement of each crate that is looked at."""
    licensing = Licensing(policy.licenses or {})
    for crate in graph.crates if policy.licenses is not None else []:
        if licensing.runs_over(crate) and not licensing.is_passed_over(crate) and crate.license:
            exceptions = licensing.exceptions_for(crate)
            for requirement in expression_of(crate.license).requirements:
                granting = licensing.granting(exceptions, requirement)
                yield from [granting] if granting else []


def hits(policy, graph, table, built):
    """The kind and the range of each entry that something hits."""
    rules = Rules(policy, graph)
    parts = [skip_hits(rules), wrapper_hits(rules), ignore_hits(policy, graph, table), licence_hits(policy, graph)]
    return {entry for part in parts + [built.hits] for entry in part}


# ---- dead entries


def dead_entries(policy, graph, table, built, findings):
    """The entries that are reported and that nothing hits, by their ranges."""
    reported = {finding.entry for finding in findings if finding.code in UNUSED}
    hit = hits(policy, graph, table, built) if reported else set()
    dead = [(kind, span) for kind, span in entries(policy) if span in reported and (kind, span) not in hit]
    return sorted(dead, key=lambda entry: entry[1])
