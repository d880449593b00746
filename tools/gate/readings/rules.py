"""The crate rules: what stands of a policy on a graph, in the order of the report."""

from readings.lock import Lock
from readings.policy import Label
from readings.trees import crate_node

SECTIONS = ["deprecated", "crates", "groups", "workspace", "unused", "std", "licenses", "licenses-unused"]
CODES = [
    "deprecated", "banned", "allowed", "not-allowed", "duplicate", "skipped", "wildcard", "unmatched-skip",
    "unnecessary-skip", "allowed-by-wrapper", "unmatched-wrapper", "skipped-by-root", "unmatched-skip-root",
    "build-script-not-allowed", "exact-features-mismatch", "feature-not-explicitly-allowed", "feature-banned",
    "unknown-feature", "default-feature-enabled", "path-bypassed", "path-bypassed-by-glob", "checksum-match",
    "checksum-mismatch", "denied-by-extension", "detected-executable", "detected-executable-script",
    "unable-to-check-path", "features-enabled", "unmatched-bypass", "unmatched-path-bypass", "unmatched-glob",
    "unused-wrapper",
    "workspace-duplicate", "unresolved-workspace-dependency", "unused-workspace-dependency", "replaced-in-std",
    "unmatched-replacement-ignore", "accepted", "rejected", "unlicensed", "parse-error",
    "skipped-private-workspace-crate", "license-not-encountered", "license-exception-not-encountered", "waiver-expired",
]
# The exit bit of the check that a section belongs to.
BITS = {section: 4 if section.startswith("licenses") else 2 for section in SECTIONS}
SEVERITY = {"allow": "note", "warn": "warning", "deny": "error"}
NO_ENTRY = (0, 0)


class Finding:
    """What is told, the nodes whose trees are shown, and the key by which it is told once and in its place."""

    def __init__(
        self, section, code, severity, message, labels=(), notes=(), place=0, entry=NO_ENTRY, text="", other=0,
        places=(), nodes=(), with_features=False
    ):
        self.code, self.severity, self.message = code, severity, message
        self.labels, self.notes, self.bit = list(labels), list(notes), BITS[section]
        self.nodes, self.with_features, self.entry = list(nodes), with_features, entry
        self.key = (SECTIONS.index(section), place, CODES.index(code), entry, text.encode(), other, tuple(places))


def of_crate(crate, code, severity, message, labels=(), notes=(), section="crates", **more):
    """A finding of a crate, whose tree is that of the crate where no other nodes are given."""
    more.setdefault("nodes", [crate_node(crate)])
    return Finding(section, code, severity, message, labels, notes, place=crate.place, **more)


def unused(code, message, labels):
    return Finding("unused", code, "warning", message, labels, entry=labels[0].span)


class Rules:
    """A policy and a graph, and what several rules ask of them."""

    def __init__(self, policy, graph):
        self.policy, self.graph = policy, graph
        self.trees = [(entry, skipped_by(entry, graph)) for entry in policy.entries("skip-tree")]
        self.marked = {crate.place for entry in policy.entries("skip") for crate in self.matched(entry)}
        self.rooted = set().union(*(places for _, places in self.trees))

    def matched(self, entry):
        return matched(entry, self.graph)

    def counts(self, crate):
        return crate.is_built or self.policy.get("multiple-versions-include-dev", False)

    def is_exempt(self, crate):
        return crate.is_member and self.policy.get("allow-workspace", False)

    def is_marked(self, crate):
        return crate.place in self.marked

    def group(self, name):
        """The counting crates of a name that are marked or in no skipped tree."""
        is_in = lambda crate: self.is_marked(crate) or crate.place not in self.rooted
        return [crate for crate in self.graph.named(name) if self.counts(crate) and is_in(crate)]

    def reduced_group(self, name):
        """The group; of several, those that a crate of another name asks for."""
        group = self.group(name)
        asked_for = lambda crate: any(parent.name != name for parent in self.graph.dependents(crate))
        return group if len(group) == 1 else [crate for crate in group if asked_for(crate)]


def matched(entry, graph):
    return [crate for crate in graph.named(entry.spec.name) if entry.spec.matches(crate)]


def skipped_by(entry, graph):
    """The places of the crates nearer to a crate that the entry matches than its depth, 0 being as 1."""
    depth = entry.get("depth")
    reached = nearest = {crate.place for crate in matched(entry, graph)}
    distance = 0
    while nearest and (depth is None or distance + 1 < depth):
        nearest = {needed for place in nearest for needed in graph.crates[place].needs} - reached
        reached = reached | nearest
        distance += 1
    return reached


def wrappers_of(entry):
    return entry.get("wrappers", [])


def wrapper_for(entry, parent):
    """The first wrapper of a parent's name."""
    named = [wrapper for wrapper in wrappers_of(entry) if wrapper.value == parent.name]
    return named[0] if named else None


def is_lifted(entry, parents):
    return bool(wrappers_of(entry)) and all(wrapper_for(entry, parent) for parent in parents)


def bans(rules):
    for entry in rules.policy.banned():
        for crate in rules.matched(entry):
            if not rules.is_exempt(crate):
                yield from ban(rules, entry, crate)


def ban(rules, entry, crate):
    """A crate that an entry bans, and each of its parents where the entry has wrappers."""
    parents, at, here = rules.graph.dependents(crate), entry.spec.span, entry.labels("banned here")
    if not is_lifted(entry, parents):
        yield of_crate(crate, "banned", "error", "crate '%s' is explicitly banned" % crate, here, entry=at)
    for parent in parents if wrappers_of(entry) else []:
        key = {"entry": at, "other": parent.place}
        wrapper = wrapper_for(entry, parent)
        if wrapper:
            labels = [Label(at, "banned here"), Label(wrapper.span, "allowed wrapper")]
            message = "banned crate '%s' allowed by wrapper '%s'" % (crate, parent)
            yield of_crate(crate, "allowed-by-wrapper", "note", message, labels, **key)
        else:
            message = "direct parent '%s' of banned crate '%s' was not marked as a wrapper" % (parent, crate)
            yield of_crate(crate, "unmatched-wrapper", "warning", message, here, **key)


def unused_wrappers(rules):
    """The wrappers that are for no parent of a crate that their entry bans."""
    for entry in rules.policy.banned():
        crates = [crate for crate in rules.matched(entry) if not rules.is_exempt(crate)]
        used = [wrapper_for(entry, parent) for crate in crates for parent in rules.graph.dependents(crate)]
        spans = {wrapper.span for wrapper in used if wrapper}
        for wrapper in wrappers_of(entry):
            if wrapper.span not in spans:
                labels = [Label(wrapper.span, "unmatched wrapper")]
                yield unused("unused-wrapper", "wrapper for banned crate was not encountered", labels)


def allowances(rules):
    allowed, entries = set(), rules.policy.entries("allow")
    for entry in entries:
        for crate in rules.matched(entry):
            allowed.add(crate.place)
            message = "crate '%s' is explicitly allowed" % crate
            yield of_crate(crate, "allowed", "note", message, entry.labels("allowed here"), entry=entry.spec.span)
    for crate in rules.graph.crates if entries else []:
        if crate.place not in allowed and not rules.is_exempt(crate):
            yield of_crate(crate, "not-allowed", "error", "crate '%s' is not explicitly allowed" % crate)


def skipped_crates(rules):
    for entry in rules.policy.entries("skip"):
        hit = [crate for crate in rules.matched(entry) if rules.counts(crate)]
        for crate in hit:
            message = "crate '%s' skipped when checking for duplicates" % crate
            yield of_crate(crate, "skipped", "note", message, entry.labels("skipped here"), entry=entry.spec.span)
        if not hit:
            message = "skipped crate '%s' was not encountered" % entry.spec
            yield unused("unmatched-skip", message, entry.labels("unmatched skip configuration"))
        elif len(rules.reduced_group(entry.spec.name)) <= 1:
            message = "skip '%s' applied to a crate with only one version" % entry.spec
            yield unused("unnecessary-skip", message, entry.labels("unnecessary skip configuration"))


def skipped_trees(rules):
    for entry, places in rules.trees:
        at = entry.spec.span
        for crate in (rules.graph.crates[place] for place in places):
            if rules.counts(crate) and not rules.is_marked(crate):
                message = "skipping crate '%s' due to root skip" % crate
                yield of_crate(crate, "skipped-by-root", "note", message, entry.labels("matched skip root"), entry=at)
        if not places:
            labels = [Label(at, "no crate matched these criteria")]
            yield unused("unmatched-skip-root", "skip tree root was not found in the dependency graph", labels)


def duplicates(rules):
    lock = Lock(rules.graph)
    wanted_once = {crate.place for entry in rules.policy.one_version_wanted() for crate in rules.matched(entry)}
    for name in rules.graph.by_name:
        crates = [crate for crate in rules.reduced_group(name) if not rules.is_marked(crate)]
        several = any(crate.place in wanted_once for crate in crates)
        level = "deny" if several else rules.policy.get("multiple-versions", "warn")
        if len(crates) >= 2 and level != "allow":
            in_order_ = sorted(crates, key=lambda crate: crate.order())
            places, nodes = [crate.place for crate in in_order_], [crate_node(crate) for crate in in_order_]
            message = "found %d duplicate entries for crate '%s'" % (len(crates), name)
            labels = [Label(lock.span_of(crates), "lock entries", lock.text)]
            more = {"place": places[0], "places": places, "nodes": nodes}
            yield Finding("groups", "duplicate", SEVERITY[level], message, labels, **more)


def crate_rules(rules):
    """What stands by the crate rules."""
    for part in (bans, unused_wrappers, allowances, skipped_crates, skipped_trees, duplicates):
        yield from part(rules)


def in_order(findings):
    """Findings, each once, ascending by key."""
    found = {finding.key: finding for finding in findings}
    return [found[key] for key in sorted(found)]
