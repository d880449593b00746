"""What a run of `check [OPTIONS] POLICY METADATA [REPLACEMENTS]` or `generate N` writes, and its status."""

import json
import re

from readings.building import Built
from readings.dead import dead_entries
from readings.dependencies import dependency_rules
from readings.disks import MadeDisk, NoDisk
from readings.features import feature_rules
from readings.licensing import licence_rules
from readings.manifests import Seen
from readings.metadata import Fault, read_metadata
from readings.noticed import policy_rules
from readings.policy import Faults, clashes, is_day, read_policy, written_policy
from readings.replaced import std_rules, table_for
from readings.replacements import Bad
from readings.rules import Rules, crate_rules, in_order
from readings.trees import Trees
from readings.workspace import Workspace

LIMIT = 2**28  # a text that is read has fewer bytes than this
MOST_MADE = 20000  # crates that can be asked for
PURPOSES = ["manifest", "script", "list", "header", "sum"]  # for which a path is read, in order
REGISTRY = "registry+https://github.com/rust-lang/crates.io-index"


def compact(value):
    """Compact JSON, keys in byte order, control characters escaped and nothing else."""
    return json.dumps(value, ensure_ascii=False, separators=(",", ":"), sort_keys=True)


def line(kind, fields, **written):
    """A line; `written` are members of its fields that are JSON already."""
    members = {name: compact(value) for name, value in fields.items()} | written
    inner = ",".join("%s:%s" % (compact(name), members[name]) for name in sorted(members))
    return '{"fields":{%s},"type":%s}\n' % (inner, compact(kind))


def stop_line(stop, **fields):
    return line("stop", dict(fields, stop=stop))


# ---- findings and faults


def labelled(text, label):
    """A label: where its range begins, from 1 and in characters, and its text without quotes at the ends."""
    start, end = label.span
    text = text if label.text is None else label.text
    before = text[:start]
    column = len(before[before.rfind(b"\n") + 1 :].decode()) + 1
    span = text[start:end].decode().strip('"')
    return {"column": column, "line": before.count(b"\n") + 1, "message": label.message, "span": span}


def with_labels(fields, text, labels):
    return dict(fields, labels=[labelled(text, label) for label in labels]) if labels else fields


def finding_line(finding, text, trees):
    fields = {"code": finding.code, "message": finding.message, "severity": finding.severity}
    if finding.notes:
        fields["notes"] = finding.notes
    return line("diagnostic", with_labels(fields, text, finding.labels), graphs=trees.graphs_of(finding))


def dead_line(entry):
    kind, (start, end) = entry
    return line("dead", {"end": end, "kind": kind, "start": start})


def clash_value(diagnostic, text):
    fields = {"message": diagnostic.message, "severity": "error"}
    return {"fields": with_labels(fields, text, diagnostic.labels), "type": "diagnostic"}


def fault_value(fault):
    kind, key, (start, end) = fault
    return {"end": end, "key": key, "kind": kind, "start": start}


# ---- words


REGISTRY_OPTION = re.compile("--registry=([^=]+)=(.+)", re.DOTALL)
HOME_OPTION = re.compile("--home=(.+)", re.DOTALL)
DAY_OPTION = re.compile("--today=(.+)", re.DOTALL)


class Options:
    """The options behind a command: the registries, each its name and its address, the folder of cargo and the day,
    each of which can be named once, or None, and how many words they are."""

    def __init__(self, words):
        self.registries, self.home, self.today, self.count = [], None, None, 0
        for word in words[1:] if words[:1] == ["check"] else []:
            if not self.takes(word):
                break
            self.count += 1

    def takes(self, word):
        """Whether a word is an option, which is added to them."""
        registry, home, today = (one.fullmatch(word) for one in (REGISTRY_OPTION, HOME_OPTION, DAY_OPTION))
        if registry:
            self.registries.append(registry.groups())
        elif home and self.home is None:
            self.home = home[1]
        elif today and self.today is None and is_day(today[1]):
            self.today = today[1]
        else:
            return False
        return True


NO_OPTIONS = Options([])


# ---- runs


def findings_of(policy, graph, table, seen, built, registries=()):
    """What stands, in order."""
    rules = Rules(policy, graph)
    of_manifests = dependency_rules(rules, seen, Workspace(graph, seen, registries))
    parts = [policy_rules(policy), crate_rules(rules), of_manifests, built.found]
    parts += [feature_rules(policy, graph), licence_rules(policy, graph), std_rules(policy, graph, table)]
    return in_order(finding for findings in parts for finding in findings)


def file_lines(unread, malformed):
    """The lines on what could not be read, and of those on what is no manifest."""
    whose = lambda crate: (crate is not None, crate.id.encode() if crate else b"")
    order = lambda one: (whose(one[0]), one[1].encode(), PURPOSES.index(one[2]))
    for crate, path, purpose in sorted(unread, key=order):
        yield line("unread", {"crate": crate and str(crate), "path": path, "purpose": purpose})
    for path in sorted(malformed, key=str.encode):
        yield line("malformed", {"path": path})


def report(policy_text, metadata_text, replacements=None, disk=NoDisk(), options=NO_OPTIONS):
    """The lines of the report on these texts and its status, or the line of a stop and its status."""
    try:
        written = written_policy(policy_text, options.today)
    except Faults as found:
        return stop_line("config", faults=[fault_value(fault) for fault in found.faults]), 19
    contradictions = clashes(written)
    if contradictions:
        return stop_line("invalid", diagnostics=[clash_value(one, policy_text) for one in contradictions]), 20
    try:
        graph = read_metadata(metadata_text)
    except Fault as fault:
        return stop_line("metadata", fault=fault.fault, detail=fault.detail), 21
    policy = written.on(options.today)
    try:
        table = table_for(policy, replacements)
    except Bad as bad:
        return stop_line("replacement", offset=bad.args[0]), 22
    seen, built, trees = Seen(graph, disk), Built(policy, graph, disk, options.home), Trees(graph)
    found = findings_of(policy, graph, table, seen, built, options.registries)
    lines = [finding_line(finding, policy_text, trees) for finding in found]
    lines += [dead_line(entry) for entry in dead_entries(policy, graph, table, built, found)]
    lines += file_lines(seen.unread + built.unread, seen.malformed)
    bits = sum({finding.bit for finding in found if finding.severity == "error"})
    lines.append(line("verdict", {"bits": bits, "verdict": "fail" if bits else "pass"}))
    return "".join(lines), bits


def is_path(word):
    return word != "" and not word.startswith("-")


def is_number(word):
    return re.fullmatch("0|[1-9][0-9]*", word) is not None and int(word) <= MOST_MADE


# What a word behind the options has to be, and how many words there are at least.
FORMS = {"check": ([is_path, is_path, is_path], 2), "generate": ([is_number], 1)}


def usage_place(words):
    """Where the words break off from `check [OPTIONS] POLICY METADATA [REPLACEMENTS]` or `generate N`, or None."""
    if not words or words[0] not in FORMS:
        return 0
    tests, fewest = FORMS[words[0]]
    first = 1 + Options(words).count
    for number, word in enumerate(words[first:]):
        if number == len(tests) or not tests[number](word):
            return first + number
    return len(words) if len(words) < first + fewest else None


def paths_of(words):
    """The paths of the texts that accepted words name."""
    return words[1 + Options(words).count :]


def made(number):
    """A policy, and the metadata of so many crates, which `app` needs."""
    crates = [("c%d" % (i // 2), "%d.0.0" % (1 + i % 2)) for i in range(number)]
    skipped = ['"c%d@=1.0.0"' % k for k in range((number + 1) // 2) if k % 10 == 0]
    policy = '[bans]\nmultiple-versions = "deny"\ndeny = ["c1"]\nskip = [%s]\n' % ", ".join(skipped)
    packages = [{
        "id": "%s %s" % crate, "name": crate[0], "version": crate[1], "source": REGISTRY,
        "manifest_path": "/r/%s-%s/Cargo.toml" % crate,
    } for crate in crates]
    declared = [{"name": name, "req": version} for name, version in crates]
    app = {"id": "app", "name": "app", "version": "0.1.0", "manifest_path": "/w/Cargo.toml", "dependencies": declared}
    nodes = [{"id": "app", "deps": [{"pkg": package["id"]} for package in packages]}]
    nodes += [{"id": package["id"]} for package in packages]
    members = {"workspace_members": ["app"], "workspace_root": "/w"}
    graph = dict(members, packages=[app] + packages, resolve={"nodes": nodes})
    return policy.encode(), compact(graph).encode()


def summary(number):
    """The line that sums up the report on what is made of a number, and the status."""
    policy_text, metadata_text = made(number)
    policy, graph = read_policy(policy_text), read_metadata(metadata_text)
    disk = MadeDisk({"/w/Cargo.toml": lambda: b""})
    built = Built(policy, graph, disk)
    found = findings_of(policy, graph, None, Seen(graph, disk), built)
    bits = sum({finding.bit for finding in found if finding.severity == "error"})
    return line("summary", {
        "crates": len(graph.crates), "dead": len(dead_entries(policy, graph, None, built, found)),
        "errors": sum(finding.severity == "error" for finding in found), "generated": number,
        "verdict": "fail" if bits else "pass",
    }), bits


def run(words, disk):
    """What is to be told over the files of a disk, and the status, as if the outputs took everything."""
    place = usage_place(words)
    if place is not None:
        return stop_line("usage", at=place), 16
    if words[0] == "generate":
        return summary(int(words[1]))
    read, options = [], Options(words)
    for file, path in zip(("policy", "metadata", "replacements"), paths_of(words)):
        read.append(disk.read(path))
        if read[-1] is None:
            return stop_line("read", file=file), 17
        if len(read[-1]) >= LIMIT:
            return stop_line("long", file=file), 18
    return report(*read, disk=disk, options=options)
