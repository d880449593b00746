#!/usr/bin/env python3
"""Writes the cases of crates/deny_cases, and what each must print.

The expected output comes from a reading of the rules that is written here anew: it shares nothing with the program
that the cases try, and stands in tools/gate/readings. The cases stand in build_cases, dead_cases, declaration_cases,
feature_cases, hostile_cases, licence_check_cases, manifest_cases, metadata_cases, package_cases, policy_cases,
rule_cases, std_cases, tree_cases, waiver_cases and workspace_cases.

    check_cases.py cases FOLDER                             writes the files stdin and stdout of crates/deny_cases
    check_cases.py files FOLDER CASE                        writes the files of a case, all of which are named from the
                                                            folder at hand, and prints what it has to print
    check_cases.py check [OPTIONS] POLICY METADATA [REPLACEMENTS]     does what the program does with these files
"""

import json
import re
import sys
from pathlib import Path

sys.path.insert(0, str(Path(__file__).resolve().parent.parent))

from build_cases import build_cases
from case_parts import ALONE, DENY_X, WITH_X, case, is_free, manifest_of, with_manifests
from dead_cases import dead_cases
from feature_cases import feature_cases
from declaration_cases import declaration_cases
from hostile_cases import EACH, hostile_cases
from licence_check_cases import licence_check_cases
from manifest_cases import long_manifests, manifest_cases
from readings import toml
from readings.dead import UNUSED
from readings.building import Built
from readings.disks import MadeDisk, RealDisk
from readings.manifests import Seen
from readings.metadata import read_metadata
from readings.policy import read_policy
from readings.replaced import table_for
from readings.report import (
    LIMIT, Options, compact, findings_of, paths_of, report, run, stop_line, usage_place,
)
from readings.trees import Trees, text_of
from metadata_cases import metadata_cases
from package_cases import package_cases
from policy_cases import policy_cases
from rule_cases import rule_cases
from std_cases import long_tables, std_cases
from tree_cases import tree_cases
from waiver_cases import waiver_cases
from workspace_cases import workspace_cases

# The statuses of runs that are done: the bits of the checks that failed.
DONE = (0, 2, 4, 6)

# ---- cases of words, files and outputs


USAGE = '{"fields":{"at":%d,"stop":"usage"},"type":"stop"}\n'
# The place of the word that is missing or too many.
WRONG_AT = {(): 0, ("check",): 1, ("check", "p", "m", "r", "s"): 4, ("generate", "20001"): 1}

ONE = "--registry=own=https://example.org/"
# Registries before the texts, and options that are none or stand elsewhere.
OPTIONS = [
    ["check", ONE, "p", "m"], ["check", ONE, ONE, "--registry=a==", "p", "m", "r"], ["check", ONE, "p", "m", "r", "s"],
    ["check", "--registry=a=\n", "p", "m"], ["check", "--registry= =b", "p", "m"],
    ["check", "--registry=ü=é=", "p", "m"],
    ["check", ONE], ["check", ONE, "p"], ["check", ONE, ""], ["check", ONE, "-p", "m"],
    ["check", "--registry", "p", "m"], ["check", "--registry=", "p", "m"], ["check", "--registry=a", "p", "m"],
    ["check", "--registry=a=", "p", "m"], ["check", "--registry==b", "p", "m"], ["check", "--registry===", "p", "m"],
    ["check", "--registry", "a=b", "p", "m"], ["check", "--Registry=a=b", "p", "m"],
    ["check", "-registry=a=b", "p", "m"],
    ["check", "--registries=a=b", "p", "m"], ["check", ONE, "--registry=a", "p", "m"], ["check", "p", ONE, "m"],
    ["check", "p", "m", ONE], ["check", ONE, "--home=/h", "p", "m"], ["check", "--home=/h", ONE, "p", "m"],
    ["generate", ONE, "4"], ["generate", "4", ONE], [ONE, "check", "p", "m"], [ONE],
    ["check", "--home=/h", "--home=/h", "p", "m"], ["check", "--home=/h", ONE, "--home=/i", "p", "m"],
    ["check", "--home=", "p", "m"], ["check", "--home", "p", "m"], ["check", "--home", "/h", "p", "m"],
    ["check", "--Home=/h", "p", "m"], ["check", "-home=/h", "p", "m"], ["check", "--home=\n", "p", "m"],
    ["check", "--home==", "p", "m"], ["check", "--home=--home=", "p", "m"], ["check", ONE, "--home=ü", ONE, "p", "m"],
    ["check", "--home=/h", "p", "m", "r"], ["check", "--home=/h"], ["check", "--home=/h", "p"],
    ["check", "p", "--home=/h", "m"], ["check", "p", "m", "--home=/h"], ["check", "--home:/h", "p", "m"],
    ["generate", "--home=/h", "4"], ["generate", "4", "--home=/h"], ["--home=/h", "check", "p", "m"],
]
WRONG_AT.update({
    ("check", ONE): 2, ("check", ONE, "p"): 3, ("check", "--registry=a=", "p", "m"): 1, ("check", "p", ONE, "m"): 2,
    ("check", ONE, "p", "m", "r", "s"): 5, ("generate", ONE, "4"): 1,
    ("check", "--home=/h", "--home=/h", "p", "m"): 2, ("check", "--home=/h", ONE, "--home=/i", "p", "m"): 3,
    ("check", "--home=", "p", "m"): 1, ("check", "p", "--home=/h", "m"): 2, ("check", "--home=/h"): 2,
    ("generate", "--home=/h", "4"): 1,
})

SUMMARY = '{"fields":{"crates":%d,"dead":0,"errors":%d,"generated":%d,"verdict":"%s"},"type":"summary"}\n'
MADE = {
    "0": SUMMARY % (1, 0, 0, "pass"), "4": SUMMARY % (5, 3, 4, "fail"), "20000": SUMMARY % (20001, 9002, 20000, "fail"),
}


def words():
    for list_ in (
        [], ["check"], ["check", "p"], ["check", "p", "m", "r"], ["check", "p", "m", "r", "s"],
        ["check", "p", "m", "-r"], ["check", "p", "m", "r", ""], ["check", "p", "m", "r", "-s"],
        ["check", "-p", "m", "r"],
        ["Check", "p", "m"], ["", "p", "m"], ["check", "", "m"], ["check", "-p", "m"],
        ["check", "p", ""], ["check", "p", "-"], ["check", "p", "--m", "r"], ["generate"], ["generate", ""],
        ["generate", "20001"], ["generate", "04"], ["generate", "+4"], ["generate", "4 "], ["generate", "4", "5"],
        ["check", "--home=/h", "p", "m"], ["checks", "p"], ["check", "p", "m", ""], *OPTIONS,
    ):
        stop = {"stop": USAGE % WRONG_AT[tuple(list_)]} if tuple(list_) in WRONG_AT else {}
        yield dict({"name": "words %s" % compact(list_), "words": list_, "files": {"p": "", "m": ALONE}}, **stop)
    for number, wanted in MADE.items():
        yield {"name": "made of %s" % number, "words": ["generate", number], "lines": wanted}
    for number in 1, 2, 3, 5, 19, 20, 21, 22, 401:
        yield {"name": "made of %d" % number, "words": ["generate", str(number)], "fail": ["p", "m"]}
    yield {"name": "paths with spaces", "words": ["check", " ", "a b/ü"], "files": {" ": "", "a b/ü": ALONE}}
    yield {"name": "one path for both texts", "words": ["check", "m", "m"], "files": {"m": ALONE}}
    yield {"name": "one path for all texts", "words": ["check", "m", "m", "m"], "files": {"m": ALONE}}


def outside():
    """Reading and writing that fails or is slow."""
    yield case("the policy cannot be read", fail=["deny.toml"])
    yield case("the metadata cannot be read", fail=["metadata.json"])
    yield case("neither can be read", fail=["metadata.json", "deny.toml"])
    yield case("another file cannot be read", DENY_X, WITH_X, fail=["x", "deny.tom", "deny.toml/"])
    yield case("the metadata cannot be read and the policy is no text", {"hex": "ff"}, fail=["metadata.json"])
    yield dict(case("no policy"), files={"metadata.json": ALONE})
    yield dict(case("no metadata"), files={"deny.toml": ""})
    yield dict(case("no files"), files={})
    for piece in (1, 2, 7, 1000):
        yield case("pieces of %d bytes" % piece, DENY_X, WITH_X, piece=piece)
    write = '{"fields":{"stop":"write"},"type":"stop"}\n'
    yield case("room for ten bytes", DENY_X, WITH_X, room=10, lines='{"fields":', stop=write)
    whole = len(report(b"", ALONE.encode(), disk=MadeDisk({"/w/Cargo.toml": bytes}))[0])
    for room in (0, 1, 20, whole // 2, whole - 1, whole, whole + 1):
        yield case("room for %d bytes of %d" % (room, whole), room=room)
    for room in (0, 1, 20, len(stop_line("usage", at=0)) - 1, len(stop_line("usage", at=0))):
        yield {"name": "room for %d bytes of a stop" % room, "words": [], "err_room": room}
    yield case("room for a part of the faults", "[bans]\nskip = [1, 2]\n", err_room=50)
    yield case("no room at all", room=0, err_room=0)


def long_texts():
    """Texts of 2^28 bytes, and of one byte less."""
    manifests = {"/w/Cargo.toml": manifest_of("app")}
    lines = lambda size: [{"repeat": "\n" * 4096, "times": size // 4096}, "\n" * (size % 4096)]
    spaced = lambda size: [{"repeat": " " * 4096, "times": (size - 4096) // 4096}, " " * (4096 - len(ALONE)), ALONE]
    yield case("a long policy, and no metadata", lines(LIMIT), piece=1 << 24, fail=["metadata.json"])
    yield case("a long policy in pieces of 4096", lines(LIMIT), piece=4096)
    yield case("a policy of a byte less", lines(LIMIT - 1), piece=1 << 24, by_hand="")
    yield case("long metadata, and a policy that is no text", {"hex": "ff"}, spaced(LIMIT), piece=1 << 24)
    a_byte_less = spaced(LIMIT)[:1] + [" " * (4095 - len(ALONE)), ALONE]
    yield case("metadata of a byte less", "", a_byte_less, piece=1 << 24, manifests=manifests)
    one = {"name": "one long path for both texts", "words": ["check", "m", "m"], "files": {"m": lines(LIMIT)}}
    yield dict(one, piece=1 << 24)


def cases():
    subjects = (rule_cases, feature_cases, licence_check_cases, policy_cases, metadata_cases, std_cases)
    of_manifests = (manifest_cases, declaration_cases, workspace_cases)
    for part in (
        words, outside, *subjects, tree_cases, dead_cases, *of_manifests, build_cases, package_cases, waiver_cases,
        hostile_cases, long_texts, long_tables, long_manifests
    ):
        for one in filter(is_wanted, part()):
            yield from in_turn(with_manifests(one))


def is_wanted(case):
    """A case that is to be TOML is none where it is not: the place of that fault is free."""
    if not case.pop("is_toml", False):
        return True
    return toml.reading(case["files"]["deny.toml"]) != "grammar"


def in_turn(case):
    """The case, or several of it: of a disk whose calls fail in turn, until none fails, or of an output that takes each
    number of bytes until it takes all."""
    numbers = [name for name in ("fail_call", "room", "err_room") if case.get(name) == EACH]
    if not numbers:
        yield case
    for name in numbers:
        for number in range(most(case, name) + 1):
            yield dict(case, name="%s, %s %d" % (case["name"], name.replace("_", " "), number), **{name: number})


def most(case, name):
    """How many calls a case makes of its disk, or how many bytes it writes."""
    whole = {key: value for key, value in case.items() if key != name}
    disk = disk_of(whole)
    written, status = run(case["words"], disk)
    if name == "fail_call":
        return disk.calls
    return len((written if (status in DONE) == (name == "room") else stop_line("write")).encode())


# ---- what a case has to print


def text_of_case(text):
    """The bytes of a text of a case: a string, bytes in hex, a repeated string, or several."""
    if isinstance(text, str):
        return text.encode()
    if isinstance(text, list):
        return b"".join(text_of_case(part) for part in text)
    if "hex" in text:
        return bytes.fromhex(text["hex"])
    return text["repeat"].encode() * text["times"]


def disk_of(case):
    """The disk of a case."""
    files = {path: lambda text=text: text_of_case(text) for path, text in case.get("files", {}).items()}
    return MadeDisk(files, case.get("fail", []), case.get("fail_call"), case.get("piece", 2**16))


def expected(case):
    """What a run over the case's disk writes, and its status."""
    room, err_room = case.get("room", 1 << 20), case.get("err_room", 1 << 20)
    out, (err, status) = "", run(case["words"], disk_of(case))
    if status in DONE:
        out, err = err, ""
        if len(out.encode()) > room:
            out, err, status = out.encode()[:room].decode(), stop_line("write"), 23
    return {"err": err.encode()[:err_room].decode(), "name": case["name"], "out": out, "status": status}


# ---- what a row says by hand


# The trees of a finding nest as deep as the graph, so they are cut out of its line before it is read as JSON.
GRAPHS = re.compile(r'"graphs":\[.*?\],(?="(?:labels|message)":)')


def values_of(answer):
    return [json.loads(GRAPHS.sub("", line, 1)) for line in lines_of(answer["out"] or answer["err"])]


def lines_of(text):
    return text.removesuffix("\n").split("\n")


def told(answer):
    """An answer in short: code and crate of each finding, or the faults, or the places of labels, or the stop."""
    return "; ".join(part for value in values_of(answer) for part in told_of(value["type"], value["fields"]))


def told_of(kind, fields):
    if kind in ("verdict", "dead"):
        return []
    if kind == "unread":
        of_manifest = fields["purpose"] == "manifest"
        return [" ".join([kind, short(fields["crate"] or "none")] + ([] if of_manifest else [fields["purpose"]]))]
    if kind == "malformed":
        return ["%s %s" % (kind, fields["path"])]
    if kind == "diagnostic":
        return [told_finding(fields)]
    if fields["stop"] == "config":
        return ["%(kind)s %(start)d..%(end)d %(key)s" % fault for fault in fields["faults"]]
    if fields["stop"] == "invalid":
        return [places_of(one["fields"]["labels"]) for one in fields["diagnostics"]]
    return ["%s %d" % (fields["stop"], fields["offset"]) if "offset" in fields else fields["stop"]]


def places_of(labels):
    return " ".join("%(line)d:%(column)d" % label for label in labels)


def told_finding(fields):
    """The code and the first crate that the message names, 1.0.0 and 0.1.0 left out, `/` and the feature behind it; of
    a licence what its notes or its label name, and the byte at which it cannot be read; of a file its path, and what it
    is."""
    code, quoted = fields["code"], lambda text: re.findall("'([^']*)'", text)
    if code in ABOUT_A_FILE:
        return " ".join([code] + told_of_file(code, fields))
    names = [short(name) for name in quoted(fields["message"])]
    if code in ABOUT_A_FEATURE:
        feature, crate = names
        return "%s %s/%s" % (code, crate, feature)
    if code in ("accepted", "rejected"):
        return ": ".join([code] + [name for note in fields["notes"] for name in quoted(note)])
    if code in ("license-not-encountered", "license-exception-not-encountered"):
        return "%s %s" % (code, fields["labels"][0]["span"])
    if code == "workspace-duplicate":
        crate, times = re.match("crate (.*) is used ([0-9]+) times", fields["message"]).groups()
        names = [short(crate) + " " + times]
    if code in ("unresolved-workspace-dependency", "unused-workspace-dependency"):
        names = [fields["labels"][0]["span"]]
    if code == "parse-error":
        names = [names[0] + " " + re.search("[0-9]+$", fields["message"]).group()]
    return " ".join([code] + names[:1])


ABOUT_A_FILE = (
    "path-bypassed", "path-bypassed-by-glob", "checksum-match", "checksum-mismatch", "denied-by-extension",
    "detected-executable", "detected-executable-script", "unable-to-check-path", "features-enabled",
    "unmatched-bypass", "unmatched-path-bypass", "unmatched-glob",
)


def told_of_file(code, fields):
    """The path below the folder of the crate, and what the file is, or how a checksum of a script is told; the text at
    the label where there is no path."""
    notes, labels = fields.get("notes", []), [label["span"] for label in fields.get("labels", [])]
    if not notes:
        return labels
    path = re.sub(r"\Apath = '?(\$crate/)?(.*?)'?\Z", r"\2", notes[0], flags=re.DOTALL)
    if code in ("detected-executable", "detected-executable-script"):
        return [path, re.search("'(.*)'", notes[1], re.DOTALL)[1]]
    if code == "checksum-mismatch":
        return [path] + (["script"] if fields["severity"] == "warning" else [])
    return [path] + (labels if code == "denied-by-extension" else [])


def short(crate):
    """A crate, `name@version`, without the versions that most crates of cases have."""
    return re.sub(r"@(1\.0\.0|0\.1\.0)$", "", crate.replace(" = ", "@"))


ABOUT_A_FEATURE = ("feature-not-explicitly-allowed", "feature-banned", "unknown-feature", "default-feature-enabled")


def dead_told(case, answer):
    """The dead entries of an answer: of each its kind and its text."""
    policy = text_of_case(case["files"]["deny.toml"])
    dead = [value["fields"] for value in values_of(answer) if value["type"] == "dead"]
    return "; ".join("%s %s" % (one["kind"], policy[one["start"] : one["end"]].decode()) for one in dead)


def place_of(text, offset):
    """The line and the column of an offset, from 1 and in characters."""
    before = text[:offset].decode()
    return before.count("\n") + 1, len(before) - before.rfind("\n")


def check_dead(case, answer):
    """What is reported is dead, but for skips that are unnecessary, and for what files of another crate may hit."""
    values = values_of(answer)
    told = [one["fields"] for one in values if one["type"] == "diagnostic" and one["fields"]["code"] in UNUSED]
    places = lambda *codes: {place_of_label(one) for one in told if one["code"] in codes}
    starts = [one["fields"]["start"] for one in values if one["type"] == "dead"]
    policy = text_of_case(case["files"][paths_of(case["words"])[0]]) if starts else b""
    dead, of_files = {place_of(policy, start) for start in starts}, ("unmatched-path-bypass", "unmatched-glob")
    others = set(UNUSED) - {"unnecessary-skip", *of_files}
    if not places(*others) <= dead <= places(*others, *of_files):
        sys.exit("%s: dead at %s" % (answer["name"], starts))


def check_failing(answer):
    """Where one call fails, a run reads all but one file or folder, or stops at a text."""
    unread = sum(value["type"] == "unread" for value in values_of(answer))
    if answer["status"] not in (*DONE, 17) or unread > 1:
        sys.exit("%s: %d are not read, and status %d" % (answer["name"], unread, answer["status"]))


def place_of_label(fields):
    return fields["labels"][0]["line"], fields["labels"][0]["column"]


def trees_told(case, answer):
    """The trees of each finding as text, which is also what the values of its line say."""
    texts = [text_of_case(case["files"][path]) for path in paths_of(case["words"])]
    disk, options = disk_of(case), Options(case["words"])
    policy, graph = read_policy(texts[0], options.today), read_metadata(texts[1])
    seen, built = Seen(graph, disk), Built(policy, graph, disk, options.home)
    found = findings_of(policy, graph, table_for(policy, *texts[2:] or [None]), seen, built)
    trees = Trees(graph)
    written = ["".join(text_of(graph, tree) for tree in trees.of_finding(finding)) for finding in found]
    fields = [json.loads(line)["fields"] for line in lines_of(answer["out"])]
    of_lines = ["".join(map(text_of_value, one["graphs"])) for one in fields if "graphs" in one]
    return written if written == of_lines else ["a line says another tree", of_lines]


def text_of_node(value):
    if "Feature" in value:
        own = "%(crate_name)s feature '%(name)s' " % value["Feature"]
    else:
        krate = value["Krate"]
        own = ("(%s) " % krate["kind"] if "kind" in krate else "") + "%(name)s v%(version)s" % krate
    return own + (" (*)" if value.get("repeat") else "") + "\n"


def text_of_value(tree):
    """The text of a tree by the value that stands in a line."""
    text, waiting = "", [("", "", tree)]
    while waiting:
        before, below, value = waiting.pop()
        text += before + text_of_node(value)
        *others, last = value.get("parents", []) or [None]
        waiting += [(below + "└── ", below + "    ", last)] if last else []
        waiting += [(below + "├── ", below + "│   ", one) for one in reversed(others)]
    return text


def labels_told(case, answer):
    """The code of each finding, and the place and the text of each of its labels."""
    fields = [value["fields"] for value in values_of(answer) if value["type"] == "diagnostic"]
    label = lambda one: "%(line)d:%(column)d %(span)s" % one
    return "; ".join("%s %s" % (one["code"], ", ".join(map(label, one.get("labels", [])))) for one in fields)


# What a row says by hand, and how that is read off its answer.
BY_HAND = {
    "by_hand": lambda case, answer: told(answer),
    "dead": dead_told,
    "labels": labels_told,
    "lines": lambda case, answer: answer["out"],
    "stop": lambda case, answer: answer["err"],
    "trees": trees_told,
}


def check_by_hand(by_hand, case, answer):
    """The reading says what a row says by hand."""
    for name, wanted in by_hand.items():
        found = BY_HAND[name](case, answer)
        if found != wanted:
            sys.exit("%s: %s by hand %r, read %r" % (answer["name"], name, wanted, found))


# ---- the files


def check_disk(case):
    """A disk takes the files of a case."""
    files = case.get("files", {})
    for path in files:
        if not is_free(path, set(files) - {path}):
            sys.exit("%s: no disk takes %s" % (case["name"], path))


def write_cases(folder):
    open_ = lambda name: open("%s/%s" % (folder, name), "w", encoding="utf-8")
    names = set()
    with open_("stdin") as stdin, open_("stdout") as stdout:
        for one in cases():
            if one["name"] in names:
                sys.exit("%r stands twice" % one["name"])
            names.add(one["name"])
            by_hand = {name: one.pop(name) for name in BY_HAND if name in one}
            check_disk(one)
            answer = expected(one)
            check_by_hand(by_hand, one, answer)
            if answer["status"] in DONE:
                check_dead(one, answer)
            if "fail_call" in one:
                check_failing(answer)
            stdin.write(compact(one) + "\n")
            stdout.write(compact(answer) + "\n")


def write_files(folder, name):
    """Writes the files of a case into a folder, and gives what its run writes."""
    case = next(case for case in cases() if case["name"] == name)
    for path, text in case["files"].items():
        place = Path(folder) / path
        place.parent.mkdir(parents=True, exist_ok=True)
        place.write_bytes(text_of_case(text))
    return expected(case)["out"]


def check(words):
    """What the program writes on these files, and its status."""
    texts, options = [Path(path).read_bytes() for path in paths_of(words)], Options(words)
    written, status = report(*texts, disk=RealDisk(), options=options)
    (sys.stdout if status in DONE else sys.stderr).write(written)
    return status


def main():
    if len(sys.argv) == 3 and sys.argv[1] == "cases":
        write_cases(sys.argv[2])
    elif len(sys.argv) == 4 and sys.argv[1] == "files":
        sys.stdout.write(write_files(*sys.argv[2:]))
    elif sys.argv[1:2] == ["check"] and usage_place(sys.argv[1:]) is None:
        sys.exit(check(sys.argv[1:]))
    else:
        sys.exit(__doc__)


if __name__ == "__main__":
    main()
