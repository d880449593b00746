#!/usr/bin/env python3
"""Takes dead entries out of policies by chance, and says where more changes than the reports of these entries.

    tools/gate/removal.py [PROGRAM]     PROGRAM is run with the words of `./deny check`; without one the readings are asked

Of each policy all dead entries are taken out at once, and some of them, but for the last wrapper of a ban. Blanks stand
in their place, so all else stays where it is, and the lines of the second run are to be those of the first one, without
the reports of the entries and their dead lines. In some policies waivers have a day. The last line says how much was
tried.
"""

import json
import re
import subprocess
import sys
import tempfile
from pathlib import Path

HERE = Path(__file__).resolve().parent
sys.path[:0] = [str(HERE), str(HERE / "cases")]

from case_parts import draws
from check_cases import lines_of, place_of, text_of_case
from dead_cases import some_whole_case
from package_cases import some_case
from readings import toml
from readings.dead import UNUSED
from readings.disks import MadeDisk
from readings.policy import read_policy
from readings.report import Options, line, report
from readings.rules import BITS, wrappers_of
from waiver_cases import some_dated_case

SEEDS = range(20000, 21000)
OF_PACKAGES = range(21000, 21500)
DATED = range(21500, 22000)

# ---- a policy without entries


def elements(text):
    """The elements of all arrays of a text of TOML: where each begins and ends, and where the comma behind it is."""
    expressions = toml.Reader(text).document()
    headers = [text.rfind(b"\n", 0, key[0][1][0]) + 1 for kind, key, *_ in expressions if kind != "set"]
    waiting = [toml.root_of(expressions, len(text))]
    while waiting:
        place = waiting.pop()
        waiting += [*place.entries.values(), *(place.elements or [])]
        for element in place.elements or []:
            below_header = place.is_array_of_tables()
            yield table_below(text, headers, element) if below_header else element_between(text, element)


def element_between(text, element):
    """An element between brackets, with its delimiters."""
    kind = element.value[0] if element.value else None
    delimiter = {"text": 1, "multiline": 3}.get(kind, 0)
    start, end = element.span[0] - delimiter, element.span[1] + delimiter
    behind = toml.BETWEEN.match(text, end).end()
    return start, end, behind if text[behind : behind + 1] == b"," else None


def table_below(text, headers, element):
    """A table below a header of its own, as far as the next header."""
    start = max(header for header in headers if header <= element.span[0])
    return start, min((header for header in headers if header > start), default=len(text)), None


def without(text, ranges):
    """A policy without the entries of these ranges: blanks stand in the place of each and of its comma."""
    found, left = list(elements(text)), bytearray(text)
    for start, end in ranges:
        around = [one for one in found if one[0] <= start and end <= one[1]]
        start, end, comma = min(around, key=lambda one: one[1] - one[0])
        left[start:end] = re.sub(rb"[^\n]", b" ", text[start:end])
        if comma is not None:
            left[comma : comma + 1] = b" "
    return bytes(left)


# What is left of a policy, by hand; `<` and `>` stand around the range of each entry that is taken out.
BY_HAND = [
    ("skip = ['<q>']", "skip = [   ]"), ("skip = ['<q>', 'x']", "skip = [     'x']"),
    ("skip = ['x', '<q>']", "skip = ['x',    ]"), ("skip = ['x', '<q>' , ]", "skip = ['x',       ]"),
    ("skip = [\n'<q>' # '\n, # ]\n'x']", "skip = [\n    # '\n  # ]\n'x']"),
    ("skip = ['''<\nq>''', 'x']", "skip = [   \n      'x']"),
    ('skip = ["<q>@1", { crate = "<r>@1" }, "x"]', 'skip = [%s "x"]' % (" " * 25)),
    ("deny = [{ name = 'x', wrappers = ['<q>', 'app'] }]", "deny = [{ name = 'x', wrappers = [     'app'] }]"),
    ("exceptions = [{ allow = ['A'], name = '<q>' }, 1]", "exceptions = [%s 1]" % (" " * 30)),
    ("[[a.b]]\nname = '<q>'\n[[a.b]]\nname = 'x'\n", "       \n          \n[[a.b]]\nname = 'x'\n"),
    ("[[a.b]]\n[[a.b]]\nname = '<q>'\nc = 2\n[d]\n", "[[a.b]]\n       \n          \n     \n[d]\n"),
]


def check_by_hand():
    for written, wanted in BY_HAND:
        text, ranges = written, []
        while "<" in text:
            ranges.append((text.index("<"), text.index(">") - 1))
            text = text.replace("<", "", 1).replace(">", "", 1)
        left = without(text.encode(), ranges).decode()
        if left != wanted:
            sys.exit("%r without its entries: by hand %r, read %r" % (written, wanted, left))


# ---- what is told


class Told:
    """The lines of a run, each with its fields, by what they are."""

    def __init__(self, written):
        self.lines = {kind: [] for kind in ("diagnostic", "dead", "unread", "malformed", "verdict", "stop")}
        for one in lines_of(written.decode()):
            value = json.loads(one)
            self.lines[value["type"]].append((one, value["fields"]))

    def dead(self):
        return [(fields["start"], fields["end"]) for _, fields in self.lines["dead"]]

    def without(self, text, ranges):
        """The lines without the reports and the dead lines of the entries of these ranges."""
        places = {place_of(text, start) for start, _ in ranges}
        findings = [one for one in self.lines["diagnostic"] if not reports(one[1], places)]
        dead = [one for one, range_ in zip(self.lines["dead"], self.dead()) if range_ not in ranges]
        of_files = self.lines["unread"] + self.lines["malformed"]
        return [one for one, _ in findings + dead + of_files] + [verdict_of(findings)]

    def all(self):
        return [one for lines in self.lines.values() for one, _ in lines]


def reports(fields, places):
    """Whether a finding reports an entry at one of these places."""
    return fields["code"] in UNUSED and (fields["labels"][0]["line"], fields["labels"][0]["column"]) in places


OF_LICENCES = re.compile("accepted|rejected|unlicensed|parse-error|skipped-private-workspace-crate|license-.*")


def verdict_of(findings):
    """The line of the verdict that these findings have."""
    failed = {bool(OF_LICENCES.fullmatch(one["code"])) for _, one in findings if one["severity"] == "error"}
    bits = sum(BITS["licenses" if of_licences else "crates"] for of_licences in failed)
    return line("verdict", {"bits": bits, "verdict": "fail" if bits else "pass"}).rstrip("\n")


# ---- runs


class Case:
    """The texts of a case, the words that name its day, and the files of its packages, by their paths from the folder
    at hand."""

    def __init__(self, case):
        self.day = [word for word in case["words"] if word.startswith("--today=")]
        of_packages = {path[1:]: text for path, text in case["files"].items() if path.startswith("/")}
        self.files = {path: text_of_case(text) for path, text in of_packages.items()}
        self.texts = [text_of_case(text) for path, text in case["files"].items() if not path.startswith("/")]
        self.texts[1] = self.texts[1].replace(b'"/w', b'"w').replace(b'"/r/', b'"r/')


def run_readings(texts, day, files):
    disk = MadeDisk({path: lambda text=text: text for path, text in files.items()})
    return report(*texts, disk=disk, options=Options(["check", *day]))[0].encode()


def run_program(program, texts, day, files):
    names = ("deny.toml", "metadata.json", "std.bin")[: len(texts)]
    with tempfile.TemporaryDirectory() as folder:
        for name, text in [*zip(names, texts), *files.items()]:
            path = Path(folder) / name
            path.parent.mkdir(parents=True, exist_ok=True)
            path.write_bytes(text)
        done = subprocess.run([program, "check", *day, *names], capture_output=True, cwd=folder)
    return done.stdout or done.stderr


def removable(policy, dead):
    """The dead entries, but for the first wrapper of each list that would be empty without them."""
    lists = [[wrapper.span for wrapper in wrappers_of(ban)] for ban in policy.banned()]
    kept = {list_[0] for list_ in lists if list_ and set(list_) <= set(dead)}
    return [range_ for range_ in dead if range_ not in kept]


def choices(seed, ranges):
    """All of them, and some of them."""
    draw = draws(seed)
    some = [range_ for range_ in ranges if draw(2)]
    return [list_ for list_ in ([ranges] if some == ranges else [ranges, some]) if list_]


def cases():
    """Policies by chance, each with its number: over crates, over packages, and with waivers that have a day."""
    yield from ((seed, Case(some_whole_case(seed))) for seed in SEEDS)
    yield from ((seed, Case(some_case(seed))) for seed in OF_PACKAGES)
    yield from ((seed, Case(some_dated_case(seed))) for seed in DATED)


def main():
    if len(sys.argv) > 2:
        sys.exit(__doc__)
    check_by_hand()
    judged = policies = taken = 0
    program = Path(sys.argv[1]).absolute() if sys.argv[1:] else None
    run = (lambda *told: run_program(program, *told)) if program else run_readings
    for seed, case in cases():
        texts = case.texts
        before = Told(run(texts, case.day, case.files))
        judged += not before.lines["stop"]
        dead = before.dead()
        ranges = removable(read_policy(texts[0], Options(["check", *case.day]).today), dead) if dead else []
        policies += bool(ranges)
        for list_ in choices(seed, ranges):
            taken += len(list_)
            after = Told(run([without(texts[0], list_), *texts[1:]], case.day, case.files)).all()
            if after != before.without(texts[0], list_):
                sys.exit("seed %d without %s: more changes than its reports" % (seed, list_))
    print("%d policies, %d of them without %d dead entries: the reports of these are gone" % (judged, policies, taken))


if __name__ == "__main__":
    main()
