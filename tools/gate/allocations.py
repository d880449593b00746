#!/usr/bin/env python3
"""Says whether a program ends as it should where memory is refused: each of its allocations in turn, alone and with all
behind it.

    tools/gate/allocations.py PROGRAM     for each small run a line: that it ends as it should, or what it ended with

PROGRAM is run with the words of `./deny`, over files that are made, and with tools/gate/refused.c, which counts
allocations. What is to come is known by the readings: the lines or the stop of a run to which nothing is refused; or
want of memory, with its line and its status; or, of a stop, the line of want of memory with the status of the stop; or,
where the system cannot even give the words, nothing, with status 28.
"""

import os
import subprocess
import sys
import tempfile
from concurrent.futures import ThreadPoolExecutor
from pathlib import Path

TOOLS = Path(__file__).resolve().parent
sys.path[:0] = [str(TOOLS), str(TOOLS / "cases")]

from build_cases import BUILD
from case_parts import (
    DENY_X, WITH_X, built_graph, case, furnished, in_package, licensed, row_graph, with_manifests,
)
from check_cases import text_of_case
from hostile_cases import failing_calls
from readings.disks import RealDisk
from readings.report import Options, paths_of, run

NO_WORDS, WANT = 28, 24
SHORT = b'{"fields":{"stop":"memory"},"type":"stop"}\n'
DONE = (0, 2, 4, 6)


def cases():
    """Runs over small files."""
    wanted = ("a ban", "a file of a macro", "two members", "a table", "several packages", "a member and a package")
    yield from (one for one in failing_calls() if one["name"].removeprefix("calls: ") in wanted)
    allowed = "[licenses]\nallow = ['Apache-2.0', 'Zlib']\nexceptions = [{ crate = 'x', allow = ['MIT'] }]\n"
    yield case("licences", allowed, licensed("app -> x", {"app": "Apache-2.0", "x": "MIT/ISC"}))
    yield from dead_entries()
    several = "[bans]\nmultiple-versions = 'deny'\nhighlight = 'all'\n"
    yield case("two versions", several, row_graph("app -> x, app -> x@2.0.0"))
    yield {"name": "made", "words": ["generate", "4"]}
    yield {"name": "no words", "words": []}
    yield case("faults", "[bans]\nmore = 1\nskip = [1]\n")
    yield case("clashes", "[bans]\ndeny = ['x', 'y']\nskip = ['x', 'y']\n")
    yield case("no TOML", "a = {b = [1,")
    yield case("no metadata", DENY_X, '{"packages":[1]}')
    yield case("no table", "[bans.std-replacements]\n", WITH_X, b"\xcd\xcd")
    yield dict(case("no file"), files={"deny.toml": ""})


def dead_entries():
    """Runs in which a licence, an exception or a glob is dead, and others in which it is not."""
    allowed = "[licenses]\nallow = ['Apache-2.0', 'Zlib']\n"
    excepted = "[licenses]\nallow = ['Apache-2.0']\nexceptions = [%s, %s]\n" % tuple(
        "{ crate = 'x', allow = ['%s'] }" % licence for licence in ("Zlib", "MIT")
    )
    for name, policy, licence in (
        ("a licence that none asks for", allowed, "MIT/Apache-2.0"), ("two exceptions", excepted, "MIT"),
        ("no expression", "[licenses]\nallow = ['Apache-2.0']\n", "MIT AND"),
    ):
        asked = {"app": {"license": "Apache-2.0"}, "x": {"license": licence}}
        yield with_manifests(case(name, policy, furnished(row_graph("app -> x"), asked)))
    bypass = BUILD + "bypass = [{ crate = 'p', allow-globs = ['*.sh'] }]\n"
    macros = built_graph("app -> p, app -> p@2.0.0", p="proc-macro")
    files = {**in_package("p", {"README": "x"}), **in_package("p@2.0.0", {"README": "x"})}
    yield with_manifests(case("a glob that no file has", bypass, macros, files=files))
    files.update(in_package("p@2.0.0", {"a.sh": "x"}))
    yield with_manifests(case("a glob that one of two macros has", bypass, macros, files=files))


def at_hand(data):
    """A text whose paths are named from the folder at hand."""
    return data.replace(b'"/w', b'"w').replace(b'"/r', b'"r')


def written(case, folder):
    """Writes the files of a case."""
    for path, text in case.get("files", {}).items():
        place = folder / path.lstrip("/")
        place.parent.mkdir(parents=True, exist_ok=True)
        place.write_bytes(at_hand(text_of_case(text)))


def compiled(folder):
    """The library that refuses allocations."""
    library = str(folder / "refused.so")
    subprocess.run(["cc", "-O2", "-shared", "-fPIC", "-o", library, str(TOOLS / "refused.c")], check=True)
    return library


class Runs:
    """The runs of a program on words, in a folder."""

    def __init__(self, program, library, words, folder):
        self.words, self.folder, self.library = [program, *words], folder, library

    def ended(self, **given):
        environment = dict(os.environ, LD_PRELOAD=self.library, **given)
        done = subprocess.run(
            self.words, cwd=self.folder, env=environment, stdin=subprocess.DEVNULL, capture_output=True, timeout=60
        )
        return done.stdout, done.stderr, done.returncode

    def count(self):
        """How many allocations there are where none is refused."""
        counted = self.folder / "counted"
        self.ended(COUNTED=str(counted))
        return int(counted.read_text())


def wanted(words, folder):
    """What a run ends with by the readings, and what may come in its place."""
    os.chdir(folder)
    text, status = run(words, RealDisk())
    whole = (text.encode(), b"", status) if status in DONE else (b"", text.encode(), status)
    others = {(b"", SHORT, WANT)} if status in DONE else {(b"", SHORT, WANT), (b"", SHORT, status)}
    return whole, others | {(b"", b"", NO_WORDS)}


def wrong_of(runs, whole, others):
    """What a run ended with that should not have come, and how often it came to each end."""
    if runs.ended() != whole:
        return "%r where nothing is refused" % (runs.ended(),), {}
    ends = {}
    tries = [{name: str(number)} for number in range(1, runs.count() + 1) for name in ("REFUSED", "REFUSED_FROM")]
    with ThreadPoolExecutor(os.cpu_count()) as pool:
        for given, end in zip(tries, pool.map(lambda given: runs.ended(**given), tries)):
            if end != whole and end not in others:
                return "%r with %r" % (end, given), ends
            ends[end == whole, end[2]] = ends.get((end == whole, end[2]), 0) + 1
    return None, ends


def main():
    if len(sys.argv) != 2:
        sys.exit(__doc__)
    program, failed = os.path.abspath(sys.argv[1]), False
    with tempfile.TemporaryDirectory() as top:
        library = compiled(Path(top))
        for number, one in enumerate(cases()):
            folder = Path(top) / str(number)
            folder.mkdir()
            written(one, folder)
            wrong, ends = wrong_of(Runs(program, library, one["words"], folder), *wanted(one["words"], folder))
            failed = failed or wrong is not None
            print("%s: %s" % (one["name"], "as it should be" if wrong is None else wrong), flush=True)
            if "COUNT_ENDS" in os.environ:
                print(sorted(ends.items()), file=sys.stderr)
    sys.exit(failed)


if __name__ == "__main__":
    main()
