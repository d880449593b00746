#!/usr/bin/env python3
"""Says whether a program answers a package with as many entries as one may have, and with one more.

    tools/measure/crowd.py PROGRAM     for both a line: that it is answered whole, or what came instead

PROGRAM is run with the words of `./deny check`, and with tools/measure/crowded.c, which shows it a folder of so many
files. It takes minutes and several GB, so nothing runs it but a user.
"""

import json
import os
import subprocess
import sys
import tempfile
from pathlib import Path

HERE = Path(__file__).resolve().parent
GATE = HERE.parent / "gate"
sys.path.append(str(GATE))

from growth import crate, metadata

ENTRIES = 2**24
MACRO = [{"kind": ["proc-macro"], "src_path": "crowded/lib.rs"}]
VALUE = metadata([crate("app"), crate("x", manifest_path="crowded/Cargo.toml", targets=MACRO)])
UNREAD = b'{"fields":{"crate":"x = 1.0.0","path":"crowded","purpose":"list"},"type":"unread"}\n'
TOLD = b'"notes":["path = $crate/","error = the package has more than 16777216 entries"]'


def run(program, library, folder, count):
    """What a run over so many files writes, and its status."""
    given = {"LD_PRELOAD": library, "CROWD": str(count), "CROWDED": "crowded"}
    done = subprocess.run(
        [program, "check", "deny.toml", "metadata.json"], cwd=folder, env={**os.environ, **given}, capture_output=True
    )
    return done.stdout, done.stderr, done.returncode


def lines_of(out):
    """The kinds of lines, how often each comes, and the text of those that are few."""
    kinds = {}
    for line in out.splitlines():
        kind = json.loads(line)["type"]
        kinds[kind] = kinds.get(kind, 0) + 1
    return kinds


def answers(program, library, folder):
    """Both runs: what came, and whether that is what had to come."""
    out, err, status = run(program, library, folder, ENTRIES)
    kinds = lines_of(out)
    yield "%d entries" % ENTRIES, (kinds, err, status), (kinds, err, status) == ({"unread": 1, "verdict": 1}, b"", 0)
    out, err, status = run(program, library, folder, ENTRIES + 1)
    is_told = TOLD in out and UNREAD in out
    yield "one more", (out, err, status), is_told and (lines_of(out), err, status) == (
        {"diagnostic": 1, "unread": 2, "verdict": 1}, b"", 2
    )


def main():
    if len(sys.argv) != 2:
        sys.exit(__doc__)
    program, failed = os.path.abspath(sys.argv[1]), False
    with tempfile.TemporaryDirectory() as folder:
        library = str(Path(folder) / "crowded.so")
        command = ["cc", "-O2", "-shared", "-fPIC", "-I", str(GATE), "-o", library, str(HERE / "crowded.c")]
        subprocess.run(command, check=True)
        Path(folder, "deny.toml").write_text("[bans.build]\n")
        Path(folder, "metadata.json").write_text(json.dumps(VALUE))
        for name, found, is_whole in answers(program, library, folder):
            failed = failed or not is_whole
            print("%s: %s" % (name, "answered whole" if is_whole else repr(found)[:2000]), flush=True)
    sys.exit(failed)


if __name__ == "__main__":
    main()
