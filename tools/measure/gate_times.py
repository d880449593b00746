#!/usr/bin/env python3
"""Runs `rt ci` (or the command that is given) and prints what each group of crates cost, in minutes of processor, and
each crate, in seconds.

    tools/measure/gate_times.py [COMMAND..]
    tools/measure/gate_times.py --of PID     of a command that runs already, to its end or to an interrupt, without the
                                             provers that ended before

Twice a second it reads the times of the provers that the command started: of a crate's own proof, of its tests, and
of its must-fail edits, which are tried in folders of their own. Compilers, runs of programs and the rest of the
command are the last line, by what the system counted in all. The command's own output goes to standard error.
"""

import os
import re
import resource
import subprocess
import sys
import time
from collections import defaultdict

TICKS = os.sysconf("SC_CLK_TCK")
KINDS = ("library", "tests", "edits")


def parents_and_times():
    """Of each process its parent, when it started, and the processor seconds of itself and of those it waited for."""
    found = {}
    for name in filter(str.isdigit, os.listdir("/proc")):
        try:
            with open(f"/proc/{name}/stat", encoding="utf-8", errors="replace") as file:
                fields = file.read().rpartition(")")[2].split()
        except OSError:
            continue
        found[int(name)] = int(fields[1]), int(fields[19]), sum(map(int, fields[11:15])) / TICKS
    return found


def is_below(process, top, found):
    while process in found and process != top:
        process = found[process][0]
    return process == top


def prover_of(process):
    """The crate and the kind of proof, if the process is a prover."""
    try:
        with open(f"/proc/{process}/cmdline", "rb") as file:
            words = file.read().decode("utf-8", "replace").split("\0")
        folder = os.readlink(f"/proc/{process}/cwd")
    except OSError:
        return None
    if os.path.basename(words[0]) != "rattle" or "--crate-name" not in words:
        return None
    crate = words[words.index("--crate-name") + 1]
    if re.search(r"/rt-edit-", folder):
        return crate, "edits"
    return crate, "tests" if "--test" in words else "library"


def note_provers(top, seen):
    """Notes of each prover below a process how long it has run."""
    found = parents_and_times()
    for process, (parent, start, seconds) in found.items():
        if process == top or not is_below(process, top, found):
            continue
        prover = prover_of(process)
        # A prover's copies are counted with the one that started them.
        if prover is not None and (parent not in found or prover_of(parent) is None):
            # (a number that is free again is given to another process)
            seen[process, start] = prover, seconds


def group_of(crate):
    """The group of a crate: the first two words of its name."""
    return "_".join(crate.split("_")[:2])


def sums_by(name_of, seen):
    """The seconds of the provers, summed by what a crate is named in a table and by the kind of proof."""
    sums = defaultdict(float)
    for (crate, kind), seconds in seen.values():
        sums[name_of(crate), kind] += seconds
    return sums


def row(name, times):
    return f"| {name} | " + " | ".join(f"{time:.0f}" for time in times) + " |"


def print_table(heading, sums, unit):
    """Prints a row for each name, and one for all, in units of so many seconds."""
    print(f"| {heading} | " + " | ".join(KINDS) + " |")
    print("|---|" + "---|" * len(KINDS))
    for name in sorted({name for name, _ in sums}):
        print(row(f"`{name}`", [sums[name, kind] / unit for kind in KINDS]))
    print(row("all provers", [sum(time for (_, one), time in sums.items() if one == kind) / unit for kind in KINDS]))


def print_costs(seen):
    """Prints the crates in seconds and their groups in minutes, and gives the seconds of all provers."""
    by_crate = sums_by(str, seen)
    print_table("Group, in minutes", sums_by(group_of, seen), 60)
    print()
    print_table("Crate, in seconds", by_crate, 1)
    return sum(by_crate.values())


def watch(top):
    seen = {}
    try:
        while os.path.exists(f"/proc/{top}"):
            note_provers(top, seen)
            time.sleep(0.5)
    except KeyboardInterrupt:
        pass
    print_costs(seen)


def run(command):
    child = subprocess.Popen(command, stdout=sys.stderr)
    seen = {}
    while child.poll() is None:
        note_provers(child.pid, seen)
        time.sleep(0.5)
    usage = resource.getrusage(resource.RUSAGE_CHILDREN)
    proved = print_costs(seen)
    print(f"| the rest: compilers, programs, `rt` | {usage.ru_utime + usage.ru_stime - proved:.0f} | | |")
    return child.returncode


def main(words):
    if words[:1] == ["--of"]:
        return watch(int(words[1]))
    return run(words or ["rt", "ci"])


if __name__ == "__main__":
    sys.exit(main(sys.argv[1:]))
