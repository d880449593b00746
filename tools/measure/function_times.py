#!/usr/bin/env python3
"""Prints what a check of a crate spent on each function, in seconds by the clock.

    tools/measure/function_times.py FOLDER [LEAST]

FOLDER is a crate's folder after a first `rt check --jobs 1` with nothing kept (`out/incremental` removed before). The
check writes a file for each module that it has proved, one after another, so the time between two files is what the
later one took. A line is a function (or a file of lemmas or definitions) that took LEAST seconds or more, 2 where none
is given, with its dearest modules: `Lts` is the function as steps, and grows faster than the function does; `Proof` is
what closes its goals, and is dear where a search finds one that an answer could say.
"""

import os
import sys
from collections import defaultdict

MADE = {"Answers", "Code", "Given", "Goals", "Invariants", "Kinds", "Layout", "Lts", "Met", "Named", "Proof", "Reads"}
MADE |= {"Statement", "Symbol", "TheLink", "Tie", "View"}


def modules_of(folder):
    """When each module was written, and its name, in this order."""
    found = []
    for at, _, names in os.walk(f"{folder}/out/incremental"):
        if os.path.basename(at) != "records":
            found += [(os.stat(f"{at}/{it}").st_mtime, it[: -len(".oantt")]) for it in names if it.endswith(".oantt")]
    return sorted(found)


def parted(module):
    """The function or file that a module belongs to, and which of its modules it is."""
    parts = module.removeprefix("Rattle-").split(".")
    end = next((at for at, part in enumerate(parts) if part in MADE or part.startswith("Lts-")), len(parts))
    return ".".join(parts[:end]), ".".join(parts[end:]) or "file"


def spent(modules):
    """The seconds of each function by its modules."""
    seconds = defaultdict(lambda: defaultdict(float))
    for (before, _), (written, module) in zip(modules, modules[1:]):
        function, part = parted(module)
        seconds[function][part] += written - before
    return seconds


def main(words):
    if len(words) not in (1, 2):
        print(__doc__, file=sys.stderr)
        return 2
    seconds = spent(modules_of(words[0]))
    least = float(words[1]) if len(words) == 2 else 2
    for function, parts in sorted(seconds.items(), key=lambda it: -sum(it[1].values())):
        whole = sum(parts.values())
        if whole >= least:
            dearest = sorted(parts.items(), key=lambda it: -it[1])[:3]
            print(f"{whole:7.1f}  {function}  " + ", ".join(f"{part} {taken:.1f}" for part, taken in dearest))
    print(f"{sum(sum(it.values()) for it in seconds.values()):7.1f}  all")
    return 0


if __name__ == "__main__":
    sys.exit(main(sys.argv[1:]))
