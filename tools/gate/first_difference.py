#!/usr/bin/env python3
"""Compares two files line by line, and names the first case that differs.

usage: tools/gate/first_difference.py WANTED FOUND [CASES]

Line N of CASES is the case that line N of the two others answers. A case is named by its member `name`, where lines
are JSON with one, else by its own text. The status is 0 where the files are equal, else 1.
"""

import json
import sys
from itertools import zip_longest
from pathlib import Path

WIDTH = 160  # characters shown of a line


def lines_of(text):
    return text.decode("utf-8", "backslashreplace").split("\n")


def name_of(line):
    """The member `name` of a line of JSON, else the line."""
    try:
        return json.loads(line)["name"]
    except (ValueError, KeyError, TypeError):
        return line


def around(line, offset):
    """The part of a line about an offset; a line that is not there is said to be none."""
    if line is None:
        return "(no such line)"
    start = max(0, offset - WIDTH // 2)
    part = line[start : start + WIDTH]
    return "%s%s%s" % ("..." if start > 0 else "", part, "..." if start + WIDTH < len(line) else "")


def first_offset(one, other):
    """How many characters are equal before the first that differs."""
    return next((i for i, (a, b) in enumerate(zip(one, other)) if a != b), min(len(one), len(other)))


def first_difference(wanted, found, cases=None):
    """Says what differs first between two texts, in bytes, and in which case; None where they are equal."""
    if wanted == found:
        return None
    names = lines_of(wanted if cases is None else cases)
    for number, (one, other) in enumerate(zip_longest(lines_of(wanted), lines_of(found))):
        if one != other:
            name = name_of(names[number]) if number < len(names) else ""
            offset = first_offset(one or "", other or "")
            return "line %d%s\n  wanted: %s\n  found:  %s" % (
                number + 1, ": %s" % around(name, 0) if name else "", around(one, offset), around(other, offset)
            )
    return "they differ in bytes that are no UTF-8"


def main():
    if len(sys.argv) not in (3, 4):
        sys.exit(__doc__)
    difference = first_difference(*(Path(path).read_bytes() for path in sys.argv[1:]))
    if difference:
        print(difference)
        sys.exit(1)


if __name__ == "__main__":
    main()
