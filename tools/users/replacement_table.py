#!/usr/bin/env python3
"""Writes a table of what the standard library replaces, in version 1 of its format, from a text in JSON.

usage: tools/users/replacement_table.py JSON TABLE

The text is an object: for each crate's name an object of three lists, `stable`, `unstable` and `unavailable`. An API is
an array of its path and its address. An unavailable item is an API; the others are objects of `crate` and `std`, both
APIs, and `note`, which may be left out; a stable one has `minor` too, the minor version of Rust 1 since which it is
stable. Stable items of one minor version that follow one another are put in one group.
"""

import itertools
import json
import struct
import sys


def text(words):
    raw = words.encode()
    if len(raw) > 255:
        raise SystemExit(f"replacement_table: longer than 255 bytes: {words}")
    return bytes([len(raw)]) + raw


def api(path_and_address):
    path, address = path_and_address
    return text(path) + text(address)


def replacement(item):
    return api(item["crate"]) + api(item["std"]) + text(item.get("note", ""))


def group(minor, items):
    return bytes([minor, len(items)]) + b"".join(map(replacement, items))


def entry(name, items):
    groups = [(minor, list(of_one)) for minor, of_one in itertools.groupby(items["stable"], lambda item: item["minor"])]
    counts = bytes([len(groups), len(items["unstable"]), len(items["unavailable"])])
    return (text(name) + counts + b"".join(group(*of_one) for of_one in groups)
            + b"".join(map(replacement, items["unstable"])) + b"".join(map(api, items["unavailable"])))


def table(said):
    entries = [entry(name, said[name]) for name in sorted(said, key=str.encode)]
    offsets = itertools.accumulate(map(len, entries[:-1]), initial=8 + 4 * len(entries)) if entries else []
    head = b"\xcd\xcd\xcd\x01" + struct.pack("<I", len(entries))
    return head + b"".join(struct.pack("<I", offset) for offset in offsets) + b"".join(entries)


def main(source, target):
    with open(source, encoding="utf-8") as file:
        said = json.load(file)
    with open(target, "wb") as file:
        file.write(table(said))


if __name__ == "__main__":
    if len(sys.argv) != 3:
        raise SystemExit(__doc__)
    main(*sys.argv[1:])
