#!/usr/bin/env python3
"""Writes the cases of crates/deny_cases_std: `stdin`, a table's bytes a line with the names that are looked
up in it, all in hex (`-` for none), and `stdout`, the answers by tools/gate/readings/replacements.py.

usage: tools/gate/cases/replacement_cases.py [FOLDER]   (crates/deny_cases_std where none is given)
"""

import os
import struct
import sys
from pathlib import Path

sys.path.insert(0, str(Path(__file__).resolve().parent.parent))

from readings.replacements import Bad, answer, read_table, upgraded


class Writer:
    """The bytes of tables of one version."""

    def __init__(self, version):
        self.version = version

    def text(self, word):
        raw = word.encode() if isinstance(word, str) else word
        return len(raw).to_bytes(self.version, "little") + raw

    def texts(self, words):
        return b"".join(map(self.text, words))

    def entry(self, name, groups=(), unstable=(), unavailable=(), rest=b""):
        """The bytes of an entry; a group is its minor version and a list of replacements."""
        raw = self.text(name) + bytes([len(groups), len(unstable), len(unavailable)])
        for minor, replacements in groups:
            raw += bytes([minor, len(replacements)]) + b"".join(map(self.texts, replacements))
        return raw + b"".join(map(self.texts, unstable)) + b"".join(map(self.texts, unavailable)) + rest

    def table(self, entries, gap=b""):
        return table(entries, gap, self.version)


FIRST, SECOND = Writer(1), Writer(2)
text, entry = FIRST.text, FIRST.entry


def table(entries, gap=b"", version=1):
    """The bytes of a table with the entries one after the other."""
    place = 8 + 4 * len(entries) + len(gap)
    offsets = []
    for raw in entries:
        offsets.append(place)
        place += len(raw)
    head = b"\xcd\xcd\xcd" + bytes([version]) + struct.pack("<I", len(entries)) + b"".join(struct.pack("<I", o) for o in offsets)
    return head + gap + b"".join(entries)


def changed(whole, place, value):
    return whole[:place] + bytes([value]) + whole[place + 1:]


WORKED = bytes.fromhex("cdcdcd01010000000c000000017801000046010166000167" "0000")

PLAIN = ("f", "", "g", "", "")
NOTED = ("crate::f", "https://docs.rs/f", "std::g", "https://doc.rust-lang.org/g", "not quite \u00e9\u20ac\U0001f980")
TWO = table([
    entry("ab", groups=[(70, [PLAIN, NOTED]), (56, [PLAIN])], unstable=[NOTED], unavailable=[("h", "u"), ("", "")]),
    entry("b-c", unavailable=[("only", "this")]),
])


def three(writer):
    return writer.table([
        writer.entry("", groups=[(1, [PLAIN])]),
        writer.entry("a", rest=b"\xff\xfe ignored"),
        writer.entry("a\u00e9", unstable=[PLAIN, NOTED], rest=b"\x80"),
    ], gap=b"\xff")


THREE = three(FIRST)
# The worked table of version 2.
WIDE = bytes.fromhex("cdcdcd02010000000c000000010078010000460101006600000100670000" "0000")


def wide_tables():
    """Version 2: each cut and each changed byte, and texts that version 1 can't hold."""
    yield WIDE
    yield WIDE + b"\xff\xff"
    yield from (WIDE[:k] for k in range(len(WIDE)))
    for place in range(len(WIDE)):
        yield from (changed(WIDE, place, value) for value in (0, 1, 2, 3, 127, 128, 255))
    whole = three(SECOND)
    yield whole
    yield from (whole[:k] for k in range(len(whole)))
    for place in range(len(whole)):
        yield from (changed(whole, place, value) for value in (0, 1, 2, 128, 255))
    for size in (255, 256, 257, 300, 0x1ff, 0x200):
        yield SECOND.table([SECOND.entry("n" * size, unavailable=[("m" * size, "\u00e9" * (size // 2))]), SECOND.entry("o")])
    long = SECOND.table([SECOND.entry("a", unstable=[("f", "", "g", "", "n" * 0x101)]), SECOND.entry("b")])
    yield from (long[:k] for k in range(len(long) - 280, len(long), 7))
    yield long
    # A length whose second byte is behind the entry's end.
    for raw in (b"\x01", b"\x01\x00", b"\x01\x00a", b"\x01\x01a", b"\x00\x01" + b"a" * 255, b"\x00\x01" + b"a" * 256 + bytes(3)):
        yield SECOND.table([raw])
        yield SECOND.table([raw, SECOND.entry("b")])
    # Names that are equal, fall, or rise; what is no UTF-8; a group without replacements.
    for one, other in (("a", "a"), ("b", "a"), ("a", "b"), ("a", "aa"), ("", "a"), ("z", "\u00e9")):
        yield SECOND.table([SECOND.entry(one), SECOND.entry(other)])
    for raw in (b"\xff", b"\xc3", b"\xc0\x80", b"\xed\xa0\x80", b"\xf4\x90\x80\x80"):
        yield SECOND.table([SECOND.entry(raw)])
        yield SECOND.table([SECOND.entry("a", unstable=[("f", "", "g", "", raw)])])
    yield SECOND.table([SECOND.entry("a", groups=[(7, [PLAIN]), (8, [])])])
    # A table of one version under the number of the other.
    yield from (changed(whole, 3, 1) for whole in (WIDE, TWO, long))
    yield from (changed(whole, 3, 2) for whole in (WORKED, TWO, THREE))


def tables():
    yield WORKED
    yield WORKED + b"\xff\xff"
    yield from (WORKED[:k] for k in range(len(WORKED)))
    for place in range(len(WORKED)):
        yield from (changed(WORKED, place, value) for value in (0, 1, 127, 128, 255))
    yield TWO
    yield THREE
    yield from (TWO[:k] for k in range(0, len(TWO), 3))
    yield from (THREE[:k] for k in range(len(THREE)))
    for place in range(len(THREE)):
        yield from (changed(THREE, place, value) for value in (0, 1, 2, 128, 255))
    # As many groups, replacements and other items as a byte can count.
    yield table([entry("x", groups=[(minor, [("", "", "", "", "")]) for minor in range(255)])])
    yield table([entry("x", groups=[(3, [("", "", "", "", "")] * 255)], unstable=[PLAIN] * 255, unavailable=[("", "a")] * 255)])
    yield table([entry("n" * 255, unavailable=[("m" * 255, "")])])
    # Names that are equal, fall, or rise by one byte or by length alone.
    for one, other in (("a", "a"), ("b", "a"), ("a", "b"), ("a", "aa"), ("aa", "a"), ("", ""), ("a", ""), ("z", "\u00e9"), ("\u00e9", "z")):
        yield table([entry(one), entry(other)])
    yield table([entry("a"), entry("c"), entry("b"), entry("d")])
    yield table([entry(f"{i:02}") for i in range(17)])
    # What is no UTF-8, in each text of an item: cut, overlong, a surrogate, past the last character.
    for raw in (b"\xff", b"\xc3", b"\xc0\x80", b"\xed\xa0\x80", b"\xf4\x90\x80\x80", b"\xe2\x82", b"a\x80"):
        yield table([entry(raw)])
        yield table([entry("a", unavailable=[("f", raw)])])
        yield table([entry("a", unstable=[("f", "", "g", "", raw)])])
    # A group without replacements after one that has some, an entry without items, one that ends too early.
    yield table([entry("a", groups=[(7, [PLAIN]), (8, [])])])
    yield table([entry("a")])
    yield table([text("a")])
    yield table([text("a") + b"\x01", entry("b")])
    yield table([text("a") + b"\x01\x00\x00", entry("b")])
    yield table([text("a") + b"\x01\x00\x00\x07", entry("b")])
    yield table([b"\x05a", entry("b")])
    # Offsets that are equal, fall, point into the head or past the end; too many entries.
    head = table([entry("a"), entry("b")])
    for first, second in ((16, 16), (21, 16), (15, 21), (16, 15), (16, 26), (16, 25), (26, 27), (17, 21), (16, 20), (0, 21), (16, 0)):
        yield head[:8] + struct.pack("<II", first, second) + head[16:]
    for count in (0, 1, 3, 5, 6, 0x80000000, 0xffffffff):
        yield head[:4] + struct.pack("<I", count) + head[8:]
    yield from (changed(head, 3, version) for version in (0, 2, 3))
    yield from wide_tables()


def names_to_look_up(whole):
    try:
        names = sorted(read_table(whole))
    except Bad:
        names = []
    return names + [name for name in (b"", b"a", b"x", b"zz") if name not in names]


def check_reading():
    """The worked table of version 1 is upgraded to that of version 2, and what is upgraded stays."""
    assert upgraded(WORKED) == upgraded(WORKED + b"\xff\xff") == WIDE
    for whole in (TWO, THREE, three(SECOND)):
        assert read_table(upgraded(whole)) == read_table(whole)
        assert upgraded(upgraded(whole)) == upgraded(whole)


def main():
    check_reading()
    folder = sys.argv[1] if len(sys.argv) > 1 else os.path.join(os.path.dirname(__file__), "../../../crates/deny_cases_std")
    cases, answers = [], []
    for whole in dict.fromkeys(tables()):
        names = names_to_look_up(whole)
        cases.append(" ".join(raw.hex() or "-" for raw in [whole] + names))
        answers.append(answer(whole, names))
    for file, lines in (("stdin", cases), ("stdout", answers)):
        with open(os.path.join(folder, file), "w", encoding="ascii") as out:
            out.write("\n".join(lines) + "\n")


if __name__ == "__main__":
    main()
