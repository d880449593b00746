"""The std replacement table: what stands in its bytes, or where they first break.

The format: cd cd cd and the version, 1 or 2; the number of entries and their offsets, each four bytes, little
endian; entries. An entry reaches from its offset to the next one, the last to the end of the bytes. It is a name;
three bytes, the numbers of groups, unstable and unavailable items; the groups, each a minor version, a number that
is not 0 and that many replacements; replacements; APIs. A replacement is two APIs and a note, an API a name and an
address, and a text its length and that many bytes of UTF-8. A length is one byte in version 1 and two, little
endian, in version 2.
"""

import struct


class Bad(Exception):
    """The bytes break at this offset."""


class Entry:
    """A look at the bytes of one entry, that never goes past its end."""

    def __init__(self, whole, start, end):
        self.whole, self.place, self.end, self.width = whole, start, end, whole[3]

    def take_byte(self):
        if self.place >= self.end:
            raise Bad(self.end)
        self.place += 1
        return self.whole[self.place - 1]

    def take_text(self):
        mark = self.place
        begin = mark + self.width
        if begin > self.end:
            raise Bad(mark)
        length = int.from_bytes(self.whole[mark:begin], "little")
        if begin + length > self.end:
            raise Bad(mark)
        raw = self.whole[begin:begin + length]
        try:
            raw.decode("utf-8", "strict")
        except UnicodeDecodeError:
            raise Bad(mark) from None
        self.place = begin + length
        return raw

    def take_api(self):
        return [self.take_text(), self.take_text()]

    def take_replacement(self):
        return self.take_api() + self.take_api() + [self.take_text()]


def read_entry(whole, start, end, before):
    """The name and the items of an entry, as words to print."""
    entry = Entry(whole, start, end)
    name = entry.take_text()
    if before is not None and name <= before:
        raise Bad(start)
    groups, unstable, unavailable = entry.take_byte(), entry.take_byte(), entry.take_byte()
    items = []
    for _ in range(groups):
        minor = entry.take_byte()
        count = entry.take_byte()
        if count == 0:
            raise Bad(entry.place - 1)
        items += [(f"stable {minor}", entry.take_replacement()) for _ in range(count)]
    items += [("unstable", entry.take_replacement()) for _ in range(unstable)]
    items += [("unavailable", entry.take_api()) for _ in range(unavailable)]
    return name, items


def read_table(whole):
    for place, wanted in enumerate((b"\xcd", b"\xcd", b"\xcd", b"\x01\x02")):
        if place >= len(whole) or whole[place] not in wanted:
            raise Bad(place)
    if len(whole) < 8 or not any(whole[4:8]):
        raise Bad(4)
    (count,) = struct.unpack("<I", whole[4:8])
    offsets = []
    for i in range(count):
        place = 8 + 4 * i
        if place + 4 > len(whole):
            raise Bad(place)
        (offset,) = struct.unpack("<I", whole[place:place + 4])
        if offset < 8 + 4 * count or offset >= len(whole) or (offsets and offset <= offsets[-1]):
            raise Bad(place)
        offsets.append(offset)
    table, before = {}, None
    for start, end in zip(offsets, offsets[1:] + [len(whole)]):
        before, items = read_entry(whole, start, end, before)
        table[before] = items
    return table


def long_text(raw):
    return len(raw).to_bytes(2, "little") + raw


def upgraded(whole):
    """The bytes of version 2 that say the same, without a byte that no entry needs."""
    (count,) = struct.unpack("<I", whole[4:8])
    starts = list(struct.unpack(f"<{count}I", whole[8:8 + 4 * count]))
    bodies = []
    for start, end in zip(starts, starts[1:] + [len(whole)]):
        entry = Entry(whole, start, end)
        parts = [long_text(entry.take_text())]
        groups, unstable, unavailable = (entry.take_byte() for _ in range(3))
        parts.append(bytes([groups, unstable, unavailable]))
        for _ in range(groups):
            minor, number = entry.take_byte(), entry.take_byte()
            parts.append(bytes([minor, number]))
            parts += [long_text(raw) for _ in range(number) for raw in entry.take_replacement()]
        parts += [long_text(raw) for _ in range(unstable) for raw in entry.take_replacement()]
        parts += [long_text(raw) for _ in range(unavailable) for raw in entry.take_api()]
        bodies.append(b"".join(parts))
    offset, offsets = 8 + 4 * count, []
    for body in bodies:
        offsets.append(offset)
        offset += len(body)
    return b"\xcd\xcd\xcd\x02" + struct.pack(f"<{count + 1}I", count, *offsets) + b"".join(bodies)


def shown(item):
    kind, texts = item
    words = [f"<{text.hex()}>" for text in texts]
    if kind != "unavailable" and not texts[4]:
        words[4] = "none"
    return " ".join([kind] + words)


def answer(whole, names):
    try:
        table = read_table(whole)
    except Bad as bad:
        return f"Bad({bad.args[0]})"
    words = ["Ok"]
    for name in names:
        items = table.get(name)
        said = "absent" if items is None else ", ".join(map(shown, items))
        words.append(f"<{name.hex()}>: {said}".rstrip())
    return "; ".join(words + ["version 2: " + upgraded(whole).hex()])
