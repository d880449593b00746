"""TOML 1.0.0: what a text is. Nothing here knows of the crates.

An answer is the tree in JSON, or `grammar`, or `clash START..END` with the range of the first key that clashes.
A value of the tree has its `span` in bytes and, under the name of its kind, what it holds; of a float or a date
that is its text, of a table the list of its entries in byte order of their keys. A string is `text` on one line
and `multiline` between three delimiters.

The reading goes by regular expressions over the rules of the grammar to a list of headers and assignments, and
from there to a tree of places, each of which knows how it came about.
"""

import json
import re

NESTING = 64
SEGMENTS = 64


class Grammar(Exception):
    """The text is not in the grammar."""


class Clash(Exception):
    """A key stands at a place that is taken."""

    def __init__(self, span):
        super().__init__(span)
        self.span = span


# ---- the grammar

HIGH = rb"\x80-\xff"
SPACES = re.compile(rb"[ \t]*")
NEWLINE = rb"\r?\n"
COMMENT = rb"#[\t\x20-\x7e" + HIGH + rb"]*"
LINE_END = re.compile(rb"[ \t]*(?:" + COMMENT + rb")?(?:" + NEWLINE + rb"|\Z)")
BLANK_LINE = re.compile(rb"[ \t]*(?:" + COMMENT + rb")?(?:" + NEWLINE + rb"|\Z)")
EMPTY_LINES = re.compile(rb"\n+")
BETWEEN = re.compile(rb"(?:[ \t]|(?:" + COMMENT + rb")?" + NEWLINE + rb")*")

BARE = re.compile(rb"[A-Za-z0-9_-]+")
ESCAPE = rb"\\(?:[btnfr\"\\]|u[0-9A-Fa-f]{4}|U[0-9A-Fa-f]{8})"
BASIC_CHAR = rb"(?:[\t\x20\x21\x23-\x5b\x5d-\x7e" + HIGH + rb"]|" + ESCAPE + rb")"
BASIC = re.compile(rb'"(' + BASIC_CHAR + rb'*)"')
LITERAL_CHAR = rb"[\t\x20-\x26\x28-\x7e" + HIGH + rb"]"
LITERAL = re.compile(rb"'(" + LITERAL_CHAR + rb"*)'")
CUT = rb"\\[ \t]*" + NEWLINE + rb"(?:[ \t]|" + NEWLINE + rb")*"
LONG_BASIC_CHAR = rb"(?:" + BASIC_CHAR + rb"|" + NEWLINE + rb"|" + CUT + rb")"
LONG_BASIC = re.compile(
    rb'"""((?:' + LONG_BASIC_CHAR + rb')*(?:"{1,2}' + LONG_BASIC_CHAR + rb'+)*(?:"{1,2})?)"""')
LONG_LITERAL_CHAR = rb"(?:" + LITERAL_CHAR + rb"|" + NEWLINE + rb")"
LONG_LITERAL = re.compile(
    rb"'''((?:" + LONG_LITERAL_CHAR + rb")*(?:'{1,2}" + LONG_LITERAL_CHAR + rb"+)*(?:'{1,2})?)'''")

DECIMAL = rb"(?:[1-9](?:_?[0-9])+|[0-9])"
LEADING_ZEROS = rb"[0-9](?:_?[0-9])*"
EXPONENT = rb"[eE][+-]?" + LEADING_ZEROS
FLOAT = rb"[+-]?(?:" + DECIMAL + rb"(?:\." + LEADING_ZEROS + rb"(?:" + EXPONENT + rb")?|" + EXPONENT + rb")|inf|nan)"
INTEGER = (rb"0x[0-9A-Fa-f](?:_?[0-9A-Fa-f])*|0o[0-7](?:_?[0-7])*|0b[01](?:_?[01])*|[+-]?" + DECIMAL)
DAY = rb"[0-9]{4}-(?:0[1-9]|1[0-2])-(?:0[1-9]|[12][0-9]|3[01])"
HOUR_MINUTE = rb"(?:[01][0-9]|2[0-3]):[0-5][0-9]"
HOUR = HOUR_MINUTE + rb":(?:[0-5][0-9]|60)(?:\.[0-9]+)?"
DATE = DAY + rb"(?:[Tt ]" + HOUR + rb"(?:[Zz]|[+-]" + HOUR_MINUTE + rb")?)?|" + HOUR
AFTER = rb"(?=[ \t\r\n,\]}#]|\Z)"
WORDS = [
    ("boolean", re.compile(rb"(?:true|false)" + AFTER)),
    ("date", re.compile(rb"(?:" + DATE + rb")" + AFTER)),
    ("float", re.compile(rb"(?:" + FLOAT + rb")" + AFTER)),
    ("integer", re.compile(rb"(?:" + INTEGER + rb")" + AFTER)),
]

LETTERS = {"b": "\b", "t": "\t", "n": "\n", "f": "\f", "r": "\r", '"': '"', "\\": "\\"}
PIECE = re.compile(r"\\(?:u([0-9A-Fa-f]{4})|U([0-9A-Fa-f]{8})|([btnfr\"\\])|[ \t]*\r?\n(?:[ \t]|\r?\n)*)")


def unescaped(text):
    """The text that the inside of a string in quotes stands for."""
    def meant(found):
        digits = found[1] or found[2]
        if digits:
            number = int(digits, 16)
            if number > 0x10FFFF or 0xD800 <= number < 0xE000:
                raise Grammar
            return chr(number)
        return LETTERS[found[3]] if found[3] else ""
    return PIECE.sub(meant, text)


class Reader:
    """A place in a text. What it reads: `(name, span)` for a segment of a key, `(kind, held, span)` for a value."""

    def __init__(self, data):
        self.data, self.place = data, 0

    def match(self, pattern):
        found = pattern.match(self.data, self.place)
        if found:
            self.place = found.end()
        return found

    def want(self, pattern):
        found = self.match(pattern)
        if not found:
            raise Grammar
        return found

    def byte(self, byte):
        if self.data[self.place:self.place + 1] != byte:
            return False
        self.place += 1
        return True

    def want_byte(self, byte):
        if not self.byte(byte):
            raise Grammar

    def spaces(self):
        self.match(SPACES)

    def string(self, long):
        """A string: its kind, its text and the range between its delimiters."""
        patterns = [(BASIC, True), (LITERAL, False)]
        if long:
            patterns = [(LONG_BASIC, True), (LONG_LITERAL, False)] + patterns
        for pattern, escapes in patterns:
            delimiter = pattern in (LONG_BASIC, LONG_LITERAL)
            if delimiter or not (long and self.data[self.place:self.place + 3] in (b'"""', b"'''")):
                found = self.match(pattern)
                if found:
                    text = found[1].decode("utf-8")
                    if delimiter:
                        text = re.sub(r"\A\r?\n", "", text)
                    return "multiline" if delimiter else "text", unescaped(text) if escapes else text, found.span(1)
        return None

    def segment(self):
        found = self.match(BARE)
        if found:
            return found[0].decode("ascii"), found.span()
        string = self.string(long=False)
        if string is None:
            raise Grammar
        return string[1:]

    def key(self):
        segments = [self.segment()]
        while True:
            before = self.place
            self.spaces()
            if not self.byte(b"."):
                self.place = before
                break
            self.spaces()
            segments.append(self.segment())
        if len(segments) > SEGMENTS:
            raise Grammar
        return segments

    def word(self):
        for kind, pattern in WORDS:
            found = self.match(pattern)
            if not found:
                continue
            text = found[0].decode("ascii")
            if kind == "boolean":
                return kind, text == "true", found.span()
            if kind == "integer":
                number = int(text, 0) if text[:2] in ("0x", "0o", "0b") else int(text)
                if not -(2 ** 63) <= number < 2 ** 63:
                    raise Grammar
                return kind, number, found.span()
            return kind, text, found.span()
        raise Grammar

    def value(self, nesting):
        string = self.string(long=True)
        if string:
            return string
        start = self.place
        if nesting == NESTING and self.data[start:start + 1] in (b"[", b"{"):
            raise Grammar
        if self.byte(b"["):
            held = self.array(nesting + 1)
            return "array", held, (start, self.place)
        if self.byte(b"{"):
            held = self.inline_table(nesting + 1)
            return "inline table", held, (start, self.place)
        return self.word()

    def array(self, nesting):
        values = []
        while True:
            self.match(BETWEEN)
            if self.byte(b"]"):
                return values
            values.append(self.value(nesting))
            self.match(BETWEEN)
            if not self.byte(b","):
                self.want_byte(b"]")
                return values

    def inline_table(self, nesting):
        assignments = []
        self.spaces()
        if self.byte(b"}"):
            return assignments
        while True:
            assignments.append(self.assignment(nesting))
            self.spaces()
            if not self.byte(b","):
                self.want_byte(b"}")
                return assignments
            self.spaces()

    def assignment(self, nesting):
        key = self.key()
        self.spaces()
        self.want_byte(b"=")
        self.spaces()
        return key, self.value(nesting)

    def expression(self):
        """A header, as `("table", key)` or `("array", key)`, or an assignment, as `("set", key, value)`."""
        if self.byte(b"["):
            kind = "array" if self.byte(b"[") else "table"
            self.spaces()
            key = self.key()
            self.spaces()
            for _ in range(2 if kind == "array" else 1):
                self.want_byte(b"]")
            return kind, key
        return ("set",) + self.assignment(0)

    def document(self):
        expressions = []
        while self.place < len(self.data):
            if self.match(EMPTY_LINES) or self.match(BLANK_LINE):
                continue
            self.spaces()
            expressions.append(self.expression())
            self.spaces()
            self.want(LINE_END)
        return expressions


# ---- from expressions to a tree of places

class Place:
    """What stands at a key: the segment that named it first, and how it came about."""

    def __init__(self, segment, made_by):
        self.segment, self.made_by = segment, made_by
        self.span = segment[1]
        self.entries = {}
        self.elements = None
        self.value = None
        self.named_by_header = False
        self.entered_by_key = False

    def is_table(self):
        return self.value is None and self.elements is None

    def is_array_of_tables(self):
        return self.elements is not None and self.made_by == "array header"


def new_place(table, segment, made_by):
    table.entries[segment[0]] = place = Place(segment, made_by)
    return place


def pass_header(table, segment):
    """The table that an earlier segment of a header enters."""
    place = table.entries.get(segment[0])
    if place is None:
        return new_place(table, segment, "header")
    if place.is_array_of_tables():
        return place.elements[-1]
    if place.is_table() and place.made_by != "inline":
        return place
    raise Clash(segment[1])


def name_table(table, segment):
    place = table.entries.get(segment[0])
    if place is None:
        place = new_place(table, segment, "header")
    elif not (place.is_table() and place.made_by == "header" and not place.named_by_header and not place.entered_by_key):
        raise Clash(segment[1])
    place.named_by_header = True
    return place


def name_element(table, segment):
    place = table.entries.get(segment[0])
    if place is None:
        place = new_place(table, segment, "array header")
        place.elements = []
    elif not place.is_array_of_tables():
        raise Clash(segment[1])
    element = Place(segment, "header")
    place.elements.append(element)
    return element


def pass_key(table, segment):
    """The table that an earlier segment of a key enters."""
    place = table.entries.get(segment[0])
    if place is None:
        place = new_place(table, segment, "key")
    elif not (place.is_table() and place.made_by != "inline" and not place.named_by_header):
        raise Clash(segment[1])
    place.entered_by_key = True
    return place


def put(table, key, value):
    for segment in key[:-1]:
        table = pass_key(table, segment)
    if key[-1][0] in table.entries:
        raise Clash(key[-1][1])
    place = new_place(table, key[-1], "value")
    fill(place, value)


def fill(place, value):
    kind, held, place.span = value
    if kind == "inline table":
        for key, inner in held:
            put(place, key, inner)
        place.made_by = "inline"
    elif kind == "array":
        place.elements = []
        for inner in held:
            element = Place((None, None), "value")
            place.elements.append(element)
            fill(element, inner)
    else:
        place.value = (kind, held)


def root_of(expressions, length):
    root = table = Place((None, (0, length)), "root")
    for expression in expressions:
        if expression[0] == "set":
            put(table, expression[1], expression[2])
            continue
        table = root
        for segment in expression[1][:-1]:
            table = pass_header(table, segment)
        table = (name_table if expression[0] == "table" else name_element)(table, expression[1][-1])
    return root


def tree(place):
    if place.value is not None:
        kind, held = place.value
        return {kind: held, "span": list(place.span)}
    if place.elements is not None:
        return {"array": [tree(element) for element in place.elements], "span": list(place.span)}
    entries = sorted(place.entries.items(), key=lambda entry: entry[0].encode("utf-8"))
    return {"span": list(place.span), "table": [
        {"key": name, "span": list(inner.segment[1]), "value": tree(inner)} for name, inner in entries]}


def reading(text):
    """What a text is: a tree, `grammar`, or a clash with its range."""
    data = text.encode("utf-8")
    try:
        return tree(root_of(Reader(data).document(), len(data)))
    except Grammar:
        return "grammar"
    except Clash as clash:
        return "clash %d..%d" % clash.span


def verdict_of(answer):
    return "tree" if isinstance(answer, dict) else answer.split()[0]


def line_of(answer):
    if isinstance(answer, str):
        return answer
    return json.dumps(answer, ensure_ascii=False, sort_keys=True, separators=(",", ":"))
