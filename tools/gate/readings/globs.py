"""A reading of globs: each becomes a regular expression of Python's, which then says what the glob fits."""

import re

NESTING = 16


class Bad(Exception):
    """The text is no glob, and this character is the first that is bad."""


def class_at(text, start, opened):
    """The class that begins at `start`, as a regular expression, and where the text goes on behind it."""
    at = start + 1
    negated = text[at : at + 1] in ("!", "^")
    if negated:
        at += 1
    ranges, first = [], True
    while True:
        if at >= len(text):
            raise Bad(opened[0] if opened else start)
        if text[at] == "]" and not first:
            break
        first = False
        if text[at + 1 : at + 2] == "-" and at + 2 < len(text) and text[at + 2] != "]":
            if text[at] > text[at + 2]:
                raise Bad(at)
            ranges.append((text[at], text[at + 2]))
            at += 3
        else:
            ranges.append((text[at], text[at]))
            at += 1
    inside = "".join("\\U%08x-\\U%08x" % (ord(low), ord(high)) for low, high in ranges)
    return "[%s%s]" % ("^" if negated else "", inside), at + 1


def expression(text):
    """The glob as a regular expression."""
    out, opened, at = [], [], 0
    while at < len(text):
        c = text[at]
        if c == "*":
            stars = len(re.match(r"\*+", text[at:]).group())
            if at == 0 and stars == 2 and text[2:3] == "/":
                out.append("(?:.*/)?")
                at = 3
            else:
                out.append(".*")
                at += stars
        elif c == "/" and text[at + 1 :] == "**":
            out.append("/.*")
            at += 3
        elif c == "/" and text[at + 1 : at + 4] == "**/":
            out.append("/.*/" if opened else "/(?:.*/)?")
            at += 4
        elif c == "?":
            out.append(".")
            at += 1
        elif c == "[":
            piece, at = class_at(text, at, opened)
            out.append(piece)
        elif c == "\\":
            if at + 1 == len(text):
                raise Bad(at)
            out.append(re.escape(text[at + 1]))
            at += 2
        elif c == "{":
            if len(opened) == NESTING:
                raise Bad(at)
            opened.append(at)
            out.append("(?:")
            at += 1
        elif c == "}":
            if not opened:
                raise Bad(at)
            opened.pop()
            out.append(")")
            at += 1
        elif c == "," and opened:
            out.append("|")
            at += 1
        else:
            out.append(re.escape(c))
            at += 1
    if opened:
        raise Bad(opened[0])
    return re.compile("".join(out), re.DOTALL)
