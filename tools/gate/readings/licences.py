"""A licence expression: its requirements and its truth, or the place at which it goes wrong.

A text is tokenized by a regular expression. Whether tokens are a sentence, and where they stop to begin one, is read
off the charts of Earley's algorithm over a grammar without precedence. The truth of a sentence is what Python says
of it, written with Python's own `and` and `or`.

An answer has the text, what it is as an expression and what it is as one requirement:
    TEXT: ok REQUIREMENTS TRUTH; ok REQUIREMENT
    TEXT: bad PLACE; bad PLACE
TRUTH has a digit for each assignment to the first eight requirements, counted up with the first requirement as the
lowest bit; the requirements after the eighth have the value of the first. In a text `\\t`, `\\n`, `\\r` and `\\\\`
stand for a tab, a line end, a carriage return and a backslash.
"""

import re

NESTING = 64

TOKEN = re.compile(rb"[ \t]*(?:([A-Za-z0-9.-]+\+?)|([()/]))")


def tokenized(data):
    """The tokens with their places, and the place of the end or of a byte that begins no token."""
    tokens, at = [], 0
    while True:
        match = TOKEN.match(data, at)
        if match is None:
            break
        word, mark = match.group(1), match.group(2)
        place = match.start(1) if word else match.start(2)
        tokens.append((place, kind_of(word, mark), word))
        at = match.end()
    while at < len(data) and data[at : at + 1] in (b" ", b"\t"):
        at += 1
    return tokens, at, at == len(data)


def kind_of(word, mark):
    if mark:
        return {b"(": "open", b")": "close", b"/": "or"}[mark]
    return {b"AND": "and", b"OR": "or", b"WITH": "with"}.get(word, "word")


# Grammars without precedence: it does not matter for what a sentence is.
EXPRESSION = {
    "S": [["unit"], ["S", "and", "unit"], ["S", "or", "unit"]],
    "unit": [["word"], ["word", "with", "word"], ["open", "S", "close"]],
}
REQUIREMENT = {"S": [["word"], ["word", "with", "word"]]}


def closed(chart, items, at, grammar):
    """The items of a place, with all that they predict and complete."""
    done, todo = set(), list(items)
    while todo:
        item = todo.pop()
        if item in done:
            continue
        done.add(item)
        head, body, dot, origin = item
        if dot < len(body) and body[dot] in grammar:
            todo += [(body[dot], tuple(other), 0, at) for other in grammar[body[dot]]]
        elif dot == len(body):
            waiting = done if origin == at else chart[origin]
            todo += [
                (h, b, d + 1, o) for h, b, d, o in list(waiting) if d < len(b) and b[d] == head
            ]
    return done


def first_wrong(kinds, grammar):
    """The number of the first token with which the tokens begin no sentence, and whether all of
    them are one. A parenthesis nested too deep counts as such a token."""
    chart = [closed([], {("S", tuple(body), 0, 0) for body in grammar["S"]}, 0, grammar)]
    depth = 0
    for number, kind in enumerate(kinds):
        depth += {"open": 1, "close": -1}.get(kind, 0)
        moved = {
            (head, body, dot + 1, origin)
            for head, body, dot, origin in chart[number]
            if dot < len(body) and body[dot] == kind
        }
        if not moved or depth > NESTING:
            return number, False
        chart.append(closed(chart, moved, number + 1, grammar))
    return len(kinds), any(
        head == "S" and dot == len(body) and origin == 0 for head, body, dot, origin in chart[-1]
    )


def place_of(tokens, end, at_end, grammar):
    """None where the text is a sentence, and else the place where it goes wrong."""
    number, whole = first_wrong([kind for _, kind, _ in tokens], grammar)
    if number < len(tokens):
        return tokens[number][0]
    return None if whole and at_end else end


def requirements_of(tokens):
    found, after_with = [], False
    for _, kind, word in tokens:
        if kind == "word":
            name = word.decode().rstrip("+")
            if after_with:
                found[-1] += " WITH " + name
            else:
                found.append(name)
        after_with = kind == "with"
    return found


def code_of(tokens):
    """The truth as a Python expression over `v`, a value for each requirement, by Python's own precedence."""
    words, number, after_with = [], 0, False
    for _, kind, _ in tokens:
        if kind == "word" and not after_with:
            words.append(f"v[{number}]")
            number += 1
        elif kind in ("and", "or"):
            words.append(kind)
        elif kind in ("open", "close"):
            words.append("(" if kind == "open" else ")")
        after_with = kind == "with"
    return compile_nested(words)


def truths(tokens, count):
    """The truth under each assignment."""
    code, digits = code_of(tokens), ""
    for assignment in range(2 ** min(count, 8)):
        v = [bool(assignment >> (i if i < 8 else 0) & 1) for i in range(count)]
        digits += "1" if eval(code, {"v": v}) else "0"
    return digits


def compile_nested(words):
    """Python takes fewer parentheses than the grammar, so those round a single value go first."""
    changed = True
    while changed:
        changed = False
        for i in range(len(words) - 2):
            if words[i] == "(" and words[i + 2] == ")":
                words[i : i + 3] = [words[i + 1]]
                changed = True
                break
            if words[i : i + 1] == ["("] and words[i + 4 : i + 5] == [")"] and "(" not in words[i + 1 : i + 4]:
                words[i : i + 5] = ["(" + " ".join(words[i + 1 : i + 4]) + ")"]
                changed = True
                break
    return compile(" ".join(words), "expression", "eval")


class Expression:
    """A text that is an expression, or the place at which it goes wrong."""

    def __init__(self, text):
        tokens, end, at_end = tokenized(text.encode())
        self.bad = place_of(tokens, end, at_end, EXPRESSION)
        self.requirements = requirements_of(tokens) if self.bad is None else []
        self.code = code_of(tokens) if self.bad is None else None

    def is_true(self, is_satisfied):
        """Its truth, by the truth of its requirements."""
        return bool(eval(self.code, {"v": [is_satisfied(requirement) for requirement in self.requirements]}))


def requirement_of(text):
    """The one requirement that a text is, or None."""
    tokens, end, at_end = tokenized(text.encode())
    is_one = place_of(tokens, end, at_end, REQUIREMENT) is None
    return requirements_of(tokens)[0] if is_one else None


def answer(text):
    data = text.encode()
    tokens, end, at_end = tokenized(data)
    bad = place_of(tokens, end, at_end, EXPRESSION)
    if bad is None:
        found = requirements_of(tokens)
        whole = f"ok {', '.join(found)} {truths(tokens, len(found))}"
    else:
        whole = f"bad {bad}"
    bad = place_of(tokens, end, at_end, REQUIREMENT)
    one = f"ok {requirements_of(tokens)[0]}" if bad is None else f"bad {bad}"
    return f"{escaped(text)}: {whole}; {one}"


def escaped(text):
    for plain, mark in (("\\", "\\\\"), ("\t", "\\t"), ("\n", "\\n"), ("\r", "\\r")):
        text = text.replace(plain, mark)
    return text
