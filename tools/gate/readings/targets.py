"""The names of targets that dependencies are for: whether two of them are the same."""

import re

TOKEN = re.compile(r'[ \t]*(?:([A-Za-z_][A-Za-z0-9_]*)|"([^"]*)"|([(),=]))')
LISTS = ("all", "any")


class NoExpression(Exception):
    """The text is no `cfg(..)` expression."""


class Tokens:
    """The tokens of a text, each its kind and what is written."""

    def __init__(self, text):
        self.tokens, place = [], 0
        while place < len(text.rstrip(" \t")):
            found = TOKEN.match(text, place)
            if not found:
                raise NoExpression
            place = found.end()
            name, held, mark = found.groups()
            token = ("name", name) if name else ("mark", mark) if mark else ("text", held)
            self.tokens.append(token)
        self.place = 0

    def next(self):
        token = self.tokens[self.place] if self.place < len(self.tokens) else ("end", None)
        self.place += 1
        return token

    def has(self, mark):
        """Whether a mark comes next, which is then taken."""
        is_next = self.tokens[self.place : self.place + 1] == [("mark", mark)]
        self.place += is_next
        return is_next

    def want(self, mark):
        if not self.has(mark):
            raise NoExpression

    def want_kind(self, kind):
        found, written = self.next()
        if found != kind:
            raise NoExpression
        return written


def predicate(tokens):
    name = tokens.want_kind("name")
    if name == "not":
        # It takes one, with no comma behind it.
        tokens.want("(")
        argument = predicate(tokens)
        tokens.want(")")
        return name, [argument]
    if name in LISTS:
        tokens.want("(")
        return name, arguments_of(tokens)
    return ("equal", name, tokens.want_kind("text")) if tokens.has("=") else ("name", name)


def arguments_of(tokens):
    """Predicates with commas between them, as far as the closing mark."""
    found = []
    while not tokens.has(")"):
        found.append(predicate(tokens))
        if not tokens.has(","):
            tokens.want(")")
            break
    return found


def expression(text):
    """The tree of a `cfg(..)` expression, or None where the text is none."""
    try:
        tokens = Tokens(text)
        if tokens.next() != ("name", "cfg"):
            raise NoExpression
        tokens.want("(")
        tree = predicate(tokens)
        tokens.want(")")
        return tree if tokens.place == len(tokens.tokens) else None
    except NoExpression:
        return None


def agree(one, other):
    """Whether two names mean one target: equal texts, or expressions with equal trees."""
    tree = expression(one)
    return one == other or (tree is not None and tree == expression(other))
