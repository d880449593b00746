"""Versions and requirements: Semantic Versioning 2.0, and what Cargo's book and the documentation of the crate
`semver` say of requirements."""

import re
from collections import namedtuple

NUMBERS_BELOW = 2**64
MOST_COMPARATORS = 32

NUMBER = r"(?:0|[1-9][0-9]*)"
PART = r"(?:0|[1-9][0-9]*|[0-9]*[A-Za-z-][0-9A-Za-z-]*)"
SUFFIX = r"(?:-(?P<pre>%s(?:\.%s)*))?(?:\+[0-9A-Za-z-]+(?:\.[0-9A-Za-z-]+)*)?" % (PART, PART)
VERSION = re.compile(r"(%s)\.(%s)\.(%s)%s" % (NUMBER, NUMBER, NUMBER, SUFFIX))

ANY = "[*xX]"
COMPARATOR = re.compile(
    r" *(?P<op>[<>]=?|[=~^])? *(?P<major>{n})(?:\.(?P<minor>{n})(?:\.(?P<patch>{n}){suffix})?)?"
    r"(?P<any>(?:\.{any})*) *".format(
        n=NUMBER, any=ANY, suffix=SUFFIX
    )
)
ALL = re.compile(" *%s *" % ANY)

# The numbers of a version, and the parts before its release.
Version = namedtuple("Version", "numbers parts")
# What is compared, the numbers that are written, and the parts before a release.
Comparator = namedtuple("Comparator", "op numbers parts")


def parts_of(pre):
    return pre.split(".") if pre else []


def read_version(text):
    """A version, or None. What stands behind `+` counts for nothing."""
    found = VERSION.fullmatch(text)
    if not found:
        return None
    numbers = tuple(int(number) for number in found.group(1, 2, 3))
    return Version(numbers, parts_of(found["pre"])) if max(numbers) < NUMBERS_BELOW else None


def rank(parts):
    """Where a release or what comes before it stands: numbers before words, and the release last."""
    one = lambda part: (0, int(part), "") if part.isdigit() else (1, 0, part)
    return not parts, [one(part) for part in parts]


def precedence(version):
    return version.numbers, rank(version.parts)


def read_comparator(text):
    found = COMPARATOR.fullmatch(text)
    if not found:
        return None
    numbers = tuple(int(number) for number in found.group("major", "minor", "patch") if number is not None)
    if max(numbers) >= NUMBERS_BELOW or len(numbers) + found["any"].count(".") > 3:
        return None
    return Comparator(found["op"] or ("=" if found["any"] else "^"), numbers, parts_of(found["pre"]))


def read_requirement(text):
    """The comparators of a requirement, none for `*`; or None where it is no requirement."""
    if ALL.fullmatch(text):
        return []
    comparators = [read_comparator(part) for part in text.split(",")]
    return comparators if None not in comparators and len(comparators) <= MOST_COMPARATORS else None


def fixed_numbers(op, numbers):
    """How many numbers of a version are those of the comparator: `~` leaves the third open, `^` what stands behind
    the first that is not 0."""
    if op == "~":
        return min(2, len(numbers))
    not_zero = [place for place, number in enumerate(numbers) if number]
    return not_zero[0] + 1 if not_zero else len(numbers)


def is_in_range(comparator, version):
    """What `~` and `^` allow: from the written version on, as far as the fixed numbers reach."""
    op, numbers, parts = comparator
    fixed = fixed_numbers(op, numbers)
    if version.numbers[:fixed] != numbers[:fixed]:
        return False
    if version.numbers[: len(numbers)] != numbers:
        return version.numbers[: len(numbers)] > numbers
    leaves_open = op == "^" and len(numbers) < 3
    return leaves_open or rank(version.parts) >= rank(parts)


def holds(comparator, version):
    """Whether a version meets a comparator, the rule on versions before a release aside."""
    op, numbers, parts = comparator
    if op in ("~", "^"):
        return is_in_range(comparator, version)
    of_version, whole = version.numbers[: len(numbers)], len(numbers) == 3
    if of_version == numbers:
        before = whole and rank(version.parts) < rank(parts)
        after = whole and rank(version.parts) > rank(parts)
        same = version.parts == parts
    else:
        before, after, same = of_version < numbers, of_version > numbers, False
    return (same and "=" in op) or (before and "<" in op) or (after and ">" in op)


def matches(comparators, version):
    """A version before a release needs a comparator with its numbers that also has parts before a release."""
    if not all(holds(comparator, version) for comparator in comparators):
        return False
    return not version.parts or any(c.numbers == version.numbers and c.parts for c in comparators)
