#!/usr/bin/env python3
"""The cases of crates/deny_cases_globs: `glob_cases.py cases` prints them, one a line, and `glob_cases.py answers` what
tools/gate/readings/globs.py says of each.

    set           begins a set with no globs
    glob TEXT     is answered by the number of the glob in the set, or `bad PLACE`
    path TEXT     is answered by the numbers of the globs that fit it
"""

import random
import sys
from pathlib import Path

sys.path.insert(0, str(Path(__file__).resolve().parent.parent))

from readings.globs import Bad, expression

# What is said by hand: a set, a path and the numbers of the globs that fit it; a text that is no glob and its first bad byte.
FITTING_BY_HAND = [
    (["*.sh", "a?", "*.sh"], "a.sh", [0, 2]),
    (["*.sh"], "a/b.sh", [0]), (["*.sh"], ".sh", [0]), (["*.sh"], "a.sh.txt", []),
    (["**/t/*"], "t/x", [0]), (["**/t/*"], "a/b/t/x/y", [0]), (["**/t/*"], "at/x", []),
    (["a/**/b"], "a/b", [0]), (["a/**/b"], "a/x/y/b", [0]), (["a/**/b"], "ab", []),
    (["{a,b[!c]}?"], "ax", [0]), (["{a,b[!c]}?"], "bdx", [0]), (["{a,b[!c]}?"], "bcx", []),
    (["?"], "😀", [0]), (["[]-a]"], "^", [0]), (["[a-b-c]"], "-", [0]), (["{}"], "", [0]),
    (["***/a", "**/**/a", "a**/**/b"], "a", []), (["{a/**/b}", "a/**/b"], "a/b", [1]),
    (["*.rs", "**.rs", "*.Rs", "*.rs"], "a.rs", [0, 1, 3]), (["*.rs"], "a.x/rs", []),
    (["**/ab.c", "*ab.c", "b.c", "*b.c", "c", "*"], "b.c", [2, 3, 5]), (["*é", "*xé", "*e"], "xé", [0, 1]),
    (["a/*", "a/b*", "ab*", "a*", "*"], "a/b", [0, 1, 3, 4]), (["ab*bc", "ab*c", "abc"], "abc", [1, 2]),
    (["*\\*", "*\\]", "*[a]", "*{a,b}"], "x*", [0]), (["", "*", "a*", "*a"], "", [0, 1]),
]
BAD_BY_HAND = [
    ("a[", 1), ("a}", 1), ("[z-a]", 1), ("x\\", 1), ("{a[", 0), ("[z-a", 1), ("[]", 0), ("é}", 2), ("[^é-a]", 2), ("{" * 17, 16), ("😀{a,b", 4),
]

# Each is a set: its globs, and paths.
SETS = [
    (["*.sh", "a?", "*.sh"], ["a.sh", "a.", "b.sh", "sh", ".sh"]),
    (["a*", "b", "a*", "*c"], ["abc", "d"]),
    (["*.sh", "**/t/*", "a/**/b", "{a,b[!c]}?"],
     ["a/b.sh", ".sh", "a.sh.txt", "t/x", "a/b/t/x/y", "at/x", "a/b", "a/x/y/b", "ab", "ax", "bdx", "bcx"]),
    (["", "?", "*", "\\*", "a,b", "{}", "{a,}b", "{a,{b,c}}"],
     ["", "a", "ab", "b", "c", "é", "€", "😀", "a/b", "*", "a,b"]),
    (["**/a", "**/", "a/**", "/**", "a/**/", "a**/b", "a**/**/b", "***/a", "**/**/a", "\\/**", "**"],
     ["", "a", "/a", "xa", "a/", "a/b/c", "/", "axx/b", "ab", "ax/b", "/x", "x", "a/b", "b/a"]),
    (["[a-c]", "[^a-c]", "[!a]", "[]-a]", "[-a]", "[a-]", "[a-b-c]", "[\\]", "[é-ü]", "[--a]", "[+--]", "[,}]"],
     ["a", "b", "c", "d", "/", "^", "-", "]", "\\", "ö", "+", ",", "}", ""]),
    (["{**}", "{a/**/b}", "{**/a}", "{a/**,b}", "{{{{{{{{{{{{{{{{a}}}}}}}}}}}}}}}}"],
     ["a/b", "a//b", "a", "/a", "a/x", "b", "a/x/b"]),
    (["*a*a*a*a*b"], ["a" * 24, "a" * 12 + "b"]),
    # simple globs, and those that look like it
    (["*.rs", "**.rs", "*.r", "*.Rs", "*.rs", "*.", "*.r_s", "*.é", "\\*.rs", "*.rs*", "*.a.rs"],
     ["x.rs", "x.Rs", ".rs", "rs", "x.r", "x.", "x.r_s", "x.é", "*.rs", "x.rs.rs", "a.b/rs", "x.a.rs", "x.rs/"]),
    (["*.%s" % c for c in "mdzaqkbxmm0Z9"], ["f.%s" % c for c in "abcdmzqkx0Z9"] + ["m", "f.mm", "f.", ""]),
    # states that many ways lead to
    (["{a,a}{a,a}", "{*,**}*", "*{,*}*x", "**/{a,*}/**"], ["aa", "a", "", "x", "ax/x", "a/a/a", "/a/"]),
    # ends that are ends of one another, and paths that have a part of them
    (["**/ab.c", "*ab.c", "ab.c", "b.c", "*b.c", "*.c", "**.c", "*c", "c", "", "*", "a*.c", "a*b.c", "**/b.c", "?b.c"],
     ["ab.c", "b.c", ".c", "c", "", "xab.c", "x/ab.c", "x/b.c", "b.cc", "ab.", "ab.c/", "c.ba", "aab.c"]),
    # beginnings that are beginnings of one another
    (["a", "a/", "a/b", "a/b/", "a/*", "a/b*", "a/**", "a/b/**", "a/**/c", "a?", "a[/]b", "ab*", "/a*", "a/b/c/d*"],
     ["a", "a/", "a/b", "a/b/", "a/bc", "a/b/c", "a/c", "ab", "abc", "/a", "", "a/b/c/d", "a/b/c/", "b/a"]),
    # a beginning and an end that share characters of the path
    (["aba*aba", "ab*ba", "a*a", "aba", "ab**a", "**/aba*", "*aba/**", "aa*a", "*aa"], ["a", "aa", "aba", "ababa", "abaaba", "abba", "aba/", ""]),
    # escapes, classes and alternatives at the ends
    (["*\\*", "*\\]", "*[a]", "*{a,b}", "*a\\?", "\\**", "\\[*", "[\\]*", "{a,b}*", "*{ca,cb}d", "*[^a]b", "*,", "*\\\\", "\\\\*"],
     ["x*", "*x", "x]", "xa", "xb", "a?", "*", "[x", "\\x", "x\\", "\\", "cad", "cbd", "cd", "bb", "ab", "a,", ""]),
    # last and first characters of two, three and four bytes, and pairs of which the last bytes are one
    (["*é", "*€", "*😀", "é*", "€*", "😀*", "*xé", "*©", "*ã©", "**/ü.é", "[é]*", "*[é]"],
     ["é", "€", "😀", "xé", "éx", "x€", "€x", "x😀", "😀x", "©", "ã©", "Ã©", "ü.é", "a/ü.é", "é€😀", ""]),
]

BAD = [
    "a[", "a}", "[z-a]", "x\\", "{a[", "[z-a", "[]", "[!]", "{a", "{a}{b", "a{b}c}", "é}", "{\\", "[}", "}[", "[a--]",
    "[^é-a]", "{[z-a]", "{" * 17, "😀{a,b", "{a,{b}", "{" * 16 + "}" * 17, "*.sh}", "[",
]

# A glob of every form, cut at each character: each prefix of it is a glob or is none.
WHOLE = "**/a?/**/{b,*c[!d-f\u00e9]{g,}}\\*[]-]\u00e9/**"
CUT = [WHOLE[:size] for size in range(len(WHOLE) + 1)]
CUT_PATHS = ["", "a", "ax", "ax/b", "y/ax/z/b", "ax/b*-\u00e9/q", "ax/xchg*]\u00e9/", "ax/b*-\u00e9", "a?/**"]


def random_text(choice, pieces, most):
    return "".join(choice.choice(pieces) for _ in range(choice.randint(0, most)))


def random_sets():
    choice = random.Random(26)
    for _ in range(40):
        pieces = ["a", "b", "/", ".", "*", "**", "?", "{", ",", "}", "[ab]", "[!a]", "/**/", "/**", "**/", "\\a", "*.a", "é"]
        globs = ["*.%s" % random_text(choice, ["a", "b"], 2) for _ in range(4)]
        globs += [random_text(choice, pieces, 6) for _ in range(12)]
        choice.shuffle(globs)
        yield globs, [random_text(choice, ["a", "b", "/", ".", ".a", "é", "/a"], 6) for _ in range(20)]


def random_words():
    """Sets whose globs begin and end with words that share beginnings and ends."""
    choice = random.Random(30)
    letters = ["a", "b", "ab", "ba", "/", ".", "é", "\\*"]
    forms = ["%s*%s", "%s**/%s", "%s?%s", "%s/**/%s", "%s{%s,a}", "%s[ab]%s", "*%s%s", "**/%s%s", "%s%s*", "%s%s/**", "%s%s"]
    for _ in range(20):
        words = ["".join(choice.choice(letters) for _ in range(choice.randint(0, 4))) for _ in range(5)]
        globs = [choice.choice(forms) % (choice.choice(words), choice.choice(words)) for _ in range(16)]
        plain = [word.replace("\\", "") for word in words]
        paths = ["".join(choice.choice(plain + ["a", "b", "/"]) for _ in range(choice.randint(0, 3))) for _ in range(20)]
        yield globs, paths


def check_by_hand():
    """Ends the maker where the reading says other than what is said by hand."""
    for globs, path, numbers in FITTING_BY_HAND:
        assert [n for n, glob in enumerate(globs) if expression(glob).fullmatch(path)] == numbers, (globs, path)
    for text, place in BAD_BY_HAND:
        try:
            expression(text)
        except Bad as bad:
            assert len(text[: bad.args[0]].encode()) == place, text
        else:
            raise AssertionError(text)


def lines():
    """The cases and the answers."""
    check_by_hand()
    for globs, paths in SETS + [(BAD, ["a"]), (CUT, CUT_PATHS)] + list(random_sets()) + list(random_words()):
        yield "set", "set"
        fitting = []
        for glob in globs:
            try:
                read = expression(glob)
            except Bad as bad:
                place = len(glob[: bad.args[0]].encode())
                yield "glob " + glob, "glob %s: bad %d" % (glob, place)
                continue
            yield "glob " + glob, "glob %s: %d" % (glob, len(fitting))
            fitting.append(read)
        for path in paths:
            numbers = [" %d" % number for number, read in enumerate(fitting) if read.fullmatch(path)]
            yield "path " + path, "path %s:%s" % (path, "".join(numbers))


def main():
    if sys.argv[1:] not in (["cases"], ["answers"]):
        sys.exit(__doc__)
    for case, answer in lines():
        print(case if sys.argv[1] == "cases" else answer)


if __name__ == "__main__":
    main()
