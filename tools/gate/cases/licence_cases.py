#!/usr/bin/env python3
"""The cases of crates/deny_cases_spdx: `licence_cases.py cases` prints them, one a line, and `licence_cases.py answers`
what tools/gate/readings/licences.py says of each.
"""

import itertools
import sys
from pathlib import Path

sys.path.insert(0, str(Path(__file__).resolve().parent.parent))

from readings.licences import answer, escaped

# The licence texts of crates on crates.io, as real applications depend on them.
CRATES = [
    "MIT OR Apache-2.0",
    "MIT/Apache-2.0",
    "MIT",
    "Unlicense/MIT",
    "Apache-2.0 OR MIT",
    "MPL-2.0+",
    "Unlicense OR MIT",
    "Apache-2.0/MIT",
    "Apache-2.0",
    "MIT / Apache-2.0",
    "0BSD OR MIT OR Apache-2.0",
    "(Apache-2.0 OR MIT) AND BSD-3-Clause",
    "Apache-2.0 / MIT",
    "MIT OR Zlib OR Apache-2.0",
    "Apache-2.0 OR BSL-1.0",
    "BSD-3-Clause",
    "CC0-1.0",
    "Apache-2.0 WITH LLVM-exception OR Apache-2.0 OR MIT",
    "ISC",
    "Apache-2.0/ISC/MIT",
    "LGPL-3.0-or-later",
    "Zlib OR Apache-2.0 OR MIT",
]

# Precedence, blanks, plus signs, bytes that begin no token, nesting.
ODD = [
    "(MIT OR GPL-2.0+) AND MIT",
    "MIT AND GPL-2.0 WITH E",
    "MIT AND",
    "MIT AND ",
    "MIT AND\t \t",
    " \tMIT\t",
    "",
    "   ",
    "A OR B AND C",
    "A AND B OR C",
    "A AND B OR C AND D",
    "A OR B AND C OR D",
    "(A OR B) AND (C OR D)",
    "A AND (B OR C AND D) AND E",
    "((A))",
    "A/B AND C/D",
    "A/ /B",
    "A WITH B WITH C",
    "(A WITH B)",
    "(A) WITH B",
    "(A OR B) WITH C",
    "A+ WITH B+",
    "A WITH B+ AND C+",
    "AND+",
    "AND+ AND OR+",
    "A WITH WITH+",
    "A+B",
    "A++",
    "A +",
    "+A",
    "A+ B",
    "and",
    "A and B",
    "A Or B",
    "ANDY OR ORB",
    "A-B.C-1.0",
    "-",
    ".",
    "A\nB",
    "A \nOR B",
    "A\r\n",
    "A\u00a0OR B",
    "A OR \u00e9",
    "\u00c4",
    "A\u2003",
    "A_B",
    "A,B",
    "A:B",
    "LicenseRef-x",
    "A AND (B",
    "A AND (B OR",
    "A AND B)",
    "()",
    "A ()",
    "A OR ()",
    "(((A) OR B) AND C) OR D",
    "A OR B OR C OR D OR E OR F OR G OR H",
    "A AND B AND C AND D AND E AND F AND G AND H",
    "(" * 64 + "A" + ")" * 64,
    "(" * 65 + "A" + ")" * 65,
    "B AND " + "(" * 63 + "A OR (C)" + ")" * 63,
    "B AND " + "(" * 64 + "A OR (C)" + ")" * 64,
    "(" * 64,
    "(" * 65,
    "(" * 64 + " \u00e9" + "(",
    " OR ".join(["(A)"] * 70),
]

# An expression of every form, cut at each character.
WHOLE = "((MIT OR\tZlib-1.0+)/ISC) AND GPL-2.0 WITH A-B-2.0 OR BSD_3"
CUT = [WHOLE[:size] for size in range(len(WHOLE) + 1)]

SHORT = ["A", "AND", "OR", "WITH", "(", ")", "/"]


def cases():
    texts = CRATES + ODD + CUT
    for length in range(1, 5):
        texts += [" ".join(tokens) for tokens in itertools.product(SHORT, repeat=length)]
    return texts


def main():
    line = escaped if sys.argv[1:] == ["cases"] else answer
    for text in cases():
        print(line(text))


if __name__ == "__main__":
    main()
