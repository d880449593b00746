#!/usr/bin/env python3
"""Runs a program over standard input, drops what it writes, and prints the most memory that it held, in KiB.

usage: tools/gate/peak_memory.py PROGRAM [WORDS..]
"""

import resource
import subprocess
import sys


def main():
    if len(sys.argv) < 2:
        sys.exit(__doc__)
    done = subprocess.run(sys.argv[1:], stdout=subprocess.DEVNULL, check=False)
    print(resource.getrusage(resource.RUSAGE_CHILDREN).ru_maxrss)
    return done.returncode


if __name__ == "__main__":
    sys.exit(main())
