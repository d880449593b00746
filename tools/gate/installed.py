#!/usr/bin/env python3
"""Says whether what ./install puts into a prefix works there: without the checkout, without rt, and the program in an
empty root that has the C library alone.

    tools/gate/installed.py     for each of these a line: that it is as it should be, or what came in its place

The proved program has to be there; ./prove then writes beside it what was proved. What it prints is compared with the
lines and pages of examples/. Where the machine lets nobody enter another root, the line says that this was left out.
"""

import os
import re
import shutil
import subprocess
import sys
import tempfile
from pathlib import Path

TOP = Path(__file__).resolve().parents[2]
EXAMPLES = TOP / "examples"
WORDS = ["check", "deny.toml", "metadata.json"]
STATUS = 2  # of this example
# All that the program needs of a system: the C library with its loader, of this version or a later one.
NEEDED, VERSION = {"libc.so.6"}, (2, 34)
NO_ROOT = 125


def ended(words, folder, path):
    """The status of a command with nothing in its environment but a path, and what it wrote."""
    run = subprocess.run(words, cwd=folder, env={"PATH": path}, stdin=subprocess.DEVNULL, capture_output=True)
    return run.returncode, run.stdout.decode(), run.stderr.decode()


def libraries(program):
    """The libraries that a program names, and the files that the loader finds for them and for itself."""
    said = subprocess.run(["readelf", "-d", program], capture_output=True, text=True, check=True).stdout
    named = set(re.findall(r"\(NEEDED\).*\[(.*)\]", said))
    said = subprocess.run(["ldd", program], capture_output=True, text=True, check=True).stdout
    return named, re.findall(r"(/\S+) \(0x", said)


def newest(program):
    """The newest version of the C library of which a program names a symbol."""
    said = subprocess.run(["readelf", "-V", program], capture_output=True, text=True, check=True).stdout
    return max(tuple(map(int, version.split("."))) for version in re.findall(r"GLIBC_(\d+\.\d+)", said))


def furnish(root, program):
    """Makes a root with the program, its libraries, and the files of the example."""
    for file in libraries(program)[1]:
        os.makedirs((root / file[1:]).parent, exist_ok=True)
        shutil.copy(file, root / file[1:])
    shutil.copy(program, root / "burkativ")
    for file in WORDS[1:]:
        shutil.copy(EXAMPLES / file, root / file)


def in_root(root):
    """What the program writes in a root with nothing else, or None where the machine lets nobody enter it."""
    words = ["chroot", str(root), "/burkativ", *WORDS]
    if os.geteuid() != 0:
        words = ["unshare", "-r", *words]
    status, out, said = ended(words, root, os.defpath + ":/usr/sbin:/sbin")
    return None if status in (1, NO_ROOT) and not out else (status, out, said)


def situations(folder):
    prefix, root = folder / "prefix", folder / "root"
    proved = subprocess.run([TOP / "prove"], capture_output=True, text=True)
    yield "./prove, where the program is there", (proved.returncode, proved.stderr), (0, "")
    installed = subprocess.run([TOP / "install", prefix], capture_output=True, text=True)
    yield "./install", (installed.returncode, installed.stderr), (0, "")
    lines, page = (EXAMPLES / "expected.jsonl").read_text(), (EXAMPLES / "shown.txt").read_text()
    path = "%s:%s:%s" % (prefix / "bin", os.path.dirname(sys.executable), os.defpath)
    yield "the program", ended([prefix / "bin/burkativ", *WORDS], EXAMPLES, ""), (STATUS, lines, "")
    yield "its page", ended([prefix / "bin/burkativ-show", *WORDS], EXAMPLES, path), (STATUS, page, "")
    door = ended([prefix / "bin/cargo-burkativ", "burkativ", "--help"], folder, path)
    yield "the front door", (door[0], "Traceback" in door[2]), (0, False)
    pages = list((prefix / "share/burkativ").rglob("*.md"))
    links = [(page, target) for page in pages for target in re.findall(r"\]\(([^)#]+)[^)]*\)", page.read_text())]
    yield "links of pages", [target for page, target in links if not (page.parent / target).exists()], []
    table = [prefix / "bin/burkativ-table", EXAMPLES / "replacements.json", folder / "table"]
    yield "a table of replacements", ended(table, folder, path), (0, "", "")
    written = (folder / "table").read_bytes() == (EXAMPLES / "replacements.bin").read_bytes()
    yield "which is that of its text", written, True
    for text in "kit: ", "proved: ", "commit: ":
        yield "PROVED has '%s'" % text, text in (prefix / "share/burkativ/PROVED").read_text(), True
    yield "the libraries that it needs", libraries(prefix / "bin/burkativ")[0] - NEEDED, set()
    yield "and their version", newest(prefix / "bin/burkativ") <= VERSION, True
    furnish(root, prefix / "bin/burkativ")
    found = in_root(root)
    if found is None:
        yield "an empty root, left out since the machine lets nobody enter one", found, None
    else:
        yield "an empty root", found, (STATUS, lines, "")


def main():
    failed = False
    with tempfile.TemporaryDirectory() as folder:
        for name, got, wanted in situations(Path(folder)):
            failed = failed or got != wanted
            print("%s: %s" % (name, "as it should be" if got == wanted else "%r where %r was to come" % (got, wanted)))
    sys.exit(failed)


if __name__ == "__main__":
    main()
