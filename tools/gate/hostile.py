#!/usr/bin/env python3
"""Says whether a program ends as it should where the machine is against it: outputs that take nothing, texts without an
end, files that cannot be read or that change while they are read, little memory.

    tools/gate/hostile.py PROGRAM     for each of these a line: that it ends as it should, or what it ended with

PROGRAM is run with the words of `./deny check`, over copies of examples/packages, and by a user who may not read
everything. Its lines over files that cannot be read are those of the readings, run by the same user; with little memory
it ends with its lines, or with the line of want of memory and status 24.
"""

import contextlib
import functools
import os
import resource
import shutil
import subprocess
import sys
import tempfile

HERE = os.path.dirname(os.path.abspath(__file__))
TOP = os.path.dirname(os.path.dirname(HERE))
# The readings, which give up the same rights as the program once they are loaded.
READING = """
import os, sys
sys.path[:0] = [{here!r}, {here!r} + "/cases"]
from check_cases import check
from hostile import drop_rights
drop_rights()
sys.exit(check(sys.argv[1:]))
""".format(here=HERE)
WORDS = ["check", "--home=vendor", "deny.toml", "metadata.json"]
CODEC, PLAIN = "vendor/codec-sys-1.2.0", "vendor/plain-2.0.0"
SECONDS = 120
NOBODY = 65534


def drop_rights():
    """Leaves a user who may read everything, where the machine lets that be; the readings are then run as the same one."""
    if os.geteuid() == 0:
        with contextlib.suppress(OSError):
            os.setgid(NOBODY)
            os.setuid(NOBODY)


def ended(words, folder, out=subprocess.PIPE, before=drop_rights, given=()):
    """The status of a run, and what it wrote."""
    try:
        run = subprocess.run(
            words, cwd=folder, stdin=subprocess.DEVNULL, stdout=out, stderr=subprocess.PIPE, preexec_fn=before,
            timeout=SECONDS, env={**os.environ, **dict(given)},
        )
    except subprocess.TimeoutExpired:
        return "no end in %d seconds" % SECONDS
    return run.returncode, run.stdout, run.stderr


def reading(folder):
    """What the readings say of a copy of the example."""
    return ended([sys.executable, "-c", READING, *WORDS], folder, before=None)


def stopped(status, fields, out=b""):
    return status, out, b'{"fields":{%s},"type":"stop"}\n' % fields.encode()


def copied(folder):
    """A copy of the example in a folder, which all may read."""
    os.chmod(folder, 0o755)
    copy = os.path.join(folder, "packages")
    shutil.copytree(os.path.join(TOP, "examples/packages"), copy)
    return copy


# ---- files that cannot be read: what is done to a copy of the example; the readings say what is to come


def without_leave(path):
    return lambda: os.chmod(path, 0)


def in_place(path, make):
    """Something else in the place of a file."""

    def change():
        os.remove(path)
        make(path)

    return change


def named(name):
    """A file with this name."""

    def change():
        with open(name, "wb"):
            pass

    return change


UNREADABLE = {
    "a manifest without leave": without_leave("Cargo.toml"),
    "a manifest that is a folder": in_place("Cargo.toml", os.mkdir),
    "a manifest that is a link to itself": in_place("Cargo.toml", lambda path: os.symlink("Cargo.toml", path)),
    "a manifest that is gone": lambda: os.remove("Cargo.toml"),
    "a build script without leave": without_leave(CODEC + "/build.rs"),
    "a build script that is a folder": in_place(CODEC + "/build.rs", os.mkdir),
    "a build script that is gone": lambda: os.remove(CODEC + "/build.rs"),
    "a folder without leave": without_leave(CODEC + "/docs"),
    "a folder of a crate without leave": without_leave(CODEC),
    "a folder of a crate that is gone": lambda: shutil.rmtree(CODEC),
    "a file without leave": without_leave(CODEC + "/docs/tables"),
    "a file with a checksum without leave": without_leave(CODEC + "/configure"),
    "a link to nothing": in_place(CODEC + "/docs/tables", lambda path: os.symlink("nothing", path)),
    "a link to a folder": lambda: os.symlink("docs", CODEC + "/more"),
    "a link to a folder above": lambda: os.symlink("..", CODEC + "/docs/above"),
    "a manifest that is memory which may not be read": in_place("Cargo.toml", lambda path: os.symlink("/proc/self/mem", path)),
    "a name that is no text": named(os.fsencode(CODEC + "/docs/") + b"\xff"),
    "a name of every byte": named(bytes(CODEC + "/docs/", "ascii") + bytes({*range(1, 128)} - {47})),
    "a name with a line's end": named(CODEC + "/docs/a\n.sh"),
}


def unreadable(program, change):
    with tempfile.TemporaryDirectory() as folder:
        copy = copied(folder)
        here = os.getcwd()
        os.chdir(copy)
        try:
            change()
        finally:
            os.chdir(here)
        return ended([program, *WORDS], copy), reading(copy)


# ---- texts, outputs and memory


def instead(program, status, file, stop, path):
    """A run with another path in the place of a text."""
    words = [path if word == file else word for word in WORDS]
    which = {"deny.toml": "policy", "metadata.json": "metadata"}[file]
    with tempfile.TemporaryDirectory() as folder:
        return ended([program, *words], copied(folder)), stopped(status, '"file":"%s","stop":"%s"' % (which, stop))


def refused(program, out):
    """A run whose output takes nothing."""
    with out, tempfile.TemporaryDirectory() as folder:
        return ended([program, *WORDS], copied(folder), out=out), stopped(23, '"stop":"write"', None)


def full(program):
    return refused(program, open("/dev/full", "wb"))


def closed_pipe(program):
    read, write = os.pipe()
    os.close(read)
    return refused(program, os.fdopen(write, "wb"))


def piped(program):
    """A pipe in the place of the policy, which another process writes."""
    with tempfile.TemporaryDirectory() as folder:
        copy = copied(folder)
        policy = os.path.join(copy, "deny.toml")
        os.remove(policy)
        os.mkfifo(policy)
        os.chmod(policy, 0o644)
        writer = subprocess.Popen(["sh", "-c", "echo '[bans]' >deny.toml"], cwd=copy, stderr=subprocess.DEVNULL)
        got = ended([program, *WORDS], copy)
        writer.kill()
        writer.wait()
        return got, stopped(17, '"file":"policy","stop":"read"')


PIECE = 2**16 # bytes that are read at a time
LONG = b"# a line of a text that comes in several pieces\n" * 4096


def changed(program, library, file, **given):
    """A run while which a file of several pieces grows, is cut, or vanishes. What it was to come to is known when it has
    ended; a file that vanishes is read to its end all the same, since it is open."""
    with tempfile.TemporaryDirectory() as folder:
        copy = copied(folder)
        path = os.path.join(copy, file)
        with open(path, "rb") as old:
            text = old.read()
        with open(path, "wb") as new:
            new.write(LONG + text if file.endswith(".toml") else text[:-1] + b" " * len(LONG) + text[-1:])
        for one in copy, path:
            os.chmod(one, 0o777)
        named, size = file if file in WORDS else "./" + file, os.path.getsize(path) # as the run names it
        before = reading(copy)
        got = ended([program, *WORDS], copy, given={"LD_PRELOAD": library, "CHANGING": named, **given})
        if os.path.exists(path) and os.path.getsize(path) == size:
            return "it did not change", got
        return got, reading(copy) if given else before


def changing(program):
    """Files that change while they are read, where there is a C compiler."""
    if shutil.which("cc") is None:
        return
    with tempfile.TemporaryDirectory() as folder:
        os.chmod(folder, 0o755)
        library = os.path.join(folder, "changing.so")
        source = os.path.join(HERE, "changing.c")
        subprocess.run(["cc", "-O2", "-shared", "-fPIC", "-o", library, source], check=True)
        for file in "deny.toml", "metadata.json", "Cargo.toml":
            yield "%s that vanishes" % file, changed(program, library, file)
            yield "%s that is cut" % file, changed(program, library, file, CUT=str(PIECE))
        yield "a policy that grows", changed(program, library, "deny.toml", GROWN="\n[bans.workspace-dependencies]\n")
        yield "a policy that grows by a fault", changed(program, library, "deny.toml", GROWN="\nmore = 1\n")
        yield "metadata that grow", changed(program, library, "metadata.json", GROWN="{")
        yield "a manifest that grows", changed(program, library, "Cargo.toml", GROWN="[")


SIZES = [7 * 2**20 + number * 2**19 for number in range(20)]  # bytes
REAL = ["check", "real-deny.toml", "app-metadata.json"]


def limited(program):
    """Runs with so little memory: none ends in another way than with all its lines, or for want of memory."""
    folder = os.path.join(TOP, "examples")
    whole, short = ended([program, *REAL], folder, before=None), stopped(24, '"stop":"memory"')
    found = []
    for size in SIZES:
        limit = functools.partial(resource.setrlimit, resource.RLIMIT_AS, (size, size))
        got = ended([program, *REAL], folder, before=limit)
        found.append("whole" if got == whole else "want of memory" if got == short else "%d bytes: %r" % (size, got[::2]))
    return sorted(set(found)), ["want of memory", "whole"]


def situations(program):
    yield "a full disk", full(program)
    yield "a pipe that nobody reads", closed_pipe(program)
    yield "a pipe as policy", piped(program)
    for file, name in ("deny.toml", "policy"), ("metadata.json", "metadata"):
        yield "a folder as %s" % name, instead(program, 17, file, "read", "vendor")
        yield "nothing as %s" % name, instead(program, 17, file, "read", "nothing")
        yield "memory that may not be read as %s" % name, instead(program, 17, file, "read", "/proc/self/mem")
        yield "zeros without an end as %s" % name, instead(program, 18, file, "long", "/dev/zero")
    for name, change in UNREADABLE.items():
        yield name, unreadable(program, change)
    yield from changing(program)
    yield "little memory", limited(program)


def main():
    if len(sys.argv) != 2:
        sys.exit(__doc__)
    failed = False
    with tempfile.TemporaryDirectory() as folder:
        os.chmod(folder, 0o755)
        program = shutil.copy(sys.argv[1], folder)
        for name, (got, wanted) in situations(program):
            failed = failed or got != wanted
            print("%s: %s" % (name, "as it should be" if got == wanted else "%r where %r was to come" % (got, wanted)))
    sys.exit(failed)


if __name__ == "__main__":
    main()
