"""A table of checks: how they are run, side by side where they allow it, and the forms of those that look at sources.

A check is a name and a call that is given a folder of its own and gives comparisons. Each comparison is a line of
output, `own: ok: ..` or `own: FAILED: ..` with the first difference, and these lines come in the order of the table,
whichever check ends first.
"""

import os
import shutil
import subprocess
import sys
import tempfile
import traceback
from concurrent.futures import ThreadPoolExecutor, wait
from dataclasses import dataclass, replace
from pathlib import Path
from typing import Callable, Iterable, NamedTuple

from first_difference import first_difference

TOP = Path(__file__).resolve().parents[2]
GATE = TOP / "tools/gate"
NOT_THERE = "crates/{0}/out/{0} is missing or older than the sources; `.ci/run` and `.ci/own --prove` build it"


class Comparison(NamedTuple):
    """Two texts that are to be equal; `cases` has the case that each of their lines answers, if they do not say it."""

    what: str
    wanted: bytes
    found: bytes
    cases: bytes | None = None


class LeftOut(NamedTuple):
    """A comparison that this machine does not allow, and what it needs."""

    what: str


@dataclass(frozen=True)
class Check:
    name: str
    compare: Callable[[Path], Iterable[Comparison | LeftOut]]
    needs: tuple[str, ...] = ()  # the crates whose proved programs it runs
    is_alone: bool = False  # it measures time, so nothing runs beside it


class Failed(Exception):
    """Why a check could not come to its comparisons."""


# ---- commands


class Done(NamedTuple):
    """What a command wrote, and its status."""

    out: bytes
    err: bytes
    status: int

    def whole(self):
        """Its lines, with the status as the last one."""
        return with_status(self.out + self.err, self.status)


def with_status(text, status):
    return text + b"status %d\n" % status


def run(words, folder=TOP, given=b"", out=subprocess.PIPE):
    """Runs a command in a folder, over this standard input."""
    words = [word if isinstance(word, bytes) else str(word) for word in words]
    done = subprocess.run(words, cwd=folder, input=given, stdout=out, stderr=subprocess.PIPE, check=False)
    return Done(done.stdout or b"", done.stderr, done.returncode)


def output_of(words, folder=TOP):
    """What a command writes that has to end well."""
    done = run(words, folder)
    if done.status != 0:
        raise broken(words, done)
    return done.out


def unbroken(words):
    """A run that may say that something does not hold; one that writes of an error of its own fails as a whole."""
    done = run(words)
    if done.status != 0 and done.err:
        raise broken(words, done)
    return done


def broken(words, done):
    return Failed("%s\n%s" % (" ".join(map(str, words)), done.whole().decode(errors="backslashreplace").rstrip()))


def tool(path, *words):
    """The command of a program of tools/gate."""
    return [sys.executable, GATE / path, *words]


# ---- programs that are proved


def program_of(crate):
    return TOP / "crates" / crate / "out" / crate


def is_proved(crate):
    """Whether the program of a crate stands where a proof leaves it, and is newer than all sources."""
    program = program_of(crate)
    if not os.access(program, os.X_OK):
        return False
    made = program.stat().st_mtime
    folders = [path for part in ("src", "specs", "proofs") for path in (TOP / "crates").glob("*/" + part)]
    sources = (path for folder in folders for path in (folder, *folder.rglob("*")))
    return all(path.stat().st_mtime <= made for path in (TOP / "crates.txt", *sources))


def unproved(checks):
    """The crates whose proved programs these checks need, and that are not there."""
    needed = dict.fromkeys(crate for check in checks for crate in check.needs)
    return [crate for crate in needed if not is_proved(crate)]


def prove(crate):
    """Proves and builds the program of a crate; what that writes goes to standard error."""
    words = [TOP / "prove"] if crate == "deny" else ["rt", "run"]
    where = {"cwd": TOP / "crates" / crate, "stdin": subprocess.DEVNULL, "stdout": sys.stderr}
    subprocess.run(words, check=False, **where)


# ---- the run


def lines_of(check, missing):
    """The lines of a check, and whether all of it holds."""
    without = [crate for crate in check.needs if crate in missing]
    if without:
        return ["own: FAILED: %s: left out without the proved program of %s" % (check.name, without[0])], False
    found = []
    try:
        with tempfile.TemporaryDirectory() as folder:
            for one in check.compare(Path(folder)):
                found.append(line_of(one))
    except Failed as error:
        found.append(("own: FAILED: %s: %s" % (check.name, error), False))
    except Exception:
        found.append(("own: FAILED: %s\n%s" % (check.name, traceback.format_exc().rstrip()), False))
    is_well = all(holds for _, holds in found)
    again = [] if is_well else ["  (this check alone: .ci/own %s)" % check.name]
    return [line for line, _ in found] + again, is_well


def line_of(one):
    """The line of a comparison, and whether it holds."""
    if isinstance(one, LeftOut):
        return "own: left out: %s" % one.what, True
    difference = first_difference(one.wanted, one.found, one.cases)
    if difference is None:
        return "own: ok: %s" % one.what, True
    return "own: FAILED: %s\n%s" % (one.what, difference), False


def run_checks(checks):
    """Runs checks, as many at a time as there are processors; gives whether all hold."""
    missing = unproved(checks)
    for crate in missing:
        print("own: FAILED: the proved program of %s is there\n%s" % (crate, NOT_THERE.format(crate)), flush=True)
    is_well = not missing
    with ThreadPoolExecutor(len(os.sched_getaffinity(0))) as pool:
        under_way = {check: pool.submit(lines_of, check, missing) for check in checks if not check.is_alone}
        for check in checks:
            if check.is_alone:
                wait(under_way.values())
            lines, holds = lines_of(check, missing) if check.is_alone else under_way[check].result()
            is_well = is_well and holds
            print("\n".join(lines), flush=True)
    return is_well


# ---- forms of checks: a command's output, and the files that a command makes


def prints(name, what, words, wanted=b"", **more):
    """A command that writes this text, or that of this file, and ends well."""

    def compare(folder):
        text = wanted.read_bytes() if isinstance(wanted, Path) else wanted
        yield Comparison(what, with_status(text, 0), unbroken(words).whole())

    return Check(name, compare, **more)


def holds(name, what, words, ending, **more):
    """A command that writes a line for each thing that it tries, with this ending where it holds, and ends well."""

    def compare(folder):
        done = unbroken(words)
        lines = (done.out + done.err).splitlines()
        others = [line + b"\n" for line in lines if not line.endswith(ending.encode())]
        tried = others if lines else [b"nothing was tried\n"]
        yield Comparison(what, with_status(b"", 0), with_status(b"".join(tried), done.status))

    return Check(name, compare, **more)


def agree(name, what, words, others, **more):
    """Two commands that write the same, and end well."""

    def compare(folder):
        yield Comparison(what, with_status(output_of(words), 0), unbroken(others).whole())

    return Check(name, compare, **more)


def needing(command, what, check):
    """A check that is left out where a command is missing."""

    def compare(folder):
        if shutil.which(command):
            yield from check.compare(folder)
        else:
            yield LeftOut("%s, which needs %s" % (what, command))

    return replace(check, compare=compare)


def makes_tables(name, crate, words, of_cases, of_answers):
    """A maker that writes the `stdin` and the `stdout` of a program of cases into a folder."""

    def compare(folder):
        output_of([*words, folder])
        cases, answers = ((folder / file).read_bytes() for file in ("stdin", "stdout"))
        yield Comparison(of_cases, cases, of_crate(crate, "stdin"))
        yield Comparison(of_answers, answers, of_crate(crate, "stdout"), cases)

    return Check(name, compare)


def writes_tables(name, crate, words, of_cases, of_answers):
    """A maker that writes the cases of a program, or what it has to answer to them."""

    def compare(folder):
        yield Comparison(of_cases, output_of([*words, "cases"]), of_crate(crate, "stdin"))
        yield Comparison(of_answers, output_of([*words, "answers"]), of_crate(crate, "stdout"))

    return Check(name, compare)


def of_crate(crate, file):
    return (TOP / "crates" / crate / file).read_bytes()
