#!/usr/bin/env python3
"""Says whether ./deny, ./prove and ./install do what their pages say: which program answers, what is proved and in
which order, what stays after a failure, a stop or a kill, and what is put into a prefix.

    tools/gate/building.py     for each of these a line: that it is as it should be, or what came in its place

They run in a small repository with a stand-in for rt (stand_in_rt), so nothing is compiled or proved.
"""

import contextlib
import os
import re
import shutil
import signal
import subprocess
import sys
import tempfile
import time
from pathlib import Path

TOP = Path(__file__).resolve().parents[2]
CRATES = "# The crates.\nlow: thiserror\nleft: low\nright: low semver\nhigh: left right\ndeny: high\ncases: high\n"
SCRIPTS = ("deny", "prove", "install", "show", "tools/users/compile.py")
WAITED = 300  # seconds at most


class Checkout:
    """A small repository, in which the scripts run with a stand-in for rt."""

    def __init__(self, folder, has_rt=True):
        self.top, self.bin, self.log = folder / "checkout", folder / "bin", folder / "log"
        for name in re.findall(r"^(\w+):", CRATES, re.MULTILINE):
            for part in "src", "specs", "proofs":
                os.makedirs(self.top / "crates" / name / part)
            root = "main.rt" if name in ("deny", "cases") else "lib.rt"
            (self.top / "crates" / name / "src" / root).write_text("// %s\n" % name)
            (self.top / "crates" / name / "proofs/Lib.antt").write_text("-- %s\n" % name)
        (self.top / "crates.txt").write_text(CRATES)
        (self.top / "HANDLES").write_text("Handles allowed: none.\n")
        for script in SCRIPTS:
            os.makedirs((self.top / script).parent, exist_ok=True)
            shutil.copy(TOP / script, self.top / script)
        self.wants(2**20)
        os.makedirs(self.bin)
        if has_rt:
            shutil.copy(TOP / "tools/gate/stand_in_rt", self.bin / "rt")
        self.back_in_time()

    def wants(self, memory):
        """Has ./prove want so much memory for a crate."""
        text = re.sub(r"^MEMORY = .*$", "MEMORY = %d" % memory, (TOP / "prove").read_text(), flags=re.MULTILINE)
        (self.top / "prove").write_text(text)

    def back_in_time(self, seconds=100):
        """Makes all files as old as that."""
        for path in (self.top / "crates.txt", *(self.top / "crates").rglob("*")):
            os.utime(path, (time.time() - seconds,) * 2)

    def start(self, script, *words, **environment):
        path = "%s:%s" % (self.bin, os.defpath if not self.python_is_apart() else self.python_folder())
        given = {**os.environ, "PATH": path, "RT_LOG": str(self.log), **environment}
        how = {"stdout": subprocess.PIPE, "stderr": subprocess.PIPE, "text": True, "start_new_session": True}
        return subprocess.Popen([self.top / script, *words], cwd=self.top.parent, env=given, **how)

    @staticmethod
    def python_is_apart():
        """Whether the Python that runs this lies elsewhere than where all commands do."""
        return os.path.dirname(sys.executable) not in os.defpath.split(":")

    @staticmethod
    def python_folder():
        return "%s:%s" % (os.path.dirname(sys.executable), os.defpath)

    def run(self, script, *words, **environment):
        """The status of a script, and what it wrote to both outputs."""
        process = self.start(script, *words, **environment)
        out, said = process.communicate(timeout=WAITED)
        return process.returncode, out, said

    def steps(self):
        """What rt did since this was asked last."""
        text = self.log.read_text() if self.log.exists() else ""
        self.log.write_text("")
        return text.splitlines()

    def wait_for(self, step):
        """Waits until rt has come to this step."""
        end = time.time() + WAITED
        while time.time() < end and step not in (self.log.read_text() if self.log.exists() else "").splitlines():
            time.sleep(0.05)

    def out(self, name):
        return self.top / "crates" / name / "out"

    def change(self, file, seconds=0):
        (self.top / "crates" / file).write_text("changed\n")
        os.utime(self.top / "crates" / file, (time.time() + seconds,) * 2)


@contextlib.contextmanager
def checkout(**how):
    with tempfile.TemporaryDirectory() as folder:
        yield Checkout(Path(folder), **how)


NOT_PROVED = "deny: this program is compiled and not proved here; ./prove proves it\n"
COMPILING = "deny: compiling the program, which takes some minutes the first time\n"
REFUSES = "deny: the proved program is not here, or older than its sources; ./prove builds it\n"


def answer(which, at, *words):
    """What a program of the stand-in writes."""
    return "".join("%s|" % word for word in (which, at.top.parent, *words))


def helps():
    """The page of ./deny, which needs nothing."""
    with checkout(has_rt=False) as at:
        status, out, said = at.run("deny", "--help")
        yield "a page", (status, said, at.run("deny", "-h")), (0, "", (0, out, ""))
        for text in "check [OPTIONS] POLICY METADATA", "--home=", "--registry=", "--today=", "docs/USE.md":
            yield "which has %s" % text, text in out, True


def compiled():
    """./deny where no proved program is."""
    words = ["check", "--home=a b", "p", "", "*"]
    with checkout() as at:
        yield "--proved refuses", at.run("deny", "--proved", *words), (29, "", REFUSES)
        yield "and compiles nothing", at.steps(), []
        first = 6, answer("compiled", at, *words), COMPILING + NOT_PROVED
        yield "the first answer is compiled", at.run("deny", *words), first
        yield "by rt try", at.steps(), ["try deny"]
        again = 6, answer("compiled", at, *words), NOT_PROVED
        yield "the second is at hand", at.run("deny", *words), again
        at.change("low/proofs/Lib.antt")
        yield "another proof changes nothing there", at.run("deny", *words), again
        yield "nothing is compiled for these", at.steps(), []
        at.change("low/src/lib.rt", 1)
        yield "a source that changed is compiled", at.run("deny", *words), first
        yield "by rt try, as before", at.steps(), ["try deny"]
        yield "--proved refuses that too", at.run("deny", "--proved", *words), (29, "", REFUSES)
    with checkout() as at:
        status, out, said = at.run("deny", *words, RT_REFUSED="try")
        yield "sources that do not compile", (status, out), (1, "")
        yield "what rt says of them", said, COMPILING + "error: no such name\ndeny: the program was not compiled\n"
        yield "nothing is kept of them", (at.top / "out/compiled").exists(), False
    with checkout() as at:
        (at.top / "out").write_text("no folder")
        status, out, said = at.run("deny", *words)
        yield "no folder to keep it in", (status, out, "deny: the program was not kept: " in said), (1, "", True)
    with checkout(has_rt=False) as at:
        status, out, said = at.run("deny", *words)
        yield "no rt", (status, out, "there is no rt" in said), (1, "", True)


def proved():
    """./deny where the proved program is."""
    with checkout() as at:
        at.run("prove")
        at.steps()
        wanted = 6, answer("proved", at, "check", "p"), ""
        yield "the proved program answers", at.run("deny", "check", "p"), wanted
        yield "with --proved too", at.run("deny", "--proved", "check", "p"), wanted
        (at.top.parent / "link").symlink_to(at.top / "deny")
        yield "and by a link", at.run("../link", "check", "p"), wanted
        for file in "crates.txt", "crates/left/proofs/Lib.antt", "crates/low/src/lib.rt", "crates/high/specs":
            os.utime(at.top / file, (time.time() + 1,) * 2)
            yield "not after a change of %s" % file, at.run("deny", "--proved", "check", "p"), (29, "", REFUSES)
            at.back_in_time()
        (at.top / "crates/left/proofs/Lib.antt").unlink()
        yield "nor without one of its files", at.run("deny", "--proved", "check", "p"), (29, "", REFUSES)


LIBRARIES = ["low", "left", "right", "high"]


def is_in_order(steps):
    """Whether each crate began behind the end of those below it."""
    place = {step: number for number, step in enumerate(steps)}
    pairs = [("low", "left"), ("low", "right"), ("left", "high"), ("right", "high"), ("high", "deny")]
    return all(place.get("end %s" % below, len(steps)) < place.get("begin %s" % above, -1) for below, above in pairs)


def most_at_once(steps):
    running, most = 0, 0
    for step in steps:
        running += {"begin": 1, "end": -1}.get(step.split()[0], 0)
        most = max(most, running)
    return most


def all_of_it():
    """./prove from nothing, and again."""
    with checkout() as at:
        status, out, said = at.run("prove", "--jobs", "2", RT_MEET="left right")
        steps = at.steps()
        yield "all is proved", (status, said), (0, "")
        wanted = ["%s %s" % (step, name) for step in ("begin", "end") for name in ("deny", *sorted(LIBRARIES))]
        yield "each crate once", sorted(steps), wanted
        yield "those below first", is_in_order(steps), True
        yield "two at a time", most_at_once(steps), 2
        begun = [line for line in out.splitlines() if line.endswith(": begins")]
        yield "each is named", sorted(begun), sorted("%s: begins" % name for name in [*LIBRARIES, "deny"])
        done = [re.sub(r"in \d+ s", "in S", line) for line in out.splitlines() if " of 5)" in line]
        yield "with what was proved", done[0], "low: proved, 3 functions, in S (1 of 5)"
        yield "and how many of how many", done[-1], "deny: proved, 4 functions, in S (5 of 5)"
        yield "and all at the end", "prove: proved: 5 crates, 20 functions, by a stand-in kit, in " in out, True
        text = (at.out("deny") / "proved.txt").read_text()
        yield "which is written too", text.splitlines()[:2], ["proved: 5 crates, 20 functions", "kit: a stand-in kit"]
        yield "no folder of a proof is left", (at.top / "out/prove").exists(), False
        status, out, said = at.run("prove")
        yield "again: it is there", (status, "is there already" in out, at.steps()), (0, True, [])
        at.change("left/src/lib.rt", -50)
        os.utime(at.out("deny") / "deny", (time.time() - 90,) * 2)
        status, out, said = at.run("prove", "--jobs", "1")
        steps = [step for step in at.steps() if step.startswith("begin")]
        yield "a change: what stands on it is proved", steps, ["begin left", "begin high", "begin deny"]
        yield "the others are named", "low: was proved already (1 of 5)" in out, True
        yield "and counted", "5 crates, 20 functions," in out, True
    for memory, jobs in (2**20, "1"), (2**50, "2"):
        with checkout() as at:
            at.wants(memory)
            at.run("prove", "--jobs", jobs)
            yield "one at a time, with %s and %d bytes for each" % (jobs, memory), most_at_once(at.steps()), 1


def parts():
    """./prove of some crates, and words that are not accepted."""
    with checkout() as at:
        status, out, said = at.run("prove", "left")
        yield "one crate and those below", (status, at.steps()), (0, ["begin low", "end low", "begin left", "end left"])
        yield "is no program", at.run("deny", "--proved")[0], 29
        yield "a program of cases is proved", (at.run("prove", "cases")[0], "end cases" in at.steps()), (0, True)
        for words in ["none"], ["--jobs"], ["--jobs", "0"], ["--jobs", "x"], ["--fast"]:
            yield "prove %s" % " ".join(words), at.run("prove", *words)[:2], (2, "")
    with checkout(has_rt=False) as at:
        status, out, said = at.run("prove")
        yield "prove without rt", (status, "there is no rt" in said), (2, True)


def failures():
    """./prove where a crate is refused, where it is stopped or killed, and where sources change meanwhile."""
    with checkout() as at:
        status, out, said = at.run("prove", RT_REFUSED="right")
        yield "a crate that is refused", (status, "prove: right: not proved" in said), (1, True)
        yield "with what rt said", "error: a goal of right is open" in said, True
        yield "nothing begins above it", [step for step in at.steps() if step.endswith(("high", "deny"))], []
        yield "and no program is there", at.run("deny", "--proved")[0], 29
        yield "the next goes on from there", at.run("prove", "--jobs", "1")[0], 0
        begun = [step for step in at.steps() if step.startswith("begin")]
        yield "with what is left", begun[-3:], ["begin right", "begin high", "begin deny"]
        yield "but not with the first", "begin low" in begun, False
    with checkout() as at:
        yield "a program that is refused", at.run("prove", RT_REFUSED="deny")[0], 1
        yield "is not there in half", (at.out("deny") / "deny").exists(), False
    with checkout() as at:
        process = at.start("prove", RT_SLOW="high")
        at.wait_for("begin high")
        status = at.run("prove")[0]
        yield "another at the same time", status, 2
        process.send_signal(signal.SIGTERM)
        out, said = process.communicate(timeout=WAITED)
        yield "a stop", (process.returncode, said), (1, "prove: high: stopped; the same command goes on from here\n")
        yield "leaves no folder", (at.top / "out/prove").exists(), False
        at.steps()
        yield "and goes on", at.run("prove")[0], 0
        yield "from there", at.steps(), ["begin high", "end high", "begin deny", "end deny"]
    with checkout() as at:
        process = at.start("prove", RT_SLOW="deny")
        at.wait_for("begin deny")
        process.kill()
        process.communicate(timeout=WAITED)
        at.steps()
        yield "killed: no program", at.run("deny", "--proved")[0], 29
        yield "killed: it goes on", at.run("prove")[0], 0
        yield "killed: from there", at.steps(), ["begin deny", "end deny"]
        yield "killed: what was kept is there", (at.out("deny") / "incremental").is_dir(), True
    with checkout() as at:
        status, out, said = at.run("prove", RT_EDIT=str(at.top / "crates/low/src/lib.rt"))
        wanted = "prove: sources have changed meanwhile: run it again\n"
        yield "sources that change meanwhile", (status, said), (1, wanted)
        yield "are not proved", at.run("deny", "--proved")[0], 29
        yield "until they are", (at.run("prove")[0], at.run("deny", "--proved", "check", "p")[0]), (0, 6)


FILES = {
    "bin/burkativ": 0o755, "bin/burkativ-show": 0o755, "bin/burkativ-table": 0o755, "bin/cargo-burkativ": 0o755,
    "share/burkativ/PROVED": 0o644, "share/burkativ/README.md": 0o644, "share/burkativ/LICENSE-MIT": 0o644,
    "share/burkativ/LICENSE-APACHE": 0o644,
    "share/burkativ/docs/USE.md": 0o644,
}


TEXTS = ("LICENSE-MIT", "LICENSE-APACHE", "cargo-burkativ", "tools/users/replacement_table.py")
LINK = re.compile(r"\[([^]]*)\]\(([^)#]*)[^)]*\)")


def dead_links(folder):
    """The links of pages to files that are not there, but for other pages, of which a small repository has one."""
    pages = [page for page in folder.rglob("*.md")]
    links = [(page, target) for page in pages for _, target in LINK.findall(page.read_text()) if target]
    others = {page.name for page in (TOP / "docs").glob("*.md")}
    return [target for page, target in links if not (page.parent / target).exists() and Path(target).name not in others]


def words_of(page):
    """A page without its links."""
    return LINK.sub(r"\1", page.read_text())


def modes(prefix):
    return {str(one.relative_to(prefix)): one.stat().st_mode & 0o777 for one in prefix.rglob("*") if one.is_file()}


def installed():
    """./install."""
    with checkout() as at:
        for file in (*TEXTS, "README.md", "docs/USE.md"):
            os.makedirs((at.top / file).parent, exist_ok=True)
            (at.top / file).write_text("%s, " % file + (TOP / file).read_text())
        prefix = at.top.parent / "prefix"
        for words in [], ["prefix"], ["/a", "/b"]:
            yield "install %s" % " ".join(words), at.run("install", *words)[:2], (2, "")
        yield "what is not proved", at.run("install", str(prefix))[:2], (1, "")
        at.run("deny", "check", "p")
        yield "what is compiled", at.run("install", str(prefix))[:2], (1, "")
        at.run("prove")
        proof = at.out("deny") / "proved.txt"
        kept = proof.read_text()
        proof.write_text(kept.replace("sha256 ", "sha256 0"))
        yield "what another program proved", at.run("install", str(prefix))[:2], (1, "")
        yield "nothing is written for these", prefix.exists(), False
        at.run("prove")
        yield "./prove writes that anew", proof.read_text().splitlines()[-6], kept.splitlines()[-6]
        yield "what is proved", at.run("install", str(prefix))[0], 0
        yield "has its files", modes(prefix), FILES
        yield "the program", (prefix / "bin/burkativ").read_bytes(), (at.out("deny") / "deny").read_bytes()
        yield "pages without dead links", dead_links(prefix / "share/burkativ"), []
        yield "which say the same", words_of(prefix / "share/burkativ/docs/USE.md"), words_of(at.top / "docs/USE.md")
        yield "and what was proved", (prefix / "share/burkativ/PROVED").read_text(), proof.read_text()
        staged = at.top.parent / "staged"
        yield "below DESTDIR", (at.run("install", "/usr", DESTDIR=str(staged))[0], modes(staged / "usr")), (0, FILES)


def situations():
    for part in helps, compiled, proved, all_of_it, parts, failures, installed:
        yield from part()


def main():
    failed = False
    for name, got, wanted in situations():
        failed = failed or got != wanted
        print("%s: %s" % (name, "as it should be" if got == wanted else "%r where %r was to come" % (got, wanted)))
    sys.exit(failed)


if __name__ == "__main__":
    main()
