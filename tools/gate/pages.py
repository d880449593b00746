#!/usr/bin/env python3
"""Says whether ./show makes of lines what its page says: which findings it shows, how it cuts trees, colours,
annotations on GitHub, keys that are refused, and how it runs the program.

    tools/gate/pages.py     for each of these a line: that it is as it should be, or what came in its place

What is wanted is written here by hand. A copy of ./show runs beside a stand-in for the program, so nothing is compiled.
"""

import json
import os
import pty
import shutil
import signal
import subprocess
import sys
import tempfile
import time
from pathlib import Path

TOP = Path(__file__).resolve().parents[2]
POLICY = 'bans.deny = ["a",\n  "b"]\n'
# A stand-in for the program: its words on standard error, then a verdict, and a status of its own.
STAND_IN = """#!/bin/sh
echo "${0##*/} $*" >&2
echo '{"fields":{"bits":2,"verdict":"fail"},"type":"verdict"}'
exit 4
"""


def line(kind_of_line, /, **fields):
    return json.dumps({"fields": fields, "type": kind_of_line}) + "\n"


def diagnostic(severity, code="banned", message="crate 'a' is banned", **more):
    return line("diagnostic", code=code, graphs=more.pop("graphs", []), message=message, severity=severity, **more)


def label(row, column, span, message=""):
    return {"line": row, "column": column, "span": span, "message": message}


def verdict(bits=0):
    return line("verdict", bits=bits, verdict="fail" if bits else "pass")


def faulty_key(key, kind):
    fault = {"start": 5, "end": 9, "key": key, "kind": kind}
    return line("stop", stop="config", faults=[fault])


def unknown_key(key):
    return faulty_key(key, "unknown")


def krate(name, *parents, **more):
    node = {"Krate": {"name": name, "version": "1.0.0"}, **more}
    return {**node, "parents": list(parents)} if parents else node


def chain(length):
    """A tree of so many crates, each of which needs the one before."""
    node = krate("c%d" % (length - 1))
    for number in reversed(range(length - 1)):
        node = krate("c%d" % number, node)
    return node


def shown(options, lines, **environment):
    """The status of ./show over lines, and what it wrote to a pipe."""
    words = [sys.executable, TOP / "show", *options]
    run = subprocess.run(words, input=lines.encode(), capture_output=True, env={**CLEAN, **environment})
    return run.returncode, run.stdout.decode() + run.stderr.decode()


def on_terminal(options, lines, **environment):
    """What ./show wrote of lines to a terminal."""
    main, other = pty.openpty()
    words = [sys.executable, TOP / "show", *options]
    with subprocess.Popen(words, stdin=subprocess.PIPE, stdout=other, env={**CLEAN, **environment}) as run:
        run.stdin.write(lines.encode())
        run.stdin.close()
        run.wait()
    os.close(other)
    written = b""
    try:
        while piece := os.read(main, 4096):
            written += piece
    except OSError:  # how a terminal ends whose other side is closed
        pass
    os.close(main)
    return written.decode().replace("\r\n", "\n")


CLEAN = {name: value for name, value in os.environ.items() if name not in ("NO_COLOR", "TERM")} | {"TERM": "xterm"}
FINDINGS = diagnostic("error") + diagnostic("note", "skipped", "crate 'b' skipped") + diagnostic("help") + verdict(2)
ERROR = "p.toml: error[banned]: crate 'a' is banned\n"
ALL = ERROR + "p.toml: note[skipped]: crate 'b' skipped\np.toml: help[banned]: crate 'a' is banned\n"
COUNTED = "1 error, 1 note, 1 help%s; verdict: fail\n"
AT = ["--policy=p.toml"]


def severities():
    wanted = ERROR + COUNTED % " (--notes shows all)"
    yield "errors are shown, and notes and helps counted", shown(AT, FINDINGS), (2, wanted)
    for flag in "--notes", "-v":
        yield "all is shown with %s" % flag, shown([flag, *AT], FINDINGS), (2, ALL + COUNTED % "")
    lines = diagnostic("bug") + diagnostic("warning") + verdict()
    wanted = "p.toml: bug[banned]: crate 'a' is banned\np.toml: warning[banned]: crate 'a' is banned\n"
    yield "bugs and warnings are shown", shown(AT, lines), (0, wanted + "1 bug, 1 warning; verdict: pass\n")
    others = line("dead", start=13, end=14, kind="skip") + line("unread", crate=None, path="/x", purpose="manifest")
    others += line("malformed", path="/y") + verdict()
    wanted = "p.toml: bytes 13..14: dead[skip]: \n/x: unread[manifest]\n/y: malformed: this is no TOML\n"
    wanted = wanted.replace(": \n", "\n") + "no findings; verdict: pass\n"
    yield "dead, unread and malformed are shown", shown(AT, others), (0, wanted)


def drawn(tree, *options):
    """The lines that ./show draws of a tree."""
    return shown([*AT, *options], diagnostic("error", graphs=[tree]) + verdict(2))[1].splitlines()[1:-1]


def rows(*names):
    """The lines of a chain of these crates."""
    return ["    " + ("    " * (level - 1) + "└── " if level else "") + name for level, name in enumerate(names)]


def others(number):
    return "    .. %d more in this tree (--notes shows all)" % number


def deep_chain(length):
    """A line with a chain of so many crates, which nests too deep for Python to write it."""
    crates = ['{"Krate":{"name":"c%d","version":"1.0.0"}' % number for number in range(length)]
    tree = ',"parents":['.join(crates) + "}" + "]}" * (length - 1)
    return diagnostic("error", graphs=["HERE"]).replace('"HERE"', tree)


def trees():
    crates = ["c%d v1.0.0" % number for number in range(30)]
    yield "a tree of ten levels is whole", drawn(chain(11)), rows(*crates[:11])
    cut = rows(*crates[:10], crates[10] + " ..")
    yield "one of eleven is cut", drawn(chain(12)), [*cut, others(1)]
    yield "and whole with --notes", drawn(chain(12), "--notes"), rows(*crates[:12])
    deep = shown(AT, deep_chain(20000) + verdict(2))[1].splitlines()[1:-1]
    yield "a chain of 20,000 is cut", deep, [*cut, others(19989)]
    leaves = [krate("l%d" % number) for number in range(20)]
    branches = ["    ├── l%d v1.0.0" % number for number in range(18)]
    wanted = ["    c v1.0.0", *branches, "    └── l18 v1.0.0"]
    yield "a tree of 20 lines is whole", drawn(krate("c", *leaves[:19])), wanted
    wanted = ["    c v1.0.0 ..", *branches, "    └── l18 v1.0.0", others(1)]
    yield "one of 21 is cut", drawn(krate("c", *leaves)), wanted
    yield "and has 21 with --notes", len(drawn(krate("c", *leaves), "--notes")), 21
    again = krate("deep", repeat=True)
    found = drawn(krate("c", krate("deep", krate("d")), again))
    yield "what is above is marked", found[-1], "    └── deep v1.0.0 (*)"
    first = chain(10)
    first["parents"][0]["parents"] = [krate("e", krate("f", krate("g", krate("deep", *leaves[:12]))))]
    cut = drawn(krate("c", first, again, *leaves[:16]))
    yield "what was to be above and is left out is not", "    ├── deep v1.0.0 .." in cut, True
    yield "a wide tree is cut to 20 lines and one", len(drawn(krate("c", *leaves, krate("d", *leaves)))), 21


PAINTED = "p.toml: \x1b[1;31merror[banned]\x1b[0m: \x1b[1mcrate 'a' is banned\x1b[0m\n"


def colours():
    lines = diagnostic("error") + verdict(2)
    end = "\x1b[1;31m1 error\x1b[0m; \x1b[1;31mverdict: fail\x1b[0m\n"
    plain = ERROR + "1 error; verdict: fail\n"
    yield "colours on a terminal", on_terminal(AT, lines), PAINTED + end
    yield "none in a pipe", shown(AT, lines), (2, plain)
    yield "none with NO_COLOR", on_terminal(AT, lines, NO_COLOR="1"), plain
    yield "an empty NO_COLOR says nothing", on_terminal(AT, lines, NO_COLOR=""), PAINTED + end
    yield "none on a terminal that has none", on_terminal(AT, lines, TERM="dumb"), plain
    yield "none with --color=never", on_terminal(["--color=never", *AT], lines), plain
    always = shown(["--color", "always", *AT], lines, NO_COLOR="1")
    yield "some with --color=always, whatever else is said", always, (2, PAINTED + end)
    for severity, colour in ("warning", 33), ("note", 32), ("help", 36), ("bug", 31):
        painted = shown(["--notes", "--color=always", *AT], diagnostic(severity) + verdict())[1]
        yield "the colour of %s" % severity, "\x1b[1;%dm%s[banned]\x1b[0m" % (colour, severity) in painted, True


def annotations(folder):
    policy = folder / "a,b:c%.toml"
    policy.write_text(POLICY)
    github = ["--format=github", "--policy", str(policy)]
    file = str(folder) + "/a%2Cb%3Ac%25.toml"
    place = "file=%s,line=1,col=13,endLine=1,endColumn=14" % file
    at_a = [label(1, 13, "a")]
    one = diagnostic("error", message="100% of 'a', at once: x::y", labels=at_a, notes=["first\nsecond"])
    wanted = "::error title=banned,%s::100%%25 of 'a', at once: x::y%%0Anote: first%%0A      second\n" % place
    wanted += "1 error; verdict: fail\n"
    yield "an error with its place and what is below it", shown(github, one + verdict(2)), (2, wanted)
    for severity, command in ("bug", "error"), ("warning", "warning"), ("note", "notice"), ("help", "notice"):
        found = shown([*github, "--notes"], diagnostic(severity, labels=at_a) + verdict())[1]
        wanted = "::%s title=banned,%s::crate 'a' is banned" % (command, place)
        yield "%s is %s" % (severity, command), found.split("\n")[0], wanted
    found = shown(github, diagnostic("note") + verdict())[1]
    yield "notes are counted alone", found, "1 note (--notes shows all); verdict: pass\n"
    several = diagnostic("error", labels=[label(1, 13, 'a",\n  "b')]) + verdict(2)
    found = shown(github, several)[1]
    yield "a range of two lines", "line=1,col=13,endLine=2::" in found, True
    dead = line("dead", start=13, end=14, kind="skip") + line("dead", start=20, end=21, kind="skip") + verdict()
    found = shown(github, dead)[1].splitlines()
    wanted = "::notice title=dead[skip],%s::this entry allowed nothing, and can be taken out: " % place
    yield "an entry that is dead", found[0], wanted.replace("13", "14").replace("Column=14", "Column=15") + '"'
    yield "and one of the second line", "line=2,col=3,endLine=2,endColumn=4::" in found[1], True
    unread = shown(github, line("unread", crate="x = 1.0.0", path="./x/../y", purpose="manifest") + verdict())[1]
    wanted = "::warning title=unread[manifest],file=y::this could not be read: crate 'x = 1.0.0'"
    yield "a file that is not read", unread.split("\n")[0], wanted
    gone = shown(["--format=github", "--policy=nowhere"], unknown_key("bans.x"))[1].split("\n")[0]
    wanted = "::error title=unknown,file=nowhere::bytes 5..9%0Abans.x: there is no such key"
    yield "a policy that is not there", gone, wanted
    usage = shown(github, line("stop", stop="usage", at=0))[1]
    yield "a stop without a place", usage.startswith("::error title=usage::word 1 is missing"), True
    hostile = diagnostic("error", message="x\n::error::y\r", graphs=[krate("::stop-commands::z\n::error::")])
    found = shown(github, hostile + verdict(2))[1].splitlines()
    yield "no text of the metadata is a command", [one[:7] for one in found], ["::error", "1 error"]


REFUSED = [
    "licenses.clarify", "licenses.private.ignore-sources", "licenses.include-build",
    "licenses.unused-license-exception", "licenses.unlicensed", "licenses.copyleft", "licenses.default",
    "licenses.deny", "licenses.allow-osi-fsf-free",
]


def refused_keys():
    for key in REFUSED:
        status, text = shown(AT, unknown_key(key))
        wanted = "p.toml: bytes 5..9: error[unknown]: %s: " % key
        wanted += "cargo-deny has this key, and this program refuses it; take it out"
        yield "%s is known and refused" % key, (status, text[: len(wanted)]), (19, wanted)
    for key in "bans.clarify", "licenses.exceptions.0.clarify", "licenses.clarified":
        wanted = "p.toml: bytes 5..9: error[unknown]: %s: there is no such key\n1 error; stopped: config\n" % key
        yield "%s is unknown" % key, shown(AT, unknown_key(key)), (19, wanted)


def waivers():
    labels = [label(3, 5, "2026-01-31", "expired here"), label(3, 20, "for now", "reason")]
    expired = diagnostic("warning", "waiver-expired", "waiver 'a = 1' expired on 2026-01-31", labels=labels)
    wanted = "p.toml:3:5: warning[waiver-expired]: waiver 'a = 1' expired on 2026-01-31\n"
    wanted += "    p.toml:3:20: reason: for now\n1 warning; verdict: pass\n"
    yield "a waiver that expired", shown(AT, expired + verdict()), (0, wanted)
    wanted = "p.toml: bytes 5..9: error[no-today]: bans.skip.0.expires: whether this day is past cannot be told, since "
    wanted += "none was handed in: --today=YYYY-MM-DD does it\n1 error; stopped: config\n"
    yield "a day, and none at hand", shown(AT, faulty_key("bans.skip.0.expires", "no-today")), (19, wanted)


def options():
    for words in ["--colour=never"], ["--color=blue"], ["--format"], ["--format=xml"], ["--notes=1"], ["-x", "check"]:
        yield "%s is no option" % " ".join(words), shown(words, verdict())[0], 16
    status, text = shown(["--help"], "")
    yield "--help says what is accepted", (status, "--notes, -v" in text), (0, True)
    yield "lines without an end", shown([], "")[0], 1


def beside(folder, name, program, words):
    """The status of a copy of ./show with a stand-in beside it, and what it wrote."""
    copy = shutil.copy(TOP / "show", folder / name)
    if program:
        (folder / program).write_text(STAND_IN)
        (folder / program).chmod(0o755)
    run = subprocess.run([sys.executable, copy, *words], capture_output=True, text=True)
    return run.returncode, run.stdout, run.stderr


def programs(folder):
    for name in "checkout", "prefix", "empty":
        (folder / name).mkdir()
    checkout, prefix, end = folder / "checkout", folder / "prefix", "no findings; verdict: fail\n"
    words = ["check", "--home=h", "p", "m"]
    yield "it runs ./deny", beside(checkout, "show", "deny", words), (4, end, "deny check --home=h p m\n")
    proved = beside(checkout, "show", "deny", ["--proved", *words])
    yield "and hands --proved to it", proved, (4, end, "deny --proved check --home=h p m\n")
    installed = beside(prefix, "burkativ-show", "burkativ", ["--proved", *words])
    yield "installed, it runs the program itself", installed, (4, end, "burkativ check --home=h p m\n")
    status, out, said = beside(folder / "empty", "show", None, words)
    yield "without a program it says so", (status, out, "does not start" in said), (1, "", True)


# Stand-ins: one that writes lines and does not end, one that says how much it reads, and one that waits for another.
WRITES = """#!/bin/sh
echo $$ >pid
while :; do echo '{"fields":{"path":"/x"},"type":"malformed"}'; done
"""
COUNTS = """#!/bin/sh
echo '{"fields":{"path":"/'$(wc -c </dev/stdin)'"},"type":"malformed"}'
"""
WAITS = """#!/bin/sh
sleep 1000 &
echo $! >pid
echo begun >&2
wait
"""


def is_gone(number):
    """Whether a process ends in some seconds."""
    end = time.time() + 20
    while time.time() < end and os.path.exists("/proc/%s" % number):
        time.sleep(0.05)
    return not os.path.exists("/proc/%s" % number)


def ended_early(folder, program, end):
    """The status of ./show that ends before its program does, and whether all that it ran is gone."""
    (folder / "deny").write_text(program)
    (folder / "deny").chmod(0o755)
    words = [sys.executable, shutil.copy(TOP / "show", folder / "show"), "check", "p", "m"]
    how = {"stdout": subprocess.PIPE, "stderr": subprocess.PIPE, "cwd": folder}
    with subprocess.Popen(words, **how) as run:
        end(run)
        status = run.wait(60)
    return status, is_gone((folder / "pid").read_text().strip())


def close_after_a_line(output):
    output.readline()
    output.close()


def send(number):
    """Waits for what the program says first, and sends a signal."""
    return lambda run: (run.stderr.readline(), run.send_signal(number))


def handed_on(folder):
    """What ./show is given on standard input is there for the program, as /dev/stdin."""
    folder.mkdir()
    (folder / "deny").write_text(COUNTS)
    (folder / "deny").chmod(0o755)
    words = [sys.executable, shutil.copy(TOP / "show", folder / "show"), "check", "p", "/dev/stdin"]
    out = subprocess.run(words, input=b"12345", capture_output=True, cwd=folder, timeout=60).stdout
    yield "standard input", out.splitlines()[0], b"/5: malformed: this is no TOML"


def endings(folder):
    """Where nobody reads on, or a signal comes, all that was run ends."""
    for name, program, end, status in (
        ("nobody reads on", WRITES, lambda run: close_after_a_line(run.stdout), -signal.SIGPIPE),
        ("nobody reads what it says", WAITS, lambda run: run.stderr.close(), -signal.SIGPIPE),
        ("an interrupt", WAITS, send(signal.SIGINT), -signal.SIGINT),
        ("SIGTERM", WAITS, send(signal.SIGTERM), 128 + signal.SIGTERM),
        ("SIGHUP", WAITS, send(signal.SIGHUP), 128 + signal.SIGHUP),
    ):
        (folder / name).mkdir()
        yield name, ended_early(folder / name, program, end), (status, True)


def situations(folder):
    yield from severities()
    yield from trees()
    yield from colours()
    yield from annotations(folder)
    yield from refused_keys()
    yield from waivers()
    yield from options()
    yield from handed_on(folder / "standard input")
    yield from endings(folder)
    yield from programs(folder)


def main():
    failed = False
    with tempfile.TemporaryDirectory() as folder:
        os.chdir(folder)
        for name, got, wanted in situations(Path(folder)):
            failed = failed or got != wanted
            print("%s: %s" % (name, "as it should be" if got == wanted else "%r where %r was to come" % (got, wanted)))
    sys.exit(failed)


if __name__ == "__main__":
    main()
