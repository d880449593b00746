"""The checks that run the proved program, `./deny`, and those of what is written of it: the examples and their pages.

Each is a check of its own in the table of `.ci/own`; checks.py says what that is.
"""

import hashlib
import json
import os
import re
import shutil
import subprocess
from collections import defaultdict
from pathlib import Path

from checks import GATE, TOP, Check, Comparison, LeftOut, output_of, program_of, run, tool, with_status

DENY = [TOP / "deny", "--proved"]
SHOW = TOP / "show"
READINGS = tool("cases/check_cases.py")
EXAMPLES = TOP / "examples"


def same(what, wanted, found):
    """A comparison of two numbers or words."""
    return Comparison(what, str(wanted).encode(), str(found).encode())


# ---- an example: texts, the lines that are to be written of them, and the page that shows these


def example(name, lines, status, words, folder=EXAMPLES, page=()):
    """Two checks of an example: that its lines are what the readings expect and its page what ./show makes of them, and
    that the program writes these lines. The words are those behind `check`, and `page` those for ./show."""
    given = lines, status, words, folder, page
    return (
        Check("example-" + name, lambda _: written(*given)),
        Check("run-" + name, lambda _: written_by_deny(*given), needs=("deny",)),
    )


def texts_of(words):
    """The policy and the metadata among the words behind `check`."""
    return [word for word in words if not word.startswith("--")][:2]


def page_of(lines, folder):
    return (folder / lines.replace("expected.jsonl", "shown.txt")).read_bytes()


def written(lines, status, words, folder, page):
    expected = run([*READINGS, "check", *words], folder)
    name, text = "%s/%s" % (folder.name, lines), (folder / lines).read_bytes()
    yield Comparison("%s is what it expects" % name, expected.out + expected.err, text)
    yield same("and status %d" % status, expected.status, status)
    policy, metadata = texts_of(words)
    shown = run([SHOW, *page, "--policy", policy, "--metadata", metadata], folder, text)
    yield Comparison("what ./show makes of %s" % name, page_of(lines, folder), shown.out)
    yield same("with status %d" % status, status, shown.status)


def written_by_deny(lines, status, words, folder, page):
    policy, text = texts_of(words)[0], (folder / lines).read_bytes()
    expected, done = run([*READINGS, "check", *words], folder), run([*DENY, "check", *words], folder)
    yield Comparison("the stop of ./deny on %s" % policy, expected.err, done.err)
    yield Comparison("the lines of ./deny on %s" % policy, text, done.out + done.err)
    yield same("its status is %d" % status, status, done.status)
    shown = run([SHOW, *page, "check", *words], folder)
    yield Comparison("what ./show makes of a run on %s" % policy, page_of(lines, folder), shown.out)
    yield same("with its status %d" % status, status, shown.status)


def registry(_):
    words = ["--registry=own=https://example.org/index", "deny.toml", "metadata.json"]
    folder = EXAMPLES / "workspace"
    expected = (folder / "expected.jsonl").read_bytes()
    yield Comparison(
        "a registry among the words changes nothing for it", expected, run([*DENY, "check", *words], folder).out
    )


# ---- what else stands in examples/, and what a page shows of them


def replacement_table(folder):
    made = folder / "table"
    output_of([TOP / "tools/users/replacement_table.py", "replacements.json", made], EXAMPLES)
    told = (EXAMPLES / "replacements.bin").read_bytes()
    yield Comparison("examples/replacements.bin is what its text says", in_hex(made.read_bytes()), in_hex(told))


def in_hex(raw):
    """Bytes as text, 16 in a line."""
    return "".join("%s\n" % raw[at : at + 16].hex(" ") for at in range(0, len(raw), 16)).encode()


def shown_in(name, page, pages, policy=None):
    """That a page shows lines of what ./show makes of examples, in its blocks without a language, and the policy of one
    whole, where one is named."""

    def compare(_):
        blocks = blocks_of((TOP / page).read_text())
        if policy is not None:
            wanted = (EXAMPLES / policy).read_bytes()
            what = "the policy that %s shows is examples/%s" % (page, policy)
            yield Comparison(what, wanted, blocks["toml"].encode())
        shown = {line for one in pages for line in (EXAMPLES / one).read_text().splitlines()}
        lines = [re.sub("^( *)examples/", r"\1", line) for line in blocks[""].splitlines() if line != "..."]
        strange = [line + "\n" for line in lines if line not in shown] if lines else ["it shows no line\n"]
        yield Comparison("the lines that %s shows stand in the examples" % page, b"", "".join(strange).encode())

    return Check(name, compare)


def blocks_of(text):
    """The blocks of a page, those of one language one after the other."""
    found = defaultdict(str)
    for language, block in re.findall(r"^```([^\n]*)\n(.*?)^```$", text, re.M | re.S):
        found[language] += block
    return found


# ---- runs of the program


def at_hand(folder):
    """A case of the made disk over real files, which are named from the folder at hand."""
    case = "builds: folders that are named from the one at hand"
    wanted = output_of([*READINGS, "files", ".", case], folder)
    found = run([*DENY, "check", "deny.toml", "metadata.json"], folder).out
    yield Comparison("./deny in the folder of a case", wanted, found)


def real_workspace(folder):
    """A workspace of real crates and manifests: made once on a machine, outside the repository, where cargo and
    Debian's sources are."""
    made = real_workspace_at()
    if not (made / "metadata.json").is_file():
        yield LeftOut("a workspace of real crates, which needs cargo and Debian's sources of crates")
        return
    for policy in sorted(made.glob("*.deny.toml")):
        words = ["check", "--home=/usr/share/cargo", policy, made / "metadata.json"]
        expected, done = run([*READINGS, *words]), run([*DENY, *words])
        yield Comparison(
            "the lines of ./deny on a workspace of real crates, %s" % policy.name,
            with_status(expected.out, expected.status), with_status(done.out, done.status),
        )


def real_workspace_at():
    """Where the workspace is, which is made if it is not there and can be."""
    maker = GATE / "real_workspace"
    cache = Path(os.environ.get("XDG_CACHE_HOME") or Path(os.environ.get("HOME") or "/tmp") / ".cache")
    made = cache / "burkativ" / ("real-workspace-%s" % hashlib.sha256(maker.read_bytes()).hexdigest()[:16])
    if not (made / "metadata.json").is_file() and shutil.which("cargo"):
        shutil.rmtree(made, ignore_errors=True)
        run(["timeout", "300", maker, made])
    return made


def stops(rows):
    """That nothing but a stop is written: of each row what is given, what the stop says, the status and the words."""

    def compare(folder):
        (folder / "std.toml").write_text("[bans.std-replacements]\n")
        for what, fields, status, *words in rows:
            done = run([*DENY, *(word.format(folder=folder) for word in words)], EXAMPLES)
            yield Comparison("%s: no lines" % what, b"", done.out)
            yield Comparison("but a stop", b'{"fields":{%s},"type":"stop"}\n' % fields.encode(), done.err)
            yield same("and status %d" % status, status, done.status)

    return Check("stops", compare, needs=("deny",))


def long_policy(folder):
    """A text of several MiB comes in many pieces: each line of it differs, and what is wrong stands at its end."""
    policy = folder / "long.toml"
    lines = "".join("# line %07d of a long policy\n" % number for number in range(1, 150001))
    policy.write_text(lines + "[bans]\nnobody-knows-this = 1\n")
    words = ["check", policy, "metadata.json"]
    wanted, found = run([*READINGS, *words], EXAMPLES).err, run([*DENY, *words], EXAMPLES).err
    yield Comparison("what is wrong at the end of a long policy", wanted, found)


def full_disk(_):
    with open("/dev/full", "wb") as full:
        done = run([*DENY, "check", "deny.toml", "metadata.json"], EXAMPLES, out=full)
    yield Comparison("on a full disk it tells so", b'{"fields":{"stop":"write"},"type":"stop"}\n', done.err)
    yield same("and its status is 23", 23, done.status)


def no_text(_):
    words = ["check", b"\xff", "metadata.json"]
    done, shown = run([*DENY, *words], EXAMPLES), run([SHOW, *words], EXAMPLES)
    yield same("words that are no text end with status 28", 28, done.status)
    yield Comparison("and nothing is written", b"", done.out + done.err)
    yield same("./show ends as ./deny does, where that writes nothing", 28, shown.status)
    yield Comparison("and shows nothing", b"", shown.out + shown.err)


def no_lines(_):
    yield same("./show of lines without an end has status 1", 1, run([SHOW]).status)


def borrowed(_):
    """A string without escapes is a range of the text that was read: with an escape it takes a copy of its own."""
    one, copied = peak_of_string("x"), peak_of_string("\\u0078")
    is_less = one + 24 * 1024 < copied
    found = "yes" if is_less else "no: %d KiB, a copy %d KiB" % (one, copied)
    yield same("a string of TOML without escapes is borrowed", "yes", found)


def peak_of_string(last):
    """The most memory, in KiB, for a text of TOML with a string of 32 MiB, whose last character is written so."""
    given = json.dumps('a = "%s%s"\n' % ("x" * 2**25, last)) + "\n"
    done = run([*tool("peak_memory.py"), program_of("deny_cases_toml")], given=given.encode())
    return int(done.out)
