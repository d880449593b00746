#!/usr/bin/env python3
"""Says whether cargo-burkativ does what it is to do, in workspaces that are made for it and with the real cargo.

    tools/gate/front_door.py PROGRAM     for each situation a line: that it is as it should be, or what came instead

PROGRAM is the program that ./deny runs. Cargo reaches no network: crates lie in folders, one of a registry is vendored.
What is to come is known from cargo itself (which crates are in a graph, where a registry is), from the program and the
page's tool where they are called without the front door, or from the rules of what is looked for.
"""

import contextlib
import datetime
import json
import os
import pty
import shutil
import signal
import subprocess
import sys
import tempfile
from concurrent.futures import ProcessPoolExecutor
from itertools import repeat
from pathlib import Path

TOP = Path(__file__).resolve().parent.parent.parent
CARGO = shutil.which("cargo")
STOPPED = 32
SECONDS = 120
LINUX, WINDOWS = "x86_64-unknown-linux-gnu", "x86_64-pc-windows-gnu"

# Writes down what it is called with, and then is another program.
RECORDER = """\
#!{python}
import json, os, sys
with open({record!r}, "a") as file:
    file.write(json.dumps(sys.argv[1:]) + "\\n")
os.execv({program!r}, [{program!r}, *(word for word in sys.argv[1:] if word != "--proved")])
"""
PACKAGE = """\
[package]
name = "{name}"
version = "1.0.0"
edition = "2021"
license = "MIT"
publish = false
"""
WORKSPACE = """\
[workspace]
members = ["app", "tool"]
resolver = "2"
"""
APP = PACKAGE.format(name="app") + """
[features]
default = ["standard"]
standard = ["dep:standard"]
more = ["dep:more"]
third = ["dep:third"]

[dependencies]
plain = { path = "../../../crates/plain" }
standard = { path = "../../../crates/standard", optional = true }
more = { path = "../../../crates/more", optional = true }
third = { path = "../../../crates/third", optional = true }

[target.'cfg(unix)'.dependencies]
unixy = { path = "../../../crates/unixy" }

[target.'cfg(windows)'.dependencies]
windowy = { path = "../../../crates/windowy" }
"""
CRATES = ("plain", "standard", "more", "third", "unixy", "windowy")
DENIED = "[bans]\ndeny = %s\n" % json.dumps(CRATES)
PLAIN = '[bans]\ndeny = ["plain"]\n'
PASSES = "[bans]\n"
NO_LICENCES = "cargo-burkativ: licences are not checked, since deny.toml has no [licenses]\n"


def script(path, text):
    """A file that can be run."""
    path.write_text(text)
    path.chmod(0o755)


class Scene:
    """A folder with what is installed, a home of cargo, crates and a workspace."""

    def __init__(self, folder, program):
        self.top, self.program = Path(folder).resolve(), program
        self.shop = self.top / "up/shop"
        for name in "bin", "home", "crates", "elsewhere", "scratch":
            (self.top / name).mkdir()
        shutil.copy(TOP / "cargo-burkativ", self.top / "bin")
        (self.top / "bin/burkativ-show").symlink_to(TOP / "show")
        self.record("bin/burkativ", program)
        self.record("cargo", CARGO)
        for name in CRATES:
            self.write({f"crates/{name}/Cargo.toml": PACKAGE.format(name=name), f"crates/{name}/src/lib.rs": ""})
        self.write({"up/shop/Cargo.toml": WORKSPACE, "up/shop/app/Cargo.toml": APP, "up/shop/app/src/lib.rs": ""})
        self.write({"up/shop/tool/Cargo.toml": PACKAGE.format(name="tool"), "up/shop/tool/src/lib.rs": ""})

    def record(self, path, program):
        """A stand-in that writes down its arguments and then is the program."""
        record = str(self.top / path) + ".called"
        script(self.top / path, RECORDER.format(python=sys.executable, record=record, program=str(program)))

    def called(self, path):
        """What a stand-in was called with, each time."""
        with contextlib.suppress(FileNotFoundError):
            return [json.loads(line) for line in Path(str(self.top / path) + ".called").read_text().splitlines()]
        return []

    def last(self, path):
        """What a stand-in was called with last; nothing where it never was."""
        return (self.called(path) or [[]])[-1]

    def write(self, files):
        """Files by their paths from the top."""
        for path, text in files.items():
            (self.top / path).parent.mkdir(parents=True, exist_ok=True)
            (self.top / path).write_text(text)

    def environment(self, given):
        """The variables of a call: those here but for cargo's and NO_COLOR, and what is given; None takes one away."""
        here = {name: value for name, value in os.environ.items() if not name.startswith(("CARGO", "NO_COLOR"))}
        made = {
            **here, "CARGO": str(self.top / "cargo"), "CARGO_HOME": str(self.top / "home"),
            "CARGO_NET_OFFLINE": "true", "TMPDIR": str(self.top / "scratch"),
            "RUSTUP_HOME": os.environ.get("RUSTUP_HOME", os.path.expanduser("~/.rustup")), **given,
        }
        return {name: value for name, value in made.items() if value is not None}

    def ended(self, words, at="up/shop", out=subprocess.PIPE, **given):
        """The status of a call, and what it wrote on its two outputs."""
        try:
            call = subprocess.run(
                words, cwd=self.top / at, env=self.environment(given), stdin=subprocess.DEVNULL, stdout=out,
                stderr=subprocess.PIPE, timeout=SECONDS, text=True,
            )
        except subprocess.TimeoutExpired:
            return f"no end in {SECONDS} seconds", "", ""
        return call.returncode, call.stdout, call.stderr

    def door(self, *words, tool="bin/cargo-burkativ", **how):
        """A call of the front door."""
        return self.ended([self.top / tool, *words], **how)

    def cargo_says(self, *options, **given):
        """What `cargo metadata` says without the front door."""
        status, out, err = self.ended([CARGO, "metadata", "--format-version=1", *options], **given)
        if status != 0:
            raise ValueError(err)
        return json.loads(out)


def stopped(ended, said):
    """That a call wrote nothing but why it stopped, with these words in its last line."""
    status, out, err = ended
    last = err.splitlines()[-1] if err else ""
    missing = [word for word in said if word not in last]
    got = (status, out, last.startswith("cargo-burkativ: "), f"{last}: without {missing}" if missing else "")
    return got, (STOPPED, "", True, "")


def places(ended):
    """The files of the findings that a page shows."""
    return [line.split(":")[0] for line in ended[1].splitlines() if "error[banned]" in line]


def denied(ended):
    """The crates that lines report as denied."""
    values = [json.loads(line)["fields"] for line in ended[1].splitlines()]
    return sorted(one["graphs"][0]["Krate"]["name"] for one in values if one.get("code") == "banned")


# ---- policies


def policies(scene):
    """Policies by where they stand, the one that counts most first: with each the others behind it are there too."""
    names = ["up/shop/deny.toml", "up/shop/.deny.toml", "up/shop/.cargo/deny.toml"]
    names += ["up/deny.toml", "up/.deny.toml", "up/.cargo/deny.toml", "deny.toml"]
    scene.write({"up/shop/app/deny.toml": PASSES, **{name: PLAIN for name in names}})
    for number, name in enumerate(names):
        shown = str(scene.top / name) if number > 2 else name.removeprefix("up/shop/")
        for at, path in ("up/shop", shown), ("up/shop/app", str(scene.top / name)):
            yield f"a policy at {name}, from {at}", places(scene.door(at=at)), [path]
        (scene.top / name).unlink()
    yield "no policy", *stopped(scene.door(), ["no policy", "deny.toml", ".cargo/deny.toml", "--config"])


def named_policies(scene):
    scene.write({"up/shop/deny.toml": PASSES, "elsewhere/own.toml": PLAIN, "up/shop/-odd.toml": PLAIN})
    for path in "../../elsewhere/own.toml", str(scene.top / "elsewhere/own.toml"):
        yield "a policy that is named", places(scene.door("--config", path)), [path]
    yield "a policy that is named like an option", places(scene.door("--config=-odd.toml")), ["-odd.toml"]
    ended = scene.door("--config=no.toml")
    yield "a named policy that is not there", *stopped(ended, ["no policy at no.toml", "--config"])
    status, out, err = scene.door("--config=app")
    yield "a folder as policy is the program's to report", (status, "app: error[read]" in out, err), (17, True, "")
    (scene.shop / "deny.toml").unlink()
    (scene.shop / "deny.toml").mkdir()
    yield "a folder is no policy that is found", *stopped(scene.door(), ["no policy"])


# ---- workspaces


def workspaces(scene):
    scene.write({"up/shop/deny.toml": PLAIN, "elsewhere/deny.toml": PASSES})
    manifest = str(scene.top / "up/shop/app/Cargo.toml")
    wanted = [str(scene.top / "up/shop/deny.toml")]
    yield "from a folder of a member", places(scene.door(at="up/shop/app/src")), wanted
    for path in manifest, "../up/shop/tool/Cargo.toml", "../up/shop/Cargo.toml":
        ended = scene.door("--manifest-path", path, at="elsewhere")
        yield f"a manifest that is named: ..{path[-15:]}", places(ended), wanted
    yield "no workspace", *stopped(scene.door(at="elsewhere"), ["no workspace", "--manifest-path"])
    ended = scene.door("--manifest-path=none/Cargo.toml")
    yield "a named manifest that is not there", *stopped(ended, ["no manifest at none/Cargo.toml", "--manifest-path"])
    scene.write({"up/shop/app/Cargo.toml": "[package\n"})
    ended = scene.door()
    yield "a broken manifest", *stopped(ended, ["metadata", str(scene.shop), "status 101"])
    yield "and cargo says what is wrong", "app/Cargo.toml" in ended[2].rpartition("cargo-burkativ")[0], True
    scene.write({"up/shop/Cargo.toml": "[workspace\n"})
    yield "a broken manifest of a workspace", *stopped(scene.door(), ["locate-project", str(scene.shop), "status 101"])


def cargos(scene):
    scene.write({"up/shop/deny.toml": PLAIN})
    door = [sys.executable, str(scene.top / "bin/cargo-burkativ")]
    wanted = ["cargo could not be run", "install Rust", "CARGO"]
    yield "no cargo", *stopped(scene.ended(door, CARGO=None, PATH=str(scene.top / "bin")), wanted)
    yield "a cargo that is not there", *stopped(scene.door(CARGO="/nowhere/cargo"), ["/nowhere/cargo", *wanted])
    script(scene.top / "seven", "#!/bin/sh\nexit 7\n")
    yield "a cargo that fails", *stopped(scene.door(CARGO=str(scene.top / "seven")), ["locate-project", "status 7"])
    script(scene.top / "killed", "#!/bin/sh\nkill -9 $$\n")
    yield "a cargo that is killed", *stopped(scene.door(CARGO=str(scene.top / "killed")), ["SIGKILL"])
    yield "cargo of the PATH", places(scene.door(CARGO=None)), ["deny.toml"]
    ended = scene.door(CARGO="../../../../cargo", at="up/shop/app/src")
    yield "a cargo that is named from the folder at hand", ended[0], 2
    bins = f"{scene.top / 'bin'}:{os.environ['PATH']}"
    itself = scene.door()
    yield "as a word of cargo", scene.ended([CARGO, "burkativ"], PATH=bins, CARGO=None), itself
    yield "with the command", scene.ended([CARGO, "burkativ", "check"], PATH=bins, CARGO=None), itself
    yield "the command behind an option", scene.door("--all-features", "check")[0], 2
    yield "the same bytes on every run", scene.door("-v"), scene.door("-v")


# ---- the graph


# Options, or what is written under [graph], and the crates that are in the graph then.
WHOLE = {"plain", "standard", "unixy", "windowy"}
GRAPHS = [
    ([], WHOLE),
    (["--features=more"], WHOLE | {"more"}),
    (["-F", "more"], WHOLE | {"more"}),
    (["--features", "more,third"], WHOLE | {"more", "third"}),
    (["--features", "more third"], WHOLE | {"more", "third"}),
    (["--features=more", "--features=third"], WHOLE | {"more", "third"}),
    (["--all-features"], WHOLE | {"more", "third"}),
    (["--no-default-features"], WHOLE - {"standard"}),
    (["--no-default-features", "--features=third"], WHOLE - {"standard"} | {"third"}),
    (["--filter-platform", LINUX], WHOLE - {"windowy"}),
    (["--filter-platform", WINDOWS], WHOLE - {"unixy"}),
    (["--filter-platform", LINUX, "--filter-platform", WINDOWS], WHOLE),
]
WRITTEN = [
    ("", [], WHOLE),
    ("features = ['more']", [], WHOLE | {"more"}),
    ("features = ['more', 'third']", [], WHOLE | {"more", "third"}),
    ("features = ['more']", ["--features=third"], WHOLE | {"third"}),
    ("all-features = true", [], WHOLE | {"more", "third"}),
    ("all-features = true", ["--features=more"], WHOLE | {"more", "third"}),
    ("all-features = false", ["--all-features"], WHOLE | {"more", "third"}),
    ("no-default-features = true", [], WHOLE - {"standard"}),
    ("no-default-features = true", ["--features=more"], WHOLE - {"standard"} | {"more"}),
    ("no-default-features = false", ["--no-default-features"], WHOLE - {"standard"}),
    ("targets = []", [], WHOLE),
    (f"targets = ['{LINUX}']", [], WHOLE - {"windowy"}),
    (f"targets = [{{ triple = '{WINDOWS}' }}]", [], WHOLE - {"unixy"}),
    (f"targets = [{{ triple = '{WINDOWS}', features = ['avx'] }}]", [], WHOLE - {"unixy"}),
    (f"targets = ['{LINUX}', {{ triple = '{WINDOWS}' }}]", [], WHOLE),
    (f"targets = ['{LINUX}']", [f"--filter-platform={WINDOWS}"], WHOLE - {"unixy"}),
    ("exclude = ['plain']", [], WHOLE),
]
# What is no value of a key under [graph], and the words that say so.
WRONG = [
    ("graph = 1", ["[graph]", "table"]),
    ("[graph]\nall-features = 'yes'", ["all-features", "true or false"]),
    ("[graph]\nno-default-features = 1", ["no-default-features", "true or false"]),
    ("[graph]\nfeatures = 'more'", ["features", "list"]),
    ("[graph]\nfeatures = [1]", ["features", "list"]),
    (f"[graph]\ntargets = '{LINUX}'", ["targets", "list"]),
    ("[graph]\ntargets = [1]", ["targets", "list"]),
    ("[graph]\ntargets = [{ features = [] }]", ["targets", "list"]),
]


def graphs(scene):
    scene.write({"up/shop/deny.toml": DENIED})
    for options, crates in GRAPHS:
        named = " ".join(options) or "without options"
        yield f"the graph {named}", denied(scene.door("--format=json", *options)), sorted(crates)
    for text, options, crates in WRITTEN:
        scene.write({"up/shop/deny.toml": f"{DENIED}\n[graph]\n{text}\n"})
        named = " and ".join(one for one in (text, *options) if one) or "nothing"
        yield f"the graph with {named} under [graph]", denied(scene.door("--format=json", *options)), sorted(crates)
    for text, said in WRONG:
        scene.write({"up/shop/deny.toml": f"{text}\n"})
        yield f"a policy with {text!r}", *stopped(scene.door(), ["deny.toml: [graph]", *said])


def locks(scene):
    """What cargo is to do with the lock file: two options that fail where there is none, and one that is seen alone."""
    scene.write({"up/shop/deny.toml": PASSES})
    for option in "--locked", "--frozen":
        yield f"{option} without a lock", *stopped(scene.door(option), ["metadata", "status 101"])
        yield "and no lock is written", (scene.shop / "Cargo.lock").exists(), False
    scene.door("--offline")
    yield "--offline", "--offline" in scene.last("cargo"), True
    for option in "--locked", "--frozen":
        yield f"{option} with a lock", scene.door(option)[0], 0
        yield "which cargo is called with", option in scene.last("cargo"), True
    scene.door()
    given = [word for word in scene.last("cargo") if word in ("--locked", "--offline", "--frozen")]
    yield "none without them", given, []


# ---- registries and cargo's home


ADDRESS, OTHER = "https://registry.example/index", "https://other.example/index"
OWN = '[registries.own]\nindex = "%s"\n'
MORE = 'include = ["more.toml"]\n'
# The files that name the registry `own`, and the variables: one kind after the other, and then which of two counts.
REGISTRIES = [
    ("of the workspace", {"up/shop/.cargo/config.toml": OWN % ADDRESS}, {}),
    ("under the old name of that file", {"up/shop/.cargo/config": OWN % ADDRESS}, {}),
    ("of a folder above", {"up/.cargo/config.toml": OWN % ADDRESS}, {}),
    ("of cargo's home", {"home/config.toml": OWN % ADDRESS}, {}),
    ("of cargo's home under the old name", {"home/config": OWN % ADDRESS}, {}),
    ("of a variable", {}, {"CARGO_REGISTRIES_OWN_INDEX": ADDRESS}),
    ("with a sparse index", {"up/shop/.cargo/config.toml": OWN % f"sparse+{ADDRESS}/"}, {}),
    ("in a folder, from the configuration", {"up/shop/.cargo/config.toml": OWN % "file:../own+ (index)"}, {}),
    ("in a folder, from a variable", {}, {"CARGO_REGISTRIES_OWN_INDEX": "file:own/index"}),
    ("of an included file", {"up/.cargo/config.toml": MORE, "up/.cargo/more.toml": OWN % ADDRESS}, {}),
    (
        "of the last included file",
        {
            "up/.cargo/config.toml": 'include = ["../a/a.toml", {path = "b.toml"}, {path = "c.toml", optional = true}]',
            "up/a/a.toml": OWN % OTHER, "up/.cargo/b.toml": OWN % ADDRESS,
        },
        {},
    ),
    (
        "of a file before what it includes",
        {"up/.cargo/config.toml": MORE + OWN % ADDRESS, "up/.cargo/more.toml": OWN % OTHER}, {},
    ),
    (
        "of the old name before the new one",
        {"up/shop/.cargo/config": OWN % ADDRESS, "up/shop/.cargo/config.toml": OWN % OTHER}, {},
    ),
    ("of the nearest file", {"up/shop/.cargo/config.toml": OWN % ADDRESS, "up/.cargo/config.toml": OWN % OTHER}, {}),
    ("of a file before the home", {"up/.cargo/config.toml": OWN % ADDRESS, "home/config.toml": OWN % OTHER}, {}),
    ("of a variable first", {"up/shop/.cargo/config.toml": OWN % OTHER}, {"CARGO_REGISTRIES_OWN_INDEX": ADDRESS}),
]
# A name in the workspace, the text of its configuration, and a variable that stands for it.
NAMES = [
    ("my-own", OWN.replace("own", "my-own") % OTHER, "MY_OWN"),
    ("my_own", "", "MY_OWN"),
    ("My-Own", "", "MY_OWN"),
]


def with_registry(scene, name, files, variables):
    """A workspace with a crate of a registry that is vendored; gives where cargo says that the registry is."""
    shared = f"[workspace.dependencies]\nbook = {{ version = '1', registry = '{name}' }}\n"
    app = PACKAGE.format(name="app") + "[dependencies]\nbook = { workspace = true }\n"
    scene.write({"up/shop/Cargo.toml": f"{WORKSPACE}{shared}", "up/shop/app/Cargo.toml": app})
    scene.write({"up/shop/deny.toml": "[bans.workspace-dependencies]\n", **files})
    scene.write({"vendor/book/Cargo.toml": PACKAGE.format(name="book"), "vendor/book/src/lib.rs": ""})
    scene.write({"vendor/book/.cargo-checksum.json": '{"files":{}}'})
    said = [one["dependencies"] for one in scene.cargo_says("--no-deps", **variables)["packages"]]
    address = next(one["registry"] for one in sum(said, []) if one["name"] == "book")
    replaced = f"[source.replaced]\nregistry = '{address}'\nreplace-with = 'vendored'\n"
    scene.write({".cargo/config.toml": f"{replaced}[source.vendored]\ndirectory = '{scene.top}/vendor'\n"})
    return address


def registry(scene, name, files, variables):
    """What the program is called with, and that it finds the crate of the registry."""
    address = with_registry(scene, name, files, variables)
    status, _, err = scene.door(**variables)
    words = [word for word in scene.last("bin/burkativ") if word.startswith(f"--registry={name}=")]
    return (status, err, words), (0, err, [f"--registry={name}={address}"])


def registries(scene):
    """A variable by the names that it stands for, and that a registry which is not handed on is missed."""
    files = {"up/shop/.cargo/config.toml": OWN % ADDRESS}
    with_registry(scene, "own", files, {})
    without = [scene.program, "check", "deny.toml", str(scene.top / "metadata.json")]
    scene.write({"metadata.json": json.dumps(scene.cargo_says())})
    yield "without its registry a crate is not found", scene.ended(without)[0], 2
    scene.write({"home/config.toml": (OWN % OTHER).replace("own", "The_Third")})
    scene.door(CARGO_REGISTRIES_THE_OTHER_INDEX=OTHER, CARGO_REGISTRIES_THE_THIRD_INDEX=ADDRESS)
    words = [word for word in scene.last("bin/burkativ") if word.startswith("--registry=")]
    wanted = [f"--registry={name}" for name in (f"The_Third={ADDRESS}", f"own={ADDRESS}", f"the-other={OTHER}")]
    yield "registries that no manifest names", words, wanted
    scene.write({"home/config.toml": ""})
    ended = scene.door("--manifest-path=../up/shop/Cargo.toml", at="elsewhere")
    words = [word for word in scene.last("bin/burkativ") if word.startswith("--registry=")]
    yield "a registry of the workspace, from elsewhere", (ended[0], words), (0, [f"--registry=own={ADDRESS}"])


def homes(scene):
    scene.write({"up/shop/deny.toml": PASSES})
    for given, home in (
        ({}, scene.top / "home"), ({"CARGO_HOME": "own home"}, scene.shop / "own home"),
        ({"CARGO_HOME": None, "HOME": str(scene.top / "elsewhere")}, scene.top / "elsewhere/.cargo"),
        ({"CARGO_HOME": "", "HOME": str(scene.top / "elsewhere")}, scene.top / "elsewhere/.cargo"),
    ):
        scene.door(**given)
        words = [word for word in scene.last("bin/burkativ") if word.startswith("--home=")]
        yield f"cargo's home {given or 'of the variable'}".replace(str(scene.top), ""), words, [f"--home={home}"]


# Policies that ask for the day, or not; what the program judges does not hang on which day it is.
DATED = [
    ("a skip that expires", "[bans]\nskip = [{ name = 'plain', expires = '2026-01-31' }]\n", 1),
    ("a date of TOML", "[bans]\nskip = [{ name = 'plain', expires = 2026-01-31 }]\n", 1),
    ("a bypass", "[bans.build]\nbypass = [{ name = 'plain', expires = 9999-12-31 }]\n", 1),
    ("an exception", "[bans]\n[[licenses.exceptions]]\nname = 'a'\nallow = []\nexpires = 9999-12-31\n", 1),
    ("a day that is none", "[bans]\nskip = [{ name = 'plain', expires = '2026-02-30' }]\n", 1),
    ("a date that Python refuses", "[bans]\nskip = [{ name = 'plain', expires = 2026-02-30 }]\n", 1),
    ("no waiver", PASSES, 0), ("a waiver without a day", "[bans]\nskip = [{ name = 'plain' }]\n", 0),
    ("the word elsewhere", "[bans]\nskip = [{ name = 'plain', reason = 'expires' }]\n[advisories]\nexpires = 1\n", 0),
]


def days_of(scene):
    """The days that the program was handed last."""
    return [word.removeprefix("--today=") for word in scene.last("bin/burkativ") if word.startswith("--today=")]


def days(scene):
    for name, text, count in DATED:
        scene.write({"up/shop/deny.toml": text})
        before = str(datetime.date.today())
        scene.door("--format=json")
        told, after = days_of(scene), str(datetime.date.today())
        yield f"the day: {name}", (len(told), set(told) <= {before, after}), (count, True)
    scene.write({"up/shop/deny.toml": DATED[0][1]})
    for zone in "UTC-14", "UTC+12":  # places where it is never the same day
        before = day_in(zone)
        scene.door(TZ=zone)
        yield f"the day at {zone}", set(days_of(scene)) <= {before, day_in(zone)}, True
    text = "[bans]\nskip = [{ name = 'plain', expires = '%s' }]\n"
    for expires, codes in ("2026-01-31", ["waiver-expired"]), ("9999-12-31", ["skipped", "unnecessary-skip"]):
        scene.write({"up/shop/deny.toml": text % expires})
        status, lines, _ = scene.door("--format=json")
        found = [json.loads(line)["fields"].get("code") for line in lines.splitlines()]
        yield f"a waiver until {expires}", (status, [code for code in found if code]), (0, codes)


def day_in(zone):
    """The day at a place, by the variable TZ."""
    said = subprocess.run(["date", "+%F"], env={**os.environ, "TZ": zone}, capture_output=True, text=True)
    return said.stdout.strip()


# ---- what is shown


STD = "[bans.std-replacements]\n"
# Policies, the options of a run, and its status: the program's, by what it judges or why it stops.
STATUSES = [
    ("a policy that passes", PASSES, [], 0),
    ("[bans] that fail", PLAIN, [], 2),
    ("[licenses] that fail", "[licenses]\n", [], 4),
    ("both", f"{PLAIN}[licenses]\n", [], 6),
    ("what is wrong in a manifest", "[bans]\nwildcards = 'deny'\n", [], 2),
    ("a policy with a fault", "[bans]\nunheard-of = 1\n", [], 19),
    ("a policy that is no TOML", "[bans\n", [], 19),
    ("a policy that contradicts itself", "[bans]\ndeny = ['plain']\nallow = ['plain']\n", [], 20),
    ("a table that is asked for and not named", STD, [], 22),
    ("a table that is named", STD, ["--replacements", str(TOP / "examples/replacements.bin")], 0),
    ("a table that is not there", STD, ["--replacements=none"], 17),
    ("a table that is none", STD, ["--replacements=Cargo.toml"], 22),
]


def programs_own(scene, policy, options):
    """The program and the page's tool on what cargo says, without the front door: its status and lines, and a page."""
    scene.write({"metadata.json": json.dumps(scene.cargo_says())})
    table = [option.removeprefix("--replacements=") for option in options if option != "--replacements"]
    metadata = str(scene.top / "metadata.json")
    words = ["check", f"--home={scene.top / 'home'}", policy, metadata, *table]
    texts = [f"--policy={policy}", f"--metadata={metadata}", *(f"--replacements={one}" for one in table)]
    return *scene.ended([scene.program, *words]), texts


def page(scene, options, lines):
    """What the page's tool makes of lines."""
    made = subprocess.run([TOP / "show", *options], input=lines, stdout=subprocess.PIPE, cwd=scene.shop, text=True)
    return made.returncode, made.stdout


def formats(scene):
    for name, policy, options, wanted in STATUSES:
        scene.write({"up/shop/deny.toml": policy})
        said = "" if "[licenses]" in policy or "]" not in policy else NO_LICENCES
        status, lines, stop, texts = programs_own(scene, "deny.toml", options)
        yield f"{name}: the status", status, wanted
        yield f"{name}: the lines", scene.door("--format=json", *options), (status, lines, said + stop)
        yield f"{name}: a page", scene.door(*options), (*page(scene, texts, lines + stop), said)
        full = ["--format=github", f"--policy={scene.shop / 'deny.toml'}", *texts[1:]]
        yield f"{name}: annotations", scene.door("--format=github", *options), (*page(scene, full, lines + stop), said)


def details(scene):
    """Options of the page, which notes and colours show."""
    scene.write({"up/shop/deny.toml": f'{PLAIN}skip-tree = ["tool"]\n[licenses]\nallow = ["MIT"]\n'})
    _, lines, _, texts = programs_own(scene, "deny.toml", [])
    plain, whole = page(scene, texts, lines), page(scene, ["--notes", *texts], lines)
    yield "notes make a page longer", len(whole[1]) > len(plain[1]), True
    yield "a page", scene.door()[:2], plain
    for option in "--notes", "-v", "--verbose":
        yield f"a page with {option}", scene.door(option)[:2], whole
    yield "a page with colours", scene.door("--color=always")[:2], page(scene, ["--color=always", *texts], lines)
    yield "which has some", "\x1b[" in scene.door("--color=always")[1], True
    for option in "--color=never", "--color=auto":
        yield f"a page with {option} in a pipe", scene.door(option)[:2], plain
    yield "colours on a terminal", "\x1b[1;" in on_terminal(scene)[1], True
    yield "none there with --color=never", "\x1b[1;" in on_terminal(scene, "--color=never")[1], False
    yield "none there with NO_COLOR", "\x1b[1;" in on_terminal(scene, NO_COLOR="1")[1], False


def float_metadata(scene):
    """Metadata that the program refuses: what wrote them is named, and no path that changes from run to run."""
    scene.write({"up/shop/deny.toml": PASSES})
    with open(scene.shop / "tool/Cargo.toml", "a") as file:
        file.write("[package.metadata.own]\nratio = 0.5\n")
    status, out, _ = scene.door()
    yield "metadata that are refused", (status, out.startswith("cargo metadata: error[float]: ")), (21, True)


# ---- what goes unread


NOTHING = "[bans]\n[licenses]\nallow = ['MIT']\n[graph]\ntargets = []\nfeatures = []\nall-features = false\n"
# Policies, and what of each goes unread.
UNREAD = [
    (NOTHING, []),
    ("[advisories]\n[bans]\n", ["[advisories]"]),
    ("[bans]\n[sources]\nunknown-git = 'deny'\n[output]\n", ["[sources]", "[output]"]),
    ("exclude = []\n[bans]\n[other]\n", ["exclude", "[other]"]),
    ("[graph]\nexclude = []\nexclude-dev = true\n", ["[graph] exclude", "[graph] exclude-dev"]),
    (f"[graph]\ntargets = [{{ triple = '{LINUX}', features = [] }}]\n", ["[graph] targets.features"]),
    (
        "[licenses]\nallow = ['MIT']\nversion = 2\nconfidence-threshold = 0.8\n",
        ["[licenses] version", "[licenses] confidence-threshold"],
    ),
]
EXCEPTIONS = "deny.exceptions.toml", ".deny.exceptions.toml", ".cargo/deny.exceptions.toml"


def unread(scene):
    for text, names in UNREAD:
        scene.write({"up/shop/deny.toml": text})
        licences = "" if "[licenses]" in text else NO_LICENCES
        line = f"cargo-burkativ: unread in deny.toml: {', '.join(names)} (-v says more)\n" if names else ""
        named = ", ".join(names) or "nothing"
        status, out, _ = scene.door("--format=json")
        yield f"unread: {named}", scene.door("--format=json"), (0, out, licences + line)
        err = scene.door("-v")[2].removeprefix(licences).splitlines()
        begins = [f"cargo-burkativ: unread in deny.toml: {name}: " for name in names]
        found = [one[: len(begin)] for one, begin in zip(err, begins)] if len(err) == len(begins) else err
        yield f"unread with -v: {named}", found, begins
    for name in EXCEPTIONS:
        scene.write({"up/shop/deny.toml": PASSES, f"up/shop/{name}": ""})
        line = f"cargo-burkativ: unread in deny.toml: {name} (-v says more)\n"
        yield f"unread: {name}", scene.door()[2], NO_LICENCES + line
        (scene.shop / name).unlink()


def unreadable(scene):
    """A policy that the program reads and Python does not: no verdict on another graph than the one it asks for."""
    scene.write({"up/shop/deny.toml": f"{DENIED}[graph]\nfeatures = ['more']\n[other]\nday = 0000-01-01\n"})
    status, lines, *_ = programs_own(scene, "deny.toml", [])
    yield "a policy that the program reads", (status, "more" in denied((0, lines))), (2, False)
    status, _, err = scene.door()
    yield "and Python does not", (status, "deny.toml" in err, "[graph]" in err), (STOPPED, True, True)


# ---- what is called, and how it ends


def answers(scene):
    scene.write({"up/shop/deny.toml": PASSES})
    for words, said in (
        (["--unheard-of"], ["--unheard-of", "--help"]), (["--format=xml"], ["--format", "xml", "--help"]),
        (["--config"], ["--config", "--help"]), (["unheard-of"], ["`unheard-of`", "check"]),
        (["check", "bans"], ["`check` takes no word"]), (["--manifest=Cargo.toml"], ["--manifest", "--help"]),
    ):
        yield f"the words {' '.join(words)}", *stopped(scene.door(*words), said)
    for words in "--help", "-h", "check --help", "burkativ --help":
        status, out, err = scene.door(*words.split(), at="elsewhere")
        yield words, (status, f"  {STOPPED} " in out, "--filter-platform" in out, err), (0, True, True, "")
    scene.write({"share/burkativ/PROVED": "proved: all\nkit: this\ncrate: one, 1 function\n"})
    for word in "--version", "-V":
        status, out, err = scene.door(word, at="elsewhere")
        yield word, (status, str(scene.top / "bin/burkativ") in out, err), (0, True, "")
        yield "and what was proved", out.splitlines()[-2:], ["proved: all", "kit: this"]
    yield "none of these calls the program", scene.called("bin/burkativ") + scene.called("cargo"), []


def installations(scene):
    scene.write({"up/shop/deny.toml": PLAIN})
    for name, target in ("bin", "burkativ"), ("checkout", "deny"):
        if name == "checkout":
            (scene.top / name).mkdir()
            shutil.copy(TOP / "cargo-burkativ", scene.top / name)
            (scene.top / name / "show").symlink_to(TOP / "show")
            scene.record("checkout/deny", scene.program)
        for option, first in (["--proved"], ["--proved"] * (name == "checkout")), ([], []):
            ended = scene.door(*option, tool=f"{name}/cargo-burkativ")
            words = scene.last(f"{name}/{target}")
            called = words[:-4]
            yield f"{target} with {option or 'nothing'}", (called, places(ended)), (first, ["deny.toml"])
    (scene.top / "link").symlink_to(scene.top / "bin/cargo-burkativ")
    yield "a link to what is installed", places(scene.door(tool="link")), ["deny.toml"]
    (scene.top / "bin/burkativ").unlink()
    yield "no program", *stopped(scene.door(), ["program", str(scene.top / "bin"), "install"])


def ends(scene):
    """Programs that end as they should not, outputs that take nothing."""
    scene.write({"up/shop/deny.toml": PLAIN})
    with open("/dev/full", "w") as full:
        yield "lines on a full disk", scene.door("--format=json", out=full)[0], 23
        yield "a page on a full disk", scene.door(out=full)[0], STOPPED
    script(scene.top / "bin/burkativ", "#!/bin/sh\necho building >&2\nexit 1\n")
    yield "a program that was not built", scene.door(), (1, "", f"{NO_LICENCES}building\n")
    script(scene.top / "bin/burkativ", "#!/bin/sh\nexit 28\n")
    yield "a program that writes nothing", scene.door(), (28, "", NO_LICENCES)
    script(scene.top / "bin/burkativ", "#!/bin/sh\necho '{'\nkill -9 $$\n")
    yield "a program that is killed", *stopped(scene.door(), ["burkativ", "SIGKILL"])
    scene.record("bin/burkativ", scene.program)
    (scene.top / "bin/burkativ-show").unlink()
    yield "no tool for pages", *stopped(scene.door(), ["burkativ-show", "could not be run"])
    script(scene.top / "bin/burkativ-show", "#!/bin/sh\nexit 0\n")
    yield "a page that was not made", *stopped(scene.door(), ["status 2", "could not be shown"])
    yield "nothing is left behind", os.listdir(scene.top / "scratch"), []


# A cargo that takes its time.
SLOW = "#!/bin/sh\necho 'from cargo' >&2\nsleep %d\nexec '%s' \"$@\"\n"


def on_terminal(scene, *words, **given):
    """A call with a terminal in the place of its outputs: its status, and what is on the terminal."""
    outer, inner = pty.openpty()
    call = subprocess.Popen(
        [scene.top / "bin/cargo-burkativ", *words], cwd=scene.shop, env=scene.environment({"TERM": "xterm", **given}),
        stdin=subprocess.DEVNULL, stdout=inner, stderr=inner,
    )
    os.close(inner)
    written = b""
    with contextlib.suppress(OSError):  # the terminal ends with the call
        while piece := os.read(outer, 4096):
            written += piece
    os.close(outer)
    return call.wait(SECONDS), written.decode()


def terminals(scene):
    scene.write({"up/shop/deny.toml": PASSES})
    script(scene.top / "slow", SLOW % (2, CARGO))
    slow = {"CARGO": str(scene.top / "slow")}
    status, written = on_terminal(scene, **slow)
    yield "long work on a terminal", (status, "cargo-burkativ: cargo makes the graph, " in written), (0, True)
    yield "which is gone in the end", "cargo" in written.rpartition("\x1b[K")[2], False
    yield "what cargo says stays", "from cargo\r\n" in written, True
    yield "a terminal that is dumb", on_terminal(scene, **slow, TERM="dumb")[1].count("\x1b"), 0
    on_terminal(scene)
    yield "cargo has colours on a terminal", "--color=always" in scene.last("cargo"), True
    on_terminal(scene, NO_COLOR="1")
    yield "none with NO_COLOR", "--color=always" in scene.last("cargo"), False
    scene.door()
    yield "none in a pipe", "--color=always" in scene.last("cargo"), False
    said = f"from cargo\n{NO_LICENCES}from cargo\n"
    yield "long work in a pipe", scene.door(**slow), (0, "no findings; verdict: pass\n", said)


def ended_by(scene, number):
    """A call that gets a signal while cargo runs."""
    call = subprocess.Popen(
        [scene.top / "bin/cargo-burkativ"], cwd=scene.shop, env=scene.environment({"CARGO": str(scene.top / "waits")}),
        stdin=subprocess.DEVNULL, stdout=subprocess.PIPE, stderr=subprocess.PIPE,
    )
    cargo = int(call.stderr.readline())
    call.send_signal(number)
    try:
        written = call.communicate(timeout=SECONDS)
    except subprocess.TimeoutExpired:
        os.kill(cargo, signal.SIGKILL)
        call.communicate()
        return f"no end in {SECONDS} seconds"
    return call.returncode, *written, Path(f"/proc/{cargo}").exists(), os.listdir(scene.top / "scratch")


def signals(scene):
    """Calls that are ended: cargo ends with them, and nothing is left behind."""
    scene.write({"up/shop/deny.toml": PASSES})
    script(scene.top / "waits", "#!/bin/sh\necho $$ >&2\nexec sleep 1000\n")
    for number in signal.SIGTERM, signal.SIGHUP, signal.SIGINT:
        yield f"ended by {number.name}", ended_by(scene, number), (128 + number, b"", b"", False, [])


# ---- all


SITUATIONS = [
    policies, named_policies, workspaces, cargos, graphs, locks, registries, homes, days, formats, details,
    float_metadata, unread, unreadable, answers, installations, ends, terminals, signals,
]


def of_registries():
    """The situations of registries, each with a workspace of its own."""
    for name, files, variables in REGISTRIES:
        yield f"a registry {name}", ("own", files, variables)
    for name, text, variable in NAMES:
        files = {"up/shop/.cargo/config.toml": text}
        yield f"the registry {name} of a variable", (name, files, {f"CARGO_REGISTRIES_{variable}_INDEX": ADDRESS})


def jobs():
    """Each situation, and each row of registries, as a function of a scene."""
    rows = [lambda scene, row=row: [(row[0], *registry(scene, *row[1]))] for row in of_registries()]
    return [*SITUATIONS, *rows]


def outcomes(number, program):
    """What comes of a job in a folder of its own, and what was to come."""
    with tempfile.TemporaryDirectory() as folder:
        return list(jobs()[number](Scene(folder, program)))


def main():
    if len(sys.argv) != 2:
        sys.exit(__doc__)
    if CARGO is None:
        sys.exit("front_door: cargo is not there")
    failed, numbers = False, range(len(jobs()))
    # Processes and not threads: a script that one has just written cannot be run while another is about to run one.
    with ProcessPoolExecutor() as pool:
        for found in pool.map(outcomes, numbers, repeat(os.path.abspath(sys.argv[1]))):
            for name, got, wanted in found:
                failed = failed or got != wanted
                print(f"{name}: " + ("as it should be" if got == wanted else f"{got!r} where {wanted!r} was to come"))
    sys.exit(failed)


if __name__ == "__main__":
    main()
