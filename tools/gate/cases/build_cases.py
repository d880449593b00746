"""Cases of the build check: which crates are looked at, what is told of their build scripts, what a policy says of
builds and what contradicts itself in it, and which of its entries are dead.

`app` is the only member, and lies at `/w`; other crates are from the registry, and lie below `/r`.
"""

from hashlib import sha256

from case_parts import (
    BANS_FAILED, BY_APP, PASSED, TREES_OF_X, built_graph, case, crate_tree, dead_line, folder_of, in_package,
    malformed_line, manifest_of, target, told, unread_line,
)
from readings.report import compact

ELF, PE, MACH = (bytes.fromhex(prefix).ljust(16, b"\0") for prefix in ("7f454c46", "4d5a", "feedface"))
ARCHIVE, SCRIPT, PLAIN = b"!<arch>\n".ljust(16, b"\0"), "#!/usr/bin/env python3\n", "x"
SOURCE = "fn main() {}\n"
SUM, OTHER = sha256(SOURCE.encode()).hexdigest(), "aB" * 32
BUILD = "[bans.build]\n"
GIT = "git+https://h/p"
UNREAD = "the file could not be read"


def sum_of(text):
    return sha256(text if isinstance(text, bytes) else text.encode()).hexdigest()


def package_files(word, files):
    """A package whose files are these, with a manifest."""
    return in_package(word, {"Cargo.toml": manifest_of(word.partition("@")[0]), **files})


def build(name, text, policy, by_hand=None, files=(), **more):
    """A case over crates with these policies for builds; `files` are those of packages, by their crates."""
    found = {}
    for word, of_package in dict(files).items():
        found.update(package_files(word, of_package))
    if by_hand is not None:
        more["by_hand"] = by_hand
    return case("builds: %s" % name, policy, text, files={**found, **more.pop("others", {})}, **more)


# ---- rows


def unable(path, why=UNREAD):
    return told(
        "unable-to-check-path", "error", "unable to check if path is an executable",
        notes=["path = " + path, "error = " + why]
    )


def detected(path, kind):
    notes = ["path = '%s'" % path, "executable-kind = '%s'" % kind]
    return told("detected-executable", "error", "detected executable", notes=notes)


def by_glob(path, *labels):
    return told("path-bypassed-by-glob", "help", "file allowed by glob", *labels, notes=["path = '%s'" % path])


def rows():
    """Runs as a user meets them."""
    graph, run = built_graph("app -> p", p="proc-macro"), in_package("p", {"run": ELF})
    yield case(
        "builds: a file that cannot be read", BUILD, graph, files=run, fail=["/r/p-1.0.0/run"],
        lines=unable("$crate/run") + unread_line("p = 1.0.0", "/r/p-1.0.0/run", "header") + BANS_FAILED
    )
    yield case(
        "builds: a file that is native code", BUILD, graph, files=run, lines=detected("$crate/run", "elf") + BANS_FAILED
    )
    of_git = built_graph("app -> p", p="proc-macro", sources={"p": GIT})
    inner, outer = ({"/r/p-1.0.0/%s.git/run" % folder: {"hex": ELF.hex()}} for folder in ("a/", ""))
    yield case(
        "builds: what git holds, in an inner folder", BUILD, of_git, files=inner,
        lines=detected("$crate/a/.git/run", "elf") + BANS_FAILED
    )
    yield case("builds: what git holds", BUILD, of_git, files=outer, lines=PASSED)
    yield case(
        "builds: what git holds, beside native code", BUILD, of_git, files={**inner, **outer, **run},
        lines=detected("$crate/a/.git/run", "elf") + detected("$crate/run", "elf") + BANS_FAILED
    )
    yield case(
        "builds: two files that are native code", BUILD, graph, files=in_package("p", {"run": ELF, "run2": ELF}),
        lines=detected("$crate/run", "elf") + detected("$crate/run2", "elf") + BANS_FAILED
    )
    yield from rows_of_globs()
    yield from rows_of_scripts()
    files = {"w/Cargo.toml": "[package", "r/p-1.0.0/run": {"hex": ELF.hex()}}
    skip = told(
        "unmatched-skip", "warning", "skipped crate 'q = 1' was not encountered",
        (2, 10, "unmatched skip configuration", "q")
    )
    yield case(
        "builds: folders that are named from the one at hand", '[bans]\nskip = ["q@1"]\n\n' + BUILD,
        compact(graph).replace('"/w', '"w').replace('"/r/', '"r/'), files=files, manifests={},
        lines=detected("$crate/run", "elf") + skip + dead_line("skip", 16, 17) + malformed_line("w/Cargo.toml") +
        BANS_FAILED
    )


def rows_of_globs():
    """A glob for two versions of a crate, which has a file in one of them."""
    graph = built_graph("app -> p, app -> p@2.0.0", p="proc-macro")
    files = {"/r/p-1.0.0/README": "x", "/r/p-2.0.0/README": "x", "/r/p-2.0.0/a.sh": "x"}
    policy = BUILD + 'bypass = [{ crate = "p", allow-globs = [%s] }]\n'
    lines = "p 1.0.0 %s\np 2.0.0 %s" % (("registry+https://github.com/rust-lang/crates.io-index",) * 2)
    trees = [crate_tree("p", BY_APP), crate_tree("p@2.0.0", BY_APP)]
    duplicate = told(
        "duplicate", "warning", "found 2 duplicate entries for crate 'p'", (2, 1, "lock entries", lines), graphs=trees
    )
    label = (2, 42, "", "*.sh")
    unmatched = told("unmatched-glob", "warning", "glob was not encountered", label)
    yield case(
        "builds: a glob for a file of another version", policy % '"*.sh"', graph, files=files,
        lines=unmatched + by_glob("$crate/a.sh", label) + duplicate + PASSED
    )
    del files["/r/p-2.0.0/a.sh"]
    yield case(
        "builds: a glob for no file", policy % '"*.sh"', graph, files=files,
        lines=unmatched * 2 + duplicate + dead_line("bypass-glob", 54, 58) + PASSED
    )
    yield case("builds: no glob for no file", policy % "", graph, files=files, lines=duplicate + PASSED)


def not_allowed(path=None, sum_=None):
    notes = ["path = '%s'" % path, "checksum = '%s'" % sum_] if path else []
    message = "crate 'x = 1.0.0' has a build script but is not allowed to have one"
    return told("build-script-not-allowed", "error", message, notes=notes, graphs=TREES_OF_X)


DEPRECATED = (
    "[bans.allow-build-scripts] has been deprecated in favor of [bans.build.allow-build-scripts], "
    "this will become an error in the future"
)
OLDER = told("deprecated", "warning", DEPRECATED, (2, 23, "", "[]"))


def rows_of_scripts():
    graph, files = built_graph("app -> x", x="custom-build"), package_files("x", {"build.rs": SOURCE})
    script, denied = folder_of("x") + "/build.rs", not_allowed("$crate/build.rs", SUM)
    older = "[bans]\nallow-build-scripts = []\n"
    yield case("builds: a script by the older key", older, graph, files=files, lines=OLDER + denied + BANS_FAILED)
    yield case(
        "builds: a script by the older key, which cannot be read", older, graph, files=files, fail=[script],
        lines=OLDER + not_allowed() + unread_line("x = 1.0.0", script, "script") + BANS_FAILED
    )
    yield case(
        "builds: a script below the folder of cargo", BUILD + "allow-build-scripts = []\n", graph, files=files,
        options=["--home=/r"], lines=not_allowed("$CARGO_HOME/x-1.0.0/build.rs", SUM) + BANS_FAILED
    )
    bypass = "bypass = [{ name = 'x', build-script = '%s', required-features = ['f', 'g'] }]\n"
    bypass = "allow-build-scripts = []\n" + bypass
    unknown = told(
        "unknown-feature", "warning", "found unknown feature 'g' for crate 'x = 1.0.0'",
        (3, 135, "unknown feature", "g"), graphs=TREES_OF_X
    )
    notes = ["path = '$crate/build.rs'"]
    match = told("checksum-match", "help", "file checksum matched", (3, 41, "checksum", SUM), notes=notes)
    with_f = lambda enabled: built_graph("app -> x", {"x": {"f": []}}, {"x": enabled}, x="custom-build")
    yield case(
        "builds: a script by its checksum", BUILD + bypass % SUM, with_f([]), files=files,
        lines=unknown + match + PASSED
    )
    message = "1 features enabled for crate with build script, checking sources"
    enabled = told("features-enabled", "note", message, (3, 130, "", "f"))
    yield case(
        "builds: a script by its checksum, and a feature", BUILD + bypass % SUM, with_f(["f"]), files=files,
        lines=denied + unknown + match + enabled + BANS_FAILED
    )
    mismatch = lambda error: told(
        "checksum-mismatch", "warning", "file did not match the expected checksum", (3, 41, "expected checksum", OTHER),
        notes=notes + ["error = '%s'" % error]
    )
    yield case(
        "builds: a script with another checksum", BUILD + bypass % OTHER, with_f(["f"]), files=files,
        lines=denied + mismatch("calculated different checksum " + SUM) + BANS_FAILED
    )
    yield case(
        "builds: a script that fails its checksum", BUILD + bypass % OTHER, with_f([]), files=files, fail=[script],
        lines=not_allowed() + mismatch("build script failed checksum: " + UNREAD) +
        unread_line("x = 1.0.0", script, "script") + BANS_FAILED
    )


# ---- which crates are looked at


def looked_at():
    """By their targets, by what they need and are needed by, and as members."""
    run = {"run": ELF}
    of = lambda *words: {word: run for word in words}
    on = lambda *words: "; ".join(["detected-executable run elf"] * len(words))
    for kinds, is_executed in (
        ("custom-build", True), ("proc-macro", True), ("lib proc-macro", True), ("lib", False), ("bin", False),
        ("", False), ("custom_build", False), ("Proc-Macro", False), ("custom-build2", False),
    ):
        graph = built_graph("app -> x", x=kinds)
        yield build("a target of kinds %r" % kinds, graph, BUILD, on("x") if is_executed else "", of("x"))
    several = built_graph("app -> x", x=[target("lib", "/a"), target("test bench", "/b"), target("proc-macro", "/c")])
    yield build("several targets", several, BUILD, on("x"), of("x"))
    yield build("no targets", built_graph("app -> x"), BUILD, "", of("x"))
    edges = "app -> a, a -> b, b -> c, c -> d, e -> d, app -> e, d -> f build, d -> g dev"
    chain = built_graph(edges, b="custom-build")
    deep = "include-dependencies = true\n"
    for name, more, words in (("alone", "", "b"), ("and what they need", deep, "b c d f g")):
        yield build("a script in a chain, %s" % name, chain, BUILD + more, on(*words.split()), of(*"abcdefg"))
    ring = built_graph("app -> a, a -> b, b -> c dev, c -> a dev", c="proc-macro")
    yield build("a ring", ring, BUILD + deep, on("a", "b", "c"), of(*"abc"))
    of_app = built_graph("app -> x", app="custom-build")
    files = of("app", "x")
    workspace = "include-workspace = true\n"
    for name, more, by_hand in (
        ("which is none", "", ""), ("which counts", workspace, on("app")), ("whose needs count", deep, on("x")),
        ("which counts, and whose needs do", deep + workspace, on("app", "x")),
    ):
        yield build("a member, %s" % name, of_app, BUILD + more, by_hand, files)
    graph = built_graph("app -> x, app -> y, app -> z", x="custom-build", y="custom-build", z="proc-macro")
    for level in "allow", "warn", "deny":
        listed = "allow-build-scripts = [%s]\n"
        for name, listed in (("all", ""), ("y", listed % "'y'"), ("none", listed % "")):
            policy = BUILD + "executables = '%s'\n" % level + listed
            yield build("executables at level %s, scripts of %s" % (level, name), graph, policy, files=of(*"xyz"))


def allowed_scripts():
    """Lists of the crates that may have a build script."""
    graph = built_graph("app -> x, app -> x@2.0.0, app -> y", x="custom-build", y="proc-macro")
    files = {word: {"build.rs": SOURCE} for word in ("x", "x@2.0.0", "y")}
    denied = "build-script-not-allowed x; build-script-not-allowed x@2.0.0"
    for listed, by_hand in (
        ("", denied), ("'y'", denied), ("'x'", ""), ("'x@1'", "build-script-not-allowed x@2.0.0"),
        ("'x:2'", "build-script-not-allowed x"), ("'x@=1.0.0', { name = 'x', version = '2' }", ""),
        ("{ crate = 'x@<1' }, 'X'", denied),
    ):
        for level in "allow", "deny":
            policy = BUILD + "executables = '%s'\nallow-build-scripts = [%s]\n[bans]\nmultiple-versions = 'allow'\n"
            yield build(
                "scripts of [%s], executables at %s" % (listed, level), graph, policy % (level, listed), by_hand, files
            )
        older = "[bans]\nmultiple-versions = 'allow'\nallow-build-scripts = [%s]\n" % listed
        more = "; ".join(["deprecated"] + [by_hand] * bool(by_hand))
        yield build("scripts by the older key of [%s]" % listed, graph, older, more, files)
        both = older + BUILD + "executables = 'allow'\n"
        yield build("scripts by the older key of [%s], beside a table" % listed, graph, both, "", files)
    for name, targets, path in (
        ("the second target", [target("lib", "/r/x-1.0.0/src/lib.rs"), target("custom-build", "/r/x-1.0.0/a")], "a"),
        ("the first of two", [target("custom-build", "/r/x-1.0.0/b"), target("custom-build", "/r/x-1.0.0/a")], "b"),
        ("one outside the folder", [target("custom-build", "/r/outside")], "/r/outside"),
        ("one without a file", [target("custom-build", "")], ""),
    ):
        for failing in [], ["/r/x-1.0.0/a"], ["/r/x-1.0.0/b"], ["/r/outside"]:
            yield build(
                "a script that is %s, where %s fails" % (name, failing), built_graph("app -> x", x=targets),
                "[bans]\nallow-build-scripts = []\n", files={"x": {"a": "1", "b": "2"}}, others={"/r/outside": "3"},
                fail=failing
            )
    yield build(
        "a list that is not written, and executables allowed", built_graph("app -> x", x="custom-build"),
        BUILD + "executables = 'allow'\n", "", {"x": {"build.rs": SOURCE, "run": ELF}}
    )


# ---- checksums of scripts


def checksums():
    """Right ones, wrong ones and files that fail, with features that are required and lists of allowed scripts."""
    features = {"a": [], "b": [], "default": []}
    graph = built_graph("app -> x", {"x": features}, {"x": ["a", "default"]}, x="custom-build")
    files = {"x": {"build.rs": SOURCE, "run": ELF}}
    for what, sum_, fail in (
        ("right", SUM, []), ("right in capitals", SUM.upper(), []), ("wrong", OTHER, []),
        ("right, and fails", SUM, ["/r/x-1.0.0/build.rs"]),
    ):
        for required in ([], ["b"], ["a"], ["q"], ["q", "a", "b"], ["a", "a"], ["q", "q"], ["default"], ["A"], [""]):
            for listed in "", "allow-build-scripts = ['x']\n", "allow-build-scripts = []\n":
                for level in "deny", "allow":
                    policy = BUILD + "executables = '%s'\n%sbypass = [{ name = 'x', build-script = '%s', " % (
                        level, listed, sum_
                    ) + "required-features = %s }]\n" % required
                    name = "a checksum that is %s, features %s, %s, executables at level %s" % (
                        what, required, listed.strip() or "no list", level
                    )
                    yield build(name, graph, policy, files=files, fail=fail)
    of_macro = built_graph("app -> x", x="proc-macro")
    wanted = BUILD + "bypass = [{ name = 'x', build-script = '%s' }]\n" % OTHER
    yield build("a checksum for no script", of_macro, wanted, "detected-executable run elf", files)
    first = BUILD + "bypass = [{ name = 'x', build-script = '%s' }, { name = 'x', build-script = '%s' }]\n"
    yield build("the checksum of the first bypass", graph, first % (SUM, OTHER), "checksum-match build.rs; "
                "unmatched-bypass x", files)
    yield build("the checksum of the second bypass", graph, first % (OTHER, SUM), "checksum-mismatch build.rs script; "
                "detected-executable run elf; unmatched-bypass x", files)
    yield build(
        "a script with a checksum of its own as a file", graph,
        BUILD + "bypass = [{ name = 'x', build-script = '%s', allow = [{ path = 'build.rs', checksum = '%s' }] }]\n"
        % (OTHER, OTHER), "checksum-mismatch build.rs script; checksum-mismatch build.rs; detected-executable run elf",
        files
    )
    yield build("a script of no bytes", graph, BUILD + "bypass = [{ name = 'x', build-script = '%s' }]\n" % sum_of(""),
                "checksum-match build.rs", {"x": {"build.rs": ""}})
    for size in 55, 56, 63, 64, 65, 119, 120, 1000:
        policy = BUILD + "bypass = [{ name = 'x', build-script = '%s' }]\n" % sum_of("s" * size)
        yield build("a script of %d bytes" % size, graph, policy, "checksum-match build.rs",
                    {"x": {"build.rs": "s" * size}}, piece=7)


# ---- what contradicts itself


def clash(name, policy, by_hand, **more):
    return case("builds: clash of %s" % name, policy, built_graph("app -> x", x="proc-macro"), by_hand=by_hand, **more)


def stop_of(*diagnostics):
    """The line of a stop by these messages and labels."""
    values = []
    for message, *labels in diagnostics:
        labels = [dict(zip(("line", "column", "message", "span"), label)) for label in labels]
        fields = {"labels": labels, "message": message, "severity": "error"}
        values.append({"fields": fields, "type": "diagnostic"})
    return compact({"fields": {"diagnostics": values, "stop": "invalid"}, "type": "stop"}) + "\n"


NON_ASCII, INVALID = "non-ascii file extension provided", "invalid file extension provided"


def clashes():
    extensions = BUILD + "script-extensions = [%s]\n"
    for text, by_hand in (
        ("'sh'", ""), ("''", ""), ("'é'", "2:23"), ("'a.b'", "2:23 2:24"), ("'.sh'", "2:23 2:23"),
        ("'sh '", "2:23 2:25"), ("'a-b_c'", "2:23 2:24"), ("'é.'", "2:23"), ("'.é'", "2:23"), ("'\t'", "2:23 2:23"),
        ('"a\\u002eb"', "2:23 2:23"), ('"a\\u0041."', "2:23 2:23"), ('"\\u0041"', ""), ('"\\u00e9"', "2:23"),
        ("'''a.b'''", "2:25 2:26"), ("'''\na.b'''", "2:25 3:2"), ('"""\r\n.b"""', "2:25 3:1"),
        ('"""\\\n  a.b"""', "2:25 2:25"), ("'''a\nb'''", "2:25 2:26"), ('"""a\\tb"""', "2:25 2:25"),
        ("'a', 'b.', 'é', 'c', '*'", "2:28 2:29; 2:34; 2:44 2:44"), ("'é', '.', 'ü'", "2:23; 2:28 2:28; 2:33"),
        ("'a.', 'a.'", "2:23 2:24; 2:29 2:30"), ("'aé'", "2:23"), ("'0Z9a'", ""), ("'~'", "2:23 2:23"),
    ):
        yield clash("extensions %s" % text, extensions % text, by_hand, files=in_package("x", {"a": ""}))
    globs = BUILD + "bypass = [{ crate = 'x', allow-globs = [%s] }]\n"
    for text, by_hand in (
        ("'['", "2:42"), ("'a', '}', '[z-a]'", "2:47; 2:52"), ("'{', '\\'", "2:42; 2:47"), ('"é["', "2:42"),
        ('"\\\\"', "2:42"), ("'''\n{'''", "2:44"), ("'%s'" % ("{" * 17), "2:42"),
    ):
        yield clash("globs %s" % text, globs % text, by_hand)
    good = globs % "'*.sh', '**/a/**', '[a-z]', '{a,{b}}', ''"
    yield clash("no globs", good, "path-bypassed-by-glob a/b; " + "; ".join(
        "unmatched-glob " + glob for glob in ("*.sh", "[a-z]", "{a,{b}}", "")
    ), files=in_package("x", {"a/b": ""}))
    paths = BUILD + "bypass = [{ crate = 'x', allow = [%s] }]\n"
    path = lambda *written: paths % ", ".join("{ path = %s }" % one for one in written)
    for name, policy, by_hand in (
        ("an absolute path", path("'/a'"), "2:45"), ("the root", path("'/'"), "2:45"),
        ("two absolute paths", path("'//'", "'a'", "'/b'"), "2:45; 2:78"),
        ("one with an escape", path('"\\u002fa"'), "2:45"), ("one on several lines", path("'''\n/a'''"), "2:47"),
    ):
        yield clash(name, policy, by_hand)
    yield clash("absolute paths with checksums", BUILD + "bypass = [{ crate = 'x', allow = [{ checksum = '%s', "
                "path = '/a' }] }]\n" % SUM, "2:124")
    two = lambda one, other: BUILD + "bypass = [%s, %s]\n" % (one, other)
    wrong = "{ name = '%s', allow = [{ path = '/' }], allow-globs = ['{'] }"
    whole = "[bans]\nallow = ['x']\nskip = ['x']\n" + two(wrong % "x", wrong % "y")
    whole += "script-extensions = ['.', 'é']\n"
    yield case(
        "builds: all clashes, by kind and then by place", whole, built_graph("app -> x"), stop=stop_of(
            (
                "a crate was specified in both `skip` and `allow`", (2, 11, "marked as `allow`", "x"),
                (3, 10, "marked as `skip`", "x")
            ),
            (INVALID, (6, 23, "extension", "."), (6, 23, "invalid character", ".")),
            (NON_ASCII, (6, 28, "invalid extension", "é")),
            ("invalid glob pattern: at byte 0", (5, 67, "", "{")),
            ("invalid glob pattern: at byte 0", (5, 130, "", "{")),
            ("absolute paths are not allowed", (5, 44, "", "/")), ("absolute paths are not allowed", (5, 107, "", "/")),
        )
    )
    yield case(
        "builds: a bad glob behind characters of several bytes", globs % "'é€[a'", built_graph("app"),
        stop=stop_of(("invalid glob pattern: at byte 5", (2, 42, "", "é€[a")))
    )
    yield case(
        "builds: a bad extension with escapes", extensions % '"a\\u002eb"', built_graph("app"),
        stop=stop_of((INVALID, (2, 23, "extension", "a\\u002eb"), (2, 23, "invalid character", "a\\u002eb")))
    )
    yield case(
        "builds: nothing contradicts itself by the older key", "[bans]\nallow-build-scripts = ['.']\n",
        built_graph("app"), by_hand="deprecated"
    )


# ---- options


def homes():
    """Where the folder of cargo lies, and how paths are shown below it."""
    graph = built_graph("app -> x", x=[target("custom-build", "/r/x-1.0.0/../build.rs")])
    files = {"x": {"run": ELF, "a/run": ELF}}
    for home, first in (
        ("/r", "$CARGO_HOME/x-1.0.0/"), ("/r/", "$CARGO_HOME/x-1.0.0/"), ("//r/./", "$CARGO_HOME/x-1.0.0/"),
        ("/", "$CARGO_HOME/r/x-1.0.0/"), ("/r/x-1.0.0", "$CARGO_HOME/"), ("/r/x-1.0", "$crate/"), ("r", "$crate/"),
        (".", "$crate/"), ("/r/x-1.0.0/run", None), ("/r/x-1.0.0/a", None), ("/r/..", "$crate/"), ("/R", "$crate/"),
    ):
        more = {} if first is None else {
            "lines": detected(first + "a/run", "elf") + detected(first + "run", "elf") + BANS_FAILED
        }
        yield build("the home %s" % home, graph, BUILD, files=files, options=["--home=" + home], **more)
    denied = "allow-build-scripts = []\n"
    others = {"/r/build.rs": SOURCE}
    for home in ["--home=/r"], ["--home=/r/x-1.0.0"], []:
        name = "a script outside its folder, %s" % home
        yield build(name, graph, BUILD + denied, files=files, options=home, others=others)
    for path in (
        "/r//x-1.0.0/./a//b", "/r/x-1.0.0/", "/r/x-1.0.0/.", "/r/x-1.0.0", "r/x-1.0.0/a", "/r/x-1.0.0/../a", "a",
        "/r/x-1.0.0/./a", "/r/x-1.0.0//a/",
    ):
        graph = built_graph("app -> x", x=[target("custom-build", path)])
        for home in [], ["--home=/r"]:
            policy = BUILD + "bypass = [{ name = 'x', build-script = '%s' }]\n" % OTHER
            yield build("a script at %s, %s" % (path, home), graph, policy, files=files, options=home)
    failing = built_graph("app -> x", x="proc-macro")
    for home in [], ["--home=/r"], ["--home=/r/x-1.0.0"]:
        yield build("a folder that fails, %s" % home, failing, BUILD, files=files, options=home, fail=["/r/x-1.0.0"])


# ---- hits and dead entries


def dead_entries():
    """Bypasses, their paths and their globs, which something hits or nothing does."""
    graph = built_graph("app -> x, app -> x@2.0.0, app -> y, app -> z", x="proc-macro", y="lib", z="custom-build")
    files = {"x": {"a": "", "b.sh": ""}, "x@2.0.0": {"a": "", "c/d": ""}, "y": {"a": ""}}
    files["z"] = {"build.rs": SOURCE, "a": ""}
    paths = lambda *names: ", allow = [%s]" % ", ".join("{ path = '%s' }" % name for name in names)
    globs = lambda *texts: ", allow-globs = [%s]" % ", ".join("'%s'" % text for text in texts)
    by_sum = ", build-script = '%s'" % SUM
    for name, entries, gone in (
        ("of a crate that is not there", ["q"], "bypass q"),
        ("of one that is not looked at", ["y", "app"], "bypass y; bypass app"),
        ("of another version", ["x@3", "x@2", "x@1"], "bypass x"), ("the second of one crate", ["x", "x"], "bypass x"),
        ("of two versions, by the first", ["x@1", "x"], ""),
        ("with its paths", [("q", paths("a", "b"), globs("*"))], "bypass q"),
        ("whose paths are there in one version", [("x", paths("a", "b.sh", "c/d"))], ""),
        ("whose path is nowhere", [("x", paths("a", "q", "c"))], "bypass-path q; bypass-path c"),
        ("whose path is that of a folder", [("x", paths("c", "c/"))], "bypass-path c; bypass-path c/"),
        ("with two paths of one file", [("x", paths("a", "./a", "a/"))], "bypass-path ./a; bypass-path a/"),
        ("with globs before paths", [("x", globs("a", "q*"), paths("a"))], "bypass-glob a; bypass-glob q*"),
        ("with a glob of one version", [("x", globs("*.sh", "*/d"))], ""),
        ("with globs of no file", [("x", globs("*.sH", "d", "**/d"))], "bypass-glob *.sH; bypass-glob d"),
        ("with globs beside each other", [("x", globs("*", "a", "*"))], ""),
        ("of a script that passes by its checksum", [("z", by_sum, paths("q"), globs("q"))], ""),
        (
            "of a script that has another", [("z", by_sum.replace(SUM, OTHER), paths("q"), globs("q"))],
            "bypass-path q; bypass-glob q"
        ),
    ):
        written = ", ".join("{ crate = '%s'%s }" % (one[0], "".join(one[1:])) for one in map(listed, entries))
        policy = "%sbypass = [%s]\n[bans]\nmultiple-versions = 'allow'\n" % (BUILD, written)
        yield build("dead: a bypass %s" % name, graph, policy, files=files, dead=gone)
    policy = BUILD + "allow-build-scripts = []\nbypass = [{ name = 'z'%s%s }]\n" % (paths("q"), globs("q"))
    yield build(
        "dead: nothing of a script that is not allowed", graph, policy, files=files, dead="",
        by_hand="build-script-not-allowed z; duplicate x"
    )
    many = ["n%03d" % number for number in range(100)]
    policy = BUILD + "bypass = [{ crate = 'x'%s%s }]\n" % (paths(*many), globs(*(name + ".sh" for name in many)))
    some = {name + more: "" for name in many[::2] for more in ("", ".sh")}
    gone = ["bypass-path " + name for name in many[1::2]] + ["bypass-glob %s.sh" % name for name in many[1::2]]
    of_x = built_graph("app -> x", x="proc-macro")
    yield build("dead: every second of many", of_x, policy, files={"x": some}, dead="; ".join(gone))


def listed(entry):
    return (entry,) if isinstance(entry, str) else entry


def build_cases():
    for part in (rows, looked_at, allowed_scripts, checksums, clashes, homes, dead_entries):
        yield from part()
