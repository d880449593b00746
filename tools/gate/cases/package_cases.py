"""Cases of the files of packages: what they are by their first bytes and names, which rule of a bypass speaks of each,
which lie where, and which fail; and packages and policies by chance.

The package is that of `x`, a procedural macro at `/r/x-1.0.0`, where nothing else is said.
"""

from build_cases import ARCHIVE, BUILD, ELF, GIT, MACH, PE, SCRIPT, SOURCE, build, package_files, sum_of
from case_parts import (
    BANS_FAILED, PASSED, asks, built_graph, declared_graph, draws, in_package, manifest_of, target, told,
)
from readings.building import BUILTIN

OF_X = built_graph("app -> x", x="proc-macro")
SCRIPTS = BUILD + "interpreted = 'warn'\n"


def package(name, files, policy=BUILD, by_hand=None, text=OF_X, **more):
    return build("package: %s" % name, text, policy, by_hand, {"x": files}, **more)


# ---- first bytes

PREFIXES = {
    "elf": ["7f454c46"], "pe": ["4d5a"], "mach": ["feedface", "cefaedfe", "feedfacf", "cffaedfe", "cafebabe"],
    "archive": ["213c617263683e0a"],
}


def native():
    """Native code by its prefix, in files of several sizes, and what is nearly that."""
    for kind, prefixes in PREFIXES.items():
        for prefix in map(bytes.fromhex, prefixes):
            for size in 15, 16, 17, 5000:
                for policy, with_archives in ((BUILD, False), (BUILD + "include-archives = true\n", True)):
                    is_told = size >= 16 and (kind != "archive" or with_archives)
                    yield package(
                        "%s in %d bytes%s" % (prefix.hex(), size, ", archives too" * with_archives),
                        {"a": prefix.ljust(size, b"\0")}, policy, "detected-executable a %s" % kind if is_told else ""
                    )
            nearly = [prefix[:-1].ljust(16, b"\0"), b"\0" + prefix.ljust(16, b"\0"), prefix[:-1] + b"?" * 12]
            for number, data in enumerate(nearly):
                yield package("nearly %s, %d" % (prefix.hex(), number), {"a": data}, by_hand="")
    for prefix in ("565a", "7f454c47", "5a4d", "cafebabf", "fefa", "213c617263683e0d", "0000feed", "efbbbf7f454c46"):
        yield package("%s, which is none" % prefix, {"a": bytes.fromhex(prefix).ljust(16, b"\0")}, by_hand="")
    kinds = {"a": ELF, "b": PE, "c": MACH, "d": ARCHIVE, "e": "#!/bin/sh\n# long\n", "f": "x" * 16, "g": ""}
    yield package("one of each kind", kinds, by_hand="detected-executable a elf; detected-executable b pe; "
                  "detected-executable c mach; detected-executable-script e sh")
    for name in "a.rs", ".rs", "a.sh", "é", "a b", "a'b", '"a"', "a\nb", "~", "a\\b", "a.":
        yield package("native code named %r" % name, {name: ELF})


def first_lines():
    """Scripts by their first lines."""
    name_of = lambda size: "n" * (size - 3)
    for size in 12, 14, 15, 16, 17, 254, 255, 256, 257, 258:
        line = "#!" + name_of(size) + "\n"
        for more in "", "x" * 3, "x" * 300, "\n":
            is_script = size <= 256 and size + len(more) >= 16
            by_hand = "detected-executable-script a #!%s" % name_of(size) if is_script else ""
            yield package("a first line of %d bytes, and %d behind it" % (size, len(more)), {"a": line + more},
                          SCRIPTS, by_hand)
        yield package("a line of %d bytes without an end" % size, {"a": line[:-1]}, by_hand="")
        yield package("a line of %d bytes in pieces of one" % size, {"a": line + "x" * 9}, piece=1)
    for line, named in (
        ("#!/usr/bin/env python3", "python3"), ("#! /bin/bash", "bash"), ("#!/bin/sh -e", "sh"), ("#!sh", "#!sh"),
        ("#! sh", "sh"), ("#!  /bin/sh", ""), ("#!/usr/bin/env", None), ("#!/usr/bin/env ", ""),
        ("#! /usr/bin/env", None),
        ("#! /usr/bin/env sh", "sh"), ("#!/usr/bin/env  sh", ""), ("#!", None), ("#! ", ""), ("#!/", ""),
        ("#!/bin/", ""), ("#!/env sh", "sh"), ("#!env sh", "#!env"), ("#! env sh", "env"), ("#!/bin/xenv sh", "xenv"),
        ("#!a#! b", "b"), ("#!/bin/a#! /b/c", "c"), ("#!#!", None), ("#!#! /b", "b"), ("#!/bin/sh\r", "sh\r"),
        ("#!\t/bin/sh", "sh"), ("#!/bin/sh\t-e", "sh\t-e"), ("#!/usr/bin/env -S sh", "-S"),
        ("#!/usr/bin/env /bin/sh", "/bin/sh"),
        ("#!/bin/é", "é"), ("#!/bin/a\0b", "a\0b"), ("#![allow(unused)]", "#![allow(unused)]"), ("#! [a]/b", "b"),
        ("#!/usr/bin/env/", ""), ("#!/a/env/env x y", "x"), ('#!/bin/"q"', '"q"'), ("#!/bin/it's", "it's"),
    ):
        by_hand = "" if named is None else "detected-executable-script a %s" % named
        text = line + "\n" + "x" * 20
        yield package("the first line %r" % line, {"a": text}, SCRIPTS, by_hand)
        yield package("the first line %r of a source" % line, {"a.rs": text}, SCRIPTS,
                      by_hand.replace(" a ", " a.rs ") if not line.startswith("#![") else "")
    for name in ".rs", "a.rs", "..rs", "a.RS", "a.rs.sh", "b/.rs", "b/a.rs", "rs", "a.rs/b", "é.rs", "a rs", ".rs.rs":
        yield package("an attribute in the file %s" % name, {name: "#![allow(unused)]\n"}, SCRIPTS)
    for line in (b"#!/bin/\xff", b"#!/bin/\xc3", b"#!/bin/\xed\xa0\x80", b"#!/bin/\xc0\x80", b"#!/bin/sh \xff"):
        yield package("the bytes %s in a first line" % line.hex(), {"a": line + b"\n" + b"x" * 20}, SCRIPTS, "")
    for name, data, by_hand in (
        ("bytes behind the first line", b"#!/bin/sh\n\xff\xff\xff\xff\xff\xff", "detected-executable-script a sh"),
        ("half a character at the end of what is read", b"#!/bin/sh\n" + b"x" * 245 + "é".encode() + b"x",
         "detected-executable-script a sh"),
        ("a character that the 256 bytes cut", b"#!/" + b"a" * 252 + "é\n".encode(), ""),
        ("a blank before the mark", b" #!/bin/sh\n" + b"x" * 9, ""), ("half a mark", b"#/bin/sh\n" + b"x" * 9, ""),
        ("a mark of byte order", b"\xef\xbb\xbf#!/bin/sh\n" + b"x" * 9, ""), ("no bytes", b"", ""),
        ("a mark alone", b"#!\n", ""),
    ):
        yield package("a script with %s" % name, {"a": data}, SCRIPTS, by_hand)
    for level, severity in (("allow", "note"), ("warn", "warning"), ("deny", "error")):
        notes = ["path = '$crate/a'", "interpreter = 'python3'"]
        line = told("detected-executable-script", severity, "detected executable", notes=notes)
        yield package(
            "a script at level %s" % level, {"a": SCRIPT}, BUILD + "interpreted = '%s'\n" % level,
            lines=line + (BANS_FAILED if level == "deny" else PASSED)
        )


# ---- names


def extensions():
    """Extensions of scripts, and the globs that are built in."""
    names = ["a.sh", "a.SH", "sh", ".sh", "a.sh.txt", "b/c.sh", "b.sh/c", "a.", "a.ba", "a.bash", "é.sh"]
    of = {name: "" for name in names}
    for written, by_hand in (
        ("'sh'", "denied-by-extension .sh sh; denied-by-extension a.sh sh; denied-by-extension b/c.sh sh; "
         "denied-by-extension é.sh sh"),
        ("'ba', 'sh', 'sh'", None), ("''", "denied-by-extension a. "), ("'SH'", "denied-by-extension a.SH SH"),
        ("", ""), ("'s', 'h', 'bas'", ""),
    ):
        yield package("extensions %s" % written, of, BUILD + "script-extensions = [%s]\n" % written, by_hand)
    builtin = [glob.split(".")[1] for glob in BUILTIN.decode().split('"')[1::2]]
    scripts = {"a." + extension: ELF for extension in builtin}
    globs = BUILD + "enable-builtin-globs = true\n"
    denied = "; ".join("denied-by-extension a.%s *.%s" % (one, one) for one in sorted(builtin))
    yield package("all extensions that are built in", scripts, globs, denied)
    none = "; ".join("detected-executable a.%s elf" % one for one in sorted(builtin))
    yield package("none of them, by a flag", scripts, globs.replace("true", "false"), none)
    yield package("none of them", scripts, BUILD, none)
    for more in "'sh', 'py'", "'b', 'h', 'sh'":
        yield package("some of them twice, %s" % more, scripts, globs + "script-extensions = [%s]\n" % more)
    yield package(
        "one that is built in, and written", {"a.sh": ""}, globs + "script-extensions = ['sh']\n", lines=told(
            "denied-by-extension", "error", "path disallowed by extension", (3, 23, "", "sh"),
            (1, 90, "builtin", "*.sh"), notes=["path = '$crate/a.sh'"]
        ) + BANS_FAILED
    )


# ---- which rule speaks of a file

RIGHT, WRONG = sum_of(ELF), "0" * 64
# What a bypass may say of the file `d/a.sh`.
SAYINGS = {
    "its path": ("{ path = 'd/a.sh' }", ""), "its path with dots": ("{ path = './d//./a.sh/' }", ""),
    "its path and its sum": ("{ path = 'd/a.sh', checksum = '%s' }" % RIGHT, ""),
    "its path and another sum": ("{ path = 'd/a.sh', checksum = '%s' }" % WRONG, ""),
    "a glob": ("", "'*.sh'"), "two globs": ("", "'d/*', 'd/**', 'a.sh'"),
    "its path and a glob": ("{ path = 'd/a.sh' }", "'*.sh'"),
    "its path, its sum and a glob": ("{ path = 'd/a.sh', checksum = '%s' }" % RIGHT, "'*.sh'"),
    "its path, another sum and a glob": ("{ path = 'd/a.sh', checksum = '%s' }" % WRONG, "'*.sh'"),
    "its sum before its path": ("{ path = 'd/a.sh', checksum = '%s' }, { path = 'd/a.sh' }" % WRONG, ""),
    "its path before its sum": ("{ path = './d/a.sh' }, { path = 'd/a.sh', checksum = '%s' }" % WRONG, ""),
    "two sums": ("{ path = 'd/a.sh', checksum = '%s' }, { path = 'd/./a.sh', checksum = '%s' }" % (RIGHT, WRONG), ""),
    "other paths": ("{ path = 'a.sh' }, { path = 'd' }, { path = 'd/../d/a.sh' }, { path = 'D/a.sh' }", ""),
    "other globs": ("", "'*.SH', 'a*', '?a.sh'"), "nothing": ("", ""),
    "empty paths": ("{ path = '' }, { path = '.' }", "''"),
}
CONTENTS = {"native code": ELF, "a script": "#!/bin/sh\n# long\n", "no executable": "x"}


def classes():
    """Each thing that a bypass may say of a file, for each kind of file, whether it can be read or not."""
    for said, (paths, globs) in SAYINGS.items():
        bypass = "bypass = [{ crate = 'x', allow = [%s], allow-globs = [%s] }]\n" % (paths, globs)
        for what, data in CONTENTS.items():
            for extension in "", "script-extensions = ['sh']\n":
                for fail in [], ["/r/x-1.0.0/d/a.sh"]:
                    by_name, fails = ", a script by its name" * bool(extension), ", which fails" * bool(fail)
                    name = "%s of %s%s%s" % (said, what, by_name, fails)
                    yield package(name, {"d/a.sh": data}, BUILD + extension + bypass, fail=fail)


def allowed_paths():
    """What is told of paths, with checksums or without."""
    path = "bypass = [{ crate = 'x', allow = [%s] }]\n"
    labels = lambda by_hand, paths, **more: package(
        "paths %s" % paths, {"a": ELF, "a-b": ELF, "a1/b": ELF}, BUILD + path % paths, by_hand, **more
    )
    yield labels("path-bypassed a; detected-executable a-b elf; detected-executable a1/b elf", "{ path = 'a' }")
    yield labels("path-bypassed a; detected-executable a-b elf; detected-executable a1/b elf; unmatched-path-bypass a",
                 "{ path = 'a' }, { path = 'a' }")
    yield labels("path-bypassed a//; path-bypassed a1/./b; checksum-match a-b",
                 "{ path = 'a//' }, { path = 'a-b', checksum = '%s' }, { path = 'a1/./b' }" % RIGHT)
    yield labels("path-bypassed a; checksum-mismatch a-b; detected-executable a1/b elf",
                 "{ path = 'a' }, { path = 'a-b', checksum = '%s' }" % WRONG)
    sum_line = told(
        "checksum-mismatch", "error", "file did not match the expected checksum", (2, 61, "expected checksum", WRONG),
        notes=["path = '$crate/a'", "error = 'calculated different checksum %s'" % RIGHT]
    )
    yield package("another checksum", {"a": ELF}, BUILD + path % ("{ path = 'a', checksum = '%s' }" % WRONG),
                  lines=sum_line + BANS_FAILED)
    for size in 0, 1, 55, 56, 64, 4095, 4096, 4097, 20000:
        one = "{ path = 'a', checksum = '%s' }" % sum_of("s" * size)
        yield package(
            "the checksum of %d bytes" % size, {"a": "s" * size}, BUILD + path % one, "checksum-match a", piece=1000
        )
    two = BUILD + "bypass = [{ crate = 'x', allow = [{ path = 'a' }] }, { crate = 'x', allow = [{ path = 'b' }] }]\n"
    first_alone = "path-bypassed a; detected-executable b elf; unmatched-bypass x"
    yield package("the first bypass alone", {"a": ELF, "b": ELF}, two, first_alone)
    yield package("an empty bypass", {"a": ELF}, BUILD + "bypass = [{ crate = 'x' }]\n", "detected-executable a elf")


# ---- folders


def folders():
    """Files by their places."""
    several = ["a/b/c", "a/b-c", "a-/b", "a.b/c", "B", "é/a", "a/é", "_"]
    for names in (["a-b", "a/b", "a1"], several, ["b/a", "a/b", "c"]):
        yield package("the order of %s" % names, {name: ELF for name in names})
    deep = "/".join("d" * 60)
    yield package(
        "60 folders in each other", {deep + "/a": ELF, "a": ELF},
        by_hand="detected-executable a elf; detected-executable %s/a elf" % deep
    )
    yield package("many files", {"f%03d" % number: ELF if number % 3 == 0 else "" for number in range(300)})
    yield package("many folders", {"f%03d/a" % number: ELF if number % 3 == 0 else "" for number in range(150)})
    member = built_graph("app -> x", app="proc-macro")
    others = {"/w/a/run": {"hex": ELF.hex()}, "/w/run": {"hex": ELF.hex()}}
    yield build("package: that of a member", member, BUILD + "include-workspace = true\n", others=others)
    of_folders = built_graph("app -> x, app -> y", x="proc-macro", y="proc-macro")
    files = {path: {"hex": data.hex()} for path, data in (("/r/a/run", ELF), ("/r/y/run", PE), ("/y/run", MACH))}
    for one, other in (
        ("/r", "/r/y"), ("/r/a", "/r/a"), ("/", "/y"), ("", "/y"), ("r//a", "r/a"), ("/r/a/", "/r/a"), ("/y", "/q"),
    ):
        value = placed(of_folders, {"x": one, "y": other})
        yield build("package: in folders %r and %r" % (one, other), value, BUILD, others={"r/a/run": "x", **files})


def kept_by_git():
    """What git holds, in packages from several sources."""
    places = {
        "a folder": ".git/run", "a file": ".git", "an inner one": "a/.git/run", "a longer name": ".gitignore",
        "one in another": ".git/a/.git/b",
    }
    for source, is_git in (
        (GIT, True), (GIT + "?rev=a#b", True), ("registry+https://h/p", False), ("sparse+https://h/p", False),
        (None, False),
    ):
        graph = built_graph("app -> x", x="proc-macro", sources={"x": source})
        for name, path in places.items():
            left_out = is_git and name not in ("an inner one", "a longer name")
            told_of = sorted([] if left_out else [path]) + ["run"]
            by_hand = "; ".join("detected-executable %s elf" % one for one in told_of)
            yield package(".git of %s, %s" % (source, name), {path: ELF, "run": ELF}, BUILD, by_hand, graph)
    graph, fails = built_graph("app -> x", x="proc-macro", sources={"x": GIT}), ["/r/x-1.0.0/.git", "/r/x-1.0.0/.git/a"]
    files = {".git/a": ELF, "b": ELF}
    yield package(".git that fails", files, BUILD, "detected-executable b elf", graph, fail=fails)


def placed(value, folders):
    """The graph with crates in other folders."""
    packages = [dict(one, manifest_path=folders.get(one["name"], "/w") + "/Cargo.toml") for one in value["packages"]]
    return dict(value, packages=packages)


# ---- what fails


def failing():
    """Each path of a package that fails in turn, and listings that fail."""
    files = {"build.rs": SOURCE, "run": ELF, "a.sh": SCRIPT, "d/e/f": ELF, "d/g": "x", "s": SCRIPT, "t": SCRIPT}
    graph = built_graph("app -> x", x="custom-build")
    bypass = "bypass = [{ crate = 'x', build-script = '%s', required-features = ['q'], allow-globs = ['*.sh'], "
    bypass += "allow = [%s] }]\n"
    paths = "{ path = 's' }, { path = 't', checksum = '%s' }" % sum_of(SCRIPT)
    folders = ["", "/d", "/d/e"]
    for name, policy in (
        ("no bypass", BUILD), ("a bypass", BUILD + bypass % (WRONG, paths)), ("nothing", ""),
        ("a right script", BUILD + bypass % (sum_of(SOURCE), paths)),
        ("a denied script", BUILD + "allow-build-scripts = []\n" + bypass % (WRONG, paths)),
        ("extensions", SCRIPTS + "script-extensions = ['sh', 'rs']\n"),
    ):
        for path in ["/Cargo.toml", *("/" + file for file in files), *folders, "/q", "/d/"]:
            name_ = "%s fails, %s" % (path or "its folder", name)
            yield package(name_, files, policy, text=graph, fail=["/r/x-1.0.0" + path])
    fails = ["/r/x-1.0.0/" + file for file in files]
    yield package("all files fail", files, BUILD, text=graph, fail=fails)
    fails += ["/r/x-1.0.0" + path for path in folders]
    yield package("all fails", files, BUILD, "unable-to-check-path ; unread x list", graph, fail=fails)


def failing_folders():
    """Listings that fail at several depths, and what is not there."""
    several = {"a/b/c": ELF, "a/d": ELF, "e/f": ELF}
    for fail, by_hand in (
        ([""], "unable-to-check-path ; unread x list"),
        (["/a"], "detected-executable e/f elf; unable-to-check-path a; unread x list"),
        (["/a/b"], "detected-executable a/d elf; detected-executable e/f elf; unable-to-check-path a/b; unread x list"),
        (["/a", "/a/b"], "detected-executable e/f elf; unable-to-check-path a; unread x list"),
        (
            ["/e", "/a/d"], "detected-executable a/b/c elf; unable-to-check-path a/d; unable-to-check-path e; "
            "unread x header; unread x list"
        ),
        (
            ["/a/b/c", "/a/b"], "detected-executable a/d elf; detected-executable e/f elf; unable-to-check-path a/b; "
            "unread x list"
        ),
    ):
        name, fails = "package: listings of %s fail" % fail, ["/r/x-1.0.0" + path for path in fail]
        yield build(name, OF_X, BUILD, by_hand, others=in_package("x", several), fail=fails)
    yield build("package: one that is not there", OF_X, BUILD, "unable-to-check-path ; unread x list")
    glob = BUILD + "bypass = [{ crate = 'x', allow-globs = ['*'], allow = [{ path = 'q' }] }]\n"
    yield build(
        "package: one that is not there, and a bypass", OF_X, glob,
        "unable-to-check-path ; unmatched-path-bypass q; unmatched-glob *; unread x list"
    )
    missing = built_graph("app -> x", x=[target("custom-build", "/r/x-1.0.0/build.rs")])
    for more, by_hand in (
        ("", "checksum-mismatch build.rs script; unread x script"),
        (
            "allow-build-scripts = []\n",
            "build-script-not-allowed x; checksum-mismatch build.rs script; unread x script"
        ),
    ):
        policy = BUILD + more + "bypass = [{ crate = 'x', build-script = '%s' }]\n" % WRONG
        name = "a script that is not there, %s" % (more.strip() or "no list")
        yield package(name, {"a": ""}, policy, by_hand, missing)
    member = built_graph("app -> x", app="proc-macro")
    yield build(
        "package: a manifest that fails as a manifest and as a file", member, BUILD + "include-workspace = true\n",
        "unable-to-check-path Cargo.toml; unread app; unread app header",
        others={"/w/Cargo.toml": manifest_of("app"), "/w/a": ""}, fail=["/w/Cargo.toml"]
    )
    three = built_graph("app -> x, app -> y, app -> b", x="custom-build", y="custom-build", b="custom-build")
    yield build(
        "package: the order of what fails", three, BUILD + "bypass = [{ name = 'y', build-script = '%s' }]\n" % WRONG,
        files={word: {"run": ELF, "build.rs": SOURCE, "a/b": ""} for word in "xyb"},
        fail=["/r/%s-1.0.0/%s" % (name, path) for name in "xyb" for path in ("run", "build.rs", "a")]
    )


# ---- by chance


def some_policy(draw):
    """A policy for builds by chance."""
    names = ["x", "y", "z", "x@1", "x@2", "app", "q"]
    some = lambda write, most=3: "[%s]" % ", ".join(write() for _ in range(draw(most + 1)))
    spec, flag = (lambda: "'%s'" % names[draw(len(names))]), (lambda: "true" if draw(2) else "false")
    sum_ = lambda: [sum_of(SOURCE), RIGHT, WRONG, sum_of("")][draw(4)]
    path = lambda: "{ path = '%s'%s }" % (
        PATHS[draw(len(PATHS))], ", checksum = '%s'" % sum_() if draw(2) else ""
    )
    globs = ["*", "*.sh", "d/*", "*/*", "**/b", "a?", "[ab]", "{a,b,d/e}*", "d/**", "q"]
    glob = lambda: "'%s'" % globs[draw(len(globs))]
    feature = lambda: "'%s'" % "fgh"[draw(3)]
    bypass = lambda: "{ crate = %s, allow = %s, allow-globs = %s, required-features = %s%s }" % (
        spec(), some(path, 4), some(glob, 2), some(feature, 2), ", build-script = '%s'" % sum_() if draw(2) else ""
    )
    level = lambda: "'%s'" % ["allow", "warn", "deny"][draw(3)]
    lines = ["executables = " + level()] * (draw(3) == 0) + ["interpreted = " + level()] * draw(2)
    lines += ["%s = %s" % (key, flag()) for key in (
        "enable-builtin-globs", "include-dependencies", "include-workspace", "include-archives"
    ) if draw(2)]
    lines += ["allow-build-scripts = " + some(spec)] * (draw(3) == 0)
    lines += ["script-extensions = " + some(lambda: "'%s'" % ["sh", "rs", "a", "lib"][draw(4)])] * draw(2)
    lines += ["bypass = " + some(bypass, 4)] * (draw(6) > 0)
    return "[bans]\nmultiple-versions = 'allow'\n%s%s%s\n" % (
        "allow-build-scripts = %s\n" % some(spec) if draw(4) == 0 else "", BUILD, "\n".join(lines)
    )


PATHS = ["a", "b", "a.sh", "build.rs", "d/e", "d/b", "d/./e", "lib.a", "q", "d/f/b", "Cargo.toml", "./a"]


def some_package(draw):
    data = [ELF, PE, ARCHIVE, SCRIPT, SOURCE, "", "x" * 20, "#![allow(unused)]\n", "#!/usr/bin/env sh\n"]
    paths = [path for path in PATHS if "." not in path.split("/") and path not in ("q", "Cargo.toml") and draw(4)]
    return {path: data[draw(len(data))] for path in paths}


def some_case(seed):
    """A policy for builds, packages, targets, features and failures by chance."""
    draw = draws(seed)
    words = ["app", "x", "x@2.0.0", "y", "z"]
    kinds = ["custom-build", "proc-macro", "lib", "", "lib custom-build"]
    targets = {name: kinds[draw(len(kinds))] for name in ("app", "x", "x_2_0_0", "y", "z")}
    tables = {name: {feature: [] for feature in "fg"} for name in "xyz"}
    enabled = {name: [feature for feature in "fg" if draw(3) == 0] for name in "xyz"}
    text = "app -> x, app -> y, y -> x@2.0.0, x -> z"
    graph = built_graph(text, tables, enabled, {"y": GIT} if draw(2) else {}, **targets)
    files = {}
    for word in words:
        files.update(package_files(word, some_package(draw)))
    paths = sorted(files) + ["/r/x-1.0.0", "/r/x-2.0.0/d", "/r/y-1.0.0/d", "/r/z-1.0.0", "/w"]
    fail = [paths[draw(len(paths))] for _ in range(draw(6))] if draw(2) else []
    options = [[], ["--home=/r"], ["--home=/r/x-1.0.0/d"], ["--home=/w"]][draw(4)]
    return build("package: by chance, %d" % seed, graph, some_policy(draw), others=files, fail=fail, options=options)


def by_chance():
    yield from map(some_case, range(9000, 9250))


def package_cases():
    parts = (native, first_lines, extensions, classes, allowed_paths, folders, kept_by_git, failing, failing_folders)
    for part in (*parts, by_chance):
        yield from part()
