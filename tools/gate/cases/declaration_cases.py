"""Cases of declarations: where manifests write them and what they say, and requirements that any version meets."""

from case_parts import (
    BANS_FAILED, PASSED, TREES_OF_APP, asks, case, crate_tree, declared_graph, told,
)
from readings.report import compact

ROOT = "/w/Cargo.toml"
ANY = asks("x")
WARN = "wildcards = 'warn'"
HEAD = '[package]\nname = "app"\n\n'


def declaration(name, text, labels=None, declared=(ANY,), policy=WARN, **more):
    """A case over one crate, its manifest and what it declares: where its wildcards have their labels."""
    value = declared_graph({"app": list(declared)})
    if labels is not None:
        more["labels"] = "wildcard " + labels if labels else ""
    return case("declarations: %s" % name, "[bans]\n%s\n" % policy, value, files={ROOT: text}, **more)


# ---- rows


def rows():
    text = HEAD + '[dependencies]\nx = "*"\n'
    message = "found 1 wildcard dependency for crate 'app'"
    yield case(
        "declarations: one that any version meets", "[bans]\nwildcards = 'deny'\n", declared_graph({"app": [ANY]}),
        files={ROOT: text}, lines=told(
            "wildcard", "error", message, (5, 6, "wildcard dependency", "*"), graphs=TREES_OF_APP
        ) + BANS_FAILED
    )
    yield declaration("in a manifest that is cut", "[package", by_hand="malformed /w/Cargo.toml")
    yield declaration("in a manifest that fails", text, fail=[ROOT], by_hand="unread app")


# ---- where declarations stand

# Of each kind: its word in the metadata, and its table.
KINDS = [
    (None, "dependencies"), ("normal", "dependencies"), ("dev", "dev-dependencies"), ("build", "build-dependencies")
]
UNIX = "cfg(unix)"
# How a table is written that has a declaration, and how it seems to be.
FORMS = [
    ("a table", "[%s]\nx = '*'\n", True), ("a table within a line", "%s = { x = '*' }", True),
    ("a key with dots", "%s.x = '*'\n", True), ("a header of its own", "[%s.x]\nversion = '*'\n", True),
    ("no table", "%s = ['x']\n", False), ("a table of tables", "[[%s]]\nx = '*'\n", False),
]


def table_for(target, table):
    return "target.'%s'.%s" % (target, table) if target else table


def tables():
    """Each kind of table, for all targets and for one: in each form, and where another one is meant."""
    policy, by_hand = WARN + "\nmultiple-versions-include-dev = true", {True: "wildcard app", False: ""}
    for kind, table in KINDS:
        for target in (None, UNIX):
            declared, own = [asks("x", kind=kind, target=target)], table_for(target, table)
            for what, text, is_found in FORMS:
                name = "of kind %s for %s, in %s" % (kind, target, what)
                yield declaration(name, text % own, None, declared, policy, by_hand=by_hand[is_found])
            others = {table_for(other, name) for other in (None, UNIX) for _, name in KINDS}
            for other in sorted(others) + [own.replace("-", "_") + "_"]:
                name = "of kind %s for %s, in [%s]" % (kind, target, other)
                text = "[%s]\nx = '*'\n" % other
                yield declaration(name, text, None, declared, policy, by_hand=by_hand[other == own])


def targets():
    """Which of the tables for targets one stands in: the first that agrees and has it."""
    section = lambda key, line="x = '*'": "[target.'%s'.dependencies]\n%s\n" % (key, line)
    for_target = lambda target: [asks("x", target=target)]
    one = lambda name, target, text, labels: declaration("for a target, %s" % name, text, labels, for_target(target))
    triple = "x86_64-unknown-linux-gnu"
    yield one("a triple", triple, section(triple), "2:6 *")
    yield one("another triple", triple, section("x86_64-unknown-linux-musl"), "")
    yield one("a triple in a bare key", triple, "[target.%s.dependencies]\nx = '*'\n" % triple, "2:6 *")
    yield one("an expression for a triple", triple, section("cfg(%s)" % triple), "")
    yield one("none for an expression", UNIX, "[dependencies]\nx = '*'\n", "")
    for target, key, agree in AGREEING:
        text = "[target.%s.dependencies]\nx = '*'\n" % compact(key)
        yield one("%s and %s" % (target, key), target, text, "2:6 *" if agree else "")
    spaced = "cfg( unix )"
    for name, text, labels in (
        ("the first in byte order", section(UNIX) + section(spaced), "4:6 *"),
        ("the first in byte order, written last", section("cfg(unix )") + section(spaced) + section(UNIX), "4:6 *"),
        ("the first that has it", section(spaced, "y = '*'") + section(UNIX), "4:6 *"),
        ("the first whose table is one", "[target]\n'%s' = 5\n%s" % (spaced, section(UNIX)), "4:6 *"),
        (
            "the first that has such a table",
            "[target.'%s'.build-dependencies]\nx = '*'\n%s" % (spaced, section(UNIX)), "4:6 *"
        ),
        ("the first that has a value of any kind", section(spaced, "x = 5") + section(UNIX), "2:5 5"),
        ("beside those for all", "[dependencies]\nx = '*'\n" + section(UNIX), "4:6 *"),
        ("where targets are no table", "target = '%s'\n" % UNIX, ""),
    ):
        yield one(name, UNIX, text, labels)


# What a declaration is for, a key of the manifest, and whether they agree.
AGREEING = [
    ("cfg(unix)", "cfg(unix)", True), ("cfg(unix)", "cfg( unix )", True), ("cfg(unix)", " cfg(unix)", True),
    ("cfg(unix)", "cfg(unix)\t", True), ("cfg(unix)", "cfg (unix)", True), ("cfg(unix)", "cfg(windows)", False),
    ("cfg(unix)", "cfg(Unix)", False), ("cfg(unix)", "cfg(unix_)", False), ("cfg(unix)", "unix", False),
    ("cfg(unix)", "cfg(unix))", False), ("cfg(unix)", "cfg(unix", False), ("cfg(unix)", "cfg(unix,)", False),
    ("cfg(unix)", "Cfg(unix)", False), ("cfg(unix)", "cfg(any(unix))", False), ("cfg(unix)", "cfg(all(unix))", False),
    ("cfg(any(unix))", "cfg(all(unix))", False), ("cfg(any())", "cfg( any ( ) )", True),
    ("cfg(any())", "cfg(all())", False),
    ('cfg(target_os = "linux")', 'cfg(target_os="linux")', True),
    ('cfg(target_os = "linux")', 'cfg(target_os = "Linux")', False),
    ('cfg(target_os = "linux")', 'cfg(target_os = " linux")', False),
    ('cfg(target_os = "linux")', "cfg(target_os)", False),
    ('cfg(a = "b")', 'cfg(b = "a")', False), ("cfg(a1_)", "cfg( a1_)", True), ("cfg(1a)", "cfg( 1a)", False),
    ("cfg(1a)", "cfg(1a)", True),
    ("cfg(a-b)", "cfg( a-b)", False), ("cfg(ü)", "cfg( ü)", False), ("cfg()", "cfg( )", False),
    ("cfg()", "cfg()", True),
    ("cfg(all(unix, windows))", "cfg(all(unix,windows,))", True),
    ("cfg(all(unix, windows))", "cfg(all(windows, unix))", False),
    ("cfg(all(unix, windows))", "cfg(any(unix, windows))", False), ("cfg(all(unix, unix))", "cfg(all(unix))", False),
    ("cfg(all(a))", "cfg(all(a,,))", False), ("cfg(all(a))", "cfg(all(,a))", False),
    ("cfg(all(a b))", "cfg( all(a b))", False),
    ("cfg(not(unix))", "cfg(not( unix))", True), ("cfg(not(unix))", "cfg(unix)", False),
    ("cfg(not(not(unix)))", "cfg(unix)", False), ("cfg(not(not(unix)))", "cfg( not (not (unix)) )", True),
    ("cfg(not())", "cfg( not())", False), ("cfg(not(a, b))", "cfg( not(a, b))", False),
    ("cfg(all)", "cfg( all)", False),
    ("cfg(not)", "cfg(not )", False), ('cfg(all = "a")', 'cfg( all = "a")', False),
    ('cfg(allx = "a")', 'cfg( allx = "a")', True),
    ("cfg(unix(a))", "cfg( unix(a))", False), ('cfg(any(a = "b", not(c)))', 'cfg(any(a="b",not(c)))', True),
    ("cfg(all(any(a, b), not(c)))", "cfg(all(any(a,b),not(c)))", True),
    ("cfg(all(any(a, b), not(c)))", "cfg(all(any(a,b),c))", False),
    ("cfg(a = 'b')", "cfg( a = 'b')", False), ('cfg(a = "b\\c")', 'cfg( a = "b\\c")', True),
    ('cfg(a = "")', 'cfg(a="")', True),
    ("cfg(unix) cfg(unix)", "cfg(unix)  cfg(unix)", False), ("cfg(unix) x", "cfg(unix)", False), ("", "", True),
    ("", " ", False),
]


# ---- what a declaration says


def forms():
    """How the value of a declaration is written, and what of it a label marks."""
    for name, line, labels in (
        ("a text", 'x = "*"', "2:6 *"), ("a text in single quotes", "x = '*'", "2:6 *"),
        ("an empty text", 'x = ""', "2:6 "),
        ("another requirement than the metadata", "x = '1'", "2:6 1"),
        ("a text that is no requirement", "x = 'latest'", "2:6 latest"),
        ("a text in three quotes", 'x = """\n*"""', "2:8 \n*"),
        ("a text with an escape", 'x = "\\u002a"', "2:6 \\u002a"),
        ("a table within a line", "x = { version = '*' }", "2:18 *"),
        ("a table without a version", "x = { git = 'g' }", "2:5 { git = 'g' }"),
        ("a table with another version", "x = { version = '1.2' }", "2:18 1.2"), ("an empty table", "x = {}", "2:5 {}"),
        ("a table whose version is no requirement", "x = { version = 'q' }", "2:5 { version = 'q' }"),
        ("a table whose version is a number", "x = { version = 1 }", "2:5 { version = 1 }"),
        (
            "a table whose version is a table", "x = { version = { version = '*' } }",
            "2:5 { version = { version = '*' } }"
        ),
        ("a number", "x = 5", "2:5 5"), ("a float", "x = 1.0", "2:5 1.0"), ("a flag", "x = true", "2:5 true"),
        ("a day", "x = 1979-05-27", "2:5 1979-05-27"),
        ("a list", "x = ['*']", "2:5 ['*']"), ("keys with dots", "x.version = '*'", "2:14 *"),
        ("keys with dots, no version", "y.z = 1\nx.git = 'g'", "3:1 x"),
        ("a name in quotes", "\"x\" = '*'", "2:8 *"), ("a name with an escape", "\"\\u0078\" = '*'", "2:13 *"),
        ("a header of its own", "y = 1\n[dependencies.x]\nversion = '*'", "4:12 *"),
        ("a header of its own, no version", "[dependencies.x]\npath = 'x'", "2:15 x"),
        ("headers of its own", "[[dependencies.x]]\nversion = '*'", "2:16 x"),
        ("characters of several bytes before it", "é = 1", None),
        ("a version behind characters of several bytes", "x = { package = 'é€', version = '*' }", "2:34 *"),
    ):
        bare = "é" in name
        if labels is None:
            yield declaration(name, "[dependencies]\n'é' = 1 # é\nx = '*'\n", "3:6 *")
        else:
            yield declaration(name, "[dependencies]\n%s\n" % line, labels)
    for name, declared, text, labels in (
        (
            "under another name", asks("x", rename="y"),
            "[dependencies]\nx = '1'\ny = { package = 'x', version = '*' }\n", "3:33 *"
        ),
        (
            "under another name, which is not there", asks("x", rename="y"),
            "[dependencies]\nx = { package = 'y', version = '*' }\n", ""
        ),
        ("under an empty name", asks("x", rename=""), "[dependencies]\n'' = '*'\n", "2:7 *"),
        (
            "under its name, where a manifest has another package", ANY,
            "[dependencies]\nx = { package = 'y', version = '*' }\n", "2:33 *"
        ),
        ("of a name with a line", asks("x-y"), "[dependencies]\nx_y = '*'\n", ""),
        (
            "of a name with a dot in quotes", asks("x", rename="a.b"), "[dependencies]\na.b = '*'\n'a.b' = '1'\n",
            "3:10 1"
        ),
        ("which is not there", ANY, "[dependencies]\n", ""), ("which is not there, nor its table", ANY, "", ""),
    ):
        yield declaration(name, text, labels, [declared])


def resolved():
    """Of several declarations each stands for itself, where it is for a crate of the graph."""
    text = "[dependencies]\nx = '*'\ny = { package = 'x', version = '>=0' }\n[dev-dependencies]\nx = '2'\n"
    both = [asks("x"), asks("x", rename="y"), asks("x", kind="dev", to="x@2.0.0")]
    yield declaration("three for one name", text, "2:6 *, 3:33 >=0, 5:6 2", both)
    yield declaration(
        "three for one name, one with a requirement", text, "2:6 *, 5:6 2",
        [both[0], asks("x", ">=0", rename="y"), both[2]]
    )
    yield declaration("in the order of the metadata", text, "5:6 2, 3:33 >=0, 2:6 *", both[::-1])
    yield declaration("twice at one key", "[dependencies]\nx = '*'\n", "2:6 *, 2:6 *", [ANY, asks("x", features=["f"])])
    value = declared_graph({"app": [ANY]})
    value["packages"][0]["dependencies"] += [
        asks("z"), asks("x", kind="dev"), asks("x", target=UNIX), asks("x", rename="y")
    ]
    lines = "[dependencies]\nx = '*'\ny = '*'\nz = '*'\n[dev-dependencies]\nx = '*'\n"
    lines += "[target.'cfg(unix)'.dependencies]\nx = '*'\n"
    yield case(
        "declarations: for crates that are not there, of another kind and for another target", "[bans]\n%s\n" % WARN,
        value,
        files={ROOT: lines}, labels="wildcard 2:6 *, 3:6 *"
    )


# ---- which requirements and which crates


def requirements():
    for text, is_any in (
        ("*", True), ("x", True), ("X", True), (" * ", True), (">=0", False), (">=0.0.0-0", False), ("0", False),
        ("1.*", False), ("^0", False),
        ("<18446744073709551615", False),
    ):
        yield declaration(
            "any version: %r" % text, "[dependencies]\nx = '*'\n", "2:6 *" if is_any else "", [asks("x", text)]
        )


def levels():
    text = "[dependencies]\nx = '*'\n"
    for level, by_hand in (("allow", ""), ("warn", "wildcard app"), ("deny", "wildcard app")):
        yield declaration("wildcards at %s" % level, text, None, policy="wildcards = '%s'" % level, by_hand=by_hand)
    yield declaration("wildcards at no level", text, "", policy="")
    for number in 1, 2, 3:
        names = ["abc"[place] for place in range(number)]
        lines = "".join("%s = '*'\n" % name for name in names)
        message = "found %d wildcard %s for crate 'app'" % (number, "dependency" if number == 1 else "dependencies")
        labels = [(2 + place, 6, "wildcard dependency", "*") for place in range(number)]
        yield case(
            "declarations: %d that any version meets" % number, "[bans]\n%s\n" % WARN,
            declared_graph({"app": [asks(name) for name in names]}), files={ROOT: "[dependencies]\n" + lines},
            lines=told("wildcard", "warning", message, *labels, graphs=TREES_OF_APP) + PASSED
        )


def asked():
    """Whose wildcards are looked for."""
    at = lambda *names: {"/w/%s/Cargo.toml" % name: "[dependencies]\nx = '*'\n" for name in names}
    below = {"app": [asks("a", "1", kind="dev"), asks("b", "1")], "a": [ANY], "b": [ANY]}
    local = {"a": None, "b": None}
    for name, policy, sources, labels in (
        ("of crates in folders", "", local, "wildcard 2:6 *"),
        ("of a crate for tests", "multiple-versions-include-dev = true", local, "wildcard 2:6 *; wildcard 2:6 *"),
        ("of a skipped crate", "skip = ['b']", local, "skipped 3:10 b; unnecessary-skip 3:10 b"),
        (
            "of a crate that a skip of another version spares", "skip = ['b@2']", local,
            "wildcard 2:6 *; unmatched-skip 3:10 b"
        ),
        ("of a crate in a skipped tree", "skip-tree = ['b']", local, "skipped-by-root 3:15 b; skipped-by-root 3:15 b"),
        ("of a crate above a skipped tree", "skip-tree = ['x']", local, "wildcard 2:6 *; skipped-by-root 3:15 x"),
        ("of a banned crate", "deny = ['b']", local, "banned 3:10 b; wildcard 2:6 *"),
        ("of the workspace, allowed", "allow-workspace = true", local, "wildcard 2:6 *"),
        ("of a crate from git", "", {"a": None, "b": "git+https://example.org/b"}, ""),
        ("of a crate from a registry", "", {"a": None, "b": "registry+https://example.org/b"}, ""),
    ):
        value = declared_graph(below, sources=sources)
        yield case(
            "declarations: %s" % name, "[bans]\n%s\n%s\n" % (WARN, policy), value, files=at("a", "b"), labels=labels
        )
    value = declared_graph(below, sources=local)
    yield case(
        "declarations: of crates in the order of their names",
        "[bans]\n%s\nmultiple-versions-include-dev = true\n" % WARN, value, files=at("a", "b"),
        by_hand="wildcard a; wildcard b"
    )
    yield case(
        "declarations: of a crate whose manifest is not there", "[bans]\n%s\n" % WARN, value, fail=["/w/b/Cargo.toml"],
        by_hand="unread b"
    )
    yield case(
        "declarations: of a crate whose manifest is none", "[bans]\n%s\n" % WARN, value, files={"/w/b/Cargo.toml": "="},
        by_hand="malformed /w/b/Cargo.toml"
    )
    git = declared_graph(
        {"app": [asks("b", "1")], "b": [ANY]}, "app b", {"b": "git+https://example.org/b"}, {"b": "/w/b"}
    )
    yield case("declarations: of a member from git", "[bans]\n%s\n" % WARN, git, files=at("b"), by_hand="")
    itself = {"app": [asks("app", kind="dev"), ANY]}
    text = "[dependencies]\nx = '*'\n[dev-dependencies]\napp = '*'\n"
    yield case(
        "declarations: for the crate itself", "[bans]\n%s\nallow-wildcard-paths = false\n" % WARN,
        declared_graph(itself), files={ROOT: text}, labels="wildcard 2:6 *"
    )
    same = declared_graph(
        {"app": [asks("x"), asks("x", rename="y", to="x@2.0.0")], "x": []}, members="x", sources={"app": None}
    )
    one_name = {"x": [asks("x", rename="y", to="x@2.0.0")]}
    yield case(
        "declarations: for another crate of one name", "[bans]\n%s\n" % WARN, declared_graph(one_name, "x"),
        files={ROOT: "[dependencies]\ny = '*'\n"}, labels="wildcard 2:6 *"
    )


NOTE = (
    ". allow-wildcard-paths is enabled, but does not apply to public crates as crates.io disallows path dependencies."
)


def paths():
    """`allow-wildcard-paths`: where a crate may be published, where it is from and for what it is needed."""
    text = "[dependencies]\nx = '*'\n[dev-dependencies]\nx = '*'\n[build-dependencies]\nx = '*'\n"
    places = {None: "2:6 *", "dev": "4:6 *", "build": "6:6 *"}
    for source, is_public in (
        ("registry+https://github.com/rust-lang/crates.io-index", True), ("sparse+https://index.crates.io/", True),
        ("registry+https://example.org/index", True), ("sparse+https://example.org/", True),
        ("git+https://example.org/x", False), (None, False),
    ):
        for publish in (None, [], ["a"], ["a", "b"]):
            for kind in (None, "dev", "build"):
                spared = not is_public and (publish == [] or kind == "dev")
                value = declared_graph({"app": [asks("x", kind=kind)]}, sources={"x": source}, app={"publish": publish})
                name = "paths allowed, of kind %s, from %s, of a crate for %s" % (kind, source, publish)
                yield case(
                    "declarations: " + name, "[bans]\n%s\nallow-wildcard-paths = true\n" % WARN, value,
                    files={ROOT: text}, labels="" if spared else "wildcard " + places[kind]
                )
    private = declared_graph({"app": [ANY, asks("y")]}, sources={"x": None}, app={"publish": []})
    both = {ROOT: "[dependencies]\nx = '*'\ny = '*'\n"}
    yield case(
        "declarations: paths allowed, a path and a registry", "[bans]\n%s\nallow-wildcard-paths = true\n" % WARN,
        private, files=both,
        lines=told(
            "wildcard", "warning", "found 1 wildcard dependency for crate 'app'" + NOTE,
            (3, 6, "wildcard dependency", "*"), graphs=TREES_OF_APP
        ) + PASSED
    )
    yield case(
        "declarations: paths not allowed, a path and a registry", "[bans]\n%s\nallow-wildcard-paths = false\n" % WARN,
        private, files=both, labels="wildcard 2:6 *, 3:6 *"
    )


# ---- what stands in the workspace


def shared():
    """Wildcards that stand in the workspace's manifest, or that are not found there."""
    root = "[workspace.dependencies]\nx = %s\n"
    value = declared_graph({"a": [ANY]}, "a")
    value["packages"][0]["manifest_path"] = "/w/a/Cargo.toml"
    path = "/w/a/Cargo.toml"

    def one(name, entry, line, **more):
        files = {ROOT: root % entry if entry else "", path: "[dependencies]\n%s\n" % line}
        return case(
            "declarations: shared, %s" % name, "[bans]\n%s\n" % WARN, more.pop("value", value), files=files, **more
        )

    message = "found 2 wildcard dependencies for crate 'a'"
    of_a = [crate_tree("a@0.1.0")]
    yield one(
        "whole", "'*'", "x.workspace = true", lines=told(
            "wildcard", "warning", message, (2, 1, "wildcard dependency", "x"), (
                2, 6, "workspace dependency", "*"
            ), graphs=of_a
        ) + PASSED
    )
    yield one(
        "not found", None, "x = { workspace = true }", lines=told(
            "wildcard", "warning", "found 1 wildcard dependency for crate 'a'", (
                2, 5, "wildcard dependency", "{ workspace = true }"
            ), graphs=of_a
        ) + told(
            "unresolved-workspace-dependency", "bug", "failed to resolve a workspace dependency",
            (2, 19, "usage of workspace dependency", "true"), (2, 5, "", "{ workspace = true }"), graphs=of_a
        ) + PASSED
    )
    for name, entry, line, labels in (
        ("in a table", "{ version = '*' }", "x = { workspace = true }", "wildcard 2:5 { workspace = true }, 2:18 *"),
        ("by a path", "{ path = 'x' }", "x.workspace = true", None),
        ("by another requirement", "'1'", "x.workspace = true", "wildcard 2:1 x, 2:6 1"),
        ("not at all", "'*'", "x = { workspace = false }", "wildcard 2:5 { workspace = false }"),
        ("not by a flag", "'*'", "x = { workspace = 'true' }", "wildcard 2:5 { workspace = 'true' }"),
        ("not by its manifest", "'*'", "x = '*'", "wildcard 2:6 *"),
        ("by a version besides", "'*'", "x = { version = '1', workspace = true }", "wildcard 2:18 1, 2:6 *"),
        (
            "by an entry of another version", "'2'", "x.workspace = true",
            "wildcard 2:1 x; unresolved-workspace-dependency 2:15 true, 2:1 x"
        ),
        (
            "by an entry that is passed over", "5", "x.workspace = true",
            "wildcard 2:1 x; unresolved-workspace-dependency 2:15 true, 2:1 x"
        ),
        (
            "by an entry of another crate", "{ package = 'y', version = '*' }", "x.workspace = true",
            "wildcard 2:1 x; unresolved-workspace-dependency 2:15 true, 2:1 x"
        ),
    ):
        yield one(name, entry, line, **({} if labels is None else {"labels": labels}))
    twice = declared_graph({"a": [ANY, asks("x", features=["f"])]}, "a", folders={"a": "/w/a"})
    yield one(
        "twice at one key, not found", None, "x.workspace = true", value=twice,
        labels="wildcard 2:1 x, 2:1 x; unresolved-workspace-dependency 2:15 true, 2:1 x"
    )
    several = declared_graph({"a": [asks("y"), ANY]}, "a", folders={"a": "/w/a"})
    yield one(
        "by one of two, not found", "'*'", "x.workspace = true\ny.workspace = true", value=several,
        labels="wildcard 3:1 y, 2:1 x, 2:6 *; unresolved-workspace-dependency 3:15 true, 3:1 y"
    )
    yield one(
        "by two, not found", None, "x.workspace = true\ny.workspace = true", value=several,
        labels="wildcard 3:1 y, 2:1 x; unresolved-workspace-dependency 2:15 true, 2:1 x; "
        "unresolved-workspace-dependency 3:15 true, 3:1 y"
    )
    spared = declared_graph({"a": [ANY]}, "a", {"x": None}, {"a": "/w/a"}, a={"publish": []})
    files = {ROOT: "", path: "[dependencies]\nx.workspace = true\n"}
    yield case(
        "declarations: shared, passed over and not found", "[bans]\n%s\nallow-wildcard-paths = true\n" % WARN, spared,
        files=files, by_hand=""
    )
    yield case(
        "declarations: shared, not found at allow", "[bans]\nwildcards = 'allow'\n", value, files=files, by_hand=""
    )
    yield case(
        "declarations: shared, with a requirement, not found", "[bans]\n%s\n" % WARN,
        declared_graph({"a": [asks("x", "1")]}, "a", folders={"a": "/w/a"}), files=files, by_hand=""
    )
    yield case(
        "declarations: shared, and the workspace's manifest fails", "[bans]\n%s\n" % WARN, value,
        files={path: files[path]}, fail=[ROOT], by_hand="wildcard a; unresolved-workspace-dependency true; unread none"
    )
    own = {"app": [ANY]}
    text = "[workspace.dependencies]\nx = '*'\n[dependencies]\nx.workspace = true\n"
    yield case(
        "declarations: shared, in one manifest", "[bans]\n%s\n" % WARN, declared_graph(own), files={ROOT: text},
        labels="wildcard 4:1 x, 2:6 *"
    )


def declaration_cases():
    for part in (rows, tables, targets, forms, resolved, requirements, levels, asked, paths, shared):
        yield from part()
