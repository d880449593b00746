"""Cases of the files that a run reads: manifests that fail or are none, and whose they are; and of the lock text."""

from case_parts import (
    ALONE, BANS_FAILED, BY_APP, DENY_SEVERAL, DENY_X, PASSED, TREES_OF_X, WITH_X, asks, case, crate_tree, dead_line,
    declared_graph, furnished, malformed_line, manifest_of, metadata, put, row_graph, told, unread_line,
)

ROOT = "/w/Cargo.toml"
OF_APP = {ROOT: manifest_of("app")}
MEMBERS = declared_graph({"a": [], "b": []}, members="a b")


def manifest(name, text=ALONE, policy="", by_hand="", **more):
    if by_hand is not None:
        more["by_hand"] = by_hand
    return case("manifests: %s" % name, policy, text, **more)


def of_text(name, text, by_hand, **more):
    """A case over one crate whose manifest is this text."""
    return manifest(name, by_hand=by_hand, files={ROOT: text}, **more)


# ---- one manifest


def rows():
    yield case("manifests: one that cannot be read", fail=[ROOT], lines=unread_line("app = 0.1.0", ROOT) + PASSED)
    broken = {ROOT: "[package"}
    yield case("manifests: one that is none", files=broken, lines=malformed_line(ROOT) + PASSED)
    nothing = metadata([], packages=[], members=())
    yield manifest("of a workspace without crates", nothing)
    yield case(
        "manifests: of a workspace without crates, which fails", text=nothing, fail=[ROOT],
        lines=unread_line(None, ROOT) + PASSED
    )


def texts():
    """What is a manifest, what is none, and what of one is read in which pieces."""
    none = "malformed " + ROOT
    yield manifest("one that is not there", manifests={}, by_hand="unread app")
    for name, text, by_hand in (
        ("an empty one", "", ""), ("one of blanks", " \t\r\n", ""), ("one of a comment", "# é", ""),
        ("one of other tables", "[lib]\npath = 'x'\n[[bin]]\n[[bin]]\n", ""),
        ("one that is no text", {"hex": "ff"}, none), ("one that ends within a character", {"hex": "23c3"}, none),
        ("one with half a character", {"hex": "23eda080"}, none),
        ("one with a mark of byte order", "\ufeff[package]\n", none),
        ("one with a zero byte", "\x00", none), ("one with a carriage return", "[package]\r", none),
        ("one with a key twice", "a = 1\na = 2\n", none), ("one with a table twice", "[package]\n[package]\n", none),
        ("one with 64 nested arrays", "a = %s%s\n" % ("[" * 64, "]" * 64), ""),
        ("one with 65 nested arrays", "a = %s%s\n" % ("[" * 65, "]" * 65), none),
        ("one with 64 nested tables", "a = %s1%s\n" % ("{a=" * 64, "}" * 64), ""),
        ("one with 65 nested tables", "a = %s1%s\n" % ("{a=" * 65, "}" * 65), none),
        ("one with a key of 64 parts", ".".join("a" * 64) + " = 1\n", ""),
        ("one with a key of 65 parts", ".".join("a" * 65) + " = 1\n", none),
        ("one with a header of 64 parts", "[%s]\n" % ".".join("a" * 64), ""),
        ("one with a header of 65 parts", "[%s]\n" % ".".join("a" * 65), none),
        ("one that ends in the middle", "[dependencies]\nx = ", none),
        ("one with a number of 65 bits", "a = 9223372036854775808\n", none), ("one that is JSON", "{}", none),
    ):
        yield of_text(name, text, by_hand)
    for piece in (1, 7, 24, 25):
        yield of_text("in pieces of %d bytes" % piece, manifest_of("app"), "", piece=piece)
        yield of_text("no text, in pieces of %d bytes" % piece, {"hex": "23" * 23 + "ffff0a"}, none, piece=piece)


# ---- several


def several():
    """Manifests of several crates: each is told of for itself, crates by their ids and paths by theirs."""
    a, b = "/w/a/Cargo.toml", "/w/b/Cargo.toml"
    yield manifest("of two members and of their workspace", MEMBERS)
    yield case(
        "manifests: of two members and of their workspace, which all fail", text=MEMBERS, fail=[b, ROOT, a],
        lines=unread_line(None, ROOT) + unread_line("a = 0.1.0", a) + unread_line("b = 0.1.0", b) + PASSED
    )
    yield case(
        "manifests: of two members and of their workspace, which are none", text=MEMBERS,
        files={b: "[", ROOT: {"hex": "ff"}, a: "]"},
        lines=malformed_line(ROOT) + malformed_line(a) + malformed_line(b) + PASSED
    )
    yield manifest("of one member alone", MEMBERS, files={a: "["}, fail=[b], by_hand="unread b; malformed " + a)
    yield manifest("of the workspace alone, none", MEMBERS, files={ROOT: "["}, by_hand="malformed " + ROOT)
    yield manifest("of the workspace alone, not there", MEMBERS, manifests={a: "", b: ""}, by_hand="unread none")
    yield manifest("of members alone, not there", MEMBERS, manifests={ROOT: ""}, by_hand="unread a; unread b")
    ids = put(MEMBERS, ("packages", 0, "id"), "z")
    ids = put(put(ids, ("resolve", "nodes", 0, "id"), "z"), ("workspace_members", 0), "z")
    yield manifest("which fail, by ids in another order", ids, fail=[a, b], by_hand="unread b; unread a")
    yield from of_one_path()
    yield from of_others()
    yield from of_roots()


def of_one_path():
    """Crates whose manifests have one path."""
    at_root = declared_graph({"a": [asks("c")], "b": []}, "a b", {"c": None}, {"a": "/w", "b": "/w", "c": "/w"})
    yield manifest("of one path", at_root)
    yield manifest("of one path, which fails", at_root, fail=[ROOT], by_hand="unread a; unread b; unread c")
    yield manifest("of one path, which is none", at_root, files={ROOT: "[["}, by_hand="malformed " + ROOT)
    apart = declared_graph({"a": [], "b": []}, "a b", folders={"a": "/w/x", "b": "/w/x"})
    path = "/w/x/Cargo.toml"
    yield manifest("of one path below the workspace", apart, fail=[path], by_hand="unread a; unread b")
    yield manifest("of one path below the workspace, none", apart, files={path: "="}, by_hand="malformed " + path)


def of_others():
    """Crates that have no manifest of the workspace."""
    for name, source, by_hand in (
        ("the public registry", "registry+https://github.com/rust-lang/crates.io-index", ""),
        ("another registry", "registry+https://example.org/index", ""), ("git", "git+https://example.org/x", ""),
        ("a folder", None, "unread x"),
    ):
        value = declared_graph({"app": [asks("x")]}, sources={"x": source}, folders={"x": "/x"})
        yield manifest("of a crate from %s, not there" % name, value, manifests=OF_APP, by_hand=by_hand)
        yield manifest(
            "of a crate from %s, which is none" % name, value, files={"/x/Cargo.toml": "["},
            by_hand="malformed /x/Cargo.toml" if source is None else ""
        )
    value = declared_graph({"app": [asks("x", kind="dev")]}, sources={"x": None})
    yield manifest("of a crate for tests", value, fail=["/w/x/Cargo.toml"], by_hand="unread x")
    value = declared_graph({"app": [], "x": []}, sources={"x": None})
    yield manifest("of a crate that no member needs", value, fail=["/w/x/Cargo.toml"])
    value = declared_graph({"a": []}, "a", {"a": "registry+https://example.org/index"}, {"a": "/a"})
    yield manifest("of a member with a source", value, fail=["/a/Cargo.toml"])
    value = declared_graph({"a": []}, "a", {"a": "registry+https://example.org/index"}, {"a": "/w"})
    yield manifest("of a member with a source at the workspace's path", value, fail=[ROOT], by_hand="unread none")


def of_roots():
    """The file of the workspace, by its folder."""
    for root, path in (
        ("/w/", ROOT), ("/", "/Cargo.toml"), ("w", "w/Cargo.toml"), ("/v", "/v/Cargo.toml"),
        ("/ü w", "/ü w/Cargo.toml"),
    ):
        value = put(MEMBERS, ("workspace_root",), root)
        yield manifest("of the workspace in %s" % root, value, fail=[path], by_hand="unread none")
        value = furnished(put(value, ("workspace_root",), root), {"a": {"manifest_path": path}})
        yield manifest("of a member in the workspace's %s" % root, value, fail=[path], by_hand="unread a")
    for root, path in (("/w/.", ROOT), ("/w//", ROOT), ("/w", "/w//Cargo.toml"), ("/w", "/w/./Cargo.toml")):
        value = furnished(put(MEMBERS, ("workspace_root",), root), {"a": {"manifest_path": path}})
        whole = {ROOT: "", "/w/b/Cargo.toml": ""}
        yield manifest("of a member at %s, of the workspace in %s" % (path, root), value, manifests=whole, by_hand=None)
    for path in (
        "/Cargo.toml", "//", "a/b", "/", "/w/", "/w/b/", '/w/"ü\\\n/Cargo.toml', "/w/Cargo.toml/x", "deny.toml/y"
    ):
        value = furnished(put(MEMBERS, ("workspace_root",), "/w"), {"a": {"manifest_path": path}})
        yield manifest("of a member at %s" % path.encode(), value, by_hand=None)


# ---- beside what else is told


def beside():
    """What is told of files stands behind findings and dead entries, and changes neither."""
    yield case(
        "manifests: in their place among the lines", "[bans]\ndeny = ['x']\nskip = ['q']\n",
        declared_graph({"a": [asks("x")], "b": []}, members="a b"), fail=["/w/a/Cargo.toml"],
        files={"/w/b/Cargo.toml": "["},
        lines="".join([
            told(
                "banned", "error", "crate 'x = 1.0.0' is explicitly banned", (2, 10, "banned here", "x"),
                graphs=[crate_tree("x", crate_tree("a@0.1.0"))]
            ),
            told(
                "unmatched-skip", "warning", "skipped crate 'q' was not encountered",
                (3, 10, "unmatched skip configuration", "q")
            ),
            dead_line("skip", 29, 30), unread_line("a = 0.1.0", "/w/a/Cargo.toml"),
            malformed_line("/w/b/Cargo.toml"), BANS_FAILED,
        ])
    )
    for name, policy, text, by_hand in (
        ("a fault of the policy", "[bans]\nmore = 1\n", ALONE, "unknown 7..11 bans.more"),
        ("what contradicts itself", "[bans]\ndeny = ['x']\nskip = ['x']\n", ALONE, "2:10 3:10"),
        ("a bad extension", "[bans.build]\nscript-extensions = ['.']\n", ALONE, "2:23 2:23"),
        ("faulty metadata", "", "{", "metadata"),
        ("a table that is not there", "[bans.std-replacements]\n", ALONE, "replacement 0"),
    ):
        yield manifest("none beside %s" % name, text, policy, by_hand, manifests={})
    yield manifest("which fails, and a ban", WITH_X, DENY_X, "banned x; unread app", fail=[ROOT])
    for room in (60, 95, 150, 151):
        yield manifest("which fails, and room for %d bytes" % room, fail=[ROOT], room=room, by_hand=None)
    yield manifest("which fail twice in the list of failures", fail=[ROOT, ROOT], by_hand="unread app")
    yield manifest("in whose place something else fails", fail=["/w", "/w/", "/w/Cargo.tom", "Cargo.toml"])


# ---- the lock text

CRATES_IO = "registry+https://github.com/rust-lang/crates.io-index"


def several_x(*versions, **more):
    """A graph of so many versions of `x`."""
    return declared_graph({"app": [asks("x", to="x@%s" % version) for version in versions]}, **more)


def lock_lines(first, *lines):
    """The label at these lines of the lock text, of which the first is known by its number."""
    return "duplicate %d:1 %s" % (first, "\n".join(line + ("" if "/" in line else " " + CRATES_IO) for line in lines))


def lock_text():
    """The label of a duplicate: lines of names, versions and sources, in order."""
    two = ("x 1.0.0", "x 2.0.0")
    of_x2 = [crate_tree("x@2.0.0", BY_APP)]
    yield case(
        "lock: two versions", DENY_SEVERAL, row_graph("app -> x, app -> x@2.0.0"), lines=told(
            "duplicate", "error", "found 2 duplicate entries for crate 'x'",
            (2, 1, "lock entries", "x 1.0.0 %s\nx 2.0.0 %s" % (CRATES_IO, CRATES_IO)), graphs=TREES_OF_X + of_x2
        ) + BANS_FAILED
    )
    git, sparse = "git+https://example.org/x?rev=0#0123", "sparse+https://example.org/"
    for name, value, labels in (
        ("and crates around them", row_graph("app -> x, app -> x@2.0.0, app -> a, app -> z"), lock_lines(3, *two)),
        ("by precedence", several_x("1.10.0", "1.9.0"), lock_lines(2, "x 1.9.0", "x 1.10.0")),
        (
            "in folders",
            several_x("1.0.0", "2.0.0", sources={"x@1.0.0": None, "x@2.0.0": None}, folders={"x@2.0.0": ""}),
            lock_lines(2, "x 1.0.0 /w/x", "x 2.0.0 /")
        ),
        (
            "from several sources", several_x("1.0.0", "2.0.0", "3.0.0", sources={"x@1.0.0": git, "x@2.0.0": sparse}),
            lock_lines(2, "x 1.0.0 " + git, "x 2.0.0 " + sparse, "x 3.0.0")
        ),
        (
            "and quotes at their ends",
            several_x("1.0.0", "2.0.0", sources={"x@1.0.0": None, "x@2.0.0": None}, folders={"x@2.0.0": '/"q"'}),
            lock_lines(2, "x 1.0.0 /w/x", 'x 2.0.0 /"q')
        ),
    ):
        yield case("lock: several versions, %s" % name, DENY_SEVERAL, value, labels=labels)
    for skipped, labels in (
        ("1", lock_lines(3, "x 2.0.0", "x 3.0.0")), ("2", lock_lines(2, "x 1.0.0", "x 2.0.0", "x 3.0.0")),
        ("3", lock_lines(2, *two)),
    ):
        policy, value = DENY_SEVERAL + "skip = ['x@%s']\n" % skipped, several_x("1.0.0", "2.0.0", "3.0.0")
        yield case("lock: three versions, %s.0.0 skipped" % skipped, policy, value, labels="skipped 3:10 x; " + labels)
    value = several_x("1.0.0+b", "1.0.0+a")
    yield case("lock: versions of one precedence, by ids", "", value, labels=lock_lines(2, "x 1.0.0+a", "x 1.0.0+b"))
    of_e = {"é": [asks("x", to="x@1.0.0"), asks("x", to="x@2.0.0")]}
    yield case("lock: characters of several bytes", "", declared_graph(of_e, "é"), labels=lock_lines(1, *two))


def manifest_cases():
    for part in (rows, texts, several, beside, lock_text):
        yield from part()


def long_manifests():
    """Manifests of 2^28 bytes, and of one byte less."""
    lines = lambda size: [{"repeat": "\n" * 4096, "times": size // 4096}, "\n" * (size % 4096)]
    yield of_text("one of 2^28 bytes", lines(2**28), "unread app", piece=1 << 24)
    yield of_text("one of a byte less", lines(2**28 - 1), "", piece=1 << 24)
