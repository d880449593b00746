"""Cases of the crate rules: rows as users meet them, each rule by itself, and policies and graphs by chance."""

from case_parts import (
    DENY_SEVERAL, TREES_OF_APP, TREES_OF_X, TWO_X, WITH_X, case, crate_tree, dead_line, draws, graph, metadata, told,
)

TWO = "app -> x, app -> x@2.0.0"
LINE = "app -> a, a -> b, b -> c, c -> d, a -> e, e -> d, d -> f, a -> z, z -> y, y -> e"


def rule(name, text, policy, by_hand=None, members="app", **more):
    """A case over `[bans]` with these lines."""
    if by_hand is not None:
        more["by_hand"] = by_hand
    return case(name, "[bans]\n%s\n" % policy, graph(text, members), **more)


def each(code, names):
    return "; ".join("%s %s" % (code, name) for name in names.split())


# ---- rows


def rows():
    """Runs as a user meets them."""
    nothing = metadata([], packages=[], members=())
    yield case("one crate and an empty policy", by_hand="")
    yield case("no crates and an empty policy", text=nothing, by_hand="")
    banned = (
        '{"fields":{"code":"banned","graphs":[{"Krate":{"name":"x","version":"1.0.0"},'
        '"parents":[{"Krate":{"name":"app","version":"0.1.0"}}]}],'
        '"labels":[{"column":10,"line":2,"message":"banned here","span":"x"}],'
        '"message":"crate \'x = 1.0.0\' is explicitly banned","severity":"error"},"type":"diagnostic"}\n'
    )
    failed = '{"fields":{"bits":2,"verdict":"fail"},"type":"verdict"}\n'
    yield case("a banned crate", '[bans]\ndeny = ["x"]\n', WITH_X, by_hand="banned x", lines=banned + failed)
    yield case("two entries for one crate", '[bans]\ndeny = ["x", "x@1"]\n', WITH_X, by_hand="banned x; banned x")
    yield rule(
        "a wrapper and another parent", "app -> x, app -> y, y -> x", 'deny = [{ crate = "x", wrappers = ["app"] }]',
        "banned x; allowed-by-wrapper x; unmatched-wrapper y"
    )
    yield rule(
        "a banned member that nobody asks for, with a wrapper", "app", 'deny = [{ crate = "app", wrappers = ["z"] }]',
        "unused-wrapper"
    )
    yield case("two versions, denied", DENY_SEVERAL, TWO_X, by_hand="duplicate x")
    yield case("two versions, one of them skipped", DENY_SEVERAL + 'skip = ["x@=1.0.0"]\n', TWO_X, by_hand="skipped x")
    yield rule("a version for the other one's sake", "app -> x@2.0.0, x@2.0.0 -> x", "multiple-versions = 'deny'", "")
    for depth, names in (
        ("0", "a"), ("1", "a"), ("2", "a b e z"), ("3", "a b c d e y z"), ("4", "a b c d e f y z"),
        ("5", "a b c d e f y z"), ("4294967295", "a b c d e f y z")
    ):
        yield rule(
            "a skipped tree of depth %s" % depth, LINE, "skip-tree = [{ crate = 'a', depth = %s }]" % depth,
            each("skipped-by-root", names)
        )
    yield rule("a skipped tree without depth", LINE, "skip-tree = ['a']", each("skipped-by-root", "a b c d e f y z"))
    yield rule(
        "one version wanted, of two", TWO,
        "multiple-versions = 'allow'\ndeny = [{ crate = 'x', deny-multiple-versions = true }]", "duplicate x"
    )
    yield case("banned and skipped", '[bans]\ndeny = ["x"]\nskip = ["x"]\n', by_hand="2:10 3:10")
    yield rule(
        "highlight and two versions", TWO, "multiple-versions = 'deny'\nhighlight = 'simplest-path'", "duplicate x"
    )
    yield rule(
        "an allow list and the workspace allowed", "app -> x", 'allow = ["x"]\nallow-workspace = true', "allowed x"
    )
    yield case("an unknown key", "[bans]\nclarify = 1\n", by_hand="unknown 7..14 bans.clarify")
    empty_lines = [{"repeat": "\n" * 4096, "times": 4096}, "\n"]
    yield case("a policy of 2^24 + 1 newlines, read byte by byte", empty_lines, piece=1, by_hand="")
    yield case("a policy of 2^24 + 1 newlines that cannot be read", empty_lines, fail=["deny.toml"], piece=1 << 24)


# ---- whole lines


def whole_lines():
    """Each kind of finding with its text and its labels."""
    failed = '{"fields":{"bits":2,"verdict":"fail"},"type":"verdict"}\n'
    ban = [(2, 19, "banned here", "x"), (2, 58, "reason", "r"), (2, 77, "use instead", "u")]
    app = crate_tree("app@0.1.0")
    of_x = [crate_tree("x", app, crate_tree("y", crate_tree("app@0.1.0", repeat=True)))]
    of_y = [crate_tree("y", app)]
    yield rule(
        "the lines of bans, skips and trees", "app -> x, app -> y, y -> x",
        'deny = [{ name = "x", wrappers = ["app", "q"], reason = "r", use-instead = "u" }]\n'
        'skip = [{ name = "y", reason = "s" }, { crate = "z@1", reason = "t" }]\n'
        'skip-tree = [{ name = "x", depth = 1, reason = "v" }, { name = "n", reason = "w" }]',
        lines="".join([
            told("banned", "error", "crate 'x = 1.0.0' is explicitly banned", *ban, graphs=of_x),
            told(
                "allowed-by-wrapper", "note", "banned crate 'x = 1.0.0' allowed by wrapper 'app = 0.1.0'",
                (2, 19, "banned here", "x"), (2, 36, "allowed wrapper", "app"), graphs=of_x
            ),
            told(
                "unmatched-wrapper", "warning",
                "direct parent 'y = 1.0.0' of banned crate 'x = 1.0.0' was not marked as a wrapper", *ban, graphs=of_x
            ),
            told(
                "skipped-by-root", "note", "skipping crate 'x = 1.0.0' due to root skip",
                (4, 24, "matched skip root", "x"), (4, 49, "reason", "v"), graphs=of_x
            ),
            told(
                "skipped", "note", "crate 'y = 1.0.0' skipped when checking for duplicates",
                (3, 19, "skipped here", "y"), (3, 33, "reason", "s"), graphs=of_y
            ),
            told(
                "unmatched-skip", "warning", "skipped crate 'z = 1' was not encountered",
                (3, 50, "unmatched skip configuration", "z"), (3, 66, "reason", "t")
            ),
            told(
                "unnecessary-skip", "warning", "skip 'y' applied to a crate with only one version",
                (3, 19, "unnecessary skip configuration", "y"), (3, 33, "reason", "s")
            ),
            told(
                "unmatched-skip-root", "warning", "skip tree root was not found in the dependency graph",
                (4, 65, "no crate matched these criteria", "n")
            ),
            told(
                "unused-wrapper", "warning", "wrapper for banned crate was not encountered",
                (2, 43, "unmatched wrapper", "q")
            ),
            dead_line("wrapper", 49, 50), dead_line("skip", 138, 139), dead_line("skip-root", 224, 225), failed,
        ])
    )
    of_x2 = [crate_tree("x@2.0.0", app)]
    yield rule(
        "the lines of an allow list and of two versions", TWO,
        'multiple-versions = "deny"\nallow = [ # é\n "é", { crate = "x@1", reason = """\nours""" } ]',
        lines="".join([
            told("not-allowed", "error", "crate 'app = 0.1.0' is not explicitly allowed", graphs=TREES_OF_APP),
            told(
                "allowed", "note", "crate 'x = 1.0.0' is explicitly allowed",
                (4, 18, "allowed here", "x"), (4, 36, "reason", "\nours"), graphs=TREES_OF_X
            ),
            told("not-allowed", "error", "crate 'x = 2.0.0' is not explicitly allowed", graphs=of_x2),
            told(
                "duplicate", "error", "found 2 duplicate entries for crate 'x'",
                (2, 1, "lock entries", "x 1.0.0 /w\nx 2.0.0 /w"), graphs=TREES_OF_X + of_x2
            ),
            failed,
        ])
    )


# ---- bans and wrappers


def bans():
    banned = lambda entry: "multiple-versions = 'allow'\ndeny = [%s]" % entry
    yield rule(
        "bans stand in order of crates, then entries", TWO + ", app -> a", banned('"x@2", "a", "x", "app"'),
        "banned a; banned app; banned x; banned x@2.0.0; banned x@2.0.0"
    )
    yield rule("a ban of one of two versions", TWO, banned('"x@=2.0.0"'), "banned x@2.0.0")
    yield rule("a ban that matches no crate", TWO, banned('"x@3", "y"'), "")
    yield rule("a ban of a longer and of a shorter name", "app -> x", banned('"xx", "ap"'), "")
    yield rule("a ban of a crate for tests", "app -> x dev", banned('"x"'), "banned x")
    yield rule("a ban of a crate for building", "app -> x build", banned('"x"'), "banned x")
    yield rule("a ban of a package that no member reaches", "app, x -> y", banned('"x", "y"'), "")
    yield rule("banned members", "app -> lib", banned('"app", "lib"'), "banned app; banned lib", members="app lib")
    yield rule(
        "banned members, the workspace allowed", "app -> lib, app -> x",
        banned('"app", "lib", "x"') + "\nallow-workspace = true", "banned x", members="app lib"
    )
    yield rule(
        "a banned member of two that bear its name, the workspace allowed", "app -> lib@2.0.0",
        banned('"lib"') + "\nallow-workspace = true", "banned lib@2.0.0", members="app lib"
    )
    yield rule("no wrappers", "app -> x", banned('{ name = "x", wrappers = [] }'), "banned x")
    yield rule(
        "its one parent is a wrapper", "app -> x", banned('{ name = "x", wrappers = ["app"] }'), "allowed-by-wrapper x"
    )
    yield rule(
        "its one parent is the second wrapper", "app -> x", banned('{ name = "x", wrappers = ["y", "app"] }'),
        "allowed-by-wrapper x; unused-wrapper"
    )
    yield rule(
        "all parents are wrappers", "app -> x, app -> y, y -> x", banned('{ name = "x", wrappers = ["y", "app"] }'),
        "allowed-by-wrapper x; allowed-by-wrapper x"
    )
    yield rule(
        "no parent is a wrapper", "app -> x, app -> y, y -> x", banned('{ name = "x", wrappers = ["z"] }'),
        "banned x; unmatched-wrapper app; unmatched-wrapper y; unused-wrapper"
    )
    yield rule(
        "the wrapper stands two steps above", "app -> y, y -> x", banned('{ name = "x", wrappers = ["app"] }'),
        "banned x; unmatched-wrapper y; unused-wrapper"
    )
    yield rule(
        "a parent by a dev edge is no wrapper", "app -> x, app -> y, y -> x dev",
        banned('{ name = "x", wrappers = ["app"] }'), "banned x; allowed-by-wrapper x; unmatched-wrapper y"
    )
    yield rule(
        "a parent by two kinds is one parent", "app -> x dev build normal",
        banned('{ name = "x", wrappers = ["app"] }'), "allowed-by-wrapper x"
    )
    yield rule(
        "a parent by two edges is one parent", "app -> x, app -> x dev", banned('{ name = "x", wrappers = ["a"] }'),
        "banned x; unmatched-wrapper app; unused-wrapper"
    )
    yield rule(
        "a wrapper in two versions", "app -> y, app -> y@2.0.0, y -> x, y@2.0.0 -> x",
        banned('{ name = "x", wrappers = ["y"] }'), "allowed-by-wrapper x; allowed-by-wrapper x"
    )
    yield rule(
        "a wrapper named twice", "app -> x", banned('{ name = "x", wrappers = ["app", "app"] }'),
        "allowed-by-wrapper x; unused-wrapper"
    )
    yield rule(
        "a wrapper with a requirement is a name", "app -> x", banned('{ name = "x", wrappers = ["app@0.1.0"] }'),
        "banned x; unmatched-wrapper app; unused-wrapper"
    )
    yield rule(
        "a wrapper without a name", "app -> x", banned('{ name = "x", wrappers = [""] }'),
        "banned x; unmatched-wrapper app; unused-wrapper"
    )
    yield rule(
        "wrappers of a ban that matches no crate", "app -> x", banned('{ name = "y", wrappers = ["app", "x"] }'),
        "unused-wrapper; unused-wrapper"
    )
    yield rule(
        "wrappers of two entries for one crate", "app -> x",
        banned('{ name = "x", wrappers = ["app"] }, { crate = "x@1", wrappers = ["y"] }'),
        "banned x; allowed-by-wrapper x; unmatched-wrapper app; unused-wrapper"
    )
    yield rule(
        "a lifted ban beside one that stands", "app -> x", banned('{ name = "x", wrappers = ["app"] }, "x"'),
        "banned x; allowed-by-wrapper x"
    )
    yield rule(
        "wrappers with two versions of the crate", TWO + ", x -> y, y -> x@2.0.0",
        banned('{ name = "x", wrappers = ["app"] }'),
        "allowed-by-wrapper x; banned x@2.0.0; allowed-by-wrapper x@2.0.0; unmatched-wrapper y"
    )
    yield rule(
        "an exempt crate uses no wrapper", "app -> lib",
        banned('{ name = "lib", wrappers = ["app"] }') + "\nallow-workspace = true", "unused-wrapper", members="app lib"
    )
    yield rule(
        "a crate that asks for itself", "app -> x, x -> x dev", banned('{ name = "x", wrappers = ["app"] }'),
        "banned x; allowed-by-wrapper x; unmatched-wrapper x"
    )
    yield rule(
        "a crate that asks for itself, and is its wrapper", "app -> x, x -> x dev",
        banned('{ name = "x", wrappers = ["app", "x"] }'), "allowed-by-wrapper x; allowed-by-wrapper x"
    )
    yield rule(
        "a circle of wrappers", "app -> x, x -> y, y -> x",
        banned('{ name = "x", wrappers = ["app", "y"] }, { name = "y", wrappers = ["x"] }'),
        "allowed-by-wrapper x; allowed-by-wrapper x; allowed-by-wrapper y"
    )
    yield rule(
        "wrappers with reasons", "app -> x, app -> y, y -> x",
        banned('{ name = "x", wrappers = ["app"], reason = "unsafe", use-instead = "z" }'),
        "banned x; allowed-by-wrapper x; unmatched-wrapper y"
    )
    yield rule("one version wanted is no ban", "app -> x", banned('{ name = "x", deny-multiple-versions = true }'), "")
    yield rule(
        "several versions are no matter: a ban", "app -> x", banned('{ name = "x", deny-multiple-versions = false }'),
        "banned x"
    )
    yield rule(
        "one version wanted, no wrappers in its list", "app -> x",
        banned('{ name = "x", deny-multiple-versions = true, wrappers = [] }'), ""
    )


def allowances():
    allow = lambda entries: "multiple-versions = 'allow'\nallow = [%s]" % entries
    yield rule("an empty allow list", "app -> x", allow(""), "")
    yield rule("an allow list with one of two crates", "app -> x", allow('"x"'), "not-allowed app; allowed x")
    yield rule("an allow list with all crates", "app -> x", allow('"app", "x"'), "allowed app; allowed x")
    yield rule("an allow list with none of the crates", "app -> x", allow('"y"'), "not-allowed app; not-allowed x")
    yield rule(
        "an allow list with one of two versions", TWO, allow('"app", "x@2"'),
        "allowed app; not-allowed x; allowed x@2.0.0"
    )
    yield rule(
        "two allowances for one crate", "app -> x", allow('"x@1", "app", "x"'), "allowed app; allowed x; allowed x"
    )
    yield rule(
        "the workspace allowed, and listed", "app -> x", allow('"app"') + "\nallow-workspace = true",
        "allowed app; not-allowed x"
    )
    yield rule(
        "the workspace allowed, two members", "app -> lib, lib -> x", allow('"x"') + "\nallow-workspace = true",
        "allowed x", members="app lib"
    )
    yield rule(
        "the workspace not allowed", "app -> x", allow('"x"') + "\nallow-workspace = false",
        "not-allowed app; allowed x"
    )
    yield rule(
        "a crate without source that is no member is not of the workspace", "app -> lib",
        allow('"y"') + "\nallow-workspace = true", "not-allowed lib"
    )
    yield rule("an allowance of a crate for tests", "app -> x dev", allow('"app"'), "allowed app; not-allowed x")
    yield rule(
        "an allowance with a reason", "app -> x", allow('{ name = "x", reason = "ours" }, "app"'),
        "allowed app; allowed x"
    )
    yield rule(
        "banned and allowed by different specs", "app -> x", allow('"x@1", "app"') + '\ndeny = ["x"]',
        "allowed app; banned x; allowed x"
    )
    yield rule("the workspace allowed without an allow list", "app -> x", "allow-workspace = true", "")


# ---- duplicates, skips and skipped trees


def duplicates():
    for level, by_hand in (("allow", ""), ("warn", "duplicate x"), ("deny", "duplicate x")):
        yield rule("two versions, level %s" % level, TWO, "multiple-versions = '%s'" % level, by_hand)
        yield rule(
            "two versions, one of them wanted, level %s" % level, TWO,
            "multiple-versions = '%s'\ndeny = [{ name = 'x', deny-multiple-versions = true }]" % level, "duplicate x"
        )
        yield rule(
            "two versions, another name wanted once, level %s" % level, TWO,
            "multiple-versions = '%s'\ndeny = [{ name = 'y', deny-multiple-versions = true }]" % level, by_hand
        )
        yield rule(
            "two versions, a third one wanted once, level %s" % level, TWO,
            "multiple-versions = '%s'\ndeny = [{ crate = 'x@3', deny-multiple-versions = true }]" % level, by_hand
        )
        yield rule(
            "two versions, the second one wanted once, level %s" % level, TWO,
            "multiple-versions = '%s'\ndeny = [{ crate = 'x@2', deny-multiple-versions = true }]" % level, "duplicate x"
        )
        yield rule(
            "two versions and one for tests that is wanted once, level %s" % level, TWO + ", app -> x@3.0.0 dev",
            "multiple-versions = '%s'\ndeny = [{ crate = 'x@3', deny-multiple-versions = true }]" % level, by_hand
        )
        yield rule(
            "three versions, the skipped one wanted once, level %s" % level, TWO + ", app -> x@3.0.0",
            "multiple-versions = '%s'\nskip = ['x@3']\ndeny = [{ crate = 'x@3', deny-multiple-versions = true }]" % level,
            "skipped x@3.0.0" + (by_hand and "; " + by_hand)
        )
    yield rule("two versions, nothing said", TWO, "", "duplicate x")
    yield rule("two versions, both banned", TWO, "deny = ['x']", "banned x; banned x@2.0.0; duplicate x")
    tests = "app -> x, app -> x@2.0.0 dev"
    yield rule("one version for tests", tests, "multiple-versions-include-dev = false", "")
    yield rule("one version for tests, which count", tests, "multiple-versions-include-dev = true", "duplicate x")
    yield rule(
        "both versions for tests, which count", "app -> x dev, app -> x@2.0.0 dev",
        "multiple-versions-include-dev = true", "duplicate x"
    )
    yield rule(
        "a version below tests, which count", "app -> x, app -> y dev, y -> x@2.0.0",
        "multiple-versions-include-dev = true", "duplicate x"
    )
    yield rule(
        "a version below tests of a dependency, which count", "app -> x, app -> y, y -> x@2.0.0 dev",
        "multiple-versions-include-dev = true", "duplicate x"
    )
    yield rule("a skip of a version for tests", tests, "skip = ['x@2']", "unmatched-skip x@2")
    yield rule(
        "a skip of a version for tests, which count", tests, "skip = ['x@2']\nmultiple-versions-include-dev = true",
        "skipped x@2.0.0"
    )
    yield rule("a skipped tree of a version for tests", tests, "skip-tree = ['x@2']", "")
    yield rule(
        "a skipped tree of a version for tests, which count", tests,
        "skip-tree = ['x@2']\nmultiple-versions-include-dev = true", "skipped-by-root x@2.0.0"
    )
    yield rule(
        "two versions, one with two candidates",
        "app -> x@1.10.0, app -> x@1.9.0, app -> x@1.9.0-rc.2, app -> x@1.9.0-rc.10", "", "duplicate x"
    )
    yield rule(
        "two groups in order of their names", "app -> b@10.0.0, app -> b@9.0.0, app -> a, app -> a@2.0.0", "",
        "duplicate a; duplicate b"
    )
    yield rule(
        "two versions that differ behind a plus sign", "app -> x@1.0.0+a, app -> x@1.0.0+b",
        "multiple-versions = 'deny'", "duplicate x"
    )
    yield rule(
        "members of one name, with and without a parent", "app -> lib@2.0.0", "multiple-versions = 'deny'", "",
        members="app lib"
    )
    yield rule("three versions in a chain", "app -> x@3.0.0, x@3.0.0 -> x@2.0.0, x@2.0.0 -> x", "", "")
    yield rule(
        "two of three versions are asked for by others", "app -> x@3.0.0, x@3.0.0 -> x@2.0.0, app -> x", "",
        "duplicate x"
    )
    yield rule("two versions that ask for each other", "app -> x, x -> x@2.0.0, x@2.0.0 -> x dev", "", "")
    yield rule(
        "two versions that ask for each other, both asked for", TWO + ", x -> x@2.0.0, x@2.0.0 -> x dev", "",
        "duplicate x"
    )
    yield rule(
        "a version that asks for itself and for nobody's sake", "app -> x, x@2.0.0 -> x@2.0.0, x -> x@2.0.0", "", ""
    )


def skips():
    skip = lambda entries: "skip = [%s]" % entries
    yield rule("a skip of all versions", TWO, skip('"x"'), "skipped x; skipped x@2.0.0")
    yield rule("a skip of one of two versions", TWO, skip('"x@1"'), "skipped x")
    yield rule(
        "a skip of one of three versions", TWO + ", app -> x@3.0.0", skip('"x@2"'), "skipped x@2.0.0; duplicate x"
    )
    yield rule("two skips of one version", TWO, skip('"x@1", "x@=1.0.0"'), "skipped x; skipped x")
    yield rule("one skip twice", TWO, skip('"x@1", "x@1"'), "skipped x; skipped x")
    yield rule("a skip that matches no version", TWO, skip('"x@3"'), "duplicate x; unmatched-skip x@3")
    yield rule("a skip of another name", TWO, skip('"y"'), "duplicate x; unmatched-skip y")
    yield rule("a skip of a crate in one version", "app -> x", skip('"x"'), "skipped x; unnecessary-skip x")
    yield rule(
        "a skip with its requirement as written", "app -> x", skip('"x: ^1 "'), "skipped x; unnecessary-skip x@ ^1 "
    )
    yield rule(
        "a skip in a table with a requirement", "app -> x", skip('{ name = "x", version = ">=1" }'),
        "skipped x; unnecessary-skip x@>=1"
    )
    yield rule(
        "skips with reasons", "app -> x, app -> y, app -> y@2.0.0",
        skip('{ name = "x", reason = "a" }, { crate = "y@1", reason = "b" }, { name = "z", reason = "c" }'),
        "skipped x; skipped y; unmatched-skip z; unnecessary-skip x"
    )
    yield rule(
        "a skip whose group is reduced to one", "app -> x, x -> x@2.0.0", skip('"x@1"'),
        "skipped x; unnecessary-skip x@1"
    )
    yield rule(
        "a skip of the crate that leaves the group", "app -> x, x -> x@2.0.0", skip('"x@2"'),
        "skipped x@2.0.0; unnecessary-skip x@2"
    )
    yield rule(
        "a skip of a group that is reduced to none", "app", skip('"x"'),
        "skipped x; skipped x@2.0.0; unnecessary-skip x", members="app x x@2.0.0"
    )
    yield rule(
        "a skip of one of two, the other one for tests", "app -> x, app -> x@2.0.0 dev", skip('"x@1"'),
        "skipped x; unnecessary-skip x@1"
    )
    yield rule(
        "a skip of one of two, the other one in a skipped tree", "app -> x, app -> y, y -> x@2.0.0",
        skip('"x@1"') + "\nskip-tree = ['y']",
        "skipped x; skipped-by-root x@2.0.0; skipped-by-root y; unnecessary-skip x@1"
    )
    yield rule(
        "a skip of members", "app -> lib", skip('"app", "lib"'),
        "skipped app; skipped lib; unnecessary-skip app; unnecessary-skip lib", members="app lib"
    )
    yield rule(
        "a skip at level allow", TWO, "multiple-versions = 'allow'\n" + skip('"x@1", "y"'),
        "skipped x; unmatched-skip y"
    )
    yield rule(
        "a skip of a crate that is banned by another spec", TWO, "deny = ['x@2']\n" + skip('"x"'),
        "skipped x; banned x@2.0.0; skipped x@2.0.0"
    )
    yield rule(
        "unused findings in the order of their codes and places", TWO,
        "skip-tree = ['q', 'r']\nskip = ['y', 'z']\ndeny = [{ name = 'v', wrappers = ['w'] }]",
        "duplicate x; unmatched-skip y; unmatched-skip z; unmatched-skip-root; unmatched-skip-root; unused-wrapper"
    )


def trees():
    tree = lambda entries: "skip-tree = [%s]" % entries
    below = "app -> x, app -> y, y -> x@2.0.0, y -> z"
    yield rule(
        "a skipped tree with one of two versions", below, tree('"y"'),
        "skipped-by-root x@2.0.0; skipped-by-root y; skipped-by-root z"
    )
    yield rule(
        "a skipped tree with both versions", below, tree('"app"'),
        "skipped-by-root app; skipped-by-root x; skipped-by-root x@2.0.0; skipped-by-root y; skipped-by-root z"
    )
    yield rule("a skipped tree too shallow", below, tree('{ name = "y", depth = 1 }'), "skipped-by-root y; duplicate x")
    yield rule("a skipped tree of no crate", below, tree('"q"'), "duplicate x; unmatched-skip-root")
    yield rule("a skipped tree of no version", below, tree('"y@2"'), "duplicate x; unmatched-skip-root")
    yield rule(
        "two trees with one crate", below, tree('"y", "x@2"'),
        "skipped-by-root x@2.0.0; skipped-by-root x@2.0.0; skipped-by-root y; skipped-by-root z"
    )
    yield rule("one tree twice", below, tree('"z", "z"'), "skipped-by-root z; skipped-by-root z; duplicate x")
    yield rule(
        "a tree of two roots", "app -> x, app -> x@2.0.0, x -> y, x@2.0.0 -> z", tree('{ name = "x", depth = 2 }'),
        "skipped-by-root x; skipped-by-root x@2.0.0; skipped-by-root y; skipped-by-root z"
    )
    yield rule(
        "a tree by dev edges", "app -> a, a -> b dev, app -> b, b -> c", tree('{ name = "a", depth = 2 }'),
        "skipped-by-root a; skipped-by-root b"
    )
    yield rule(
        "a tree by edges for building", "app -> a, a -> b build, b -> c", tree('{ name = "a", depth = 2 }'),
        "skipped-by-root a; skipped-by-root b"
    )
    yield rule("a tree whose root does not count", "app -> a dev, a -> b, app -> b", tree('"a"'), "skipped-by-root b")
    yield rule("a tree whose crates do not count", "app -> a dev, a -> b", tree('"a"'), "")
    yield rule(
        "a circle in a tree", "app -> a, a -> b, b -> c, c -> a dev", tree('"b"'),
        "skipped-by-root a; skipped-by-root b; skipped-by-root c"
    )
    yield rule(
        "a circle in a tree of depth 2", "app -> a, a -> b, b -> c, c -> a dev", tree('{ name = "b", depth = 2 }'),
        "skipped-by-root b; skipped-by-root c"
    )
    yield rule(
        "a crate that asks for itself as the root", "app -> a, a -> a dev", tree('{ name = "a", depth = 3 }'),
        "skipped-by-root a"
    )
    yield rule(
        "the shortest way counts", "app -> a, a -> b, b -> c, c -> d, a -> c", tree('{ name = "a", depth = 3 }'),
        "skipped-by-root a; skipped-by-root b; skipped-by-root c; skipped-by-root d"
    )
    yield rule(
        "a marked crate in a tree", below, "skip = ['x@2']\n" + tree('"y"'),
        "skipped x@2.0.0; skipped-by-root y; skipped-by-root z"
    )
    yield rule(
        "a marked crate in a tree, and two others", below + ", app -> x@3.0.0", "skip = ['x@2']\n" + tree('"y"'),
        "skipped x@2.0.0; skipped-by-root y; skipped-by-root z; duplicate x"
    )
    yield rule(
        "a tree with a reason", below, tree('{ name = "z", depth = 0, reason = "r" }'), "skipped-by-root z; duplicate x"
    )
    yield rule(
        "a tree of no crate with a reason", below, tree('{ name = "q", reason = "r" }'),
        "duplicate x; unmatched-skip-root"
    )
    yield rule(
        "trees of several depths", LINE, tree('{ name = "a", depth = 2 }, { name = "z", depth = 3 }, { name = "d" }')
    )
    yield rule(
        "a crate whose parents are all in the tree", "app -> y, y -> x, y -> x@2.0.0",
        tree('{ name = "y", depth = 1 }'), "skipped-by-root y; duplicate x"
    )
    for depth in range(5):
        yield rule(
            "two trees side by side, depth %d" % depth, LINE + ", app -> b",
            tree("{ name = 'b', depth = %d }, { name = 'z', depth = %d }" % (depth, depth))
        )


# ---- versions and requirements

VERSIONS = [
    "0.0.0", "0.0.3", "0.0.4", "0.2.3", "0.2.9", "0.3.0", "1.0.0", "1.2.3", "1.2.4", "1.2.10", "1.3.0", "2.0.0",
    "1.0.0-alpha", "1.2.3-alpha", "1.2.3-alpha.1", "1.2.3-alpha.10", "1.2.3-beta", "1.2.3-2", "1.2.3-10", "1.2.4-alpha",
    "1.3.0-alpha",
    "2.0.0-0", "0.0.3-a", "0.2.3-a", "1.2.3+b", "1.2.3-alpha+b",
]
REQUIREMENTS = [
    "*", "0", "1", "0.0", "0.2", "1.2", "0.0.3", "0.2.3", "1.2.3", "^0", "^1.2", "^0.0.3", "~0", "~1", "~1.2", "~1.2.3",
    "~0.0.3", "=1", "=1.2", "=1.2.3", "1.*", "1.2.*", "0.*", "0.0.*", "=1.2.*", ">=1.*", ">1", ">1.2", ">1.2.3", ">=1",
    ">=1.2", ">=1.2.3", "<1", "<1.2", "<1.2.3",
    "<=1", "<=1.2", "<=1.2.3", ">=1, <2", ">=1.2.3, <1.3", ">1.0.0, <=1.2.3", "1.2.3-alpha", "^1.2.3-alpha.2",
    "~1.2.3-alpha", "=1.2.3-alpha", ">1.2.3-alpha", ">=1.2.3-2", "<1.2.3-beta", "<=1.2.3-alpha", ">=1.2.3-alpha, <2",
    ">=1.2.3-alpha, 1", ">=1.2.3-alpha, 1.2", "~1, >=1.2.3-alpha",
    "~1.2, >=1.3.0-0", "1.*, >=1.2.3-alpha", "=1, >=1.2.3-0", "<2, <=1.2.3-beta", "^0.2.3-0", "^0.0.3-0", "^1.0.0-0",
    "<2.0.0-1", "=1.2.3+other", ">=0.0.0-0", "^0.0.0-0, <1.2.3-0",
]


def requirements():
    """Forms of requirements against releases and versions before a release, several in one policy."""
    crates = ", ".join("app -> x@%s" % version for version in VERSIONS)
    for first in range(0, len(REQUIREMENTS), 7):
        some = REQUIREMENTS[first : first + 7]
        bans = ", ".join("{ name = 'x', version = '%s' }" % requirement for requirement in some)
        yield rule(
            "bans of the versions %s" % "; ".join(some), crates, "multiple-versions = 'allow'\ndeny = [%s]" % bans
        )


# ---- many


def many():
    """Many crates and many entries, each crate and each entry by itself."""
    names = ["n%d" % n for n in range(1000)]
    lists = lambda names: ", ".join('"%s"' % name for name in names)
    half = "deny = [%s]\nskip = [%s]" % (lists(names[::2]), lists(name + "@3" for name in names[1::2]))
    yield rule("500 bans and 500 skips beside 1,000 crates", ", ".join("app -> %s" % name for name in names), half)
    yield rule("300 skips of one crate", TWO, "skip = [%s]" % lists(["x@1"] * 300))
    chain = ", ".join("c%d -> c%d" % (n, n + 1) for n in range(100))
    yield rule("a tree of 100 steps", "app -> c0, " + chain, "skip-tree = ['c0']")
    for depth in (2, 100, 101):
        yield rule(
            "a tree of 100 steps, depth %d" % depth, "app -> c0, " + chain,
            "skip-tree = [{ name = 'c0', depth = %d }]" % depth
        )
    parents = ", ".join("app -> p%d, p%d -> x" % (n, n) for n in range(60))
    yield rule(
        "60 parents, all wrappers but one", parents,
        "deny = [{ name = 'x', wrappers = [%s] }]" % lists("p%d" % n for n in range(59))
    )
    versions = ", ".join("app -> x@%d.0.0" % n for n in range(100))
    yield rule(
        "100 versions, each skipped by itself", versions, "skip = [%s]" % lists("x@=%d.0.0" % n for n in range(100))
    )
    yield rule(
        "100 versions, each but one in a tree of its own", versions,
        "skip-tree = [%s]" % lists("x@=%d.0.0" % n for n in range(99))
    )


# ---- by chance

NAMES = ["a", "b", "x"]
SOME_REQUIREMENTS = ["", "", "@1", "@2", "@=1.0.0", ":>=1.1", "@*", "@<2", "@>=1.0.0-0", "@3"]
SOME_VERSIONS = ["1.0.0", "1.1.0", "2.0.0", "1.0.0-a", "1.0.0+b", "2.1.0", "0.1.0"]


def some_graph(draw):
    """A graph of up to ten crates of three names, and which of them are members."""
    crates = sorted({"%s@%s" % (NAMES[draw(3)], SOME_VERSIONS[draw(len(SOME_VERSIONS))]) for _ in range(3 + draw(7))})
    kinds = ["", "", "", " dev", " build", " dev normal"]
    edges = [
        "%s -> %s%s" % (
            (["app"] + crates)[draw(len(crates) + 1)], crates[draw(len(crates))], kinds[draw(6)]
        ) for _ in range(len(crates) * 2)
    ]
    members = "app" if draw(3) else "app %s" % crates[draw(len(crates))]
    return ", ".join(edges), members


def some_spec(draw):
    return (NAMES + ["app", "y"])[draw(5)] + SOME_REQUIREMENTS[draw(len(SOME_REQUIREMENTS))]


def some_entries(draw, more):
    """Entries of a list: texts, and tables with what `more` draws."""
    found = []
    for _ in range(draw(4)):
        spec = "'%s'" % some_spec(draw)
        found.append(spec if draw(2) else "{ %s }" % ", ".join(["crate = %s" % spec] + more()))
    return "[%s]" % ", ".join(found)


def some_policy(draw):
    """A policy of which each key is written or not."""
    reason = lambda: ["reason = 'r'"] if draw(3) == 0 else []
    depth = lambda: (["depth = %d" % draw(4)] if draw(2) else []) + reason()
    wrappers = lambda: [
        "wrappers = [%s]" % ", ".join("'%s'" % (NAMES + ["app"])[draw(4)] for _ in range(draw(3)))
    ] if draw(2) else []
    banned = lambda: (
        ["deny-multiple-versions = true"] if draw(3) == 0 else wrappers()
    ) + reason() + (["use-instead = 'u'"] if draw(4) == 0 else [])
    lines = []
    for chance, key, value in (
        (2, "multiple-versions", lambda: "'%s'" % ("allow", "warn", "deny")[draw(3)]),
        (3, "multiple-versions-include-dev", lambda: ("true", "false")[draw(2)]), (4, "highlight", lambda: "'all'"),
        (2, "allow-workspace", lambda: ("true", "false")[draw(2)]),
        (1, "deny", lambda: some_entries(draw, banned)), (3, "allow", lambda: some_entries(draw, reason)),
        (1, "skip", lambda: some_entries(draw, reason)), (1, "skip-tree", lambda: some_entries(draw, depth)),
    ):
        if draw(chance) == 0:
            lines.append("%s = %s" % (key, value()))
    return "\n".join(lines)


def by_chance():
    for seed in range(1000, 1300):
        draw = draws(seed)
        text, members = some_graph(draw)
        yield rule("policy and graph by chance, %d" % seed, text, some_policy(draw), members=members)


def rule_cases():
    for part in (rows, whole_lines, bans, allowances, duplicates, skips, trees, requirements, many, by_chance):
        yield from part()
