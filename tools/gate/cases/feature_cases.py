"""Cases of features: levels of `default`, lists of what is allowed and denied, exact sets, and all of it by chance."""

from case_parts import (
    BANS_FAILED, BY_APP, TREES_OF_X, PASSED, case, crate_tree, draws, feature_tree, featured, told,
)
from rule_cases import some_graph, some_spec

LOOP = {"x": {"a": ["b"], "b": ["a"]}}
# `default` asks for `std`, and `std` for nothing.
STD = {"x": {"default": ["std"], "std": []}}


def feature(name, entries, tables, by_hand=None, enabled=(), text="app -> x", members="app", levels="", **more):
    """A case over `features` with these entries, and over lines before it."""
    if by_hand is not None:
        more["by_hand"] = by_hand
    policy = "[bans]\nmultiple-versions = 'allow'\n%sfeatures = [%s]\n" % (levels, entries)
    return case("features: %s" % name, policy, featured(text, tables, enabled, members), **more)


def each(code, crate, names):
    return "; ".join("%s %s/%s" % (code, crate, name) for name in names.split())


def not_allowed(names, crate="x"):
    return each("feature-not-explicitly-allowed", crate, names)


def all_of(*findings):
    return "; ".join(filter(None, findings))


BANNED, UNKNOWN, MISMATCH = "feature-banned x/", "unknown-feature x/", "exact-features-mismatch x"
X_DEFAULT = "default-feature-enabled x/default"

# ---- rows


def rows():
    yield feature("an allowed one reaches the other", '{ crate = "x", allow = ["a"] }', LOOP, "")
    yield feature(
        "neither is allowed", '{ crate = "x", allow = ["c"] }', LOOP, all_of(not_allowed("a b"), UNKNOWN + "c")
    )
    message = "feature 'std' for crate 'x = 1.0.0' is explicitly denied"
    yield feature(
        "a denied one", '{ crate = "x", deny = ["std"] }', STD,
        lines=told(
            "feature-banned", "error", message, (3, 37, "feature denied here", "std"),
            graphs=[crate_tree("x", feature_tree("x/std", feature_tree("x/default")))]
        ) + BANS_FAILED
    )


def whole_lines():
    """Each kind of finding with its text, its labels and its notes."""
    denied = "feature 'd' for crate 'x = 1.0.0' is explicitly denied"
    not_listed = lambda name: "feature '%s' for crate 'x = 1.0.0' was not explicitly allowed" % name
    unknown = lambda name: "found unknown feature '%s' for crate 'x = 1.0.0'" % name
    # No declaration asks for a feature, so none of them leads on.
    whole = [crate_tree("x", BY_APP, *(feature_tree("x/" + name) for name in ("a", "d", "z", "é")))]
    not_allowed_line = lambda name: told(
        "feature-not-explicitly-allowed", "error", not_listed(name), (3, 69, "allowed features", '["a", "p"]'),
        graphs=whole
    )
    yield feature(
        "the lines of lists", '{ crate = "x", reason = "r", deny = ["d", "q"], allow = ["a", "p"] }',
        {"x": {"a": [], "d": [], "é": [], "z": []}},
        lines="".join([
            not_allowed_line("d"), not_allowed_line("z"), not_allowed_line("é"),
            told(
                "feature-banned", "error", denied, (3, 51, "feature denied here", "d"),
                graphs=[crate_tree("x", feature_tree("x/d"))]
            ),
            told("unknown-feature", "warning", unknown("q"), (3, 56, "unknown feature", "q"), graphs=TREES_OF_X),
            told("unknown-feature", "warning", unknown("p"), (3, 76, "unknown feature", "p"), graphs=TREES_OF_X),
            BANS_FAILED,
        ])
    )
    note = "'%s' feature was enabled but not explicitly allowed"
    yield feature(
        "the line of a set that does not match", '{ name = "x", exact = true, allow = [\n"a", "b", """\nc""", "b"] }',
        {"x": {"a": [], "b": [], "e": [], "d": []}}, enabled={"x": ["e", "a", "d", "e"]},
        lines=told(
            "exact-features-mismatch", "error", "feature set for crate 'x = 1.0.0' did not match exactly",
            (3, 35, "exact enabled here", "true"), (4, 7, "allowed feature not present", "b"),
            (4, 14, "allowed feature not present", "\nc"), (5, 8, "allowed feature not present", "b"),
            notes=[note % "d", note % "e"],
            graphs=[crate_tree("x", feature_tree("x/d")), crate_tree("x", feature_tree("x/e"))]
        ) + BANS_FAILED
    )
    for level, severity in (("warn", "warning"), ("deny", "error")):
        message = "'default' feature enabled for crate '%s'"
        yield case(
            "features: the lines of default at %s" % level,
            "[bans]\nexternal-default-features = '%s'\nworkspace-default-features = \"%s\"\n" % (level, level),
            featured("app -> x", {"app": {"default": []}, "x": {"default": []}}),
            lines=told(
                "default-feature-enabled", severity, message % "app = 0.1.0", (3, 31, "lint level", level),
                graphs=[crate_tree("app@0.1.0", feature_tree("app/default"))]
            ) + told(
                "default-feature-enabled", severity, message % "x = 1.0.0", (2, 30, "lint level", level),
                graphs=[crate_tree("x", feature_tree("x/default"))]
            ) + (BANS_FAILED if level == "deny" else PASSED)
        )


# ---- the levels of `default`

LEVELS = ("", "allow", "warn", "deny")


def levels_of(workspace="", external=""):
    written = (("workspace", workspace), ("external", external))
    return "".join("%s-default-features = '%s'\n" % (whose, level) for whose, level in written if level)


def levels():
    """Each level for members and for others, and each level with each way in which an entry speaks of `default`."""
    both = {"app": {"default": []}, "x": {"default": []}}
    speaks = lambda level: level in ("warn", "deny")
    for workspace in LEVELS:
        for external in LEVELS:
            yield feature(
                "default of members at %s, of others at %s" % (workspace or "none", external or "none"), "", both,
                all_of(
                    "default-feature-enabled app/default" if speaks(workspace) else "",
                    X_DEFAULT if speaks(external) else ""
                ), levels=levels_of(workspace, external)
            )
    for what, entry, of_level in (
        ("allows it", "allow = ['default', 'std']", {"warn": X_DEFAULT}),
        ("allows it alone", "allow = ['default']", {"warn": X_DEFAULT}),
        (
            "denies it", "deny = ['default']",
            {level: all_of(BANNED + "default", X_DEFAULT if level == "warn" else "") for level in LEVELS}
        ),
        (
            "allows another", "allow = ['std']", {
                "": not_allowed("default"), "warn": X_DEFAULT,
                "deny": all_of(not_allowed("default"), X_DEFAULT),
            }
        ),
        ("denies one that is not enabled", "deny = ['z']", {"warn": X_DEFAULT, "deny": X_DEFAULT}),
        ("lists nothing", "reason = 'r'", {"warn": X_DEFAULT, "deny": X_DEFAULT}),
        ("allows nothing but it and is exact", "exact = true, allow = ['default', 'std']", {"warn": X_DEFAULT}),
        (
            "is exact without it", "exact = true, allow = ['std']",
            {"": MISMATCH, "warn": X_DEFAULT, "deny": MISMATCH}
        ),
    ):
        for level in LEVELS:
            yield feature(
                "an entry that %s, default at %s" % (what, level or "none"), "{ crate = 'x', %s }" % entry,
                {"x": dict(STD["x"], z=[])}, of_level.get(level, ""), {"x": ["default", "std"]},
                levels=levels_of(external=level)
            )


def defaults():
    """Crates of which several entries or none speak, and crates without `default`."""
    deny = levels_of("deny", "deny")
    names, others = "{ crate = 'x', allow = ['default', 'std'] }", "{ crate = 'x', deny = ['z'] }"
    exact = "{ crate = 'x', exact = true, allow = ['std', 'default'] }"
    of_x = {"x": dict(STD["x"], z=[])}
    enabled = {"x": ["default", "std"]}
    for what, entries, by_hand in (
        ("two entries, both of which name it", names + ", " + names, ""),
        ("two entries, one of which names it", names + ", " + others, X_DEFAULT),
        ("two entries, the other way round", others + ", " + names, X_DEFAULT),
        ("two entries, neither of which names it", others + ", " + others, X_DEFAULT),
        ("an exact entry beside one that does not name it", exact + ", " + others, X_DEFAULT),
        ("an exact entry beside one that names it", exact + ", " + names, ""), ("an exact entry", exact, ""),
        ("an entry for another version", names.replace("'x'", "'x@2'"), X_DEFAULT),
        ("an entry for another crate", names.replace("'x'", "'y'"), X_DEFAULT),
    ):
        yield feature("default at deny, %s" % what, entries, of_x, by_hand, enabled, levels=deny)
    yield feature("default that is not enabled", "", STD, "", {"x": ["std"]}, levels=deny)
    yield feature("default that is no key of the table", "", {"x": {}}, X_DEFAULT, {"x": ["default"]}, levels=deny)
    yield feature("names like default", "", {"x": {"Default": [], "defaults": [], "default-x": []}}, "", levels=deny)
    several = {"app": {"default": []}, "lib": {"default": []}, "x": {"default": []}, "x@2.0.0": {"default": []}}
    yield feature(
        "default of several members and others", "", several,
        "default-feature-enabled app/default; default-feature-enabled lib/default; %s; "
        "default-feature-enabled x@2.0.0/default" % X_DEFAULT, text="app -> x, lib -> x@2.0.0 dev, app -> lib",
        members="app lib", levels=deny
    )
    yield feature(
        "default of a crate that no member reaches", "", several, "default-feature-enabled app/default",
        text="app, lib -> x", levels=deny
    )
    # The level of the others says nothing of a member, and the other way round.
    member = "{ crate = 'app', allow = ['a'] }"
    for workspace, by_hand in (
        ("", not_allowed("default", "app")), ("allow", ""), ("warn", "default-feature-enabled app/default"),
        ("deny", not_allowed("default", "app") + "; default-feature-enabled app/default"),
    ):
        yield feature(
            "a member's default at %s beside others' at warn" % (workspace or "none"), member,
            {"app": {"a": [], "default": []}}, by_hand, levels=levels_of(workspace, "warn"), text="app"
        )


# ---- exact sets


def exact():
    of_x = {"x": {"a": [], "b": ["a"], "c": []}}
    enabled = {"x": ["a", "b"]}
    fits = lambda entry, by_hand: feature("exact: %s" % entry, "{ crate = 'x', %s }" % entry, of_x, by_hand, enabled)
    for entry, by_hand in (
        ("exact = true, allow = ['b', 'a']", ""), ("exact = true, allow = ['a', 'b', 'a']", ""),
        ("exact = true, allow = ['a']", MISMATCH), ("exact = true, allow = ['b']", MISMATCH),
        ("exact = true, allow = ['a', 'b', 'c']", MISMATCH), ("exact = true, allow = ['a', 'b', 'q']", MISMATCH),
        ("exact = true, allow = []", MISMATCH), ("exact = true", MISMATCH),
        ("exact = true, allow = ['A', 'B']", MISMATCH),
        ("exact = true, allow = ['a', 'b'], deny = ['c']", ""),
        ("exact = true, allow = ['a'], deny = ['b']", MISMATCH),
        ("exact = true, deny = ['a', 'b', 'q']", MISMATCH),
        ("allow = ['a', 'b'], deny = ['q', 'c', 'p'], exact = true", UNKNOWN + "q; " + UNKNOWN + "p"),
        ("exact = false, allow = ['b', 'a']", ""), ("exact = false, allow = ['b']", ""),
        ("exact = false, allow = ['a']", not_allowed("b")), ("exact = false", ""),
        ("exact = false, allow = ['b', 'c', 'q']", UNKNOWN + "q"),
    ):
        yield fits(entry, by_hand)
    yield feature("exact: nothing allowed, nothing enabled", "{ crate = 'x', exact = true }", of_x, "", {"x": []})
    yield feature("exact: a crate without features", "{ crate = 'x', exact = true }", {}, "")
    yield feature(
        "exact: enabled ones that are no keys of the table", "{ crate = 'x', exact = true, allow = ['p', 'q'] }",
        of_x, UNKNOWN + "p; " + UNKNOWN + "q", {"x": ["q", "p"]}
    )


# ---- what allowed features reach


def reach():
    """Steps along entries of the table, which are followed where they name a feature of the crate itself."""
    allow = lambda what, table, allowed, by_hand, enabled=None: feature(
        "reach: %s" % what, "{ crate = 'x', allow = [%s] }" % ", ".join("'%s'" % name for name in allowed.split()),
        {"x": table}, by_hand, {} if enabled is None else {"x": enabled.split()}
    )
    chain = {"a": ["b"], "b": ["c"], "c": ["d"], "d": []}
    for allowed, by_hand in (
        ("a", ""), ("b", not_allowed("a")), ("c", not_allowed("a b")), ("d", not_allowed("a b c")), ("c a", ""),
        ("d b", not_allowed("a")),
    ):
        yield allow("a chain from %s" % allowed, chain, allowed, by_hand)
    yield allow("a step over one that is not enabled", chain, "a", "", "a d")
    yield allow("from one that is not enabled", chain, "b", not_allowed("a"), "a c d")
    yield allow("from none of them", chain, "e", all_of(not_allowed("a"), UNKNOWN + "e"), "a")
    circle = {"a": ["b"], "b": ["c"], "c": ["a"], "d": ["a"]}
    yield allow("a circle", circle, "b", not_allowed("d"))
    yield allow("into a circle", circle, "d", "")
    yield allow("a feature that asks for itself", {"a": ["a"], "b": ["b"]}, "a", not_allowed("b"))
    yield allow("two ways", {"a": ["b", "c"], "b": ["d"], "c": ["d"], "d": []}, "a", "")
    yield allow("an entry twice", {"a": ["b", "b"], "b": []}, "a", "")
    yield allow("an entry of no feature", {"a": ["q"], "b": []}, "a", not_allowed("b"))
    yield allow("one that is no key of the table", {"a": ["q"]}, "a", not_allowed("r"), "a q r")
    for entry, by_hand in (
        ("b", ""), ("dep:b", not_allowed("b")), ("b/f", not_allowed("b")), ("b?/f", not_allowed("b")),
        ("y/b", not_allowed("b")), ("dep:b/f", not_allowed("b")), ("b/", not_allowed("b")), ("/b", not_allowed("b")),
        ("Dep:b", not_allowed("b")), ("B", not_allowed("b")), ("dep", not_allowed("b")),
    ):
        yield allow("an entry %s" % entry, {"a": [entry], "b": []}, "a", by_hand)
    # What an entry that is not plain would name, if it were one.
    for name, by_hand in (
        ("dep:b", not_allowed("dep:b")), ("b/f", not_allowed("b/f")), ("xdep:b", ""), ("b?", ""), ("dep", ""),
    ):
        yield allow("a feature named as the entry %s" % name, {"a": [name], name: []}, "a", by_hand)
    yield allow("odd names", {"a": ["é b"], "é b": ["+"], "+": ["C++"], "C++": []}, "a", "")
    yield allow("an empty entry", {"a": [""], "": ["b"], "b": []}, "a", "")
    yield feature(
        "the table of another crate", "{ crate = 'x', allow = ['a'] }", {"app": {"a": ["b"]}, "x": {"a": [], "b": []}},
        not_allowed("b")
    )
    yield feature(
        "the table of another version", "{ crate = 'x', allow = ['a'] }",
        {"x@1.0.0": {"a": ["b"], "b": []}, "x@2.0.0": {"a": [], "b": []}}, not_allowed("b", "x@2.0.0"),
        text="app -> x, app -> x@2.0.0"
    )


# ---- entries


def entries():
    """Lists that are left out, denied features, and several entries of one crate."""
    of_x = {"x": {"a": ["b"], "b": [], "c": []}}
    enabled = {"x": ["a", "b"]}
    for entry, by_hand in (
        ("", ""), (", allow = []", ""), (", allow = [], deny = []", ""), (", deny = ['c']", ""),
        (", deny = ['b']", BANNED + "b"), (", deny = ['b', 'c', 'a']", all_of(BANNED + "b", BANNED + "a")),
        (", deny = ['a', 'a']", all_of(BANNED + "a", BANNED + "a")), (", deny = ['q']", UNKNOWN + "q"),
        (", deny = ['q', 'q']", all_of(UNKNOWN + "q", UNKNOWN + "q")), (", deny = ['A']", UNKNOWN + "A"),
        (", allow = ['a'], deny = ['b']", BANNED + "b"), (", allow = ['a'], deny = ['c']", ""),
        (", deny = ['a'], allow = ['b']", all_of(not_allowed("a"), BANNED + "a")),
        (", allow = ['q', 'r', 'q', 'a']", all_of(*(UNKNOWN + name for name in "qrq"))),
        (", allow = ['c']", not_allowed("a b")), (", allow = ['c', 'c']", not_allowed("a b")),
    ):
        yield feature("an entry of x%s" % entry, "{ crate = 'x'%s }" % entry, of_x, by_hand, enabled)
    yield feature(
        "a denied one that is no key of the table", "{ name = 'x', deny = ['q'] }", of_x,
        all_of(BANNED + "q", UNKNOWN + "q"), {"x": ["q"]}
    )
    two = "{ crate = 'x', allow = ['b'] }, { crate = 'x@1', deny = ['b'] }"
    yield feature("two entries of one crate", two, of_x, all_of(not_allowed("a"), BANNED + "b"), enabled)
    yield feature(
        "one entry twice", "{ crate = 'x', allow = ['q'] }, { crate = 'x', allow = ['q'] }", of_x,
        all_of(not_allowed("a b"), not_allowed("a b"), UNKNOWN + "q", UNKNOWN + "q"), enabled
    )
    yield feature(
        "an exact entry and two others",
        "{ crate = 'x', deny = ['a'] }, { crate = 'x', exact = true, allow = ['a'] }, "
        "{ crate = 'x', allow = ['b', 'r'] }", of_x,
        all_of(MISMATCH, not_allowed("a"), BANNED + "a", UNKNOWN + "r"), enabled
    )
    versions = {"x@1.0.0": {"a": []}, "x@2.0.0": {"a": [], "b": []}}
    yield feature(
        "an entry of two versions", "{ crate = 'x', deny = ['a', 'b'] }", versions,
        all_of(BANNED + "a", UNKNOWN + "b", each("feature-banned", "x@2.0.0", "a b")), text="app -> x, app -> x@2.0.0"
    )
    yield feature(
        "entries of one version each",
        "{ crate = 'x@2', deny = ['a'] }, { name = 'x', version = '=1.0.0', deny = ['b'] }", versions,
        all_of(UNKNOWN + "b", "feature-banned x@2.0.0/a"), text="app -> x, app -> x@2.0.0"
    )
    yield feature("an entry of no crate", "{ crate = 'y', deny = ['a'], allow = ['q'] }", of_x, "")
    yield feature(
        "a member and a crate for tests", "{ crate = 'app', deny = ['a'] }, { crate = 'x', allow = ['c'] }",
        dict(of_x, app={"a": []}), all_of("feature-banned app/a", not_allowed("a b")), dict(enabled, app=["a"]),
        "app -> x dev"
    )
    yield feature(
        "a member, the workspace allowed", "{ crate = 'app', deny = ['a'] }", {"app": {"a": []}},
        "feature-banned app/a", text="app", levels="allow-workspace = true\n"
    )
    yield feature(
        "skipped crates", "{ crate = 'x', deny = ['a'] }", of_x,
        all_of("skipped x", BANNED + "a", "unnecessary-skip x"), levels="skip = ['x']\n"
    )
    yield feature(
        "one enabled feature written three times", "{ crate = 'x', allow = ['c'] }", of_x, not_allowed("a"),
        {"x": ["a"] * 3}
    )
    yield feature(
        "findings of all rules in their order", "{ crate = 'x', exact = true, allow = ['q'] }, "
        "{ crate = 'x', allow = ['r'], deny = ['a'] }", dict(of_x, app={"default": []}),
        all_of(
            "default-feature-enabled app/default", "skipped x", MISMATCH, not_allowed("a b"), BANNED + "a",
            UNKNOWN + "r", "unmatched-skip y", "unnecessary-skip x"
        ), enabled,
        levels="workspace-default-features = 'warn'\nskip = ['x', 'y']\n"
    )


# ---- many, and by chance


def many():
    """Long chains and circles, and entries with many features."""
    size = 2000
    names = ["f%d" % number for number in range(size)]
    chain = {name: [after] for name, after in zip(names, names[1:] + ["end"])}
    for what, table, allowed, by_hand in (
        ("a chain of 2,000 features", chain, "f0", ""),
        ("a chain of 2,000 features, from the second", chain, "f1", not_allowed("f0")),
        ("a circle of 2,000 features", dict(chain, **{names[-1]: [names[0]]}), "f1000", ""),
    ):
        yield feature(what, "{ crate = 'x', allow = ['%s'] }" % allowed, {"x": table}, by_hand)
    star = dict({"all": names}, **{name: [] for name in names})
    yield feature("2,000 features of one", "{ crate = 'x', allow = ['all'] }", {"x": star}, "")
    lists = lambda names: ", ".join("'%s'" % name for name in names)
    some = names[:400]
    most = dict({"all": some[:-20]}, **{name: [] for name in some})
    yield feature(
        "all but 20 of 400 features of one", "{ crate = 'x', allow = ['all'] }", {"x": most},
        not_allowed(" ".join(sorted(some[-20:])))
    )
    yield feature(
        "2,000 features and an exact set", "{ crate = 'x', exact = true, allow = [%s] }" % lists(reversed(names)),
        {"x": {name: [] for name in names}}, ""
    )
    yield feature(
        "300 entries of one crate", ", ".join("{ crate = 'x', deny = ['f%d'] }" % n for n in range(300)),
        {"x": {"f%d" % n: [] for n in range(0, 300, 2)}},
        all_of(*(BANNED + "f%d" % n for n in range(0, 300, 2)), *(UNKNOWN + "f%d" % n for n in range(1, 300, 2)))
    )


SOME_FEATURES = ["a", "b", "c", "default", "std", "dep:a", "b/c"]


def some_table(draw):
    """A table of some features, and which of them are enabled."""
    names = [name for name in SOME_FEATURES if draw(3)]
    table = {name: [SOME_FEATURES[draw(len(SOME_FEATURES))] for _ in range(draw(3))] for name in names}
    return table, [name for name in SOME_FEATURES if draw(4) > (1 if name in table else 2)]


def some_feature_entry(draw):
    drawn = [SOME_FEATURES[draw(len(SOME_FEATURES))] for _ in range(draw(5))]
    allowed = [name for name in dict.fromkeys(drawn) if draw(2)]
    parts = ["crate = '%s'" % some_spec(draw)]
    for key, names in (("allow", allowed), ("deny", [name for name in drawn if name not in allowed])):
        if names or draw(2):
            parts.append("%s = [%s]" % (key, ", ".join("'%s'" % name for name in names)))
    parts += ["exact = true"] if draw(4) == 0 else []
    return "{ %s }" % ", ".join(parts)


def by_chance():
    for seed in range(4000, 4060):
        draw = draws(seed)
        text, members = some_graph(draw)
        drawn = {name: some_table(draw) for name in ("app", "a", "b", "x")}
        levels = levels_of(*((("", "allow", "warn", "deny", "deny")[draw(5)]) for _ in range(2)))
        entries = ", ".join(some_feature_entry(draw) for _ in range(1 + draw(5)))
        tables, enabled = ({name: pair[number] for name, pair in drawn.items()} for number in range(2))
        name = "by chance, %d" % seed
        yield feature(name, entries, tables, enabled=enabled, text=text, members=members, levels=levels)


def feature_cases():
    for part in (rows, whole_lines, levels, defaults, exact, reach, entries, many, by_chance):
        yield from part()
