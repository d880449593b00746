"""Cases of trees: of direct dependents, with features, by kinds, declarations and entries of features, and by chance.

`trees` of a case has the trees of each finding as text: a line a node, below it what leads to it.
"""

from case_parts import (
    BANS_FAILED, BY_APP, TREES_OF_X, asks, case, crate_tree, declaring, draws, feature_tree, featured, furnished, graph,
    metadata, package, row_graph, told,
)
from readings.report import compact

BAN_X = "deny = ['x']"
BAN_F = "features = [{ crate = 'x', deny = ['f'] }]"
# Tells of the crate itself, with features: `q` is none of its features.
EXACT_X = "features = [{ crate = 'x', exact = true, allow = ['q'] }]"


def tree(name, value, policy, *trees, **more):
    """A case over `[bans]` with these lines and these trees, one for each finding."""
    if trees:
        more["trees"] = list(trees)
    return case("trees: %s" % name, "[bans]\nmultiple-versions = 'allow'\n%s\n" % policy, value, **more)


def lines(*texts):
    return "".join(text + "\n" for text in texts)


# ---- rows


def rows():
    """Runs as a user meets them."""
    std = {"x": {"default": ["std"], "std": []}}
    message = "feature 'std' for crate 'x = 1.0.0' is explicitly denied"
    yield case(
        "trees: a denied feature that the default one asks for",
        '[bans]\nfeatures = [{ crate = "x", deny = ["std"] }]\n', row_graph("app -> x", std),
        by_hand="feature-banned x/std",
        trees=[lines("x v1.0.0", "└── x feature 'std' ", "    └── x feature 'default' ", "        └── app v0.1.0")],
        lines=told(
            "feature-banned", "error", message, (2, 37, "feature denied here", "std"),
            graphs=[crate_tree("x", feature_tree("x/std", feature_tree("x/default", BY_APP)))]
        ) + BANS_FAILED
    )
    yield tree("a crate and its parent", graph("b -> a", "b"), "deny = ['a']", "a v1.0.0\n└── b v0.1.0\n")
    message = "crate 'x = 1.0.0' is explicitly banned"
    back = [crate_tree("x", crate_tree("app@0.1.0", crate_tree("x", kind="dev", repeat=True)))]
    yield case(
        "trees: a dev edge back to the member", '[bans]\ndeny = ["x"]\n', row_graph("app -> x, x -> app dev"),
        trees=[lines("x v1.0.0", "└── app v0.1.0", "    └── (dev) x v1.0.0 (*)")],
        lines=told("banned", "error", message, (2, 10, "banned here", "x"), graphs=back) + BANS_FAILED
    )
    yield case(
        "trees: a banned crate in the form of rows", '[bans]\ndeny = ["x"]\n', row_graph("app -> x"),
        by_hand="banned x",
        lines=told("banned", "error", message, (2, 10, "banned here", "x"), graphs=TREES_OF_X) + BANS_FAILED
    )


# ---- direct dependents


def dependents():
    """Trees without features: every edge counts, by its crates and its least kind."""
    of_x = lambda name, text, *texts, **more: tree(name, graph(text, **more), BAN_X, lines(*texts))
    yield of_x("a member that nobody needs", "x", "x v0.1.0", members="x")
    yield of_x(
        "a chain", "app -> a, a -> b, b -> x", "x v1.0.0", "└── b v1.0.0", "    └── a v1.0.0",
        "        └── app v0.1.0"
    )
    yield of_x(
        "three parents, the last of which is shown whole first", "app -> c, c -> x, c -> b, b -> x, a -> x, app -> a",
        "x v1.0.0", "├── a v1.0.0", "│   └── app v0.1.0", "├── b v1.0.0", "│   └── c v1.0.0",
        "│       └── app v0.1.0 (*)", "└── c v1.0.0 (*)"
    )
    yield of_x(
        "a node that was met before, deeper", "app -> a, a -> b, b -> x, a -> x, app -> x", "x v1.0.0", "├── a v1.0.0",
        "│   └── app v0.1.0", "├── app v0.1.0 (*)", "└── b v1.0.0", "    └── a v1.0.0 (*)"
    )
    for kinds, word in (
        ("normal", ""), ("dev", "(dev) "), ("build", "(build) "), ("dev build", "(dev) "), ("build dev", "(dev) "),
        ("build normal", ""), ("dev normal", ""), ("build dev normal", ""), ("dev dev", "(dev) "),
    ):
        yield of_x("one parent by %s" % kinds, "app -> x %s" % kinds, "x v1.0.0", "└── %sapp v0.1.0" % word)
    yield of_x(
        "a parent by two edges", "app -> x build, app -> x dev", "x v1.0.0", "└── (dev) app v0.1.0"
    )
    yield of_x(
        "one crate by three kinds, each from another", "app -> a, app -> b, app -> c, a -> x dev, b -> x build, c -> x",
        "x v1.0.0", "├── (dev) a v1.0.0", "│   └── app v0.1.0", "├── (build) b v1.0.0", "│   └── app v0.1.0 (*)",
        "└── c v1.0.0", "    └── app v0.1.0 (*)"
    )
    yield of_x(
        "one parent of two crates, by another kind of each", "app -> a, app -> b dev, a -> x, b -> x", "x v1.0.0",
        "├── a v1.0.0", "│   └── app v0.1.0", "└── b v1.0.0", "    └── (dev) app v0.1.0 (*)"
    )
    yield of_x(
        "a crate that asks for itself", "app -> x, x -> x dev", "x v1.0.0", "├── app v0.1.0", "└── (dev) x v1.0.0 (*)"
    )
    yield of_x("a member that asks for itself", "x -> x dev", "x v0.1.0", "└── (dev) x v0.1.0 (*)", members="x")
    yield of_x(
        "a circle through tests", "app -> x, x -> y, y -> app dev, x -> z, z -> x dev", "x v1.0.0", "├── app v0.1.0",
        "│   └── (dev) y v1.0.0", "│       └── x v1.0.0 (*)", "└── (dev) z v1.0.0", "    └── x v1.0.0 (*)"
    )
    yield of_x(
        "two members that need each other", "app -> lib, lib -> app dev, lib -> x, app -> x", "x v1.0.0",
        "├── app v0.1.0", "│   └── (dev) lib v0.1.0", "│       └── app v0.1.0 (*)", "└── lib v0.1.0 (*)",
        members="app lib"
    )
    yield of_x("a parent that no member reaches", "app -> x, y -> x, z -> y", "x v1.0.0", "└── app v0.1.0")
    yield of_x(
        "two versions of one name above it", "app -> a@2.0.0, app -> a@10.0.0, a@2.0.0 -> x, a@10.0.0 -> x", "x v1.0.0",
        "├── a v10.0.0", "│   └── app v0.1.0", "└── a v2.0.0", "    └── app v0.1.0 (*)"
    )


def orders():
    """Parents stand in order of their ids, whatever their names and places."""
    app, x = package("app", "0.1.0", source=None), package("x", source=None)
    a, b, c = (dict(package(name, source=None), id=id_) for name, id_ in (("a", "z"), ("b", "é"), ("c", "A")))
    edges = [(app, a), (app, b), (app, c), (a, x), (b, x), (c, x)]
    yield tree(
        "ids that stand in another order than names", metadata(edges, [x, a, b, c, app], [app]), BAN_X,
        lines(
            "x v1.0.0", "├── c v1.0.0", "│   └── app v0.1.0", "├── a v1.0.0", "│   └── app v0.1.0 (*)", "└── b v1.0.0",
            "    └── app v0.1.0 (*)"
        )
    )
    last = dict(app, id="zz")
    edges = [(last, a), (a, x), (last, x)]
    yield tree(
        "a member behind the others", metadata(edges, [last, a, x], [last]), BAN_X,
        lines("x v1.0.0", "├── a v1.0.0", "│   └── app v0.1.0", "└── app v0.1.0 (*)")
    )
    prefixes = [dict(package(name, source=None), id=id_) for name, id_ in (("a", "p1"), ("b", "p"), ("c", "p\u00001"))]
    edges = [(app, one) for one in prefixes] + [(one, x) for one in prefixes]
    yield tree(
        "ids that begin alike", metadata(edges, [app, x] + prefixes, [app]), BAN_X,
        lines(
            "x v1.0.0", "├── b v1.0.0", "│   └── app v0.1.0", "├── c v1.0.0", "│   └── app v0.1.0 (*)", "└── a v1.0.0",
            "    └── app v0.1.0 (*)"
        )
    )
    git, public = package("x", source="git+https://example.org/x#0123"), package("x")
    yield tree(
        "two crates of one name and version", metadata([(app, git), (app, public)], [app, git, public], [app]),
        BAN_X, *["x v1.0.0\n└── app v0.1.0\n"] * 2
    )


def findings():
    """Which findings have trees, and of what."""
    two = graph("app -> x, app -> y, y -> x@2.0.0")
    x1, x2 = lines("x v1.0.0", "└── app v0.1.0"), lines("x v2.0.0", "└── y v1.0.0", "    └── app v0.1.0")
    y = lines("y v1.0.0", "└── app v0.1.0")
    several = lambda policy: "multiple-versions = 'deny'\n" + policy
    plain = lambda name, value, policy, *trees: case(
        "trees: %s" % name, "[bans]\n%s\n" % policy, value, trees=list(trees)
    )
    yield plain("duplicates, a tree for each", two, several(""), x1 + x2)
    versions = graph("app -> x@1.9.0, app -> x@1.10.0, app -> x@1.9.0-rc.2, app -> x@1.9.0+b")
    yield plain(
        "duplicates by their versions, not by their texts", versions, "multiple-versions = 'warn'",
        "".join("x v%s\n└── app v0.1.0\n" % version for version in ("1.9.0-rc.2", "1.9.0", "1.9.0+b", "1.10.0"))
    )
    yield plain("a duplicate without a skipped one", graph("app -> x, app -> x@2.0.0, app -> x@3.0.0"), several(
        "skip = ['x@2']"
    ), "x v2.0.0\n└── app v0.1.0\n", x1 + "x v3.0.0\n└── app v0.1.0\n")
    yield plain(
        "wrappers: the tree is that of the banned crate", graph("app -> x, app -> y, y -> x"),
        "deny = [{ crate = 'x', wrappers = ['app', 'q'] }]", *[
            lines("x v1.0.0", "├── app v0.1.0", "└── y v1.0.0", "    └── app v0.1.0 (*)")
        ] * 3, ""
    )
    yield plain(
        "an allow list, skips and trees that are skipped", two,
        several("allow = ['x@1', 'y']\nskip = ['x@=1.0.0', 'q', 'x@3']\nskip-tree = ['y', 'r']"),
        "app v0.1.0\n", x1, x1, x2, x2, y, y, "", "", "", ""
    )
    yield case(
        "trees: licences", "[licenses]\nallow = ['MIT', 'Zlib']\nexceptions = [{ crate = 'q', allow = [] }]\n"
        "private = { ignore = true }\n", furnished(
            graph("app -> x build, app -> y, y -> x"),
            {"x": {"license": "MIT"}, "y": {"license": "MIT AND"}, "app": {"publish": []}}
        ), trees=[
            "app v0.1.0\n", lines("x v1.0.0", "├── (build) app v0.1.0", "└── y v1.0.0", "    └── app v0.1.0 (*)"), y,
            "", ""
        ]
    )


# ---- with features


def of_features():
    """Features of one crate, without declarations: a feature leads to its crate and to what it asks for."""
    loop = featured("app -> x", {"x": {"f": ["g"], "g": ["f"]}})
    yield tree(
        "features that ask for each other", loop, BAN_F,
        lines("x v1.0.0", "└── x feature 'f' ", "    └── x feature 'g' ", "        └── x feature 'f'  (*)")
    )
    yield tree(
        "features that ask for each other, from their crate", loop, "features = [{ crate = 'x', allow = ['q'] }]",
        *[lines(
            "x v1.0.0", "├── app v0.1.0", "├── x feature 'f' ", "│   └── x feature 'g' ",
            "│       └── x feature 'f'  (*)", "└── x feature 'g'  (*)"
        )] * 2, lines("x v1.0.0", "└── app v0.1.0")
    )
    yield tree(
        "a feature that asks for itself", featured("app -> x", {"x": {"f": ["f"]}}), BAN_F,
        lines("x v1.0.0", "└── x feature 'f' ", "    └── x feature 'f'  (*)")
    )
    yield tree(
        "features in order of their names",
        featured("app -> x", {"x": {"f": [], "é": ["f"], "b": ["f"], "Z": ["f", "f"]}}), BAN_F, lines(
            "x v1.0.0", "└── x feature 'f' ", "    ├── x feature 'Z' ", "    ├── x feature 'b' ",
            "    └── x feature 'é' "
        )
    )
    yield tree(
        "entries that are no features of the crate",
        featured("app -> x", {"x": {"f": [], "a": ["dep:f"], "b": ["y/f"], "c": ["y?/f"], "d": ["f"], "dep:f": ["F"]}}),
        BAN_F, lines("x v1.0.0", "└── x feature 'f' ", "    └── x feature 'd' ")
    )
    yield tree(
        "features that are not enabled", featured(
            "app -> x", {"x": {"f": ["g"], "g": [], "h": ["f"], "i": ["h"]}}, {"x": ["f", "i"]}
        ), BAN_F, lines("x v1.0.0", "└── x feature 'f' ")
    )
    yield tree(
        "an enabled feature that is no key of the table", featured("app -> x", {"x": {"g": ["f"]}}, {"x": ["f", "g"]}),
        "features = [{ crate = 'x', deny = ['f'] }]",
        lines("x v1.0.0", "└── x feature 'f' ", "    └── x feature 'g' "), lines("x v1.0.0", "└── app v0.1.0")
    )
    yield tree(
        "two features that are denied, and one that is unknown", featured("app -> x", {"x": {"f": [], "g": ["f"]}}),
        "features = [{ crate = 'x', deny = ['g', 'f', 'q'] }]", lines("x v1.0.0", "└── x feature 'g' "),
        lines("x v1.0.0", "└── x feature 'f' ", "    └── x feature 'g' "), lines("x v1.0.0", "└── app v0.1.0")
    )
    of_x = {"x": {"f": [], "g": ["f"], "h": []}}
    yield tree(
        "an exact set: a tree for each feature that it does not list", featured("app -> x", of_x),
        "features = [{ crate = 'x', exact = true, allow = ['h', 'q'] }]",
        lines("x v1.0.0", "└── x feature 'f' ", "    └── x feature 'g' ") + lines("x v1.0.0", "└── x feature 'g' ")
    )
    yield tree(
        "an exact set: the crate where it lists all", featured("app -> x", of_x),
        "features = [{ crate = 'x', exact = true, allow = ['h', 'f', 'g', 'q'] }]", lines(
            "x v1.0.0", "├── app v0.1.0", "├── x feature 'f' ", "│   └── x feature 'g' ", "├── x feature 'g'  (*)",
            "└── x feature 'h' "
        )
    )
    yield tree(
        "default of two crates", declaring(
            featured("app -> x", {"app": {"default": ["a"], "a": ["default"]}, "x": {"default": []}})
        ), "workspace-default-features = 'deny'\nexternal-default-features = 'warn'",
        lines(
            "app v0.1.0", "└── app feature 'default' ", "    └── app feature 'a' ",
            "        └── app feature 'default'  (*)"
        ), lines("x v1.0.0", "└── x feature 'default' ", "    └── app v0.1.0", *(
            "        " + line for line in (
                "├── app feature 'a' ", "│   └── app feature 'default' ", "│       └── app feature 'a'  (*)",
                "└── app feature 'default'  (*)"
            )
        ))
    )


def kinded(text, kinds, tables, declared, enabled=()):
    """A graph whose one edge from `app` to `x` has these kinds and targets, and with declarations of `app`."""
    value = declaring(featured(text, tables, enabled), {"app": declared})
    value["resolve"]["nodes"][0]["deps"][0]["dep_kinds"] = [dict(zip(("kind", "target"), one)) for one in kinds]
    return value


OF_FG = {"x": {"f": [], "g": [], "default": []}}
ALL_KINDS = [("dev", None), ("build", None), (None, None)]


def declarations():
    """What declarations ask for, of each kind, each target and each version."""
    plain = asks("x", features=["f"], default=False)
    dev, build = dict(plain, kind="dev", features=["g"]), dict(plain, kind="build", features=[])
    x_by = lambda *texts: lines("x v1.0.0", *texts)
    yield tree(
        "one crate by three kinds, each with another feature",
        kinded("app -> x", ALL_KINDS, OF_FG, [plain, dev, build], {"x": ["f", "g"]}), EXACT_X,
        x_by("└── x feature 'f' ", "    └── app v0.1.0") + x_by("└── x feature 'g' ", "    └── (dev) app v0.1.0")
    )
    yield tree(
        "one crate by three kinds, from the crate",
        kinded("app -> x", ALL_KINDS, OF_FG, [plain, dev, build], {"x": ["f", "g"]}),
        "features = [{ crate = 'x', exact = true, allow = ['f', 'g', 'q'] }]", x_by(
            "├── (build) app v0.1.0", "├── x feature 'f' ", "│   └── app v0.1.0 (*)", "└── x feature 'g' ",
            "    └── (dev) app v0.1.0 (*)"
        )
    )
    yield tree(
        "one crate by three kinds, without declarations", kinded("app -> x", ALL_KINDS, {}, []), EXACT_X,
        x_by("├── app v0.1.0", "├── (dev) app v0.1.0 (*)", "└── (build) app v0.1.0 (*)")
    )
    yield tree(
        "one crate by three kinds, a declaration of one of them",
        kinded("app -> x", ALL_KINDS, {"x": {"f": []}}, [dict(plain, kind="build")]), BAN_F,
        x_by("└── x feature 'f' ", "    └── (build) app v0.1.0")
    )
    yield tree(
        "one crate by three kinds, all for one feature", kinded(
            "app -> x", ALL_KINDS, {"x": {"f": []}}, [dict(plain, kind=kind) for kind in ("build", "normal", "dev")]
        ), BAN_F, x_by(
            "└── x feature 'f' ", "    ├── app v0.1.0", "    ├── (dev) app v0.1.0 (*)", "    └── (build) app v0.1.0 (*)"
        )
    )
    yield tree(
        "the same crate by three kinds, of direct dependents",
        kinded("app -> x", ALL_KINDS, OF_FG, [plain, dev, build]), BAN_X, x_by("└── app v0.1.0")
    )
    whole = lambda features: "features = [{ crate = 'x', exact = true, allow = [%s] }]" % ", ".join(
        "'%s'" % feature for feature in features + ["q"]
    )
    normal = [(None, None)]
    for name, declared, enabled, trees in (
        ("default features", [asks("x")], ["default"], ["└── x feature 'default' ", "    └── app v0.1.0"]),
        (
            "no default features", [asks("x", default=False)], ["default"],
            ["├── app v0.1.0", "└── x feature 'default' "]
        ),
        (
            "default features that are said", [asks("x", uses_default_features=True)], ["default"],
            ["└── x feature 'default' ", "    └── app v0.1.0"]
        ),
        (
            "default by its name", [asks("x", features=["default"], default=False)], ["default"],
            ["└── x feature 'default' ", "    └── app v0.1.0"]
        ),
        (
            "default twice", [asks("x", features=["default", "default"])], ["default"],
            ["└── x feature 'default' ", "    └── app v0.1.0"]
        ),
        ("default features that are not enabled", [asks("x")], [], ["└── app v0.1.0"]),
        (
            "two features and default", [asks("x", features=["g", "f"])], ["default", "f", "g"], [
                "├── x feature 'default' ", "│   └── app v0.1.0", "├── x feature 'f' ", "│   └── app v0.1.0 (*)",
                "└── x feature 'g' ", "    └── app v0.1.0 (*)"
            ]
        ),
        (
            "a feature that is not enabled beside one that is", [asks("x", features=["g", "f"], default=False)], ["f"],
            ["└── x feature 'f' ", "    └── app v0.1.0"]
        ),
        (
            "two declarations of one kind", [plain, asks("x")], ["default", "f"],
            ["├── x feature 'default' ", "│   └── app v0.1.0", "└── x feature 'f' ", "    └── app v0.1.0 (*)"]
        ),
        (
            "two declarations of one kind, one for nothing", [plain, asks("x", default=False)], ["f"],
            ["├── app v0.1.0", "└── x feature 'f' ", "    └── app v0.1.0 (*)"]
        ),
        (
            "two declarations of one kind, one for what is not enabled", [asks("x", features=["g"]), plain], ["f"],
            ["├── app v0.1.0", "└── x feature 'f' ", "    └── app v0.1.0 (*)"]
        ),
        ("two declarations of one kind, both for nothing", [asks("x")] * 2, [], ["└── app v0.1.0"]),
        (
            "a declaration of another kind", [dict(plain, kind="dev")], ["f"],
            ["├── app v0.1.0", "└── x feature 'f' "]
        ),
        ("a declaration of another name", [dict(plain, name="X")], ["f"], ["├── app v0.1.0", "└── x feature 'f' "]),
        (
            "a declaration for a target that is not there", [dict(plain, target="cfg(unix)")], ["f"],
            ["├── app v0.1.0", "└── x feature 'f' "]
        ),
        (
            "a declaration of another version", [dict(plain, req="^2")], ["f"],
            ["└── x feature 'f' ", "    └── app v0.1.0"]
        ),
        (
            "a declaration with a rename", [dict(plain, rename="y")], ["f"],
            ["└── x feature 'f' ", "    └── app v0.1.0"]
        ),
    ):
        value = kinded("app -> x", normal, OF_FG, declared, {"x": enabled})
        yield tree("declared: %s" % name, value, whole(enabled), x_by(*trees))


def targets_and_versions():
    """Declarations are for the edges of their target, and for the first crate whose version matches."""
    f, g = asks("x", features=["f"], default=False), asks("x", features=["g"], default=False)
    both = "features = [{ crate = 'x', exact = true, allow = ['q'] }]"
    of_f = lines("x v1.0.0", "└── x feature 'f' ", "    └── app v0.1.0")
    of_g = lines("x v1.0.0", "└── x feature 'g' ", "    └── app v0.1.0")
    no_f, no_g = lines("x v1.0.0", "└── x feature 'f' "), lines("x v1.0.0", "└── x feature 'g' ")
    unix, windows = "cfg(unix)", "cfg(windows)"
    for name, kinds, declared, trees in (
        ("two targets, each declared", [(None, None), (None, unix)], [f, dict(g, target=unix)], of_f + of_g),
        ("one target, and a declaration without", [(None, unix)], [f, dict(g, target=unix)], no_f + of_g),
        ("no target, and a declaration with one", [(None, None)], [f, dict(g, target=unix)], of_f + no_g),
        ("another target", [(None, unix), (None, windows)], [dict(f, target=windows), g], of_f + no_g),
        ("a target as it is written", [(None, "cfg( unix )")], [dict(f, target=unix), dict(g, target="cfg( unix )")],
         no_f + of_g),
        ("a target of another kind", [("dev", unix), (None, None)], [dict(f, target=unix), g], no_f + of_g),
        (
            "one kind by two targets, both for one feature", [(None, windows), (None, unix)],
            [dict(f, target=unix), dict(f, target=windows), dict(g, target=unix)], of_f + of_g
        ),
    ):
        value = kinded("app -> x", kinds, {"x": {"f": [], "g": []}}, declared)
        yield tree("targets: %s" % name, value, both, trees)
    text, tables = "app -> x, app -> x@2.0.0, app -> x@2.1.0", {"x": {"f": [], "g": []}}
    by_app = lambda version, feature: lines("x v%s" % version, "└── x feature '%s' " % feature, "    └── app v0.1.0")
    by_none = lambda version, feature: lines("x v%s" % version, "└── x feature '%s' " % feature)
    versions = ("1.0.0", "2.0.0", "2.1.0")
    for name, declared, reached in (
        ("each", [dict(f, req="1"), dict(g, req="2")], ["1.0.0 f", "2.0.0 g"]),
        ("the first that matches", [dict(f, req="*"), dict(g, req=">1")], ["1.0.0 f", "2.0.0 g"]),
        ("the last that matches", [dict(f, req=">=2.1"), dict(g, req="^2.1")], ["2.1.0 f", "2.1.0 g"]),
        ("none that matches", [dict(f, req="3"), dict(g, req="=2.0.1")], ["1.0.0 f", "1.0.0 g"]),
        ("two by renames", [dict(f, req="2.1", rename="y"), dict(g, req="2.0", rename="z")], ["2.1.0 f", "2.0.0 g"]),
    ):
        value = declaring(featured(text, tables), {"app": declared})
        shown = [
            "".join((by_app if "%s %s" % (version, one) in reached else by_none)(version, one) for one in "fg")
            for version in versions
        ]
        yield tree("versions: %s" % name, value, both, *shown)


# ---- entries of features that name others


def over_crates():
    """Entries `n/f` and `n?/f`, by the names and renames of declarations."""
    f = asks("x", features=[], default=False)
    leads, leads_not = ["    └── app feature 'e' "], []
    for entry, more, is_edge in (
        ("x/f", {}, True), ("x?/f", {}, True), ("y/f", {}, False), ("x/g", {}, False), ("x/F", {}, False),
        ("y/f", {"rename": "y"}, True), ("y?/f", {"rename": "y"}, True), ("x/f", {"rename": "y"}, False),
        ("x?/f", {"rename": "y"}, False), ("x//f", {}, False), ("x/", {}, False), ("/f", {}, False),
        ("/f", {"rename": ""}, True), ("?/f", {"rename": ""}, True), ("dep:x/f", {}, False),
        ("dep:y/f", {"rename": "dep:y"}, True), ("dep:y?/f", {"rename": "dep:y"}, True), ("x??/f", {}, False),
        ("y??/f", {"rename": "y?"}, True), ("y?/f", {"rename": "y?"}, True), ("y/f", {"rename": "y?"}, False),
        ("x/f", {"req": "9"}, True), ("x/f", {"target": "cfg(unix)"}, False), ("x/f", {"kind": "dev"}, False),
        ("x", {}, False), ("f", {}, False), ("dep:x", {}, False), ("é/f", {"rename": "é"}, True),
    ):
        value = declaring(
            featured("app -> x", {"app": {"e": [entry]}, "x": {"f": []}}), {"app": [dict(f, **more)]}
        )
        said = ", ".join("%s `%s`" % one for one in more.items()) or "no more"
        name = "an entry `%s` and a declaration with %s" % (entry, said)
        yield tree(name, value, BAN_F, lines("x v1.0.0", "└── x feature 'f' ", *(leads if is_edge else leads_not)))
    slashes = declaring(featured("app -> x", {"app": {"e": ["x/f/g"]}, "x": {"f/g": []}}), {"app": [f]})
    yield tree(
        "an entry with two slashes", slashes, "features = [{ crate = 'x', deny = ['f/g'] }]",
        lines("x v1.0.0", "└── x feature 'f/g' ", "    └── app feature 'e' ")
    )
    for what, kinds, declared in (
        ("two kinds", [(None, None), ("dev", None)], [f, dict(f, kind="dev")]),
        ("two other kinds", [("dev", None), ("build", None)], [dict(f, kind="build"), dict(f, kind="dev")]),
    ):
        value = kinded("app -> x", kinds, {"app": {"e": ["x/f"]}, "x": {"f": []}}, declared)
        yield tree(
            "an entry for declarations of %s" % what, value, BAN_F,
            lines("x v1.0.0", "└── x feature 'f' ", "    ├── app feature 'e' ", "    └── app feature 'e'  (*)")
        )
    for what, kinds, declared in (
        ("one kind", [(None, None)], [f, dict(f, req="1")]),
        ("two targets of one kind", [(None, None), (None, "t")], [f, dict(f, target="t")]),
    ):
        value = kinded("app -> x", kinds, {"app": {"e": ["x/f", "x?/f", "x/f"]}, "x": {"f": []}}, declared)
        yield tree(
            "an entry for two declarations of %s" % what, value, BAN_F,
            lines("x v1.0.0", "└── x feature 'f' ", "    └── app feature 'e' ")
        )
    unlisted = featured("app -> x", {"app": {"e": ["x/f"], "d": ["x/f"]}, "x": {"f": []}}, {"app": ["d"]})
    yield tree(
        "an entry of a feature that is not enabled", declaring(unlisted, {"app": [f]}), BAN_F,
        lines("x v1.0.0", "└── x feature 'f' ", "    └── app feature 'd' ")
    )


def entries_of_several():
    """Entries of several crates, what stands above them, and crates that name themselves."""
    f = asks("x", features=["f"], default=False)
    tables = {
        "app": {"default": ["a/e", "b?/e"]}, "a": {"e": ["x/f"], "d": []}, "b": {"e": ["x/f"], "c": ["e"]},
        "x": {"f": []},
    }
    text = "app -> a, app -> b, a -> x, b -> x dev"
    declared = {
        "app": [asks("a"), asks("b", features=["c"])], "a": [dict(f, features=[])], "b": [dict(f, kind="dev")],
    }
    yield tree(
        "sources in their order: crates, then features by name and crate", declaring(featured(text, tables), declared),
        BAN_F, lines(
            "x v1.0.0", "└── x feature 'f' ", "    ├── (dev) b v1.0.0", "    │   ├── b feature 'c' ",
            "    │   │   └── app v0.1.0", "    │   │       └── app feature 'default' ", "    │   └── b feature 'e' ",
            "    │       ├── b feature 'c'  (*)", "    │       └── app feature 'default'  (*)",
            "    ├── a feature 'e' ", "    │   └── app feature 'default'  (*)", "    └── b feature 'e'  (*)"
        )
    )
    own = {"x": {"f": [], "g": ["x/f"], "h": ["f"]}}
    itself = declaring(featured("app -> x, x -> x dev", own), {"x": [dict(f, kind="dev", features=["h"])], "app": []})
    yield tree(
        "a crate that asks for its own feature", itself, BAN_F, lines(
            "x v1.0.0", "└── x feature 'f' ", "    ├── x feature 'g' ", "    └── x feature 'h' ",
            "        └── (dev) x v1.0.0", "            ├── app v0.1.0", "            ├── x feature 'f'  (*)",
            "            ├── x feature 'g'  (*)", "            └── x feature 'h'  (*)"
        )
    )
    twice = declaring(
        featured("app -> x, x -> x dev build", {"x": {"f": [], "g": ["f", "x/f", "x?/f"]}}),
        {"x": [dict(f, kind=kind, features=[]) for kind in ("dev", "build")], "app": []}
    )
    yield tree(
        "a crate that asks for its own feature in three ways", twice, BAN_F,
        lines("x v1.0.0", "└── x feature 'f' ", "    ├── x feature 'g' ", *(
            "    %s x feature 'g'  (*)" % mark for mark in ("├──", "└──")
        ))
    )
    back = declaring(
        featured("app -> x, x -> app dev", {"x": {"f": []}, "app": {"t": [], "default": ["x/f"]}}),
        {"app": [f], "x": [asks("app", features=["t"], kind="dev")]}
    )
    yield tree(
        "the crate of the heading is met as a node", back, BAN_F, lines(
            "x v1.0.0", "└── x feature 'f' ", "    ├── app v0.1.0", "    │   ├── app feature 'default' ",
            "    │   │   └── (dev) x v1.0.0", "    │   │       └── x feature 'f'  (*)",
            "    │   └── app feature 't' ", "    │       └── (dev) x v1.0.0 (*)", "    └── app feature 'default'  (*)"
        )
    )
    yield tree(
        "a circle through tests, with features, from the crate", back,
        "features = [{ crate = 'x', exact = true, allow = ['f', 'q'] }]", lines(
            "x v1.0.0", "└── x feature 'f' ", "    ├── app v0.1.0", "    │   ├── app feature 'default' ",
            "    │   │   └── (dev) x v1.0.0 (*)", "    │   └── app feature 't' ", "    │       └── (dev) x v1.0.0 (*)",
            "    └── app feature 'default'  (*)"
        )
    )
    yield tree("both kinds of tree in one report", back, BAN_X + "\n" + BAN_F, lines(
        "x v1.0.0", "└── app v0.1.0", "    └── (dev) x v1.0.0 (*)"
    ), lines(
        "x v1.0.0", "└── x feature 'f' ", "    ├── app v0.1.0", "    │   ├── app feature 'default' ",
        "    │   │   └── (dev) x v1.0.0", "    │   │       └── x feature 'f'  (*)",
        "    │   └── app feature 't' ", "    │       └── (dev) x v1.0.0 (*)", "    └── app feature 'default'  (*)"
    ))


# ---- names


def names():
    """Names of crates and features with characters of every kind."""
    for name in (
        'quote " and \\', "it's", "tab\tnewline\nreturn\rbell\x07null\x00delete\x7f", "\b\f\x1f",
        "ü \u2028 \U0001f980", "", '"graphs":[],"message":', '],"labels":[', "v1.0.0 (*)", "└── ", "/", "dep:f",
        "\ufeff", "\u202e",
    ):
        app, x, y = package("app", "0.1.0", source=None), package("x"), package(name)
        crates = metadata([(app, y), (y, x, ["dev"])], [app, y, x], [app])
        below = "x v1.0.0\n└── (dev) %s v1.0.0\n    └── app v0.1.0\n" % name
        yield tree("a crate named %r" % name, crates, BAN_X, below)
        of_x = featured("app -> x", {"x": {"f": [], name: ["f"]}})
        yield tree(
            "a feature named %r" % name, of_x, BAN_F, "x v1.0.0\n└── x feature 'f' \n    └── x feature '%s' \n" % name
        )
        entry = featured("app -> x", {"x": {"g": [name], name: []}})
        below = "    └── x feature 'g' \n" if "/" not in name and not name.startswith("dep:") else ""
        denied = "features = [{ name = 'x', deny = [%s] }]" % compact(name).replace("\x7f", "\\u007f")
        yield tree(
            "an entry %r of a feature" % name, entry, denied, "x v1.0.0\n└── x feature '%s' \n%s" % (name, below)
        )


# ---- depth


def depths():
    """Long chains, and ways that meet again and again."""
    chain = ["c%03d" % number for number in range(300)]
    text = ", ".join("%s -> %s" % pair for pair in zip(["app"] + chain, chain + ["x"]))
    above = ["x"] + chain[::-1] + ["app"]
    below = lambda depth: "    " * (depth - 1) + "└── " if depth else ""
    shown = lambda before, names: lines(*(
        "%s%s v%s" % (below(before + n), name, "0.1.0" if name == "app" else "1.0.0") for n, name in enumerate(names)
    ))
    yield tree("a chain of 300 crates", graph(text), BAN_X, shown(0, above))
    tables = {"x": {"f": []}}
    value = declaring(featured(text, tables), {chain[-1]: [asks("x", features=["f"])]})
    yield tree(
        "a chain of 300 crates, with features", value, BAN_F,
        lines("x v1.0.0", "└── x feature 'f' ") + shown(2, above[1:])
    )
    every = {name: {"f": []} for name in chain + ["x"]}
    asked = {name: [asks(needed, features=["f"])] for name, needed in zip(["app"] + chain, chain + ["x"])}
    yield tree("a chain of 300 crates, each with a feature", declaring(featured(text, every), asked), BAN_F)
    links = {"f%03d" % number: ["f%03d" % (number + 1)] for number in range(300)}
    yield tree(
        "a chain of 300 features", featured("app -> x", {"x": dict(links, f300=[])}),
        "features = [{ crate = 'x', deny = ['f300'] }]", lines("x v1.0.0", *(
            "    " * n + "└── x feature 'f%03d' " % (300 - n) for n in range(301)
        ))
    )
    for with_features in (False, True):
        yield tree(*layers(12, with_features))


def layers(count, with_features):
    """Layers of two crates, each of which needs both of the next layer, and both of the last one need `x`."""
    of_layer = lambda number: ["a%02d" % number, "b%02d" % number]
    edges = ["app -> %s" % name for name in of_layer(0)]
    edges += ["%s -> %s" % (a, b) for n in range(count - 1) for a in of_layer(n) for b in of_layer(n + 1)]
    text = ", ".join(edges + ["%s -> x" % name for name in of_layer(count - 1)])
    shown, below = [], ""
    for number in reversed(range(count)):
        shown.append(below + "├── a%02d v1.0.0" % number)
        below += "│   "
    shown.append(below + "└── app v0.1.0")
    for number in range(count):
        below = below[:-4]
        shown.append(below + "└── b%02d v1.0.0" % number)
        ends = ["app v0.1.0 (*)"] if number == 0 else ["%s v1.0.0 (*)" % name for name in of_layer(number - 1)]
        shown += [below + "    " + mark + end for mark, end in zip(["├── ", "└── "][-len(ends) :], ends)]
    if not with_features:
        return "%d layers" % count, graph(text), BAN_X, lines("x v1.0.0", *shown)
    declared = {name: [asks("x", features=["f"])] for name in of_layer(count - 1)}
    value = declaring(featured(text, {"x": {"f": []}}), declared)
    return "%d layers, with features" % count, value, BAN_F, lines(
        "x v1.0.0", "└── x feature 'f' ", *("    " + line for line in shown)
    )


# ---- by chance

NAMES = ["a", "b", "c", "x"]
FEATURES = ["f", "g", "default", "h"]
RENAMES = [None, None, None, "a", "r", "x"]
KINDS = [None, None, "dev", "build"]
TARGETS = [None, None, None, "t"]


def some_entry(draw):
    """An entry of a feature."""
    feature = FEATURES[draw(4)]
    named = ["a", "b", "r", "x", "c", "dep:a"][draw(6)]
    return [feature, feature, "%s/%s" % (named, feature), "%s?/%s" % (named, feature), "dep:%s" % named][draw(5)]


def some_declaration(draw, names):
    more = {"kind": KINDS[draw(4)], "target": TARGETS[draw(4)], "rename": RENAMES[draw(6)]}
    more = {name: value for name, value in more.items() if value is not None}
    features = [FEATURES[draw(4)] for _ in range(draw(3))]
    req = ["*", "1", "2", ">=1"][draw(4)]
    return asks(names[draw(len(names))], req, features=features, default=draw(2) == 0, **more)


def some_crates(draw, names, most):
    """Packages of some names and versions, with features and declarations, and ids in any order."""
    word = lambda: (names[draw(len(names))], ["1.0.0", "2.0.0", "1.1.0"][draw(3)])
    words = sorted({word() for _ in range(2 + draw(most))})
    crates = []
    for name, version in [("app", "0.1.0")] + words:
        table = {feature: [some_entry(draw) for _ in range(draw(4))] for feature in FEATURES if draw(3)}
        declared = [some_declaration(draw, names) for _ in range(draw(5))]
        id_ = "%s%s %s" % ("zMa"[draw(3)], name, version)
        own = {"id": id_, "manifest_path": "/w/Cargo.toml", "name": name, "version": version}
        crates.append(dict(own, dependencies=declared, features=table))
    return crates


def some_nodes(draw, crates):
    """What each needs, most often by what it declares, and which features are enabled."""
    for crate in crates:
        deps = []
        for other in crates[1:] + crates[:1] * (draw(4) == 0):
            speaking = [one for one in crate["dependencies"] if one["name"] == other["name"] and draw(4)]
            kinds = [{"kind": one.get("kind"), "target": one.get("target")} for one in speaking]
            kinds += [{"kind": KINDS[draw(4)], "target": TARGETS[draw(4)]} for _ in range(draw(5) // 3)]
            deps += [{"pkg": other["id"], "dep_kinds": kinds}] if kinds else []
        yield {"id": crate["id"], "deps": deps, "features": [feature for feature in FEATURES if draw(3)]}


def some_tree_policy(draw):
    some = lambda: "[%s]" % ", ".join("'%s'" % FEATURES[draw(4)] for _ in range(draw(3)))
    entry = lambda name: ["allow = %s" % some(), "deny = %s" % some(), "exact = true, allow = %s" % some()][draw(3)]
    entries = ["{ crate = '%s', %s }" % (name, entry(name)) for name in NAMES + ["app"] if draw(2)]
    bans = ["'%s'" % name for name in NAMES if draw(3) == 0]
    level = "external-default-features = 'warn'\n" if draw(4) == 0 else ""
    return "%sdeny = [%s]\nfeatures = [%s]" % (level, ", ".join(bans), ", ".join(entries))


def some_whole_graph(draw, names, most):
    crates = some_crates(draw, names, most)
    nodes = list(some_nodes(draw, crates))
    for other in crates[1:]:
        if draw(3):
            nodes[0]["deps"].append({"pkg": other["id"]})
    members = [crates[0]["id"]] + [one["id"] for one in crates[1:] if draw(6) == 0]
    return {"packages": crates, "resolve": {"nodes": nodes}, "workspace_members": members, "workspace_root": "/w"}


def by_chance():
    for seed in range(6000, 6200):
        draw = draws(seed)
        yield tree("by chance, %d" % seed, some_whole_graph(draw, NAMES, 5), some_tree_policy(draw))
    for seed in range(6200, 6220):
        draw = draws(seed)
        value = some_whole_graph(draw, NAMES + ["n%d" % number for number in range(16)], 40)
        yield tree("many crates by chance, %d" % seed, value, some_tree_policy(draw))


def tree_cases():
    parts = (rows, dependents, orders, findings, of_features, declarations, targets_and_versions, over_crates)
    for part in (*parts, entries_of_several, names, depths, by_chance):
        yield from part()
