"""Cases of what the standard library replaces: tables, policies that ask for one, and both by chance."""

from case_parts import BANS_FAILED as FAILED
from case_parts import (
    BY_APP, PASSED, REGISTRY, TABLE, WITH_X, WORDS, case, crate_tree, dead_line, draws, public_graph,
)
from case_parts import told as told_line
from readings.report import LIMIT
from replacement_cases import FIRST, PLAIN, SECOND, WORKED
from rule_cases import some_entries, some_graph

ASKS = "[bans]\nmultiple-versions = 'allow'\n[bans.std-replacements]\n"
SCOPES = {"none": [], "workspace": ["member"], "transitive": ["other"], "all": ["member", "other"]}


def std(name, text, policy="", by_hand=None, table=WORKED, rust=(), members="app", sources=(), **more):
    """A case over `[bans.std-replacements]` with these lines."""
    if by_hand is not None:
        more["by_hand"] = by_hand
    metadata = public_graph(text, members, rust, sources)
    return case(name, "%s%s\n" % (ASKS, policy), metadata, table=table, **more)


def replaced(names):
    return "; ".join("replaced-in-std %s" % name for name in names.split())


def since(minor, *names, writer=FIRST):
    """A table that says of each crate that `f` is `g` since a minor version."""
    return writer.table([writer.entry(name, groups=[(minor, [PLAIN])]) for name in sorted(names)])


def told(crate, note, severity="error"):
    """The line of a replaced crate that `app` needs, with these lines of its note."""
    message = "crate '%s = 1.0.0' is partially or fully replaced in std and/or core" % crate
    more = {"notes": ["".join(line + "\n" for line in note)], "graphs": [crate_tree(crate, BY_APP)]}
    return told_line("replaced-in-std", severity, message, **more)


F_BY_G = ["```diff", "- [x::f]()", "+ [g]()", "```", ""]

# ---- rows


def rows():
    yield std("a replaced crate", "app -> x", lines=told("x", ["## Stable", "### 1.70.0"] + F_BY_G) + FAILED)
    yield std("a replaced crate, without a table", "app -> x", table=None, by_hand="replacement 0")
    yield std("a replaced crate, with an empty table", "app -> x", table=b"", by_hand="replacement 0")
    for cut in range(len(WORKED)):
        by_hand = {"by_hand": "replacement 25"} if cut == 25 else {}
        yield std("a table cut to %d bytes" % cut, "app -> x", table=WORKED[:cut], **by_hand)
    no_item = WORKED[:18] + b"\0" + WORKED[19:]
    yield std("a table with a group of no item", "app -> x", table=no_item, by_hand="replacement 18")
    yield std("a table with two bytes more", "app -> x", table=WORKED + b"\xff\xff", by_hand="replaced-in-std x")
    yield std("a table of version 2", "app -> x", table=since(70, "x", writer=SECOND), by_hand="replaced-in-std x")
    yield std("an old dependent", "app -> x", rust={"app": "1.69"}, by_hand="")
    yield std(
        "an old dependent, whose version is not asked for", "app -> x", "ignore-rust-version = 'workspace'",
        "replaced-in-std x", rust={"app": "1.69"}
    )
    yield std("a crate of which nothing is said", "app -> y", by_hand="")
    yield std("a crate of which something is said, and others", "app -> x, app -> xx, app -> X", by_hand=replaced("x"))


def without_table():
    """Policies that ask for no table, whatever stands in its place, and those that stop before it is looked at."""
    garbage = b"\x00\xffno table"
    for name, policy in (
        ("an empty policy", ""), ("a policy without the key", "[bans]\n"),
        ("the scope of no crate", "[bans.std-replacements]\nscope = 'none'\n"),
        ("ignores and the scope of no crate", "[bans.std-replacements]\nscope = 'none'\nignore = ['x', 'y']\n"),
    ):
        for what, table in (("no table", None), ("bytes that are none", garbage), ("a table", WORKED)):
            yield case("%s, and %s" % (name, what), policy, public_graph("app -> x"), table=table, by_hand="")
    asks = "[bans.std-replacements]\n"
    for name, policy, text, by_hand in (
        ("a fault", asks + "more = 1\n", WITH_X, "unknown 24..28 bans.std-replacements.more"),
        ("a clash", "[bans]\ndeny = ['x']\nskip = ['x']\n" + asks, WITH_X, "2:10 3:10"),
        ("an absolute path", "[bans]\nbuild.bypass = [{ name = 'x', allow = [{ path = '/' }] }]\n" + asks, WITH_X, "2:50"),
        ("faulty metadata", ASKS, "{", "metadata"),
    ):
        yield case("%s before a table that is none" % name, policy, text, table=garbage, by_hand=by_hand)
        yield case("%s before a table that is not there" % name, policy, text, by_hand=by_hand)
    yield case("a table is asked for, whatever the graph", ASKS, public_graph("app"), by_hand="replacement 0")


def reading():
    """Reading the three texts in their order."""
    no_text = {"hex": "ff"}
    fails = lambda name, *paths, policy=ASKS, text=WITH_X, **more: case(
        name, policy, text, table=WORKED, fail=list(paths), by_hand="read", **more
    )
    policy, metadata = WORDS[1:]
    yield fails("the table cannot be read", TABLE)
    yield fails("the table cannot be read, and the policy asks for none", TABLE, policy="")
    yield fails("the table cannot be read, and the policy is no text", TABLE, policy=no_text)
    yield fails("the table cannot be read, nor the metadata", TABLE, metadata)
    yield fails("the table cannot be read, nor the policy", TABLE, policy)
    yield dict(case("a table that is not there", ASKS, WITH_X, by_hand="read"), words=WORDS + [TABLE])
    yield case("a table that is not named cannot be read", "", WITH_X, fail=[TABLE], by_hand="")
    for piece in (1, 7):
        yield std("a table in pieces of %d" % piece, "app -> x", piece=piece, by_hand="replaced-in-std x")
    one = dict(case("one path for metadata and table", ASKS, WITH_X), words=WORDS + WORDS[2:])
    yield dict(one, by_hand="replacement 0")


def long_tables():
    """Tables of 2^28 bytes, and of one byte less."""
    padded = lambda size: [{"hex": WORKED.hex()}] + zeros(size - len(WORKED))
    zeros = lambda size: [{"repeat": "0" * 4096, "times": size // 4096}, "0" * (size % 4096)]
    more = {"piece": 1 << 24}
    yield case("a long table, and a policy that is no text", {"hex": "ff"}, "{", padded(LIMIT), by_hand="long", **more)
    yield case("a long table, and a policy that asks for none", "", WITH_X, padded(LIMIT), by_hand="long", **more)
    yield case("a table of a byte less", ASKS, WITH_X, padded(LIMIT - 1), by_hand="replaced-in-std x", **more)
    spaces = [{"repeat": " " * 4096, "times": LIMIT // 4096}]
    yield case("long metadata, and no table", "", spaces, WORKED, fail=[TABLE], by_hand="long", **more)


# ---- scopes and versions


def scopes():
    """Each scope with each scope of dependents whose versions are not asked for: `x` is needed by a member alone, `z`
    by another crate alone, `w` by both, and both are too old."""
    text, table = "app -> x, app -> y, y -> z, app -> w, y -> w", since(70, "w", "x", "z")
    needed_by = {"w": ["member", "other"], "x": ["member"], "z": ["other"]}
    for scope, asked in SCOPES.items():
        for free, passing in SCOPES.items():
            is_replaced = lambda kinds: any(kind in asked and kind in passing for kind in kinds)
            by_hand = replaced(" ".join(name for name, kinds in needed_by.items() if is_replaced(kinds)))
            yield std(
                "scope %s, versions not asked for: %s" % (scope, free), text,
                "scope = '%s'\nignore-rust-version = '%s'" % (scope, free), by_hand, table,
                rust={"app": "1.69", "y": "1.69"}
            )
        for old, passing in (("app", "other"), ("y", "member"), ("app y", ""), ("", "member other")):
            is_replaced = lambda kinds: any(kind in asked and kind in passing.split() for kind in kinds)
            by_hand = replaced(" ".join(name for name, kinds in needed_by.items() if is_replaced(kinds)))
            rust = {name: "1.69" for name in old.split()}
            yield std(
                "scope %s, too old: %s" % (scope, old or "none"), text, "scope = '%s'" % scope, by_hand, table,
                rust=rust
            )
    yield std("the scope where none is written", text, "", replaced("w x"), table)
    yield std("members that need each other's crate", "app -> lib, lib -> x", "", replaced("x"), members="app lib")


def versions():
    """Versions of Rust of the dependent and of the policy, each missing or there."""
    for own, own_minor in (
        (None, None), ("1.69", 69), ("1.70", 70), ("1.71.2", 71), ("1.070", 70), ("1", 0), ("2.0", 0)
    ):
        for other, minor in ((None, None), ("1.69", 69), ("1.70.0", 70), ("0.71", 71)):
            counting = minor if own_minor is None else own_minor
            yield std(
                "a dependent for %s, a policy for %s" % (own, other), "app -> x",
                "rust-version = '%s'" % other if other else "",
                replaced("x" if counting is None or counting >= 70 else ""), rust={"app": own} if own else {}
            )
    several = "app -> x, app -> y, y -> x"
    for app, y, scope, by_hand in (
        ("1.69", "1.70", "all", "x"), ("1.70", "1.69", "all", "x"), ("1.69", "1.69", "all", ""),
        ("1.69", "1.70", "workspace", ""), ("1.69", "1.70", "transitive", "x"), ("1.70", "1.69", "transitive", ""),
    ):
        yield std(
            "two dependents, for %s and %s, scope %s" % (app, y, scope), several, "scope = '%s'" % scope,
            replaced(by_hand), rust={"app": app, "y": y}
        )
    no_stable = FIRST.table([FIRST.entry("x", unstable=[PLAIN])])
    yield std("nothing stable, and no version", "app -> x", "", "replaced-in-std x", no_stable)
    yield std("nothing stable, and a new version", "app -> x", "", "", no_stable, rust={"app": "1.999"})
    yield std("nothing stable, and the policy's version", "app -> x", "rust-version = '1.999'", "", no_stable)
    groups = FIRST.table([FIRST.entry("x", groups=[(70, [PLAIN]), (56, [PLAIN])])])
    yield std("two groups, the second of them stable", "app -> x", "", replaced("x"), groups, rust={"app": "1.60"})
    yield std("two groups, none of them stable", "app -> x", "", "", groups, rust={"app": "1.55"})
    yield std("a minor version of 255", "app -> x", "", "", since(255, "x"), rust={"app": "1.254"})
    yield std("a minor version of 0", "app -> x", "", replaced("x"), since(0, "x"), rust={"app": "1.0"})


def crates():
    """Where crates come from, and who needs them."""
    for name, source, by_hand in (
        ("another registry", "registry+https://example.com/index", ""),
        ("sparse crates.io", "sparse+https://index.crates.io/", "x"),
        ("another sparse registry", "sparse+https://example.com/", ""),
        ("git", "git+https://example.com/x.git#1234", ""),
        ("crates.io in another spelling", REGISTRY + "/", ""), ("no registry", "", ""),
    ):
        yield std("a crate from %s" % name, "app -> x", "", replaced(by_hand), sources={"x": source})
    for kind in ("dev", "build", "normal dev"):
        yield std("a crate by an edge of kind %s" % kind, "app -> x %s" % kind, "", replaced("x"))
    yield std("a member from crates.io that nobody needs", "x", "", "", members="x", sources={"x": REGISTRY})
    yield std(
        "a member from crates.io that a member needs", "app -> x", "", replaced("x"), members="app x",
        sources={"x": REGISTRY}
    )
    yield std("a crate that needs itself", "app -> x, x -> x dev", "scope = 'transitive'", replaced("x"))
    yield std("a crate that two steps lead to", "app -> y, y -> x", "", "")
    yield std("two versions", "app -> x, app -> x@2.0.0", "", replaced("x x@2.0.0"))
    yield std("two versions, one needed by a member", "app -> x, app -> y, y -> x@2.0.0", "", replaced("x"))
    yield std("crates in order", "app -> b, app -> a, app -> c", "", replaced("a b c"), since(70, "a", "b", "c"))
    for level, severity in (("allow", "note"), ("warn", "warning"), ("deny", "error")):
        line = told("x", ["## Stable", "### 1.70.0"] + F_BY_G, severity)
        verdict = FAILED if severity == "error" else PASSED
        yield std("a replaced crate at level %s" % level, "app -> x", "level = '%s'" % level, lines=line + verdict)


# ---- entries that pass crates over


def ignores():
    unmatched = lambda *names: ["unmatched-replacement-ignore %s" % name for name in names]
    both = "app -> x, app -> x@2.0.0"
    for entries, text, findings in (
        ("'x'", "app -> x", []), ("'x', 'x@1'", "app -> x", unmatched("x@1")),
        ("'x@1', 'x'", "app -> x", unmatched("x")), ("'x@2', 'x'", "app -> x", unmatched("x@2")),
        ("'x', 'x'", "app -> x", unmatched("x")), ("'x@1', 'x'", both, []),
        ("'x@1'", both, ["replaced-in-std x@2.0.0"]),
        ("'x@2', 'x@1', 'x'", both, unmatched("x")), ("'z', 'y', 'x'", "app -> x", unmatched("z", "y")),
        ("'y'", "app -> x, app -> y", unmatched("y") + ["replaced-in-std x"]),
        ("'app'", "app -> x", unmatched("app") + ["replaced-in-std x"]),
        ("{ name = 'x', version = '1', reason = 'r' }", "app -> x", []),
        ("'x@=1.0.0', 'x@<2'", both, unmatched("x@<2") + ["replaced-in-std x@2.0.0"]),
    ):
        yield std("ignored: %s of %s" % (entries, text), text, "ignore = [%s]" % entries, "; ".join(findings))
    yield std(
        "an ignore of a crate that is not replaced yet", "app -> x", "ignore = ['x']", "; ".join(unmatched("x")),
        rust={"app": "1.69"}
    )
    yield std(
        "ignores, and a table that says nothing of them", "app -> x", "ignore = ['x']", "; ".join(unmatched("x")),
        since(70, "y")
    )
    yield std("ignores with the scope of no crate", "app -> x", "scope = 'none'\nignore = ['y']", "")
    reason, name = (5, 39, "ignore reason", "ours"), (5, 22, "unmatched ignore configuration", "y")
    message = "std replacement ignore 'y = ^1' was not encountered"
    yield std(
        "the line of an unmatched ignore", "app",
        'level = "warn"\nignore = [{ crate = "y@^1", reason = "ours" }]',
        lines=told_line("unmatched-replacement-ignore", "warning", message, name, reason) +
        dead_line("replacement-ignore", 95, 96) + PASSED
    )
    yield case(
        "findings of all rules in their order",
        "[bans]\nmultiple-versions = 'deny'\ndeny = [{ name = 'y', wrappers = ['app', 'q'] }]\n"
        "skip = ['n']\nskip-tree = ['m']\n[bans.std-replacements]\nignore = ['p', 'x@2', 'o']\n",
        public_graph("app -> x, app -> x@2.0.0, app -> y, app -> z"), table=since(70, "x", "z"),
        by_hand="allowed-by-wrapper y; duplicate x; unmatched-skip n; unmatched-skip-root; unused-wrapper; "
        "unmatched-replacement-ignore p; unmatched-replacement-ignore o; replaced-in-std x; replaced-in-std z"
    )


# ---- notes


def noted(name, entry, note, crate="x"):
    """The whole line of a crate of which a table says this."""
    lines = told(crate, note) + FAILED
    return std("the note of %s" % name, "app -> %s" % crate, table=FIRST.table([entry]), lines=lines)


def notes():
    """Items of every kind, in one note."""
    stable = ("f", "https://docs.rs/x/f", "std::g", "https://doc.rust-lang.org/g", "")
    remarked = ("h", "", "core::h", "u", "not quite")
    f = ["```diff", "- [x::f](https://docs.rs/x/f)", "+ [std::g](https://doc.rust-lang.org/g)", "```", ""]
    h = ["```diff", "- [x::h]()", "+ [core::h](u)", "```", "", "  not quite", ""]
    entry = lambda **parts: FIRST.entry("x", **parts)
    yield noted("a stable item", entry(groups=[(70, [stable])]), ["## Stable", "### 1.70.0"] + f)
    yield noted("items of one version", entry(groups=[(70, [stable, remarked])]), ["## Stable", "### 1.70.0"] + f + h)
    yield noted(
        "three groups, two of one version", entry(groups=[(70, [stable]), (56, [remarked]), (70, [stable])]),
        ["## Stable", "### 1.70.0"] + f + ["### 1.56.0"] + h + ["### 1.70.0"] + f
    )
    yield noted(
        "two groups of one version", entry(groups=[(70, [stable]), (70, [remarked])]),
        ["## Stable", "### 1.70.0"] + f + h
    )
    yield noted(
        "the minor version 0", entry(groups=[(0, [stable]), (1, [remarked])]), ["## Stable"] + f + ["### 1.1.0"] + h
    )
    yield noted("no item", entry(), ["## Stable"])
    yield noted("unstable items", entry(unstable=[stable, remarked]), ["## Stable", "## Unstable"] + f + h)
    yield noted(
        "unavailable items", entry(unavailable=[("a", "https://a"), ("b", "")]),
        ["## Stable", "## Unavailable", "  - x::a - https://a", "  - x::b - "]
    )
    yield noted(
        "items of every kind", entry(
            groups=[(70, [stable, remarked]), (255, [stable])], unstable=[remarked, stable],
            unavailable=[("a", "https://a"), ("b", "https://b")]
        ), ["## Stable", "### 1.70.0"] + f + h + ["### 1.255.0"] + f + ["## Unstable"] + h + f
        + ["## Unavailable", "  - x::a - https://a", "  - x::b - https://b"]
    )
    yield noted(
        "a crate with dashes", FIRST.entry("a-b-c", groups=[(70, [PLAIN])], unavailable=[("d-e", "u-v")]),
        ["## Stable", "### 1.70.0", "```diff", "- [a_b_c::f]()", "+ [g]()", "```", ""]
        + ["## Unavailable", "  - a-b-c::d-e - u-v"], crate="a-b-c"
    )
    odd = "two\nlines, \"quoted\", a\ttab, \x01, \\ and é€🦀"
    yield noted(
        "odd texts", entry(groups=[(7, [("", odd, "", "", odd)])]),
        ["## Stable", "### 1.7.0", "```diff", "- [x::](%s)" % odd, "+ []()", "```", "", "  " + odd, ""]
    )
    names = ["i%d" % number for number in range(255)]
    yield noted(
        "as many items as there may be", entry(unavailable=[(name, "") for name in names]),
        ["## Stable", "## Unavailable"] + ["  - x::%s - " % name for name in names]
    )
    long = "n" * 0xFFFF
    table = SECOND.table([SECOND.entry("x", groups=[(70, [("f", "", "g", "", long)])])])
    line = told("x", ["## Stable", "### 1.70.0"] + F_BY_G + ["  " + long, ""])
    yield std("the note of a long remark", "app -> x", table=table, lines=line + FAILED)


# ---- many, and by chance


def many():
    names = ["n%03d" % number for number in range(500)]
    text, table = ", ".join("app -> %s" % name for name in names), since(70, *names)
    yield std("500 replaced crates", text, "", replaced(" ".join(names)), table)
    entries = ", ".join("'%s'" % name for name in names[::2] + names[::3])
    yield std("500 replaced crates and ignores of every second and third", text, "ignore = [%s]" % entries, table=table)


TEXTS = ["f", "", "std::g", "https://docs.rs", "é", "a\nb"]


def some_table(draw):
    """A table of one or two of the names that graphs by chance have, and of others."""
    text = lambda: TEXTS[draw(len(TEXTS))]
    replacement = lambda: [text() for _ in range(5)]
    group = lambda: (60 + draw(6), [replacement() for _ in range(1 + draw(2))])
    entry = lambda name: FIRST.entry(
        name, groups=[group() for _ in range(draw(3))], unstable=[replacement() for _ in range(draw(2))],
        unavailable=[(text(), text()) for _ in range(draw(3))]
    )
    return FIRST.table([entry(name) for name in ("a", "b", "c", "x") if draw(3)] + [entry("z")])


def some_std_policy(draw):
    scopes, version = list(SCOPES), lambda: "1.%d" % (60 + draw(6))
    reason = lambda: ["reason = 'r'"] if draw(3) == 0 else []
    lines = []
    for chance, key, value in (
        (2, "scope", lambda: "'%s'" % scopes[draw(4)]),
        (2, "level", lambda: "'%s'" % ("allow", "warn", "deny")[draw(3)]),
        (2, "rust-version", lambda: "'%s'" % version()), (2, "ignore-rust-version", lambda: "'%s'" % scopes[draw(4)]),
        (1, "ignore", lambda: some_entries(draw, reason)),
    ):
        if draw(chance) == 0:
            lines.append("%s = %s" % (key, value()))
    return "\n".join(lines)


def by_chance():
    for seed in range(3000, 3200):
        draw = draws(seed)
        text, members = some_graph(draw)
        rust = {name: "1.%d" % (60 + draw(6)) for name in ("app", "a", "b", "x") if draw(2)}
        name = "replacements by chance, %d" % seed
        yield std(name, text, some_std_policy(draw), table=some_table(draw), rust=rust, members=members)


def std_cases():
    for part in (rows, without_table, reading, scopes, versions, crates, ignores, notes, many, by_chance):
        yield from part()
