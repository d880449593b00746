"""Cases of policies: what each key takes, how an entry is written, what contradicts itself, and what stops a run."""

from case_parts import (
    ALONE, PASSED, TREES_OF_APP, TREES_OF_X, TWO_X, WITH_X, built_graph, case, featured, graph, in_package, licensed,
    public_graph, told,
)
from readings.report import compact
from replacement_cases import WORKED

BOTH_X = compact(graph("app -> x, app -> x@2.0.0"))
PUBLIC_X = compact(public_graph("app -> x, app -> x@2.0.0, app -> y", rust={"app": "1.69"}))
OF_X = {"a": [], "default": ["a"], "t": []}
FEATURED_X = compact(featured("app -> x", {"app": {"default": []}, "x": OF_X}, {"x": ["a", "default"]}))
BUILT_X = compact(built_graph(
    "app -> x, app -> x@2.0.0", {"x": {"a": [], "default": []}}, {"x": ["default"]}, x="custom-build"
))
FILES_OF_X = {
    path: text for word in ("x", "x@2.0.0")
    for path, text in in_package(word, {"a": "#!/bin/sh\n# a script\n", "b.t": b"!<arch>\n" * 2, "p": ""}).items()
}
SOME_LICENCES = {"app": "MIT", "x": "Apache-2.0", "y": "Zlib"}
LICENSED_X = compact(licensed("app -> x, app -> y dev", SOME_LICENCES, {"app": [], "x": ["a"]}))

# ---- keys

# A value of each kind that no key takes by another reading.
OF_EACH_KIND = {
    "text": '"t"', "integer": "7", "float": "1.5", "boolean": "true", "date": "1979-05-27", "array": "[]",
    "table": "{}",
}
LEVELS = ("text", ['"allow"', '"warn"', '"deny"'], ['"forbid"', '""', '"Deny"'])
FLAG = ("boolean", ["true", "false"], [])
TEXT = ("text", ['"why"', '""', "'''\nwhy\n'''"], [])
# Where no day is handed in, as here; the waivers of waiver_cases have one.
DAY = ("text", ['"2026-01-31"', "'2024-02-29'", '"0000-01-01"'], ['"2025-02-29"', '"2026-1-31"', '""'])
TEXTS = ("array", ["[]", '["a"]', '["a", "b",]'], [])
SCOPES = ("text", ['"all"', '"workspace"', '"transitive"', '"none"'], ['"None"', '"members"'])
UNREAD = ("any", [], [])
LICENCES = (
    "array", ["[]", '["MIT"]', '["Apache-2.0", "GPL-2.0+ WITH Classpath-exception-2.0", \'MIT\', " Zlib\t"]'],
    ['[""]', '["MIT OR Zlib"]', '["(MIT)", "GPL-2.0 WITH", "MIT", "AND", "A/B", "MIT,"]']
)
CHECKSUM = (
    "text",
    ['"%s"' % ("aB3" * 21 + "f")],
    ['"%s"' % ("a" * 63), '"%s"' % ("a" * 65), '"%s"' % ("g" * 64), '"%s"' % ("ü" * 32), '""'],
)
RUST_VERSION = (
    "text",
    ['"1.70"', '"1.70.0"', '"0.0"', '"01.070.00"', '"4294967295.0.4294967295"'],
    [
        '"1"', '"1.70.0.1"', '"1.+7"', '"1.70.x"', '"4294967296.0"', '""', '"1.70-a"', '" 1.70"', '"1."', '".1"',
        '"1..2"'
    ],
)

# How a table is written around one of its keys, and what each key takes: its kind, values, and others of that kind.
TABLES = {
    "bans": ("[bans]\n%s\n", {
        "multiple-versions": LEVELS, "multiple-versions-include-dev": FLAG,
        "highlight": ("text", ['"simplest-path"', '"lowest-version"', '"all"'], ['"simplest"', '"All"']),
        "deny": ("array", ["[]"], []), "allow": ("array", ["[]"], []), "features": ("array", ["[]"], []),
        "skip": ("array", ["[]"], []), "skip-tree": ("array", ["[]"], []), "allow-workspace": FLAG,
        "external-default-features": LEVELS, "workspace-default-features": LEVELS, "wildcards": LEVELS,
        "allow-wildcard-paths": FLAG, "allow-build-scripts": ("array", ["[]", '["x"]'], []),
        "build": ("table", ["{}"], []), "workspace-dependencies": ("table", ["{}"], []),
        "std-replacements": ("table", ["{}"], []),
    }),
    "deny entry": ('[bans]\ndeny = [{ crate = "x", %s }]\n', {
        "wrappers": TEXTS, "deny-multiple-versions": FLAG, "reason": TEXT, "use-instead": TEXT,
    }),
    "allow entry": ('[bans]\nallow = [{ crate = "app" }, { crate = "x", %s }]\n', {"reason": TEXT}),
    "skip entry": ('[bans]\nskip = [{ crate = "x", %s }]\n', {"reason": TEXT, "expires": DAY}),
    "skip-tree entry": ('[bans]\nskip-tree = [{ crate = "x", %s }]\n', {
        "depth": (
            "integer", ["0", "1", "4294967295", "0x10", "1_0", "+3"], ["-1", "4294967296", "-9223372036854775808"]
        ),
        "reason": TEXT, "expires": DAY,
    }),
    "features entry": (
        '[bans]\nfeatures = [{ crate = "x", %s }]\n', {"allow": TEXTS, "deny": TEXTS, "exact": FLAG, "reason": TEXT}
    ),
    "build": ("[bans.build]\n%s\n", {
        "allow-build-scripts": ("array", ["[]", '["x@1"]'], []), "executables": LEVELS, "interpreted": LEVELS,
        "script-extensions": TEXTS,
        "bypass": ("array", ["[]"], []), "enable-builtin-globs": FLAG, "include-dependencies": FLAG,
        "include-workspace": FLAG, "include-archives": FLAG,
    }),
    "bypass": ('[bans.build]\nbypass = [{ crate = "x", %s }]\n', {
        "build-script": CHECKSUM, "required-features": TEXTS, "allow-globs": TEXTS, "allow": ("array", ["[]"], []),
        "expires": DAY,
    }),
    "path of a bypass": (
        '[bans.build]\nbypass = [{ crate = "x", allow = [{ path = "p", %s }] }]\n', {"checksum": CHECKSUM}
    ),
    "workspace-dependencies": (
        "[bans.workspace-dependencies]\n%s\n",
        {"duplicates": LEVELS, "include-path-dependencies": FLAG, "unused": LEVELS}
    ),
    "std-replacements": ("[bans.std-replacements]\n%s\n", {
        "scope": SCOPES, "level": LEVELS, "rust-version": RUST_VERSION,
        "ignore": ("array", ["[]", '["x", { crate = "y@1", reason = "r" }]'], []),
        "ignore-rust-version": SCOPES,
    }),
    "licenses": ("[licenses]\n%s\n", {
        "version": UNREAD, "confidence-threshold": UNREAD, "allow": LICENCES, "exceptions": ("array", ["[]"], []),
        "private": ("table", ["{}", "{ ignore = true }"], []), "include-dev": FLAG, "unused-allowed-license": LEVELS,
    }),
    "licence exception": ('[licenses]\nexceptions = [{ crate = "x", %s }]\n', {"allow": LICENCES, "expires": DAY}),
    "ignore entry": (
        "[bans.std-replacements]\nignore = [{ crate = 'x', %s }]\n", {"reason": TEXT, "expires": DAY}
    ),
    "private licences": (
        "[licenses]\nallow = ['MIT']\n[licenses.private]\nregistries = ['a']\n%s\n", {"ignore": FLAG}
    ),
    "private registries": ("[licenses.private]\nignore = true\n%s\n", {"registries": TEXTS}),
}


# What the tables are tried on that the rules read by now.
JUDGED = dict.fromkeys(("bans", "deny entry", "allow entry", "skip entry", "skip-tree entry"), BOTH_X)
JUDGED.update(dict.fromkeys(("licenses", "licence exception", "private licences", "private registries"), LICENSED_X))
JUDGED.update({"features entry": FEATURED_X, "std-replacements": PUBLIC_X, "ignore entry": PUBLIC_X})
OF_BUILDS = ("build", "bypass", "path of a bypass")
JUDGED.update(dict.fromkeys(OF_BUILDS, BUILT_X))
OF_STD = ("std-replacements", "ignore entry")
MORE = {**dict.fromkeys(OF_STD, {"table": WORKED}), **dict.fromkeys(OF_BUILDS, {"files": FILES_OF_X})}


def values_of(kind, good, bad):
    return good + bad + [value for other, value in OF_EACH_KIND.items() if other != kind]


def each_key():
    """Each key with each value that it takes, with others of its kind, and with a value of each other kind."""
    for where, (written, keys) in TABLES.items():
        metadata, more = JUDGED.get(where, ALONE), MORE.get(where, {})
        for key, takes in keys.items():
            for value in values_of(*takes):
                short = value if len(value) < 40 else "%s.. %d" % (value[:10], len(value))
                yield case("%s: %s = %s" % (where, key, short), written % ("%s = %s" % (key, value)), metadata, **more)
        yield case("%s: an unknown key" % where, written % "clarify = 1", metadata)
        yield case("%s: an unknown key in quotes, with a dot" % where, written % "'a.b' = [1]", metadata)
        yield case("%s: a key in another case" % where, written % (next(iter(keys)).upper() + " = 1"), metadata)


def elements():
    """Arrays whose elements are of another kind."""
    for where, key, more in (
        ("deny entry", "wrappers", "[%s]"), ("features entry", "deny", "[%s]"), ("build", "script-extensions", "[%s]"),
        ("bypass", "allow-globs", "[%s]"),
        ("bans", "deny", "[%s]"), ("bans", "allow", "[%s]"), ("bans", "features", "[%s]"), ("bans", "skip", "[%s]"),
        ("bans", "skip-tree", "[%s]"),
        ("bans", "allow-build-scripts", "[%s]"), ("build", "bypass", "[%s]"), ("bypass", "allow", "[%s]"),
        ("std-replacements", "ignore", "[%s]"), ("licenses", "allow", "[%s]"), ("licenses", "exceptions", "[%s]"),
        ("licence exception", "allow", "[%s]"), ("private registries", "registries", "[%s]"),
    ):
        written = TABLES[where][0] % ("%s = %s" % (key, more))
        yield case("%s: %s of each kind" % (where, key), written % ", ".join(OF_EACH_KIND.values()))
        yield case("%s: %s, one of several of another kind" % (where, key), written % '"a", [[]], "b"')
    yield case(
        "a bypass's path without its text",
        '[bans.build]\nbypass = [{ crate = "x", allow = [{}, { checksum = "" }, { path = 1 }] }]\n',
        by_hand="missing 47..49 bans.build.bypass.0.allow.0.path; "
        "missing 51..68 bans.build.bypass.0.allow.1.path; "
        "unreadable 65..65 bans.build.bypass.0.allow.1.checksum; "
        "wrong-kind 79..80 bans.build.bypass.0.allow.2.path"
    )


# ---- tables and their spans


def roots():
    """What stands at the root, and how `[bans]` may be written."""
    for text in (
        "", "\n", "# nothing\n", "a = 1\n", "[graph]\ntargets = 5\n", "[advisories]\nignore = true\n[sources]\n",
        "bans = {}", "bans.deny = []", "[bans]", "[ bans ] # here\r\n",
        '["bans"]\n', "['bans']\ndeny = ['x']\n", "bans = { deny = ['x'] }", "bans.deny = ['x']",
        '"b\\u0061ns".deny = ["x"]', "[bans]\n[other]\ndeny = 5\n", "Bans = 5", "[[banss]]\n",
        "deny = ['x']", "[bans]\n\n\n\tdeny\t=\t[\n\t'x'\n,\n]\n", '[bans]\r\ndeny = [\r\n  "x", # why\r\n]\r\n',
        "[bans]\ndeny = [ # one\n  # two\n 'x' , ]", "[bans]\nskip = []\n\n[graph]\nall = 1\n\n[output]\n",
        "bans = 5", "bans = []", "bans = 'x'", "[[bans]]\n", "[[bans]]\ndeny = 5\n[[bans]]\n", "bans = 1.5 # x",
        "bans = true", "bans = 1979-05-27",
        "[bans.deny]\n", "[bans.deny.x]\n", "[[bans.skip]]\nname = 'x'\n[[bans.skip]]\nname = 'y'\n",
        "[[bans.deny]]\n[[bans.deny]]\ncrate = 'x'\nreason = 'r'\n",
        "[[bans.deny]]\nname = 'x'\nwrappers = ['app']\n[[bans.deny]]\nnme = 'x'\n", "[[bans.deny]]\nx.y = 1\n",
        "[bans.'']\n", "[bans]\n'' = 1\n\"a b\" = 2\n", "[bans]\nclarify.more.x = 1\n",
        "[bans.clarify.more]\nx = 1\n[bans.clarify]\n", "[bans]\n\"cl\\u0061rify\" = 1\n",
        "[bans]\n\"é\" = 1\n'ü' = 2\n", "[bans.std-replacements.ignore]\n", "[bans.build.bypass.x]\n[bans]\n",
        "bans.skip-tree = [{ name = 'x', depth.of = 1 }]", "[bans]\ndeny = [{ crate.x = 1 }]\n",
        "[bans]\ndeny = [{ wrappers.x = 1, crate = 'x' }]\n", "[[bans.deny]]\ncrate = 'x'\n[[bans.deny.wrappers]]\n",
        "[[bans.deny]]\ncrate = 'x'\n[[bans.deny.wrappers]]\n[[bans.deny.wrappers]]\n",
        "[[bans.skip]]\n[bans.skip.reason]\n", "[[bans.skip]]\n[bans.skip.name]\n[[bans.skip]]\n[bans.skip.crate]\n",
    ):
        yield case("policy %s" % compact(text), text, TWO_X)


# ---- specs

SPECS = [
    '"x"', '"x@1"', '"x:1"', '"x@=1.0.0"', '"x:=2.0.0"', '"x@ 1"', '"x@1 "', '"x@*"', '"x@>=1, <2"', '"x@>=1,<2.5"',
    '"x@^2"', '"x:~1.0"', '"x@1.*"', '"x@1.*.*"', '"x@2.x"', '"x:1.0.*"', '"x@X"',
    '"x@> 1"', '"x@>=0.0.0-0"', '"x@=1.0.0+meta"', '"x@1.0.0-a"', '"x:y@1"', '" x"', '"x "', '"X"', '"ü"', '"x-y"',
    '"x_y@1"', '"x.y"', '"x y@1"', '"x/y"', '"x\\t@1"', '"x@18446744073709551615"',
    '"x@%s"' % ", ".join(["1"] * 32), '"x@%s"' % ", ".join(["1"] * 33),
    '""', '"@"', '":"', '"@1"', '":1"', '"x@"', '"x:"', '"x@y"', '"x:1@"', '"x@1:2"', '"x:1:2"', '"x@1@2"', '"x@@1"',
    '"x::1"', '"x@1,"', '"x@^"', '"x@01"', '"x@1.2.3.4"', '"x@1 2"', '"x@==1"', '"x@v1"', '"x@1.*.2"', '"x@*,1"',
    '"x@1, *"', '"x@\\t1"', '"x@1\\n"', '"x@ü"', '"x@1.0.0-"', '"x@1.0.0-01"', '"x@18446744073709551616"',
    '"x@1.18446744073709551616"', '"x@latest"', '"x@ "', '"@x@1"',
    '{ crate = "x" }', '{ crate = "x@1" }', '{ crate = "x:=2.0.0" }', '{ name = "x" }', '{ name = "x", version = "1" }',
    '{ version = "=2.0.0", name = "x" }', '{ name = "x", version = " 1" }', '{ name = "x", version = "*" }',
    '{ name = "x@1" }', '{ name = "x:1", version = "1" }', '{ name = " " }', '{ name = "ü" }',
    '{}', '{ version = "1" }', '{ version = "q" }', '{ version = 1 }', '{ crate = "x", name = "x" }',
    '{ crate = "x", version = "1" }', '{ crate = "x", name = 5, version = "q" }', '{ crate = 5, name = "x" }',
    '{ crate = "", version = "1" }',
    '{ crate = "x@", name = "x" }', '{ name = "" }', '{ name = "x", version = "" }', '{ name = "x", version = 1 }',
    '{ name = 1, version = "q" }', '{ name = "", version = "q" }', '{ name = true }', '{ crate = "" }',
    '{ crate = "@1" }',
    '{ Name = "x" }', '{ name = "x", Version = "1" }', '{ crates = "x" }',
    '{ name = "x", crate-name = 1, clarify = 2 }', '5', 'true', '1.5', '1979-05-27', '[]', '["x"]', '[{ name = "x" }]',
]
# Enough of these to see that a list reads its entries as the others do.
FEW_SPECS = [
    '"x"', '"x@2"', '"x:q"', '""', '{ crate = "x@=1.0.0" }', '{ name = "x", version = "2" }', '{}',
    '{ crate = "x", name = "x" }', '{ name = "x", reason = "r" }', '{ name = "x", reason = 5 }',
    '{ name = "x", depth = 1 }', '5', '["x"]'
]


def entries():
    """Each form of a spec, in each list."""
    for spec in SPECS:
        short = spec if len(spec) < 70 else spec[:12] + ".. %d" % len(spec)
        yield case("a skip of %s" % short, "[bans]\nskip = [%s]\n" % spec, BOTH_X)
        yield case("a ban of %s" % short, "[bans]\nmultiple-versions = 'allow'\ndeny = [%s]\n" % spec, BOTH_X)
    for what, metadata, written in (
        ("an allowance of", BOTH_X, "[bans]\nmultiple-versions = 'allow'\nallow = [\"app\", %s]\n"),
        ("a skipped tree of", BOTH_X, "[bans]\nskip-tree = [%s]\n"),
        ("features of", FEATURED_X, "[bans]\nfeatures = [%s]\n"),
        ("a build script of", BUILT_X, "[bans]\nallow-build-scripts = [%s]\n"),
        ("a build script, in its table, of", BUILT_X, "[bans.build]\nallow-build-scripts = [%s]\n"),
        ("a bypass of", BUILT_X, "[bans.build]\nbypass = [%s]\n"),
        ("a licence exception without a list, of", LICENSED_X, "[licenses]\nexceptions = [%s]\n"),
    ):
        for spec in FEW_SPECS:
            yield case("%s %s" % (what, spec), written % spec, metadata)
    for spec in (spec for spec in FEW_SPECS if spec.startswith("{ ")):
        written = "[licenses]\nexceptions = [%s, allow = ['Apache-2.0'] }]\n" % spec[:-2]
        yield case("a licence exception of %s" % spec, written, LICENSED_X)
    for spec in FEW_SPECS:
        written = "[bans.std-replacements]\nignore-rust-version = 'all'\nignore = [%s]\n" % spec
        yield case("an ignored replacement of %s" % spec, written, PUBLIC_X, table=WORKED)
    yield case(
        "two entries, both faulty", '[bans]\nskip = ["x@", "", { name = "", reason = 1, more = 2 }]\n',
        by_hand="unreadable 16..18 bans.skip.0; "
        "unreadable 22..22 bans.skip.1; "
        "unreadable 35..35 bans.skip.2.name; "
        "wrong-kind 47..48 bans.skip.2.reason; "
        "unknown 50..54 bans.skip.2.more"
    )
    yield case(
        "a missing name beside other faults", '[bans]\ndeny = [{ version = "q", wrappers = 1 }]\n',
        by_hand="missing 15..46 bans.deny.0.name; "
        "unreadable 28..29 bans.deny.0.version; "
        "wrong-kind 43..44 bans.deny.0.wrappers"
    )
    yield case(
        "faults in several lists, told by place", "[bans]\nskip = [1]\nhighlight = 2\nallow = [3]\nmore = 4\n",
        by_hand="wrong-kind 15..16 bans.skip.0; "
        "wrong-kind 30..31 bans.highlight; "
        "wrong-kind 41..42 bans.allow.0; "
        "unknown 44..48 bans.more"
    )


def written():
    """How the text of a name may be written, and what of it a label shows."""
    for what, text in (
        ("in quotes", '"x@1"'), ("in single quotes", "'x@1'"), ("with a number for a letter", '"\\u0078@1"'),
        ("with a number after the name", '"x\\u00401"'), ("with an escape in its requirement", '"x@\\u0031"'),
        ("in three quotes", '"""x@1"""'), ("in three single quotes", "'''x@1'''"),
        ("on a line of its own", '"""\nx@1"""'), ("on a line of its own, single quotes", "'''\nx@1'''"),
        ("on two lines", '"""x@\\\n  1"""'), ("on two lines, the name cut", '"""\\\n  x\\\n  @1"""'),
        ("of several bytes, then the name", '"ü@1", "x"'), ("behind characters of several bytes", '"é𝄞", "x"'),
        ("in a table", '{ crate = "x@1" }'),
        ("in a table, with an escape", '{ crate = "\\u0078@1" }'),
        ("in a table, by its name", '{ name = "x", version = "1" }'),
        ("in a table, its name escaped", '{ name = "\\u0078" }'),
        ("in a table, its name in three quotes", '{ name = """x""" }'),
        ("in a table on several lines", '{ name = """\nx""", version = """\n1""" }'),
        ("with a carriage return before it", '\r\n"x"'), ("behind a tab", '\t\t"x"'),
    ):
        yield case("a banned name %s" % what, "[bans]\nmultiple-versions = 'allow'\ndeny = [%s]\n" % text, BOTH_X)
        yield case("a skipped name %s" % what, "[bans]\nmultiple-versions = 'allow'\nskip = [%s]\n" % text, BOTH_X)
    for what, text in (
        ("in quotes", '"because"'), ("empty", '""'), ("with quotes at its ends", "'\"because\"'"),
        ("of quotes alone", "'\"\"\"'"), ("with escaped quotes", '"\\"so\\""'), ("with escapes", '"a\\tb\\u00e9"'),
        ("of several bytes", '"é ü 𝄞"'),
        ("on several lines", '"""\nfirst\r\nsecond"""'), ("in single quotes on several lines", "'''first\n\tsecond'''"),
        ("with quotes in three quotes", '""""so" they say""""'), ("with a backslash", "'a\\b'"),
        ("with separators of lines", '"\u0085\u2028"'),
    ):
        yield case(
            "a reason %s" % what, '[bans]\ndeny = [{ name = "x", reason = %s, use-instead = "y" }]\n' % text, WITH_X
        )
        yield case(
            "another crate's name %s" % what, '[bans]\ndeny = [{ use-instead = %s, name = "x" }]\n' % text, WITH_X
        )
        yield case("a wrapper %s" % what, '[bans]\ndeny = [{ name = "x", wrappers = [%s, "app"] }]\n' % text, WITH_X)
    yield case(
        "labels on one long line",
        '[bans]\ndeny = [%s]\n' % ", ".join('{ name = "x", reason = "é%d" }' % n for n in range(20)), WITH_X
    )
    yield case("labels far down", "[bans]\n%sdeny = [\n%s]\n" % ("# é\n" * 300, "  'x',\n" * 5), WITH_X)


# ---- contradictions

CLASHES = [
    (
        "wrappers and one version", 'deny = [{ name = "x", wrappers = ["app"], deny-multiple-versions = true }]',
        "2:34 2:68"
    ),
    ("banned and allowed", 'deny = ["x@1"]\nallow = ["x@1"]', "2:10 3:11"),
    ("banned and skipped", 'deny = ["x"]\nskip = ["x"]', "2:10 3:10"),
    ("allowed and skipped", 'allow = ["x"]\nskip = ["x"]', "2:11 3:10"),
    ("a feature allowed and denied", 'features = [{ name = "x", allow = ["f"], deny = ["f"] }]', "2:23 2:37 2:51"),
]


def clashes():
    """What contradicts itself, and what nearly does."""
    for name, text, places in CLASHES:
        yield case("clash: %s" % name, "[bans]\n%s\n" % text, BOTH_X, by_hand=places)
    for name, text in (
        (
            "deny before skip, both in tables",
            'deny = [{ name = "x", reason = "r" }]\nskip = [{ crate = "x", reason = "s" }]'
        ),
        ("skip before deny", 'skip = ["x"]\ndeny = ["x"]'), ("allow before deny", 'allow = ["x"]\ndeny = ["x"]'),
        ("skip before allow", 'skip = ["x"]\nallow = ["x"]'),
        ("in all three lists", 'deny = ["x"]\nallow = ["x"]\nskip = ["x"]'),
        ("in all three lists, the other way round", 'skip = ["x"]\nallow = ["x"]\ndeny = ["x"]'),
        ("a ban twice, one skip", 'deny = ["x", "x"]\nskip = ["x"]'),
        ("one ban, two skips", 'deny = ["x"]\nskip = ["x", "x"]'),
        ("two bans, two skips", 'deny = ["x", "x"]\nskip = ["x", "x"]'),
        ("the first equal skip is the second", 'deny = ["x"]\nskip = ["x@1", "x"]'),
        ("two names, crosswise", 'deny = ["x", "y"]\nskip = ["y", "x"]'),
        ("skips before bans, two names", 'skip = ["y", "x"]\ndeny = ["x", "y"]'),
        ("a requirement by `@` and by `version`", 'deny = ["x@1"]\nskip = [{ name = "x", version = "1" }]'),
        ("a requirement by `@` and by `:`", 'deny = ["x:1"]\nskip = ["x@1"]'),
        ("written apart by escapes", 'deny = ["\\u0078"]\nallow = [\'x\', """x"""]'),
        ("a multi-line name", 'deny = ["""x"""]\nallow = [\'\'\'\nx\'\'\']'),
        (
            "a ban that says that versions may be several",
            'deny = [{ name = "x", deny-multiple-versions = false, wrappers = ["a"] }]\nskip = ["x"]'
        ),
        (
            "wrappers and one version, twice",
            'deny = [{ name = "x", deny-multiple-versions = true, wrappers = ["a", "b"] }, '
            '{ name = "y", wrappers = ["c"], deny-multiple-versions = true }]'
        ),
        (
            "wrappers and one version, skipped and allowed",
            'deny = [{ name = "x", deny-multiple-versions = true, wrappers = ["a"] }]\nskip = ["x"]\nallow = ["x"]'
        ),
        (
            "an entry as a table of its own",
            'skip = ["x"]\n[[bans.deny]]\nwrappers = [\n"a",\n]\ndeny-multiple-versions = true\n'
            'name = "x"\n[[bans.deny]]\nname = "x"'
        ),
        ("features: two in both", 'features = [{ name = "x", allow = ["f", "g", "f"], deny = ["g", "f", "f"] }]'),
        ("features: deny before allow", 'features = [{ deny = ["f"], allow = ["f"], crate = "x@1" }]'),
        (
            "features: two entries",
            'features = [{ name = "y", allow = ["f"], deny = ["f"] }, { name = "x", deny = ["f"], allow = ["f"] }]'
        ),
        ("features: by escape", 'features = [{ name = "x", allow = ["f"], deny = ["\\u0066"] }]'),
        (
            "features: on lines of their own",
            'features = [{ name = "x", allow = ["""\nf"""], deny = [\'\'\'\nf\'\'\', "g"] }]'
        ),
        (
            "wrappers on lines of their own",
            'deny = [{ name = """\nx""", wrappers = ["""\napp""", \'\'\'y\'\'\'], deny-multiple-versions = true }]'
        ),
    ):
        yield case("clash: %s" % name, "[bans]\n%s\n" % text, BOTH_X)
    for name, text in (
        ("no requirement and `*`", 'deny = ["x"]\nskip = ["x@*"]'),
        ("requirements that mean the same", 'deny = ["x@1"]\nskip = ["x@^1"]'),
        ("a blank apart", 'deny = ["x@1"]\nskip = ["x@ 1"]'),
        ("names that differ in case", 'deny = ["x"]\nskip = ["X"]'),
        ("one version wanted, and skipped", 'deny = [{ name = "x", deny-multiple-versions = true }]\nskip = ["x"]'),
        (
            "one version wanted, and allowed",
            'deny = [{ name = "x", deny-multiple-versions = true }]\nallow = ["x", "app"]'
        ),
        ("one version wanted, no wrappers", 'deny = [{ name = "x", deny-multiple-versions = true, wrappers = [] }]'),
        ("skipped twice", 'skip = ["x", "x"]'), ("banned and tree skipped", 'deny = ["x"]\nskip-tree = ["x"]'),
        ("skipped and tree skipped", 'skip = ["x"]\nskip-tree = ["x"]'), ("allowed twice", 'allow = ["x", "app", "x"]'),
        ("one version wanted, and banned", 'deny = [{ name = "x", deny-multiple-versions = true }, "x"]'),
    ):
        yield case("no clash: %s" % name, "[bans]\n%s\n" % text, BOTH_X)
    yield case(
        "no clash: features of two entries",
        "[bans]\nfeatures = [{ name = 'x', allow = ['a', 't'] }, { name = 'x', deny = ['a'] }]\n", FEATURED_X,
        by_hand="feature-not-explicitly-allowed x/default; feature-banned x/a"
    )
    for one, (name, text, _) in enumerate(CLASHES):
        for other, (other_name, other_text, _) in enumerate(CLASHES):
            if one != other:
                yield case(
                    "clashes: %s, then %s" % (name, other_name), "[bans]\n%s\n" % together(text, other_text), BOTH_X
                )


def together(text, other):
    """Two tables in one, their common lists joined, with `y` in place of the second one's `x`."""
    lists = {}
    for line in (text + "\n" + other.replace('"x', '"y')).split("\n"):
        key, _, value = line.partition(" = ")
        lists.setdefault(key, []).append(value[1:-1])
    return "\n".join("%s = [%s]" % (key, ", ".join(values)) for key, values in lists.items())


# ---- what stops a run first

# Keys of declarations, which tell nothing of crates without any.
DECLARATIONS = [
    "wildcards = 'allow'", "wildcards = 'warn'", "wildcards = 'deny'", "allow-wildcard-paths = false",
    "allow-wildcard-paths = true", "workspace-dependencies = {}",
    "workspace-dependencies = { duplicates = 'allow', include-path-dependencies = false, unused = 'warn' }",
]


def judged():
    """Keys that say nothing of the crates at hand."""
    for key, by_hand in (("allow-build-scripts = []", "deprecated"), ("build = {}", "")):
        name = key.split(" ")[0]
        yield case("judged: %s" % name, "[bans]\n%s\n" % key, by_hand=by_hand)
        yield case(
            "judged: %s after all other keys" % name,
            "[bans]\ndeny = ['x']\nskip = ['y']\nallow = ['app']\nhighlight = 'all'\n%s\n" % key, WITH_X,
            by_hand=(by_hand + "; " if by_hand else "") + "allowed app; banned x; not-allowed x; unmatched-skip y"
        )
    wanted = "[licenses]\nallow = ['MIT']\n\n[bans]\nallow-build-scripts = ['x']\n"
    yield case(
        "judged: build scripts beside licences", wanted, LICENSED_X,
        by_hand="deprecated; accepted: MIT; rejected: Apache-2.0: Apache-2.0"
    )
    for key in DECLARATIONS:
        yield case("judged: %s" % key, "[bans]\n%s\n" % key, WITH_X, by_hand="")
        yield case("judged: %s beside a ban" % key, "[bans]\n%s\ndeny = ['x']\n" % key, WITH_X, by_hand="banned x")
    yield case("judged: [bans.build]", "[bans.build]\n", by_hand="")
    for text in (
        "[license]\n", "[bans]\ndeny = []\n[other.licenses]\n", "[graph]\nbuild = 1\n", "build = 5\nfeatures = 1\n",
        "[bans]\nfeatures = []\n", "[bans]\nexternal-default-features = 'warn'\nworkspace-default-features = 'deny'\n",
    ):
        yield case("judged: %s" % compact(text), text, WITH_X, by_hand="")


def stops():
    """Several causes to stop at once: which one is told."""
    fault, clash, key, bad = "more = 1", "deny = ['x']\nskip = ['x']", "allow-build-scripts = ['x']", "{"
    metadata = {"good": WITH_X, "bad": bad}
    for name, parts in (
        ("a fault, a clash and an older key", (fault, clash, key)), ("a fault and a clash", (fault, clash)),
        ("a fault and an older key", (fault, key)), ("a clash and an older key", (clash, key)),
        ("a fault", (fault,)), ("a clash", (clash,)), ("an older key", (key,)), ("nothing", ()),
    ):
        for which, text in metadata.items():
            yield case("stop: %s, metadata %s" % (name, which), "[bans]\n%s\n" % "\n".join(parts), text)
        yield case(
            "stop: %s, and the metadata cannot be read" % name, "[bans]\n%s\n" % "\n".join(parts),
            fail=["metadata.json"]
        )
    yield case(
        "stop: keys of builds, of another kind", "[bans]\nbuild = 5\nallow-build-scripts = true\n",
        by_hand="wrong-kind 15..16 bans.build; wrong-kind 39..43 bans.allow-build-scripts"
    )
    yield case("stop: [licenses] and a fault", "[licenses]\n[bans]\nskip = 1\n", by_hand="wrong-kind 25..26 bans.skip")


def licences():
    """How `[licenses]` may be written, and its faults, beside those of `[bans]`."""
    for text, by_hand in (
        ("licenses = 5\n", "wrong-kind 11..12 licenses"), ("[[licenses]]\n", "wrong-kind 2..10 licenses"),
        ("licenses.allow = 5\n", "wrong-kind 17..18 licenses.allow"),
        ("[licenses.private]\nignore = 1\n", "wrong-kind 28..29 licenses.private.ignore"),
        ("[[licenses.private]]\n", "wrong-kind 11..18 licenses.private"),
        ("[licenses]\nmore = 1\nallow = 5\n", "unknown 11..15 licenses.more; wrong-kind 28..29 licenses.allow"),
        ("[licenses]\nprivate = { ignored = true }\n", "unknown 23..30 licenses.private.ignored"),
        (
            "[licenses]\nskip = 1\n[bans]\nskip = 1\nexceptions = []\n",
            "unknown 11..15 licenses.skip; wrong-kind 34..35 bans.skip; unknown 36..46 bans.exceptions"
        ),
        (
            "[bans]\nallow = ['']\n[licenses]\nallow = ['']\n",
            "unreadable 17..17 bans.allow.0; unreadable 41..41 licenses.allow.0"
        ),
        (
            "licenses = { allow = 1 }\nbans = { allow = 2 }\n",
            "wrong-kind 21..22 licenses.allow; wrong-kind 42..43 bans.allow"
        ),
        (
            "[licenses]\nallow = ['MIT', 'MIT OR', 5, \"A\\u0021B\"]\n",
            "unreadable 28..34 licenses.allow.1; wrong-kind 37..38 licenses.allow.2; unreadable 41..49 licenses.allow.3"
        ),
        (
            "[[licenses.exceptions]]\n[[licenses.exceptions]]\ncrate = 'x'\n",
            "missing 11..21 licenses.exceptions.0.allow; missing 11..21 licenses.exceptions.0.name; "
            "missing 35..45 licenses.exceptions.1.allow"
        ),
        (
            "[licenses]\nexceptions = ['x', { crate = 'x', name = 'x', allow = ['('], reason = 'r' }]\n",
            "wrong-kind 26..27 licenses.exceptions.0; unknown 45..49 licenses.exceptions.1.name; "
            "unreadable 67..68 licenses.exceptions.1.allow.0; unknown 72..78 licenses.exceptions.1.reason"
        ),
        (
            "[licenses]\nexceptions = [{ version = 'q', allow = 'MIT' }]\n",
            "missing 25..57 licenses.exceptions.0.name; unreadable 38..39 licenses.exceptions.0.version; "
            "wrong-kind 51..54 licenses.exceptions.0.allow"
        ),
    ):
        yield case("licences: %s" % compact(text), text, LICENSED_X, by_hand=by_hand)
    allowed, rejected = "accepted: MIT; accepted: Apache-2.0", "rejected: MIT: MIT; rejected: Apache-2.0: Apache-2.0"
    for text, by_hand in (
        ("[licenses]\n", rejected), ("licenses = {}", rejected), ("[licenses.private]\n", rejected),
        ("\"licenses\".allow = ['MIT', 'Apache-2.0']\n", allowed),
        ("licenses = { allow = ['MIT', 'Apache-2.0'] }\n[bans]\n", allowed),
        (
            "[[licenses.exceptions]]\nname = 'app'\nallow = ['MIT']\n"
            "[[licenses.exceptions]]\ncrate = 'x@1'\nallow = ['Apache-2.0']\n[licenses.private]\n", allowed
        ),
        (
            "[licenses]\nversion.of.what = 2\n'confidence-threshold' = 1\n"
            "allow = [\"\"\"\nMIT\"\"\", \"Apache\\u002D2.0\"]\n", allowed
        ),
    ):
        yield case("licences: %s" % compact(text), text, LICENSED_X, by_hand=by_hand)


def outside_toml():
    """Texts that are no TOML, or no text."""
    for digits in (
        "ff", "ff0a", "5b62616e735d0aff", "5b62616e735d0a23ff0a", "c3", "c0af", "eda080", "f4908080", "23c3",
        "0a" * 20 + "80"
    ):
        yield case("policy of the bytes %s" % digits, {"hex": digits}, by_hand="not-utf8 0..0 ")
    yield case("a policy of no text, and metadata with a fault", {"hex": "ff"}, "{", by_hand="not-utf8 0..0 ")
    for text, place in (
        ("= 1\n", 0), ("[bans]\n= 1\n", 7), ("[bans\n", 5), ("[bans", 5), ("[]\n", 1), ("[bans]\ndeny = ['x'\n", 19),
        ("[bans]\ndeny = ['x'", 18), ("[bans]\ndeny ['x']\n", 12), ("[bans]\ndeny = ['x']]\n", 19),
        ("[bans]\ndeny = [,]\n", 15),
        ("[bans] deny = []\n", 7), ("\ufeff[bans]\n", 0), ("[bans]\ndeny = [{ name = 'x', }]\n", 29),
        ("[bans]\ndeny = [{ name = 'x'\n}]\n", 27), ("[bans]\n\x00", 7), ("*", 0),
    ):
        yield case("policy outside TOML: %s" % compact(text), text, by_hand="grammar %d..%d " % (place, place))
    yield case("65 nested arrays", "a = %s%s\n" % ("[" * 65, "]" * 65), by_hand="grammar 68..68 ")
    yield case("64 nested arrays", "a = %s%s\n" % ("[" * 64, "]" * 64), by_hand="")
    for text, span in (
        ("[bans]\ndeny = []\ndeny = []\n", "17..21"), ("[bans]\n[bans]\n", "8..12"),
        ("[bans]\ndeny = ['x']\n[[bans.deny]]\n", "27..31"), ("bans = {}\n[bans]\n", "11..15"),
        ("[bans]\ndeny = [{ name = 'x', name = 'y' }]\n", "29..33"),
        ("[bans]\nskip = 5\n'skip' = 6\n", "17..21"), ("bans.deny = []\n[bans]\n", "16..20"),
        ("a = 1\na = 2\n[bans]\ndeny = 5\n", "6..7"),
    ):
        yield case("a key twice: %s" % compact(text), text, by_hand="clash %s " % span)


TEMPLATE = """\
[graph]
targets = []
all-features = false
no-default-features = false
[output]
feature-depth = 1
[advisories]
ignore = []
[licenses]
allow = ["MIT", "Apache-2.0"]
confidence-threshold = 0.8
exceptions = []
[licenses.private]
ignore = false
registries = []
[bans]
multiple-versions = "warn"
wildcards = "allow"
highlight = "all"
workspace-default-features = "allow"
external-default-features = "allow"
allow = []
deny = []
skip = []
skip-tree = []
[sources]
unknown-registry = "warn"
unknown-git = "warn"
allow-registry = ["https://github.com/rust-lang/crates.io-index"]
allow-git = []
[sources.allow-org]
github = []
"""


def template():
    """The policy that a project begins with, whole and in parts."""
    licences = licensed("app -> x", {"app": "MIT", "x": "MIT OR Apache-2.0"})
    accepted = "".join(
        told("accepted", "note", "license requirements satisfied", notes=["license = '%s'" % text], graphs=graphs)
        for graphs, text in ((TREES_OF_APP, "MIT"), (TREES_OF_X, "MIT OR Apache-2.0"))
    )
    yield case(
        "the template", TEMPLATE, licences, by_hand="accepted: MIT; accepted: MIT OR Apache-2.0",
        lines=accepted + PASSED
    )
    yield case(
        "the template on crates without licences", TEMPLATE, WITH_X,
        by_hand="unlicensed app; unlicensed x; license-not-encountered MIT; license-not-encountered Apache-2.0"
    )
    lines = TEMPLATE.split("\n")
    no_licences = "\n".join(lines[:8] + lines[15:])
    yield case("the template without licences", no_licences, TWO_X, by_hand="duplicate x")
    denied = TEMPLATE.replace("wildcards = \"allow\"", "wildcards = \"deny\"")
    yield case(
        "the template, wildcards denied", denied, licences, by_hand="accepted: MIT; accepted: MIT OR Apache-2.0"
    )
    several = TEMPLATE.replace('"warn"', '"deny"').replace('"Apache-2.0"', '"Zlib"')
    yield case(
        "the template with other values", several, licensed("app -> x, app -> x@2.0.0", {"app": "MIT", "x": "Zlib"}),
        by_hand="duplicate x; accepted: MIT; accepted: Zlib; accepted: Zlib"
    )


def one_byte_off():
    """A policy with a byte left out, put in or changed; none outside TOML, where the place of the fault is free."""
    base = '[bans]\nmultiple-versions = "deny"\ndeny = [{ name = "x", wrappers = ["app"] }]\nskip = ["x@2"]\n'
    for place in range(0, len(base), 2):
        for what, text in (
            ("without byte %d" % place, base[:place] + base[place + 1 :]),
            ("with a letter at %d" % place, base[:place] + "x" + base[place:]),
            ("with byte %d changed" % place, base[:place] + chr(ord(base[place]) ^ 1) + base[place + 1 :]),
        ):
            yield case("policy %s" % what, text, BOTH_X, is_toml=True)


def policy_cases():
    parts = (each_key, elements, roots, entries, written, clashes, judged, stops, licences, outside_toml, template)
    for part in (*parts, one_byte_off):
        yield from part()
