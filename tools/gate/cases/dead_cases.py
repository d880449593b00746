"""Cases of dead entries: each kind that a policy can have, alive and dead, their order, and what is reported but alive.

`dead` of a case has the dead entries in order: of each its kind and its text.
"""

from case_parts import (
    LICENCES_FAILED, PASSED, TREES_OF_APP, TREES_OF_X, WITH_X, case, dead_line, draws, furnished, licensed,
    public_graph, row_graph, told,
)
from replacement_cases import FIRST, PLAIN
from rule_cases import TWO, rule, some_graph, some_policy


def dead(name, text, policy, entries, by_hand=None, **more):
    """A case over `[bans]` with these lines and these dead entries."""
    return rule("dead: %s" % name, text, policy, by_hand, dead=entries, **more)


def entries(kind, *names):
    return "; ".join("%s %s" % (kind, name) for name in names)


# ---- rows


def unused_wrapper(column, name):
    label = (2, column, "unmatched wrapper", name)
    return told("unused-wrapper", "warning", "wrapper for banned crate was not encountered", label)


def rows():
    """Runs as a user meets them."""
    yield case(
        "dead: no wrapper, where another parent is told", '[bans]\ndeny = [{ crate = "x", wrappers = ["app"] }]\n',
        row_graph("app -> x, app -> y, y -> x"), by_hand="banned x; allowed-by-wrapper x; unmatched-wrapper y", dead=""
    )
    unused = unused_wrapper(39, "z")
    yield case(
        "dead: the wrapper of a member that nobody needs", '[bans]\ndeny = [{ crate = "app", wrappers = ["z"] }]\n',
        row_graph("app"), lines=unused + dead_line("wrapper", 45, 46) + PASSED, dead="wrapper z"
    )
    yield case(
        "dead: both wrappers", '[bans]\ndeny = [{ crate = "app", wrappers = ["z", "y"] }]\n', row_graph("app"),
        lines=unused + unused_wrapper(44, "y") + dead_line("wrapper", 45, 46) + dead_line("wrapper", 50, 51) + PASSED
    )
    several, two = '[bans]\nmultiple-versions = "deny"\nskip = [%s]\n', row_graph("app -> x, app -> x@2.0.0")
    yield case("dead: no skip that is hit", several % '"x@=1.0.0"', two, by_hand="skipped x", dead="")
    yield case(
        "dead: the skip of no crate, beside another", several % '"x@=1.0.0", "q"', two,
        by_hand="skipped x; unmatched-skip q", dead="skip q"
    )
    yield case(
        "dead: no skip that is unnecessary", '[bans]\nskip = ["x"]\n', row_graph("app -> x"),
        by_hand="skipped x; unnecessary-skip x", dead=""
    )
    accepted = lambda graphs, text: told(
        "accepted", "note", "license requirements satisfied", notes=["license = '%s'" % text], graphs=graphs
    )
    message = "license was not encountered"
    zlib = told("license-not-encountered", "warning", message, (2, 25, "unmatched license allowance", "Zlib"))
    yield case(
        "dead: a licence that nobody asks for", '[licenses]\nallow = ["Apache-2.0", "Zlib"]\n',
        furnished(row_graph("app -> x"), {"app": {"license": "Apache-2.0"}, "x": {"license": "MIT/Apache-2.0"}}),
        lines=accepted(TREES_OF_APP, "Apache-2.0") + accepted(TREES_OF_X, "MIT/Apache-2.0") + zlib +
        dead_line("license-allow", 35, 39) + PASSED
    )
    yield case(
        "dead: the first of two exceptions",
        '[licenses]\nallow = ["Apache-2.0"]\nexceptions = [{ crate = "x", allow = ["Zlib"] }, '
        '{ crate = "x", allow = ["MIT"] }]\n',
        furnished(row_graph("app -> x"), {"app": {"license": "Apache-2.0"}, "x": {"license": "MIT"}}),
        by_hand="accepted: Apache-2.0; accepted: MIT; license-exception-not-encountered x", dead="license-exception x"
    )
    yield case(
        "dead: nothing where a licence breaks off", '[licenses]\nallow = ["MIT"]\n',
        furnished(row_graph("app -> x"), {"app": {"license": "MIT"}, "x": {"license": "MIT AND"}}), dead="",
        lines=accepted(TREES_OF_APP, "MIT") + told(
            "parse-error", "error", "license expression of crate 'x = 1.0.0' can't be read at byte 7",
            notes=["license = 'MIT AND'"], graphs=TREES_OF_X
        ) + LICENCES_FAILED
    )


# ---- each kind


def skips():
    tests = "app -> x, app -> x@2.0.0 dev"
    for name, text, policy, gone in (
        ("of a version", TWO, "skip = ['x@3', 'x@1']", "skip x"),
        ("of a name", TWO, "skip = ['X', 'xx', 'x']", "skip X; skip xx"),
        ("of all", TWO, "skip = ['y', 'z@1']", "skip y; skip z"), ("of none", TWO, "skip = ['x', 'x@2', 'x@1']", ""),
        ("twice", TWO, "skip = ['q', 'x', 'q', 'x']", "skip q; skip q"),
        ("of a crate for tests", tests, "skip = ['x@2']", "skip x"),
        ("of a crate for tests, which counts", tests, "skip = ['x@2']\nmultiple-versions-include-dev = true", ""),
        ("of a crate that no member reaches", "app, x -> y", "skip = ['x', 'y']", "skip x; skip y"),
        ("at level allow", TWO, "multiple-versions = 'allow'\nskip = ['x@3', 'y']", "skip x; skip y"),
        (
            "with reasons", TWO, "skip = [{ crate = 'x@4', reason = 'r' }, { reason = 's', name = 'y' }]",
            "skip x; skip y"
        ),
        (
            "in tables of their own", TWO, "[[bans.skip]]\nversion = '3'\nname = 'x'\n[[bans.skip]]\ncrate = 'z:1'",
            "skip x; skip z"
        ),
        ("in a skipped tree", "app -> x, app -> y, y -> x@2.0.0", "skip = ['x@1', 'y@2']\nskip-tree = ['y']", "skip y"),
        ("of a member", "app -> x", "skip = ['app', 'app@2']", "skip app"),
    ):
        yield dead("skips %s" % name, text, policy, gone)
    for name, text, policy, gone in (
        ("of no crate", "app -> x", "skip-tree = ['q', 'x', 'x@2']", "skip-root q; skip-root x"),
        ("of a crate that does not count", "app -> x dev", "skip-tree = ['x']", ""),
        ("of a marked crate", TWO, "skip = ['x@1']\nskip-tree = ['x@=1.0.0']", ""),
        ("of depth 0", "app -> x", "skip-tree = [{ name = 'x', depth = 0 }, { name = 'q', depth = 0 }]", "skip-root q"),
        ("twice", "app -> x", "skip-tree = ['q', 'q', 'x', 'x']", "skip-root q; skip-root q"),
        ("of a crate that no member reaches", "app, x -> y", "skip-tree = ['y']", "skip-root y"),
    ):
        yield dead("skipped trees %s" % name, text, policy, gone)


def wrappers():
    ban = lambda *lists: "deny = [%s]" % ", ".join("{ crate = '%s', wrappers = [%s] }" % one for one in lists)
    two_parents = "app -> x, app -> y, y -> x"
    for name, text, policy, gone in (
        ("of no parent", "app -> x", ban(("x", "'q', 'app', 'x'")), "q x"),
        ("the second of one name", "app -> x", ban(("x", "'app', 'app'")), "app"),
        ("of two versions", TWO + ", app -> y, y -> x@2.0.0", ban(("x", "'y', 'app', 'q'")), "q"),
        ("of a parent two steps above", "app -> y, y -> x", ban(("x", "'app', 'y'")), "app"),
        ("of a parent for tests", "app -> y, app -> x, y -> x dev", ban(("x", "'app', 'y'")), ""),
        ("of a ban that matches none", "app -> x", ban(("x@2", "'app'"), ("q", "'app', 'r'")), "app app r"),
        ("of two bans of one crate", two_parents, ban(("x", "'app'"), ("x@1", "'y', 'q'")), "q"),
        ("of two bans, each of which has the other's", two_parents, ban(("x", "'app'"), ("y", "'y', 'app'")), "y"),
        ("of an exempt crate", "app -> lib", ban(("lib", "'app', 'q'")) + "\nallow-workspace = true", "app q"),
        ("of a crate that asks for itself", "app -> x, x -> x dev", ban(("x", "'x', 'q'")), "q"),
        ("of none", "app -> x", ban(("x", "")), ""),
        ("of one wanted version", TWO, "deny = [{ crate = 'x', deny-multiple-versions = true, wrappers = [] }]", ""),
        ("of a ban that several versions do not matter to", "app -> x",
         "deny = [{ crate = 'x', deny-multiple-versions = false, wrappers = ['q'] }]", "q"),
        ("a member that nobody needs", "app", ban(("app", "'app', 'q'")), "app q"),
    ):
        more = {"members": "app lib"} if "lib" in text else {}
        yield dead("wrappers %s" % name, text, policy, entries("wrapper", *gone.split()), **more)
    yield dead(
        "wrappers with odd texts", "app -> x", 'deny = [{ crate = "x", wrappers = ["", "\\u0071", """\nr""", "é"] }]',
        entries("wrapper", "", "\\u0071", "\nr", "é")
    )


TABLE_OF_X = FIRST.table([FIRST.entry("x", groups=[(70, [PLAIN])])])


def ignores():
    for name, policy, gone, more in (
        ("of no crate", "ignore = ['q', 'x']", "q", {}), ("the second of one crate", "ignore = ['x@1', 'x']", "x", {}),
        ("of a version", "ignore = ['x@2']", "x", {}),
        ("of a crate that is not replaced", "ignore = ['y', 'app']", "y app", {}),
        ("of a crate that is not replaced yet", "ignore = ['x']", "x", {"rust": {"app": "1.69"}}),
        ("with the scope of no crate", "scope = 'none'\nignore = ['q']", "", {}),
        ("of a crate that no member needs", "ignore = ['x']", "x", {"text": "app -> y, y -> x"}),
        ("of a crate that another needs", "scope = 'transitive'\nignore = ['x']", "", {"text": "app -> y, y -> x"}),
        ("at level allow", "level = 'allow'\nignore = ['q', 'x']", "q", {}),
        ("of crates of another registry", "ignore = ['x']", "x", {"sources": {"x": "registry+https://example.com/"}}),
    ):
        value = public_graph(more.pop("text", "app -> x, app -> y"), **more)
        policy = "[bans.std-replacements]\n%s\n" % policy
        found = entries("replacement-ignore", *gone.split())
        yield case("dead: ignores %s" % name, policy, value, table=TABLE_OF_X, dead=found)


def licences():
    """Allowed licences and exceptions."""
    of = {"app": "A", "x": "A OR B", "y": "C"}
    allow = lambda *texts: "allow = [%s]" % ", ".join("'%s'" % text for text in texts)
    listed = lambda spec, *texts: "{ crate = '%s', %s }" % (spec, allow(*texts))
    exceptions = lambda *all_: "\nexceptions = [%s]" % ", ".join(all_)
    private = "\nprivate = { ignore = true }"
    for name, policy, gone, more in (
        ("that nobody asks for", allow("A", "Q", "C"), "license-allow Q", {}),
        ("the second of one licence", allow("A", "A", "A+"), "license-allow A; license-allow A+", {}),
        ("with an exception", allow("A", "A WITH E"), "license-allow A WITH E", {}),
        ("that a rejected crate asks for", allow("C", "B"), "", {}),
        ("where all is accepted otherwise", allow("A", "C", "B"), "", {}),
        ("at level allow", "unused-allowed-license = 'allow'\n" + allow("Q"), "license-allow Q", {}),
        ("at level deny", "unused-allowed-license = 'deny'\n" + allow("Q", "A"), "license-allow Q", {}),
        ("of a crate for tests", allow("A", "C"), "license-allow C", {"text": "app -> x, app -> y dev"}),
        ("of a crate for tests, which is looked at", "include-dev = true\n" + allow("A", "C"), "",
         {"text": "app -> x, app -> y dev"}),
        ("of a private crate", allow("A", "C") + private, "license-allow C", {"publish": {"y": []}}),
        ("of a private crate, which is looked at", allow("A", "C"), "", {"publish": {"y": []}}),
        ("of a text that cannot be read", allow("A", "D"), "license-allow D", {"of": {"app": "A", "x": "D AND"}}),
        ("of no licence", allow("A", "D"), "license-allow D", {"of": {"app": "A", "x": ""}}),
        (
            "by exceptions first", allow("A", "C") + exceptions(listed("y", "C"), listed("x", "A", "B")),
            "license-allow C", {}
        ),
        ("exceptions for no crate", allow("A") + exceptions(listed("q", "A"), listed("y@2", "C")),
         "license-exception q; license-exception y", {}),
        (
            "the second exception", allow("A") + exceptions(listed("y", "C"), listed("y", "C")),
            "license-exception y", {}
        ),
        ("exceptions that list what nobody asks for", allow("A") + exceptions(listed("y", "Q"), listed("y")),
         "license-exception y; license-exception y", {}),
        (
            "exceptions at level deny", "unused-allowed-license = 'deny'" + exceptions(listed("q")),
            "license-exception q", {}
        ),
        ("of an empty table", "", "", {}),
    ):
        text = more.get("text", "app -> x, app -> y")
        value = licensed(text, more.get("of", of), more.get("publish", ()))
        policy = "[licenses]\n%s\n[bans]\nmultiple-versions = 'allow'\n" % policy
        yield case("dead: licences %s" % name, policy, value, dead=gone)


# ---- all kinds

# A policy with every kind of entry, each with a name to put in; the tables stand in any order.
OF_ALL_KINDS = {
    "bans": "[bans]\nskip-tree = ['%(skip_root)s'] # é€\nmultiple-versions = 'deny'\n"
    "deny = [{ crate = 'x', wrappers = [\n  '%(wrapper)s', 'app' ] }]\n"
    "skip = [{ name = \"%(skip)s\", reason = '''\nr''' }]\n",
    "std": "[bans.std-replacements]\nlevel = 'warn'\nignore = ['%(ignore)s']\n",
    "licenses": "[licenses]\nexceptions = [{ allow = ['B'], name = '%(exception)s' }]\nallow = ['A', '%(licence)s']\n",
}
ALIVE = {"skip_root": "z", "wrapper": "y", "skip": "z", "ignore": "x", "exception": "x", "licence": "C"}


def all_kinds():
    """Every kind dead at once, alive at once, and one of them dead; and the tables in another order."""
    value = furnished(
        public_graph("app -> x, app -> y, y -> x, app -> z, app -> z@2.0.0"),
        {"app": {"license": "A"}, "x": {"license": "B"}, "y": {"license": "C"}, "z": {"license": "A"}}
    )
    texts = {
        "skip_root": "skip-root q", "wrapper": "wrapper q", "skip": "skip q", "ignore": "replacement-ignore q",
        "exception": "license-exception q", "licence": "license-allow q",
    }
    in_order = {
        "bans": ["skip_root", "wrapper", "skip"], "std": ["ignore"], "licenses": ["exception", "licence"],
    }
    for order in (("bans", "std", "licenses"), ("licenses", "bans", "std"), ("std", "licenses", "bans")):
        written = "".join(OF_ALL_KINDS[table] for table in order)
        for what, gone in (
            ("all dead", set(texts)), ("all alive", set()), *((name, {name}) for name in texts),
            ("half of them", {"skip_root", "ignore", "licence"}), ("the other half", {"wrapper", "skip", "exception"}),
        ):
            names = {name: "q" if name in gone else alive for name, alive in ALIVE.items()}
            expected = [texts[name] for table in order for name in in_order[table] if name in gone]
            yield case(
                "dead: every kind, %s, %s" % (what, ", ".join(order)), written % names, value, table=TABLE_OF_X,
                dead="; ".join(expected)
            )
    whole = "".join(OF_ALL_KINDS[table] for table in ("bans", "std", "licenses")) % {name: "q" for name in texts}
    yield case(
        "dead: nothing where the run stops", whole, WITH_X, by_hand="replacement 0"
    )
    yield case("dead: every kind, on one crate", whole, licensed("app", {"app": "A"}), table=TABLE_OF_X)


# ---- many, and by chance


def many():
    """Long lists of which every second entry is dead."""
    crates = ["n%03d" % number for number in range(0, 200, 2)]
    text = ", ".join("app -> %s" % name for name in crates)
    lists = ", ".join("'n%03d'" % number for number in range(200))
    gone = ["n%03d" % number for number in range(1, 200, 2)]
    yield dead("every second of 200 skips", text, "skip = [%s]" % lists, entries("skip", *gone))
    yield dead("every second of 200 skipped trees", text, "skip-tree = [%s]" % lists, entries("skip-root", *gone))
    parents = ", ".join("app -> %s, %s -> x" % (name, name) for name in crates[:30])
    yield dead(
        "every second of 60 wrappers", parents, "deny = [{ crate = 'x', wrappers = [%s] }]" % ", ".join(
            "'n%03d'" % number for number in range(60)
        ), entries("wrapper", *gone[:30])
    )
    yield dead(
        "200 wrappers of a ban that matches none", "app", "deny = [{ crate = 'x', wrappers = [%s] }]" % lists,
        entries("wrapper", *("n%03d" % number for number in range(200)))
    )
    odd = ", ".join("{ crate = 'n%03d', allow = ['A'] }" % number for number in range(200))
    yield case(
        "dead: every second of 200 exceptions", "[licenses]\nexceptions = [%s]\n" % odd,
        licensed(text, {name: "A" for name in crates}), dead=entries("license-exception", *gone)
    )


def some_whole_policy(draw):
    """A policy with tables of all kinds, in any order."""
    names = ["a", "b", "x", "app", "q", "a@1", "b@2", "x@<2"]
    some = lambda write, most=3: "[%s]" % ", ".join(write(names[draw(len(names))]) for _ in range(draw(most + 1)))
    text, licence = (lambda name: "'%s'" % name), (lambda name: "'%s'" % "ABCD"[draw(4)])
    excepted = lambda name: "{ crate = '%s', allow = %s }" % (name, some(licence, 2))
    tables = [
        "[bans]\n%s\n" % some_policy(draw), "[bans.std-replacements]\nlevel = 'warn'\nignore = %s\n" % some(text),
        "[licenses]\nallow = %s\nexceptions = %s\n" % (some(licence), some(excepted)),
    ]
    return "".join(tables.pop(draw(len(tables))) for _ in range(3))


def some_whole_case(seed):
    """A policy by chance over a graph by chance, with licences and with what the standard library replaces."""
    draw = draws(seed)
    text, members = some_graph(draw)
    value = public_graph(text, members, rust={name: "1.%d" % (69 + draw(2)) for name in "abx" if draw(2)})
    licences = [None, "A", "B", "A OR B", "C AND A", "(A", "B/C AND A"]
    value = furnished(value, {name: {"license": licences[draw(len(licences))]} for name in ("app", "a", "b", "x")})
    table = FIRST.table([FIRST.entry(name, groups=[(70, [PLAIN])]) for name in "abx" if draw(3)] or [FIRST.entry("z")])
    return case("dead: by chance, %d" % seed, some_whole_policy(draw), value, table=table)


def by_chance():
    yield from map(some_whole_case, range(7000, 7150))


def dead_cases():
    for part in (rows, skips, wrappers, ignores, licences, all_kinds, many, by_chance):
        yield from part()
