"""Cases of the licence check: expressions, crates that are passed over, exceptions, and what of a policy is unused."""

from case_parts import (
    BANS_FAILED, BOTH_FAILED, BY_APP, LICENCES_FAILED, PASSED, TREES_OF_APP, TREES_OF_X, case, crate_tree, dead_line,
    draws, licensed, told,
)
from readings.report import compact
from rule_cases import some_graph, some_spec


def licence(name, policy, licences, by_hand=None, text="app -> x", publish=(), members="app", bans="", **more):
    """A case over `[licenses]` with these lines, behind `[bans]` with others."""
    if by_hand is not None:
        more["by_hand"] = by_hand
    written = "[bans]\nmultiple-versions = 'allow'\n%s[licenses]\n%s\n" % (bans, policy)
    return case("licences: %s" % name, written, licensed(text, licences, publish, members), **more)


def quoted(texts):
    return "[%s]" % ", ".join("'%s'" % text for text in texts)


def allow(*texts):
    return "allow = %s" % quoted(texts)


def exception(spec, *texts):
    return "{ crate = '%s', allow = %s }" % (spec, quoted(texts))


def all_of(*findings):
    return "; ".join(filter(None, findings))


def accepted(*texts):
    return "; ".join("accepted: %s" % text for text in texts)


def rejected(text, *requirements):
    return ": ".join(("rejected", text) + requirements)


def unused(*texts):
    return "; ".join("license-not-encountered %s" % text for text in texts)


def unused_exceptions(*names):
    return "; ".join("license-exception-not-encountered %s" % name for name in names)


# ---- whole lines


def judged(graphs, text, *requirements):
    """The line of a crate's licence that is accepted, or rejected for these requirements."""
    notes = ["license = '%s'" % text] + ["rejected = '%s'" % one for one in requirements]
    if requirements:
        return told("rejected", "error", "failed to satisfy license requirements", notes=notes, graphs=graphs)
    return told("accepted", "note", "license requirements satisfied", notes=notes, graphs=graphs)


def both_mit():
    return judged(TREES_OF_APP, "MIT") + judged(TREES_OF_X, "MIT")


def unused_line(severity, place, text):
    label = (*place, "unmatched license allowance", text)
    return told("license-not-encountered", severity, "license was not encountered", label)


def rows():
    """Runs as a user meets them."""
    yield licence(
        "a licence in use and one that is not", allow("Apache-2.0", "Zlib"),
        {"app": "Apache-2.0", "x": "MIT/Apache-2.0"},
        lines=judged(TREES_OF_APP, "Apache-2.0") + judged(TREES_OF_X, "MIT/Apache-2.0") +
        unused_line("warning", (4, 25), "Zlib") + dead_line("license-allow", 70, 74) + PASSED
    )
    not_encountered = told(
        "license-exception-not-encountered", "warning", "license exception was not encountered",
        (5, 26, "unmatched license exception", "x")
    )
    yield licence(
        "two exceptions of one crate, the second of which lists its licence",
        "%s\nexceptions = [%s, %s]" % (allow("Apache-2.0"), exception("x", "Zlib"), exception("x", "MIT")),
        {"app": "Apache-2.0", "x": "MIT"}, lines=judged(TREES_OF_APP, "Apache-2.0") + judged(TREES_OF_X, "MIT") +
        not_encountered + dead_line("license-exception", 94, 95) + PASSED
    )
    bad = "license expression of crate 'x = 1.0.0' can't be read at byte 7"
    yield licence(
        "one that breaks off", allow("MIT"), {"app": "MIT", "x": "MIT AND"}, lines=judged(TREES_OF_APP, "MIT") +
        told("parse-error", "error", bad, notes=["license = 'MIT AND'"], graphs=TREES_OF_X) + LICENCES_FAILED
    )
    for text, requirements in (("(MIT OR GPL-2.0+) AND MIT", ()), ("MIT AND GPL-2.0 WITH E", ("GPL-2.0 WITH E",))):
        yield licence(
            "`%s`" % text, allow("MIT"), {"app": "MIT", "x": text},
            lines=judged(TREES_OF_APP, "MIT") + judged(TREES_OF_X, text, *requirements) +
            (LICENCES_FAILED if requirements else PASSED)
        )
    yield licence(
        "none, and private", "private = { ignore = true }", {"app": None}, text="app -> x, app -> y",
        publish={"app": []}, lines=told(
            "skipped-private-workspace-crate", "note", "skipping private workspace crate 'app = 0.1.0'",
            graphs=TREES_OF_APP
        ) + "".join(
            told("unlicensed", "error", "crate '%s = 1.0.0' is unlicensed" % name, graphs=[crate_tree(name, BY_APP)])
            for name in "xy"
        ) + LICENCES_FAILED
    )
    for level, severity, verdict in (
        ("allow", "note", PASSED), ("warn", "warning", PASSED), ("deny", "error", LICENCES_FAILED),
        ("", "warning", PASSED),
    ):
        other, name = "Apache-2.0 WITH LLVM-exception", level or "no level"
        written = "allow = [\n\"MIT\", # é\n\"%s\"]" % other
        written += "\nunused-allowed-license = '%s'" % level if level else ""
        yield licence(
            "an unused one at %s" % name, written, {"app": "MIT", "x": "MIT"},
            lines=both_mit() + unused_line(severity, (6, 2), other) + dead_line("license-allow", 69, 99) + verdict
        )
        yield licence("none unused at %s" % name, written, {"app": "MIT", "x": other}, accepted("MIT", other))


def both_checks():
    """What `[bans]` refuses beside what `[licenses]` refuses, each there or not."""
    for bans, refused in (("", ""), ("deny = ['x']\n", "banned x")):
        for text, verdict in (("MIT", accepted("MIT")), ("Zlib", rejected("Zlib", "Zlib"))):
            failed = [[PASSED, LICENCES_FAILED], [BANS_FAILED, BOTH_FAILED]][bool(refused)][text == "Zlib"]
            message, label = "crate 'x = 1.0.0' is explicitly banned", (3, 10, "banned here", "x")
            line = told("banned", "error", message, label, graphs=TREES_OF_X)
            yield licence(
                "%s, x %s" % (text, "banned" if refused else "not banned"), allow("MIT"), {"app": "MIT", "x": text},
                bans=bans, lines=(line if refused else "") + judged(TREES_OF_APP, "MIT") +
                judged(TREES_OF_X, *([text] * (2 if text == "Zlib" else 1))) + failed
            )
    yield licence(
        "what is unused, as an error", "unused-allowed-license = 'deny'\n" + allow("Zlib", "MIT"),
        {"app": "MIT", "x": "MIT"}, all_of("banned x", accepted("MIT", "MIT"), unused("Zlib")), bans="deny = ['x']\n"
    )
    value = licensed("app -> x", {"app": "GPL-3.0", "x": None})
    yield case("licences: a policy that says nothing of them", "[bans]\ndeny = ['x']\n", value, by_hand="banned x")
    yield case("licences: a table of the same name further in", "[other.licenses]\nallow = 5\n", value, by_hand="")
    yield licence(
        "findings of both checks in their order", "exceptions = [%s]\n%s" % (exception("y", "A"), allow("Zlib", "MIT")),
        {"app": "MIT", "x": "q q", "x@2.0.0": None},
        "allowed-by-wrapper x; allowed-by-wrapper x@2.0.0; duplicate x; unmatched-skip y; unused-wrapper; "
        "accepted: MIT; parse-error x 2; unlicensed x@2.0.0; license-not-encountered Zlib; "
        "license-exception-not-encountered y",
        text="app -> x, app -> x@2.0.0", bans="multiple-versions-include-dev = true\nskip = ['y']\n"
        "deny = [{ crate = 'x', wrappers = ['app', 'z'] }, { crate = 'x@2', deny-multiple-versions = true }]\n"
    )


# ---- expressions

ALLOWED = ("MIT", "Zlib", "A WITH E", "GPL-2.0")
TWELVE = ["L%d" % number for number in range(12)]
USING_ALL = "MIT AND Zlib AND A WITH E AND GPL-2.0"


def beside(text):
    """A crate with a licence, beside one that uses all that is allowed."""
    return {"app": USING_ALL, "x": text}


def expressions():
    """What is asked for, by `AND`, `OR` and parentheses, where four requirements are allowed."""
    for text, requirements in (
        ("MIT", ""), ("ISC", "ISC"), ("MIT OR ISC", ""), ("ISC OR MIT", ""), ("ISC/MIT", ""), ("MIT / ISC", ""),
        ("ISC OR BSD", "ISC BSD"), ("MIT AND Zlib", ""), ("MIT AND ISC", "ISC"), ("ISC AND MIT", "ISC"),
        ("ISC AND MIT OR Zlib", ""), ("ISC OR MIT AND Zlib", ""), ("MIT OR ISC AND BSD", ""),
        ("ISC OR MIT AND BSD", "ISC BSD"), ("ISC AND (MIT OR Zlib)", "ISC"), ("(ISC OR MIT) AND Zlib", ""),
        ("(ISC OR MIT) AND (BSD OR Zlib)", ""), ("(ISC OR BSD) AND MIT", "ISC BSD"), ("((MIT))", ""),
        ("(ISC AND MIT) OR (Zlib AND BSD)", "ISC BSD"), ("MIT/ISC AND BSD", ""), ("MIT AND ISC/Zlib", ""),
        ("ISC AND MIT AND ISC", "ISC ISC"), ("ISC OR ISC/ISC", "ISC ISC ISC"), ("MIT AND MIT OR MIT", ""),
        ("GPL-2.0+", ""), ("ISC+", "ISC"), ("mit", "mit"), ("Zlib OR mit", ""), ("MIT-0", "MIT-0"), ("MI", "MI"),
        ("AND+", "AND"), ("LicenseRef-x", "LicenseRef-x"), (" \tMIT\t ", ""), ("A", "A"), ("E", "E"),
        (" OR ".join(["ISC"] * 9 + ["MIT"]), ""), (" AND ".join(["MIT"] * 9 + ["ISC"]), "ISC"),
        ("(" * 64 + "MIT" + ")" * 64, ""), (" AND ".join(TWELVE), " ".join(TWELVE)),
    ):
        by_hand = rejected(text, *requirements.split()) if requirements else accepted(text)
        short = text if len(text) < 60 else "%s.. %d" % (text[:10], len(text))
        yield licence("asked for: %s" % short, allow(*ALLOWED), beside(text), all_of(accepted(USING_ALL), by_hand))
    for text, requirements in (
        ("A WITH E", []), ("A+ WITH E", []), ("A WITH E+", []), ("A WITH F", ["A WITH F"]), ("B WITH E", ["B WITH E"]),
        ("MIT WITH E", ["MIT WITH E"]), ("A WITH e", ["A WITH e"]), ("A  WITH\tE", []),
        ("A OR A WITH F", ["A", "A WITH F"]), ("A OR A WITH E", []), ("A AND A WITH E", ["A"]),
        ("E WITH A", ["E WITH A"]), ("A WITH WITH+", ["A WITH WITH"]),
    ):
        by_hand = rejected(text, *requirements) if requirements else accepted(text)
        name = "asked for: %s" % compact(text)
        yield licence(name, allow(*ALLOWED), beside(text), all_of(accepted(USING_ALL), by_hand))
    for text in ("MIT+", " MIT", "MIT\\t"):
        written = 'allow = ["%s"]' % text
        yield licence("allowed as `%s`" % text, written, {"app": "MIT", "x": "MIT+"}, accepted("MIT", "MIT+"))
    yield licence(
        "allowed with an exception", allow("A", "A+ WITH E+"), {"app": "A WITH E", "x": "B OR A+ WITH E"},
        all_of(accepted("A WITH E", "B OR A+ WITH E"), unused("A"))
    )
    yield licence(
        "an odd text", allow("MIT"), {"app": "MIT", "x": "MIT\tAND\té\n\u0001"},
        lines=judged(TREES_OF_APP, "MIT") + told(
            "parse-error", "error", "license expression of crate 'x = 1.0.0' can't be read at byte 8",
            notes=["license = 'MIT\tAND\té\n\u0001'"], graphs=TREES_OF_X
        ) + LICENCES_FAILED
    )


def texts():
    """Crates without a licence, and texts that cannot be read, by the place where they go wrong."""
    unlicensed = all_of(accepted("MIT"), "unlicensed x")
    yield licence("none", allow("MIT"), {"app": "MIT"}, unlicensed)
    for name, text in (("null", None), ("empty", "")):
        yield licence(name, allow("MIT"), {"app": "MIT", "x": text}, unlicensed)
    for text, place in (
        (" ", 1), ("\t  ", 3), ("MIT AND", 7), ("MIT AND ", 8), ("MIT OR OR Zlib", 7), ("AND", 0), (" OR MIT", 1),
        ("MIT MIT", 4), ("MIT,MIT", 3), ("MIT\n", 3), ("MIT OR\r\nMIT", 6), ("(MIT", 4), ("MIT)", 3), ("()", 1),
        ("MIT WITH", 8), ("MIT WITH AND", 9), ("A WITH B WITH C", 9), ("(MIT) WITH E", 6), ("MIT or MIT", 4),
        ("MIT With E", 4), ("A++", 2), ("A+B", 2), ("é", 0), ("MIT OR é", 7), ("MIT OR MITé", 10), ("A_B", 1),
        ("MIT / ", 6), ("/", 0), ("MIT//MIT", 4), ("LicenseRef:x", 10), ("MIT\u00a0OR MIT", 3), ("(MIT OR", 7),
        ("(MIT OR)", 7), ("MIT (MIT)", 4), ("(MIT) MIT", 6), ("+", 0), ("A +", 2), ("(" * 65 + "MIT" + ")" * 65, 64),
        ("MIT AND " + "(" * 70, 72),
    ):
        short = text if len(text) < 20 else "%s.. %d" % (text[:10], len(text))
        all_of_it = {"app": "MIT", "x": text}
        by_hand = all_of(accepted("MIT"), "parse-error x %d" % place)
        yield licence("unreadable: %r" % short, allow("MIT"), all_of_it, by_hand)
    yield licence(
        "one that cannot be read uses nothing", allow("MIT", "Zlib"), {"app": "MIT", "x": "Zlib OR"},
        all_of(accepted("MIT"), "parse-error x 7", unused("Zlib"))
    )
    yield licence(
        "one that is rejected uses what it may", allow("MIT", "Zlib"), {"app": "MIT", "x": "Zlib AND (B OR C)"},
        all_of(accepted("MIT"), rejected("Zlib AND (B OR C)", "B", "C"))
    )
    yield licence(
        "alternatives that are not needed are used too", allow("MIT", "Zlib"), {"app": "MIT", "x": "MIT OR Zlib"},
        accepted("MIT", "MIT OR Zlib")
    )


# ---- which crates


def private():
    """Crates that are published nowhere, everywhere, or in some registries; each has its name as its licence."""
    lists = {"app": None, "n": [], "a": ["a"], "ab": ["b", "a"], "aa": ["a", "a"], "c": ["c"], "io": ["crates-io"]}
    text = ", ".join("app -> %s" % name for name in lists if name != "app")
    by_name = {name: name for name in lists}
    for ignore in ("", "ignore = false", "ignore = true"):
        for registries, passed_over in (
            (None, "n"), ([], "n"), (["a"], "a aa n"), (["b", "a", "a"], "a aa ab n"), (["A", ""], "n"),
            (["c", "b"], "c n"), (["crates-io"], "io n"),
        ):
            skipped = passed_over.split() if ignore.endswith("true") else []
            by_hand = [
                "skipped-private-workspace-crate %s" % name if name in skipped else "accepted: %s" % name
                for name in sorted(lists)
            ]
            listed = "" if registries is None else "registries = %s" % quoted(registries)
            written = ", ".join(filter(None, (ignore, listed)))
            yield licence(
                "private: %s" % (written or "nothing"), "private = { %s }\n%s" % (written, allow(*lists)), by_name,
                all_of(*by_hand, unused(*(name for name in lists if name in skipped))), text, lists
            )
    ignoring = "[licenses.private]\nignore = true"
    yield licence(
        "private crates without a licence and with one that cannot be read", ignoring, {"x": "("},
        "skipped-private-workspace-crate app; skipped-private-workspace-crate x", publish={"app": [], "x": []}
    )
    yield licence(
        "a private crate and exceptions of it", "exceptions = [%s]\n%s" % (exception("app", "A"), ignoring),
        {"app": "A", "x": "B"}, all_of(
            "skipped-private-workspace-crate app", rejected("B", "B"), unused_exceptions("app")
        ), publish={"app": []}
    )
    yield licence(
        "a private crate that only tests need", ignoring, {"app": "MIT", "x": "MIT"}, rejected("MIT", "MIT"),
        "app -> x dev", {"x": []}
    )


def reached():
    """Crates by edges of each kind, with `include-dev` and without."""
    names = ["app", "b", "d", "e", "f", "n", "nd"]
    text = "app -> n, app -> b build, app -> d dev, d -> e, d -> f build, app -> f dev normal, n -> nd dev, z -> app"
    for key, told_of in (
        ("", "app b f n"), ("include-dev = false\n", "app b f n"), ("include-dev = true\n", "app b d e f n nd")
    ):
        licences = {name: name for name in names}
        by_hand = all_of(accepted(*told_of.split()), unused(*(name for name in names if name not in told_of.split())))
        yield licence("reached, %s" % (key.strip() or "nothing written"), key + allow(*names), licences, by_hand, text)
    yield licence(
        "members that need each other for tests", allow("MIT"), {"app": "MIT", "lib": "A", "x": "MIT"},
        all_of(accepted("MIT"), rejected("A", "A"), accepted("MIT")), "app -> lib dev, lib -> x", members="app lib"
    )
    yield licence(
        "a crate that counts in the bans check alone", allow("MIT"), {"app": "MIT", "x": "A"}, accepted("MIT"),
        "app -> x dev", bans="multiple-versions-include-dev = true\n"
    )
    yield licence(
        "crates that are banned and allowed", allow("MIT"), {"app": "MIT", "x": "A", "y": "B"},
        all_of(
            "not-allowed app", "banned x", "not-allowed x", "allowed y", accepted("MIT"), rejected("A", "A"),
            rejected("B", "B")
        ), "app -> x, app -> y", bans="deny = ['x']\nallow = ['y']\n"
    )
    yield case("licences: no crates", "[licenses]\nallow = ['MIT']\n", EMPTY, by_hand=unused("MIT"))


EMPTY = {"packages": [], "resolve": {"nodes": []}, "workspace_members": [], "workspace_root": "/"}

# ---- what is allowed


def allowances():
    """Lists of licences, and which of them come to nothing."""
    of = {"app": "A", "x": "A OR B"}
    for list_, by_hand in (
        ("", all_of(rejected("A", "A"), rejected("A OR B", "A", "B"))), ("A", accepted("A", "A OR B")),
        ("B", all_of(rejected("A", "A"), accepted("A OR B"))), ("B A", accepted("A", "A OR B")),
        ("A A", all_of(accepted("A", "A OR B"), unused("A"))),
        ("A A+ A", all_of(accepted("A", "A OR B"), unused("A+", "A"))),
        ("C A D", all_of(accepted("A", "A OR B"), unused("C", "D"))),
        ("a", all_of(rejected("A", "A"), rejected("A OR B", "A", "B"), unused("a"))),
    ):
        yield licence("allowed: %s" % (list_ or "nothing"), allow(*list_.split()), of, by_hand)


def exceptions():
    """Exceptions stand before what all may ask for, in their order."""
    of = {"app": "A", "x": "A AND B", "x@2.0.0": "B OR C"}
    both = "app -> x, app -> x@2.0.0"
    for name, allowed, list_, by_hand in (
        ("for one crate", "A", [exception("x", "B")], accepted("A", "A AND B", "B OR C")),
        (
            "for one of two versions", "A", [exception("x@1", "B")],
            all_of(accepted("A", "A AND B"), rejected("B OR C", "B", "C"))
        ),
        (
            "for the other version", "A", [exception("x@2", "B")],
            all_of(accepted("A"), rejected("A AND B", "B"), accepted("B OR C"))
        ),
        (
            "for each version", "A", [exception("x@=2.0.0", "C"), exception("x:1", "B")],
            accepted("A", "A AND B", "B OR C")
        ),
        (
            "for another crate", "A B", [exception("y", "B"), exception("xx", "B")],
            all_of(accepted("A", "A AND B", "B OR C"), unused_exceptions("y", "xx"))
        ),
        (
            "that lists nothing", "A B", [exception("x"), exception("app")],
            all_of(accepted("A", "A AND B", "B OR C"), unused_exceptions("x", "app"))
        ),
        (
            "before what is allowed", "B A", [exception("x", "B"), exception("x", "A")],
            all_of(accepted("A", "A AND B", "B OR C"), unused("B"))
        ),
        (
            "before what is allowed to all, for all who ask", "A", [exception("app", "A"), exception("x", "B", "A")],
            all_of(accepted("A", "A AND B", "B OR C"), unused("A"))
        ),
        (
            "twice, the first of which counts", "A", [exception("x", "B"), exception("x", "B")],
            all_of(accepted("A", "A AND B", "B OR C"), unused_exceptions("x"))
        ),
        (
            "twice, the narrow one first", "A", [exception("x@2", "B"), exception("x", "B")],
            accepted("A", "A AND B", "B OR C")
        ),
        (
            "twice, the wide one first", "A", [exception("x", "B"), exception("x@2", "B", "C")],
            accepted("A", "A AND B", "B OR C")
        ),
        (
            "twice, the narrow one second and alike", "A", [exception("x", "C", "B"), exception("x@2", "B", "C")],
            all_of(accepted("A", "A AND B", "B OR C"), unused_exceptions("x"))
        ),
        ("with what nobody asks for", "A", [exception("x", "Q", "B", "B")], accepted("A", "A AND B", "B OR C")),
        (
            "for the member", "B", [exception("app", "A")],
            all_of(accepted("A"), rejected("A AND B", "A"), accepted("B OR C"))
        ),
        (
            "for all of them, nothing allowed", "", [exception("x", "A", "B", "C"), exception("app", "A")],
            accepted("A", "A AND B", "B OR C")
        ),
    ):
        written = "%s\nexceptions = [%s]" % (allow(*allowed.split()), ", ".join(list_))
        yield licence("exceptions %s" % name, written, of, by_hand, both)
    yield licence(
        "an exception of an exception", "exceptions = [%s]" % exception("x", "A WITH E"),
        {"app": "A WITH E", "x": "A+ WITH E"},
        all_of(rejected("A WITH E", "A WITH E"), accepted("A+ WITH E"))
    )
    yield licence(
        "exceptions in tables of their own", "%s\n[[licenses.exceptions]]\nname = 'q'\nversion = '1'\nallow = []\n"
        "[[licenses.exceptions]]\nallow = ['B']\ncrate = 'x@1'" % allow("A"), {"app": "A", "x": "B"},
        all_of(accepted("A", "B"), unused_exceptions("q"))
    )
    label = (5, 38, "unmatched license exception", "q")
    yield licence(
        "exceptions at the level of what is unused",
        "unused-allowed-license = 'deny'\nexceptions = [{ allow = [], crate = \"q@1\" }]", {"app": "A"}, text="app",
        lines=judged(TREES_OF_APP, "A", "A") + told(
            "license-exception-not-encountered", "warning", "license exception was not encountered", label
        ) + dead_line("license-exception", 115, 116) + LICENCES_FAILED
    )


# ---- many, and by chance


def many():
    """Many exceptions of one crate, and long expressions."""
    names = ["L%d" % number for number in range(1000)]
    any_of, each_of = " OR ".join(names), " AND ".join(names)
    each = "exceptions = [%s]" % ", ".join(exception("x", name) for name in names)
    yield licence(
        "1,000 exceptions of one crate, any of them", each, {"app": "L0", "x": any_of},
        all_of(rejected("L0", "L0"), accepted(any_of))
    )
    half = "exceptions = [%s]" % ", ".join(exception("x", name) for name in names[::2])
    yield licence(
        "500 exceptions of 1,000", half, {"app": each_of, "x": each_of},
        all_of(rejected(each_of, *names), rejected(each_of, *names[1::2]))
    )
    yield licence("1,000 licences allowed", allow(*names), {"app": each_of, "x": any_of}, accepted(each_of, any_of))
    yield licence(
        "300 licences allowed of which one is used", allow(*names[:300]), {"app": "L7", "x": "L7"},
        all_of(accepted("L7", "L7"), unused(*(name for name in names[:300] if name != "L7")))
    )
    crates = ["c%03d" % number for number in range(300)]
    yield licence(
        "300 crates with an exception each", "%s\nexceptions = [%s]" % (
            allow("MIT"), ", ".join(exception(name, name) for name in reversed(crates))
        ), dict({name: "%s AND MIT" % name for name in crates}, app="MIT"),
        accepted("MIT", *("%s AND MIT" % name for name in crates)), ", ".join("app -> %s" % name for name in crates)
    )
    mixed = " OR ".join("(%s)" % " AND ".join(names[n : n + 10]) for n in range(0, 1000, 10))
    yield licence(
        "100 sets of ten, one of which is allowed", allow(*names[500:510]), {"app": mixed, "x": mixed},
        accepted(mixed, mixed)
    )


WORDS = ["A", "B", "C", "D", "A+", "A WITH E", "B WITH E", "C+ WITH F"]


def some_expression(draw, depth=2):
    if depth == 0 or draw(3) == 0:
        return WORDS[draw(len(WORDS))]
    parts = [some_expression(draw, depth - 1) for _ in range(2 + draw(2))]
    joined = (" AND ", " OR ", "/", " OR ")[draw(4)].join(parts)
    return "(%s)" % joined if draw(2) else joined


def some_licence(draw):
    """A licence, most often one that can be read."""
    odd = [None, "", "A AND", "A B", "(A", "A OR é"]
    return odd[draw(len(odd))] if draw(8) == 0 else some_expression(draw)


def some_licences(draw, most):
    return [WORDS[draw(len(WORDS))] for _ in range(draw(most + 1))]


def some_licence_policy(draw):
    lines = []
    excepted = lambda: "[%s]" % ", ".join(exception(some_spec(draw), *some_licences(draw, 3)) for _ in range(draw(5)))
    for chance, key, value in (
        (1, "allow", lambda: quoted(some_licences(draw, 5))), (1, "exceptions", excepted),
        (2, "include-dev", lambda: ("true", "false")[draw(2)]),
        (2, "unused-allowed-license", lambda: "'%s'" % ("allow", "warn", "deny")[draw(3)]),
        (2, "private", lambda: "{ ignore = %s, registries = %s }" % (
            ("true", "true", "false")[draw(3)], quoted("abc"[: draw(3)])
        )),
    ):
        if draw(chance) == 0:
            lines.append("%s = %s" % (key, value()))
    return "\n".join(lines)


def by_chance():
    for seed in range(5000, 5060):
        draw = draws(seed)
        text, members = some_graph(draw)
        words = ["app"] + [word for word in dict.fromkeys(text.replace(",", "").split()) if "@" in word]
        licences = {word: some_licence(draw) for word in words}
        lists = {word: ["abd"[draw(3)] for _ in range(draw(3))] for word in words if draw(3) == 0}
        bans = "deny = ['x']\n" if draw(4) == 0 else ""
        policy = some_licence_policy(draw)
        yield licence("by chance, %d" % seed, policy, licences, text=text, members=members, publish=lists, bans=bans)


def licence_check_cases():
    parts = (rows, both_checks, expressions, texts, private, reached, allowances, exceptions, many, by_chance)
    for part in parts:
        yield from part()
