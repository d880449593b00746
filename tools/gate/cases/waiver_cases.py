"""Cases of waivers that expire: each kind on its last day and on the next, how a day is written, and what an entry that
expired still does and what it does no more."""

import re

from build_cases import BUILD
from case_parts import (
    ALONE, DENY_SEVERAL, PASSED, TWO_X, built_graph, case, draws, furnished, graph, licensed, public_graph, told,
)
from dead_cases import TABLE_OF_X, some_whole_case
from package_cases import some_case
from readings.report import compact, stop_line

LAST, NEXT = "2026-01-31", "2026-02-01"
ELF = b"\x7fELF" + b"\0" * 20


def on(day, name, policy, text=ALONE, **more):
    """A case on a day, or without one."""
    options = [] if day is None else ["--today=" + day]
    return case("waivers: %s" % name, policy, text, options=options + more.pop("more_options", []), **more)


def expired(day, spec, *labels):
    """The line of a waiver that expired."""
    return told("waiver-expired", "warning", "waiver '%s' expired on %s" % (spec, day), *labels)


# ---- rows

OF_A_SKIP = DENY_SEVERAL + 'skip = [{ crate = "x@=1.0.0", expires = "2026-01-31" }]\n'


def rows():
    """Runs as a user meets them."""
    yield on(LAST, "a skip on its last day", OF_A_SKIP, TWO_X, by_hand="skipped x", dead="")
    yield on(
        NEXT, "a skip on the next day", OF_A_SKIP, TWO_X, by_hand="waiver-expired x@=1.0.0; duplicate x", dead=""
    )
    yield on(None, "a skip and no day", OF_A_SKIP, TWO_X, by_hand="no-today 75..85 bans.skip.0.expires")
    yield on("2026-02-30", "a skip and no day of the calendar", OF_A_SKIP, TWO_X, stop=stop_line("usage", at=1))
    yield on(
        NEXT, "the line of a skip that expired", OF_A_SKIP,
        lines=expired(LAST, "x = =1.0.0", (3, 42, "expired here", LAST)) + PASSED
    )
    yield on(
        NEXT, "the line of a skipped tree with a reason",
        "[bans]\nskip-tree = [{ reason = 'for now', name = 'x', version = '1', expires = 2026-01-31 }]\n",
        lines=expired(LAST, "x = 1", (2, 73, "expired here", LAST), (2, 26, "reason", "for now")) + PASSED
    )


# ---- each kind


def of_skips(expires):
    return DENY_SEVERAL + "skip = [{ crate = 'x@2', %s }]\n" % expires, TWO_X, {}


def of_trees(expires):
    text = compact(graph("app -> x, app -> y, y -> x@2.0.0"))
    return DENY_SEVERAL + "skip-tree = [{ %s, depth = 3, crate = 'y' }]\n" % expires, text, {}


def of_bypasses(expires):
    listed = "allow = [{ path = 'a' }, { path = 'q' }], allow-globs = ['b*', 'r*']"
    policy = BUILD + "bypass = [{ crate = 'x', %s, %s }]\n" % (listed, expires)
    files = {"/r/x-1.0.0/" + name: {"hex": ELF.hex()} for name in ("a", "b")}
    return policy, compact(built_graph("app -> x", x="proc-macro")), {"files": files}


def of_ignores(expires):
    policy = "[bans.std-replacements]\nignore = [{ crate = 'x', %s, reason = 'r' }]\n" % expires
    return policy, compact(public_graph("app -> x")), {"table": TABLE_OF_X}


def of_exceptions(expires):
    policy = "[licenses]\nallow = ['MIT']\nexceptions = [{ name = 'x', allow = ['Zlib'], %s }]\n" % expires
    return policy, compact(licensed("app -> x", {"app": "MIT", "x": "Zlib"})), {}


# Each kind: a policy with an entry of it, and what is told and dead before it expired, and afterwards.
KINDS = {
    "skip": (of_skips, "skipped x@2.0.0", "", "waiver-expired x@2; duplicate x"),
    "skipped tree": (
        of_trees, "skipped-by-root x@2.0.0; skipped-by-root y", "", "waiver-expired y; duplicate x"
    ),
    "bypass": (
        of_bypasses, "path-bypassed a; path-bypassed-by-glob b; unmatched-path-bypass q; unmatched-glob r*",
        "bypass-path q; bypass-glob r*",
        "waiver-expired x; detected-executable a elf; detected-executable b elf"
    ),
    "ignore": (of_ignores, "", "", "waiver-expired x; replaced-in-std x"),
    "exception": (
        of_exceptions, "accepted: MIT; accepted: Zlib", "", "waiver-expired x; accepted: MIT; rejected: Zlib: Zlib"
    ),
}


def each_kind():
    """Each kind long before, on its last day, on the next and long after; by a text and by a date."""
    for kind, (policy_of, before, dead, after) in KINDS.items():
        for written in "'%s'" % LAST, LAST:
            policy, text, more = policy_of("expires = %s" % written)
            for day, by_hand in (("0000-01-01", before), (LAST, before), (NEXT, after), ("9999-12-31", after)):
                gone = dead if by_hand == before else ""
                yield on(
                    day, "a %s until %s on %s" % (kind, written, day), policy, text, by_hand=by_hand, dead=gone, **more
                )
        policy, text, more = policy_of("expires = '%s'" % LAST)
        yield on(None, "each kind: a %s and no day" % kind, policy, text, **more)


# ---- how a day is written

# Texts of days, and others.
DAYS = [
    "2024-02-29", "2000-02-29", "0000-02-29", "0000-01-01", "9999-12-31", "2025-02-28", "2025-04-30", "0400-02-29",
    "0001-01-01", "2025-12-31",
]
NO_DAYS = [
    "2025-02-29", "1900-02-29", "2100-02-29", "2026-02-30", "2026-04-31", "2026-13-01", "2026-00-10", "2026-01-00",
    "2026-01-32", "2026-2-3", "26-01-31", "2026-01-31 ", " 2026-01-31", "2026/01/31", "2026-01-3", "2026-01-311",
    "20260131", "2026-W05-6", "2026-031", "2026-01-31T00:00:00", "2026-01-31Z", "+2026-01-31", "-026-01-31",
    "2026-+1-31", "2026-01-+1", "2026-01_31", "2026_01-31", "a026-01-31", "2026-01-3b", "２026-01-31", "", "today",
    "2026-1-311", "2026-011-1",
]
# Values of other kinds, and dates that name no day, or more than one.
NO_DATES = [
    "2025-02-29", "2026-02-31", "2026-01-31T00:00:00Z", "2026-01-31T00:00:00", "2026-01-31 00:00:00+01:00", "00:00:00",
    "2026-01-31t07:32:00.5",
]
OTHER_KINDS = ["20260131", "1.5", "true", "[]", "['2026-01-31']", "{}", "[2026-01-31]"]


def days():
    """Texts, dates and values of other kinds, where a day is handed in and where none is."""
    written = "[bans]\nskip = [{ crate = 'x', expires = %s }]\n"
    at = lambda kind, length, quote: "%s %d..%d bans.skip.0.expires" % (kind, 40 + quote, 40 + quote + length)
    for day in DAYS:
        for text in "'%s'" % day, day:
            fault = at("no-today", len(day), text != day)
            yield on(None, "the day %s, none at hand" % text, written % text, by_hand=fault)
            yield on(day, "the day %s, on it" % text, written % text, by_hand="unmatched-skip x", dead="skip x")
    for text in NO_DAYS:
        fault = at("unreadable", len(text.encode()), 1)
        for day in None, NEXT:
            yield on(day, "the text %r on %s" % (text, day), written % ("'%s'" % text), by_hand=fault)
    for kind, values in ("unreadable", NO_DATES), ("wrong-kind", OTHER_KINDS):
        for value in values:
            for day in None, NEXT:
                yield on(
                    day, "%s on %s" % (value, day), written % value, by_hand=at(kind, len(value), 0)
                )
    for last, day in (
        ("2023-12-31", "2024-01-01"), ("2024-02-28", "2024-02-29"), ("2024-02-29", "2024-03-01"),
        ("2023-02-28", "2023-03-01"), ("1999-12-31", "2000-01-01"), ("0000-12-31", "0001-01-01"),
        ("0999-12-31", "1000-01-01"), ("2026-09-30", "2026-10-01"),
    ):
        yield on(last, "until %s, on it" % last, written % last, by_hand="unmatched-skip x", dead="skip x")
        yield on(day, "until %s, on %s" % (last, day), written % last, by_hand="waiver-expired x", dead="")


def written_days():
    """How the text of a day may be written, and what a label shows of it."""
    for what, text, column, span in (
        ("with an escape", '"2026\\u002d01-31"', 34, "2026\\u002d01-31"),
        ("in three quotes", '"""2026-01-31"""', 36, LAST),
        ("on a line of its own", "'''\n2026-01-31'''", 36, "\n2026-01-31"),
        ("as a date", LAST, 33, LAST),
    ):
        policy = "[bans]\nskip = [{ name = 'é', expires = %s }]\n" % text
        label = (2, column, "expired here", span)
        yield on(NEXT, "a day %s" % what, policy, lines=expired(LAST, "é", label) + PASSED)
    for what, text in (
        ("in a table of its own", "[[bans.skip]]\nexpires = 2026-01-31\nname = 'x'\n[[bans.skip]]\nname = 'y'\n"),
        ("below a key", "[bans]\nskip = [{ name = 'x', expires.on = 2026-01-31 }]\n"),
        ("twice", "[bans]\nskip = [{ name = 'x', expires = 2026-01-31, expires = 2026-01-31 }]\n"),
        ("in another case", "[bans]\nskip = [{ name = 'x', Expires = 2026-01-31 }]\n"),
        ("in an entry without a name", "[bans]\nskip = [{ expires = 2026-01-31 }]\n"),
    ):
        for day in None, LAST, NEXT:
            yield on(day, "a day %s on %s" % (what, day), text)
    for where, text in (
        ("a ban", "[bans]\ndeny = [{ crate = 'x', expires = %s }]\n"),
        ("an allowance", "[bans]\nallow = [{ crate = 'x', expires = %s }]\n"),
        ("features", "[bans]\nfeatures = [{ crate = 'x', expires = %s }]\n"),
        ("a build script", "[bans.build]\nallow-build-scripts = [{ crate = 'x', expires = %s }]\n"),
        ("a path", "[bans.build]\nbypass = [{ crate = 'x', allow = [{ path = 'p', expires = %s }] }]\n"),
        ("a policy", "[bans]\nexpires = %s\n"), ("licences", "[licenses]\nexpires = %s\n"),
    ):
        written = text % LAST
        start = written.index("expires")
        key = {"a ban": "deny.0.", "an allowance": "allow.0.", "features": "features.0.",
               "a build script": "build.allow-build-scripts.0.", "a path": "build.bypass.0.allow.0."}.get(where, "")
        table = "licenses" if where == "licences" else "bans"
        fault = "unknown %d..%d %s.%sexpires" % (start, start + 7, table, key)
        yield on(NEXT, "a day of %s" % where, written, by_hand=fault)


# ---- what an entry that expired still does


def stops():
    """Faults and contradictions, which are those of what is written; and which of them is told."""
    expires = "expires = '%s'" % LAST
    for day in LAST, NEXT:
        yield on(
            day, "a skip and a ban on %s" % day, "[bans]\ndeny = ['x']\nskip = [{ crate = 'x', %s }]\n" % expires,
            by_hand="2:10 3:20"
        )
        yield on(
            day, "a skip and an allowance on %s" % day,
            "[bans]\nallow = ['x']\nskip = [{ crate = 'x', %s }]\n" % expires, by_hand="2:11 3:20"
        )
        yield on(
            day, "a bad glob on %s" % day, BUILD + "bypass = [{ crate = 'x', allow-globs = ['a['], %s }]\n" % expires,
            by_hand="2:42"
        )
        yield on(
            day, "an absolute path on %s" % day,
            BUILD + "bypass = [{ crate = 'x', allow = [{ path = '/a' }], %s }]\n" % expires, by_hand="2:45"
        )
        yield on(
            day, "a key that is unknown on %s" % day, "[bans]\nskip = [{ crate = 'x', more = 1, %s }]\n" % expires,
            by_hand="unknown 30..34 bans.skip.0.more"
        )
        yield on(day, "metadata with a fault on %s" % day, OF_A_SKIP, "{", by_hand="metadata")
    yield on(
        None, "a fault beside several days, none at hand",
        "[bans]\nskip = [{ crate = 'x', %s }, { crate = '', %s, more = 1 }]\nskip-tree = [{ expires = 1 }]\n"
        % (expires, expires),
        by_hand="no-today 41..51 bans.skip.0.expires; unreadable 67..67 bans.skip.1.crate; "
        "no-today 81..91 bans.skip.1.expires; unknown 94..98 bans.skip.1.more; "
        "missing 119..134 bans.skip-tree.0.name; wrong-kind 131..132 bans.skip-tree.0.expires"
    )
    yield on(
        None, "a contradiction, and no day", "[bans]\ndeny = ['x']\nskip = [{ crate = 'x', %s }]\n" % expires,
        by_hand="no-today 54..64 bans.skip.0.expires"
    )
    yield on(None, "no day, and none that is needed", "[bans]\nskip = [{ crate = 'x', reason = 'r' }]\n",
             by_hand="unmatched-skip x", dead="skip x")
    ignored = "[bans.std-replacements]\nscope = '%s'\nignore = [{ crate = 'x', %s }]\n"
    yield on(NEXT, "an ignore for the scope of no crate", ignored % ("none", expires), by_hand="waiver-expired x")
    yield on(NEXT, "an ignore, and no table", ignored % ("all", expires), by_hand="replacement 0")


def gone():
    """What an entry that expired does no more: neither hit nor unused, and others take its place."""
    expires = "expires = '%s'" % LAST
    yield on(
        NEXT, "a skip that was for no crate", "[bans]\nskip = [{ crate = 'q', %s }]\n" % expires,
        by_hand="waiver-expired q", dead=""
    )
    yield on(
        NEXT, "a skip that was unnecessary", "[bans]\nskip = [{ crate = 'x', %s }]\n" % expires,
        compact(graph("app -> x")), by_hand="waiver-expired x", dead=""
    )
    yield on(
        NEXT, "a tree of no crate", "[bans]\nskip-tree = [{ crate = 'q', %s }]\n" % expires,
        by_hand="waiver-expired q", dead=""
    )
    yield on(
        NEXT, "a skip beside one without a day",
        DENY_SEVERAL + "skip = [{ crate = 'x@1', %s }, 'x@1', 'q']\n" % expires, TWO_X,
        by_hand="waiver-expired x@1; skipped x; unmatched-skip q", dead="skip q"
    )
    two = "bypass = [{ crate = 'x', allow = [{ path = 'b' }], %s }, { crate = 'x', allow = [{ path = 'a' }] }]\n"
    files = {"/r/x-1.0.0/a": {"hex": ELF.hex()}}
    for day, by_hand, dead in (
        (LAST, "detected-executable a elf; unmatched-path-bypass b; unmatched-bypass x",
         "bypass-path b; bypass x"),
        (NEXT, "waiver-expired x; path-bypassed a", ""),
    ):
        yield on(
            day, "the first of two bypasses, on %s" % day, BUILD + two % expires,
            compact(built_graph("app -> x", x="proc-macro")), files=files, by_hand=by_hand, dead=dead
        )
    exceptions = "[licenses]\nexceptions = [{ crate = 'x', allow = ['A'], %s }, { crate = 'x', allow = ['A'] }]\n"
    text = compact(licensed("x", {"x": "A"}, members="x"))
    for day, by_hand, dead in (
        (LAST, "accepted: A; license-exception-not-encountered x", "license-exception x"),
        (NEXT, "waiver-expired x; accepted: A", ""),
    ):
        yield on(
            day, "the first of two exceptions, on %s" % day, exceptions % expires, text, by_hand=by_hand, dead=dead
        )


def several():
    """Several that expired, in their order before all else."""
    yield on(
        NEXT, "two of one day", "[bans]\nskip = [{ crate = 'y', expires = %s }, { crate = 'x', expires = %s }]\n"
        % (LAST, LAST), by_hand="waiver-expired y; waiver-expired x", dead=""
    )
    yield on(
        NEXT, "one of two", "[bans]\nskip = [{ crate = 'y', expires = %s }, { crate = 'x', expires = %s }]\n"
        % (NEXT, LAST), by_hand="waiver-expired x; unmatched-skip y", dead="skip y"
    )
    yield on(
        NEXT, "two of one name", "[bans]\nskip = [{ crate = 'x', expires = 2025-01-01 }, { crate = 'x', expires = "
        "'2024-01-01' }]\n", labels="waiver-expired 2:34 2025-01-01; waiver-expired 2:74 2024-01-01"
    )
    whole = (
        "[licenses]\nexceptions = [{ crate = 'e', allow = [], expires = %s }]\n"
        "[bans]\nallow-build-scripts = []\nskip-tree = [{ crate = 't', expires = %s }]\ndeny = ['x']\n"
        "skip = [{ crate = 's@1', expires = %s }, 'q']\n"
        "[bans.std-replacements]\nignore = [{ crate = 'i', expires = %s }]\n"
    ) % ((LAST,) * 4)
    value = furnished(public_graph("app -> x"), {"app": {"license": "MIT"}, "x": {"license": "MIT"}})
    rejected = "rejected: MIT: MIT; rejected: MIT: MIT"
    yield on(
        NEXT, "all kinds beside the older key and errors", whole, value, table=TABLE_OF_X,
        by_hand="deprecated; waiver-expired e; waiver-expired t; waiver-expired s@1; waiver-expired i; banned x; "
        "unmatched-skip q; replaced-in-std x; " + rejected, dead="skip q"
    )
    yield on(
        LAST, "all kinds on their last day", whole, value, table=TABLE_OF_X,
        by_hand="deprecated; banned x; unmatched-skip s@1; unmatched-skip q; unmatched-skip-root; "
        "unmatched-replacement-ignore i; replaced-in-std x; " + rejected + "; license-exception-not-encountered e",
        dead="license-exception e; skip-root t; skip s; skip q; replacement-ignore i"
    )
    listed = ", ".join("{ name = 'n%03d', expires = 2026-01-%02d }" % (n, 1 + n % 31) for n in range(100))
    names = ["n%03d" % n for n in range(100) if 1 + n % 31 < 16]
    alive = ["n%03d" % n for n in range(100) if 1 + n % 31 >= 16]
    yield on(
        "2026-01-16", "a hundred", "[bans]\nskip = [%s]\n" % listed,
        by_hand="; ".join(["waiver-expired %s" % name for name in names] + ["unmatched-skip %s" % n for n in alive]),
        dead="; ".join("skip %s" % name for name in alive)
    )


# ---- words

ONE = "--registry=own=https://example.org/"
TODAY = "--today=2026-02-01"
# Words with a day, and the place at which they go wrong, or None.
WORDS = [
    ([TODAY, "p", "m"], None), ([TODAY, "--home=/h", ONE, "p", "m"], None), ([ONE, "--home=/h", TODAY, "p", "m"], None),
    ([TODAY, "p", "m", "r"], None), (["--today=0000-01-01", "p", "m"], None), (["--today=9999-12-31", "p", "m"], None),
    (["--today=2024-02-29", "p", "m"], None),
    ([TODAY, TODAY, "p", "m"], 2), ([TODAY, ONE, "--today=2026-02-02", "p", "m"], 3), ([TODAY], 2), ([TODAY, "p"], 3),
    (["--today=2025-02-29", "p", "m"], 1), (["--today=2026-2-3", "p", "m"], 1), (["--today=", "p", "m"], 1),
    (["--today", "2026-02-01", "p", "m"], 1), (["--Today=2026-02-01", "p", "m"], 1), (["p", TODAY, "m"], 2),
    (["p", "m", TODAY], 3), (["--today=2026-02-01 ", "p", "m"], 1), (["--today==2026-02-01", "p", "m"], 1),
    (["--today=2026-02-01\n", "p", "m"], 1), (["--today=2026-00-01", "p", "m"], 1),
    (["-today=2026-02-01", "p", "m"], 1),
    (["--today=2026-02-01T00:00:00", "p", "m"], 1), (["--today=２026-02-01", "p", "m"], 1),
    (["--today=today", "p", "m"], 1), (["--home=--today=2026-02-01", "p", "m"], None),
    (["--today=--home=/h", "p", "m"], 1), ([ONE, "--today=2026-02-30", "p", "m"], 2),
]


def words():
    """Options that name a day, and others that nearly do."""
    for list_, place in WORDS:
        stop = {} if place is None else {"stop": stop_line("usage", at=place)}
        all_ = ["check", *list_]
        yield dict({"name": "words %s" % compact(all_), "words": all_, "files": {"p": "", "m": ALONE}}, **stop)
    for list_, place in (["generate", TODAY, "4"], 1), (["generate", "4", TODAY], 2), ([TODAY, "check", "p", "m"], 0):
        yield {"name": "words %s" % compact(list_), "words": list_, "stop": stop_line("usage", at=place)}
    stop = stop_line("read", file="policy")
    yield dict(on(NEXT, "a policy that cannot be read", OF_A_SKIP, fail=["deny.toml"]), stop=stop)


# ---- by chance

SOME_DAYS = ["'2026-01-31'", "2026-01-31", "2026-02-01", "'2026-02-01'", "2027-01-01", "'2024-02-29'", "1999-12-31"]
WAIVERS = re.compile("(skip|skip-tree|ignore|bypass|exceptions) = ")


def dated(draw, policy):
    """A policy some of whose waivers have a day; few of the days are none."""
    def expires():
        return "expires = %s" % ("2025-02-29" if draw(400) == 0 else SOME_DAYS[draw(len(SOME_DAYS))])

    def with_day(line):
        key = WAIVERS.match(line)
        if not key:
            return line
        in_table = lambda found: found[0] if draw(2) else "{ %s, crate = " % expires()
        line = re.sub(r"\{ crate = ", in_table, line)
        alone = lambda found: found[0] if draw(2) else "{ crate = %s, %s }" % (found[0], expires())
        is_listed = key[1] in ("skip", "skip-tree", "ignore")
        return re.sub(r"(?:(?<=\[)|(?<=, ))'[^']*'(?=[,\]])", alone, line) if is_listed else line

    return "\n".join(map(with_day, policy.split("\n")))


def some_dated_case(seed):
    """A policy by chance over crates or over packages, some of whose waivers have a day, on a day or without one."""
    draw = draws(seed)
    one = (some_whole_case if draw(3) else some_case)(seed)
    day = (LAST, NEXT, NEXT, "2026-06-01", None)[draw(5)] if draw(10) == 0 else (LAST, NEXT)[draw(2)]
    policy = dated(draw, one["files"]["deny.toml"])
    words = one["words"][:1] + ([] if day is None else ["--today=" + day]) + one["words"][1:]
    files = dict(one["files"], **{"deny.toml": policy})
    return dict(one, name="waivers: by chance, %d" % seed, words=words, files=files)


def by_chance():
    yield from map(some_dated_case, range(30000, 30400))


def waiver_cases():
    parts = (rows, each_kind, days, written_days, stops, gone, several, words, by_chance)
    for part in parts:
        yield from part()
