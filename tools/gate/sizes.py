#!/usr/bin/env python3
"""Says whether a program answers large texts whole: it may want memory at any time, so a program that gives up at some
size is not refused by its proofs.

    tools/gate/sizes.py PROGRAM     for each text a line: that it is answered whole, or what came instead

PROGRAM is run with the words of `./deny check`. How often it is to say something, and of which names, is known by hand.
"""

import json
import os
import re
import resource
import subprocess
import sys
import tempfile
from pathlib import Path

sys.path.append(str(Path(__file__).resolve().parents[1] / "users"))

from growth import crate, metadata, quoted
from replacement_table import table

ALONE = metadata([crate("app")])
STACK = 8 * 2**20  # bytes, as a shell gives


def names(letter, count):
    return ["%s%06d" % (letter, number) for number in range(count)]


def faults():
    """10,000 keys that nobody knows."""
    return "[bans]\n" + "".join("%s = 1\n" % name for name in names("k", 10000)), ALONE


def clashes():
    """10,000 crates that are banned and allowed."""
    listed = quoted(names("c", 10000))
    return "[bans]\ndeny = %s\nallow = %s\n" % (listed, listed), ALONE


def packages():
    """20,000 crates, each of which is banned."""
    found = names("c", 20000)
    return "[bans]\ndeny = %s\n" % quoted(found), metadata([crate("app")] + [crate(name) for name in found])


def edges():
    """200,000 edges above a crate that stands there in two versions: each of 633 crates needs all behind it."""
    found = names("c", 633)
    needed = {name: found[number + 1 :] for number, name in enumerate(found)}
    needed[found[-1]] = ["x", "x@2"]
    twice = [crate("x"), crate("x", id="x@2", version="2.0.0")]
    return "[bans]\nmultiple-versions = 'deny'\n", metadata([crate(name) for name in found] + twice, (), needed)


def entries():
    """100,000 bans that no crate meets, and one with 100,000 wrappers, none of which needs its crate."""
    bans = ["{ crate = '%s' }" % name for name in names("b", 100000)]
    bans.append("{ crate = 'x', wrappers = %s }" % quoted(names("w", 100000)))
    return "[bans]\ndeny = [\n%s\n]\n" % ",\n".join(bans), metadata([crate("app"), crate("x")])


def features():
    """70,000 features of one crate, more than two bytes count, each of which is enabled, and of which the last 100 are
    denied."""
    found = names("f", 70000)
    packages = [crate("app"), crate("x", features={name: [] for name in found})]
    policy = "[[bans.features]]\ncrate = 'x'\ndeny = %s\n" % quoted(found[-100:])
    return policy, metadata(packages, {"x": {"features": found}})


def denied():
    """10,000 features of one crate, each of which is enabled and denied."""
    found = names("d", 10000)
    packages = [crate("app"), crate("x", features={name: [] for name in found})]
    policy = "[[bans.features]]\ncrate = 'x'\ndeny = %s\n" % quoted(found)
    return policy, metadata(packages, {"x": {"features": found}})


def nodes():
    """10,000 features of one crate, each of which is enabled, and none of which its entry allows: one finding shows the
    tree of each."""
    found = names("n", 10000)
    packages = [crate("app"), crate("x", features={name: [] for name in found})]
    policy = "[[bans.features]]\ncrate = 'x'\nexact = true\nallow = []\n"
    return policy, metadata(packages, {"x": {"features": found}})


def chain():
    """A ban of the last of 10,000 crates, each of which needs the next: one finding shows a tree of them all."""
    found = names("c", 10000)
    needed = {name: found[number + 1 : number + 2] for number, name in enumerate(found)}
    return "[bans]\ndeny = ['%s']\n" % found[-1], metadata([crate(name) for name in found], (), needed)


def replacements():
    """A table of 60,000 items, 600 of each of 100 crates."""
    api = lambda name: [name, "https://example.org/" + name]
    item = lambda name: {"crate": api(name), "std": api("std::" + name)}
    items = [item(name) for name in names("i", 200)]
    one = {
        "stable": [dict(item, minor=number % 4) for number, item in enumerate(items)], "unstable": items,
        "unavailable": [api(name) for name in names("u", 200)],
    }
    found = names("c", 100)
    packages = [crate("app")] + [crate(name) for name in found]
    return "[bans.std-replacements]\nscope = 'all'\n", metadata(packages), {"table": table({name: one for name in found})}


def targets():
    """A wildcard for a target of 100,000 levels, which a manifest writes with a blank more."""
    name = names("a", 1)[0]
    deep = "cfg(%sunix%s)" % ("not(" * 100000, ")" * 100000)
    member = crate(name, source=None, manifest_path="w/Cargo.toml")
    member["dependencies"] = [{"name": "x", "req": "*", "target": deep}]
    value = metadata([member, crate("x")], root="w")
    value["resolve"]["nodes"][0]["deps"] = [{"pkg": "x", "dep_kinds": [{"kind": None, "target": deep}]}]
    manifest = "[target.'%s'.dependencies]\nx = '*'\n" % deep.replace("unix", " unix")
    return "[bans]\nwildcards = 'deny'\n", value, {}, {"w/Cargo.toml": manifest.encode()}


# Each text and its status; by hand how often its lines say something, and the letter and the number of the names in them.
SIZES = [
    (faults, 19, b'"kind":"unknown"', 10000, b"k", 10000),
    (clashes, 20, b'"message":"a crate was specified in both', 10000, b"c", 10000),
    (packages, 2, b'"code":"banned"', 20000, b"c", 20000),
    (edges, 2, b'"code":"duplicate"', 1, b"c", 633),
    (entries, 2, b'"code":"unused-wrapper"', 100000, b"w", 100000),
    (features, 2, b'"code":"feature-banned"', 100, b"f", 100),
    (denied, 2, b'"code":"feature-banned"', 10000, b"d", 10000),
    (nodes, 2, b'"code":"exact-features-mismatch"', 1, b"n", 10000),
    (chain, 2, b'"code":"banned"', 1, b"c", 10000),
    (replacements, 2, b'"code":"replaced-in-std"', 100, b"c", 100),
    (targets, 2, b'"code":"wildcard"', 1, b"a", 1),
]


def run(words, folder):
    """What a run writes, and its status."""
    limit = lambda: resource.setrlimit(resource.RLIMIT_STACK, (STACK, resource.RLIM_INFINITY))
    done = subprocess.run(words, cwd=folder, stdout=subprocess.PIPE, stderr=subprocess.PIPE, preexec_fn=limit)
    return done.stdout + done.stderr, done.returncode


def answered(program, size, *wanted):
    """Whether a text is answered whole, or what was not so."""
    policy, value, *more = size()
    tables, others = (*more, {}, {})[:2]
    named = {"deny.toml": policy.encode(), "metadata.json": json.dumps(value).encode(), **tables}
    with tempfile.TemporaryDirectory() as folder:
        for name, text in {**named, **others}.items():
            path = os.path.join(folder, name)
            os.makedirs(os.path.dirname(path), exist_ok=True)
            with open(path, "wb") as file:
                file.write(text)
        got, status = run([program, "check", *named], folder)
    _, word, _, letter, _ = wanted
    found = status, word, got.count(word), letter, len(set(re.findall(letter + rb"\d{6}", got)))
    return "answered whole" if found == wanted else "it says %d times %s, of %d names, with status %d" % (
        found[2], word.decode(), found[4], status
    )


def long_line(program):
    """A ban at the end of a line of 100 MB."""
    blanks = 10**8
    with tempfile.TemporaryDirectory() as folder:
        with open(os.path.join(folder, "deny.toml"), "w") as file:
            file.write("[bans]\ndeny = [" + " " * blanks + "'x']\n")
        with open(os.path.join(folder, "metadata.json"), "w") as file:
            json.dump(metadata([crate("app"), crate("x")]), file)
        got, status = run([program, "check", "deny.toml", "metadata.json"], folder)
    found = [label for text in got.splitlines() for label in json.loads(text)["fields"].get("labels", [])]
    wanted = [{"column": len("deny = ['") + blanks + 1, "line": 2, "message": "banned here", "span": "x"}]
    return "answered whole" if (found, status) == (wanted, 2) else "%r with status %d" % (found, status)


def main():
    if len(sys.argv) != 2:
        sys.exit(__doc__)
    program = os.path.abspath(sys.argv[1])
    said = [(size.__name__, answered(program, size, *wanted)) for size, *wanted in SIZES]
    said.append((long_line.__name__, long_line(program)))
    for name, what in said:
        print("%s: %s" % (name, what))
    sys.exit(any(what != "answered whole" for _, what in said))


if __name__ == "__main__":
    main()
