#!/usr/bin/env python3
"""Says whether runs over many licences, features, trees, dead entries, manifests and files of packages take time in
step with these.

    tools/gate/growth.py PROGRAM     for each form a line: that it is in step, or the processor time of both sizes

PROGRAM is run with the words of `./deny check`, over the texts of a form and over GROWN times as many. The smaller
size is the one that stands beside the form below, doubled until a run takes SHORTEST, or LARGEST is reached. A round
is a run over the smaller texts, one over the larger ones, and one over the smaller ones again. Of each size the least
processor time counts, since what else a machine does makes a run longer and never shorter. Both are compared after
FEWEST rounds, and after each further one until they are in step, or MOST are over, or the larger one is twice too
long.

In step is where the smaller run takes less than SECONDS, and the larger one less than TIMES as long. So eight times
the texts may take sixteen times as long: n log n passes, and each power of n below 4/3. The power 3/2 takes 23 times
as long and a square 64 times, and neither passes. Unseen is a square that takes less than a seventh of the smaller
run's time, and, where LARGEST ends the doubling, all that takes the larger run less than TIMES * SHORTEST.

Forms among SQUARES have as many of one thing as of another, and each may be looked at with each: in step with the
square is where the larger run takes less than GROWN times that.
"""

import json
import math
import os
import resource
import signal
import subprocess
import sys
import tempfile

SECONDS, GROWN, TIMES = 10, 8, 16
FEWEST, MOST = 3, 12  # rounds
SHORTEST, LARGEST = 0.02, 20000
ROOM = 2**31  # bytes
REGISTRY = "registry+https://github.com/rust-lang/crates.io-index"


def memory():
    """A folder in memory, where files cost no time of a disk, if there is one with room for all."""
    try:
        room = os.statvfs("/dev/shm")
    except OSError:
        return None
    has_room = room.f_bavail * room.f_frsize >= ROOM and os.access("/dev/shm", os.W_OK)
    return "/dev/shm" if has_room else None


MEMORY = memory()


def crate(name, **more):
    own = {"id": name, "manifest_path": "/", "name": name, "version": "1.0.0", "license": "MIT", "source": REGISTRY}
    return dict(own, **more)


def metadata(packages, enabled=(), needed=None, members=1, root="no-workspace"):
    """A graph in which the first package is the member and needs all others, or each what `needed` says."""
    ids = [package["id"] for package in packages]
    needed = {ids[0]: ids[1:]} if needed is None else needed
    needs = {id_: {"deps": [{"pkg": one} for one in list_]} for id_, list_ in needed.items()}
    nodes = [{"id": id_, **needs.get(id_, {}), **dict(enabled).get(id_, {})} for id_ in ids]
    resolve = {"nodes": nodes}
    return {"packages": packages, "resolve": resolve, "workspace_members": ids[:members], "workspace_root": root}


def quoted(texts):
    return "[%s]" % ", ".join("'%s'" % text for text in texts)


def crates(size):
    """A crate with an expression of its own and an exception for it, SIZE times."""
    names = ["c%05d" % number for number in range(size)]
    packages = [crate("app")] + [crate(name, license="(MIT OR Zlib) AND %s" % name) for name in names]
    exceptions = ",\n".join("{ crate = '%s', allow = ['%s'] }" % (name, name) for name in reversed(names))
    return "[licenses]\nallow = ['MIT']\nexceptions = [\n%s\n]\n" % exceptions, metadata(packages)


def exceptions(size):
    """A crate that may be had under SIZE licences, each of which an exception lists."""
    names = ["L%05d" % number for number in range(size)]
    packages = [crate("app"), crate("x", license=" OR ".join(names))]
    listed = ",\n".join("{ crate = 'x', allow = ['%s'] }" % name for name in reversed(names))
    return "[licenses]\nallow = ['MIT']\nexceptions = [\n%s\n]\n" % listed, metadata(packages)


def allowances(size):
    """A crate that has to be had under SIZE licences, all of which are allowed."""
    names = ["L%05d" % number for number in range(size)]
    packages = [crate("app"), crate("x", license=" AND ".join(names))]
    return "[licenses]\nallow = %s\n" % quoted(["MIT"] + names[::-1]), metadata(packages)


def with_features(entry, table):
    packages = [crate("app"), crate("x", features=table)]
    return "[[bans.features]]\ncrate = 'x'\n%s\n" % entry, metadata(packages, {"x": {"features": list(table)}})


def chain(size):
    """SIZE features, each of which asks for the next, and the last for the first; the first one is allowed."""
    names = ["f%05d" % number for number in range(size)]
    return with_features("allow = ['%s']" % names[0], {name: [after] for name, after in zip(names, names[1:] + names)})


def features(size):
    """SIZE features, all of which are allowed, and as many that one asks for."""
    names = ["f%05d" % number for number in range(size)]
    table = dict({name: ["g" + name] for name in names}, all=["g" + name for name in names])
    table.update({"g" + name: [] for name in names})
    return with_features("allow = %s" % quoted(names[::-1] + ["all"]), table)


def exact(size):
    """SIZE features, which an exact set lists."""
    names = ["f%05d" % number for number in range(size)]
    return with_features("exact = true\nallow = %s" % quoted(names[::-1]), {name: [] for name in names})


def with_tree(packages, needed):
    """A graph in which the default feature of `x` is told, with the tree of what leads to it."""
    return "[bans]\nexternal-default-features = 'warn'\n", metadata(packages, {"x": {"features": ["default"]}}, needed)


def deep(size):
    """A chain of SIZE crates above the one of which something is told."""
    names = ["c%05d" % number for number in range(size)]
    packages = [crate("app"), crate("x", features={"default": []})] + [crate(name) for name in names]
    packages[-1]["dependencies"] = [{"name": "x", "req": "*"}]
    return with_tree(packages, {name: [below] for name, below in zip(["app"] + names, names + ["x"])})


def wide(size):
    """SIZE crates that need the one of which something is told."""
    names = ["c%05d" % number for number in range(size)]
    declared = [{"name": "x", "req": "*"}]
    packages = [crate("app"), crate("x", features={"default": []})]
    packages += [crate(name, dependencies=declared) for name in names]
    return with_tree(packages, dict({name: ["x"] for name in names}, app=names))


def dead(size):
    """SIZE skips, trees that are skipped and wrappers, which nothing hits."""
    names = quoted("c%05d" % number for number in range(size))
    policy = "[bans]\nskip = %s\nskip-tree = %s\ndeny = [{ crate = 'y', wrappers = %s }]\n" % (names, names, names)
    return policy, metadata([crate("app"), crate("x")])


def versions(size):
    """SIZE crates in two versions each, which stand beside each other in the lock text."""
    names = ["c%05d" % number for number in range(size)]
    packages = [crate(name) for name in names] + [crate(name, id=name + "@2", version="2.0.0") for name in names]
    return "[bans]\nmultiple-versions = 'warn'\n", metadata([crate("app")] + packages)


def asking(name, *names):
    """A crate in a folder of its own, which asks for others, and its manifest."""
    declared = [{"name": other, "req": "*"} for other in names]
    manifest = "[package]\nname = '%s'\n[dependencies]\n%s" % (name, "".join("%s = '*'\n" % other for other in names))
    return crate(name, manifest_path=name + "/Cargo.toml", dependencies=declared, source=None), manifest


ASKS_FOR_ALL = "[bans]\nwildcards = 'warn'\n[bans.workspace-dependencies]\nduplicates = 'warn'\nunused = 'warn'\n"


def in_workspace(asked, others, shared):
    """A workspace of crates that ask for others and share some, with the manifests of all."""
    made = [asking(name, *names) for name, names in asked.items()]
    lines = "".join("%s = '*'\n" % name for name in shared)
    manifests = {one["manifest_path"]: text for one, text in made}
    manifests["workspace/Cargo.toml"] = "[workspace.dependencies]\n" + lines
    packages = [one for one, _ in made] + [crate(name) for name in others]
    return ASKS_FOR_ALL, metadata(packages, (), asked, len(asked), "workspace"), manifests


def members(size):
    """SIZE members that all ask for one crate, each with a manifest of its own."""
    return in_workspace({"m%05d" % number: ["x"] for number in range(size)}, ["x"], ["x"])


def declarations(size):
    """A member that asks for SIZE crates."""
    names = ["c%05d" % number for number in range(size)]
    return in_workspace({"a": names, "b": []}, names, [])


def shared(size):
    """SIZE entries that a workspace shares, every second of which is for no crate."""
    names = ["c%05d" % number for number in range(size)]
    return in_workspace({"a": names[::2]}, names[::2], names)


def executed(name):
    """A crate that is executed while others are built, in a folder of its own."""
    targets = [{"kind": ["proc-macro"], "src_path": name + "/lib.rs"}]
    return crate(name, manifest_path=name + "/Cargo.toml", targets=targets)


def with_package(bypass, paths):
    """A crate with a package of these files, which are scripts, and what a bypass says of them."""
    files = {"x/" + path: "#!/bin/sh\n# a script\n" for path in paths}
    policy = "[bans.build]\ninterpreted = 'warn'\nbypass = [{ crate = 'x', %s }]\n" % bypass
    return policy, metadata([crate("app"), executed("x")]), files


def files(size):
    """A package of SIZE files, each of which a glob allows."""
    return with_package("allow-globs = ['d/*']", ["d/f%05d" % number for number in range(size)])


def scripts(size):
    """A package of SIZE files that are told as scripts."""
    return with_package("allow = []", ["f%05d" % number for number in range(size)])


def folders(size):
    """A package of SIZE folders, each with a file."""
    return with_package("allow = []", ["d%05d/f" % number for number in range(size)])


def depth(size):
    """A package of folders that are SIZE deep, with a file at their end."""
    return with_package("allow = []", ["d/" * size + "f"])


def paths(size):
    """A package of SIZE files, each of which is an allowed path."""
    names = ["f%05d" % number for number in range(size)]
    allowed = ", ".join("{ path = '%s' }" % name for name in reversed(names))
    return with_package("allow = [%s]" % allowed, names)


def nowhere(size):
    """SIZE allowed paths and globs that are nowhere."""
    names = ["q%05d" % number for number in range(size)]
    allowed = ", ".join("{ path = '%s' }" % name for name in names)
    return with_package("allow = [%s], allow-globs = %s" % (allowed, quoted("*." + name for name in names)), ["f"])


def globs(size):
    """A package of SIZE files, each of which a glob of its own allows."""
    names = ["f%05d" % number for number in range(size)]
    return with_package("allow-globs = %s" % quoted("*." + name for name in names), ["a." + name for name in names])


def packages(size):
    """SIZE packages, each with a bypass for one of its files."""
    names = ["c%05d" % number for number in range(size)]
    bypasses = ",\n".join("{ crate = '%s', allow = [{ path = 'f' }] }" % name for name in reversed(names))
    found = {name + "/f": "#!/bin/sh\n# a script\n" for name in names}
    made = metadata([crate("app")] + [executed(name) for name in names])
    return "[bans.build]\nbypass = [\n%s\n]\n" % bypasses, made, found


FORMS = [
    (crates, 2500), (exceptions, 2500), (allowances, 2500), (chain, 5000), (features, 2500), (exact, 5000),
    (deep, 2500), (wide, 2500), (dead, 2500), (versions, 1250), (members, 500), (declarations, 2500), (shared, 2500),
    (files, 1000), (scripts, 1000), (folders, 500), (paths, 500), (nowhere, 500), (depth, 250), (globs, 500),
    (packages, 500),
]
LONGEST = {depth: 250}  # a path has 4096 bytes at most
# Of folders and the names in their paths, of files and globs of one bypass, of crates and bypasses.
SQUARES = {depth, globs, packages}


def written(folder, texts):
    """The words of a run over these texts, which are written into a folder."""
    policy, value, *files_ = texts
    paths = ("deny.toml", "metadata.json")
    for path, text in {paths[0]: policy, paths[1]: json.dumps(value), **dict(*files_)}.items():
        os.makedirs(os.path.join(folder, os.path.dirname(path)), exist_ok=True)
        with open(os.path.join(folder, path), "w", encoding="utf-8") as file:
            file.write(text)
    return ["check", *paths]


def time_of(program, folder, words):
    """The processor time of a run in a folder, which passes."""
    before = resource.getrusage(resource.RUSAGE_CHILDREN)
    subprocess.run([program, *words], stdout=subprocess.DEVNULL, check=True, cwd=folder)
    after = resource.getrusage(resource.RUSAGE_CHILDREN)
    return after.ru_utime + after.ru_stime - before.ru_utime - before.ru_stime


def size_of(program, form, size):
    """The first size, of this one doubled again and again, at which a run takes long enough to be compared."""
    while size < LONGEST.get(form, LARGEST):
        with tempfile.TemporaryDirectory(dir=MEMORY) as folder:
            if time_of(program, folder, written(folder, form(size))) >= SHORTEST:
                break
        size *= 2
    return size


def least_times(program, runs):
    """The least times of both runs after each round, the rounds and these times."""
    least = [math.inf, math.inf]
    for round_ in range(1, MOST + 1):
        for which in (0, 1, 0):
            least[which] = min(least[which], time_of(program, *runs[which]))
        yield round_, *least


def said_of(program, form, size):
    """That a form is in step, or its least times."""
    size = size_of(program, form, size)
    times, step = (GROWN * TIMES, "in step with the square") if form in SQUARES else (TIMES, "in step")
    with tempfile.TemporaryDirectory(dir=MEMORY) as small, tempfile.TemporaryDirectory(dir=MEMORY) as large:
        runs = [(folder, written(folder, form(size * more))) for folder, more in ((small, 1), (large, GROWN))]
        for round_, shorter, longer in least_times(program, runs):
            limit = times * max(shorter, SHORTEST)
            if round_ < FEWEST:
                continue
            if shorter < SECONDS and longer < limit:
                return step
            if shorter > SECONDS or longer > 2 * limit:
                break
    return "%d in %.3f s, %d times as many in %.3f s" % (size, shorter, GROWN, longer)


def main():
    if len(sys.argv) != 2:
        sys.exit(__doc__)
    program = os.path.abspath(sys.argv[1])
    sys.setrecursionlimit(10000)  # folders are made and taken away one in the other
    signal.signal(signal.SIGTERM, lambda *_: sys.exit(1))  # so that they are taken away then too
    for form, size in FORMS:
        print("%s: %s" % (form.__name__, said_of(program, form, size)), flush=True)


if __name__ == "__main__":
    main()
