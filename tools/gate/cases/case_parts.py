"""What the cases are made of: metadata, runs over it, and what is told of them by hand."""

import json
import re

from readings.metadata import Fault, read_metadata
from readings.disks import below
from readings.report import compact, paths_of

REGISTRY = "registry+https://github.com/rust-lang/crates.io-index"


def package(name, version="1.0.0", **more):
    """A package of the registry, or with `source=None` one of the workspace."""
    source = more.pop("source", REGISTRY)
    id_ = "%s %s" % (name, version) if source is None else "%s %s (%s)" % (name, version, source)
    members = {"id": id_, "manifest_path": "/w/Cargo.toml", "name": name, "source": source, "version": version}
    return dict(members, **more)


APP = package("app", "0.1.0", source=None)


def dependency(child, kinds=(None,)):
    return {"dep_kinds": [{"kind": kind} for kind in kinds], "pkg": child["id"]}


def metadata(edges, packages=None, members=(APP,)):
    """Metadata in which each pair of packages is a normal dependency; or one of the kinds beside
    the pair."""
    if packages is None:
        packages = unique([APP] + [p for edge in edges for p in edge[:2]])
    deps = {p["id"]: [] for p in packages}
    for edge in edges:
        deps[edge[0]["id"]].append(dependency(edge[1], *edge[2:]))
    return {
        "packages": packages,
        "resolve": {"nodes": [{"deps": deps[p["id"]], "id": p["id"]} for p in packages]},
        "workspace_members": [p["id"] for p in members],
        "workspace_root": "/w",
    }


def unique(items):
    kept = {}
    for item in items:
        kept.setdefault(id(item), item)
    return list(kept.values())


def graph(text, members="app"):
    """Metadata of a graph such as `app -> x, app -> x@2.0.0 dev build, y`: crates are 1.0.0 where no version is
    written, the members 0.1.0, and edges are normal where no kind is. No crate has a source."""
    made = {}

    def crate(word):
        name, _, version = word.partition("@")
        otherwise = "0.1.0" if name in members.split() else "1.0.0"
        return made.setdefault(word, package(name, version or otherwise, source=None))

    edges, in_order = [], [crate(word) for word in members.split()]
    for item in filter(None, re.split(r"\s*,\s*", text.strip())):
        parent, *rest = item.split()
        crate(parent)
        if rest:
            edges.append((crate(parent), crate(rest[1]), rest[2:] or [None]))
    return lean(metadata(edges, packages=list(made.values()), members=in_order))


def public_graph(text, members="app", rust=(), sources=()):
    """The same, with crates that are no members from the registry; `rust` gives crates their version of Rust by name,
    and `sources` other sources."""
    value, rust, sources = graph(text, members), dict(rust), dict(sources)
    for one in value["packages"]:
        name = one["name"]
        source = sources.get(name, None if one["id"] in value["workspace_members"] else REGISTRY)
        one.update({"source": source} if source else {}, **({"rust_version": rust[name]} if name in rust else {}))
    return value


def furnished(value, packages=(), nodes=()):
    """Metadata whose packages and nodes have more members, given by `name` or `name@version`."""
    for one, node in zip(value["packages"], value["resolve"]["nodes"]):
        for word in (one["name"], "%(name)s@%(version)s" % one):
            one.update(dict(packages).get(word, {}))
            node.update(dict(nodes).get(word, {}))
    return value


def featured(text, tables, enabled=(), members="app"):
    """A graph as above whose crates have features: the tables by crate, and those that are enabled, all where a crate
    is not named."""
    enabled = {**{word: list(table) for word, table in tables.items()}, **dict(enabled)}
    packages = {word: {"features": table} for word, table in tables.items()}
    return furnished(graph(text, members), packages, {word: {"features": list_} for word, list_ in enabled.items()})


def asks(name, req="*", **more):
    """A declaration, by the members of the metadata; `default=False` where default features are not used."""
    if not more.pop("default", True):
        more["uses_default_features"] = False
    return dict({"name": name, "req": req}, **more)


def declaring(value, declared=None):
    """Metadata whose packages have declarations: those that are given by `name` or `name@version`, or else one for
    each kind of each dependency, which asks for its version and uses default features."""
    if declared is not None:
        return furnished(value, {word: {"dependencies": list_} for word, list_ in declared.items()})
    packages = {one["id"]: one for one in value["packages"]}
    for node in value["resolve"]["nodes"]:
        packages[node["id"]]["dependencies"] = [
            asks(packages[needed["pkg"]]["name"], packages[needed["pkg"]]["version"], kind=kind["kind"])
            for needed in node.get("deps", []) for kind in needed.get("dep_kinds", [{"kind": None}])
        ]
    return value


def row_graph(text, tables=(), enabled=()):
    """A graph as above with the members at `/w` and the other crates from the registry, below `/r`, and with a
    declaration for each dependency."""
    value = public_graph(text)
    for one in value["packages"]:
        is_member = one["id"] in value["workspace_members"]
        one["manifest_path"] = "/w/Cargo.toml" if is_member else "/r/%(name)s-%(version)s/Cargo.toml" % one
    enabled = {**{word: list(table) for word, table in dict(tables).items()}, **dict(enabled)}
    packages = {word: {"features": table} for word, table in dict(tables).items()}
    nodes = {word: {"features": list_} for word, list_ in enabled.items()}
    return declaring(furnished(value, packages, nodes))


def folder_of(word):
    """The folder of a crate `name` or `name@version` in such a graph."""
    name, _, version = word.partition("@")
    return "/w" if word == "app" else "/r/%s-%s" % (name, version or "1.0.0")


def target(kinds, path):
    """What a package builds: its kinds in words, and its file."""
    return {"kind": kinds.split(), "src_path": path}


def built_graph(text, tables=(), enabled=(), sources=(), **targets):
    """Such a graph whose crates have targets, by their names: lists of these, or the kind of one whose file is
    `build.rs`. `sources` are those of crates that are not from the registry."""
    value, sources = row_graph(text, tables, enabled), dict(sources)
    for one in value["packages"]:
        word = "%(name)s@%(version)s" % one
        listed = targets.get(word.replace("@", "_").replace(".", "_"), targets.get(one["name"], []))
        path = one["manifest_path"].rpartition("/")[0] + "/build.rs"
        one["targets"] = [target(listed, path)] if isinstance(listed, str) else listed
        one.update({"source": sources[one["name"]]} if one["name"] in sources else {})
    return value


def in_package(word, files):
    """Files of a package by their whole paths."""
    return {below(folder_of(word), path): bytes_text(text) for path, text in files.items()}


def declared_graph(declared, members="app", sources=(), folders=(), **more):
    """A graph whose crates need what they declare: `declared` has lists of `asks(..)` by crate, each for the crate `to`
    or the one of its name. A member alone lies at `/w`, several in folders below it; the others are from the registry,
    below `/r`. `sources` and `folders` say otherwise, and `more` has members of packages by crate."""
    sources, folders, packages = dict(sources), dict(folders), {}

    def crate(word):
        name, _, version = word.partition("@")
        is_member = word in members.split()
        version = version or ("0.1.0" if name in members.split() else "1.0.0")
        if word not in packages:
            one = package(name, version, source=sources.get(word, None if is_member else REGISTRY))
            otherwise = "/w" if members == word else "/w/" + name if one["source"] is None else "/r/%s-%s" % (
                name, version
            )
            folder = folders.get(word, otherwise)
            packages[word] = dict(one, manifest_path=below(folder, "Cargo.toml"), **more.get(word, {}))
        return packages[word]

    edges, in_order = [], [crate(word) for word in members.split()]
    for word, list_ in declared.items():
        asked = [(crate(one.pop("to", one["name"])), one) for one in map(dict, list_)]
        crate(word)["dependencies"] = [one for _, one in asked]
        edges += [(packages[word], needed, one) for needed, one in asked]
    deps = {one["id"]: [] for one in packages.values()}
    for parent, needed, one in edges:
        kind = {"kind": one.get("kind"), "target": one.get("target")}
        deps[parent["id"]].append({"dep_kinds": [kind], "pkg": needed["id"]})
    return {
        "packages": list(packages.values()),
        "resolve": {"nodes": [{"deps": deps[one["id"]], "id": one["id"]} for one in packages.values()]},
        "workspace_members": [one["id"] for one in in_order],
        "workspace_root": "/w",
    }


def licensed(text, licences, publish=(), members="app"):
    """A graph as above whose crates have licences, and lists of where they may be published."""
    packages = {word: {"license": licence} for word, licence in licences.items()}
    value = furnished(graph(text, members), packages)
    return furnished(value, {word: {"publish": list_} for word, list_ in dict(publish).items()})


def lean(value):
    """Metadata without what may be left out: no source, no dependencies, a normal one's kind."""
    for package_ in value["packages"]:
        del package_["source"]
    for node in value["resolve"]["nodes"]:
        for dependency_ in node["deps"]:
            if dependency_["dep_kinds"] == [{"kind": None}]:
                del dependency_["dep_kinds"]
        if not node["deps"]:
            del node["deps"]
    return value


# ---- what is told, by hand


def crate_tree(word, *parents, kind=None, repeat=False):
    """A crate `name` or `name@version` in a tree, 1.0.0 where no version is written, below it what leads to it."""
    name, _, version = word.partition("@")
    own = dict({"kind": kind} if kind else {}, name=name, version=version or "1.0.0")
    return tree_node({"Krate": own}, parents, repeat)


def feature_tree(word, *parents, repeat=False):
    """A feature `crate/name` in a tree."""
    crate, _, name = word.partition("/")
    return tree_node({"Feature": {"crate_name": crate, "name": name}}, parents, repeat)


def tree_node(value, parents, repeat):
    return dict(value, **({"parents": list(parents)} if parents else {}), **({"repeat": True} if repeat else {}))


BY_APP = crate_tree("app@0.1.0")
TREES_OF_APP, TREES_OF_X = [BY_APP], [crate_tree("x", BY_APP)]


def told(code, severity, message, *labels, notes=(), graphs=()):
    """The line of a finding, its labels by line, column, text and what they label, and its trees."""
    fields = {"code": code, "graphs": list(graphs), "message": message, "severity": severity}
    if notes:
        fields["notes"] = list(notes)
    if labels:
        fields["labels"] = [dict(zip(("line", "column", "message", "span"), label)) for label in labels]
    return compact({"fields": fields, "type": "diagnostic"}) + "\n"


def dead_line(kind, start, end):
    """The line of a dead entry."""
    return compact({"fields": {"end": end, "kind": kind, "start": start}, "type": "dead"}) + "\n"


def unread_line(crate, path, purpose="manifest"):
    """The line of a file or a folder that could not be read: its crate `name = version`, or None."""
    return compact({"fields": {"crate": crate, "path": path, "purpose": purpose}, "type": "unread"}) + "\n"


def malformed_line(path):
    """The line of a manifest that is none."""
    return compact({"fields": {"path": path}, "type": "malformed"}) + "\n"


X, X2, Y, Z = package("x"), package("x", "2.0.0"), package("y"), package("z")
ALONE = compact(metadata([]))
PASSED = '{"fields":{"bits":0,"verdict":"pass"},"type":"verdict"}\n'
BANS_FAILED, LICENCES_FAILED, BOTH_FAILED = (
    '{"fields":{"bits":%d,"verdict":"fail"},"type":"verdict"}\n' % bits for bits in (2, 4, 6)
)
WITH_X = compact(metadata([(APP, X)]))
TWO_X = compact(metadata([(APP, X), (APP, X2)]))
DENY_X = '[bans]\ndeny = ["x"]\n'
DENY_SEVERAL = '[bans]\nmultiple-versions = "deny"\n'
WORDS = ["check", "deny.toml", "metadata.json"]
TABLE = "std.bin"


def case(name, policy="", text=ALONE, table=None, **more):
    """A run over a policy and metadata, and over a table of replacements where there is one: its bytes, or a text.
    Words that are `options` stand before the texts. Its disk has `files` besides, and the manifests of the crates where
    it has no others, or else `manifests`, by their paths.
    Of what the run tells `by_hand` says the findings in short and `dead` the dead entries, `trees` the trees of each
    finding as text, `lines` all lines and `stop` that of a stop, as check_by_hand of check_cases.py compares them."""
    text = text if isinstance(text, (str, list)) else compact(text)
    words, files = WORDS[:1] + list(more.pop("options", [])) + WORDS[1:], {WORDS[1]: policy, WORDS[2]: text}
    if table is not None:
        words, files = words + [TABLE], dict(files, **{TABLE: bytes_text(table)})
    files.update(more.pop("files", {}))
    return dict({"name": name, "words": words, "files": files}, **more)


# ---- manifests


def manifest_of(name):
    return '[package]\nname = "%s"\n' % name


def is_free(path, files):
    """Whether a disk of these files takes one more at a path."""
    parts = path.split("/")
    folders = ["/".join(parts[:number]) for number in range(1, len(parts))]
    is_good = path not in ("", "/") and parts[-1] and not {"", ".", ".."} & set(parts[1:])
    return is_good and not set(folders) & set(files) and not any(other.startswith(path + "/") for other in files)


def wanted_manifests(text):
    """The manifests that the crates of metadata have, and that of the workspace, by their paths."""
    try:
        graph = read_metadata(text.encode())
    except Fault:
        return {}
    local = [crate for crate in reversed(graph.crates) if crate.source is None]
    of_crates = {crate.manifest_path: manifest_of(crate.name) for crate in local}
    return {below(graph.root, "Cargo.toml"): "[workspace]\n", **of_crates}


def with_manifests(case):
    """The case with the manifests on its disk that are read besides, where it does not say `manifests` itself."""
    manifests, paths, files = case.pop("manifests", None), paths_of(case["words"]), case.get("files", {})
    text = files.get(paths[1]) if len(paths) > 1 else None
    if manifests is None:
        manifests = wanted_manifests(text) if isinstance(text, str) else {}
    for path, text in manifests.items():
        if path not in files and is_free(path, files):
            files = dict(files, **{path: text})
    return dict(case, files=files) if files else case


def bytes_text(raw):
    """Bytes as a text of a case."""
    return {"hex": raw.hex()} if isinstance(raw, bytes) else raw


MISSING = object()


def put(value, path, new):
    """A copy of the value with `new` at the path, or nothing there."""
    value = json.loads(compact(value))
    inner = value
    for key in path[:-1]:
        inner = inner[key]
    if new is MISSING:
        del inner[path[-1]]
    else:
        inner[path[-1]] = new
    return value


def draws(seed):
    """Numbers below a limit, always the same ones."""
    state = [seed]

    def draw(limit):
        state[0] = (state[0] * 6364136223846793005 + 1442695040888963407) % 2**64
        return (state[0] >> 33) % limit

    return draw
