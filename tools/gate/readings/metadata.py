"""Cargo's metadata: from a text to the graph of crates, or the first fault."""

import json
import re
from collections import namedtuple

from readings.sources import CRATES_IO, are_below, is_source, read_source
from readings.versions import matches, precedence, read_requirement, read_version

DEPTH = 127  # JSON nests no deeper than this


# ---- the texts that metadata holds


def is_rust_version(text):
    """One to three dotted numbers under 2^32."""
    return bool(re.fullmatch(r"[0-9]+(\.[0-9]+){0,2}", text)) and are_below(2**32, text.split("."))


def minor_of(rust_version):
    """The second number of a version of Rust, 0 where it has none; or None where there is no version."""
    return None if rust_version is None else int((rust_version.split(".") + ["0"])[1])


# ---- JSON


class Fault(Exception):
    """Why metadata has no graph."""

    def __init__(self, fault, detail=""):
        self.fault, self.detail = fault, detail


class Broken:
    """A number that is not whole within 64 bits."""


def number(text):
    if re.fullmatch(r"-?[0-9]+", text) and text != "-0" and -(2**63) <= int(text[:30]) < 2**64 and len(text) < 30:
        return int(text)
    if float(text) in (float("inf"), float("-inf")):
        raise Fault("json")
    return Broken()


def refuse_constant(name):
    raise Fault("json")


def check_json(value, depth):
    if isinstance(value, str):
        if any(0xD800 <= ord(c) < 0xE000 for c in value):
            raise Fault("json")
    elif isinstance(value, (list, dict)):
        if depth >= DEPTH:
            raise Fault("json")
        for item in value.values() if isinstance(value, dict) else value:
            check_json(item, depth + 1)


def pairs(items):
    """An object; of two members of one name the later one counts. No name is half a character."""
    for name, _ in items:
        check_json(name, 0)
    return dict(items)


def holds_broken(value):
    if isinstance(value, (list, dict)):
        return any(map(holds_broken, value.values() if isinstance(value, dict) else value))
    return isinstance(value, Broken)


def read_json(text):
    hooks = {"parse_int": number, "parse_float": number, "parse_constant": refuse_constant}
    try:
        value = json.loads(text.decode("utf-8"), object_pairs_hook=pairs, **hooks)
    except (ValueError, RecursionError):
        raise Fault("json")
    check_json(value, 0)
    return value


# ---- the members of metadata, in their order


class At:
    """A value of the metadata, and its path in dots."""

    def __init__(self, value, path=()):
        self.value, self.path = value, path

    def take(self, kind):
        if not isinstance(self.value, kind) or (isinstance(self.value, bool) and kind is not bool):
            raise Fault("shape", ".".join(self.path))
        return self.value

    def inner(self, name, value):
        return At(value, self.path + (str(name),))

    def member(self, name):
        return self.inner(name, self.value.get(name))

    def text(self, name):
        return self.member(name).take(str)

    def texts(self, name):
        return [item.take(str) for item in self.items(name)]

    def items(self, name):
        found = self.member(name)
        return [found.inner(place, item) for place, item in enumerate(found.take(list))]

    def objects(self, name, read):
        return [item.object(read) for item in self.items(name)]

    def object(self, read):
        self.take(dict)
        return read(self)

    def maybe(self, read, name, otherwise=None):
        """What `read` takes from a member that may be missing or null."""
        return otherwise if self.value.get(name) is None else read(name)

    def kind(self, name):
        if self.text(name) not in ("dev", "build", "normal"):
            raise Fault("shape", ".".join(self.path + (name,)))
        return self.value[name]


def read_features(features):
    return {name: features.texts(name) for name in sorted(features.value, key=str.encode)}


# What a package builds: of which kinds, and from which file.
Target = namedtuple("Target", "kinds path")


def read_target(target):
    return Target(target.texts("kind"), target.text("src_path"))


# What a package asks for: by which name, of which version, of which kind and for which target, and which features.
Declaration = namedtuple("Declaration", "name req kind rename target path features uses_default_features")


def read_declaration(declaration):
    name, requirement = declaration.text("name"), declaration.text("req")
    kind = declaration.maybe(declaration.kind, "kind", "normal")
    texts = [declaration.maybe(declaration.text, member) for member in ("rename", "target", "path")]
    features = declaration.maybe(declaration.texts, "features", [])
    uses_default = declaration.maybe(
        lambda member: declaration.member(member).take(bool), "uses_default_features", True
    )
    return Declaration(name, requirement, kind, *texts, features, uses_default)


def read_package(package):
    texts = [package.text(name) for name in ("name", "version", "id", "manifest_path")]
    more_texts = [package.maybe(package.text, name) for name in ("source", "license", "rust_version")]
    publish = package.maybe(package.texts, "publish")
    features = package.maybe(lambda name: package.member(name).object(read_features), "features", {})
    targets = package.maybe(lambda name: package.objects(name, read_target), "targets", [])
    declared = package.maybe(lambda name: package.objects(name, read_declaration), "dependencies", [])
    names = ("name", "version", "id", "manifest_path", "source", "license", "rust_version")
    more = {"declarations": declared, "features": features, "publish": publish, "targets": targets}
    return dict(zip(names, texts + more_texts), **more)


def read_dep_kind(dep_kind):
    """The kind of an edge, and the target that it is for, or None."""
    return dep_kind.maybe(dep_kind.kind, "kind", "normal"), dep_kind.maybe(dep_kind.text, "target")


def read_dependency(dependency):
    needed = dependency.text("pkg")
    kinds = dependency.maybe(lambda name: dependency.objects(name, read_dep_kind), "dep_kinds")
    return needed, kinds or [("normal", None)]


def read_node(node):
    id_ = node.text("id")
    enabled = node.maybe(node.texts, "features", [])
    return id_, node.maybe(lambda name: node.objects(name, read_dependency), "deps", []), enabled


def read_document(root):
    """The packages, the members and the nodes, or the first fault of shape."""
    packages, members = root.member("packages"), root.member("workspace_members")
    packages.take(list)
    members = root.texts("workspace_members")
    folder = root.text("workspace_root")
    resolve = root.member("resolve")
    resolve.take(dict)
    return root.objects("packages", read_package), members, resolve.objects("nodes", read_node), folder


# ---- the graph of metadata


def check_ids(packages, members, nodes):
    for ids in ([package["id"] for package in packages], [id_ for id_, _, _ in nodes]):
        seen = set()
        for id_ in ids:
            if id_ in seen:
                raise Fault("duplicate-id", id_)
            seen.add(id_)
    known = {package["id"] for package in packages}
    whole = known & {id_ for id_, _, _ in nodes}
    for id_ in members:
        if id_ not in whole:
            raise Fault("dangling-id", id_)
    for id_, dependencies, _ in nodes:
        if id_ not in known:
            raise Fault("dangling-id", id_)
        for needed, _ in dependencies:
            if needed not in whole:
                raise Fault("dangling-id", needed)


def check_texts(packages):
    rust = lambda text: text is None or is_rust_version(text)
    for fault, is_good in (
        ("version", lambda p: read_version(p["version"]) and rust(p["rust_version"])),
        ("requirement", lambda p: all(read_requirement(d.req) is not None for d in p["declarations"])),
        ("source", lambda p: p["source"] is None or is_source(p["source"])),
        ("manifest-path", lambda p: "/" in p["manifest_path"]),
    ):
        for package in packages:
            if not is_good(package):
                raise Fault(fault, package["id"])


def reached_by(nodes, members, kinds):
    """The ids to which dependencies of these kinds lead from a member."""
    reached, open_ = set(members), list(members)
    while open_:
        for needed, its_kinds in nodes[open_.pop()]:
            if needed not in reached and any(kind in kinds for kind, _ in its_kinds):
                reached.add(needed)
                open_.append(needed)
    return reached


class Crate:
    """A crate of the graph. `needs` and `dependents` are the places of others, by edges of every kind, and `edges` are
    those that lead from it, each a place, a kind and a target. `features` is its table of features, and `enabled` are
    those that are enabled, in order. `source` is None for a crate that lies in a folder of its own, and `source_text`
    what the metadata says of it."""

    def __init__(self, place, package, is_member, is_built, enabled):
        self.place, self.id = place, package["id"]
        self.name, self.version = package["name"], package["version"]
        self.read_version = read_version(self.version)
        self.is_member, self.is_built = is_member, is_built
        self.source_text, self.manifest_path = package["source"], package["manifest_path"]
        self.source = None if self.source_text is None else read_source(self.source_text)
        self.is_public, self.rust_minor = self.source_text in CRATES_IO, minor_of(package["rust_version"])
        self.license, self.publish = package["license"], package["publish"]
        self.features, self.enabled = package["features"], sorted(set(enabled), key=str.encode)
        self.has_enabled = set(enabled).__contains__
        self.declarations, self.targets = package["declarations"], package["targets"]
        self.needs, self.dependents, self.edges = set(), set(), set()

    def __str__(self):
        return "%s = %s" % (self.name, self.version)

    def order(self):
        return precedence(self.read_version), self.id.encode()

    def folder(self):
        return self.manifest_path.rpartition("/")[0] or "/"

    def is_from(self, *kinds):
        """Whether its source is of one of these kinds."""
        return self.source is not None and self.source.kind in kinds

    def is_private(self):
        """Whether it may be published nowhere."""
        return self.publish == []


class Graph:
    """The crates that the members reach, in order, and the folder of the workspace."""

    def __init__(self, packages, nodes, enabled, members, root):
        self.root = root
        reached = reached_by(nodes, members, {"normal", "build", "dev"})
        built = reached_by(nodes, members, {"normal", "build"})
        ordered = sorted((packages[id_] for id_ in reached), key=place_in_order)
        self.crates = [
            Crate(place, package, package["id"] in members, package["id"] in built, enabled[package["id"]])
            for place, package in enumerate(ordered)
        ]
        places = {crate.id: crate.place for crate in self.crates}
        self.by_name, self.by_edge = {}, {}
        for crate in self.crates:
            self.by_name.setdefault(crate.name, []).append(crate)
            for needed, kinds in nodes[crate.id]:
                crate.needs.add(places[needed])
                self.crates[places[needed]].dependents.add(crate.place)
                crate.edges.update((places[needed], kind, target) for kind, target in kinds)

    def named(self, name):
        return self.by_name.get(name, [])

    def dependents(self, crate):
        return [self.crates[place] for place in sorted(crate.dependents)]

    def children(self, crate):
        """What a crate needs, by name, kind and target, in order."""
        if crate.place not in self.by_edge:
            found = self.by_edge[crate.place] = {}
            for place, kind, target in sorted(crate.edges, key=lambda edge: edge[0]):
                found.setdefault((self.crates[place].name, kind, target), []).append(self.crates[place])
        return self.by_edge[crate.place]

    def resolved(self, crate, declaration):
        """The crate that a declaration of a crate is for: of those that it needs by this name, for this kind and this
        target, the first whose version matches, else the first; or None."""
        children = self.children(crate).get((declaration.name, declaration.kind, declaration.target), [])
        comparators = read_requirement(declaration.req)
        fitting = [child for child in children if matches(comparators, child.read_version)]
        return (fitting or children or [None])[0]


def place_in_order(package):
    source = package["source"]
    texts = (package["name"], package["version"], source or "", package["id"])
    name, version, source_text, id_ = (text.encode() for text in texts)
    return name, version, source is not None, source_text, id_


def read_metadata(text):
    """The graph of a text, or its first fault."""
    value = read_json(text)
    if holds_broken(value):
        raise Fault("float")
    if isinstance(value, dict) and value.get("resolve") is None:
        raise Fault("no-resolve")
    packages, members, nodes, root = At(value).object(read_document)
    check_ids(packages, members, nodes)
    check_texts(packages)
    packages = {package["id"]: package for package in packages}
    dependencies = {id_: found for id_, found, _ in nodes}
    return Graph(packages, dependencies, {id_: enabled for id_, _, enabled in nodes}, set(members), root)
