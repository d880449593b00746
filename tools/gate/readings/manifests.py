"""Manifests: what was read of them, which declarations of a crate they write and where, and which could not be read.

A disk is asked by `read` for the bytes at a path, and answers None where they cannot be read.
"""

from collections import namedtuple

from readings import toml
from readings.disks import below
from readings.policy import Spanned
from readings.targets import agree
from readings.versions import read_requirement

LIMIT = 2**28  # a manifest that is read has fewer bytes than this
SECTIONS = {"normal": "dependencies", "dev": "dev-dependencies", "build": "build-dependencies"}
# The words by which a manifest names kinds of dependencies.
KINDS = {"": "normal", "dev": "dev", "build": "build"}

# ---- values of a manifest


def tree_of(text):
    """The tree of a text, or None where it has none."""
    try:
        text.decode("utf-8")
        return toml.root_of(toml.Reader(text).document(), len(text))
    except (UnicodeDecodeError, toml.Grammar, toml.Clash):
        return None


def inner(place, *names):
    """What stands below tables, by their keys; None where one is not there or no table."""
    for name in names:
        place = place.entries.get(name) if place is not None and place.is_table() else None
    return place


def text_at(place):
    """A text and its range, or None where a value is of another kind."""
    if place is None or place.value is None or place.value[0] not in ("text", "multiline"):
        return None
    return Spanned(place.value[1], place.span)


def requirement_at(place):
    """The comparators of a text and its range; None where it is no requirement."""
    text = text_at(place)
    comparators = text and read_requirement(text.value)
    return None if comparators is None else Spanned(comparators, text.span)


def version_of(place):
    """The requirement that a declaration says: the text at `version`, or the value itself."""
    return requirement_at(inner(place, "version") if place.is_table() else place)


def rename_of(place):
    return text_at(inner(place, "package"))


def workspace_of(place):
    """The flag at `workspace`."""
    found = inner(place, "workspace")
    is_flag = found is not None and found.value is not None and found.value[0] == "boolean"
    return Spanned(found.value[1], found.span) if is_flag else None


# ---- declarations

# A declaration of a crate that its manifest writes: what the metadata says of it, the crate that it is for, the ranges
# of its key and its value, and what the value says, each with its range, or None.
Declared = namedtuple("Declared", "declaration crate key value version workspace rename")


def places_of(tree, declaration):
    """The tables in which a declaration may stand, in their order."""
    section = SECTIONS[declaration.kind]
    if declaration.target is None:
        return [inner(tree, section)]
    targets = inner(tree, "target")
    named = sorted(targets.entries, key=str.encode) if targets is not None and targets.is_table() else []
    return [inner(targets, name, section) for name in named if agree(name, declaration.target)]


def found_in(tree, declaration):
    """What stands under a declaration's name in the first of its tables that has it, or None."""
    name = declaration.name if declaration.rename is None else declaration.rename
    found = [inner(table, name) for table in places_of(tree, declaration)]
    return next((place for place in found if place is not None), None)


def declared_in(tree, graph, crate):
    """The declarations of a crate that are for one of the graph and that its manifest writes, in their order."""
    for declaration in crate.declarations:
        place = found_in(tree, declaration)
        needed = None if place is None else graph.resolved(crate, declaration)
        if needed is not None:
            said = version_of(place), workspace_of(place), rename_of(place)
            yield Declared(declaration, needed, place.segment[1], place.span, *said)


def ignored_kinds(tree, crate):
    """The kinds of dependencies that a member does not want to hear of where several declare them."""
    listed = inner(tree, "package", "metadata", "cargo-deny", "workspace-duplicates")
    if not crate.is_member or listed is None or listed.elements is None:
        return set()
    words = [text_at(element) for element in listed.elements]
    return set(SECTIONS) - {KINDS.get(word.value) for word in words if word}


class Manifest:
    """A manifest of a crate that could be read: its text, and what it declares."""

    def __init__(self, graph, crate, text, tree):
        self.text, self.tree = text, tree
        self.declared = list(declared_in(tree, graph, crate))
        ignored = ignored_kinds(tree, crate)
        self.compared = [one for one in self.declared if one.declaration.kind not in ignored]


# ---- what was read


class Seen:
    """What was read of a graph's files: the manifests of crates by their places, the text and the tree of the
    workspace's, each None where it is not there, and what could not be read, its crate, path and purpose, or is no
    manifest."""

    def __init__(self, graph, disk):
        self.disk, self.unread, self.malformed, self.manifests = disk, [], set(), {}
        path, local = below(graph.root, "Cargo.toml"), [crate for crate in graph.crates if crate.source is None]
        texts = [(crate, *self.read(crate.manifest_path, crate)) for crate in local]
        whose = [found for crate, *found in texts if crate.manifest_path == path]
        self.workspace = whose[0] if whose else self.read(path)
        for crate, text, tree in texts:
            if tree is not None:
                self.manifests[crate.place] = Manifest(graph, crate, text, tree)

    def read(self, path, crate=None):
        """The text and the tree of a file that is read for a crate, or for none."""
        text = self.disk.read(path)
        if text is None or len(text) >= LIMIT:
            self.unread.append((crate, path, "manifest"))
            return None, None
        tree = tree_of(text)
        if tree is None:
            self.malformed.add(path)
        return text, tree
