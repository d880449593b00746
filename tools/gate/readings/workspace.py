"""What the members of a workspace share: the entries of `workspace.dependencies`, and the crates that they are for."""

from collections import namedtuple

from readings.disks import below
from readings.manifests import inner, rename_of, requirement_at, text_at, version_of
from readings.sources import is_address, read_address, registry_source, same_repository
from readings.versions import matches

# Where an entry is from: the first of these keys that it has.
SOURCES = ("registry", "path", "git", "version")
REFERENCES = ("rev", "branch", "tag")
NO_NAME = None  # a registry without a name

# The kind of a source (`registry`, `path` or `git`), its text, and of git the reference: kind and value, or None.
From = namedtuple("From", "kind text reference")
# An entry: the name of the crate that it is for, its source, and what it says, each with its range; `patched` is the
# range of the key that another one stands in the place of.
Shared = namedtuple("Shared", "name source key value version rename patched")

# ---- entries


def source_of(place):
    """Where an entry is from; None where it says nothing of that, or what cannot be read."""
    if not place.is_table():
        return From("registry", NO_NAME, None) if requirement_at(place) else None
    if inner(place, "version") is not None and requirement_at(inner(place, "version")) is None:
        return None
    key = next((key for key in SOURCES if inner(place, key) is not None), None)
    text = text_at(inner(place, key)) if key else None
    if text is None:
        return None
    if key == "git":
        return git_source(place, text.value)
    return From("registry", NO_NAME, None) if key == "version" else From(key, text.value, None)


def git_source(place, address):
    """A repository, and the first of the references that an entry has."""
    key = next((key for key in REFERENCES if inner(place, key) is not None), None)
    value = text_at(inner(place, key)) if key else None
    if not is_address(address) or (key and value is None):
        return None
    return From("git", address, (key, value.value) if key else None)


def shared_by(name, place, source):
    rename = rename_of(place)
    meant = name if rename is None else rename.value
    return Shared(meant, source, place.segment[1], place.span, version_of(place), rename, None)


def entries_of(table):
    """The entries of a table that say where they are from, in byte order of their keys."""
    for name in sorted(table.entries, key=str.encode) if table is not None and table.is_table() else []:
        source = source_of(table.entries[name])
        if source is not None:
            yield name, shared_by(name, table.entries[name], source)


def shared_entries(tree):
    """The entries of a workspace, those of the public registry with what stands in their place."""
    patches = dict(entries_of(inner(tree, "patch", "crates-io")))
    for name, entry in entries_of(inner(tree, "workspace", "dependencies")):
        is_public = entry.source.kind == "registry" and entry.source.text is NO_NAME
        patch = patches.get(name) if is_public else None
        yield patch._replace(patched=entry.key, value=entry.value) if patch else entry


# ---- the crates that entries are for


def components(path):
    """The parts of a path: `/` where it begins there, and names; a `.` counts at the beginning alone."""
    names = [name for name in path.split("/") if name]
    first = ["/"] if path.startswith("/") else names[:1]
    return first + [name for name in names[0 if path.startswith("/") else 1 :] if name != "."]


def resolved_path(root, path):
    """The parts of a path from the folder of the workspace, `.` and `..` gone through."""
    found = []
    for part in components(path if path.startswith("/") else below(root, path)):
        if part == ".." and found not in ([], ["/"]) and found[-1] != "..":
            found.pop()
        elif part != "." and not (part == ".." and found == ["/"]):
            found.append(part)
    return found


def is_of_git(source, crate):
    if not crate.is_from("git") or not same_repository(read_address(source.text), crate.source.address):
        return False
    own = crate.source.reference
    return own == source.reference or (own == ("branch", "master") and source.reference is None)


def is_at_path(source, crate, root):
    return crate.source is None and resolved_path(root, source.text) == components(crate.folder())


def is_of_registry(entry, crate, registries):
    name = entry.source.text
    if name in (NO_NAME, "crates-io"):
        is_there = crate.is_from("crates.io")
    else:
        is_there = crate.source is not None and registry_source(registries, name) == crate.source
    return is_there and (entry.version is None or matches(entry.version.value, crate.read_version))


def agrees(entry, crate, root, registries):
    if entry.source.kind == "git":
        return is_of_git(entry.source, crate)
    if entry.source.kind == "path":
        return is_at_path(entry.source, crate, root)
    return is_of_registry(entry, crate, registries)


class Workspace:
    """The entry that is for each crate, by its place, the entries that are for none, and the text around them."""

    def __init__(self, graph, seen, registries):
        self.text, tree = seen.workspace
        self.shared, self.unused = {}, []
        for entry in shared_entries(tree):
            meant = [one for one in graph.named(entry.name) if agrees(entry, one, graph.root, registries)]
            if meant:
                self.shared[meant[0].place] = entry
            else:
                self.unused.append(entry)

    def entry_for(self, crate):
        return self.shared.get(crate.place)
