"""Packages: the files below the folder of a crate, how paths are shown, and paths by their components."""

import re
from collections import namedtuple

from readings.disks import below

ENTRIES = 2**24  # a package of more entries is not listed whole

# ---- paths


def components(path):
    """The names along a path, and each `..`."""
    return [name for name in path.split("/") if name not in ("", ".")]


def rest_below(folder, path):
    """What is written of a path behind the components of a folder in which it lies, or None."""
    names, found = components(folder), [one for one in re.finditer("[^/]+", path) if one[0] != "."]
    is_below = folder.startswith("/") == path.startswith("/") and [one[0] for one in found[: len(names)]] == names
    behind = found[len(names) :]
    return (path[behind[0].start() :] if behind else "") if is_below else None


def home_path(path, root, home):
    """A path as it is shown: below the folder of cargo, or else below that of its crate."""
    below_home = None if home is None else rest_below(home, path)
    below_root = rest_below(root, path)
    if below_home is not None:
        return "$CARGO_HOME/" + below_home
    return path if below_root is None else "$crate/" + below_root


# ---- files

# A file of a package: its name, its path from the folder of the package, and its path on the disk.
File = namedtuple("File", "name path whole")


class Package:
    """The files of a crate's package, and the folders of it that have no list: the path of each and why."""

    def __init__(self, crate, disk):
        self.crate, self.disk, self.left = crate, disk, ENTRIES
        self.files, self.unlisted = [], []
        root = crate.folder()
        waiting = [(root, ())]
        while waiting:
            folder, names = waiting.pop()
            inner = [(below(folder, name), names + (name,)) for name in self.visited(folder, names)]
            waiting += reversed(inner)
        self.files.sort(key=lambda file: [name.encode() for name in components(file.path)])

    def entries(self, folder):
        """What a folder lists, in order; nothing where it has no list."""
        found = self.disk.list(folder)
        if found is None:
            self.unlisted.append((folder, "the folder could not be listed"))
        elif len(found) > self.left:
            self.unlisted.append((folder, "the package has more than %d entries" % ENTRIES))
        else:
            self.left -= len(found)
            return found
        return []

    def visited(self, folder, names):
        """Takes the files of a folder, and gives the names of the folders in it."""
        inner = []
        for name, is_folder in self.entries(folder):
            if names == () and name == ".git" and self.crate.is_from("git"):
                continue
            if is_folder:
                inner.append(name)
            else:
                self.files.append(File(name, "/".join(names + (name,)), below(folder, name)))
        return inner
