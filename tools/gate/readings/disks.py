"""Disks, which give what stands at paths: `read` the bytes of a file, `prefix` those at its start that tell what it is,
and `list` the entries of a folder, each its name and whether it is a folder, in order of names. Each is None where a
call fails."""

import os

PREFIX = 256  # bytes of a prefix at most
LEAST = 16  # bytes of a prefix that tells enough, but of a script whose first line is still open
BUFFER = 2**16  # bytes that a call gives at most


def below(folder, name):
    """The path of what a folder holds under a name."""
    return folder + ("" if folder.endswith("/") else "/") + name


def folders_of(path):
    """The folders that a path goes through."""
    return [path[:place] or "/" for place, letter in enumerate(path) if letter == "/"]


class NoDisk:
    """One on which nothing stands."""

    def read(self, path):
        return None

    prefix = list = read


class MadeDisk:
    """One with these files: for each path a function that gives the bytes. Each call on a failing path fails, and the
    one of the number `failing_call`; a call gives at most a piece of so many bytes, and a file is read until nothing
    comes."""

    def __init__(self, files, failing=(), failing_call=None, piece=BUFFER):
        self.files, self.failing, self.failing_call = files, set(failing), failing_call
        self.piece, self.calls, self.held = min(piece, BUFFER), 0, {}
        for path in files:
            inner = path
            for folder in reversed(folders_of(path)):
                self.held.setdefault(folder, {})[inner[len(below(folder, "")) :]] = inner not in files
                inner = folder

    def succeed(self, path, count):
        """Whether so many calls on a path succeed, one after the other."""
        first = self.calls
        if path in self.failing:
            self.calls = first + 1
        elif self.failing_call in range(first, first + count):
            self.calls = self.failing_call + 1
        else:
            self.calls = first + count
            return True
        return False

    def read(self, path):
        data = self.files[path]() if path in self.files else b""
        good = self.succeed(path, -(-len(data) // self.piece) + 1)
        return data if good and path in self.files else None

    def prefix(self, path):
        data, given, count, is_more = self.files[path]()[:PREFIX] if path in self.files else b"", 0, 0, True
        while is_more:
            count += 1
            is_more = given < len(data)
            given = min(given + self.piece, len(data))
            is_open = data.startswith(b"#!") and b"\n" not in data[:given]
            is_more = is_more and given < PREFIX and (given < LEAST or is_open)
        return data if self.succeed(path, count) and path in self.files else None

    def list(self, path):
        good = self.succeed(path, 1)
        if not good or path not in self.held:
            return None
        return sorted(self.held[path].items(), key=lambda entry: entry[0].encode())


class RealDisk:
    """The files of the machine. A link is listed as a file; a folder in which a name is no text has no list."""

    def read(self, path, size=-1):
        try:
            with open(path, "rb") as file:
                return file.read(size)
        except (OSError, ValueError):
            return None

    def prefix(self, path):
        return self.read(path, PREFIX)

    def list(self, path):
        try:
            with os.scandir(path) as entries:
                found = [(entry.name, entry.is_dir(follow_symlinks=False)) for entry in entries]
            return sorted(found, key=lambda entry: entry[0].encode())
        except (OSError, ValueError):
            return None
