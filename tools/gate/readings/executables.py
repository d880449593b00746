"""What a file is by its first bytes: native code, a script with its interpreter, or no executable."""

import re

FEWEST = 16  # a file of fewer bytes is no executable
LINE = 256  # the first line of a script ends among so many bytes
NATIVE = [
    ("elf", ["7f454c46"]), ("pe", ["4d5a"]), ("mach", ["feedface", "cefaedfe", "feedfacf", "cffaedfe", "cafebabe"]),
    ("archive", ["213c617263683e0a"]),
]


def native_kind(data):
    """The format of native code, or None."""
    for kind, prefixes in NATIVE:
        if any(data.startswith(bytes.fromhex(prefix)) for prefix in prefixes):
            return kind
    return None


def first_line(data):
    """The first line of a script, or None where it does not end or is no text."""
    line, end, _ = data[:LINE].partition(b"\n")
    try:
        return line.decode() if end else None
    except UnicodeDecodeError:
        return None


def interpreter(name, data):
    """What a file of this name names as its interpreter, or None."""
    line = first_line(data) if data.startswith(b"#!") else None
    if line is None or (line.startswith("#![") and re.fullmatch(r".+\.rs", name, re.DOTALL)):
        return None
    parts = line.split(" ")
    if parts[0].endswith("#!"):
        parts = parts[1:]
    if parts and parts[0].endswith("/env"):
        return parts[1] if len(parts) > 1 else None
    return parts[0].rpartition("/")[2] if parts else None


def executable(name, data, with_archives):
    """The kind of native code, as `executable-kind` and its name, or of a script, as `interpreter` and its name; None
    for no executable."""
    native = native_kind(data) if len(data) >= FEWEST else None
    if native is not None:
        return None if native == "archive" and not with_archives else ("executable-kind", native)
    named = interpreter(name, data) if len(data) >= FEWEST else None
    return None if named is None else ("interpreter", named)
