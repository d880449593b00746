"""Where crates come from: the sources that metadata names, and addresses as git and registries have them."""

import re
from collections import namedtuple
from urllib.parse import quote, unquote_to_bytes

# ---- addresses


def are_below(limit, numbers):
    return all(int(number) < limit for number in numbers)


SPECIAL = r"(?:https?|ftp|wss?)://(?:[^/?#@]*@)?([^/?#@:\[\]]+|\[[0-9a-f:.]+\])(?::([0-9]*))?(?:[/?#].*)?"
OTHER = r"(?!https?:|ftp:|wss?:)[a-z][a-z0-9+.-]*:.*"


def is_address(text):
    """An absolute URL with a scheme, of which the web's have a host and a port under 2^16."""
    found = re.fullmatch(SPECIAL, text)
    if found:
        return not re.search(r"[ <>^|%]", found.group(1)) and are_below(2**16, [found.group(2) or 0])
    return bool(re.fullmatch(OTHER, text))


PARTS = re.compile(
    r"([a-z][a-z0-9+.-]*):(?://(?:([^/?#@]*)@)?([^/?#]*))?([^?#]*)(?:\?([^#]*))?(?:#(.*))?", re.DOTALL
)
DEFAULT_PORTS = {"http": "80", "https": "443", "ftp": "21", "ws": "80", "wss": "443"}

# The parts of an address; those that are not there are None.
Address = namedtuple("Address", "scheme user host port path query fragment")


def read_address(text):
    """The parts of an address, as they are compared; or None where the text is none."""
    if not is_address(text):
        return None
    scheme, user, place, path, query, fragment = PARTS.fullmatch(text).groups()
    host, port = re.fullmatch(r"(\[.*\]|[^:]*)(?::([0-9]*))?", place or "").groups()
    is_special = scheme in DEFAULT_PORTS
    host, port = host.lower() if is_special else host, None if port in ("", DEFAULT_PORTS.get(scheme)) else port
    if is_special or scheme == "file":
        path = "/" + "/".join(without_dots(path.replace("\\", "/").lstrip("/").split("/")))
    path = quote(path, safe="/%!$&'()*+,;=:@-._~|[]^\\")
    return Address(scheme, user or None, host or None, port, path, query, fragment)


def without_dots(segments):
    """The segments of an address's path, `.` and `..` gone through."""
    found = []
    for number, segment in enumerate(segments):
        if segment in (".", ".."):
            found = found[:-1] if segment == ".." else found
            found += [""] if number == len(segments) - 1 else []
        else:
            found.append(segment)
    return found


# ---- sources

# The public registry, in the two forms in which cargo knows it.
CRATES_IO = ("registry+https://github.com/rust-lang/crates.io-index", "sparse+https://index.crates.io/")
KINDS = ("registry", "sparse", "git")
REGISTRIES = ("crates.io", "registry", "sparse")
REFERENCES = ("branch", "tag", "rev")

# What a source is: how it is read (the public registry is a kind of its own), its address, and of git the reference,
# its kind and its value, or None.
Source = namedtuple("Source", "kind address reference")


def is_source(text):
    """An address behind the word for how it is read."""
    kind, plus, address = text.partition("+")
    return kind in KINDS and plus == "+" and is_address(address)


def read_source(text):
    """The source of a text that is one."""
    if text in CRATES_IO:
        return Source("crates.io", text, None)
    kind, _, address = text.partition("+")
    parts = read_address(address)
    if kind == "git":
        return Source(kind, parts._replace(fragment=None), reference_of(parts.query))
    return Source(kind, parts, None)


def reference_of(query):
    """What the first part of a query says that has the name of a kind of reference."""
    for part in (query or "").split("&"):
        name, _, value = part.partition("=")
        if form_text(name) in REFERENCES:
            return form_text(name), form_text(value)
    return None


def form_text(written):
    """A text of a form, or what is written where it stands for no text."""
    try:
        return unquote_to_bytes(written.replace("+", " ")).decode()
    except UnicodeDecodeError:
        return written


# ---- what an entry of a workspace agrees with


def same_repository(one, other):
    """Whether two addresses are one host's and one path's, the endings of repositories left out."""
    bare = lambda path: re.sub(r"(\.git)+\Z", "", path)
    return one.host == other.host and bare(one.path) == bare(other.path)


def registry_source(registries, name):
    """The source of the first registry of a name that was handed in, or None."""
    addresses = [address for own, address in registries if own == name]
    has_prefix = addresses and addresses[0].startswith(tuple(kind + "+" for kind in KINDS))
    written = [address if has_prefix else "registry+" + address for address in addresses[:1]]
    return read_source(written[0]) if written and is_source(written[0]) else None
