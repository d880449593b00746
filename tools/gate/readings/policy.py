"""A policy: from a text to its entries, to the list of its faults, or to the list of what contradicts itself in it; and
what of it counts on a day.

A value's range is that of the reading of TOML, in bytes. A table is described by its keys and how the value of each is read.
A day is its text, as `2026-01-31`: such texts are ordered as the days are.
"""

import re
from calendar import isleap, mdays
from collections import namedtuple

from readings import globs, toml
from readings.licences import requirement_of
from readings.versions import matches, read_requirement

FAULT_KINDS = ["not-utf8", "grammar", "clash", "unknown", "missing", "wrong-kind", "unreadable", "no-today"]

# A value that was read, and its range.
Spanned = namedtuple("Spanned", "value span")
# A label: its range and its message, and the text that it lies in where that is not the policy.
Label = namedtuple("Label", "span message text", defaults=[None])
# An error about the policy itself.
Diagnostic = namedtuple("Diagnostic", "message labels")


class Faults(Exception):
    """Why a text is no policy: the kind, key and range of each fault, in order."""

    def __init__(self, faults):
        order = lambda fault: (fault[2], FAULT_KINDS.index(fault[0]), fault[1].encode())
        self.faults = sorted(set(faults), key=order)


# ---- values and where they stand


class At:
    """A value of the policy: its path, the text around it, the day at hand or None, and the list that faults go to."""

    def __init__(self, place, path, text, today, faults):
        self.place, self.path, self.text, self.today, self.faults = place, path, text, today, faults
        self.span = place.span

    def kind(self):
        if self.place.value is not None:
            kind = self.place.value[0]
            return "text" if kind == "multiline" else kind
        return "table" if self.place.is_table() else "array"

    def fault(self, kind, *names, span=None):
        key = ".".join(self.path + names)
        self.faults.append((kind, key, span or self.span))

    def inner(self, name, place):
        return At(place, self.path + (name,), self.text, self.today, self.faults)

    def want(self, kind):
        if self.kind() != kind:
            self.fault("wrong-kind")
        return self.kind() == kind

    def take(self, kind):
        return Spanned(self.place.value[1], self.span) if self.want(kind) else None

    def read(self, kind, meaning):
        """A value of a kind that has to have a meaning."""
        held = self.take(kind)
        if held is None:
            return None
        meant = meaning(held.value)
        if meant is None:
            self.fault("unreadable")
        return Spanned(meant, self.span)


def words(*allowed):
    return lambda at: at.read("text", lambda text: text if text in allowed else None)


def whole_number(limit):
    return lambda at: at.read("integer", lambda number: number if 0 <= number < limit else None)


def matching(pattern, is_good=lambda text: True):
    meaning = lambda text: text if re.fullmatch(pattern, text, re.ASCII) and is_good(text) else None
    return lambda at: at.read("text", meaning)


def unread(at):
    """A value of any kind, which says nothing."""


def flag(at):
    return at.take("boolean")


def text(at):
    return at.take("text")


def is_day(written):
    """Whether a text is that of a day of the calendar."""
    form = re.fullmatch("([0-9]{4})-([0-9]{2})-([0-9]{2})", written)
    year, month, day_ = map(int, form.groups()) if form else (0, 0, 0)
    return 1 <= month <= 12 and 1 <= day_ <= mdays[month] + (month == 2 and isleap(year))


def day(at):
    """A day, as a text or as a date of TOML, which is to be held to the day at hand."""
    kind = "date" if at.kind() == "date" else "text"
    read = at.read(kind, lambda written: written if is_day(written) else None)
    if read is not None and read.value is not None and at.today is None:
        at.fault("no-today")
    return read


def array(read):
    def read_all(at):
        if not at.want("array"):
            return None
        elements = enumerate(at.place.elements)
        return Spanned([read(at.inner(str(number), element)) for number, element in elements], at.span)

    return read_all


def table(fields, required=()):
    """The values of a table by their keys. Keys that are left out are left out there too."""
    return lambda at: read_table(at, fields, required) if at.want("table") else None


def read_table(at, fields, required=()):
    found = {}
    for name, place in at.place.entries.items():
        if name in fields:
            found[name] = fields[name](at.inner(name, place))
        else:
            at.fault("unknown", name, span=place.segment[1])
    for name in required:
        if name not in found:
            at.fault("missing", name)
    return Spanned(found, at.span)


# ---- specs and entries


class Spec:
    """A name, where it stands, and the requirement as it is written, or None."""

    def __init__(self, name, span, written):
        self.name, self.span, self.written = name, span, written
        self.comparators = None if written is None else read_requirement(written)

    def __str__(self):
        return self.name if self.written is None else "%s = %s" % (self.name, self.written)

    def equals(self, other):
        return (self.name, self.written) == (other.name, other.written)

    def matches(self, crate):
        named = self.name == crate.name
        return named and (self.comparators is None or matches(self.comparators, crate.read_version))


def divide(written):
    """Name and requirement: the first `@` divides, or else the first `:`."""
    divider = "@" if "@" in written else ":"
    name, divides, requirement = written.partition(divider)
    return name, requirement if divides else None


def name_span(at, name):
    """The name's own bytes, where the string is on one line and without escapes; else all of the string."""
    start, end = at.span
    is_long = at.place.value[0] == "multiline"
    if is_long or at.text[start:end] != at.place.value[1].encode():
        return at.span
    return start, start + len(name.encode())


def is_spec(written):
    name, requirement = divide(written)
    return name != "" and (requirement is None or read_requirement(requirement) is not None)


def spec_text(at):
    written = at.read("text", lambda text: text if is_spec(text) else None)
    if written is None or written.value is None:
        return None
    name, requirement = divide(written.value)
    return Spec(name, name_span(at, name), requirement)


def name_alone(at):
    return at.read("text", lambda text: text or None)


def requirement_alone(at):
    return at.read("text", lambda text: text if read_requirement(text) is not None else None)


class Entry:
    """An entry of a list: its spec and what else it says."""

    def __init__(self, spec, more):
        self.spec, self.more = spec, more

    def get(self, name, otherwise=None):
        return self.more[name].value if name in self.more else otherwise

    def labels(self, message):
        """The label at the name, and those at what the entry says for itself."""
        said = [name for name in ("reason", "use-instead") if name in self.more]
        return [Label(self.spec.span, message)] + [Label(self.more[name].span, name.replace("-", " ")) for name in said]


def entry(**fields):
    """A spec, or a table of a spec and these fields, `-` for `_`."""
    fields = keys(fields)
    return lambda at: Entry(spec_text(at), {}) if at.kind() == "text" else read_entry(at, fields)


def entry_table(required=(), **fields):
    """A table of a spec and these fields."""
    fields = keys(fields)
    return lambda at: read_entry(at, fields, required)


def keys(fields):
    return {name.replace("_", "-"): read for name, read in fields.items()}


def read_entry(at, fields, required=()):
    if not at.want("table"):
        return None
    by_crate = "crate" in at.place.entries
    of_spec = {"crate": spec_text} if by_crate else {"name": name_alone, "version": requirement_alone}
    found = read_table(at, {**of_spec, **fields}, (*required, *(() if by_crate else ("name",)))).value
    spec = found.pop("crate") if by_crate else spec_of(found.pop("name", None), found.pop("version", None))
    return Entry(spec, found)


def spec_of(name, version):
    return Spec(name.value, name.span, version and version.value) if name else None


# ---- the tables of `[bans]`

LEVEL = words("allow", "warn", "deny")
SCOPE = words("all", "workspace", "transitive", "none")
TEXTS = array(text)
CHECKSUM = matching("[0-9A-Fa-f]{64}")
ARE_SMALL = lambda version: all(int(part) < 2**32 for part in version.split("."))
RUST_VERSION = matching(r"[0-9]+\.[0-9]+(\.[0-9]+)?", ARE_SMALL)
WAIVER = entry(reason=text, expires=day)

BYPASS = entry_table(
    build_script=CHECKSUM,
    required_features=TEXTS,
    allow_globs=TEXTS,
    allow=array(table({"path": text, "checksum": CHECKSUM}, required=["path"])),
    expires=day,
)

BUILD = {
    "allow-build-scripts": array(entry()),
    "executables": LEVEL,
    "interpreted": LEVEL,
    "script-extensions": TEXTS,
    "bypass": array(BYPASS),
    "enable-builtin-globs": flag,
    "include-dependencies": flag,
    "include-workspace": flag,
    "include-archives": flag,
}

STD_REPLACEMENTS = {
    "scope": SCOPE,
    "level": LEVEL,
    "rust-version": RUST_VERSION,
    "ignore": array(WAIVER),
    "ignore-rust-version": SCOPE,
}

BANS = {
    "multiple-versions": LEVEL,
    "multiple-versions-include-dev": flag,
    "highlight": words("simplest-path", "lowest-version", "all"),
    "deny": array(entry(wrappers=TEXTS, deny_multiple_versions=flag, reason=text, use_instead=text)),
    "allow": array(entry(reason=text)),
    "allow-workspace": flag,
    "features": array(entry_table(allow=TEXTS, deny=TEXTS, exact=flag, reason=text)),
    "external-default-features": LEVEL,
    "workspace-default-features": LEVEL,
    "skip": array(WAIVER),
    "skip-tree": array(entry(depth=whole_number(2**32), reason=text, expires=day)),
    "wildcards": LEVEL,
    "allow-wildcard-paths": flag,
    "allow-build-scripts": array(entry()),
    "build": table(BUILD),
    "workspace-dependencies": table({"duplicates": LEVEL, "include-path-dependencies": flag, "unused": LEVEL}),
    "std-replacements": table(STD_REPLACEMENTS),
}

# ---- `[licenses]`

LICENCES = array(lambda at: at.read("text", requirement_of))

LICENSES = {
    "version": unread,
    "confidence-threshold": unread,
    "allow": LICENCES,
    "exceptions": array(entry_table(required=["allow"], allow=LICENCES, expires=day)),
    "private": table({"ignore": flag, "registries": TEXTS}),
    "include-dev": flag,
    "unused-allowed-license": LEVEL,
}

TABLES = {"bans": BANS, "licenses": LICENSES}

# The lists whose entries can expire.
WAIVERS = [
    ("bans", "skip"), ("bans", "skip-tree"), ("bans", "build", "bypass"), ("bans", "std-replacements", "ignore"),
    ("licenses", "exceptions"),
]


def entries_at(tables, path):
    """The entries of a list, none where it is not written."""
    name, *rest = path
    if name not in tables:
        return []
    return entries_at(tables[name].value, rest) if rest else tables[name].value


def with_entries_at(tables, path, kept):
    """The tables with these entries as a list, where it is written."""
    name, *rest = path
    if name not in tables:
        return tables
    value = with_entries_at(tables[name].value, rest, kept) if rest else kept
    return {**tables, name: Spanned(value, tables[name].span)}


class Policy:
    """What `[bans]` says, and `[licenses]`, which is None where it is not written, the text around them, and the
    waivers that expired and stand in no list any more, by their ranges."""

    def __init__(self, text, tables, expired=()):
        value = lambda name, otherwise: tables[name].value if name in tables else otherwise
        self.bans, self.licenses = value("bans", {}), value("licenses", None)
        self.text, self.tables, self.expired = text, tables, list(expired)

    def on(self, today):
        """What counts of it on a day, which is there where a waiver says how long it counts."""
        tables, expired = self.tables, []
        is_past = lambda one: "expires" in one.more and one.get("expires") < today
        for path in WAIVERS:
            listed = entries_at(tables, path)
            tables = with_entries_at(tables, path, [one for one in listed if not is_past(one)])
            expired += filter(is_past, listed)
        return Policy(self.text, tables, sorted(expired, key=lambda one: one.spec.span))

    def get(self, name, otherwise):
        return self.bans[name].value if name in self.bans else otherwise

    def entries(self, name):
        return self.get(name, [])

    def banned(self):
        """The entries of `deny` that ban."""
        return [e for e in self.entries("deny") if not e.get("deny-multiple-versions")]

    def one_version_wanted(self):
        """The entries of `deny` that deny several versions."""
        return [e for e in self.entries("deny") if e.get("deny-multiple-versions")]

    def build(self, name, otherwise):
        """What the table `build` says under a key."""
        table_ = self.get("build", {})
        return table_[name].value if name in table_ else otherwise

    def allowed_files(self):
        """The elements of all `allow` of bypasses."""
        return [file.value for bypass in self.build("bypass", []) for file in bypass.get("allow", [])]


def read_tree(text):
    """The tree of a text, or its one fault."""
    try:
        text.decode("utf-8")
    except UnicodeDecodeError:
        raise Faults([("not-utf8", "", (0, 0))])
    reader = toml.Reader(text)
    try:
        return toml.root_of(reader.document(), len(text))
    except toml.Grammar:
        raise Faults([("grammar", "", (reader.place, reader.place))])
    except toml.Clash as clash:
        raise Faults([("clash", "", clash.span)])


def written_policy(text, today=None):
    """What a text without faults writes, whichever of it counts."""
    root, faults = read_tree(text), []
    at = lambda name: At(root.entries[name], (name,), text, today, faults)
    read = {name: table(fields)(at(name)) for name, fields in TABLES.items() if name in root.entries}
    if faults:
        raise Faults(faults)
    return Policy(text, read)


def read_policy(text, today=None):
    """The policy of a text without faults: what counts of it on a day, which it needs where a waiver can expire."""
    return written_policy(text, today).on(today)


# ---- what contradicts itself


def several_and_wrapped(policy):
    """Entries that deny several versions and have wrappers."""
    message = "a crate ban was specified with both `wrappers` and `deny-multiple-versions` = true"
    for one in policy.one_version_wanted():
        if one.get("wrappers"):
            wrappers, flag_ = one.more["wrappers"], one.more["deny-multiple-versions"]
            at_wrappers = Label(wrappers.span, "has %d `wrappers`" % len(wrappers.value))
            at_flag = Label(flag_.span, "has `deny-multiple-versions` set to true")
            yield Diagnostic(message, [at_wrappers, at_flag])


def marked(span, list_):
    return Label(span, "marked as `%s`" % list_)


def in_two_lists(both, name, entries, other_name, others):
    """Each entry of a list that the other list has too, with the first such entry there."""
    message = "a crate was specified in both %s" % both
    for one in entries:
        for other in [other for other in others if one.spec.equals(other.spec)][:1]:
            yield Diagnostic(message, [marked(one.spec.span, name), marked(other.spec.span, other_name)])


def features_in_both(policy):
    """Each feature that an entry allows and denies, with the first denial."""
    message = "a crate feature was specified as both allowed and denied"
    for one in policy.entries("features"):
        for allowed in one.get("allow", []):
            for denied in [d for d in one.get("deny", []) if d.value == allowed.value][:1]:
                at_name = Label(one.spec.span, "crate ban entry")
                yield Diagnostic(message, [at_name, marked(allowed.span, "allow"), marked(denied.span, "deny")])


def bad_byte(text, extension, place):
    """The range of a byte of an extension; that of the whole where escapes write it."""
    start, end = extension.span
    written = text[start:end]
    start += re.match(rb"(\r?\n)?", written).end()
    is_plain = text[start:end] == extension.value.encode()
    return (start + place, start + place + 1) if is_plain else extension.span


def bad_extensions(policy):
    """Extensions that are not of ASCII letters and digits alone."""
    for one in policy.build("script-extensions", []):
        bad = re.search("[^A-Za-z0-9]", one.value)
        if not one.value.isascii():
            yield Diagnostic("non-ascii file extension provided", [Label(one.span, "invalid extension")])
        elif bad:
            at_byte = Label(bad_byte(policy.text, one, bad.start()), "invalid character")
            yield Diagnostic("invalid file extension provided", [Label(one.span, "extension"), at_byte])


def bad_globs(policy):
    """Globs of files that are none, with the byte that is bad."""
    for bypass in policy.build("bypass", []):
        for one in bypass.get("allow-globs", []):
            try:
                globs.expression(one.value)
            except globs.Bad as bad:
                byte = len(one.value[: bad.args[0]].encode())
                yield Diagnostic("invalid glob pattern: at byte %d" % byte, [Label(one.span, "")])


def absolute_paths(policy):
    for file in policy.allowed_files():
        if file["path"].value.startswith("/"):
            yield Diagnostic("absolute paths are not allowed", [Label(file["path"].span, "")])


def clashes(policy):
    """What contradicts itself in what a text writes, kind by kind, and each kind by the places of its labels."""
    bans, allowed, skipped = policy.banned(), policy.entries("allow"), policy.entries("skip")
    kinds = [
        several_and_wrapped(policy),
        in_two_lists("`allow` and `deny`", "deny", bans, "allow", allowed),
        in_two_lists("`skip` and `deny`", "deny", bans, "skip", skipped),
        in_two_lists("`skip` and `allow`", "allow", allowed, "skip", skipped),
        features_in_both(policy),
        bad_extensions(policy),
        bad_globs(policy),
        absolute_paths(policy),
    ]
    by_place = lambda diagnostic: [label.span for label in diagnostic.labels[:2]]
    return [diagnostic for kind in kinds for diagnostic in sorted(kind, key=by_place)]
