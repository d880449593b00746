"""The calls of a crate as its sources write them: whose they are, what they are for, and the names of their clauses.

A call is a function, or a method of a type or a trait. It is public where it is `pub` and `lib.rt`, or a `pub mod` of
it, hands it on, or the type that it belongs to. A method by which a type implements a trait is public where both are
and the method has clauses of its own: they stand in place of the trait's.
"""

import functools
import re
from dataclasses import dataclass, field
from pathlib import Path

TOP = Path(__file__).resolve().parent.parent.parent
UNNAMED = "·"
OWNER = re.compile(r"^(pub )?(?:pub\(crate\) )?(impl|trait)\b(.*)")
FUNCTION = re.compile(r"^\s*(pub )?(?:pub\(crate\) )?fn (\w+)")
GIVEN = re.compile(r"^\s*ghost (\w+_gives)\b")
CLAUSE = re.compile(r"\b(requires|ensures)\b *(\w*) *\{")
USE = re.compile(r"^ *pub use ([\w:]+?)(?:::\{([^}]*)\}|::(\w+))?;", re.M | re.S)
MODULE = re.compile(r"^pub mod (\w+);", re.M)
DECLARED = re.compile(r"^pub (?:struct|enum|trait|type|fn) (\w+)", re.M)
IMPLEMENTED = re.compile(r"(\w+)(?:<.*>)? for (\w+)")
TRAIT = re.compile(r"^pub trait (\w+)", re.M)
RESULT = re.compile(r"\) -> (.+?)(?:\s+(?:where|requires|ensures)\b|\s*\{|;\Z|\Z)", re.S)


@dataclass
class Call:
    """A function or a method, with the names of its clauses in their order."""

    name: str
    owner: str = ""
    trait: str = ""
    is_pub: bool = False
    doc: str = ""
    result: str = ""
    requires: list = field(default_factory=list)
    ensures: list = field(default_factory=list)
    changes: bool = False

    @property
    def is_law(self):
        """Whether it answers nothing and changes nothing: its contract is all that it gives."""
        return not (self.result or self.changes or self.owner) and bool(self.ensures)

    @property
    def path(self):
        """The name behind that of its owner."""
        return "%s::%s" % (self.owner, self.name) if self.owner else self.name


@dataclass
class Owner:
    """The type or the trait whose methods follow, and the trait that the type implements by them."""

    name: str = ""
    trait: str = ""
    is_trait: bool = False


def crates():
    """The crates, lowest first."""
    lines = (TOP / "crates.txt").read_text(encoding="utf-8").splitlines()
    return [line.partition(":")[0].split()[0] for line in lines if line.strip() and not line.startswith("#")]


def root_of(crate):
    """The root file of a crate."""
    source = TOP / "crates" / crate / "src"
    return source / "lib.rt" if (source / "lib.rt").is_file() else source / "main.rt"


def files_of(crate):
    """The files of a crate, its root first and the others by their paths."""
    root = root_of(crate)
    return [root] + sorted(path for path in root.parent.rglob("*.rt") if path != root)


def owner_of(match):
    """What the head of an `impl` or of a `trait` names."""
    kind, head = match.group(2), re.sub(r"^\s*<[^>]*>(?=\s)", "", match.group(3))
    implemented = IMPLEMENTED.search(head)
    if kind == "impl" and implemented:
        return Owner(implemented.group(2), implemented.group(1))
    return Owner(re.search(r"\w+", head).group(), is_trait=kind == "trait")


def contract_of(lines):
    """The lines of a function up to its body, or to the end of a method that has none."""
    indent = len(lines[0]) - len(lines[0].lstrip())
    for line in lines:
        yield line
        if line.endswith(";") or line[indent:].startswith("{") or FUNCTION.match(line) and "{" in line:
            return
        if not FUNCTION.match(line) and line[indent:].startswith(")") and line.endswith("{"):
            return


def doc_before(lines, number):
    """The comment of the item at a line, as one text; the examples in it are left out."""
    first = number
    while first and lines[first - 1].lstrip().startswith(("///", "#[")):
        first -= 1
    told = [line.lstrip()[3:].strip() for line in lines[first:number] if line.lstrip().startswith("///")]
    return re.sub(r"```.*?```", "", "\n".join(told), flags=re.S).strip()


def call_at(lines, number, owner, given):
    """The function whose head is at a line, and the number of the lines of its contract."""
    contract = list(contract_of(lines[number:]))
    found = FUNCTION.match(lines[number])
    clauses = CLAUSE.findall("\n".join(contract))
    call = Call(found.group(2), owner.name, owner.trait, bool(found.group(1)) or owner.is_trait)
    result = RESULT.search("\n".join(contract))
    call.result = " ".join(result.group(1).split()) if result else ""
    call.changes = "&mut " in "\n".join(contract)
    call.doc = doc_before(lines, number)
    call.requires = [name or UNNAMED for kind, name in clauses if kind == "requires"]
    call.ensures = [name or UNNAMED for kind, name in clauses if kind == "ensures"]
    call.ensures += [clause for clause in given if clause == call.name + "_gives"]
    return call, len(contract)


def calls_in(path):
    """The calls of a file, in its order."""
    lines = path.read_text(encoding="utf-8").splitlines()
    owner, given, number = Owner(), [], 0
    while number < len(lines):
        head, gives = OWNER.match(lines[number]), GIVEN.match(lines[number])
        if head:
            owner, given = owner_of(head), []
        elif lines[number].startswith("}"):
            owner, given = Owner(), []
        elif gives:
            given.append(gives.group(1))
        elif FUNCTION.match(lines[number]):
            call, length = call_at(lines, number, owner, given)
            yield call
            number += length - 1
        number += 1


def calls_of(crate):
    """All calls of a crate, file by file."""
    return [call for path in files_of(crate) for call in calls_in(path)]


def names_used(path):
    """What a file hands on: the names of its own crate, and for each crate below it those of that crate."""
    own, below = set(), {}
    for source, several, single in USE.findall(path.read_text(encoding="utf-8")):
        names = re.findall(r"(\w+)(?=\s*(?:,|$))", several) if several else [single]
        crate = source.partition("::")[0]
        if crate.startswith("deny_"):
            below.setdefault(crate, set()).update(names)
        else:
            own.update(names)
    return own, below


def open_files(path):
    """A root file, and the files of its `pub mod`s."""
    yield path
    folder = path.parent if path.stem in ("lib", "main") else path.with_suffix("")
    for module in MODULE.findall(path.read_text(encoding="utf-8")):
        yield from open_files(folder / (module + ".rt"))


@functools.cache
def handed_on(crate):
    """What a crate hands on: the names of its own, and for each crate below it those of that crate."""
    own, below = set(), {}
    for path in open_files(root_of(crate)):
        used, others = names_used(path)
        own |= used | set(DECLARED.findall(path.read_text(encoding="utf-8")))
        for other, names in others.items():
            below.setdefault(other, set()).update(names)
    return own, below


@functools.cache
def traits():
    """The traits of the repository that a crate hands on."""
    found = set()
    for crate in crates():
        declared = {name for path in files_of(crate) for name in TRAIT.findall(path.read_text(encoding="utf-8"))}
        found |= declared & handed_on(crate)[0]
    return found


def implementations(crate):
    """The types that a crate hands on, by the traits of the repository that they implement."""
    known, names, found = traits(), handed_on(crate)[0], {}
    for path in files_of(crate):
        for line in path.read_text(encoding="utf-8").splitlines():
            head = OWNER.match(line)
            owner = owner_of(head) if head else Owner()
            if owner.trait in known and owner.name in names:
                found.setdefault(owner.trait, set()).add(owner.name)
    return found


def is_public(call, names):
    """Whether callers of the crate that hands on these names can make this call, by clauses of its own."""
    if call.trait:
        return call.owner in names and bool(call.ensures or call.requires)
    return call.is_pub and (call.owner or call.name) in names


def public_calls(crate):
    """The public calls of a crate, file by file."""
    names, _ = handed_on(crate)
    return [call for call in calls_of(crate) if is_public(call, names)]
