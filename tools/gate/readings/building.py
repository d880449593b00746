"""Build scripts and the files of packages, by `build` in `[bans]`: what is told of those of crates that are executed
while others are built, which entries let some of them pass, and what could not be read."""

from hashlib import sha256

from readings.executables import executable
from readings.globs import expression
from readings.packages import Package, components, home_path
from readings.policy import Label
from readings.rules import SEVERITY, Finding, of_crate, unused

BUILTIN = (
    b'globs = ["*.bash", "*.bat", "*.cmd", "*.fish", "*.js", "*.pl", "*.ps1", "*.py", "*.rb", "*.sh", "*.vbs", '
    b'"*.zsh"]\n'
)
UNREADABLE = "the file could not be read"

# ---- what a policy says


class Glob:
    """A glob: what it fits, and its label."""

    def __init__(self, text, label):
        self.expression, self.label, self.span = expression(text), label, label.span

    def fits(self, path):
        return self.expression.fullmatch(path) is not None


def builtin_globs():
    """The globs of scripts that are built in, which lie in a text of their own."""
    place = BUILTIN.index(b"[")
    while BUILTIN.find(b'"', place) >= 0:
        start = BUILTIN.index(b'"', place) + 1
        end = BUILTIN.index(b'"', start)
        yield Glob(BUILTIN[start:end].decode(), Label((start, end), "builtin", BUILTIN))
        place = end + 1


class Bypass:
    """An entry of `bypass`: the files that it allows, each its components, range and checksum, and its globs."""

    def __init__(self, entry):
        self.spec, self.span = entry.spec, entry.spec.span
        self.script, self.required = entry.more.get("build-script"), entry.get("required-features", [])
        self.globs = [Glob(one.value, Label(one.span, "")) for one in entry.get("allow-globs", [])]
        files = [file.value for file in entry.get("allow", [])]
        self.paths = [(components(one["path"].value), one["path"].span, one.get("checksum")) for one in files]

    def path_for(self, path):
        """The range and the checksum of the first allowed path that is this one."""
        return next((one[1:] for one in self.paths if one[0] == components(path)), None)


class Building:
    """What a policy says of builds: by its table `build`, or else by the older list of crates alone."""

    def __init__(self, policy):
        older = "build" not in policy.bans
        said = {"executables": "allow", "interpreted": "warn"} if older else {}
        says = lambda name, otherwise: said.get(name, policy.build(name, otherwise))
        self.scripts = policy.get("allow-build-scripts", None) if older else policy.build("allow-build-scripts", None)
        self.executables, self.interpreted = says("executables", "deny"), says("interpreted", "allow")
        written = policy.build("script-extensions", [])
        self.extensions = [Glob("*." + one.value, Label(one.span, "")) for one in written]
        self.extensions += builtin_globs() if policy.build("enable-builtin-globs", False) else []
        self.bypasses = [Bypass(entry) for entry in policy.build("bypass", [])]
        self.with_dependencies = policy.build("include-dependencies", False)
        self.with_workspace = policy.build("include-workspace", False)
        self.with_archives = policy.build("include-archives", False)

    def used(self, crate):
        """The first bypass that speaks of a crate."""
        return next((bypass for bypass in self.bypasses if bypass.spec.matches(crate)), None)


def building_of(policy):
    """What a policy says of builds, or None where it says nothing."""
    return Building(policy) if {"build", "allow-build-scripts"} & set(policy.bans) else None


# ---- which crates are looked at


def script_of(crate):
    """The file of a crate's first build script, or None."""
    return next((target.path for target in crate.targets if "custom-build" in target.kinds), None)


def is_script_allowed(building, crate):
    listed = building.scripts
    return listed is None or script_of(crate) is None or any(one.spec.matches(crate) for one in listed)


def is_executed(crate):
    """Whether a crate is executed while others are built."""
    return any({"custom-build", "proc-macro"} & set(target.kinds) for target in crate.targets)


def reached(graph):
    """The places of the crates that are executed while others are built, and of all that these need."""
    waiting = [crate.place for crate in graph.crates if is_executed(crate)]
    found = set(waiting)
    while waiting:
        more = graph.crates[waiting.pop()].needs - found
        found |= more
        waiting += more
    return found


def is_checked(building, crate, places):
    is_minded = building.executables != "allow" or not is_script_allowed(building, crate)
    is_counted = building.with_workspace or not crate.is_member
    return is_minded and is_counted and (is_executed(crate) or building.with_dependencies and crate.place in places)


# ---- the files of a crate


def path_note(path):
    return "path = '%s'" % path


def error_note(text):
    return "error = '%s'" % text


class Checked:
    """A crate that is looked at: what is told, what could not be read, and which entries are hit."""

    def __init__(self, building, crate, disk, home):
        self.building, self.crate, self.disk, self.home = building, crate, disk, home
        self.used, self.found, self.unread, self.hits = building.used(crate), [], [], set()
        if self.used:
            self.hits.add(("bypass", self.used.span))
        if self.goes_on_behind_script():
            self.check_files()

    # -- what is told

    def shown(self, path):
        return home_path(path, self.crate.folder(), self.home)

    def tell(self, code, severity, message, labels=(), notes=(), **key):
        """A finding without trees."""
        self.found.append(of_crate(self.crate, code, severity, message, labels, notes, nodes=(), **key))

    def read(self, path, purpose):
        data = self.disk.prefix(path) if purpose == "header" else self.disk.read(path)
        if data is None:
            self.unread.append((self.crate, path, purpose))
        return data

    # -- the script

    def goes_on_behind_script(self):
        """Whether the other files are looked at too."""
        path, is_allowed = script_of(self.crate), is_script_allowed(self.building, self.crate)
        wanted = self.used.script if self.used and path is not None else None
        data = self.read(path, "script") if wanted or not is_allowed else None
        sum_ = None if data is None else sha256(data).hexdigest()
        if wanted and self.ends_by_sum(wanted, path, sum_):
            return False
        if not is_allowed:
            self.tell_not_allowed(path, sum_)
        return is_allowed

    def ends_by_sum(self, wanted, path, sum_):
        """Whether the checksum of the script lets the whole package pass."""
        if sum_ is None:
            self.tell_mismatch("warning", wanted, path, "build script failed checksum: " + UNREADABLE)
        elif sum_ != wanted.value.lower():
            self.tell_mismatch("warning", wanted, path, "calculated different checksum " + sum_)
        else:
            self.tell_match(wanted, path)
            self.tell_unknown()
            return not self.tells_enabled()
        return False

    def tell_mismatch(self, severity, wanted, path, error):
        labels, notes = [Label(wanted.span, "expected checksum")], [path_note(self.shown(path)), error_note(error)]
        message = "file did not match the expected checksum"
        self.tell("checksum-mismatch", severity, message, labels, notes, entry=wanted.span, text=self.shown(path))

    def tell_match(self, wanted, path):
        labels, notes = [Label(wanted.span, "checksum")], [path_note(self.shown(path))]
        message = "file checksum matched"
        self.tell("checksum-match", "help", message, labels, notes, entry=wanted.span, text=self.shown(path))

    def tell_unknown(self):
        """The features that the bypass requires and the crate does not have."""
        for feature in self.used.required:
            if feature.value not in self.crate.features:
                message = "found unknown feature '%s' for crate '%s'" % (feature.value, self.crate)
                labels = [Label(feature.span, "unknown feature")]
                self.found.append(
                    of_crate(self.crate, "unknown-feature", "warning", message, labels, entry=feature.span)
                )

    def tells_enabled(self):
        """Whether features that the bypass requires are enabled, which is told."""
        enabled = [feature for feature in self.used.required if self.crate.has_enabled(feature.value)]
        if enabled:
            message = "%d features enabled for crate with build script, checking sources" % len(enabled)
            labels = [Label(feature.span, "") for feature in enabled]
            self.tell("features-enabled", "note", message, labels, entry=self.used.span)
        return bool(enabled)

    def tell_not_allowed(self, path, sum_):
        message = "crate '%s' has a build script but is not allowed to have one" % self.crate
        notes = [] if sum_ is None else [path_note(self.shown(path)), "checksum = '%s'" % sum_]
        self.found.append(of_crate(self.crate, "build-script-not-allowed", "error", message, (), notes))

    # -- the other files

    def check_files(self):
        package = Package(self.crate, self.disk)
        for path, why in package.unlisted:
            self.unread.append((self.crate, path, "list"))
            self.tell_unable(path, why)
        for file in package.files:
            self.check_file(file)
        self.tell_unmatched()

    def tell_unable(self, path, why):
        notes = ["path = " + self.shown(path), "error = " + why]
        message = "unable to check if path is an executable"
        self.tell("unable-to-check-path", "error", message, (), notes, text=self.shown(path))

    def check_file(self, file):
        """What the first rule that speaks of a file says of it."""
        path = self.used.path_for(file.path) if self.used else None
        if path:
            self.hits.add(("bypass-path", path[0]))
        if path and path[1] is None:
            self.tell_bypassed(file, path[0])
        elif not self.is_by_glob(file):
            self.check_sum(file, path[1]) if path else self.check_bytes(file)

    def tell_bypassed(self, file, span):
        labels = [Label(span, "allowed path")]
        self.tell(
            "path-bypassed", "help", "file explicitly allowed", labels, entry=span, text=self.shown(file.whole)
        )

    def is_by_glob(self, file):
        """Whether globs allow a file, which is told."""
        fitting = [glob for glob in self.used.globs if glob.fits(file.path)] if self.used else []
        if fitting:
            self.hits |= {("bypass-glob", glob.span) for glob in fitting}
            self.tell_by_globs("path-bypassed-by-glob", "help", "file allowed by glob", fitting, file)
        return bool(fitting)

    def tell_by_globs(self, code, severity, message, globs, file):
        shown = self.shown(file.whole)
        self.tell(code, severity, message, [glob.label for glob in globs], [path_note(shown)], text=shown)

    def check_sum(self, file, wanted):
        data = self.read(file.whole, "sum")
        if data is None:
            self.tell_mismatch("error", wanted, file.whole, UNREADABLE)
        elif sha256(data).hexdigest() == wanted.value.lower():
            self.tell_match(wanted, file.whole)
        else:
            error = "calculated different checksum " + sha256(data).hexdigest()
            self.tell_mismatch("error", wanted, file.whole, error)

    def check_bytes(self, file):
        """What the name of a file says of it, and else its first bytes."""
        fitting = [glob for glob in self.building.extensions if glob.fits(file.path)]
        if fitting:
            self.tell_by_globs("denied-by-extension", "error", "path disallowed by extension", fitting, file)
            return
        data = self.read(file.whole, "header")
        found = None if data is None else executable(file.name, data, self.building.with_archives)
        if data is None:
            self.tell_unable(file.whole, UNREADABLE)
        elif found:
            self.tell_executable(file, *found)

    def tell_executable(self, file, what, name):
        shown, is_script = self.shown(file.whole), what == "interpreter"
        code = "detected-executable-script" if is_script else "detected-executable"
        severity = SEVERITY[self.building.interpreted] if is_script else "error"
        notes = [path_note(shown), "%s = '%s'" % (what, name)]
        self.tell(code, severity, "detected executable", (), notes, text=shown)

    def tell_unmatched(self):
        """The allowed paths and globs of the bypass that no file of the package hits."""
        for _, span, _ in self.used.paths if self.used else []:
            if ("bypass-path", span) not in self.hits:
                message = "allowed path was not encountered"
                self.tell("unmatched-path-bypass", "warning", message, [Label(span, "")], entry=span)
        for glob in self.used.globs if self.used else []:
            if ("bypass-glob", glob.span) not in self.hits:
                self.tell("unmatched-glob", "warning", "glob was not encountered", [glob.label], entry=glob.span)


# ---- a run


class Built:
    """What is told of builds, what could not be read of packages, and the kind and the range of each entry that is hit.
    Each is empty where the policy says nothing of builds."""

    def __init__(self, policy, graph, disk, home=None):
        self.found, self.unread, self.hits = [], [], set()
        building = building_of(policy)
        if building is not None:
            self.check(building, graph, disk, home)

    def check(self, building, graph, disk, home):
        places = reached(graph)
        checked = [
            Checked(building, crate, disk, home) for crate in graph.crates if is_checked(building, crate, places)
        ]
        for one in checked:
            self.found += one.found
            self.unread += one.unread
            self.hits |= one.hits
        for bypass in building.bypasses:
            if ("bypass", bypass.span) not in self.hits:
                labels = [Label(bypass.span, "unmatched bypass")]
                self.found.append(unused("unmatched-bypass", "crate build bypass was not encountered", labels))


def bypass_entries(policy):
    """The kind and the range of each entry of bypasses that can be dead."""
    building = building_of(policy)
    for bypass in building.bypasses if building else []:
        yield "bypass", bypass.span
        yield from (("bypass-path", span) for _, span, _ in bypass.paths)
        yield from (("bypass-glob", glob.span) for glob in bypass.globs)
