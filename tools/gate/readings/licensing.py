"""The licence check: what crates ask for, by what `[licenses]` allows, and what of it comes to nothing."""

from functools import cache

from readings.licences import Expression
from readings.policy import Label
from readings.rules import SEVERITY, Finding, of_crate

expression_of = cache(Expression)


class Licensing:
    """What `[licenses]` says, and which of its entries satisfied something."""

    def __init__(self, written):
        get = lambda name, otherwise: written[name].value if name in written else otherwise
        self.allow, self.exceptions = get("allow", []), get("exceptions", [])
        private = get("private", {})
        self.ignores_private = "ignore" in private and private["ignore"].value
        registries = private["registries"].value if "registries" in private else []
        self.registries = {registry.value for registry in registries}
        self.include_dev, self.unused_level = get("include-dev", False), get("unused-allowed-license", "warn")
        self.allowances = {}
        for allowance in self.allow:
            self.allowances.setdefault(allowance.value, allowance)
        self.hit = set()

    def runs_over(self, crate):
        return crate.is_built or self.include_dev

    def is_passed_over(self, crate):
        """A crate that is published nowhere but in the private registries."""
        is_private = crate.publish is not None and self.registries.issuperset(crate.publish)
        return self.ignores_private and is_private

    def exceptions_for(self, crate):
        """The exceptions that match a crate, in order, each with what it lists."""
        matching = [one for one in self.exceptions if one.spec.matches(crate)]
        return [(one.spec.span, {listed.value for listed in one.get("allow")}) for one in matching]

    def granting(self, exceptions, requirement):
        """The kind and the range of the entry that satisfies a requirement: the first exception that lists it, or else
        the first allowance; or None."""
        found = [("license-exception", span) for span, listed in exceptions if requirement in listed]
        if requirement in self.allowances:
            found.append(("license-allow", self.allowances[requirement].span))
        return found[0] if found else None

    def satisfied(self, exceptions, requirement):
        """Whether something satisfies a requirement; what does is hit."""
        granting = self.granting(exceptions, requirement)
        if granting:
            self.hit.add(granting[1])
        return granting is not None


def of_licence(crate, code, severity, message, notes=()):
    return of_crate(crate, code, severity, message, notes=notes, section="licenses")


def judged(licensing, crate, text):
    """What is told of a crate with a licence text."""
    expression, notes = expression_of(text), ["license = '%s'" % text]
    if expression.bad is not None:
        message = "license expression of crate '%s' can't be read at byte %d" % (crate, expression.bad)
        return of_licence(crate, "parse-error", "error", message, notes)
    exceptions = licensing.exceptions_for(crate)
    is_satisfied = {one: licensing.satisfied(exceptions, one) for one in expression.requirements}
    if expression.is_true(is_satisfied.get):
        return of_licence(crate, "accepted", "note", "license requirements satisfied", notes)
    notes += ["rejected = '%s'" % one for one in expression.requirements if not is_satisfied[one]]
    return of_licence(crate, "rejected", "error", "failed to satisfy license requirements", notes)


def licence_of(licensing, crate):
    if licensing.is_passed_over(crate):
        message = "skipping private workspace crate '%s'" % crate
        return of_licence(crate, "skipped-private-workspace-crate", "note", message)
    if not crate.license:
        return of_licence(crate, "unlicensed", "error", "crate '%s' is unlicensed" % crate)
    return judged(licensing, crate, crate.license)


def unused(code, severity, span, message, label):
    return Finding("licenses-unused", code, severity, message, [Label(span, label)], entry=span)


def unused_entries(licensing):
    for allowance in licensing.allow:
        if allowance.span not in licensing.hit:
            message, label = "license was not encountered", "unmatched license allowance"
            severity = SEVERITY[licensing.unused_level]
            yield unused("license-not-encountered", severity, allowance.span, message, label)
    for one in licensing.exceptions:
        if one.spec.span not in licensing.hit:
            message, label = "license exception was not encountered", "unmatched license exception"
            yield unused("license-exception-not-encountered", "warning", one.spec.span, message, label)


def licence_rules(policy, graph):
    """What stands by the licence check, which runs where `[licenses]` is written."""
    if policy.licenses is None:
        return
    licensing = Licensing(policy.licenses)
    for crate in graph.crates:
        if licensing.runs_over(crate):
            yield licence_of(licensing, crate)
    yield from unused_entries(licensing)
