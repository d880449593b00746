"""Features of crates, by `features` and the levels of `default` in `[bans]`: what is told of those that are enabled."""

from readings.policy import Label
from readings.rules import SEVERITY, of_crate
from readings.trees import crate_node, feature_nodes

DEFAULT = "default"


def of_features(crate, code, severity, message, labels=(), notes=(), features=(), **key):
    """A finding whose trees are those of features, or that of the crate where there are none, and show features."""
    more = {"nodes": feature_nodes(crate, features) or [crate_node(crate)], "with_features": True}
    return of_crate(crate, code, severity, message, labels, notes, **more, **key)


class Listed:
    """What an entry of `features` lists."""

    def __init__(self, entry):
        self.entry, self.at = entry, entry.spec.span
        self.allow, self.deny = entry.get("allow", []), entry.get("deny", [])
        self.is_exact = entry.get("exact", False)
        self.allowed = {feature.value for feature in self.allow}

    def names(self, feature):
        return any(feature == listed.value for listed in self.allow + self.deny)


def level_of_default(policy, crate):
    """The level of a crate's `default` and where it is written, or None where it is not."""
    return policy.bans.get("%s-default-features" % ("workspace" if crate.is_member else "external"))


def default_stands(level, entries):
    """Whether an enabled `default` is told, by the entries for its crate."""
    if level.value == "deny":
        open_ = [entry for entry in entries if not entry.is_exact and not entry.names(DEFAULT)]
        return not entries or bool(open_)
    return level.value == "warn"


def default_feature(policy, crate, entries):
    level = level_of_default(policy, crate)
    if level and DEFAULT in crate.enabled and default_stands(level, entries):
        message, label = "'default' feature enabled for crate '%s'" % crate, Label(level.span, "lint level")
        more = {"features": [DEFAULT], "entry": level.span}
        yield of_features(crate, "default-feature-enabled", SEVERITY[level.value], message, [label], **more)


def unlisted_features(policy, crate, entry):
    """The enabled features that an entry does not allow. Of `default` its level speaks, where that is not deny."""
    level = level_of_default(policy, crate)
    is_left_out = lambda feature: feature == DEFAULT and level is not None and level.value != "deny"
    return [feature for feature in crate.enabled if feature not in entry.allowed and not is_left_out(feature)]


def reached_features(crate, entry):
    """The features to which a step or more leads from an allowed one."""
    reached, open_ = set(), [feature.value for feature in entry.allow]
    while open_:
        for other in crate.features.get(open_.pop(), []):
            if not other.startswith("dep:") and "/" not in other and other not in reached:
                reached.add(other)
                open_.append(other)
    return reached


def exact_mismatch(policy, crate, entry):
    missing = [feature for feature in entry.allow if feature.value not in crate.enabled]
    unlisted = unlisted_features(policy, crate, entry)
    if missing or unlisted:
        labels = [Label(entry.entry.more["exact"].span, "exact enabled here")]
        labels += [Label(feature.span, "allowed feature not present") for feature in missing]
        notes = ["'%s' feature was enabled but not explicitly allowed" % feature for feature in unlisted]
        message = "feature set for crate '%s' did not match exactly" % crate
        more = {"features": unlisted, "entry": entry.at}
        yield of_features(crate, "exact-features-mismatch", "error", message, labels, notes, **more)


def not_allowed(policy, crate, entry):
    reached = reached_features(crate, entry)
    for feature in unlisted_features(policy, crate, entry) if entry.allow else []:
        if feature not in reached:
            message = "feature '%s' for crate '%s' was not explicitly allowed" % (feature, crate)
            labels = [Label(entry.entry.more["allow"].span, "allowed features")]
            key = {"entry": entry.at, "text": feature}
            yield of_features(crate, "feature-not-explicitly-allowed", "error", message, labels, **key)


def denied(crate, entry):
    for feature in entry.deny:
        if feature.value in crate.enabled:
            message = "feature '%s' for crate '%s' is explicitly denied" % (feature.value, crate)
            labels = [Label(feature.span, "feature denied here")]
            more = {"features": [feature.value], "entry": feature.span}
            yield of_features(crate, "feature-banned", "error", message, labels, **more)


def unknown(crate, entry):
    for feature in entry.allow + entry.deny:
        if feature.value not in crate.features:
            message = "found unknown feature '%s' for crate '%s'" % (feature.value, crate)
            labels = [Label(feature.span, "unknown feature")]
            yield of_crate(crate, "unknown-feature", "warning", message, labels, entry=feature.span)


def listed_features(policy, crate, entry):
    """What one entry gives for a crate that it matches."""
    if entry.is_exact:
        mismatch = list(exact_mismatch(policy, crate, entry))
        yield from mismatch or unknown(crate, entry)
    else:
        yield from not_allowed(policy, crate, entry)
        yield from denied(crate, entry)
        yield from unknown(crate, entry)


def feature_rules(policy, graph):
    """What stands by the rules on features."""
    entries = [Listed(entry) for entry in policy.entries("features")]
    for crate in graph.crates:
        matching = [entry for entry in entries if entry.entry.spec.matches(crate)]
        yield from default_feature(policy, crate, matching)
        for entry in matching:
            yield from listed_features(policy, crate, entry)
