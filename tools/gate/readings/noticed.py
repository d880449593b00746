"""What is told of a policy by itself: that it writes an older key, and which of its waivers expired."""

from readings.policy import Label
from readings.rules import Finding

DEPRECATED = (
    "[bans.allow-build-scripts] has been deprecated in favor of [bans.build.allow-build-scripts], "
    "this will become an error in the future"
)


def warning(code, message, labels, entry):
    return Finding("deprecated", code, "warning", message, labels, entry=entry)


def policy_rules(policy):
    """The older key, where the table in its place is not written, and each waiver that expired."""
    older = policy.bans.get("allow-build-scripts")
    if older is not None and "build" not in policy.bans:
        yield warning("deprecated", DEPRECATED, [Label(older.span, "")], older.span)
    for waiver in policy.expired:
        expires, reason = waiver.more["expires"], waiver.more.get("reason")
        labels = [Label(expires.span, "expired here")] + ([Label(reason.span, "reason")] if reason else [])
        message = "waiver '%s' expired on %s" % (waiver.spec, expires.value)
        yield warning("waiver-expired", message, labels, waiver.spec.span)
