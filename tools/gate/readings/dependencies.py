"""The rules on how crates declare what they need: requirements that any version meets, and what a workspace shares."""

from readings.policy import Label
from readings.rules import SEVERITY, Finding, of_crate
from readings.sources import REGISTRIES
from readings.trees import crate_node
from readings.versions import read_requirement

# ---- wildcards

PATHS_NOTE = (
    ". allow-wildcard-paths is enabled, but does not apply to public crates as crates.io disallows path dependencies."
)


def is_asked(rules, crate):
    """Whether the wildcards of a crate are looked for."""
    passed_over = rules.is_marked(crate) or crate.place in rules.rooted or crate.is_from("git")
    return rules.counts(crate) and not passed_over


def is_any(declaration):
    return not read_requirement(declaration.req)


def is_wildcard(policy, crate, declared):
    """Whether any version meets a declaration, and it is not passed over."""
    is_public = declared.crate.is_from(*REGISTRIES)
    is_free = policy.get("allow-wildcard-paths", False) and not is_public
    is_let = is_free and (crate.is_private() or declared.declaration.kind == "dev")
    return is_any(declared.declaration) and declared.crate is not crate and not is_let


def is_shared(declared):
    return declared.workspace is not None and declared.workspace.value


def wildcard_labels(declared, text, workspace):
    """The label at a declaration, and the one at the entry of the workspace that it stands for."""
    span_of = lambda one: one.version.span if one.version else one.value
    yield Label(span_of(declared), "wildcard dependency", text)
    entry = workspace.entry_for(declared.crate) if is_shared(declared) else None
    if entry:
        yield Label(span_of(entry), "workspace dependency", workspace.text)


def wildcards_of(rules, crate, manifest, workspace):
    level = rules.policy.get("wildcards", "allow")
    found = [one for one in manifest.declared if is_wildcard(rules.policy, crate, one)]
    labels = [label for one in found for label in wildcard_labels(one, manifest.text, workspace)]
    if labels:
        many = "dependency" if len(labels) == 1 else "dependencies"
        note = PATHS_NOTE if rules.policy.get("allow-wildcard-paths", False) else ""
        message = "found %d wildcard %s for crate '%s'%s" % (len(labels), many, crate.name, note)
        yield of_crate(crate, "wildcard", SEVERITY[level], message, labels)
    for one in found:
        if is_shared(one) and workspace.entry_for(one.crate) is None:
            yield unresolved(crate, one, manifest.text)


def unresolved(crate, declared, text):
    labels = [Label(declared.workspace.span, "usage of workspace dependency", text), Label(declared.value, "", text)]
    message = "failed to resolve a workspace dependency"
    return of_crate(crate, "unresolved-workspace-dependency", "bug", message, labels, entry=declared.key)


def wildcards(rules, seen, workspace):
    for crate in rules.graph.crates if rules.policy.get("wildcards", "allow") != "allow" else []:
        if is_asked(rules, crate) and crate.place in seen.manifests:
            yield from wildcards_of(rules, crate, seen.manifests[crate.place], workspace)


# ---- what members share


def in_workspace(code, severity, message, labels, **key):
    return Finding("workspace", code, severity, message, labels, **key)


def declarations_of_members(graph, seen, with_paths):
    """The declarations of all members that are compared, by the place of the crate that they are for."""
    found = {}
    for member in graph.crates:
        manifest = seen.manifests.get(member.place) if member.is_member else None
        for one in manifest.compared if manifest else []:
            if with_paths or one.declaration.path is None:
                found.setdefault(one.crate.place, []).append((manifest.text, one))
    return found


def shared_labels(entry, text):
    """The labels at an entry of the workspace."""
    yield Label(entry.key, "patched workspace dependency" if entry.patched else "workspace dependency", text)
    if entry.patched:
        yield Label(entry.patched, "note this is the original dependency that is patched", text)
    if entry.rename:
        yield Label(entry.rename.span, "note the workspace dependency is renamed", text)


def own_labels(text, declared):
    """The labels at a declaration that shares nothing."""
    yield Label(declared.key, "", text)
    if declared.rename:
        yield Label(declared.rename.span, "note the dependency is renamed", text)


def duplicate_declarations(graph, seen, workspace, said):
    """Crates that members declare several times, and not always by what they share."""
    level = said.get("duplicates", "deny")
    if level == "allow" or sum(crate.is_member for crate in graph.crates) < 2:
        return
    declared = declarations_of_members(graph, seen, said.get("include-path-dependencies", True))
    for place, found in declared.items():
        apart = [(text, one) for text, one in found if one.workspace is None]
        if len(found) >= 2 and apart:
            crate, entry = graph.crates[place], workspace.shared.get(place)
            labels = list(shared_labels(entry, workspace.text)) if entry else []
            labels += [label for text, one in apart for label in own_labels(text, one)]
            how = SHARED if entry else NOT_SHARED
            message = "crate %s is used %d times in the workspace, %s" % (crate, len(found), how)
            more = {"place": place, "nodes": [crate_node(crate)]}
            yield in_workspace("workspace-duplicate", SEVERITY[level], message, labels, **more)


SHARED = "but not all declarations use the shared workspace dependency"
NOT_SHARED = "and there is no shared workspace dependency for it"


def unused_labels(entry, text):
    of_patch = "unused and patched workspace dependency"
    yield Label(entry.key, of_patch if entry.patched else "unused workspace dependency", text)
    if entry.patched:
        yield Label(entry.patched, "note this is the original dependency that is patched", text)
    if entry.rename:
        yield Label(entry.rename.span, "note the dependency is renamed", text)


def unused_entries(workspace, said):
    """Entries of the workspace that are for no crate."""
    level = said.get("unused", "deny")
    for entry in workspace.unused if level != "allow" else []:
        labels, message = list(unused_labels(entry, workspace.text)), "workspace dependency is declared, but unused"
        yield in_workspace("unused-workspace-dependency", SEVERITY[level], message, labels, entry=entry.key)


def dependency_rules(rules, seen, workspace):
    """What stands by the rules on declarations."""
    yield from wildcards(rules, seen, workspace)
    written = rules.policy.get("workspace-dependencies", None)
    if written is not None:
        said = {name: value.value for name, value in written.items()}
        yield from duplicate_declarations(rules.graph, seen, workspace, said)
        yield from unused_entries(workspace, said)
