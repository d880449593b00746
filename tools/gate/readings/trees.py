"""The trees of findings: the nodes of a graph, the edges that end at them, and what leads to a node, as JSON and text.

A node is a crate, or a crate with one of its enabled features. Trees are as deep as the graph, so none is walked by
calls of a function within itself.
"""

import json
from collections import namedtuple

DEFAULT = "default"
# The kinds of edges in their order; a feature leads to its crate, and to others of its crate, by an edge of no kind.
KINDS = [None, "normal", "dev", "build"]

# The place of a crate, and a feature, or None for the crate itself.
Node = namedtuple("Node", "place feature")


def crate_node(crate):
    return Node(crate.place, None)


def feature_nodes(crate, features):
    """The nodes of those features that are enabled."""
    return [Node(crate.place, feature) for feature in features if crate.has_enabled(feature)]


# ---- edges


def plain_features(crate, feature):
    """What a feature asks for of its own crate."""
    listed = crate.features.get(feature, [])
    return feature_nodes(crate, [entry for entry in listed if not entry.startswith("dep:") and "/" not in entry])


def edges_within(crate):
    """A feature leads to its crate, and to the features that it asks for."""
    for feature in crate.enabled:
        for end in [crate_node(crate), *plain_features(crate, feature)]:
            yield Node(crate.place, feature), end, None


def asked_features(declaration):
    return declaration.features + ([DEFAULT] if declaration.uses_default_features else [])


def edges_between(graph, crate, declared):
    """A crate leads to the features that its declarations ask for, or to the crate itself where there is none."""
    for place, kind in {(place, kind) for place, kind, _ in crate.edges}:
        child = graph.crates[place]
        speaking = [one for found, one in declared if found is child and one.kind == kind]
        for ends in [feature_nodes(child, asked_features(one)) for one in speaking] or [[]]:
            for end in ends or [crate_node(child)]:
                yield crate_node(crate), end, kind


def names_of(declaration):
    """The forms by which entries of features name a declaration."""
    name = declaration.name if declaration.rename is None else declaration.rename
    return name, name + "?"


def edges_over(crate, declared):
    """A feature leads to what its entries `n/f` and `n?/f` ask for of other crates."""
    for feature in crate.enabled:
        for entry in crate.features.get(feature, []):
            name, slash, asked = entry.partition("/")
            for child, declaration in declared if slash else []:
                if child and name in names_of(declaration):
                    for end in feature_nodes(child, [asked]):
                        yield Node(crate.place, feature), end, declaration.kind


class Nodes:
    """The edges of a graph, by the node at which they end."""

    def __init__(self, graph):
        self.graph, self.sources = graph, {}
        for crate in graph.crates:
            declared = [(graph.resolved(crate, declaration), declaration) for declaration in crate.declarations]
            for edges in (edges_within(crate), edges_between(graph, crate, declared), edges_over(crate, declared)):
                for source, end, kind in edges:
                    self.sources.setdefault(end, set()).add((source, kind))

    def order(self, edge):
        """Crates by id and kind, then features by name, id and kind."""
        (place, feature), kind = edge
        return feature is not None, (feature or "").encode(), self.graph.crates[place].id.encode(), KINDS.index(kind)

    def incoming(self, node):
        """The sources of the edges that end at a node, each with the kind of its edge."""
        return sorted(self.sources.get(node, ()), key=self.order)


def direct_dependents(graph, node):
    """The crates with an edge to a node's crate, by id, each with its least kind."""
    found = {}
    for place in graph.crates[node.place].dependents:
        kinds = {kind for child, kind, _ in graph.crates[place].edges if child == node.place}
        found[Node(place, None)] = min(kinds, key=KINDS.index)
    return sorted(found.items(), key=lambda edge: graph.crates[edge[0].place].id.encode())


# ---- trees


class Tree:
    """A node of a tree, the kind of the edge by which it leads on, and what leads to it. A `repeat` was met before."""

    def __init__(self, node, kind=None):
        self.node, self.kind, self.is_repeat, self.parents = node, kind, False, []


def grown(root, parents_of):
    """The tree of a node. A node that was met before, depth first, is not gone into again."""
    tree, met = Tree(root), set()
    waiting = [tree]
    while waiting:
        one = waiting.pop()
        one.is_repeat = one.node in met
        if not one.is_repeat:
            met.add(one.node)
            one.parents = [Tree(node, kind) for node, kind in parents_of(one.node)]
            waiting += reversed(one.parents)
    return tree


def headed(tree):
    """A tree whose root is a feature stands under its crate."""
    if tree.node.feature is None:
        return tree
    heading = Tree(Node(tree.node.place, None))
    heading.parents = [tree]
    return heading


class Trees:
    """The trees of a graph: with features and of any depth, or of direct dependents alone."""

    def __init__(self, graph):
        self.graph, self.nodes, self.written = graph, None, {}

    def of(self, node, with_features):
        if not with_features:
            return headed(grown(node, lambda node: direct_dependents(self.graph, node)))
        self.nodes = self.nodes or Nodes(self.graph)
        return headed(grown(node, self.nodes.incoming))

    def of_finding(self, finding):
        """Its trees, one for each of its nodes."""
        return [self.of(node, finding.with_features) for node in finding.nodes]

    def json_of(self, node, with_features):
        """A tree as compact JSON."""
        if (node, with_features) not in self.written:
            self.written[node, with_features] = json_of(self.graph, self.of(node, with_features))
        return self.written[node, with_features]

    def graphs_of(self, finding):
        """The trees of a finding as compact JSON."""
        return "[%s]" % ",".join(self.json_of(node, finding.with_features) for node in finding.nodes)


# ---- as JSON and as text


def node_value(graph, tree):
    crate = graph.crates[tree.node.place]
    if tree.node.feature is not None:
        return {"Feature": {"crate_name": crate.name, "name": tree.node.feature}}
    kind = {"kind": tree.kind} if tree.kind in ("dev", "build") else {}
    return {"Krate": dict(kind, name=crate.name, version=crate.version)}


def json_of(graph, tree):
    written, waiting = [], [tree]
    while waiting:
        one = waiting.pop()
        if isinstance(one, str):
            written.append(one)
            continue
        own = json.dumps(node_value(graph, one), ensure_ascii=False, separators=(",", ":"), sort_keys=True)
        written.append(own[:-1] + (',"parents":[' if one.parents else ""))
        waiting.append(("]" if one.parents else "") + (',"repeat":true' if one.is_repeat else "") + "}")
        for number, parent in reversed(list(enumerate(one.parents))):
            waiting += [parent] + ([","] if number else [])
    return "".join(written)


def node_text(graph, tree):
    crate = graph.crates[tree.node.place]
    if tree.node.feature is not None:
        own = "%s feature '%s' " % (crate.name, tree.node.feature)
    else:
        kind = "(%s) " % tree.kind if tree.kind in ("dev", "build") else ""
        own = "%s%s v%s" % (kind, crate.name, crate.version)
    return own + (" (*)" if tree.is_repeat else "")


def text_of(graph, tree):
    """A tree as text, a line a node, parents below the node that they lead to."""
    lines, waiting = [], [("", "", tree)]
    while waiting:
        before, below, one = waiting.pop()
        lines.append(before + node_text(graph, one) + "\n")
        last = len(one.parents) - 1
        for number, parent in reversed(list(enumerate(one.parents))):
            own, further = ("└── ", "    ") if number == last else ("├── ", "│   ")
            waiting.append((below + own, below + further, parent))
    return "".join(lines)
