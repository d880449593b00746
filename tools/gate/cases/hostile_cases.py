"""Cases of a world that is against a run: each call of a disk that fails in turn, outputs that take each number of
bytes, texts that end at each byte, and expressions that nest deep."""

from build_cases import BUILD, ELF, GIT, PE, SCRIPT, SOURCE, sum_of
from case_parts import (
    DENY_X, PASSED, WITH_X, asks, built_graph, bytes_text, case, declared_graph, in_package, manifest_of, put,
    row_graph, target,
)
from replacement_cases import WORKED

# Stands for each number in turn, of a call that fails or of bytes that an output takes.
EACH = "each"

WRONG = "0" * 64
SHARED = "[bans.workspace-dependencies]\n"


def whole_member(name, *declared):
    """The text of a manifest."""
    return manifest_of(name) + "\n[dependencies]\n" + "".join("%s = '1'\n" % one for one in declared)


# ---- calls that fail, one by one


def workspace_and_package():
    """Two members, their workspace, and a package of which each path is asked once."""
    members = declared_graph({"a": [asks("x")], "b": [asks("x")]}, members="a b")
    for one in members["packages"]:
        one["targets"] = [target("custom-build", "/r/x-1.0.0/build.rs")] if one["name"] == "x" else []
    files = {"/w/Cargo.toml": "[workspace]\nmembers = ['a', 'b']\n"}
    files.update({"/w/%s/Cargo.toml" % name: whole_member(name, "x") for name in "ab"})
    in_x = {"a/b": "", "a/c": ELF, "build.rs": SOURCE, "s": "#!/bin/sh\n" + "x" * 300, "t": "#!" + "x" * 30, "z": PE}
    return members, dict(files, **in_package("x", in_x))


def failing_calls():
    """Runs of which each call fails in turn; behind the last call nothing fails."""
    members, files = workspace_and_package()
    scripts = BUILD + "interpreted = 'warn'\n"
    bypass = "bypass = [{ name = 'x', build-script = '%s', allow = [{ path = 'z', checksum = '%s' }] }]\n"
    for name, policy in (
        ("a right checksum", scripts + bypass % (sum_of(SOURCE), sum_of(PE))),
        ("other checksums", scripts + bypass % (WRONG, WRONG)), ("no bypass", BUILD),
        ("a script that is not allowed", BUILD + "allow-build-scripts = []\n"), ("shared dependencies alone", ""),
    ):
        yield case("calls: %s" % name, policy + SHARED, members, files=files, fail_call=EACH)
        if name != "no bypass":
            yield case("calls: pieces of 300 bytes, %s" % name, policy + SHARED, members, files=files, piece=300,
                       fail_call=EACH)
    macro = built_graph("app -> p", p="proc-macro")
    yield case("calls: a file of a macro", BUILD, macro, files=in_package("p", {"run": ELF}), fail_call=EACH)
    two = declared_graph({"a": [asks("x")], "b": [asks("x")]}, members="a b")
    manifests = {"/w/Cargo.toml": "[workspace]\nmembers = ['a', 'b']\n"}
    manifests.update({"/w/%s/Cargo.toml" % name: whole_member(name, "x") for name in "ab"})
    yield case("calls: two members", SHARED, two, files=manifests, fail_call=EACH)
    yield case("calls: a ban", DENY_X, WITH_X, fail_call=EACH)
    for number in 2**32 - 1, 2**32, 2**64 - 1:
        yield case("calls: number %d, which none has" % number, DENY_X, WITH_X, by_hand="banned x", fail_call=number)
    yield case("calls: a table", "[bans.std-replacements]\n", row_graph("app -> x"), WORKED, fail_call=EACH)
    yield from failing_packages()


def failing_packages():
    """The same over several packages, one of which came by git, with folders in one another."""
    three = built_graph("app -> x, app -> y, y -> z", x="custom-build", y="proc-macro", z="custom-build",
                        sources={"y": GIT})
    files = {
        **in_package("x", {"build.rs": SOURCE, "a/b/c/d": ELF, "a/e": "", "f/g": SCRIPT}),
        **in_package("y", {".git/a": ELF, "b/.git/c": ELF, "b/d": ""}),
        **in_package("z", {"build.rs": SOURCE, "h": ELF}),
    }
    bypass = "bypass = [{ name = 'x', allow-globs = ['a/**'] }, { name = 'z', build-script = '%s', allow = [" % WRONG
    policy = BUILD + "interpreted = 'deny'\n" + bypass + "{ path = 'h', checksum = '%s' }] }]\n" % sum_of(ELF)
    yield case("calls: several packages", policy, three, files=files, fail_call=EACH)
    members = BUILD + "include-workspace = true\n"
    member = built_graph("app -> x", app="custom-build", x="custom-build")
    files = {"/w/Cargo.toml": manifest_of("app"), "/w/build.rs": SOURCE, **in_package("x", {"build.rs": ELF})}
    yield case("calls: a member and a package", members, member, files=files, fail_call=EACH)


# ---- outputs that take some bytes


def rooms():
    """Outputs that take each number of bytes of what is written, none and all."""
    yield case("takes: a finding", DENY_X, WITH_X, room=EACH)
    yield {"name": "takes: a summary", "words": ["generate", "4"], "room": EACH}
    yield {"name": "takes: a stop", "words": [], "err_room": EACH}
    yield case("takes: a clash", "[bans]\ndeny = ['x']\nskip = ['x']\n", err_room=EACH)
    yield case("takes: neither output", room=EACH, err_room=0)


# ---- texts that end at each byte

POLICY = (
    '[graph]\nexclude = []\n[bans]\nmultiple-versions = "deny"\ndeny = [{ crate = "x", reason = "\u00fc\\u00e9" },'
    " 'y@=1.0.0']\nskip-tree = [{ name = \"z\", depth = 0x2 }]\nfeatures = [{ crate = 'x', exact = true }]\n"
)
TEXT = (
    '{"packages" : [],"workspace_members":[], "workspace_root":"/w\\u00fc\\n","resolve":{"nodes":[]},'
    '"more":[10,-2,true,false,null,"\u00e9\\"",{"a":{}}]}'
)
MANIFEST = (
    '[package]\nname = "app"\n[dependencies]\nx.version = "*"\n"\u00fc" = { path = \'a\', optional = false }\n'
    "[[bin]]\nname = '''a'''\n"
)


def prefixes(text):
    """The text and each prefix of it, which may end within a character."""
    raw = text.encode()
    for size in range(len(raw) + 1):
        try:
            yield size, raw[:size].decode()
        except UnicodeDecodeError:
            yield size, bytes_text(raw[:size])


def cuts():
    """Each text of a run, cut; a policy that is no TOML is left out, for the place of that fault is free."""
    for size, text in prefixes(POLICY):
        yield case("cut: a policy to %d bytes" % size, text, WITH_X, is_toml=isinstance(text, str))
    for size, text in prefixes(TEXT):
        by_hand = {"by_hand": "metadata"} if size < len(TEXT.encode()) else {"lines": PASSED}
        text = text if isinstance(text, str) else [text]
        yield case("cut: metadata to %d bytes" % size, "", text, manifests={"/w\u00fc\n/Cargo.toml": ""}, **by_hand)
    graph = declared_graph({"app": [asks("x")]})
    for size, text in prefixes(MANIFEST):
        files = {"/w/Cargo.toml": text}
        yield case("cut: a manifest to %d bytes" % size, "[bans]\nwildcards = 'deny'\n", graph, files=files)


# ---- the names of targets

EXPRESSION = 'cfg(all(any(unix, not( a_1 = "b" ), ), windows))'


def of_target(name, target_, key, by_hand):
    """A wildcard for a target, in a table with this key."""
    text = manifest_of("app") + "[target.'%s'.dependencies]\nx = '*'\n" % key
    graph = declared_graph({"app": [asks("x", target=target_)]})
    policy = "[bans]\nwildcards = 'deny'\n"
    return case("targets: %s" % name, policy, graph, files={"/w/Cargo.toml": text}, by_hand=by_hand)


def expressions():
    """An expression cut at each byte, and some that nest deep; another one agrees with none of them."""
    for size, text in prefixes(EXPRESSION):
        is_whole = size == len(EXPRESSION)
        by_hand = "wildcard app" if is_whole else ""
        yield of_target("an expression of %d bytes" % size, EXPRESSION.replace(" ", ""), text, by_hand if size else "")
    for levels in 1, 63, 64, 65, 127, 128, 400:
        for word in "not", "all", "any":
            deep = "cfg(%sunix%s)" % ((word + "(") * levels, ")" * levels)
            name = "%d times %s" % (levels, word)
            yield of_target(name, deep, deep.replace("(unix", "( unix"), "wildcard app")
            yield of_target(name + ", and once more", deep, deep.replace("unix", "%s(unix)" % word), "")


# ---- nestings, as deep as may be and one deeper


def nestings():
    """Values of the metadata of a package, which stand three levels down, of a policy, and globs of a bypass."""
    nested = lambda levels, inner: inner if levels == 0 else nested(levels - 1, [inner])
    for levels, by_hand in ((1, ""), (124, ""), (125, "metadata"), (126, "metadata")):
        for name, inner in (("arrays", []), ("arrays and an object", {})):
            value = put(row_graph("app"), ("packages", 0, "metadata"), nested(levels - 1, inner))
            yield case("nested: %d %s in a package" % (levels, name), text=value, by_hand=by_hand)
    key = ".".join("a" * 64)
    for name, text in ("a key", key + " = 1\n"), ("a header", "[%s]\n" % key):
        yield case("nested: %s of 64 in a policy" % name, text, by_hand="")
    for levels in 64, 65:
        for name, prefix, behind in ("arrays", "[", "]"), ("tables", "{a=", "}"):
            text = "a = %s1%s\n" % (prefix * levels, behind * levels)
            more = {"by_hand": ""} if levels == 64 else {}
            yield case("nested: %s of %d in a policy" % (name, levels), text, **more)
    macro, files = built_graph("app -> x", x="proc-macro"), in_package("x", {"a": ELF})
    for levels, by_hand in ((1, "path-bypassed-by-glob a"), (16, "path-bypassed-by-glob a"), (17, "2:42")):
        glob = "{" * levels + "a" + "}" * levels
        policy = BUILD + "bypass = [{ crate = 'x', allow-globs = ['%s'] }]\n" % glob
        yield case("nested: %d braces in a bypass" % levels, policy, macro, files=files, by_hand=by_hand)


def hostile_cases():
    for part in (failing_calls, rooms, cuts, expressions, nestings):
        yield from part()
