#!/usr/bin/env python3
"""Lists what nothing needs: definitions and lemmas that no contract, proof of a function or worked row reaches, items
that are `pub` and stand in one file alone, and imports whose names do not occur in their file.

Usage: tools/gate/unused.py [CRATE..]   (default: every crate); ends with 1 where there is one
"""
import os
import re
import sys
from collections import defaultdict

TOP = os.path.dirname(os.path.dirname(os.path.dirname(os.path.abspath(__file__))))
CRATES = os.path.join(TOP, "crates")
NAME = r"[A-Za-z_][\w']*(?:-[A-Za-z_0-9][\w']*)*"
TOKEN = re.compile(r"(?:" + NAME + r"\.)*" + NAME)
HEAD = re.compile(r"^( *)((?:abbrev |unfoldable |record |data |pub |private )*)(" + NAME + r")(?=[ :({])(?! =)")
IMPORT = re.compile(r"^ *(?:ghost )?((?:unfoldable )?pub )?(?:ghost )?use ([\w.]+?)(?:\.\{([^}]*)\})?(?: as (\w+))?;?\s*$")


def without_comments(text, mark):
    text = re.sub(r'"(?:\\.|[^"\\\n])*"', '""', text)
    return re.sub(mark + r"[^\n]*", "", text)


def module_of(path):
    """The path by which an .antt file is imported."""
    parts = os.path.relpath(path, CRATES)[: -len(".antt")].split(os.sep)
    return "Rattle." + ".".join(parts)


def on_one_line(got):
    """An import in one line, with the lines that it took left empty behind it."""
    return re.sub(r"\s*\n\s*", " ", got[0]).replace("{ ", "{").replace(", }", "}") + "\n" * got[0].count("\n")


class Item:
    def __init__(self, name, words, line, tokens):
        self.name, self.words, self.line, self.tokens = name, words, line, tokens
        self.names = {name}


class Source:
    """An .antt file: its imports and its items, each with the words in it."""

    def __init__(self, path):
        self.path = path
        self.module = module_of(path)
        text = without_comments(open(path, encoding="utf-8").read(), "--")
        text = re.sub(r"^ *(?:pub )?use [^{\n]*\{[^}]*\}", on_one_line, text, flags=re.M)
        self.imports = {}  # name here: (module, name there)
        self.aliases = {}  # name here: module
        self.handed_on = {}  # what `pub use` hands on
        self.imported = []  # (line, name here, module)
        self.items = []
        self.loose = set()  # words outside items
        self.symbols = ""
        self.split(text)

    def split(self, text):
        item, block, outer = None, set(), []
        for number, line in enumerate(text.split("\n"), 1):
            got = IMPORT.match(line)
            if got:
                self.read_import(number, got)
                continue
            if not line.strip():
                continue
            self.symbols += line + "\n"
            words = set(TOKEN.findall(line))
            module = re.match(r"^( *)(?:(?:pub )?module\b|mutual$|private$|abstract$)", line)
            if module:
                depth = len(module[1])
                outer = [o for o in outer if o[0] < depth] + [(depth, set(words))]
                item = None
                continue
            head = HEAD.match(line)
            depth = len(line) - len(line.lstrip())
            if head and head[3] in ("unfolding", "where", "let", "in", "mod", "infixr", "infixl", "syntax"):
                head = None
            if head and self.is_head(line, head, depth, outer):
                outer = [o for o in outer if o[0] < depth]
                known = next((i for i in self.items if i.name == head[3]), None)
                if known and not head[2] and (item is known or known in self.items[-8:]) and not re.match(
                    r"^ *" + re.escape(head[3]) + r"\s*:", line
                ):
                    item = known
                else:
                    item = Item(head[3], head[2], number, set())
                    self.items.append(item)
                item.tokens |= words
                for _, more in outer:
                    item.tokens |= more
                continue
            if item is None:
                if outer:
                    outer[-1][1].update(words)
                self.loose |= words
                continue
            item.tokens |= words
            if item.words.strip().endswith(("data", "data pub", "pub data")) or "data" in item.words:
                case = re.match(r"^ +(?:pub )?(" + NAME + r")\s*:", line)
                if case:
                    item.names.add(case[1])

    def is_head(self, line, head, depth, outer):
        if depth not in {0} | {o[0] + 2 for o in outer}:
            return False
        if head[2]:
            return True
        rest = line[head.end():]
        return bool(re.match(r"\s*:(?!\S)", rest)) or depth in {0} | {o[0] + 2 for o in outer}

    def read_import(self, number, got):
        handed, module, names, alias = got[1], got[2], got[3], got[4]
        if names is None:
            if alias:
                self.aliases[alias] = module
                self.imported.append((number, alias, module))
            else:
                last = module.rsplit(".", 1)[-1]
                self.aliases[last] = module
                self.imported.append((number, last, module))
            return
        for name in names.split(","):
            name = name.strip()
            if not name:
                continue
            there, _, here = name.partition(" as ")
            here = (here or there).strip()
            self.imports[here] = (module, there.strip())
            if handed:
                self.handed_on[here] = (module, there.strip())
            else:
                self.imported.append((number, here, module))


class Tree:
    def __init__(self):
        self.sources = {}
        self.code = []  # (path, text) of .rt files
        for folder, _, files in os.walk(CRATES):
            if "/out" in folder:
                continue
            for name in files:
                path = os.path.join(folder, name)
                if name.endswith(".antt") and not is_list_of_modules(path):
                    source = Source(path)
                    self.sources[source.module] = source
                elif name.endswith(".rt"):
                    self.code.append((path, open(path, encoding="utf-8").read()))
        self.by_name = {
            module: {n: item for item in source.items for n in item.names} for module, source in self.sources.items()
        }
        self.same_module = {}  # what a list of modules hands on, by the path at which others name it
        self.read_lists()
        self.reached = set()
        self.used_from = defaultdict(set)  # (module, name): other files that use it

    def read_lists(self):
        for folder, _, files in os.walk(CRATES):
            if "Lib.antt" not in files or "/out" in folder:
                continue
            home = module_of(os.path.join(folder, "Lib.antt"))[: -len(".Lib")]
            for line in open(os.path.join(folder, "Lib.antt"), encoding="utf-8"):
                got = re.match(r"pub use ([\w.]+?)(?: as (\w+))?$", line.strip())
                if got:
                    self.same_module[home + "." + (got[2] or got[1].rsplit(".", 1)[-1])] = got[1]

    def resolve(self, module, name, seen=()):
        """The item that a name of a module stands for, also one that is handed on."""
        while module in self.same_module:
            module = self.same_module[module]
        if (module, name) in seen or module not in self.sources:
            return None
        item = self.by_name[module].get(name)
        if item:
            return (module, item.name)
        source = self.sources[module]
        if name in source.handed_on:
            return self.resolve(*source.handed_on[name], seen + ((module, name),))
        return None

    def named(self, source, token):
        """The items that a word in a file stands for."""
        parts = token.split(".")
        found = []
        first = parts[0]
        if first in source.imports:
            module, there = source.imports[first]
            item = self.resolve(module, there)
            if item:
                found.append(item)
            elif len(parts) > 1:
                item = self.resolve(module + "." + there, parts[1])
                if item:
                    found.append(item)
        if len(parts) > 1 and first in source.aliases:
            item = self.resolve(source.aliases[first], parts[1])
            if item:
                found.append(item)
        for part in parts[:1]:
            if part in self.by_name[source.module]:
                found.append((source.module, self.by_name[source.module][part].name))
        return found

    def reach(self):
        todo = []

        def add(user, found):
            for item in found:
                if item[0] != user:
                    self.used_from[item].add(user)
                if item not in self.reached:
                    self.reached.add(item)
                    todo.append(item)

        for path, text in self.code:
            text = without_comments(text, "//")
            for got in re.finditer(r"ghost use (Rattle\.deny_[\w.]+?)(?:\.\{([^}]*)\})?(?: as (\w+))?;", text):
                module = got[1]
                if got[2] is not None:
                    for name in got[2].split(","):
                        name = name.strip().split(" as ")[0]
                        item = self.resolve(module, name)
                        add(path, [item] if item else [])
                else:
                    alias = got[3] or module.rsplit(".", 1)[-1]
                    for use in re.finditer(r"\b" + alias + r"\.(" + NAME + ")", text):
                        item = self.resolve(module, use[1])
                        add(path, [item] if item else [])
            crate = os.path.relpath(path, CRATES).split(os.sep)[0]
            for got in re.finditer(r"\b(crate|deny_\w+)((?:::\w+)+)", text):
                parts = got[2][2:].split("::")
                home = crate if got[1] == "crate" else got[1]
                item = self.resolve("Rattle." + home + "." + ".".join(parts[:-1]), parts[-1])
                add(path, [item] if item else [])
        for source in self.sources.values():
            for token in source.loose:
                add(source.module, self.named(source, token))
            if is_root(source.path):
                for item in source.items:
                    add(source.module, [(source.module, item.name)])
            for name, (module, there) in source.handed_on.items():
                if "/specs/" in source.path and False:
                    add(source.module, [self.resolve(module, there)])
        while todo:
            module, name = todo.pop()
            source = self.sources[module]
            for item in source.items:
                if item.name == name:
                    for token in item.tokens:
                        if token != name:
                            add(module, self.named(source, token))


def is_list_of_modules(path):
    text = open(path, encoding="utf-8").read()
    return all(re.match(r"(pub )?(mod|use) [\w.]+( as \w+)?$", line) for line in text.split("\n") if line.strip() and not line.startswith("--"))


def is_public(item):
    return "pub" in item.words.split()


def is_root(path):
    """Proofs of functions, and worked rows."""
    base = os.path.basename(path)
    return base in ("Answers.antt", "Invariants.antt", "Proof.antt") or base.endswith("Rows.antt") or "/formers/" in path


def unused_imports(source):
    for number, name, module in source.imported:
        symbols = [part for part in name.split("◌") if part]
        if "◌" in name or not re.match(NAME, name):
            used = all(part in source.symbols for part in symbols)
            used = used or name in ("◌>>=◌", "◌>>◌") and re.search(r"\bdo\b", source.symbols)
        else:
            used = re.search(r"(?<![\w'.-])" + re.escape(name) + r"(?![\w'-])", source.symbols) is not None
        if not used:
            yield number, name


def unused_ghost_uses(text):
    plain = without_comments(text, "//")
    body = re.sub(r"ghost use [^;]*;", lambda got: "\n" * got[0].count("\n"), plain)
    for got in re.finditer(r"ghost use ([\w.]+?)(?:\.\{([^}]*)\})?(?: as (\w+))?;", plain):
        names = [got[3] or got[1].rsplit(".", 1)[-1]] if got[2] is None else [n.strip() for n in got[2].split(",")]
        for name in names:
            name = name.split(" as ")[-1].strip()
            if not name:
                continue
            if "◌" in name or not re.match(NAME, name):
                used = all(part in body for part in name.split("◌") if part)
            else:
                used = re.search(r"(?<![\w'-])" + re.escape(name) + r"(?![\w'-])", body) is not None
            if not used:
                yield plain.count("\n", 0, got.start()) + 1, name


def main():
    only = set(sys.argv[1:])
    tree = Tree()
    tree.reach()
    lines = []

    def say(path, number, text):
        place = os.path.relpath(path, TOP)
        if not only or place.split(os.sep)[1] in only:
            lines.append(f"{place}:{number}: {text}")

    for module, source in sorted(tree.sources.items()):
        for item in source.items:
            if (module, item.name) not in tree.reached and len(item.name) > 1:
                say(source.path, item.line, f"nothing reaches {item.name}")
            elif is_public(item) and not is_root(source.path) and not tree.used_from[(module, item.name)]:
                if any(item.name in other.tokens for other in source.items if other is not item and is_public(other)):
                    continue  # others see it where they see that one
                say(source.path, item.line, f"{item.name} is pub, and its file alone names it")
        for number, name in unused_imports(source):
            say(source.path, number, f"the import of {name} is not needed")
    texts = dict(tree.code)
    words = {path: set(re.findall(r"\w+", without_comments(text, "//"))) for path, text in tree.code}
    words |= {source.path: set(re.findall(r"\w+", open(source.path, encoding="utf-8").read())) for source in tree.sources.values()}
    for path, text in tree.code:
        for number, name in unused_ghost_uses(text):
            say(path, number, f"the ghost use of {name} is not needed")
        if os.path.basename(path) in ("lib.rt", "main.rt"):
            continue
        for got in re.finditer(r"^pub (?:const )?(?:fn|struct|enum|trait|type) (\w+)", text, re.M):
            shown = re.search(r"\bpub\b(?! (?:struct|enum|trait|type|fn) " + got[1] + r"\b)[^;{}]*\b" + got[1] + r"\b", text)
            if not shown and not any(got[1] in words[other] for other in words if other != path):
                say(path, text.count("\n", 0, got.start()) + 1, f"{got[1]} is pub, and its file alone names it")
    for line in lines:
        print(line)
    sys.exit(1 if lines else 0)


main()
