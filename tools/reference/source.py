"""The public items of a crate's sources, for api.py: each with its doc, its signature and its contract, as they stand there."""

import re
import textwrap
from pathlib import Path

from reference.specs import scope

# A comment, a string, a character: what is no code. Group 1 is what may be looked at all the same.
OPAQUE = re.compile(r'//[^\n]*|/\*.*?\*/|b?r#".*?"#|b?"(?:\\.|[^"\\])*"|b?\'(?:\\[^\']+|[^\'\\\n])\'', re.S)
PREFIX = re.compile(r"(pub(?:\([^)]*\))?\s+)?((?:const\s+|unsafe\s+|extern\s+)*)(fn|struct|enum|trait|const|type|impl|mod|use|static|macro_rules!|ghost)\b")
CLAUSE = re.compile(r"\s*((?:requires|ensures)\*?)\s+(?:(\w+)\s*)?(?=\{)")
SCOPED = re.compile(r"(?<!ghost )\buse ([\w:]+?)(?:::\{([^}]*)\})?(?: as (\w+))?;")
CLOSES = {"{": "}", "(": ")", "[": "]"}


def laid_out(source, at, end):
    """The text between two places, as if it stood at the left margin."""
    margin = at - source.rfind("\n", 0, at) - 1
    return "\n".join(line[margin:] if not line[:margin].strip() else line for line in source[at:end].rstrip().split("\n"))


def clause(text):
    """A clause's text: what goes on below the first line stands four columns in."""
    first, *others = text.strip().split("\n")
    return "\n".join([first, *textwrap.indent(textwrap.dedent("\n".join(others)), "    ").split("\n")]) if others else first


class Item:
    """An item: its kind, name, doc, text (signature or declaration), clauses, and the items within it."""

    def __init__(self, kind, name, is_public, doc, text, file):
        self.kind, self.name, self.is_public, self.doc, self.text, self.file = kind, name, is_public, doc, text, file
        self.clauses, self.inner, self.derives, self.is_exported = [], [], [], False
        # of an impl: the trait, if any; of what is public: its path in the crate
        self.trait, self.path = None, None

    def first_sentence(self):
        """The doc up to its first full stop."""
        paragraph = re.sub(r"\[?`([^`]+)`(?:\](?:\([^)]*\))?)?", r"\1", " ".join(self.doc).split("  ")[0])
        return re.split(r"(?<=\.)\s", paragraph, maxsplit=1)[0]


class File:
    """A file of a crate: its module's path, its doc, its items, and what its names mean."""

    def __init__(self, module, source):
        self.module, self.source = module, source
        self.code = OPAQUE.sub(lambda found: re.sub(r"[^\n]", " ", found[0]), source)
        self.doc = [line[3:].removeprefix(" ") for line in source.splitlines() if line.startswith("//!")]
        self.modules, self.shown = {}, []
        self.names, self.ghosts = {}, scope(self.code)
        for found in SCOPED.finditer(self.code):
            self.scoped(found)
        self.items = self.read(0, len(source))

    def scoped(self, found):
        """What a `use` brings in: a module's path, and a name there. One that is `pub` shows it."""
        listed = re.findall(r"([^\s,]+)(?:\s+as\s+(\w+))?", found[2]) if found[2] else [("", found[3])]
        for name, other in listed:
            *base, last = [it for it in f"{found[1]}::{name}".split("::") if it]
            self.names[other or last] = (base, last)
            if self.source[: found.start()].endswith("pub "):
                self.shown.append(other or last)

    def end_of(self, at):
        """After the bracket that closes the one at `at`."""
        depth = 0
        for place in range(at, len(self.code)):
            depth += (self.code[place] in "{([") - (self.code[place] in "})]")
            if depth == 0:
                return place + 1
        raise ValueError("a bracket that nothing closes")

    def until(self, at, stops, clauses=False):
        """The first place after `at`, outside of brackets, of one of these characters, or of a clause."""
        while at < len(self.code):
            if self.code[at] in stops or clauses and self.code[at].isspace() and CLAUSE.match(self.code, at):
                return at
            at = self.end_of(at) if self.code[at] in CLOSES else at + 1
        return at

    def passed(self, at):
        """After what is no item: up to its semicolon, or over its block."""
        stop = self.until(at, "{;}")
        return self.end_of(stop) if self.code[stop : stop + 1] == "{" else stop + 1

    def lead(self, at, end):
        """The doc and the attributes at `at`, and where they end."""
        doc, attributes = [], []
        while at < end:
            line = self.source[at:].split("\n", 1)[0]
            if line.lstrip().startswith("///"):
                doc.append(line.lstrip()[3:].removeprefix(" "))
                at += len(line) + 1
            elif re.match(r"\s*#!?\[", self.source[at:end]):
                start = self.code.index("[", at)
                at = self.end_of(start)
                attributes.append(self.source[start:at])
            elif not self.code[at].isspace():
                break
            else:
                at = at + len(line) + 1 if line.strip() == "" or line.lstrip().startswith("//") else at + 1
        return doc, attributes, at

    def read(self, at, end):
        """The items between two places."""
        items = []
        while True:
            doc, attributes, at = self.lead(at, end)
            if at >= end:
                return items
            found = PREFIX.match(self.code, at)
            if not found:
                at = min(self.passed(at), end)
                continue
            item, at = self.item(found, doc, at)
            if item:
                item.is_exported = any("no_mangle" in it for it in attributes)
                item.derives = [name for it in attributes if it.startswith("[derive") for name in re.findall(r"[\w:]+", it[8:])]
                items.append(item)

    def item(self, found, doc, at):
        kind, is_public = found[3], (found[1] or "").strip() == "pub"
        name = re.match(r"\s*(\w*)", self.code[found.end() :])[1]
        if kind == "fn":
            return self.function(name, is_public, doc, at)
        if kind in ("struct", "enum", "trait", "impl"):
            return self.block(kind, name, is_public, doc, at)
        if kind == "mod" and self.code[(stop := self.until(at, "{;")) : stop + 1] == "{":
            return self.block(kind, name, is_public, doc, at)
        end = self.until(at, ";") + 1
        if kind == "mod":
            self.modules[name] = is_public
        if kind == "macro_rules!":
            return None, self.end_of(self.code.index("{", at))
        if kind == "ghost" and re.match(r"\s*use\b", self.code[found.end() :]):
            return None, end
        return (Item(kind, name, is_public, doc, laid_out(self.source, at, end), self) if kind in ("const", "type", "ghost") else None), end

    def function(self, name, is_public, doc, at):
        end = self.until(at, "{;", clauses=True)
        item = Item("fn", name, is_public, doc, laid_out(self.source, at, end), self)
        while found := CLAUSE.match(self.code, end):
            start, end = found.end(), self.end_of(found.end())
            item.clauses.append((found[1], found[2], clause(self.source[start + 1 : end - 1])))
        end = self.until(end, "{;")
        return item, self.end_of(end) if self.code[end : end + 1] == "{" else end + 1

    def block(self, kind, name, is_public, doc, at):
        """A struct, an enum, a trait or an impl: its head, and what is in it."""
        stop = self.until(at, "{;")
        item = Item(kind, name, is_public, doc, laid_out(self.source, at, stop), self)
        if self.code[stop] == ";":
            item.text += ";"
            return item, stop + 1
        end = self.end_of(stop)
        if kind in ("trait", "impl", "mod"):
            item.inner = self.read(stop + 1, end - 1)
        else:
            item.inner = self.parts(stop + 1, end - 1)
        if kind == "impl":
            head = re.sub(r"^impl\s*(?:<(?:[^<>]|<[^<>]*>)*>)?\s*", "", item.text).split("\nwhere")[0]
            item.trait, _, of = head.rpartition(" for ")
            item.name = re.match(r"[&\s]*(?:\w+::)*(\w+)", of or head)
            item.name = item.name[1] if item.name else ""
        return item, end

    def parts(self, at, end):
        """The fields of a struct, or the variants of an enum."""
        found = []
        while True:
            doc, _, at = self.lead(at, end)
            if at >= end:
                return found
            stop = min(self.until(at, ","), end)
            text = self.source[at:stop].strip()
            name = re.match(r"(?:pub(\([^)]*\))?\s+)?(\w+)", text)
            if name:
                is_public = text.startswith("pub ")
                found.append(Item("part", name[2], is_public, doc, text, self))
            at = stop + 1


def clauses(items):
    """How many clauses these items have, and those within them."""
    return sum(len(it.clauses) + clauses(it.inner) for it in items)


class Crate:
    """A crate: its files by module, and its public items."""

    def __init__(self, folder, deps):
        self.name, self.folder, self.deps = folder.name, folder, deps
        self.files = {}
        for path in sorted((folder / "src").rglob("*.rt")):
            parts = path.relative_to(folder / "src").with_suffix("").parts
            module = () if parts in (("lib",), ("main",)) else parts
            self.files[module] = File(module, path.read_text())
        self.public, self.others = {}, []
        self.show((), ())

    def show(self, module, path):
        """Finds what a module shows under this public path: its own public items, its public modules, and what it hands on."""
        file = self.files.get(module)
        if file is None:
            return
        for item in file.items:
            if item.is_public and item.kind in ("fn", "struct", "enum", "trait", "const", "type"):
                self.add(item, path)
        for name in file.shown:
            self.hand_on(file, name, path)
        for name, is_public in file.modules.items():
            if is_public:
                self.show((*module, name), (*path, name))

    def add(self, item, path):
        """A shorter path is the better one."""
        if item.path is None or len(path) + 1 < len(item.path):
            if item.path:
                del self.public[item.path]
            item.path = (*path, item.name)
            self.public[item.path] = item

    def hand_on(self, file, name, path):
        parts, last = file.names[name]
        if parts and parts[0] in self.deps:
            self.others.append(((*path, name), parts[0], last))
            return
        at = [] if parts[:1] == ["crate"] else list(file.module)
        parts = parts[1:] if parts[:1] in (["crate"], ["self"]) else parts
        module = (*at, *parts)
        for item in self.files[module].items if module in self.files else []:
            if item.name == last and item.is_public and item.kind not in ("impl", "ghost"):
                return self.add(item, path)
        inner = self.files.get(module)
        if inner and last in inner.shown:
            self.hand_on(inner, last, path)
        elif (*module, last) in self.files:
            self.show((*module, last), (*path, name))

    def exported(self):
        """The functions that C can call, whatever module they stand in."""
        return [item for file in self.files.values() for item in file.items if item.is_exported]

    def unread(self):
        """The files of which not every clause was read."""
        return [file for file in self.files.values() if len(re.findall(r"^\s*(?:requires|ensures)\b", file.code, re.M)) != clauses(file.items)]

    def impls(self, name):
        """The impls of a type: those without a trait first, and of these the ones beside the type."""
        found = [item for file in self.files.values() for item in file.items if item.kind == "impl" and item.name == name]
        home = [item.file for item in self.public.values() if item.name == name]
        return sorted(found, key=lambda it: (bool(it.trait), it.file not in home))


def dependencies(root):
    """What each crate of crates.txt stands on, in the order there."""
    lines = (line.split("#")[0].partition(":") for line in Path(root, "crates.txt").read_text().splitlines())
    return {name.split()[0]: rest.split() for name, _, rest in lines if name.strip()}


def libraries(root):
    """The library crates, in the order of crates.txt: those that another crate of it stands on, but for what tests share."""
    deps = dependencies(root)
    used = {name for of in deps.values() for name in of if not name.startswith("test_")}
    return {name: Crate(Path(root, "crates", name), deps[name]) for name in deps if name in used}
