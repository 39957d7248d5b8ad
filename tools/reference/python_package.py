"""The package for Python, for api.py: its public classes, functions, methods, fields and constants, by `ast`. Nothing of it is imported."""

import ast
import re

from reference.entry import Entry, Part, each

ALIAS = (ast.Subscript, ast.Attribute, ast.BinOp)
# Those of a class's methods that stand in its call
CALLED = ("__init__", "__new__")
# What stands under the name of another one: a further way to call it, or to write it
AGAIN = re.compile(r"(?:.*\.)?(?:overload|setter|deleter)")


def is_public(name):
    return not name.startswith("_")


def is_first(node):
    """Whether a function is the one that its name is of."""
    return not any(AGAIN.fullmatch(ast.unparse(it)) for it in node.decorator_list)


def prose_of(node):
    """A docstring's lines, or none."""
    return (ast.get_docstring(node) or "").splitlines()


def arguments(node, is_method=False):
    """What stands between the brackets of a call, with the answer after it; of a method without its first name."""
    args, is_static = node.args, any(isinstance(it, ast.Name) and it.id == "staticmethod" for it in node.decorator_list)
    listed = args.posonlyargs or args.args
    if is_method and not is_static and listed:
        args = ast.arguments(**{**dict(ast.iter_fields(args)), "posonlyargs": [*args.posonlyargs], "args": [*args.args]})
        (args.posonlyargs or args.args).pop(0)
    answers = f" -> {ast.unparse(node.returns)}" if node.returns and node.name not in CALLED else ""
    return f"({ast.unparse(args)}){answers}"


class Module:
    """A file of the package."""

    def __init__(self, package, path):
        self.source = path.read_text()
        self.lines, self.tree = self.source.splitlines(), ast.parse(self.source)
        self.stem, self.where = path.stem, package if path.stem == "__init__" else f"{package}.{path.stem}"
        # what `from .module import name as other` brings in: other to module and name
        self.brought = {
            it.asname or it.name: (node.module or "", it.name)
            for node in self.tree.body
            if isinstance(node, ast.ImportFrom) and node.level
            for it in node.names
        }
        self.entries = [it for node in self.tree.body for it in self.read(node)]

    def named(self, name):
        return name if self.stem == "__init__" else f"{self.stem}.{name}"

    def read(self, node):
        if isinstance(node, (ast.FunctionDef, ast.AsyncFunctionDef)) and is_public(node.name) and is_first(node):
            yield self.entry("function", self.named(node.name), prose_of(node), self.declaration(node))
        elif isinstance(node, ast.ClassDef) and is_public(node.name):
            yield self.type(node)
        elif isinstance(node, (ast.Assign, ast.AnnAssign)):
            yield from self.constants(node)

    def entry(self, kind, name, doc, text, inner=(), **more):
        return Entry("Python", kind, name, doc, text, self.where, [*inner], **more)

    def declaration(self, node, is_method=False):
        marks = [f"@{ast.unparse(it)}\n" for it in node.decorator_list]
        word = "async def" if isinstance(node, ast.AsyncFunctionDef) else "def"
        return f"{''.join(marks)}{word} {node.name}{arguments(node, is_method)}"

    # ---- classes

    def type(self, node):
        name, bases = self.named(node.name), [ast.unparse(it) for it in node.bases]
        made = next((it for it in node.body if isinstance(it, ast.FunctionDef) and it.name in CALLED), None)
        text = "".join(f"@{ast.unparse(it)}\n" for it in node.decorator_list) + f"class {node.name}" + (f"({', '.join(bases)})" if bases else "")
        doc = prose_of(node)
        if made:
            text += f"\n\n{node.name}{arguments(made, True)}"
            doc = [*doc, "", *prose_of(made)] if doc and prose_of(made) else doc or prose_of(made)
        inner = [it for of in node.body for it in self.member(name, of)] + ([*self.attributes(name, made, ' '.join(doc))] if made else [])
        return self.entry("class", name, doc, text, inner, bases=bases)

    def member(self, owner, node):
        """A method, a property, or a field of a class."""
        if isinstance(node, (ast.FunctionDef, ast.AsyncFunctionDef)) and is_public(node.name) and is_first(node):
            is_property = any(ast.unparse(it) == "property" for it in node.decorator_list)
            yield self.entry("property" if is_property else "method", f"{owner}.{node.name}", prose_of(node), self.declaration(node, not is_property))
        elif isinstance(node, ast.AnnAssign) and isinstance(node.target, ast.Name) and is_public(node.target.id):
            yield self.entry("field", f"{owner}.{node.target.id}", self.above(node), ast.unparse(node), is_part=True)
        elif isinstance(node, ast.Assign):
            for it in node.targets:
                if isinstance(it, ast.Name) and is_public(it.id):
                    yield self.entry("field", f"{owner}.{it.id}", self.above(node), ast.unparse(node), is_part=True)

    def attributes(self, owner, made, said):
        """What a class's call gives its values, where no field says so. What the class's own text names needs no comment beside it."""
        seen = set()
        for node in made.body:
            for it in targets(node):
                if isinstance(it, ast.Attribute) and ast.unparse(it.value) == "self" and is_public(it.attr) and it.attr not in seen:
                    seen.add(it.attr)
                    kind = f": {ast.unparse(node.annotation)}" if isinstance(node, ast.AnnAssign) else ""
                    yield self.entry("attribute", f"{owner}.{it.attr}", self.above(node), it.attr + kind, is_part=f"`{it.attr}`" in said)

    # ---- constants, and names of types

    def constants(self, node):
        for it in targets(node):
            if isinstance(it, ast.Name) and is_public(it.id) and node.value is not None:
                is_alias = isinstance(node.value, ALIAS) and it.id[:1].isupper() and not it.id.isupper()
                yield self.entry("type" if is_alias else "constant", self.named(it.id), self.above(node), self.said(node, it.id))

    def said(self, node, name):
        """An assignment as it stands in the file, without the marks of tools; of several names at once this one, with its value where that is plain."""
        several = [*targets(node)]
        if len(several) < 2:
            lines = self.lines[node.lineno - 1 : node.end_lineno]
            return "\n".join(re.sub(r"\s*# (?:fmt|type|noqa)\b.*", "", line) for line in lines)
        at = [ast.unparse(it) for it in several].index(name)
        if isinstance(node.value, (ast.Tuple, ast.List)) and len(node.value.elts) == len(several):
            return f"{name} = {ast.unparse(node.value.elts[at])}"
        found = re.fullmatch(r"range\((?:(\d+), )?(\d+)\)", ast.unparse(node.value))
        return f"{name} = {int(found[1] or 0) + at}" if found else name

    def above(self, node):
        """The lines `#: ..` above a statement: also those above others that stand between, without an empty line."""
        at = node.lineno - 1
        while at > 0 and self.lines[at - 1].strip() and not self.lines[at - 1].strip().startswith("#:") and self.is_beside(at - 1, node):
            at -= 1
        found = []
        while at > 0 and self.lines[at - 1].strip().startswith("#:"):
            at -= 1
            found.insert(0, self.lines[at].strip()[2:].strip())
        return found

    def is_beside(self, at, node):
        """Whether a line goes on with assignments as far in as this one: not with a comment, a call, or another block."""
        line = self.lines[at]
        far = len(line) - len(line.lstrip())
        is_inside = far > node.col_offset or line.strip()[:1] in (")", "]", "}")
        return is_inside or far == node.col_offset and bool(re.match(r"\s*[\w.,\s\[\]\"']+(?:: .*)?=|\s*\w+: |\s*\($", line))


def targets(node):
    """What a statement assigns to."""
    found = node.targets if isinstance(node, ast.Assign) else [node.target] if isinstance(node, ast.AnnAssign) else []
    return [it for of in found for it in (of.elts if isinstance(of, (ast.Tuple, ast.List)) else [of])]


class Package:
    """A package: its modules, and where each of their names leads. What the package itself hands out is shown without its module."""

    def __init__(self, folder):
        self.name = folder.name
        paths = [path for path in folder.glob("*.py") if path.stem == "__init__" or is_public(path.stem)]
        self.modules = {path.stem: Module(folder.name, path) for path in sorted(paths, key=lambda it: (it.stem != "__init__", it.stem))}
        self.exported = {self.home("__init__", name): name for name in self.modules["__init__"].brought}
        self.homes = {}
        for module in self.modules.values():
            for it in each(module.entries):
                self.shown(module.stem, it)

    def home(self, stem, name):
        """The module and the name there of what a module has under this name; `None` of what the package has not."""
        brought = self.modules[stem].brought.get(name) if stem in self.modules else None
        if brought is None:
            return stem, name
        module, name = brought
        return (name, None) if not module and name in self.modules else self.home(module or "__init__", name)

    def shown(self, stem, it):
        own = it.name.removeprefix(f"{stem}.")
        first, dot, rest = own.partition(".")
        if (stem, first) in self.exported:
            it.name = self.exported[stem, first] + dot + rest
        self.homes[stem, own] = it

    def found(self, stem, word, owner=None, seen=()):
        """The entry that a word of a module means; `owner` is the class in which it stands."""
        first, _, rest = word.partition(".")
        if owner and not rest and (member := self.member(owner, word)):
            return member
        module, name = self.home(stem, first)
        if name is None:
            return self.found(module, rest, seen=(*seen, stem)) if rest and stem not in seen else None
        it = self.homes.get((module, name))
        return self.member(it, rest) if it and rest else it

    def member(self, owner, name):
        """What a class has under a name, or one that it is made of."""
        for it in self.lineage(owner):
            for of in it.inner:
                if of.last == name:
                    return of
        return None

    def lineage(self, owner):
        """A class, and those of the package that it is made of."""
        yield owner
        for base in owner.bases:
            it = self.found(owner.where.rpartition(".")[2], base)
            if it and it is not owner:
                yield from self.lineage(it)

    def parts(self):
        return [Part(it.where, prose_of(it.tree), it.entries) for it in self.modules.values()]
