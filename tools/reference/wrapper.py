"""The wrapper for Rust, for api.py: the public items of its files, but for its tests."""

import re
from collections import Counter

from reference.entry import Entry, Part, each
from reference.source import File

KINDS = ("fn", "struct", "enum", "trait", "const", "type", "mod")
DECLARED = re.compile(r"^\s*pub (?:(?:const|unsafe|async) )*(?:fn|struct|enum|trait|const|type|mod) (\w+)(?!\w|;)", re.M)
TESTS = re.compile(r"#\[cfg\(test\)\]\s*(?:#\[path = \"([^\"]+)\"\]\s*)?mod (\w+)")


class Wrapper:
    """The files of a folder."""

    def __init__(self, folder):
        sources = {path.name: path.read_text() for path in sorted(folder.glob("*.rs"))}
        tests = {name for text in sources.values() for of in TESTS.findall(text) for name in (of[0], f"{of[1]}.rs") if name}
        self.files = {name: File((), text) for name, text in sources.items() if name not in tests}
        self.impls = [(name, it) for name, file in self.files.items() for it in file.items if it.kind == "impl" and not it.trait]
        self.entries = {name: [self.entry(name, it) for it in file.items if is_shown(it)] for name, file in self.files.items()}

    def entry(self, where, it, within=""):
        """An item with what is public in it: fields or variants, what a module has, and the functions of a type."""
        name = f"{within}{it.name}"
        if it.kind in ("struct", "enum"):
            inner = [self.part(where, of, it.kind, name) for of in it.inner if it.kind == "enum" or of.is_public]
            inner += [self.entry(of, fn, f"{name}::") for of, impl in self.impls if impl.name == it.name for fn in impl.inner if fn.kind == "fn" and fn.is_public]
        else:
            inner = [self.entry(where, of, f"{name}::") for of in it.inner if is_shown(of) or it.kind == "trait" and of.kind == "fn"]
        text = {"mod": f"pub mod {it.name}"}.get(it.kind, it.text)
        kind = "method" if within and it.kind == "fn" and within[:1].isupper() else it.kind
        return Entry("Rust", kind, name, it.doc, text, where, inner)

    def part(self, where, it, kind, name):
        return Entry("Rust", "field" if kind == "struct" else "variant", f"{name}::{it.name}", it.doc, it.text.removeprefix("pub "), where)

    def unread(self):
        """The public names of each file that have no entry, but for what types have that are not public."""
        shown = {it.name for file in self.files.values() for it in file.items if it.is_public}
        for name, file in self.files.items():
            found = Counter(DECLARED.findall(file.code))
            found -= Counter(fn.name for of, it in self.impls if of == name and it.name not in shown for fn in it.inner if fn.is_public)
            inner = [it.last for of in self.entries.values() for it in each(of) if it.where == name and it.kind == "method"]
            own = [it.last for it in each(self.entries[name]) if it.kind not in ("field", "variant", "method")]
            yield from (f"{name}: {it} was not read" for it in (found - Counter(inner + own)))

    def parts(self):
        return [Part(name, file.doc, self.entries[name]) for name, file in self.files.items()]


def is_shown(item):
    return item.is_public and item.kind in KINDS
