#!/usr/bin/env python3
"""Writes one API reference of the library crates, the header for C, the package for Python and the wrapper for Rust, from their sources.

    tools/api.py OUT
    tools/api.py --man FOLDER   only the man pages of the functions for C, into FOLDER/man3: man -M FOLDER amqp1_take shows one
    tools/api.py --check        writes nothing: the last line is 'N passed, M failed'

OUT is a folder, which is made where it is missing; OUT/index.html has a box to search in all of it, and OUT/man3 the man pages. Each crate has a page
with its public items: doc, signature, and contract as it is written; and a page with its definitions (specs/*.antt), to which the names in contracts
lead. C, Python and Rust have a page each; what is the same thing in several languages, as far as names show it, leads from one to the other. The pages
need no network. The last line counts them, and the links that lead nowhere; the status is 1 where there are any.

The check has a test for each file of a crate, of which each clause has to be read, for each page, whose links have to lead somewhere, for each public name
of C, Python and Rust, which has to have a comment, for each man page, which groff has to take without a word where it is on the path, and for texts that
want to be markup.
"""

import re
import sys
from collections import Counter, defaultdict
from html import escape, unescape
from pathlib import Path

from reference.bindings import address as address_of
from reference.bindings import names_to_search, pages
from reference.checks import check_bindings
from reference.definitions import WORD, specs_page
from reference.header import files, header, read, unread
from reference.manual import man_pages
from reference.page import linked, page, prose, search
from reference.python_package import Package
from reference.same import Same, line
from reference.source import dependencies, libraries
from reference.specs import modules
from reference.wrapper import Wrapper
from shared.command import command

ROOT = Path(__file__).resolve().parent.parent
HEADER, PACKAGE, WRAPPER = ROOT / "include" / "amqp1", ROOT / "bindings" / "python" / "amqp_engine", ROOT / "bindings" / "rust" / "src"
RUST = re.compile(r"(?<![\w'])[A-Za-z_]\w*")
GROUPS = [("struct", "Structs"), ("enum", "Enums"), ("trait", "Traits"), ("fn", "Functions"), ("const", "Constants"), ("type", "Names of types")]


class Names:
    """Where the names of contracts and docs lead."""

    def __init__(self, crates):
        self.crates = crates
        # for an address, the same thing in other languages
        self.same = {}
        self.specs = {name: modules(name, it.folder / "specs") for name, it in crates.items()}
        self.defined = {}
        for name, files in self.specs.items():
            for file in files:
                for it in file.definitions():
                    for part in (it.name, *it.parts.values()):
                        self.defined.setdefault((name, file.path, part), f"{name}.specs.html#{file.path}.{part}")
        # the items by crate and name, and the addresses of variants and methods
        self.items, self.inner = defaultdict(list), set()
        for name, crate in crates.items():
            for item in crate.public.values():
                self.items[name, item.name].append(item)
                self.inner |= {address(name, item, it.name) for it in [*variants(item), *methods(crate, item)]}

    def definition(self, path, name):
        """Where a definition's page has it: its path is Rattle.CRATE.specs.MODULE, or that of a declared type."""
        crate, inner = [*path.split("."), ""][1], path.split(".")[3:]
        if crate not in self.crates:
            return None
        if inner[:1] == ["declared"]:
            return self.declared(crate, inner[1:], name)
        return self.defined.get((crate, ".".join(inner), name))

    def declared(self, crate, inner, name):
        """A declared type, or a variant of one."""
        of_variants = inner[-1:] == ["TheVariants"]
        kind = inner[-2 if of_variants else -1]
        item = next((it for it in self.items[crate, kind] if it.file.module == tuple(inner[: -2 if of_variants else -1])), None)
        if item is None:
            return None
        return address(crate, item, name if of_variants and any(it.name == name for it in variants(item)) else None)

    def in_contract(self, names):
        """The address of a word of a contract or a definition, by what its file brings in."""

        def href(word):
            first, _, rest = word.partition(".")
            path, name = names.get(first, (None, None))
            if path is None:
                return None
            return self.definition(path, name or rest.split(".")[0])

        return href

    def item(self, crate, name, file=None, seen=()):
        """The page's address of an item of a crate, also where the crate hands it on."""
        found = self.items.get((crate, name), [])
        wanted = next((it for it in found if file and it.file is file), found[0] if len(found) == 1 else None)
        if wanted:
            return address(crate, wanted)
        others = {(to, last) for path, to, last in self.crates[crate].others if path[-1] == name}
        return self.item(*others.pop(), seen=(*seen, crate)) if len(others) == 1 and crate not in seen else None

    def in_rust(self, crate, file, own=None):
        """The address of a word of a signature or a doc, by what its file brings in; `own` is the type that it stands in."""

        def href(word):
            name, _, inner = word.split("(")[0].partition("::")
            found = address(crate, own) if own and name in ("Self", own.name) else self.used(crate, file, name)
            within = f"{found}.{inner}" if inner else None
            return within if within in self.inner else found

        return href

    def used(self, crate, file, name):
        """The address of an item by its name in a file: what that brings in, or the crate's own."""
        base, last = file.names.get(name, ([], name))
        if not base:
            return self.item(crate, name, file)
        if base[0] in self.crates:
            return self.item(base[0], last)
        is_own = base[0] in ("crate", "super", "self") or (*file.module, base[0]) in self.crates[crate].files
        return self.item(crate, last) if is_own else None


def address(crate, item, inner=None):
    return f"{crate}.html#{'.'.join([*item.path, *([inner] if inner else [])])}"


def methods(crate, item):
    """The functions of a trait, or the public ones of a type, as its impls without a trait have them."""
    if item.kind == "trait":
        return [it for it in item.inner if it.kind == "fn"]
    impls = crate.impls(item.name) if item.kind in ("struct", "enum") else []
    return [it for impl in impls if not impl.trait for it in impl.inner if it.kind == "fn" and it.is_public]


def variants(item):
    return [it for it in item.inner if it.kind == "part"] if item.kind == "enum" else []


# ---- a crate's page


def named(text, name, href):
    """The text of a declaration, with links but for the name that it declares."""
    at = re.search(rf"\b{name}\b", text).end()
    return escape(text[:at]) + linked(text[at:], RUST, href)


class CratePage:
    def __init__(self, names, crate):
        self.names, self.crate, self.made = names, crate, []

    def put(self, text):
        self.made.append(text)

    def html(self):
        crate, name = self.crate, self.crate.name
        root = crate.files[()]
        self.put(f"<h1>{escape(name)}</h1>")
        self.put(prose(root.doc, self.names.in_rust(name, root)))
        below = ", ".join(f'<a href="{it}.html">{it}</a>' if it in self.names.crates else escape(it) for it in crate.deps)
        self.put(f'<p class="quiet">Stands on {below or "the standard library alone"}. <a href="{name}.specs.html">Definitions that its contracts cite</a>.</p>')
        groups = [(title, [it for it in crate.public.values() if it.kind == kind]) for kind, title in GROUPS]
        for title, items in groups:
            if items:
                links = "".join(f'<a href="#{".".join(it.path)}"><code>{"::".join(it.path)}</code></a> ' for it in items)
                self.put(f'<p class="names"><span class="quiet">{title}:</span> {links}</p>')
        self.others()
        for title, items in groups:
            if items:
                self.put(f"<h2>{title}</h2>")
            for item in items:
                self.item(item)
        return page(name, [("index.html", "API"), (f"{name}.specs.html", "definitions")], "\n".join(self.made))

    def others(self):
        """What the crate hands on of those below it."""
        by_crate = defaultdict(list)
        for path, to, last in sorted(self.crate.others):
            by_crate[to].append((path, last))
        if by_crate:
            self.put("<h2>Handed on</h2>")
        for to, found in by_crate.items():
            links = ""
            for path, last in found:
                href, text = self.names.item(to, last), f"<code>{'::'.join(path)}</code>"
                links += f'<a href="{href}">{text}</a> ' if href else text + " "
            self.put(f'<p class="names"><span class="quiet">Of <a href="{to}.html">{to}</a>:</span> {links}</p>')

    def item(self, item):
        path = ".".join(item.path)
        self.put(f'<section id="{path}">\n<h3><code>{item.name}</code> <small>{item.kind} {self.crate.name}::{"::".join(item.path)}</small></h3>')
        self.declaration(item, item)
        self.put(line(address(self.crate.name, item), self.names.same))
        self.parts(item)
        self.model(item)
        own = methods(self.crate, item)
        if len(own) > 3:
            links = "".join(f'<a href="#{path}.{it.name}"><code>{it.name}</code></a> ' for it in own)
            self.put(f'<p class="names method"><span class="quiet">Functions:</span> {links}</p>')
        for method in own:
            self.put(f'<section class="method" id="{path}.{method.name}">\n<h4><code>{method.name}</code></h4>')
            self.declaration(method, item)
            self.put(line(address(self.crate.name, item, method.name), self.names.same))
            self.put("</section>")
        if item.kind in ("struct", "enum"):
            self.implemented(item)
        self.put("</section>")

    def declaration(self, item, owner):
        """Signature, contract and doc."""
        href = self.names.in_rust(self.crate.name, item.file, owner)
        self.put(f"<pre>{named(item.text, item.name, href)}</pre>")
        self.contract(item)
        self.put(prose(item.doc, href))

    def contract(self, item):
        href = self.names.in_contract(item.file.ghosts)
        lines = []
        for word, name, text in item.clauses:
            lines.append(f"<b>{word}</b>{f' <i>{name}</i>' if name else ''} {{ {linked(text, WORD, href)} }}")
        lines += [linked(it.text, WORD, href) for it in item.inner if it.kind == "ghost"] if item.kind == "trait" else []
        if lines:
            self.put('<pre class="contract">' + "".join(f"<span>{it}</span>" for it in lines) + "</pre>")

    def parts(self, item):
        """The public fields of a struct, the variants of an enum."""
        shown = [it for it in item.inner if it.kind == "part" and (it.is_public or item.kind == "enum")]
        href = self.names.in_rust(self.crate.name, item.file, item)
        if shown:
            rows = []
            for it in shown:
                text = named(it.text.removeprefix("pub "), it.name, href)
                place = f' id="{".".join(item.path)}.{it.name}"' if item.kind == "enum" else ""
                rows.append(f'<dt{place}><code>{text}</code></dt><dd>{prose(it.doc, href)}</dd>')
            self.put('<dl class="parts">' + "".join(rows) + "</dl>")

    def model(self, item):
        """What contracts see of a type's value."""
        for impl in self.crate.impls(item.name) if item.kind in ("struct", "enum") else []:
            if impl.trait == "Model":
                text = "\n".join(linked(it.text, WORD, self.names.in_contract(impl.file.ghosts)) for it in impl.inner if it.kind == "ghost")
                self.put(f'<details><summary>What contracts see of it</summary><pre class="contract">{text}</pre></details>')

    def implemented(self, item):
        """The traits that a type has, and the contracts that stand in their impls."""
        impls = [it for it in self.crate.impls(item.name) if it.trait and it.trait != "Model"]
        traits = sorted({*item.derives, *(it.trait for it in impls)})
        if traits:
            href = self.names.in_rust(self.crate.name, item.file, item)
            said = ", ".join(f"<code>{linked(it, RUST, href)}</code>" for it in traits)
            self.put(f'<p class="quiet">Has {said}.</p>')
        told = [(impl, it) for impl in impls for it in impl.inner if it.kind == "fn" and it.clauses]
        if told:
            self.put("<details><summary>Contracts of these</summary>")
            for impl, it in told:
                self.put(f"<pre>{escape(impl.trait)}: {escape(it.text)}</pre>")
                self.contract(it)
            self.put("</details>")


# ---- the index


class Bindings:
    """The header for C, the package for Python, and the wrapper for Rust."""

    def __init__(self):
        self.files, self.package, self.rust = read(files(HEADER)), Package(PACKAGE), Wrapper(WRAPPER)
        self.header, self.wrapper = [*header(self.files)], self.rust.parts()
        self.version = re.search(r'^#define AMQP1_VERSION "(.*)"$', HEADER.with_suffix(".h").read_text(), re.M)[1]

    def same(self, crates):
        """What is the same thing in them, and in the crates on which the library for C stands."""
        found = Same()
        found.of_header(self.header, address_of)
        found.of_package(self.package, address_of)
        found.of_wrapper(self.wrapper, address_of)
        found.of_crates(crates, dependencies(ROOT).get(HEADER.name, ()), address, lambda crate, it: [*variants(it), *methods(crate, it)])
        return found.links()

    def parts(self):
        return self.header, self.package, self.wrapper

    def unread(self):
        """What is declared, and was passed over."""
        return [*(f"{of.where}: {name} was not read" for of in self.files for name in unread(of)), *self.rust.unread()]

    def man_pages(self):
        return man_pages(self.header, self.version)


OTHERS = """<h2>For C, Python and Rust</h2>
<table><tr><td><a href="c.html"><code>amqp1.h</code></a></td><td>The functions, types and constants of <code>libamqp1</code>. Each function has a man page: see <code>man3</code>.</td></tr>
<tr><td><a href="python.html"><code>amqp_engine</code></a></td><td>The package for Python.</td></tr>
<tr><td><a href="rust.html"><code>amqp_engine</code></a></td><td>The crate for Rust.</td></tr></table>"""


def index(names, bindings):
    """The crates, the other languages, and a box that finds what all of them have, and definitions."""
    found, made = [*names_to_search(*bindings.parts())], ["<h1>API reference</h1>"]
    for name, crate in names.crates.items():
        for item in crate.public.values():
            found.append(["::".join(item.path), item.kind, name, address(name, item), item.first_sentence()])
            for it in [*variants(item), *methods(crate, item)]:
                kind = "variant" if it.kind == "part" else "method"
                found.append([f"{item.name}::{it.name}", kind, name, address(name, item, it.name), it.first_sentence()])
        for file in names.specs[name]:
            for it in file.definitions():
                found.append([f"{file.path}.{it.name}", "definition", name, names.defined[name, file.path, it.name], it.comment()])
    made.append(search(found))
    made.append("<h2>Crates</h2>\n<table>")
    for name, crate in names.crates.items():
        doc = crate.files[()].doc[0]
        made.append(f'<tr><td><a href="{name}.html"><code>{name}</code></a></td><td>{escape(doc)} <a class="quiet" href="{name}.specs.html">definitions</a></td></tr>')
    made.append("</table>\n<p>A user of connections names <code>fe2o3_amqp</code> alone; each name that it hands on leads to the crate that has it.</p>")
    made.append(OTHERS)
    return page("API reference", [("index.html", "API")], "\n".join(made)), len(found)


def dead(pages):
    """The links that lead to no page, or to no place on it; and the places that two texts have."""
    ids = {name: re.findall(r'\bid="([^"]*)"', text) for name, text in pages.items()}
    found = [f"{name}: {place} twice" for name, all_ids in ids.items() for place, count in Counter(all_ids).items() if count > 1]
    for name, text in pages.items():
        for href in set(map(unescape, re.findall(r'<a [^>]*?href="([^"]*)"', text))):
            to, _, place = href.partition("#")
            if (to or name) not in ids or place and place not in map(unescape, ids[to or name]):
                found.append(f"{name}: {href}")
    return found


def made():
    """The crates, the other languages, the pages by the names of their files, and how many names can be searched."""
    names, bindings, texts = Names(libraries(ROOT)), Bindings(), {}
    names.same = bindings.same(names.crates)
    for name, crate in names.crates.items():
        texts[f"{name}.html"] = CratePage(names, crate).html()
        texts[f"{name}.specs.html"] = specs_page(names, crate)
    texts |= pages(*bindings.parts(), names.same)
    texts["index.html"], count = index(names, bindings)
    return names.crates, bindings, texts, count


def check():
    crates, bindings, texts, _ = made()
    left = [f"{name}::{'::'.join(file.module)}: not each clause was read" for name, it in crates.items() for file in it.unread()]
    lost = dead(texts)
    print("".join(f"{it}\n" for it in [*left, *lost]), end="")
    tests, failed = sum(len(it.files) for it in crates.values()) + len(texts), len(left) + len({it.split(":")[0] for it in lost})
    more, wrong = check_bindings(bindings)
    print(f"{tests - failed + more - wrong} passed, {failed + wrong} failed")
    sys.exit(bool(failed + wrong))


def written(folder, texts):
    folder.mkdir(parents=True, exist_ok=True)
    for name, text in texts.items():
        (folder / name).write_text(text, encoding="utf-8")


def main():
    if sys.argv[1:] == ["--check"]:
        check()
    if len(sys.argv) == 3 and sys.argv[1] == "--man":
        manual = Bindings().man_pages()
        written(Path(sys.argv[2], "man3"), manual)
        print(f"{Path(sys.argv[2], 'man3')}: {len(manual)} pages")
        return
    if len(sys.argv) != 2 or sys.argv[1].startswith("-"):
        sys.exit(__doc__.strip())
    _, bindings, texts, count = made()
    out = Path(sys.argv[1])
    written(out, texts)
    written(out / "man3", bindings.man_pages())
    lost = dead(texts)
    print("".join(f"{it}\n" for it in lost), end="")
    print(f"{out / 'index.html'}: {len(texts)} pages, {count} names, {len(lost)} links that lead nowhere")
    sys.exit(bool(lost))


if __name__ == "__main__":
    command(main, __doc__)
