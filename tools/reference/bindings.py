"""The pages of the header for C, the package for Python and the wrapper for Rust, for api.py."""

import re
from html import escape

from reference.entry import all_of, each
from reference.manual import synopsis
from reference.page import linked, page, prose
from reference.same import line

WORD = re.compile(r"[A-Za-z_]\w*(?:(?:::|\.)[A-Za-z_]\w*)*")
# The pages, by language: the file, and what the head of each says
FILES = {"C": "c.html", "Python": "python.html", "Rust": "rust.html"}
INTRO = {
    "C": ("amqp1.h", "The library for C, <code>libamqp1</code>. <code>docs/BINDINGS.md</code> says how it is built and used."),
    "Python": ("amqp_engine, for Python", "The package in <code>bindings/python</code>, over the library for C. <code>docs/BINDINGS.md</code> says how it is used."),
    "Rust": ("amqp_engine, for Rust", "The crate in <code>bindings/rust</code>, over the library for C. <code>docs/BINDINGS.md</code> says how it is used."),
}
# What stands in a list below what it is in, and what has a place of its own
LAST = ("constant", "const", "macro")
LISTED = ("constant", "field", "variant", "attribute", "const")


def address(it):
    return f"{FILES[it.language]}#{it.place}"


def fenced(lines):
    """A comment's lines as Markdown has them: code, which stands four columns in, between fences."""
    made, is_code = [], False
    for at, text in enumerate(lines):
        is_in = text.startswith("    ") and (is_code or not at or not lines[at - 1].strip())
        if text.strip() and is_in != is_code:
            made.append("```")
            is_code = is_in
        made.append(text[4:] if is_code else text)
    return [*made, "```"] if is_code else made


class LanguagePage:
    """A page: its parts, and what the words in a comment or a declaration lead to."""

    def __init__(self, language, parts, href, same, lineage):
        self.language, self.parts, self.href, self.same, self.lineage, self.made = language, parts, href, same, lineage, []

    def html(self):
        title, intro = INTRO[self.language]
        self.made = [f"<h1>{escape(title)}</h1>", f"<p>{intro}</p>"]
        self.made.append('<p class="names">' + " ".join(f'<a href="#{escape(it.name)}"><code>{escape(it.name)}</code></a>' for it in self.parts) + "</p>")
        for part in self.parts:
            self.made.append(f'<h2 id="{escape(part.name)}"><code>{escape(part.name)}</code></h2>')
            self.made.append(self.prose(part.doc, lambda word, part=part: self.href(word, part.name, None)))
            entries = sorted(part.entries, key=lambda it: it.kind in LAST)
            self.made.append(names("", entries))
            for it in entries:
                self.entry(it, 3)
        return page(title, [("index.html", "API")], "\n".join(filter(None, self.made)))

    def prose(self, lines, href):
        if self.language == "Rust":
            return prose(lines, href)
        # comments in C name functions as they are, without marks
        return prose(fenced(lines), href, (lambda text: linked(text, WORD, href)) if self.language == "C" else escape)

    def entry(self, it, level, owner=None):
        """A name with its declaration and comment, and what is in it."""
        href = lambda word, of=owner or it: None if (to := self.href(word, it.where, of)) == address(it) else to
        kind = ' class="method"' if owner else ""
        self.made.append(f'<section id="{escape(it.place)}"{kind}>\n<h{level}><code>{escape(it.name)}</code> <small>{it.kind}</small></h{level}>')
        self.made.append(self.declaration(it, lambda word: href(word, None)))
        self.made += [line(address(it), self.same), self.prose(it.doc, href)]
        listed = [of for of in it.inner if of.kind in LISTED and not of.inner]
        if listed:
            self.made.append('<dl class="parts">' + "".join(self.listed(of, href) for of in listed) + "</dl>")
        for of in it.inner:
            if of not in listed:
                self.entry(of, 4, it)
        own = {of.last for of in it.inner}
        for base in [*self.lineage(it)][1:]:
            self.made.append(names(f"Also, of {base.name}:", [of for of in base.inner if of.last not in own], method=True))
            own |= {of.last for of in base.inner}
        self.made.append("</section>")

    def declaration(self, it, href):
        """How a name is declared: what it is called with may stand in several lines."""
        if it.kind == "type" and "\n" in it.text:
            return f"<pre>{linked(it.text, WORD, href)}</pre>"
        return f'<pre class="declared">{linked(synopsis(it.text) if self.language == "C" and it.kind == "function" else it.text, WORD, href)}</pre>'

    def listed(self, it, href):
        said = line(address(it), self.same) + self.prose(it.doc, href)
        return f'<dt id="{escape(it.place)}"><code>{linked(it.text, WORD, lambda word: None if word == it.last else href(word, None))}</code></dt><dd>{said}</dd>'


def names(text, entries, method=False):
    """Links to these, after a text."""
    links = "".join(f'<a href="#{escape(it.place)}"><code>{escape(it.last if method else it.name)}</code></a> ' for it in entries)
    said = f'<span class="quiet">{escape(text)}</span> ' if text else ""
    return f'<p class="names{" method" if method else ""}">{said}{links}</p>' if links else ""


def by_name(parts):
    """The addresses of a language without modules: a word is the name of one thing."""
    found = {it.name: address(it) for it in all_of(parts)}

    def href(word, where, owner):
        name = word.split("(")[0].removeprefix("super::")
        return found.get(name) or (found.get(f"{owner.name}::{name}") if owner else None)

    return href


def of_package(package):
    """The addresses of the package, by the module in which a word stands."""

    def href(word, where, owner):
        stem = where.removeprefix(package.name).lstrip(".") or "__init__"
        it = package.found(stem, word.split("(")[0].removeprefix("self."), owner if owner and owner.kind == "class" else None)
        return address(it) if it else None

    return href


def pages(header, package, wrapper, same):
    """The three pages, by the names of their files."""
    of = {"C": (header, by_name(header)), "Python": (package.parts(), of_package(package)), "Rust": (wrapper, by_name(wrapper))}
    lineage = {"Python": package.lineage}
    made = {language: LanguagePage(language, parts, href, same, lineage.get(language, lambda it: [it])) for language, (parts, href) in of.items()}
    return {FILES[language]: it.html() for language, it in made.items()}


def names_to_search(header, package, wrapper):
    """What the index finds of them: name, kind, where it is, address, first sentence."""
    for language, parts in (("C", header), ("Python", package.parts()), ("Rust", wrapper)):
        for it in (it for part in parts for it in each(part.entries)):
            if it.kind != "field":
                yield [it.name, it.kind, f"{it.where}, {language}", address(it), it.first_sentence()]
