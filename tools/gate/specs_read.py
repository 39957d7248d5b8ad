"""Reads files of specs/: the definitions of each by their names, and which others each one uses."""

import re
from functools import cache
from pathlib import Path

ROOT = Path(__file__).resolve().parents[2]
PART = "-- Part: "
USE = re.compile(r"^\s*(?:ghost |pub )*use Rattle\.(\w+)\.specs\.([\w.]+?)(?:\.\{(.*?)\}| as (\w+));?\s*$")
ITEM = re.compile(r"^(?:(?:abbrev|unfoldable|pub(?! (?:mod|use)\b)|mutual|data|record)\b|infix)")
NAMED = re.compile(r"^\s*(?:(?:abbrev|unfoldable|pub|mutual|data|record) )*([^\s:({]+)")
WORD = re.compile(r"[^\s(){}\[\],;]+")


class Module:
    """A file of specs/: its definitions by the names that they give, and where its other names come from."""

    def __init__(self, crate, path):
        self.crate, self.file = crate, ROOT / "crates" / crate / "specs" / (path.replace(".", "/") + ".antt")
        lines = self.file.read_text(encoding="utf8").splitlines()
        self.part, self.lines = (lines[0], lines[1:]) if lines[:1] and lines[0].startswith(PART) else (None, lines)
        # with the line of its part
        self.length, self.text, self.lines = 1 + len(self.lines), self.lines, flat(self.lines)
        self.names, self.aliases = imports(self.lines)
        self.items = {}
        for first, last in blocks(self.lines):
            for name in given(self.lines[first:last]):
                self.items[name] = (first, last)

    def name_of(self, item):
        """The first name that a definition gives."""
        return next(name for name, of in self.items.items() if of == item)

    def uses(self, item):
        """What the lines of a definition use: names of this file, and (crate, module, name) of others."""
        first, last = item
        for line in self.lines[first:last]:
            for word in WORD.findall(line.split("--")[0]):
                yield from self.meant(word)

    def meant(self, word):
        """What a word means: a name of this file, or (crate, module, name) of another."""
        head, *parts = word.strip(".").split(".")
        if parts and head in self.aliases:
            yield (*self.aliases[head], parts[0])
        elif head in self.items:
            yield head
        elif head in self.names:
            yield (*self.names[head], head)
        elif f"◌{head}◌" in self.names:
            yield (*self.names[f"◌{head}◌"], f"◌{head}◌")
        elif f"◌{head}◌" in self.items:
            yield f"◌{head}◌"


def imports(lines):
    """The names that the `use` lines bring in, and the modules that they rename."""
    names, aliases = {}, {}
    for line in lines:
        found = USE.match(line)
        if found and (ROOT / "crates" / found[1]).is_dir():
            crate, path, listed, alias = found.groups()
            crate, path = passed_on(crate, path)
            if alias:
                aliases[alias] = crate, path
            for name in (listed or "").split(","):
                names[name.strip()] = crate, path
    return names, aliases


def passed_on(crate, path):
    """Where a module stands: a library passes on those of the crates below it under their names."""
    below, _, inner = path.partition(".")
    return (below, inner) if inner and (ROOT / "crates" / below).is_dir() else (crate, path)


def flat(lines):
    """The lines, with what stands in a `module .. where` moved to the left margin."""
    moved, is_within = [], False
    for line in lines:
        is_within = line.startswith("module ") or is_within and line[:1] in ("", " ")
        moved.append(line.removeprefix("  ") if is_within else line)
    return moved


def blocks(lines):
    """Where each definition begins, its comment included, and where it ends."""
    starts = [i for i, line in enumerate(lines) if ITEM.match(line)]
    starts = [i for n, i in enumerate(starts) if n == 0 or not lines[i - 1].startswith("infix")]
    for n, start in enumerate(starts):
        end = starts[n + 1] if n + 1 < len(starts) else len(lines)
        while not lines[end - 1].strip() or lines[end - 1].startswith("--"):
            end -= 1
        first = start
        while first > 0 and lines[first - 1].startswith("--") and not lines[first - 1].startswith("-- ----"):
            first -= 1
        yield first, end


def given(lines):
    """The names that a definition gives: its own, and those of the cases of a data type."""
    code = [line for line in lines if line.strip() and not line.strip().startswith("--")]
    if code[0].startswith("infix"):
        return [code[0].split()[-1]]
    names = [NAMED.match(code[0])[1]]
    if code[0].startswith("mutual") or re.match(r"^(pub )?data\b", code[0]):
        names += [NAMED.match(line)[1] for line in code[1:] if re.match(r"^\s+(pub data )?[^\s:({]+ :", line)]
    return names


@cache
def module(crate, path):
    return Module(crate, path)


def uses_of(crate, path, name):
    """What a definition uses, by its name."""
    here = module(crate, path)
    return here.uses(here.items[name]) if name in here.items else ()
