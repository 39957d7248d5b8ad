"""The definitions of a crate's specs/*.antt, for api.py: where each begins and ends, and what the names in it mean."""

import re
from pathlib import Path

HEAD = re.compile(r"(?P<indent> *)(?:(?:abbrev|unfoldable) (?:pub )?|(?:pub )?(?:record|data) )(?P<name>[^\s:({]+)")
# a field of a record, or a constructor, two columns further in
PART = re.compile(r" +(?:pub )?(?P<name>[^\s:({◌]+) :")
USE = re.compile(r"(?:pub )?use (Rattle(?:\.\w+)+)(?:\.\{([^}]*)\})?(?: as (\w+))?")


class Definition:
    """A definition: its name, its text with the comment above it, and the names of its fields or constructors."""

    def __init__(self, lines):
        self.lines, self.parts = lines, {}
        self.name = HEAD.match(lines[self.head()])["name"]
        if re.match(r" *(?:pub )?(?:record|data) ", lines[self.head()]):
            for at, line in enumerate(lines[self.head() + 1 :], self.head() + 1):
                if found := PART.match(line):
                    self.parts[at] = found["name"]

    def head(self):
        """The line with the name."""
        return next(at for at, line in enumerate(self.lines) if HEAD.match(line))

    def comment(self):
        return " ".join(line.strip()[2:].strip() for line in self.lines[: self.head()])


class Module:
    """A file of definitions: its comment, what it uses, and its text in pieces: definitions, and the lines that stand between them."""

    def __init__(self, crate, path, text):
        self.crate, self.path, self.names = crate, path, scope(text)
        lines = text.splitlines()
        first = next((at for at, line in enumerate(lines) if not line.startswith("--")), len(lines))
        self.comment = " ".join(line[2:].strip() for line in lines[:first])
        self.uses = [line for line in lines if USE.match(line)]
        self.pieces = [*self.split([line for line in lines[first:] if not USE.match(line)])]

    def split(self, lines):
        """A definition begins with the comment above it, and goes on to the next one or to the heading of a section."""
        starts = []
        for at, line in enumerate(lines):
            if HEAD.match(line):
                while at and lines[at - 1].strip().startswith("--") and not is_heading(lines[at - 1]):
                    at -= 1
                starts.append(at)
        yield trimmed(lines[: starts[0]] if starts else lines)
        for first, end in zip(starts, [*starts[1:], len(lines)]):
            last = next((at for at in range(first, end) if is_heading(lines[at])), end)
            yield Definition(trimmed(lines[first:last]))
            yield trimmed(lines[last:end])

    def definitions(self):
        return [it for it in self.pieces if isinstance(it, Definition)]


def is_heading(line):
    return line.strip().startswith("-- ----") or line.startswith("module ")


def trimmed(lines):
    while lines and not lines[-1].strip():
        lines = lines[:-1]
    while lines and not lines[0].strip():
        lines = lines[1:]
    return lines


def scope(text):
    """What each name that a file brings in means: a path and a name; an alias stands for a path."""
    names = {}
    for path, listed, alias in USE.findall(text):
        if alias:
            names[alias] = (path, None)
        for name in re.findall(r"([^\s,]+)(?:\s+as\s+([^\s,]+))?", listed):
            names[name[1] or name[0]] = (path, name[0])
    return names


def modules(crate, folder):
    """The files of a folder specs/, in the order in which Lib.antt and the files in it name them."""
    found = []

    def read(base, path):
        text = (base / "Lib.antt" if not path else base.joinpath(*path).with_suffix(".antt")).read_text()
        if path:
            found.append(Module(crate, ".".join(path), text))
        for name in re.findall(r"^(?:pub )?mod (\w+)", text, re.M):
            read(base, (*path, name))

    if (Path(folder) / "Lib.antt").exists():
        read(Path(folder), ())
    return found
