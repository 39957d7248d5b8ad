"""What the header for C, the package for Python and the wrapper for Rust have under a name, for api.py."""

import re
from dataclasses import dataclass, field


@dataclass
class Entry:
    """A public name: its language, what it is, its comment in lines, the text of its declaration, and the names within it."""

    language: str
    kind: str
    # as a user writes it: amqp1_take, Driver.take, Engine::take
    name: str
    doc: list
    text: str
    # the header, the module or the file that has it
    where: str
    inner: list = field(default_factory=list)
    # whether the comment of what it stands in speaks for it too
    is_part: bool = False
    # of a class: the names of those that it is made of
    bases: list = field(default_factory=list)

    @property
    def place(self):
        return self.name.replace("::", ".")

    @property
    def last(self):
        """Its name alone, without that of what it stands in."""
        return re.split(r"::|\.", self.name)[-1]

    def first_sentence(self, ends="."):
        paragraph = " ".join(" ".join(self.doc).split("  ")[0].split())
        return re.split(rf"(?<=[{ends}]) ", re.sub(r"\[?`([^`]+)`\]?(?:\([^)]*\))?", r"\1", paragraph), maxsplit=1)[0]


@dataclass
class Part:
    """A file of the header, a module of the package, or a file of the wrapper: what it says of itself, and its names."""

    name: str
    doc: list
    entries: list


def each(entries):
    """These entries, and those within them."""
    for it in entries:
        yield it
        yield from each(it.inner)


def all_of(parts):
    return [it for part in parts for it in each(part.entries)]


def lacking(parts):
    """The names that have no comment, though nothing else speaks for them."""
    for part in parts:
        if not any(part.doc):
            yield f"{part.name}: it does not say what it is"
    for it in all_of(parts):
        if not it.is_part and not any(line.strip() for line in it.doc):
            yield f"{it.where}: {it.name} has no comment"
