"""How contracts see the values of types with private fields: their `impl Model`."""

import re

OF_MODEL = re.compile(r"^impl\b.*\bModel for (?:\w+::)*(\w+)")
RUST = re.compile(r"(?<![\w'])[A-Za-z_]\w*")


def declared(crate, name):
    """The struct or the enum of this name in a crate."""
    for file in crate.files.values():
        for item in file.items:
            if item.kind in ("struct", "enum") and item.name == name:
                return item
    return None


def within(crates, crate, item):
    """The types that a type's fields or variants name, by crate and name. A tuple's fields stand in its own text."""
    for part in [*item.inner, item]:
        for word in RUST.findall(part.text):
            base, last = item.file.names.get(word, ([], word))
            yield (base[0] if base and base[0] in crates else crate), last


def held(crates, starts):
    """The types that stand in values of these, and the models of them, as (crate, file, type)."""
    seen, todo = set(), list(starts)
    while todo:
        crate, name = todo.pop()
        item = declared(crates[crate], name) if (crate, name) not in seen else None
        seen.add((crate, name))
        if item:
            todo += within(crates, crate, item)
            yield from ((crate, impl.file, name) for impl in crates[crate].impls(name) if impl.trait == "Model")


def lines_of(file, name):
    """How many lines the block `impl Model for NAME` has."""
    lines = file.source.splitlines()
    first = next(i for i, line in enumerate(lines) if (found := OF_MODEL.match(line)) and found[1] == name)
    last = next(i for i in range(first, len(lines)) if lines[i].startswith("}"))
    return plain(lines[first : last + 1])


def plain(lines):
    """How many of these lines are neither doc nor attribute."""
    return sum(not line.strip().startswith(("//", "#[")) for line in lines)
