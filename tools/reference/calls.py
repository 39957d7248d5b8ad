"""The contracts of what a user can call: as they stand in the sources of all crates, not in the libraries alone."""

import re
from pathlib import Path

from reference.source import Crate, dependencies


def public_calls(root):
    """Of each public call of each crate, the text of its contract, and what the names in it mean."""
    deps = dependencies(root)
    for name in deps:
        crate = Crate(Path(root, "crates", name), deps[name])
        for item in [*crate.public.values(), *crate.exported()]:
            yield from told(crate, item)


def told(crate, item):
    """The contracts of a function; or those that a trait asks for; or those of a type's public functions, and of its impls of traits.

    Of an `impl Model`, which is no call, the type counts in whose words contracts speak of a value, `Value`: how it is made of private fields, and
    what holds of these, is the code's own affair.
    """
    if item.kind == "fn":
        yield from written([item])
    elif item.kind == "trait":
        yield from written(item.inner)
    elif item.kind in ("struct", "enum"):
        for impl in crate.impls(item.name):
            yield from written(it for it in impl.inner if is_seen(impl, it))


def is_seen(impl, item):
    """Whether an item of an impl is for its type's users."""
    if impl.trait == "Model":
        return re.match(r"ghost\s+Value\b", item.text)
    return impl.trait or item.is_public


def written(items):
    """The clauses of functions, and the statements that stand beside them."""
    for item in items:
        for _, _, text in item.clauses:
            yield text, item.file.ghosts
        if item.kind == "ghost":
            yield item.text, item.file.ghosts
