"""The order of docs/READING.md: in each part a file stands after those whose definitions it uses; and what stands elsewhere is told by name."""

from collections import Counter

from gate.specs_read import ROOT, module

NAMES = ["the promise", "the bytes", "every call exactly", "handles", "the pair"]


def ordered(rows, uses):
    """The rows, each after those that it uses, and else as they stood. Those that use one another in a circle stand together."""
    below = {row: reached(row, uses) for row in rows}
    left, done = [*rows], []
    while left:
        first = next(row for row in left if all(row in below[of] for of in below[row] & {*left}))
        circle = [row for row in left if row == first or row in below[first] and first in below[row]]
        done += circle
        left = [row for row in left if row not in circle]
    return done


def reached(row, uses):
    """What a row uses, and what that uses, and so on."""
    seen, todo = set(), [row]
    while todo:
        came = uses.get(todo.pop(), set()) - seen
        seen |= came
        todo += came
    return seen


def path(here):
    return str(here.file.relative_to(ROOT))


def used(here, item):
    """The definitions that a definition uses: (file, item, name). What contracts and the code declare is none."""
    for use in here.uses(item):
        crate, of, name = use if isinstance(use, tuple) else (None, None, use)
        if of is None or not of.startswith(("declared.", "contracts.")):
            there = here if of is None else module(crate, of)
            if name in there.items:
                yield there, there.items[name], name


def uses_within(part):
    """File by file: the other files of a part whose definitions there it uses."""
    return {path(here): {path(there) for item in items for there, of, _ in used(here, item) if of in part.get(there, ()) and there != here}
            for here, items in part.items()}


def from_the_top(uses):
    """File by file: those that use it."""
    return {file: {of for of in uses if file in uses[of]} for file in uses}


def before(part, order):
    """The words of a part that stand before their definition, by the order of its files and of the lines in each."""
    place = {(here, item): (order.index(path(here)), item) for here, items in part.items() for item in items}
    return sorted({name for here, item in place for there, of, name in used(here, item) if place.get((there, of), (-1,)) > place[here, item]})


def told(parts, orders):
    """What the page says of its order, line by line: how each line begins, and all of it."""
    for n, part in enumerate(parts):
        for later, other in zip(NAMES[n + 1 :], parts[n + 1 :]):
            words = {name for here, items in part.items() for item in items for there, of, name in used(here, item)
                     if of in other.get(there, ()) and of not in part.get(there, ())}
            if words:
                yield line(f"- Words of {NAMES[n]} that stand in {later}", words)
    yield line("- Words that stand before their definition within a part", {word for of in zip(parts, orders) for word in before(*of)})
    files = Counter(name for name, _ in {(here.name_of(item), here) for part in parts for here, items in part.items() for item in items})
    yield line("- Names that several files define", {name for name, count in files.items() if count > 1})


def line(opening, words):
    """How a line begins, and the line: its words are counted."""
    return opening, f"{opening} ({len(words)}): {', '.join(f'`{word}`' for word in sorted(words)) or 'none'}."
