"""Which definitions of specs/ the words of a file of code mean, and which others they reach."""

from gate.specs_read import WORD, uses_of


def reaches(name, is_wanted):
    """Whether a definition is such a one, or reaches one through those that it uses; each as (crate, module, name)."""
    seen, todo = set(), [name]
    while todo:
        of = todo.pop()
        if is_wanted(of):
            return True
        if of not in seen and not of[1].startswith(("contracts.", "declared.")):
            seen.add(of)
            todo += [use if isinstance(use, tuple) else (*of[:2], use) for use in uses_of(*of)]
    return False


def meant(text, names, aliases):
    """The definitions that the words of a text of code mean, by what its file brings in."""
    for word in sorted({*WORD.findall(text)}):
        head, *parts = word.strip(".").split(".")
        if parts and head in aliases:
            yield (*aliases[head], parts[0])
        elif head in names:
            yield (*names[head], head)
