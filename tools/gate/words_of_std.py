"""docs/NOTATION.md's table of the standard library's words: that it has each one which the definitions of docs/READING.md use, and no other."""

import re
from collections import Counter

from gate.specs_read import ROOT, USE, WORD

PAGE = ROOT / "docs/NOTATION.md"
STD = "std"
ROW = re.compile(r"^\| `(\S+)` \| `([\w.]+)` \| .* \|$")


def brought(lines):
    """What the `use` lines of a file bring in of the standard library: names, each with its module, and modules by what they are called there."""
    names, aliases = {}, {}
    for line in lines:
        found = USE.match(line)
        if found and found[1] == STD:
            _, path, listed, alias = found.groups()
            if alias:
                aliases[alias] = path
            names.update((name.strip(), path) for name in (listed or "").split(",") if name.strip())
    return names, aliases


def used(part):
    """The words of the standard library that the definitions of a part use: (name, module)."""
    for here, items in part.items():
        names, aliases = brought(here.lines)
        # an operator stands in the text without its places: `◌+◌` as +, and if◌then◌else◌ as three words
        spelled = {piece: name for name in names for piece in name.split("◌") if piece}
        for first, last in items:
            for line in here.lines[first:last]:
                text = line.split("--")[0]
                for word in [*WORD.findall(text), *re.findall(r"\[\]", text)]:
                    head, *inner = word.strip(".").split(".")
                    if inner and head in aliases:
                        yield inner[0], aliases[head]
                    elif head in spelled:
                        yield spelled[head], names[spelled[head]]


def wrong(parts):
    """What is wrong with the table."""
    # in a table of Markdown a bar is written with a stroke before it
    listed = Counter((row[1].replace("\\|", "|"), row[2]) for row in map(ROW.match, PAGE.read_text(encoding="utf8").splitlines()) if row)
    wanted = {it for part in parts for it in used(part)}
    yield from (f"{name} of {path} is missing" for name, path in sorted(wanted - set(listed)))
    yield from (f"{name} of {path} is used by no definition" for name, path in sorted(set(listed) - wanted))
    yield from (f"{name} of {path} is there twice" for (name, path), count in sorted(listed.items()) if count > 1)
