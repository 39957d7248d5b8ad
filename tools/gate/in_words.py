"""docs/READING.md's list in plain words: that it names each definition of the promise, once, and edits that are refused by them."""

import re
from collections import Counter

from edits import FOLDER, edits_of

ROW = re.compile(r"^\| `(\w+)/(\w+)` \| (.*?) \| (.*) \| (.*) \|$")
NAME = re.compile(r"`([^`]+)`")
NONE = "none"


def file_of(line):
    """The file that a row of the list is of."""
    crate, file = ROW.match(line).groups()[:2]
    return f"crates/amqp_{crate}/specs/{file}.antt"


def rows(page):
    """The list's rows: (crate, file), the definitions' names, and the edits' names."""
    for line in page:
        if found := ROW.match(line):
            yield (f"amqp_{found[1]}", found[2]), NAME.findall(found[3]), NAME.findall(found[5]), found[5]


def edits(root):
    """The edits by their names: each with its crate."""
    found = {}
    for folder in sorted(root.glob(f"crates/*/{FOLDER}")):
        for edit in edits_of(folder.parent):
            found.setdefault(edit.name, []).append((folder.parent.name, edit))
    return found


def functions(crate):
    """The functions of a crate, by the path that an edit names: a method's type stands after the module that has the type."""
    home = {it.name: file.module for file in crate.files.values() for it in file.items if it.kind in ("struct", "enum", "trait")}
    found = {}
    for file in crate.files.values():
        for item in file.items:
            if item.kind == "fn":
                found["::".join([*file.module, item.name])] = item
            for inner in item.inner if item.kind in ("impl", "trait") else ():
                found.setdefault("::".join([*home.get(item.name, file.module), item.name, inner.name]), inner)
    return found


def wrong(page, promise, root, cites):
    """What is wrong with the list. `promise` has the names by crate and file; `cites` tells whether an edit's contract reaches one of some."""
    listed, known = Counter(), edits(root)
    for of, names, refused, text in rows(page):
        listed.update((of, name) for name in names)
        if not refused and text != NONE:
            yield f"{names}: neither an edit nor '{NONE}'"
        for name in refused:
            if name not in known:
                yield f"{name}: no such edit"
            elif not any(cites(crate, edit.function, of, names) for crate, edit in known[name]):
                yield f"{name}: the contract of its function is not near {', '.join(names)}"
    wanted = {(of, name) for of, names in promise.items() for name in names}
    yield from (f"{of[0]}, {of[1]}: {name} is not in the list in plain words" for of, name in sorted(wanted - set(listed)))
    yield from (f"{of[0]}, {of[1]}: {name} is in the list in plain words, and not in the promise" for of, name in sorted(set(listed) - wanted))
    yield from (f"{of[0]}, {of[1]}: {name} is there twice" for (of, name), count in sorted(listed.items()) if count > 1)
