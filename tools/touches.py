#!/usr/bin/env python3
"""Lists what names a thing: a field of a performative, a request, a refusal.

    tools/touches.py WORD             each file, below its kind, with how many of its lines name it
    tools/touches.py --places WORD    the kinds alone, each with its crates and folders
    tools/touches.py --write          writes the second into each block of CONTRIBUTING.md that begins with its command

A WORD is found in each of its spellings: link_credit, link-credit, LinkCredit, LINK_CREDIT. A case of an enum, as
Input::Settle, is found as that; in definitions and proofs as input.Settle, and at the end of a name as -Settle; on
pages in backticks alone; and as a word in the file that declares the enum. What stands in hexadecimal is not found.
"""

import re
import sys
from collections import Counter, defaultdict

from gate.names import ROOT, files
from shared.command import command, told

PAGE = ROOT / "CONTRIBUTING.md"
BLOCK = re.compile(r"(```text\n\$ tools/touches\.py --places (\S+)\n).*?(```\n)", re.DOTALL)
# the kinds, in the order in which they are shown: the first pattern that a path fits says which one it is
KINDS = {
    "tests": r"crates/test_.*|tools/(try_c|hostile)/.*|bindings/rust/tests/.*",
    "rows": r"crates/rows_.*|crates/\w+/std(in|out)|captures/.*",
    "programs": r"crates/(example|bench)_.*|examples/.*",
    "src": r"crates/.*/src/.*",
    "specs": r"crates/.*/specs/.*",
    "proofs": r"crates/.*/proofs/.*",
    "mutants": r"crates/.*/(mutants|must-not-compile)/.*",
    "headers": r"include/.*",
    "bindings": r"bindings/.*",
    "docs": r".*\.md|docs/.*",
    "tools": r"tools/.*|\.ci/.*",
}
SHOWN = ["src", "specs", "proofs", "mutants", "tests", "rows", "programs", "headers", "bindings", "tools", "docs"]


def parts(name):
    """The words of a name, in small letters."""
    return re.sub(r"(?<=[a-z0-9])(?=[A-Z])|-", "_", name).lower().split("_")


def spellings(word):
    """A pattern of the word in each of its spellings."""
    of = parts(word)
    found = {word, "_".join(of), "_".join(of).upper(), "".join(it.capitalize() for it in of)}
    plain = "|".join(map(re.escape, sorted(found)))
    return rf"(?<!\w)(?:{plain})(?!\w)|(?<![\w-]){re.escape('-'.join(of))}(?![\w-])"


def cases(kind, case, name, text):
    """A pattern of a case of an enum, in a file."""
    found = rf"\b{kind}::{case}\b"
    if name.endswith(".antt"):
        found += rf"|\b{'_'.join(parts(kind))}\.{case}\b|(?<=-){case}\b"
    elif name.endswith(".md"):
        found += rf"|`{case}`"
    elif re.search(rf"\benum {kind}\b", text):
        found += rf"|\b{case}\b"
    return found


def touched(word):
    """Each file that names the word, with how many of its lines do."""
    kind, is_case, case = word.rpartition("::")
    plain = spellings(word)
    for name in files():
        text = (ROOT / name).read_text(errors="replace")
        here = cases(kind, case, name, text) if is_case else plain
        if lines := sum(bool(re.search(here, line)) for line in text.splitlines() if not line.startswith("$ ")):
            yield name, lines


def by_kinds(word):
    """The files by their kinds, each with its count."""
    found = defaultdict(dict)
    for name, lines in touched(word):
        kind = next((kind for kind, pattern in KINDS.items() if re.fullmatch(pattern, name)), None)
        if kind:
            found[kind][name] = lines
    return {kind: found[kind] for kind in SHOWN if kind in found}


def place(name):
    """The crate or the folder of a file; of a page no more than that it is in docs, so that this seldom changes."""
    first, *rest = name.removeprefix("crates/").split("/")
    return "/".join([first, *rest[: not name.startswith(("crates/", "docs/"))]])


def places(word):
    """The lines that tell each kind with its places."""
    return "".join(f"{kind:9} {' '.join(sorted(set(map(place, names))))}\n" for kind, names in by_kinds(word).items())


def show(word):
    total = Counter()
    for kind, names in by_kinds(word).items():
        print(f"{kind} (files: {len(names)}, lines: {sum(names.values())})")
        for name, lines in names.items():
            print(f"{lines:6}  {name}")
        total.update(files=len(names), lines=sum(names.values()))
    print(f"files: {total['files']}, lines: {total['lines']}")


def main():
    words = sys.argv[1:]
    if words == ["--write"]:
        PAGE.write_text(BLOCK.sub(lambda it: it[1] + places(it[2]) + it[3], PAGE.read_text()))
    elif len(words) == 2 and words[0] == "--places":
        print(places(words[1]), end="")
    elif len(words) == 1 and re.fullmatch(r"\w[\w-]*(::\w+)?", words[0]):
        show(words[0])
    else:
        told("a word, --places and a word, or --write")


if __name__ == "__main__":
    command(main, __doc__)
