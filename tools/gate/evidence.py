#!/usr/bin/env python3
"""Looks that only a request for memory makes evidence of its refusal, and that none is kept for a later call.

    tools/gate/evidence.py

What `OutOfMemory` rests on is a proposition that `amqp_memory` closes: the proofs of that crate's own functions open it, by an attribute, and each
of these makes the request (crates/amqp_memory/specs/Refusal.antt). No prover keeps others from opening it, so this does: its name stands in no code,
definition or proof of another crate. What a reader or a writer answered is opened where it is called alone. Evidence has no time: what an invariant,
a `requires`, a value or a field of a model says would serve each later call. So none of them says it, nor a definition that says it.
"""

import re
import sys
from functools import cache
from pathlib import Path

sys.path.insert(0, str(Path(__file__).resolve().parents[1]))

from gate.reached import meant, reaches
from gate.specs_read import imports
from shared.command import command

ROOT = Path(__file__).resolve().parents[2]
# What is closed, and the files that may name it.
CLOSED = {"WasRefused": "crates/amqp_memory/"}
# What others name and may not open, nor rename: the answers of a reader and of a writer.
UNOPENED = {name: "crates/amqp_transport/src/calls.rt" for name in ("ReadFailed", "WriteFailed", "Flushed")}
# The definitions that say it, of the crate that closes it.
OF = "amqp_memory", "Refusal"
# What outlasts a call, or holds before it: but for a relation of what calls answer, as that of a relay.
KEEPS = re.compile(r"\b(?:requires\*?(?: \w+)?|ghost (?!gives\b)\w+ =|ghost (?!gives\b)\w+:)\s*\{")


def files(*endings):
    parts = ("src", "specs", "proofs")
    return sorted(it for ending in endings for part in parts for it in ROOT.glob(f"crates/*/{part}/**/*{ending}"))


def opened():
    """The files that name what is closed to them."""
    for file in files(".rt", ".antt"):
        text, path = file.read_text(), str(file.relative_to(ROOT))
        yield from (f"{path}: {name}" for name, of in CLOSED.items() if name in text and not path.startswith(of))
        opens = [line for line in text.splitlines() if re.search(r"\bunfold|\bas \w+\s*[,}]", line) and not line.startswith("unfoldable ")]
        yield from (f"{path}: {name}" for name, of in UNOPENED.items() if path != of and any(re.search(rf"\b{name}\b", line) for line in opens))


@cache
def says(of):
    """Whether a definition says evidence, by itself or by those that it uses."""
    return reaches(of, lambda it: it[:2] == OF)


def kept():
    """Each place that keeps evidence, or asks for it: its file, its line, and the definition."""
    for file in files(".rt"):
        text = re.sub(r"//.*", "", file.read_text())
        names = imports(text.splitlines())
        for it in KEEPS.finditer(text):
            inside = text[it.end() : closing(text, it.end())]
            line = text.count("\n", 0, it.start()) + 1
            yield from (f"{file.relative_to(ROOT)}:{line}: {at[2]}" for at in meant(inside, *names) if says(at))


def closing(text, at):
    """The place of the brace that closes one before this place."""
    depth = 1
    while depth:
        depth += {"{": 1, "}": -1}.get(text[at], 0)
        at += 1
    return at


def main():
    outside, inside = [*opened()], [*kept()]
    for it in outside:
        print(f"{it}: a name that is closed to this file")
    for it in inside:
        print(f"{it}: evidence that is kept, or asked for")
    failed = len(outside) + len(inside)
    print(f"{0 if failed else 1} passed, {failed} failed")
    sys.exit(failed != 0)


if __name__ == "__main__":
    command(main, __doc__)
