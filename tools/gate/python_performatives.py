#!/usr/bin/env python3
"""Looks that the package for Python has each performative's fields as the library has them, and encodes none by itself.

    tools/gate/python_performatives.py

The fields of a performative, their order, their types and which of them are mandatory stand in the definitions of
`amqp_types`, and once more in `performatives.py` of the package, where they are data classes: the two are compared.

A performative's bytes are those of the library's writers (`writers.py`). So what writes values (`writing.py`) is named
by the modules alone that write what people put into messages, or a value of a field; and what makes a performative a
described list is called where that goes to the writers.
"""

import ast
import re
import sys
from itertools import zip_longest
from pathlib import Path

sys.path.insert(0, str(Path(__file__).resolve().parents[1]))
ROOT = Path(__file__).resolve().parents[2]
sys.path.insert(0, str(ROOT / "bindings" / "python"))

from amqp_engine import performatives
from shared.command import command

PACKAGE = ROOT / "bindings" / "python" / "amqp_engine"
NAMES = ("Open", "Begin", "Attach", "Flow", "Transfer", "Disposition", "Detach", "End", "Close", "Error")
FIELD = re.compile(r"\(?(mandatory|optional|or_default)\b(?: \w+)?? (Is\w+|Spells\w+) .*\bp\.(\w+)$")
#: The type that the package has for what a definition calls so
KINDS = {
    "IsString": "string", "IsSymbol": "symbol", "IsSymbols": "symbols", "IsUlong": "ulong", "IsUint": "uint",
    "IsUshort": "ushort", "IsRole": "boolean", "IsBoolean": "boolean", "IsSenderMode": "ubyte",
    "IsReceiverMode": "ubyte", "IsBinary": "binary", "SpellsMap": "fields", "SpellsRaw": "value", "IsError": "error",
}  # fmt: skip
#: Who may write values, and what
WRITES = {
    "values": "it hands the function on", "maps": "keys, to compare them", "message": "sections of a message",
    "sections": "sections of a message", "writers": "a value of a field, as a map", "performatives": "a data section",
}  # fmt: skip
#: Who may make a described list of a data class, and of which
DESCRIBES = {
    "performatives": "for the writers; and an error inside of another list", "outcomes": "an error of an outcome",
    "message": "sections of a message",
}  # fmt: skip
#: Who may spell the descriptor of a performative (AMQP 1.0 part 2, section 2.7), and for what
SPELLS = {"serving": "it counts the transfers that the library gives"}
DESCRIPTOR = re.compile(rb"(?s:\0(\x53|\x80\0{7})[\x10-\x18\x1d])")


def defined(name):
    """Of each field of a performative, as the library has it: its name, its type, and whether it is mandatory."""
    text = (ROOT / "crates" / "amqp_types" / "specs" / f"{name}.antt").read_text()
    lines = text.split(f"{name.lower()}_table p =\n", 1)[1].split("no_more", 1)[0].splitlines()
    found = [FIELD.match(line.strip()) for line in lines if line.strip()]
    return [(it[3], KINDS[it[2]], it[1] == "mandatory") for it in found]


def declared(name):
    """The same as the package has it."""
    it = getattr(performatives, name)
    found = zip_longest(performatives.names_of(it), it.TYPES)
    return [(field, kind, field in it.MANDATORY) for field, kind in found]


def fields():
    for name in NAMES:
        theirs, ours = defined(name), declared(name)
        if not theirs or theirs != ours:
            yield f"{name}: the library has {theirs}, and the package {ours}"


def imported(tree, modules, names):
    """The lines of a module that take one of these names of others."""
    for it in ast.walk(tree):
        if isinstance(it, ast.ImportFrom) and it.module in modules and {of.name for of in it.names} & {*names, "*"}:
            yield it.lineno


def called(tree, name):
    """The lines that name a method."""
    return [it.lineno for it in ast.walk(tree) if isinstance(it, ast.Attribute) and it.attr == name]


def spelled(tree):
    """The lines that spell the descriptor of a performative."""
    spell = lambda it: isinstance(it, ast.Constant) and isinstance(it.value, bytes) and DESCRIPTOR.match(it.value)
    return [it.lineno for it in ast.walk(tree) if spell(it)]


def encoded():
    """Each place of the package that may encode a performative and is not one of those above."""
    for file in sorted(PACKAGE.glob("*.py")):
        tree, module = ast.parse(file.read_text()), file.stem
        looks = [
            (imported(tree, ("values", "writing"), ("write", "_write")), WRITES, "writes values"),
            (imported(tree, ("writers",), ("written", "Writer")), ("performatives",), "has the writers write"),
            (called(tree, "described"), DESCRIBES, "makes a list of a performative"),
            (spelled(tree), SPELLS, "spells the descriptor of a performative"),
        ]
        found = [(line, what) for lines, may, what in looks for line in lines if module not in may]
        yield from (f"{file.relative_to(ROOT)}:{line}: {what}" for line, what in found)


def main():
    told = [*fields(), *encoded()]
    print("\n".join([*told, f"{0 if told else 1} passed, {len(told)} failed"]))
    sys.exit(bool(told))


if __name__ == "__main__":
    command(main, __doc__)
