#!/usr/bin/env python3
"""Keeps docs/WRONG_BODIES.md: for each function, or law, the edits that make it wrong, which the prover has to refuse.

    tools/gate/wrong_bodies.py            says where docs/WRONG_BODIES.md differs from what the edits say; status 1 if it does
    tools/gate/wrong_bodies.py --write    writes the page

The edits of src/MODULE.rt stand in crates/NAME/mutants/MODULE.edits. An edit's line 'function:' names what it makes wrong, by its path in that
crate, and the page has a line for each function that is named so. An edit in a folder of no library, one without that line, and one whose
function that source does not have, stands in no line: it is named, nothing is written, and the status is 1. So is a public function whose code has edits, none of them with the line 'gate: yes'. Below the
lines of a crate stand its public functions that no edit names; those of traits are not among them.
"""

import difflib
import re
import sys
import textwrap
from pathlib import Path

sys.path.insert(0, str(Path(__file__).resolve().parents[1]))

from api import methods
from gate.edits import FOLDER, edits_of
from reference.source import Crate, dependencies, libraries
from shared.command import command

ROOT = Path(__file__).resolve().parents[2]
PAGE = ROOT / "docs" / "WRONG_BODIES.md"
# The library for C, on which no other crate stands.
STATIC = "amqp1"
HEAD = """# Wrong bodies that the prover has to refuse

Written by `tools/gate/wrong_bodies.py --write` from the line `function:` of each edit: do not write here by hand.

An edit puts a wrong body in the place of a function's, and its name says what is wrong with it. Those of `src/MODULE.rt` stand in
`crates/NAME/mutants/MODULE.edits`. `tools/gate/refused_together.py NAME/EDIT` tries one: it passes where a goal of that very function cannot be
proved. The gate tries those that have a line `gate: yes`: one of each function that users can call and whose code has edits, and in C some of what the
calls stand on. All others have a star here: `tools/gate/refused_together.py all` tries them too.

Most laws have no code to change: an edit of one changes its statement, or a definition, whose file then stands after the edit's name, and shows
nothing of the code. What the contracts say is in [CLAIMS.md](CLAIMS.md).

`raw_box` has none: the proofs of its two functions are written by hand along the steps of their bodies, and refuse every other body, a right one too.

Below a table stand the crate's public functions that no edit names, those of traits left out. They are proved as all others are; many of
them only call functions that an edit names.
"""


def told(edit):
    """An edit's name, whether the gate leaves it out, and the definitions that it changes, if any."""
    specs = sorted({path.removesuffix(".antt") for path, _, _ in edit.pairs if not path.startswith("src/")})
    return f"`{edit.name}`" + ("" if edit.is_of_gate else "*") + (f" ({', '.join(f'`{it}`' for it in specs)})" if specs else "")


def home(edit):
    """The folder's name of the crate that an edit stands in, and the module whose file it stands in."""
    _, name, _, *module = edit.file.relative_to(ROOT).with_suffix("").parts
    return name, () if module == ["lib"] else tuple(module)


def public(crate):
    """The paths of a crate's public functions, as an edit names them: a method's type stands after the module that has the type."""
    for item in crate.public.values():
        found = [(item.name,)] if item.kind == "fn" else []
        found += [(item.name, it.name) for it in methods(crate, item)] if item.kind != "trait" else []
        yield from ("::".join([*item.file.module, *names]) for names in found)


def by_function(edits):
    """The edits by the function that they make wrong, in order."""
    found = {}
    for edit in sorted(edits, key=lambda it: (it.function, it.name)):
        found.setdefault(edit.function, []).append(edit)
    return found


def section(crate, edits):
    """The lines of a crate."""
    of = by_function(edits)
    count = f"{len(edits)} edits of {len(of)} functions; the gate tries {sum(it.is_of_gate for it in edits)}."
    lines = ["", f"## `{crate.name}`", "", count, "", "| Function or law | Edits |", "|---|---|"]
    lines += [f"| `{function}` | {', '.join(map(told, them))} |" for function, them in of.items()]
    lacking = sorted({*public(crate)} - {*of})
    said = f"Named by none: {', '.join(f'`{it}`' for it in lacking)}."
    return lines + (["", *textwrap.wrap(said, 140, break_long_words=False)] if lacking else [])


def without_line(edits, crates):
    """Why edits stand in no line, a text each."""
    for edit in edits:
        crate, module = home(edit)
        name = re.escape(edit.function.split("::")[-1])
        source = crates[crate].files.get(module) if crate in crates else None
        place = f"{edit.file.relative_to(ROOT)}: {edit.name}"
        if crate not in crates:
            yield f"{place}: its crate is no library of crates.txt"
        elif not edit.function:
            yield f"{place}: it has no line 'function:'"
        elif not source or not re.search(rf"\bfn {name}\b", source.code):
            yield f"{place}: the source of that module has no function {edit.function}"


def left_out(edits, crate):
    """The public functions whose code has edits of which the gate tries none, a text each."""
    of = by_function([it for it in edits if not it.is_alone()])
    return [f"{crate.name}: the gate tries no edit of {it}" for it in public(crate) if it in of and not any(edit.is_of_gate for edit in of[it])]


def main():
    is_write = sys.argv[1:] == ["--write"]
    if sys.argv[1:] and not is_write:
        sys.exit(__doc__.strip())
    edits = [edit for folder in sorted(ROOT.glob(f"crates/*/{FOLDER}")) for edit in edits_of(folder.parent)]
    crates = {**libraries(ROOT), STATIC: Crate(ROOT / "crates" / STATIC, dependencies(ROOT)[STATIC])}
    of = {name: [it for it in edits if home(it)[0] == name] for name in crates}
    lost = [*without_line(edits, crates), *(text for name, crate in crates.items() for text in left_out(of[name], crate))]
    if lost:
        sys.exit("\n".join(lost))
    lines = HEAD.splitlines()
    for name, crate in crates.items():
        lines += section(crate, of[name]) if of[name] else []
    before = PAGE.read_text(encoding="utf8").splitlines() if PAGE.exists() else []
    if is_write:
        PAGE.write_text("\n".join(lines) + "\n", encoding="utf8")
    else:
        print("".join(f"{it}\n" for it in difflib.unified_diff(before, lines, "stored", "wanted", lineterm="", n=0)), end="")
    print(f"{len(edits)} edits of {len({(home(it)[0], it.function) for it in edits})} functions")
    sys.exit(0 if is_write or before == lines else 1)


if __name__ == "__main__":
    command(main, __doc__)
