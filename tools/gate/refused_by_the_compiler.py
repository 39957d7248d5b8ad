#!/usr/bin/env python3
"""Tries the edits crates/NAME/must-not-compile/*.edit: the compiler has to refuse each, with the error that it names.

    tools/gate/refused_by_the_compiler.py

The gate's must-fail edits are for the prover, and have to pass the compiler. These are misuses that the borrow checker
refuses before anything is proved. An edit has the lines of a must-fail edit, and first the error. Each is tried on a copy
of its crate and of those that it stands on; that the crate as it is passes is what the gate shows.
"""

import shutil
import subprocess
import sys
import tempfile
from pathlib import Path

sys.path.insert(0, str(Path(__file__).resolve().parents[1]))

from shared.command import command

ROOT = Path(__file__).resolve().parents[2]


def parts(edit):
    return dict(line.split(": ", 1) for line in edit.read_text().splitlines())


def needed(name, lines):
    """This crate and those of the repository that it stands on, by the lines of crates.txt."""
    return {name}.union(*(needed(it, lines) for it in lines[name].split() if it in lines))


def said(crate, file, text):
    """What a check says of a copy of the crate with this text in the file."""
    lines = dict(line.split(":", 1) for line in (ROOT / "crates.txt").read_text().splitlines() if ":" in line and not line.startswith("#"))
    with tempfile.TemporaryDirectory() as room:
        names = sorted(needed(crate.name, lines))
        for name in names:
            shutil.copytree(ROOT / "crates" / name, Path(room) / "crates" / name, ignore=shutil.ignore_patterns("out", "mutants", "must-not-compile"))
        (Path(room) / "crates.txt").write_text("".join(f"{name}:{lines[name]}\n" for name in names))
        copy = Path(room) / "crates" / crate.name
        (copy / file).write_text(text)
        ran = subprocess.run(["rt", "check"], cwd=copy, stdout=subprocess.PIPE, stderr=subprocess.STDOUT, text=True)
        return ran.stdout


def is_refused(edit):
    of = parts(edit)
    crate = edit.parent.parent
    text = (crate / of["file"]).read_text()
    assert text.count(of["old"]) == 1, edit
    line = next((line for line in said(crate, of["file"], text.replace(of["old"], of["new"])).splitlines() if "error[" in line), "no error")
    print(f"{crate.name}/{edit.name}: {line}")
    return f"error[{of['error']}]" in line


def main():
    edits = sorted(ROOT.glob("crates/*/must-not-compile/*.edit"))
    refused = sum(is_refused(edit) for edit in edits)
    print(f"{refused} refused, {len(edits) - refused} not refused as they must be")
    sys.exit(refused != len(edits))


if __name__ == "__main__":
    command(main, __doc__)
