#!/usr/bin/env python3
"""The toolchain: the one that is wanted, the one that is found, and its command rt as a module.

    tools/gate/toolchain.py

The file TOOLCHAIN at the top names the kit, and the sum of its logic, which decides what is proved. This prints both, then what `rt version`
says, and, where they differ, what to do. It ends with 1 only where there is no rt: another kit may prove all of it too, and the gate goes on.
"""

import importlib.machinery
import importlib.util
import inspect
import re
import shutil
import subprocess
import sys
from operator import attrgetter
from pathlib import Path

sys.path.insert(0, str(Path(__file__).resolve().parents[1]))

from shared.command import command

ROOT = Path(__file__).resolve().parents[2]
# What is used of rt and rtlib, and of each crate that rtlib finds. 'rt help' promises none of it.
USED = ["Crate.ci", "Crate.cuts_libraries", "KIT", "Kept.is_whole", "Kept.made", "checked", "main", "processors"]
USED += [f"rtlib.{it}" for it in ("Crate", "PARTS", "RATTLE", "crates_below", "files_of", "guarded")]
OF_A_CRATE = ["below", "folder", "is_built", "is_static", "name", "prove", "rlib", "words"]
CHECKED_TAKES = ["crate", "texts", "flags", "kept"]


def wanted():
    """The two fields of the file TOOLCHAIN."""
    fields = dict(line.split() for line in (ROOT / "TOOLCHAIN").read_text().splitlines() if not line.startswith("#"))
    return fields["kit"], fields["logic"]


def found():
    """What `rt version` says, and of it the same two fields, where it tells them."""
    if not shutil.which("rt"):
        sys.exit(f"toolchain: no rt on the path. Install {wanted()[0]}: nothing of the gate runs without it")
    said = subprocess.run(["rt", "version"], stdin=subprocess.DEVNULL, stdout=subprocess.PIPE, text=True).stdout.strip()
    fields = re.match(r"(\S+) logic ([0-9a-f]+)\b", said)
    return said or "nothing", fields.groups() if fields else (said, "")


def advice(want, have):
    """What to do where these differ."""
    if want[1] != have[1]:
        return (
            f"ANOTHER LOGIC than these proofs were made with. Either install {want[0]}, or go on and expect to prove every crate anew: what\n"
            "passes is proved by the logic that was found, and what does not pass may be for a lemma that changed, and not for the code"
        )
    return "another kit of the same logic: go on. Counts of instructions (docs/SPEED.md) may differ" if want[0] != have[0] else None


def rt():
    """The toolchain's rt as a module: how it finds the crates, and checks one with an edit."""
    sys.dont_write_bytecode = True
    file = shutil.which("rt") or without(["rt"])
    loader = importlib.machinery.SourceFileLoader("rt", str(Path(file).resolve()))
    made = importlib.util.module_from_spec(importlib.util.spec_from_loader("rt", loader))
    try:
        loader.exec_module(made)
    except Exception as error:
        without([f"a module of Python ({error!r})"])
    without([it for it in USED if not has(made, it)])
    made.rtlib.Crate = made.Crate
    crates = made.rtlib.crates_below(str(ROOT))
    without([f"a crate's {it}" for it in OF_A_CRATE if not all(has(crate, it) for crate in crates)])
    without([] if [*inspect.signature(made.checked).parameters] == CHECKED_TAKES else [f"checked({', '.join(CHECKED_TAKES)})"])
    made.Crate.cuts_libraries = True
    made.rtlib.guarded()
    return made


def has(value, path):
    """Whether a value has what the path names."""
    try:
        attrgetter(path)(value)
    except AttributeError:
        return False
    return True


def without(lacking):
    """Ends the program where the rt that is found lacks some of what is used."""
    if lacking:
        kit, logic = wanted()
        sys.exit(
            f"toolchain: the rt at hand lacks {', '.join(lacking)}.\n"
            "This tool checks crates by parts of rt that no page of the kit promises, so each kit may change them. "
            f"Install {kit} (logic {logic}), or mend rt() in tools/gate/toolchain.py, and what is used of it, for the kit at hand."
        )


def main():
    want = wanted()
    print(f"toolchain: wanted {' logic '.join(want)}, by the file TOOLCHAIN", flush=True)
    said, have = found()
    print(f"toolchain: found  {said}", flush=True)
    told = advice(want, have)
    if told:
        print(f"toolchain: {told}", flush=True)
    if not shutil.which("gcc"):
        print("toolchain: no gcc: the gate's last part installs Debian's gcc and libc6-dev, as root, and elsewhere fails", flush=True)


if __name__ == "__main__":
    command(main, __doc__)
