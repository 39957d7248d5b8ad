#!/usr/bin/env python3
"""Runs `rt ci`, and keeps the static library that it proves.

    tools/gate/rt_ci.py

A program `rt ci` proves once, and compiles what that check admitted. Of a static library it throws the check away, so that a second proof would
be needed to build the archive. Here the check of one is kept as that of a program is: `rattle check -o`, then `rattle build --crate-checked`,
which compares the sources with those that were checked and stops where they differ. The archive is crates/NAME/out/NAME.a. All else is `rt ci`
as it is, and the check of the static library has the words that it has there.
"""

import os
import subprocess
import sys
import tempfile
from pathlib import Path

sys.path.insert(0, str(Path(__file__).resolve().parents[1]))

from gate import toolchain
from shared.command import command

ROOT = Path(__file__).resolve().parents[2]
# What a build over a checked crate takes no word of, each with its value.
OF_A_CHECK = ["--logic-built", "--jobs"]


def archive(crate):
    return f"out/{crate.name}.a"


def compiled(rt, crate, words, checked):
    """Compiles a static library that was checked, and returns the status."""
    for flag in OF_A_CHECK:
        at = words.index(flag)
        words = [*words[:at], *words[at + 2 :]]
    words = [*words, "--crate-checked", checked, "--toolchain", f"{rt.KIT}/toolchain", "--backend", "llvm", "-o", archive(crate)]
    how = {"cwd": crate.folder, "stdin": subprocess.DEVNULL, "stdout": subprocess.PIPE, "stderr": subprocess.STDOUT, "errors": "replace"}
    ran = subprocess.run([*rt.rtlib.guarded(), rt.rtlib.RATTLE, "build", *words], **how)
    if ran.returncode:
        print(ran.stdout, end="", file=crate.out)
    return ran.returncode


def keeps_archives(rt):
    """Has the crates of `rt ci` keep the archive of a static library, also among what earlier runs passed."""
    ci, made, is_whole = rt.Crate.ci, rt.Kept.made, rt.Kept.is_whole

    def proved(crate, flags, tests):
        if tests or not crate.is_static:
            return ci(crate, flags, tests)
        words = crate.words(flags, keeps=False)
        with tempfile.TemporaryDirectory(prefix=f"rt-proved-{os.getpid()}-") as room:
            status = crate.prove(["check", *words, "-o", f"{room}/checked"])
            return status or compiled(rt, crate, words, f"{room}/checked")

    def files(kept, crate, tests):
        if tests or not crate.is_static:
            return made(kept, crate, tests)
        return [os.path.basename(archive(crate))] * os.path.isfile(f"{crate.folder}/{archive(crate)}")

    def has_all(kept, crate, tests, found):
        return len(found) == 1 if crate.is_static and not tests else is_whole(kept, crate, tests, found)

    rt.Crate.ci, rt.Kept.made, rt.Kept.is_whole = proved, files, has_all


def main():
    rt = toolchain.rt()
    keeps_archives(rt)
    os.chdir(ROOT)
    sys.exit(rt.main(["ci"]))


if __name__ == "__main__":
    command(main, __doc__)
