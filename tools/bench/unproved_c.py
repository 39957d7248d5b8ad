#!/usr/bin/env python3
"""Puts the library for C together without a proof, in minutes, for counts and for what is tried with real peers.

    tools/bench/unproved_c.py ARCHIVE
    tools/build_c.sh PREFIX --from ARCHIVE

`rt try` compiles programs alone. So a copy of crates/amqp1 gets a `main` that names each export and calls none; of that
tools/bench/unproved.py has the module, and clang -O3 compiles it with the exports for its only names. ARCHIVE is no
library to ship: nothing in it was proved.
"""

import re
import shutil
import subprocess
import sys
import tempfile
from pathlib import Path

sys.path.insert(0, str(Path(__file__).resolve().parents[1]))

from bench import hints, unproved
from gate import toolchain
from shared.command import command

ROOT = Path(__file__).resolve().parents[2]
EXPORT = re.compile(r'^pub extern "C" fn (\w+)\((.*?)\)(?: -> \w+)?$', re.M | re.S)
DEFINED = re.compile(r'^define internal (.*)@"amqp1::\w+::(amqp1_\w+)"\(', re.M)
MAIN = "\nfn main(rt: HostRuntime) -> Result<(), std::alloc::AllocError> {{\n{calls}    Ok(())\n}}\n"


def argument(at, kind):
    """The lines before a call that has an argument of this type in this place, and the argument. What is borrowed would
    be the first of none, so the call is never made."""
    if kind == "Global":
        return "", "", "alloc"
    if kind == "&mut Place":
        return "    let mut place = Place::empty(alloc);\n", "", "&mut place"
    borrowed = re.fullmatch(r"&(mut )?(\[)?(\w+)\]?", kind)
    if not borrowed:
        return "", "", "0"
    changes, is_slice, of = borrowed.groups()
    if changes:
        made, it = f"    let mut of{at}: Vec<{of}> = Vec::new(alloc);\n", f"of{at}.as_mut_slice()"
        taken = f"if let Some(it{at}) = {it}.get_mut(0) "
    else:
        made, it = f"    let of{at}: &[{of}] = &[];\n", f"of{at}"
        taken = f"if let Some(it{at}) = {it}.get(0) "
    return (made, "", it) if is_slice else (made, taken, f"it{at}")


def named(name, arguments):
    """A function that names an export: it calls it behind what is never so."""
    kinds = [it.split(":", 1)[1].strip() for it in arguments.split(",") if it.strip()]
    made, taken, words = zip(*(argument(at, kind) for at, kind in enumerate(kinds))) if kinds else ((), (), ())
    conditions = [it for it in taken if it]
    call = "".join(f"{it}{{ " for it in conditions) + f"{name}({', '.join(words)});" + " }" * len(conditions)
    return f"\nfn names_{name}(alloc: Global) {{\n{''.join(made)}    {call}\n}}\n"


def as_program(crate):
    """Makes the copy of the crate a program."""
    calls = ""
    for file in sorted((crate / "src").glob("*exports.rt")):
        exports = EXPORT.findall(file.read_text())
        inner = "".join(f"    names_{name}(alloc);\n" for name, _ in exports)
        file.write_text(
            file.read_text() + "".join(named(*it) for it in exports)
            + f"\npub(crate) fn names_all(alloc: Global) {{\n{inner}}}\n"
        )
        calls += f"    {file.stem}::names_all(rt.alloc());\n"
    main = (crate / "src" / "lib.rt").rename(crate / "src" / "main.rt")
    main.write_text(main.read_text() + MAIN.format(calls=calls))


def copied(folder):
    """The crates in a folder, where that of the library is a program."""
    shutil.copytree(ROOT / "crates", folder / "crates", ignore=shutil.ignore_patterns("out", "mutants"))
    crates = (ROOT / "crates.txt").read_text()
    (folder / "crates.txt").write_text(crates.replace("amqp1 staticlib:", "amqp1:"))
    shutil.copyfile(ROOT / "HANDLES", folder / "HANDLES")
    crate = folder / "crates" / "amqp1"
    as_program(crate)
    return crate


def exported(text):
    """The module with the exports for its names, and how many there are."""
    text, count = DEFINED.subn(r"define \1@\2(", text)
    text = re.sub(r'@"amqp1::\w+::(amqp1_\w+)"\(', r"@\1(", text)
    return re.sub(r"^define i32 @main\(", "define internal i32 @main_(", text, flags=re.M), count


def archived(rt, text, room, out):
    kit, at, made = Path(rt.KIT), room / "exported.ll", room / "amqp1.o"
    at.write_text(text, encoding="utf-8", errors="surrogateescape")
    clang = [kit / "toolchain/bin/clang", f"--target={unproved.TARGET}", f"--sysroot={kit / 'toolchain'}"]
    flags = ["-march=x86-64-v2", *unproved.FLAGS, "-fPIC", "-O3"]
    subprocess.run([*clang, *flags, "-c", "-x", "ir", at, "-o", made], check=True)
    Path(out).unlink(missing_ok=True)
    subprocess.run(["ar", "rcs", out, made], check=True)


def main():
    (out,) = sys.argv[1:] if len(sys.argv) == 2 else sys.exit(__doc__.strip())
    rt = toolchain.rt()
    with tempfile.TemporaryDirectory(prefix="unproved-") as folder:
        room = Path(folder)
        crate = copied(room)
        (found,) = [it for it in rt.rtlib.crates_below(str(crate)) if Path(it.folder) == crate]
        known = hints.Hints([crate.parent, Path(rt.KIT) / "rattle"])
        text, _ = unproved.as_proved(unproved.module(rt, found, room), known)
        text, count = exported(text)
        archived(rt, text, room, out)
    print(f"{count} exports, unproved")


if __name__ == "__main__":
    command(main, __doc__)
