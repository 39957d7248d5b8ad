"""What `api.py --check` looks at of C, Python and Rust: comments, man pages, and texts that want to be markup."""

import re
import shutil
import subprocess
import tempfile
from pathlib import Path

from reference.entry import all_of, lacking
from reference.manual import faults
from reference.tried import tried


def check_bindings(bindings):
    """How many tests there are, and how many fail; what fails is told."""
    parts = [*bindings.header, *bindings.package.parts(), *bindings.wrapper]
    tests = len(parts) + sum(not it.is_part for it in all_of(parts))
    wrong = [*lacking(parts), *bindings.unread()]
    manual = bindings.man_pages()
    bad = {name: told for name, told in wrong_pages(manual).items() if told}
    found = [*tried()]
    failed = [f"{name}: it is not so" for name, is_so in found if not is_so]
    print("".join(f"{it}\n" for it in [*wrong, *(f"{name}: {it}" for name, told in bad.items() for it in told), *failed]), end="")
    return tests + len(manual) + len(found), len(wrong) + len(bad) + len(failed)


def wrong_pages(manual):
    """Of each man page what is wrong with it, by itself, and by groff where that is here."""
    found = {name: [*faults(text)] for name, text in manual.items()}
    if shutil.which("groff"):
        with tempfile.TemporaryDirectory() as folder:
            for name, text in manual.items():
                Path(folder, name).write_text(text, encoding="utf-8")
            words = ["groff", "-man", "-Tutf8", "-ww", "-z", *manual]
            ran = subprocess.run(words, cwd=folder, capture_output=True, text=True, errors="replace", timeout=120)
        for it in filter(None, ran.stderr.splitlines()):
            name = next((name for name in manual if it.removeprefix("troff: ").startswith(f"{name}:") or f":{name}:" in it or f" {name}:" in it), None)
            found[name or next(iter(manual))].append(re.sub(r"^.*?:(?=\d+:)", "", it))
    return found
