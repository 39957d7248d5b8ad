#!/usr/bin/env python3
"""Tries what tools/build_wheel.sh makes: what is in the wheel and the sdist, and the package as they install it; and the package's types.

    tools/try_c/try_c_wheel.py PREFIX

PREFIX is what tools/build_c.sh made. The wheel is installed into fresh virtual environments, without a network, of each minor version of
Python from 3.9 on that is found: on the path, and below PYENV_ROOT. There the lines of README.md run without AMQP_LIBRARY. What is not tried for want
of a program is named, a line each. The last line is 'N passed, M failed'.
"""

import base64
import csv
import hashlib
import os
import re
import shutil
import subprocess
import sys
import tarfile
import tempfile
import zipfile
from email import message_from_bytes
from pathlib import Path

sys.path.insert(0, str(Path(__file__).resolve().parents[1]))

from shared.command import command

ROOT = Path(__file__).resolve().parents[2]
PACKAGE = ROOT / "bindings" / "python" / "amqp_engine"
LIBRARY = "amqp_engine/libamqp1.so.1"
LICENCES = ("LICENSE-APACHE", "LICENSE-MIT", "NOTICE")
# What says where a package or a library is; no try is to be led by it
LEADING = ("AMQP_LIBRARY", "LD_LIBRARY_PATH", "PYTHONPATH", "PYTHONHOME", "MYPYPATH")
ENVIRONMENT = {name: value for name, value in os.environ.items() if name not in LEADING}
# Prints where the package is, and which libraries of this name the process has
WHERE = """import amqp_engine.library
amqp_engine.library.load()
print(amqp_engine.__file__, *sorted({it.split(maxsplit=5)[5].strip() for it in open('/proc/self/maps') if 'libamqp1' in it}), sep="\\n")"""
TESTS = []


def test(function):
    TESTS.append(function)
    return function


def ran(*words, **named):
    """What a program prints. Fails with all that it said where its status is not 0."""
    named.setdefault("env", ENVIRONMENT)
    done = subprocess.run(list(map(str, words)), stdout=subprocess.PIPE, stderr=subprocess.STDOUT, text=True, timeout=180, **named)
    assert done.returncode == 0, f"{' '.join(map(str, words))[:200]}: status {done.returncode}: {done.stdout[-2000:]}"
    return done.stdout


def said(page, before, after):
    """The lines of Python of a page, and what it says that they print."""
    found = re.search(f"{before}\n(.*?){after}\n\n```text\n(.*?)```", (ROOT / page).read_text(), re.DOTALL)
    assert found, f"{page} has no lines of Python"
    return found.groups()


def pages():
    return [said("README.md", "python3 -c '", "'\n```"), said("bindings/python/README.md", "```python", "```")]


class Built:
    """A wheel and an sdist, in a folder."""

    def __init__(self, folder, prefix, **environment):
        ran(ROOT / "tools" / "build_wheel.sh", folder, "--from", prefix, cwd=folder.parent, env={**ENVIRONMENT, **environment})
        (self.wheel,), (self.sdist,) = folder.glob("*.whl"), folder.glob("*.tar.gz")
        with zipfile.ZipFile(self.wheel) as packed:
            self.files = {it.filename: packed.read(it) for it in packed.infolist()}
        with tarfile.open(self.sdist) as packed:
            self.sources = {it.name.split("/", 1)[1]: packed.extractfile(it).read() for it in packed}
        self.info = next(name.split("/")[0] for name in self.files if name.endswith(".dist-info/WHEEL"))


class Tried:
    """What the tests look at: the library, two builds, and an interpreter's environment with the wheel, for each interpreter."""

    def __init__(self, folder, prefix):
        self.folder, self.library = folder, (prefix / "lib" / "libamqp1.so").resolve()
        for name in ("first", "second"):
            (folder / name).mkdir()
        self.built = Built(folder / "first", prefix)
        self.again = Built(folder / "second", prefix, TZ="Asia/Tokyo", LC_ALL="C", PYTHONHASHSEED="7")
        self.pythons = one_of_each_minor()
        self.places = [self.place(path, version) for version, path in self.pythons]

    def place(self, path, version):
        """A fresh environment with the wheel: its interpreter."""
        print(f"with Python {version}")
        python = self.environment(path, f"of {version}")
        ran(python, "-m", "pip", "install", "-q", "--no-index", "--no-deps", self.built.wheel)
        return python

    def environment(self, path, name):
        ran(path, "-m", "venv", self.folder / name)
        return self.folder / name / "bin" / "python"


def one_of_each_minor():
    """An interpreter of each minor version from 3.9 on, by their versions: those that can make a virtual environment with pip."""
    pyenv = Path(os.environ.get("PYENV_ROOT") or Path.home() / ".pyenv")
    paths = [*filter(None, (shutil.which(f"python3.{minor}") for minor in range(9, 40))), *sorted(pyenv.glob("versions/*/bin/python3")), sys.executable]
    found = {}
    for path in paths:
        asked = [path, "-c", "import ensurepip, sys, venv; print(*sys.version_info[:3])"]
        done = subprocess.run(asked, stdout=subprocess.PIPE, stderr=subprocess.DEVNULL, env=ENVIRONMENT)
        version = tuple(map(int, done.stdout.split())) if done.returncode == 0 else (0,)
        if version >= (3, 9):
            found.setdefault(version[:2], (version, path))
    if not found:
        print("not tried, since no Python has venv and ensurepip (Debian's python3-venv): the wheel, installed")
    return [(".".join(map(str, version)), path) for version, path in sorted(found.values())]


def has(program, what):
    if shutil.which(program):
        return True
    print(f"not tried, since there is no {program}: {what}")
    return False


# ---- what is in them


@test
def they_have_the_same_bytes_when_they_are_built_again(tried):
    for one, other in ((tried.built.wheel, tried.again.wheel), (tried.built.sdist, tried.again.sdist)):
        assert one.name == other.name and one.read_bytes() == other.read_bytes(), one.name


@test
def the_platform_is_the_oldest_that_has_the_symbols_of_the_library(tried):
    symbols = ran("objdump", "-T", tried.library)
    wanted = max(int(it) for it in re.findall(r"\(?GLIBC_2\.(\d+)", symbols))
    platforms = tried.built.wheel.stem.split("-")[-1].split(".")
    assert platforms[0] == f"manylinux_2_{max(wanted, 5)}_x86_64", (platforms, wanted)
    assert platforms[1:] == (["manylinux2014_x86_64"] if wanted <= 17 else []), platforms
    told = message_from_bytes(tried.built.files[f"{tried.built.info}/WHEEL"])
    assert told.get_all("Tag") == [f"py3-none-{it}" for it in platforms] and told["Root-Is-Purelib"] == "false", told.as_string()


@test
def the_wheel_has_the_package_and_the_library_and_nothing_else(tried):
    package = {f"amqp_engine/{it.relative_to(PACKAGE)}": it.read_bytes() for it in [*PACKAGE.rglob("*.py"), PACKAGE / "py.typed"]}
    wanted = {**package, LIBRARY: tried.library.read_bytes()}
    assert {name: of for name, of in tried.built.files.items() if not name.startswith(tried.built.info)} == wanted
    assert {name: of for name, of in tried.built.sources.items() if name.startswith("amqp_engine/")} == package


@test
def the_licences_are_in_both(tried):
    for name in LICENCES:
        text = (ROOT / name).read_bytes()
        assert tried.built.files[f"{tried.built.info}/licenses/{name}"] == text and tried.built.sources[name] == text, name


@test
def the_record_has_the_sum_of_each_file(tried):
    record = f"{tried.built.info}/RECORD"
    rows = {name: (summed, size) for name, summed, size in csv.reader(tried.built.files[record].decode().splitlines())}
    sums = {name: base64.urlsafe_b64encode(hashlib.sha256(of).digest()).decode().rstrip("=") for name, of in tried.built.files.items()}
    wanted = {name: (f"sha256={sums[name]}", str(len(of))) for name, of in tried.built.files.items()}
    assert rows == {**wanted, record: ("", "")}


@test
def the_metadata_tell_of_it(tried):
    data = tried.built.files[f"{tried.built.info}/METADATA"]
    of = message_from_bytes(data)
    version = re.search('__version__ = "(.*)"', (PACKAGE / "__init__.py").read_text())[1]
    told = (of["Name"], of["Version"], of["Requires-Python"], of["License"], of["Description-Content-Type"].split(";")[0])
    assert told == ("amqp_engine", version, ">=3.9", "MIT OR Apache-2.0", "text/markdown"), told
    assert of["Summary"] and {"Typing :: Typed", "Operating System :: POSIX :: Linux"} <= set(of.get_all("Classifier"))
    assert of.get_payload() == (PACKAGE.parent / "README.md").read_text() and tried.built.sources["PKG-INFO"] == data
    assert f'#define AMQP1_VERSION "{version}"' in (ROOT / "include" / "amqp1.h").read_text()
    assert "**The sdist has no library**" in of.get_payload()


@test
def twine_takes_both(tried):
    if has("twine", "twine check of both"):
        ran("twine", "check", "--strict", tried.built.wheel, tried.built.sdist)


# ---- as they are installed


@test
def the_lines_of_the_pages_print_what_they_say(tried):
    for python in tried.places:
        for lines, wanted in pages():
            found = ran(python, "-c", lines, cwd=tried.folder)
            assert found == wanted, (python, found)


@test
def the_library_is_that_of_the_wheel_or_the_one_that_is_named(tried):
    for python in tried.places:
        file, *found = ran(python, "-c", WHERE, cwd=tried.folder).splitlines()
        assert Path(file).is_relative_to(python.parents[1]) and found == [str(Path(file).parent / "libamqp1.so.1")], (file, found)
        named = ran(python, "-c", WHERE, cwd=tried.folder, env={**ENVIRONMENT, "AMQP_LIBRARY": str(tried.library)})
        assert named.splitlines() == [file, str(tried.library)], named


@test
def the_sdist_installs_and_says_that_it_has_no_library(tried):
    lines, wanted = pages()[0]
    for version, path in tried.pythons[-1:]:
        python = tried.environment(path, f"sdist of {version}")
        ran(python, "-m", "pip", "install", "-q", "--no-index", "--no-deps", tried.built.sdist)
        alone = subprocess.run([python, "-c", lines], stderr=subprocess.PIPE, text=True, env=ENVIRONMENT, cwd=tried.folder)
        assert alone.returncode and "AMQP_LIBRARY may name the file libamqp1.so.1" in alone.stderr, alone.stderr
        assert ran(python, "-c", lines, cwd=tried.folder, env={**ENVIRONMENT, "AMQP_LIBRARY": str(tried.library)}) == wanted


# ---- types


@test
def mypy_finds_nothing(tried):
    if has("mypy", "mypy --strict of the package, and of a program over the wheel"):
        ran("mypy", "--strict", "--cache-dir", tried.folder / "mypy", PACKAGE, cwd=tried.folder)
        user = tried.folder / "user"
        with zipfile.ZipFile(tried.built.wheel) as packed:
            packed.extractall(user)
        (user / "program.py").write_text(pages()[1][0])
        ran("mypy", "--strict", "--cache-dir", tried.folder / "mypy", "program.py", cwd=user)


@test
def ruff_or_flake8_finds_nothing(tried):
    if shutil.which("ruff"):
        ran("ruff", "check", "--no-cache", PACKAGE)
    elif has("flake8", "the rules of ruff or flake8, and there is no ruff"):
        # what ruff looks at where nobody says more
        ran("flake8", "--isolated", "--select=E4,E7,E9,F", PACKAGE)


def main():
    if len(sys.argv) != 2:
        sys.exit(__doc__.strip())
    failed = 0
    with tempfile.TemporaryDirectory() as folder:
        tried = Tried(Path(folder).resolve(), Path(sys.argv[1]).resolve())
        for it in TESTS:
            try:
                it(tried)
            except Exception as error:
                failed += 1
                print(f"FAILED: {it.__name__}: {type(error).__name__}: {error}"[:3000])
    print(f"{len(TESTS) - failed} passed, {failed} failed")
    sys.exit(failed > 0)


if __name__ == "__main__":
    command(main, __doc__)
