#!/usr/bin/env python3
"""Packs `amqp_engine`, by the standard library alone: as a wheel, and as an sdist. The same files give the same bytes,
where zlib is the same.

    packing.py OUT LIBRARY      a wheel with this library in it, and an sdist, which has none; tools/build_wheel.sh
                                calls it

It is what pip calls too (PEP 517, `pyproject.toml`), here and in an sdist: a wheel that pip makes has no library, and
is for any platform. The platform of a wheel with a library is what `readelf` says of that: the oldest C library of GNU
that has each symbol which it asks for.
"""

import base64
import hashlib
import io
import os
import re
import subprocess
import sys
import tarfile
import zipfile
from email.message import Message
from gzip import GzipFile
from pathlib import Path

HERE = Path(__file__).resolve().parent
NAME, LIBRARY = "amqp_engine", "libamqp1.so.1"
VERSION = re.search('^__version__ = "(.+)"$', (HERE / NAME / "__init__.py").read_text(), re.MULTILINE)[1]
INFO = f"{NAME}-{VERSION}.dist-info"
LICENCES = ("LICENSE-APACHE", "LICENSE-MIT", "NOTICE")
FIELDS = [
    ("Metadata-Version", "2.1"),
    ("Name", NAME),
    ("Version", VERSION),
    ("Summary", "AMQP 1.0 by a proved engine: frames, connection and sessions"),
    ("Keywords", "amqp,amqp1,messaging,asyncio,sans-io"),
    ("Author", "Jovameliss and the authors of this repository"),
    ("License", "MIT OR Apache-2.0"),
    ("Classifier", "Development Status :: 3 - Alpha"),
    ("Classifier", "Framework :: AsyncIO"),
    ("Classifier", "Intended Audience :: Developers"),
    ("Classifier", "License :: OSI Approved :: Apache Software License"),
    ("Classifier", "License :: OSI Approved :: MIT License"),
    ("Classifier", "Operating System :: POSIX :: Linux"),
    ("Classifier", "Programming Language :: Python :: 3 :: Only"),
    ("Classifier", "Topic :: System :: Networking"),
    ("Classifier", "Typing :: Typed"),
    ("Requires-Python", ">=3.9"),
    ("Description-Content-Type", "text/markdown; charset=UTF-8"),
]


# ---- what pip calls


def build_wheel(wheel_directory, config_settings=None, metadata_directory=None):
    """A wheel without the library."""
    return wheel(wheel_directory, package(), ["any"])


def build_editable(wheel_directory, config_settings=None, metadata_directory=None):
    """A wheel that leads to this folder."""
    return wheel(wheel_directory, {f"{NAME}.pth": f"{HERE}\n".encode()}, ["any"])


def build_sdist(sdist_directory, config_settings=None):
    """The sources, with what packs them."""
    files = {**package(), **licences(), "PKG-INFO": metadata()}
    files.update((name, (HERE / name).read_bytes()) for name in ("README.md", "packing.py", "pyproject.toml"))
    top, data = f"{NAME}-{VERSION}", io.BytesIO()
    with GzipFile("", "wb", 9, data, mtime=0) as packed, tarfile.open(
        fileobj=packed, mode="w", format=tarfile.USTAR_FORMAT
    ) as tar:
        for name, content in sorted(files.items()):
            entry = tarfile.TarInfo(f"{top}/{name}")
            entry.size, entry.mtime = len(content), 315532800
            tar.addfile(entry, io.BytesIO(content))
    return written(sdist_directory, f"{top}.tar.gz", data)


# ---- the parts


def package():
    """The files of the package, without a library that somebody put there."""
    found = [*(HERE / NAME).rglob("*.py"), HERE / NAME / "py.typed"]
    return {it.relative_to(HERE).as_posix(): it.read_bytes() for it in found}


def licences():
    """They stand at the top of the repository, and in an sdist beside this file."""
    return {
        name: next(it for it in (HERE / name, HERE.parents[1] / name) if it.exists()).read_bytes() for name in LICENCES
    }


def metadata():
    of = Message()
    for name, value in FIELDS:
        of[name] = value
    return of.as_bytes() + (HERE / "README.md").read_bytes()


def wheel(folder, files, platforms):
    """A wheel of these files, for these platforms."""
    tags = [f"py3-none-{it}" for it in platforms]
    pure = str(platforms == ["any"]).lower()
    about = [
        "Wheel-Version: 1.0",
        f"Generator: {NAME} packing",
        f"Root-Is-Purelib: {pure}",
        *(f"Tag: {it}" for it in tags),
    ]
    files = {**files, **{f"{INFO}/licenses/{name}": content for name, content in licences().items()}}
    files.update({f"{INFO}/METADATA": metadata(), f"{INFO}/WHEEL": ("\n".join(about) + "\n").encode()})
    rows = "".join(f"{name},{summed(content)},{len(content)}\n" for name, content in sorted(files.items()))
    # what tells of the wheel comes last, and of that RECORD
    ordered = sorted(files.items(), key=lambda it: (it[0].startswith(INFO), it[0]))
    data = io.BytesIO()
    with zipfile.ZipFile(data, "w", zipfile.ZIP_DEFLATED) as packed:
        for name, content in [*ordered, (f"{INFO}/RECORD", f"{rows}{INFO}/RECORD,,\n")]:
            entry = zipfile.ZipInfo(name)
            entry.create_system, entry.external_attr = 3, (0o100755 if name.endswith(LIBRARY) else 0o100644) << 16
            packed.writestr(entry, content, zipfile.ZIP_DEFLATED, 9)
    return written(folder, f"{NAME}-{VERSION}-py3-none-{'.'.join(platforms)}.whl", data)


def summed(content):
    return "sha256=" + base64.urlsafe_b64encode(hashlib.sha256(content).digest()).decode().rstrip("=")


def written(folder, name, data):
    (Path(folder) / name).write_bytes(data.getvalue())
    return name


def platforms_of(library):
    """The platforms that have what a library asks for. Ends the program where none is known for it."""
    in_english = {**os.environ, "LC_ALL": "C"}
    said = subprocess.run(
        ["readelf", "-WhldV", library], check=True, stdout=subprocess.PIPE, env=in_english
    ).stdout.decode()
    needed = re.findall(r"\(NEEDED\).*\[(.*)\]", said)
    versions = re.findall(r"Name: (\S+)", said)
    known = [re.fullmatch(r"GLIBC_2\.(\d+)(?:\.\d+)?", it) for it in versions]
    if "X86-64" not in said or needed != ["libc.so.6"] or not all(known) or re.search(r"GNU_STACK.*RWE", said):
        sys.exit(
            f"packing: {library} is no library for x86-64 that asks for the C library of GNU alone: {needed} {versions}"
        )
    least = max([5, *(int(it[1]) for it in known)])
    # the older name of 2.17, for a pip that does not know names by number
    return [f"manylinux_2_{least}_x86_64"] + ["manylinux2014_x86_64"] * (least <= 17)


def main():
    if len(sys.argv) != 3:
        sys.exit(__doc__.strip())
    _, out, library = sys.argv
    print(wheel(out, {**package(), f"{NAME}/{LIBRARY}": Path(library).read_bytes()}, platforms_of(library)))
    print(build_sdist(out))


if __name__ == "__main__":
    main()
