#!/usr/bin/env python3
"""Opens libamqp1.so as a program in another language does, and calls functions of its headers: an engine is made, its Open goes out, and a frame
comes.

    tools/try_c/amqp1_library.py LIBRARY

Also what the library exports: the functions of the headers and the exports, and nothing else. The last line is 'N passed, M failed'.
"""

import ctypes
import re
import subprocess
import sys
from pathlib import Path

HEADERS = Path(__file__).resolve().parents[2] / "include" / "amqp1"
# Those of the headers that have functions
NAMES = "asking attach deliveries exports links read sessions start states trace write".split()
HEADER = b"AMQP\0\1\0\0"
SENT = bytes.fromhex("0000001b02000000005310c00e04a1026d654070000100006000ff")
OPENED = bytes.fromhex("0000001a02000000005310c00d03a10470656572407000000400")


class Place(ctypes.Structure):
    _fields_ = [("full", ctypes.c_uint32), ("at", ctypes.c_void_p)]


class Took(ctypes.Structure):
    _fields_ = [(name, ctypes.c_size_t) for name in ("taken", "written", "wanted")]


def declared():
    """The names of the functions that the headers have, and of the exports that they declare."""
    text = "".join((HEADERS / f"{name}.h").read_text() for name in NAMES)
    inline = re.findall(r"^AMQP1_FUNCTION [^(]*?(\w+)\(", text, re.M)
    return {*inline, *re.findall(r"^(?:int32_t|uint32_t|void) (amqp1_\w+)\(", text, re.M)}


def exported(library):
    said = subprocess.run(["nm", "-D", "--defined-only", library], stdout=subprocess.PIPE, text=True, check=True).stdout
    return {line.split()[-1].split("@")[0] for line in said.splitlines()}


def tests(path):
    library, place, took = ctypes.CDLL(path), Place(), Took()
    text, records, count = ctypes.create_string_buffer(256), ctypes.create_string_buffer(96 * 2), ctypes.c_size_t()
    library.amqp1_status_name.restype = ctypes.c_char_p
    yield "exports", exported(path) == declared()
    status = library.amqp1_write_open(text, ctypes.c_size_t(256), ctypes.byref(count), b"me", None, 65536, 255, 0)
    yield "write", status == 0 and count.value == 25
    yield "start", library.amqp1_start(ctypes.byref(place), bytes(range(16)), text, count) == 0 and place.full == 1
    yield "open", library.amqp1_open(ctypes.byref(place)) == 0
    status = library.amqp1_output(ctypes.byref(place), text, ctypes.c_size_t(256), ctypes.byref(count))
    yield "output", status == 0 and text.raw[: count.value] == HEADER
    for what, came, wanted, kind in (("header", HEADER, 10, 14), ("take", OPENED, 0, 1)):
        given = ctypes.c_uint64(0), came, ctypes.c_size_t(len(came)), records, ctypes.c_size_t(2), ctypes.byref(took)
        status = library.amqp1_take(ctypes.byref(place), *given)
        yield what, status == wanted and took.taken == len(came) and took.written == 1 and records.raw[0] == kind
    status = library.amqp1_output(ctypes.byref(place), text, ctypes.c_size_t(256), ctypes.byref(count))
    yield "frames", status == 0 and text.raw[: count.value] == SENT
    yield "name", library.amqp1_status_name(8) == b"BAD_SIZE"
    library.amqp1_free(ctypes.byref(place))
    yield "free", place.full == 0


def main():
    found = [*tests(sys.argv[1])]
    wrong = [what for what, holds in found if not holds]
    if wrong:
        print("wrong: " + ", ".join(wrong))
    print(f"{len(found) - len(wrong)} passed, {len(wrong)} failed")
    sys.exit(bool(wrong))


if __name__ == "__main__":
    main()
