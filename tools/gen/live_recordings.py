#!/usr/bin/python3
"""Writes recordings from the first byte on into captures, of the bytes that try_brokers.sh left, with what qpid-proton's decoder says of each frame of AMQP.

    tools/gen/live_recordings.py FOLDER NAME..    writes captures/NAME.txt and captures/NAME.fields.jsonl, of FOLDER/NAME
    tools/gen/live_recordings.py --check          says which stored captures/*.fields.jsonl this decoder would write otherwise

A line of FOLDER/NAME is a read or a write of the program in C: `A HEX` of the client, `B HEX` of the server. Each protocol header, and each frame
of SASL and of AMQP, gets its line of the recording once its last byte has come. It wants Debian's python3-qpid-proton, for the python3 of Debian.
"""

import json
import sys
from pathlib import Path

sys.path.insert(0, str(Path(__file__).resolve().parents[1]))

from amqp.recorded import CAPTURES, is_of_amqp
from amqp.streams import HEADER

try:
    from proton import Data
except ImportError:
    sys.exit("live_recordings: install Debian's python3-qpid-proton, and run this by /usr/bin/python3")

NAMES = dict(zip(range(0x10, 0x19), "open begin attach flow transfer disposition detach end close".split()))
PLAIN = {
    Data.NULL: ("null", lambda data: None),
    Data.BOOL: ("bool", Data.get_bool),
    Data.UBYTE: ("ubyte", lambda data: int(data.get_ubyte())),
    Data.USHORT: ("ushort", lambda data: int(data.get_ushort())),
    Data.UINT: ("uint", lambda data: int(data.get_uint())),
    Data.ULONG: ("ulong", lambda data: int(data.get_ulong())),
    Data.BYTE: ("byte", lambda data: int(data.get_byte())),
    Data.SHORT: ("short", lambda data: int(data.get_short())),
    Data.INT: ("int", lambda data: int(data.get_int())),
    Data.LONG: ("long", lambda data: int(data.get_long())),
    Data.FLOAT: ("float", lambda data: float(data.get_float())),
    Data.DOUBLE: ("double", lambda data: float(data.get_double())),
    Data.TIMESTAMP: ("timestamp", lambda data: {"ts": int(data.get_timestamp())}),
    Data.UUID: ("uuid", lambda data: {"uuid": str(data.get_uuid())}),
    Data.BINARY: ("binary", lambda data: {"bin": bytes(data.get_binary()).hex()}),
    Data.STRING: ("string", Data.get_string),
    Data.SYMBOL: ("symbol", lambda data: {"sym": str(data.get_symbol())}),
    Data.DESCRIBED: ("described", lambda data: described(data)),
    Data.ARRAY: ("array", lambda data: array(data)),
    Data.LIST: ("list", lambda data: [value(data) for _ in inside(data)]),
    Data.MAP: ("map", lambda data: {"map": pairs(data)}),
}


def inside(data):
    """Goes through what a value holds."""
    data.enter()
    while data.next() is not None:
        yield data.type()
    data.exit()


def value(data):
    return PLAIN[data.type()][1](data)


def described(data):
    descriptor, it = [value(data) for _ in inside(data)]
    return {"desc": descriptor, "val": it}


def array(data):
    _, _, kind = data.get_array()
    return {"arr": PLAIN[kind][0], "items": [value(data) for _ in inside(data)]}


def pairs(data):
    items = [value(data) for _ in inside(data)]
    return [list(it) for it in zip(items[::2], items[1::2])]


def said_of(number, side, of):
    """What the decoder says of a frame of AMQP, as a line of the recording's other file."""
    said = {"n": number, "dir": side, "ch": int.from_bytes(of[2:4], "big"), "code": None, "name": "empty", "payload": 0, "fields": None, "types": None}
    if len(of) > 4:
        data = Data()
        said["payload"] = len(of) - 4 - data.decode(of[4:])
        data.rewind()
        data.next()
        data.enter()
        data.next()
        said["code"] = value(data)
        data.next()
        said["types"] = [PLAIN[kind][0] for kind in inside(data)]
        said["fields"] = value(data)
        said["name"] = NAMES[said["code"]]
    return json.dumps(said, sort_keys=True, separators=(",", ":"))


def said_of_all(lines):
    frames = [line.split(" ") for line in lines if is_of_amqp(line)]
    return [said_of(number, side, bytes.fromhex(of)) for number, (side, of) in enumerate(frames, 1)]


def units(lines):
    """The headers and frames of a connection, in the order of their last bytes."""
    left = {"A": b"", "B": b""}
    for line in lines:
        side, data = line.split(" ")
        left[side] += bytes.fromhex(data)
        while len(of := left[side]) >= 8:
            size = 8 if of.startswith(HEADER) else int.from_bytes(of[:4], "big")
            if len(of) < size:
                break
            yield f"{side} {of[0 if of.startswith(HEADER) else 4 : size].hex()}"
            left[side] = of[size:]
    assert not any(left.values()), "a side ends within a frame"


def check():
    for path in sorted(CAPTURES.glob("*.fields.jsonl")):
        name = path.name.split(".")[0]
        wanted, written = path.read_text().splitlines(), said_of_all(CAPTURES.joinpath(f"{name}.txt").read_text().splitlines())
        for number, (one, other) in enumerate(zip(wanted, written), 1):
            if json.loads(one) != json.loads(other) or one != other:
                print(f"{name}, line {number}:\n{one}\n{other}")
        print(f"{name}: {len(wanted)} lines, {len(written)} written")


def main():
    if sys.argv[1:] == ["--check"]:
        return check()
    if len(sys.argv) < 3:
        sys.exit(__doc__.strip())
    for name in sys.argv[2:]:
        lines = [*units(Path(sys.argv[1], name).read_text().splitlines())]
        CAPTURES.joinpath(f"{name}.txt").write_text("".join(line + "\n" for line in lines))
        CAPTURES.joinpath(f"{name}.fields.jsonl").write_text("".join(line + "\n" for line in said_of_all(lines)))
        print(f"{name}: {len(lines)} headers and frames")


if __name__ == "__main__":
    main()
