"""What a recorded frame holds, and its performative in canonical spelling, for expected_exchange.py and client.py."""

import json
from pathlib import Path

from amqp.canonical import boolean, composite, string, symbol, tag, ubyte, uint, ulong, ushort
from amqp.decoder import number, parts, value
from amqp.streams import HEADER
from amqp.tables import TABLES

CAPTURES = Path(__file__).resolve().parents[2] / "captures"

OPEN, BEGIN, ATTACH, FLOW, TRANSFER, DISPOSITION, DETACH, END, CLOSE = range(0x10, 0x19)

# "number" is an uint but for these
USHORTS, ULONGS = ("channel_max", "remote_channel"), ("max_message_size",)


class Frame:
    """A recorded frame: who sent it (A the client, B the server), its bytes, and its fields as another decoder read them."""

    def __init__(self, text, line):
        self.side, self.bytes, said = text[0], bytes.fromhex(text[2:]), json.loads(line)
        self.channel, self.code = number(self.bytes, 2, 2)[0], said["code"]
        self.payload = self.bytes[len(self.bytes) - said["payload"]:]
        if self.code is not None:
            names = [name for name, _, _ in TABLES[self.code][1]]
            fields = said["fields"] + [None] * (len(names) - len(said["fields"]))
            self.fields = dict(zip(names, fields))

    def body(self):
        return self.bytes[4:].hex()

    def __getitem__(self, name):
        return self.fields[name]

    def canonical(self):
        """The performative as a writer of the canonical spelling gives it."""
        return composite(self.code, self.spelled())

    def spelled(self):
        """The fields in canonical spelling; raw values and maps as they were recorded."""
        _, _, at = value(self.bytes, 5)
        found, _ = parts(self.bytes, at + 1, self.bytes[at])
        spelled = [self.bytes[start:end] for start, _, end in found]
        table = TABLES[self.code][1]
        spelled += [b"\x40"] * (len(table) - len(spelled))
        return [spell(name, kind, need, self[name], bytes_) for (name, kind, need), bytes_ in zip(table, spelled)]


def spell(name, kind, need, said, recorded):
    """A field; one that is its default is null."""
    if said is None or said == need:
        return b"\x40"
    if kind == "number":
        return ushort(said) if name in USHORTS else ulong(said) if name in ULONGS else uint(said)
    if kind in ("raw", "map"):
        return recorded
    assert kind != "error", "an error has a spelling of its own"
    return {"string": string, "handle": uint, "role": boolean, "flag": boolean, "sender": ubyte, "receiver": ubyte, "tag": tag,
            "symbols": symbols, "symbol": lambda it: symbol(it["sym"])}[kind](said)


def symbols(said):
    """One symbol or an array of symbols, as an array."""
    items = [symbol(it["sym"])[1:] for it in (said["items"] if "items" in said else [said])]
    data = b"".join([b"\xa3", *items])
    return bytes([0xE0, len(data) + 1, len(items)]) + data


def is_of_amqp(line):
    """Whether a line of a recording is a frame of AMQP: a recording from the first byte on has protocol headers and frames of SASL too."""
    of = bytes.fromhex(line[2:])
    return not of.startswith(HEADER) and of[1:2] != b"\1"


def lines_of(path):
    """The lines of a recording that are frames of AMQP; line n of its other file says what the n-th of them holds."""
    return [line for line in path.read_text().splitlines() if is_of_amqp(line)]


def recording(name):
    lines = CAPTURES.joinpath(name + ".fields.jsonl").read_text().splitlines()
    return [Frame(text, line) for text, line in zip(lines_of(CAPTURES / f"{name}.txt"), lines)]
