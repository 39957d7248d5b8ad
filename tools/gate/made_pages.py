"""Recordings that no program would send, for try_page.py: with texts that want to be markup, a long one, and a login; and a long recording."""

from amqp.canonical import boolean, composite, string, symbol, tag, uint
from amqp.frames import ATTACH, CLOSE, END, FLOW, NULL, TRANSFER
from gate.made_connections import RECEIVER, SENDER, attach, begun, frame, opened

PASSWORD = "correct horse battery"
SYMBOL = 2**20
NAME = "<script>alert(1)</script>"
DESCRIPTION = "\"quoted\" 'too' --></script><!-- <img src=x onerror=\"document.title='run'\"> &lt;b&gt;"
HOSTILE = [NAME, DESCRIPTION, "\\u2028 and \\u2029", "__proto__"]
ODD = ["__proto__", "\u2028 and \u2029", "\u202e turned"]
HEADERS = {0: b"AMQP\0\1\0\0", 1: b"AMQP\3\1\0\0"}


def sasl(side, code, *fields, doff=2, kind=1):
    return side, bytes([doff, kind, 0, 0]) + bytes(4 * (doff - 2)) + composite(code, fields)


def binary(of):
    return b"\xa0" + bytes([len(of)]) + of


def login():
    """A login by PLAIN, and others that are malformed, or stand where none may."""
    plain = binary(b"\0user\0" + PASSWORD.encode())
    return [
        sasl("B", 0x40, symbol("PLAIN")),
        sasl("A", 0x41, symbol("PLAIN"), plain, string("localhost")),
        sasl("A", 0x41, symbol("PLAIN"), plain, doff=3),
        sasl("A", 0x41, symbol(PASSWORD), plain),
        sasl("A", 0x41, plain, symbol("PLAIN")),
        sasl("B", 0x42, plain),
        sasl("A", 0x43, plain),
        sasl("A", 0x63, plain),
        ("A", sasl("A", 0x41, symbol("PLAIN"), plain)[1][:-3]),
        ("A", b"\2\1\0\0" + PASSWORD.encode()),
        sasl("B", 0x44, b"\x50\0"),
    ]


def misplaced():
    """Logins in frames of AMQP, which cannot be read."""
    plain = binary(b"\0user\0" + PASSWORD.encode())
    named = b"\0\xa3\x13amqp:sasl-init:list\xc0" + bytes([len(plain) + 1, 1]) + plain
    return [sasl("A", 0x41, symbol("PLAIN"), plain, kind=0), ("A", b"\2\0\0\0" + named), ("A", b"\2\0\0\0" + PASSWORD.encode()), sasl("A", 0x41, plain, kind=7)]


def hostile():
    """Frames of both sides, a login first."""
    long = b"\xb3" + SYMBOL.to_bytes(4, "big") + b"s" * SYMBOL
    error = b"\0\x53\x1d" + listed(symbol("amqp:</script>"), string(DESCRIPTION))
    return [
        *login(),
        *opened(),
        *begun(0, 0),
        attach("A", 0, NAME, 0, SENDER),
        attach("B", 0, NAME, 0, RECEIVER),
        *(attach("A", 0, name, handle, SENDER) for handle, name in enumerate(ODD, 1)),
        frame("A", 0, ATTACH, string("long"), uint(9), SENDER, NULL, NULL, NULL, NULL, NULL, NULL, uint(0), NULL, long),
        frame("A", 0, TRANSFER, uint(0), uint(0), tag({"bin": "00"}), uint(0), boolean(True)),
        ("A", frame("A", 0, TRANSFER, uint(0), uint(1), tag({"bin": "00"}), uint(0), boolean(True))[1] + NAME.encode()),
        *misplaced(),
        frame("B", 0, END, error),
        frame("A", 0, FLOW, uint(0), uint(1), uint(0), uint(1), uint(77)),
        frame("B", 0, CLOSE, error),
    ]


def listed(*parts):
    inside = b"".join(parts)
    return b"\xd0" + (len(inside) + 4).to_bytes(4, "big") + len(parts).to_bytes(4, "big") + inside


def spelled(frames):
    """A recording as lines."""
    return [f"{side} {of.hex()}" for side, of in frames]


def followed_lines(frames):
    """A recording as tshark shows a followed stream: the login has its own header."""
    lines, before = ["Follow: tcp,raw"], {}
    for side, of in frames:
        kind = 1 if of[1] == 1 else 0
        header = HEADERS[kind] if before.get(side) != kind else b""
        before[side] = kind
        lines.append("\t" * (side == "B") + (header + (len(of) + 4).to_bytes(4, "big") + of).hex())
    return lines


def generated(count):
    """So many lawful frames: a link with many transfers, and the flows for them."""
    found = [*opened(), *begun(0, 0), attach("A", 0, "many", 0, SENDER), attach("B", 0, "many", 0, RECEIVER)]
    payload = bytes.fromhex("005375a040") + b"hello, world! " * 4 + b"and so on"
    number = 0
    while len(found) < count:
        if number % 50 == 49:
            found.append(frame("B", 0, FLOW, uint(number), uint(100), uint(0), uint(100)))
        side, of = frame("A", 0, TRANSFER, uint(0), uint(number), tag({"bin": f"{number:08x}"}), uint(0), boolean(True))
        found.append((side, of + payload))
        number += 1
    return found[:count]
