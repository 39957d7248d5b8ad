"""The canonical spelling of fields and performatives (AMQP 1.0 part 1, section 1.6), as the tools write it."""


def uint(value):
    if value is None:
        return b"\x40"
    if value == 0:
        return b"\x43"
    return bytes([0x52, value]) if value < 256 else b"\x70" + value.to_bytes(4, "big")


def boolean(value):
    return b"\x40" if value is None else (b"\x41" if value else b"\x42")


def tag(said):
    if said is None:
        return b"\x40"
    of = bytes.fromhex(said["bin"])
    assert len(of) < 256
    return bytes([0xA0, len(of)]) + of


def composite(code, fields):
    fields = list(fields)
    while fields and fields[-1] == b"\x40":
        fields.pop()
    if not fields:
        return bytes([0x00, 0x53, code, 0x45])
    data = b"".join(fields)
    if len(data) < 255:
        return bytes([0x00, 0x53, code, 0xC0, len(data) + 1, len(fields)]) + data
    return bytes([0x00, 0x53, code, 0xD0]) + (len(data) + 4).to_bytes(4, "big") + len(fields).to_bytes(4, "big") + data


def ulong(value):
    if value is None:
        return b"\x40"
    if value == 0:
        return b"\x44"
    return bytes([0x53, value]) if value < 256 else b"\x80" + value.to_bytes(8, "big")


def ubyte(value):
    return b"\x40" if value is None else bytes([0x50, value])


def ushort(value):
    return b"\x40" if value is None else b"\x60" + value.to_bytes(2, "big")


def symbol(text):
    of = text.encode("ascii")
    assert len(of) < 256
    return bytes([0xA3, len(of)]) + of


def string(value):
    of = value.encode()
    return (bytes([0xA1, len(of)]) if len(of) < 256 else b"\xb1" + len(of).to_bytes(4, "big")) + of
