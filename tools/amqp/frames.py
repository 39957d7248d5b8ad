"""Frames as bytes, for transcript.py: how a performative's list is split and spelled again (AMQP 1.0 part 1, section 1.6)."""

from amqp.canonical import composite

OPEN, BEGIN, ATTACH, FLOW, TRANSFER, DISPOSITION, DETACH, END, CLOSE = range(0x10, 0x19)
NAMES = dict(zip(range(0x10, 0x19), "Open Begin Attach Flow Transfer Disposition Detach End Close".split()))
SYMBOLS = {f"amqp:{name.lower()}:list": code for code, name in NAMES.items()}
NULL = b"\x40"


class Malformed(Exception):
    """The bytes are no frame of AMQP."""


def number(of, at, width):
    if at + width > len(of):
        raise Malformed
    return int.from_bytes(of[at : at + width], "big"), at + width


def end_of(of, at):
    """Where the value at `at` ends."""
    code, at = number(of, at, 1)
    if code == 0x00:
        return end_of(of, end_of(of, at))
    if 0x40 <= code < 0xA0:
        end = at + [0, 1, 2, 4, 8, 16][(code >> 4) - 4]
    elif code >= 0xA0:
        size, at = number(of, at, 4 if code & 0x10 else 1)
        end = at + size
    else:
        raise Malformed
    if end > len(of):
        raise Malformed
    return end


def parts(of, at):
    """The parts of the list at `at`, each as its bytes, and where the list ends."""
    code, after = number(of, at, 1)
    if code == 0x45:
        return [], after
    if code not in (0xC0, 0xD0):
        raise Malformed
    end, width = end_of(of, at), 1 if code == 0xC0 else 4
    count, after = number(of, after + width, width)
    found = []
    for _ in range(count):
        found.append(of[after : end_of(of, after)])
        after += len(found[-1])
    if after != end:
        raise Malformed
    return found, end


def integer(of):
    """The unsigned number, or `None` for null."""
    if of[0] in (0x43, 0x44):
        return 0
    return None if of[0] == 0x40 else int.from_bytes(of[1:], "big")


def flag(of):
    return of in (b"\x41", b"\x56\x01")


def text(of):
    """The string or symbol."""
    return of[5 if of[0] & 0x10 else 2 :].decode(errors="replace")


class Frame:
    """A frame: its channel, its code (`None` where it is empty), its fields, each as its bytes, and its payload."""

    def __init__(self, of):
        doff, at = number(of, 0, 1)
        kind, at = number(of, at, 1)
        self.channel, at = number(of, at, 2)
        if (doff, kind) != (2, 0):
            raise Malformed
        self.code, self.fields, self.payload = None, [], b""
        if at == len(of):
            return
        self.code, at = described(of, at)
        self.fields, at = parts(of, at)
        self.payload = of[at:]

    def __getitem__(self, at):
        return self.fields[at] if at < len(self.fields) else NULL

    def __setitem__(self, at, of):
        self.fields += [NULL] * (at + 1 - len(self.fields))
        self.fields[at] = of

    def body(self):
        return composite(self.code, self.fields) + self.payload

    def bytes(self):
        return b"\x02\x00" + self.channel.to_bytes(2, "big") + self.body()


def described(of, at):
    """The code of the performative's descriptor, and where its list begins."""
    if of[at] != 0x00:
        raise Malformed
    end = end_of(of, at + 1)
    descriptor = of[at + 1 : end]
    code = SYMBOLS.get(text(descriptor)) if descriptor[0] in (0xA3, 0xB3) else integer(descriptor)
    if code not in NAMES:
        raise Malformed
    return code, end

