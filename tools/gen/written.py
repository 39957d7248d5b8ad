"""Lines of rows_codec that begin by `=`, for expected_spellings.py and expected_by_hand.py: a frame, and what it is written as."""

from amqp.canonical import composite
from amqp.decoder import parts, value
from amqp.frames import SYMBOLS
from amqp.recorded import spell
from amqp.tables import ERROR, TABLES
from gen.shown import shown

HEADER = "02000000"


def dense(digits):
    return digits.replace(" ", "")


class Lines:
    """The lines of the input, and those of the output."""

    def __init__(self, given, wanted):
        self.given, self.wanted = given, wanted

    def add(self, line, answer):
        self.given.append(line)
        self.wanted.append(answer)

    def written(self, spelled, text, header=HEADER, payload="", rest=""):
        """The performative is written as this text; after it stand a transfer's payload, or bytes that are left."""
        spelled, text = dense(spelled), dense(text)
        told = f"{text}+{payload}{rest} {shown(bytes.fromhex(text))}"
        self.add(f"={header}{spelled}{payload}{rest}", f"{header}{text}{payload}+{rest} {told}")

    def refused(self, spelled):
        """Neither is a performative read from these bytes, nor a frame."""
        self.add(f"={HEADER}{dense(spelled)}", "malformed malformed")

    def empty(self):
        """The empty frame, which has no performative."""
        self.add(f"={HEADER}", f"{HEADER}+ malformed")


def respelled(code, table, spelled):
    """The composite of which these bytes are the list, in canonical spelling."""
    found, _ = parts(spelled, 1, spelled[0])
    fields = []
    for (name, kind, need), (start, said, end) in zip(table, found):
        if kind == "error" and said is not None:
            fields.append(respelled(0x1D, ERROR[1], spelled[value(spelled, start + 1)[2] : end]))
        else:
            fields.append(spell(name, kind, need, said, spelled[start:end]))
    return composite(code, fields)


def canonical(digits):
    """The performative in canonical spelling, by decoder.py and canonical.py."""
    text = bytes.fromhex(dense(digits))
    _, said, at = value(text, 1)
    code = said if isinstance(said, int) else SYMBOLS[said["sym"]]
    return respelled(code, TABLES[code][1], text[at:]).hex()
