"""Frames of which a byte is another one, or the end is cut off, for expected_frames.py: each is read, or refused by name.

The frames are those of the worked transcripts below, some more by hand, and of each kind the first fifty recorded ones that differ. Each byte in turn becomes
00, ff and its complement, and each proper front stands alone. What is answered is that of a strict reader of its own (strict.py).
"""

from amqp.canonical import symbol
from amqp.strict import frame
from gen.row import begin, closing, detach, flow, opening, transfer

# the letters that the program prints
LETTERS = {"Open": "O", "Begin": "B", "Attach": "A", "Flow": "F", "Transfer": "T", "Disposition": "D", "Detach": "X", "End": "N",
           "Close": "C", "Empty": "E", "DecodeError": "d", "NotImplemented": "n"}

# An Open, the empty frame, a Close; a Begin, two Flows and two Transfers; a Detach with an error, and a Close by its symbol.
WORKED = [header + body for header, body in [
    ("02000000", opening("a", 262144, 255)),
    ("02000000", ""),
    ("02000000", closing()),
    ("02000005", begin(0, 0, 1, 8)),
    ("02000000", transfer(0, "\x0a") + "ff"),
    ("02000005", flow(1, 1)),
    ("02000005", flow(1, 2, 0, 8, 9)),
    ("02000000", transfer(1, "\x0b") + "fe"),
    ("02000000", detach(1, True, "amqp:not-found")),
    ("02000000", "00" + symbol("amqp:close:list").hex() + "45"),
]]

# A Begin with windows of 5000; a Transfer with a payload and a Disposition that others sent; an Open and an Attach in lists of four-byte size
# and count, a Flow, a Transfer and a Disposition.
MORE = [
    "02000000" + begin(),
    "02000001005314c0160b520143a00800000000000000014342424040424242005370c006054240404140005373c01006a10265304040a1036b2e31a1017244005377d10000000900000002a101695500",
    "02000001005315c014065601520852085600005323c004024353055601",
    "02000000005310d0000000490000000aa10d7079616d71702d636c69656e74a1093132372e302e302e317000000400600009700000753040404040c11804a30770726f64756374a10763617074757265a3016e5405",
    "02000000005312d0000001270000000ea10670792d736e645201560050005000005328c0560ba11273656e6465722d6c696e6b2d70792d736e645201a3056e65766572520a4040404040e02e02b300000012616d71703a61636365707465643a6c69737400000012616d71703a72656a65637465643a6c69737440005329c01707a10271314040404040e00b01b3000000057175657565c17208a0057461672d3140a0057461672d3200532445a0057461672d33005323c00c02520180000000000000012ca0200000000000000000000000000000000000000000000000000000000000000000005325c01f0100531dc01902a313616d71703a696e7465726e616c2d6572726f72a10164560170fffffff08000000000000186a040e00801b3000000026431c10b02a305636f6d3a78a10179",
    "02000000005313c01b0b520352095210520b520170fffffff97000002710520540560140",
    "02000000005314c0150b52015207a004fffffff143560056004040404040",
    "02000000005315c014065601520452045600005323c004024353055601",
]
EACH = 50


def changed(of):
    """The frame with each byte changed three times, and its proper fronts."""
    for at, byte in enumerate(of):
        for other in (0x00, 0xFF, byte ^ 0xFF):
            yield of[:at] + bytes([other]) + of[at + 1 :]
    for length in range(len(of)):
        yield of[:length]


def chosen(recorded):
    """Of each kind the first fifty recorded frames that differ."""
    kept = {}
    for digits in recorded:
        of = kept.setdefault(frame(bytes.fromhex(digits)), {})
        if len(of) < EACH:
            of[digits] = None
    return [digits for of in kept.values() for digits in of]


def write(recorded, given, wanted):
    """The lines of the input, and of the output."""
    for digits in WORKED + MORE + chosen(recorded):
        given.append("~" + digits)
        wanted.append("".join(LETTERS[frame(it)] for it in changed(bytes.fromhex(digits))))
