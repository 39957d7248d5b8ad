"""Frames by hand, for expected_frames.py: what each is written as, what its fields are, and what is left after its performative."""

from amqp.canonical import composite
from amqp.decoder import value
from gen.row import begin, closing, detach, end, opening
from gen.shown import shown
from gen.written import HEADER, Lines, canonical, dense

# Frames that other implementations sent, one of each performative, and how many bytes follow the performative.
SENT = [
    ("02000000005310c0460aa10d7079616d71702d636c69656e74a1093132372e302e302e317000000400600009700000753040404040c11804a30770726f64756374a10763617074757265a3016e5405", 0),
    ("02000001005311c01e08405207520c5214526340e00701b30000000178c10802a3027370a10176", 0),
    ("02000000005312c0300ea10052044250025000005328c00c0b4043404342404040404040005329c00907a10043404342404040404344404040", 0),
    ("02000002005313c0160b43700000ffff5201700000ffff4343520343424040", 0),
    ("02000001005314c0160b520143a00800000000000000014342424040424242005370c006054240404140005373c01006a10265304040a1036b2e31a1017244005377d10000000900000002a101695500", 49),
    ("02000001005315c014065601520852085600005323c004024353055601", 0),
    ("02000001005316c02d035201560100531dc02303a317616d71703a6c696e6b3a6465746163682d666f72636564a106656e6f75676840", 0),
    ("02000002005317c0250100531dc01f03a313616d71703a696e7465726e616c2d6572726f7240c10602a301785401", 0),
    ("02000000005318c0250100531dc01f03a316616d71703a636f6e6e656374696f6e3a666f72636564a10362796540", 0),
]

# Frames by hand: a Close, an Open, two Begins, a Transfer with a payload of one byte, two Flows, a Detach with an error, and a Close by
# its name.
OTHERS = [
    ("0200000000531845", 0),
    ("02000000005310c00d04a101614070000400006000ff", 0),
    ("02000000005311c00d04404370000013887000001388", 0),
    ("02000005005311c009046000004352015208", 0),
    ("02000000005314c006034343a0010aff", 1),
    ("02000005005313c0080452015201435208", 0),
    ("02000005005313c00a05520152024352085209", 0),
    ("02000000005316c01a0352014100531dc01101a30e616d71703a6e6f742d666f756e64", 0),
    ("0200000000a30f616d71703a636c6f73653a6c69737445", 0),
]

# Performatives that other implementations sent: Open, Begin, Attach, Flow, Transfer, Disposition, Detach, End, Close. The Open stands
# here a second time, with a list of four-byte size and count.
PERFORMATIVES = [
    "005310c0460aa10d7079616d71702d636c69656e74a1093132372e302e302e317000000400600009700000753040404040c11804a30770726f64756374a10763617074757265a3016e5405",
    "005310d0000000490000000aa10d7079616d71702d636c69656e74a1093132372e302e302e317000000400600009700000753040404040c11804a30770726f64756374a10763617074757265a3016e5405",
    "005311c01e08405207520c5214526340e00701b30000000178c10802a3027370a10176",
    "005312d0000001270000000ea10670792d736e645201560050005000005328c0560ba11273656e6465722d6c696e6b2d70792d736e645201a3056e65766572520a4040404040e02e02b300000012616d71703a61636365707465643a6c69737400000012616d71703a72656a65637465643a6c69737440005329c01707a10271314040404040e00b01b3000000057175657565c17208a0057461672d3140a0057461672d3200532445a0057461672d33005323c00c02520180000000000000012ca0200000000000000000000000000000000000000000000000000000000000000000005325c01f0100531dc01902a313616d71703a696e7465726e616c2d6572726f72a10164560170fffffff08000000000000186a040e00801b3000000026431c10b02a305636f6d3a78a10179",
    "005313c01b0b520352095210520b520170fffffff97000002710520540560140",
    "005314c0150b52015207a004fffffff143560056004040404040",
    "005315c014065601520452045600005323c004024353055601",
    "005316c02d035201560100531dc02303a317616d71703a6c696e6b3a6465746163682d666f72636564a106656e6f75676840",
    "005317c0250100531dc01f03a313616d71703a696e7465726e616c2d6572726f7240c10602a301785401",
    "005318c0250100531dc01f03a316616d71703a636f6e6e656374696f6e3a666f72636564a10362796540",
]

# Whole frames: the header, and the text (AMQP 1.0 part 2, section 2.7).
WHOLE = [
    (HEADER, closing()),
    (HEADER, opening("a", 262144, 255)),
    (HEADER, begin()),
    ("02000102", begin()),
    (HEADER, detach(1, True, "amqp:not-found")),
    ("0200ffff", detach(1, True, "amqp:not-found")),
    ("02000001", "005312 c00d0a a1016c 43 42 4040404040 40 43"),
    ("02000001", "005313 c0110a 40 5201 5202 700000012c 4040404040 41"),
    ("02000001", "005315 c00504 41 43 40 41"),
    ("02000001", end()),
]

# Fields and their defaults, as they are shown.
FIELDS = [
    ("005310 c00401 a10161",
        r'Open(Open { container_id: "a", hostname: None, max_frame_size: 4294967295, channel_max: 65535, idle_time_out: None, outgoing_locales: None, incoming_locales: None, offered_capabilities: None, desired_capabilities: None, properties: None })'),
    ("005311 c00704 600001 43 43 43",
        r'Begin(Begin { remote_channel: Some(1), next_outgoing_id: 0, incoming_window: 0, outgoing_window: 0, handle_max: Handle(4294967295), offered_capabilities: None, desired_capabilities: None, properties: None })'),
    ("005311 c00b06 40 43 5201 5208 40 a30178",
        r'Begin(Begin { remote_channel: None, next_outgoing_id: 0, incoming_window: 1, outgoing_window: 8, handle_max: Handle(4294967295), offered_capabilities: Some([Symbol("x")]), desired_capabilities: None, properties: None })'),
    ("005311 c00b06 40 43 5201 5208 40 e00100",
        r'Begin(Begin { remote_channel: None, next_outgoing_id: 0, incoming_window: 1, outgoing_window: 8, handle_max: Handle(4294967295), offered_capabilities: Some([]), desired_capabilities: None, properties: None })'),
    ("005312 c01f0e a10161 5203 41 5000 5001 45 00532845 c10100 41 43 44 a30178 e00100 c10100",
        r'Attach(Attach { name: "a", handle: Handle(3), role: Receiver, snd_settle_mode: Unsettled, rcv_settle_mode: Second, source: Some(Raw { bytes: b"E" }), target: Some(Raw { bytes: b"\0S(E" }), unsettled: Some(Fields { raw: Raw { bytes: b"\xc1\x01\0" } }), incomplete_unsettled: true, initial_delivery_count: Some(0), max_message_size: Some(0), offered_capabilities: Some([Symbol("x")]), desired_capabilities: Some([]), properties: Some(Fields { raw: Raw { bytes: b"\xc1\x01\0" } }) })'),
    ("005312 c00603 a10161 43 42",
        r'Attach(Attach { name: "a", handle: Handle(0), role: Sender, snd_settle_mode: Mixed, rcv_settle_mode: First, source: None, target: None, unsettled: None, incomplete_unsettled: false, initial_delivery_count: None, max_message_size: None, offered_capabilities: None, desired_capabilities: None, properties: None })'),
]

# Two of each kind, in their canonical texts, no two the same.
TWO_OF_EACH = [
    "005310c00401a10161",
    "005310c00401a10162",
    "005311c0050440434343",
    "005311c00704600001434343",
    "005312c00603a101614341",
    "005312c00603a101614342",
    "005313c0050440434343",
    "005313c006044043435207",
    "005314c0020143",
    "005314c006034340a00107",
    "005315c003024143",
    "005315c0050441434041",
    "005316c0020143",
    "005316c003024341",
    "00531745",
    "005317c00a0100531dc00401a30178",
    "00531845",
    "005318c00a0100531dc00401a30179",
]


def said(frame):
    """The line of a frame that is not empty: its channel, its performative, and how many bytes follow that."""
    _, _, at = value(frame, 5)
    _, _, end = value(frame, at)
    return f"{int.from_bytes(frame[2:4], 'big')} {shown(bytes.fromhex(canonical(frame[4:end].hex())))} {len(frame) - end}"


def fronts(lines, digits, after):
    """Each front of the frame, and of it with a byte after it, that holds the performative; and that it ends where it is said to."""
    frame = bytes.fromhex(digits + "40")
    for length in range(len(frame) - 1 - after, len(frame) + 1):
        front = frame[:length]
        answer = said(front)
        assert answer.endswith(f" {length - len(frame) + 1 + after}")
        lines.add(front.hex(), answer)


def nested(depth):
    """A list of this depth."""
    return "45" if depth == 1 else composite(0, [bytes.fromhex(nested(depth - 1))])[3:].hex()


def state(depth):
    """A Disposition whose state is a list of this depth, with sizes and counts of four bytes outside."""
    data = bytes.fromhex("41434040" + nested(depth))
    return "005315d0" + (len(data) + 4).to_bytes(4, "big").hex() + "00000005" + data.hex()


def write(given, wanted):
    """The lines of the input, and of the output."""
    lines = Lines(given, wanted)
    lines.empty()
    lines.add(HEADER, "0 empty")
    for header, text in WHOLE:
        lines.written(text, text, header)
        lines.add(header + dense(text), said(bytes.fromhex(header + dense(text))))
    # an Open in another spelling; a Close on channel 7, with three bytes after it; a Transfer with a payload of three
    lines.written("005310 d0 00000013 00000004 b100000001 61 40 7000040000 6000ff", opening("a", 262144, 255))
    lines.written(closing(), closing(), "02000007", rest="010203")
    lines.add("02000007" + closing() + "010203", said(bytes.fromhex("02000007" + closing() + "010203")))
    lines.written("005314 c00b05 43 43 a00400000001 43 42", "005314 c00b05 43 43 a00400000001 43 42", payload="090807")
    for digits, after in SENT + OTHERS:
        fronts(lines, digits, after)
    for text in PERFORMATIVES:
        after = "payload" if text.startswith("005314") else "rest"
        lines.written(text, canonical(text), **{after: "40"})
    for depth in (1, 63, 64):
        lines.written(state(depth), canonical(state(depth)))
    for depth in (65, 80):
        lines.refused(state(depth))
    for text, fields in FIELDS:
        assert shown(bytes.fromhex(canonical(text))) == fields, text
        lines.add(HEADER + dense(text), f"0 {fields} 0")
        lines.written(text, canonical(text))
    for n, text in enumerate(TWO_OF_EACH):
        lines.written(text, text)
        lines.add("?" + " ".join([text] + TWO_OF_EACH), "".join("=" if n == k else "-" for k in range(len(TWO_OF_EACH))))
