"""Connections that no recording shows, for refused_of_captures.py: frames of both sides, and what an engine refuses in either place."""

import random

from amqp.canonical import boolean, composite, string, symbol, tag, uint, ushort
from amqp.frames import ATTACH, BEGIN, CLOSE, DETACH, DISPOSITION, END, FLOW, NULL, OPEN, TRANSFER

ENDED, CLOSED = "RemoteEnded (the peer ended)", "RemoteClosed (the peer ended)"
FLEW = "(in flight after this side's Close)"
SENDER, RECEIVER = boolean(False), boolean(True)


def frame(side, channel, code, *fields):
    """A recorded frame, without its size."""
    return side, b"\x02\x00" + channel.to_bytes(2, "big") + composite(code, fields)


def opened():
    return [frame(side, 0, OPEN, string(side)) for side in "AB"]


def closed():
    return [frame(side, 0, CLOSE) for side in "AB"]


def begin(side, channel, answers=None):
    return frame(side, channel, BEGIN, ushort(answers), uint(0), uint(100), uint(100))


def begun(channel, of_peer):
    """A Begin of the client and its answer, on these channels."""
    return [begin("A", channel), begin("B", of_peer, channel)]


def ended(channel, of_peer):
    return [frame("A", channel, END), frame("B", of_peer, END)]


def attach(side, channel, name, handle, role):
    return frame(side, channel, ATTACH, string(name), uint(handle), role, NULL, NULL, NULL, NULL, NULL, NULL, uint(0) if role == SENDER else NULL)


def flow(side, channel, *link):
    return frame(side, channel, FLOW, uint(0), uint(100), uint(0), uint(100), *link)


def peer_ends(frames):
    """What the server's engine tells of a connection without a breach: each End of the client's, and its Close."""
    kinds = {END: f"End: {ENDED}", CLOSE: f"Close: {CLOSED}"}
    return [f"frame {at}, A, {kinds[of[6]]}" for at, (side, of) in enumerate(frames, 1) if side == "A" and of[6] in kinds]


def channel_again():
    """The first session has ended and begun again before the second one begins."""
    return [*opened(), *begun(0, 0), *ended(0, 0), *begun(0, 0), *begun(1, 1), *ended(1, 1), *ended(0, 0), *closed()]


def many_lives(seed):
    """Up to six sessions at a time begin and end; each side takes any channel of its own that is free."""
    draw, live, frames = random.Random(seed), {}, opened()
    for _ in range(60):
        free = sorted(set(range(6)) - set(live)), sorted(set(range(6)) - set(live.values()))
        if free[0] and draw.random() < 0.55:
            own, of_peer = map(draw.choice, free)
            live[own] = of_peer
            frames += begun(own, of_peer)
            frames += [attach("A", own, f"link {len(frames)}", 0, RECEIVER), flow("A", own), flow("B", of_peer)]
            frames += [attach("B", of_peer, f"link {len(frames) - 3}", 0, SENDER)]
        elif live:
            own = draw.choice(sorted(live))
            frames += ended(own, live.pop(own))
    return [*frames, *(it for pair in live.items() for it in ended(*pair)), *closed()]


def in_flight():
    """What the server had sent before it read the client's Close, and, after a `None`, what it could not have sent."""
    transfer = frame("B", 0, TRANSFER, uint(7), uint(0), tag({"bin": "00"}), uint(0), boolean(True))
    lawful = [
        begin("B", 1),
        attach("B", 1, "late", 0, RECEIVER),
        flow("B", 1, uint(0), uint(0), uint(9)),
        frame("B", 1, END),
        attach("B", 0, "later", 0, RECEIVER),
        flow("B", 0, uint(0), uint(0), uint(9)),
        frame("B", 0, DETACH, uint(0), boolean(True)),
    ]
    breaches = [flow("B", 0, uint(0), uint(0), uint(9)), transfer, begin("B", 0), frame("B", 3, END), frame("B", 0, END), frame("B", 0, END)]
    return [*opened(), *begun(0, 0), frame("A", 0, CLOSE), *lawful, *breaches, frame("B", 0, CLOSE), frame("B", 0, CLOSE)]


FLIGHT_A = [
    f"frame 6, B, Begin: IllegalState {FLEW}",
    f"frame 7, B, Attach: NotFound {FLEW}",
    f"frame 8, B, Flow: NotFound {FLEW}",
    f"frame 9, B, End: IllegalState {FLEW}",
    # its link is detached, or was never attached; the channel has a session; no session, and one that has ended
    "frame 13, B, Flow: UnattachedHandle",
    "frame 14, B, Transfer: UnattachedHandle",
    "frame 15, B, Begin: IllegalState",
    "frame 16, B, End: IllegalState",
    f"frame 17, B, End: IllegalState {FLEW}",
    "frame 18, B, End: IllegalState",
    "frame 20, B, Close: IllegalState",
]


def crossed():
    """What the server had sent before it read the client's End; and then what it cannot have sent."""
    late = [flow("B", 0), attach("B", 0, "late", 3, RECEIVER), flow("B", 0, uint(3)), frame("B", 0, DETACH, uint(3)), frame("B", 0, END)]
    return [*opened(), *begun(0, 0), frame("A", 0, END), *late, flow("B", 0), *closed()]


CROSSED_A = [
    "frame 7, B, Attach: RemoteAttachingLinkNameNotFound (in flight after this side's End)",
    "frame 8, B, Flow: UnattachedHandle (in flight after this side's End)",
    # after its own End
    "frame 11, B, Flow: NotFound",
]


def answered_by_an_end():
    """The server refuses a link by an End, and never attaches it."""
    return [*opened(), *begun(0, 0), attach("A", 0, "link", 0, SENDER), frame("B", 0, END), frame("A", 0, END), *closed()]


def unread():
    """A Begin of the server's cannot be read, nor one of its Attaches in a session of its own: what hangs on them is no breach."""
    begins = [begin("A", 0), frame("B", 0, BEGIN, symbol("x")), attach("A", 0, "a", 0, SENDER), attach("B", 0, "a", 0, RECEIVER)]
    attaches = [*begun(1, 1), frame("B", 1, ATTACH, uint(1)), flow("B", 1, uint(0))]
    names = [attach(side, 1, name, at, role) for at, name in enumerate(("", "a\nb", "a\rb"), 1) for side, role in (("A", SENDER), ("B", RECEIVER))]
    return [*opened(), *begins, *attaches, *names, *ended(1, 1), *closed()]


UNREAD_A = [
    "frame 4, B, Begin: DecodeError (field 1 of Begin, remote-channel: no ushort has the code a3; byte 10)",
    "frame 6, B, Attach: NotFound (after a frame that cannot be read)",
    "frame 9, B, Attach: DecodeError (field 1 of Attach, name: no string has the code 52; byte 10)",
    "frame 10, B, Flow: UnattachedHandle (after a frame that cannot be read)",
]


def pipelined():
    """The client sends all at once: its Close waits for its session, so that the attach is tried."""
    sent = [begin("A", 0), attach("A", 0, "link", 0, SENDER), frame("A", 0, END, composite(0x1D, [symbol("a:b")])), frame("A", 0, CLOSE)]
    return [opened()[0], *sent, opened()[1], begin("B", 0, 0), frame("B", 0, END), frame("B", 0, CLOSE)]


def begun_too_early():
    """The client begins a session before its Open: the engine has no such session, and refuses what is asked of it."""
    early = [begin("A", 0), *opened(), begin("B", 0, 0), attach("A", 0, "link", 0, RECEIVER), frame("A", 0, END), frame("A", 0, CLOSE)]
    refused = ["frame 1, A, Begin (begin): ConnectionNotOpened", "frame 4, B, Begin: NotFound", "frame 5, A, Attach (link): NoSession"]
    return early, [*refused, "frame 5, A, Attach: NoSession", "frame 6, A, End (end): NoSession"]


def malformed():
    """The server sends what is no frame, or none by its performative's table; nothing changes by it, and the exchange goes on."""
    high = composite(0x1D, [b"\xa3\x03a\xff:"])
    before = [frame("B", 0, OPEN), ("B", b"\x02\x00"), frame("B", 0, 0x30, NULL), frame("B", 0, OPEN, symbol("B"))]
    within = [
        frame("B", 0, FLOW, *[uint(0)] * 12),
        ("B", frame("B", 0, FLOW, uint(0), uint(100))[1][:-1]),
        frame("B", 0, FLOW, NULL, uint(1), uint(1), uint(1), NULL, NULL, NULL, NULL, b"\x56\x02"),
        frame("B", 0, TRANSFER, string("7")),
        frame("B", 0, DISPOSITION, NULL, uint(0)),
        frame("B", 0, CLOSE, high),
    ]
    return [opened()[0], *before, opened()[1], *begun(0, 0), *within, *ended(0, 0), *closed()]


MALFORMED_A = [
    "frame 2, B, Open: DecodeError (field 1 of Open, container-id: missing where it is mandatory; byte 8)",
    "frame 3, B, no frame: DecodeError (2 bytes, where a header has 4)",
    "frame 4, B, no frame: DecodeError (no performative has the descriptor 0x30; byte 5)",
    "frame 5, B, Open: DecodeError (field 1 of Open, container-id: no string has the code a3; byte 10)",
    "frame 9, B, Flow: DecodeError (12 fields, where Flow has 11; byte 9)",
    "frame 10, B, no frame: DecodeError (4 bytes are said to follow, and 3 do; byte 9)",
    "frame 11, B, Flow: DecodeError (field 9 of Flow, drain: no boolean is the byte 02; byte 22)",
    "frame 12, B, Transfer: DecodeError (field 1 of Transfer, handle: no uint has the code a1; byte 10)",
    "frame 13, B, Disposition: DecodeError (field 1 of Disposition, role: null where it is mandatory; byte 10)",
    "frame 14, B, Close: DecodeError (field 1 of Close, error: field 1 of Error, condition: no symbol has the byte ff there; byte 19)",
]


def cases():
    """Each connection's name and frames, the side whose place the engine takes, and what it refuses."""
    again = channel_again()
    yield "channel_again", again, "A", []
    yield "channel_again", again, "B", peer_ends(again)
    for seed in range(5):
        lives = many_lives(seed)
        yield f"many_lives {seed}", lives, "A", []
        yield f"many_lives {seed}", lives, "B", peer_ends(lives)
    yield "begun_too_early", begun_too_early()[0], "A", begun_too_early()[1]
    yield "in_flight", in_flight(), "A", FLIGHT_A
    yield "crossed", crossed(), "A", CROSSED_A
    yield "answered_by_an_end", answered_by_an_end(), "A", [f"frame 6, B, End: {ENDED}"]
    yield "answered_by_an_end", answered_by_an_end(), "B", [f"frame 8, A, Close: {CLOSED}"]
    yield "unread", unread(), "A", UNREAD_A
    yield "malformed", malformed(), "A", MALFORMED_A
    yield "pipelined", pipelined(), "A", [f"frame 8, B, End: IllegalState {FLEW}"]
