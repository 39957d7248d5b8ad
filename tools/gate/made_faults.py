"""Connections with one fault each, for try_watch.py: frames of both sides, and what is told of them. Lawful ones, in which the sides cross, tell of nothing."""

from amqp.canonical import boolean, composite, symbol, tag, uint, ushort
from amqp.frames import ATTACH, BEGIN, CLOSE, DETACH, DISPOSITION, END, FLOW, NULL, OPEN, TRANSFER
from gate.made_connections import RECEIVER, SENDER, attach, begin, begun, closed, ended, flow, frame, opened

ANY = uint(5)


def limits(size, channel):
    return [frame(side, 0, OPEN, b"\xa1\x01x", NULL, uint(size), ushort(channel)) for side in "AB"]


def attached(name="link", handle=0):
    """The client sends on it, and the server takes."""
    return [attach("A", 0, name, handle, SENDER), attach("B", 0, name, handle, RECEIVER)]


def window(side, next_id, count, *link):
    return frame(side, 0, FLOW, uint(next_id), uint(count), uint(0), uint(100), *link)


def transfer(number, more=False, handle=0, side="A", payload=b"", aborted=False):
    number = NULL if number is None else uint(number)
    fields = [uint(handle), number, tag({"bin": "00"}), uint(0), boolean(True), boolean(more), NULL, NULL, NULL, boolean(aborted)]
    return side, b"\x02\x00\x00\x00" + composite(TRANSFER, fields) + payload


def transfer_on(channel, number=0, handle=0, side="A"):
    _, of = transfer(number, handle=handle)
    return side, of[:2] + channel.to_bytes(2, "big") + of[4:]


def narrow(count):
    """A session in which the server takes so many transfers."""
    return [begin("A", 0), frame("B", 0, BEGIN, ushort(0), uint(0), uint(count), uint(100))]


def lists():
    """An Open whose capabilities are a list, as qpid-proton writes it."""
    return frame("A", 0, OPEN, b"\xa1\x01x", NULL, NULL, NULL, NULL, NULL, NULL, b"\xc0\x04\x01\xa3\x01x")


TO, DETACHED = [*opened(), *begun(0, 0), *attached()], frame("A", 0, DETACH, uint(0), boolean(True))
IN_A_SESSION = [*opened(), *begun(0, 0)]

# name, the frames, and what is told, by frame: those before the fault, what is wrong, and what goes on after it
FAULTS = [
    ("past the window", [*opened(), *narrow(2), *attached(), transfer(0), transfer(1)], [transfer(2)], [window("B", 3, 5), transfer(3)], "WindowViolation (1 past"),
    ("past a window that a flow gave", [*opened(), *narrow(0), *attached(), window("B", 0, 1), transfer(0)], [transfer(1)], closed(), "WindowViolation (1 past"),
    ("past a window that counts from before", [*opened(), *narrow(3), *attached(), transfer(0), transfer(1), transfer(2), window("B", 1, 2)],
        [transfer(3)], [window("B", 4, 1), transfer(4)], "WindowViolation (1 past"),
    ("before any window", [*opened(), begin("A", 0), attach("A", 0, "link", 0, SENDER)], [transfer(0)], [begin("B", 0, 0)], "WindowViolation (no window"),
    ("the server's past the window", [*opened(), frame("A", 0, BEGIN, NULL, uint(7), uint(1), uint(9)), begin("B", 3, 0), attach("B", 3, "l", 4, SENDER),
        transfer_on(3, 9, 4, "B")], [transfer_on(3, 10, 4, "B")], closed(), "WindowViolation (1 past"),
    ("too long a frame", [*limits(600, 9), *begun(0, 0), *attached()], [transfer(0, payload=bytes(600))], [transfer(1, payload=bytes(500))], "FrameTooLong (6"),
    ("too high a channel", [*limits(600, 3), *begun(0, 0)], [begin("A", 4)], [begin("B", 1, 4)], "ChannelTooHigh (4"),
    ("a transfer after a Detach", [*TO, DETACHED], [transfer(0)], [frame("B", 0, DETACH, uint(0))], "UnattachedHandle"),
    ("a flow after a Detach", [*TO, DETACHED], [flow("A", 0, uint(0))], closed(), "UnattachedHandle"),
    ("a second Detach", [*TO, DETACHED], [DETACHED], closed(), "UnattachedHandle"),
    ("a second answer to a Detach", [*TO, DETACHED, frame("B", 0, DETACH, uint(0))], [frame("B", 0, DETACH, uint(0))], closed(), "UnattachedHandle"),
    ("a second Attach of a handle", TO, [attach("B", 0, "other", 0, RECEIVER)], closed(), "HandleInUse"),
    ("a second Attach of a name", TO, [attach("B", 0, "link", 1, RECEIVER)], closed(), "NameInUse"),
    ("a second Open", opened(), [opened()[1]], [*begun(0, 0), *ended(0, 0), *closed()], "IllegalState (a second Open)"),
    ("a second Begin on a channel", IN_A_SESSION, [begin("B", 0, 0)], [*attached(), transfer(0)], "ChannelInUse"),
    ("a second Begin of the client", [*IN_A_SESSION, *attached()], [begin("A", 0)], [transfer(0), begin("B", 1, 0), transfer(1), frame("B", 1, END)], "ChannelInUse"),
    ("a second Begin before the answer", [*opened(), begin("A", 0)], [begin("A", 0)], [begin("B", 0, 0), *attached(), transfer(0), begin("B", 1, 0)], "ChannelInUse"),
    ("a channel that answers twice", [*IN_A_SESSION, begin("A", 1)], [begin("B", 0, 1)], [attach("A", 1, "l", 0, SENDER), transfer_on(1)], "ChannelInUse"),
    ("a second Begin that answers", IN_A_SESSION, [begin("B", 1, 0)], [*attached(), transfer(0)], "NotFound (no Begin on channel 0"),
    ("a Begin that answers nothing", opened(), [begin("B", 1, 7)], [attach("B", 1, "l", 0, SENDER), transfer_on(1, 0, 0, "B"), *closed()], "NotFound (no Begin on channel 7"),
    ("a second End", [*IN_A_SESSION, *ended(0, 0)], [frame("B", 0, END)], closed(), "NotFound (no session"),
    ("a frame after an End", [*IN_A_SESSION, frame("A", 0, END)], [flow("A", 0)], [frame("B", 0, END)], "NotFound (no session"),
    ("no session", opened(), [attach("A", 2, "link", 0, SENDER)], closed(), "NotFound (no session on channel 2)"),
    ("a frame after a Close", [*IN_A_SESSION, frame("A", 0, CLOSE)], [flow("A", 0)], [flow("B", 0), frame("B", 0, CLOSE)], "AfterClose"),
    ("an empty frame after a Close", [*opened(), frame("A", 0, CLOSE)], [("A", b"\x02\0\0\0")], [frame("B", 0, CLOSE)], "AfterClose"),
    ("a second Close", [*opened(), *closed()], [frame("B", 0, CLOSE)], [], "AfterClose"),
    ("before the Open", [], [begin("A", 0)], [*opened(), begin("B", 0, 0), *attached(), *closed()], "IllegalState (before"),
    ("no delivery-id", [*TO, transfer(4)], [transfer(None)], [transfer(6), transfer(7)], "DeliveryId (none"),
    ("a transfer on no link", [*TO, transfer(4)], [transfer(5, handle=9)], [transfer(6)], "UnattachedHandle"),
    ("a delivery-id that is left out", [*TO, transfer(4)], [transfer(6)], [transfer(7)], "DeliveryId (6, where 5"),
    ("a delivery-id that came before", [*TO, transfer(4)], [transfer(4)], [transfer(5)], "DeliveryId (4, where 5"),
    ("a delivery-id within another", [*TO, transfer(4, True)], [transfer(5, True)], [transfer(None), transfer(6)], "DeliveryId (5, within"),
    ("a transfer of a receiver", TO, [transfer(0, side="B")], closed(), "TransferFrameToSender"),
    ("an Open with a list", [], [lists()], [opened()[1], *begun(0, 0), *attached(), transfer(0), *ended(0, 0), *closed()], "DecodeError (field 8 of Open"),
    ("an Open without a name", [], [frame("A", 0, OPEN)], [opened()[1], *begun(0, 0), *attached(), transfer(0)], "DecodeError (field 1 of Open"),
    ("an Attach with a list", IN_A_SESSION, [frame("A", 0, ATTACH, b"\xa1\x04link", uint(0), SENDER, *[NULL] * 8, b"\xc0\x04\x01\xa3\x01x")],
        [attached()[1], transfer(0)], "DecodeError (field 12 of Attach"),
    ("an Attach that cannot be read", IN_A_SESSION, [frame("A", 0, ATTACH, uint(1))], [transfer(0), DETACHED], "DecodeError (field 1 of Attach"),
    ("a Begin that cannot be read", opened(), [frame("A", 0, BEGIN, symbol("x"))], [begin("B", 0, 0), *attached(), transfer(0), *ended(0, 0)], "DecodeError (field 1 of Begin"),
    ("an answer that cannot be read", [*opened(), begin("A", 0)], [frame("B", 0, BEGIN, symbol("x"))], [*attached(), transfer(0), *ended(0, 0)], "DecodeError (field 1 of Begin"),
    ("a Flow that cannot be read", [*opened(), *narrow(0), *attached()], [frame("B", 0, FLOW, NULL)], [transfer(0)], "DecodeError (field 2 of Flow"),
    ("a performative that is none", opened(), [frame("A", 0, 0x30)], [begin("B", 0, 0), flow("A", 0)], "DecodeError (no performative"),
    ("another type", opened(), [("A", b"\x02\x07\0\0")], closed(), "NotImplemented (a header of 2 words, type 7)"),
    ("an end with an error", IN_A_SESSION, [frame("A", 0, END, composite(0x1D, [symbol("a:b")]))], [frame("B", 0, END)], "RemoteEndedWithError (the peer ended: a:b)"),
]  # fmt: skip

END_CROSSED = [frame("A", 0, END), flow("B", 0), attach("B", 0, "late", 3, RECEIVER), flow("B", 0, uint(3)), frame("B", 0, END)]

LAWFUL = [
    ("an exchange", [*TO, transfer(0, True), transfer(None, True), transfer(0), transfer(1), DETACHED, frame("B", 0, DETACH, uint(0)), *ended(0, 0), *closed()]),
    ("a link that comes again", [*TO, DETACHED, frame("B", 0, DETACH, uint(0)), *attached(), transfer(0), DETACHED, *attached("other", 1)[:1]]),
    ("an Attach that an End answers", [*IN_A_SESSION, attach("A", 0, "link", 0, SENDER), frame("B", 0, END), frame("A", 0, END), *closed()]),
    ("what crosses an End", [*IN_A_SESSION, *END_CROSSED]),
    ("what crosses a Detach", [*TO, frame("B", 0, DETACH, uint(0)), transfer(0), flow("A", 0, uint(0)), DETACHED]),
    ("what crosses a Close", [*TO, frame("B", 0, CLOSE), transfer(0), begin("A", 1), frame("A", 1, END), frame("A", 0, CLOSE)]),
    ("what crosses a smaller window", [*TO, window("B", 0, 2), window("B", 0, 0), transfer(0), transfer(1)]),
    ("a flow before the Begin that answers", [opened()[0], begin("A", 0), frame("A", 0, FLOW, NULL, uint(200), uint(0), uint(9)), opened()[1], begin("B", 0, 0)]),
    ("a window that a flow gives before the answer", [*opened(), frame("A", 0, BEGIN, NULL, uint(0), uint(0), ANY), frame("A", 0, FLOW, NULL, uint(1), uint(0), ANY),
        begin("B", 0, 0), attach("B", 0, "l", 0, SENDER), transfer(0, side="B")]),
    ("the greatest channel, and 512 bytes", [*limits(100, 3), *begun(3, 3), attach("A", 3, "l" * 200, 0, SENDER)]),
    ("numbers that wrap", [*opened(), frame("A", 0, BEGIN, NULL, uint(2**32 - 1), ANY, ANY), frame("B", 0, BEGIN, ushort(0), uint(0), uint(1), ANY), *attached(),
        transfer(2**32 - 1), window("B", 0, 2), transfer(0), transfer(1)]),
    ("one name in both directions", [*TO, attach("A", 0, "link", 1, RECEIVER), attach("B", 0, "link", 1, SENDER), transfer(0)]),
    ("a session that the server begins", [*opened(), begin("B", 5), begin("A", 2, 5), attach("B", 5, "l", 0, SENDER), attach("A", 2, "l", 0, RECEIVER)]),
    ("a channel that is used again at once", [*opened(), begin("A", 0), frame("A", 0, END), begin("A", 0), begin("B", 1, 0), frame("B", 1, END), begin("B", 1, 0)]),
    ("a delivery that is given up", [*TO, transfer(0, True), transfer(None, True, aborted=True), transfer(1)]),
    ("deliveries that alternate", [*TO, *attached("two", 1), transfer(0, True), transfer(1, True, 1), transfer(None, False), transfer(1, False, 1), transfer(2)]),
    ("an extended header", [*opened(), ("A", b"\x03\0\0\0abcd" + begin("A", 0)[1][4:]), begin("B", 0, 0), *ended(0, 0), *closed()]),
    ("a disposition, and empty frames", [*TO, ("A", b"\x02\0\0\0"), transfer(0), frame("B", 0, DISPOSITION, RECEIVER, uint(0), NULL, boolean(True)), ("B", b"\x02\0\0\0")]),
    ("a disposition of what was settled", [*TO, frame("A", 0, DISPOSITION, SENDER, uint(9)), *ended(0, 0)]),
]  # fmt: skip
