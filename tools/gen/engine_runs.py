"""Rows of an engine's runs: several inputs in one run, and what the engine and its sessions show between runs: states, reasons, numbers
and windows (AMQP 1.0 part 2, sections 2.4.6, 2.5.5, 2.5.6 and 2.6.12).

The rows of the other scripts see by what goes out how a session stands; these read it. No handle asks for anything in them.
"""

from gen.engine_sessions import send, sent
from gen.row import ACCEPTED, OUR_CLOSE
from gen.row import attach, begin, closing, detach, disposition, echo, end, flow, opening, out, recv, transfer

DONE, ILLEGAL, NO_SESSION, IN_USE, ENDED_BY_PEER = "done", "err IllegalState", "err NoSession", "err SessionInUse", "err RemoteEnded"


def handled(rows, title, state="Opened"):
    rows.row(title)
    rows.ask("handled " + state)


def shows(rows, state, reason="None", sessions=0, channel_max=255):
    """The engine shows its connection, and that no frame waits."""
    connection = f"local_state: {state}, connection_stop_reason: {reason}, agreed_channel_max: {channel_max}, .."
    rows.ask("show", f"HandledEngine {{ engine: Engine {{ connection: Connection {{ {connection} }}, sessions: {sessions}, has_output: false, .. }} }}")


def session_shows(rows, state, number=0, channel=0, reason="None", **numbers):
    """A session shows its state, its channel, why it stopped and its numbers; what is not named is 0."""
    names = ["next_outgoing_id", "next_incoming_id", "remote_incoming_window", "remote_outgoing_window", "held_back", "open_deliveries"]
    assert set(numbers) <= set(names), numbers
    said = f"local_state: {state}, outgoing_channel: OutgoingChannel({channel}), session_stop_reason: {reason}, connection_stop_reason: None"
    shown = ", ".join(f"{name}: {numbers.get(name, 0)}" for name in names)
    rows.ask(f"show {number}", f"Session {{ {said}, {shown}, .. }}")


def begins(rows, number, channel=0):
    rows.ask(f"begin {number}", DONE, out(begin(), channel))


def hear(rows, body, *answers):
    """A frame comes on the channel that leads to session 0."""
    rows.ask(recv(body, 5), *answers or [DONE])


def mapped(rows, title, window=8):
    """Session 0 is mapped: the peer takes so many transfers, and may send 8."""
    handled(rows, title)
    begins(rows, 0)
    hear(rows, begin(0, 0, window, 8))


def live(rows, name, handle):
    """The output handle of the live link of a name."""
    rows.ask("output 0 " + name, "None" if handle is None else f"Some(OutputHandle({handle}))")


# ---- the connection

def connections(rows):
    handled(rows, "An engine shows its connection: this side's Open goes out", "HeaderExchange")
    shows(rows, "HeaderExchange")
    rows.ask("open", DONE, out(opening("replay", 262144, 255)))
    shows(rows, "OpenSent")
    handled(rows, "Received frames move the state, and a refused one does not", "OpenSent")
    rows.ask("recv 02000000", DONE)
    rows.ask(recv(opening("p", 512, 3)), DONE)
    shows(rows, "Opened", channel_max=3)
    rows.ask(recv(opening("p", 512, 3)), ILLEGAL)
    rows.ask(recv(closing()), "err RemoteClosed")
    shows(rows, "CloseReceived", "Some(RemoteClosed)", channel_max=3)
    handled(rows, "The reason of the first Close stays, where the peer's has an error and answers it")
    rows.ask("close", DONE, OUR_CLOSE)
    shows(rows, "CloseSent", "Some(Closed)")
    rows.ask(recv(closing("a:b")), "err RemoteClosedWithError")
    shows(rows, "End", "Some(Closed)")


def too_large(rows):
    """The peer takes frames of 512 bytes; one that says 16 means 512 too (AMQP 1.0 part 2, section 2.4.1)."""
    for title, limit in (("512", "7000000200"), ("16, which counts as 512", "7000000010")):
        handled(rows, f"This side's Open, with a name of 600 bytes, does not fit a peer's limit of {title}", "HeaderExchange " + "n" * 600)
        rows.ask("recv 02000000005310c00a03a1017040" + limit, DONE)
        rows.ask("open", DONE, "err TooLarge")
        rows.ask("with recv 02000000")
        rows.ask("close", DONE, DONE, OUR_CLOSE)


# ---- several inputs in one run

def several(rows):
    handled(rows, "Inputs that each layer refuses leave the others of their run in place")
    rows.ask("with begin 0")
    rows.ask("with begin 0")
    rows.ask("with " + send("a", "ff"))
    rows.ask("with begin 1")
    rows.ask("with open")
    rows.ask("with end 9")
    rows.ask("with recv 020000")
    rows.ask("with " + recv(flow(0, 2), 5))
    answers = [DONE, out(begin()), IN_USE, ILLEGAL, DONE, out(begin(), 1), ILLEGAL, NO_SESSION, "err DecodeError", "err NotFound", DONE, OUR_CLOSE]
    rows.ask("close", *answers)
    handled(rows, "Each input of a run is answered before the next one is taken")
    for number in (2, 1, 0):
        rows.ask(f"with begin {number}")
    rows.ask("close", DONE, out(begin()), DONE, out(begin(), 1), DONE, out(begin(), 2), DONE, OUR_CLOSE)
    mapped(rows, "All frames of an input come before the next input is taken", window=0)
    for tag, payload in (("a", "ff"), ("b", "fe"), ("c", "fd")):
        rows.ask("with " + send(tag, payload))
    rows.ask("with " + recv(flow(0, 2), 5))
    rows.ask("end 0", DONE, DONE, DONE, DONE, sent(0, "a", "ff"), sent(1, "b", "fe"), DONE, out(end()))
    mapped(rows, "So do the echoes of a disposition, one for each run of numbers")
    rows.ask("incoming 0 0 a", DONE)
    for number in (1, 3):
        hear(rows, transfer(number, "t") + "ff")
    rows.ask("with " + recv(disposition(0, 3, of_receiver=False), 5))
    rows.ask("end 0", DONE, out(echo(1, 1)), out(echo(3, 3)), DONE, out(end()))


# ---- sessions

def a_window_of_one(rows, title):
    """The peer takes one transfer: one goes out, and one waits."""
    mapped(rows, title, window=1)
    rows.ask(send("a", "ff"), DONE, sent(0, "a", "ff"))
    rows.ask(send("b", "fe"), DONE)
    session_shows(rows, "Mapped", next_outgoing_id=1, remote_outgoing_window=8, held_back=1, open_deliveries=1)


def states(rows):
    handled(rows, "A Begin goes out; a session of another number is none")
    begins(rows, 0)
    session_shows(rows, "BeginSent")
    rows.ask("show 1", "none")
    a_window_of_one(rows, "A transfer waits for the window, and a flow lets it out")
    hear(rows, flow(1, 1), DONE, sent(1, "b", "fe"))
    session_shows(rows, "Mapped", next_outgoing_id=2, remote_outgoing_window=8, open_deliveries=2)
    a_window_of_one(rows, "An End is recorded; a flow after it moves the window, and lets nothing out; once it is over the session is forgotten")
    rows.ask("end 0", DONE, out(end()))
    numbers = {"next_outgoing_id": 1, "remote_outgoing_window": 8, "held_back": 1, "open_deliveries": 1}
    session_shows(rows, "EndSent", reason="Some(Ended)", **numbers)
    hear(rows, flow(1, 1))
    numbers["remote_incoming_window"] = 1
    session_shows(rows, "EndSent", reason="Some(Ended)", **numbers)
    rows.ask("forget 0", ILLEGAL)
    hear(rows, end())
    session_shows(rows, "Unmapped", reason="Some(Ended)", **numbers)
    rows.ask("forget 0", IN_USE)
    rows.ask("release 0", DONE)
    rows.ask("forget 0", DONE)
    rows.ask("show 0", "none")
    rows.ask("forget 0", NO_SESSION)
    rows.ask("begin 0", IN_USE)
    begins(rows, 1)
    session_shows(rows, "BeginSent", number=1)


def half_of_a_window(rows):
    handled(rows, "Where the peer has sent half of this side's window of 2, a flow opens it again")
    rows.ask("begin 0 2", DONE, out(begin(incoming_window=2)))
    hear(rows, begin(0, 0, 8, 8))
    rows.ask("incoming 0 0 a", DONE)
    hear(rows, transfer(0, "t") + "ff", DONE, out(flow(1, 2, 0, 5000)))


def leads(rows, number):
    """Where channel 7 of the peer's leads; it is the only one that leads."""
    rows.ask("route 7", "None" if number is None else f"Some(SessionNo({number}))")
    for each in (0, 1, 1000):
        rows.ask(f"led {each}", "true" if each == number else "false")


def routes(rows):
    numbers = {"remote_incoming_window": 8, "remote_outgoing_window": 8}
    handled(rows, "Three Begins of the peer's on one channel lead it to one session after another; the End takes the route away; the first reason stays")
    begins(rows, 0)
    begins(rows, 1, 1)
    leads(rows, None)
    rows.ask(recv(begin(0, 0, 8, 8), 7), DONE)
    leads(rows, 0)
    rows.ask(recv(begin(1, 0, 8, 8), 7), DONE)
    leads(rows, 1)
    rows.ask(recv(begin(0, 0, 8, 8), 7), ILLEGAL)
    leads(rows, 0)
    rows.ask(recv(end(), 7), ENDED_BY_PEER)
    leads(rows, None)
    session_shows(rows, "EndReceived", reason="Some(RemoteEnded)", **numbers)
    session_shows(rows, "Mapped", 1, 1, **numbers)
    rows.ask(recv(end(), 7), "err NotFound")
    rows.ask("stop 0 Ended", DONE)
    rows.ask("stop 1 Ended", DONE)
    rows.ask("stop 2 Ended", NO_SESSION)
    session_shows(rows, "EndReceived", reason="Some(RemoteEnded)", **numbers)
    session_shows(rows, "Mapped", 1, 1, reason="Some(Ended)", **numbers)


# ---- links

def links(rows):
    mapped(rows, "A detach goes out once; its link leaves the handle to a new one once the peer has answered, and a second answer is none", window=1)
    rows.ask("link 0 a", DONE)
    live(rows, "a", 0)
    hear(rows, attach("a", 5))
    rows.ask("send 0 " + detach(0, True), DONE, out(detach(0, True)))
    live(rows, "a", None)
    rows.ask("send 0 " + detach(0, True), DONE)
    rows.ask("allot 0 b", DONE)
    live(rows, "b", 1)
    hear(rows, detach(5))
    hear(rows, detach(5))
    rows.ask("allot 0 a", DONE)
    live(rows, "a", 0)
    mapped(rows, "A link whose attach came is attached at once: its handle is in use, and its attach and its flow go out", window=1)
    rows.ask("incoming 0 6 c", DONE)
    live(rows, "c", 0)
    hear(rows, attach("c", 6), "err HandleInUse")
    rows.ask("send 0 " + attach("c", 0), DONE, out(attach("c", 0)))
    rows.ask("send 0 " + flow(9, 9, 9, 9, 0, None, 20), DONE, out(flow(0, 5000, 0, 5000, 0, None, 20)))


def unallotted(rows, reason):
    """No link is allotted, also none without a name, for this reason."""
    rows.ask("why allot 0", f"[Refused(AllocLink({reason}))]")


def refused_links(rows):
    handled(rows, "No link is allotted before the peer's Begin, nor where the session is stopped: the recorded reason is told")
    begins(rows, 0)
    unallotted(rows, "SessionNotMapped")
    rows.ask("stop 0 RemoteEnded", DONE)
    unallotted(rows, "SessionStopped(RemoteEnded)")
    mapped(rows, "Nor after this side's End, which is told as the reason", window=1)
    rows.ask("end 0", DONE, out(end()))
    unallotted(rows, "SessionStopped(Ended)")


# ---- dispositions

def windows(rows):
    """A settled disposition of the receiver with a terminal state counts what it settles into the peer's window."""
    for title, state, window in (("An accepted state opens the window", ACCEPTED, 11), ("A state that is not terminal leaves the window", "00532345", 8)):
        mapped(rows, f"A disposition of this side's goes out as one frame. {title}")
        session_shows(rows, "Mapped", remote_incoming_window=8, remote_outgoing_window=8)
        rows.ask("send 0 " + disposition(1, 3, True, state), DONE, out(disposition(1, 3, True, state)))
        session_shows(rows, "Mapped", remote_incoming_window=8, remote_outgoing_window=window)
        rows.ask("send 1 " + disposition(1, 3, True, state), NO_SESSION)


def three_sent(rows):
    """Three deliveries go out, and stay open."""
    for number, tag in enumerate("abc"):
        rows.ask(send(tag, ""), DONE, sent(number, tag, ""))
    opened(rows, 3)


def opened(rows, count, state="Mapped", reason="None"):
    """So many of the three are open; nothing else moves but the state."""
    numbers = {"next_outgoing_id": 3, "remote_incoming_window": 5, "remote_outgoing_window": 8}
    session_shows(rows, state, reason=reason, open_deliveries=count, **numbers)


def settled(rows):
    handled(rows, "What this side settles is let go, of the role that is named, and nothing goes out; nothing is open before the peer's Begin")
    rows.ask("settle 0 sender 0 9", NO_SESSION)
    begins(rows, 0)
    rows.ask("settle 0 sender 0 9", DONE)
    rows.ask("settle 0 receiver 0", DONE)
    rows.ask("settle 1 sender 0", NO_SESSION)
    session_shows(rows, "BeginSent")
    hear(rows, begin(0, 0, 8, 8))
    three_sent(rows)
    rows.ask("settle 0 receiver 0 9", DONE)
    opened(rows, 3)
    rows.ask("settle 0 sender 1", DONE)
    opened(rows, 2)
    mapped(rows, "This side settles after its own End, and after the peer's answer")
    three_sent(rows)
    rows.ask("end 0", DONE, out(end()))
    rows.ask("settle 0 sender 0", DONE)
    opened(rows, 2, "EndSent", "Some(Ended)")
    hear(rows, end())
    opened(rows, 2, "Unmapped", "Some(Ended)")
    rows.ask("settle 0 sender 0 1", DONE)
    opened(rows, 1, "Unmapped", "Some(Ended)")
    mapped(rows, "This side settles after the peer's End, and after its own answer")
    three_sent(rows)
    hear(rows, end(), ENDED_BY_PEER)
    opened(rows, 3, "EndReceived", "Some(RemoteEnded)")
    rows.ask("settle 0 sender 1 2", DONE)
    opened(rows, 1, "EndReceived", "Some(RemoteEnded)")
    rows.ask("end 0", DONE, out(end()))
    rows.ask("settle 0 sender 0 2", DONE)
    opened(rows, 0, "Unmapped", "Some(RemoteEnded)")


def write(rows):
    connections(rows)
    too_large(rows)
    several(rows)
    states(rows)
    half_of_a_window(rows)
    routes(rows)
    links(rows)
    refused_links(rows)
    windows(rows)
    settled(rows)
