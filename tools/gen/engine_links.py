"""Rows of links in an engine: names, attach and detach, flows and transfers of a link (AMQP 1.0 part 2, section 2.6)."""

from pathlib import Path

from gen.row import attach, begin, detach, end, flow, opening, out, recv, transfer

EXAMPLE = Path(__file__).resolve().parents[2] / "examples" / "a_link.txt"

UNKNOWN, IN_USE = "err RemoteAttachingLinkNameNotFound", "err HandleInUse"
LIVE, UNATTACHED = "err DuplicatedLinkName", "err UnattachedHandle"


def mapped(rows, title, window=8, peer=opening("a", 262144, 255)):
    """A row of an opened connection, whose session 0 is mapped; the peer's channel is 5."""
    rows.row(title)
    rows.open(peer)
    rows.begin(0)
    rows.ask(recv(begin(0, 0, window, 8), 5))


def hear(rows, body, *answers):
    rows.ask(recv(body, 5), *answers)


def has_handle(rows, handle, name, output):
    """The peer attaches the link on its handle, and asks for an echo: that names the output handle of the link."""
    hear(rows, attach(name, handle))
    echoes(rows, handle, output)


def echoes(rows, handle, output):
    """An echo is asked for on a handle of the peer's, and goes out on the output handle."""
    hear(rows, flow(0, 8, 0, 8, handle, 3, 4, 1, echo=True), out(flow(0, 5000, 0, 5000, output, 3, 4, 1)))


def example(rows):
    rows.row("The lines of the example a_link.txt")
    before = len(rows.asked)
    rows.open()
    rows.begin(0)
    hear(rows, begin(0, 0, 8, 8))
    rows.ask("link 0 a")
    rows.ask("send 0 " + attach("a", 0), out(attach("a", 0)))
    hear(rows, attach("a", 5, False))
    hear(rows, detach(5, True), out(detach(0, True)))
    assert EXAMPLE.read_text().splitlines() == rows.asked[before:]


def attached_and_detached(rows):
    mapped(rows, "A link is named, attached and detached by the peer, and named again", window=1)
    rows.ask("link 0 a")
    rows.ask("link 0 a", LIVE)
    hear(rows, attach("b", 5), UNKNOWN)
    hear(rows, attach("a", 5))
    hear(rows, attach("a", 5), IN_USE)
    hear(rows, detach(9))
    hear(rows, detach(5), out(detach(0)))
    rows.ask("link 0 a")
    mapped(rows, "A detach of the peer's is answered: closed like its own, and without an error; no one is told of the second")
    rows.ask("link 0 a")
    rows.ask("link 0 b")
    hear(rows, attach("a", 5))
    hear(rows, attach("b", 6))
    hear(rows, detach(6, True, "a:b"), out(detach(1, True)))
    hear(rows, detach(6, True, "a:b"))
    hear(rows, detach(5), out(detach(0)))
    hear(rows, attach("a", 5), UNKNOWN)
    mapped(rows, "An attach on a handle that the peer uses replaces the link there, whose relay is gone; its name stays")
    rows.ask("link 0 a")
    rows.ask("link 0 b")
    has_handle(rows, 5, "a", 0)
    has_handle(rows, 5, "b", 1)
    hear(rows, attach("a", 6), IN_USE)
    rows.ask("link 0 a", LIVE)
    hear(rows, detach(5), out(detach(1)))
    echoes_nothing(rows, 5)


def echoes_nothing(rows, handle):
    hear(rows, flow(0, 8, 0, 8, handle, 3, 4, 1, echo=True), UNATTACHED)


def outside_mapped(rows):
    rows.row("A link is named in a session that is mapped alone; an attach and a detach go out in any state")
    rows.open()
    rows.begin(0)
    rows.ask("link 0 a", "err SessionNotMapped")
    rows.ask("send 0 " + attach("a", 0), out(attach("a", 0)))
    rows.ask("send 0 " + detach(0))
    rows.ask(recv(begin(0, 0, 8, 8), 5))
    rows.ask("link 0 a")
    rows.ask("end 0", out(end()))
    rows.ask("link 0 a", "err SessionStopped")
    rows.ask("send 0 " + detach(0, True), out(detach(0, True)))
    hear(rows, end())
    rows.ask("link 0 a", "err SessionStopped")
    rows.ask("link 0 b", "err SessionStopped")
    mapped(rows, "Nor is one named where the peer has ended the session")
    hear(rows, end(), "err RemoteEnded")
    rows.ask("link 0 a", "err SessionStopped")
    rows.ask("send 0 " + attach("a", 7), out(attach("a", 7)))
    mapped(rows, "After an End the peer's attach and detach still reach the links")
    rows.ask("link 0 a")
    rows.ask("end 0", out(end()))
    hear(rows, attach("a", 5))
    hear(rows, detach(5), out(detach(0)))


def sent(rows):
    mapped(rows, "An attach goes out on the session's channel, in canonical spelling, and what stands after it is dropped")
    rows.ask("link 0 a")
    fields = ["b10000000161", "7000000000", "5601"]
    size = 4 + sum(map(len, fields)) // 2
    rows.ask(f"send 0 005312d0{size:08x}00000003{''.join(fields)}ffff", out(attach("a", 0)))
    rows.ask("send 0 " + attach("other", 4294967295, False), out(attach("other", 4294967295, False)))
    mapped(rows, "A detach of a live link goes out once; of a handle without a link nothing goes out")
    rows.ask("send 0 " + detach(0))
    rows.ask("link 0 a")
    rows.ask("send 0 " + detach(1, True))
    rows.ask("send 0 " + detach(4294967295, True))
    rows.ask("send 0 " + detach(0, True, "a:b") + "ff", out(detach(0, True, "a:b")))
    rows.ask("send 0 " + detach(0, True, "a:b"))


def flows(rows):
    mapped(rows, "The echo of a flow stands before the transfers that the flow lets out", window=1)
    rows.ask("link 0 a")
    hear(rows, attach("a", 5))
    rows.ask("send 0 " + transfer(text="a") + "ff", out(transfer(0, "a") + "ff"))
    rows.ask("send 0 " + transfer(text="b") + "fe")
    rows.ask("send 0 " + transfer(text="c") + "fd")
    echo, first, second = flow(0, 5000, 1, 5000, 0, 7, 20, 1, drain=True), transfer(1, "b") + "fe", transfer(2, "c") + "fd"
    hear(rows, flow(1, 2, 0, 8, 5, 7, 20, 1, drain=True, echo=True), out(echo), out(first), out(second))
    mapped(rows, "A flow of an attached link that asks for no echo lets out what waits, and no more", window=0)
    rows.ask("link 0 a")
    hear(rows, attach("a", 5))
    rows.ask("send 0 " + transfer(text="a") + "ff")
    hear(rows, flow(0, 1, 0, 8, 5, 7, 20), out(transfer(0, "a") + "ff"))
    hear(rows, flow(1, 1, 0, 8, 5, 7, 20))
    hear(rows, flow(1, 1, 0, 8, 6, 7, 20), UNATTACHED)


def transfers(rows):
    mapped(rows, "A transfer on an attached handle is taken; each that comes is counted, also one that is refused")
    rows.ask("link 0 a")
    hear(rows, transfer(0, "t", 5) + "70", UNATTACHED)
    hear(rows, attach("a", 5, False))
    hear(rows, transfer(1, "u", 5) + "70")
    hear(rows, transfer(2, "v", 5, settled=True) + "70")
    hear(rows, transfer(3, "w", 0) + "70", UNATTACHED)
    rows.ask("send 0 " + flow(9, 9, 9, 9, 0, 1, 2), out(flow(4, 5000, 0, 5000, 0, 1, 2)))
    hear(rows, detach(5, True), out(detach(0, True)))
    hear(rows, transfer(4, "x", 5) + "70", UNATTACHED)


def two_sessions(rows):
    rows.row("Names and handles are each session's own, and a frame reaches the links of its channel's session")
    rows.open()
    rows.begin(0)
    rows.begin(1)
    rows.ask(recv(begin(0, 0, 8, 8), 5))
    rows.ask(recv(begin(1, 0, 8, 8), 6))
    rows.ask("link 0 a")
    rows.ask("link 1 x")
    rows.ask("link 1 a")
    rows.ask(recv(attach("a", 5), 6))
    hear(rows, detach(5))
    hear(rows, attach("x", 5), UNKNOWN)
    hear(rows, attach("a", 5))
    hear(rows, detach(5), out(detach(0)))
    rows.ask(recv(detach(5), 6), out(detach(1), 1))


def write(rows):
    example(rows)
    attached_and_detached(rows)
    outside_mapped(rows)
    sent(rows)
    flows(rows)
    transfers(rows)
    two_sessions(rows)
