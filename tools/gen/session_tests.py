"""Rows of whole runs of calls: a link from its name to its release, refused allotments, what is settled on both sides of the last number, a
walk over a thousand deliveries, and transfers that wait and go out in turn (AMQP 1.0 part 2, sections 2.5.6, 2.6.1 to 2.6.6, and 2.6.12).

The session is on channel 3, so that a frame on another one is seen.
"""

from gen.row import ACCEPTED, LAST, attach, begin, detach, disposition, echo, flow, refused, transfer
from gen.session_dispositions import HALF, lets_go, settles
from gen.session_links import DUPLICATED, IN_USE, UNATTACHED, UNKNOWN, handle, took

# a payload longer than what an open delivery may keep by its tag
LONG = "07" * 300


def mapped(rows, title):
    """A mapped session on channel 3."""
    rows.row(title)
    rows.new("Mapped channel=3")


def begun(rows, title):
    """The same by the peer's Begin, which grants a window of 100 and names one of 8; a link stands under the input handle 0."""
    rows.row(title)
    rows.new("BeginSent channel=3")
    took(rows, begin(0, 0, 100, 8), "ok")
    rows.ask("link-incoming 0 a", handle(0))


def granted(rows, title, link="link-incoming"):
    """A mapped session on channel 3 with a link under the input handle 0, and a window of 100."""
    mapped(rows, title)
    rows.ask(f"{link} 0 a", handle(0))
    took(rows, flow(0, 100), "none")


def says(rows, line, text):
    """A frame goes out as it is asked for."""
    rows.ask(f"{line} {text}", "out 3 " + text)


def received(rows, *numbers, tag="y", payload="6d"):
    """Deliveries of the peer's come, unsettled."""
    for number in numbers:
        took(rows, transfer(number, tag, 0, 0, False) + payload, "none")


def echoed(rows, first, last, *runs):
    """An unsettled disposition of the peer's, which is batchable, has these echoes, which are not."""
    said = disposition(first, last, False, ACCEPTED, of_receiver=False, batchable=True)
    rows.ask("recv 7 " + said, "list", *("disposition " + echo(*run) for run in runs))


def links(rows):
    mapped(rows, "A link is named, attached and released, and its name is allotted again")
    rows.ask("link a", handle(0))
    rows.ask("link a", DUPLICATED)
    rows.ask("handle-of a", handle(0))
    rows.ask("handle-of b", "none")
    took(rows, attach("b", 5, receives=False), UNKNOWN)
    took(rows, attach("a", 5, receives=False), "ok")
    took(rows, attach("a", 6, receives=False), IN_USE)
    says(rows, "attach", attach("a", 0, receives=False))
    rows.ask("unlink 0", "true")
    rows.ask("unlink 0", "false")
    rows.ask("link a", handle(0))
    mapped(rows, "A handle is free when its detach is answered, and not when another handle is detached")
    rows.ask("link a", handle(0))
    took(rows, attach("a", 5), "ok")
    says(rows, "detach-awaited", detach(0, True))
    rows.ask("detach-awaited " + detach(0, True), "none")
    rows.ask("link a", handle(1))
    took(rows, detach(9, True), "none")
    took(rows, detach(5, True), "none")
    rows.ask("link b", handle(0))
    mapped(rows, "A handle is free at once where its link is released, and where this side detaches and awaits no answer")
    rows.ask("link a", handle(0))
    rows.ask("unlink 0", "true")
    rows.ask("link b", handle(0))
    says(rows, "detach", detach(0, True))
    rows.ask("link c", handle(0))
    says(rows, "detach-awaited", detach(0, True))


def answers_to_detaches(rows):
    mapped(rows, "The peer detaches a handle without a link, and then an attached one twice: one answer")
    rows.ask("link a", handle(0))
    took(rows, attach("a", 5), "ok")
    took(rows, detach(9, True), "none")
    took(rows, detach(5, True), "detach " + detach(0, True))
    took(rows, detach(5, True), "none")
    mapped(rows, "The relay is told of the peer's answer to a detach once, and has none itself")
    rows.ask("link a", handle(0))
    took(rows, attach("a", 5), "ok")
    says(rows, "detach-awaited", detach(0, True))
    rows.ask("detach-awaited " + detach(0, True), "none")
    took(rows, detach(5, True), "none")
    took(rows, detach(5, True), "none")
    mapped(rows, "An incoming link takes no attach, and the peer detaches it once")
    rows.ask("link-incoming 6 c", handle(0))
    took(rows, attach("c", 6), IN_USE)
    took(rows, attach("c", 7), IN_USE)
    took(rows, detach(6, True), "detach " + detach(0, True))
    took(rows, detach(6, True), "none")
    mapped(rows, "A relay under a handle goes where another one is put there, and a refused allotment puts none")
    rows.ask("link a", handle(0))
    took(rows, attach("a", 5), "ok")
    rows.ask("link b", handle(1))
    took(rows, attach("b", 5), "ok")
    rows.ask("link-incoming 5 c", handle(2))
    rows.ask("link c", DUPLICATED)
    rows.ask("link-incoming 5 c", DUPLICATED)
    took(rows, detach(5), "detach " + detach(2))


def dispositions(rows):
    begun(rows, "Of 1 to 5 that came, 4 is not asked for: two echoes that are not batchable, five turns, and all five stay open")
    received(rows, 1, 2, 3)
    received(rows, 4, tag="no")
    received(rows, 5)
    echoed(rows, 1, 5, (1, 3), (5, 5))
    rows.ask("walk 5 5 4", "ok")
    rows.show("Mapped", remote_incoming_window=100, next_incoming_id=5, remote_outgoing_window=3, open_deliveries=5)
    begun(rows, "Tags of transfers with long payloads stay what they were")
    received(rows, 1, payload=LONG)
    received(rows, 2, tag="no", payload=LONG)
    received(rows, 3, payload=LONG)
    received(rows, 4, tag="no tag of fewer than thirty-three bytes", payload=LONG)
    received(rows, 6, tag="a tag of more than thirty-two bytes", payload=LONG)
    echoed(rows, 1, 4, (1, 1), (3, 3))
    echoed(rows, 1, 6, (1, 1), (3, 3), (6, 6))
    begun(rows, "Two come on each side of the last number, those after it first; a range passes it, and one over half of the circle reads nothing")
    received(rows, 0, tag="no")
    received(rows, 1)
    received(rows, LAST - 1, tag="no")
    received(rows, LAST)
    echoed(rows, LAST - 1, 1, (LAST, LAST), (1, 1))
    for first, last in [(LAST, 0), (0, HALF)]:
        settles(rows, first, last)
        rows.show("Mapped", remote_incoming_window=100, next_incoming_id=4, remote_outgoing_window=4, open_deliveries=2)
    rows.ask("walk 0 0 0", "ok")


def settled_here(rows):
    five = (LAST - 1, LAST, 0, 1, 5)
    granted(rows, "What came is let go by ranges of the receiver alone, a number once, and one over half of the circle lets none go")
    received(rows, *five)
    for count, first, last, role in [
        (0, 0, HALF, "receiver"),
        (0, LAST - 1, 5, "sender"),
        (2, LAST, 0, "receiver"),
        (0, LAST, 0, "receiver"),
        (1, 5, "", "receiver"),
        (0, 6, "", "receiver"),
    ]:
        lets_go(rows, count, first, last, role)
    told = {"remote_incoming_window": 100, "next_incoming_id": 5, "remote_outgoing_window": 3}
    rows.show("Mapped", open_deliveries=2, **told)
    lets_go(rows, 1, LAST - 1)
    lets_go(rows, 1, 0, HALF - 1)
    rows.show("Mapped", **told)
    granted(rows, "What was sent is let go by ranges of the sender alone, and the numbers and the window stay")
    for number in range(3):
        rows.ask(f"first 0 {transfer(77, 'y', 0, 0, False)}6d", f"out 3 {transfer(number, 'y', 0, 0, False)} 6d")
    told = {"next_outgoing_id": 3, "remote_incoming_window": 97, "remote_outgoing_window": 8}
    rows.show("Mapped", open_deliveries=3, **told)
    lets_go(rows, 0, 0, 7)
    lets_go(rows, 2, 1, 7, role="sender")
    lets_go(rows, 1, 0, role="sender")
    rows.show("Mapped", **told)
    granted(rows, "The counts of the latest walk stay where this side settles, and no link asked for an echo", link="link-deaf")
    received(rows, *five)
    rows.ask("recv 7 " + disposition(0, 1, state=None, of_receiver=False), "list")
    rows.ask("walk 3 3 4", "ok")
    lets_go(rows, 5, LAST - 1, 5)
    rows.ask("walk 3 3 4", "ok")
    rows.show("Mapped", remote_incoming_window=100, next_incoming_id=5, remote_outgoing_window=3)


def waiting(rows):
    """Each call that takes memory is made again where it is refused; the number before it is the peer's window that a refused one leaves."""
    rows.row("Transfers wait and go out in turn: by flows, after the window of a refused flow, and alone, each delivery with the next number")
    rows.new("Unmapped offered=x")
    rows.ask("retry 0 begin", "out 0 " + begin(offered="x"))
    rows.ask("recv 1 " + begin(0, 0, 0, 8), "ok")
    first, later = (f"{it} 0 {transfer(77, 't', 0, 0, False)}70" for it in ("first", "later"))

    def out(number):
        return f"out 0 {transfer(number, 't', 0, 0, False)} 70"

    def shown(gone, window, held, open):
        rows.show("Mapped", next_outgoing_id=gone, remote_incoming_window=window, remote_outgoing_window=8, held_back=held, open_deliveries=open)

    for line in (first, later, first):
        rows.ask("retry 0 " + line, "none")
    shown(0, 0, 3, 0)
    rows.ask("retry 1 recv 7 " + flow(0, 1), "list", out(0))
    shown(1, 0, 2, 1)
    rows.ask("retry 2 recv 7 " + flow(0, 3), "list", out(None), out(1))
    shown(3, 0, 0, 2)
    rows.ask("retry 0 " + first, "none")
    took(rows, flow(3, 2, 0, 8, 9), UNATTACHED)
    shown(3, 2, 1, 2)
    rows.ask("retry 2 " + first, "list", out(2), out(3))
    shown(5, 0, 0, 4)
    rows.ask("retry 9 recv 7 " + flow(5, 9), "none")
    for number in range(4, 13):
        rows.ask(f"retry {13 - number} {first}", out(number))
    shown(14, 0, 0, 13)


def write(rows):
    links(rows)
    answers_to_detaches(rows)
    dispositions(rows)
    settled_here(rows)
    waiting(rows)


def write_long(rows):
    """A row that is for no reader: a thousand deliveries."""
    begun(rows, "Of a thousand that are open, the ten that are settled are read, and one more")
    settles(rows, 7)
    rows.ask("walk 0 1 1", "ok")
    received(rows, *range(1000), tag="no")
    settles(rows, 10, 19)
    rows.ask("walk 11 11 11", "ok")
    rows.show("Mapped", remote_incoming_window=100, next_incoming_id=1000, open_deliveries=990)
