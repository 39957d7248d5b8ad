"""Rows of dispositions in an engine: which open deliveries they mean, and the echoes (AMQP 1.0 part 2, sections 2.6.12 and 2.7.6).

The relay of a transcript's links asks for an echo of each unsettled disposition. It names a received transfer that is not settled. What this
side settles by itself is seen by the echoes that come no more (section 2.6.12).
"""

from gen.engine_links import UNATTACHED, hear, mapped
from gen.row import ACCEPTED, LAST, OUR_CLOSE, RECEIVED, RELEASED
from gen.row import attach, begin, closing, detach, disposition, echo, end, flow, opening, out, recv, transfer


def linked(rows, title, **how):
    """Session 0 is mapped, and its link a is attached under 0."""
    mapped(rows, title, **how)
    rows.ask("link 0 a")
    hear(rows, attach("a", 0))


def sends(rows, *numbers, handle=0):
    """Transfers go out under these numbers."""
    for number in numbers:
        rows.ask("send 0 " + transfer(text="t", handle=handle) + "6d", out(transfer(number, "t", handle) + "6d"))


def takes(rows, *numbers, handle=0):
    """Transfers come under these numbers."""
    for number in numbers:
        hear(rows, transfer(number, "t", handle) + "6d")


def echoes(rows, said, *runs, state=ACCEPTED):
    """A disposition comes; each of these runs is answered, in this order."""
    hear(rows, said, *(out(echo(first, last, state)) for first, last in runs))


def of_what_was_sent(rows):
    rows.row("Two deliveries go out; an unsettled disposition of both is echoed each time it comes, and after a settled one no more")
    rows.open()
    rows.begin(0)
    rows.ask("recv 02000000005311c009046000004352085208")
    rows.ask("link 0 a")
    rows.ask("recv 02000000005312c00603a101614341")
    rows.ask("send 0 005314c006034340a0010aff", "out 02000000005314c006034343a0010aff")
    rows.ask("send 0 005314c006034340a0010bfe", "out 02000000005314c00703435201a0010bfe")
    said = "recv 02000000005315c00a05414352014200532445"
    rows.ask(said, "out 02000000005315c00a05424352014100532445")
    rows.ask(said, "out 02000000005315c00a05424352014100532445")
    rows.ask("recv 02000000005315c00a05414352014100532445")
    rows.ask(said)
    linked(rows, "What was settled is missing from the next echo: each run has its own, and a second settled disposition prints nothing")
    sends(rows, 0, 1, 2, 3, 4)
    hear(rows, disposition(3, settled=True))
    echoes(rows, disposition(0, 4), (0, 2), (4, 4))
    echoes(rows, disposition(1, 3), (1, 2))
    hear(rows, disposition(1, 3, settled=True))
    hear(rows, disposition(1, 3, settled=True))
    hear(rows, disposition(1, 3))
    echoes(rows, disposition(0, 100), (0, 0), (4, 4))
    linked(rows, "Without a last number the first is meant alone; a range over nothing that is open is not answered")
    sends(rows, 0, 1)
    echoes(rows, disposition(1), (1, 1))
    hear(rows, disposition(2, 5))
    hear(rows, disposition(LAST))
    linked(rows, "A delivery that was settled as it went out, and one that still waits, are not meant", window=2)
    rows.ask("send 0 " + transfer(text="t", settled=True), out(transfer(0, "t", settled=True)))
    sends(rows, 1)
    rows.ask("send 0 " + transfer(text="t"))
    echoes(rows, disposition(0, 2), (1, 1))


def states(rows):
    linked(rows, "An echo has the state that came, terminal or not, and none where none came; it is settled and not batchable")
    sends(rows, 0)
    for state in (RECEIVED, RELEASED, None):
        echoes(rows, disposition(0, state=state, batchable=True), (0, 0), state=state)
    title = "A state of 600 bytes in an echo does not fit the peer's frames of 512 bytes, and what comes next is answered"
    linked(rows, title, peer=opening("a", 512))
    sends(rows, 0, 1)
    hear(rows, disposition(0, 1, state="b000000258" + "78" * 600), "err TooLarge")
    echoes(rows, disposition(0, 1), (0, 1))


def past_the_wrap(rows):
    taken = (LAST - 1, LAST, 0, 1)
    linked(rows, "A range of received deliveries passes the last number: one run, and in the order of the range where one is missing")
    takes(rows, *taken)
    echoes(rows, disposition(LAST - 1, 1, of_receiver=False), (LAST - 1, 1))
    hear(rows, disposition(1, settled=True, of_receiver=False))
    said = disposition(LAST - 1, 1, of_receiver=False)
    hear(rows, said, "out 02000000005315c00d054270fffffffe434100532445")
    takes(rows, 1)
    hear(rows, disposition(LAST - 1, settled=True, of_receiver=False))
    hear(rows, disposition(0, settled=True, of_receiver=False))
    hear(rows, said, "out 02000000005315c011054270ffffffff70ffffffff4100532445", "out 02000000005315c00b0542520152014100532445")
    linked(rows, "A settled range past the last number takes those away that it means")
    takes(rows, *taken)
    hear(rows, disposition(LAST, 0, settled=True, of_receiver=False))
    echoes(rows, disposition(LAST - 5, 5, of_receiver=False), (LAST - 1, LAST - 1), (1, 1))
    linked(rows, "A range over half of the circle or more is backward and means none; a shorter one means what is in it")
    takes(rows, *taken)
    for first, last in [(0, 2**31), (0, LAST), (1, 0), (LAST, LAST - 1), (LAST, 2**31 - 1)]:
        hear(rows, disposition(first, last, settled=True, of_receiver=False))
        hear(rows, disposition(first, last, of_receiver=False))
    echoes(rows, disposition(0, 2**31 - 1, of_receiver=False), (0, 1))
    echoes(rows, disposition(LAST, 2**31 - 2, of_receiver=False), (LAST, 1))


def roles(rows):
    linked(rows, "Deliveries of the same numbers that were sent and that were received are two: each role means its own")
    sends(rows, 0, 1, 2)
    takes(rows, 1, 2, 3)
    echoes(rows, disposition(0, 5), (0, 2))
    echoes(rows, disposition(0, 5, of_receiver=False), (1, 3))
    hear(rows, disposition(1, 2, settled=True, of_receiver=False))
    echoes(rows, disposition(0, 5), (0, 2))
    echoes(rows, disposition(0, 5, of_receiver=False), (3, 3))
    hear(rows, disposition(0, 5, settled=True))
    hear(rows, disposition(0, 5))
    echoes(rows, disposition(0, 5, of_receiver=False), (3, 3))
    linked(rows, "A received delivery is open where its transfer is neither settled nor without a number, nor refused")
    hear(rows, transfer(0, "t", settled=True))
    hear(rows, transfer(None, "t"))
    hear(rows, transfer(2))
    hear(rows, transfer(3, "t", 9), UNATTACHED)
    takes(rows, 4)
    echoes(rows, disposition(0, 9, of_receiver=False), (4, 4))


def several_links(rows):
    linked(rows, "One disposition over deliveries of two links, and of one under whose handle no relay stands, which is not asked")
    rows.ask("link 0 b")
    hear(rows, attach("b", 7))
    sends(rows, 0, 1)
    sends(rows, 2, handle=7)
    sends(rows, 3, handle=9)
    sends(rows, 4)
    echoes(rows, disposition(0, 4), (0, 2), (4, 4))
    hear(rows, detach(0, True), out(detach(0, True)))
    echoes(rows, disposition(0, 4), (2, 2))
    hear(rows, disposition(0, 4, settled=True))
    hear(rows, disposition(0, 4))
    linked(rows, "A delivery whose link is gone stays open, and is echoed again once a relay stands under its handle")
    sends(rows, 0)
    hear(rows, detach(0, True), out(detach(0, True)))
    hear(rows, disposition(0))
    rows.ask("link 0 b")
    hear(rows, attach("b", 0))
    echoes(rows, disposition(0), (0, 0))
    rows.row("Each session has its own deliveries, and its echoes go out on its channel")
    rows.open()
    for number, channel in ((0, 5), (1, 6)):
        rows.begin(number)
        rows.ask(recv(begin(number, 0, 8, 8), channel))
        rows.ask(f"link {number} a")
        rows.ask(recv(attach("a", 0), channel))
    sends(rows, 0)
    for number in (0, 1):
        rows.ask("send 1 " + transfer(text="t"), out(transfer(number, "t"), 1))
    rows.ask(recv(disposition(0, 5, settled=True), 5))
    rows.ask(recv(disposition(0, 5), 6), out(echo(0, 1), 1))
    rows.ask(recv(disposition(0, 5), 5))
    rows.ask(recv(disposition(0, 5), 7), "err NotFound")


def asked_for(rows):
    linked(rows, "A disposition goes out in canonical spelling, and leaves what is open; what stands after it is dropped")
    takes(rows, 0, 1)
    sends(rows, 0)
    for text in [
        disposition(0, 1, True),
        disposition(0),
        disposition(1, 3, False, RECEIVED, batchable=True),
        disposition(LAST, 0, True, None, of_receiver=False),
        disposition(1, 0, True),
    ]:
        rows.ask("send 0 " + text + "ffff", out(text))
    fields = ["5601", "7000000000", "7000000001", "41", "00800000000000000024c00100", "42"]
    size = 4 + sum(map(len, fields)) // 2
    rows.ask(f"send 0 005315d0{size:08x}00000006{''.join(fields)}", out(disposition(0, 1, True, "00800000000000000024c00100")))
    echoes(rows, disposition(0, 1, of_receiver=False), (0, 1))
    echoes(rows, disposition(0), (0, 0))


def outside_mapped(rows):
    rows.row("A disposition goes out before the peer's Begin too")
    rows.open()
    rows.begin(0)
    rows.ask("send 0 " + disposition(0, 1, True), out(disposition(0, 1, True)))
    linked(rows, "After an End of this side's a disposition is echoed, and one that is asked for goes out, until the peer's End comes")
    sends(rows, 0, 1)
    rows.ask("end 0", out(end()))
    echoes(rows, disposition(0, 1), (0, 1))
    rows.ask("send 0 " + disposition(0, 1, True), out(disposition(0, 1, True)))
    hear(rows, end())
    hear(rows, disposition(0, 1), "err NotFound")


def settle(rows, role, first, last="", session=0):
    """This side settles the range by itself: nothing goes out, whatever was open."""
    rows.ask(f"settle {session} {role} {first} {last}".rstrip())


def settled_here(rows):
    linked(rows, "What this side settles by itself is let go, of its role alone; nothing goes out, and a second time nothing is left")
    sends(rows, 0, 1, 2, 3, 4)
    takes(rows, 1, 2, 3)
    settle(rows, "sender", 1, 2)
    echoes(rows, disposition(0, 9), (0, 0), (3, 4))
    echoes(rows, disposition(0, 9, of_receiver=False), (1, 3))
    settle(rows, "receiver", 2)
    settle(rows, "receiver", 2)
    echoes(rows, disposition(0, 9), (0, 0), (3, 4))
    echoes(rows, disposition(0, 9, of_receiver=False), (1, 1), (3, 3))
    hear(rows, disposition(0, 3, settled=True))
    settle(rows, "sender", 0, LAST // 2)
    hear(rows, disposition(0, 9))
    settle(rows, "receiver", 0, 9)
    hear(rows, disposition(0, 9, of_receiver=False))
    linked(rows, "A disposition of this side that settles leaves a received delivery open, until this side lets it go by itself")
    takes(rows, 0, 1)
    rows.ask("send 0 " + disposition(0, 1, True), out(disposition(0, 1, True)))
    echoes(rows, disposition(0, 1, of_receiver=False), (0, 1))
    settle(rows, "receiver", 0, 1)
    hear(rows, disposition(0, 1, of_receiver=False))
    linked(rows, "So does an echo that settles, with what was sent")
    sends(rows, 0, 1)
    echoes(rows, disposition(0, 1), (0, 1))
    settle(rows, "sender", 0, 1)
    hear(rows, disposition(0, 1))
    linked(rows, "A transfer that waits is not open yet: it goes out later, and its delivery is open then", window=1)
    sends(rows, 0)
    rows.ask("send 0 " + transfer(text="t"))
    settle(rows, "sender", 0, 5)
    hear(rows, disposition(0, 5))
    hear(rows, flow(1, 8), out(transfer(1, "t")))
    echoes(rows, disposition(0, 5), (1, 1))


def settled_ranges(rows):
    taken = (LAST - 1, LAST, 0, 1)
    linked(rows, "The range that this side settles may pass the last number")
    takes(rows, *taken)
    settle(rows, "receiver", LAST, 0)
    echoes(rows, disposition(LAST - 5, 5, of_receiver=False), (LAST - 1, LAST - 1), (1, 1))
    linked(rows, "A range over half of the circle or more is backward: this side settles none by it, and what is in a shorter one")
    takes(rows, *taken)
    for first, last in [(0, 2**31), (0, LAST), (1, 0), (LAST, LAST - 1), (LAST, 2**31 - 1)]:
        settle(rows, "receiver", first, last)
        echoes(rows, disposition(LAST - 1, 1, of_receiver=False), (LAST - 1, 1))
    settle(rows, "receiver", LAST, 2**31 - 2)
    echoes(rows, disposition(LAST - 1, 1, of_receiver=False), (LAST - 1, LAST - 1))


def settled_in_each_state(rows):
    rows.row("Before the peer's Begin nothing is open, and nothing is remembered: what goes out later under the number is open")
    rows.open()
    rows.begin(0)
    settle(rows, "sender", 0, 9)
    hear(rows, begin(0, 0, 8, 8))
    rows.ask("link 0 a")
    hear(rows, attach("a", 0))
    sends(rows, 0)
    echoes(rows, disposition(0), (0, 0))
    linked(rows, "After an End of this side's it is let go too, and after the peer's answer nothing is refused")
    sends(rows, 0, 1)
    rows.ask("end 0", out(end()))
    settle(rows, "sender", 0)
    echoes(rows, disposition(0, 1), (1, 1))
    hear(rows, end())
    settle(rows, "sender", 1)
    rows.ask("release 0")
    settle(rows, "sender", 0, 1)
    linked(rows, "After an End of the peer's, and after its answer")
    sends(rows, 0)
    hear(rows, end(), "err RemoteEnded")
    settle(rows, "sender", 0)
    rows.ask("end 0", out(end()))
    settle(rows, "sender", 0)
    settle(rows, "receiver", 0, 9)
    linked(rows, "After a Close of both")
    sends(rows, 0, 1)
    rows.ask("close", OUR_CLOSE)
    settle(rows, "sender", 0)
    echoes(rows, disposition(0, 1), (1, 1))
    rows.ask(recv(closing()))
    settle(rows, "sender", 1)
    hear(rows, disposition(0, 1))


def settled_of_one_session(rows):
    rows.row("What is settled in one session stays open in the other; a number that was never begun is no session")
    rows.open()
    settle_unknown(rows, 0)
    for number, channel in ((0, 5), (1, 6)):
        rows.begin(number)
        rows.ask(recv(begin(number, 0, 8, 8), channel))
        rows.ask(f"link {number} a")
        rows.ask(recv(attach("a", 0), channel))
        rows.ask(f"send {number} " + transfer(text="t"), out(transfer(0, "t"), number))
    settle(rows, "sender", 0, 5, session=1)
    settle_unknown(rows, 2)
    rows.ask(recv(disposition(0, 5), 6))
    rows.ask(recv(disposition(0, 5), 5), out(echo(0, 0)))


def settle_unknown(rows, session):
    for role in ("sender", "receiver"):
        rows.ask(f"settle {session} {role} 0 9", "err NoSession")


def write(rows):
    of_what_was_sent(rows)
    states(rows)
    past_the_wrap(rows)
    roles(rows)
    several_links(rows)
    asked_for(rows)
    outside_mapped(rows)
    settled_here(rows)
    settled_ranges(rows)
    settled_in_each_state(rows)
    settled_of_one_session(rows)
