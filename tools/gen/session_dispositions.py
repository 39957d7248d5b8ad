"""Rows of dispositions: the open deliveries that they mean, the echoes, the counts of the walk, and the peer's window (AMQP 1.0 part 2,
sections 2.6.12 and 2.7.6).

A relay of the program asks for an echo of an unsettled disposition where that has no state, or the tag does not begin with `n`.
"""

from gen.row import ACCEPTED, LAST, RECEIVED, REJECTED, RELEASED, begin, detach, disposition, echo, flow, transfer
from gen.session_links import attach
from gen.session_states import PATHS, STATES

HALF = 2**31


def linked(rows, title):
    """A mapped session whose link a is attached under 0; a link under 4 asks for no echo."""
    rows.row(title)
    rows.new("Mapped")
    rows.ask("recv 7 " + flow(0, 100), "none")
    rows.ask("link-incoming 0 a", "handle 0")
    rows.ask("link-deaf 4 d", "handle 1")


def received(rows, *numbers, tag="y", handle=0):
    """Deliveries of the peer's come."""
    for number in numbers:
        rows.ask(f"recv 7 {transfer(number, tag, handle)}6d", "none")


def sent(rows, *numbers, tag="y", handle=0):
    """Deliveries go out under these numbers, which follow those before."""
    for number in numbers:
        rows.ask(f"first {handle} {transfer(text=tag)}6d", f"out 0 {transfer(number, tag)} 6d")


def settles(rows, first, last=None, of_receiver=False):
    rows.ask("recv 7 " + disposition(first, last, True, ACCEPTED, of_receiver), "none")


def echoes(rows, first, last, *runs, state=ACCEPTED, of_receiver=False):
    """An unsettled disposition of this range has an echo for each of these runs."""
    answers = ["disposition " + echo(*run, state) for run in runs]
    rows.ask("recv 7 " + disposition(first, last, False, state, of_receiver), "list", *answers)


def walked(rows, meant, of):
    """The walk read each record that was meant, and at most one more; so many records were there."""
    rows.ask(f"walk {meant} {meant + 1} {of.bit_length() + 1}", "ok")


def runs(rows):
    linked(rows, "Of 1 to 5, 4 is not asked for: two echoes, and all five stay open")
    rows.ask("first 0 " + transfer(text="y", settled=True), "out 0 " + transfer(0, "y", settled=True))
    sent(rows, 1, 2, 3)
    sent(rows, 4, tag="n")
    sent(rows, 5)
    said = "recv 7 005315c00b0541520152054200532445"
    rows.ask(said, "list", "disposition 005315c00b05425201520341" + ACCEPTED, "disposition 005315c00b05425205520541" + ACCEPTED)
    walked(rows, 5, 5)
    rows.ask(said, "list", "disposition " + echo(1, 3), "disposition " + echo(5, 5))
    rows.show(
        "Mapped", next_outgoing_id=6, remote_incoming_window=94, remote_outgoing_window=8, open_deliveries=5
    )
    linked(rows, "Each run ends where a number is missing or is not asked for, and where the range does")
    received(rows, 0, 2, 3, 5, 6, 7, 10)
    received(rows, 8, 9, tag="n")
    echoes(rows, 0, 10, (0, 0), (2, 3), (5, 7), (10, 10))
    echoes(rows, 6, 9, (6, 7))
    echoes(rows, 8, 9)
    echoes(rows, 4, 4)
    echoes(rows, 6, None, (6, 6))
    echoes(rows, 0, 10, (0, 0), (2, 3), (5, 10), state=None)
    walked(rows, 9, 9)


def relays(rows):
    linked(rows, "The relay of each delivery's own input handle is asked; one that asks for none, and none at all, leave it out")
    received(rows, 0, 2)
    received(rows, 1, handle=4)
    echoes(rows, 0, 2, (0, 0), (2, 2))
    sent(rows, 0, 1)
    sent(rows, 2, handle=4)
    sent(rows, 3, handle=9)
    sent(rows, 4)
    echoes(rows, 0, 4, (0, 1), (4, 4), of_receiver=True)
    rows.ask("link-incoming 4 b", "handle 2")
    echoes(rows, 0, 4, (0, 2), (4, 4), of_receiver=True)
    rows.ask("recv 7 " + detach(0), "detach " + detach(0))
    echoes(rows, 0, 4, (2, 2), of_receiver=True)
    echoes(rows, 0, 4, (1, 1))
    settles(rows, 0, 4)
    rows.show(
        "Mapped", next_outgoing_id=5, remote_incoming_window=95, next_incoming_id=3, remote_outgoing_window=5, open_deliveries=5
    )
    linked(rows, "A number that comes again is open once, under the handle and with the tag that came last")
    received(rows, 3, tag="n")
    received(rows, 3)
    echoes(rows, 3, None, (3, 3))
    received(rows, 3, handle=4)
    echoes(rows, 3, None)
    rows.show("Mapped", remote_incoming_window=100, next_incoming_id=3, remote_outgoing_window=5, open_deliveries=1)
    settles(rows, 3)
    rows.show("Mapped", remote_incoming_window=100, next_incoming_id=3, remote_outgoing_window=5)


def around_the_circle(rows):
    taken = (LAST - 1, LAST, 0, 1)
    for tags, wanted in [
        ("yyyn", ["0d05" + "4270fffffffe4341"]),
        ("nyny", ["11054270ffffffff70ffffffff41", "0b0542520152" + "0141"]),
    ]:
        linked(rows, f"A range passes the last number, and the tags of four deliveries are {tags}")
        for number, tag in zip(taken, tags):
            received(rows, number, tag=tag)
        said = "recv 7 " + disposition(LAST - 1, 1, of_receiver=False)
        rows.ask(said, "list", *(f"disposition 005315c0{text}{ACCEPTED}" for text in wanted))
        walked(rows, 4, 4)
        settles(rows, LAST, 0)
        walked(rows, 2, 4)
        echoes(rows, LAST - 1, 1, (LAST - 1, LAST - 1), (1, 1), state=None)
        walked(rows, 2, 2)
    linked(rows, "A range over half of the circle or more is backward: nothing is meant, read or compared")
    received(rows, *taken)
    for first, last in [(0, HALF), (0, LAST), (3, 1), (1, 0), (LAST, HALF - 1), (HALF, 0)]:
        settles(rows, first, last)
        rows.ask("walk 0 0 0", "ok")
        echoes(rows, first, last)
        rows.ask("walk 0 0 0", "ok")
    rows.show("Mapped", remote_incoming_window=100, next_incoming_id=4, remote_outgoing_window=4, open_deliveries=4)
    linked(rows, "Two are open, and the range is as long as a range can be; what is opposite on the circle is not in it")
    received(rows, 0, HALF)
    echoes(rows, 0, HALF - 1, (0, 0))
    walked(rows, 1, 2)
    echoes(rows, 1, HALF, (HALF, HALF))
    echoes(rows, HALF + 1, 0, (0, 0))
    settles(rows, HALF, LAST)
    echoes(rows, HALF, LAST)
    settles(rows, 0, HALF - 1)
    rows.show("Mapped", remote_incoming_window=100, next_incoming_id=2, remote_outgoing_window=6)


def walks(rows):
    linked(rows, "The counts are 0 before the first disposition, and at most 1 where nothing is open")
    rows.ask("walk 0 0 0", "ok")
    settles(rows, 7)
    walked(rows, 0, 0)
    echoes(rows, 0, HALF - 1)
    walked(rows, 0, 0)
    linked(rows, "Two are open in a range of half the circle: two turns or three, three comparisons at most; no other call counts")
    received(rows, 5, 90)
    received(rows, HALF)
    echoes(rows, 0, HALF - 1, (5, 5), (90, 90))
    rows.ask("walk 2 3 3", "ok")
    rows.ask("disposition " + disposition(0), "out 0 " + disposition(0))
    received(rows, 7)
    rows.ask("walk 2 3 3", "ok")
    settles(rows, 0, HALF - 1, of_receiver=True)
    walked(rows, 0, 0)
    settles(rows, 0, HALF - 1)
    walked(rows, 3, 4)
    linked(rows, "Of twenty that are open, those in the middle are meant: the others are not read")
    received(rows, *range(20))
    settles(rows, 5, 7)
    walked(rows, 3, 20)
    echoes(rows, 6, 12, (8, 12))
    walked(rows, 5, 17)
    settles(rows, 18, 40)
    walked(rows, 2, 17)


def windows(rows):
    rows.row("A disposition that goes out with a terminal state opens the peer's window again, by its number of messages and to 4294967295")
    rows.new("BeginSent channel=3")
    rows.ask("recv 7 " + begin(0, 0, 8, 8), "ok")
    window = 8
    for first, last, state, more in [
        (1, 3, ACCEPTED, 3),
        (1, 3, RECEIVED, 0),
        (1, 3, None, 0),
        (4, None, RELEASED, 1),
        (LAST, 0, REJECTED, 2),
        (3, 1, ACCEPTED, 1),
        (0, HALF, ACCEPTED, 1),
        (0, HALF - 1, ACCEPTED, HALF),
        (0, HALF - 1, RECEIVED, 0),
        (5, HALF + 4, ACCEPTED, HALF),
        (1, None, ACCEPTED, 1),
    ]:
        said = disposition(first, last, True, state)
        rows.ask("disposition " + said, "out 3 " + said)
        window = min(window + more, LAST)
        rows.show("Mapped", remote_incoming_window=8, remote_outgoing_window=window)
    rows.row("How many messages a range settles")
    for first, last, count in [
        (1, 3, 3),
        (1, "", 1),
        (3, 3, 1),
        (3, 1, 1),
        (0, LAST, 1),
        (LAST, 0, 2),
        (LAST, LAST, 1),
        (0, HALF - 1, HALF),
        (0, HALF, 1),
        (LAST, HALF - 2, HALF),
        (LAST, HALF - 1, 1),
    ]:
        rows.ask(f"messages {first} {last}".rstrip(), str(count))


def in_every_state(rows):
    """Dispositions ask for no state."""
    for state in STATES:
        rows.row(f"In {state}, of deliveries that were opened in Mapped: an echo, a disposition that goes out, and a settled one")
        rows.new("Mapped")
        rows.ask("link a", "handle 0")
        rows.ask("recv 7 " + attach("a", 0), "ok")
        received(rows, 1, 2)
        for line, answer in PATHS[state]:
            rows.ask(line, answer)
        echoes(rows, 0, 2, (1, 2))
        rows.ask("disposition " + disposition(0), "out 0 " + disposition(0))
        settles(rows, 0, 1)
        echoes(rows, 0, 2, (2, 2))


def lets_go(rows, count, first, last="", role="receiver"):
    """This side settles the range by itself: so many open deliveries are let go."""
    rows.ask(f"settle {role} {first} {last}".rstrip(), str(count))


def settled_here(rows):
    linked(rows, "This side settles by itself: the deliveries of the range that are open are let go and counted, of one role alone")
    received(rows, 1, 2, 3, 5)
    sent(rows, 0, 1, 2, 3)
    lets_go(rows, 2, 2, 4)
    echoes(rows, 0, 9, (1, 1), (5, 5))
    echoes(rows, 0, 9, (0, 3), of_receiver=True)
    lets_go(rows, 0, 2, 4)
    lets_go(rows, 3, 1, 9, role="sender")
    echoes(rows, 0, 9, (0, 0), of_receiver=True)
    echoes(rows, 0, 9, (1, 1), (5, 5))
    lets_go(rows, 2, 0, HALF - 1)
    lets_go(rows, 1, 0, role="sender")
    rows.show("Mapped", next_outgoing_id=4, remote_incoming_window=96, next_incoming_id=4, remote_outgoing_window=4)
    linked(rows, "Where no last is named the first is meant alone, and what was let go may come again")
    received(rows, 4, 5, 6)
    lets_go(rows, 1, 5)
    lets_go(rows, 0, 5)
    lets_go(rows, 1, 6, 6)
    received(rows, 5)
    echoes(rows, 0, 9, (4, 5))
    lets_go(rows, 0, 7)
    for kept in [(LAST - 3, LAST - 2), (2, 7)]:
        linked(rows, f"A range passes the last number, and what is on both sides of it goes but {kept[0]} and {kept[1]}")
        received(rows, LAST - 1, LAST, 0, 1, *kept)
        lets_go(rows, 4, LAST - 1, 1)
        echoes(rows, kept[0], kept[1], *([kept] if kept[0] + 1 == kept[1] else [(kept[0], kept[0]), (kept[1], kept[1])]))
        lets_go(rows, 2, LAST - 3, 7)
    linked(rows, "A range may end at the last number, or begin at 0")
    received(rows, LAST - 1, LAST, 0, 1)
    lets_go(rows, 2, LAST - 1, LAST)
    echoes(rows, LAST - 1, 1, (0, 1))
    lets_go(rows, 2, 0, 1)
    received(rows, LAST, 0)
    lets_go(rows, 1, LAST)
    lets_go(rows, 1, 0)
    linked(rows, "A range over half of the circle or more is backward: none is let go")
    received(rows, LAST - 1, LAST, 0, 1)
    for first, last in [(0, HALF), (0, LAST), (3, 1), (1, 0), (LAST, HALF - 1), (HALF, 0)]:
        lets_go(rows, 0, first, last)
        lets_go(rows, 0, first, last, role="sender")
    lets_go(rows, 4, HALF + 2, 1)
    linked(rows, "It counts in no walk, and leaves windows and links")
    received(rows, *range(20))
    echoes(rows, 3, 5, (3, 5))
    walked(rows, 3, 20)
    lets_go(rows, 12, 4, 15)
    lets_go(rows, 0, 4, 15)
    walked(rows, 3, 20)
    rows.show("Mapped", remote_incoming_window=100, next_incoming_id=20, open_deliveries=8)
    received(rows, 20)
    echoes(rows, 0, 30, (0, 3), (16, 20))
    rows.row("No link, and nothing open: none is let go")
    rows.new("Mapped")
    lets_go(rows, 0, 0, HALF - 1)
    lets_go(rows, 0, 7, role="sender")
    for state in STATES:
        rows.row(f"In {state} this side settles deliveries that were opened in Mapped")
        rows.new("Mapped")
        rows.ask("recv 7 " + flow(0, 100), "none")
        rows.ask("link a", "handle 0")
        rows.ask("recv 7 " + attach("a", 0), "ok")
        received(rows, 1, 2)
        sent(rows, 0, 1)
        for line, answer in PATHS[state]:
            rows.ask(line, answer.replace(begin(), begin(None, 2)))
        lets_go(rows, 1, 2, 5)
        lets_go(rows, 1, 0, role="sender")
        echoes(rows, 0, 5, (1, 1))
        echoes(rows, 0, 5, (1, 1), of_receiver=True)


def write(rows):
    runs(rows)
    relays(rows)
    around_the_circle(rows)
    walks(rows)
    windows(rows)
    in_every_state(rows)
    settled_here(rows)
