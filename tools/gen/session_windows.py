"""Rows of the peer's window, which says how many transfers may still go out (AMQP 1.0 part 2, section 2.5.6)."""

from gen.row import begin, end, flow, refused, transfer

ILLEGAL = refused("IllegalState")
UNATTACHED = refused("UnattachedHandle")


def outstanding(rows):
    """The window that is left: the flow's, less what went out since the number that the flow expects, modulo 2^32."""
    for title, from_id, width, left in [
        ("Next is 3, the peer expects 4294967294 and grants 10: five are on the way, five are left", 4294967294, 10, 5),
        ("Next is 3, the peer expects 10 and grants 5: 4294967289 are on the way, none is left", 10, 5, 0),
        ("Next is 3, the peer expects 4 and grants 4294967295: as many are on the way, none is left", 4, 4294967295, 0),
        ("Next is 3, the peer expects 5 and grants 4294967295: one is left", 5, 4294967295, 1),
        ("Next is 3, the peer expects 3 and grants 4294967295: all are left", 3, 4294967295, 4294967295),
        ("Next is 3, the peer expects 0 and grants 3: none is left", 0, 3, 0),
    ]:
        rows.row(title)
        rows.new("Mapped next-outgoing-id=3")
        rows.ask("recv 5 " + flow(from_id, width), "none")
        rows.show("Mapped", next_outgoing_id=3, remote_incoming_window=left, remote_outgoing_window=8)


def without_a_number(rows):
    """A flow that expects no number counts from the first number of the session, not from its next one."""
    rows.row("A flow without a number counts from the session's first number")
    rows.new("Mapped next-outgoing-id=4294967294")
    rows.ask("recv 5 " + flow(None, 4), "none")
    rows.show("Mapped", next_outgoing_id=4294967294, remote_incoming_window=4, remote_outgoing_window=8)
    for tag in "abc":
        delivery = "abc".index(tag)
        rows.ask(f"first 0 {transfer(text=tag)}70", f"out 0 {transfer(delivery, tag)} 70")
    rows.ask("recv 5 " + flow(None, 4), "none")
    rows.show("Mapped", next_outgoing_id=1, remote_incoming_window=1, remote_outgoing_window=8, open_deliveries=3)


def past_the_wrap(rows):
    """The peer's Begin grants four, and the fourth transfer has the number 1."""
    rows.row("A Begin grants a window of four at 4294967294; the numbers wrap, and flows count on from there")
    rows.new("BeginSent next-outgoing-id=4294967294")
    rows.ask("recv 5 " + begin(0, 0, 4, 8), "ok")
    for tag in "abcd":
        delivery = "abcd".index(tag)
        rows.ask(f"first 0 {transfer(text=tag)}70", f"out 0 {transfer(delivery, tag)} 70")
    rows.show("Mapped", next_outgoing_id=2, remote_outgoing_window=8, open_deliveries=4)
    rows.ask("recv 5 " + flow(0, 3), "none")
    rows.show("Mapped", next_outgoing_id=2, remote_incoming_window=1, remote_outgoing_window=8, open_deliveries=4)
    rows.ask("recv 5 " + flow(None, 4), "none")
    rows.show("Mapped", next_outgoing_id=2, remote_outgoing_window=8, open_deliveries=4)


def refused_flows(rows):
    """A flow for a handle that nothing is attached to is refused, and its window counts."""
    rows.row("A flow for a handle without a link is refused, lets nothing out, and its window counts for the next transfer")
    rows.new("Mapped")
    rows.ask("recv 5 " + flow(0, 1), "none")
    rows.ask(f"first 0 {transfer(text='a')}ff", f"out 0 {transfer(0, 'a')} ff")
    rows.ask(f"first 0 {transfer(text='b')}fe", "none")
    rows.ask("recv 5 " + flow(1, 2, 0, 8, 9), UNATTACHED)
    rows.show("Mapped", next_outgoing_id=1, remote_incoming_window=2, remote_outgoing_window=8, held_back=1, open_deliveries=1)
    rows.ask(f"first 0 {transfer(text='c')}fd", "list", f"out 0 {transfer(1, 'b')} fe", f"out 0 {transfer(2, 'c')} fd")
    rows.show("Mapped", next_outgoing_id=3, remote_outgoing_window=8, open_deliveries=3)


def before_and_after(rows):
    """Flows count before the peer's Begin and after this side's End, but nothing goes out there."""
    rows.row("Before the peer's Begin a flow counts, and no transfer is taken")
    rows.new("BeginSent")
    rows.ask("recv 5 " + flow(0, 2), "none")
    rows.show("BeginSent", remote_incoming_window=2, remote_outgoing_window=8)
    rows.ask(f"first 0 {transfer(text='a')}ff", ILLEGAL)
    rows.show("BeginSent", remote_incoming_window=2, remote_outgoing_window=8)
    rows.row("A window of 1 is used up, a transfer waits, and this side ends: a flow then lets nothing out, and no transfer is taken")
    rows.new("BeginSent")
    rows.ask("recv 5 " + begin(0, 0, 1, 8), "ok")
    rows.ask(f"first 0 {transfer(text='a')}ff", f"out 0 {transfer(0, 'a')} ff")
    rows.ask(f"first 0 {transfer(text='b')}fe", "none")
    rows.ask("end", "out 0 " + end())
    rows.ask("recv 5 " + flow(1, 1), "none")
    rows.show("EndSent", next_outgoing_id=1, remote_incoming_window=1, remote_outgoing_window=8, held_back=1, open_deliveries=1)
    rows.ask(f"first 0 {transfer(text='c')}fd", ILLEGAL)
    rows.show("EndSent", next_outgoing_id=1, remote_incoming_window=1, remote_outgoing_window=8, held_back=1, open_deliveries=1)


def received_transfers(rows):
    """What comes is counted: the number grows by 1 and wraps, the peer's own window falls to 0 and not below."""
    rows.row("Received transfers are counted past the wrap, and the peer's outgoing window does not fall below 0")
    rows.new("Mapped next-outgoing-id=7")
    rows.ask("recv 5 " + flow(7, 0, 4294967295, 1), "none")
    rows.ask("recv 5 " + transfer(0, "t") + "6d", UNATTACHED)
    rows.show("Mapped", next_outgoing_id=7)
    rows.ask("recv 5 " + transfer(1, "t") + "6d", UNATTACHED)
    rows.show("Mapped", next_outgoing_id=7, next_incoming_id=1)


def write(rows):
    outstanding(rows)
    without_a_number(rows)
    past_the_wrap(rows)
    refused_flows(rows)
    before_and_after(rows)
    received_transfers(rows)
