"""Rows of transfers that go out: in order, within the window, each delivery numbered once (AMQP 1.0 part 2, sections 2.5.6 and 2.6.14)."""

from gen.row import flow, refused, transfer

ILLEGAL = refused("IllegalState")


def out(delivery_id, tag=None, payload="70"):
    """The line of a transfer on handle 0 that goes out."""
    return f"out 0 {transfer(delivery_id, tag)} {payload}"


def first(tag, payload="70"):
    return f"first 0 {transfer(text=tag)}{payload}"


def later(tag=None, payload="70"):
    return f"later 0 {transfer(text=tag)}{payload}"


def in_order(rows):
    rows.row("Two deliveries wait, of three frames and of one; a flow lets all four frames out in order")
    rows.new("Mapped")
    rows.ask(first("a", "01"), "none")
    rows.ask(later(None, "02"), "none")
    rows.ask(later(None, "03"), "none")
    rows.ask(first("b", "04"), "none")
    rows.show("Mapped", held_back=4)
    rows.ask("recv 5 " + flow(0, 8), "list", out(0, "a", "01"), out(None, None, "02"), out(None, None, "03"), out(1, "b", "04"))
    rows.show("Mapped", next_outgoing_id=4, remote_incoming_window=4, remote_outgoing_window=8, open_deliveries=2)


def numbers(rows):
    rows.row("Four deliveries over seven frames have the numbers 0 to 3, each on its first frame alone")
    rows.new("Mapped")
    rows.ask("recv 5 " + flow(0, 7), "none")
    delivery = 0
    for kind in "firstNN first first N first".replace("first", "F").replace(" ", ""):
        if kind == "F":
            rows.ask(first("d"), out(delivery, "d"))
            delivery += 1
        else:
            rows.ask(later(), out(None))
    rows.show("Mapped", next_outgoing_id=7, remote_outgoing_window=8, open_deliveries=4)
    rows.row("A later frame has no delivery-id, whatever it came with; a tag that it came with stays, and opens no delivery")
    rows.new("Mapped")
    rows.ask("recv 5 " + flow(0, 8), "none")
    rows.ask(f"later 0 {transfer(77, 't')}70", out(None, "t"))
    rows.show("Mapped", next_outgoing_id=1, remote_incoming_window=7, remote_outgoing_window=8)
    rows.ask(f"first 0 {transfer(77, 't')}70", out(0, "t"))
    rows.show("Mapped", next_outgoing_id=2, remote_incoming_window=6, remote_outgoing_window=8, open_deliveries=1)


def other_fields(rows):
    rows.row("Every other field and the payload go out as they came, on the session's channel")
    rows.new("Mapped channel=3")
    rows.ask("recv 5 " + flow(0, 8), "none")
    rows.ask(f"first 5 {transfer(None, 't', 6, 0, False, True)}0102", f"out 3 {transfer(0, 't', 6, 0, False, True)} 0102")
    rows.ask(f"later 5 {transfer(None, None, 6)}", f"out 3 {transfer(None, None, 6)}")


def tags(rows):
    for window in (0, 8):
        rows.row(f"The first transfer of a delivery needs a tag, at a window of {window} too; a refused one takes no number")
        rows.new("Mapped")
        rows.ask(f"recv 5 {flow(0, window)}", "none")
        rows.ask(f"first 0 {transfer()}70", ILLEGAL)
        rows.show("Mapped", remote_incoming_window=window, remote_outgoing_window=8)
        rows.ask(first("t"), out(0, "t") if window else "none")


def settled(rows):
    """A delivery that is settled as it goes out is not open."""
    asked = [transfer(text="t", settled=it) for it in (True, None, False)]
    gone = [f"out 0 {transfer(i, 't', settled=it)} 70" for i, it in enumerate((True, None, False))]
    rows.row("A delivery that is settled as it goes out is not open; one that says nothing of it, or that it is not, is open")
    rows.new("Mapped")
    rows.ask("recv 5 " + flow(0, 8), "none")
    for text, answer in zip(asked, gone):
        rows.ask(f"first 4 {text}70", answer)
    rows.show("Mapped", next_outgoing_id=3, remote_incoming_window=5, remote_outgoing_window=8, open_deliveries=2)
    rows.row("The same where the three wait first: none is open before it goes out")
    rows.new("Mapped")
    for text in asked:
        rows.ask(f"first 4 {text}70", "none")
    rows.show("Mapped", held_back=3)
    rows.ask("recv 5 " + flow(0, 8), "list", *gone)
    rows.show("Mapped", next_outgoing_id=3, remote_incoming_window=5, remote_outgoing_window=8, open_deliveries=2)


def after(rows, gone, window, held):
    """So many deliveries of one frame have gone out, in a window that was so large, and so many wait."""
    rows.show(
        "Mapped",
        next_outgoing_id=gone,
        remote_incoming_window=window - gone,
        remote_outgoing_window=8,
        held_back=held,
        open_deliveries=gone,
    )


def by_flows(rows):
    """So many wait, a flow grants so many: what goes out is a list exactly where one waited and the window is above 0."""
    for held, window in [(0, 0), (0, 3), (1, 0), (1, 1), (2, 1), (2, 3)]:
        gone = min(held, window)
        rows.row(f"{held} wait, and a flow grants {window}: {gone} go out")
        rows.new("Mapped")
        for i in range(held):
            rows.ask(first("abc"[i]), "none")
        handed = ["list"] + [out(i, "abc"[i]) for i in range(gone)] if gone else ["none"]
        rows.ask(f"recv 5 {flow(0, window)}", *handed)
        after(rows, gone, window, held - gone)


def by_transfers(rows):
    """A window opens while so many wait, by a flow that is refused; a transfer goes out alone as one frame where none waited, and else
    after those that did."""
    for held, window in [(0, 0), (0, 3), (1, 0), (1, 1), (1, 2), (2, 2)]:
        gone = min(held + 1, window)
        rows.row(f"{held} wait, the window is {window}, and one more is asked for: {gone} go out")
        rows.new("Mapped")
        for i in range(held):
            rows.ask(first("abc"[i]), "none")
        rows.ask(f"recv 5 {flow(0, window, 0, 8, 9)}", refused("UnattachedHandle"))
        lines = [out(i, "abc"[i]) for i in range(gone)]
        handed = ["none"] if not gone else lines if not held else ["list"] + lines
        rows.ask(first("abc"[held]), *handed)
        after(rows, gone, window, held + 1 - gone)


def write(rows):
    in_order(rows)
    numbers(rows)
    other_fields(rows)
    tags(rows)
    settled(rows)
    by_flows(rows)
    by_transfers(rows)
