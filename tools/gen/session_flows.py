"""Rows of flows that a session sends: its own, which open the peer's window again, and those of links (AMQP 1.0 part 2, section 2.7.4)."""

from gen.row import begin, end, flow, refused, transfer

RECEIVED = "recv 5 " + transfer(0, "t") + "6d"
UNATTACHED = refused("UnattachedHandle")


def half_of_the_window(rows):
    """A session flow is due once at least half of the incoming window, rounded down, has come since the last one."""
    for window, half in [(2, 1), (3, 1), (4, 2), (5, 2), (5000, 2500), (5001, 2500)]:
        rows.row(f"With an incoming window of {window} a session flow goes out after {half} transfers and not before, and then not again")
        rows.new(f"Mapped incoming-window={window}")
        if half > 1:
            rows.ask(f"times {half - 1} {RECEIVED}", UNATTACHED)
        rows.ask("session-flow", "none")
        rows.ask(RECEIVED, UNATTACHED)
        rows.ask("session-flow", "out 0 " + flow(half, window, 0, 5000))
        rows.ask("session-flow", "none")
    for window in (0, 1):
        rows.row(f"With an incoming window of {window} a session flow goes out at every call")
        rows.new(f"Mapped incoming-window={window}")
        rows.ask("session-flow", "out 0 " + flow(0, window, 0, 5000))
        rows.ask("session-flow", "out 0 " + flow(0, window, 0, 5000))
        rows.ask(RECEIVED, UNATTACHED)
        rows.ask("session-flow", "out 0 " + flow(1, window, 0, 5000))


def after_a_begin(rows):
    rows.row("Mapped by a Begin of number 0, a session with an incoming window of 2 refuses a transfer for no link but counts it, and a flow goes out")
    rows.new("BeginSent incoming-window=2")
    rows.ask("recv 5 " + begin(0, 0, 8, 8), "ok")
    rows.ask("session-flow", "none")
    rows.ask(RECEIVED, UNATTACHED)
    rows.ask("session-flow", "out 0 005313c00b045201520243700000" + "1388")
    rows.show("Mapped", remote_incoming_window=8, next_incoming_id=1, remote_outgoing_window=7)
    rows.row("The numbers of a session flow: the one that is expected, this side's windows as its settings say, and its next one")
    rows.new("BeginSent channel=3 next-outgoing-id=7 incoming-window=2 outgoing-window=4")
    rows.ask("recv 5 " + begin(0, 99, 1, 8), "ok")
    rows.ask(f"first 0 {transfer(text='a')}70", f"out 3 {transfer(0, 'a')} 70")
    rows.ask(RECEIVED, UNATTACHED)
    rows.ask("session-flow", "out 3 " + flow(100, 2, 8, 4))


def after_an_end(rows):
    rows.row("After an End no session flow goes out, however many came")
    rows.new("Mapped incoming-window=0")
    rows.ask("times 3 " + RECEIVED, UNATTACHED)
    rows.ask("end", "out 0 " + end())
    rows.ask("session-flow", "none")
    rows.show("EndSent", next_incoming_id=3)


def of_links(rows):
    """A link's flow carries the session's numbers, before the peer's Begin too; what the request says of them is not used."""
    of_link = (6, 10, 20, 30)
    rows.row("A link's flow has the session's numbers, and the link's fields as they were asked for")
    rows.new("BeginSent channel=3 next-outgoing-id=7 incoming-window=2 outgoing-window=4")
    rows.ask("flow " + flow(1, 2, 3, 4, *of_link, drain=True, echo=True), "out 3 " + flow(0, 2, 7, 4, *of_link, drain=True, echo=True))
    rows.ask("recv 5 " + begin(0, 99, 1, 8), "ok")
    rows.ask("flow " + flow(1, 2, 3, 4, *of_link, drain=True, echo=True), "out 3 " + flow(99, 2, 7, 4, *of_link, drain=True, echo=True))
    rows.ask("flow " + flow(1, 2, 3, 4, 6), "out 3 " + flow(99, 2, 7, 4, 6))
    rows.show("Mapped", next_outgoing_id=7, remote_incoming_window=1, next_incoming_id=99, remote_outgoing_window=8)
    rows.row("A link's flow is no session flow: what came since the last one still counts")
    rows.new("Mapped incoming-window=2")
    rows.ask(RECEIVED, UNATTACHED)
    rows.ask("flow " + flow(None, 0, 0, 0, 6), "out 0 " + flow(1, 2, 0, 5000, 6))
    rows.ask("session-flow", "out 0 " + flow(1, 2, 0, 5000))


def write(rows):
    half_of_the_window(rows)
    after_a_begin(rows)
    after_an_end(rows)
    of_links(rows)
