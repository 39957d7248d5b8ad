"""Rows of the states of a session: every call in every state (AMQP 1.0 part 2, section 2.5.5), and how sessions begin and end."""

from gen.row import begin, end, flow, refused, transfer

STATES = ["Unmapped", "BeginSent", "BeginReceived", "Mapped", "EndSent", "EndReceived", "Discarding"]

# the state before, and the state after; any other state refuses the call
SENDS_BEGIN = {"Unmapped": "BeginSent", "BeginReceived": "Mapped"}
TAKES_BEGIN = {"Unmapped": "BeginReceived", "BeginSent": "Mapped"}
SENDS_END = {"Mapped": "EndSent", "EndReceived": "Unmapped"}
SENDS_END_WITH_ERROR = {"Mapped": "Discarding", "EndReceived": "Unmapped"}
TAKES_END = dict.fromkeys(["BeginSent", "BeginReceived", "Mapped"], "EndReceived") | dict.fromkeys(["EndSent", "Discarding"], "Unmapped")

# the states in which this side has sent its End, so that the peer's End answers it
ENDED_HERE = ["EndSent", "Discarding"]

ILLEGAL = refused("IllegalState")
UNATTACHED = refused("UnattachedHandle")
CONDITION = "amqp:not-found"
GIVEN = {"next_incoming_id": 6, "remote_incoming_window": 3, "remote_outgoing_window": 8}


def state_calls(rows, state):
    """The calls that move the state."""
    def moves(line, table, answer, **numbers):
        rows.new(state)
        rows.ask(line, answer if state in table else ILLEGAL)
        rows.show(table.get(state, state), **(numbers if state in table else {}))

    moves("begin", SENDS_BEGIN, "out 0 " + begin())
    moves("recv 7 " + begin(0, 6, 3, 8), TAKES_BEGIN, "ok", **GIVEN)
    moves("end", SENDS_END, "out 0 " + end())
    moves("end " + CONDITION, SENDS_END_WITH_ERROR, "out 0 " + end(CONDITION))
    moves("recv 7 " + end(), TAKES_END, "ok" if state in ENDED_HERE else refused("RemoteEnded"))
    moves("recv 7 " + end(CONDITION), TAKES_END, refused("RemoteEndedWithError", CONDITION))


def transfer_calls(rows, state):
    """Transfers are taken in Mapped alone, and wait there for the peer's window; a first one needs a tag."""
    is_mapped = state == "Mapped"
    for line, is_taken in [
        ("first 0 " + transfer(text="t") + "70", is_mapped),
        ("first 0 " + transfer() + "70", False),
        ("later 0 " + transfer() + "70", is_mapped),
        ("later 0 " + transfer(text="t") + "70", is_mapped),
    ]:
        rows.new(state)
        rows.ask(line, "none" if is_taken else ILLEGAL)
        rows.show(state, held_back=1 if is_taken else 0)


def received_calls(rows, state):
    """What comes is counted in every state."""
    rows.new(state)
    rows.ask("recv 7 " + flow(0, 3, 6, 8), "none")
    rows.show(state, **GIVEN)
    rows.ask("recv 7 " + flow(0, 2, 7, 9, 4), UNATTACHED)
    rows.show(state, next_incoming_id=7, remote_incoming_window=2, remote_outgoing_window=9)
    rows.ask("recv 7 " + transfer(0, "t") + "70", UNATTACHED)
    rows.show(state, next_incoming_id=8, remote_incoming_window=2, remote_outgoing_window=8)


def sent_flows(rows, state):
    """A link's flow goes out in every state, a flow of the session in Mapped alone; with a window of 0 it is always due."""
    rows.new(state + " incoming-window=0")
    rows.ask("flow " + flow(None, 0, 0, 0, 4), "out 0 " + flow(0, 0, 0, 5000, 4))
    rows.ask("session-flow", "out 0 " + flow(0, 0, 0, 5000) if state == "Mapped" else "none")
    rows.show(state)


def each_call(rows):
    for state in STATES:
        rows.row(f"In {state}: the calls that move the state")
        state_calls(rows, state)
        rows.row(f"In {state}: transfers that are to go out")
        transfer_calls(rows, state)
        rows.row(f"In {state}: flows and transfers that come")
        received_calls(rows, state)
        rows.row(f"In {state}: flows that go out")
        sent_flows(rows, state)


# how a mapped session comes into a state: its calls and their answers
PATHS = {
    "Mapped": [],
    "EndSent": [("end", "out 0 " + end())],
    "Discarding": [("end " + CONDITION, "out 0 " + end(CONDITION))],
    "EndReceived": [("recv 7 " + end(), refused("RemoteEnded"))],
    "Unmapped": [("end", "out 0 " + end()), ("recv 7 " + end(), "ok")],
}
PATHS["BeginSent"] = PATHS["Unmapped"] + [("begin", "out 0 " + begin())]
PATHS["BeginReceived"] = PATHS["Unmapped"] + [("recv 7 " + begin(0, 0, 0, 8), "ok")]


def what_waited(rows):
    """A transfer waits; a flow then lets it out in Mapped alone, though the window moves in every state."""
    for state in STATES:
        rows.row(f"A transfer waits, the session comes to {state}, and a flow grants a window of 1")
        rows.new("Mapped")
        rows.ask("first 0 " + transfer(text="t") + "70", "none")
        for line, answer in PATHS[state]:
            rows.ask(line, answer)
        if state == "Mapped":
            rows.ask("recv 7 " + flow(0, 1), "list", "out 0 " + transfer(0, "t") + " 70")
            rows.show(state, next_outgoing_id=1, remote_outgoing_window=8, open_deliveries=1)
        else:
            rows.ask("recv 7 " + flow(0, 1), "none")
            rows.show(state, remote_incoming_window=1, remote_outgoing_window=8, held_back=1)


def begins(rows):
    """What a Begin says."""
    rows.row("A Begin of default settings: number 0, windows of 5000, any handle, and nothing else")
    rows.new("Unmapped")
    rows.ask("begin", "out 0 005311c00d04404370000013887000001388")
    rows.row("A Begin names the settings, on the session's channel, and goes out once")
    rows.new("Unmapped channel=3 next-outgoing-id=7 incoming-window=2 outgoing-window=4 handle-max=9 offered=x desired=y")
    rows.ask("begin", "out 3 " + begin(None, 7, 2, 4, 9, "x", "y"))
    rows.show("BeginSent", next_outgoing_id=7)
    rows.ask("begin", ILLEGAL)
    rows.row("A Begin that answers the peer's names the channel on which that came, and the peer's numbers stay")
    rows.new("Unmapped channel=3 next-outgoing-id=7 incoming-window=2")
    rows.ask("recv 6 " + begin(None, 11, 5, 8), "ok")
    rows.show("BeginReceived", next_outgoing_id=7, remote_incoming_window=5, next_incoming_id=11, remote_outgoing_window=8)
    rows.ask("begin", "out 3 " + begin(6, 7, 2))
    rows.show("Mapped", next_outgoing_id=7, remote_incoming_window=5, next_incoming_id=11, remote_outgoing_window=8)
    rows.row("A second Begin of the peer's is refused, and changes no number")
    rows.new("BeginSent")
    rows.ask("recv 5 " + begin(0, LAST_ID, 6, 8), "ok")
    rows.ask("recv 9 " + begin(0, 1, 100, 9), ILLEGAL)
    rows.show("Mapped", remote_incoming_window=6, next_incoming_id=LAST_ID, remote_outgoing_window=8)


LAST_ID = 4294967295


def begins_again(rows):
    """A session that ended on both sides may begin again; what waited then waits until a transfer or a flow lets it out."""
    rows.row("After both Ends a session begins again: its Begin names the next number, and a Begin of the peer's lets nothing out")
    rows.new("Mapped")
    rows.ask("recv 5 " + flow(0, 1), "none")
    rows.ask("first 0 " + transfer(text="a") + "70", "out 0 " + transfer(0, "a") + " 70")
    rows.ask("first 0 " + transfer(text="b") + "71", "none")
    rows.ask("end", "out 0 " + end())
    rows.ask("recv 5 " + end(), "ok")
    rows.ask("begin", "out 0 " + begin(None, 1))
    rows.ask("recv 6 " + begin(0, 3, 4, 8), "ok")
    told = {"next_incoming_id": 3, "remote_outgoing_window": 8}
    rows.show("Mapped", next_outgoing_id=1, remote_incoming_window=4, held_back=1, open_deliveries=1, **told)
    rows.ask("first 0 " + transfer(text="c") + "72", "list", "out 0 " + transfer(1, "b") + " 71", "out 0 " + transfer(2, "c") + " 72")
    rows.show("Mapped", next_outgoing_id=3, remote_incoming_window=2, open_deliveries=3, **told)


def reasons(rows):
    """Why a session stopped."""
    rows.row("A new session has no reason of its own, and tells its channel")
    rows.new("BeginReceived channel=3")
    rows.ask("reasons", "channel=3 session=None connection=None")
    rows.row("The first reason that is recorded stays")
    rows.new("Mapped")
    rows.ask("stop RemoteEnded", "ok")
    rows.ask("reasons", "channel=0 session=Some(RemoteEnded) connection=None")
    rows.ask("stop Ended", "ok")
    rows.ask("reasons", "channel=0 session=Some(RemoteEnded) connection=None")
    rows.row("Each reason is recorded as it is, and none moves the state")
    for name in ["Ended", "EndedWithError", "RemoteEnded", "RemoteEndedWithError"]:
        rows.new("Mapped")
        rows.ask("stop " + name, "ok")
        rows.ask("reasons", f"channel=0 session=Some({name}) connection=None")
        rows.show("Mapped")
    rows.row("A session tells why its connection had stopped when it was made, and that is no reason of its own")
    for name in ["Closed", "ClosedWithError", "RemoteClosed", "RemoteClosedWithError"]:
        rows.new("Unmapped stopped=" + name)
        rows.ask("reasons", f"channel=0 session=None connection=Some({name})")
        rows.ask("stop " + name, "ok")
        rows.ask("reasons", f"channel=0 session=Some(ConnectionStopped({name})) connection=Some({name})")
    rows.row("An End that comes or goes records no reason: that is for those who drive the session")
    rows.new("Mapped")
    rows.ask("recv 7 " + end(), refused("RemoteEnded"))
    rows.ask("end", "out 0 " + end())
    rows.ask("reasons", "channel=0 session=None connection=None")


def write(rows):
    each_call(rows)
    what_waited(rows)
    begins(rows)
    begins_again(rows)
    reasons(rows)
