"""Rows of a connection alone: its calls in each of the 14 states (AMQP 1.0 part 2, sections 2.4.5 to 2.4.7), channels and routes."""

from gen.row import OUR_CLOSE, OUR_OPEN, begin, closing, end, opening, out, refused

ILLEGAL = refused("IllegalState")
CONDITION = "amqp:not-found"

# the state before, and the state after; any other state refuses the call
SENDS_OPEN = {"HeaderExchange": "OpenSent", "OpenReceived": "Opened", "HeaderSent": "OpenPipe"}
TAKES_OPEN = {"HeaderExchange": "OpenReceived", "OpenSent": "Opened", "ClosePipe": "CloseSent"}
SENDS_CLOSE = {"Opened": "CloseSent", "OpenSent": "ClosePipe", "OpenPipe": "OpenClosePipe", "CloseReceived": "End"}
SENDS_CLOSE_WITH_ERROR = {"Opened": "Discarding", "OpenSent": "Discarding", "OpenPipe": "Discarding", "CloseReceived": "End"}
CLOSED_BY_PEER = ["Opened", "OpenPipe", "OpenClosePipe", "OpenReceived", "OpenSent"]
ANSWERED = ["CloseSent", "Discarding"]
TAKES_CLOSE = dict.fromkeys(CLOSED_BY_PEER, "CloseReceived") | dict.fromkeys(ANSWERED, "End")

UNOPENED = ["Start", "HeaderReceived", "HeaderSent", "HeaderExchange"]
STOPPED = ["CloseSent", "Discarding", "End"]
STATES = UNOPENED + ["OpenPipe", "OpenClosePipe", "OpenReceived", "OpenSent", "ClosePipe", "Opened", "CloseReceived"] + STOPPED


def show(rows, state, reason="None"):
    closed = f"Some({TAKES_CLOSE[state]})" if state in TAKES_CLOSE else "None"
    rows.ask("show", f"{state} reason={reason} open=replay closed={closed}")


def state_calls(rows, state):
    for title, line, table, answer in [
        ("this side's Open", "open", SENDS_OPEN, OUR_OPEN),
        ("the peer's Open", "recv 0 " + opening("p", 512, 3), TAKES_OPEN, "ok"),
        ("this side's Close", "close", SENDS_CLOSE, OUR_CLOSE),
        ("this side's Close with an error", "close " + CONDITION, SENDS_CLOSE_WITH_ERROR, out(closing(CONDITION))),
        ("the peer's Close", "recv 0 " + closing(), TAKES_CLOSE, "ok" if state in ANSWERED else refused("RemoteClosed")),
        ("the peer's Close with an error", "recv 0 " + closing(CONDITION), TAKES_CLOSE, refused("RemoteClosedWithError", CONDITION)),
    ]:
        rows.row(f"A connection alone in {state}: {title}")
        rows.ask("connection " + state)
        rows.ask(line, answer if state in table else ILLEGAL)
        show(rows, table.get(state, state))


def channel_answer(state):
    if state in UNOPENED:
        return "err ConnectionNotOpened"
    return "err ConnectionStopped(Closed)" if state in STOPPED else "channel 0"


def session_calls(rows, state):
    rows.row(f"A connection alone in {state}: a channel, and the peer's Begin and End")
    rows.ask("connection " + state)
    rows.ask("allocate 5", channel_answer(state))
    rows.ask("holder 0", "session 5" if channel_answer(state) == "channel 0" else "none")
    is_opened = state == "Opened"
    rows.ask("recv 7 " + begin(0), "session 5: " + out(begin(0), 7) if is_opened else ILLEGAL)
    rows.ask("route 7", "session 5" if is_opened else "none")
    rows.ask("recv 7 " + end(), "session 5: " + out(end(), 7) if is_opened else ILLEGAL)
    rows.ask("route 7", "none")
    show(rows, state)


def frames(rows):
    for state in ("Start", "End"):
        rows.row(f"In {state}, as in any state, the Begin and the End of a session go out on its channel")
        rows.ask("connection " + state)
        rows.ask("send 4 " + begin(9, 0, 1, 8), out(begin(9, 0, 1, 8), 4))
        rows.ask("send 5 " + end(), out(end(), 5))
        rows.ask("send 255 " + end(CONDITION), out(end(CONDITION), 255))


def channels(rows):
    rows.row("The lowest channel that is not held is given, up to the agreed maximum; one that is not held is not given back")
    rows.ask("connection OpenSent")
    for number in range(4):
        rows.ask(f"allocate {number}", f"channel {number}")
    rows.ask("recv 0 " + opening("p", None, 1), "ok")
    rows.ask("holder 3", "session 3")
    rows.ask("deallocate 0", "true")
    rows.ask("deallocate 3", "true")
    rows.ask("holder 3", "none")
    rows.ask("deallocate 3", "false")
    rows.ask("deallocate 9", "false")
    rows.ask("allocate 4", "channel 0")
    rows.ask("allocate 5", "err ChannelMaxReached")
    rows.row("A stopped connection tells the recorded reason to a session that asks for a channel")
    rows.ask("connection End")
    rows.ask("stop RemoteClosed", "ok")
    rows.ask("allocate 0", "err ConnectionStopped(RemoteClosed)")


def routes(rows):
    rows.row("A route outlives its session's channel, and goes with the peer's End")
    rows.ask("connection Opened")
    rows.ask("allocate 3", "channel 0")
    rows.ask("route 7", "none")
    rows.ask("recv 7 " + begin(0), "session 3: " + out(begin(0), 7))
    rows.ask("deallocate 0", "true")
    rows.ask("route 7", "session 3")
    rows.ask("recv 7 " + end(CONDITION), "session 3: " + out(end(CONDITION), 7))
    rows.ask("route 7", "none")
    rows.ask("recv 7 " + end(), "err NotFound(None)")
    rows.row("A Begin of the peer's has to name a channel that is held")
    rows.ask("connection Opened")
    rows.ask("allocate 3", "channel 0")
    rows.ask("recv 7 " + begin(None), "err NotImplemented(None)")
    rows.ask("recv 7 " + begin(1), "err NotFound(None)")
    rows.ask("route 7", "none")


def reasons(rows):
    rows.row("The first reason that is recorded stays")
    rows.ask("connection Opened")
    show(rows, "Opened")
    rows.ask("stop RemoteClosed", "ok")
    rows.ask("stop Closed", "ok")
    show(rows, "Opened", "Some(RemoteClosed)")
    for name in ("Closed", "ClosedWithError", "RemoteClosedWithError"):
        rows.row(f"The reason {name} is recorded as it is")
        rows.ask("connection Opened")
        rows.ask("stop " + name, "ok")
        show(rows, "Opened", f"Some({name})")


def pipelined(rows):
    rows.row("A pipelined connection closes, gets the peer's Close, and closes again")
    rows.ask("connection OpenPipe")
    rows.ask("close", OUR_CLOSE)
    show(rows, "OpenClosePipe")
    rows.ask("recv 0 " + closing(), refused("RemoteClosed"))
    show(rows, "CloseReceived")
    rows.ask("close", OUR_CLOSE)
    show(rows, "End")


def write(rows):
    for state in STATES:
        state_calls(rows, state)
        session_calls(rows, state)
    frames(rows)
    channels(rows)
    routes(rows)
    reasons(rows)
    pipelined(rows)
