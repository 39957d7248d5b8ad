"""Rows of an engine's connection: each line in each state that a transcript can reach (AMQP 1.0 part 2, section 2.4)."""

from gen.row import OUR_CLOSE, OUR_OPEN, attach, begin, closing, detach, disposition, end, flow, opening, out, recv, transfer

PEER_OPEN, PEER_CLOSE = recv(opening("a", 262144, 255)), recv(closing())
OPENED = [("open", [OUR_OPEN]), (PEER_OPEN, [])]
CLOSED = [("close", [OUR_CLOSE])]

# how a connection in HeaderExchange comes into a state: its lines, and what each prints
PATHS = {
    "HeaderExchange": [],
    "OpenSent": [("open", [OUR_OPEN])],
    "OpenReceived": [(PEER_OPEN, [])],
    "Opened": OPENED,
    "ClosePipe": [("open", [OUR_OPEN])] + CLOSED,
    "CloseSent": OPENED + CLOSED,
    "CloseReceived": OPENED + [(PEER_CLOSE, ["err RemoteClosed"])],
    "End": OPENED + CLOSED + [(PEER_CLOSE, [])],
}

ILLEGAL = "err IllegalState"
SENDS_OPEN = ["HeaderExchange", "OpenReceived"]
TAKES_OPEN = ["HeaderExchange", "OpenSent", "ClosePipe"]
SENDS_CLOSE = ["OpenSent", "Opened", "CloseReceived"]
# where the peer's Close comes first, and where it answers this side's
IS_CLOSED_BY_PEER = ["OpenSent", "OpenReceived", "Opened"]
IS_ANSWERED = ["CloseSent"]
# where a session gets no channel yet, and no more
UNOPENED = ["HeaderExchange"]
STOPPED = ["CloseSent", "End"]


def close_answer(state):
    if state in IS_CLOSED_BY_PEER:
        return ["err RemoteClosed"]
    return [] if state in IS_ANSWERED else [ILLEGAL]


def close_with_error_answer(state):
    return ["err RemoteClosedWithError"] if state in IS_CLOSED_BY_PEER + IS_ANSWERED else [ILLEGAL]


def begin_answer(state):
    if state in UNOPENED:
        return ["err ConnectionNotOpened"]
    return ["err ConnectionStopped"] if state in STOPPED else [out(begin())]


def in_opened(state, refusal):
    """The peer's Begin and End are refused before any look at a table but in Opened."""
    return [refusal if state == "Opened" else ILLEGAL]


def lines(state):
    """What is asked for or comes, its line, and what that prints in the state."""
    yield "this side's Open", "open", [OUR_OPEN] if state in SENDS_OPEN else [ILLEGAL]
    yield "this side's Close", "close", [OUR_CLOSE] if state in SENDS_CLOSE else [ILLEGAL]
    yield "the peer's Open", PEER_OPEN, [] if state in TAKES_OPEN else [ILLEGAL]
    yield "the peer's Close", PEER_CLOSE, close_answer(state)
    yield "the peer's Close with an error", recv(closing("a:b")), close_with_error_answer(state)
    yield "an empty frame", "recv 02000000", []
    yield "a session's Begin", "begin 0", begin_answer(state)
    yield "the End of an unknown session", "end 0", ["err NoSession"]
    yield "the release of an unknown session", "release 0", ["err NoSession"]
    yield "a link of an unknown session", "link 0 a", ["err NoSession"]
    yield "the Attach of an unknown session", "send 0 " + attach("a", 0), ["err NoSession"]
    yield "the Detach of an unknown session", "send 0 " + detach(0), ["err NoSession"]
    yield "the Disposition of an unknown session", "send 0 " + disposition(0), ["err NoSession"]
    yield "the peer's Begin, which answers a channel that no session holds", recv(begin(0), 7), in_opened(state, "err NotFound")
    yield "the peer's Begin, which answers none", recv(begin(None), 7), in_opened(state, "err NotImplemented")
    yield "an End without a route", recv(end(), 7), in_opened(state, "err NotFound")
    yield "an Attach without a route", recv(attach("a", 5), 7), ["err NotFound"]
    yield "a Detach without a route", recv(detach(5), 7), ["err NotFound"]
    yield "a Disposition without a route", recv(disposition(0), 7), ["err NotFound"]
    yield "a Flow without a route", recv(flow(0, 1), 7), ["err NotFound"]
    yield "a Transfer without a route", recv(transfer(0, "t") + "70", 7), ["err NotFound"]


def each_line(rows):
    for state, path in PATHS.items():
        for title, line, answers in lines(state):
            rows.row(f"In {state}: {title}")
            for step, answer in path:
                rows.ask(step, *answer)
            rows.ask(line, *answers)


def whole_exchanges(rows):
    rows.row("A connection opens, gets an empty frame and closes; a second Close of the peer's is refused")
    rows.open()
    rows.ask("recv 02000000")
    rows.ask("close", OUR_CLOSE)
    rows.ask(PEER_CLOSE)
    rows.ask(PEER_CLOSE, ILLEGAL)
    rows.row("The peer closes first, and is answered")
    rows.open()
    rows.ask(PEER_CLOSE, "err RemoteClosed")
    rows.ask("close", OUR_CLOSE)
    rows.ask("close", ILLEGAL)


def no_frames(rows):
    rows.row("What is no frame is refused, and changes nothing: another type, a wrong offset, too few bytes, a wrong Open")
    rows.open()
    rows.ask("recv 02010000", "err NotImplemented")
    rows.ask("recv 0300000000000000", "err NotImplemented")
    rows.ask("recv 020000", "err DecodeError")
    rows.ask("recv ", "err DecodeError")
    rows.ask("recv 0200000000531045", "err DecodeError")
    rows.ask("close", OUR_CLOSE)
    rows.row("Digits are read in either case, and bytes after a performative are dropped")
    rows.ask(recv(opening("a", 262144, 255)).upper().replace("RECV", "recv") + "FFff")
    rows.ask("open", OUR_OPEN)


def write(rows):
    each_line(rows)
    whole_exchanges(rows)
    no_frames(rows)
