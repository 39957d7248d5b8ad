"""Recorded exchanges as rows of the program rows_engine, for expected_engine.py.

The recordings (captures) are of a qpid-proton client: with a qpid-proton server, frames of 512 bytes and a session
window of 4 (proton-duo-window); with RabbitMQ, three sessions and five links (proton-rmq-frames); with a qpid-proton server that refuses,
redirects, and ends a session, where links go and come back under their names (proton-duo-errors); and with one that gives every outcome,
over ranges, to links of each settle mode (proton-duo-outcomes). The name of the recording is the title of the row.

The engine takes the client's place: what the server sent comes as `recv` lines, and what the client sent is asked for by `open`, `begin`,
`link`, `send`, `end` and `close` lines, each where it was recorded, but:
- a link is allotted where its attach was recorded, or after the server's Begin where it was recorded before that, since a session that is
  not mapped allots none. The handles agree with the recorded ones in all four.
- the detach by which the client answered the server's is the relay's: it goes out by itself.
- in proton-duo-window each transfer is asked for one place before it was recorded, so that it waits for the window that the server opens in
  between; the last one at its own place.
- an End or a Close is asked for without an error, and the numbers of an Open, a Begin and a Flow are this side's.
- the dispositions by which the client settled what the server had told it of unsettled are the relay's: they go out by themselves. In
  proton-duo-outcomes the client sent one for each delivery and without a state, where the relay sends one for each run and repeats the
  state; and it was silent on delivery 18, of which the server spoke twice before it settled it.
- in proton-duo-outcomes the server's End comes after the client's Close, and is refused: the connection is no longer open.

What is expected is worked out from the recorded fields, by client.py and not by the engine.
"""

from amqp.canonical import composite, uint
from amqp.recorded import ATTACH, BEGIN, CLOSE, DETACH, DISPOSITION, END, FLOW, OPEN, TRANSFER, recording
from gen.client import Session

# each recording, and by how many places a transfer is asked for before it was recorded
RECORDINGS = {"proton-duo-window": 1, "proton-rmq-frames": 0, "proton-duo-errors": 0, "proton-duo-outcomes": 0}

OUR_OPEN = "out 02000000005310c01204a1067265706c61794070000400006000ff"
OUR_BEGIN = composite(BEGIN, [b"\x40", uint(0), uint(5000), uint(5000)])


class Exchange:
    def __init__(self, name):
        self.lines, self.out = ["-- " + name], ["-- " + name]
        # the client's sessions by its channels, and those to which the server's channels lead
        self.sessions, self.routes = {}, {}
        # attaches that wait for the server's Begin
        self.early = []
        self.is_closing = False

    def ask(self, line, answers):
        self.lines.append(line)
        self.out.extend(answers)

    def ask_all(self, asked):
        for line, answers in asked:
            self.ask(line, answers)

    def hear(self, frame):
        self.ask("recv " + frame.bytes.hex(), self.heard(frame))
        if frame.code == BEGIN:
            for attach in [it for it in self.early if it.channel == frame["remote_channel"]]:
                self.ask_all(self.sessions[attach.channel].ask_attach(attach))

    def heard(self, frame):
        """What the server's frame is answered."""
        if frame.code is None or frame.code == OPEN:
            return []
        if frame.code == BEGIN:
            self.routes[frame.channel] = self.sessions[frame["remote_channel"]]
            self.routes[frame.channel].hear_begin(frame)
            return []
        if frame.code == CLOSE:
            return ended("Closed", frame, self.is_closing)
        if frame.code == END and self.is_closing:
            return ["err IllegalState"]
        if frame.code == END:
            return ended("Ended", frame, self.routes.pop(frame.channel).is_ending)
        session = self.routes[frame.channel]
        takes = {ATTACH: session.hear_attach, FLOW: session.hear_flow, TRANSFER: session.hear_transfer,
                 DISPOSITION: session.hear_disposition, DETACH: session.hear_detach}
        return takes[frame.code](frame)

    def request(self, frame):
        """What the client sent, but its transfers, is asked for."""
        if frame.code == OPEN:
            self.ask("open", [OUR_OPEN])
        elif frame.code == CLOSE:
            self.is_closing = True
            self.ask("close", ["out 0200000000531845"])
        elif frame.code == BEGIN:
            assert frame.channel == len(self.sessions), "the lowest channel"
            session = self.sessions[frame.channel] = Session(frame.channel)
            self.ask(f"begin {frame.channel}", [session.out(OUR_BEGIN)])
        else:
            self.request_of(self.sessions[frame.channel], frame)

    def request_of(self, session, frame):
        if frame.code == END:
            session.is_ending = True
            self.ask(f"end {session.number}", [session.out(composite(END, []))])
        elif frame.code == ATTACH and not session.is_mapped:
            self.early.append(frame)
        else:
            asks = {ATTACH: session.ask_attach, FLOW: session.ask_flow, DISPOSITION: session.ask_disposition, DETACH: session.ask_detach}
            self.ask_all(asks[frame.code](frame))

    def transfer(self, frame, is_first):
        self.ask_all(self.sessions[frame.channel].ask_transfer(frame, is_first))


def ended(name, frame, is_answer):
    """How the server's Close or End is answered: one with an error always as an error, one without where it is the first."""
    if frame["error"] is not None:
        return [f"err Remote{name}WithError"]
    return [] if is_answer else [f"err Remote{name}"]


def transfers(recorded):
    """The client's transfers, and whether each is the first of its delivery."""
    made, going = [], {}
    for frame in recorded:
        if frame.side == "A" and frame.code == TRANSFER:
            link = frame.channel, frame["handle"]
            made.append((frame, not going.get(link, False)))
            going[link] = bool(frame["more"])
    return made


def replayed(name, ahead):
    recorded = recording(name)
    exchange, asked, place = Exchange(name), transfers(recorded), 0
    for frame in recorded:
        if frame.side == "B":
            exchange.hear(frame)
        elif frame.code == TRANSFER:
            # at the first place those ahead are asked for too, at the last ones none is left
            for of in asked[place + ahead if place else 0:place + ahead + 1]:
                exchange.transfer(*of)
            place += 1
        elif frame.code is not None:
            exchange.request(frame)
    left = [it.queue + it.unanswered + it.echoed for it in exchange.sessions.values()]
    assert not any(left), "something waits at the end"
    return exchange


def write(rows):
    for name, ahead in RECORDINGS.items():
        exchange = replayed(name, ahead)
        rows.asked += exchange.lines
        rows.said += exchange.out
