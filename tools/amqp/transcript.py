"""A recorded connection as lines for amqp_replay, for transcript.py: the engine in a side's place, with the numbers that it gives."""

import sys

from amqp.canonical import composite, string, uint, ushort
from amqp.frames import ATTACH, BEGIN, CLOSE, DETACH, DISPOSITION, END, FLOW, NULL, OPEN, TRANSFER, flag, integer, text
from amqp.given import Channels, Places, Session, in_a_line
from amqp.judging import Judge
from amqp.mended import mended, wrong_with

# Why what the engine refuses may be no breach
IN_FLIGHT, IN_SESSION = "in flight after this side's Close", "in flight after this side's End"
AFTER_UNREAD = "after a frame that cannot be read"


class Transcript:
    def __init__(self, frames, side, lost=None, each=iter):
        """`lost` says by place before which frame a side's stream breaks off; `each` hands on the frames, and may tell how far it is."""
        self.frames, self.side, self.lines, self.lost, self.each = frames, side, [], lost or {}, each
        self.read = [self.parsed(side, of) for side, of in each(frames)]
        self.places = Places(frames, self.read)
        # sessions by this side's recorded channel, and by the peer's; those in which a request waits; the channels here
        self.sessions, self.by_own, self.by_peer, self.waits, self.channels, self.is_open = [], {}, {}, set(), Channels(), False
        # the place of a Close that waits; by place, why a frame that the engine may refuse is no breach
        self.closing, self.is_closed, self.lawful = None, False, {}
        # whether the peer's Open came, or what may have been it; what a judge of both sides finds, by the frame's place
        self.heard, self.is_lost, self.judge, self.faults, self.has_gap = False, False, Judge(), {}, False

    def parsed(self, side, of):
        """The frame; of a malformed one that this side sent, which the engine does not read, what can be read."""
        return mended(of) if side == self.side or not wrong_with(of) else None

    def said(self, at, line):
        self.lines.append((at, line))

    def run(self):
        """The lines, each with the place of its frame."""
        for at, ((side, of), frame) in enumerate(zip(self.each(self.frames), self.read)):
            for by in self.lost.get(at, ()):
                self.judge.lose(by)
                self.has_gap = True
            self.faults[at] = self.judge.step(side, of)
            if side != self.side:
                self.receive(at, of, frame)
            elif frame is not None and frame.code is not None:
                self.request(at, frame)
        if self.closing is not None:
            self.close(self.closing)
        return self.lines

    # ---- what the peer sent

    def receive(self, at, of, frame):
        if frame is None:
            self.said(at, "recv " + of.hex())
            frame = self.stand_in(of)
            of = frame and frame.bytes()
        if frame is not None and frame.code is not None:
            self.take(at, of, frame)
        elif frame is not None:
            self.said(at, "recv " + of.hex())

    def take(self, at, of, frame):
        """A frame that has a performative; its bytes go to the engine as they came where no number changes."""
        self.opened(at, frame)
        if frame.code == CLOSE and self.closing is not None:
            self.close(self.closing)
        self.lawful[at] = self.why_lawful(at, frame)
        before = frame.bytes()
        self.translate(at, frame)
        self.said(at, "recv " + (of if frame.bytes() == before else frame.bytes()).hex())
        if frame.channel in self.by_peer:
            self.after(at, frame, self.by_peer[frame.channel])

    def stand_in(self, of):
        """What can be read of a malformed frame, where much hangs on it and the engine takes that."""
        frame = mended(of)
        self.is_lost = self.is_lost or frame is None
        if frame is None or self.is_closed:
            return None
        session = self.by_peer.get(frame.channel)
        handles = session.inputs if session else {}
        takes = {
            OPEN: not self.heard,
            BEGIN: session is None,
            ATTACH: session and integer(frame[1]) not in handles,
            DETACH: integer(frame[0]) in handles,
        }
        return frame if takes.get(frame.code) else None

    def opened(self, at, frame):
        """Where the peer's Open could not be read, a plain one stands for it."""
        if frame.code != OPEN:
            self.open(at)
        if frame.code != OPEN and self.is_lost and not self.heard:
            self.said(at, "recv 02000000" + composite(OPEN, [string("")]).hex())
            self.heard = True
        self.heard = self.heard or frame.code == OPEN

    def why_lawful(self, at, frame):
        """Why a frame may be no breach that the engine refuses, if any."""
        session = self.by_peer.get(frame.channel)
        if self.faults[at] is not None:
            return None
        if self.is_closed:
            return IN_FLIGHT
        if session and "own" in session.ended:
            return IN_SESSION
        return AFTER_UNREAD if self.has_gap or self.judge.is_lost(self.frames[at][0], frame.channel) else None

    def translate(self, at, frame):
        """The numbers of the peer's frame, as this side's are here; and what has to be asked for before it comes."""
        if frame.code == BEGIN and not self.is_closed:
            self.by_peer[frame.channel] = self.answered(at, frame)
            frame[0] = ushort(self.by_peer[frame.channel].channel)
        session = self.by_peer.get(frame.channel)
        if session is None:
            return
        if frame.code == FLOW and frame[0] != NULL:
            frame[0] = uint((integer(frame[0]) - session.first_id) % 2**32)
        elif frame.code == DISPOSITION and flag(frame[0]):
            for field in (1, 2):
                if frame[field] != NULL:
                    frame[field] = uint((integer(frame[field]) - session.first_delivery) % 2**32)
        elif frame.code == ATTACH:
            self.allot(at, session, frame)

    def allot(self, at, session, frame):
        """A link for the peer's Attach, also where this side never attaches it: it may end the session for it."""
        name = in_a_line(text(frame[0]))
        frame[0] = string(name)
        if name not in session.links and "own" not in session.ended:
            self.link(at, session, name)

    def answered(self, at, frame):
        """The session whose Begin the peer's answers; where it answers none, one that this side begins for it."""
        if frame[0] != NULL:
            own = integer(frame[0])
        else:
            answer = self.places.answer(at, self.side, frame.channel)
            own = answer.channel if answer else frame.channel
        if own not in self.by_own or self.by_own[own].is_mapped:
            self.begin(at, own)
        return self.by_own[own]

    def after(self, at, frame, session):
        """What follows from a frame of the peer."""
        if frame.code == BEGIN:
            session.is_mapped = True
            for place, waits in session.waiting:
                self.request(place, waits)
            session.waiting = []
            self.waits.discard(session.number)
            if self.closing is not None and not self.waits:
                self.close(self.closing)
        elif frame.code == ATTACH and text(frame[0]) in session.links:
            session.inputs[integer(frame[1])] = session.links[text(frame[0])]
        elif frame.code == DETACH:
            self.detached(session, session.inputs.pop(integer(frame[0]), None))
        elif frame.code == END:
            del self.by_peer[frame.channel]
            self.end(at, session, "peer")

    def detached(self, session, handle):
        if handle is None:
            return
        if handle not in session.awaited:
            session.let_go(handle)
        session.awaited.discard(handle)
        session.handles.free.append(handle)

    def end(self, at, session, side):
        """The channel is given back when both have ended the session."""
        session.ended.add(side)
        if len(session.ended) == 2 and session.is_held:
            self.said(at, f"release {session.number}")
            self.channels.give_back(session.channel)
            session.is_held = False

    # ---- what this side sent

    def open(self, at):
        if not self.is_open:
            self.said(at, "open")
        self.is_open = True

    def begin(self, at, own):
        mine, sent = self.places.begin(at, self.side, own), self.places.transfer(at, self.side, own)
        number, channel = len(self.sessions), self.channels.take()
        self.by_own[own] = Session(number, own, channel, *(integer(it[1]) or 0 if it else 0 for it in (mine, sent)))
        self.sessions.append(self.by_own[own])
        self.said(at, f"begin {number}")

    def close(self, at):
        self.said(at, "close")
        self.closing, self.is_closed = None, True

    def link(self, at, session, name):
        session.keep(name, session.handles.give())
        self.said(at, f"link {session.number} {name}")

    def request(self, at, frame):
        if frame.code == OPEN:
            return self.open(at)
        if frame.code == CLOSE:
            if self.waits:
                self.closing = at
            else:
                self.close(at)
            return None
        session = self.by_own.get(frame.channel)
        if frame.code == BEGIN:
            # one that answers the peer's was asked for when that came
            if session is None or session.ended or frame[0] == NULL:
                self.begin(at, frame.channel)
        elif session is None:
            print(f"frame {at + 1}: on a channel without a session, left out", file=sys.stderr)
        elif not session.is_mapped:
            session.waiting.append((at, frame))
            self.waits.add(session.number)
        else:
            self.request_of(at, session, frame)

    def request_of(self, at, session, frame):
        asks = {ATTACH: self.attach, FLOW: self.flow, TRANSFER: self.transfer, DISPOSITION: self.disposition, DETACH: self.detach}
        if frame.code == END:
            self.said(at, f"end {session.number}")
            self.end(at, session, "own")
        elif asks[frame.code](at, session, frame):
            self.said(at, f"send {session.number} {frame.body().hex()}")

    def on_its_handle(self, session, frame, field):
        frame[field] = uint(session.given.get(integer(frame[field]), integer(frame[field])))
        return True

    def attach(self, at, session, frame):
        frame[0] = string(in_a_line(text(frame[0])))
        if text(frame[0]) not in session.links:
            self.link(at, session, text(frame[0]))
        session.given[integer(frame[1])] = session.links[text(frame[0])]
        return self.on_its_handle(session, frame, 1)

    def flow(self, at, session, frame):
        return frame[4] != NULL and self.on_its_handle(session, frame, 4)

    def transfer(self, at, session, frame):
        """Number and tag stand on the first frame of a delivery alone."""
        handle = integer(frame[0])
        if handle in session.going:
            frame[1], frame[2] = NULL, NULL
        session.going.discard(handle)
        if flag(frame[5]) and not flag(frame[9]):
            session.going.add(handle)
        return self.on_its_handle(session, frame, 0)

    def disposition(self, at, session, frame):
        if not flag(frame[0]):
            for field in (1, 2):
                if frame[field] != NULL:
                    frame[field] = uint((integer(frame[field]) - session.first_delivery) % 2**32)
        return True

    def detach(self, at, session, frame):
        handle = session.given.get(integer(frame[0]))
        if handle not in session.names:
            return False
        session.let_go(handle)
        session.awaited.add(handle)
        return self.on_its_handle(session, frame, 0)
