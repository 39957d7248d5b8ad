"""Looks at a connection as its bytes come, for watch.py and transcript.py: cuts them into frames, has each judged, and tells of it."""

from amqp.frames import CLOSE, END, NULL, end_of, parts, text
from amqp.judging import Judge
from amqp.streams import Stream
from amqp.telling import JUDGE, Tally, placed

# Of a frame so much is kept
KEPT = 2**20


class Seen:
    """What was seen of one connection: it is told to `teller`, and stands in the page, if there is one."""

    def __init__(self, teller, number=1, page=None):
        self.teller, self.tally, self.page, self.began, self.is_over = teller, Tally(number), page, None, False
        self.judge, self.streams = Judge(), {side: Stream(KEPT, sasl=page is not None) for side in "AB"}

    def see(self, side, data, when=None):
        """The next bytes of a side, and the time at which they came."""
        self.guarded(self.read, side, data, when)

    def whole(self, side, of, when=None):
        """The next frame of a side, without its size."""
        self.guarded(self.take, side, of, len(of) + 4, when)

    def guarded(self, call, side, *words):
        if self.is_over:
            return
        try:
            call(side, *words)
        except BrokenPipeError:
            # nobody reads what is told
            raise
        except Exception as error:  # whatever it is, the connection goes on
            self.is_over = True
            self.stop(side, f"looked at no more ({type(error).__name__}: {error})")

    def read(self, side, data, when):
        stream = self.streams[side]
        was_broken = stream.broken
        for size, of in stream.feed(data):
            if of[1] == 1:
                # of SASL, which is for a page alone
                self.put(side, of, size, when)
            else:
                self.take(side, of, size, when)
        if stream.broken != was_broken:
            self.lose(side, f"looked at no more ({stream.broken})", stream.is_wrong)

    def take(self, side, of, size, when):
        """A frame, without its size."""
        found = self.judge.step(side, of, size) or ended(self.judge.read)
        found = [(found, JUDGE)] if found else []
        self.teller.frame(self.tally, side, of, size, when, found)
        self.put(side, of, size, when, self.tally.frames, found)

    def lose(self, side, what, breaks=False):
        """Nothing more of a side is read: no more is told of what may hang on it."""
        self.streams[side].stop(what)
        self.judge.lose(side)
        self.stop(side, what, breaks)

    def stop(self, side, what, breaks=False):
        """Why there is no more of the connection, or of a side: the page says it too."""
        self.teller.unread(self.tally, side, what, breaks)
        if self.page is not None:
            self.page.notes.append(placed(self.tally, side, what))

    def put(self, side, of, size, when, number=0, found=()):
        """A row of the page; times count from the first one."""
        if self.page is not None:
            self.began = when if self.began is None else self.began
            time = None if when is None else round(when - self.began, 4)
            self.page.add(side, of, number, time, found, size)

    def end(self, side):
        """The side has sent all."""
        if self.streams[side].is_within():
            self.teller.unread(self.tally, side, "ends within a frame")

    def over(self):
        """Both sides have; a side that was told to have ended is not told so again."""
        for side, stream in self.streams.items():
            self.end(side)
            stream.stop("over")
        self.teller.over(self.tally)


def ended(frame):
    """What an End or a Close with an error is told as."""
    if frame is None or frame.code not in (END, CLOSE) or frame[0] == NULL:
        return None
    fields, _ = parts(frame[0], end_of(frame[0], 1))
    return f"Remote{'Ended' if frame.code == END else 'Closed'}WithError (the peer ended: {text(fields[0])})"
