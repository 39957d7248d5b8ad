#!/usr/bin/env python3
"""Has the library for C take either side of each recorded connection, and of those that made_connections.py makes, in pieces of 1, 7 and 4096 bytes, and
compares what it refuses with what refused_of_captures.py compares amqp_replay with.

    tools/try_c/try_c_captures.py LIBRARY

LIBRARY is libamqp1.so. Of a recording from the first byte on the engine takes headers and frames of SASL too, in such pieces: which records come of them, and what it sends before
its frames. A recording with a frame of less than four bytes, which no stream can carry, is left out. The last line is 'N passed, M failed', a test for each connection, side and size.
"""

import os
import sys
from pathlib import Path

sys.path.insert(0, str(Path(__file__).resolve().parents[1]))

from amqp.logins import Login
from amqp.transcript import Transcript
from gate.refused_of_captures import connections
from shared.by_library import Detach, Detached, Engine, LineEngine, Malformed, Open
from shared.command import command
from transcript import shown

# (shared.by_library puts the package on the path)
from amqp_engine.opening import AMQP_HEADER, LOGGED_IN, LOGIN_ASKED, MECHANISM_CHOSEN, SASL_CLIENT, SASL_HEADER, SASL_SERVER, Opening

KEY = b"k" * 16
KINDS = {"SaslHeader": SASL_HEADER, "AmqpHeader": AMQP_HEADER, "MechanismChosen": MECHANISM_CHOSEN, "LoginAsked": LOGIN_ASKED, "LoggedIn": LOGGED_IN}


class Opened(Engine):
    """An engine from the first byte on: what the other side of a recording sent of headers and SASL was taken, in pieces of so many bytes."""

    def __init__(self, open, login, size):
        (host, logins), side = login.logins(), SASL_CLIENT if login.side == "A" else SASL_SERVER
        opening = Opening(side, [(name.decode(), response) for name, response in logins], host and host.decode())
        super().__init__(open, key=KEY, opening=opening)
        self.outcome, self.kinds, self.went = login.outcome, [], self.to_send()
        data, at = b"".join(of for _, of in login.peers), 0
        for known in [*range(size, len(data), size), len(data)]:
            while (took := self.take(data[at:known])).taken:
                at += took.taken
                for record in took.records:
                    self.heard(record)
                self.went += self.to_send()
        self.of = login

    def heard(self, record):
        self.kinds.append(record.kind)
        if record.kind == LOGIN_ASKED:
            self.login(self.outcome)

    def is_right(self):
        """Whether the records are those of what came, and what went is that of the recording, in the canonical spelling."""
        return self.kinds == [KINDS[it.split(" ")[0]] for it in self.of.told()] and self.went == self.of.sent()


class Replay(LineEngine):
    """An engine as amqp_replay makes one."""

    def __init__(self, size, login):
        open = Open("replay", max_frame_size=262144, channel_max=255)
        super().__init__(open, key=KEY)
        self.size, self.is_right = size, True
        if login is not None:
            self.engine.free()
            self.engine = Opened(open, login, size)
            self.is_right = self.engine.is_right()

    def names(self, line):
        """The names of what a line is refused by; of one that amqp_replay cannot read, that it is no line."""
        word, _, rest = line.partition(" ")
        if word == "link" and not rest.partition(" ")[2]:
            return ["bad line"]
        try:
            return [it.name for it in self.ask(line)]
        except Malformed:
            return ["bad line"]
        finally:
            self.pieces()

    def hear(self, event):
        """A detach of the peer's is answered, as amqp_replay's relay answers it."""
        if isinstance(event, Detached) and event.remote_initiated and event.output_handle is not None:
            self.engine.detach(event.session, Detach(event.output_handle, event.detach.closed), expects_answer=False)

    def receive(self, data):
        if self.engine.is_over:
            yield from super().receive(data)
            return
        for at in range(0, len(data), self.size):
            yield from self.engine.receive(data[at : at + self.size])


def refused(frames, side, size, login):
    """What the library refuses of a connection, as texts."""
    transcript, replay = Transcript(frames, side), Replay(size, login)
    lines = transcript.run()
    told = [": ".join(shown(transcript, at, line, name)) for at, line in lines for name in replay.names(line)]
    replay.engine.free()
    return told if replay.is_right else [f"records of the kinds {replay.engine.kinds}; sent {replay.engine.went.hex()}", *told]


def main():
    if len(sys.argv) != 2:
        sys.exit(__doc__.strip())
    os.environ["AMQP_LIBRARY"] = os.path.abspath(sys.argv[1])
    passed = failed = 0
    for name, frames, side, wanted in connections():
        if any(len(of) < 4 for _, of in frames):
            continue
        for size in (1, 7, 4096):
            told = refused(frames, side, size, Login.recorded(name, side))
            passed, failed = passed + (told == wanted), failed + (told != wanted)
            if told != wanted:
                print(f"{name} {side}, pieces of {size}: refused\n" + "\n".join(told) + "\nwanted\n" + "\n".join(wanted))
    print(f"{passed} passed, {failed} failed")
    sys.exit(failed > 0)


if __name__ == "__main__":
    command(main, __doc__)
