"""The engine of the library `libamqp1.so`, driven by the lines of amqp_replay, for try_c_captures.py."""

import sys
from pathlib import Path

sys.path.insert(0, str(Path(__file__).resolve().parents[2] / "bindings" / "python"))

from amqp.frames import ATTACH, DETACH, DISPOSITION, FLOW, TRANSFER, Frame
from amqp_engine import Attach, Begin, Detach, Detached, Disposition, Engine, Flow, Malformed, Open, Refusal, Transfer

__all__ = ["Detach", "Detached", "Engine", "LineEngine", "Malformed", "Open"]

ASKS = {ATTACH: ("attach", Attach), FLOW: ("flow", Flow), DISPOSITION: ("disposition", Disposition), DETACH: ("detach", Detach)}

# This side's, as a line names it
ROLES = {"receiver": True, "sender": False}


class LineEngine:
    """An engine that takes lines: `open`, `close`, `recv HEX`, `begin N`, `end N`, `release N`, `forget N`, `link N NAME`, `send N HEX`,
    `settle N ROLE FIRST`, `settle N ROLE FIRST LAST`, and empty ones. A link takes what comes, whichever end it is."""

    def __init__(self, open, **how):
        self.engine = Engine(open, **how)

    def ask(self, line):
        """Asks what the line says. Gives each refusal, in order, all of one call by the last one's name; events are heard."""
        word, _, rest = line.partition(" ")
        try:
            if word == "recv":
                of = bytes.fromhex(rest)
                for event in self.receive((len(of) + 4).to_bytes(4, "big") + of):
                    if isinstance(event, Refusal):
                        yield from [event] * event.count
                    else:
                        self.hear(event)
            else:
                self.request(word, rest)
        except Refusal as refusal:
            yield from [refusal] * refusal.count

    def receive(self, data):
        """What received bytes bring. A frame that comes behind both Closes is not taken, and is told as the program tells it."""
        if self.engine.is_over:
            return [Refusal("IllegalState")]
        return self.engine.receive(data)

    def pieces(self):
        """The frames that are to be sent, each without its size."""
        found, data, at = [], self.engine.to_send(), 0
        while at < len(data):
            end = at + int.from_bytes(data[at : at + 4], "big")
            found.append(data[at + 4 : end])
            at = end
        return found

    def request(self, word, rest):
        if word in ("", "open", "close"):
            return getattr(self.engine, word)() if word else None
        number, _, said = rest.partition(" ")
        if word == "begin":
            self.engine.begin(int(number), Begin(incoming_window=5000, outgoing_window=5000))
        elif word == "link":
            self.engine.link(int(number), said, True, 1)
        elif word == "send":
            self.send(int(number), Frame(b"\x02\x00\x00\x00" + bytes.fromhex(said)))
        elif word == "settle":
            role, *range_of = said.split(" ")
            self.engine.settle(int(number), ROLES[role], *map(int, range_of))
        else:
            getattr(self.engine, word)(int(number))

    def send(self, number, frame):
        body = frame.body()[: len(frame.body()) - len(frame.payload)]
        if frame.code == TRANSFER:
            self.engine.transfer(number, Transfer.decode(body), frame.payload, frame[2] != b"\x40")
        else:
            name, kind = ASKS[frame.code]
            getattr(self.engine, name)(number, kind.decode(body))

    def hear(self, event):
        """What an event asks for: nothing."""
