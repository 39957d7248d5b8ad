"""Two engines, face to face in memory, for try_c.py and what it runs: a client's, and a server's."""

import sys
from pathlib import Path

sys.path.insert(0, str(Path(__file__).resolve().parents[2] / "bindings" / "python"))

from amqp_engine import FIRST, SENDER, Attach, Begin, Engine, Open, Refusal, Server, SessionBegan, source, target
from try_c.try_c_sockets import OPEN


class Pair:
    """A client's engine and a server's, and the bytes between them."""

    def __init__(self, limit=512):
        """The server takes frames of so many bytes."""
        self.client = Engine(OPEN)
        self.server = Server(Engine(Open("server", max_frame_size=limit, channel_max=7)), begin=Begin(incoming_window=8))
        self.client.open()
        self.server.engine.open()

    def carry(self, cut=None):
        """Hands on what waits, until nothing does; answers what came on each side."""
        came = ([], [])
        while True:
            there, back = self.client.to_send(), self.server.to_send()
            if not there and not back:
                return came
            for data, side, found in ((there, self.server, came[1]), (back, self.client, came[0])):
                for at in range(0, len(data), cut or len(data) or 1):
                    found += side.receive(data[at : at + (cut or len(data))])

    def attached(self, role=SENDER, settle_mode=FIRST, name="link", snd=None):
        """A link that both sides attached: the client's handle, what it came as on the server, the server's handle, what came back."""
        handle = self.client.link(0, name, role, settle_mode)
        ends = (source("from"), target("to"))
        self.client.attach(0, Attach(name, handle, role, snd, settle_mode, *ends, initial_delivery_count=None if role else 0))
        (event,) = self.carry()[1]
        mine = self.server.output_of(event)
        self.server.attach(event.session, Attach(name, mine, not role, snd, settle_mode, *ends, initial_delivery_count=0 if role else None))
        (answer,) = self.carry()[0]
        return handle, event, mine, answer


def mapped(limit=512):
    pair = Pair(limit)
    pair.client.begin(0, Begin(next_outgoing_id=0, incoming_window=8, outgoing_window=8))
    came = pair.carry()
    assert came == ([], [SessionBegan(0, None, None, Begin(None, 0, 8, 8))]), came
    return pair


def refused(call, name):
    try:
        call()
    except Refusal as refusal:
        assert refusal.name == name, refusal
    else:
        raise AssertionError(f"not refused: {name}")


def frames(data):
    found = []
    while data:
        size = int.from_bytes(data[:4], "big")
        found.append(data[4:size])
        data = data[size:]
    return found
