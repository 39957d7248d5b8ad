#!/usr/bin/env python3
"""How much memory the program `amqp_replay` holds at most over long lives: after a thousand lines, and after a million.

    tools/bench/peaks.py [PROGRAM [WORD..]]

PROGRAM is the program of `crates/amqp_replay`, as `rt run` builds it; where none is named it is built first. With words only those lives
are run whose name has one of them. A life is a few lines that begin it, and then the same exchange again and again, with the next numbers and
names. It is flat where the peak after a million lines is that after a thousand and no more than 1 MB. The status is 1 where one grows.

The peak is the kernel's high-water mark of the process itself (`VmHWM`), read when the last line has been answered: what `getrusage` tells
of a child is no less than what its parent held when it began it. A life counts only where the program printed as many frames as were due, and
no refusal.
"""

import itertools
import re
import subprocess
import sys
import threading
from pathlib import Path

sys.path.insert(0, str(Path(__file__).resolve().parents[1]))

from amqp import canonical as c
from shared.command import command

CRATE = Path(__file__).resolve().parents[2] / "crates" / "amqp_replay"
FEW, MANY, MORE = 1000, 1000000, 1024
# So many are open that the tag of each further one is copied.
LIVE = 300
WIDEST = 2**32 - 1
# A line that is refused whatever came before, and shows that all of it was answered
MARK, MARKED = "release 4294967295", "err NoSession"
ACCEPTED = bytes([0x00, 0x53, 0x24, 0x45])
HEARTBEAT = "recv 02000000"


# ---- frames


def received(performative, payload=b""):
    """The line of a frame on channel 0."""
    return "recv " + (bytes([2, 0, 0, 0]) + performative + payload).hex()


def sent(performative, payload=b""):
    """The line by which session 0 sends this."""
    return "send 0 " + (performative + payload).hex()


def begin():
    return c.composite(0x11, [c.ushort(0), c.uint(0), c.uint(WIDEST), c.uint(WIDEST)])


def end():
    return c.composite(0x17, [])


def attach(name, of_receiver):
    terminus = c.composite(0x28, [c.string("q")]), c.composite(0x29, [c.string("q")])
    first = [] if of_receiver else [b"\x40", b"\x40", c.uint(0)]
    return c.composite(0x12, [c.string(name), c.uint(0), c.boolean(of_receiver), c.ubyte(0), c.ubyte(0), *terminus, *first])


def detach():
    return c.composite(0x16, [c.uint(0), c.boolean(True)])


def transfer(number, is_named):
    """A transfer of the handle 0, by a sender that names its number or leaves it to the session."""
    tag = bytes([0xA0, 4]) + number.to_bytes(4, "big")
    return c.composite(0x14, [c.uint(0), c.uint(number) if is_named else b"\x40", tag, c.uint(0), c.boolean(False)])


def flow(number, window, echo=None):
    """A flow of the session, by a peer that waits for the transfer of this number and takes so many; one with `echo` is the link's."""
    link = [] if echo is None else [c.uint(0), c.uint(0), c.uint(WIDEST), b"\x40", b"\x40", c.boolean(echo)]
    return c.composite(0x13, [c.uint(number), c.uint(window), c.uint(0), c.uint(WIDEST), *link])


def disposition(of_receiver, number, settled):
    return c.composite(0x15, [c.boolean(of_receiver), c.uint(number), b"\x40", c.boolean(settled), ACCEPTED])


def disposition_of_range(of_receiver, first, last, settled=True):
    return c.composite(0x15, [c.boolean(of_receiver), c.uint(first), c.uint(last), c.boolean(settled), ACCEPTED])


# ---- lives

OPEN = ["open", received(c.composite(0x10, [c.string("peer")]))]
BEGUN = [*OPEN, "begin 0", received(begin())]
SENDS = [*BEGUN, "link 0 a", sent(attach("a", False)), received(attach("a", True))]
RECEIVES = [*BEGUN, "link 0 a", sent(attach("a", True)), received(attach("a", False))]


class Life:
    """How it begins, what the exchange with some number is, and how many frames go out: at its beginning, and in an exchange."""

    def __init__(self, name, first, exchange, out_first, out_each):
        self.name, self.first, self.exchange = name, first, exchange
        self.out_first, self.out_each = out_first, out_each

    def exchanges(self, count):
        """How many exchanges so many lines hold."""
        return count // len(self.exchange(0))

    def lines(self, count):
        """The lines of a life with so many of its exchanges' lines."""
        exchanges = map(self.exchange, range(self.exchanges(count)))
        return itertools.chain(self.first, itertools.chain.from_iterable(exchanges), [MARK])

    def due(self, count):
        """The range of the frames that go out: flows of the session come on top of each exchange's own."""
        own = self.out_first + self.out_each * self.exchanges(count)
        return range(own, own + count // 1000 + 1)


def sent_and_settled(i):
    return [sent(transfer(i, False), b"x" * 64), received(disposition(True, i, True))]


def received_and_settled(i):
    return [received(transfer(i, True), b"x" * 64), f"settle 0 receiver {i}"]


def oldest_settled(i):
    """One more comes, and the oldest of those that are open is let go."""
    return [received(transfer(i + LIVE, True), b"x" * 64), f"settle 0 receiver {i}"]


def nine_settled(i):
    """Nine come, and one line settles all."""
    numbers = range(9 * i, 9 * i + 9)
    return [*(received(transfer(number, True), b"x" * 64) for number in numbers), f"settle 0 receiver {numbers[0]} {numbers[-1]}"]


def accepted_and_settled(i):
    """This side sends a settled disposition before it lets the delivery go."""
    come, go = received_and_settled(i)
    return [come, sent(disposition(True, i, True)), go]


def held_back(i):
    """The window is used up: a transfer waits for the flow that lets it out."""
    come, go = sent_and_settled(i)
    return [come, received(flow(i, 1)), go]


def attached(i):
    """The lines by which a link of another name comes to the handle 0 on both sides."""
    return [f"link 0 link-{i}", sent(attach(f"link-{i}", False)), received(attach(f"link-{i}", True))]


def forgotten(i, within=()):
    """A session of the next number: its Begin, what happens within, its End, its channel given back, and the session forgotten."""
    return [f"begin {i}", received(begin()), *within, f"end {i}", received(end()), f"release {i}", f"forget {i}"]


def used(i):
    """One that has a link and an open delivery when it ends."""
    mine = (it.replace("send 0 ", f"send {i} ") for it in (sent(attach("a", False)), sent(transfer(0, False), b"x" * 64)))
    return forgotten(i, [f"link {i} a", next(mine), received(attach("a", True)), next(mine)])


LIVES = [
    Life("heartbeats", OPEN, lambda i: [HEARTBEAT], 1, 0),
    Life("sent, and settled by the peer", SENDS, sent_and_settled, 3, 1),
    Life("held back, let out and settled", [*SENDS, received(flow(0, 0))], held_back, 3, 1),
    Life("received, and settled by this side", RECEIVES, received_and_settled, 3, 0),
    Life("received, and settled nine at once", RECEIVES, nine_settled, 3, 0),
    Life("received, and the oldest of 300 settled", [*RECEIVES, *(received_and_settled(i)[0] for i in range(LIVE))], oldest_settled, 3, 0),
    Life("received, accepted and settled", RECEIVES, accepted_and_settled, 3, 1),
    Life("links that the peer detaches", BEGUN, lambda i: [*attached(i), received(detach())], 2, 2),
    Life("links that this side detaches", BEGUN, lambda i: [*attached(i), sent(detach()), received(detach())], 2, 2),
    Life("echoes of a sent delivery", [*SENDS, sent(transfer(0, False))], lambda i: [received(disposition(True, 0, False))], 4, 1),
    Life("echoes of a received one", [*RECEIVES, received(transfer(0, True))], lambda i: [received(disposition(False, 0, False))], 3, 1),
    Life("flows that are echoed", SENDS, lambda i: [received(flow(0, WIDEST, True))], 3, 1),
    Life("sessions begun, ended and forgotten", OPEN, forgotten, 1, 2),
    Life("sessions with a link, forgotten", OPEN, used, 1, 4),
]


# ---- what is run


def feed(process, lines):
    """Writes the lines, some hundred at once."""
    for some in iter(lambda: list(itertools.islice(lines, 500)), []):
        process.stdin.write("".join(f"{line}\n" for line in some).encode())
    process.stdin.flush()


def answers(process):
    """How many frames go out before the mark is answered; ends at a refusal."""
    frames = 0
    for line in process.stdout:
        if line.startswith(b"out "):
            frames += 1
        elif line.decode().strip() == MARKED:
            return frames
        else:
            break
    raise ValueError(f"frame {frames}: {line.decode()}")


def peak(program, life, count):
    """The most memory that the program held over so many lines, in kB."""
    process = subprocess.Popen([program], stdin=subprocess.PIPE, stdout=subprocess.PIPE)
    feeder = threading.Thread(target=feed, args=(process, life.lines(count)), daemon=True)
    feeder.start()
    frames = answers(process)
    status = Path(f"/proc/{process.pid}/status").read_text()
    feeder.join()
    process.stdin.close()
    if process.wait() or frames not in life.due(count):
        sys.exit(f"{life.name}: {frames} frames, status {process.returncode}")
    return int(re.search(r"VmHWM:\s+(\d+) kB", status).group(1))


def write(program, life):
    """Prints a life's two peaks; whether it is flat."""
    few, many = (peak(program, life, count) for count in (FEW, MANY))
    is_flat = many <= few + MORE
    print(f"{life.name:38}{few:16}{many:16}  {'flat' if is_flat else 'grows'}", flush=True)
    return is_flat


def built():
    """The program, built."""
    subprocess.run(["rt", "run"], cwd=CRATE, stdin=subprocess.DEVNULL, stdout=subprocess.DEVNULL, check=True)
    return str(CRATE / "out" / "amqp_replay")


def main():
    program, wanted = sys.argv[1] if len(sys.argv) > 1 else built(), sys.argv[2:]
    lives = [life for life in LIVES if not wanted or any(word in life.name for word in wanted)]
    print(f"{'kB at most, in a life of':38}{f'{FEW} lines':>16}{f'{MANY} lines':>16}")
    return 0 if all([write(program, life) for life in lives]) else 1


if __name__ == "__main__":
    command(lambda: sys.exit(main()), __doc__)
