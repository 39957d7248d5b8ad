#!/usr/bin/env python3
"""Tries tools/watch.py: what it hands on, what it tells, and what it keeps.

    tools/gate/try_watch.py [SEED]

It needs no library and no network but loopback. Each recording in captures is also handed on with one byte changed, many times; SEED, 1 where it is left out, says which
bytes. The last line is 'N passed, M failed', a test for each damaged connection, each recording, each connection of made_faults.py, and each function below.
"""

import asyncio
import gc
import random
import sys
import threading
from pathlib import Path

sys.path.insert(0, str(Path(__file__).resolve().parents[1]))

import watch
from amqp.canonical import boolean
from amqp.frames import CLOSE, DETACH, END
from amqp.judging import Judge
from amqp.looking import Seen
from amqp.recorded import CAPTURES
from amqp.recordings import recorded
from amqp.telling import WHO
from gate.made_connections import SENDER, attach, begin, begun, cases, ended, frame, opened, uint
from gate.heard import Heard
from gate.made_faults import FAULTS, LAWFUL, transfer
from gate.watched_over_tls import over_tls
from shared.command import command
from watch import Desk, Watched

HEADER = b"AMQP\0\1\0\0"
DAMAGED = 40
FAILED = []


def check(name, is_right, *said):
    """Counts a test, and says what was found where it is wrong."""
    if not is_right:
        print(name, *said)
    FAILED.append(not is_right)


def sized(of):
    return (len(of) + 4).to_bytes(4, "big") + of


def streamed(frames):
    """What both sides send: a header first, and then frames with their sizes."""
    return [("A", HEADER), ("B", HEADER), *((side, sized(of)) for side, of in frames)]


def told_of(frames, chunk=2**20):
    heard = Heard()
    seen = Seen(heard)
    for side, data in streamed(frames):
        for at in range(0, len(data), chunk):
            seen.see(side, data[at : at + chunk])
    for side in "AB":
        seen.end(side)
    return heard.told


# ---- what it tells


def wanted():
    """What is told of each recording, by its name."""
    found = {it.stem: [] for it in CAPTURES.glob("*.txt")}
    for line in (CAPTURES / "judged.rows").read_text().splitlines():
        if line.startswith("== "):
            of = found[line[3:]]
        elif line and not line.startswith("#"):
            of.append(line)
    return found


def recordings():
    for name, lines in sorted(wanted().items()):
        frames = recorded(CAPTURES / f"{name}.txt")
        for chunk in (1, 7, 4096):
            told = told_of(frames, chunk)
            check(name, told == lines, chunk, *told)


def made():
    for name, before, wrong, after, fault in FAULTS:
        told, who = told_of([*before, *wrong, *after]), WHO[wrong[0][0]]
        begins = f"{who}, frame {len(before) + 1}, "
        check(name, len(told) == 1 and told[0].startswith(begins) and fault in told[0], *told)
    for name, frames in LAWFUL:
        check(name, told_of(frames) == [], *told_of(frames))
    for name, frames, side, _ in cases():
        if name.startswith(("channel_again", "many_lives", "pipelined")):
            blamed = [it for it in told_of(frames) if "the peer ended" not in it]
            check(name, not blamed, *blamed)


# ---- what it hands on


class Sink:
    """What a side is handed."""

    def __init__(self):
        self.got, self.is_closed = bytearray(), False

    def write(self, data):
        self.got += data

    async def drain(self):
        await asyncio.sleep(0)

    def write_eof(self):
        self.is_closed = True

    close = write_eof

    def can_write_eof(self):
        return True

    async def wait_closed(self):
        pass


class Quiet(Watched):
    """It tells a list."""

    def __init__(self, desk):
        super().__init__(1, desk, Heard())
        self.told = self.teller.told


async def handed_on(stream, desk):
    """What each side is handed of a stream, and the connection that was watched."""
    watched, readers, sinks = Quiet(desk), {side: asyncio.StreamReader() for side in "AB"}, {side: Sink() for side in "AB"}
    between = asyncio.ensure_future(watched.between((readers["A"], sinks["B"]), (readers["B"], sinks["A"])))
    for side, data in stream:
        readers[side].feed_data(data)
        due = len(sinks[side].got) + len(data)
        while len(sinks[side].got) < due and not between.done():
            await asyncio.sleep(0)
    for reader in readers.values():
        reader.feed_eof()
    await between
    return sinks, watched


def is_handed_on(name, stream, raises=False):
    """Tests that both sides are handed all, and then the end, and that nothing was raised; the connection."""
    desk = Desk()
    desk.start()
    sinks, watched = asyncio.run(handed_on(stream, desk))
    desk.end()
    is_whole = all(bytes(sinks[side].got) == b"".join(of for by, of in stream if by == side) for side in "AB")
    check(name, is_whole and watched.seen.is_over == raises and sinks["A"].is_closed and sinks["B"].is_closed, *watched.told)
    return watched


def damaged(draw, stream):
    """The stream with one byte changed, or cut off within a frame."""
    at = draw.randrange(len(stream))
    side, data = stream[at]
    where = draw.randrange(len(data))
    if draw.random() < 0.1:
        return [*stream[:at], (side, data[: where + 1])]
    data = data[:where] + bytes([data[where] ^ draw.randrange(1, 256)]) + data[where + 1 :]
    return [*stream[:at], (side, data), *stream[at + 1 :]]


def damages(seed):
    draw = random.Random(seed)
    for path in sorted(CAPTURES.glob("*.txt")):
        stream = streamed(recorded(path))
        for turn in range(DAMAGED):
            is_handed_on(f"{path.stem}, damaged {turn}", damaged(draw, stream))


def noise(seed):
    draw = random.Random(seed)
    for turn in range(20):
        is_handed_on(f"noise {turn}", [(draw.choice("AB"), bytes(draw.randrange(256) for _ in range(300))) for _ in range(20)])


def what_cannot_be_read_is_told_once():
    stream = [*streamed(opened()), ("A", b"\0\0\0\3"), *[("A", sized(begin("A", 0)[1]))] * 3, *streamed(opened())[3:]]
    watched = is_handed_on("a size that no frame has", stream)
    check("told once", sum("looked at no more (no frame has 3 bytes)" in it for it in watched.told) == 1, *watched.told)


def what_hangs_on_it_is_not_told():
    """What the client sent after a size that no frame has may have begun a session, or given a window: the server is not blamed for what hangs on it."""
    for before, after in ((opened(), [begin("B", 0, 0), attach("B", 0, "link", 0, SENDER)]), ([*opened(), begin("A", 0)], [begin("B", 0, 0), *sends(200)])):
        stream = [*streamed(before), ("A", b"\0\0\0\3" * 2), *((side, sized(of)) for side, of in after)]
        watched = is_handed_on("what hangs on a broken stream", stream)
        told = [it for it in watched.told if not it.startswith("over")]
        check("what hangs on it is not told", told == [f"client, after frame {len(before)}: looked at no more (no frame has 3 bytes)"], *told)


def sends(count):
    """The server attaches a link, and sends on it."""
    return [attach("B", 0, "link", 0, SENDER), *(transfer(number, side="B") for number in range(count))]


def what_raises_is_told_once():
    step, Judge.step = Judge.step, None
    watched = is_handed_on("what raises", [*streamed(opened()), *streamed(opened())[2:]], raises=True)
    Judge.step = step
    check("what raises is told once", len(watched.told) == 2 and "after frame 0: looked at no more (TypeError" in watched.told[0], *watched.told)


def nothing_waits_for_what_looks():
    """While what looks is held up, all is handed on; and what waits to be looked at has an end."""
    desk, held = Desk(), threading.Event()
    desk.give(0, held.wait)
    desk.start()
    most, watch.MOST_WAITING = watch.MOST_WAITING, 10000
    sinks, watched = asyncio.run(handed_on([("A", HEADER), *[("A", bytes(1000))] * 50], desk))
    watch.MOST_WAITING = most
    kept = desk.waiting()
    held.set()
    desk.end()
    check("all is handed on", len(sinks["A"].got) == 50008)
    check("what waits has an end", kept < 20000 and sum("more comes than" in it for it in watched.told) == 1, kept, *watched.told)


def over_sockets():
    """The client ends its direction first: the server's still goes on."""

    async def serve(reader, writer):
        writer.write(b"B" * 8 + await reader.read())
        writer.close()

    async def both():
        server = await asyncio.start_server(serve, "127.0.0.1", 0)
        words = [sys.executable, watch.__file__, "0", "127.0.0.1", str(server.sockets[0].getsockname()[1]), "--connections", "1"]
        watcher = await asyncio.create_subprocess_exec(*words, stdout=asyncio.subprocess.PIPE)
        port = int((await watcher.stdout.readline()).split(b":")[-1])
        reader, writer = await asyncio.open_connection("127.0.0.1", port)
        writer.write(HEADER)
        writer.write_eof()
        answer = await asyncio.wait_for(reader.read(), 20)
        told, _ = await asyncio.wait_for(watcher.communicate(), 20)
        return answer, told.decode(), watcher.returncode

    answer, told, status = asyncio.run(both())
    check("over sockets", (answer, status) == (b"B" * 8 + HEADER, 0) and "over, after 0 frames" in told, answer, told, status)


# ---- what it keeps


def keeps_what_is_live():
    """4,000 sessions, and as many links under handles of their own, come and go: what is kept does not grow."""
    seen, held = Seen(Heard()), []
    told = seen.teller.told
    turns = [lambda n: [*begun(n % 9, 5), *ended(n % 9, 5)], lambda n: link_comes_and_goes(n)]
    see(seen, opened())
    for turn in turns:
        see(seen, [] if turn is turns[0] else begun(0, 0))
        for n in range(4000):
            see(seen, turn(n))
            if n in (500, 3999):
                gc.collect()
                held.append(sys.getallocatedblocks())
    check("4,000 sessions and links", not told and held[1] - held[0] < 400 and held[3] - held[2] < 400, *told[:3], held)


def see(seen, frames):
    for side, of in frames:
        seen.see(side, sized(of))


def link_comes_and_goes(n):
    down = [frame(side, 0, DETACH, uint(n), boolean(True)) for side in "AB"]
    return [*(attach(side, 0, f"link {n}", n, SENDER if side == "A" else boolean(True)) for side in "AB"), *down]


def takes_many_sessions_at_once():
    seen = Seen(Heard())
    told = seen.teller.told
    see(seen, opened())
    for channel in range(0, 65536, 8):
        see(seen, begun(channel, 65535 - channel))
    see(seen, [frame("A", 65528, END), frame("B", 7, END), frame("A", 0, CLOSE)])
    check("8,192 sessions at once", not told, *told[:3])


def main():
    seed = int(sys.argv[1]) if len(sys.argv) > 1 else 1
    recordings()
    made()
    damages(seed)
    noise(seed)
    of_streams = what_cannot_be_read_is_told_once, what_hangs_on_it_is_not_told, what_raises_is_told_once, nothing_waits_for_what_looks
    for test in (*of_streams, over_sockets, keeps_what_is_live, takes_many_sessions_at_once):
        test()
    over_tls(check)
    print(f"{FAILED.count(False)} passed, {FAILED.count(True)} failed")
    sys.exit(any(FAILED))


if __name__ == "__main__":
    command(main, __doc__)
