#!/usr/bin/env python3
"""Has peers that wish them ill talk to two programs over the transport, and says whether they end as they have to, and what memory they held.

    tools/gate/hostile_peers.py [BROKER TRANSPORT]

These are the programs example_broker and example_transport as `rt run` or `rt ci` left them in out/; where one is missing `rt run` makes it. Each peer
writes frames to the broker's standard input and reads what it answers; of memory the kernel's high-water mark of the process is read. The
transport reads its recorded streams, some of which announce frames that do not come, with little memory. The last line is 'N passed, M failed'.
"""

import itertools
import re
import resource
import subprocess
import sys
import threading
from pathlib import Path

sys.path.insert(0, str(Path(__file__).resolve().parents[1]))

from amqp.canonical import boolean, composite, string, tag, ubyte, uint
from amqp.frames import ATTACH, BEGIN, CLOSE, DETACH, DISPOSITION, NULL, OPEN, TRANSFER
from shared.command import command

CRATES = Path(__file__).resolve().parents[2] / "crates"
HEADER = b"AMQP\0\1\0\0"
SOURCE, TARGET = composite(0x28, [string("q")]), composite(0x29, [string("q")])
# The bounds that the broker's page gives: of a message, and of the memory for all of them, in bytes
MOST_MESSAGE, MOST_BYTES = 1 << 20, 64 << 20
# How much of a message stands in one frame
PART = 65000
# What the program holds beside its messages, at most, in kB
BESIDE = 24 << 10
# How many seconds one peer may take.
LIMIT = 120
ACCEPTED, RELEASED = b"\0\x53\x24", b"\0\x53\x26"


def sized(frame):
    return (len(frame) + 4).to_bytes(4, "big") + frame


def framed(code, fields, payload=b"", channel=0):
    return sized(b"\2\0" + channel.to_bytes(2, "big") + composite(code, fields) + payload)


def begin(channel=0):
    """A session with windows that nobody uses up."""
    wide = uint((1 << 31) - 1)
    return framed(BEGIN, [NULL, uint(0), wide, wide], channel=channel)


def attach(handle, mode=NULL):
    """A link on which messages are sent."""
    return framed(ATTACH, [string(f"l{handle}"), uint(handle), boolean(False), NULL, mode, SOURCE, TARGET, NULL, NULL, uint(0)])


def begun(mode=NULL):
    """Headers, Open, a session, and a link on which messages are sent."""
    yield OPENED + begin()
    yield attach(0, mode)


def transfers(number, parts, settled):
    """A message, each part in a transfer of its own."""
    first = [uint(0), uint(number), tag({"bin": f"{number:08x}"}), uint(0), boolean(settled)]
    for at, part in enumerate(parts):
        more = boolean(at + 1 < len(parts))
        yield framed(TRANSFER, [*(first if at == 0 else [uint(0), *[NULL] * 4]), more], part)


def message(number, size, settled=False):
    return transfers(number, [b"x" * min(PART, size - at) for at in range(0, size, PART)], settled)


OPENED, CLOSED = HEADER + framed(OPEN, [string("peer")]), framed(CLOSE, [])


def detached():
    return framed(DETACH, [uint(0), boolean(True)])


class Told:
    """What the broker sent: how many frames of each kind, how many messages it accepted and released, and the bytes of its Detach and Close."""

    def __init__(self):
        self.frames, self.accepted, self.released, self.detach, self.close = {}, 0, 0, b"", b""

    def take(self, frame):
        code = frame[6]
        self.frames[code] = self.frames.get(code, 0) + 1
        if code == DISPOSITION:
            self.accepted += ACCEPTED in frame
            self.released += RELEASED in frame
        if code == DETACH:
            self.detach = frame
        if code == CLOSE:
            self.close = frame


def feed(process, stream):
    """Writes the pieces of a stream; ends where the broker reads no more."""
    try:
        for some in iter(lambda: b"".join(itertools.islice(stream, 64)), b""):
            process.stdin.write(some)
        process.stdin.flush()
    except BrokenPipeError:
        pass


def frames(stream):
    """The frames that come after the header."""
    stream.read(len(HEADER))
    while size := stream.read(4):
        yield stream.read(int.from_bytes(size, "big") - 4)


def talk(program, stream):
    """What the broker told until it detached, closed or ended, and its high-water mark in kB."""
    process = subprocess.Popen([program], stdin=subprocess.PIPE, stdout=subprocess.PIPE, stderr=subprocess.DEVNULL)
    feeder = threading.Thread(target=feed, args=(process, stream), daemon=True)
    # a broker that answers nothing more has failed, and holds nobody up
    late = threading.Timer(LIMIT, process.kill)
    late.start()
    feeder.start()
    told, held = Told(), 0
    for frame in frames(process.stdout):
        told.take(frame)
        if frame[6] in (DETACH, CLOSE):
            held = high_water(process)
            break
    late.cancel()
    process.kill()
    feeder.join()
    process.wait()
    return told, held


def high_water(process):
    """A program that has ended has none any more."""
    found = re.search(r"VmHWM:\s+(\d+) kB", Path(f"/proc/{process.pid}/status").read_text())
    return int(found.group(1)) if found else 0


# ---- the peers: what each sends, and what has to come of it


def of_many_messages(number, size):
    """So many messages, that nobody takes, and at the end the link's Detach."""
    return itertools.chain(begun(), *(message(i, size) for i in range(number)), [detached()])


def keeps_what_it_has_room_for(program):
    """Two hundred messages of the greatest size, of which a third finds room: the others are released."""
    told, held = talk(program, of_many_messages(200, MOST_MESSAGE))
    fits = MOST_BYTES // MOST_MESSAGE
    return told.accepted + told.released == 200 and fits - 2 <= told.accepted <= fits + 1 and held < (MOST_BYTES >> 10) + BESIDE


def takes_a_message_of_many_parts_for_one(program):
    """A message whose parts have a byte each takes no more memory than another one."""
    parts = [b"x"] * (MOST_MESSAGE - 1)
    told, held = talk(program, itertools.chain(begun(), transfers(0, parts, False), [detached()]))
    return told.accepted == 1 and held < BESIDE


def passes_over_parts_of_no_bytes(program):
    """A message of a million transfers without a payload takes no memory to speak of."""
    told, held = talk(program, itertools.chain(begun(), transfers(0, [b""] * 1000000, False), [detached()]))
    return told.accepted == 1 and held < BESIDE


def refuses_a_message_that_is_too_long(program):
    told, held = talk(program, itertools.chain(begun(), message(0, 64 * MOST_MESSAGE)))
    return b"amqp:link:message-size-exceeded" in told.detach and held < BESIDE


def refuses_a_message_past_the_credit(program):
    """Where the queue is full no more credit comes, and the link of who goes on all the same is detached."""
    told, held = talk(program, itertools.chain(begun(), *(message(i, 1, True) for i in range(20000))))
    return b"amqp:link:transfer-limit-exceeded" in told.detach and held < BESIDE


def gives_no_credit_to_who_settles_nothing(program):
    """Of messages that the client has to settle first, and does not, 2,048 and one credit more may come."""
    told, held = talk(program, itertools.chain(begun(ubyte(1)), *(message(i, 1) for i in range(4000))))
    return 2048 <= told.accepted <= 2548 and b"amqp:link:transfer-limit-exceeded" in told.detach and held < BESIDE


def attaches_no_link_past_its_bound(program):
    told, held = talk(program, itertools.chain([OPENED, begin()], map(attach, range(300)), [CLOSED]))
    return told.frames[ATTACH] == 256 and b"amqp:resource-limit-exceeded" in told.close and held < BESIDE


def takes_no_memory_for_a_size(program):
    """A size past the limit is no frame: the connection is closed for it."""
    told, held = talk(program, itertools.chain(begun(), [(1 << 31).to_bytes(4, "big")]))
    return b"amqp:connection:framing-error" in told.close and held < BESIDE


def answers_one_begin_of_a_channel(program):
    """Of 256 Begins on one channel the first is answered, and the connection ends at the second."""
    told, held = talk(program, iter([OPENED, *[begin()] * 256, CLOSED]))
    return told.frames == {OPEN: 1, BEGIN: 1, CLOSE: 1} and b"amqp:not-implemented" in told.close and held < BESIDE


def begins_no_session_past_its_channels(program):
    """A Begin on each channel there is: as many are answered as the broker's Open allows."""
    told, held = talk(program, itertools.chain([OPENED], map(begin, range(65536)), [CLOSED]))
    return told.frames == {OPEN: 1, BEGIN: 256, CLOSE: 1} and b"amqp:not-allowed" in told.close and held < BESIDE


def closes_in_the_middle_of_a_delivery(program):
    """A Close behind the first part of a message is answered by one without an error."""
    told, _ = talk(program, itertools.chain(begun(), itertools.islice(transfers(0, [b"x" * PART] * 2, False), 1), [CLOSED]))
    return told.frames[CLOSE] == 1 and told.close[4:] == b"\0\x53\x18\x45" and DISPOSITION not in told.frames


def refuses_a_second_open(program):
    told, _ = talk(program, iter([OPENED, OPENED[len(HEADER) :], begin(), CLOSED]))
    return told.frames == {OPEN: 1, CLOSE: 1} and b"amqp:illegal-state" in told.close


def takes_a_second_header_for_no_frame(program):
    told, _ = talk(program, iter([HEADER + OPENED, begin(), CLOSED]))
    return told.frames == {OPEN: 1, CLOSE: 1} and b"amqp:connection:framing-error" in told.close


def runs_no_frame_without_a_header(program):
    """Frames before the header, and those behind a header of SASL, which the broker does not speak: none is answered."""
    streams = [OPENED[len(HEADER) :], begin()], [b"AMQP\3\1\0\0", OPENED, begin()]
    return all(talk(program, iter(stream))[0].frames == {} for stream in streams)


PEERS = (
    keeps_what_it_has_room_for, takes_a_message_of_many_parts_for_one, passes_over_parts_of_no_bytes, refuses_a_message_that_is_too_long,
    refuses_a_message_past_the_credit, gives_no_credit_to_who_settles_nothing, attaches_no_link_past_its_bound, takes_no_memory_for_a_size, answers_one_begin_of_a_channel, begins_no_session_past_its_channels,
    closes_in_the_middle_of_a_delivery, refuses_a_second_open, takes_a_second_header_for_no_frame, runs_no_frame_without_a_header,
)  # fmt: skip


def reads_in_little_memory(program):
    """The recorded streams of the transport, with so much address space that no announced frame finds room before it comes."""
    crate = CRATES / "example_transport"
    limit = 256 << 20
    with open(crate / "stdin", "rb") as given:
        how = {"preexec_fn": lambda: resource.setrlimit(resource.RLIMIT_AS, (limit, limit)), "stdout": subprocess.PIPE}
        return subprocess.run([program], stdin=given, check=False, **how).stdout == (crate / "stdout").read_bytes()


def built(name):
    program = CRATES / name / "out" / name
    if not program.exists():
        subprocess.run(["rt", "run"], cwd=CRATES / name, stdin=subprocess.DEVNULL, stdout=subprocess.DEVNULL, check=True)
    return str(program)


def main():
    broker, transport = sys.argv[1:3] if len(sys.argv) > 2 else map(built, ("example_broker", "example_transport"))
    outcomes = [(peer.__name__, peer(broker)) for peer in PEERS]
    outcomes.append((reads_in_little_memory.__name__, reads_in_little_memory(transport)))
    for name, is_so in outcomes:
        if not is_so:
            print(f"FAILED: {name}")
    failed = sum(not is_so for _, is_so in outcomes)
    print(f"{len(outcomes) - failed} passed, {failed} failed")
    sys.exit(1 if failed else 0)


if __name__ == "__main__":
    command(main, __doc__)
