"""Files of packets that no program writes, for try_pcap.py: what is damaged, what says that it is long, and what is meant to be dear."""

import random
import re
import subprocess
import sys
from pathlib import Path
from struct import pack

from amqp.canonical import boolean, uint
from amqp.frames import ATTACH, BEGIN, DETACH, NULL
from amqp.recorded import CAPTURES
from amqp.recordings import recorded
from gate.made_connections import SENDER, attach, begin, frame, opened
from gate.made_faults import LAWFUL
from gate.made_packets import ACK, HEADER, SYN, Packet, block, interface, ip_6, linked, packets_of, pcap, pcapng, section, tcp
from packets.joined import Recording

TOOL = Path(__file__).resolve().parents[1] / "transcript.py"
# What a file may cost beside what a small one costs: bytes of memory, and microseconds, for each byte of it
MOST_MEMORY, MOST_TIME = 40, 40
SIZE = 2**21


def hostile(seed, check, file):
    damaged(seed, check, file)
    endings(check, file)
    lengths(check, file)
    dear(check, file)


def read_whole(path):
    """Reads all; the notes."""
    recording = Recording(path)
    for _ in recording:
        pass
    return recording.notes


# ---- damage


def damaged(seed, check, file):
    """Files with some bytes changed are read, or are not; nothing is raised."""
    draw, frames = random.Random(seed), recorded(CAPTURES / "pyamqp-proton.txt")
    on_link = [*linked(packets_of(frames))]
    for name, of in (("pcap", pcap(on_link)), ("pcapng", pcapng(on_link)), ("pcapng, 6", pcapng(linked(packets_of(frames), version="6, with options")))):
        for turn in range(60):
            changed = bytearray(of)
            for _ in range(draw.choice((1, 1, 5, 60))):
                changed[draw.randrange(4, len(changed) if turn % 2 else 400)] = draw.choice((0, 255, draw.randrange(256)))
            with file(bytes(changed)) as path:
                check(f"damaged {name} {turn}", is_read(path))


def is_read(path):
    try:
        return isinstance(read_whole(path), list)
    except Exception as error:  # whatever it is, it is a fault
        print(type(error).__name__, error)
        return False


def endings(check, file):
    """A file that ends early is read as far as it goes, and that is told, where it ends within something."""
    packets = packets_of(LAWFUL[0][1])
    for name, of, ends in (("pcap", pcap(linked(packets)), 24), ("pcapng", pcapng(linked(packets)), 28)):
        for at in range(4, len(of), 11):
            with file(of[:at]) as path:
                told = [it for it in read_whole(path) if "can be read no further" in it]
            check(f"{name} that ends after {at}", told or at == ends or at > ends, told)
        with file(of[:-5]) as path:
            check(f"{name} that ends within a packet", "can be read no further" in "".join(read_whole(path)))


def lengths(check, file):
    """What says that it is long, or short, is told."""
    long = pack("<IIII", 0, 0, 2**32 - 1, 0)
    head = section() + interface()
    odd = {
        "a packet of 4 GB": (pcap([]) + long, "4,294,967,295 bytes"),
        "a block of 4 GB": (head + pack("<II", 6, 2**32 - 4), "4,294,967,284 bytes"),
        "a block of 4 bytes": (head + pack("<II", 6, 4) * 9, "a block of 4 bytes"),
        "a block of 0 bytes": (head + bytes(64), "a block of 0 bytes"),
        "a long interface": (section() + block(1, bytes(5000)), "an interface is described by"),
        "an interface that is not there": (head + block(6, pack("<IIIII", 7, 0, 0, 4, 4) + bytes(4)), "interface 7"),
        "a packet that is longer than its block": (head + block(6, pack("<IIIII", 0, 0, 0, 99, 99)), "a packet of 99 bytes"),
        "no order of bytes": (b"\x0a\x0d\x0d\x0a" + bytes(40), "its order of bytes"),
        "an offset of two bytes": (section() + block(1, pack("<HHI", 1, 0, 0) + pack("<HHHxx", 14, 2, 0)), "malformed"),
    }
    for name, (of, said) in odd.items():
        with file(of) as path:
            notes = read_whole(path)
        check(name, len(notes) == 1 and said in notes[0] and "can be read no further" in notes[0], notes)


# ---- what is meant to be dear


def many(count, of):
    return [of(number) for number in range(count)]


def segments(side, data, size, order=lambda it: it):
    """A stream in segments of this size, behind both SYNs."""
    sent = [Packet(1.0, side, at, data[at : at + size], 0) for at in range(0, len(data), size)]
    return [*packets_of([])[:4], *(Packet(1.0, side, 8 + it.at, it.data, 8) for it in order(sent))]


def raw(packets, client=40000):
    return [*linked(packets, "raw IP", client=client)]


def sized(frames):
    return b"".join((len(of) + 4).to_bytes(4, "big") + of for _, of in frames)


def in_segments(frames):
    return raw(segments("A", sized(frames), 1400))


def sessions():
    return in_segments([opened()[0], *(begin("A", number % 65536) for number in range(50000))])


def links():
    names = (attach("A", 0, f"{number}", number, SENDER) for number in range(40000))
    ends = (frame("A", 0, DETACH, uint(number), boolean(True)) for number in range(39999, -1, -1))
    return in_segments([opened()[0], begin("A", 0), *names, *ends])


def nested():
    """Values within values, lists of nothing, arrays of a great count, and descriptors upon descriptors."""
    deep, wide = b"\x45", b"\xd0" + pack(">II", 60004, 60000) + b"\x45" * 60000
    for _ in range(400):
        deep = b"\xd0" + pack(">II", len(deep) + 4, 1) + deep
    arrays = b"\xf0" + pack(">IIB", 5, 2**32 - 1, 0x40)
    of = [frame("A", 0, ATTACH, b"\xa1\1x", uint(0), SENDER, NULL, NULL, it) for it in (deep, wide, arrays, b"\0" * 900 + b"\x40")]
    return in_segments([*of * 12, *described() * 120])


def described():
    """A value whose descriptor is followed by a value whose descriptor .., alone and in the parts of a source."""
    chain = b"\0\x40" * 440 + b"\x40"
    parts = b"\0\x53\x28\xd0" + pack(">II", 4 + 11 * len(chain), 11) + chain * 11
    return [frame("A", 0, ATTACH, b"\xa1\1x", uint(0), SENDER, NULL, NULL, it, it) for it in (chain, b"\0" * 300 + b"\x40" * 301, parts)]


def one_by_one(count):
    """Each connection has its header, and one byte of a frame."""
    found = []
    for number in range(count):
        opening = Packet(1.0, "A", 0, HEADER + b"\0", 0)
        found += raw([opening], number % 65535 + 1)
    return found


def extended():
    """Packets of IP version 6 that have nothing but headers."""
    of = Packet(1.0, "A", 0, b"", 0)
    return [(1.0, ip_6(of, tcp(of), bytes([60, 0, *bytes(6)]) * 8000, 60))] * 33


def waiting():
    """The first byte never comes: all waits, of both sides."""
    packets = segments("A", bytes.fromhex("0000000802000000") * 25000, 40)
    answers = segments("B", bytes.fromhex("0000000802000000") * 3000, 40)[4:]
    for it in answers:
        it.before = 10**6
    return raw([*packets[:4], *packets[5:], *answers])


def cut_up():
    """A packet of a million bytes says that it comes after what the other side sends, which says that it comes after each of them."""
    long = Packet(1.0, "A", 8, bytes.fromhex("0000000802000000") * 125000, 10**8)
    short = [Packet(1.0, "B", 8 + number, b"\0\0\0\x08\2\0\0\0"[number % 8 :][:1], 9 + number) for number in range(18000)]
    found = raw([*packets_of([])[:4], *short, long])
    # a length of zero, as offloaded segments have it
    return [*found[:-1], (1.0, found[-1][1][:2] + b"\0\0" + found[-1][1][4:])]


def kept():
    """A packet that is far ahead acknowledges less than all before it: so what those acknowledge is kept, and does not count."""
    packets = segments("A", bytes.fromhex("0000000802000000") * 4500, 1)
    return raw([*packets[:4], Packet(1.0, "A", 10**6, b"\0", 0), *packets[4:]])


def options():
    return b"".join([section(), *[block(1, pack("<HHI", 101, 0, 0) + pack("<HH", 1, 0) * 1000)] * 500])


DEAR = {
    "SYNs": lambda: pcap([it for number in range(36000) for it in raw([Packet(1.0, "A", -1, b"", 0, SYN)], number + 1)], 101),
    "connections of another protocol": lambda: pcap([it for number in range(33000) for it in raw([Packet(1.0, "A", 0, b"GET /", 0)], number + 1)], 101),
    "connections": lambda: pcap(one_by_one(30000), 101),
    "segments of a byte": lambda: pcap(raw(segments("A", bytes.fromhex("0000000802000000") * 4500, 1)), 101),
    "segments of a byte, the last first": lambda: pcap(raw(segments("A", bytes.fromhex("0000000802000000") * 4500, 1, reversed_but_first)), 101),
    "empty frames": lambda: pcap(raw(segments("A", bytes.fromhex("0000000802000000") * 240000, 1400)), 101),
    "sessions": lambda: pcap(sessions(), 101),
    "links": lambda: pcap(links(), 101),
    "values in values": lambda: pcap(nested(), 101),
    "headers of IP": lambda: pcap(extended(), 101),
    "a packet that is cut up": lambda: pcap(cut_up(), 101, most=2**20),
    "what waits": lambda: pcap(waiting(), 101),
    "what is kept": lambda: pcap(kept(), 101),
    "interfaces": lambda: b"".join([section(), *[interface()] * (SIZE // 20)]),
    "options": options,
}


def reversed_but_first(sent):
    return [*sent[:1], *reversed(sent[1:])]


def dear(check, file):
    """Each costs memory and time in proportion to its bytes."""
    most, slowest = 0, 0
    with file(pcap(linked(packets_of([])))) as path:
        memory, took = cost(path, "--quiet")
    for name, of in DEAR.items():
        made = of()
        with file(made) as path:
            for how in ("--quiet", "--json"):
                its_memory, its_time = cost(path, how)
                more, longer = (its_memory - memory) / len(made), (its_time - took) * 1e6 / len(made)
                check(f"{name} {how}", more < MOST_MEMORY and longer < MOST_TIME, f"{more:.0f} bytes and {longer:.1f} us for each of {len(made):,}")
                most, slowest = max(most, more), max(slowest, longer)
    print(f"a byte of a hostile file takes {most:.0f} bytes of memory, and {slowest:.1f} microseconds, at most")


RUN = """import os, re, runpy, sys
sys.argv = sys.argv[1:]
sys.path.insert(0, os.path.dirname(sys.argv[0]))
try:
    runpy.run_path(sys.argv[0], run_name="__main__")
finally:
    times = os.times()
    print("COST", re.search(r"VmHWM:\\s*(\\d+)", open("/proc/self/status").read())[1], times.user + times.system, file=sys.stderr)
"""


def cost(path, *words):
    """The most memory that the tool takes for a file, in bytes, and its seconds of processor."""
    ran = subprocess.run([sys.executable, "-c", RUN, str(TOOL), str(path), *words], stdout=subprocess.DEVNULL, stderr=subprocess.PIPE, text=True, timeout=600)
    said = re.search(r"COST (\d+) ([\d.]+)", ran.stderr)
    assert "Traceback" not in ran.stderr, ran.stderr
    return int(said[1]) * 1024, float(said[2])
