#!/usr/bin/env python3
"""Tries how tools/transcript.py reads files of packets, .pcap and .pcapng: each recording in captures is made such a file, and is judged as before.

    tools/gate/try_pcap.py [SEED]

The packets are whole and in order, or cut elsewhere, late, twice, or lost; over each link and both versions of IP; SEED, 1 where it is left out, says where. Then
come files that no program writes. It wants Debian's python3-dpkt: where that is missing, a line says so, it is installed (as root), and Debian's
python3 runs this. The last line is 'N passed, M failed'.
"""

import contextlib
import importlib.util
import io
import os
import random
import subprocess
import sys
import tempfile
from pathlib import Path
from unittest import mock

sys.path.insert(0, str(Path(__file__).resolve().parents[1]))

import transcript
from amqp.looking import Seen
from amqp.recorded import CAPTURES
from amqp.recordings import connections, recorded
from gate.heard import Heard
from gate.hostile_packets import hostile
from gate.made_faults import LAWFUL
from gate.made_packets import LINKS, RST, VERSIONS, linked, packets_of, pcap, pcapng
from packets.joined import Recording
from shared.command import command, told
from shared.progress import Progress

FAILED = []


def check(name, is_right, *said):
    """Counts a test, and says what was found where it is wrong."""
    if not is_right:
        print(name, *said)
    FAILED.append(not is_right)


def judged(frames):
    """What is told of frames that come as lines."""
    seen = Seen(Heard())
    for side, of in frames:
        seen.whole(side, of)
    return seen.teller.told


class File:
    """A file of these bytes, in a folder that goes."""

    def __init__(self, of):
        self.folder = tempfile.TemporaryDirectory()
        self.path = Path(self.folder.name) / "recorded"
        self.path.write_bytes(of)

    def __enter__(self):
        return self.path

    def __exit__(self, *_):
        self.folder.cleanup()


def looked_at(of):
    """What is told of each connection in a file of packets, and its notes."""
    with File(of) as path:
        seen, recording = {}, Recording(path)
        for connection, time, side, what in recording:
            it = seen.setdefault(connection.number, Seen(Heard(), connection.number))
            if side is None:
                it.teller.told.append("over") if recording.went is None else None
            elif isinstance(what, str):
                it.lose(side, what)
            else:
                it.see(side, what, time)
        return {number: it.teller.told for number, it in seen.items()}, recording.notes


def same(name, of, frames):
    """Tests that a file holds one connection, which is judged as these frames are, and has these frames."""
    found, notes = looked_at(of)
    check(name, found == {1: judged(frames)} and not notes, found, notes)
    with File(of) as path:
        read = connections(path, None, False, Progress(0))
    check(f"{name}: its frames", [it.frames for it in read] == [frames])


# ---- the same as a recording in lines


def chunked(draw):
    """Cuts what a side sends anywhere."""

    def cut(side, data):
        places = sorted(draw.sample(range(1, len(data)), min(draw.randrange(4), len(data) - 1)))
        return [data[a:b] for a, b in zip([0, *places], [*places, len(data)])]

    return cut


def as_it_stands():
    frames = recorded(CAPTURES / "erlang-rmq.txt")
    packets = packets_of(frames)
    for link, (number, _) in LINKS.items():
        for version in VERSIONS:
            on_link = [*linked(packets, link, version)]
            same(f"{link}, IP {version}", pcap(on_link, number), frames)
            same(f"{link}, IP {version}, .pcapng", pcapng(on_link, number, "<>"[number % 2], number % 3), frames)
    on_link = [*linked(packets)]
    for order in "<>":
        for nano in (False, True):
            same(f"order {order}, nanoseconds {nano}", pcap(on_link, 1, order, nano), frames)


def late(draw, packets):
    """Each data packet may come up to five places late, but not past what was sent after it was answered."""
    places = [(at + draw.choice((0, 0, 0, 2.5, 5.5)) * bool(it.data), it) for at, it in enumerate(packets)]
    return [it for _, it in sorted(places, key=lambda it: it[0])]


def twice(draw, packets):
    """Some come again, alone or with what came before or after, also once the connection is over."""
    stream = {side: b"".join(it.data for it in sorted(packets, key=lambda it: it.at) if it.side == side) for side in "AB"}
    found, came = [], {side: bytearray(len(of)) for side, of in stream.items()}
    for it in packets:
        found.append(it)
        came[it.side][max(it.at, 0) : max(it.at, 0) + len(it.data)] = b"\1" * len(it.data)
        if it.data and draw.random() < 0.4:
            start = max(0, it.at - draw.randrange(0, 60))
            start = start if all(came[it.side][start : it.at]) else it.at
            found.append(type(it)(it.time, it.side, start, stream[it.side][start : it.at + len(it.data)], it.before))
    return [*found, *(it for it in packets[:9] if it.data)]


def in_disorder(path, seed):
    # what is drawn of a recording stays the same where another one is added
    draw = random.Random(f"{seed} {path.stem}")
    frames = [it for it in recorded(path) if len(it[1]) >= 4]
    packets = packets_of(frames, chunked(draw))
    same(f"{path.stem}, cut", pcap(linked(packets)), frames)
    same(f"{path.stem}, twice", pcap(linked(twice(draw, packets))), frames)
    same(f"{path.stem}, late", pcap(linked(late(draw, packets))), frames)
    same(f"{path.stem}, late and twice, .pcapng", pcapng(linked(twice(draw, late(draw, packets)), version="6")), frames)


def recordings(seed):
    for path in sorted(CAPTURES.glob("*.txt")):
        in_disorder(path, seed)
    # disorders in which what is sent again says that it acknowledges more than what it repeats
    for more in (22, 23):
        in_disorder(CAPTURES / "uamqp-amqp1-plain-send.txt", seed + more)


def repeated_and_late(seed):
    """What is sent again may come before what it repeats: then that comes late, and brings nothing but what it acknowledges."""
    for name in ("amqp1-proton-python-receive", "amqp1-rmq-anonymous-send", "amqp1-rmq-external-send", "erlang-rmq"):
        frames = [it for it in recorded(CAPTURES / f"{name}.txt") if len(it[1]) >= 4]
        for more in range(30):
            draw = random.Random(f"{seed + more} {name}")
            packets = packets_of(frames, chunked(draw))
            same(f"{name}, late once it came twice, {seed + more}", pcap(linked(late(draw, twice(draw, packets)))), frames)


# ---- what is lacking


def losses(seed):
    """Where packets never came, that is told; nothing else is that is not told of the whole, and nothing of it is told wrongly."""
    draw = random.Random(seed)
    sources = [(path.stem, recorded(path)) for path in sorted(CAPTURES.glob("*.txt"))]
    for name, frames in [*sources, *LAWFUL * 3]:
        frames = [it for it in frames if len(it[1]) >= 4]
        packets, whole = packets_of(frames, chunked(draw)), {*(line.split(", ", 2)[2] for line in judged(frames))}
        gone = draw.choice([at for at, it in enumerate(packets) if it.data and at > 6])
        found, _ = looked_at(pcap(linked([*packets[:gone], *packets[gone + 1 :]])))
        lost = [it for it in found[1] if "missing after the first" in it]
        count = len(packets[gone].data)
        lack = f"{count:,} bytes are missing" if count > 1 else "1 byte is missing"
        check(f"{name}: a packet is lost", len(lost) == 1 and f"{lack} after the first {packets[gone].at:,}" in lost[0], gone, *found[1])
        others = [it for it in found[1] if it not in lost and it.split(", ", 2)[2] not in whole]
        check(f"{name}: no more is told", not others, gone, *others)


def recorded_in_part():
    frames = recorded(CAPTURES / "erlang-rmq.txt")
    found, _ = looked_at(pcap(linked(packets_of(frames)), most=150))
    check("recorded in part", sum("bytes are missing" in it and "recorded in part" in it for it in found[1]) == 2, found)


def the_last_is_lacking():
    """That what was sent last is lacking is known by what the other side acknowledged."""
    frames = recorded(CAPTURES / "erlang-rmq.txt")
    packets = packets_of(frames)
    last = max(at for at, it in enumerate(packets) if it.side == "A" and it.data)
    found, _ = looked_at(pcap(linked([it for at, it in enumerate(packets) if at < last or it.side == "B"])))
    check("the last is lacking", any("client" in it and "bytes are missing" in it for it in found[1]), found)


def far_ahead():
    """A number that does not follow is told, where nothing else follows."""
    packets = packets_of(LAWFUL[0][1])
    packets[6].at += 2**31 - 5
    found, _ = looked_at(pcap(linked(packets[:7])))
    check("far ahead", any("does not follow" in it for it in found[1]), found)


# ---- which connections


def mixed(*streams):
    """Packets of several connections, by turns; each has its port."""
    ports = [[*linked(packets, client=40000 + number)] for number, packets in enumerate(streams)]
    found = []
    while any(ports):
        found += [it.pop(0) for it in ports if it]
    return found


def several():
    names = "erlang-rmq", "proton-duo-errors", "pyamqp-proton"
    sources = [[it for it in recorded(CAPTURES / f"{name}.txt") if len(it[1]) >= 4] for name in names]
    other = packets_of([])
    for it in other:
        it.data = b"GET / HTTP/1.1\r\n" if it.data else b""
    packets = mixed(*map(packets_of, sources), other)
    found, notes = looked_at(pcap(packets))
    check("several connections", found == {at: judged(frames) for at, frames in enumerate(sources, 1)}, found)
    check("another connection", len(notes) == 1 and notes[0].startswith("1 other connections"), notes)
    with File(pcap(packets)) as path:
        chosen, said = ran(path, "--connection", "2", "--quiet")
        lines, _ = ran(path, "--connection", "2")
        none, wrong = ran(path)
        nobody, no_frame = ran(path, "--connection", "9")
        nobody_either, none_is_there = ran(path, "--connection", "9", "--quiet")
    check("one is chosen", all("connection 2, " in it for it in chosen) and not any("connection 1" in it for it in said), chosen, said)
    check("its lines", lines == [line for _, line in transcript.Transcript(sources[1], "A").run()], lines[:3])
    check("one is to be chosen", none == [] and any("one connection of 3 is to be chosen" in it for it in wrong), wrong)
    check("none of that number", nobody == [] and any("no frame in it" in it for it in no_frame), no_frame)
    check("nothing is judged", nobody_either == [] and any("no connection 9 that speaks AMQP in it" in it for it in none_is_there), none_is_there)


def a_port_that_is_used_again():
    """The second connection from a port begins where the first one is over, or where a SYN has another number."""
    frames = recorded(CAPTURES / "erlang-rmq.txt")
    packets = packets_of(frames)
    for name, first in (("over", packets), ("broken off", packets[:40])):
        found, _ = looked_at(pcap([*linked(first), *moved(packets)]))
        check(f"a port again, {name}", found.get(2) == judged(frames) and found.get(3) is None, found)


def moved(packets):
    """The same, with other first numbers."""
    with mock.patch.dict("gate.made_packets.FIRST", {"A": 5000, "B": 90000}):
        return [*linked(packets)]


def without_its_syn():
    frames = recorded(CAPTURES / "erlang-rmq.txt")
    packets = packets_of(frames)
    same("without the first SYN", pcap(linked(packets[1:])), frames)
    same("without a SYN", pcap(linked(packets[2:])), frames)
    found, notes = looked_at(pcap(linked(packets[9:])))
    check("begun before the recording", found == {} and "1 other connections" in notes[0], found, notes)


def is_reset():
    packets = packets_of(LAWFUL[0][1])
    reset = type(packets[0])(packets[-1].time, "B", packets[-2].at, b"", 0, RST)
    found, notes = looked_at(pcap(linked([*packets[:-3], reset, *packets[5:9]])))
    check("a reset", found == {1: []} and not notes, found, notes)


def fragments_are_told():
    on_link = [*linked(packets_of(LAWFUL[0][1]))]
    time, data = on_link[8]
    on_link.append((time, data[:20] + b"\x20\0" + data[22:]))
    _, notes = looked_at(pcap(on_link))
    with File(pcap(on_link)) as path:
        check("a status where packets were left out", ran(path, "--quiet")[1][-1] == "1")
    check("fragments", notes == ["1 packets were left out: fragments of IP are not put together"], notes)
    _, notes = looked_at(pcap(on_link, 147))
    check("a link that is not read", notes == [f"{len(on_link)} packets were left out: links of type 147 are not read"], notes)


# ---- how the tool tells it


def ran(path, *words):
    """What transcript.py prints of a file, and what it says beside that: lines."""
    out, err = io.StringIO(), io.StringIO()
    with contextlib.redirect_stdout(out), contextlib.redirect_stderr(err), mock.patch.object(sys, "argv", ["transcript.py", str(path), *words]):
        try:
            transcript.main()
        except SystemExit as end:
            err.write(f"{end.code}\n")
    return out.getvalue().splitlines(), err.getvalue().splitlines()


def the_tool():
    frames = recorded(CAPTURES / "erlang-rmq.txt")
    with File(pcap(linked(packets_of(frames)))) as path, tempfile.TemporaryDirectory() as folder:
        same_lines = ran(path, "B")[0] == ran(CAPTURES / "erlang-rmq.txt", "B")[0]
        shown, _ = ran(path, "--frames")
        ran(path, "--html", f"{folder}/page.html")
        page = Path(folder, "page.html").read_text(encoding="utf-8")
    check("the same lines", same_lines)
    check("times", sum("+0.001" in it or "+0.000999" in it for it in shown) > 90 and "0.001 s" in shown[-1], *shown[:3], shown[-1])
    check("its ends", "10.0.0.1:40000 to 10.0.0.2:5672" in shown[0], shown[0])
    check("a page", "DeliveryId" in page and "connection 1: 10.0.0.1:40000" in page and "[96,0.0" in page)


def without_the_library():
    tools = str(Path(transcript.__file__).parent)
    code = f"import sys; sys.modules['dpkt'] = None; sys.argv = ['transcript', sys.argv[1], '--quiet']; sys.path.insert(0, {tools!r})"
    code += "; import transcript; transcript.main()"
    with File(pcap(linked(packets_of([])))) as path:
        done = subprocess.run([sys.executable, "-c", code, str(path)], capture_output=True, text=True)
        lines = subprocess.run([sys.executable, "-c", code, str(CAPTURES / "pyamqp-proton.txt")], capture_output=True, text=True)
    check("without the library", done.returncode == 1 and "install Debian's python3-dpkt" in done.stderr and "Traceback" not in done.stderr, done.stderr)
    check("lines need none", lines.returncode == 0 and not lines.stderr, lines.stderr)


def with_the_library():
    """Runs this by Debian's python3, once the library is there, where this python3 has none."""
    if importlib.util.find_spec("dpkt"):
        return
    debian = "/usr/bin/python3"
    if not os.path.exists("/usr/lib/python3/dist-packages/dpkt"):
        print("try_pcap: no module dpkt: Debian's python3-dpkt is installed", flush=True)
        for words in (["update"], ["install", "-y", "--no-install-recommends", "python3-dpkt"]):
            subprocess.run(["apt-get", "-qq", *words], stdout=subprocess.DEVNULL, check=True)
    if os.path.samefile(sys.executable, debian):
        told("no module dpkt, though it was installed")
    os.execv(debian, [debian, *sys.argv])


def main():
    with_the_library()
    seed = int(sys.argv[1]) if len(sys.argv) > 1 else 1
    as_it_stands()
    recordings(seed)
    repeated_and_late(seed)
    losses(seed)
    tests = recorded_in_part, the_last_is_lacking, far_ahead, several, a_port_that_is_used_again, without_its_syn, is_reset, fragments_are_told
    for test in (*tests, the_tool, without_the_library):
        test()
    hostile(seed, check, File)
    print(f"{FAILED.count(False)} passed, {FAILED.count(True)} failed")
    sys.exit(any(FAILED))


if __name__ == "__main__":
    command(main, __doc__)
