"""Recordings as transcript.py reads them: lines, a followed stream, or a file of packets (packets/joined.py), and the connections in them."""

import re
import sys
from pathlib import Path

from amqp.streams import HEADER, Stream, chunks
from amqp.telling import WHO
from packets.files import has_packets
from packets.joined import Recording


class Recorded:
    """A connection: its frames, each as a side and bytes, and their times; `whole` has those of SASL too. `lost` says by place before which frame
    a side ends, and why."""

    def __init__(self, number, title, sasl=False):
        self.number, self.title, self.frames, self.times, self.whole, self.lost, self.notes = number, title, [], [], [], {}, []
        self.streams = {side: Stream(sasl=sasl) for side in WHO}

    def feed(self, side, data, time):
        stream = self.streams[side]
        if stream.broken is not None:
            return
        for _, of in stream.feed(data):
            self.whole.append((side, of))
            if of[1] != 1:
                self.frames.append((side, of))
                self.times.append(time)
        if stream.broken is not None:
            self.lose(side, stream.broken)

    def lose(self, side, what):
        """Nothing more of a side is read: what follows of the other is judged with that in mind."""
        self.streams[side].stop(what)
        self.lost.setdefault(len(self.frames), {})[side] = what
        self.notes.append(f"{WHO[side]}, after frame {len(self.frames)}: no more of it was read: {what}")


    def finish(self):
        """Nothing more comes; a side may end within a frame."""
        for side, stream in self.streams.items():
            if stream.is_within():
                self.lose(side, "ends within a frame")


def told_apart(notes):
    """What is told beside the recording itself."""
    for note in notes:
        print(note, file=sys.stderr)


def connections(path, chosen, sasl, progress):
    """The connections of a recording, or the one that is chosen."""
    if not has_packets(path):
        found = of_lines(Path(path).read_text().splitlines(), Path(path).name, sasl)
        told_apart(found.notes)
        return [found] if chosen in (None, 1) else []
    found, recording = {}, Recording(path, progress.at)
    for connection, time, side, what in recording:
        number = connection.number
        if side is None or chosen not in (None, number):
            continue
        if number not in found:
            found[number] = Recorded(number, f"{Path(path).name}, connection {number}: {connection.name()}", sasl)
        found[number].lose(side, what) if isinstance(what, str) else found[number].feed(side, what, time)
    progress.hide()
    told_apart(recording.notes)
    for it in found.values():
        it.finish()
        told_apart(f"connection {it.number}, {note}" for note in it.notes)
    return [found[number] for number in sorted(found)]


def of_lines(lines, title="", sasl=False):
    """The connection of a followed stream; or of lines that each have a side and a frame without its size, or a protocol header."""
    found = Recorded(1, title, sasl)
    if any(line.startswith("Follow: tcp") for line in lines):
        for side, data in chunks(lines):
            found.feed(side, data, None)
        found.finish()
    else:
        every = [(line[0], bytes.fromhex(line[2:])) for line in lines if re.fullmatch(r"[AB] [0-9a-fA-F]*", line)]
        found.whole = [(side, of) for side, of in every if not of.startswith(HEADER)]
        found.frames = [(side, of) for side, of in found.whole if of[1:2] != b"\1"]
        found.times = [None] * len(found.frames)
    return found


def recorded(path):
    """The frames of a recording in lines."""
    return of_lines(Path(path).read_text().splitlines()).frames
