#!/usr/bin/env python3
"""Writes the input and the expected output of the program rows_codec from the recorded frames.

    tools/gen/expected_frames.py            writes crates/rows_codec/{stdin,stdout}

Each value comes from what another implementation's decoder said of the frame (captures/NAME.fields.jsonl). Only the
spellings of raw values and maps, which the decoder does not give, are cut from the frame's bytes (captures/NAME.txt);
they are decoded by decoder.py, and have to be what the other decoder said. After them stand frames of which a byte was changed
(expected_hostile.py), messages and how they are cut (expected_messages.py, expected_pieces.py), and frames by hand with what they are
written as (expected_spellings.py, expected_by_hand.py).
"""

import json
import sys
from pathlib import Path

sys.path.insert(0, str(Path(__file__).resolve().parents[1]))

from amqp.decoder import value
from amqp.recorded import CAPTURES, lines_of
from amqp.tables import TABLES
from gen import expected_by_hand, expected_hostile, expected_messages, expected_pieces, expected_spellings
from gen.shown import Refused, show_composite

CRATE = Path(__file__).resolve().parents[2] / "crates" / "rows_codec"


def expected(frame, said):
    """The line that the program writes for this frame."""
    channel = said["ch"]
    assert frame[:2] == b"\x02\x00" and int.from_bytes(frame[2:4], "big") == channel
    if said["code"] is None:
        assert len(frame) == 4
        return f"{channel} empty"
    body = frame[4:]
    assert body[0] == 0x00
    _, code, at = value(body, 1)
    assert code == said["code"]
    _, _, end = value(body, at)
    assert len(body) - end == said["payload"]
    try:
        name = TABLES[code][0]
        return f"{channel} {name}({show_composite(TABLES[code], said['fields'], body[at:end])}) {said['payload']}"
    except Refused:
        return "malformed"


def main():
    given, wanted = [], []
    for frames in sorted(CAPTURES.glob("*.txt")):
        lines = lines_of(frames)
        said = [json.loads(line) for line in frames.with_suffix(".fields.jsonl").read_text().splitlines()]
        assert len(lines) == len(said), frames
        for line, fields in zip(lines, said):
            given.append(line.split(" ")[1])
            wanted.append(expected(bytes.fromhex(given[-1]), fields))
    hostile = len(given)
    expected_hostile.write(given[:], given, wanted)
    changed = sum(map(len, wanted[hostile:]))
    messages = expected_messages.write(given, wanted)
    lines = len(given)
    for of in (expected_spellings, expected_by_hand, expected_pieces):
        of.write(given, wanted)
    (CRATE / "stdin").write_text("\n".join(given) + "\n")
    (CRATE / "stdout").write_text("\n".join(wanted) + "\n")
    refused = sum(line == "malformed" for line in wanted[:hostile])
    print(f"{hostile} frames, {refused} refused; {changed} changed ones; {messages} messages; {len(given) - lines} lines by hand")


if __name__ == "__main__":
    main()
