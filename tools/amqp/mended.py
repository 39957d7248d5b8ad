"""A frame as far as it can be read, for judging.py and transcript.py: what one malformed field would hide of the frames after it is not lost."""

from amqp import strict
from amqp.frames import NAMES, NULL, Frame, Malformed
from amqp.tables import MUST, TABLES

# Optional fields without which a frame says something else: which session it is of, which link, or which delivery
TOLD_BY = ("remote_channel", "next_incoming_id", "handle", "delivery_id", "more", "aborted")


def plain(of):
    """The frame without an extended header (AMQP 1.0 part 2, section 2.3.1)."""
    return b"\x02" + of[1:4] + of[of[0] * 4 - 4 :] if of[:1] > b"\x02" and len(of) >= of[0] * 4 - 4 else of


def kind_of(of):
    """The performative that the bytes say they are."""
    try:
        return NAMES.get(Frame(plain(of)).code, "empty frame")
    except (Malformed, RecursionError):
        return "no frame"


def wrong_with(of):
    """Why the bytes are no frame of AMQP, as the engine names it, with what `strict` finds; `None` of one that is."""
    name = strict.frame(of)
    if name == "DecodeError":
        return f"{name} ({strict.why(of)})"
    return f"{name} (a header of {of[0]} words, type {of[1]})" if name == "NotImplemented" else None


def mended(of):
    """The frame, without those optional fields that are malformed; `None` where the rest cannot be read either, or says too little."""
    try:
        frame = Frame(of)
    except (Malformed, RecursionError):
        return None
    table = TABLES[frame.code][1] if frame.code is not None else []
    frame.fields = frame.fields[: len(table)]
    for at, (name, kind, need) in enumerate(table):
        if not is_well(frame[at], name, kind, need):
            if need == MUST or name in TOLD_BY:
                return None
            frame[at] = NULL
    return frame


def is_well(of, name, kind, need):
    inside = strict.Bytes(of, 0)
    try:
        strict.field(inside, name, kind, need, True)
        inside.end()
    except (strict.Malformed, RecursionError):
        return False
    return True
