"""Records of received frames, and heads of transfers, as the library lays them out."""

from __future__ import annotations

import struct
from typing import NamedTuple, Optional

from .requesting import BadArgument

#: What a record is of; `opening` has those that stand before the first frame
(
    OPENED, BEGUN, ATTACHED, ATTACH_WANTED, FLOW, TRANSFER, DISPOSITION, DETACHED, ENDED, CLOSED, REFUSED, BEGIN_WANTED,
) = range(1, 13)  # fmt: skip

#: What a frame says besides, and what a transfer is to say; the comments of `include/amqp1/records.h` have each
(
    NUMBERED, SETTLED, MORE, ABORTED, OF_RECEIVER, STATED, DRAIN, ECHO, WITH_ERROR, FOR_GOOD, CREDITED, COUNTED, LINKED,
    FORMATTED, TAGGED, AVAILABLE,
) = (1 << at for at in range(16))  # fmt: skip

#: Makes a named tuple of what `struct` has unpacked, without the call of Python's that its own constructors make
tuple_of = tuple.__new__

#: No session, or no link
NONE = 0xFFFFFFFF

#: How a record lies in memory
RECORD = struct.Struct("=BBH14I2H32s")
#: How the head of a transfer does: session, link, format, length of the payload, flags, length of the tag
HEAD = struct.Struct("=4I2H")


class Record(NamedTuple):
    """What one received frame says. `output` is this side's handle of its link, `input` the peer's; `at`, `size`,
    `payload_at` and `payload` are places in the bytes that were given, and how many.

    Of an attach `outcome` says which termini it has: 0 none, 1 a source, 2 a target, 3 both. Its max-message-size is
    `last << 32 | first`, 0 where there is no limit; `credit` is its snd-settle-mode, and `available` its
    rcv-settle-mode."""

    kind: int
    outcome: int
    flags: int
    session: int
    output: int
    input: int
    first: int
    last: int
    format: int
    # this hides a tuple's method of that name
    count: int  # type: ignore[assignment]
    credit: int
    available: int
    refusal: int
    at: int
    size: int
    payload_at: int
    payload: int
    channel: int
    tag_size: int
    tag: bytes


class Delivery(NamedTuple):
    """A transfer that is to be sent: on the link that has this handle of this side's, as `link` or `link_on` gave
    it."""

    session: int
    link: int
    tag: Optional[bytes]
    payload: bytes
    flags: int = NUMBERED
    format: int = 0


def head_of(it: Delivery) -> bytes:
    """The head of a transfer, as the library lays it out."""
    flags = it.flags | (TAGGED if it.tag is not None else 0)
    try:
        return HEAD.pack(it.session, it.link, it.format, len(it.payload), flags, len(it.tag or b""))
    except struct.error as error:
        raise BadArgument(f"a head does not say this: {error}") from None
