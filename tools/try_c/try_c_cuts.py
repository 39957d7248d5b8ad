"""What try_c.py tries of deliveries that are longer than a frame: how they are cut, what goes out, and what is refused."""

import sys
from pathlib import Path

sys.path.insert(0, str(Path(__file__).resolve().parents[2] / "bindings" / "python"))

from amqp_engine import ACCEPTED, FIRST, BadArgument, Delivery, Engine, Open, Transfer
from amqp_engine.driver import ABORTED, FORMATTED, MORE, NUMBERED, SETTLED
from try_c.try_c_pair import frames, mapped, refused

LONG = bytes((at ^ at >> 8 ^ at >> 16) & 255 for at in range(1000000))
TESTS = []


def test(function):
    TESTS.append(function)
    return function


def attached(limit=512):
    """A pair with a link on which the client sends, and the client's handle."""
    pair = mapped(limit)
    return pair, pair.attached()[0]


@test
def a_million_bytes_go_in_as_many_frames_as_they_need():
    for limit, count in ((512, 2050), (2**32 - 1, 1)):
        pair, handle = attached(limit)
        transfer = Transfer(handle, delivery_tag=b"long", message_format=0, settled=True)
        assert [pair.client.deliver(0, transfer, it) for it in (b"x", LONG, b"y")] == [0, 1, 2]
        came = pair.carry()[1]
        assert len(came) == count + 2 and b"".join(it.payload for it in came) == b"x" + LONG + b"y"
        parts = [it.transfer for it in came[1:-1]]
        assert [bool(it.more) for it in parts] == [True] * (count - 1) + [False]
        assert (parts[0].delivery_id, parts[0].delivery_tag, parts[0].message_format, parts[0].settled) == (1, b"long", 0, True)
        assert all((it.delivery_id, it.delivery_tag, it.message_format, it.settled) == (None,) * 4 for it in parts[1:])


@test
def each_part_says_what_it_has_to_say():
    pair, handle = attached()
    first, both = NUMBERED | SETTLED | FORMATTED, MORE | ABORTED
    whole = Delivery(0, handle, b"t", LONG[:2000], first, 5)
    for number, kept in enumerate((0, MORE, ABORTED, both)):
        parts = pair.client.cut(whole._replace(flags=first | kept))
        assert [it.flags for it in parts] == [first | MORE, *[MORE] * 3, kept & both], parts
        assert [it.tag for it in parts] == [b"t", None, None, None, None] and b"".join(it.payload for it in parts) == whole.payload
        # each is one frame, and no longer part would be
        assert all(pair.client.cut(it) == [it] for it in parts)
        assert all(len(pair.client.cut(it._replace(payload=it.payload + b"x"))) == 2 for it in parts[:-1])
        assert pair.client.send(parts) == [(number, 0)] + [(0, 0)] * 4
    came = pair.carry()[1]
    assert len(came) == 20 and b"".join(it.payload for it in came) == 4 * whole.payload
    assert pair.client.cut(whole._replace(flags=0, tag=None))[-1].flags == 0


@test
def what_fits_a_frame_is_not_cut():
    pair, handle = attached()
    transfer = Transfer(handle, delivery_tag=b"t", message_format=0, settled=False)
    room = pair.client.payload_room(transfer)
    whole = Delivery(0, handle, b"t", LONG[:room], NUMBERED | FORMATTED)
    assert pair.client.cut(whole) == [whole]
    # that more follow takes a byte
    assert [len(it.payload) for it in pair.client.cut(whole._replace(payload=LONG[: room + 1]))] == [room - 1, 2]
    for number, (size, count) in enumerate(((0, 1), (room, 1), (room + 1, 2))):
        assert pair.client.deliver(0, transfer, LONG[:size]) == number
        assert len(frames(pair.client.to_send())) == count, size


@test
def what_no_frame_has_room_for_is_refused():
    pair, handle = attached()
    for size in (1, 1000):
        refused(lambda: pair.client.cut(Delivery(0, handle, bytes(33), bytes(size))), "TagTooLong")
    refused(lambda: pair.client.deliver(0, Transfer(handle, delivery_tag=bytes(33)), bytes(1000)), "TagTooLong")
    # until the peer's Open has come the limit is that of this side's
    narrow = Engine(Open("me", max_frame_size=24))
    assert [len(it.payload) for it in narrow.cut(Delivery(0, 0, None, b"1234", 0))] == [4]
    for of in (Delivery(0, 0, b"t", b""), Delivery(0, 0, None, b"12345", 0)):
        refused(lambda: narrow.cut(of), "TooLarge")
    refused(lambda: narrow.deliver(0, Transfer(0, delivery_tag=b"t"), bytes(9)), "TooLarge")
    assert pair.carry() == ([], [])


@test
def a_long_delivery_that_is_refused_sends_nothing():
    pair, handle = attached()
    for session, transfer, name in (
        (0, Transfer(9, delivery_tag=b"t"), "UnattachedHandle"), (0, Transfer(handle), "IllegalState"), (5, Transfer(handle, delivery_tag=b"t"), "NoSession"),
    ):  # fmt: skip
        refused(lambda: pair.client.deliver(session, transfer, LONG[:1000]), name)
    assert pair.client.to_send() == b""
    assert pair.client.deliver(0, Transfer(handle, delivery_tag=b"t"), LONG[:1000]) == 0


@test
def a_long_delivery_says_what_a_head_does():
    pair, handle = attached()
    transfer = Transfer(handle, delivery_tag=b"t", settled=True)
    for number, says in enumerate(({"rcv_settle_mode": FIRST}, {"state": ACCEPTED}, {"resume": True}, {"batchable": True})):
        assert pair.client.deliver(0, Transfer(**{**vars(transfer), **says}), b"x") == number
        none(lambda: pair.client.deliver(0, Transfer(**{**vars(transfer), **says}), LONG[:1000]))
    for of in (Delivery(-1, handle, b"t", b"x"), Delivery(0, 2**32, b"t", b"x"), Delivery(0, handle, bytes(65536), b"x")):
        none(lambda: pair.client.cut(of))
        none(lambda: pair.client.send([of]))
    assert len(pair.carry()[1]) == 4
    pair.client.free()
    try:
        pair.client.cut(Delivery(0, handle, b"t", b"x"))
    except RuntimeError:
        return
    raise AssertionError


def none(call):
    """What is asked is no request."""
    try:
        call()
    except BadArgument:
        return
    raise AssertionError("taken")
