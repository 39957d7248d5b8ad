"""What try_c.py tries of an engine that is given what it refuses: frames, requests and Opens without their form."""

import ctypes
import sys
from pathlib import Path

sys.path.insert(0, str(Path(__file__).resolve().parents[2] / "bindings" / "python"))

from amqp_engine import BadArgument, Begin, Detach, Engine, Error, Flow, Flowed, Refusal, Server, Transfer, rejected
from amqp_engine.driver import NONE
from amqp_engine.library import How, LoginHead, Place, load
from hostile.peers import frame
from try_c.try_c_pair import mapped, refused
from try_c.try_c_sockets import OPEN

TESTS = []


def test(function):
    TESTS.append(function)
    return function


@test
def what_a_frame_brings_is_given_whole():
    pair = mapped()
    handle, _, mine, _ = pair.attached()
    for at in range(8):
        pair.client.transfer(0, Transfer(handle, delivery_tag=bytes([at]), settled=True), b"x")
    # it waits for the window, and does not fit once it may go out
    pair.client.transfer(0, Transfer(handle, delivery_tag=b"t", state=rejected(Error("a:b", "x" * 600))), b"x")
    pair.client.to_send()
    first = next(pair.client.receive(frame(Flow(8, 8, 0, 8, handle=mine, delivery_count=0, link_credit=9))))
    assert isinstance(first, Flowed) and list(pair.client.receive(b"")) == [Refusal("TooLarge")], first


@test
def frames_of_no_lawful_size_are_refused_for_good():
    for size in (b"\x00\x00\x00\x07", b"\x00\x00\x02\x01"):
        engine = Engine(OPEN)
        assert [it.name for it in engine.receive(size + b"\x02\x00\x00\x00")] == ["BadSize"]
        assert [it.name for it in engine.receive(b"\x00\x00\x00\x08\x02\x00\x00\x00")] == ["BadSize"]
        refused(engine.open, "Over")
        assert engine.to_send() == b""


@test
def a_server_waits_for_no_frame_of_no_lawful_size():
    for size in (b"\x00\x00\x00\x07", b"\x00\x00\x02\x01"):
        server = Server(Engine(OPEN))
        assert [it.name for it in server.receive(size)] == ["BadSize"]
        assert list(server.receive(b"\x00\x00\x00\x08\x02\x00\x00\x00")) == []


@test
def a_call_goes_on_after_a_refusal():
    pair = mapped()
    broken = b"\x00\x00\x00\x0c\x02\x00\x00\x00\x00\x53\x99\x45"
    lacking = broken[:-4] + b"\x00\x53\x13\x45" + b"\x00\x00\x00\x08\x02\x00\x00\x00"
    for it in (broken, lacking):
        assert [refusal.name for refusal in pair.client.receive(it)] == ["DecodeError"], it
    pair.attached()


@test
def requests_without_their_form_are_no_requests():
    pair = mapped()
    ask = pair.client._ask
    for call in [
        lambda: ask(99), lambda: ask(1), lambda: ask(17), lambda: ask(22), lambda: ask(26), lambda: ask(0),
        lambda: ask(2, b"x"), lambda: ask(4, b""), lambda: ask(6, bytes(5)),
        lambda: ask(10, b"\x00\x00\x00\x00" + Detach(0).encode()), lambda: ask(14, bytes(10 * 1024 * 1024)),
        lambda: ask(8, b"\x00\x00\x00\x00\x02\x00a"), lambda: ask(8, b"\x00\x00\x00\x00\x00\x00\xff"),
        lambda: pair.client.begin(-1), lambda: pair.client.begin(5, Begin(remote_channel=0)),
    ]:  # fmt: skip
        try:
            call()
        except BadArgument:
            continue
        raise AssertionError("taken")
    assert pair.carry() == ([], [])


@test
def a_freed_engine_answers():
    with Engine(OPEN) as engine:
        engine.open()
    engine.free()
    try:
        engine.open()
    except RuntimeError:
        return
    raise AssertionError


@test
def an_open_that_is_none_makes_no_engine():
    library, place = load(), Place()
    key = b"k" * 16
    whole = OPEN.encode()
    for of, given, status in (
        (key, b"", 4), (key, b"\x00\x53\x11\x45", 4), (key, whole[:-1], 4), (bytes(16), whole, 4), (key, whole, 0),
    ):  # fmt: skip
        how = How((ctypes.c_uint8 * 16)(*of), 0, NONE, 0, NONE)
        assert library.amqp1_new(place, how, given, len(given), (LoginHead * 0)(), 0, b"", 0) == status, given
        assert place.full == (status == 0)
    library.amqp1_free(place)
