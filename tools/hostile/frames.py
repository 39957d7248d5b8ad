"""Frames that no good peer writes, given to engines in memory: each is a refusal in its place, and what stands after it is read."""

import random
from dataclasses import replace

from amqp_engine import (
    ACCEPTED, RECEIVER, SENDER, Attach, Begin, Close, Closed, Described, Detach, Disposed, Disposition, End, Engine, Error, Flow, Open, Refusal,
    Server, SessionBegan, Symbol, Transfer, Transferred, Ulong, data, source, target,
)  # fmt: skip
from amqp_engine.values import write
from hostile.peers import array, compound, frame, with_bytes
from try_c.try_c_pair import frames

AT_ONCE, TESTS = 1, []
NAMED = Described(Ulong(0x24), [])


def test(function):
    TESTS.append(function)
    return function


def state(*items):
    return b"\x00\x53\x27" + compound(0xD0, [b"\x41", b"\x41", *items])


#: Values that the engine takes, since their sizes are right, and that are none in Python, or no state of a delivery
UNREADABLE = [
    b"\x00\x53\x25" + compound(0xD0, [b"\x00\x53\x1d" + compound(0xD0, [b"\xa3\x03a:b", b"\xa1\x03f\xfcr"])]), state(compound(0xD1, [b"\xa3\x01a", b"\xe0\x01\x00"])),
    state(b"\x73\x00\x11\x00\x00"), state(b"\x73\x00\x00\xd8\x00"), state(array(b"\x00\x43" * 9 + b"\x50", b"\x01")), compound(0xD0, [b"\x41"]), b"\x43", b"\xa1\x01a",
]  # fmt: skip
#: Values that look worse than they are
READABLE = [
    state(compound(0xD1, [b"\x45", b"\x43"])), state(compound(0xD1, [b"\xa3\x01a", array(b"\x40", count=70000)])), state(array(b"\x40", count=2**32 - 1)),
    state(compound(0xD1, [b"\xa3\x01a", b"\x43", b"\xa1\x01a", b"\x44"])),
]  # fmt: skip


def sender():
    """A client's engine that has three messages open."""
    engine = Engine(Open("client"))
    engine.open()
    engine.begin(0)
    engine.to_send()
    list(engine.receive(frame(Open("server")) + frame(Begin(0, 0, 1000, 1000))))
    handle = engine.link(0, "l", SENDER)
    engine.attach(0, Attach("l", handle, SENDER, target=target("q"), initial_delivery_count=0))
    list(engine.receive(frame(Attach("l", 0, RECEIVER, target=target("q"))) + frame(Flow(0, 1000, 0, 1000, handle=0, delivery_count=0, link_credit=10))))
    for at in range(3):
        engine.deliver(0, Transfer(handle, delivery_tag=b"%d" % at, message_format=0), data(b"x"))
    engine.to_send()
    return engine


def told(engine, said):
    """What comes of three dispositions of which the first has this state, in one read."""
    first = with_bytes(Disposition(RECEIVER, 0, settled=True), state=said)
    rest = frame(Disposition(RECEIVER, 1, settled=True, state=ACCEPTED)) + frame(Disposition(RECEIVER, 2, settled=True, state=ACCEPTED))
    return list(engine.receive(frame(first) + rest))


@test
async def what_cannot_be_read_is_refused_in_its_place():
    for said in UNREADABLE:
        refusal, *others = told(sender(), said)
        assert (refusal.name, refusal.condition) == ("Unreadable", "amqp:decode-error"), (said, refusal)
        assert [(it.first, it.last) for it in others] == [(1, 1), (2, 2)], (said, others)
    for said in READABLE:
        assert [type(it) for it in told(sender(), said)] == [Disposed] * 3, said


@test
async def an_open_that_cannot_be_read_is_refused_in_its_place():
    for value in (b"\xa1\x01\xff", b"\xe0\x01\x00", b"\x73\x00\x11\x00\x00"):
        said = with_bytes(Open("x"), properties=compound(0xD1, [b"\xa3\x01a", value]))
        engine = Engine(Open("server"))
        engine.open()
        came = list(engine.receive(frame(said)))
        assert [it.name for it in came] == ["Unreadable"] and engine.remote_open is None and engine.state == "OPENED", (came, engine.state)


@test
async def an_error_that_is_no_text_is_told():
    for said in (b"\xa1\x03f\xfcr", b"\xa1\x04a\nb\n", b"\x40"):
        engine = sender()
        error = b"\x00\x53\x1d" + compound(0xD0, [b"\xa3\x03a:b", said])
        assert all(isinstance(it, Refusal) for it in engine.receive(frame(with_bytes(Close(), error=error)))), said


def served(**how):
    """A server whose client has opened and begun a session."""
    server = Server(Engine(Open("server", max_frame_size=4096)), begin=Begin(handle_max=7))
    server.engine.open()
    list(server.receive(frame(Open("client", **how)) + frame(Begin(None, 0, 1000, 1000))))
    server.to_send()
    return server


def attached(role=SENDER):
    server = served()
    (event,) = server.receive(frame(Attach("l", 0, role, initial_delivery_count=None if role else 0)))
    server.attach(0, Attach("l", server.output_of(event), not role, initial_delivery_count=0 if role else None))
    server.engine.flow(0, Flow(handle=0, delivery_count=0, link_credit=100))
    server.to_send()
    return server


@test
async def what_a_client_may_not_ask_is_refused_and_not_raised():
    attach = Attach("l", 0, SENDER, initial_delivery_count=0)
    for said, condition in (
        (with_bytes(attach, rcv_settle_mode=b"\x50\x07"), "amqp:decode-error"), (with_bytes(attach, snd_settle_mode=b"\x50\x07"), "amqp:decode-error"),
        (Attach("l", 8, SENDER, initial_delivery_count=0), "amqp:connection:framing-error"), (Attach("l", 2**32 - 1, RECEIVER), "amqp:connection:framing-error"),
        (with_bytes(attach, name=b"\xa1\x01\xff"), "amqp:decode-error"), (with_bytes(attach, role=b"\x43"), "amqp:decode-error"),
        (b"\x00\x53\x99\x45", "amqp:decode-error"), (b"\x00\xa3\x03abc\x45", "amqp:decode-error"), (b"\x45", "amqp:decode-error"), (b"\x00" * 100, "amqp:decode-error"),
    ):  # fmt: skip
        server = served()
        came = list(server.receive(frame(said) + frame(Close())))
        assert isinstance(came[0], Refusal) and came[0].condition == condition and isinstance(came[-1], Closed), (said, came)


@test
async def a_begin_at_the_wrong_time_is_refused_and_not_raised():
    for opens in (True, False):
        server = Server(Engine(Open("server")))
        if opens:
            server.engine.open()
        assert [type(it) for it in server.receive(frame(Begin(None, 0, 1, 1)))] == [Refusal]
    server = served()
    # behind both Closes nothing is taken
    assert [type(it) for it in server.receive(frame(Close()) + frame(Begin(None, 0, 1, 1), 3))] == [Closed]
    assert {type(it) for it in served().receive(frame(Begin(None, 0, 1, 1)) * 3)} <= {Refusal, SessionBegan}


@test
async def a_begin_on_a_channel_that_is_none_for_it_is_refused():
    for channel, wanted in ((0, ("ChannelInUse", "amqp:not-allowed")), (32, ("ChannelTooHigh", "amqp:connection:framing-error"))):
        server = Server(Engine(Open("server", channel_max=31)))
        server.engine.open()
        came = list(server.receive(frame(Open("client")) + frame(Begin(None, 0, 9, 9)) + frame(Begin(None, 0, 9, 9), channel) + frame(Begin(None, 0, 9, 9), 31)))
        assert [type(it) for it in came] == [SessionBegan, Refusal, SessionBegan] and (came[1].name, came[1].condition) == wanted, came


@test
async def a_link_has_any_name_that_a_frame_holds():
    attach = Attach("l", 7, SENDER, initial_delivery_count=0)
    longest = replace(attach, name="l" * (4096 + 300 - len(frame(replace(attach, name="l" * 300)))))
    server, links = served(), [longest]
    for handle, (name, role) in enumerate([(name, role) for name in ("one", "sone", "rone") for role in (SENDER, RECEIVER)]):
        links.append(Attach(name, handle, role, initial_delivery_count=None if role else 0))
    came = list(server.receive(b"".join(map(frame, links))))
    assert [it.attach for it in came] == links, came
    for event in came[1:]:
        server.attach(0, Attach(event.attach.name, server.output_of(event), not event.attach.role, initial_delivery_count=0 if event.attach.role else None))
    for event, sent in zip(came[1:], frames(server.to_send())):
        again = Attach.decode(sent[4:])
        assert (again.name, again.handle) == (event.attach.name, event.output_handle), again
    # a name of one direction serves one link
    (refusal,) = server.receive(frame(Attach("one", 6, SENDER, initial_delivery_count=0)))
    assert (refusal.name, refusal.condition) == ("DuplicatedLinkName", "amqp:not-allowed"), refusal


@test
async def arrays_in_what_is_written_again_stay_as_they_were():
    for constructor, item in ((b"\x56", b"\x01"), (b"\xa0", b"\x01a"), (b"\x72", bytes(4)), (b"\x98", bytes(16)), (b"\x00\x43\xa3", b"\x01a"), (b"\x45", b"")):
        of = compound(0xD1, [b"\xa3\x01k", array(constructor, item * 3, 3)])
        server = served()
        (event,) = server.receive(frame(with_bytes(Attach("l", 0, SENDER, initial_delivery_count=0), properties=of, source=of)))
        server.attach(0, Attach("l", server.output_of(event), RECEIVER, source=event.attach.source, properties=event.attach.properties))
        sent = server.to_send()
        again = Attach.decode(sent[8:])
        assert again.properties == event.attach.properties and again.source == event.attach.source, constructor
        assert write(event.attach.properties)[-len(constructor + item * 3) :] == constructor + item * 3, constructor
        came = list(server.receive(frame(with_bytes(Begin(None, 0, 9, 9), properties=of), 3)))
        assert not [it for it in came if isinstance(it, Refusal)], came


@test
async def an_exception_in_a_loop_loses_nothing():
    for side in (attached(), attached().engine):
        came, got = b"".join(frame(Transfer(0, at, b"%d" % at, 0, settled=True), 0, b"x") for at in range(5)), []
        for at in range(5):
            try:
                for event in side.receive(came if at == 0 else b""):
                    got.append(event.transfer.delivery_id)
                    raise KeyError
            except KeyError:
                pass
        assert got == list(range(5)), got


GOOD = [
    frame(of)
    for of in (
        Begin(None, 0, 9, 9, 3, ["a"], None, {Symbol("k"): [1, "a", {1: 2}]}), Attach("m", 1, SENDER, 1, 1, source("a"), target("b"), {}, False, 0, 9), Detach(0, True),
        Attach("n", 2, RECEIVER, source=source("q"), properties={Symbol("k"): Described(Symbol("d"), b"x")}), Flow(0, 9, 0, 9, 0, 0, 9, properties={Symbol("a"): None}),
        Transfer(0, 0, b"t", 0, state=ACCEPTED), Disposition(RECEIVER, 0, 3, True, ACCEPTED), Disposition(SENDER, 0, 3, True, NAMED), End(Error("a:b", "c")),
        Close(Error("a:b", "c", {Symbol("k"): 1})), Open("x", "y", 512, 3, 1000, ["a"], "b", properties={Symbol("k"): [True]}), Flow(0, 9, 0, 9, 2, 0, 99),
    )
]  # fmt: skip


def changed(chance):
    """A good frame in one to three bytes of which others stand."""
    said = bytearray(chance.choice(GOOD))
    for _ in range(chance.randrange(4)):
        said[chance.randrange(8, len(said))] = chance.randrange(256)
    return bytes(said)


@test
async def frames_with_changed_bytes_raise_nothing():
    chance, sides = random.Random(1), []
    for at in range(2000):
        if at % 40 == 0:
            sides = [attached(), attached(RECEIVER), sender()]
        said = changed(chance)
        for side in sides:
            try:
                came = list(side.receive(said))
                side.to_send()
            except Refusal as error:
                came = [error]
            assert all(isinstance(it, Refusal) or it.session is not None for it in came), (said, came)


@test
async def bytes_of_chance_raise_nothing():
    chance = random.Random(2)
    for _ in range(300):
        side = chance.choice((attached, served, sender))()
        list(side.receive(frame(bytes(chance.choice(b"\x00\x40\x43\x45\x53\x10\x12\x14\xa1\xc0\xd0\xe0\x01") for _ in range(chance.randrange(1, 200))))))
        assert [it.name for it in side.receive(bytes(4))] in (["BadSize"], []), side
        list(side.receive(chance.randbytes(100)))


@test
async def a_transfer_without_its_number_is_an_event():
    (event,) = attached().receive(frame(Transfer(0, None, None, 0, settled=True), 0, b"x"))
    assert isinstance(event, Transferred) and event.transfer.delivery_id is None
