"""What try_c.py tries of the client: what goes over the wire, with a peer that is written out."""

import asyncio
import sys
from pathlib import Path

sys.path.insert(0, str(Path(__file__).resolve().parents[2] / "bindings" / "python"))

from amqp_engine import (
    ACCEPTED, RECEIVER, SENDER, Accepted, Described, Disposition, Error, Flow, Message, Modified, NotAccepted, Rejected,
    Released, Settled, Symbol, Transfer, Ulong, rejected, source,
)  # fmt: skip
from hostile.peers import frame
from try_c.try_c_client_peers import against, attach, raised, settles, tests

TESTS, test = tests()


@test
async def outcomes_are_told_as_the_peer_says_them():
    modified = Described(Ulong(0x27), [True, None, {Symbol("x-opt-a"): 1}])
    why = rejected(Error("amqp:not-allowed", "no"))
    states = [ACCEPTED, why, Described(Ulong(0x26), []), modified, None, rejected(None)]

    async def script(peer):
        await attach(peer, credit=10)
        for number, state in enumerate(states):
            await peer.until(0x14)
            peer.send(settles(number, state))
        await peer.until(0x14)
        peer.send(settles(6, rejected(Error("amqp:not-allowed", "no"))))

    async with against(script) as connection, connection.sender("q") as sender:
        told = [await sender.send("x", raises=False) for _ in states]
        assert told[:3] == [Accepted(), Rejected(Error("amqp:not-allowed", "no")), Released()], told
        assert told[3:] == [Modified(True, None, {Symbol("x-opt-a"): 1}), Settled(), Rejected(None)], told
        assert [it.is_taken for it in told] == [True, False, False, False, True, False]
        error = await raised(sender.send("x"), NotAccepted)
        assert (error.condition, error.description, error.outcome) == ("amqp:not-allowed", "no", told[1])
        assert str(error) == "the message was rejected: amqp:not-allowed: no"


@test
async def a_peer_that_settles_second_is_answered():
    async def script(peer):
        await attach(peer, credit=10, rcv_settle_mode=1)
        for number in range(3):
            await peer.until(0x14)
        peer.send(settles(0, ACCEPTED, settled=False, last=1), settles(2, rejected(None), settled=False))
        for _ in range(2):
            said.append(Disposition.decode((await peer.until(0x15))[4:]))

    said = []
    async with against(script) as connection, connection.sender("q") as sender:
        told = await asyncio.gather(*(sender.send("x", raises=False) for _ in range(3)))
        assert told == [Accepted(), Accepted(), Rejected(None)]
        await asyncio.sleep(0.05)
    ranges = [(it.role, it.first, it.last, it.settled) for it in said]
    assert ranges == [(SENDER, 0, 1, True), (SENDER, 2, 2, True)], said


@test
async def what_is_said_of_a_delivery_goes_out_as_the_standard_has_it():
    said = []

    async def script(peer):
        await attach(peer)
        await peer.until(0x13)
        for number in range(9):
            peer.send(frame(Transfer(0, number, bytes([number]), 0), payload=Message(number).encode()))
        while len(said) < 5:
            said.append(Disposition.decode((await peer.until(0x15))[4:]))

    async with against(script) as connection, connection.receiver("q") as receiver:
        came = [await receiver.receive(timeout=5) for _ in range(9)]
        assert [(it.message.body, it.tag, it.number) for it in came] == [(at, bytes([at]), at) for at in range(9)]
        for it in came[:4]:
            await it.accept()
        await came[6].release()
        await came[5].reject("amqp:decode-error", "why")
        await came[4].modify(annotations={"x-opt-a": 1})
        await came[7].reject()
        await asyncio.sleep(0.1)
    told = [(it.first, it.last, it.settled, it.state) for it in said]
    assert told == [
        (0, 3, True, ACCEPTED), (6, 6, True, Described(0x26, [])),
        (5, None, True, Described(0x25, [Described(0x1D, ["amqp:decode-error", "why"])])),
        (4, None, True, Described(0x27, [True, False, {Symbol("x-opt-a"): 1}])), (7, None, True, Described(0x25, [])),
    ], told  # fmt: skip
    assert [it.role for it in said] == [RECEIVER] * 5


@test
async def sources_and_targets_say_what_was_asked_for():
    theirs = []

    async def script(peer):
        theirs.append(await attach(peer))
        theirs.append(await attach(peer, 1))

    async with against(script) as connection:
        how = {"mode": "copy", "durable": 2, "expiry": "never", "timeout": 9, "filters": {"selector": "a = 1"}}
        how["outcomes"] = ["amqp:accepted:list"]
        async with connection.receiver("q", name="mine", capabilities=["queue"], max_message_size=1000, **how):
            async with connection.sender("to", durable=1, properties={"k": 1}):
                pass
    first, second = theirs
    assert (first.name, first.role, first.max_message_size, first.snd_settle_mode) == ("mine", RECEIVER, 1000, 0)
    wanted = ["q", 2, "never", 9, None, None, "copy", {"selector": Described("selector", "a = 1")}, None]
    assert first.source.value[:9] == wanted, first.source
    assert (first.source.value[9].items, first.source.value[10].items) == (["amqp:accepted:list"], ["queue"])
    assert (second.target.value, second.properties, second.snd_settle_mode) == (["to", 1], {"k": 1}, None), second


@test
async def a_dynamic_address_is_the_peers():
    asked = []

    def given(mine):
        mine.source = source("temporary-7")
        return mine

    async def script(peer):
        asked.append(await attach(peer, answer=given))

    async with against(script) as connection, connection.receiver(dynamic=True) as receiver:
        assert receiver.address == "temporary-7"
    assert asked[0].source.value[4] is True and asked[0].source.value[0] is None


@test
async def a_delivery_of_many_frames_is_one_and_one_that_is_aborted_is_none():
    async def script(peer):
        await attach(peer)
        flow = Flow.decode((await peer.until(0x13))[4:])
        whole = Message(b"x" * 1000).encode()
        peer.send(frame(Transfer(0, 0, b"a", 0, more=True), payload=b"lost"), frame(Transfer(0, aborted=True)))
        peer.send(frame(Transfer(0, 1, b"b", 0, more=True), payload=whole[:400]))
        peer.send(frame(Transfer(0, more=True), payload=whole[400:800]))
        peer.send(frame(Transfer(0), payload=whole[800:]))
        told.append(flow.link_credit)
        while True:
            told.append(Flow.decode((await peer.until(0x13))[4:]).link_credit)

    told = []
    async with against(script) as connection, connection.receiver("q", credit=2) as receiver:
        assert (await receiver.receive(timeout=5)).message.body == b"x" * 1000
        await asyncio.sleep(0.05)
    assert told[0] == 2 and set(told[1:]) <= {1, 2} and len(told) >= 2, told
