"""What try_c.py tries of deliveries between two engines: transfers by performatives and by heads, how they are settled,
and windows."""

import sys
from pathlib import Path

sys.path.insert(0, str(Path(__file__).resolve().parents[2] / "bindings" / "python"))

from amqp_engine import (
    ACCEPTED, RECEIVER, RELEASED, SECOND, SENDER, Delivery, Disposed, Disposition, Driver, Flow, Flowed, Transfer,
    Transferred,
)  # fmt: skip
from amqp_engine.driver import FORMATTED, MORE, NUMBERED
from amqp_engine.values import write
from try_c.try_c_pair import frames, mapped

TESTS = []


def test(function):
    TESTS.append(function)
    return function


@test
def deliveries_go_there_and_are_settled():
    pair = mapped()
    handle, _, mine, _ = pair.attached()
    pair.server.engine.flow(0, Flow(handle=mine, delivery_count=0, link_credit=2))
    (flow,) = pair.carry()[0]
    assert isinstance(flow, Flowed), flow
    assert (flow.output_handle, flow.flow.handle, flow.flow.link_credit) == (handle, mine, 2), flow
    for number, tag, message in ((0, b"a", b"short"), (1, b"b", bytes(1500))):
        transfer = Transfer(handle, delivery_tag=tag, message_format=0, settled=False)
        assert pair.client.deliver(0, transfer, message) == number
    came = pair.carry()[1]
    assert [type(it) for it in came] == [Transferred] * len(came) and len(came) == 5, came
    begun = [(it.delivery_id, it.delivery_tag, it.more) for it in (came[0].transfer, came[1].transfer)]
    assert begun == [(0, b"a", None), (1, b"b", True)], came
    assert b"".join(it.payload for it in came[1:]) == bytes(1500) and not came[-1].transfer.more
    assert all(len(write(it.transfer.described())) + len(it.payload) <= 504 for it in came)
    pair.server.engine.disposition(0, Disposition(RECEIVER, 0, 1, settled=True, state=ACCEPTED))
    told = pair.carry()[0]
    assert told == [Disposed(0, None, None, RECEIVER, True, ACCEPTED, 0, 1)], told
    assert told[0].among([2**32 - 1, 0, 1, 2]) == [0, 1] == told[0].among({1, 0}) and told[0].among({7: b""}) == []


@test
def a_delivery_settled_second_is_settled_by_both():
    pair = mapped()
    handle, _, mine, _ = pair.attached(settle_mode=SECOND)
    pair.server.engine.flow(0, Flow(handle=mine, delivery_count=0, link_credit=1))
    pair.carry()
    pair.client.transfer(0, Transfer(handle, delivery_tag=b"t", message_format=0, settled=False), b"x")
    pair.carry()
    pair.server.engine.disposition(0, Disposition(RECEIVER, 0, settled=False, state=RELEASED))
    first, second = pair.carry()
    assert [(it.settled, it.state) for it in first] == [(False, RELEASED)], first
    said = [(it.role, it.settled, it.state, it.first, it.last) for it in second]
    assert said == [(SENDER, True, RELEASED, 0, 0)], second


@test
def what_this_side_settles_is_let_go():
    pair = mapped()
    handle, _, mine, _ = pair.attached()
    pair.server.engine.flow(0, Flow(handle=mine, delivery_count=0, link_credit=1))
    pair.carry()
    pair.client.transfer(0, Transfer(handle, delivery_tag=b"t", settled=False), b"x")
    pair.carry()
    pair.client.settle(0, SENDER, 0)
    pair.server.engine.disposition(0, Disposition(RECEIVER, 0, settled=True, state=ACCEPTED))
    assert [type(it) for it in pair.carry()[0]] == [Disposed]


@test
def the_peers_window_holds_transfers_back():
    pair = mapped()
    handle, *_ = pair.attached()
    for at in range(12):
        pair.client.transfer(0, Transfer(handle, delivery_tag=bytes([at]), settled=True), b"x")
    assert len([it for it in frames(pair.client.to_send()) if it[6] == 0x14]) == 8


@test
def transfers_go_by_their_heads_and_records_come():
    pair = mapped()
    handle, _, mine, _ = pair.attached()
    pair.server.engine.flow(0, Flow(handle=mine, delivery_count=0, link_credit=9))
    pair.carry()
    of = Delivery(0, handle, b"t", b"hello", flags=NUMBERED | FORMATTED)
    later = of._replace(tag=None, payload=b"!", flags=0)
    wrong = [of._replace(link=99), of._replace(payload=bytes(600)), of._replace(tag=bytes(33))]
    sent = pair.client.send([of._replace(flags=of.flags | MORE), later, *wrong, of])
    assert sent == [(0, 0), (0, 0), (0, 61), (0, 91), (0, 92), (1, 0)], sent
    names = [pair.client.refusal_of(it).name for it in (61, 91, 92)]
    assert names == ["UnattachedHandle", "PayloadTooLong", "TagTooLong"], names
    assert pair.client.answer_of(61) == "end" and pair.client.refusal_of(12).condition == "amqp:decode-error"
    came = pair.client.to_send()
    driver = pair.server.engine
    taken = driver.take(came + b"\x00")
    assert (taken.taken, taken.wanted, taken.is_bad) == (len(frames(came)[0]) + 4, 0, False), taken
    records = [Driver.take(driver, came, at).records[0] for at in places(came)[1:]]
    whole = [taken.records[0], *records]
    assert [came[it.payload_at : it.payload_at + it.payload] for it in whole] == [b"hello", b"!", b"hello"], whole
    said = [(it.kind, it.first, it.tag[: it.tag_size], bool(it.flags & MORE)) for it in whole]
    assert said == [(6, 0, b"t", True), (6, 0, b"", False), (6, 1, b"t", False)], said
    driver.dispose(0, RECEIVER, 0, 1, True, 1)
    assert pair.carry()[0] == [Disposed(0, None, None, RECEIVER, True, ACCEPTED, 0, 1)]
    assert pair.client.transfer(0, Transfer(handle, delivery_tag=b"u", settled=True), b"x") == 2
    assert (pair.client.unfit, driver.unfit) == (0, 0)


def places(data):
    """Where each frame begins."""
    found, at = [], 0
    while at < len(data):
        found.append(at)
        at += int.from_bytes(data[at : at + 4], "big")
    return found


@test
def what_an_iterator_leaves_the_next_one_gives():
    for side in (lambda pair: pair.server, lambda pair: pair.server.engine):
        pair = mapped()
        handle, _, mine, _ = pair.attached()
        pair.server.engine.flow(0, Flow(handle=mine, delivery_count=0, link_credit=5))
        pair.carry()
        for at in range(5):
            pair.client.transfer(0, Transfer(handle, delivery_tag=bytes([at]), settled=True), bytes([at]))
        came, left = pair.client.to_send(), []
        left.append(next(side(pair).receive(came[:-3])))
        side(pair).receive(came[-3:])
        left += side(pair).receive(b"")
        assert [it.payload for it in left] == [bytes([at]) for at in range(5)], left
