"""What try_c.py tries of performatives that the library's writers write: each field of each, beside the same by the
package's codec of values, in the frames that the library sends."""

import sys
from pathlib import Path

sys.path.insert(0, str(Path(__file__).resolve().parents[2] / "bindings" / "python"))

from amqp_engine import (
    ACCEPTED, RECEIVER, RELEASED, SENDER, Attach, BadArgument, Begin, Described, Detach, Disposition, Engine,
    Error, Flow, Map, Open, Refusal, Symbol, Transfer, Uint, Ulong, rejected, source, source_of, target, target_of,
)  # fmt: skip
from amqp_engine.values import read, write
from try_c.try_c_pair import frames, mapped

TESTS = []
MAPS = [{}, {Symbol("a"): 1, Symbol("b"): [None, {"deep": b"x" * 300}]}, Map([(Symbol("n"), "é" * 200)])]
NAMES = ["", "q", "é\0x", "x" * 255, "x" * 256]
NUMBERS = [0, 1, 255, 256, 2**16 - 1]
LARGE = [*NUMBERS, 2**16, 2**31, 2**32 - 1]
SYMBOLS = ["one", [], ["a"], ["a", "b" * 300]]
FLAGS = [True, False]
#: What an Open, a Begin and an Attach have
HAS = {"offered_capabilities": SYMBOLS, "desired_capabilities": SYMBOLS, "properties": MAPS}
ERRORS = [Error("a:b"), Error("a:b", "é\0"), Error("x" * 256, "y" * 300, {Symbol("k"): 1}), Error("a:b", None, {})]
SOURCES = [
    source(), source("q"), source_of(None, dynamic=True), source_of("q", durable=2, expiry="never", timeout=300, mode="copy"),
    source_of("q", properties={"p": 1}, filters={"f:x": "a"}, outcomes=["amqp:accepted:list"], capabilities=["topic"]),
]  # fmt: skip
TARGETS = [
    target(), target("q" * 300), target_of("q", durable=1, timeout=70000, capabilities=["queue"]),
    Described(Ulong(0x30), []),
]  # fmt: skip
OUTCOMES = [ACCEPTED, RELEASED, rejected(), Described(Ulong(0x27), [])]
STATES = [
    *OUTCOMES, *map(rejected, ERRORS), Described(Ulong(0x27), [True, False, Map([(Symbol("a"), 1)])]),
    Described(Ulong(0x23), [Uint(7), Ulong(300)]), Described(Ulong(2**40), [Uint(1)]),
    Described(Symbol("own:state"), [1]),
]  # fmt: skip


class ByValues:
    """A performative that the codec of values writes."""

    def __init__(self, it):
        self.it = it

    def __getattr__(self, name):
        return getattr(self.it, name)

    def encode(self, library=None):
        return write(self.it.described())


def test(function):
    TESTS.append(function)
    return function


def with_each(kind, fixed, fields):
    """The performative without other fields, with each value of each field alone, and with the last of all fields."""
    yield kind(**fixed)
    for name, values in fields.items():
        for value in values:
            yield kind(**{**fixed, name: value})
    yield kind(**{**fixed, **{name: values[-1] for name, values in fields.items()}})


def sent(ask, it):
    """The frames that a request has the library send, or why it does not."""
    try:
        return frames(ask(it).to_send())
    except (Refusal, BadArgument) as error:
        return repr(error)


def same(ask, performatives):
    """Both ways have the same frame sent, or refused for the same reason; answers how many were refused."""
    refused = 0
    for it in performatives:
        ours, others = sent(ask, it), sent(ask, ByValues(it))
        assert ours == others, (it, ours, others)
        assert it.__class__.decode(it.encode()) == it.__class__.decode(write(it.described())), it
        assert isinstance(ours, str) or len(ours) == 1, (it, ours)
        refused += isinstance(ours, str)
    return refused


def alike(ask, performatives):
    """Both ways have the same said, if not in the same spelling: what the library sends as it was written."""
    for it in performatives:
        (ours,), (others,) = sent(ask, it), sent(ask, ByValues(it))
        assert it.__class__.of(read(ours, 4)[0]) == it.__class__.of(read(others, 4)[0]), (it, ours, others)
        assert shortest(ours) == others, (it, ours, others)


def shortest(frame):
    """The frame with its performative in the shortest spelling."""
    said, end = read(frame, 4)
    return frame[:4] + write(said) + frame[end:]


def opened(it):
    engine = Engine(it)
    engine.open()
    return engine


def asking(ask):
    """A request on a session that both sides have begun, with an attached link of each role."""

    def asked(it):
        pair = mapped(limit=4096)
        pair.attached(), pair.attached(RECEIVER, name="back")
        ask(pair.client, it)
        return pair.client

    return asked


@test
def an_open_has_each_field():
    fields = {
        "hostname": NAMES, "max_frame_size": [512, 2**16, 2**32 - 1], "channel_max": NUMBERS, "idle_time_out": LARGE,
        "outgoing_locales": SYMBOLS, "incoming_locales": SYMBOLS, **HAS,
    }  # fmt: skip
    assert same(opened, with_each(Open, {"container_id": "me"}, fields)) == 0
    assert same(opened, [Open(name) for name in NAMES]) == 0


@test
def a_begin_has_each_field():
    fields = {
        "handle_max": LARGE, "next_outgoing_id": LARGE, **HAS,
        "incoming_window": LARGE, "outgoing_window": LARGE, "remote_channel": [0],
    }  # fmt: skip
    # one that answers another is no request
    assert same(asking(lambda client, it: client.begin(7, it)), with_each(Begin, {}, fields)) == 2


def attached(client, it):
    assert client.link(0, it.name, it.role) == 2
    client.attach(0, it)


def attached_by_link(client, it):
    client.link(0, it.name, it.role)
    client.link_attach(0, it)


def transferred(client, it):
    client.transfer(0, it, b"payload")


def disposed(client, it):
    attach = Attach("third", client.link(0, "third", RECEIVER), RECEIVER)
    client.link_attach(0, attach)
    client.to_send()
    assert client.link_dispose(0, it)


ATTACH = {
    "snd_settle_mode": [0, 1, 2], "rcv_settle_mode": [0, 1], "unsettled": MAPS, "incomplete_unsettled": FLAGS,
    "initial_delivery_count": LARGE, "max_message_size": [*LARGE, 2**32, 2**64 - 1], **HAS,
}  # fmt: skip


@test
def an_attach_has_each_field():
    for ask in (attached, attached_by_link):
        for role in (SENDER, RECEIVER):
            fixed = {"name": "another", "handle": 2, "role": role, "initial_delivery_count": None if role else 0}
            fields = {name: values for name, values in ATTACH.items() if name != "initial_delivery_count" or not role}
            none = same(asking(ask), with_each(Attach, fixed, fields))
            assert none == 0, none
    assert same(asking(attached), [Attach(name, 2, SENDER, initial_delivery_count=1) for name in NAMES]) == 0


@test
def the_ends_of_an_attach_have_each_field():
    for name, values in (("source", SOURCES), ("target", TARGETS)):
        alike(asking(attached), [Attach("another", 2, SENDER, initial_delivery_count=0, **{name: it}) for it in values])


@test
def a_flow_a_transfer_and_a_detach_have_each_field():
    flows = {"delivery_count": LARGE, "link_credit": LARGE, "available": LARGE, "drain": FLAGS, "echo": FLAGS}
    flows["properties"] = MAPS
    assert same(asking(lambda client, it: client.flow(0, it)), with_each(Flow, {"handle": 0}, flows)) == 0
    transfers = {
        "delivery_id": LARGE, "message_format": LARGE, "settled": FLAGS, "more": FLAGS, "rcv_settle_mode": [0, 1],
        "state": OUTCOMES, "resume": FLAGS, "aborted": FLAGS, "batchable": FLAGS, "delivery_tag": [b"", b"\0", b"t" * 32],
    }  # fmt: skip
    each = with_each(Transfer, {"handle": 0, "delivery_tag": b"t"}, transfers)
    none = same(asking(transferred), each)
    assert none == 0, none
    detaches = {"closed": FLAGS, "error": ERRORS}
    assert same(asking(lambda client, it: client.detach(0, it)), with_each(Detach, {"handle": 0}, detaches)) == 0


@test
def a_deliverys_state_has_each_field():
    alike(asking(transferred), [Transfer(0, None, b"t", state=it) for it in STATES])
    alike(asking(lambda client, it: client.disposition(0, it)), [Disposition(RECEIVER, 0, state=it) for it in STATES])
    alike(asking(disposed), [Disposition(RECEIVER, 0, state=it) for it in STATES])


@test
def a_disposition_has_each_field():
    fields = {"last": LARGE, "settled": FLAGS, "state": OUTCOMES, "batchable": FLAGS}
    fixed = {"role": RECEIVER, "first": 0}
    none = same(asking(lambda client, it: client.disposition(0, it)), with_each(Disposition, fixed, fields))
    assert none == 0, none


@test
def an_error_of_an_end_a_close_and_a_detached_link_has_each_field():
    ends, closes = lambda client, it: client.end(0, it), lambda client, it: client.close(it)
    for ask in (ends, closes, lambda client, it: client.detach(0, Detach(1, True, it))):
        assert same(asking(ask), ERRORS) == 0


@test
def what_does_not_fit_a_field_is_refused_as_a_value_is():
    for it in [
        Begin(handle_max=2**32), Begin(handle_max=-1), Open("a", channel_max=2**16), Error("é"),
        Attach("a", 0, SENDER, snd_settle_mode=256), Attach("a", 0, SENDER, max_message_size=2**64), Open("\ud800"),
        Open("a", properties={"k": object()}), Attach("a", 0, SENDER, source=object()),
        Open("a", properties={"k": deep(70)}), Open(None), Error(None),
    ]:  # fmt: skip
        assert raised(it.encode) == raised(lambda: write(it.described())) is not None, it
    # at the deepest both ways say the same
    for depth in range(58, 66):
        it = Open("a", properties={"k": deep(depth)})
        assert raised(it.encode) == raised(lambda: write(it.described())), depth


def deep(levels):
    it = None
    for _ in range(levels):
        it = [it]
    return it


def raised(call):
    try:
        call()
    except (TypeError, ValueError, OverflowError) as error:
        return type(error)
    return None
