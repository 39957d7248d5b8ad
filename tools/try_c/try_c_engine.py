"""What try_c.py tries of two engines that talk in memory: a connection, its sessions and its links. Each call is made
once, with the values compared."""

import sys
from pathlib import Path

sys.path.insert(0, str(Path(__file__).resolve().parents[2] / "bindings" / "python"))

from amqp_engine import (
    FIRST, RECEIVER, SENDER, Attach, Begin, Closed, Delivery, Detach, Detached, Error, Refusal, SessionBegan,
    SessionEnded, Transfer, address_of, source, target,
)  # fmt: skip
from try_c.try_c_pair import Pair, mapped, refused

TESTS = []


def test(function):
    TESTS.append(function)
    return function


@test
def a_connection_opens_and_closes():
    pair = Pair()
    assert (pair.client.state, pair.client.remote_open, pair.client.max_piece_len) == ("OPEN_SENT", None, 508)
    assert pair.carry() == ([], [])
    assert pair.client.state == pair.server.engine.state == "OPENED"
    theirs = pair.server.engine.remote_open
    said = (theirs.container_id, theirs.hostname, theirs.max_frame_size, theirs.channel_max)
    assert said == ("client", "here", 512, 7), theirs
    pair.client.close(Error("amqp:connection:forced", "enough"))
    came = pair.carry()
    assert came == ([], [Closed(0, None, None)]), came
    assert pair.client.state == pair.server.engine.state == "END"


@test
def a_peers_close_is_told_with_its_error():
    pair = Pair()
    pair.carry()
    pair.server.engine.close(Error("amqp:connection:forced", "enough"))
    told = pair.carry()[0]
    assert told == [Refusal("RemoteClosedWithError", "amqp:connection:forced", "enough")], told
    assert pair.client.state == "CLOSE_RCVD"
    pair.client.close()
    pair.carry()
    assert pair.client.state == pair.server.engine.state == "END"


@test
def a_session_begins_ends_and_is_forgotten():
    pair = mapped()
    assert pair.client.session_of(0) == 0 and pair.client.session_of(1) is None
    assert (pair.client.session_state(0), pair.client.session_state(1)) == ("MAPPED", None)
    pair.client.end(0, Error("amqp:session:errant-link"))
    assert pair.carry() == ([], [SessionEnded(0, None, None)])
    assert pair.client.session_state(0) == "UNMAPPED"
    pair.client.release(0)
    pair.client.forget(0)
    assert pair.client.session_state(0) is None
    refused(lambda: pair.client.begin(0), "SessionInUse")
    pair.client.begin(1)
    assert pair.carry()[1] == [SessionBegan(1, None, None, Begin(None, 0, 2048, 2048))]


@test
def a_session_that_the_server_ends_is_let_go():
    pair = mapped()
    pair.server.engine.end(0, Error("amqp:session:errant-link"))
    assert pair.carry() == ([Refusal("RemoteEndedWithError", "amqp:session:errant-link")], [])
    pair.client.end(0)
    assert pair.carry() == ([], [SessionEnded(0, None, None)])
    assert pair.server.engine.session_state(0) is None and pair.server.engine.session_of(0) is None


@test
def a_server_attaches_a_link_too():
    pair = mapped()
    mine = pair.server.engine.link(0, "link", SENDER)
    pair.server.engine.attach(0, Attach("link", mine, SENDER, initial_delivery_count=0))
    ((wanted,), _) = pair.carry()
    assert (wanted.name, wanted.condition) == ("RemoteAttachingLinkNameNotFound", "amqp:not-found"), wanted
    handle = pair.client.link_on(0, mine, "link", RECEIVER)
    pair.client.attach(0, Attach("link", handle, RECEIVER))
    (event,) = pair.carry()[1]
    assert (event.attach.name, pair.server.output_of(event), event.output_handle) == ("link", mine, mine), event


@test
def a_link_is_attached_and_detached():
    pair = mapped()
    handle, event, mine, answer = pair.attached()
    assert (event.session, event.input_handle, event.attach.name, event.attach.role) == (0, handle, "link", SENDER)
    assert address_of(event.attach.target) == "to" and event.attach.initial_delivery_count == 0
    assert (answer.input_handle, answer.attach.name, answer.attach.role) == (mine, "link", RECEIVER)
    refused(lambda: pair.client.link(0, "link", SENDER), "DuplicatedLinkName")
    said = Detach(handle, True, Error("amqp:link:stolen"))
    pair.client.detach(0, said)
    (gone,) = pair.carry()[1]
    assert isinstance(gone, Detached) and gone.detach == said and gone.remote_initiated, gone
    pair.server.engine.detach(0, Detach(mine, True), expects_answer=False)
    (gone,) = pair.carry()[0]
    assert isinstance(gone, Detached) and not gone.remote_initiated and gone.detach.handle == mine, gone
    assert pair.attached()[0] == handle


@test
def a_name_serves_a_sender_and_a_receiver_of_a_client():
    pair = mapped()
    first, second = pair.client.link(0, "a", SENDER), pair.client.link(0, "b", RECEIVER)
    pair.client.attach(0, Attach("one", first, SENDER, initial_delivery_count=0))
    pair.client.attach(0, Attach("one", second, RECEIVER))
    names = [(it.attach.name, it.attach.role) for it in pair.carry()[1]]
    assert names == [("one", SENDER), ("one", RECEIVER)], names


@test
def a_link_is_named_by_this_sides_handle():
    pair = mapped()
    handles = [pair.client.link(0, name, SENDER) for name in "ab"]
    # attached in the other order, so that the server's handles are the other ones
    for name, handle in [*zip("ab", handles)][::-1]:
        assert unattached(pair.client, handle)
        pair.client.attach(0, Attach(name, handle, SENDER, initial_delivery_count=0))
        assert unattached(pair.client, handle)
    theirs = {event.attach.name: pair.server.output_of(event) for event in pair.carry()[1]}
    assert [theirs[name] for name in "ab"] == handles[::-1] == [1, 0], theirs
    for name in "ba":
        pair.server.attach(0, Attach(name, theirs[name], RECEIVER))
    assert [it.output_handle for it in pair.carry()[0]] == handles[::-1]
    assert unattached(pair.client, 2)
    for at, handle in enumerate(handles):
        assert pair.client.transfer(0, Transfer(handle, delivery_tag=b"t", settled=True), b"x") == 2 * at
        assert pair.client.send([Delivery(0, handle, b"u", b"y")]) == [(2 * at + 1, 0)]
    came = [(it.transfer.handle, it.output_handle, it.payload) for it in pair.carry()[1]]
    wanted = [(handle, theirs[name], it) for name, handle in zip("ab", handles) for it in (b"x", b"y")]
    assert came == wanted, came
    # the one is detached by this side, the other one by the peer
    pair.client.detach(0, Detach(handles[0], True))
    pair.server.engine.detach(0, Detach(theirs["b"], True))
    assert unattached(pair.client, handles[0]) and not unattached(pair.client, handles[1])
    pair.carry()
    assert all(unattached(pair.client, handle) for handle in handles)


def unattached(engine, handle):
    """Whether transfers on this handle are refused, by a head and by a performative; else both are taken."""
    (sent,) = engine.send([Delivery(0, handle, b"t", b"x")])
    try:
        engine.transfer(0, Transfer(handle, delivery_tag=b"t", settled=True), b"x")
    except Refusal as refusal:
        assert (refusal.name, sent) == ("UnattachedHandle", (0, 61)), (refusal, sent)
        return True
    assert sent[1] == 0, sent
    return False


@test
def bytes_come_in_any_splitting():
    pair = Pair()
    pair.client.begin(0)
    pair.client.close()
    assert len(pair.carry(cut=1)[1]) == 2 and pair.client.state == "END"


@test
def an_attach_tells_its_terms():
    pair = mapped()
    both = {"source": source("from"), "target": target("to"), "snd_settle_mode": 1, "rcv_settle_mode": 1}
    for name, ends, said in (
        ("both", {**both, "max_message_size": 5 << 32 | 7}, (3, 7, 5, 1, 1)),
        ("source", {"source": source("from"), "max_message_size": 9}, (1, 9, 0, 2, 0)),
        ("target", {"target": target("to"), "snd_settle_mode": 0}, (2, 0, 0, 0, 0)),
        ("neither", {}, (0, 0, 0, 2, 0)),
    ):
        handle = pair.client.link(0, name, SENDER, ends.get("rcv_settle_mode", FIRST))
        pair.client.attach(0, Attach(name, handle, SENDER, initial_delivery_count=0, **ends))
        (told,) = pair.server.engine.take(pair.client.to_send()).records
        assert (told.outcome, told.first, told.last, told.credit, told.available) == said, (name, told)
