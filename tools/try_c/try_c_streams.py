"""What try_c.py tries of a stream from its first byte on: protocol headers, SASL of both sides, and the time."""

from amqp_engine import Driver, Engine, Open, Refusal
from amqp_engine.driver import ANSWER_ENDS, BEGUN, DUE_BEAT, DUE_NOTHING, DUE_OPENING_LATE, DUE_PEER_SILENT
from amqp_engine.opening import (
    LOGIN_REFUSED, NO_MECHANISM, OTHER_PROTOCOL, SASL_CLIENT, SASL_SERVER, Challenged, HeaderCame, LoggedIn, LoginAsked, MechanismChosen, NotOpened, Opening,
    Responded,
)  # fmt: skip
from try_c.try_c_pair import refused

TESTS = []
EMPTY_FRAME = b"\x00\x00\x00\x08\x02\x00\x00\x00"
SAID = b"\0me\0secret"


def test(function):
    TESTS.append(function)
    return function


def pair(client, server):
    return Engine(Open("client"), opening=client), Engine(Open("server"), opening=server)


def carry(one, other):
    """What the other side tells of what one sends."""
    return list(other.receive(one.to_send()))


def talk(client, server):
    """Carries bytes until nothing waits; what each side tells."""
    told = ([], [])
    while (there := client.to_send()) + (back := server.to_send()):
        told[1].extend(server.receive(there))
        told[0].extend(client.receive(back))
    return told


@test
def a_client_is_let_in():
    client, server = pair(Opening(SASL_CLIENT, [("EXTERNAL", None), ("PLAIN", SAID)], "here"), Opening(SASL_SERVER, [("PLAIN", None), ("ANONYMOUS", None)]))
    assert talk(client, server) == ([HeaderCame(False), MechanismChosen(1)], [HeaderCame(False), LoginAsked("PLAIN", SAID, "here")])
    # nothing is taken until it is answered
    assert list(server.receive(b"AMQP")) == [] and server.to_send() == b""
    server.login(0, b"welcome")
    assert carry(server, client) == [LoggedIn(b"welcome"), HeaderCame(True)]
    assert list(server.receive(client.to_send()[4:])) == [HeaderCame(True)]
    client.open()
    server.open()
    assert talk(client, server) == ([], [])
    assert (client.state, server.state, server.remote_open.container_id) == ("OPENED", "OPENED", "client")


@test
def a_client_is_refused():
    client, server = pair(Opening(SASL_CLIENT, [("ANONYMOUS", b"me")]), Opening(SASL_SERVER, [("ANONYMOUS", None)]))
    assert talk(client, server)[1] == [HeaderCame(False), LoginAsked("ANONYMOUS", b"me", None)]
    server.login(1)
    assert server.has_ended and not client.has_ended
    assert carry(server, client) == [NotOpened(LOGIN_REFUSED, "LoginRefused", 1, None)] and client.has_ended
    refused(lambda: server.login(0), "WrongTime")
    assert client.to_send() == b""


@test
def a_mechanism_with_challenges():
    client, server = pair(Opening(SASL_CLIENT, [("X-ASKS", None)]), Opening(SASL_SERVER, [("X-ASKS", None)]))
    refused(lambda: client.respond(b"me"), "WrongTime")
    assert talk(client, server)[1][1:] == [LoginAsked("X-ASKS", None, None)]
    server.challenge(b"who?")
    assert carry(server, client) == [Challenged(b"who?")]
    client.respond(b"me")
    assert carry(client, server) == [Responded(b"me")]
    server.login(0)
    assert carry(server, client)[0] == LoggedIn(None)


@test
def a_stream_that_is_not_opened_says_why():
    client, server = pair(Opening(SASL_CLIENT, [("EXTERNAL", b"")]), Opening(SASL_SERVER, [("PLAIN", None)]))
    told = talk(client, server)[0][-1]
    assert (told.why, told.name, b"PLAIN" in told.said) == (NO_MECHANISM, "NoMechanism", True), told
    without, server = pair(None, Opening(SASL_SERVER, [("PLAIN", None)]))
    (told,) = server.receive(b"AMQP\x00\x01\x00\x00")
    assert (told.why, told.name) == (OTHER_PROTOCOL, "OtherProtocol") and server.has_ended
    refused(lambda: without.login(0), "WrongTime")


@test
def places_are_those_of_the_bytes_that_were_given():
    server = Driver(Open("server"), opening=Opening(SASL_SERVER, [("PLAIN", None)]))
    client = Driver(Open("client"), opening=Opening(SASL_CLIENT, [("PLAIN", SAID)], "here"))
    client.take(server.to_send())
    client.take(b"\x00\x00\x00\x15\x02\x01\x00\x00\x00\x53\x40\xc0\x08\x01\xa3\x05PLAIN")
    came = b"before" + client.to_send()
    assert server.take(came, 6).taken == 8
    (told,) = server.take(came, 14).records
    parts = came[told.first :][: told.last], came[told.payload_at :][: told.payload], came[told.count :][: told.credit]
    assert parts == (b"PLAIN", SAID, b"here"), parts
    assert server.take(b"", 0).waits


@test
def time_passes():
    late = Driver(Open("late"), opening=Opening(), time=1000, limit=50)
    assert late.tick(1049) == (DUE_NOTHING, 1050)
    assert late.tick(1050) == (DUE_OPENING_LATE, None) and late.has_ended
    one = Driver(Open("one", idle_time_out=400), opening=Opening(), time=0)
    other = Driver(Open("other", idle_time_out=100), opening=Opening(), time=0)
    one.open()
    other.open()
    for it, peer in ((one, other), (other, one), (one, other)):
        came = it.to_send()
        while came:
            came = came[peer.take(came, 0, 10).taken :]
    assert one.tick(10) == (DUE_NOTHING, 60)
    assert other.tick(10) == (DUE_NOTHING, 110), (other.tick(10), other.state)
    assert one.tick(60).due == DUE_BEAT and one.to_send() == EMPTY_FRAME
    other.heard(109)
    assert other.tick(110) == (DUE_NOTHING, 209) and not other.has_ended
    assert other.tick(209) == (DUE_PEER_SILENT, None) and other.has_ended
    assert b"resource-limit-exceeded" in other.to_send()


@test
def a_record_is_answered():
    client, server = Driver(Open("client")), Driver(Open("server"))
    for it, peer in ((client, server), (server, client)):
        it.open()
        peer.take(it.to_send())
    client.begin(7)
    came = client.to_send()
    (told,) = server.take(came).records
    assert not server.answer(told, came, 0, ANSWER_ENDS) and server.to_send() == b""
    assert server.answer(told, came, 0)
    (told,) = client.take(server.to_send()).records
    assert (told.kind, told.session, server.session_state(0)) == (BEGUN, 7, "MAPPED")
    refused(lambda: server.answer_end(0), "NotEnded")
    refused(lambda: client.let_go(7), "NotEnded")
    client.end(7)
    came = client.to_send()
    (told,) = server.take(came).records
    server.answer_end(0)
    assert client.take(server.to_send()).taken and server.session_state(0) is None
    client.let_go(7)
    refused(lambda: client.let_go(7), "NotEnded")
    client.begin(8)
    came = client.to_send()
    (told,) = server.take(came).records
    refused(lambda: server.answer(told, came, 0), "SessionInUse")
    server.answer_begin(70, came[told.at - 4 : told.at + told.size])
    assert (server.session_state(70), server.session_of(told.channel)) == ("MAPPED", 70)
    client.close()
    came = client.to_send()
    assert server.answer(server.take(came).records[0], came, 0) and server.state == "END"


@test
def a_driver_behind_the_headers_is_as_it_was():
    driver = Driver(Open("me"))
    driver.open()
    assert driver.to_send()[8:11] == b"\x00\x53\x10" and not driver.has_ended
    assert isinstance(driver.refusal_of(NO_MECHANISM), Refusal)
