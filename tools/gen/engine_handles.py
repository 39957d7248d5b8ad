"""Rows of the handles and the names of links in an engine: which handle is free, and names and handles of every size
(AMQP 1.0 part 2, sections 2.6.2 and 2.7.3)."""

from gen.engine_links import IN_USE, LIVE, UNKNOWN, echoes, echoes_nothing, has_handle, hear, mapped
from gen.row import LAST, attach, begin, detach, opening, out, recv

LONG = "n" * 4000


def taken_again(rows):
    mapped(rows, "A handle whose detach the peer has answered is free; until then it is not, though the name is")
    rows.ask("link 0 a")
    has_handle(rows, 5, "a", 0)
    rows.ask("send 0 " + detach(0, True), out(detach(0, True)))
    rows.ask("send 0 " + detach(0, True))
    rows.ask("link 0 a")
    has_handle(rows, 6, "a", 1)
    hear(rows, detach(5, True))
    rows.ask("link 0 b")
    has_handle(rows, 5, "b", 0)
    hear(rows, detach(5), out(detach(0)))
    hear(rows, detach(6), out(detach(1)))
    mapped(rows, "The handle of a link that the peer detached is free once the answer went out")
    rows.ask("link 0 a")
    rows.ask("link 0 b")
    has_handle(rows, 5, "a", 0)
    hear(rows, detach(5), out(detach(0)))
    rows.ask("link 0 c")
    has_handle(rows, 7, "c", 0)
    has_handle(rows, 8, "b", 1)
    mapped(rows, "A detach that the peer sends while this side's is on its way answers it; a link after it is told of its own")
    rows.ask("link 0 a")
    has_handle(rows, 5, "a", 0)
    rows.ask("send 0 " + detach(0), out(detach(0)))
    hear(rows, detach(5, False, "a:b"))
    rows.ask("link 0 a")
    has_handle(rows, 5, "a", 0)
    hear(rows, detach(5, True), out(detach(0, True)))
    mapped(rows, "A link whose attach the peer never sent waits for the answer to its detach all the same")
    rows.ask("link 0 a")
    rows.ask("send 0 " + detach(0), out(detach(0)))
    hear(rows, attach("a", 5), UNKNOWN)
    hear(rows, detach(5))
    rows.ask("link 0 a")
    has_handle(rows, 5, "a", 1)


def of_every_size(rows):
    mapped(rows, "The peer's handles 0 and 4294967295 are as good as others")
    rows.ask("link 0 a")
    rows.ask("link 0 b")
    hear(rows, detach(LAST))
    hear(rows, detach(0))
    echoes_nothing(rows, LAST)
    has_handle(rows, LAST, "a", 0)
    echoes_nothing(rows, 0)
    has_handle(rows, 0, "b", 1)
    hear(rows, attach("a", 0), IN_USE)
    hear(rows, detach(LAST, True), out(detach(0, True)))
    hear(rows, detach(LAST, True))
    echoes(rows, 0, 1)
    mapped(rows, "What comes for an unknown name or handle, or is no attach, leaves what stood before")
    rows.ask("link 0 a")
    has_handle(rows, 5, "a", 0)
    hear(rows, attach("", 5), UNKNOWN)
    hear(rows, attach("A", 5), UNKNOWN)
    hear(rows, attach(LONG, 5), UNKNOWN)
    hear(rows, detach(6, True))
    hear(rows, "005312c00201" + "43", "err DecodeError")
    hear(rows, "005312c0050243a10161", "err DecodeError")
    hear(rows, "00531645", "err DecodeError")
    echoes(rows, 5, 0)
    rows.ask("link 0 a", LIVE)


def names(rows):
    mapped(rows, "A name of 4,000 bytes is taken, and goes out whole")
    rows.ask("link 0 " + LONG)
    rows.ask("link 0 " + LONG, LIVE)
    rows.ask("link 0 " + LONG[1:])
    has_handle(rows, 6, LONG[1:], 1)
    has_handle(rows, 5, LONG, 0)
    rows.ask("send 0 " + attach(LONG, 0), out(attach(LONG, 0)))
    rows.row("Where the peer takes frames of 512 bytes it does not go out, and nothing else is lost")
    rows.open(opening("a", 512))
    rows.begin(0)
    rows.ask(recv(begin(0, 0, 8, 8), 5))
    rows.ask("link 0 " + LONG)
    rows.ask("send 0 " + attach(LONG, 0), "err TooLarge")
    has_handle(rows, 5, LONG, 0)
    mapped(rows, "A name is all that stands after the space: spaces, and letters that are none of ASCII's")
    rows.ask("link 0 a b")
    rows.ask("link 0  a")
    rows.ask("link 0 a ")
    rows.ask("link 0 größe")
    for handle, name in enumerate(["a b", " a", "a ", "größe"]):
        has_handle(rows, handle + 5, name, handle)
    hear(rows, attach("a", 9), UNKNOWN)


def write(rows):
    taken_again(rows)
    of_every_size(rows)
    names(rows)
