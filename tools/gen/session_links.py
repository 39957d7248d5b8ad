"""Rows of a session's links: names and handles, attach and detach (AMQP 1.0 part 2, sections 2.6.1 to 2.6.6).

Output handles are given out from 0 on, and the one that was freed last comes first. The relay of the program answers a detach that
the peer began with one on its output handle, closed alike, and has no answer to the peer's answer: so a row sees what it was told, and
whether it was asked.
"""

from gen.row import attach, detach, end, flow, refused, transfer
from gen.session_states import CONDITION, PATHS, STATES

UNATTACHED = refused("UnattachedHandle")
UNKNOWN = refused("RemoteAttachingLinkNameNotFound")
IN_USE = refused("HandleInUse")
DUPLICATED = refused("DuplicatedLinkName")

LAST = 4294967295


def handle(number):
    return f"handle {number}"


def took(rows, text, *answers):
    """What came from the peer, and the lines that answer it."""
    rows.ask("recv 7 " + text, *answers)


def says(rows, line, text):
    """A frame goes out as it is asked for."""
    rows.ask(f"{line} {text}", "out 0 " + text)


def reaches(rows, under, output):
    """A flow that asks for an echo reaches the relay under an input handle: the echo names the output handle."""
    took(rows, flow(0, 3, 6, 8, under, 1, 20, echo=True), "out 0 " + flow(6, 5000, 0, 5000, output, 1, 20))


def reaches_none(rows, under):
    took(rows, flow(0, 3, 6, 8, under, 1, 20, echo=True), UNATTACHED)


def named(rows):
    rows.row("A live name is allotted once, and the peer attaches by it once, on any input handle")
    rows.new("Mapped")
    rows.ask("link a", handle(0))
    rows.ask("link a", DUPLICATED)
    rows.ask("link-bare a", DUPLICATED)
    rows.ask("link-incoming 6 a", DUPLICATED)
    took(rows, "005312c00703a10162520541", UNKNOWN)
    rows.ask("handle-of b", "none")
    rows.ask("handle-of a", handle(0))
    took(rows, "005312c00703a10161520541", "ok")
    took(rows, "005312c00703a10161520541", IN_USE)
    took(rows, attach("a", 6), IN_USE)
    reaches_none(rows, 6)
    reaches(rows, 5, 0)
    rows.row("An attach goes out as it is, whether a link has the name or not, and changes nothing")
    rows.new("Mapped")
    says(rows, "attach", attach("a", 0))
    says(rows, "attach", attach("a", 9, receives=False))
    rows.ask("handle-of a", "none")
    rows.row("A link without a relay: no attach of the peer is awaited")
    rows.new("Mapped")
    rows.ask("link-bare a", handle(0))
    took(rows, attach("a", 5), IN_USE)
    rows.ask("handle-of a", handle(0))
    reaches_none(rows, 5)


def names_and_handles(rows):
    rows.row("The empty name is a name like others")
    rows.new("Mapped")
    took(rows, attach("", 5), UNKNOWN)
    rows.ask("handle-of", "none")
    rows.ask("link", handle(0))
    rows.ask("link", DUPLICATED)
    rows.ask("link a", handle(1))
    rows.ask("handle-of", handle(0))
    took(rows, attach("", 5), "ok")
    reaches(rows, 5, 0)
    rows.row("A name of 4,000 bytes, of which all count")
    name = "n" * 4000
    rows.new("Mapped")
    rows.ask("link " + name, handle(0))
    rows.ask("link " + name, DUPLICATED)
    took(rows, attach(name[:-1], 5), UNKNOWN)
    took(rows, attach(name[:-1] + "m", 5), UNKNOWN)
    rows.ask("handle-of " + name[:-1], "none")
    rows.ask("handle-of " + name, handle(0))
    says(rows, "attach", attach(name, 0))
    took(rows, attach(name, 5), "ok")
    rows.row("Names are compared as bytes: letters are not folded, and no accent is taken for its parts")
    rows.new("Mapped")
    for number, name in enumerate(["a", "A", "a ", "\u00e4", "a\u0308", "\u20ac"]):
        rows.ask("link " + name, handle(number))
        took(rows, attach(name, 20 + number), "ok")
        reaches(rows, 20 + number, number)
    rows.row("The first and the last input handle")
    rows.new("Mapped")
    rows.ask("link a", handle(0))
    rows.ask("link b", handle(1))
    rows.ask(f"link-incoming {LAST - 1} c", handle(2))
    took(rows, attach("a", 0), "ok")
    took(rows, attach("b", LAST), "ok")
    for under, output in [(0, 0), (LAST, 1), (LAST - 1, 2)]:
        reaches(rows, under, output)
        took(rows, detach(under), "detach " + detach(output))
        reaches_none(rows, under)
    rows.row("An input handle that is in use goes to the new link")
    rows.new("Mapped")
    rows.ask("link a", handle(0))
    rows.ask("link b", handle(1))
    took(rows, attach("a", 5), "ok")
    took(rows, attach("b", 5), "ok")
    reaches(rows, 5, 1)
    rows.ask("link-incoming 5 c", handle(2))
    reaches(rows, 5, 2)
    took(rows, detach(5), "detach " + detach(2))
    took(rows, detach(5), "none")


def detaches_of_the_peer(rows):
    rows.row("The peer detaches: its relay is asked once, the name stays live until this side detaches, and is then allotted again")
    rows.new("Mapped")
    rows.ask("link a", handle(0))
    took(rows, attach("a", 5), "ok")
    took(rows, "005316c003015209", "none")
    took(rows, "005316c003015205", "detach " + detach(0))
    took(rows, "005316c003015205", "none")
    reaches_none(rows, 5)
    rows.ask("link a", DUPLICATED)
    took(rows, attach("a", 5), IN_USE)
    says(rows, "detach", detach(0))
    rows.ask("handle-of a", "none")
    rows.ask("link a", handle(0))
    took(rows, attach("a", 5), "ok")
    took(rows, detach(5, closed=True), "detach " + detach(0, closed=True))
    rows.row("The peer detaches with an error, and the answer has none")
    rows.new("Mapped")
    rows.ask("link-incoming 5 a", handle(0))
    took(rows, detach(5, True, CONDITION), "detach " + detach(0, closed=True))
    rows.row("A detach names an input handle, and no output handle")
    rows.new("Mapped")
    rows.ask("link a", handle(0))
    took(rows, attach("a", 5), "ok")
    took(rows, detach(0), "none")
    reaches(rows, 5, 0)


def detaches_of_this_side(rows):
    rows.row("A detach that the peer is to answer goes out once, its handle is not given out before, and the relay is told of an answer")
    rows.new("Mapped")
    rows.ask("link a", handle(0))
    took(rows, attach("a", 5), "ok")
    says(rows, "detach-awaited", detach(0, closed=True))
    rows.ask("handle-of a", "none")
    rows.ask("detach-awaited " + detach(0, closed=True), "none")
    rows.ask("unlink 0", "false")
    rows.ask("link a", handle(1))
    reaches(rows, 5, 0)
    took(rows, detach(5, closed=True), "none")
    took(rows, detach(5, closed=True), "none")
    rows.ask("link b", handle(0))
    says(rows, "detach-awaited", detach(0))
    rows.ask("detach-awaited " + detach(0), "none")
    rows.row("A detach that the peer is to answer is not sent where no link is live on the handle, and any other one is")
    rows.new("Mapped")
    rows.ask("detach-awaited " + detach(0), "none")
    rows.ask("detach-awaited " + detach(LAST), "none")
    says(rows, "detach", detach(0))
    says(rows, "detach", detach(LAST, True, CONDITION))
    rows.ask("link a", handle(0))
    rows.ask("detach-awaited " + detach(1), "none")
    rows.ask("handle-of a", handle(0))
    rows.row("A detach that is not to be answered frees name and handle, and the peer's own detach is still answered")
    rows.new("Mapped")
    rows.ask("link a", handle(0))
    took(rows, attach("a", 5), "ok")
    says(rows, "detach", detach(0))
    rows.ask("handle-of a", "none")
    reaches(rows, 5, 0)
    took(rows, detach(5), "detach " + detach(0))
    rows.row("It does not free a handle whose answer is awaited")
    rows.new("Mapped")
    rows.ask("link a", handle(0))
    took(rows, attach("a", 5), "ok")
    says(rows, "detach-awaited", detach(0))
    says(rows, "detach", detach(0))
    rows.ask("link b", handle(1))
    took(rows, detach(5), "none")
    rows.ask("link c", handle(0))


def released(rows):
    rows.row("A link that is released is gone once, with its name, handle and waiting relay")
    rows.new("Mapped")
    rows.ask("unlink 0", "false")
    rows.ask("link a", handle(0))
    rows.ask("link b", handle(1))
    rows.ask("unlink 0", "true")
    rows.ask("unlink 0", "false")
    rows.ask(f"unlink {LAST}", "false")
    rows.ask("handle-of a", "none")
    rows.ask("handle-of b", handle(1))
    took(rows, attach("a", 5), UNKNOWN)
    rows.ask("link a", handle(0))
    took(rows, attach("a", 5), "ok")
    rows.row("Its relay stays under its input handle until the peer detaches")
    rows.new("Mapped")
    rows.ask("link a", handle(0))
    took(rows, attach("a", 5), "ok")
    rows.ask("unlink 0", "true")
    reaches(rows, 5, 0)
    took(rows, detach(5), "detach " + detach(0))
    reaches_none(rows, 5)


def incoming(rows):
    rows.row("An incoming link is attached at once: no attach of the peer is awaited, and own attach and flow go out on its handle")
    rows.new("Mapped")
    rows.ask("link-incoming 6 c", handle(0))
    took(rows, attach("c", 6), IN_USE)
    took(rows, attach("c", 7), IN_USE)
    reaches(rows, 6, 0)
    says(rows, "attach", attach("c", 0, receives=False))
    rows.ask("flow " + flow(None, 0, 0, 0, 0, 1, 20), "out 0 " + flow(6, 5000, 0, 5000, 0, 1, 20))
    took(rows, transfer(0, "t", 6) + "6d", "none")
    rows.show("Mapped", remote_incoming_window=3, next_incoming_id=7, remote_outgoing_window=7, open_deliveries=1)
    took(rows, detach(6), "detach " + detach(0))
    rows.ask("handle-of c", handle(0))
    says(rows, "detach", detach(0))
    rows.ask("link-incoming 6 c", handle(0))


def refused_by_its_relay(rows):
    rows.row("An attach that the relay refuses leaves it waiting, as it then stands")
    rows.new("Mapped")
    rows.ask("link-refusing 2 a", handle(0))
    for under in (5, 6):
        took(rows, attach("a", under), refused("TransferFrameToSender"))
        rows.ask("handle-of a", handle(0))
        reaches_none(rows, under)
    took(rows, attach("a", 7), "ok")
    reaches(rows, 7, 0)
    took(rows, attach("a", 8), IN_USE)
    rows.row("A relay that waits is gone with its link")
    rows.new("Mapped")
    rows.ask("link-refusing 1 a", handle(0))
    took(rows, attach("a", 5), refused("TransferFrameToSender"))
    says(rows, "detach-awaited", detach(0))
    took(rows, attach("a", 5), UNKNOWN)


def unmapped(rows):
    """No link is allotted outside Mapped; the reason that is recorded says why."""
    ended = ["EndSent", "EndReceived", "Discarding"]
    for state in STATES:
        if state == "Mapped":
            continue
        rows.row(f"In {state}: allotments, and why they are refused")
        for line in ("link a", "link-bare a", "link-incoming 5 a"):
            rows.new(state)
            rows.ask(line, refused("SessionStopped(Ended)" if state in ended else "SessionNotMapped"))
            rows.ask("stop RemoteEndedWithError", "ok")
            rows.ask(line, refused("SessionStopped(RemoteEndedWithError)"))
            rows.ask("handle-of a", "none")
        reaches_none(rows, 5)
    rows.row("In Mapped a recorded reason refuses no allotment")
    rows.new("Mapped")
    rows.ask("stop Ended", "ok")
    rows.ask("link a", handle(0))
    rows.row("Outside Mapped a live name is refused for the state")
    rows.new("Mapped")
    rows.ask("link a", handle(0))
    rows.ask("end", "out 0 " + end())
    rows.ask("link a", refused("SessionStopped(Ended)"))


def in_every_state(rows):
    """Attaches, detaches and releases ask for no state."""
    for state in STATES:
        rows.row(f"In {state}, of links that were allotted in Mapped: attach, detach and release")
        rows.new("Mapped")
        for number, name in enumerate("abc"):
            rows.ask("link " + name, handle(number))
        took(rows, attach("b", 4), "ok")
        for line, answer in PATHS[state]:
            rows.ask(line, answer)
        took(rows, attach("a", 5), "ok")
        took(rows, attach("d", 6), UNKNOWN)
        took(rows, attach("a", 6), IN_USE)
        says(rows, "attach", attach("a", 0))
        says(rows, "detach-awaited", detach(0))
        took(rows, detach(5), "none")
        took(rows, detach(4), "detach " + detach(1))
        rows.ask("handle-of b", handle(1))
        says(rows, "detach", detach(1))
        rows.ask("unlink 2", "true")
        for name in "abc":
            rows.ask("handle-of " + name, "none")


def write(rows):
    named(rows)
    names_and_handles(rows)
    detaches_of_the_peer(rows)
    detaches_of_this_side(rows)
    released(rows)
    incoming(rows)
    refused_by_its_relay(rows)
    unmapped(rows)
    in_every_state(rows)
