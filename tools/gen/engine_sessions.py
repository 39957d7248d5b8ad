"""Rows of sessions in an engine: channels, routes, and the peer's window (AMQP 1.0 part 2, sections 2.5 and 2.7)."""

from gen.row import OUR_OPEN, begin, end, flow, opening, out, recv, transfer

ILLEGAL = "err IllegalState"


def send(tag, payload, session=0, handle=0):
    return f"send {session} {transfer(text=tag, handle=handle)}{payload}"


def sent(number, tag, payload, channel=0):
    return out(transfer(number, tag) + payload, channel)


def windows(rows):
    rows.row("A window of 1 is used up, and a flow grants 1 more")
    rows.open()
    rows.begin(0)
    rows.ask(recv(begin(0, 0, 1, 8), 5))
    rows.ask(send("a", "ff"), sent(0, "a", "ff"))
    rows.ask(send("b", "fe"))
    rows.ask(recv(flow(1, 1), 5), sent(1, "b", "fe"))
    rows.row("A flow for a handle without a link is refused; the window of 2 that it grants counts for the next transfer")
    rows.open()
    rows.begin(0)
    rows.ask(recv(begin(0, 0, 1, 8), 5))
    rows.ask(send("a", "ff"), sent(0, "a", "ff"))
    rows.ask(send("b", "fe"))
    rows.ask(recv(flow(1, 2, 0, 8, 9), 5), "err UnattachedHandle")
    rows.ask(send("c", "fd"), sent(1, "b", "fe"), sent(2, "c", "fd"))
    rows.row("No transfer is taken before the peer's Begin, and that lets nothing out by itself")
    rows.open()
    rows.begin(0)
    rows.ask(send("a", "ff"), ILLEGAL)
    rows.ask(recv(begin(0, 0, 8, 8), 5))
    rows.ask(send("b", "fe"), sent(0, "b", "fe"))
    rows.row("After an End a flow lets nothing out, no transfer is taken, and there is no second End")
    rows.open()
    rows.begin(0)
    rows.ask(recv(begin(0, 0, 1, 8), 5))
    rows.ask(send("a", "ff"), sent(0, "a", "ff"))
    rows.ask(send("b", "fe"))
    rows.ask("end 0", out(end()))
    rows.ask(recv(flow(1, 1), 5))
    rows.ask(send("c", "fd"), ILLEGAL)
    rows.ask("end 0", ILLEGAL)


def second_begins(rows):
    """A second Begin of the peer's for a session: the session refuses it and keeps its window, and both channels lead to it."""
    rows.row("A Begin for a mapped session is refused, its window stays 1, and frames on both channels reach the session")
    rows.open()
    rows.begin(0)
    rows.ask(recv(begin(0, 0, 1, 8), 5))
    rows.ask(recv(begin(0, 0, 100, 8), 9), ILLEGAL)
    rows.ask(send("a", "ff"), sent(0, "a", "ff"))
    rows.ask(send("b", "fe"))
    rows.ask(recv(flow(1, 1, 0, 8, 7), 9), "err UnattachedHandle")
    rows.ask(recv(flow(1, 1), 5), sent(1, "b", "fe"))
    rows.ask(send("c", "fd"))
    rows.ask(recv(flow(2, 1), 9), sent(2, "c", "fd"))
    for title, body, answer in [
        ("The same Begin on every channel is refused alike, and the session keeps its number and its window of 1", begin(0, 0, 100, 8), f"65536 {ILLEGAL}"),
        ("A flow on every channel: it is taken on the one that leads to the session", flow(0, 1), "65535 err NotFound"),
    ]:
        rows.row(title)
        rows.asked += ["each-channel " + body, "open", recv(opening("a")), "begin 0", recv(begin(0, 0, 1, 8), 5), "then", send("a", "ff"), send("b", "fe")]
        rows.said += ["1 " + OUR_OPEN, "1 " + out(begin()), answer, "1 " + sent(0, "a", "ff")]


def cut_transfers(rows):
    """The peer's limit of 100 counts as 512, of which four bytes are the size and four the header: 504 are left for text and payload."""
    rows.row("A transfer that is cut into two pieces counts once in the peer's window of 2")
    rows.open(opening("a", 100))
    rows.begin(0)
    rows.ask(recv(begin(0, 0, 2, 8), 5))
    whole, first, last = transfer(0, "t"), transfer(0, "t", more=True), transfer()
    room = 504 - len(first) // 2
    assert len(whole) // 2 + 600 > 504 and len(last) // 2 + 600 - room <= 504
    rows.ask(send("t", "78" * 600), out(first + "78" * room), out(last + "78" * (600 - room)))
    rows.ask(send("u", "ff"), sent(1, "u", "ff"))
    rows.ask(send("v", "fe"))


def part_lens(first, later, length, room=504):
    """How a payload is shared out: the first part takes what is left beside its text, each later one what is left beside its own."""
    lens = [room - len(first) // 2]
    while sum(lens) < length:
        lens.append(min(room - len(later) // 2, length - sum(lens)))
    return lens


def frames_and_transfers(rows):
    """The window counts transfers, and the peer counts frames: who splits a delivery beforehand keeps both alike."""
    rows.row("A transfer that goes out as five frames passes the window of 1; the peer, which counted five, leaves no window for the next one")
    rows.open(opening("a", 512))
    rows.begin(0)
    rows.ask(recv(begin(0, 0, 1, 8), 5))
    first, middle, last = transfer(0, "t", more=True), transfer(more=True), transfer()
    lens = part_lens(first, middle, 2400)
    assert len(lens) == 5
    texts = [first, middle, middle, middle, last]
    rows.ask(send("t", "78" * 2400), *(out(text + "78" * length) for text, length in zip(texts, lens)))
    rows.ask(recv(flow(5, 1), 5))
    rows.ask(send("u", "ff"))
    rows.ask(recv(flow(5, 1000), 5))
    rows.row("The same delivery in five transfers, each with room for the widest number: each is one frame, and goes out as the window grants it")
    rows.open(opening("a", 512))
    rows.begin(0)
    rows.ask(recv(begin(0, 0, 1, 8), 5))
    lens = part_lens(transfer(4294967295, "t", more=True), middle, 2400)
    assert len(lens) == 5
    rows.ask(f"send 0 {transfer(text='t', more=True)}" + "78" * lens[0], out(first + "78" * lens[0]))
    for text, length in zip(texts[1:], lens[1:]):
        rows.ask(f"send 0 {text}" + "78" * length)
    rows.ask(send("u", "ff"))
    for count, (text, length) in enumerate(zip(texts[1:], lens[1:]), 1):
        rows.ask(recv(flow(count, 1), 5), out(text + "78" * length))
    rows.ask(recv(flow(5, 1), 5), sent(1, "u", "ff"))


def channels(rows):
    rows.row("The peer allows channels 0 and 1: the lowest free one is used, and one that is given back is free again")
    rows.open(opening("a", None, 1))
    rows.begin(0)
    rows.begin(1)
    rows.ask("begin 2", "err ChannelMaxReached")
    rows.ask("release 0")
    rows.begin(3, 0)
    rows.ask("release 0", "err NotFound")
    rows.ask("release 9", "err NoSession")
    rows.ask("begin 0", "err SessionInUse")
    rows.row("A channel above the agreed maximum that is given back frees no lower one")
    rows.ask("open", out(opening("replay", 262144, 255)))
    for number in range(4):
        rows.begin(number)
    rows.ask(recv(opening("a", None, 1)))
    rows.ask("release 3")
    rows.ask("begin 4", "err ChannelMaxReached")
    rows.ask("release 0")
    rows.begin(5, 0)
    rows.ask("begin 6", "err ChannelMaxReached")
    rows.row("The route of a session stays when its channel is given back, and goes with the peer's End")
    rows.open()
    rows.begin(0)
    rows.ask(recv(begin(0, 0, 8, 8), 7))
    rows.ask("release 0")
    rows.ask(recv(flow(0, 1), 7))
    rows.ask(recv(end(), 7), "err RemoteEnded")
    rows.ask(recv(flow(0, 1), 7), "err NotFound")


def routes(rows):
    rows.row("Two Begins of the peer's on one channel, for two sessions: the last one leads")
    rows.open()
    rows.begin(0)
    rows.begin(1)
    rows.ask(recv(begin(0, 0, 8, 8), 7))
    rows.ask(recv(begin(1, 0, 8, 8), 7))
    rows.ask(recv(flow(0, 0), 7))
    rows.ask(send("a", "ff"), sent(0, "a", "ff"))
    rows.ask(send("a", "ff", session=1))
    rows.row("A refused Begin of the peer's leads all the same, and the peer's End takes that route away")
    rows.open()
    rows.begin(0)
    rows.begin(1)
    rows.ask(recv(begin(0, 0, 8, 8), 7))
    rows.ask(recv(begin(1, 0, 8, 8), 7))
    rows.ask(send("a", "ff", session=1), sent(0, "a", "ff", channel=1))
    rows.ask(recv(begin(0, 0, 8, 8), 7), ILLEGAL)
    rows.ask(recv(end(), 7), "err RemoteEnded")
    rows.ask("end 0", out(end()))
    rows.ask(recv(end(), 7), "err NotFound")
    rows.row("A second Begin for a session, on another channel, is refused and changes no window; both channels lead to the session")
    rows.open()
    rows.begin(0)
    rows.ask(recv(begin(0, 0, 1, 8), 5))
    rows.ask(recv(begin(0, 0, 100, 8), 9), ILLEGAL)
    rows.ask(send("a", "ff"), sent(0, "a", "ff"))
    rows.ask(send("b", "fe"))
    rows.ask(send("c", "fd"))
    rows.ask(recv(flow(1, 1), 9), sent(1, "b", "fe"))
    rows.ask(recv(flow(2, 1), 5), sent(2, "c", "fd"))
    rows.row("A flow before the peer's Begin has no route")
    rows.open()
    rows.begin(0)
    rows.ask(recv(flow(1, 1), 5), "err NotFound")


def over(rows, number, channel, peers):
    """Session `number` is begun on this channel, answered on the peer's, ended at both sides, and gives its channel back."""
    rows.begin(number, channel)
    rows.ask(recv(begin(channel, 0, 8, 8), peers))
    rows.ask(f"end {number}", out(end(), channel))
    rows.ask(recv(end(), peers))
    rows.ask(f"release {number}")


def unknown(rows, number):
    """Nothing is asked of a session that was forgotten, and its number is not begun again."""
    for line in (f"end {number}", f"release {number}", f"settle {number} sender 0 9", f"link {number} a", send("a", "ff", session=number), f"forget {number}"):
        rows.ask(line, "err NoSession")
    rows.ask(f"begin {number}", "err SessionInUse")


def forgotten(rows):
    in_use = "err SessionInUse"
    rows.row("A session is forgotten when both Ends were exchanged and its channel was given back, and not before")
    rows.open()
    rows.ask("forget 0", "err NoSession")
    rows.begin(0)
    rows.ask("forget 0", ILLEGAL)
    rows.ask(recv(begin(0, 0, 8, 8), 5))
    rows.ask("forget 0", ILLEGAL)
    rows.ask("end 0", out(end()))
    rows.ask("forget 0", ILLEGAL)
    rows.ask(recv(end(), 5))
    rows.ask("forget 0", in_use)
    rows.ask("release 0")
    rows.ask("forget 0")
    unknown(rows, 0)
    rows.ask(recv(flow(0, 1), 5), "err NotFound")
    rows.begin(1, 0)
    rows.ask(recv(begin(0, 0, 8, 8), 5))
    rows.ask(send("a", "ff", session=1), sent(0, "a", "ff"))
    rows.row("A session that the peer ended first is forgotten once this side's End went out")
    rows.open()
    rows.begin(0)
    rows.ask(recv(begin(0, 0, 8, 8), 5))
    rows.ask(recv(end(), 5), "err RemoteEnded")
    rows.ask("release 0")
    rows.ask("forget 0", ILLEGAL)
    rows.ask("end 0", out(end()))
    rows.ask("forget 0")
    unknown(rows, 0)
    rows.row("While a channel of the peer's leads to a session it is not forgotten: a second Begin, which it refused, made one more")
    rows.open()
    rows.begin(0)
    rows.ask(recv(begin(0, 0, 8, 8), 5))
    rows.ask(recv(begin(0, 0, 8, 8), 9), ILLEGAL)
    rows.ask("end 0", out(end()))
    rows.ask(recv(end(), 5))
    rows.ask("release 0")
    rows.ask("forget 0", in_use)
    rows.ask(recv(end(), 9), ILLEGAL)
    rows.ask("forget 0")
    rows.ask(recv(flow(0, 1), 9), "err NotFound")
    rows.row("With a session that is forgotten go its links and the transfers that it held back; other sessions keep their routes and channels")
    rows.open()
    rows.begin(0)
    rows.begin(1)
    rows.ask(recv(begin(0, 0, 1, 8), 5))
    rows.ask(recv(begin(1, 0, 1, 8), 6))
    rows.ask("link 0 a")
    rows.ask(send("a", "ff"), sent(0, "a", "ff"))
    rows.ask(send("b", "fe"))
    rows.ask("end 0", out(end()))
    rows.ask(recv(end(), 5))
    rows.ask("release 0")
    rows.begin(2, 0)
    rows.ask(recv(begin(0, 0, 2, 8), 5))
    rows.ask("forget 0")
    rows.ask("link 2 a")
    rows.ask(send("c", "fd", session=2), sent(0, "c", "fd"))
    rows.ask(recv(flow(1, 3), 5))
    rows.ask(send("d", "fc", session=2), sent(1, "d", "fc"))
    rows.ask(send("e", "fb", session=1), sent(0, "e", "fb", channel=1))
    rows.ask(recv(flow(1, 1), 6))
    rows.row("Numbers of forgotten sessions stay used, in whatever order they were forgotten, and the numbers beside them are free")
    rows.open()
    for number in (7, 5, 6, 9, 0, 4294967295, 8):
        over(rows, number, 0, 3)
        rows.ask(f"forget {number}")
    for number in (0, 5, 6, 7, 8, 9, 4294967295):
        rows.ask(f"begin {number}", in_use)
    for channel, number in enumerate((1, 4, 10, 4294967294)):
        rows.begin(number, channel)


def write(rows):
    windows(rows)
    second_begins(rows)
    cut_transfers(rows)
    frames_and_transfers(rows)
    channels(rows)
    routes(rows)
    forgotten(rows)
