"""The scripts of the program rows_engine, and what they print where no memory is refused.

Beside each line stands what it has to print (AMQP 1.0 part 2, sections 2.4 to 2.7). tools/gate/refuse_each.py runs the same script with each
request for memory refused in turn. Nothing is taken from the program's output.
"""

from gen.row import LAST, OUR_CLOSE, OUR_OPEN, Rows, attach, begin, closing, detach, disposition, echo, end, flow, opening, out, recv, transfer, wire

# the titles of the scripts
EXCHANGE, REFUSED, CODEC = "An exchange", "Transfers that a session refuses", "Calls of the codec"

# the window of the second script, and how many transfers come in it
WINDOW, TRANSFERS = 4, 6


def began(rows, number, channel, peers, window=5000, peers_window=8):
    """A session begins, and the peer answers on its channel."""
    words = f"begin {number}" if window == 5000 else f"begin {number} {window}"
    rows.ask(words, out(begin(incoming_window=window), channel))
    rows.ask(recv(begin(channel, 0, peers_window, 8), peers))


def opened(rows):
    rows.ask("open", OUR_OPEN)
    rows.ask(recv(opening("a", 512, 255)))


def cut(rows, number):
    """A transfer of two pieces: of 512 bytes four are the size and four the header."""
    room = 504 - len(transfer(number, "b", more=True)) // 2
    first, last = transfer(number, "b", more=True) + "78" * room, transfer() + "78" * (600 - room)
    rows.ask(f"send 0 {transfer(None, 'b')}" + "78" * 600, out(first), out(last))


def exchange(rows):
    """Two sessions with links, transfers of both sides, flows, dispositions, detaches, Ends and a Close."""
    rows.row(EXCHANGE)
    opened(rows)
    began(rows, 0, 0, 5, peers_window=3)
    began(rows, 1, 1, 6)
    links(rows)
    sends(rows)
    receives(rows)
    disposes(rows)
    leaves(rows)


def links(rows):
    for name, handle in (("a", 0), ("b", 1)):
        rows.ask(f"link 0 {name}")
        rows.ask(f"send 0 {attach(name, handle)}", out(attach(name, handle)))
        rows.ask(recv(attach(name, handle), 5))
    rows.ask("link 0 a", "err DuplicatedLinkName")
    rows.ask("into link 0 a", "err DuplicatedLinkName")
    rows.ask("link-incoming 1 3 c")
    rows.ask(f"free send 1 {attach('c', 0)}", out(attach("c", 0), 1))
    rows.ask("free getters 0", "getters as ever")


def sends(rows):
    """Three go out, one of them cut, and one into a buffer; three wait; a flow with an echo lets two go, and another one the rest."""
    rows.ask(f"send 0 {transfer(text='a', handle=0)}ff", out(transfer(0, "a") + "ff"))
    cut(rows, 1)
    rows.ask(f"into send 0 {transfer(text='c')}fe", "sent " + wire(transfer(2, "c") + "fe"))
    for tag in "def":
        rows.ask(f"send 0 {transfer(text=tag)}fd")
    answer = out(flow(0, 5000, 3, 5000, 0, 3, 4, 1))
    rows.ask(recv(flow(3, 2, 0, 8, 0, 3, 4, 1, echo=True), 5), answer, *(out(transfer(n, tag) + "fd") for n, tag in [(3, "d"), (4, "e")]))
    rows.ask(f"send 0 {transfer()}fc")
    rows.ask(recv(flow(5, 1), 5), out(transfer(5, "f") + "fd"))
    rows.ask("into " + recv(flow(6, 9), 5), "sent " + wire(transfer() + "fc"))
    rows.ask(f"free send 0 {flow(None, 0, 0, 0, 0, 1, 2)}", out(flow(0, 5000, 7, 5000, 0, 1, 2)))
    rows.ask("free " + recv(flow(7, 9), 5))


def receives(rows):
    """What no later disposition names comes first: its session may refuse it for memory, for the first record or as the ring grows. The last one
    is long, so that its tag is copied, where memory for that is not refused."""
    for number in (10, 11, 20, 21):
        rows.ask(recv(transfer(number, "t") + "70", 5).replace("recv", "take"))
    rows.ask(recv(transfer(22, "u") + "70" * 300, 5).replace("recv", "take"))


def disposes(rows):
    rows.ask(recv(disposition(20, 21, of_receiver=False), 5), out(echo(20, 21)))
    rows.ask(recv(disposition(0, 3), 5), out(echo(0, 3)))
    rows.ask("free " + recv(disposition(0, 3, True), 5))
    rows.ask("free " + recv(disposition(LAST, LAST - 5), 5))
    rows.ask(f"free send 0 {disposition(20, 21, True)}", out(disposition(20, 21, True)))
    rows.ask("settle 0 receiver 20 20")
    rows.ask("free settle 0 receiver 21 30")
    rows.ask("free settle 0 sender 4 9")
    rows.ask(recv(disposition(20, 21, of_receiver=False), 5))


def leaves(rows):
    rows.ask(f"send 0 {detach(0, True)}", out(detach(0, True)))
    rows.ask("free " + recv(detach(0, True), 5))
    rows.ask("free " + recv(detach(1, True), 5), out(detach(1, True)))
    rows.ask(f"free detach 1 {detach(0)}", out(detach(0), 1))
    rows.ask("free end 0", out(end()))
    rows.ask("free " + recv(end(), 5))
    rows.ask("free " + recv(end(), 6), "err RemoteEnded")
    rows.ask("free end 1", out(end(), 1))
    rows.ask("free release 0")
    rows.ask("forget 0")
    rows.ask("free forget 0", "err NoSession")
    began(rows, 2, 0, 5)
    rows.ask("free close", OUR_CLOSE)
    rows.ask("free " + recv(closing()))
    for name in ("values", "session", "connection"):
        rows.ask(f"free {name}", f"{name} as ever")


def received(refused=None):
    """What the second script prints, where the session refuses the transfer of this number for memory."""
    said, count, opens = [], 0, 0
    for number in range(TRANSFERS):
        count += 1
        if number == refused:
            said.append("~ the session refuses the transfer")
        else:
            opens += 1
            # a session flow goes out after an accepted transfer, where half of the window was taken since the last one
            if count >= WINDOW // 2:
                said.append(out(flow(number + 1, WINDOW, 0, 5000)))
                count = 0
        said.append(f"next-incoming-id={number + 1} remote-outgoing-window={max(0, 8 - number - 1)} open-deliveries={opens}")
    return said


def refuses(rows):
    """Received transfers, counted once each, also where the session refuses them."""
    rows.row(REFUSED)
    opened(rows)
    began(rows, 0, 0, 5, WINDOW)
    rows.ask("link 0 a")
    rows.ask(recv(attach("a", 5), 5))
    for number in range(TRANSFERS):
        rows.ask(recv(transfer(number, "t", 5) + "70", 5).replace("recv", "take"))
        rows.ask("show 0")
    rows.said += received()


def wishes(rows):
    """Wishes for two Ends and a Close, two of them with an error; the Ends go out by rising number, in one run. The peer ends one session, and
    closes, with an error."""
    rows.row("Wishes of handles")
    rows.ask("wished open", OUR_OPEN)
    rows.ask("wished " + recv(opening("a", 512, 255)))
    for number, peers in ((0, 5), (1, 6)):
        rows.ask(f"wished begin {number}", out(begin(), number))
        rows.ask("wished " + recv(begin(number, 0, 8, 8), peers))
    rows.ask("wished end 1", "noted")
    rows.ask("wished end 0 amqp:not-allowed", "noted")
    rows.ask("wished run", out(end("amqp:not-allowed")), out(end(), 1))
    rows.ask("wished " + recv(end("amqp:resource-deleted"), 5), "err RemoteEndedWithError")
    rows.ask("wished " + recv(end(), 6))
    rows.ask("wished ended 0", "is ended with amqp:resource-deleted")
    rows.ask("wished ended 1", "is ended")
    rows.ask("wished close amqp:internal-error", "noted")
    rows.ask("wished run", out(closing("amqp:internal-error")))
    rows.ask("wished " + recv(closing("amqp:connection:forced")), "err RemoteClosedWithError")
    rows.ask("wished closed", "is closed with amqp:connection:forced")


def codec(rows):
    rows.row(CODEC)
    whole = transfer(0, "a")
    for body in (opening("a"), attach("a", 0), whole):
        rows.ask(f"call read {body}", "read whole")
        rows.ask(f"call write {body}", "write the same")
        rows.ask(f"call decode 02000000{body}", "decode a frame")
        rows.ask(f"call bytes 02000000{body}", "bytes the same")
    rows.ask(f"call encode 512 02000000{whole}ff", out(whole + "ff"), "encode done")
    first, middle, last = transfer(0, "b", more=True), transfer(more=True), transfer()
    rooms = [36 - len(first) // 2, 36 - len(middle) // 2]
    pieces = [first + "78" * rooms[0], middle + "78" * rooms[1], last + "78" * 5]
    long = transfer(0, "b") + "78" * (sum(rooms) + 5)
    rows.ask(f"call encode 40 02000000{long}", *(out(it) for it in pieces), "encode done")
    rows.ask(f"call encode-to 512 02000000{whole}ff {wire(whole + 'ff')}", "encode-to the same")
    rows.ask(f"call encode-to 512 02000000{whole}{'78' * 9} {wire(whole + '78' * 9)}", "encode-to the same")
    rows.ask(f"call encode-to 40 02000000{long} {''.join(wire(it) for it in pieces)}", "encode-to the same")
    rows.ask(f"call split 44 02000000{long}", "split three parts")
    rows.ask("call reject amqp:not-allowed", "reject rejected")
    rows.ask("call events", "events have room")


def replays(rows):
    """The program's lines with a reader and a writer that fail: the transcript is in the program."""
    rows.row("A transcript whose reader or writer fails")
    first, second = out(transfer(0, "\x0a") + "ff"), out(transfer(1, "\x0b") + "fe")
    whole = [OUR_OPEN, out(begin()), first, second, OUR_CLOSE, "err IllegalState"]
    rows.ask("replays", *whole, "reader: status 3 and a beginning", "writer: status 3 and a beginning")


def rows():
    of = Rows()
    for part in (exchange, refuses, codec, wishes, replays):
        part(of)
    return of


def write(after):
    """Puts the scripts after the rows of an engine."""
    scripts = rows()
    after.asked += ["scripts", *scripts.asked]
    after.said += scripts.said
