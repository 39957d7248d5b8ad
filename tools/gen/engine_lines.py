"""Rows of the lines of a transcript: which are read, and which end it."""

from gen.row import OUR_OPEN, begin, closing, flow, opening, out, transfer

FIRST = transfer(text="t") + "70"


def read(rows):
    rows.row("No line: nothing is printed")
    rows.row("Blank lines are skipped")
    rows.ask("")
    rows.ask("")
    rows.ask("open", OUR_OPEN)
    rows.row("Numbers of sessions may have zeros in front, and are at most 4294967295; a request is read before its session is looked up")
    rows.open()
    rows.begin(7, 0)
    rows.ask("begin 007", "err SessionInUse")
    rows.begin(4294967295, 1)
    rows.ask("send 9 " + FIRST, "err NoSession")
    rows.ask("end 4294967294", "err NoSession")
    rows.row("What this side settles is named by its role, the first number and the last one, where there is a last; zeros may stand in front")
    rows.ask("settle 0 sender 0", "err NoSession")
    rows.open()
    rows.begin(7, 0)
    rows.ask("settle 007 receiver 0000 4294967295")
    rows.ask("settle 7 sender 4294967295")
    rows.ask("settle 4294967295 sender 1 2", "err NoSession")
    rows.row("A session that is forgotten is named by its number; zeros may stand in front")
    rows.ask("forget 000", "err NoSession")
    rows.ask("forget 4294967295", "err NoSession")
    rows.row("A link's flow goes out with the session's numbers")
    rows.open()
    rows.begin(0)
    rows.ask("send 0 " + flow(9, 9, 9, 9, 6, 1, 2), out(flow(0, 5000, 0, 5000, 6, 1, 2)))


def bad(rows):
    """A line that says none of this ends the transcript; what stands before it is printed."""
    for line in [
        "recv",
        "recv 0",
        "recv 0g",
        "recv 02000000 ",
        "recv 020000070053 1745",
        "open ",
        " open",
        "Open",
        "close 0",
        "begin",
        "begin ",
        "begin +1",
        "begin -1",
        "begin 4294967296",
        "begin 0x1",
        "begin 1 ",
        "begin  1",
        "release",
        "forget",
        "forget ",
        "forget +1",
        "forget 0 0",
        "forget 4294967296",
        "end 0 0",
        "send 0",
        "send 0 ",
        "send +0 " + FIRST,
        "send 0 0g",
        "send 9 00",
        "send 0 " + closing(),
        "send 0 " + begin(0),
        "send 0 " + flow(1, 1),
        "send 0 " + opening("a"),
        "link",
        "link ",
        "link 0",
        "link 0 ",
        "link a",
        "link  a",
        "link a 0",
        "link +0 a",
        "link -1 a",
        "link 4294967296 a",
        "links 0 a",
        "settle",
        "settle 0",
        "settle 0 sender",
        "settle 0 sender ",
        "settle 0 sender  1",
        "settle 0 sender 1 ",
        "settle 0 sender 1 2 3",
        "settle 0 sender +1",
        "settle 0 sender 1 -2",
        "settle 0 sender 4294967296",
        "settle 0 sender 1 4294967296",
        "settle 0 Sender 1",
        "settle 0 peer 1",
        "settle 0 1 2",
        "settle +0 sender 1",
        "settle a sender 1",
        "settle 4294967296 sender 1",
    ]:
        rows.row(f"This line cannot be read: [{line}]")
        rows.ask(line, "bad line 1", "status 2")
    rows.row("A line that cannot be read ends the transcript, the lines before it are answered, and blank ones count")
    rows.ask("close", "err IllegalState")
    rows.ask("")
    rows.ask(" ", "bad line 3", "status 2")
    rows.ask("open")


def write(rows):
    read(rows)
    bad(rows)
