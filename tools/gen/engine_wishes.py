"""Rows of handles: each call in each state, what the next run sends for it, and how the peer's answer is told, once
(AMQP 1.0 part 2, sections 2.4.6 and 2.5.5; docs/PROTOCOL.md, "Handles")."""

from gen.row import OUR_CLOSE, begin, closing, end, out, recv

NOTED, ILLEGAL = "Ok(())", "Err(IllegalState)"
CLOSE_AWAITED, CLOSE_TOLD = "Err(RemoteCloseNotReceived)", "Err(AlreadyClosed)"
END_AWAITED, END_TOLD = "Err(RemoteEndNotReceived)", "Err(AlreadyEnded)"
ANSWERED, NO_MORE = "Ok(Ok(()))", "Ok(Err(IllegalState))"
CONDITION = "amqp:not-found"


def told(name, condition=CONDITION):
    """An outcome that is an error of the peer's."""
    return f'Ok(Err({name}(Error {{ condition: Symbol("{condition}"), description: None, info: None }})))'


# ---- the connection

STATES = ["Start", "HeaderReceived", "HeaderSent", "HeaderExchange", "OpenPipe", "OpenClosePipe", "OpenReceived", "OpenSent"]
STATES += ["ClosePipe", "Opened", "CloseReceived", "CloseSent", "Discarding", "End"]
SENDS_CLOSE = ["Opened", "OpenSent", "OpenPipe", "CloseReceived"]


def sent_close(state, condition=None):
    """What a run answers to a Close that was wished in this state."""
    return ["done", out(closing(condition))] if state in SENDS_CLOSE else []


def handled(rows, state, title):
    rows.row(f"Handles in {state}: {title}")
    rows.ask(f"handled {state}")


def each_state(rows):
    for state in STATES:
        is_closed = "true" if state == "End" else "false"
        handled(rows, state, "a Close is wished, and a second wish is none")
        rows.ask("connection is", is_closed)
        rows.ask("connection close", NOTED)
        rows.ask("connection close " + CONDITION, NOTED)
        rows.ask("other close", NOTED)
        rows.ask("run", *sent_close(state))
        rows.ask("run")
        handled(rows, state, "a Close with an error is wished, and a second wish is none")
        rows.ask("connection close " + CONDITION, NOTED)
        rows.ask("connection close", NOTED)
        rows.ask("run", *sent_close(state, CONDITION))
        handled(rows, state, "the outcome is asked for, where none came")
        if state == "End":
            rows.ask("connection try", NO_MORE)
            rows.ask("connection try", CLOSE_TOLD)
            rows.ask("connection close", ILLEGAL)
            rows.ask("connection close " + CONDITION, ILLEGAL)
            rows.ask("other try", NO_MORE)
            rows.ask("connection is", "true")
            rows.ask("run")
        else:
            rows.ask("connection try", CLOSE_AWAITED)
            rows.ask("connection try", CLOSE_AWAITED)
            rows.ask("connection close " + CONDITION, NOTED)
            rows.ask("connection is", "false")
            rows.ask("run", *sent_close(state))


# the peer's Close with an error, and its Close where it closes first
WITH_ERROR = (recv(closing(CONDITION)), "err RemoteClosedWithError")
FIRST, REMOTE = (recv(closing()), "err RemoteClosed"), "Ok(Err(RemoteClosed))"


def outcomes_of_closes(rows):
    """Each way to the state End, what the peer's Close is answered on it, and what the handles are told."""
    for title, lines, outcome in (
        ("this side closes", [("close", "done", OUR_CLOSE), (recv(closing()), "done")], ANSWERED),
        ("this side closes, and the peer answers with an error", [("close", "done", OUR_CLOSE), WITH_ERROR], told("RemoteClosedWithError")),
        ("this side closes with an error", [("close a:b", "done", out(closing("a:b"))), (recv(closing()), "done")], ANSWERED),
        ("both close with an error", [("close a:b", "done", out(closing("a:b"))), WITH_ERROR], told("RemoteClosedWithError")),
        ("the peer closes", [FIRST, ("close", "done", OUR_CLOSE)], REMOTE),
        ("the peer closes with an error", [WITH_ERROR, ("close", "done", OUR_CLOSE)], told("RemoteClosedWithError")),
        ("a second Close of the peer's is none", [FIRST, (recv(closing(CONDITION)), "err IllegalState"), ("close", "done", OUR_CLOSE)], REMOTE),
    ):
        handled(rows, "Opened", f"{title}: the outcome is told once")
        for line, *answers in lines:
            rows.ask("connection is", "false")
            rows.ask(line, *answers)
        rows.ask("connection is", "true")
        rows.ask("connection close", NOTED)
        rows.ask("run")
        rows.ask("connection try", outcome)
        rows.ask("connection try", CLOSE_TOLD)
        rows.ask("connection close", ILLEGAL)
        rows.ask("connection is", "true")
        rows.ask("other is", "true")
        rows.ask("other try", NO_MORE)
        rows.ask("other try", CLOSE_TOLD)
        rows.ask("run")


def asked_after_each(rows):
    handled(rows, "Opened", "both are asked after each input; one is told the outcome, and the other that there is none")
    rows.ask("connection try", CLOSE_AWAITED)
    rows.ask("other try", CLOSE_AWAITED)
    rows.ask("run", "done", OUR_CLOSE)
    rows.ask("connection try", CLOSE_AWAITED)
    rows.ask("other try", CLOSE_AWAITED)
    rows.ask(recv(closing()), "done")
    rows.ask("connection try", ANSWERED)
    rows.ask("other try", NO_MORE)
    rows.ask("run")
    rows.ask("connection try", CLOSE_TOLD)
    rows.ask("other try", CLOSE_TOLD)
    rows.ask("connection close", ILLEGAL)
    handled(rows, "Opened", "the outcome waits until this side has closed too")
    rows.ask(recv(closing()), "err RemoteClosed")
    rows.ask("connection try", CLOSE_AWAITED)
    rows.ask("run", "done", OUR_CLOSE)
    rows.ask("connection try", "Ok(Err(RemoteClosed))")


# ---- sessions

ENDS = {
    "BeginSent": [],
    "Mapped": [(recv(begin(0), 5), "done")],
    "EndSent": [(recv(begin(0), 5), "done"), ("end 0", "done", out(end()))],
    "EndReceived": [(recv(begin(0), 5), "done"), (recv(end(), 5), "err RemoteEnded")],
    "Discarding": [(recv(begin(0), 5), "done"), ("twin end a:b", NOTED), ("run", "done", out(end("a:b")))],
}
SENDS_END = ["Mapped", "EndReceived"]


def sent_end(state, condition=None):
    return ["done", out(end(condition))] if state in SENDS_END else []


def with_session(rows, state, title):
    """Session 0 is in this state, and has two handles."""
    rows.row(f"Handles of a session in {state}: {title}")
    rows.ask("handled Opened")
    rows.ask("begin 0", "done", out(begin()))
    rows.ask("handle 0", "some")
    for line, *answers in ENDS[state]:
        rows.ask(line, *answers)


def each_session_state(rows):
    for state in ENDS:
        with_session(rows, state, "an End is wished, and a second wish is none")
        rows.ask("session is", "false")
        rows.ask("session end", NOTED)
        rows.ask("session end " + CONDITION, NOTED)
        rows.ask("twin close", NOTED)
        rows.ask("run", *sent_end(state))
        rows.ask("run")
        with_session(rows, state, "an End with an error is wished, and a second wish is none")
        rows.ask("session end " + CONDITION, NOTED)
        rows.ask("session close", NOTED)
        rows.ask("run", *sent_end(state, CONDITION))
        with_session(rows, state, "the outcome is asked for before it is there")
        rows.ask("session try", END_AWAITED)
        rows.ask("session try", END_AWAITED)
        rows.ask("session end " + CONDITION, NOTED)
        rows.ask("run", *sent_end(state))


# the peer's End with an error
ENDS_WITH_ERROR = (recv(end(CONDITION), 5), "err RemoteEndedWithError")


def outcomes_of_ends(rows):
    for title, state, lines, outcome in (
        ("this side ends", "EndSent", [(recv(end(), 5), "done")], ANSWERED),
        ("this side ends, and the peer answers with an error", "EndSent", [ENDS_WITH_ERROR], told("RemoteEndedWithError")),
        ("this side ends with an error", "Discarding", [(recv(end(), 5), "done")], ANSWERED),
        ("the peer ends", "EndReceived", [("end 0", "done", out(end()))], "Ok(Err(RemoteEnded))"),
        ("the peer ends with an error", "Mapped", [ENDS_WITH_ERROR, ("end 0", "done", out(end()))], told("RemoteEndedWithError")),
    ):
        with_session(rows, state, f"{title}, and the outcome is told once")
        for line, *answers in lines:
            rows.ask("session is", "false")
            rows.ask(line, *answers)
        rows.ask("session is", "true")
        rows.ask("session end", NOTED)
        rows.ask("run")
        rows.ask("session try", outcome)
        rows.ask("session try", END_TOLD)
        for call in ("end", "close", "end " + CONDITION):
            rows.ask("session " + call, ILLEGAL)
        rows.ask("session is", "true")
        rows.ask("twin is", "true")
        rows.ask("twin try", NO_MORE)
        rows.ask("twin try", END_TOLD)
        rows.ask("run")


def unknown_sessions(rows):
    rows.row("A session that was never begun has no handle")
    rows.ask("handled Opened")
    rows.ask("handle 0", "none")
    rows.ask("begin 0", "done", out(begin()))
    rows.ask("handle 1", "none")
    rows.ask("handle 0", "some")
    rows.row("To an engine that never began its session a handle notes nothing")
    rows.ask("handled Opened")
    rows.ask("begin 0", "done", out(begin()))
    rows.ask("handle 0", "some")
    rows.ask("engine Opened")
    rows.ask("session is", "true")
    for call in ("end", "close", "end " + CONDITION):
        rows.ask("session " + call, ILLEGAL)
    rows.ask("session try", NO_MORE)
    rows.ask("session try", END_TOLD)
    rows.ask("run")
    rows.ask("begin 0", "done", out(begin()))
    rows.ask(recv(begin(0), 5), "done")
    rows.ask("run")


def forgotten_sessions(rows):
    """A handle outlives its session: then it says what one says of a session that was never begun."""
    with_session(rows, "EndSent", "it is forgotten, and its outcome with it; the handles of another session stay as they were")
    mapped(rows, 1)
    rows.ask(recv(end(), 5), "done")
    rows.ask("session end", NOTED)
    rows.ask("forget 0", "err SessionInUse")
    rows.ask("release 0", "done")
    rows.ask("session end", NOTED)
    rows.ask("forget 0", "done")
    rows.ask("session is", "true")
    for call in ("end", "close", "end " + CONDITION):
        rows.ask("session " + call, ILLEGAL)
    rows.ask("session try", NO_MORE)
    rows.ask("session try", END_TOLD)
    rows.ask("twin try", NO_MORE)
    rows.ask("handle 0", "none")
    rows.ask("handle 1", "some")
    rows.ask("session is", "false")
    rows.ask("session end", NOTED)
    rows.ask("run", "done", out(end(), 1))
    rows.ask(recv(end(), 11), "done")
    rows.ask("session try", ANSWERED)


# ---- wishes together

def mapped(rows, *numbers):
    for number in numbers:
        rows.ask(f"begin {number}", "done", out(begin(), number))
        rows.ask(recv(begin(number), 10 + number), "done")


def in_order(rows):
    rows.row("Ends go out by rising number, and then the Close")
    rows.ask("handled Opened")
    mapped(rows, 0, 1, 2, 3)
    rows.ask("connection close", NOTED)
    for number in (2, 0, 3, 1):
        rows.ask(f"handle {number}", "some")
        rows.ask("session end", NOTED)
    rows.ask("run", *[line for number in (0, 1, 2, 3) for line in ("done", out(end(), number))], "done", OUR_CLOSE)
    rows.ask("run")
    rows.row("A wish that the state does not accept leaves no answer, and those after it are heard")
    rows.ask("handled Opened")
    mapped(rows, 0, 1)
    rows.ask("begin 2", "done", out(begin(), 2))
    for number in (2, 1):
        rows.ask(f"handle {number}", "some")
        rows.ask("session end", NOTED)
    rows.ask("connection close", NOTED)
    rows.ask("handle 0", "some")
    rows.ask("session end", NOTED)
    rows.ask(recv(begin(2), 12), *["done", out(end()), "done", out(end(), 1), "done", OUR_CLOSE], "err IllegalState")
    rows.row("The inputs come after the wishes")
    rows.ask("handled Opened")
    mapped(rows, 0, 1)
    rows.ask("handle 1", "some")
    rows.ask("session end " + CONDITION, NOTED)
    rows.ask("end 0", "done", out(end(CONDITION), 1), "done", out(end()))
    rows.ask(recv(end(), 11), "done")
    rows.ask("session try", ANSWERED)


def write(rows):
    each_state(rows)
    outcomes_of_closes(rows)
    asked_after_each(rows)
    each_session_state(rows)
    outcomes_of_ends(rows)
    unknown_sessions(rows)
    forgotten_sessions(rows)
    in_order(rows)
