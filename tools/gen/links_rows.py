"""Rows of links by hand: each call in each life of an end, and each refusal, with the answer that the standard wants beside each line.

AMQP 1.0 part 2, sections 2.6.3 to 2.6.6, 2.7.3 and 2.7.7; credit and parts stand in links_credit.py and links_parts.py.
"""

from gen.row import LAST

# the ways to each life of an end, once it was added; the peer's Attach has a count of 0 and no limit
LIVES = {
    "Attaching": [],
    "Refused": [("attach 4 false 0 -", "Refused")],
    "Attached": [("attach 4 true 0 -", "Attached")],
    "Detaching": [("attach 4 true 0 -", "Attached"), ("detach 4", "Detaching")],
    "Detached": [("attach 4 true 0 -", "Attached"), ("on-detach 4", "ByPeer")],
}

# what each of these calls answers in each life
ATTACH = {"Attaching": "Attached", "Refused": "Refused", "Attached": "Attached", "Detaching": "Detaching", "Detached": "Detached"}
REFUSE = ATTACH | {"Attaching": "Refused"}
DETACH = dict.fromkeys(LIVES, "Detaching") | {"Detached": "Detached"}
ENDS = {"Attaching": "ByPeer", "Refused": "Refused", "Attached": "ByPeer", "Detaching": "Answered", "Detached": "Stray"}
REMOVE = dict.fromkeys(LIVES, "err NotDetached") | {"Detached": "ok"}

# where the end stands after a call
AFTER = {"detach 4": DETACH, "on-detach 4": dict.fromkeys(LIVES, "Detached"), "attach 4 true 7 10": ATTACH, "attach 4 false 7 10": REFUSE}

PART = "5 1 last false 50"
TRANSFER = "5 new - - false false 1 50"


def only(answer, other="none"):
    """One answer where both sides have attached, and another in each other life."""
    return dict.fromkeys(LIVES, other) | {"Attached": answer}


NOT_ATTACHED = "err Link(NotAttached)"

# the calls of both ends, and those of each kind, with their answers by life; nothing was granted before
OF_BOTH = {
    "attach 4 true 7 10": ATTACH,
    "attach 4 false 7 10": REFUSE,
    "detach 4": DETACH,
    "on-detach 4": ENDS,
    "remove 4": REMOVE,
    "left 4": dict.fromkeys(LIVES, "none"),
    "sender 4 0": dict.fromkeys(LIVES, "err InUse"),
    "receiver 4 - - -": dict.fromkeys(LIVES, "err InUse"),
    "room 4": dict.fromkeys(LIVES, "ok"),
    "answer 4 0": dict.fromkeys(LIVES, "none"),
}
OF_SENDING = OF_BOTH | {
    "flow 4 0 3 false true": dict.fromkeys(LIVES, "used 0"),
    f"send 4 {PART}": only("err Link(NoCredit)", NOT_ATTACHED),
    f"prepare-send 4 {PART}": only("err Link(NoCredit)", NOT_ATTACHED),
    f"transfer 4 {TRANSFER}": dict.fromkeys(LIVES, "err NoReceiver"),
    "grant 4 3": dict.fromkeys(LIVES, "none"),
    "drain 4": dict.fromkeys(LIVES, "none"),
    "renew 4": dict.fromkeys(LIVES, "none"),
}
OVER_CREDIT = "err Link(Fault(OverCredit)) amqp:link:transfer-limit-exceeded"
OF_RECEIVING = OF_BOTH | {
    "flow 4 0 3 false true": dict.fromkeys(LIVES, "used 0"),
    "flow 4 1 - false false": only("err CountPastLimit amqp:invalid-field", "used 0"),
    f"send 4 {PART}": dict.fromkeys(LIVES, "err NoSender"),
    f"prepare-send 4 {PART}": dict.fromkeys(LIVES, "err NoSender"),
    f"transfer 4 {TRANSFER}": only(OVER_CREDIT, NOT_ATTACHED),
    "grant 4 3": only("flow delivery-count=0 link-credit=3 drain=false"),
    "drain 4": only("flow delivery-count=0 link-credit=0 drain=true"),
    "renew 4": only("flow delivery-count=0 link-credit=5 drain=false"),
    "prepare-flow grant 4 3": only("flow delivery-count=0 link-credit=3 drain=false"),
    "prepare-flow drain 4": only("flow delivery-count=0 link-credit=0 drain=true"),
    "prepare-flow renew 4": only("flow delivery-count=0 link-credit=5 drain=false"),
    "prepare-flow answer 4 0": dict.fromkeys(LIVES, "none"),
}

# the credit of the end after a call in the life Attached, and how answers begin with which this side detaches
GRANTED = {("receiving", "grant 4 3"): 3, ("receiving", "renew 4"): 5, ("sending", "flow 4 0 3 false true"): 3}
FAULTS = ("err Link(Fault", "err CountPastLimit")


def begin(rows, title):
    rows.row(title)
    rows.ask("new", "ok")


def in_life(rows, title, add, life):
    """An end under the handle 4 that stands so."""
    begin(rows, title)
    rows.ask(add, "ok")
    for line, answer in LIVES[life]:
        rows.ask(line, answer)


def shown(kind, life, line, answer):
    """The end after a call; `none` where it is gone."""
    if answer == "ok" and line == "remove 4":
        return "none"
    after = "Detaching" if answer.startswith(FAULTS) else AFTER.get(line, {}).get(life, life)
    credit = GRANTED.get((kind, line), 0) if life == "Attached" else 0
    return f"{kind} {after} credit={credit}" + (" delivery-count=0" if kind == "sending" else "")


def each_life(rows):
    """Each call in each life of each kind of end, and where the end stands after it."""
    for kind, add, calls in (("sending", "sender 4 0", OF_SENDING), ("receiving", "receiver 4 2 5 -", OF_RECEIVING)):
        for life in LIVES:
            for line, answers in calls.items():
                in_life(rows, f"A {kind} end, {life}: {line}", add, life)
                rows.ask(line, answers[life])
                rows.ask("end 4", shown(kind, life, line, answers[life]))


def no_end(rows):
    begin(rows, "No end has the handle")
    for line in ("attach 4 true 0 -", "flow 4 0 3 false true", "answer 4 0", "grant 4 3", "drain 4", "renew 4", "prepare-flow grant 4 3", "detach 4", "on-detach 4", "left 4", "end 4"):
        rows.ask(line, "none")
    for line, answer in ((f"send 4 {PART}", "err NoSender"), (f"prepare-send 4 {PART}", "err NoSender"), (f"transfer 4 {TRANSFER}", "err NoReceiver"), ("remove 4", "err NoLink")):
        rows.ask(line, answer)
    rows.ask("room 4", "ok")
    rows.ask("end 4", "none")
    for line in ("settle-sent 0 9", "settle-received 0 9", "sent 0", "received 0", "left-of-sent", "left-of-received"):
        rows.ask(line, "none")


def table(rows, text):
    """Rows as a text has them: a title, and lines with their answers after `->`; `ok` where none stands there."""
    for paragraph in text.strip().split("\n\n"):
        title, *lines = paragraph.split("\n")
        begin(rows, title)
        for line in lines:
            call, _, answer = line.partition(" -> ")
            rows.ask(call, answer or "ok")


COME_AND_GO = f"""
A handle is free once both have detached, and another end takes it
room 4
sender 4 7
sender 4 0 -> err InUse
attach 4 true 0 10 -> Attached
attach 4 false 0 20 -> Attached
end 4 -> sending Attached credit=0 delivery-count=7
detach 4 -> Detaching
detach 4 -> Detaching
remove 4 -> err NotDetached
on-detach 4 -> Answered
on-detach 4 -> Stray
detach 4 -> Detached
remove 4
remove 4 -> err NoLink
receiver 4 - - -
end 4 -> receiving Attaching credit=0
on-detach 4 -> ByPeer
attach 4 true 0 - -> Detached
remove 4

Ends of several handles are apart, and those between them have none
sender 3 0
receiver 0 - - -
attach 3 true 0 - -> Attached
end 0 -> receiving Attaching credit=0
end 1 -> none
end 2 -> none
end 3 -> sending Attached credit=0 delivery-count=0
end {LAST} -> none

A link that this side detaches before the peer's Attach comes stays so, and the peer's Detach is the answer
sender 0 0
detach 0 -> Detaching
attach 0 true 0 - -> Detaching
flow 0 0 5 false false -> used 0
send 0 7 1 last false 70 -> err Link(NotAttached)
on-detach 0 -> Answered

A refused link is detached by the peer, also where this side detached it first
receiver 0 2 5 -
attach 0 false 9 - -> Refused
renew 0 -> none
on-detach 0 -> Refused
remove 0
receiver 0 2 5 -
attach 0 false 9 - -> Refused
detach 0 -> Detaching
on-detach 0 -> Answered
"""


def write(rows):
    each_life(rows)
    no_end(rows)
    table(rows, COME_AND_GO)
