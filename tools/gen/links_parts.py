"""Rows of links by hand: parts of deliveries, what they leave unsettled, and what settles it (AMQP 1.0 part 2, sections 2.6.12 to 2.6.14 and 2.7.5)."""

from gen.links_rows import table
from gen.row import LAST

HALF, LONGEST = 2**31, 2**64 - 1

INVALID, TOO_LARGE = "amqp:invalid-field", "amqp:link:message-size-exceeded"

SENDING = f"""
Deliveries of one part: unsettled ones are kept, each after those before it
sender 2 0
attach 2 true 0 - -> Attached
flow 2 0 9 false false -> used 0
send 2 7 1 last false 70 -> none
send 2 7 1 last false 71 -> err NotNext
send 2 6 1 last false 60 -> err NotNext
send 2 6 1 last true 60 -> none
send 2 {HALF + 7} 1 last false 80 -> err NotNext
end 2 -> sending Attached credit=7 delivery-count=2
send 2 {HALF + 6} 1 last false 80 -> none
send 2 {HALF + 7} 1 last false 90 -> err NotNext
sent 7 -> entry 7 2 70
sent 6 -> none
sent {HALF + 6} -> entry {HALF + 6} 2 80
received 7 -> none
settle-sent 7 7 -> entry 7 2 70
send 2 {HALF + 7} 1 last false 90 -> none

A delivery of several parts takes one of the credit, and what was given with its first part is given back
sender 2 0
attach 2 true 0 - -> Attached
flow 2 0 2 false false -> used 0
send 2 7 3 more false 70 -> none
end 2 -> sending Attached credit=1 delivery-count=1 bytes=3
send 2 7 0 more false 71 -> none
send 2 7 5 more false 72 -> none
end 2 -> sending Attached credit=1 delivery-count=1 bytes=8
send 2 7 1 last true 73 -> given 70
end 2 -> sending Attached credit=1 delivery-count=1
sent 7 -> none
send 2 8 1 more false 80 -> none
flow 2 2 0 false false -> used 0
send 2 8 1 last false 81 -> none
sent 8 -> entry 8 2 80

A later part that settles or aborts gives back once, and nothing where the delivery was settled before
sender 2 0
attach 2 true 0 - -> Attached
flow 2 0 9 false false -> used 0
send 2 7 3 more false 70 -> none
send 2 7 3 more true 71 -> given 70
send 2 7 3 more true 72 -> none
send 2 7 3 aborted false 73 -> none
end 2 -> sending Attached credit=8 delivery-count=1
send 2 8 3 more true 80 -> none
sent 8 -> none
send 2 8 3 last true 81 -> none
send 2 9 3 more false 90 -> none
send 2 9 3 aborted false 91 -> given 90
send 2 10 3 more false 100 -> none
settle-sent 10 10 -> entry 10 2 100
send 2 10 3 last true 101 -> none

A number that another link has taken since is not given back by the first one
sender 2 0
sender 3 0
attach 2 true 0 - -> Attached
attach 3 true 0 - -> Attached
flow 2 0 9 false false -> used 0
flow 3 0 9 false false -> used 0
send 2 7 3 more false 70 -> none
settle-sent 7 7 -> entry 7 2 70
send 3 7 3 last false 71 -> none
send 2 7 3 last true 72 -> none
sent 7 -> entry 7 3 71

Nothing is under way that could be aborted, with credit and without
sender 2 0
attach 2 true 0 5 -> Attached
send 2 7 9 aborted false 70 -> err Link(NoneUnderWay)
flow 2 0 1 false false -> used 0
send 2 7 9 aborted true 70 -> err Link(NoneUnderWay)
end 2 -> sending Attached credit=1 delivery-count=0

The receiver's max-message-size is for the whole delivery, but what aborts it has none
sender 2 0
attach 2 true 0 5 -> Attached
send 2 7 6 last false 70 -> err Link(TooLarge)
flow 2 0 9 false false -> used 0
send 2 7 6 last false 70 -> err Link(TooLarge)
send 2 7 5 last false 70 -> none
send 2 8 3 more false 80 -> none
send 2 8 3 last false 80 -> err Link(TooLarge)
end 2 -> sending Attached credit=7 delivery-count=2 bytes=3
send 2 8 2 more false 80 -> none
send 2 8 1 more false 80 -> err Link(TooLarge)
send 2 8 9 aborted false 80 -> given 80

No limit is one of 0, and a size stays at the greatest number
sender 2 0
attach 2 true 0 0 -> Attached
flow 2 0 9 false false -> used 0
send 2 7 {LONGEST} more true 70 -> none
send 2 7 {LONGEST} more true 70 -> none
end 2 -> sending Attached credit=8 delivery-count=1 bytes={LONGEST}
send 2 7 1 last true 70 -> none

A transfer is prepared, and then on its way or not
sender 2 0
attach 2 true 0 5 -> Attached
flow 2 0 2 false false -> used 0
prepare-send 2 7 3 more false 70 -> prepared first 7 3 More false 70
sent 7 -> entry 7 2 70
end 2 -> sending Attached credit=2 delivery-count=0
cancel-send
sent 7 -> none
prepare-send 2 7 3 more false 71 -> prepared first 7 3 More false 71
finish-send -> none
end 2 -> sending Attached credit=1 delivery-count=1 bytes=3
prepare-send 2 7 9 aborted false 72 -> prepared later 7 9 Aborted false 72
cancel-send
sent 7 -> entry 7 2 71
end 2 -> sending Attached credit=1 delivery-count=1 bytes=3
prepare-send 2 7 2 last true 73 -> prepared later 7 2 Last true 73
finish-send -> given 71
prepare-send 2 8 2 last true 80 -> prepared first 8 2 Last true 80
cancel-send
prepare-send 2 8 6 last true 80 -> err Link(TooLarge)
prepare-send 2 8 6 aborted true 80 -> err Link(NoneUnderWay)
prepare-send 2 8 2 last false 80 -> prepared first 8 2 Last false 80
finish-send -> none
prepare-send 2 9 2 last false 90 -> err Link(NoCredit)
flow 2 2 2 false false -> used 0
prepare-send 2 8 2 last false 90 -> err NotNext
prepare-send 2 9 2 last true 90 -> prepared first 9 2 Last true 90
on-detach 2 -> ByPeer
left 2 -> entry 8 2 80
remove 2
finish-send -> none
end 2 -> none
"""


def received(limit="-"):
    """A receiving end with a credit of 9."""
    return f"receiver 4 - - {limit}\nattach 4 true 0 - -> Attached\ngrant 4 9 -> flow delivery-count=0 link-credit=9 drain=false"


def refused(part, name, condition=INVALID, credit=9, before=""):
    """A part is refused, and this side detaches; nothing else has changed."""
    under_way = " delivery=7" if before else ""
    return f"{received(10)}{before}\ntransfer 4 {part} 50 -> err Link(Fault(Part({name}))) {condition}\nend 4 -> receiving Detaching credit={credit}{under_way}"


# the first part of a delivery of two bytes, with the format 1, and without one
BEGUN = "\ntransfer 4 7 new 1 - true false 2 70 -> part first 7 More settled=false size=2"
BARE = BEGUN.replace("new 1", "new -")

FAULTS = {
    "A part without a number and a tag, where none is under way": refused("- - - - false false 1", "NoneUnderWay"),
    "A part without a number and a tag that aborts, where none is under way": refused("- - - - false true 1", "NoneUnderWay"),
    "A first part without a number": refused("- new - - false false 1", "NoNumber"),
    "A first part without a number, whose tag is that of the delivery before": refused("- same - - false false 1", "NoNumber"),
    "A first part without a tag": refused("7 - - - false false 1", "NoTag"),
    "A later part with another number": refused("8 - - - false false 1", "OtherDelivery", credit=8, before=BEGUN),
    "A later part with another tag": refused("7 new - - false false 1", "OtherDelivery", credit=8, before=BEGUN),
    "A later part with another tag that aborts": refused("- new - - false true 1", "OtherDelivery", credit=8, before=BEGUN),
    "A later part with another format": refused("7 same 2 - false false 1", "OtherFormat", credit=8, before=BEGUN),
    "A later part with a format, where the first one had none": refused("- - 1 - false false 1", "OtherFormat", credit=8, before=BARE),
    "A later part with another number, another format and too many bytes": refused("8 - 2 - false false 11", "OtherDelivery", credit=8, before=BEGUN),
    "A first part that is too large": refused("7 new - - true false 11", "TooLarge", TOO_LARGE),
    "A later part with which the delivery is too large": refused("- - - true false false 9", "TooLarge", TOO_LARGE, 8, BEGUN),
    "A first part with too many bytes and without a tag": refused("7 - - - true false 11", "NoTag"),
}

RECEIVING = f"""
A delivery of several parts: its number, tag and format may come again
{received(10)}
transfer 4 7 new 1 - true false 2 70 -> part first 7 More settled=false size=2
end 4 -> receiving Attached credit=8 delivery=7
transfer 4 - - - - true false 3 71 -> part later 7 More settled=false size=5
transfer 4 7 same 1 false true false 0 72 -> part later 7 More settled=false size=5
transfer 4 7 - 1 - false false 5 73 -> part later 7 Last settled=false size=10
end 4 -> receiving Attached credit=8
received 7 -> entry 7 4 70
sent 7 -> none

The tag of the delivery before begins another one where none is under way
{received()}
transfer 4 7 same - - false false 1 70 -> part first 7 Last settled=false size=1
transfer 4 8 same - - false false 1 80 -> part first 8 Last settled=false size=1
received 8 -> entry 8 4 80

What a part says of settlement holds for the later ones, also for one that says the contrary
{received()}
transfer 4 7 new - true true false 1 70 -> part first 7 More settled=true size=1
received 7 -> none
transfer 4 - - - - true false 1 71 -> part later 7 More settled=true size=2
transfer 4 - - - false false false 1 72 -> part later 7 Last settled=true size=3
transfer 4 8 new - false true false 1 80 -> part first 8 More settled=false size=1
transfer 4 - - - true true false 1 81 -> part later 8 More settled=true size=2 given 80
transfer 4 - - - true true false 1 82 -> part later 8 More settled=true size=3
transfer 4 - - - - false false 1 83 -> part later 8 Last settled=true size=4

A part that aborts settles its delivery, and neither its payload nor more counts
{received(10)}
transfer 4 7 new - - true false 9 70 -> part first 7 More settled=false size=9
transfer 4 - - - false true true 9 71 -> part later 7 Aborted settled=true size=9 given 70
end 4 -> receiving Attached credit=8
transfer 4 8 new - - true true 99 80 -> part first 8 Aborted settled=true size=0
received 8 -> none
end 4 -> receiving Attached credit=7
transfer 4 9 new - - true false 1 90 -> part first 9 More settled=false size=1
settle-received 9 9 -> entry 9 4 90
transfer 4 - - - - false true 1 91 -> part later 9 Aborted settled=true size=1

A limit of 0 is none
{received(0)}
transfer 4 7 new - true true false {LAST} 70 -> part first 7 More settled=true size={LAST}
transfer 4 - - - - false false {LAST} 70 -> part later 7 Last settled=true size={2 * LAST}

A delivery that begins comes after each unsettled one, or the link stays as it was
{received()}
transfer 4 {LAST} new - - false false 1 70 -> part first {LAST} Last settled=false size=1
transfer 4 {LAST} new - - true false 1 71 -> err NotNext
transfer 4 {LAST - 1} new - - true false 1 71 -> err NotNext
transfer 4 {HALF - 1} new - - true false 1 71 -> err NotNext
end 4 -> receiving Attached credit=8
transfer 4 {LAST - 1} new - true false false 1 71 -> part first {LAST - 1} Last settled=true size=1
transfer 4 0 new - - false false 1 72 -> part first 0 Last settled=false size=1
transfer 4 {HALF - 2} new - - false false 1 73 -> part first {HALF - 2} Last settled=false size=1
end 4 -> receiving Attached credit=5

Credit is needed where a delivery begins, and before its part is looked at
receiver 4 - - 10
attach 4 true 0 - -> Attached
grant 4 1 -> flow delivery-count=0 link-credit=1 drain=false
transfer 4 7 new - - true false 1 70 -> part first 7 More settled=false size=1
transfer 4 - - - - false false 1 70 -> part later 7 Last settled=false size=2
transfer 4 - - - - false false 99 80 -> err Link(Fault(OverCredit)) amqp:link:transfer-limit-exceeded
received 7 -> entry 7 4 70
on-detach 4 -> Answered
left 4 -> entry 7 4 70
left 4 -> none
remove 4
"""


def three(way):
    """Deliveries before and after the wrap in one direction, by two links in turn."""
    lines = []
    for handle in (0, 1):
        if way == "sent":
            lines += [f"sender {handle} 0", f"attach {handle} true 0 - -> Attached", f"flow {handle} 0 9 false false -> used 0"]
        else:
            lines += [f"receiver {handle} - - -", f"attach {handle} true 0 - -> Attached", f"grant {handle} 9 -> flow delivery-count=0 link-credit=9 drain=false"]
    for at, number in enumerate((LAST - 1, LAST, 0, 1)):
        told = "none" if way == "sent" else f"part first {number} Last settled=false size=1"
        call = f"send {at % 2} {number} 1 last false {at}" if way == "sent" else f"transfer {at % 2} {number} new - - false false 1 {at}"
        lines.append(f"{call} -> {told}")
    return "\n".join(lines)


def ranges(way):
    """What is settled and left in one direction: four deliveries, of the links 0, 1, 0 and 1."""
    other = "received" if way == "sent" else "sent"
    one, two, three_, four = (f"entry {number} {at % 2} {at}" for at, number in enumerate((LAST - 1, LAST, 0, 1)))
    empty = "sending {} credit=7 delivery-count=2" if way == "sent" else "receiving {} credit=7"
    return f"""
A range gives back each delivery of it once, in order, past the last number: {way}
{three(way)}
settle-{other} {LAST - 1} 1 -> none
settle-{way} {LAST} 0 -> {two}
settle-{way} {LAST} 0 -> {three_}
settle-{way} {LAST} 0 -> none
{way} {LAST} -> none
{way} {LAST - 1} -> {one}
settle-{way} 1 1 -> {four}
settle-{way} {LAST - 9} 9 -> {one}
settle-{way} {LAST - 9} 9 -> none

A range that does not go forward by less than half of the circle has none: {way}
{three(way)}
settle-{way} 0 {LAST} -> none
settle-{way} 1 0 -> none
settle-{way} {LAST} {HALF - 1} -> none
settle-{way} {LAST} {HALF - 2} -> {two}
settle-{way} {HALF + 1} {0} -> {one}
settle-{way} {HALF + 1} {1} -> none
settle-{way} {HALF + 2} {1} -> {three_}

What is left is told once the peer has detached, of its link alone, and then the handle is free: {way}
{three(way)}
left 0 -> none
detach 0 -> Detaching
left 0 -> none
on-detach 0 -> Answered
remove 0 -> err Unsettled
settle-{way} 0 0 -> {three_}
left 0 -> {one}
left 0 -> none
end 0 -> {empty.format("Detached")}
remove 0
{way} {LAST} -> {two}
left 0 -> none
left-of-{other} -> none
left-of-{way} -> {two}
left-of-{way} -> {four}
left-of-{way} -> none

What is left of a session is told in order, of links that stand too: {way}
{three(way)}
on-detach 1 -> ByPeer
left-of-{way} -> {one}
left 1 -> {two}
left-of-{way} -> {three_}
left-of-{way} -> {four}
left 1 -> none
left-of-{way} -> none
remove 1
"""


def write(rows):
    table(rows, SENDING)
    for title, lines in FAULTS.items():
        table(rows, f"{title}\n{lines}")
    table(rows, RECEIVING)
    for way in ("sent", "received"):
        table(rows, ranges(way))
