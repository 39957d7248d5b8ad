"""Rows of links by hand: credit, drains, echoes and renewals (AMQP 1.0 part 2, section 2.6.7), at the wrap of counts too."""

from gen.links_rows import table
from gen.row import LAST

HALF = 2**31

SENDING = f"""
A sender's credit goes on past the last count, and what the receiver has not seen is taken off
sender 0 {LAST}
attach 0 true 0 - -> Attached
flow 0 {LAST} 3 false false -> used 0
end 0 -> sending Attached credit=3 delivery-count={LAST}
send 0 5 1 last true 50 -> none
end 0 -> sending Attached credit=2 delivery-count=0
send 0 6 1 last true 60 -> none
send 0 7 1 last true 70 -> none
end 0 -> sending Attached credit=0 delivery-count=2
send 0 8 1 last true 80 -> err Link(NoCredit)
flow 0 {LAST} 5 false false -> used 0
end 0 -> sending Attached credit=2 delivery-count=2
flow 0 0 5 false false -> used 0
end 0 -> sending Attached credit=3 delivery-count=2
flow 0 2 5 false false -> used 0
end 0 -> sending Attached credit=5 delivery-count=2

A flow without a count means the initial one
sender 0 {LAST - 1}
attach 0 true 0 - -> Attached
flow 0 - 3 false false -> used 0
send 0 5 1 last true 50 -> none
send 0 6 1 last true 60 -> none
end 0 -> sending Attached credit=1 delivery-count=0
flow 0 - 10 false false -> used 0
end 0 -> sending Attached credit=8 delivery-count=0
flow 0 - 2 false false -> used 0
end 0 -> sending Attached credit=0 delivery-count=0
flow 0 - 3 false false -> used 0
end 0 -> sending Attached credit=1 delivery-count=0

Less credit than what is on the way is none, and more comes off it
sender 0 0
attach 0 true 0 - -> Attached
flow 0 0 4 false false -> used 0
send 0 5 1 last true 50 -> none
send 0 6 1 last true 60 -> none
send 0 7 1 last true 70 -> none
flow 0 1 1 false false -> used 0
end 0 -> sending Attached credit=0 delivery-count=3
flow 0 1 2 false false -> used 0
end 0 -> sending Attached credit=0 delivery-count=3
flow 0 1 3 false false -> used 0
end 0 -> sending Attached credit=1 delivery-count=3
flow 0 3 0 false false -> used 0
send 0 8 1 last true 80 -> err Link(NoCredit)

The greatest credit, that past half of the circle, and a count that the sender has not come to
sender 0 {HALF - 1}
attach 0 true 0 - -> Attached
flow 0 {HALF - 1} {LAST} false false -> used 0
end 0 -> sending Attached credit={LAST} delivery-count={HALF - 1}
send 0 5 1 last true 50 -> none
end 0 -> sending Attached credit={LAST - 1} delivery-count={HALF}
flow 0 {HALF - 1} {HALF} false false -> used 0
end 0 -> sending Attached credit={HALF - 1} delivery-count={HALF}
flow 0 {HALF + 1} 10 false false -> used 0
end 0 -> sending Attached credit=0 delivery-count={HALF}
flow 0 {HALF + 1} {LAST} false false -> used 0
end 0 -> sending Attached credit=0 delivery-count={HALF}

A flow without credit leaves the credit and the drain, and may ask for an echo
sender 0 0
attach 0 true 0 - -> Attached
flow 0 0 4 false false -> used 0
flow 0 3 - true false -> used 0
end 0 -> sending Attached credit=4 delivery-count=0
answer 0 0 -> none
flow 0 - - false true -> used 0
answer 0 9 -> flow delivery-count=0 link-credit=4 available=9 drain=false
answer 0 9 -> none

A drain uses up the credit once nothing is ready and no delivery is under way, past the last count too
sender 0 {LAST - 1}
attach 0 true 0 - -> Attached
flow 0 {LAST - 1} 5 true false -> used 0
answer 0 3 -> none
send 0 5 1 more true 50 -> none
answer 0 0 -> none
send 0 5 1 last true 50 -> none
answer 0 0 -> flow delivery-count=3 link-credit=0 available=0 drain=true
answer 0 0 -> none
end 0 -> sending Attached credit=0 delivery-count=3
send 0 6 1 last true 60 -> err Link(NoCredit)
flow 0 3 2 false false -> used 0
answer 0 0 -> none
end 0 -> sending Attached credit=2 delivery-count=3

A drain of no credit is answered where an echo is asked for
sender 0 0
attach 0 true 0 - -> Attached
flow 0 0 0 true false -> used 0
answer 0 0 -> none
flow 0 0 0 true true -> used 0
answer 0 0 -> flow delivery-count=0 link-credit=0 available=0 drain=true
answer 0 0 -> none

An echo is answered once, by what was said last, and with a drain that cannot be yet
sender 0 0
attach 0 true 0 - -> Attached
flow 0 0 3 true true -> used 0
flow 0 0 3 true false -> used 0
answer 0 2 -> flow delivery-count=0 link-credit=3 available=2 drain=true
answer 0 2 -> none
answer 0 0 -> flow delivery-count=3 link-credit=0 available=0 drain=true
flow 0 3 3 true true -> used 0
answer 0 0 -> flow delivery-count=6 link-credit=0 available=0 drain=true
answer 0 0 -> none

A sender's flow is prepared, and leaves its link until it is finished
sender 0 0
attach 0 true 0 - -> Attached
flow 0 0 3 true true -> used 0
prepare-flow answer 0 0 -> flow delivery-count=3 link-credit=0 available=0 drain=true
end 0 -> sending Attached credit=3 delivery-count=0
prepare-flow answer 0 0 -> flow delivery-count=3 link-credit=0 available=0 drain=true
finish-flow
end 0 -> sending Attached credit=0 delivery-count=3
prepare-flow answer 0 0 -> none
prepare-flow grant 0 5 -> none
prepare-flow drain 0 -> none
prepare-flow renew 0 -> none

A drain that was sent is over with the link: the other end of the handle has its own
sender 0 0
attach 0 true 0 - -> Attached
flow 0 0 3 true true -> used 0
on-detach 0 -> ByPeer
answer 0 0 -> none
remove 0
sender 0 0
attach 0 true 0 - -> Attached
answer 0 0 -> none
end 0 -> sending Attached credit=0 delivery-count=0
"""

RECEIVING = f"""
A receiver's count goes on past the last one
receiver 0 - - -
attach 0 true {LAST} - -> Attached
grant 0 3 -> flow delivery-count={LAST} link-credit=3 drain=false
transfer 0 5 new - true false false 1 50 -> part first 5 Last settled=true size=1
transfer 0 6 new - true false false 1 60 -> part first 6 Last settled=true size=1
end 0 -> receiving Attached credit=1
grant 0 2 -> flow delivery-count=1 link-credit=2 drain=false
transfer 0 7 new - true false false 1 70 -> part first 7 Last settled=true size=1
transfer 0 8 new - true false false 1 80 -> part first 8 Last settled=true size=1
transfer 0 9 new - true false false 1 90 -> err Link(Fault(OverCredit)) amqp:link:transfer-limit-exceeded
end 0 -> receiving Detaching credit=0
transfer 0 9 new - true false false 1 90 -> err Link(NotAttached)
grant 0 2 -> none

What a sender used up comes off the credit, up to all that was granted, past the last count too
receiver 0 - - -
attach 0 true {LAST - 1} - -> Attached
grant 0 5 -> flow delivery-count={LAST - 1} link-credit=5 drain=false
flow 0 {LAST - 1} - false false -> used 0
flow 0 - - false false -> used 0
flow 0 0 - false false -> used 2
end 0 -> receiving Attached credit=3
flow 0 {LAST} - false false -> used 0
end 0 -> receiving Attached credit=3
flow 0 3 9 true false -> used 3
end 0 -> receiving Attached credit=0
grant 0 1 -> flow delivery-count=3 link-credit=1 drain=false
flow 0 5 - false false -> err CountPastLimit amqp:invalid-field
end 0 -> receiving Detaching credit=1
flow 0 4 - false true -> used 0
on-detach 0 -> Answered

A count lies past the limit up to half of the circle, and from there on behind
receiver 0 - - -
attach 0 true 7 - -> Attached
grant 0 2 -> flow delivery-count=7 link-credit=2 drain=false
flow 0 {HALF + 7} - false false -> used 0
flow 0 6 - false false -> used 0
end 0 -> receiving Attached credit=2
flow 0 {HALF + 6} - false false -> err CountPastLimit amqp:invalid-field

Of the greatest credit each count is within the limit
receiver 0 - - -
attach 0 true 7 - -> Attached
grant 0 {LAST} -> flow delivery-count=7 link-credit={LAST} drain=false
flow 0 {HALF + 7} - false false -> used {HALF}
end 0 -> receiving Attached credit={HALF - 1}
flow 0 6 - false false -> used {HALF - 1}
end 0 -> receiving Attached credit=0

A drain lasts until the next grant, and nothing is renewed before
receiver 0 2 5 -
attach 0 true 0 - -> Attached
renew 0 -> flow delivery-count=0 link-credit=5 drain=false
drain 0 -> flow delivery-count=0 link-credit=5 drain=true
transfer 0 5 new - true false false 1 50 -> part first 5 Last settled=true size=1
flow 0 5 0 true false -> used 4
end 0 -> receiving Attached credit=0
renew 0 -> none
drain 0 -> flow delivery-count=5 link-credit=0 drain=true
grant 0 1 -> flow delivery-count=5 link-credit=1 drain=false
renew 0 -> flow delivery-count=5 link-credit=5 drain=false
renew 0 -> none

Credit is renewed below the low mark alone, and up to the high one
receiver 0 2 4 -
attach 0 true {LAST} - -> Attached
renew 0 -> flow delivery-count={LAST} link-credit=4 drain=false
renew 0 -> none
transfer 0 5 new - true false false 1 50 -> part first 5 Last settled=true size=1
renew 0 -> none
transfer 0 6 new - true false false 1 60 -> part first 6 Last settled=true size=1
renew 0 -> none
transfer 0 7 new - true true false 1 70 -> part first 7 More settled=true size=1
renew 0 -> flow delivery-count=2 link-credit=4 drain=false
end 0 -> receiving Attached credit=4 delivery=7
grant 0 1 -> flow delivery-count=2 link-credit=1 drain=false
renew 0 -> flow delivery-count=2 link-credit=4 drain=false

A low mark above the high one counts as the high one
receiver 0 5 2 -
attach 0 true 0 - -> Attached
renew 0 -> flow delivery-count=0 link-credit=2 drain=false
renew 0 -> none
transfer 0 5 new - true false false 1 50 -> part first 5 Last settled=true size=1
renew 0 -> flow delivery-count=1 link-credit=2 drain=false

A rule of renewal that wants nothing, and none
receiver 0 0 5 -
receiver 1 1 0 -
receiver 2 - - -
attach 0 true 0 - -> Attached
attach 1 true 0 - -> Attached
attach 2 true 0 - -> Attached
renew 0 -> none
renew 1 -> none
renew 2 -> none

A receiver answers an echo once, and what is told is its state
receiver 0 2 5 -
attach 0 true 9 - -> Attached
flow 0 9 - false false -> used 0
answer 0 0 -> none
flow 0 9 - false true -> used 0
answer 0 7 -> flow delivery-count=9 link-credit=0 drain=false
answer 0 7 -> none
grant 0 2 -> flow delivery-count=9 link-credit=2 drain=false
flow 0 8 - false true -> used 0
flow 0 10 - false false -> used 1
answer 0 0 -> flow delivery-count=10 link-credit=1 drain=false

A receiver's flow is prepared, and leaves its link until it is finished
receiver 0 2 5 -
attach 0 true 0 - -> Attached
prepare-flow grant 0 3 -> flow delivery-count=0 link-credit=3 drain=false
end 0 -> receiving Attached credit=0
prepare-flow renew 0 -> flow delivery-count=0 link-credit=5 drain=false
finish-flow
end 0 -> receiving Attached credit=5
prepare-flow renew 0 -> none
prepare-flow drain 0 -> flow delivery-count=0 link-credit=5 drain=true
finish-flow
grant 0 0 -> flow delivery-count=0 link-credit=0 drain=false
prepare-flow drain 0 -> flow delivery-count=0 link-credit=0 drain=true
renew 0 -> flow delivery-count=0 link-credit=5 drain=false
flow 0 0 - false true -> used 0
prepare-flow answer 0 0 -> flow delivery-count=0 link-credit=5 drain=false
finish-flow
answer 0 0 -> none
prepare-flow grant 0 3 -> flow delivery-count=0 link-credit=3 drain=false
on-detach 0 -> ByPeer
remove 0
finish-flow
end 0 -> none
"""


def write(rows):
    table(rows, SENDING)
    table(rows, RECEIVING)
