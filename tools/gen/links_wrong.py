"""Wrong models of a session's links: each does one thing wrong, and the stored rows of rows_links tell it apart.

Each of WRONG is a way to make such a model, by the name of what it does wrong. The rows by hand alone tell all of them apart, and so do
the random ones alone.
"""

from amqp.links import CIRCLE, HALF, Receiving, Refused, Sending, after
from amqp.session_links import SessionLinks
from gen.links_lines import Model


class CountOfItsOwn(Sending):
    """The credit counts from this end's own count on, and not from that which the receiver's flow says."""

    def seen(self, named):
        return self.count


class FlowBefore(Sending):
    """The count is that of the flow before."""

    said = None

    def seen(self, named):
        before, self.said = self.said, named
        return super().seen(named if before is None else before)


class OneLessAtTheWrap(Sending):
    """Past the last number one more is taken off the credit."""

    def seen(self, named):
        seen = super().seen(named)
        return seen - (seen // CIRCLE < self.count // CIRCLE)


class OneMoreAtTheLimit(Receiving):
    """A count of one past all that was granted is taken."""

    def on_flow(self, count, credit, drain, echo):
        if count is not None and self.life == "Attached" and after(count, self.count) == self.credit() + 1:
            count = self.limit % CIRCLE
        return super().on_flow(count, credit, drain, echo)


class RenewedPastTheMark(Receiving):
    """A renewal adds the high mark to the credit that is left."""

    def renew(self):
        left = self.credit()
        said = super().renew()
        return said and self.grant(self.high + left)


class RenewedWhileDraining(Receiving):
    """A drain does not keep a renewal back."""

    def renew(self):
        self.drains, drains = False, self.drains
        said = super().renew()
        self.drains = drains if said is None else False
        return said


class RenewedByTheLowMark(Receiving):
    """A low mark above the high one is taken as it is."""

    def renew(self):
        if self.life == "Attached" and not self.drains and self.high is not None and self.credit() < self.low:
            return self.grant(self.high)
        return None


class EchoesForEver(Receiving):
    """An echo that was answered is answered again."""

    def answer(self, available):
        echoes = self.echoes
        said = super().answer(available)
        self.echoes = echoes
        return said


class KeepsOn(Receiving):
    """What the sender may not do does not end the link."""

    def fault(self, name, condition):
        raise Refused(name, condition)


class DrainedEarly(Sending):
    """A drain uses up the credit while a delivery is under way."""

    def is_to_drain(self, available):
        return self.drains and available == 0 and self.credit() > 0


class AbortedCounts(Receiving):
    """The payload of a part that aborts its delivery counts."""

    def add(self, delivery, part, end):
        super().add(delivery, part, end)
        delivery["size"] += part["size"] if end == "Aborted" else 0


class SettledAnew(Receiving):
    """A later part that says that it is not settled takes back what a part before it said."""

    def add(self, delivery, part, end):
        if part["settled"] is False:
            delivery["settled"] = False
        super().add(delivery, part, end)


class AbortedIsMeasured(Sending):
    """The bytes of a transfer that aborts its delivery are within the limit too."""

    def send(self, size, end):
        if self.life == "Attached" and end == "Aborted" and self.size_limit and (self.bytes or 0) + size > self.size_limit:
            raise Refused("TooLarge")
        super().send(size, end)


def of(sending=Sending, receiving=Receiving):
    """The links of a session with these ends."""
    return type("Links", (SessionLinks,), {"sending": sending, "receiving": receiving})


class Backwards(SessionLinks):
    """A range is settled from its last delivery on."""

    def meant(self, unsettled, first, last):
        return super().meant(unsettled, first, last)[::-1]


class LastLeftOut(SessionLinks):
    """The last number of a range is not in it, unless it is the first one."""

    def meant(self, unsettled, first, last):
        return [it for it in super().meant(unsettled, first, last) if it["number"] != last or first == last]


class HalfIsForward(SessionLinks):
    """A range goes forward by half of the circle too."""

    def meant(self, unsettled, first, last):
        if after(last, first) != HALF:
            return super().meant(unsettled, first, last)
        return [it for it in unsettled if after(it["number"], first) <= HALF]


class AfterTheNewest(SessionLinks):
    """A delivery comes after the newest one that is unsettled, however far after the oldest."""

    def insert(self, unsettled, number, handle, given):
        super().insert(unsettled[-1:], number, handle, given)
        unsettled.append({"number": number, "link": handle, "given": given})


class OfAnyLink(SessionLinks):
    """A later part settles the delivery of its number, whatever link that is of."""

    def settle_own(self, unsettled, handle, number):
        found = self.find(unsettled, number)
        return found and super().settle_own(unsettled, found["link"], number)


class LeftTwice(SessionLinks):
    """What is left on a link stays once it is told."""

    def left(self, handle):
        found = super().left(handle)
        if found is not None:
            (self.sent if self.ends[handle].kind == "sending" else self.received).append(found)
        return found


class CancelledLater(SessionLinks):
    """What is prepared and not sent stays unsettled."""

    def cancel_send(self, prepared):
        pass


WRONG = {
    "the credit counts from the sender's own count": of(sending=CountOfItsOwn),
    "the credit counts from the flow before": of(sending=FlowBefore),
    "one less credit past the wrap": of(sending=OneLessAtTheWrap),
    "one more than was granted is used up": of(receiving=OneMoreAtTheLimit),
    "a renewal goes past the high mark": of(receiving=RenewedPastTheMark),
    "a renewal goes by a low mark above the high one": of(receiving=RenewedByTheLowMark),
    "a drain is renewed": of(receiving=RenewedWhileDraining),
    "an echo is answered twice": of(receiving=EchoesForEver),
    "a fault does not detach": of(receiving=KeepsOn),
    "a drain uses up credit under a delivery": of(sending=DrainedEarly),
    "the payload of an abort counts": of(receiving=AbortedCounts),
    "the bytes of an abort are measured": of(sending=AbortedIsMeasured),
    "a later part is unsettled again": of(receiving=SettledAnew),
    "a range is settled backwards": Backwards,
    "a range ends before its last number": LastLeftOut,
    "a range of half the circle has deliveries": HalfIsForward,
    "a delivery comes after the newest one alone": AfterTheNewest,
    "a part settles a delivery of another link": OfAnyLink,
    "a left-over is told twice": LeftTwice,
    "a cancelled transfer is unsettled": CancelledLater,
}


def differs(made, rows):
    """Whether the model answers one of the rows otherwise. What ends it is another answer too."""
    model = Model(made)
    try:
        return any(model.answer(line) != answer for line, answer in zip(rows.asked, rows.said, strict=True))
    except (AttributeError, TypeError, ValueError):
        return True


def not_told_apart(rows):
    """The wrong models that answer each row as it wants."""
    return [name for name, made in WRONG.items() if not differs(made, rows)]
