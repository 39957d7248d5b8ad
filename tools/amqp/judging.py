"""Judges what two sides send each other, frame by frame, for watch.py and transcript.py (AMQP 1.0 part 2).

The judge stands between the sides: what one sends may not have come to the other when that sends its next frame. So a frame is blamed only where it
is wrong whatever its sender had read. Where the standard lets a limit change, the greatest that was given counts; and what a side may not know yet
of the other's End, Detach or Close is no breach. A frame has one fault at most. After one that cannot be read its side is not blamed on that channel, but for
its bytes, until the next Begin. What is looked at, and what is not, stands in watch.py. No library is needed.
"""

from math import inf

from amqp.frames import ATTACH, BEGIN, CLOSE, DETACH, DISPOSITION, END, FLOW, OPEN, TRANSFER, Frame, flag, integer, text
from amqp.mended import mended, plain, wrong_with

# No limit may be lower (section 2.7.1)
LEAST_FRAME_SIZE = 512
ROUND = 2**32


class Link:
    """An end of a link: its name and role, and the delivery that goes on in further transfers, `None` where its number is not known."""

    def __init__(self, name, is_receiver):
        self.name, self.is_receiver, self.is_going, self.delivery = name, is_receiver, False, None

    def take(self, half, number, goes_on):
        """A transfer's delivery-id (section 2.7.5)."""
        if self.is_going:
            fault = self.another(half, number)
        else:
            fault = half.number(number)
            self.delivery = number
        self.is_going = goes_on
        return fault

    def another(self, half, number):
        expected = self.delivery
        if number is None or number == expected:
            return None
        self.delivery = number
        if expected is None:
            return None
        half.next_delivery = (number + 1) % ROUND
        return f"DeliveryId ({number}, within delivery {expected})"


class Half:
    """What one side sent in a session: numbers of transfers count from 0, and `room` is how many the other side, `across`, let it send at most."""

    def __init__(self, first_id, window, across):
        self.first_id, self.window, self.across, self.sent, self.room = first_id, window, across, 0, None
        self.links, self.names, self.next_delivery, self.other, self.is_lost = {}, set(), None, None, False

    def pair(self, other):
        self.other, other.other = other, self
        self.allow(other.window)
        other.allow(self.window)

    def allow(self, count):
        self.room = count if self.room is None else max(self.room, count)

    def lose(self):
        """Something was sent that cannot be read: a window, or a transfer, may have been in it."""
        self.is_lost, self.window = True, inf
        if self.other is not None:
            self.other.room = inf

    def over(self):
        """The End was sent. What is kept until the other side's Begin answers is small."""
        self.links, self.names = {}, set()

    # ---- what is sent in it: the fault of each

    def attach(self, frame):
        handle, link = integer(frame[1]), Link(text(frame[0]), flag(frame[2]))
        if handle in self.links:
            return f"HandleInUse (handle {handle})"
        if (link.name, link.is_receiver) in self.names:
            return "NameInUse"
        self.links[handle] = link
        self.names.add((link.name, link.is_receiver))
        return None

    def detach(self, frame):
        link = self.links.pop(integer(frame[0]), None)
        if link is None:
            return "UnattachedHandle"
        self.names.discard((link.name, link.is_receiver))
        return None

    def flow(self, frame):
        """The window that it gives counts from the transfer that it names; from the first where it names none (section 2.5.6)."""
        window = integer(frame[1])
        if self.other is None:
            self.window = max(self.window, window)
        else:
            self.other.allow(self.other.place_of(integer(frame[0])) + window)
        handle = integer(frame[4])
        return None if handle is None or handle in self.links else "UnattachedHandle"

    def place_of(self, transfer_id):
        """How many transfers stand before the one of this number: of those near the last one that was sent."""
        if transfer_id is None:
            return 0
        ahead = (transfer_id - self.first_id - self.sent) % ROUND
        return self.sent + (ahead if ahead < ROUND // 2 else ahead - ROUND)

    def transfer(self, frame):
        self.sent += 1
        link, number = self.links.get(integer(frame[0])), integer(frame[1])
        if link is None:
            self.number(number)
            return "UnattachedHandle"
        fault = link.take(self, number, flag(frame[5]) and not flag(frame[9]))
        return "TransferFrameToSender" if link.is_receiver else self.past_window() or fault

    def past_window(self):
        if self.room is None:
            return None if self.across.is_doubtful else "WindowViolation (no window was given yet)"
        return f"WindowViolation ({self.sent - self.room} past the window)" if self.sent > self.room else None

    def number(self, number):
        """The delivery-id of a delivery's first transfer: one more than that of the delivery before, in the session."""
        expected = self.next_delivery
        if number is None:
            self.next_delivery = None
            return "DeliveryId (none, on the first transfer of a delivery)"
        self.next_delivery = (number + 1) % ROUND
        return None if expected in (None, number) else f"DeliveryId ({number}, where {expected} is next)"


class Side:
    """What one side sent: whether its Open came, its limits, and its sessions by channel."""

    def __init__(self):
        self.is_begun, self.limits, self.is_closed, self.halves = False, None, False, {}
        # by channel: how many Begins no Begin of the other side has answered, and the last of them
        self.unanswered = {}
        # which Begins came is not sure: one could not be read, or came where none may
        self.is_doubtful = False

    def lose(self, channel, other):
        self.is_begun = self.is_doubtful = True
        self.halves.setdefault(channel, Half(0, inf, other)).lose()

    def open(self, frame):
        if self.limits is not None:
            return "IllegalState (a second Open)"
        size, channel = integer(frame[2]), integer(frame[3])
        self.is_begun, self.limits = True, (inf if size is None else max(size, LEAST_FRAME_SIZE), 65535 if channel is None else channel)
        return None

    def close(self):
        # the other side may answer a Begin yet
        self.is_closed, self.halves = True, {}

    def refuses(self, channel, size):
        """What of a frame is past the limits that this side gave (section 2.7.1)."""
        if self.limits is None:
            return None
        most, last = self.limits
        if size > most:
            return f"FrameTooLong ({size} bytes, where the other side takes {most})"
        return f"ChannelTooHigh ({channel}, where the other side takes {last})" if channel > last else None


class Judge:
    """Both sides of one connection: A is the client, B the server."""

    def __init__(self):
        self.sides = {"A": Side(), "B": Side()}
        # the frame that came last, as far as it could be read
        self.read = None

    def step(self, side, of, size=None):
        """The fault of the next frame of a side, `None` of a lawful one: a name, and what it means in brackets. `of` is without its size, and may be cut."""
        mine, other = self.sides[side], self.sides["B" if side == "A" else "A"]
        size = len(of) + 4 if size is None else size
        self.read = None
        if mine.is_closed:
            return "AfterClose"
        is_cut, of = len(of) + 4 < size, plain(of)
        wrong, channel = wrong_with(of), int.from_bytes(of[2:4], "big")
        self.read = frame = mended(of) if wrong else Frame(of)
        fault = mine.lose(channel, other) if frame is None else self.state(mine, other, frame)
        if wrong and is_cut:
            wrong = f"NotRead ({size} bytes)"
        return other.refuses(channel, size) or wrong or fault

    def lose(self, side):
        """Nothing more of what a side sends is read: it may have begun, answered and allowed anything."""
        mine = self.sides[side]
        mine.is_begun = mine.is_doubtful = True
        for half in mine.halves.values():
            half.lose()

    def is_lost(self, side, channel):
        """Whether something that the side sent on this channel could not be read, so that it is not blamed there."""
        half = self.sides[side].halves.get(channel)
        return half is not None and half.is_lost

    def state(self, mine, other, frame):
        """What the frame changes, and its fault in this state."""
        if frame.code is None:
            return None
        if frame.code == OPEN:
            return mine.open(frame)
        is_early, mine.is_begun = not mine.is_begun, True
        fault = self.opened(mine, other, frame)
        return "IllegalState (before the Open)" if is_early else fault

    def opened(self, mine, other, frame):
        if frame.code == CLOSE:
            return mine.close()
        if frame.code == BEGIN:
            return self.begin(mine, other, frame)
        half = mine.halves.get(frame.channel)
        if half is None:
            return f"NotFound (no session on channel {frame.channel})"
        if frame.code == END:
            return mine.halves.pop(frame.channel).over()
        calls = {ATTACH: half.attach, FLOW: half.flow, TRANSFER: half.transfer, DISPOSITION: lambda frame: None, DETACH: half.detach}
        fault = calls[frame.code](frame)
        return None if half.is_lost else fault

    def begin(self, mine, other, frame):
        answers, before = integer(frame[0]), mine.halves.get(frame.channel)
        fault = None if before is None or before.is_lost else f"ChannelInUse (channel {frame.channel})"
        if fault and answers not in other.unanswered:
            mine.is_doubtful = mine.is_doubtful or answers is None
            return fault
        half = mine.halves[frame.channel] = Half(integer(frame[1]), integer(frame[2]), other)
        if answers is None:
            mine.unanswered[frame.channel] = (mine.unanswered.get(frame.channel, (0,))[0] + 1, half)
            return fault
        return self.answer(half, other, answers) or fault

    def answer(self, half, other, channel):
        """A Begin that answers the other side's on this channel (section 2.5.1)."""
        count, asked = other.unanswered.pop(channel, (0, None))
        if count == 1:
            half.pair(asked)
            return None
        half.room = inf
        if count:
            other.unanswered[channel] = (count - 1, asked)
        return None if count or other.is_doubtful else f"NotFound (no Begin on channel {channel} waits for an answer)"
