"""Queues in memory, for broker.py: no client can make them keep more than so many bytes, and one that does not read
holds nobody up. What is to be done for queues is done for a moment at a time, and then others have their turn."""

import asyncio
import time
from collections import OrderedDict, deque

#: Bytes of a message, of all messages of a queue, and of all queues
MESSAGE_MOST, QUEUE_MOST, ALL_MOST = 1 << 20, 16 << 20, 64 << 20
#: What a message, alone in its queue, takes beside its bytes
BESIDE = 1024
#: For how long, in seconds, queues are looked after before others have their turn; and how many messages of one at once
TURN, AT_ONCE = 0.001, 16


class Queue:
    """Messages that wait, the receivers that want some, and the senders that may not send more for now. Messages that
    were handed out, and are not settled, count for the queue still."""

    def __init__(self, queues, address):
        self.queues, self.address = queues, address
        self.messages, self.returned, self.size, self.links = deque(), [], 0, 0
        # receivers with credit; those that drain theirs; and senders without credit
        self.ready, self.draining, self.senders = OrderedDict(), OrderedDict(), OrderedDict()

    def __len__(self):
        return len(self.messages) + len(self.returned)

    def put(self, message):
        """Takes a message, if there is room for it."""
        size = len(message) + BESIDE
        if self.size + size > QUEUE_MOST or self.queues.size + size > ALL_MOST:
            return False
        self.messages.append(message)
        self.count(size)
        if self.ready:
            self.queues.soon(self)
        return True

    def put_back(self, *messages):
        """Messages come back, the oldest first, before those that wait."""
        self.returned.extend(messages)
        self.queues.soon(self)

    def forget(self, message):
        """A message is gone for good."""
        was_full = self.queues.is_full()
        self.count(-len(message) - BESIDE)
        if was_full and not self.queues.is_full():
            self.queues.has_room_again()
        if self.senders:
            self.queues.soon(self)

    def count(self, size):
        self.size += size
        self.queues.size += size

    def has_room(self):
        return self.size < QUEUE_MOST // 2 and not self.queues.is_full()

    def wait_for_room(self, sender):
        """A sender gets no credit until there is room."""
        self.senders[sender] = None
        self.queues.waiting[self] = None

    def wait_for_messages(self, receiver):
        """A receiver has credit, which it may drain."""
        self.ready[receiver] = self.draining[receiver] = None
        if len(self):
            self.queues.soon(self)

    def leave(self, link):
        """A link wants nothing any more."""
        for it in (self.ready, self.draining, self.senders):
            it.pop(link, None)

    def work(self):
        """Some of what is to be done. Answers whether there is more."""
        self.messages.extendleft(reversed(self.returned))
        self.returned.clear()
        for _ in range(AT_ONCE):
            if self.messages and self.ready:
                self.hand_out()
            elif not self.messages and self.draining:
                self.draining.popitem(last=False)[0].link.answer()
            elif self.senders and self.has_room():
                self.senders.popitem(last=False)[0].renew()
            else:
                return False
        return True

    def hand_out(self):
        """A message goes to the receiver whose turn it is. One whose client cannot take more comes back once it can."""
        receiver, _ = self.ready.popitem(last=False)
        if receiver.sends(self.messages[0]):
            self.messages.popleft()
            if receiver.link.credit:
                self.ready[receiver] = None
            else:
                receiver.link.answer(len(self))

    def attach(self):
        self.links += 1

    def detach(self):
        """A queue that nobody uses goes."""
        self.links -= 1
        if not self.links and not len(self):
            self.queues.go(self)


class Queues:
    """All queues, by their address."""

    def __init__(self):
        self.of_address, self.size, self.is_called = {}, 0, False
        # queues for which there is something to be done, and those of which senders wait
        self.due, self.waiting = OrderedDict(), OrderedDict()

    def __getitem__(self, address):
        return self.of_address.setdefault(address, Queue(self, address))

    def all(self):
        return list(self.of_address.values())

    def is_full(self):
        """Whether no sender is to have more credit."""
        return self.size >= ALL_MOST // 2

    def has_room_again(self):
        self.due.update(self.waiting)
        self.call_soon()

    def soon(self, queue):
        """There is something to be done for a queue, once the loop goes on."""
        self.due[queue] = None
        self.call_soon()

    def call_soon(self):
        if self.due and not self.is_called:
            self.is_called = True
            asyncio.get_running_loop().call_soon(self.work)

    def work(self):
        """What is due is done, for a moment, a little of each queue in turn."""
        self.is_called, until = False, time.monotonic() + TURN
        while self.due and time.monotonic() < until:
            queue, _ = self.due.popitem(last=False)
            if queue.work():
                self.due[queue] = None
            elif not queue.senders:
                self.waiting.pop(queue, None)
        self.call_soon()

    def go(self, queue):
        del self.of_address[queue.address]
        self.due.pop(queue, None)
        self.waiting.pop(queue, None)
