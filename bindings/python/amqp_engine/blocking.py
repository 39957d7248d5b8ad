"""The client for scripts, whose calls wait: the same names without `await`. A thread of its own has the loop.

    from amqp_engine import Message, blocking

    with blocking.connect("amqp://localhost/") as connection:
        with connection.sender("queue") as sender:
            sender.send(Message("hello"))
        with connection.receiver("queue") as receiver:
            for delivery in receiver:
                print(delivery.message.body)
                delivery.accept()

Any thread may call; each call waits for its own answer. A call that is interrupted, as by Ctrl-C, is cancelled.
"""

from __future__ import annotations

import asyncio
import threading
from typing import Any, Callable, Coroutine, Iterator, Mapping, Optional, TypeVar

from .client import Client as _Client
from .connecting import how_of
from .errors import AlreadyClosed
from .message import Message
from .outcomes import STATE_ACCEPTED, STATE_RELEASED, Outcome
from .performatives import Error, Open
from .receiving import ReceivedDelivery as _Delivery
from .receiving import Receiver as _Receiver
from .sending import Sender as _Sender

_T = TypeVar("_T")


class _Loop:
    """A loop in a thread of its own."""

    def __init__(self) -> None:
        self._loop = asyncio.new_event_loop()
        self._thread = threading.Thread(target=self._loop.run_forever, name="amqp_engine", daemon=True)
        self._thread.start()
        self.is_over = False

    def run(self, what: Callable[[], Coroutine[Any, Any, _T]]) -> _T:
        """What is awaited there. Where this thread is interrupted, it is cancelled."""
        if self.is_over:
            raise AlreadyClosed("this side has closed the connection")
        future = asyncio.run_coroutine_threadsafe(what(), self._loop)
        try:
            return future.result()
        except BaseException:
            future.cancel()
            raise

    def call(self, what: Callable[[], _T]) -> _T:
        """What is called there."""

        async def called() -> _T:
            return what()

        return self.run(called)

    def soon(self, what: Callable[..., object], *given: Any) -> None:
        """Has the loop call this, and does not wait for it."""
        if self.is_over:
            raise AlreadyClosed("this side has closed the connection")
        self._loop.call_soon_threadsafe(what, *given)

    def end(self) -> None:
        """No call waits any more."""
        if not self.is_over:
            self.is_over = True
            self._loop.call_soon_threadsafe(self._loop.stop)
            self._thread.join()
            self._loop.close()


class Delivery:
    """A message that came: `client.ReceivedDelivery`, whose calls wait."""

    def __init__(self, loop: _Loop, delivery: _Delivery) -> None:
        self._loop, self._it = loop, delivery

    @property
    def message(self) -> Message:
        """The message. Raises `Malformed` where the bytes are none."""
        return self._it.message

    @property
    def payload(self) -> bytes:
        """The message's bytes."""
        return self._it.payload

    @property
    def tag(self) -> bytes:
        """The delivery's tag."""
        return self._it.tag

    @property
    def settled(self) -> bool:
        """Whether it is settled."""
        return self._it.settled

    def accept(self) -> None:
        """The message was taken. Raises the error by which the link ended, where it did."""
        self._it.settle_by(self._loop.soon, STATE_ACCEPTED)

    def release(self) -> None:
        """The message was not processed."""
        self._it.settle_by(self._loop.soon, STATE_RELEASED)

    def reject(self, condition: Optional[str] = None, description: Optional[str] = None) -> None:
        """The message is no good."""
        self._loop.run(lambda: self._it.reject(condition, description))

    def modify(
        self, *, failed: bool = True, undeliverable: bool = False, annotations: Optional[Mapping[Any, Any]] = None
    ) -> None:
        """The message was not processed, and is changed so."""
        self._loop.run(lambda: self._it.modify(failed=failed, undeliverable=undeliverable, annotations=annotations))

    def __repr__(self) -> str:
        return repr(self._it)


class Sender:
    """A sender, whose calls wait."""

    def __init__(self, loop: _Loop, sender: _Sender) -> None:
        self._loop, self._it = loop, sender

    def open(self, timeout: Optional[float] = None) -> "Sender":
        """Attaches the link."""
        self._loop.run(lambda: self._it.open(timeout))
        return self

    def send(
        self, message: Any, *, timeout: Optional[float] = None, settled: bool = False, raises: bool = True
    ) -> Outcome:
        """Sends a message, and answers what became of it."""
        return self._loop.run(lambda: self._it.send(message, timeout=timeout, settled=settled, raises=raises))

    @property
    def credit(self) -> int:
        """How many messages the peer takes now."""
        return self._loop.call(lambda: self._it.credit)

    @property
    def address(self) -> Optional[str]:
        """The address of the peer's node."""
        return self._it.address

    def close(self, error: Optional[Error] = None) -> None:
        """Ends the link for good."""
        self._loop.run(lambda: self._it.close(error))

    def __enter__(self) -> "Sender":
        return self.open()

    def __exit__(self, *_: object) -> None:
        if not self._loop.is_over:
            self.close()


class Receiver:
    """A receiver, whose calls wait, and an iterator of deliveries."""

    def __init__(self, loop: _Loop, receiver: _Receiver) -> None:
        self._loop, self._it = loop, receiver

    def open(self, timeout: Optional[float] = None) -> "Receiver":
        """Attaches the link."""
        self._loop.run(lambda: self._it.open(timeout))
        return self

    def receive(self, timeout: Optional[float] = None) -> Delivery:
        """The next delivery. Raises `TimedOut` where none comes in time."""
        delivery = self._it.taken()
        if delivery is None:
            delivery = self._loop.run(lambda: self._it.receive(timeout))
        else:
            self._loop.soon(self._it.renew)
        return Delivery(self._loop, delivery)

    def __iter__(self) -> Iterator[Delivery]:
        return self

    def __next__(self) -> Delivery:
        try:
            return self.receive()
        except AlreadyClosed:
            raise StopIteration from None

    def grant(self, credit: int) -> None:
        """Grants so much credit."""
        self._loop.call(lambda: self._it.grant(credit))

    def drain(self, timeout: Optional[float] = None) -> int:
        """Has the peer send what it has, and give the rest of the credit back."""
        return self._loop.run(lambda: self._it.drain(timeout))

    @property
    def address(self) -> Optional[str]:
        """The address of the peer's node: of a dynamic one as the peer gave it."""
        return self._it.address

    @property
    def waiting(self) -> int:
        """How many deliveries have come and wait to be taken."""
        return self._it.waiting

    def close(self, error: Optional[Error] = None) -> None:
        """Ends the link for good."""
        self._loop.run(lambda: self._it.close(error))

    def __enter__(self) -> "Receiver":
        return self.open()

    def __exit__(self, *_: object) -> None:
        if not self._loop.is_over:
            self.close()


class Client:
    """A connection, whose calls wait."""

    def __init__(self, url: str, **how: Any) -> None:
        self._how = how_of(url, **how)
        self._loop: Optional[_Loop] = None
        self._it: Optional[_Client] = None

    def open(self) -> "Client":
        """Connects."""
        self._loop = loop = _Loop()
        try:
            self._it = loop.call(lambda: _Client(self._how))
            loop.run(self._it.open)
        except BaseException:
            loop.end()
            raise
        return self

    def close(self, error: Optional[Error] = None) -> None:
        """Closes the links and the connection."""
        if self._loop is not None and not self._loop.is_over and self._it is not None:
            it = self._it
            try:
                self._loop.run(lambda: it.close(error))
            finally:
                self._loop.end()

    def sender(self, address: Optional[str], **how: Any) -> Sender:
        """A sender to an address, by the words of the client's `sender`."""
        return Sender(self._there(), self._client().sender(address, **how))

    def receiver(self, address: Optional[str] = None, **how: Any) -> Receiver:
        """A receiver from an address, by the words of the client's `receiver`."""
        return Receiver(self._there(), self._client().receiver(address, **how))

    @property
    def is_open(self) -> bool:
        """Whether a connection is there now."""
        return self._it is not None and self._it.is_open

    @property
    def remote(self) -> Optional[Open]:
        """The peer's Open."""
        return self._client().remote

    def _client(self) -> _Client:
        if self._it is None:
            raise RuntimeError("the connection is not open")
        return self._it

    def _there(self) -> _Loop:
        assert self._loop is not None
        return self._loop

    def __enter__(self) -> "Client":
        return self.open()

    def __exit__(self, *_: object) -> None:
        self.close()


def connect(url: str, **how: Any) -> Client:
    """A connection by a URL, by the words of `amqp_engine.connect`; to be opened by `with`, or by `open`."""
    return Client(url, **how)
