"""What a client's calls raise. Each error has the standard's `condition`, as `amqp:not-found`, and a `description`,
where the peer gave one.

    AmqpError
      ConnectionLost      the stream ended without a Close, or the peer fell silent; a ConnectionError too
      ConnectionClosed    the peer closed the connection, and may say why
      SessionClosed       the peer ended the session, and may say why
      LinkClosed          the peer detached the link, or refused it, and may say why
      AlreadyClosed       this side has closed it
      NotAccepted         a message was rejected, released or modified: `outcome` says which
      LoginRefused        the peer does not take the login; no ConnectionError

A call whose time is over raises `TimedOut`, which is a `TimeoutError`.
"""

from __future__ import annotations

from typing import TYPE_CHECKING, Optional, Type, TypeVar

from .performatives import Error

if TYPE_CHECKING:
    from .outcomes import Outcome

_E = TypeVar("_E", bound="AmqpError")


class AmqpError(Exception):
    """What a peer, or the end of a connection, did to a call."""

    def __init__(self, what: str, condition: Optional[str] = None, description: Optional[str] = None) -> None:
        super().__init__(": ".join(it for it in (what, condition, description) if it))
        #: the standard's name of what is wrong, as `amqp:not-found`; `None` where the peer gave none
        self.condition = condition
        #: the same in the peer's words; `None` where it gave none
        self.description = description
        #: whether a message went out, and what became of it is not known: it may have been taken
        self.is_unsettled = False

    @classmethod
    def of(cls: Type[_E], what: str, error: Optional[Error]) -> _E:
        """The error of a peer's error, if there is one."""
        return cls(what) if error is None else cls(what, str(error.condition), error.description)


class ConnectionLost(AmqpError, ConnectionError):
    """The stream ended without a Close, or the peer fell silent."""


class ConnectionClosed(AmqpError):
    """The peer closed the connection."""


class SessionClosed(AmqpError):
    """The peer ended the session."""


class LinkClosed(AmqpError):
    """The peer detached the link, or refused it."""


class AlreadyClosed(AmqpError):
    """This side has closed the connection or the link."""


class LoginRefused(AmqpError):
    """The peer does not take this login, or offers no mechanism for it."""


class NotAccepted(AmqpError):
    """The peer did not take a message."""

    def __init__(self, outcome: "Outcome") -> None:
        error = outcome.error
        condition, description = (None, None) if error is None else (str(error.condition), error.description)
        super().__init__(f"the message was {outcome.name}", condition, description)
        #: what became of it
        self.outcome = outcome


class TimedOut(TimeoutError):
    """A call took longer than its time-out."""

    def __init__(self, what: str, is_unsettled: bool = False) -> None:
        super().__init__(what)
        #: whether a message went out, and what became of it is not known: it may have been taken
        self.is_unsettled = is_unsettled
