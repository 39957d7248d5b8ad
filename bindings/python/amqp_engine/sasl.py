"""SASL's mechanisms, of either side (AMQP 1.0 part 5, section 5.3): ANONYMOUS, PLAIN and EXTERNAL. Its frames are the
library's."""

from __future__ import annotations

import inspect
from dataclasses import dataclass
from typing import Awaitable, Callable, Optional, Tuple, Union

from .errors import LoginRefused

#: What an outcome says: the login is taken, it is not, or this side failed to judge it (section 5.3.3.6)
OK, AUTH, SYS = 0, 1, 2

#: What judges a name and a password. `True` lets them in, and nothing else does, be it as true as a coroutine that
#: nobody awaited.
Check = Callable[[str, str], Union[bool, Awaitable[bool]]]


@dataclass
class Anonymous:
    """No name, no password."""

    trace: str = "amqp_engine"


@dataclass
class Plain:
    """A name and a password; they go over the wire as they are, so use TLS."""

    user: str
    password: str


@dataclass
class External:
    """Who is known by other means, as by a certificate of TLS; `identity` is as whom to act, where that is another
    one."""

    identity: str = ""


#: How a client logs in
Login = Union[Anonymous, Plain, External]


def said_by(login: Login) -> Tuple[str, bytes]:
    """The mechanism of a login, and what a client says first (RFC 4505, RFC 4616, RFC 4422)."""
    if isinstance(login, Plain):
        return "PLAIN", f"\0{login.user}\0{login.password}".encode()
    if isinstance(login, External):
        return "EXTERNAL", login.identity.encode()
    return "ANONYMOUS", login.trace.encode()


def offered_for(check: Optional[Check]) -> str:
    """The mechanism of a server: PLAIN where logins are checked, else ANONYMOUS."""
    return "PLAIN" if check else "ANONYMOUS"


def plain_of(response: Optional[bytes]) -> Optional[Plain]:
    """The login of a response of PLAIN, if it is one. In whose name it is to act, which PLAIN says first, is left
    aside."""
    parts = (response or b"").split(b"\0")
    if len(parts) != 3:
        return None
    try:
        return Plain(parts[1].decode(), parts[2].decode())
    except UnicodeDecodeError:
        return None


async def judge(mechanism: str, response: Optional[bytes], check: Optional[Check]) -> bool:
    """Whether a client is let in that chose this mechanism, of which one alone is offered. What `check` raises is
    raised."""
    if mechanism != offered_for(check):
        return False
    if check is None:
        return True
    login = plain_of(response)
    if login is None:
        return False
    said = check(login.user, login.password)
    return (await said if inspect.isawaitable(said) else said) is True


__all__ = [
    "AUTH", "Anonymous", "Check", "External", "Login", "LoginRefused", "OK", "Plain", "SYS", "judge", "offered_for",
    "plain_of", "said_by",
]  # fmt: skip
