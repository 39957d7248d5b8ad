"""Connections made: `connect`."""

from __future__ import annotations

import asyncio
import contextlib
import ssl
from typing import Any, AsyncIterator, Optional

from . import sasl
from .performatives import Open
from .stream import Waits, within
from .transport import Connection


@contextlib.asynccontextmanager
async def connect(
    host: str,
    port: int,
    open: Open,
    *,
    login: Optional[sasl.Login] = sasl.Anonymous(),
    tls: Optional[ssl.SSLContext] = None,
    key: Optional[bytes] = None,
    library: Optional[str] = None,
    waits: Optional[Waits] = None,
) -> AsyncIterator[Connection]:
    """A connection to a peer that listens, with its headers and SASL done. `login=None` leaves SASL out."""
    opens = asyncio.open_connection(host, port, ssl=tls)
    reader, writer = await within((waits or Waits()).login, opens, "no connection")
    connection = _made(reader, writer, open, key=key, library=library, waits=waits)
    try:
        await connection.begin(login)
        yield connection
    finally:
        await connection.aclose()


def _made(reader: asyncio.StreamReader, writer: asyncio.StreamWriter, *given: Any, **how: Any) -> Connection:
    """A connection over a stream, which is closed where none can be made."""
    try:
        return Connection(reader, writer, *given, **how)
    except BaseException:
        writer.transport.abort()
        raise
