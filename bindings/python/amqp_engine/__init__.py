"""AMQP 1.0 for Python, by a proved engine: frames, connection and sessions (AMQP 1.0 part 2), over the library
`libamqp1.so`.

    from amqp_engine import Engine, Open

    engine = Engine(Open("me"))
    engine.open()
    socket.sendall(engine.to_send())
    for event in engine.receive(socket.recv(65536)):
        print(event)

`Engine` does no input or output itself; `connect` and `serve` are a transport by `asyncio`. Protocol headers and SASL
are the library's: `opening` says how a stream begins.
"""

from . import blocking
from .accepting import Crowded, Listening, serve
from .addresses import source_of, target_of
from .client import Backoff, Client
from .connecting import connect
from .driver import Delivery, Driver, LinkEvent, Record, Taken, Tick, Told, Unsettled
from .ends import Link, LinkHandler
from .engine import Engine

from .errors import (
    AlreadyClosed, AmqpError, ConnectionClosed, ConnectionLost, LinkClosed, LoginRefused, NotAccepted, SessionClosed,
    TimedOut,
)  # fmt: skip
from .events import AnyEvent, Attached, Detached, Disposed, Event, Flowed, Refusal, Transferred
from .handed import IncomingDelivery, OutgoingDelivery
from .incoming import IncomingLink
from .message import Message
from .opening import Opening
from .outcomes import Accepted, Modified, Outcome, Rejected, Released, Settled
from .outgoing import OutgoingLink

from .performatives import (
    ACCEPTED, FIRST, MIXED, RECEIVER, RELEASED, SECOND, SENDER, SETTLED, UNSETTLED, Attach, Begin, Close, Detach,
    Disposition, End, Error, Flow, Open, Transfer, address_of, body_of, data, rejected, source, target,
)  # fmt: skip
from .receiving import ReceivedDelivery, Receiver
from .requesting import BadArgument, NoMemory
from .sasl import Anonymous, External, Plain
from .sending import Sender
from .served import Served
from .serving import Closed, Server, SessionBegan, SessionEnded
from .sessions import Limits, ServedSession
from .stream import PeerSilent, Waits
from .transport import Connection, HeaderRefused, SessionRefused, condition_of

from .values import (
    Array, Byte, Char, Decimal, Described, Float, Int, Malformed, Map, Repeated, Short, Symbol, Timestamp, Ubyte, Uint,
    Ulong, Ushort,
)  # fmt: skip

__version__ = "0.1.0"

__all__ = [
    "ACCEPTED", "Accepted", "AlreadyClosed", "AmqpError", "Anonymous", "AnyEvent", "Array", "Attach", "Attached",
    "Backoff", "BadArgument", "Begin", "Byte", "Char", "Client", "Close", "Closed", "Connection", "ConnectionClosed",
    "ConnectionLost", "Crowded", "Decimal", "Delivery", "Described", "Detach", "Detached", "Disposed", "Disposition",
    "Driver", "End", "Engine", "Error", "Event", "External", "FIRST", "Float", "Flow", "Flowed", "HeaderRefused",
    "IncomingDelivery", "IncomingLink", "Int", "Limits", "Link", "LinkClosed", "LinkEvent", "LinkHandler",
    "Listening", "LoginRefused", "MIXED", "Malformed", "Map", "Message", "Modified", "NoMemory", "NotAccepted", "Open",
    "Opening", "Outcome", "OutgoingDelivery", "OutgoingLink", "PeerSilent", "Plain", "RECEIVER", "RELEASED",
    "ReceivedDelivery", "Receiver", "Record", "Refusal", "Rejected", "Released", "Repeated", "SECOND", "SENDER",
    "SETTLED", "Sender", "Served", "ServedSession", "Server", "SessionBegan", "SessionClosed", "SessionEnded",
    "SessionRefused", "Settled", "Short", "Symbol", "Taken", "Tick", "TimedOut", "Timestamp", "Told", "Transfer",
    "Transferred", "UNSETTLED", "Ubyte", "Uint", "Ulong", "Unsettled", "Ushort", "Waits", "address_of", "blocking",
    "body_of", "condition_of", "connect", "data", "rejected", "serve", "source", "source_of", "target", "target_of",
]  # fmt: skip
