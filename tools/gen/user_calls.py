"""What the program example_transport prints of a user's calls; what the peer is told of each refusal is read off the table in docs/PROTOCOL.md."""

import re
from pathlib import Path

from amqp.canonical import composite, symbol
from amqp.frames import END

ROOT = Path(__file__).resolve().parents[2]

CONVERSIONS = """OutputHandle(7) is Handle(7)
InputHandle(4294967295) is Handle(4294967295)
Handle(9) is OutputHandle(9)
Handle(10) is InputHandle(10)
OutgoingChannel(11) is 11
IncomingChannel(65535) is 65535
ConnectionNotOpened is ConnectionNotOpened
ConnectionStopped(RemoteClosed) is ConnectionStopped(RemoteClosed)
ChannelMaxReached is LocalChannelMaxReached
OutOfMemory is OutOfMemory"""

# The refusals, by the variant of StepError that holds them
REFUSALS = {
    "": "OutputWaiting NoSession SessionInUse OutOfMemory",
    "AllocSession": "ChannelMaxReached",
    "AllocLink": "HandlesExhausted",
    "Frame": "Io DecodeError NotImplemented TooLarge OutOfMemory",
    "ConnectionState": "IllegalState RemoteClosed RemoteClosedWithError TransportError OutOfMemory",
    "Connection": "TransportError IllegalState NotImplemented NotFound RemoteClosed RemoteClosedWithError OutOfMemory",
    "SessionState": "IllegalState ConnectionStopped RemoteEnded RemoteEndedWithError OutOfMemory",
    "Session": "UnattachedHandle RemoteAttachingLinkNameNotFound HandleInUse IllegalState TransferFrameToSender UnknownTxnId OutOfMemory"
    " ConnectionStopped RemoteEnded RemoteEndedWithError",
}

STATES = "Start HeaderReceived HeaderSent HeaderExchange OpenPipe OpenClosePipe OpenReceived OpenSent ClosePipe Opened CloseReceived CloseSent"
STATES += " Discarding End"

# The conditions, by what their texts begin with (part 2, sections 2.8.15 to 2.8.18; part 4, section 4.5.8)
CONDITIONS = {
    "amqp:": "InternalError NotFound UnauthorizedAccess DecodeError ResourceLimitExceeded NotAllowed InvalidField NotImplemented ResourceLocked"
    " PreconditionFailed ResourceDeleted IllegalState FrameSizeTooSmall",
    "amqp:connection:": "ConnectionForced FramingError ConnectionRedirect",
    "amqp:session:": "WindowViolation ErrantLink HandleInUse UnattachedHandle",
    "amqp:link:": "DetachForced TransferLimitExceeded MessageSizeExceeded LinkRedirect Stolen",
}
# A Begin of default settings
BEGUN = "out 02000000005311c00d04404370000013887000001388"


def page():
    """The part of docs/PROTOCOL.md on what the peer is told."""
    text = (ROOT / "docs" / "PROTOCOL.md").read_text()
    return text.split("## What the peer is told of a refused frame")[1].split("\n## ")[0]


def table(of):
    """What the page's table says of each refusal, by its name there: `End CONDITION`, `Close CONDITION` or `nothing`."""
    found = {}
    for refusals, frame, says in re.findall(r"^\| (.*?) \| (End|Close|none) \| (.*) \|$", of, re.M):
        for name in re.findall(r"`([^`]+)`", refusals):
            found[name] = "nothing" if frame == "none" else f"{frame} {re.search('`([^`]+)`', says)[1]}"
    return found


def told(found, variant, name):
    """What the table says of a refusal: its own row, else that of its variant, or of its name."""
    said = [found[row] for row in (f"{variant}({name})", variant, name) if row in found]
    return f"{variant} {name}".strip() + f": {said[0]}"


def after_close(of):
    """The states in which nothing is told."""
    return re.search(r"Nothing is told in ([^:]*):", of)[1].replace(" and ", ", ").split(", ")


def spelled(prefix, name):
    """The text of a condition: its words in lower case, without the kind that the prefix says."""
    words = re.findall("[A-Z][a-z]*", name)
    if words[0].lower() == prefix[5:-1]:
        del words[0]
    return f"{name}: {prefix}{'-'.join(words).lower()}"


def wanted():
    """The lines, as one list."""
    of = page()
    found, quiet = table(of), after_close(of)
    lines = CONVERSIONS.splitlines()
    lines += [told(found, variant, name) for variant, names in REFUSALS.items() for name in names.split()]
    lines += [f"{state}: {'nothing' if state in quiet else 'told'}" for state in STATES.split()]
    lines += [spelled(prefix, name) for prefix, names in CONDITIONS.items() for name in names.split()]
    lines += ["UnknownTransaction: amqp:transaction:unknown-id", BEGUN, "err UnattachedHandle"]
    lines.append("out 02000000" + composite(END, [composite(0x1D, [symbol("amqp:session:unattached-handle")])]).hex())
    return lines
