"""A trace of frames, by `logging` at the level DEBUG under the name `amqp_engine.frames`. No password stands in it: of
SASL it has the frames' names alone."""

from __future__ import annotations

import logging
from typing import Any, Dict, List, Tuple, Type

from .performatives import Attach, Begin, Close, Detach, Disposition, End, Flow, Open, Performative, Transfer, names_of
from .values import Described, Malformed, read

#: Where the lines go
LOG = logging.getLogger("amqp_engine.frames")
_MOST = 400
_KINDS: Tuple[Type[Performative], ...] = (Open, Begin, Attach, Flow, Transfer, Disposition, Detach, End, Close)
_NAMES: Dict[int, Type[Performative]] = {it.CODE: it for it in _KINDS}
_SASL = {
    0x40: "sasl-mechanisms", 0x41: "sasl-init", 0x42: "sasl-challenge", 0x43: "sasl-response", 0x44: "sasl-outcome",
}  # fmt: skip


class Trace:
    """What goes one way of a connection, as lines. Nothing is done where DEBUG is off."""

    def __init__(self, name: str, sign: str) -> None:
        self._name, self._sign, self._left = name, sign, b""
        #: Whether lines are wanted
        self.is_on = LOG.isEnabledFor(logging.DEBUG)

    def tell(self, data: bytes) -> None:
        """Logs the headers and the frames that are whole with these bytes."""
        data, at = self._left + data, 0
        while len(data) - at >= 8:
            size = 8 if data[at : at + 4] == b"AMQP" else int.from_bytes(data[at : at + 4], "big")
            if size < 8 or len(data) - at < size:
                break
            LOG.debug("%s %s %s", self._name, self._sign, line_of(data[at : at + size]))
            at += size
        self._left = data[at:]


def line_of(frame: bytes) -> str:
    """A header or a whole frame in a line."""
    if frame[:4] == b"AMQP":
        return f"header {'SASL' if frame[4] == 3 else 'AMQP'} {frame[5]}.{frame[6]}.{frame[7]}"
    start, channel = 4 * frame[4], int.from_bytes(frame[6:8], "big")
    if len(frame) <= start:
        return f"[{channel}] empty frame"
    try:
        said, end = read(frame, start)
    except Malformed as error:
        return f"[{channel}] unreadable: {error}"
    code = said.descriptor if isinstance(said, Described) else None
    if code in _SASL:
        return _SASL[code]
    payload = f" + {len(frame) - end} bytes" if end < len(frame) else ""
    return f"[{channel}] {_text(code, said)[:_MOST]}{payload}"


def _text(code: Any, said: Any) -> str:
    """A performative by its fields that are not null."""
    if code not in _NAMES or not isinstance(said.value, list):
        return repr(said)
    kind = _NAMES[code]
    fields: List[Tuple[str, Any]] = [(name, it) for name, it in zip(names_of(kind), said.value) if it is not None]
    return f"{kind.__name__}({', '.join(f'{name}={it!r}' for name, it in fields)})"
