"""Messages (AMQP 1.0 part 3, section 3.2), made by a program or read from the payload of a delivery.

    message = Message("hello", subject="greeting", durable=True, properties={"k": 1})
    payload = message.encode()
    again = Message.decode(payload)
    assert (again.body, again.subject, again.properties["k"]) == ("hello", "greeting", 1)

`properties` are the *application properties*, which a program chooses; what the standard calls properties
(`message_id`, `to`, `subject`, ..) are attributes, and so are the fields of the header (`durable`, `priority`, ..).
"""

from __future__ import annotations

from typing import Any, Dict, Iterable, List, Mapping, Optional, Tuple, Type, TypeVar

from .sections import (
    APPLICATION_PROPERTIES, BODY, DATA, DELIVERY_ANNOTATIONS, FOOTER, HEADER, MESSAGE_ANNOTATIONS, PROPERTIES, SEQUENCE,
    VALUE, Header, Properties, Section, section, sections_of,
)  # fmt: skip
from .values import Malformed, Map, Symbol, read, write

#: What a body is: `Message.kind`
KIND_DATA, KIND_VALUE, KIND_SEQUENCE = "data", "value", "sequence"
_KINDS = {KIND_DATA: DATA, KIND_SEQUENCE: SEQUENCE, KIND_VALUE: VALUE}
_CODES = {code: kind for kind, code in _KINDS.items()}
_FIELDS: Dict[int, Any] = {HEADER: Header, PROPERTIES: Properties}
_BEFORE = (HEADER, DELIVERY_ANNOTATIONS, MESSAGE_ANNOTATIONS, PROPERTIES, APPLICATION_PROPERTIES)
_NO_PLACES: List[Section] = []
_BYTES = (bytes, bytearray)
_M = TypeVar("_M", bound="Message")


def _field(code: int, name: str, otherwise: Any = None) -> Any:
    """An attribute that is a field of the header or of the properties. `otherwise` is the standard's default for
    null."""

    def get(message: "Message") -> Any:
        fields = message._section(code)
        found = None if fields is None else getattr(fields, name)
        return otherwise if found is None else found

    def put(message: "Message", value: Any) -> None:
        fields = message._section(code) or _FIELDS[code]()
        setattr(fields, name, value)
        message._put(code, fields)

    return property(get, put)


def _mapping(code: int) -> Any:
    """An attribute of a message that is a map: an empty one where the section is not there."""

    def get(message: "Message") -> Any:
        found = message._section(code)
        return Map() if found is None else found

    def put(message: "Message", value: Mapping[Any, Any]) -> None:
        message._put(code, value)

    return property(get, put)


class Message:
    """A message. What a program gives goes out in the shortest spelling; what was read, and is not assigned anew, goes
    out as the bytes that came.

    The body is by default one data section where it is `bytes`, and else an AMQP value; `kind` chooses: `"data"`
    (bytes, or a list of them, a section each), `"value"`, or `"sequence"` (a list, in one section). Of what was read
    `body` joins the sections. The other arguments are attributes.

        Message(b"bytes")                                # a data section
        Message({"a": [1, 2.5, None]}, to="queue")       # an AMQP value
        Message([1, 2], kind="sequence", annotations={"x-opt-k": "v"})

    A section is read when it is first looked at; `Malformed` is raised then, where its bytes are no value of its
    type."""

    def __init__(
        self,
        body: Any = None,
        *,
        kind: Optional[str] = None,
        properties: Optional[Mapping[str, Any]] = None,
        **fields: Any,
    ) -> None:
        """A message of this body. `properties` are application properties; `fields` are attributes by their names:
        `subject=..`, `durable=..`, `annotations=..`. Raises `TypeError` for a name that no message has."""
        code, parts = (DATA, [body]) if kind is None and type(body) is bytes else _body_of(body, kind)
        # the bytes that came, and the places of their sections
        self._came, self._places = b"", _NO_PLACES
        # the values of sections that were given, or read; and which of them are to be written anew
        self._values: Dict[int, Any] = {code: parts}
        self._changed = {code}
        if properties is not None:
            self._put(APPLICATION_PROPERTIES, properties)
        for name, value in fields.items():
            if name.startswith("_") or not isinstance(getattr(Message, name, None), property):
                raise TypeError(f"a message has no {name}")
            setattr(self, name, value)

    @classmethod
    def decode(cls: Type[_M], payload: bytes) -> _M:
        """The message whose bytes these are. Raises `Malformed` where they are no sections."""
        message = cls.__new__(cls)
        message._came = came = bytes(payload)
        message._places = sections_of(came)
        message._values, message._changed = {}, set()
        return message

    def encode(self) -> bytes:
        """Its bytes, as the payload of a delivery."""
        if not self._places:
            codes = sorted(self._changed)
            parts = [self._body_bytes(it) if it in BODY else self._bytes_of(it) for it in codes]
            return b"".join(parts)
        if not self._changed:
            return self._came
        parts = [self._bytes_of(code) for code in _BEFORE]
        body = next((code for code in BODY if code in self._changed), None)
        parts += [self._bytes_of(it) for it in BODY] if body is None else [self._body_bytes(body)]
        return b"".join([*parts, self._bytes_of(FOOTER)])

    def _bytes_of(self, code: int) -> bytes:
        """A section: its new bytes, or those that came."""
        if code not in self._changed:
            return b"".join(self._came[it.at : it.end] for it in self._places if it.code == code)
        value = self._values[code]
        if value is None:
            return b""
        if code in _FIELDS:
            return write(value.described()) if value != _FIELDS[code]() else b""
        return section(code, value if code == APPLICATION_PROPERTIES else _by_symbols(value)) if len(value) else b""

    def _body_bytes(self, code: int) -> bytes:
        parts = self._values[code]
        return section(code, parts[0]) if len(parts) == 1 else b"".join([section(code, it) for it in parts])

    # ---- the sections

    def _section(self, code: int) -> Any:
        """The value of a section; `None` where it is not there."""
        if code not in self._values:
            places = [it.at if code in _FIELDS else it.value_at for it in self._places if it.code == code]
            found = [read(self._came, at)[0] for at in places]
            value = found[0] if found else None
            if found and code in _FIELDS:
                value = _FIELDS[code].of(value)
            elif found and not isinstance(value, Map):
                raise Malformed(f"a section {code:02x} that is no map")
            self._values[code] = value
        return self._values[code]

    def _put(self, code: int, value: Any) -> None:
        self._values[code] = value
        self._changed.add(code)

    # ---- the body

    @property
    def kind(self) -> Optional[str]:
        """What the body is: `"data"`, `"value"` or `"sequence"`; `None` where there is none."""
        code = self._body_code()
        return None if code is None else _CODES[code]

    def _body_code(self) -> Optional[int]:
        """The code of the body's sections; `None` where there is none."""
        if self._changed:
            for code in BODY:
                if code in self._changed:
                    return code
        for it in self._places:
            if it.code in BODY:
                return it.code
        return None

    @property
    def body(self) -> Any:
        """The body: `bytes` of data sections, joined; the value; or the list of a sequence. To assign it makes a body
        of the kind that its type has by default."""
        code = self._body_code()
        if code is None:
            return None
        parts = self._parts(code)
        if code == VALUE:
            return parts[0]
        for it in parts:
            if not isinstance(it, _BYTES if code == DATA else list):
                raise Malformed(f"a section of a {_CODES[code]} that is another value")
        return b"".join(parts) if code == DATA else [item for part in parts for item in part]

    @body.setter
    def body(self, body: Any) -> None:
        self._put_body(body)

    def _parts(self, code: int) -> List[Any]:
        """The values of the body's sections."""
        if code not in self._values:
            self._values[code] = [read(self._came, it.value_at)[0] for it in self._places if it.code == code]
        parts: List[Any] = self._values[code]
        return parts

    def _put_body(self, body: Any) -> None:
        new, parts = _body_of(body, None)
        for code in BODY:
            self._values.pop(code, None)
            self._changed.discard(code)
        self._put(new, parts)

    # ---- the header (section 3.2.1)

    #: whether the message is to outlive a broker's restart; `False` where it does not say
    durable: bool = _field(HEADER, "durable", False)
    #: how important it is; 4 where it does not say
    priority: int = _field(HEADER, "priority", 4)
    #: for how many milliseconds it is wanted
    ttl: Optional[int] = _field(HEADER, "ttl")
    #: whether nobody else can have got it before
    first_acquirer: bool = _field(HEADER, "first_acquirer", False)
    #: how many deliveries of it failed before
    delivery_count: int = _field(HEADER, "delivery_count", 0)

    # ---- the properties (section 3.2.4)

    #: its identity: a number, a uuid, bytes or text
    message_id: Any = _field(PROPERTIES, "message_id")
    #: who made it
    user_id: Optional[bytes] = _field(PROPERTIES, "user_id")
    #: the address of the node that it is for
    to: Any = _field(PROPERTIES, "to")
    #: what it is about
    subject: Optional[str] = _field(PROPERTIES, "subject")
    #: the address for answers
    reply_to: Any = _field(PROPERTIES, "reply_to")
    #: the identity of what it answers, or belongs to
    correlation_id: Any = _field(PROPERTIES, "correlation_id")
    #: the MIME type of its data
    content_type: Optional[str] = _field(PROPERTIES, "content_type")
    #: how its data are encoded beside that
    content_encoding: Optional[str] = _field(PROPERTIES, "content_encoding")
    #: when it is of no use any more: a `datetime`, or milliseconds since 1970
    absolute_expiry_time: Any = _field(PROPERTIES, "absolute_expiry_time")
    #: when it was made: a `datetime`, or milliseconds since 1970
    creation_time: Any = _field(PROPERTIES, "creation_time")
    #: the group that it belongs to
    group_id: Optional[str] = _field(PROPERTIES, "group_id")
    #: its number within the group
    group_sequence: Optional[int] = _field(PROPERTIES, "group_sequence")
    #: the group of its answers
    reply_to_group_id: Optional[str] = _field(PROPERTIES, "reply_to_group_id")

    # ---- the maps. Assign a new one to change it: what is changed within is not seen

    #: the application properties (section 3.2.5)
    properties: Mapping[Any, Any] = _mapping(APPLICATION_PROPERTIES)
    #: annotations for those that carry it on to its target (section 3.2.3); keys are written as symbols
    annotations: Mapping[Any, Any] = _mapping(MESSAGE_ANNOTATIONS)
    #: annotations for the next peer alone (section 3.2.2)
    delivery_annotations: Mapping[Any, Any] = _mapping(DELIVERY_ANNOTATIONS)
    #: what stands behind the body, as a hash or a signature (section 3.2.9)
    footer: Mapping[Any, Any] = _mapping(FOOTER)

    def __eq__(self, other: Any) -> bool:
        return isinstance(other, Message) and self._said() == other._said()

    __hash__ = None  # type: ignore[assignment]

    def _said(self) -> Iterable[Any]:
        fields = [self._section(code) or _FIELDS[code]() for code in (HEADER, PROPERTIES)]
        maps = [self.properties, self.annotations, self.delivery_annotations, self.footer]
        return [*fields, self.kind, self.body, *maps]

    def __repr__(self) -> str:
        return f"Message({self.body!r:.60}, properties={self.properties!r:.60})"


def _body_of(body: Any, kind: Optional[str]) -> Tuple[int, List[Any]]:
    """The code of a body's sections, and their values."""
    if kind is None:
        return (DATA if isinstance(body, _BYTES) else VALUE), [body]
    if kind not in _KINDS:
        raise ValueError(f"no kind of a body: {kind!r}")
    is_many = kind == KIND_DATA and isinstance(body, (list, tuple))
    parts = list(body) if is_many else [list(body) if kind == KIND_SEQUENCE else body]
    if kind == KIND_DATA and not all(isinstance(it, _BYTES) for it in parts):
        raise TypeError("a data section that is no bytes")
    return _KINDS[kind], parts


def _by_symbols(value: Mapping[Any, Any]) -> Map:
    """Annotations, whose keys are symbols (section 3.2.10)."""
    return Map([(Symbol(key) if type(key) is str else key, it) for key, it in value.items()])
