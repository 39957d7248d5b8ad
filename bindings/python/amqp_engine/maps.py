"""A map that was read, as pairs and as a mapping (AMQP 1.0 part 1, section 1.6.23)."""

from __future__ import annotations

from collections.abc import Mapping
from typing import Any, Dict, Iterable, Iterator, List, Optional, Tuple, Union

from .writing import write


class Map(Mapping[Any, Any]):
    """A map that was read: its `pairs`, in their order, and a mapping over them. What is to be written may be a `dict`
    too.

    `[]` finds the key of the same type, else one that is equal (a `Symbol` by the `str`, a `Uint` by the `int`). It is
    no `dict`, since a peer that chooses numbers or uuids as keys can make a `dict` take time by the square of their
    count; and since a `dict` has one key for a string and its symbol."""

    __slots__ = ("pairs", "_found")

    def __init__(self, pairs: Union[Iterable[Tuple[Any, Any]], "Mapping[Any, Any]"] = ()) -> None:
        self.pairs: List[Tuple[Any, Any]] = list(pairs.items() if isinstance(pairs, Mapping) else pairs)
        self._found: Optional[Dict[Any, int]] = None

    def __len__(self) -> int:
        return len(self.pairs)

    def __iter__(self) -> Iterator[Any]:
        return (key for key, _ in self.pairs)

    def __getitem__(self, key: Any) -> Any:
        if self._found is None:
            self._found = _places(self.pairs)
        name = _name_of(key)
        at = self._found.get((type(key), name), self._found.get(name))
        if at is None:
            raise KeyError(key)
        return self.pairs[at][1]

    def items(self) -> Any:
        """The pairs, in their order."""
        return tuple(self.pairs)

    def values(self) -> Any:
        """What stands under the keys, in their order."""
        return tuple(value for _, value in self.pairs)

    def __eq__(self, other: Any) -> bool:
        if not isinstance(other, Mapping):
            return NotImplemented
        there = other if isinstance(other, Map) else Map(other)
        return len(there) == len(self) and all(key in there and there[key] == value for key, value in self.pairs)

    __hash__ = None  # type: ignore[assignment]

    def __repr__(self) -> str:
        return f"Map({self.pairs!r})"


def _places(pairs: List[Tuple[Any, Any]]) -> Dict[Any, int]:
    """Where each key stands: by its type and name, and by its name alone."""
    found: Dict[Any, int] = {}
    for at, (key, _) in enumerate(pairs):
        name = _name_of(key)
        found[type(key), name] = found[name] = at
    return found


def _name_of(key: Any) -> Any:
    """What a key is found by: text and bytes by themselves, all else by text or bytes that stand for it. These Python
    hashes under a random key, so that no peer can choose them to collide; numbers it does not."""
    if isinstance(key, str):
        return str(key)
    if isinstance(key, bytes):
        return bytes(key)
    if isinstance(key, int):
        return ("number", hex(key))
    try:
        return ("value", write(key))
    except (TypeError, ValueError):
        # what has no type of AMQP is no key of a map that was read
        return object()
