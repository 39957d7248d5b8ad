"""The library `libamqp1.so`, by `ctypes`: its functions, and where the file is looked for.

It is the one at the path that a program gives; else at that of the environment's `AMQP_LIBRARY`; else `libamqp1.so.1`
in the package's folder, where a wheel puts it; else that which the system finds. An sdist has none.
"""

from __future__ import annotations

import ctypes
import os
from pathlib import Path
from typing import Any, Dict, Optional, Tuple

#: What a function of the library answers; `enum amqp1_status` of `include/amqp1/records.h` has each
DONE, REFUSED, NO_MEMORY, TOO_SMALL, BAD_ARGUMENT, NO_ENGINE = range(6)
FULL, BAD_SIZE, SHORT, AGAIN, WAITS, OVER, TOO_LARGE, NOTHING, LOST, BROKEN, NOT_RELEASED, NOT_FORGOTTEN = range(7, 19)
NOT_DETACHED, UNSETTLED, NOT_NEXT, NO_LINK, IN_USE, HELD_BACK = range(19, 25)
_FILE = "libamqp1.so.1"


class Slot(ctypes.Structure):
    """What the engine's memory is found by; only the library writes it."""

    _fields_ = [("at", ctypes.c_void_p)]


class Place(ctypes.Structure):
    """Where one engine lies. All of it is zero at first; it is never copied while an engine lies there."""

    _fields_ = [("full", ctypes.c_uint32), ("slot", Slot)]


class How(ctypes.Structure):
    """How a stream is made: its key, the time, and its side of SASL."""

    _fields_ = [
        ("key", ctypes.c_uint8 * 16),
        ("time", ctypes.c_uint64),
        ("limit", ctypes.c_uint32),
        ("side", ctypes.c_uint32),
        ("host", ctypes.c_uint32),
        ("reserved", ctypes.c_uint32),
    ]


class Took(ctypes.Structure):
    """How many bytes were taken, how many records were written, and how many bytes the next frame has."""

    _fields_ = [("taken", ctypes.c_size_t), ("written", ctypes.c_size_t), ("wanted", ctypes.c_size_t)]


class Went(ctypes.Structure):
    """How many transfers were taken, and how many of their bytes."""

    _fields_ = [("taken", ctypes.c_size_t), ("used", ctypes.c_size_t)]


class LoginHead(ctypes.Structure):
    """How many bytes the name of a mechanism has, and how many what is said first."""

    _fields_ = [("mechanism", ctypes.c_uint32), ("response", ctypes.c_uint32)]


class Ticked(ctypes.Structure):
    """When the next tick is wanted, and what was due."""

    _fields_ = [("next", ctypes.c_uint64), ("due", ctypes.c_uint32), ("reserved", ctypes.c_uint32)]


class Sent(ctypes.Structure):
    """What became of a transfer on a link."""

    _fields_ = [
        ("given", ctypes.c_uint64),
        ("number", ctypes.c_uint32),
        ("refusal", ctypes.c_uint32),
        ("has_given", ctypes.c_uint32),
        ("reserved", ctypes.c_uint32),
    ]


class GivenBack(ctypes.Structure):
    """An unsettled delivery that is given back."""

    _fields_ = [("given", ctypes.c_uint64), ("number", ctypes.c_uint32), ("link", ctypes.c_uint32)]


class Text(ctypes.Structure):
    """Bytes that are being written: where, how much room is there, how many there are, and whether one had no form."""

    _fields_ = [
        ("at", ctypes.c_void_p),
        ("room", ctypes.c_size_t),
        ("length", ctypes.c_size_t),
        ("is_bad", ctypes.c_int),
    ]


_NUMBER, _GIVEN, _SIZE, _BYTES, _AT = (
    ctypes.c_uint32,
    ctypes.c_uint64,
    ctypes.c_size_t,
    ctypes.c_char_p,
    ctypes.c_void_p,
)
#: What the functions of links take behind the place: `include/amqp1/links.h` has each
_OF_LINKS: Dict[str, Tuple[Any, ...]] = {
    "attach": (_NUMBER, _BYTES, _SIZE, _BYTES, _SIZE, _NUMBER, _NUMBER, ctypes.POINTER(_NUMBER)),
    "wanted": (_BYTES, _NUMBER, _AT),
    "event": (_BYTES, _GIVEN, _AT),
    "due": (_NUMBER, _AT),
    "respond": (_BYTES, _NUMBER),
    "flow": (_NUMBER, _NUMBER, _NUMBER, _NUMBER),
    "detach": (_NUMBER, _NUMBER, _NUMBER, _BYTES, _SIZE),
    "send": (_BYTES, _BYTES, _SIZE, _GIVEN, _AT),
    "settle": (_NUMBER, _NUMBER, _NUMBER, _NUMBER, _NUMBER, ctypes.c_uint8),
    "dispose": (_NUMBER, _BYTES, _SIZE),
    "settled": (_NUMBER, _NUMBER, _NUMBER, _NUMBER, _AT),
    "left": (_NUMBER, _NUMBER, _AT),
    "left_of": (_NUMBER, _NUMBER, _AT),
    "remove": (_NUMBER, _NUMBER),
    "forget": (_NUMBER,),
    "credit": (_NUMBER, _NUMBER, ctypes.POINTER(_NUMBER)),
}
#: What the writers take behind the text: `include/amqp1/write.h` has each
_WRITERS: Dict[str, Tuple[Any, ...]] = {
    "put": (_BYTES, _SIZE),
    "put_null": (),
    "put_boolean": (ctypes.c_int,),
    "put_ubyte": (ctypes.c_uint,),
    "put_ushort": (ctypes.c_uint16,),
    "put_uint": (_NUMBER,),
    "put_bytes": (ctypes.c_uint, _BYTES, _SIZE),
    "put_outcome": (ctypes.c_int,),
    "begin_list": (ctypes.c_uint, _NUMBER),
    "end_list": (_SIZE,),
}


# those that were loaded, by their names
_LOADED: Dict[str, ctypes.CDLL] = {}


def _named(path: Optional[str]) -> str:
    beside = Path(__file__).parent / _FILE
    return path or os.environ.get("AMQP_LIBRARY") or (str(beside) if beside.exists() else _FILE)


def _found(named: str) -> ctypes.CDLL:
    try:
        return ctypes.CDLL(named)
    except OSError as error:
        raise OSError(
            f"{error}; AMQP_LIBRARY may name the file {_FILE}, which tools/build_c.sh makes and the wheel for Linux has"
        ) from None


def load(path: Optional[str] = None) -> ctypes.CDLL:
    """The library: of this path; else of `AMQP_LIBRARY`; else in this package's folder; else where the system looks.
    Raises `OSError` where there is none."""
    named = _named(path)
    if named not in _LOADED:
        _LOADED[named] = _declared(_found(named))
    return _LOADED[named]


def _declared(library: ctypes.CDLL) -> ctypes.CDLL:
    """The library, with what its functions take and answer."""
    place, size, at = ctypes.POINTER(Place), ctypes.c_size_t, ctypes.c_void_p
    _declare(library.amqp1_new, library.amqp1_call, library.amqp1_free)
    library.amqp1_take.argtypes = [place, ctypes.c_uint64, at, size, at, size, ctypes.POINTER(Took)]
    library.amqp1_take.restype = ctypes.c_int32
    library.amqp1_send.argtypes = [place, at, size, at, size, at, size, ctypes.POINTER(Went)]
    library.amqp1_send.restype = ctypes.c_int32
    library.amqp1_heard.argtypes = [place, ctypes.c_uint64]
    library.amqp1_heard.restype = ctypes.c_int32
    library.amqp1_tick.argtypes = [place, ctypes.c_uint64, ctypes.POINTER(Ticked)]
    library.amqp1_tick.restype = ctypes.c_int32
    library.amqp1_answer.argtypes = [place, ctypes.c_char_p, at, size, ctypes.c_uint16, ctypes.c_uint32]
    library.amqp1_answer.restype = ctypes.c_int32
    library.amqp1_cut.argtypes = [place, at, at, size, at]
    library.amqp1_cut.restype = ctypes.c_int32
    for name, types in _OF_LINKS.items():
        of = getattr(library, f"amqp1_link_{name}")
        of.argtypes, of.restype = [place, *types], ctypes.c_int32
    _declare_writers(library)
    return library


def _declare_writers(library: ctypes.CDLL) -> None:
    text = ctypes.POINTER(Text)
    for name, types in _WRITERS.items():
        of = getattr(library, f"amqp1_{name}")
        of.argtypes, of.restype = [text, *types], _SIZE if name == "begin_list" else None
    library.amqp1_written.argtypes, library.amqp1_written.restype = [text, ctypes.POINTER(_SIZE)], ctypes.c_int32


def _declare(new: Any, call: Any, free: Any) -> None:
    place, size = ctypes.POINTER(Place), ctypes.c_size_t
    text, logins = ctypes.c_char_p, ctypes.POINTER(LoginHead)
    new.argtypes, new.restype = [place, ctypes.POINTER(How), text, size, logins, size, text, size], ctypes.c_int32
    call.argtypes = [place, ctypes.c_uint32, ctypes.c_void_p, size, ctypes.c_void_p, size, ctypes.POINTER(size)]
    call.restype = ctypes.c_int32
    free.argtypes, free.restype = [place], None
