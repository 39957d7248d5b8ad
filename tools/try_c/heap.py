"""How much of the C library's heap is taken: what the engine holds, and not the objects of Python, which has pools of
its own for them."""

import ctypes
import gc


class _Mallinfo(ctypes.Structure):
    """What `mallinfo2` of glibc answers."""

    _names = "arena ordblks smblks hblks hblkhd usmblks fsmblks uordblks fordblks keepcost"
    _fields_ = [(it, ctypes.c_size_t) for it in _names.split()]


def taken():
    """So many bytes are taken, once what is garbage is gone."""
    gc.collect()
    of = ctypes.CDLL(None).mallinfo2
    of.restype = _Mallinfo
    said = of()
    return said.uordblks + said.hblkhd
