"""Values that a peer chooses: reading them takes time and memory in proportion to their bytes."""

import functools
import time
import tracemalloc
import uuid

from amqp_engine import Malformed, Map
from amqp_engine.values import read, write
from hostile.peers import array, compound

AT_ONCE, TESTS = 1, []
#: How many times as long as a list of nulls a value of as many bytes may take
DEAREST = 12


def test(function):
    TESTS.append(function)
    return function


def seconds(data, then=lambda value: None):
    """The processor time to read a value and to do something with it, the less of two."""
    least = float("inf")
    for _ in range(2):
        start = time.process_time()
        try:
            then(read(data)[0])
        except Malformed:
            pass
        least = min(least, time.process_time() - start)
    return least


@functools.lru_cache(None)
def seconds_of_nulls():
    """The processor time of a byte of a list of nulls."""
    return seconds(compound(0xD0, [b"\x40"] * 50000)) / 50000


def judged(data, then=lambda value: None):
    plain, taken = seconds_of_nulls() * max(5000, len(data)), seconds(data, then)
    assert taken <= DEAREST * plain, f"{len(data)} bytes take {taken:.3f} s, a list of nulls {plain:.3f} s"


@test
async def arrays_of_items_without_bytes_cost_nothing():
    for count in (65536, 2**32 - 1):
        for code in range(0x40, 0x46):
            judged(compound(0xD0, [array(bytes([code]), count=count)] * 100), write)
    judged(array(b"\x00\x43\x40", count=2**32 - 1), lambda value: (value.items[-1], value == value, len(value.items)))


@test
async def keys_that_collide_cost_what_others_do():
    prime, count = 2**61 - 1, 3000
    keys = {
        "uuids": [b"\x98" + (at * prime + 5).to_bytes(16, "big") for at in range(count)],
        "longs": [b"\x81" + (at << 40).to_bytes(8, "big") for at in range(count)],
        "timestamps": [b"\x83" + (at << 44).to_bytes(8, "big") for at in range(count)],
        "ulongs": [b"\x80" + (at % 8 * prime + at // 8).to_bytes(8, "big") for at in range(count)],
        "doubles": [b"\x82" + bytes([0x40 + at % 16, 0, at >> 8, at % 256, 0, 0, 0, 0]) for at in range(count)],
    }
    for of in keys.values():
        judged(compound(0xD1, [it for key in of for it in (key, b"\x40")]), lambda value: (value.get(uuid.UUID(int=5)), value == Map(value), list(value)))


@test
async def many_small_values_cost_what_nulls_do():
    for item in (b"\x45", b"\x43", b"\x00\x44\x40", b"\xc0\x01\x00", b"\xc1\x01\x00", b"\xe0\x02\x00\x40", b"\xe0\x02\xff\x40", b"\xa0\x00", b"\x50\x01"):
        judged(compound(0xD0, [item] * (20000 // len(item))))
    judged(array(b"\xe0", b"\x03\x01\x50\x07" * 4000, 4000))


@test
async def descriptors_of_an_array_are_few():
    for count in (1, 2, 3, 64, 1000):
        judged(array(b"\x00\x44" * count + b"\x50", bytes(10000), 10000))


@test
async def what_lies_deep_is_not_copied():
    value = b"\xb0" + (1 << 17).to_bytes(4, "big") + bytes(1 << 17)
    for _ in range(63):
        value = compound(0xD0, [value])
    tracemalloc.start()
    read(value)
    _, most = tracemalloc.get_traced_memory()
    tracemalloc.stop()
    assert most < 4 * len(value), most
    judged(value)


@test
async def what_lies_too_deep_is_malformed():
    for wrap in (lambda it: compound(0xD0, [it]), lambda it: compound(0xD1, [b"\x40", it]), lambda it: b"\x00\x44" + it, lambda it: b"\x00" + it + b"\x40"):
        value = b"\x40"
        for _ in range(2000):
            value = wrap(value)
        refused(value)
    value = array(b"\x50", b"\x07")
    for _ in range(2000):
        value = array(b"\xf0", value[1:])
    refused(value)


def refused(value):
    try:
        read(value)
    except Malformed:
        return
    raise AssertionError(f"{len(value)} bytes of a value 2,000 deep were read")


@test
async def counts_that_no_bytes_bear_out_take_no_memory():
    tracemalloc.start()
    for value in (b"\xd0\x00\x00\x00\x04\xff\xff\xff\xff", b"\xd1\x00\x00\x00\x04\xff\xff\xff\xfe", array(b"\xa1", b"", 2**32 - 1), array(b"\x70", b"", 2**32 - 1)):
        refused(value)
    _, most = tracemalloc.get_traced_memory()
    tracemalloc.stop()
    assert most < 1 << 20, most
