"""The blocks that the filters of `examples/` run over: random bytes, with fields that a filter looks at in their places.

The fields have values on both sides of each bound that a filter knows, and others that differ from a wanted one in a single byte.
Each filter has a generator of its own, which its name seeds: all runs are the same each time.
"""

from __future__ import annotations

import struct
from random import Random
from typing import Callable, Dict, List, Sequence, Tuple

from filters import Run

BLOCK = 512
"""The bytes of a block."""

COUNT = 16
"""The blocks of most runs."""


def put(data: bytes, at: int, field: bytes) -> bytes:
    """Data with a field at an offset.

    >>> put(b"abcd", 1, b"--")
    b'a--d'
    """
    return data[:at] + field + data[at + len(field) :]


def record(rng: Random, size: int, *fields: Tuple[int, bytes]) -> bytes:
    """A record of random bytes, with fields at their offsets.

    >>> record(Random(1), 8, (2, b"key"))[2:5]
    b'key'
    """
    data = rng.randbytes(size)
    for at, field in fields:
        data = put(data, at, field)
    return data


def blocks_of(records: Sequence[bytes]) -> List[bytes]:
    """The blocks that records of one size fill.

    >>> [len(block) for block in blocks_of([bytes(64)] * 16)]
    [512, 512]
    """
    data = b"".join(records)
    return [data[at : at + BLOCK] for at in range(0, len(data), BLOCK)]


def u16(value: int) -> bytes:
    """A number in 2 bytes."""
    return value.to_bytes(2, "little")


def u32(value: int) -> bytes:
    """A number in 4 bytes."""
    return value.to_bytes(4, "little")


def u64(value: int) -> bytes:
    """A number in 8 bytes."""
    return value.to_bytes(8, "little")


# ---- filters that look at fields of each record


def for_filter(rng: Random) -> List[Run]:
    """The field is the argument, or another number, by one byte."""
    fields = [2, 3, 2 + 2**8, 2 + 2**24, 2**32 - 1]
    blocks = [record(rng, BLOCK, (8, u32(rng.choice(fields)))) for _ in range(COUNT)]
    return [Run(blocks, 2), Run(blocks, 2**32 - 1), Run(blocks, 7)]


def for_projection(rng: Random) -> List[Run]:
    """Any keys and prices."""
    return [Run([rng.randbytes(BLOCK) for _ in range(COUNT)])]


def for_orders(rng: Random) -> List[Run]:
    """Orders at the bounds: mostly wanted but for one field."""
    drawn = []
    for _ in range(8 * COUNT):
        price = rng.choice([1000, 1001, 20000, 49998, 49999] * 2 + [0, 999, 50000, 50001, 1000 + 2**32])
        quantity = rng.choice([4, 5, 256, 65535] * 2 + [0, 3])
        region, status = rng.choice([1, 1, 1, 2, 257]), rng.choice([0, 1, 1, 2, 3, 255])
        drawn.append(record(rng, 64, (8, struct.pack("<IHBxQ", region, quantity, status, price))))
    return [Run(blocks_of(drawn), argument) for argument in (1, 257)] + [Run(blocks_of([WANTED_ORDER] * 16), 1)]


# of these all 8 of a block are emitted, which fills the limit
WANTED_ORDER = struct.pack("<QIHBxQ40x", 1, 1, 4, 1, 1000)


def for_prefix(rng: Random) -> List[Run]:
    """Names that begin with the argument, in part or not at all."""
    names = [b"disk", b"disc", b"diskette", b"fan", b"a disk", b"Disk"]
    drawn = [record(rng, 64, (0, rng.choice(names).ljust(48, b"\0"))) for _ in range(8 * COUNT)]
    return [Run(blocks_of(drawn + [b"disk".ljust(64, b"!")] * 8), int.from_bytes(b"disk", "little"))]


def for_matches(rng: Random) -> List[Run]:
    """Levels around the argument, of which some are large only above their low bytes, and blocks without one that is high."""
    levels = [0, 79, 80, 81, 255, 2**24, 2**31]
    drawn = [record(rng, 64, (12, u32(rng.choice(levels)))) for _ in range(8 * COUNT)]
    low = [record(rng, 64, (12, u32(rng.choice(levels[:2])))) for _ in range(8 * 4)]
    return [Run(blocks_of(low + drawn), argument, first) for argument, first in ((80, 0), (2**31, 42), (0, 5))]


def for_window(rng: Random) -> List[Run]:
    """Times at both ends of the hour, and one that is in it by its low 4 bytes alone."""
    times = [0, 7199, 7200, 7201, 9000, 10799, 10800, 10801, 7200 + 2**32, 2**64 - 1]
    drawn = [record(rng, 64, (0, u64(rng.choice(times)))) for _ in range(8 * COUNT)]
    return [Run(blocks_of(drawn), 7200), Run(blocks_of(drawn), 0)]


# ---- filters by the hash of a key


def for_sample(rng: Random) -> List[Run]:
    """Any keys, of which none, a quarter and all are taken."""
    drawn = [rng.randbytes(64) for _ in range(8 * COUNT)]
    return [Run(blocks_of(drawn), argument) for argument in (0, 1, 64, 256)]


def for_bloom(rng: Random) -> List[Run]:
    """Keys that come again, the first at once; and so many that others are taken for known."""
    keys = [rng.randbytes(8) for _ in range(40)]
    again = [record(rng, 64, (0, key)) for key in keys[:1] + keys[:1] + [rng.choice(keys) for _ in range(8 * COUNT - 2)]]
    return [Run(blocks_of(again)), Run(blocks_of([rng.randbytes(64) for _ in range(8 * 64)]))]


def for_join(rng: Random) -> List[Run]:
    """Keys in and out of each block's dictionary. After the 8 records comes one more that looks like them."""
    blocks = []
    for _ in range(COUNT):
        keys = sorted(rng.choice(range(0, 2**16, 1021)) for _ in range(16))
        drawn = [rng.choice([rng.choice(keys), rng.choice(keys) + 1, rng.randrange(2**16)]) for _ in range(8)] + [keys[0]]
        data = b"".join(record(rng, 32, (2, u16(key % 2**16))) for key in drawn)
        blocks.append(record(rng, BLOCK, (0, data), (480, b"".join(map(u16, keys)))))
    return [Run(blocks)]


# ---- filters that add up or count


def for_aggregate(rng: Random) -> List[Run]:
    """Any fields; and one block alone."""
    blocks = [rng.randbytes(BLOCK) for _ in range(COUNT)]
    return [Run(blocks), Run(blocks[:1])]


def for_sums(rng: Random) -> List[Run]:
    """Any prices, of all kinds and of some; the upper bits of a kind don't count."""
    drawn = [record(rng, 32, (8, u32(rng.randrange(2**32)))) for _ in range(16 * COUNT)]
    some = [put(it, 12, bytes([rng.choice([0x10, 0x35, 0xFF])])) for it in drawn[:64]]
    return [Run(blocks_of(drawn)), Run(blocks_of(some))]


def for_histogram(rng: Random) -> List[Run]:
    """Any bytes, and bytes that are all in one bucket."""
    return [Run([rng.randbytes(BLOCK) for _ in range(COUNT)]), Run([b"\xff" * BLOCK] * 3)]


# ---- filters that keep the least or the greatest


def for_minmax(rng: Random) -> List[Run]:
    """Temperatures below and above 0, all below it, the ends of the range, and none."""
    none = -(2**31)
    runs = []
    for fields in (range(-900, 900), range(-1200, -300), [1 - 2**31, 2**31 - 1, 0], [none]):
        drawn = [rng.choice([rng.choice(fields), rng.choice(fields), none]) for _ in range(8 * COUNT)]
        runs.append(Run(blocks_of([record(rng, 64, (8, struct.pack("<i", field))) for field in drawn])))
    return runs


def for_top(rng: Random) -> List[Run]:
    """Measures of which some are equal, so that the key decides, and any."""
    few = [record(rng, 64, (16, u32(rng.randrange(12) * 2**28))) for _ in range(8 * COUNT)]
    return [Run(blocks_of(few)), Run([rng.randbytes(BLOCK) for _ in range(COUNT)]), Run([bytes(BLOCK)])]


# ---- filters over records of different lengths, and over packets


def for_records(rng: Random) -> List[Run]:
    """So many records that the last aren't reached, none, and lengths that end a block: 0, 61 and 255."""
    blocks = []
    for count in [8, 3, 0, 10, 8, 1] * 4:
        data = b"".join(packed(rng.randrange(1, 41), rng.randrange(2), rng) for _ in range(count))
        blocks.append(put(rng.randbytes(BLOCK), 0, data + b"\0"))
    for length in (60, 61, 255):
        blocks.append(put(rng.randbytes(BLOCK), 0, b"\1\1\xaa" + bytes([length, 1]) + b"\xbb" * 60 + b"\1\1\xcc\0"))
    # the longest that a block can have
    blocks.append(put(bytes(BLOCK), 0, b"".join(packed(60, 1, rng) for _ in range(8))))
    return [Run(blocks, 1), Run(blocks, 0)]


def packed(length: int, kind: int, rng: Random) -> bytes:
    """A record with its length and its kind.

    >>> len(packed(3, 1, Random(1)))
    5
    """
    return bytes([length, kind]) + rng.randbytes(length)


def for_packets(rng: Random) -> List[Run]:
    """A packet that is taken, and others that differ from it in one field."""
    taken = {12: b"\x08\0", 14: b"\x45", 23: b"\x06", 26: b"\xc0\xa8\0\7", 36: b"\x01\xbb"}
    others: List[Dict[int, bytes]] = [
        {36: b"\x1f\x90"},  # port 8080
        {36: b"\0\x50"},  # port 80
        {36: b"\xbb\x01"},  # 443 with its bytes the other way
        {12: b"\x86\xdd"},  # IPv6
        {12: b"\0\x08"},
        {23: b"\x11"},  # UDP
        {14: b"\x46"},  # with options
        {14: b"\x65"},  # of another version, which isn't looked at
        {26: b"\x7f\1\2\3"},
        {26: b"\x80\0\0\1"},
        {},
    ]
    blocks = [record(rng, BLOCK, *{**taken, **other}.items()) for other in others]
    return [Run(blocks + [rng.randbytes(BLOCK)], argument) for argument in (8080, 8080 + 2**16, 0)]


_RUNS: Dict[str, Callable[[Random], List[Run]]] = {
    "aggregate": for_aggregate,
    "bloom": for_bloom,
    "filter": for_filter,
    "histogram": for_histogram,
    "join": for_join,
    "matches": for_matches,
    "minmax": for_minmax,
    "orders": for_orders,
    "packets": for_packets,
    "prefix": for_prefix,
    "projection": for_projection,
    "records": for_records,
    "sample": for_sample,
    "sums": for_sums,
    "top": for_top,
    "window": for_window,
}


def runs(name: str) -> List[Run]:
    """The runs of a filter.

    >>> [len(run.blocks) for run in runs("aggregate")]
    [16, 1]
    """
    return _RUNS[name](Random(name))
