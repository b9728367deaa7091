"""What the filters of `examples/` do, a second time: a function for each, with the name of its file.

Each takes a run and says what it leaves. It sees the whole run at once, where the C sees one block after another: it sorts all
records where the C keeps the four greatest, and counts at the end where the C adds.
"""

from __future__ import annotations

import struct
from collections import Counter
from typing import Callable, Dict, Iterator, List, NamedTuple, Set, Tuple


class Run(NamedTuple):
    """Blocks that a filter runs over, the run's argument, and the LBA of the first block."""

    blocks: List[bytes]
    argument: int = 0
    first: int = 0


class Left(NamedTuple):
    """What a run leaves: the records of each block, and scratch, which may lack zeros at its end."""

    groups: List[List[bytes]]
    scratch: bytes = b""


def number(data: bytes, at: int, size: int) -> int:
    """The number at an offset, its least byte first.

    >>> number(b"\\0\\1\\2", 1, 2)
    513
    """
    return int.from_bytes(data[at : at + size], "little")


def split(data: bytes, size: int) -> List[bytes]:
    """The pieces of a size that data has.

    >>> split(b"abcd", 2)
    [b'ab', b'cd']
    """
    return [data[at : at + size] for at in range(0, len(data), size)]


def with_the_last(run: Run, record: bytes) -> List[List[bytes]]:
    """The groups of a run that emits one record, with its last block.

    >>> with_the_last(Run([b"", b"", b""]), b"end")
    [[], [], [b'end']]
    """
    return [[] for _ in run.blocks[1:]] + [[record]]


# ---- filters that look at fields of each record


def filter_(run: Run) -> Left:
    """The record of each block whose field at byte 8 is the argument.

    >>> filter_(Run([bytes(8) + b"\\2" + bytes(503), bytes(512)], argument=2)).groups == [[bytes(8) + b"\\2" + bytes(55)], []]
    True
    """
    return Left([[block[:64]] if number(block, 8, 4) == run.argument else [] for block in run.blocks])


def projection(run: Run) -> Left:
    """A block's key and price, in 8 bytes each. Scratch has those of the last block.

    >>> projection(Run([b"a key 01" + bytes(16) + b"$$$$" + bytes(484)])).scratch
    b'a key 01$$$$\\x00\\x00\\x00\\x00'
    """
    pairs = [block[:8] + block[24:28] + bytes(4) for block in run.blocks]
    return Left([[pair] for pair in pairs], pairs[-1])


def orders(run: Run) -> Left:
    """The first 62 bytes of the orders of a region, those of 10.00 to 499.99 and of more than 3 pieces that aren't cancelled.

    >>> order = struct.pack("<QIHBxQ40x", 1, 7, 4, 1, 1000)
    >>> [len(orders(Run([order * 8], region)).groups[0]) for region in (6, 7)]
    [0, 8]
    """

    def is_wanted(order: bytes) -> bool:
        region, quantity, status, price = struct.unpack_from("<8xIHBxQ", order)
        return region == run.argument and 1000 <= price < 50000 and quantity > 3 and status != 2

    return Left([[order[:62] for order in split(block, 64) if is_wanted(order)] for block in run.blocks])


def prefix(run: Run) -> Left:
    """What follows the first 4 bytes of each record that begins with those of the argument.

    >>> [len(record) for record in prefix(Run([b"disk".ljust(64, b"!") * 8], number(b"disk", 0, 4))).groups[0]]
    [60, 60, 60, 60, 60, 60, 60, 60]
    """
    start = run.argument.to_bytes(4, "little")
    return Left([[record[4:] for record in split(block, 64) if record.startswith(start)] for block in run.blocks])


def matches(run: Run) -> Left:
    """A block's LBA and a bit for each of its records whose level is at least the argument, where there is one.

    >>> low, high = bytes(64), b"\\xff" * 64
    >>> [group[0].hex() for group in matches(Run([low + high * 2 + low * 5], 1, first=42)).groups]
    ['2a000000000000000600000000000000']
    """
    groups = []
    for index, block in enumerate(run.blocks):
        levels = [number(record, 12, 4) for record in split(block, 64)]
        bits = sum(2**place for place, level in enumerate(levels) if level >= run.argument)
        groups.append([struct.pack("<QQ", run.first + index, bits)] if bits else [])
    return Left(groups)


def window(run: Run) -> Left:
    """The time and the code of each event of the hour that begins at the argument.

    >>> [len(window(Run([struct.pack("<Q56x", time) * 8], 7200)).groups[0]) for time in (7199, 7200, 10799, 10800)]
    [0, 8, 8, 0]
    """
    hour = range(run.argument, run.argument + 3600)
    return Left([[event[:16] for event in split(block, 64) if number(event, 0, 8) in hour] for block in run.blocks])


# ---- filters by the hash of a key


def hashed(record: bytes) -> int:
    """The hash of a record's key, of 64 bits, by Fibonacci's multiplier.

    >>> hex(hashed(b"\\2".ljust(64, b"\\0")))
    '0x3c6ef372fe94f82a'
    """
    (key,) = struct.unpack_from("<Q", record)
    return int(key * 0x9E3779B97F4A7C15 % 2**64)


def sample(run: Run) -> Left:
    """The key and the value of each record of which the hash's upper 8 bits are below the argument.

    >>> keys = [bytes([key]).ljust(64, b"\\0") for key in range(8)]
    >>> [[record[0] for record in sample(Run([b"".join(keys)], argument)).groups[0]] for argument in (0, 64, 256)]
    [[], [0, 2, 5], [0, 1, 2, 3, 4, 5, 6, 7]]
    """

    def is_taken(record: bytes) -> bool:
        return hashed(record) // 2**56 < run.argument

    return Left([[record[:16] for record in split(block, 64) if is_taken(record)] for block in run.blocks])


def bloom(run: Run) -> Left:
    """The keys of which not both bits were set before. Scratch has the 1024 bits.

    >>> left = bloom(Run([b"the same".ljust(64, b"\\0") * 8]))
    >>> left.groups, bin(int.from_bytes(left.scratch, "little")).count("1")
    ([[b'the same']], 2)
    """
    known: Set[int] = set()

    def is_new(record: bytes) -> bool:
        upper = hashed(record) // 2**44
        places = {upper // 1024, upper % 1024}
        found = places <= known
        known.update(places)
        return not found

    groups = [[record[:8] for record in split(block, 64) if is_new(record)] for block in run.blocks]
    return Left(groups, bytes(sum((8 * at + bit in known) << bit for bit in range(8)) for at in range(1024)))


def join(run: Run) -> Left:
    """The records whose key is one of the 16 at the block's end.

    >>> records = b"".join(struct.pack("<HH28x", 0, key) for key in range(8))
    >>> [record[2] for record in join(Run([records + bytes(224) + b"\\3\\0" * 12 + b"\\5\\0" * 4])).groups[0]]
    [3, 5]
    """
    groups = []
    for block in run.blocks:
        keys = split(block[480:], 2)
        groups.append([record for record in split(block, 32)[:8] if record[2:4] in keys])
    return Left(groups)


# ---- filters that add up or count


def aggregate(run: Run) -> Left:
    """The sum of the fields at byte 16, which the last block emits.

    >>> aggregate(Run([bytes(16) + b"\\3" + bytes(495)] * 2))
    Left(groups=[[], [b'\\x06\\x00\\x00\\x00\\x00\\x00\\x00\\x00']], scratch=b'\\x06\\x00\\x00\\x00\\x00\\x00\\x00\\x00')
    """
    total = struct.pack("<Q", sum(number(block, 16, 4) for block in run.blocks))
    return Left(with_the_last(run, total), total)


def sums(run: Run) -> Left:
    """Of each of 16 kinds the sum of the prices, how many there are, and the highest, which the last block emits.

    >>> record = struct.pack("<8xIB19x", 500, 0xF1)
    >>> sums(Run([record * 16])).scratch[16:32] == struct.pack("<QII", 8000, 16, 500)
    True
    """
    sold = [record for block in run.blocks for record in split(block, 32)]
    totals = b""
    for kind in range(16):
        prices = [number(record, 8, 4) for record in sold if record[12] % 16 == kind]
        totals += struct.pack("<QII", sum(prices), len(prices), max(prices, default=0))
    return Left(with_the_last(run, totals), totals)


def histogram(run: Run) -> Left:
    """How many records have each value of the upper 6 bits of byte 5, in scratch.

    >>> histogram(Run([b"\\7" * 512])).scratch[:8]
    b'\\x00\\x00\\x00\\x00 \\x00\\x00\\x00'
    """
    counts = Counter(record[5] // 4 for block in run.blocks for record in split(block, 16))
    return Left([[] for _ in run.blocks], struct.pack("<64I", *(counts[bucket] for bucket in range(64))))


# ---- filters that keep the least or the greatest


def minmax(run: Run) -> Left:
    """The least and the greatest temperature, their sum and their number, which the last block emits.

    >>> left = minmax(Run([struct.pack("<8xi52x", -7) * 7 + struct.pack("<8xi52x", -(2**31))]))
    >>> struct.unpack("<iiqQ", left.scratch)
    (-7, -7, -49, 7)
    """
    fields = [struct.unpack_from("<8xi", record)[0] for block in run.blocks for record in split(block, 64)]
    there = [field for field in fields if field != -(2**31)]
    least, greatest = min(there, default=2**31 - 1), max(there, default=-(2**31))
    kept = struct.pack("<iiqQ", least, greatest, sum(there), len(there))
    return Left(with_the_last(run, kept), kept)


def top(run: Run) -> Left:
    """The keys and measures of the four records of the greatest measure, which the last block emits. Of equal measures the greater
    key comes first.

    >>> records = [struct.pack("<I12xI44x", key, measure) for key, measure in enumerate([5, 9, 9, 1, 0, 0, 0, 2])]
    >>> struct.unpack("<8I", top(Run([b"".join(records)])).scratch)
    (2, 9, 1, 9, 0, 5, 7, 2)
    """
    measured = [(number(it, 16, 4), number(it, 0, 4)) for block in run.blocks for it in split(block, 64)]
    ranked = sorted(measured, reverse=True)
    kept = b"".join(struct.pack("<II", key, measure) for measure, key in ranked[:4])
    return Left(with_the_last(run, kept), kept)


# ---- filters over records of different lengths, and over packets


def walked(block: bytes) -> Iterator[Tuple[int, bytes]]:
    """The kinds and the data of a block's first 8 records, up to one with another length than 1 to 60.

    >>> list(walked(b"\\2\\7hi\\1\\6!\\0".ljust(512, b"\\0")))
    [(7, b'hi'), (6, b'!')]
    """
    at = 0
    for _ in range(8):
        length = block[at]
        if not 1 <= length <= 60:
            return
        yield block[at + 1], block[at + 2 : at + 2 + length]
        at += 2 + length


def records(run: Run) -> Left:
    """The data of the records of a kind.

    >>> records(Run([b"\\2\\7hi\\1\\6!\\0".ljust(512, b"\\0")], 6)).groups
    [[b'!']]
    """
    return Left([[data for kind, data in walked(block) if kind == run.argument] for block in run.blocks])


def packets(run: Run) -> Left:
    """The headers of packets of TCP over IPv4, without options, to port 443 or to the argument, and not from 127.0.0.0/8.

    >>> packet = struct.pack(">12xHB8xB2xB9xH474x", 0x0800, 0x45, 6, 10, 443)
    >>> [len(record) for record in packets(Run([packet])).groups[0]]
    [54]
    """

    def is_taken(packet: bytes) -> bool:
        kind, version, protocol, network, port = struct.unpack_from(">12xHB8xB2xB9xH", packet)
        return (kind, version % 16, protocol) == (0x0800, 5, 6) and network != 127 and port in (443, run.argument % 2**16)

    return Left([[packet[:54]] if is_taken(packet) else [] for packet in run.blocks])


FILTERS: Dict[str, Callable[[Run], Left]] = {
    "aggregate": aggregate,
    "bloom": bloom,
    "filter": filter_,
    "histogram": histogram,
    "join": join,
    "matches": matches,
    "minmax": minmax,
    "orders": orders,
    "packets": packets,
    "prefix": prefix,
    "projection": projection,
    "records": records,
    "sample": sample,
    "sums": sums,
    "top": top,
    "window": window,
}
"""The filters, by the names of their files."""
