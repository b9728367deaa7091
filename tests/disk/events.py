"""What happens to a device of a few small zones: events as frames (docs/device.md), a list of them that looks random, and frames that look
at all of the device.

    >>> units = random_units(random.Random(1), 40, runs_at_most=40, has_faults=True)
    >>> sorted({event.kind.name for unit in units for event in unit})
    ['FAULT', 'SUBMISSION', 'TURN']
"""

from __future__ import annotations

import random
import struct
from enum import IntEnum
from typing import Iterator, List, NamedTuple, Sequence, Tuple

BLOCK, ZONES, ZONE_SIZE = 512, 3, 32
"""The device: bytes of a block, zones, and blocks of a zone."""

_HEADER = struct.Struct("<BBHIII")
_ENTRY = struct.Struct("<BBHI32xQIIQ")
_NAMESPACE, _SLOTS = 1, 2
_MOST_TURNS = 6


class Request(IntEnum):
    """The kind of a frame that asks for something."""

    SUBMISSION = 1
    TURN = 2
    FAULT = 3


class Opcode(IntEnum):
    """A command."""

    WRITE = 0x01
    READ = 0x02
    SEND = 0x79
    RECEIVE = 0x7A
    APPEND = 0x7D
    RUN = 0xC0
    LOAD = 0xC1
    RESULT = 0xC2


class Action(IntEnum):
    """What a Zone Management Send does."""

    CLOSE = 1
    FINISH = 2
    OPEN = 3
    RESET = 4


class Event(NamedTuple):
    """An event: of a command its opcode, its dwords and its data; of a turn the number of its run, and of a fault that of its zone."""

    kind: Request
    number: int = 0
    opcode: int = 0
    dwords: Tuple[int, ...] = ()
    data: bytes = b""

    @property
    def frame(self) -> bytes:
        """Its frame."""
        if self.kind is Request.TURN:
            return _HEADER.pack(self.kind, self.number, 0, 0, 0, 0)
        if self.kind is Request.FAULT:
            return _HEADER.pack(self.kind, 1, 0, self.number, 0, 0)
        first, second, third, fourth = (*self.dwords, 0, 0, 0)[:4]
        entry = _ENTRY.pack(self.opcode, 0, 1, _NAMESPACE, first, second, third, fourth)
        return _HEADER.pack(self.kind, 0, 1, 0, len(self.data), 0) + entry + self.data


def command(opcode: Opcode, *dwords: int, data: bytes = b"") -> Event:
    """A command: Dwords 10 and 11 as one number, 12, 13, and 14 and 15 as one."""
    return Event(Request.SUBMISSION, 0, opcode, dwords, data)


def append(zone: int, data: bytes) -> Event:
    """A Zone Append to the zone of a number."""
    return command(Opcode.APPEND, zone * ZONE_SIZE, len(data) // BLOCK - 1, data=data)


def send(zone: int, action: Action) -> Event:
    """A Zone Management Send to the zone of a number."""
    return command(Opcode.SEND, zone * ZONE_SIZE, 0, action)


# ---- a list of events

EMITTER = bytes.fromhex(
    "bf21000000000000"  # mov r1, r2
    "b702000010000000"  # mov r2, 16
    "8500000001000000"  # call 1
    "b700000000000000"  # mov r0, 0
    "9500000000000000"  # exit
)
"""A program that emits the first 16 bytes of each block."""

COUNTER = bytes.fromhex(
    "7935000000000000"  # ldxdw r5, [r3+0]
    "7124000000000000"  # ldxb r4, [r2+0]
    "0f45000000000000"  # add r5, r4
    "7b53000000000000"  # stxdw [r3+0], r5
    "b700000000000000"  # mov r0, 0
    "9500000000000000"  # exit
)
"""A program that adds the first byte of each block to a sum in scratch."""


class _Maker:
    """Makes units of events, and keeps how many blocks each zone has. Each block is like no other."""

    def __init__(self, chance: random.Random) -> None:
        self.chance, self.blocks, self.tag = chance, [0] * ZONES, 0

    def unit(self, has_runs: bool) -> List[Event]:
        """One of the kinds of unit."""
        kinds = [self.appends] * 8 + [self.action, self.load, self.read, self.reset] + [self.run] * 2 * has_runs
        return self.chance.choice(kinds)()

    def data(self, blocks: int) -> bytes:
        self.tag += 1
        return b"".join(struct.pack("<II", self.tag, block + 1) * (BLOCK // 8) for block in range(blocks))

    def appends(self) -> List[Event]:
        zone, count = self.chance.randrange(ZONES), self.chance.choice([1, 1, 1, 2, 5, 16])
        if self.blocks[zone] + count > ZONE_SIZE:
            self.blocks[zone] = 0
            return [send(zone, Action.RESET)]
        self.blocks[zone] += count
        return [append(zone, self.data(count))]

    def action(self) -> List[Event]:
        return [send(self.chance.randrange(ZONES), self.chance.choice([Action.CLOSE, Action.OPEN]))]

    def reset(self) -> List[Event]:
        zone = self.chance.randrange(ZONES)
        self.blocks[zone] = 0
        return [send(zone, Action.RESET)]

    def load(self) -> List[Event]:
        slot = self.chance.randrange(_SLOTS)
        program = EMITTER if slot == 0 else COUNTER
        return [command(Opcode.LOAD, slot | (18 if slot == 0 else 0) << 32, len(program), data=program)]

    def read(self) -> List[Event]:
        return [command(Opcode.READ, 0, 0)]

    def run(self) -> List[Event]:
        """A Run with all its turns, over blocks that were appended in front of it, so that it is admitted if its program is loaded."""
        source, to = self.chance.sample(range(ZONES), 2)
        turns, slot = self.chance.randint(2, 4), self.chance.randrange(_SLOTS)
        if self.blocks[to] > ZONE_SIZE - 8:
            return self.reset()
        self.blocks[source], self.blocks[to] = turns, self.blocks[to] + turns
        started = command(Opcode.RUN, source * ZONE_SIZE, turns - 1 | slot << 16, 0, to * ZONE_SIZE)
        ready = [*self.load(), send(source, Action.RESET), append(source, self.data(turns)), send(to, Action.OPEN)]
        return [*ready, started, *[Event(Request.TURN)] * turns]


def random_units(chance: random.Random, least: int, *, runs_at_most: int, has_faults: bool) -> List[List[Event]]:
    """Units of events, after each of which no run is active; of at least so many events in all. Runs are among the first ones."""
    maker, units, count = _Maker(chance), [], 0
    while count < least:
        units.append(maker.unit(count < runs_at_most))
        count += len(units[-1])
    return [*units, [Event(Request.FAULT, ZONES - 1)]] if has_faults else units


# ---- what a device has


def look() -> Sequence[bytes]:
    """Frames that ask for all of a device: its zones, all blocks, and the results of its slots."""
    asked = [command(Opcode.RECEIVE, 0, (1 + ZONES) * 16 - 1).frame]
    asked += [command(Opcode.READ, zone * ZONE_SIZE, ZONE_SIZE - 1).frame for zone in range(ZONES)]
    return [*asked, *(command(Opcode.RESULT, slot).frame for slot in range(_SLOTS))]


def look_twice() -> Sequence[bytes]:
    """Frames that ask for all of a device, give the run that is active all its turns, and ask again."""
    return [*look(), *[Event(Request.TURN).frame] * _MOST_TURNS, *look()]


def replies(stream: bytes) -> Iterator[bytes]:
    """The frames of replies, as far as they are whole.

    >>> [len(reply) for reply in replies(_HEADER.pack(3, 0, 0, 0, 0, 0) + _HEADER.pack(1, 0, 1, 0, 2, 0) + bytes(18))]
    [16, 34]
    """
    at = 0
    while len(stream) - at >= _HEADER.size:
        kind, _, _, _, length, _ = _HEADER.unpack_from(stream, at)
        size = _HEADER.size + (16 + length if kind == 1 else 0)
        if len(stream) - at < size:
            return
        yield stream[at : at + size]
        at += size


def seen(stream: bytes) -> Tuple[bytes, ...]:
    """What a device answered to `look_twice`, without what answers turns; nothing where it didn't answer all."""
    answers = list(replies(stream))
    once = len(look())
    return (*answers[:once], *answers[once + _MOST_TURNS :]) if len(answers) == 2 * once + _MOST_TURNS else ()
