"""Worlds for the loop of a target: hosts that stall, die and send bytes in any pieces, a disk that fails, tears and is slow, a clock that
jumps. A world answers each operation of the loop, by numbers that come of a seed, and checks the law (docs/network.md) on the way.

    python3 worlds.py LIBRARY IMAGE FIRST COUNT      worlds of so many seeds, from one on

LIBRARY is the library for C with loop.c, as a shared one; IMAGE a file with an image or a journal. It prints the seed of the first world in
which something is wrong, and what; and it ends then.
"""

from __future__ import annotations

import ctypes
import mmap
import os
import random
import struct
import sys
from enum import IntEnum
from itertools import compress
from operator import or_
from typing import Callable, Dict, Iterable, List, NamedTuple, Optional, Set, Tuple
from uuid import UUID

from nvme_tcp_connection import Fabrics, Kind, Opcode, Sgl, capsule, connect_data, connect_entry, entry, initialize_request
from nvme_tcp_host import ENABLED, HOST_NQN, SUBSYSTEM_NQN

PLACES = 40
"""How many connections there may be at a time."""

MOST_READ = 65536
"""How many bytes are read at once, at most."""

MOST_OPERATIONS = 600
"""How many operations a round has, at most, without those for the file."""

MOST_ROUNDS = 400
"""Within how many rounds a command is answered whose connection takes bytes in each of them."""

SECOND = 1_000_000

PATIENCE = 29 * SECOND
"""No connection is closed by the target before so much time has gone by in which its host might have been heard,"""

MOST_UNREAD = 58 * SECOND
"""or so much in which it might have read what is sent to it, whatever it sends itself."""

NO_CONTROLLER = 0x4182
"""The status of a Connect to a controller that there isn't (Connect Invalid Parameters, and Do Not Retry)."""

MOST_TOLD = 2
"""The level of the log at which all is told."""

BLOCK = 512


class Wrong(Exception):
    """The law doesn't hold."""


def expect(holds: bool, what: str) -> None:
    """Raises an error that says what is wrong, unless it holds."""
    if not holds:
        raise Wrong(what)


# ---- operations and answers


class Do(IntEnum):
    """What the loop asks for."""

    POLL = 0
    SIGNAL = 1
    NOW = 2
    ACCEPT = 3
    READ = 4
    WRITE = 5
    CLOSE = 6
    PWRITE = 7
    FTRUNCATE = 8
    FSYNC = 9
    CREATE = 10
    RENAME = 11
    SYNC_FOLDER = 12
    DISCARD = 13
    LOG = 14
    END = 15


class Came(IntEnum):
    """What came of it."""

    DONE = 0
    BYTES = 1
    TAKEN = 2
    AGAIN = 3
    NO_ROOM = 4
    FAILED = 5
    HAPPENED = 6
    TIME = 7
    SIGNAL = 8


ACCEPTS, SIGNALS = 1, 2
"""What happened beside connections, in the number of an answer."""


class Operation(NamedTuple):
    """An operation, with the bytes that it carries."""

    kind: Do
    number: int
    flag: bool
    reads: bytes
    writes: bytes
    carried: bytes


class Answer(NamedTuple):
    """What came of an operation, with the bytes that came."""

    kind: Came
    number: int = 0
    reads: bytes = bytes(PLACES)
    writes: bytes = bytes(PLACES)
    came: bytes = b""


def marked(places: Iterable[int]) -> bytes:
    """A byte for each place: 1 for these.

    >>> marked({1, 3})[:5]
    b'\\x00\\x01\\x00\\x01\\x00'
    """
    marks = bytearray(PLACES)
    for place in places:
        marks[place] = 1
    return bytes(marks)


DONE, AGAIN, NO_ROOM, FAILED = Answer(Came.DONE), Answer(Came.AGAIN), Answer(Came.NO_ROOM), Answer(Came.FAILED)


# as pifnjarl_loop.h lays them out: the kind, the number, of an operation how many bytes it carries and its flag, and a byte for each place
_OPERATION = struct.Struct(f"@IQQB{PLACES}s{PLACES}s")
_ANSWER = struct.Struct(f"@IQ{PLACES}s{PLACES}s")
_KINDS = tuple(Do)


class Ask(IntEnum):
    """What a handle is asked for, beside the loop: enum pifnjarl_asked of pifnjarl_handle.h."""

    OPENED = 0
    NEXT = 8
    PLACE = 9
    SIZE = 10
    BYTES = 11
    DONE = 12
    NAME = 14


TARGET_IN_FILE = 3
"""The door of a target before a device that is kept in a file."""

REPLY_BYTES = 32


class Handle:
    """A handle of the library, which has a target and then its loop."""

    def __init__(self, library: ctypes.CDLL) -> None:
        at, size, number = ctypes.c_void_p, ctypes.c_size_t, ctypes.c_uint32
        piece = ctypes.c_char_p, size
        library.pifnjarl_handle_bytes.restype = library.pifnjarl_handle_call.restype = size
        library.pifnjarl_loop_carried.restype, library.pifnjarl_loop_begin.restype = size, ctypes.c_bool
        library.pifnjarl_handle_open.argtypes = [at, number, *piece]
        library.pifnjarl_handle_call.argtypes = [at, number, size, size, *piece, *piece, at, at, size]
        library.pifnjarl_handle_end.argtypes = [at]
        library.pifnjarl_loop_begin.argtypes = [at, size, at]
        library.pifnjarl_loop_step.argtypes = [at, at, *piece, at]
        library.pifnjarl_loop_carried.argtypes = [at, size, at, size]
        self._library = library
        self._memory = ctypes.create_string_buffer(library.pifnjarl_handle_bytes() + 15)
        start = ctypes.addressof(self._memory)
        self._at = start + -start % 16
        self._reply = ctypes.create_string_buffer(REPLY_BYTES)
        self._told, self._next = ctypes.create_string_buffer(_ANSWER.size), ctypes.create_string_buffer(_OPERATION.size)

    def open(self, content: bytes) -> int:
        """Opens a target on the bytes of a file, and gives what that came to."""
        self._library.pifnjarl_handle_open(self._at, TARGET_IN_FILE, content, len(content))
        return self._ask(Ask.OPENED)

    def next_call(self) -> Tuple[int, int, bytes]:
        """The next call for the file of a target that was opened: its kind, place and bytes."""
        room = ctypes.create_string_buffer(self._ask(Ask.SIZE) + 1)
        count = self._ask(Ask.BYTES, out=room, room=len(room) - 1)
        return self._ask(Ask.NEXT), self._ask(Ask.PLACE), room.raw[:count]

    def call_done(self) -> None:
        """That call is done."""
        self._ask(Ask.DONE)

    def begin(self) -> Operation:
        """Names the target, begins its loop, and gives the first operation."""
        expect(self._ask(Ask.NAME, UUID(SUBSYSTEM_NQN[-36:]).bytes) == 1, "the target takes no name")
        expect(self._library.pifnjarl_loop_begin(self._at, MOST_TOLD, self._next), "the loop doesn't begin")
        return self._operation()

    def step(self, answer: Answer) -> Operation:
        """Says what came of the last operation, and gives the next."""
        _ANSWER.pack_into(self._told, 0, answer.kind, answer.number, answer.reads, answer.writes)
        self._library.pifnjarl_loop_step(self._at, self._told, answer.came, len(answer.came), self._next)
        return self._operation()

    def end(self) -> None:
        """Ends what the handle has."""
        self._library.pifnjarl_handle_end(self._at)

    def _ask(self, kind: Ask, piece: bytes = b"", out: Optional[ctypes.Array[ctypes.c_char]] = None, room: int = 0) -> int:
        to = self._reply if out is None else out
        return int(self._library.pifnjarl_handle_call(self._at, kind, 0, 0, piece, len(piece), b"", 0, self._reply, to, room))

    def _operation(self) -> Operation:
        kind, number, size, flag, reads, writes = _OPERATION.unpack_from(self._next)
        carried = b""
        if size:
            room = ctypes.create_string_buffer(size)
            count = self._library.pifnjarl_loop_carried(self._at, 0, room, size)
            expect(count == size, "an operation carries other bytes than it says")
            carried = room.raw
        return Operation(_KINDS[kind], number, bool(flag), reads, writes, carried)


# ---- the disk


class Change(NamedTuple):
    """Bytes that were written to a file, or a length that was set, and that a crash may leave in part."""

    at: int
    written: Optional[bytes]

    def over(self, content: bytearray) -> None:
        """Makes it."""
        if self.written is None:
            del content[self.at :]
            content += bytes(self.at - len(content))
        else:
            content += bytes(max(0, self.at - len(content)))
            content[self.at : self.at + len(self.written)] = self.written

    def torn(self, content: bytearray, numbers: random.Random) -> None:
        """Makes a part of it: of bytes that were there already a mix of both, which are the same; else any bytes, or fewer."""
        if self.written is None or bytes(content[self.at : self.at + len(self.written)]) == self.written:
            if numbers.random() < 0.5:
                self.over(content)
            return
        cut = numbers.randrange(len(self.written) + 1)
        rest = numbers.choice((b"", bytes(len(self.written) - cut), numbers.randbytes(len(self.written) - cut)))
        Change(self.at, self.written[:cut] + rest).over(content)


class Disk:
    """A file, and one beside it on the way to its place. What isn't on the disk, a crash may tear."""

    def __init__(self, content: bytes) -> None:
        self.settled = bytes(content)
        self.changes: List[Change] = []
        self.beside: Optional[bytearray] = None
        self.beside_is_settled = False
        self.named: Optional[bytes] = None

    def content(self) -> bytes:
        """What is read of the file."""
        content = bytearray(self.settled if self.named is None else self.named)
        for change in self.changes:
            change.over(content)
        return bytes(content)

    def change(self, change: Change) -> None:
        """The file is written, or its length set."""
        self.changes.append(change)

    def sync(self) -> None:
        """All of it is on the disk."""
        expect(self.named is None, "a file is synced whose name isn't on the disk")
        self.settled, self.changes = self.content(), []

    def left(self, numbers: random.Random) -> bytes:
        """What a crash leaves."""
        if self.named is not None and numbers.random() < 0.5:
            return self.named
        content = bytearray(self.settled)
        for change in self.changes:
            change.torn(content, numbers)
        return bytes(content)


# ---- hosts


class Pdu(NamedTuple):
    """A PDU that came."""

    kind: int
    header: bytes
    body: bytes


class Caller:
    """One connection of a host: what it sends, and what it makes of what comes."""

    def __init__(self, numbers: random.Random, queue: int, controller: int, zone: int) -> None:
        self.numbers, self.queue, self.controller, self.zone = numbers, queue, controller, zone
        self.outgoing = bytearray(initialize_request())
        self.sent = 0
        self.came = bytearray()
        self.waits: Dict[int, int] = {}
        self.ends: Dict[int, int] = {}
        self.blocks: Dict[int, bytes] = {}
        self.answered: Dict[int, bytes] = {}
        self.next_identifier = 1
        self.is_ready = False
        self.commands_left = numbers.randrange(1, 20)
        self.takes = True
        self.is_dead = self.is_over = False
        self.rounds = 0
        self.begun = self.heard = self.read = 0
        self.admin: Optional[Caller] = None

    def submit(self, command: bytes, data: bytes = b"") -> int:
        """Sends a command, whose identifier is put into it."""
        identifier, self.next_identifier = self.next_identifier, self.next_identifier + 1
        self.outgoing += capsule(command[:2] + struct.pack("<H", identifier) + command[4:], data)
        self.ends[identifier] = self.sent + len(self.outgoing)
        return identifier

    def connect(self) -> None:
        """Sends a Connect."""
        name = f"nqn.2014-08.org.nvmexpress:uuid:00000000-0000-0000-0000-{self.zone:012x}"
        data = connect_data(bytes([self.zone + 1] * 16), 0xFFFF if self.queue == 0 else self.controller, SUBSYSTEM_NQN, name)
        self.submit(connect_entry(0, self.queue, 31), data)

    def work(self) -> None:
        """Sends what a host sends next."""
        if self.is_ready and self.queue > 0 and self.commands_left and len(self.ends) < 4:
            self.commands_left -= 1
            block = self.numbers.randbytes(8).ljust(BLOCK, b"\0")
            append = entry(Opcode.ZONE_APPEND, 0, self.zone * World.ZONE_SIZE, length=BLOCK, sgl=Sgl.IN_CAPSULE)
            self.blocks[self.submit(append, block)] = block

    def pieces(self) -> bytes:
        """Bytes of what it sends, in a piece of any length."""
        most = self.numbers.choice((1, 7, 72, 600, MOST_READ))
        piece = bytes(self.outgoing[: self.numbers.randrange(1, most + 1)])
        del self.outgoing[: len(piece)]
        self.sent += len(piece)
        return piece

    def take(self, piece: bytes) -> None:
        """Takes bytes that came, and answers each PDU that is whole."""
        self.came += piece
        while len(self.came) >= 8 and len(self.came) >= struct.unpack_from("<I", self.came, 4)[0]:
            length = struct.unpack_from("<I", self.came, 4)[0]
            expect(length >= 8, "a PDU without a header")
            whole = bytes(self.came[:length])
            del self.came[:length]
            self.handle(Pdu(whole[0], whole[:24], whole[24:]))

    def handle(self, pdu: Pdu) -> None:
        """A PDU came."""
        if pdu.kind == Kind.IC_RESP:
            self.connect()
            return
        expect(pdu.kind == Kind.CAPSULE_RESP, f"a PDU of type {pdu.kind:02X}h")
        value, _, _, queue, identifier, status = struct.unpack_from("<IIHHHH", pdu.header, 8)
        end = self.ends.pop(identifier, None)
        expect(end is not None and end <= self.sent, f"an answer to command {identifier}, which wasn't asked for")
        self.rounds = 0
        if identifier in self.blocks:
            if status >> 1 == 0:
                self.answered[value] = self.blocks[identifier]
            return
        if status >> 1 == NO_CONTROLLER and self.admin is not None and self.admin.is_over:
            self.is_dead = True
            return
        expect(status >> 1 == 0, f"command {identifier} of queue {self.queue} fails with {status >> 1:X}h")
        if self.queue == 0 and identifier == 1:
            self.controller = value & 0xFFFF
            self.submit(entry(Opcode.FABRICS, 0, 0x14 << 32, ENABLED, namespace=Fabrics.PROPERTY_SET))
        else:
            self.is_ready = True

    def has_connected(self) -> bool:
        """Was all of its Connect read?"""
        return self.is_ready or self.ends.get(1, self.sent + 1) <= self.sent

    def owes_answers(self) -> bool:
        """Does it wait for an answer to a command all of whose capsule was read?"""
        return any(end <= self.sent for end in self.ends.values())


# ---- the world


class World:
    """A world of a seed."""

    ZONE_SIZE = 16
    ZONES = 4

    def __init__(self, loop: Handle, other: Handle, content: bytes, seed: int) -> None:
        self.loop, self.other, self.numbers = loop, other, random.Random(seed)
        self.disk = Disk(content)
        self.callers: Dict[int, Caller] = {}
        self.lost: Set[int] = set()
        self.answered: Dict[int, bytes] = {}
        self.now = self.last = 1
        self.counted = 0
        self.was_for_file = True
        self.owed_reads: Set[int] = set()
        self.owed_writes: Set[int] = set()
        self.owes_accept = False
        self.operations = 0
        self.has_failed = False
        self.is_to_end = False
        self.is_ended = False
        self.admins: Dict[int, Caller] = {}
        self.waiting = [zone for zone in range(self.numbers.randrange(1, World.ZONES + 1))]
        self.crowd = self.numbers.choice((0, 0, 0, 3, 50))
        self.failing = self.numbers.choice((0, 0, 0, 40))
        self.jumps = self.numbers.choice((1000, 300_000, 2 * SECOND))
        self.slow = self.numbers.choice((1000, 1000, 180 * SECOND))
        self.crashes = 0
        # by the kinds of operations
        self.makes: List[Callable[[Operation], Answer]] = [self.poll, self.signal, self.time, self.accept, self.read, self.write, self.close]
        self.makes += [self.pwrite, self.ftruncate, self.fsync, self.create, self.rename, self.sync_folder, self.discard, self.log, self.end]

    # -- what the loop asks for

    def answer(self, operation: Operation) -> Answer:
        """What comes of an operation."""
        for_file = Do.PWRITE <= operation.kind <= Do.DISCARD
        self.operations += not for_file
        expect(self.operations <= MOST_OPERATIONS, "a round doesn't end")
        self.was_for_file |= for_file
        return self.makes[operation.kind](operation)

    def poll(self, operation: Operation) -> Answer:
        """A round ends, and another begins: nothing may be owed. Hosts do what they do meanwhile."""
        expect(not self.owed_reads, f"connections {self.owed_reads} aren't read")
        expect(not self.owed_writes, f"connections {self.owed_writes} aren't written")
        expect(not self.owes_accept, "a host isn't taken")
        expect(not self.lost, f"connections {self.lost} are over, and aren't closed")
        expect(not self.is_to_end, "it goes on after a signal to end")
        self.operations = 0
        watched = compress(range(PLACES), map(or_, operation.reads, operation.writes))
        expect(self.callers.keys() >= set(watched), "a place is watched that has no connection")
        for place, caller in self.callers.items():
            self.host_works(caller)
            if caller.owes_answers() and caller.takes and not caller.is_dead:
                caller.rounds += 1
                expect(caller.rounds < MOST_ROUNDS, f"connection {place} isn't answered")
        self.owed_reads = self.ready(operation.reads, lambda caller: caller.is_dead or bool(caller.outgoing))
        self.owed_writes = self.ready(operation.writes, lambda caller: caller.is_dead or caller.takes)
        wants = operation.flag and bool(self.waiting or self.crowd)
        self.is_to_end = self.numbers.random() < 0.001
        self.owes_accept = wants and not self.is_to_end
        self.now += self.numbers.randrange(operation.number * 1000 + 1000)
        return Answer(Came.HAPPENED, wants * ACCEPTS + self.is_to_end * SIGNALS, marked(self.owed_reads), marked(self.owed_writes))

    def ready(self, watched: bytes, is_ready: Callable[[Caller], bool]) -> Set[int]:
        """The connections of some that are watched where something can be done, by and by."""
        can = [place for place, caller in self.callers.items() if watched[place] and is_ready(caller)]
        return {place for place in can if self.numbers.random() < 0.7}

    def host_works(self, caller: Caller) -> None:
        """A host goes on; now and then it takes no bytes for a while, or dies."""
        caller.work()
        if self.numbers.random() < 0.01:
            caller.takes = not caller.takes
        if self.numbers.random() < 0.001:
            caller.is_dead = True
        if caller.queue > 0 and not caller.commands_left and not caller.ends:
            caller.is_dead = True

    def signal(self, operation: Operation) -> Answer:
        """A signal to end."""
        return Answer(Came.SIGNAL, 1)

    def log(self, operation: Operation) -> Answer:
        """A line."""
        return DONE

    def time(self, operation: Operation) -> Answer:
        """The time. That in which no call for the file was made counts, up to the second that a wait takes."""
        self.now += self.numbers.randrange(self.slow if self.was_for_file else self.jumps)
        if not self.was_for_file:
            self.counted += min(self.now - self.last, SECOND)
        self.last, self.was_for_file = self.now, False
        return Answer(Came.TIME, self.now)

    def end(self, operation: Operation) -> Answer:
        """The program ends: it has done all, where it was told to end, unless something failed."""
        expect(operation.flag or self.has_failed, "it fails, and nothing has failed")
        expect(not operation.flag or self.is_to_end, "it ends by itself")
        self.is_ended = True
        return DONE

    # -- connections

    def accept(self, operation: Operation) -> Answer:
        """A host that waits gets a place, which has no connection; or it is refused, while there is none."""
        place, self.owes_accept = operation.number, False
        if place < PLACES:
            expect(place not in self.callers, f"place {place} is given twice")
        else:
            expect(len(self.callers) == PLACES, "a host is refused while there is a place")
        if (not self.waiting and not self.crowd) or self.numbers.random() < 0.2:
            return AGAIN
        caller = self.next_caller()
        if place < PLACES:
            self.callers[place], caller.begun, caller.heard, caller.read = caller, self.counted, self.counted, self.counted
        return DONE

    def next_caller(self) -> Caller:
        """The host that connects next: an admin queue, then its I/O queue, or one of a crowd that says nothing."""
        if self.waiting:
            zone = self.waiting.pop(0)
            admin = self.admins.get(zone)
            caller = Caller(self.numbers, 0 if admin is None else 1, 0 if admin is None else admin.controller, zone)
            caller.admin = self.admins.setdefault(zone, caller)
            return caller
        self.crowd -= 1
        caller = Caller(self.numbers, 0, 0, 0)
        caller.outgoing.clear()
        return caller

    def read(self, operation: Operation) -> Answer:
        """Bytes that a host sent."""
        place = operation.number
        caller = self.at(place)
        self.owed_reads.discard(place)
        if caller.is_dead:
            self.owed_writes.discard(place)
            self.lost.add(place)
            caller.is_over = True
            return FAILED
        if not caller.outgoing or self.numbers.random() < 0.05:
            return AGAIN
        caller.heard = self.counted
        return Answer(Came.BYTES, came=caller.pieces())

    def write(self, operation: Operation) -> Answer:
        """Bytes for a host, none before it is on the disk."""
        place = operation.number
        caller = self.at(place)
        self.owed_writes.discard(place)
        expect(bool(operation.carried), "nothing is written")
        expect(not self.disk.changes and self.disk.named is None, "bytes are sent before all is on the disk")
        if caller.is_dead:
            self.lost.add(place)
            caller.is_over = True
            return FAILED
        if not caller.takes:
            return AGAIN
        count = self.numbers.choice((1, 24, 25, len(operation.carried)))
        count = min(count, len(operation.carried))
        was_ready, caller.heard, caller.read = caller.is_ready, self.counted, self.counted
        caller.take(operation.carried[:count])
        if caller.queue == 0 and caller.is_ready and not was_ready:
            self.waiting.append(caller.zone)
        self.answered.update(caller.answered)
        return Answer(Came.TAKEN, count)

    def close(self, operation: Operation) -> Answer:
        """A connection is closed: its host is gone, was silent, owed its Connect or read nothing too long, or it has no place."""
        if operation.number < PLACES:
            caller = self.at(operation.number)
            heard = caller.heard if caller.has_connected() else caller.begun
            was_silent = self.counted - heard >= PATIENCE or self.counted - caller.read >= MOST_UNREAD
            is_over = caller.is_dead or caller.admin is not None and caller.admin not in self.callers.values()
            expect(was_silent or is_over, f"connection {operation.number} is closed, and its host was heard")
            caller.is_over = True
            del self.callers[operation.number]
            self.lost.discard(operation.number)
        return DONE

    def at(self, place: int) -> Caller:
        """The connection that has a place."""
        expect(place in self.callers, f"place {place} has no connection")
        return self.callers[place]

    # -- the file

    def for_file(self) -> Optional[Answer]:
        """A call for the file may fail."""
        if self.failing and self.numbers.randrange(self.failing) == 0:
            self.has_failed = True
            return FAILED
        return None

    def pwrite(self, operation: Operation) -> Answer:
        """Bytes are written; where that fails, some of them may be."""
        failed = self.for_file()
        if operation.flag:
            expect(self.disk.beside is not None, "there is no new file")
            if failed is None and self.disk.beside is not None:
                Change(operation.number, operation.carried).over(self.disk.beside)
            self.disk.beside_is_settled = False
        else:
            self.disk.change(Change(operation.number, operation.carried))
        return failed or DONE

    def ftruncate(self, operation: Operation) -> Answer:
        """A length is set."""
        self.disk.change(Change(operation.number, None))
        return self.for_file() or DONE

    def fsync(self, operation: Operation) -> Answer:
        """A file is brought to the disk."""
        failed = self.for_file()
        if failed is None and operation.flag:
            self.disk.beside_is_settled = True
        elif failed is None:
            self.disk.sync()
        return failed or DONE

    def create(self, operation: Operation) -> Answer:
        """A new file is made."""
        self.disk.beside, self.disk.beside_is_settled = bytearray(), False
        return self.for_file() or DONE

    def rename(self, operation: Operation) -> Answer:
        """It gets the name, once all of it is on the disk."""
        expect(self.disk.beside is not None and self.disk.beside_is_settled, "a file gets its name before it is on the disk")
        failed = self.for_file()
        if self.disk.beside is not None:
            self.disk.named = bytes(self.disk.beside)
        return failed or DONE

    def sync_folder(self, operation: Operation) -> Answer:
        """The name is on the disk."""
        failed = self.for_file()
        if failed is None and self.disk.named is not None:
            self.disk.settled, self.disk.changes, self.disk.named = self.disk.named, [], None
        return failed or DONE

    def discard(self, operation: Operation) -> Answer:
        """The new file is removed."""
        self.disk.beside = None
        return DONE

    # -- the world goes on

    def run(self, operations: int) -> None:
        """So many operations; after some of them a crash is looked at."""
        settle(self.loop, self.disk)
        operation = self.loop.begin()
        for _ in range(operations):
            if self.is_ended:
                break
            operation = self.loop.step(self.answer(operation))
            if self.numbers.random() < 0.002:
                self.crash()
        self.crash()
        self.loop.end()

    def crash(self) -> None:
        """What a crash leaves now has each block whose Append was answered."""
        self.crashes += 1
        disk = Disk(self.disk.left(self.numbers))
        settle(self.other, disk)
        reader = Reader(self.other)
        for block, content in sorted(self.answered.items()):
            expect(reader.read(block) == content, f"block {block} was answered, and a crash loses it")
        self.other.end()


def settle(handle: Handle, disk: Disk) -> None:
    """Opens a target on a file, and makes the calls that it wants first."""
    opened = handle.open(disk.content())
    expect(opened == 0, f"the file can't be opened: {opened}")
    while True:
        kind, place, content = handle.next_call()
        if kind == 0:
            return
        if kind == 1:
            disk.change(Change(place, content))
        elif kind == 2:
            disk.change(Change(place, None))
        elif kind == 3:
            disk.sync()
        elif kind == 4:
            disk.settled, disk.changes = content, []
        handle.call_done()


class Stream:
    """A connection's bytes, either way."""

    def __init__(self) -> None:
        self.outgoing, self.came = bytearray(), bytearray()


class Reader:
    """A host in a world where nothing fails, which reads blocks of a file that was opened again."""

    def __init__(self, loop: Handle) -> None:
        self.loop, self.operation = loop, loop.begin()
        self.streams = [Stream() for _ in range(PLACES)]
        self.coming: List[Stream] = []
        self.now = 1
        admin, controller = self.connect(0, 0xFFFF)
        self.command(admin, entry(Opcode.FABRICS, 0, 0x14 << 32, ENABLED, namespace=Fabrics.PROPERTY_SET))
        self.queue, _ = self.connect(1, controller & 0xFFFF)

    def connect(self, queue: int, controller: int) -> Tuple[Stream, int]:
        """Connects a queue, and gives its connection and dword 0 of the completion."""
        stream = Stream()
        stream.outgoing += initialize_request()
        self.coming.append(stream)
        self.until(lambda: len(stream.came) >= 128)
        del stream.came[:128]
        data = connect_data(b"\xff" * 16, controller, SUBSYSTEM_NQN, HOST_NQN)
        return stream, self.command(stream, connect_entry(0, queue, 31), data)[0]

    def command(self, stream: Stream, command: bytes, data: bytes = b"") -> Tuple[int, bytes]:
        """Has a command done, and gives dword 0 of the completion and the data before it."""
        stream.outgoing += capsule(command, data)
        came = b""
        while True:
            self.until(lambda: len(stream.came) >= 8 and len(stream.came) >= struct.unpack_from("<I", stream.came, 4)[0])
            length = struct.unpack_from("<I", stream.came, 4)[0]
            pdu = bytes(stream.came[:length])
            del stream.came[:length]
            if pdu[0] == Kind.C2H_DATA:
                came += pdu[pdu[3] : length]
                if pdu[1] & 8:
                    return 0, came
            else:
                expect(pdu[0] == Kind.CAPSULE_RESP and struct.unpack_from("<H", pdu, 22)[0] >> 1 == 0, "a command fails after a crash")
                return struct.unpack_from("<I", pdu, 8)[0], came

    def read(self, block: int) -> bytes:
        """The bytes of a block."""
        return self.command(self.queue, entry(Opcode.READ, 0, block, length=BLOCK))[1]

    def until(self, holds: Callable[[], bool]) -> None:
        """Has the loop go on until something holds."""
        for _ in range(20_000):
            if holds():
                return
            self.operation = self.loop.step(self.answer(self.operation))
        raise Wrong("nothing comes after a crash")

    def answer(self, operation: Operation) -> Answer:
        """What comes of an operation where nothing fails."""
        if operation.kind == Do.POLL:
            reads = bytes(bool(watched and self.streams[place].outgoing) for place, watched in enumerate(operation.reads))
            return Answer(Came.HAPPENED, bool(self.coming) * ACCEPTS, reads, operation.writes)
        if operation.kind == Do.NOW:
            self.now += 1000
            return Answer(Came.TIME, self.now)
        if operation.kind == Do.ACCEPT:
            if not self.coming:
                return AGAIN
            self.streams[operation.number] = self.coming.pop(0)
        if operation.kind == Do.READ:
            stream = self.streams[operation.number]
            piece = bytes(stream.outgoing[:MOST_READ])
            del stream.outgoing[: len(piece)]
            return Answer(Came.BYTES, came=piece) if piece else AGAIN
        if operation.kind == Do.WRITE:
            self.streams[operation.number].came += operation.carried
            return Answer(Came.TAKEN, len(operation.carried))
        expect(operation.kind != Do.END, "the loop ends")
        return DONE


def play(library: str, content: bytes, first: int, count: int, at: mmap.mmap) -> int:
    """Plays worlds, and notes the seed of each before it begins."""
    handles = [Handle(ctypes.CDLL(library)) for _ in range(2)]
    crashes = 0
    for seed in range(first, first + count):
        at[:8] = struct.pack("<Q", seed)
        world = World(*handles, content, seed)
        try:
            world.run(random.Random(seed).choice((100, 200, 1000)))
        except Wrong as wrong:
            print(f"seed {seed}: {wrong}")
            return 1
        crashes += world.crashes
    print(f"{count} worlds, {crashes} crashes")
    return 0


def main() -> int:
    """Runs worlds in a process of their own: the library can end it."""
    library, image, first, count = sys.argv[1], sys.argv[2], int(sys.argv[3]), int(sys.argv[4])
    with open(image, "rb") as file:
        content = file.read()
    at = mmap.mmap(-1, 8)
    child = os.fork()
    if child == 0:
        status = 2
        try:
            status = play(os.path.abspath(library), content, first, count, at)
            sys.stdout.flush()
        finally:
            os._exit(status)
    status = os.waitpid(child, 0)[1]
    if os.WIFSIGNALED(status):
        print(f"seed {struct.unpack('<Q', at[:8])[0]}: the loop is ended by signal {os.WTERMSIG(status)}")
    return 0 if status == 0 else 1


if __name__ == "__main__":
    sys.exit(main())
