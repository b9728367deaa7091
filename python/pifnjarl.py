"""A zoned device that runs small eBPF programs beside its data, from Python: one file, which can be copied beside a script.

`Device(image)` starts `zscli serve` over an image file. Each of its methods is one command of the device: it waits for the
completion, and raises the exception of its status where the device refuses the command. Blocks are counted in logical block
addresses (LBA), a zone is named by its lowest one, and data is whole blocks.

    >>> with example() as device:
    ...     first = device.append(16, b"2 lamps".ljust(512))
    ...     first, device.read(first, 1)[:7]
    (16, b'2 lamps')

A program is loaded into a slot, and started over written blocks; what it emits is appended to an open zone. The device goes on
with a run when it is told to, one block at a turn.

    >>> with example() as device:
    ...     first = device.append(0, bytes(1024))
    ...     device.open(16)
    ...     device.load(0, EMITS_NOTHING, emit=0)
    ...     run = device.run(0, first, 2, to=16)
    ...     run.turn(), run.wait()
    (False, Result(records=0, blocks=0))

Several commands are under way at a time with `append_async`, `write_async` and `read_async`: each submits one command, and returns a
handle, whose `wait` gives what the command came to.

    >>> with example() as device:
    ...     appends = [device.append_async(16, bytes(512)) for _ in range(3)]
    ...     [append.wait() for append in appends]
    [16, 17, 18]

Questions about the records of a zone are asked with `query`, and of several devices with `query_all`; they need pifnjarl_query.py
beside this file.

The image is saved by `save`, and where the device ends: by `shut`, or after `with`, whatever exception leaves it, or where the device
is dropped. With `durable=True` a
method returns when what it did is on the disk: after a crash the device that is opened again has it, with its programs, results and
runs. The program is the one that the variable `PIFNJARL_ZSCLI` names, or `zscli` of the repository that has this file, or of the path.
"""

from __future__ import annotations

import os
import re
import select
import shutil
import signal
import struct
import subprocess
import tempfile
import warnings
import weakref
import zlib
from collections import deque
from contextlib import contextmanager, suppress
from enum import Enum, IntEnum
from pathlib import Path
from typing import Any, Callable, ClassVar, Deque, Dict, Generic, Iterator, List, NamedTuple, Optional, Sequence, Tuple, Type, TypeVar
from typing import Union

FilePath = Union[str, "os.PathLike[str]"]

# ---- statuses: an exception for each, called as the status is


class DeviceError(Exception):
    """The device, or the program that serves it, didn't do what it was asked for."""


class FaultRefused(DeviceError):
    """A fault was refused: there is no such zone, a run uses it, or it is Offline."""


class LinkedOtherwise(DeviceError):
    """A program was linked for another block size than the device's, or for another limit than it is loaded with."""


class GuardEnded(DeviceError):
    """A guard that `zscli link` put into a program ended one of a run's blocks, since what it tests did not hold.

    `place` is the file of the C source and the line, or `?`; `text` says what did not hold; `block` is the block's index in the run,
    from 0 on; `result` is what the run came to with its other blocks.
    """

    def __init__(self, place: str, text: str, block: int, slot: int, result: Result) -> None:
        where = f"slot {slot}: {text}" if place == _UNKNOWN_PLACE else f"{place} {text}"
        super().__init__(f"block {block} ended at the guard of {where}")
        self.place, self.text, self.block, self.result = place, text, block, result


# the exception of each status, by its type and its code
_BY_STATUS: Dict[Tuple[int, int], Type[Refused]] = {}


class Refused(DeviceError):
    """A command was refused, and changed nothing. Each status is an exception below this one.

    `type`, `code` and `name` are the status code type, the status code and the status's name; `dword0` and `dword1` are those of
    the completion, and `command` is the command in words. The text is the line of `zscli explain --commands` for the completion.

    >>> ZoneIsFull.type, ZoneIsFull.code, str(ZoneIsFull())
    (1, 185, 'refused: Zone Is Full (type 1h, code B9h): a write to a Full zone')
    >>> with example() as device:
    ...     device.finish(0)
    ...     device.write(16, bytes(512))
    ...     device.append(0, bytes(512))  # doctest: +ELLIPSIS
    Traceback (most recent call last):
    pifnjarl.ZoneIsFull: queue 1, command 3: append of 1 block to the zone of LBA 0: refused: Zone Is Full (type 1h, code B9h): ...
    """

    type: ClassVar[int]
    code: ClassVar[int]
    name: ClassVar[str]

    def __init__(self, dword0: int = 0, dword1: int = 0, command: str = "") -> None:
        super().__init__(dword0, dword1, command)
        self.dword0 = dword0
        self.dword1 = dword1
        self.command = command

    def __init_subclass__(cls, type: int, code: int, name: str) -> None:
        cls.type, cls.code, cls.name = type, code, name
        _BY_STATUS[type, code] = cls

    def __str__(self) -> str:
        front = f"{self.command}: " if self.command else ""
        profile = "; profile" if self.type == 7 else ""
        # the sentence is that of the class (python -OO drops it)
        words = (type(self).__doc__ or "").partition("\n")[0].rstrip(".")
        sentence = f": {words[0].lower()}{words[1:]}" if words else ""
        return f"{front}refused: {self.name} (type {self.type:X}h, code {self.code:02X}h{profile}){sentence}{self._rest()}"

    def _rest(self) -> str:
        """What the dwords of the completion add."""
        return f"; dwords 0 and 1: {self.dword0}, {self.dword1}" if self.dword0 or self.dword1 else ""


class InvalidCommandOpcode(Refused, type=0, code=0x01, name="Invalid Command Opcode"):
    """The opcode is none that is supported."""


class InvalidFieldInCommand(Refused, type=0, code=0x02, name="Invalid Field in Command"):
    """A field has a value that it may not have, or the data is not as long as the fields say."""


class InvalidNamespaceOrFormat(Refused, type=0, code=0x0B, name="Invalid Namespace or Format"):
    """The namespace is not 1."""


class LbaOutOfRange(Refused, type=0, code=0x80, name="LBA Out of Range"):
    """A block that the entry names is not in the namespace."""


class ZoneBoundaryError(Refused, type=1, code=0xB8, name="Zone Boundary Error"):
    """A Read or the source of a Run passes its zone's end, or a write its zone's capacity."""


class ZoneIsFull(Refused, type=1, code=0xB9, name="Zone Is Full"):
    """A write to a Full zone."""


class ZoneIsReadOnly(Refused, type=1, code=0xBA, name="Zone Is Read Only"):
    """A write to a Read Only zone."""


class ZoneIsOffline(Refused, type=1, code=0xBB, name="Zone Is Offline"):
    """A Read of an Offline zone, a Run from one, or a write to one."""


class ZoneInvalidWrite(Refused, type=1, code=0xBC, name="Zone Invalid Write"):
    """A Write that does not begin at the zone's write pointer."""


class TooManyActiveZones(Refused, type=1, code=0xBD, name="Too Many Active Zones"):
    """An active resource is wanted and none is free."""


class TooManyOpenZones(Refused, type=1, code=0xBE, name="Too Many Open Zones"):
    """More zones would be open than may be, and none gives way."""


class InvalidZoneStateTransition(Refused, type=1, code=0xBF, name="Invalid Zone State Transition"):
    """The zone's state does not allow the action."""


class ZoneHeld(Refused, type=7, code=0xC0, name="Zone Held"):
    """An active run holds the zone against the command."""


class NoSuchProgram(Refused, type=7, code=0xC1, name="No Such Program"):
    """The slot has no program."""


class ProgramRefused(Refused, type=7, code=0xC2, name="Program Refused"):
    """The bytes are no program, or it is not accepted.

    `slot` tells which instruction is refused, counted in 8 bytes from 0 on, and `reason` why: a number of docs/programs.md or, from
    20 on, of docs/command_line.md.
    """

    def __init__(self, dword0: int = 0, dword1: int = 0, command: str = "") -> None:
        super().__init__(dword0, dword1, command)
        self.slot, self.reason = dword0, dword1

    def _rest(self) -> str:
        words = f" ({_REASONS[self.reason]})" if self.reason in _REASONS else ""
        return f"; slot {self.slot}, reason {self.reason}{words}"


# why a program is refused, by the reason's number
_REASONS = {
    1: "a jump backward",
    2: "a jump to no instruction",
    3: "a program that falls off",
    4: "a write to R10",
    5: "a load outside",
    6: "a store outside, or into the context or the block",
    7: "a helper other than 1",
    8: "an emit from an unknown address",
    9: "an emit of an unknown length",
    10: "an emit over the limit",
    20: "the length is no multiple of 8 bytes",
    21: "there is no instruction",
    22: "there are more than 4096 slots",
    23: "no instruction has this opcode",
    24: "there are the registers 0 to 10 alone",
    25: "a field that the instruction does not use is not 0",
    26: "a wide instruction lacks its second slot",
    27: "a field has a value that the instruction cannot have",
    28: "the instruction is left out here",
}


class NoRunFree(Refused, type=7, code=0xC3, name="No Run Free"):
    """As many runs are active as can be."""


class SourceNotWritten(Refused, type=7, code=0xC4, name="Source Not Written"):
    """Not all of the blocks that the run is to read are written."""


class DestinationNotOpen(Refused, type=7, code=0xC5, name="Destination Not Open"):
    """The zone that the run is to append to is not open."""


class DestinationLacksRoom(Refused, type=7, code=0xC6, name="Destination Lacks Room"):
    """The zone that the run is to append to has less room than the run may need."""


class WantOfMemory(Refused, type=7, code=0xC7, name="Want of Memory"):
    """There is no memory for the program; nothing has changed."""


class SourceIsDestination(Refused, type=7, code=0xC9, name="Source Is Destination"):
    """The run's source and its destination are one zone."""


class ProgramInUse(Refused, type=7, code=0xCA, name="Program in Use"):
    """An active run uses the slot's program."""


# ---- entries and completions, as docs/device.md describes them

MOST_TRANSFER = 131072
"""The most bytes of data that one command takes or gives."""

_NAMESPACE = 1
_SLOTS = 8
_SELECT_ALL = 1 << 8
_DESCRIPTOR_BYTES = 64
_NO_WRITE_POINTER = 2**64 - 1


class ZoneState(Enum):
    """The state of a zone, by its number in a descriptor. A report of one state numbers them in this order, from 1 on."""

    EMPTY = 0x1
    IMPLICITLY_OPENED = 0x2
    EXPLICITLY_OPENED = 0x3
    CLOSED = 0x4
    FULL = 0xE
    READ_ONLY = 0xD
    OFFLINE = 0xF


class Zone(NamedTuple):
    """A zone: its state, its lowest LBA, how many of its blocks can be written, and the LBA that is written next, if one can be."""

    state: ZoneState
    start: int
    capacity: int
    write_pointer: Optional[int]


class _Opcode(IntEnum):
    """Which command."""

    WRITE = 0x01
    READ = 0x02
    ZONE_MANAGEMENT_SEND = 0x79
    ZONE_MANAGEMENT_RECEIVE = 0x7A
    ZONE_APPEND = 0x7D
    RUN = 0xC0
    LOAD = 0xC1
    RESULT = 0xC2


class _Action(IntEnum):
    """What a Zone Management Send does to a zone."""

    CLOSE = 1
    FINISH = 2
    OPEN = 3
    RESET = 4
    OFFLINE = 5


class _Completion(NamedTuple):
    """A completion queue entry, its status as type and code, and the data that came with it."""

    dword0: int
    dword1: int
    queue: int
    identifier: int
    status: Tuple[int, int]
    data: bytes


def _entry(opcode: _Opcode, identifier: int, dwords10_11: int, dword12: int = 0, dword13: int = 0, dwords14_15: int = 0) -> bytes:
    """The 64 bytes of a submission queue entry. Dwords 10 and 11 are one number here, and so are 14 and 15.

    >>> _entry(_Opcode.READ, 2, 8)[:8].hex()
    '0200020001000000'
    """
    dwords = dwords10_11, dword12, dword13, dwords14_15
    try:
        return struct.pack("<BBHI32xQIIQ", opcode, 0, identifier, _NAMESPACE, *dwords)
    except struct.error:
        raise ValueError(f"a number of {opcode.name} is less than 0, or more than its field holds: {dwords}") from None


def _zone(report: bytes, at: int) -> Zone:
    """The zone of a descriptor in a report."""
    capacity, start, pointer = struct.unpack_from("<QQQ", report, at + 8)
    return Zone(ZoneState(report[at + 1] >> 4), start, capacity, None if pointer == _NO_WRITE_POINTER else pointer)


def _completion(entry: bytes, data: bytes) -> _Completion:
    """The completion of 16 bytes."""
    dword0, dword1, queue, identifier, status = struct.unpack("<II2xHHH", entry)
    return _Completion(dword0, dword1, queue, identifier, (status >> 9 & 7, status >> 1 & 255), data)


def _count(number: int, noun: str) -> str:
    """So many of these.

    >>> _count(1, "block"), _count(2, "block")
    ('1 block', '2 blocks')
    """
    return f"{number} {noun}" if number == 1 else f"{number} {noun}s"


def _words(opcode: _Opcode, dwords10_11: int, dword12: int = 0, dword13: int = 0, dwords14_15: int = 0) -> str:
    """A command in the words of `zscli explain`.

    >>> _words(_Opcode.READ, 64, 1)
    'read of 2 blocks from LBA 64 on'
    """
    lba, blocks = dwords10_11, _count((dword12 & 0xFFFF) + 1, "block")
    slot = dword12 >> 16 & 0xFF if opcode == _Opcode.RUN else dwords10_11 & 0xFFFFFFFF
    if opcode >= _Opcode.RUN and slot >= _SLOTS:
        return "an entry that is no command"
    if opcode == _Opcode.ZONE_MANAGEMENT_SEND:
        action = _Action(dword13 & 0xFF).name.lower()
        return f"{action} of all zones that Select All takes" if dword13 & _SELECT_ALL else f"{action} of the zone of LBA {lba}"
    return {
        _Opcode.WRITE: f"write of {blocks} from LBA {lba} on",
        _Opcode.READ: f"read of {blocks} from LBA {lba} on",
        _Opcode.ZONE_MANAGEMENT_RECEIVE: f"report of zones from that of LBA {lba} on",
        _Opcode.ZONE_APPEND: f"append of {blocks} to the zone of LBA {lba}",
        _Opcode.RUN: f"run of slot {slot} over {blocks} from LBA {lba} on, to the zone of LBA {dwords14_15}",
        _Opcode.LOAD: f"load of {_count(dword12, 'byte')} into slot {slot}",
        _Opcode.RESULT: f"result of slot {slot}",
    }[opcode]


def _refusal(completion: _Completion, words: str) -> Optional[DeviceError]:
    """The exception of a completion's status, if it isn't success, with the words of its command."""
    if completion.status == (0, 0):
        return None
    if completion.status not in _BY_STATUS:
        return DeviceError("a status that the device never gives: type {:X}h, code {:02X}h".format(*completion.status))
    command = f"queue {completion.queue}, command {completion.identifier}: {words}"
    return _BY_STATUS[completion.status](completion.dword0, completion.dword1, command)


def records(blocks: bytes, block: int) -> List[bytes]:
    """The records in blocks of so many bytes, which a run appended.

    A record is two bytes of length, the lower first, and as many bytes behind it; a length of 0 ends the block.

    >>> records(b"\\x02\\x00hi\\x01\\x00!".ljust(512, b"\\0"), 512)
    [b'hi', b'!']
    """
    found = []
    for start in range(0, len(blocks), block):
        at, end = start, start + block
        while at + 2 <= end and (length := int.from_bytes(blocks[at : at + 2], "little")):
            found.append(blocks[at + 2 : at + 2 + length])
            at += 2 + length
    return found


# ---- notes: what `zscli link` writes beside a program, as docs/programs.md describes it

_UNKNOWN_PLACE = "?"

_SCRATCH_BYTES = 1024

# the guard's number, its slot, and the block's index in the run
_ENDED = struct.Struct("<IIQ")

_NOTES = re.compile(
    r"linked 1\n(?:sum (\d+)\n)?block (\d+)\n(?:emit (\d+)\n)?profile \d+\n(?:guard-at (\d+)\n)?((?:guard \d+ slot \d+ \S+ [^\n]*\n)*)", re.ASCII
)

_GUARD = re.compile(r"guard (\d+) slot (\d+) (\S+) ([^\n]*)\n", re.ASCII)


class _Guard(NamedTuple):
    """A guard that may end a run: its slot, its line in the source, and what does not hold where it ends one."""

    slot: int
    place: str
    text: str


class _Notes(NamedTuple):
    """The CRC-32 of the program's bytes, what it was linked for, the byte of scratch from which on guards write, and its guards by their
    numbers."""

    sum: Optional[int]
    block: int
    emit: Optional[int]
    guard_at: Optional[int]
    guards: Dict[int, _Guard]


def _notes(text: str) -> Optional[_Notes]:
    """The notes of a text; `None` where it is damaged.

    >>> _notes("linked 1\\nblock 512\\nprofile 2\\nguard-at 1008\\nguard 1 slot 5 filter.c:12 in top: a record has no byte\\n")
    _Notes(sum=None, block=512, emit=None, guard_at=1008, guards={1: _Guard(slot=5, place='filter.c:12', text='in top: a record has no byte')})
    >>> _notes("linked 2\\n")
    """
    found = _NOTES.fullmatch(text)
    if found is None:
        return None
    sum_, block, emit, guard_at, lines = found.groups()
    at = None if guard_at is None else int(guard_at)
    if at is not None and at + _ENDED.size > _SCRATCH_BYTES:
        return None
    guards = {int(number): _Guard(int(slot), place, words) for number, slot, place, words in _GUARD.findall(lines)}
    return _Notes(None if sum_ is None else int(sum_), int(block), None if emit is None else int(emit), at, guards)


def _notes_beside(program: FilePath, data: bytes) -> Optional[_Notes]:
    """The notes beside the file of a program of these bytes, if there are any. Damaged ones and another program's are a warning."""
    path = f"{os.fspath(program)}.linked"
    try:
        text = Path(path).read_text(encoding="ascii", errors="replace")
    except OSError:
        return None
    notes = _notes(text)
    if notes is None:
        warnings.warn(f"{path} is damaged, and not used")
    elif notes.sum not in (None, zlib.crc32(data)):
        warnings.warn(f"{path} has the notes of another program, and is not used")
        return None
    return notes


# ---- frames: the two streams between a host and `zscli serve`, as docs/device.md describes them

# kind, part, queue, number, bytes of data, zeros
_HEADER = struct.Struct("<BBHIII")


class _Request(IntEnum):
    """What is asked for."""

    SUBMISSION = 1
    TURN = 2
    FAULT = 3
    DRAIN = 4
    SAVE = 5


class _Answer(IntEnum):
    """What answers it."""

    COMPLETION = 1
    PENDING = 2
    IDLE = 3
    FAULT_TAKEN = 4
    FAULT_REFUSED = 5
    DRAINED = 6
    SAVED = 7


class _Frame(NamedTuple):
    """A frame that came: of `PENDING` it has the run, of `DRAINED` how many turns were given, and of `COMPLETION` that."""

    answer: _Answer
    run: int
    turns: int
    completion: Optional[_Completion]


CUT_OFF = "an exception has cut off what was sent to the device: open it again"
"""Why a device takes nothing more, if an exception came while bytes moved, and was caught: nobody knows whether they did."""


class _Stream:
    """A program that serves a device. Frames go to it in the order of the calls, and what answers them comes in the same order.

    It takes what comes while it sends, so neither program waits for the other with full pipes.
    """

    def __init__(self, words: List[str]) -> None:
        """Starts the program by the words of its command line, in a session of its own: a signal that a terminal sends to this
        program, as for Ctrl-C, doesn't end that one before it has saved."""
        pipe = subprocess.PIPE
        self._program = subprocess.Popen(words, bufsize=0, stdin=pipe, stdout=pipe, stderr=pipe, start_new_session=True)
        assert self._program.stdin is not None and self._program.stdout is not None
        self._to, self._from = self._program.stdin.fileno(), self._program.stdout.fileno()
        os.set_blocking(self._to, False)
        self._polled = select.poll()
        self._polled.register(self._from, select.POLLIN)
        self._durable = "--durable" in words
        self._out, self._came = bytearray(), bytearray()
        # why the program has ended, if it has
        self.over: Optional[str] = None
        # set while bytes move: an exception then, as of Ctrl-C, leaves it open whether they did
        self.moving = False

    def send(
        self, request: _Request, part: int = 0, queue: int = 0, number: int = 0, entry: bytes = b"", data: bytes = b""
    ) -> None:
        """Sends a frame, at the latest when `push` is called or an answer is waited for."""
        if len(data) > MOST_TRANSFER:
            raise ValueError(f"{len(data)} bytes are more than a command takes")
        try:
            frame = _HEADER.pack(request, part, queue, number, len(data), 0) + entry + data
        except struct.error:
            raise ValueError("a queue, a zone or a number of turns is less than 0, or more than its field holds") from None
        self._check()
        self._out += frame

    def push(self) -> None:
        """Writes what was sent."""
        self._check()
        self._write_out()

    def wait(self) -> None:
        """Waits until a frame has come."""
        while not self._has_frame():
            self._check()
            if not self._move():
                raise self._ended()

    def poll(self) -> bool:
        """Has a frame come? Doesn't wait."""
        while not self._has_frame():
            self._check()
            if not self._polled.poll(0):
                return False
            if not self._move():
                raise self._ended()
        return True

    def receive(self) -> _Frame:
        """Takes the frame that has come."""
        kind, run, _, turns, length, _ = _HEADER.unpack_from(self._came)
        at = _HEADER.size + (16 if kind == _Answer.COMPLETION else 0)
        entry, data = bytes(self._came[_HEADER.size : at]), bytes(self._came[at : at + length])
        del self._came[: at + length]
        return _Frame(_Answer(kind), run, turns, _completion(entry, data) if entry else None)

    def end(self) -> None:
        """Ends the stream, and waits until the program has ended. Does nothing where it has."""
        if self.over is not None:
            return
        self.over = "the device is shut"
        if not self.moving:
            self._write_out()
        told = self._last_words()
        status = self._program.returncode
        # 3 is of a frame that an exception has cut off: it wasn't done, and what came before it is saved
        if status != 0 and not (self.moving and status == 3):
            self.over = told or self._cause(status)
            raise DeviceError(self.over)

    def _check(self) -> None:
        """Raises why nothing goes or comes any more: the program has ended, or an exception has cut off what went."""
        if self.over is not None:
            raise DeviceError(self.over)
        if self.moving:
            raise DeviceError(CUT_OFF)

    def _write_out(self) -> None:
        while self._out and self._move():
            pass

    def _last_words(self) -> str:
        """What the program tells when it has ended. A Ctrl-C meanwhile waits for it too; only a second one doesn't."""
        try:
            _, told = self._program.communicate()
        except KeyboardInterrupt:
            self._program.communicate()
            raise
        return told.decode(errors="replace").strip()

    def _cause(self, status: int) -> str:
        """Why the program has ended without a word."""
        if status > 0:
            return f"zscli ended with status {status}"
        lost = "what it had answered is on the disk" if self._durable else "the image is as it was saved last"
        return f"zscli was ended by {signal.Signals(-status).name}: {lost}"

    def _has_frame(self) -> bool:
        """Is a whole frame among the bytes that came?"""
        if len(self._came) < _HEADER.size:
            return False
        kind, _, _, _, length, _ = _HEADER.unpack_from(self._came)
        size: int = _HEADER.size + length + (16 if kind == _Answer.COMPLETION else 0)
        return len(self._came) >= size

    def _move(self) -> bool:
        """Waits until bytes can go or come, and moves them. False is the end of what comes."""
        if self._out:
            self._polled.register(self._to, select.POLLOUT)
        ready = dict(self._polled.poll())
        self.moving = True
        if self._to in ready and self._out:
            try:
                del self._out[: os.write(self._to, self._out[:65536])]
            except BrokenPipeError:
                # the program has ended; what it answered before may still come
                self._out.clear()
        if not self._out and self._to in ready:
            self._polled.unregister(self._to)
        more: Optional[bytes] = os.read(self._from, 1 << 18) if self._from in ready else None
        self._came += more or b""
        self.moving = False
        return more != b""

    def _ended(self) -> DeviceError:
        """Why nothing goes or comes any more."""
        try:
            self.end()
        except DeviceError as error:
            return error
        return DeviceError("the device is shut")


# ---- images, and the program, which makes and serves them


class Geometry(NamedTuple):
    """The numbers of a namespace: the bytes of a block, how many zones there are, the blocks of a zone, how many of these can be
    written, and how many zones can be open, and active, at a time."""

    block: int
    zones: int
    zone_size: int
    zone_capacity: int
    most_open: int
    most_active: int


def geometry_of(image: FilePath) -> Geometry:
    """The numbers of an image file, which are after its first 8 bytes; a journal has its image after 34 bytes more, or 17 without a label.

    >>> geometry_of(os.devnull)
    Traceback (most recent call last):
    pifnjarl.DeviceError: /dev/null: neither an image nor a journal
    """
    try:
        with open(image, "rb") as file:
            front = file.read(66)
    except OSError as error:
        raise DeviceError(f"{os.fspath(image)}: {(error.strerror or str(error)).lower()}") from None
    before = 34 if front.startswith(b"ZNSJRN01\2") else 17 if front.startswith(b"ZNSJRN01") else 0
    if len(front) < before + 32 or not front.startswith(b"ZNSIMG0", before):
        raise DeviceError(f"{os.fspath(image)}: neither an image nor a journal")
    return Geometry(*struct.unpack_from("<8x6I", front, before))


def format_image(
    image: FilePath,
    *,
    block: int = 512,
    zones: int = 4,
    zone_size: int = 64,
    zone_capacity: Optional[int] = None,
    most_open: Optional[int] = None,
    most_active: Optional[int] = None,
    program: Optional[FilePath] = None,
) -> Geometry:
    """Makes an image of Empty zones, in place of an image of that name, and tells its numbers.

    All blocks of a zone can be written, and all zones be open at a time, where nothing else is said.

    >>> with tempfile.TemporaryDirectory() as folder:
    ...     format_image(Path(folder) / "zoned.img", most_active=3)
    Geometry(block=512, zones=4, zone_size=64, zone_capacity=64, most_open=3, most_active=3)
    """
    zone_capacity = zone_size if zone_capacity is None else zone_capacity
    most_active = zones if most_active is None else most_active
    most_open = most_active if most_open is None else most_open
    geometry = Geometry(block, zones, zone_size, zone_capacity, most_open, most_active)
    names = ["--block", "--zones", "--size", "--capacity", "--open", "--active"]
    options = [word for name, number in zip(names, geometry) for word in (name, str(number))]
    try:
        subprocess.run([zscli(program), "format", os.fspath(image), *options], stderr=subprocess.PIPE, text=True, check=True)
    except subprocess.CalledProcessError as error:
        raise DeviceError(error.stderr.strip()) from None
    return geometry


def zscli(program: Optional[FilePath] = None) -> str:
    """The program: the one that is named here, or by the variable `PIFNJARL_ZSCLI`; else the one that this repository has built; else
    `zscli` on the path.

    >>> zscli("bin/zscli")
    'bin/zscli'
    """
    named = os.fspath(program) if program is not None else os.environ.get("PIFNJARL_ZSCLI")
    if named:
        return named
    built = Path(__file__).resolve().parent.joinpath("../crates/zscli/out/zscli").resolve()
    found = str(built) if built.exists() else shutil.which("zscli")
    if found is None:
        raise DeviceError(
            f"no program zscli: PIFNJARL_ZSCLI names none, there is no {built} (./zscli --help makes it), and none is on the path"
        )
    return found


# ---- the device

ALL_ZONES = None
"""In place of a zone: all that the action takes (Select All)."""

EMITS_NOTHING = bytes.fromhex("b700000000000000" "9500000000000000")
"""A program for examples: R0 = 0, exit."""

# so many turns are asked for before the answers are looked at
_MOST_TURNS = 512
# the states that a fault brings a zone into, in the order of their numbers in a frame, from 1 on
_FAULTS = [ZoneState.READ_ONLY, ZoneState.OFFLINE]


class Result(NamedTuple):
    """What a run came to: how many records its program emitted, and how many blocks it appended."""

    records: int
    blocks: int


Given = TypeVar("Given")


class _Asked:
    """A request that is under way, and what answers it: of a drain the last frame, `DRAINED`; of a command its refusal too."""

    def __init__(self, words: str = "", drains: bool = False) -> None:
        self.words, self.drains = words, drains
        self.answer: Optional[_Frame] = None
        self.refusal: Optional[DeviceError] = None

    def end(self, frame: _Frame) -> None:
        """Takes the frame that answers it."""
        if self.words and frame.completion is not None:
            self.refusal = _refusal(frame.completion, self.words)
        self.answer = frame


class Submitted(Generic[Given]):
    """A command that is under way. The device does commands in the order in which they were submitted.

    If nobody waits for a command that is refused, `shut` raises its exception, and so does the end of `with`, after the image is saved.

    >>> with example() as device:
    ...     reads = [device.read_async(lba, 1) for lba in range(3)]
    ...     [read.wait() == bytes(512) for read in reads]
    [True, True, True]
    """

    def __init__(self, device: Commands, asked: _Asked, gives: Callable[[_Completion], Given]) -> None:
        self._device, self._asked, self._gives = device, asked, gives

    @property
    def done(self) -> bool:
        """Has the completion come? Doesn't wait.

        >>> with example() as device:
        ...     append = device.append_async(0, bytes(512))
        ...     device.save()
        ...     append.done
        True
        """
        return self._device._has_come(self._asked)

    def wait(self) -> Given:
        """Waits until the command is done, and gives what it came to, or raises the exception of its status.

        >>> with example() as device:
        ...     device.append_async(16, bytes(512)).wait()
        16
        """
        return self._gives(self._device._completion_of(self._asked))


class Run:
    """A run of a program, which the device goes on with by one block at a turn."""

    def __init__(self, device: Commands, number: int, blocks: int, slot: int, notes: Optional[_Notes]) -> None:
        self.number = number
        self._device, self._slot, self._notes = device, slot, notes
        self._at_once = min(blocks, _MOST_TURNS)
        self._result: Optional[Result] = None
        self._guard: Optional[GuardEnded] = None

    @property
    def ended(self) -> bool:
        """Has the run had its last turn?

        >>> with example() as device:
        ...     first = device.append(0, bytes(1024))
        ...     device.open(16)
        ...     device.load(0, EMITS_NOTHING, emit=0)
        ...     run = device.run(0, first, 2, to=16)
        ...     run.ended, device.drain(), run.ended
        (False, 2, True)
        """
        return self._result is not None

    def turn(self) -> bool:
        """Gives the run one turn, on its next block, and says whether it has ended.

        >>> with example() as device:
        ...     first = device.append(0, bytes(1024))
        ...     device.open(16)
        ...     device.load(0, EMITS_NOTHING, emit=0)
        ...     run = device.run(0, first, 2, to=16)
        ...     run.turn(), run.turn()
        (False, True)
        """
        if not self.ended:
            self._device._give_turns(self.number, 1)
        return self.ended

    def wait(self) -> Result:
        """Gives the run its turns to the end, and tells what it came to.

        Where the program was loaded from a file with the notes of `zscli link` beside it, and the scratch that the run left has a
        guard that ended one of its blocks, it raises `GuardEnded`. A later run of the slot overwrites what this one left.

        >>> with example() as device:
        ...     first = device.append(0, bytes(1024))
        ...     device.open(16)
        ...     device.load(0, EMITS_NOTHING, emit=0)
        ...     device.run(0, first, 2, to=16).wait()
        Result(records=0, blocks=0)
        """
        while self._result is None:
            # a turn more than the run has left is answered, and does nothing
            self._device._give_turns(self.number, self._at_once)
        if self._notes is not None and self._notes.guard_at is not None:
            self._guard = self._device._guard_of(self, self._notes, self._notes.guard_at, self._result)
            self._notes = None
        if self._guard is not None:
            raise self._guard
        return self._result


def _put_before(error: BaseException, failed: BaseException) -> None:
    """Has a traceback of an exception show another one first."""
    failed.__context__ = None
    while error.__context__ is not None and error is not failed:
        error = error.__context__
    if error is not failed:
        error.__context__ = failed


def _end_left(stream: _Stream) -> None:
    """Ends the program of a device that was dropped and isn't shut."""
    if stream.over is None:
        warnings.warn("a device was dropped that isn't shut", ResourceWarning, source=stream)
        with suppress(DeviceError):
            stream.end()


class Commands:
    """What a device does by commands, whichever way they go, which a class below this one says: a `Device` is served by `zscli`, and the
    `Disk` of pifnjarl_linux.py is one of Linux.

    Methods are called one at a time. Where nothing else is said, one that raises `Refused` changed nothing. A zone is its
    lowest LBA; `open`, `close`, `finish`, `reset` and `offline` also take `ALL_ZONES`.
    """

    geometry: Geometry
    """The numbers of the namespace."""

    _is_shared = False
    """Whether others may load programs into the slots."""

    def __init__(self, program: Optional[FilePath], queue: int) -> None:
        """`program` is `zscli`, and `queue` the submission queue of the commands that come."""
        self.queue = queue
        self._zscli = program
        # of each slot the notes of its program, if there are any, and the run that ended last
        self._loaded: Dict[int, Optional[_Notes]] = {}
        self._ended: Dict[int, Run] = {}
        # the slots that questions took, with what they loaded there
        self._question_slots: Dict[int, object] = {}

    def __reduce__(self) -> str:
        raise TypeError(
            "a device that is open can't go to another process: name its image's path, or what opens it, as functools.partial(Device, path)"
        )

    # ---- blocks

    def append(self, zone: int, data: bytes) -> int:
        """Zone Append: writes blocks at the zone's write pointer, and tells the LBA of the first.

        More than 131072 bytes are several commands: where one is refused, those before it are done.

        >>> with example() as device:
        ...     device.append(16, bytes(512)), device.append(16, bytes(1024))
        (16, 17)
        """
        return [self.append_async(zone, piece).wait() for piece in self._transfers(data)][0]

    def append_async(self, zone: int, data: bytes) -> Submitted[int]:
        """Submits a Zone Append, and doesn't wait for it. Waiting gives the LBA of its first block.

        >>> with example() as device:
        ...     first, second = device.append_async(16, bytes(1024)), device.append_async(16, bytes(512))
        ...     first.wait(), second.wait()
        (16, 18)
        """
        asked = self._submit(_Opcode.ZONE_APPEND, zone, self._blocks(data) - 1, data=data)
        return Submitted(self, asked, lambda completion: completion.dword0 | completion.dword1 << 32)

    def write(self, lba: int, data: bytes) -> None:
        """Write: writes blocks from an LBA on, which is a zone's write pointer. Long data is several commands, as of `append`.

        >>> with example() as device:
        ...     device.write(0, bytes(512))
        ...     device.write(0, bytes(512))  # doctest: +ELLIPSIS
        Traceback (most recent call last):
        pifnjarl.ZoneInvalidWrite: queue 1, command 2: write of 1 block from LBA 0 on: refused: Zone Invalid Write ...
        """
        for piece in self._transfers(data):
            self.write_async(lba, piece).wait()
            lba += self._blocks(piece)

    def write_async(self, lba: int, data: bytes) -> Submitted[None]:
        """Submits a Write, and doesn't wait for it.

        >>> with example() as device:
        ...     writes = [device.write_async(lba, bytes(512)) for lba in range(3)]
        ...     [write.wait() for write in writes], device.report()[0].write_pointer
        ([None, None, None], 3)
        """
        return Submitted(self, self._submit(_Opcode.WRITE, lba, self._blocks(data) - 1, data=data), lambda _: None)

    def read(self, lba: int, blocks: int) -> bytes:
        """Read: blocks of one zone. One that isn't written reads as zeros.

        >>> with example() as device:
        ...     device.read(3, 2) == bytes(1024)
        True
        """
        most, end = MOST_TRANSFER // self.geometry.block, lba + blocks
        return b"".join(self.read_async(at, min(most, end - at)).wait() for at in range(lba, end, most))

    def read_async(self, lba: int, blocks: int) -> Submitted[bytes]:
        """Submits a Read, of at most 131072 bytes, and doesn't wait for it. Waiting gives the blocks.

        >>> with example() as device:
        ...     first = device.append(0, b"2 lamps".ljust(512))
        ...     device.read_async(first, 1).wait()[:7]
        b'2 lamps'
        """
        if not 1 <= blocks <= 1 << 16:
            raise ValueError(f"a read is of 1 to 65536 blocks, and not of {blocks}")
        return Submitted(self, self._submit(_Opcode.READ, lba, blocks - 1), lambda completion: completion.data)

    def records(self, lba: int, blocks: int) -> List[bytes]:
        """Reads blocks that a run appended, and gives the records that are in them.

        >>> with example() as device:
        ...     first = device.append(0, b"\\x02\\x00hi\\x01\\x00!".ljust(512, b"\\0"))
        ...     device.records(first, 1)
        [b'hi', b'!']
        """
        return records(self.read(lba, blocks), self.geometry.block)

    # ---- zones

    def open(self, zone: Optional[int]) -> None:
        """Opens a zone, or all Closed ones.

        >>> with example() as device:
        ...     device.open(16)
        ...     device.report()[1].state
        <ZoneState.EXPLICITLY_OPENED: 3>
        """
        self._send(_Action.OPEN, zone)

    def close(self, zone: Optional[int]) -> None:
        """Closes an open zone, or all of them.

        >>> with example() as device:
        ...     first = device.append(0, bytes(512))
        ...     device.close(ALL_ZONES)
        ...     device.report()[0].state
        <ZoneState.CLOSED: 4>
        """
        self._send(_Action.CLOSE, zone)

    def finish(self, zone: Optional[int]) -> None:
        """Makes a zone Full, or all that are open or Closed.

        >>> with example() as device:
        ...     device.finish(0)
        ...     device.append(0, bytes(512))  # doctest: +ELLIPSIS
        Traceback (most recent call last):
        pifnjarl.ZoneIsFull: queue 1, command 2: append of 1 block to the zone of LBA 0: refused: Zone Is Full ...
        """
        self._send(_Action.FINISH, zone)

    def reset(self, zone: Optional[int]) -> None:
        """Makes a zone Empty, or all that are open, Closed or Full. Its blocks are forgotten.

        >>> with example() as device:
        ...     first = device.append(0, bytes(512))
        ...     device.reset(0)
        ...     device.report()[0].state
        <ZoneState.EMPTY: 1>
        """
        self._send(_Action.RESET, zone)

    def offline(self, zone: Optional[int]) -> None:
        """Makes a Read Only zone Offline, or all of them. Its blocks are forgotten.

        >>> with example() as device:
        ...     device.fault(0, ZoneState.READ_ONLY)
        ...     device.offline(0)
        ...     device.report()[0].state
        <ZoneState.OFFLINE: 15>
        """
        self._send(_Action.OFFLINE, zone)

    def report(self, lba: int = 0, state: Optional[ZoneState] = None) -> List[Zone]:
        """Zone Management Receive: all zones from the one with this LBA on, or those that are in a state.

        >>> with example() as device:
        ...     first = device.append(0, bytes(512))
        ...     device.report(state=ZoneState.IMPLICITLY_OPENED)
        [Zone(state=<ZoneState.IMPLICITLY_OPENED: 2>, start=0, capacity=16, write_pointer=1)]
        """
        # behind a head of one descriptor's size
        room = min(self.geometry.zones, MOST_TRANSFER // _DESCRIPTOR_BYTES - 1)
        dwords = (1 + room) * _DESCRIPTOR_BYTES // 4
        reported = [None, *ZoneState].index(state) << 8
        zones: List[Zone] = []
        while True:
            report = self._do(_Opcode.ZONE_MANAGEMENT_RECEIVE, lba, dwords - 1, reported).data
            matching = int.from_bytes(report[:8], "little")
            zones += [_zone(report, _DESCRIPTOR_BYTES * number) for number in range(1, min(matching, room) + 1)]
            if matching <= room:
                return zones
            lba = zones[-1].start + self.geometry.zone_size

    # ---- programs

    def load(self, slot: int, program: Union[bytes, FilePath], emit: int) -> None:
        """Load: puts a program into a slot, given as its bytes or as the name of its file. For a block it may emit so many bytes, each
        record with two bytes of its length.

        Where `zscli link` wrote notes beside the file, `NAME.linked`, they say for which block size and which limit the program was
        linked. Other ones are `LinkedOtherwise`, and nothing is loaded. Notes of another program are a warning, and not used.

        >>> with example() as device:
        ...     device.load(0, EMITS_NOTHING[:8], emit=0)  # doctest: +ELLIPSIS
        Traceback (most recent call last):
        pifnjarl.ProgramRefused: queue 1, command 1: load of 8 bytes ... slot 0, reason 3 (a program that falls off)
        """
        if not 0 <= slot < 1 << 32:
            raise ValueError(f"there is no slot {slot}")
        notes: Optional[_Notes] = None
        if isinstance(program, (str, os.PathLike)):
            data = Path(program).read_bytes()
            notes = self._fitting_notes(program, data, emit)
            program = data
        self._do(_Opcode.LOAD, slot | emit << 32, len(program), data=program)
        self._loaded[slot] = notes
        self._question_slots.pop(slot, None)

    def run(self, slot: int, lba: int, blocks: int, to: int, argument: int = 0) -> Run:
        """Run: starts the program of a slot over written blocks from an LBA on, into an open zone."""
        raise NotImplementedError

    def result(self, slot: int) -> bytes:
        """Result: the 1024 bytes of scratch that the last run of a slot's program left.

        >>> with example() as device:
        ...     device.load(0, EMITS_NOTHING, emit=0)
        ...     device.result(0) == bytes(1024)
        True
        """
        return self._do(_Opcode.RESULT, slot).data

    # ---- questions

    def query(
        self,
        zone: int,
        layout: Any,
        where: str,
        *,
        numpy: bool = False,
        blocks: Optional[int] = None,
        argument: int = 0,
        into: Optional[int] = None,
        slots: Optional[Sequence[int]] = None,
        **words: Any,
    ) -> Any:
        """Asks which records of a zone's written blocks, or of its first so many, meet a condition, by programs on the device that
        `zscli query` makes; pifnjarl_query.py says what that takes of it.

        The layout is the text of a layout file, its path, a list of fields, each with its name, its type and its offset, or a dtype of
        numpy. The words are those of the command but `by`: with `select=["order", "price"]`, or without words, the answer is a list with a
        named tuple for each record; where the layout is a dtype, or with `numpy`, it is an array. With `count=True`, `sum="price"`, `least` or
        `greatest` it is one `Tallies` of the records. What is appended goes to an Empty zone, the first or the one that `into` names,
        which is reset at the end. `slots` names slots whose programs may be replaced, where no slot is free.

        >>> with example() as device:
        ...     first = device.append(0, b"\\x02lamps".ljust(512, b"\\0") + b"\\x01desk".ljust(512, b"\\0"))
        ...     device.query(0, [("amount", "u8", 0), ("what", "text8", 1)], "amount > 1")
        [Row(amount=2, what='lamps')]
        """
        from pifnjarl_query import Question

        question = Question(layout, where, numpy=numpy, program=self._zscli, **words)
        return question.ask(self, zone, blocks=blocks, argument=argument, into=into, slots=slots)

    # ---- commands

    def _blocks(self, data: bytes) -> int:
        """How many blocks these are."""
        block = self.geometry.block
        if not data or len(data) % block:
            raise ValueError(f"{len(data)} bytes aren't one or more blocks of {block}")
        return len(data) // block

    def _transfers(self, data: bytes) -> List[bytes]:
        """Whole blocks in pieces, which one command takes."""
        self._blocks(data)
        return [data[at : at + MOST_TRANSFER] for at in range(0, len(data), MOST_TRANSFER)]

    def _send(self, action: _Action, zone: Optional[int]) -> None:
        """Zone Management Send: takes an action on a zone, or on all."""
        if zone is None:
            self._do(_Opcode.ZONE_MANAGEMENT_SEND, 0, 0, action | _SELECT_ALL)
        else:
            self._do(_Opcode.ZONE_MANAGEMENT_SEND, zone, 0, action)

    def _do(self, opcode: _Opcode, *dwords: int, data: bytes = b"") -> _Completion:
        """Submits an entry, and gives its completion, which has to tell success."""
        return self._completion_of(self._submit(opcode, *dwords, data=data))

    def _completion_of(self, asked: _Asked) -> _Completion:
        """Waits for a command's completion, which has to tell success."""
        completion = self._answer_of(asked).completion
        assert completion is not None
        return completion

    def _submit_run(self, slot: int, lba: int, blocks: int, to: int, argument: int) -> _Asked:
        """Submits a Run."""
        if not 0 <= slot < 1 << 8:
            raise ValueError(f"there is no slot {slot}")
        if not 1 <= blocks <= 1 << 16:
            raise ValueError(f"a run is over 1 to 65536 blocks, and not over {blocks}")
        return self._submit(_Opcode.RUN, lba, blocks - 1 | slot << 16, argument, to)

    def _submit(self, opcode: _Opcode, *dwords: int, data: bytes = b"") -> _Asked:
        """Submits an entry, and doesn't wait for its completion."""
        raise NotImplementedError

    def _answer_of(self, asked: _Asked) -> _Frame:
        """Waits for what answers a request. If that is a refusal, it is raised."""
        raise NotImplementedError

    def _has_come(self, asked: _Asked) -> bool:
        """Has the answer to a request come? Doesn't wait."""
        raise NotImplementedError

    def _give_turns(self, run: int, count: int) -> None:
        """Gives the run of a number so many turns. Where the device gives all of them itself, there are none to be given."""

    def _run_to_end(self, slot: int, lba: int, blocks: int, to: int, argument: int) -> Result:
        """A run with all its turns."""
        return self.run(slot, lba, blocks, to, argument).wait()

    # ---- programs that were linked

    def _fitting_notes(self, program: FilePath, data: bytes, emit: int) -> Optional[_Notes]:
        """The notes beside a program's file, which have to be for this device's blocks and this limit."""
        notes, name = _notes_beside(program, data), os.fspath(program)
        if notes is not None and notes.block != self.geometry.block:
            raise LinkedOtherwise(f"{name} was linked for blocks of {notes.block} bytes, and the device has {self.geometry.block}")
        if notes is not None and notes.emit not in (None, emit):
            raise LinkedOtherwise(f"{name} was linked to emit at most {notes.emit} bytes for a block, and not {emit}")
        return notes

    def _guard_of(self, run: Run, notes: _Notes, guard_at: int, result: Result) -> Optional[GuardEnded]:
        """The guard that ended one of a run's blocks, as the scratch says that the run left, if it is still there."""
        if self._ended.get(run._slot) is not run:
            return None
        number, slot, block = _ENDED.unpack_from(self.result(run._slot), guard_at)
        guard = notes.guards.get(number)
        if guard is None or guard.slot != slot:
            return None
        return GuardEnded(guard.place, guard.text, block, slot, result)


class Device(Commands):
    """A device over an image file. It holds the file, and what happens is in its memory, until it saves or ends; with `durable`, it is
    on the disk before a method returns, in a journal that takes the image's place.

    One that is dropped ends too, as by `shut`, with a `ResourceWarning`; what fails then, nobody is told.
    """

    def __init__(self, image: FilePath, *, program: Optional[FilePath] = None, queue: int = 1, durable: bool = False) -> None:
        """Opens a device over an image; `program` is `zscli`, and `queue` the submission queue of the commands that come. A durable one
        may be a journal too: the runs that a crash left there get their turns first.

        >>> Device("no image")
        Traceback (most recent call last):
        pifnjarl.DeviceError: no image: no such file or folder
        cannot read no image
        """
        super().__init__(zscli(program), queue)
        self._identifier = 0
        self._runs: Dict[Tuple[int, int], Run] = {}
        # the requests that aren't answered yet, and the refused commands that nobody has waited for
        self._under_way: Deque[_Asked] = deque()
        self._unseen: List[_Asked] = []
        durably = ["--durable"] if durable else []
        self._stream = _Stream([zscli(program), "serve", os.fspath(image), "--frames", *durably])
        weakref.finalize(self, _end_left, self._stream)
        try:
            # what answers this says that the image is loaded; no run is left whose identifier a command could get
            self.drain()
            self.geometry = geometry_of(image)
        except BaseException:
            with suppress(DeviceError):
                self.shut()
            raise

    def __enter__(self) -> Device:
        return self

    def __exit__(self, kind: Optional[Type[BaseException]], leaves: Optional[BaseException], *_: object) -> None:
        if leaves is None:
            self.shut()
            return
        # an exception that leaves `with` is covered neither by a refusal nor by what fails as the device ends
        try:
            self._stream.end()
        except DeviceError as failed:
            _put_before(leaves, failed)

    # ---- runs and faults

    def run(self, slot: int, lba: int, blocks: int, to: int, argument: int = 0) -> Run:
        """Run: starts the program of a slot over written blocks from an LBA on, into an open zone. A run that isn't waited for
        gets its turns when the device ends.

        >>> with example() as device:
        ...     device.run(0, 0, 1, to=16)  # doctest: +ELLIPSIS
        Traceback (most recent call last):
        pifnjarl.NoSuchProgram: queue 1, command 1: run of slot 0 over 1 block from LBA 0 on, to the zone of LBA 16: refused: ...
        """
        queue, asked = self.queue, self._submit_run(slot, lba, blocks, to, argument)
        identifier = self._identifier
        run = Run(self, self._answer_of(asked).run, blocks, slot, self._loaded.get(slot))
        self._runs[queue, identifier] = run
        return run

    def drain(self, turns: int = 2**32 - 1) -> int:
        """Gives the active runs turns, one after another, at most so many in all, and tells how many.

        >>> with example() as device:
        ...     device.drain()
        0
        """
        return self._answer_of(self._ask(_Asked(drains=True), _Request.DRAIN, number=turns)).turns

    def _run_to_end(self, slot: int, lba: int, blocks: int, to: int, argument: int) -> Result:
        """A run with all its turns: by one request, where no other run is active, since a drain gives turns to each."""
        run = self.run(slot, lba, blocks, to, argument)
        if len(self._runs) == 1:
            self.drain()
        return run.wait()

    def fault(self, zone: int, state: ZoneState) -> None:
        """Brings a zone into a fault's state, Read Only or Offline.

        >>> with example() as device:
        ...     device.fault(64, ZoneState.OFFLINE)
        Traceback (most recent call last):
        pifnjarl.FaultRefused: a fault of the zone of LBA 64
        """
        if state not in _FAULTS:
            raise ValueError(f"a fault makes a zone READ_ONLY or OFFLINE, and not {state.name}")
        asked = self._ask(_Asked(), _Request.FAULT, part=1 + _FAULTS.index(state), number=zone // self.geometry.zone_size)
        if self._answer_of(asked).answer == _Answer.FAULT_REFUSED:
            raise FaultRefused(f"a fault of the zone of LBA {zone}")

    # ---- the image

    def save(self) -> None:
        """Saves the image as it is now.

        >>> with example() as device:
        ...     device.save()
        """
        self._answer_of(self._ask(_Asked(), _Request.SAVE))

    def shut(self) -> None:
        """Gives the runs that are left their turns, saves the image, and ends the device. Does nothing where it has ended.

        If a command was refused for which nobody waited, it raises its exception then.

        >>> with example() as device:
        ...     device.shut()
        ...     device.report()
        Traceback (most recent call last):
        pifnjarl.DeviceError: the device is shut
        """
        if self._stream.over is not None:
            return
        try:
            while self._under_way and not self._stream.moving:
                self._take()
        finally:
            self._stream.end()
        if self._stream.moving:
            raise DeviceError(CUT_OFF)
        for asked in self._unseen:
            if asked.refusal is not None:
                raise asked.refusal

    # ---- requests, and what answers them

    def _submit(self, opcode: _Opcode, *dwords: int, data: bytes = b"") -> _Asked:
        """Submits an entry with an identifier of its own."""
        identifier = self._identifier % 0xFFFF + 1
        while (self.queue, identifier) in self._runs:
            identifier = identifier % 0xFFFF + 1
        entry = _entry(opcode, identifier, *dwords)
        asked = self._ask(_Asked(_words(opcode, *dwords)), _Request.SUBMISSION, queue=self.queue, entry=entry, data=data)
        self._identifier = identifier
        self._stream.push()
        return asked

    def _ask(
        self,
        asked: _Asked,
        request: _Request,
        part: int = 0,
        queue: int = 0,
        number: int = 0,
        entry: bytes = b"",
        data: bytes = b"",
    ) -> _Asked:
        """Sends a request, which is under way then."""
        self._stream.send(request, part, queue, number, entry, data)
        self._under_way.append(asked)
        return asked

    def _answer_of(self, asked: _Asked) -> _Frame:
        """Waits for what answers a request. If that is a refusal, it is raised."""
        while asked.answer is None:
            self._take()
        if asked.refusal is not None:
            with suppress(ValueError):
                self._unseen.remove(asked)
            raise asked.refusal
        return asked.answer

    def _has_come(self, asked: _Asked) -> bool:
        """Has the answer to a request come? Doesn't wait."""
        self._stream.push()
        while asked.answer is None and self._stream.poll():
            self._take()
        return asked.answer is not None

    def _take(self) -> None:
        """Waits for the next frame, and gives it to the request that it answers, which is the oldest."""
        self._stream.wait()
        self._stream.moving = True
        frame = self._stream.receive()
        self._note(frame)
        if not self._under_way[0].drains or frame.answer == _Answer.DRAINED:
            asked = self._under_way.popleft()
            asked.end(frame)
            if asked.refusal is not None:
                self._unseen.append(asked)
        self._stream.moving = False

    def _give_turns(self, run: int, count: int) -> None:
        """Gives the run of a number so many turns."""
        turns = [self._ask(_Asked(), _Request.TURN, part=run) for _ in range(count)]
        self._answer_of(turns[-1])

    def _note(self, frame: _Frame) -> None:
        """Ends the run whose completion this is, if it is one."""
        completion = frame.completion
        if completion is not None:
            run = self._runs.pop((completion.queue, completion.identifier), None)
            # (of a run that was left there, nobody waits for it)
            if run is not None:
                run._result = Result(completion.dword0, completion.dword1)
                self._ended[run._slot] = run


def query_all(devices: Sequence[Any], zone: Union[int, Sequence[int]], layout: Any, where: str, **words: Any) -> Any:
    """Asks several devices one question side by side, in calls of the executor that the word `executor` gives: `query_all` of
    pifnjarl_query.py, which says more."""
    from pifnjarl_query import query_all as ask_all

    return ask_all(devices, zone, layout, where, **words)


# ---- examples


@contextmanager
def example() -> Iterator[Device]:
    """A device for examples, over a new image of four zones of 16 blocks of 512 bytes, which is removed at the end.

    >>> with example() as device:
    ...     device.geometry.zones, device.geometry.zone_size
    (4, 16)
    """
    with tempfile.TemporaryDirectory() as folder:
        image = Path(folder) / "zoned.img"
        format_image(image, zone_size=16)
        with Device(image) as device:
            yield device
