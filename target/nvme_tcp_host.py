"""A host for the zoned device over NVMe/TCP: two files, the standard library alone, which can be copied beside a script.

`Host(address)` connects an admin queue, and so makes a controller, and enables it. `host.queue(1)` is its first I/O queue, on a
connection of its own, with a method for each command of the device. A command that is refused raises `Refused`, with its status.

    >>> with example() as host:
    ...     queue = host.queue(1)
    ...     first = queue.append(16, b"2 lamps".ljust(512))
    ...     first, queue.read(first, 1)[:7]
    (16, b'2 lamps')

`submit` sends a command and waits for nothing, so that many are in flight, and `completion` waits for one of them.

    >>> with example() as host:
    ...     queue = host.queue(1)
    ...     flying = [queue.submit(Opcode.ZONE_APPEND, 0, data=bytes(512)) for _ in range(3)]
    ...     [queue.completion(identifier).dword0 for identifier in flying]
    [0, 1, 2]

Below these, nvme_tcp_connection.py sends and receives PDUs. The target has no digests, no TLS and no
authentication, and neither has this host.
"""

from __future__ import annotations

import struct
from enum import Enum, IntEnum
from typing import Dict, List, NamedTuple, Optional, Tuple

from nvme_tcp_connection import (
    DATA_FIELDS,
    LAST,
    Address,
    Completion,
    Connection,
    Fabrics,
    HostError,
    Kind,
    Opcode,
    Pdu,
    ProtocolError,
    Refused,
    Sgl,
    Terminated,
    capsule,
    connect_data,
    connect_entry,
    entry,
    h2c_data,
)

SUBSYSTEM_NQN = "nqn.2014-08.org.nvmexpress:uuid:0f2b6a34-8c1d-4e7a-9b35-7a6f6e6a6172"
"""The NVMe Qualified Name of the target's subsystem."""

HOST_IDENTIFIER = b"one Python host."
HOST_NQN = "nqn.2014-08.org.nvmexpress:uuid:00000000-0000-0000-0000-000000000001"
"""Who a host says that it is, where it isn't told: its Host Identifier, and its NVMe Qualified Name."""

# ---- queues


class Queue:
    """A queue, on a connection of its own. Identifiers are given in turn, and those of commands in flight aren't given again."""

    def __init__(self, connection: Connection, number: int, entries: int) -> None:
        """A queue before its Connect."""
        self.connection, self.number, self.entries = connection, number, entries
        self.most_h2c_data = struct.unpack_from("<I", connection.initialize().header, 12)[0]
        # the queue's number is told from its Connect on, and 0 before
        self._numbers = {0, number}
        self._next = 0
        self._sent: Dict[int, bytes] = {}
        self._given: Dict[int, bytearray] = {}
        self._completions: Dict[int, Completion] = {}

    def connect(self, data: bytes, *, in_capsule: bool = True, **fields: int) -> Completion:
        """Connect: makes this the queue of its number. Its data is in the capsule, or else asked for by an R2T."""
        command = connect_entry(0, self.number, self.entries - 1, **fields, sgl=Sgl.IN_CAPSULE if in_capsule else Sgl.TRANSPORT)
        self.send_command(command, data)
        done = self.done(0)
        self._numbers = {self.number}
        return done

    def submit(
        self, opcode: int, *dwords: int, data: bytes = b"", length: int = 0, in_capsule: bool = False, namespace: int = 1
    ) -> int:
        """Sends a command, with data to the controller or with the length of the data that it is to give, and gives its identifier."""
        while self._next in self._sent:
            self._next = (self._next + 1) % 0xFFFF
        identifier = self._next
        self._next = (identifier + 1) % 0xFFFF
        sgl = Sgl.IN_CAPSULE if in_capsule else Sgl.TRANSPORT
        self.send_command(entry(opcode, identifier, *dwords, length=len(data) or length, sgl=sgl, namespace=namespace), data)
        return identifier

    def send_command(self, command: bytes, data: bytes) -> None:
        """Sends an entry as it is; its data goes with it, or when the controller asks for it."""
        identifier = int.from_bytes(command[2:4], "little")
        self._sent[identifier], self._given[identifier] = data, bytearray()
        self.connection.send(capsule(command, data if command[39] == Sgl.IN_CAPSULE else b""))

    def completion(self, identifier: int, patience: Optional[float] = None) -> Completion:
        """Waits for the completion of a command; meanwhile others may complete, and the data that is asked for is sent."""
        while identifier not in self._completions:
            self._take(self.connection.receive(patience))
        return self._completions.pop(identifier)

    def done(self, identifier: int) -> Completion:
        """Waits for the completion of a command, which has to tell success."""
        completion = self.completion(identifier)
        if completion.status:
            raise Refused(completion)
        return completion

    def command(self, opcode: int, *dwords: int, data: bytes = b"", length: int = 0, namespace: int = 1) -> Completion:
        """Any command: sends it, and waits for its completion, which has to tell success."""
        return self.done(self.submit(opcode, *dwords, data=data, length=length, namespace=namespace))

    def _take(self, came: Pdu) -> None:
        """Does what a PDU asks for."""
        if came.kind == Kind.C2H_TERM_REQ:
            raise Terminated(came)
        if came.kind == Kind.CAPSULE_RESP:
            self._complete(came)
            return
        identifier, tag, offset, count = DATA_FIELDS.unpack_from(came.header, 8)
        if identifier not in self._sent:
            raise ProtocolError(f"{came.kind.name} for the command {identifier}, which isn't in flight")
        if came.kind == Kind.R2T:
            self._send_data(identifier, tag, offset, count)
        elif came.kind == Kind.C2H_DATA and (offset, count) == (len(self._given[identifier]), len(came.data)):
            self._given[identifier] += came.data
        else:
            raise ProtocolError(f"{came.kind.name} {came.header.hex(' ')}")

    def _send_data(self, identifier: int, tag: int, offset: int, count: int) -> None:
        """Sends a part of a command's data, which was asked for."""
        asked, end = self._sent[identifier], offset + count
        if not offset < end <= len(asked):
            raise ProtocolError(f"an R2T for the bytes {offset} to {end} of {len(asked)}")
        for at in range(offset, end, self.most_h2c_data):
            piece = asked[at : min(end, at + self.most_h2c_data)]
            self.connection.send(h2c_data(identifier, at, piece, LAST if at + len(piece) == end else 0, tag))

    def _complete(self, came: Pdu) -> None:
        """Keeps a completion until it is asked for."""
        dword0, dword1, head, queue, identifier, status = struct.unpack_from("<IIHHHH", came.header, 8)
        if self._sent.pop(identifier, None) is None or queue not in self._numbers:
            raise ProtocolError(f"a completion of the command {identifier} of queue {queue}, which isn't in flight")
        data = bytes(self._given.pop(identifier))
        fields = dword0, dword1, head, queue, identifier
        self._completions[identifier] = Completion(*fields, status >> 1 & 0x7FF, bool(status >> 15), data)


class ZoneState(Enum):
    """The state of a zone, by its number in a descriptor (ZNS 1.1, 3.4.2). A report of one state numbers them in this order."""

    EMPTY = 0x1
    IMPLICITLY_OPENED = 0x2
    EXPLICITLY_OPENED = 0x3
    CLOSED = 0x4
    FULL = 0xE
    READ_ONLY = 0xD
    OFFLINE = 0xF


class Action(IntEnum):
    """What a Zone Management Send does (ZNS 1.1, 3.4.3)."""

    CLOSE = 1
    FINISH = 2
    OPEN = 3
    RESET = 4
    OFFLINE = 5


class Zone(NamedTuple):
    """A zone: its state, its lowest LBA, how many of its blocks can be written, and the LBA that is written next."""

    state: ZoneState
    start: int
    capacity: int
    write_pointer: int


class IoQueue(Queue):
    """An I/O queue, with the commands of the device. A zone is its lowest LBA."""

    block = 0
    """The bytes of a block."""

    def write(self, lba: int, data: bytes) -> None:
        """Write: blocks from a zone's write pointer on.

        >>> with example() as host:
        ...     host.queue(1).write(1, bytes(512))
        Traceback (most recent call last):
        nvme_tcp_connection.Refused: Zone Invalid Write (type 1h, code BCh)
        """
        self.command(Opcode.WRITE, lba, len(data) // self.block - 1, data=data)

    def append(self, zone: int, data: bytes) -> int:
        """Zone Append: blocks at a zone's write pointer. Gives the LBA of the first."""
        return self.command(Opcode.ZONE_APPEND, zone, len(data) // self.block - 1, data=data).value

    def read(self, lba: int, blocks: int) -> bytes:
        """Read: blocks of one zone."""
        return self.command(Opcode.READ, lba, blocks - 1, length=blocks * self.block).data

    def report(self, lba: int = 0, most: int = 64, state: int = 0) -> List[Zone]:
        """Zone Management Receive: at most so many zones from the one with this LBA on, of all states or of one."""
        size = 64 * (most + 1)
        report = self.command(Opcode.ZONE_MANAGEMENT_RECEIVE, lba, size // 4 - 1, 1 << 16 | state << 8, length=size).data
        count = int.from_bytes(report[:8], "little")
        rows = [struct.unpack_from("<xB6xQQQ", report, 64 * number) for number in range(1, count + 1)]
        return [Zone(ZoneState(row[0] >> 4), row[2], row[1], row[3]) for row in rows]

    def zone_action(self, action: Action, zone: Optional[int]) -> None:
        """Zone Management Send: an action on a zone, or with `None` on all that it takes.

        >>> with example() as host:
        ...     host.queue(1).zone_action(Action.OPEN, 16)
        ...     host.queue(1).report(16, most=1)
        [Zone(state=<ZoneState.EXPLICITLY_OPENED: 3>, start=16, capacity=16, write_pointer=16)]
        """
        self.command(Opcode.ZONE_MANAGEMENT_SEND, zone or 0, 0, action | (zone is None) << 8)

    def load(self, slot: int, program: bytes, emit: int) -> None:
        """Load: puts a program into a slot. It may emit so many bytes for a block."""
        self.command(Opcode.LOAD, slot | emit << 32, len(program), data=program)

    def submit_run(self, slot: int, lba: int, blocks: int, to: int, argument: int = 0) -> int:
        """Run: starts the program of a slot over blocks, into an open zone. Its completion comes when it ends, and tells how many
        records were emitted (Dword 0), and how many blocks were appended (Dword 1)."""
        return self.submit(Opcode.RUN, lba, blocks - 1 | slot << 16, argument, to)

    def run(self, slot: int, lba: int, blocks: int, to: int, argument: int = 0) -> Tuple[int, int]:
        """A Run that is waited for: how many records were emitted, and how many blocks were appended."""
        completion = self.done(self.submit_run(slot, lba, blocks, to, argument))
        return completion.dword0, completion.dword1

    def result(self, slot: int) -> bytes:
        """Result: the 1024 bytes that the last run of a slot's program left."""
        return self.command(Opcode.RESULT, slot, length=1024).data


# ---- hosts

CAP, VS, CC, CSTS = (0x00, 8), (0x08, 4), (0x14, 4), (0x1C, 4)
"""Properties: the offset and the size of each (NVMe Base 2.0, 3.1.3)."""

ENABLED = 0x0046_0061
"""CC of an enabled controller with all I/O command sets that it has: entries of 64 and 16 bytes, CSS 110b, EN."""

ANY_CONTROLLER = 0xFFFF


class Host:
    """A host with a controller of its own, which ends when the host is shut, at the latest behind `with`."""

    def __init__(
        self,
        address: Address,
        *,
        identifier: bytes = HOST_IDENTIFIER,
        name: str = HOST_NQN,
        subsystem: str = SUBSYSTEM_NQN,
        keep_alive: int = 0,
        enable: bool = True,
    ) -> None:
        """Connects an admin queue, and enables the controller unless it is told not to; Keep Alive is in milliseconds."""
        self.address, self.identifier, self.name, self.subsystem = address, identifier, name, subsystem
        self._queues: Dict[int, IoQueue] = {}
        self._block = 0
        self.admin = Queue(Connection(address), 0, 32)
        try:
            self.controller = self.admin.connect(self.connect_data(ANY_CONTROLLER), keep_alive=keep_alive).dword0
            if enable:
                self.enable()
        except HostError:
            self.admin.connection.shut()
            raise

    def __enter__(self) -> Host:
        return self

    def __exit__(self, *failure: object) -> None:
        self.shut()

    def connect_data(self, controller: Optional[int] = None) -> bytes:
        """The data of this host's Connect to a controller, or to its own."""
        wanted = self.controller if controller is None else controller
        return connect_data(self.identifier, wanted, self.subsystem, self.name)

    def get_property(self, which: Tuple[int, int]) -> int:
        """Property Get.

        >>> with example() as host:
        ...     hex(host.get_property(VS)), host.get_property(CSTS)
        ('0x10400', 1)
        """
        offset, size = which
        return self.admin.command(Opcode.FABRICS, (size == 8) | offset << 32, namespace=Fabrics.PROPERTY_GET).value

    def set_property(self, which: Tuple[int, int], value: int) -> None:
        """Property Set."""
        offset, size = which
        dwords = (size == 8) | offset << 32, value & 0xFFFF_FFFF, value >> 32
        self.admin.command(Opcode.FABRICS, *dwords, namespace=Fabrics.PROPERTY_SET)

    def enable(self) -> None:
        """Enables the controller, and asks it for the bytes of a block."""
        self.set_property(CC, ENABLED)
        if self.get_property(CSTS) != 1:
            raise HostError(f"the controller isn't ready: CSTS is {self.get_property(CSTS):X}h")
        self._block = 1 << self.identify(0x00, namespace=1)[130]

    def identify(self, structure: int, command_set: int = 0, namespace: int = 0) -> bytes:
        """Identify: the 4096 bytes of a structure (CNS), of a command set (CSI)."""
        dwords = structure | command_set << 56
        return self.admin.command(Opcode.IDENTIFY, dwords, length=4096, namespace=namespace).data

    def log_page(self, page: int, size: int, *, offset: int = 0, command_set: int = 0, namespace: int = 0) -> bytes:
        """Get Log Page: so many bytes of a page from an offset on, both multiples of 4."""
        dwords = page | (size // 4 - 1) << 16, offset & 0xFFFF_FFFF, offset >> 32, command_set << 24
        return self.admin.command(Opcode.GET_LOG_PAGE, *dwords, length=size, namespace=namespace).data

    def feature(self, feature: int) -> int:
        """Get Features: the value of a feature."""
        return self.admin.command(Opcode.GET_FEATURES, feature, namespace=0).dword0

    def set_feature(self, feature: int, value: int) -> int:
        """Set Features: gives Dword 0 of the completion."""
        return self.admin.command(Opcode.SET_FEATURES, feature | value << 32, namespace=0).dword0

    def keep_alive(self) -> None:
        """Keep Alive."""
        self.admin.command(Opcode.KEEP_ALIVE, namespace=0)

    def queue(self, number: int, entries: int = 128) -> IoQueue:
        """The I/O queue of a number, from 1 to 8, connected where it wasn't."""
        if number not in self._queues:
            queue = IoQueue(Connection(self.address), number, entries)
            queue.block = self._block
            try:
                queue.connect(self.connect_data())
            except HostError:
                queue.connection.shut()
                raise
            self._queues[number] = queue
        return self._queues[number]

    def shut_queue(self, number: int) -> None:
        """Ends the connection of an I/O queue."""
        self._queues.pop(number).connection.shut()

    def shut(self) -> None:
        """Ends all connections, and the controller with the last."""
        for number in list(self._queues):
            self.shut_queue(number)
        self.admin.connection.shut()
