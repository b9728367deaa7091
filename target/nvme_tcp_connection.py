"""NVMe over TCP below the commands: entries, PDUs, and a connection that sends and receives them.

A `Connection` sends any bytes, cut anywhere, also such as no host may send, and what it receives has to be well formed.

    >>> with example() as host:
    ...     connection = Connection(host.address)
    ...     connection.send(initialize_request(), cuts=[3, 8])
    ...     connection.receive().kind
    ...     connection.shut()
    <Kind.IC_RESP: 1>

What a target answers is told by nvme_tcp_host.py, which is a whole host over this.
"""

from __future__ import annotations

import socket
import struct
import time
from contextlib import suppress
from enum import IntEnum
from typing import Callable, Iterable, NamedTuple, Optional, Tuple

Address = Tuple[str, int]
"""A host's name or IP address, and a port."""

MOST_TRANSFER = 131072
"""The most bytes of data that one command takes or gives."""

# ---- errors


class HostError(Exception):
    """The target didn't do what it was asked for."""


class TimedOut(HostError):
    """Nothing came in time. What did come of a PDU is kept, and it can be waited for again."""


class Ended(HostError):
    """The target closed the connection."""


class ProtocolError(HostError):
    """The target sent what no controller may send."""


class Terminated(HostError):
    """The target terminated the connection because of a fatal error (NVMe over TCP Transport 1.0, 3.6.2.6).

    `status` is the Fatal Error Status, `information` the Fatal Error Information, and `header` what it gave back of the PDU in error.
    """

    def __init__(self, pdu: Pdu) -> None:
        self.status, self.information = struct.unpack_from("<HI", pdu.header, 8)
        self.header = pdu.data
        super().__init__(f"fatal error status {self.status}, information {self.information}, PDU {self.header.hex(' ')}")


STATUS_NAMES = {
    0x001: "Invalid Command Opcode",
    0x002: "Invalid Field in Command",
    0x00B: "Invalid Namespace or Format",
    0x00C: "Command Sequence Error",
    0x00F: "Data SGL Length Invalid",
    0x011: "SGL Descriptor Type Invalid",
    0x016: "SGL Offset Invalid",
    0x080: "LBA Out of Range",
    0x105: "Asynchronous Event Request Limit Exceeded",
    0x109: "Invalid Log Page",
    0x180: "Connect Incompatible Format",
    0x181: "Connect Controller Busy",
    0x182: "Connect Invalid Parameters",
    0x1B8: "Zone Boundary Error",
    0x1B9: "Zone Is Full",
    0x1BA: "Zone Is Read Only",
    0x1BB: "Zone Is Offline",
    0x1BC: "Zone Invalid Write",
    0x1BD: "Too Many Active Zones",
    0x1BE: "Too Many Open Zones",
    0x1BF: "Invalid Zone State Transition",
    0x7C0: "Zone Held",
    0x7C1: "No Such Program",
    0x7C2: "Program Refused",
    0x7C3: "No Run Free",
    0x7C4: "Source Not Written",
    0x7C5: "Destination Not Open",
    0x7C6: "Destination Lacks Room",
    0x7C7: "Want of Memory",
    0x7C9: "Source Is Destination",
    0x7CA: "Program in Use",
}
"""The names of the statuses that the target gives, each by its type and code: 1BCh is type 1, code BCh."""


class Refused(HostError):
    """A command completed with a status other than success.

    >>> str(Refused(Completion(0, 0, 1, 1, 7, 0x1BC, True, b"")))
    'Zone Invalid Write (type 1h, code BCh)'
    """

    def __init__(self, completion: Completion) -> None:
        self.completion = completion
        self.status = completion.status
        name = STATUS_NAMES.get(self.status, "Unknown Status")
        super().__init__(f"{name} (type {self.status >> 8:X}h, code {self.status & 255:02X}h)")


# ---- entries and completions


class Opcode(IntEnum):
    """A command: of I/O queues the first eight, of the admin queue the others, and Fabrics of both."""

    WRITE = 0x01
    READ = 0x02
    ZONE_MANAGEMENT_SEND = 0x79
    ZONE_MANAGEMENT_RECEIVE = 0x7A
    ZONE_APPEND = 0x7D
    RUN = 0xC0
    LOAD = 0xC1
    RESULT = 0xC2
    GET_LOG_PAGE = 0x02
    IDENTIFY = 0x06
    ABORT = 0x08
    SET_FEATURES = 0x09
    GET_FEATURES = 0x0A
    ASYNCHRONOUS_EVENT_REQUEST = 0x0C
    KEEP_ALIVE = 0x18
    FABRICS = 0x7F


class Fabrics(IntEnum):
    """The type of a Fabrics command, which stands where others have the namespace (NVMe Base 2.0, 6.1)."""

    PROPERTY_SET = 0x00
    CONNECT = 0x01
    PROPERTY_GET = 0x04


class Sgl(IntEnum):
    """Where a command's data is: type and subtype of its SGL descriptor (NVMe Base 2.0, 4.1.2)."""

    IN_CAPSULE = 0x01
    TRANSPORT = 0x5A


def entry(
    opcode: int,
    identifier: int,
    dwords10_11: int = 0,
    dword12: int = 0,
    dword13: int = 0,
    dwords14_15: int = 0,
    *,
    length: int = 0,
    sgl: int = Sgl.TRANSPORT,
    address: int = 0,
    namespace: int = 1,
    flags: int = 0x40,
) -> bytes:
    """The 64 bytes of a submission queue entry, whose data has a length. Dwords 10 and 11 are one number here, and so are 14 and 15.

    >>> entry(Opcode.READ, 7, 8, length=512).hex(" ", 8)[:36]
    '0240070001000000 0000000000000000 00'
    """
    head = opcode, flags, identifier, namespace, address, length, sgl
    return struct.pack("<BBHI16xQI3xBQIIQ", *head, dwords10_11, dword12, dword13, dwords14_15)


def connect_entry(
    identifier: int, queue: int, size: int, *, keep_alive: int = 0, attributes: int = 0, record_format: int = 0, **more: int
) -> bytes:
    """The entry of a Connect (NVMe Base 2.0, 6.3): the size is zero-based, and Keep Alive in milliseconds."""
    dwords10_11 = record_format | queue << 16 | size << 32 | attributes << 48
    fields = {"length": 1024, "sgl": Sgl.IN_CAPSULE, **more}
    return entry(Opcode.FABRICS, identifier, dwords10_11, keep_alive, namespace=Fabrics.CONNECT, **fields)


def connect_data(host: bytes, controller: int, subsystem: str, name: str) -> bytes:
    """The data of a Connect: the Host Identifier, which controller is wanted, the subsystem's name and the host's."""
    return struct.pack("<16sH238x256s256s256x", host, controller, subsystem.encode(), name.encode())


class Completion(NamedTuple):
    """A completion queue entry, with its status as type and code, and the data that came before it."""

    dword0: int
    dword1: int
    head: int
    queue: int
    identifier: int
    status: int
    do_not_retry: bool
    data: bytes

    @property
    def value(self) -> int:
        """Dwords 0 and 1 as one number."""
        return self.dword0 | self.dword1 << 32


# ---- PDUs (NVMe over TCP Transport 1.0, 3.6)


class Kind(IntEnum):
    """Which PDU."""

    IC_REQ = 0x00
    IC_RESP = 0x01
    H2C_TERM_REQ = 0x02
    C2H_TERM_REQ = 0x03
    CAPSULE_CMD = 0x04
    CAPSULE_RESP = 0x05
    H2C_DATA = 0x06
    C2H_DATA = 0x07
    R2T = 0x09


LAST = 1 << 2
SUCCESS = 1 << 3
# the bytes of the header of each PDU that a controller sends, and the most bytes of the PDU
_SENT_BY_CONTROLLER = {
    Kind.IC_RESP: (128, 128),
    Kind.C2H_TERM_REQ: (24, 152),
    Kind.CAPSULE_RESP: (24, 24),
    Kind.C2H_DATA: (24, 128 + MOST_TRANSFER),
    Kind.R2T: (24, 24),
}
_COMMON_HEADER = struct.Struct("<BBBBI")
DATA_FIELDS = struct.Struct("<HHII4x")


class Pdu(NamedTuple):
    """A PDU that came: its header, with the common header, and its data without what pads it."""

    kind: Kind
    flags: int
    header: bytes
    data: bytes


def pdu(kind: int, fields: bytes, data: bytes = b"", flags: int = 0, **wrong: int) -> bytes:
    """The bytes of a PDU with these fields behind the common header. Its lengths fit, but for those that are named otherwise: `header`,
    `offset` or `length`.

    >>> pdu(Kind.H2C_DATA, bytes(16), b"abc").hex(" ")[:23]
    '06 00 18 18 1b 00 00 00'
    """
    header = _COMMON_HEADER.size + len(fields)
    lengths = {"header": header, "offset": header if data else 0, "length": header + len(data), **wrong}
    return _COMMON_HEADER.pack(kind, flags, lengths["header"], lengths["offset"], lengths["length"]) + fields + data


def initialize_request(version: int = 0, alignment: int = 0, digests: int = 0, most_r2t: int = 0, **wrong: int) -> bytes:
    """An ICReq: the PDU Format Version, HPDA, the digests that are wanted, and MAXR2T, which is zero-based."""
    return pdu(Kind.IC_REQ, struct.pack("<HBBI112x", version, alignment, digests, most_r2t), **wrong)


def capsule(command: bytes, data: bytes = b"", **wrong: int) -> bytes:
    """A CapsuleCmd: an entry, and the data that is in the capsule."""
    return pdu(Kind.CAPSULE_CMD, command, data, **wrong)


def h2c_data(identifier: int, offset: int, data: bytes, flags: int = LAST, tag: int = 0, **wrong: int) -> bytes:
    """An H2CData: a piece of a command's data, which is the last where nothing else is said."""
    count = wrong.pop("count", len(data))
    return pdu(Kind.H2C_DATA, DATA_FIELDS.pack(identifier, tag, offset, count), data, flags, **wrong)


def _check_lengths(kind: int, header: int, offset: int, length: int) -> None:
    """Raises an error where a controller sends no PDU of this type with these lengths."""
    if kind not in _SENT_BY_CONTROLLER:
        raise ProtocolError(f"a PDU of type {kind:02X}h")
    fixed, most = _SENT_BY_CONTROLLER[Kind(kind)]
    begins = offset if kind == Kind.C2H_DATA else fixed
    if header != fixed or not fixed <= begins <= length <= most or kind != Kind.C2H_DATA and offset:
        raise ProtocolError(f"{Kind(kind).name} with HLEN {header}, PDO {offset} and PLEN {length}")


# ---- connections


class Connection:
    """A TCP connection to a target. A wait of more than `patience` seconds is an error."""

    def __init__(self, address: Address, patience: float = 10) -> None:
        self.patience = patience
        self._socket = socket.create_connection(address, patience)
        self._socket.setsockopt(socket.IPPROTO_TCP, socket.TCP_NODELAY, 1)
        self._came = bytearray()

    def send(self, data: bytes, cuts: Iterable[int] = (), between: Callable[[], object] = lambda: None) -> None:
        """Sends bytes, in pieces that end at the cuts, which ascend; `between` is called between two pieces."""
        start = 0
        for cut in cuts:
            self._send(data[start:cut])
            between()
            start = cut
        self._send(data[start:])

    def receive(self, patience: Optional[float] = None) -> Pdu:
        """Waits for a PDU, which has to be well formed."""
        until = time.monotonic() + (self.patience if patience is None else patience)
        self._wait_for(8, until)
        kind, flags, header, offset, length = _COMMON_HEADER.unpack_from(self._came)
        _check_lengths(kind, header, offset, length)
        self._wait_for(length, until)
        whole = self._taken(length)
        begins = offset or header
        if any(whole[header:begins]):
            raise ProtocolError("what pads a C2HData isn't 0")
        return Pdu(Kind(kind), flags, whole[:header], whole[begins:])

    def receive_bytes(self, count: int, patience: Optional[float] = None) -> bytes:
        """Waits for so many bytes."""
        self._wait_for(count, time.monotonic() + (self.patience if patience is None else patience))
        return self._taken(count)

    def receive_to_end(self) -> bytes:
        """All bytes that come until the target closes the connection."""
        with suppress(Ended):
            self._wait_for(1 << 40, time.monotonic() + self.patience)
        return self._taken(len(self._came))

    def initialize(self, **fields: int) -> Pdu:
        """Sends an ICReq, and gives the ICResp."""
        self.send(initialize_request(**fields))
        answer = self.receive()
        if answer.kind == Kind.C2H_TERM_REQ:
            raise Terminated(answer)
        if answer.kind != Kind.IC_RESP:
            raise ProtocolError(f"{answer.kind.name} in answer to ICReq")
        return answer

    def end(self) -> None:
        """Says that no more bytes are sent; what the target sends can still be received."""
        with suppress(OSError):
            self._socket.shutdown(socket.SHUT_WR)

    def shut(self) -> None:
        """Ends the connection, and waits until the target has closed it as well: then it knows. Does nothing where it is shut."""
        if self._socket.fileno() < 0:
            return
        self.end()
        try:
            self.receive_to_end()
        finally:
            self._socket.close()

    def reset(self) -> None:
        """Ends the connection at once, whatever is on the way (RST)."""
        self._socket.setsockopt(socket.SOL_SOCKET, socket.SO_LINGER, struct.pack("ii", 1, 0))
        self._socket.close()

    def _send(self, data: bytes) -> None:
        """Sends bytes."""
        self._socket.settimeout(self.patience)
        try:
            self._socket.sendall(data)
        except socket.timeout:
            raise TimedOut("the target takes no bytes") from None
        except OSError as error:
            raise Ended(f"the connection has ended: {error}") from None

    def _taken(self, count: int) -> bytes:
        """Takes so many of the bytes that have come."""
        taken = bytes(self._came[:count])
        del self._came[:count]
        return taken

    def _wait_for(self, count: int, until: float) -> None:
        """Waits until so many bytes have come and aren't taken, or for a time."""
        while len(self._came) < count:
            left = until - time.monotonic()
            if left <= 0:
                raise TimedOut(f"only {len(self._came)} of {count} bytes came")
            self._socket.settimeout(left)
            try:
                piece = self._socket.recv(1 << 18)
            except socket.timeout:
                continue
            except OSError as error:
                raise Ended(f"the connection has ended: {error}") from None
            if not piece:
                raise Ended("the target closed the connection")
            self._came += piece
