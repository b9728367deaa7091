"""Cases of bytes that a peer sends, and exactly what answers them: how a row is written, and how it is tried.

    >>> with example() as host:
    ...     outcome(host.address, refused("Identify before Connect", INITIALIZED, entry(Opcode.IDENTIFY, 7), 0x00C))
    ''
"""

from __future__ import annotations

import struct
from contextlib import suppress
from typing import NamedTuple

from nvme_tcp_connection import LAST, Address, Connection, Ended, Fabrics, HostError, Kind, Opcode, capsule, connect_data, entry, pdu
from nvme_tcp_host import CC, ENABLED, HOST_IDENTIFIER, HOST_NQN, SUBSYSTEM_NQN, Host, IoQueue, Queue

PEER_IDENTIFIER, PEER_NQN = b"another host....", "nqn.2026-11.test:another"
"""Who the hostile peer says that it is."""
HOST_DATA = connect_data(HOST_IDENTIFIER, 1, SUBSYSTEM_NQN, HOST_NQN)
"""The data of a Connect of the host that is there already, to its controller, which is 1."""


def peer_data(controller: int, subsystem: str = SUBSYSTEM_NQN) -> bytes:
    """The data of the peer's Connect."""
    return connect_data(PEER_IDENTIFIER, controller, subsystem, PEER_NQN)


class Stage(NamedTuple):
    """How far a connection is: its number of entries, the identifier of its queue, and how many completions came."""

    name: str
    entries: int
    queue: int
    completed: int


OPENED = Stage("opened", 1, 0, 0)
"""Nothing was sent."""
INITIALIZED = Stage("initialized", 1, 0, 0)
"""There was an ICReq."""
ADMIN = Stage("admin", 32, 0, 2)
"""There was a Connect of an admin queue, and its controller is enabled by a Property Set."""
IO = Stage("I/O", 4, 2, 1)
"""There was a Connect of I/O queue 2."""


class Case(NamedTuple):
    """Bytes that are sent, all bytes that answer them, and whether the connection ends."""

    name: str
    at: Stage
    sent: bytes
    answer: bytes
    ends: bool


# ---- what a target sends


def terminated(status: int, information: int, header: bytes) -> bytes:
    """A C2HTermReq."""
    return pdu(Kind.C2H_TERM_REQ, struct.pack("<HI10x", status, information), header, offset=0)


def initialized() -> bytes:
    """The ICResp: no digests, and 131072 bytes in an H2CData."""
    return pdu(Kind.IC_RESP, struct.pack("<HBBI112x", 0, 0, 0, 131072))


def r2t(length: int, identifier: int = 7, tag: int = 0) -> bytes:
    """The R2T for all data of a command."""
    return pdu(Kind.R2T, struct.pack("<HHII4x", identifier, tag, 0, length))


def given(data: bytes, identifier: int = 7) -> bytes:
    """The C2HData with all data of a command."""
    return pdu(Kind.C2H_DATA, struct.pack("<HHII4x", identifier, 0, 0, len(data)), data, LAST)


def completed(at: Stage, status: int = 0, dword0: int = 0, dword1: int = 0, *, identifier: int = 7, nth: int = 1) -> bytes:
    """The nth completion of a case. All but success and a busy controller tell that a command isn't to be tried again."""
    head = (at.completed + nth) % at.entries
    final = status not in (0, 0x181)
    fields = dword0, dword1, head, at.queue, identifier, status << 1 | final << 15
    return pdu(Kind.CAPSULE_RESP, struct.pack("<IIHHHH", *fields))


# ---- what a row says


def head(kind: int, *, flags: int = 0, header: int = 72, offset: int = 0, length: int = 72) -> bytes:
    """The common header of a PDU."""
    return struct.pack("<BBBBI", kind, flags, header, offset, length)


def fatal(
    name: str, at: Stage, failing: bytes, status: int, information: int, shown: int = 8, *, before: bytes = b"", answer: bytes = b""
) -> Case:
    """A case that ends with a PDU in error, of whose header so much is given back."""
    return Case(name, at, before + failing, answer + terminated(status, information, failing[:shown]), True)


def refused(name: str, at: Stage, command: bytes, status: int, dword0: int = 0, *, data: bytes = b"") -> Case:
    """A case of one capsule, whose command is refused."""
    return Case(name, at, capsule(command, data), completed(at, status, dword0), False)


def answered(name: str, at: Stage, sent: bytes, answer: bytes) -> Case:
    """A case behind which the connection goes on."""
    return Case(name, at, sent, answer, False)


# ---- how it is tried


def reached(address: Address, stage: Stage) -> Connection:
    """A connection that has come so far; the host that has controller 1 is there already."""
    if stage is OPENED:
        return Connection(address)
    if stage is ADMIN:
        peer = Host(address, identifier=PEER_IDENTIFIER, name=PEER_NQN, enable=False)
        peer.set_property(CC, ENABLED)
        return peer.admin.connection
    if stage is IO:
        queue = IoQueue(Connection(address), 2, 4)
        queue.connect(HOST_DATA)
        return queue.connection
    return Queue(Connection(address), 0, 1).connection


def outcome(address: Address, case: Case, behind: bytes = b"", cut: bool = False) -> str:
    """What is wrong with what a case comes to; nothing where it is as the row says. Behind it other bytes may be sent at once, and it
    may be sent byte by byte."""
    connection = reached(address, case.at)
    with suppress(Ended):
        connection.send(case.sent + behind, range(1, len(case.sent)) if cut else ())
    try:
        came = connection.receive_to_end() if case.ends else connection.receive_bytes(len(case.answer))
        if came != case.answer:
            return f"{case.name}: {case.answer.hex(' ')} is wanted, and there came {came.hex(' ')}"
        return "" if case.ends or goes_on(connection) else f"{case.name}: the connection doesn't go on"
    except HostError as error:
        return f"{case.name}: {error}"
    finally:
        connection.shut()


def goes_on(connection: Connection) -> bool:
    """Is a Property Get completed, by whatever status?"""
    connection.send(capsule(entry(Opcode.FABRICS, 999, 1, namespace=Fabrics.PROPERTY_GET)))
    answer = connection.receive()
    return answer.kind == Kind.CAPSULE_RESP and answer.header[20:22] == struct.pack("<H", 999)
