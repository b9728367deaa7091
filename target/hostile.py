"""What a peer may send that no host should, and exactly what it is answered: one row a case.

Each case begins at a connection that has come so far as it says. One that is fatal is answered by a C2HTermReq, with the header in
error, and by nothing more (NVMe over TCP Transport 1.0, 3.6.2.6); behind each of the others the connection goes on. Whatever was sent,
the zones are as they were.

    python3 hostile.py

tries all of them on a target over a new image, and prints those that fail.
"""

from __future__ import annotations

import struct
import sys
from typing import Iterator, List

import target
from cases import ADMIN, HOST_DATA, INITIALIZED, IO, OPENED, PEER_IDENTIFIER, PEER_NQN
from cases import Case, answered, completed, fatal, head, initialized, outcome, peer_data, r2t, refused
from nvme_tcp_connection import LAST, Fabrics, Kind, Opcode, Sgl, capsule, connect_data, connect_entry, entry, h2c_data
from nvme_tcp_connection import initialize_request, pdu
from nvme_tcp_host import ANY_CONTROLLER, ENABLED, HOST_IDENTIFIER, HOST_NQN, SUBSYSTEM_NQN, Host

# ---- before the connection is initialized


def before_initialization() -> Iterator[Case]:
    """What comes in place of an ICReq, and ICReqs with wrong fields."""
    for kind in (0x01, 0x03, 0x05, 0x07, 0x08, 0x09, 0x0A, 0x7F, 0xFF):
        yield fatal(f"a PDU of type {kind:02X}h", OPENED, head(kind), 1, 0)
    yield fatal("a request of HTTP", OPENED, b"GET / HTTP/1.1\r\n\r\n", 1, 0)
    yield fatal("a greeting of TLS", OPENED, b"\x16\x03\x01\x02\x00\x01\x00\x01\xfc\x03\x03", 1, 0)
    yield fatal("a capsule first", OPENED, head(4), 2, 0)
    yield fatal("a capsule first, with a wrong length", OPENED, head(4, length=1), 2, 0)
    yield fatal("data first", OPENED, head(6, header=24, offset=24, length=536), 2, 0)
    yield Case("a request to terminate first", OPENED, pdu(Kind.H2C_TERM_REQ, bytes(16)), b"", True)
    for flags in (1, 2, 3, 0xFF):
        yield fatal(f"an ICReq with flags {flags:02X}h", OPENED, head(0, flags=flags, header=128, length=128), 1, 1)
    for header in (0, 127, 129, 255):
        yield fatal(f"an ICReq with HLEN {header}", OPENED, head(0, header=header, length=128), 1, 2)
    for length in (0, 8, 127, 129, 0xFFFF_FFFF):
        yield fatal(f"an ICReq with PLEN {length}", OPENED, head(0, header=128, length=length), 1, 4)
    yield fatal("an ICReq with a digest and HLEN wrong", OPENED, head(0, flags=1, header=9, length=9), 1, 1)
    yield fatal("an ICReq with HLEN and PLEN wrong", OPENED, head(0, header=9, length=9), 1, 2)
    for version in (1, 0x100):
        yield fatal(f"PDU Format Version {version}", OPENED, initialize_request(version), 6, 8, 128)
    for alignment in (32, 255):
        yield fatal(f"HPDA {alignment}", OPENED, initialize_request(0, alignment), 1, 10, 128)
    yield fatal("PFV and HPDA wrong", OPENED, initialize_request(1, 32), 6, 8, 128)
    yield fatal("two ICReqs", OPENED, initialize_request(), 2, 0, before=initialize_request(), answer=initialized())
    yield answered("digests wanted", OPENED, initialize_request(digests=3), initialized())
    yield answered("MAXR2T at its most", OPENED, initialize_request(most_r2t=0xFFFF_FFFF), initialized())
    yield answered("an ICReq with PDO, other flags and reserved bytes", OPENED, ODD_REQUEST, initialized())


ODD_REQUEST = initialize_request(offset=99)[:1] + b"\xfc" + initialize_request(offset=99)[2:16] + b"\xff" * 112

# ---- the common header, and requests to terminate


def common_headers() -> Iterator[Case]:
    """Common headers behind the ICReq, which are answered at once."""
    for kind in (0x01, 0x05, 0x09, 0x0B, 0x80):
        yield fatal(f"a PDU of type {kind:02X}h behind the ICReq", INITIALIZED, head(kind), 1, 0)
    yield fatal("a second ICReq", INITIALIZED, head(0, header=128, length=128), 2, 0)
    for flags in (1, 2, 3):
        yield fatal(f"a capsule with flags {flags}", INITIALIZED, head(4, flags=flags), 1, 1)
        yield fatal(f"data with flags {flags}", INITIALIZED, head(6, flags=flags, header=24, offset=24, length=25), 1, 1)
        yield fatal(f"a termination with flags {flags}", INITIALIZED, head(2, flags=flags, header=24, length=24), 1, 1)
    for header in (0, 24, 71, 73, 255):
        yield fatal(f"a capsule with HLEN {header}", INITIALIZED, head(4, header=header), 1, 2)
    for header in (0, 23, 25, 72):
        yield fatal(f"data with HLEN {header}", INITIALIZED, head(6, header=header, offset=header, length=99), 1, 2)
    for length in (0, 8, 71, 72 + 8193, 0xFFFF_FFFF):
        yield fatal(f"a capsule with PLEN {length}", INITIALIZED, head(4, offset=72, length=length), 1, 4)
    for length in (24 + 131073, 0x8000_0000, 0xFFFF_FFFF):
        yield fatal(f"data with PLEN {length}", INITIALIZED, head(6, header=24, offset=24, length=length), 5, 0)
    for length in (0, 8, 23, 24):
        yield fatal(f"data with PLEN {length}", INITIALIZED, head(6, header=24, offset=24, length=length), 1, 4)
    for offset in (0, 71, 73, 255):
        yield fatal(f"a capsule with PDO {offset}", INITIALIZED, head(4, offset=offset, length=73), 1, 3)
    for offset in (0, 23, 25, 255):
        yield fatal(f"data with PDO {offset}", INITIALIZED, head(6, header=24, offset=offset, length=25), 1, 3)
    for length in (0, 23, 153, 0xFFFF_FFFF):
        yield fatal(f"a termination with PLEN {length}", INITIALIZED, head(2, header=24, length=length), 1, 4)
    yield fatal("a termination with HLEN 23", INITIALIZED, head(2, header=23, length=24), 1, 2)
    yield Case("a termination", INITIALIZED, pdu(Kind.H2C_TERM_REQ, bytes(16)), b"", True)
    yield Case("a termination with a header", INITIALIZED, pdu(Kind.H2C_TERM_REQ, bytes(16), bytes(128)), b"", True)
    yield answered("PDO without data", INITIALIZED, capsule(READ, offset=99), completed(INITIALIZED, 0x00C))
    yield answered("other flags", INITIALIZED, capsule(READ, flags=0xFC), completed(INITIALIZED, 0x00C))
    yield fatal("data without an R2T", INITIALIZED, h2c_data(7, 0, b"1")[:24], 1, 10, 24)


READ = entry(Opcode.READ, 7, 0, length=512)

# ---- SGL descriptors


def descriptors() -> Iterator[Case]:
    """Descriptors that are refused; what passes is refused since there was no Connect."""
    for flags in (0x00, 0x80, 0xC0, 0x3F):
        yield refused(f"PSDT, byte 1 is {flags:02X}h", INITIALIZED, entry(Opcode.READ, 7, flags=flags), 0x002)
    for sgl in (0x00, 0x02, 0x0F, 0x10, 0x5B, 0xFF):
        yield refused(f"an SGL of type {sgl:02X}h", INITIALIZED, entry(Opcode.READ, 7, sgl=sgl), 0x011)
    yield refused("PSDT and the type wrong", INITIALIZED, entry(Opcode.READ, 7, flags=0, sgl=0), 0x002)
    for opcode in (Opcode.READ, 0x00, 0x03):
        yield refused(f"opcode {opcode:02X}h with data in the capsule", INITIALIZED, entry(opcode, 7, sgl=Sgl.IN_CAPSULE), 0x011)
    command = entry(Opcode.WRITE, 7, length=512, sgl=Sgl.IN_CAPSULE, address=8)
    yield refused("an address in the capsule", INITIALIZED, command, 0x016, data=bytes(512))
    for length in (0, 511, 513, 0xFFFF_FFFF):
        command = entry(Opcode.WRITE, 7, length=length, sgl=Sgl.IN_CAPSULE)
        yield refused(f"length {length}, and 512 bytes in the capsule", INITIALIZED, command, 0x016, data=bytes(512))
    command = entry(Opcode.READ, 7, sgl=Sgl.IN_CAPSULE, address=1, length=9)
    yield refused("the direction and the address wrong", INITIALIZED, command, 0x011)
    yield refused("a transport SGL and data in the capsule", INITIALIZED, READ, 0x002, data=b"1")
    for length in (131073, 0xFFFF_FFFF):
        yield refused(f"{length} bytes to send", INITIALIZED, entry(Opcode.WRITE, 7, length=length), 0x002)
    yield refused("bits 5:0 of byte 1", INITIALIZED, entry(Opcode.READ, 7, flags=0x7F), 0x00C)
    command = entry(Opcode.WRITE, 7, length=8192, sgl=Sgl.IN_CAPSULE)
    yield refused("8192 bytes in the capsule", INITIALIZED, command, 0x00C, data=bytes(8192))


# ---- Connect


CONNECT, WANTED = connect_entry(7, 0, 31), peer_data(ANY_CONTROLLER)


def connects() -> Iterator[Case]:
    """Connects that are refused. Controller 1 is another host's, and has queue 1; 3 is none's."""
    at = INITIALIZED
    yield refused("a record format", at, connect_entry(7, 0, 31, record_format=1), 0x180, data=WANTED)
    for size in (1, 1023, 1025):
        yield refused(f"Connect with {size} bytes", at, connect_entry(7, 0, 31, length=size), 0x00F, data=bytes(size))
    yield refused("Connect without data", at, connect_entry(7, 0, 31, length=0), 0x00F)
    yield refused("a record format, and no data", at, connect_entry(7, 0, 31, record_format=1, length=0), 0x180)
    for nqn in ("", SUBSYSTEM_NQN[:-1], SUBSYSTEM_NQN + "0", "n" * 256):
        yield refused(f"the Subsystem NQN {nqn[:40]!r}", at, CONNECT, 0x182, 0x1_0100, data=peer_data(ANY_CONTROLLER, nqn))
    for controller in (0, 1, 0xFFFE):
        yield refused(f"QID 0 of controller {controller}", at, CONNECT, 0x182, 0x1_0010, data=peer_data(controller))
    for controller in (0, 1, 3, 5, 0xFFFF):
        yield refused(f"QID 2 of controller {controller}", at, connect_entry(7, 2, 31), 0x182, 0x1_0010, data=peer_data(controller))
    for identifier, nqn in ((HOST_IDENTIFIER, PEER_NQN), (PEER_IDENTIFIER, HOST_NQN), (HOST_IDENTIFIER, HOST_NQN + "0")):
        data = connect_data(identifier, 1, SUBSYSTEM_NQN, nqn)
        yield refused(f"QID 2 as {identifier!r}, {nqn}", at, connect_entry(7, 2, 31), 0x182, 0x1_0010, data=data)
    for queue in (1, 9, 0xFFFF):
        yield refused(f"QID {queue}", at, connect_entry(7, queue, 0), 0x182, 42, data=HOST_DATA)
    for size in (0, 32, 0xFFFF):
        yield refused(f"QID 0, SQSIZE {size}", at, connect_entry(7, 0, size), 0x182, 44, data=WANTED)
    for size in (0, 128, 0xFFFF):
        yield refused(f"QID 2, SQSIZE {size}", at, connect_entry(7, 2, size), 0x182, 44, data=HOST_DATA)
    twice = capsule(connect_entry(7, 0, 0), WANTED) + capsule(CONNECT, WANTED)
    yield answered("a Connect behind a refused one", at, twice, completed(at, 0x182, 44) + completed(ADMIN, 0, 2, nth=-1))
    for name, command in BEFORE_CONNECT.items():
        yield refused(f"{name} before Connect", at, command, 0x00C)


BEFORE_CONNECT = {
    "Property Get": entry(Opcode.FABRICS, 7, 1, namespace=Fabrics.PROPERTY_GET),
    "Property Set": entry(Opcode.FABRICS, 7, 0x14 << 32, ENABLED, namespace=Fabrics.PROPERTY_SET),
    "Identify": entry(Opcode.IDENTIFY, 7, 1, length=4096),
    "Keep Alive": entry(Opcode.KEEP_ALIVE, 7),
    "Zone Management Send": entry(Opcode.ZONE_MANAGEMENT_SEND, 7, 0, 0, 4),
    "a Fabrics command of type 05h": entry(Opcode.FABRICS, 7, namespace=5),
}

# ---- the admin queue


def properties() -> Iterator[Case]:
    """Fabrics commands of an admin queue."""
    yield refused("a second Connect", ADMIN, CONNECT, 0x00C, data=WANTED)
    for kind in (0x02, 0x05, 0x06, 0x08, 0x7F, 0xFF):
        yield refused(f"a Fabrics command of type {kind:02X}h", ADMIN, entry(Opcode.FABRICS, 7, namespace=kind), 0x001)
    for offset, size in ((0x00, 0), (0x04, 0), (0x08, 1), (0x0C, 0), (0x14, 1), (0x1C, 1), (0x00, 2), (0x20, 0), (0xFFFF_FFFF, 0)):
        where = size | offset << 32
        yield refused(f"Property Get of {offset:X}h, size {size}", ADMIN, entry(Opcode.FABRICS, 7, where, namespace=4), 0x002)
    for offset, size in ((0x00, 1), (0x08, 0), (0x14, 1), (0x1C, 0), (0x20, 0)):
        where = size | offset << 32
        yield refused(f"Property Set of {offset:X}h, size {size}", ADMIN, entry(Opcode.FABRICS, 7, where, 1, namespace=0), 0x002)


def admin_commands() -> Iterator[Case]:
    """Admin commands with wrong fields."""
    for opcode in (0x00, 0x01, 0x04, 0x05, 0x0D, 0x10, 0x80, 0x84, 0xC0, 0xFF):
        yield refused(f"admin opcode {opcode:02X}h", ADMIN, entry(opcode, 7), 0x001)
    for structure, command_set in ((4, 0), (5, 0), (5, 1), (6, 1), (8, 2), (0x10, 0), (0x1B, 0), (0xFF, 2)):
        command = identify(structure, command_set, length=0)
        yield refused(f"Identify {structure:02X}h of command set {command_set}", ADMIN, command, 0x002)
    for structure in (0, 3, 5):
        for namespace in (0, 2, 0xFFFF_FFFF):
            command = identify(structure, 2, namespace, length=0)
            yield refused(f"Identify {structure:02X}h of namespace {namespace:X}h", ADMIN, command, 0x00B)
    for structure in (2, 7):
        for namespace in (0xFFFF_FFFE, 0xFFFF_FFFF):
            command = identify(structure, 2, namespace)
            yield refused(f"Identify {structure:02X}h from {namespace:X}h on", ADMIN, command, 0x00B)
    for length in (0, 4095, 4097, 0xFFFF_FFFF):
        yield refused(f"Identify of {length} bytes", ADMIN, identify(1, 0, length=length), 0x00F)
    for page in (0x00, 0x04, 0x06, 0x80, 0xFF):
        yield refused(f"log page {page:02X}h", ADMIN, log_page(page, 8192), 0x109)
    for size, offset in ((4100, 0), (1 << 34, 0), (4, 2), (4, 516), (4, 1 << 32)):
        yield refused(f"{size} bytes of a log page from {offset} on", ADMIN, log_page(2, size, offset, length=0), 0x002)
    for length in (0, 508, 516, 0xFFFF_FFFF):
        yield refused(f"512 bytes of a log page, {length} in the SGL", ADMIN, log_page(2, 512, length=length), 0x00F)
    for feature in (0x00, 0x02, 0x06, 0x80, 0xFF):
        yield refused(f"Set Features {feature:02X}h", ADMIN, entry(Opcode.SET_FEATURES, 7, feature), 0x002)
        yield refused(f"Get Features {feature:02X}h", ADMIN, entry(Opcode.GET_FEATURES, 7, feature, length=9), 0x002)
    yield refused("Get Features with data", ADMIN, entry(Opcode.GET_FEATURES, 7, 0x07, length=4), 0x00F)
    requests = b"".join(capsule(entry(Opcode.ASYNCHRONOUS_EVENT_REQUEST, number)) for number in range(5))
    yield answered("a fifth event request", ADMIN, requests, completed(ADMIN, 0x105, identifier=4))
    yield fatal("an event request's identifier", ADMIN, requests[:72], 2, 0, 72, before=requests[:72])


def identify(structure: int, command_set: int, namespace: int = 0, *, length: int = 4096) -> bytes:
    """The entry of an Identify."""
    return entry(Opcode.IDENTIFY, 7, structure | command_set << 56, namespace=namespace, length=length)


def log_page(page: int, size: int, offset: int = 0, *, length: int = 8192) -> bytes:
    """The entry of a Get Log Page for so many bytes."""
    return entry(Opcode.GET_LOG_PAGE, 7, page | (size // 4 - 1) << 16, offset & 0xFFFF_FFFF, offset >> 32, length=length)


# ---- I/O queues

WRITE = entry(Opcode.WRITE, 7, 0, length=512)


def io_commands() -> Iterator[Case]:
    """Commands of an I/O queue."""
    for kind in (0x00, 0x01, 0x04, 0xFF):
        yield refused(f"a Fabrics command of type {kind:02X}h on an I/O queue", IO, entry(Opcode.FABRICS, 7, namespace=kind), 0x001)
    for length in (71, 72 + 8193, 0xFFFF_FFFF):
        yield fatal(f"a capsule of {length} bytes on an I/O queue", IO, head(4, offset=72, length=length), 1, 4)
    for opcode in (0x00, 0x03, 0x04, 0x05, 0x06, 0x08, 0x09, 0x0C, 0x18, 0xC3, 0xFF):
        yield refused(f"I/O opcode {opcode:02X}h", IO, entry(opcode, 7), 0x001)
    yield refused("C2H of an unknown opcode", IO, entry(0x06, 7, length=512), 0x001)
    yield refused("a Write whose data is in a capsule without data", IO, entry(Opcode.WRITE, 7, sgl=Sgl.IN_CAPSULE), 0x002)
    for length in (1, 511, 513, 8192):
        yield refused(f"a Write of {length} bytes in the capsule", IO, in_capsule(Opcode.WRITE, 7, length), 0x002, data=bytes(length))
    for opcode in (Opcode.READ, Opcode.ZONE_MANAGEMENT_RECEIVE, Opcode.RUN, Opcode.RESULT):
        yield refused(f"I/O opcode {opcode:02X}h with data in the capsule", IO, in_capsule(opcode, 7, 512), 0x011, data=bytes(512))
    zone_action = in_capsule(Opcode.ZONE_MANAGEMENT_SEND, 7, 512)
    yield refused("a zone action with data in the capsule", IO, zone_action, 0x002, data=bytes(512))
    yield refused("a Write with too little in the capsule", IO, in_capsule(Opcode.WRITE, 7, 512), 0x016, data=bytes(511))
    behind = capsule(sized(WRITE, 511)) + capsule(in_capsule(Opcode.WRITE, 8, 1), b"1") + h2c_data(7, 0, bytes(511))
    answer = r2t(511) + completed(IO, 0x002) + completed(IO, 0x002, identifier=8, nth=2)
    yield answered("data in a capsule behind a Write that waits for data", IO, behind, answer)
    for length in (0, 511, 513, 0xFFFF_FFFF):
        yield refused(f"a Read of {length} bytes", IO, entry(Opcode.READ, 7, 0, length=length), 0x00F)
    yield refused("a Read of 256 blocks and one", IO, entry(Opcode.READ, 7, 0, 256, length=257 * 512), 0x002)
    yield refused("a Run with data", IO, entry(Opcode.RUN, 7, 0, 7 << 16, length=4096), 0x7C1)
    for namespace in (0, 2, 0xFFFF_FFFF):
        yield refused(f"namespace {namespace:X}h", IO, entry(Opcode.READ, 7, length=512, namespace=namespace), 0x00B)
    yield refused("a fused command", IO, entry(Opcode.READ, 7, length=512, flags=0x41), 0x002)
    for length in (1, 511, 513, 131072):
        answer = r2t(length) + completed(IO, 0x002)
        yield answered(f"a Write of {length} bytes", IO, capsule(sized(WRITE, length)) + h2c_data(7, 0, bytes(length)), answer)
    command, answer = entry(0x05, 7, length=16), r2t(16) + completed(IO, 0x001)
    yield answered("H2C of an unknown opcode", IO, capsule(command) + h2c_data(7, 0, bytes(16)), answer)
    write, behind = capsule(WRITE), [capsule(entry(Opcode.READ, number, length=512)) for number in range(4)]
    yield fatal("a fifth command of 4", IO, behind[3], 2, 0, 72, before=write + b"".join(behind[:3]), answer=r2t(512))
    yield fatal("an identifier that waits for data", IO, write, 2, 0, 72, before=write, answer=r2t(512))
    yield fatal("an identifier that waits behind data", IO, behind[1], 2, 0, 72, before=write + behind[1], answer=r2t(512))
    yield Case("a termination in mid-transfer", IO, write + behind[0] + pdu(Kind.H2C_TERM_REQ, bytes(16)), r2t(512), True)


def in_capsule(opcode: int, identifier: int, length: int) -> bytes:
    """The entry of a command whose data is in its capsule."""
    return entry(opcode, identifier, length=length, sgl=Sgl.IN_CAPSULE)


def sized(command: bytes, length: int) -> bytes:
    """An entry with another length in its SGL descriptor."""
    return command[:32] + struct.pack("<I", length) + command[36:]


# ---- data


def transfers() -> Iterator[Case]:
    """H2CData PDUs where 512 bytes of command 7 are asked for: of the wrong ones the header is sent, and not the data."""
    first, half = h2c_data(7, 0, bytes(256), 0), bytes(256)

    def wrong(name: str, failing: bytes, status: int, information: int, before: bytes = b"") -> Case:
        """A PDU in error, behind the Write and what came before."""
        return fatal(name, IO, failing[:24], status, information, 24, before=capsule(WRITE) + before, answer=r2t(512))

    yield fatal("no R2T", IO, h2c_data(7, 0, half)[:24], 1, 10, 24)
    for tag in (1, 7, 0xFFFF):
        yield wrong(f"TTAG {tag}", h2c_data(7, 0, half, 0, tag), 1, 10)
    for identifier in (0, 8, 0x107):
        yield wrong(f"CCCID {identifier}", h2c_data(identifier, 0, half, 0), 1, 8)
    yield wrong("TTAG and CCCID", h2c_data(8, 0, half, 0, 1), 1, 10)
    yield wrong("CCCID and DATAO", h2c_data(8, 1, half, 0), 1, 8)
    for offset in (1, 256, 512, 0x8000_0000, 0xFFFF_FF00):
        yield wrong(f"DATAO {offset}", h2c_data(7, offset, half), 4, 0)
    for offset in (0, 255, 257, 512):
        yield wrong(f"DATAO {offset} behind 256 bytes", h2c_data(7, offset, half), 4, 0, first)
    for count in (513, 131072):
        yield wrong(f"{count} bytes at once", h2c_data(7, 0, bytes(count)), 4, 0)
    yield wrong("257 bytes behind 256", h2c_data(7, 256, bytes(257)), 4, 0, first)
    yield wrong("DATAL that wraps", h2c_data(7, 256, half, count=0xFFFF_FF00), 4, 0, first)
    for count in (0, 1, 255, 257):
        yield wrong(f"DATAL {count} of 256 bytes", h2c_data(7, 0, half, 0, count=count), 1, 16)
    yield wrong("LAST early", h2c_data(7, 0, half), 1, 1)
    yield wrong("LAST missing", h2c_data(7, 0, bytes(512), 0), 1, 1)
    yield wrong("LAST missing behind 256 bytes", h2c_data(7, 256, half, 0), 1, 1, first)
    yield wrong("LAST and DATAL", h2c_data(7, 0, half, count=1), 1, 16)
    refused_write = capsule(sized(WRITE, 256)) + h2c_data(7, 0, half)
    answer = r2t(256) + completed(IO, 0x002)
    yield fatal("data behind the last", IO, h2c_data(7, 256, half)[:24], 1, 10, 24, before=refused_write, answer=answer)
    yield from many_transfers()
    by_r2t = connect_entry(7, 0, 31, sgl=Sgl.TRANSPORT)
    for name, behind in {"a capsule": capsule(READ), "another Connect": capsule(CONNECT, WANTED)}.items():
        yield fatal(f"{name} before Connect's data", INITIALIZED, behind, 2, 0, 72, before=capsule(by_r2t), answer=r2t(1024))
    command = sized(by_r2t, 131072)
    pieces = h2c_data(7, 0, bytes(65536), 0) + h2c_data(7, 65536, bytes(65536))
    answer = r2t(131072) + completed(INITIALIZED, 0x00F)
    yield answered("131072 bytes of a Connect", INITIALIZED, capsule(command) + pieces, answer)


def many_transfers() -> Iterator[Case]:
    """H2CData PDUs where 511 bytes are asked for of each of the commands 7 to 10, under the tags 0 to 3."""
    writes = b"".join(capsule(sized(write_of(identifier), 511)) for identifier in range(7, 11))
    asked = b"".join(r2t(511, identifier, identifier - 7) for identifier in range(7, 11))

    def part(identifier: int, at: int, end: int) -> bytes:
        """A part of a command's data."""
        return h2c_data(identifier, at, bytes(end - at), LAST if end == 511 else 0, identifier - 7)

    def wrong(name: str, failing: bytes, status: int, information: int, before: bytes = b"") -> Case:
        """A PDU in error, behind the Writes and what came before."""
        return fatal(f"{name}, of four R2Ts", IO, failing[:24], status, information, 24, before=writes + before, answer=asked)

    done = b"".join(completed(IO, 0x002, identifier=identifier, nth=identifier - 6) for identifier in range(7, 11))
    turns = b"".join(part(identifier, at, min(at + 100, 511)) for at in range(0, 511, 100) for identifier in (10, 8, 7, 9))
    yield answered("data of four R2Ts in turn", IO, writes + turns, asked + done)
    backwards = b"".join(part(identifier, 0, 511) for identifier in (10, 9, 8, 7))
    yield answered("data of four R2Ts, the last first", IO, writes + backwards, asked + done)
    yield wrong("another command's TTAG", h2c_data(7, 0, bytes(511), LAST, 1), 1, 8)
    yield wrong("TTAG 4", h2c_data(7, 0, bytes(511), LAST, 4), 1, 10)
    yield wrong("another command's DATAO", part(8, 100, 200), 4, 0, part(7, 0, 100))
    yield wrong("DATAO 0 again", part(8, 0, 100), 4, 0, part(8, 0, 100) + part(7, 0, 100))
    yield wrong("data behind the last of a command that waits", part(8, 0, 511), 1, 10, part(8, 0, 511))
    whole = part(7, 0, 511)
    yield fatal("data of an R2T whose command is done", IO, whole[:24], 1, 10, 24, before=writes + whole, answer=asked + done[:24])
    before, answer = writes + whole + part(8, 0, 511) + capsule(sized(write_of(11), 511)), asked + done[:48] + r2t(511, 11, 0)
    yield fatal("the tag of a command that is done", IO, h2c_data(11, 0, whole, LAST, 1)[:24], 1, 10, 24, before=before, answer=answer)


def write_of(identifier: int) -> bytes:
    """The Write under another identifier."""
    return WRITE[:2] + struct.pack("<H", identifier) + WRITE[4:]


# ---- all of them

SECTIONS = (before_initialization, common_headers, descriptors, connects, properties, admin_commands, io_commands, transfers)


def cases() -> List[Case]:
    """All rows."""
    return [case for section in SECTIONS for case in section()]


def main() -> int:
    """Tries all cases."""
    rows = cases()
    with target.started() as program, Host(program.address) as host:
        host.queue(1)
        wrong = [said for said in (outcome(program.address, case) for case in rows) if said]
    print(*wrong, f"{len(rows) - len(wrong)} passed, {len(wrong)} failed", sep="\n")
    return 1 if wrong else 0


if __name__ == "__main__":
    sys.exit(main())
