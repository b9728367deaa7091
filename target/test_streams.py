"""Tests of what an NVMe/TCP target makes of bytes: cut anywhere, ending anywhere, wrong anywhere. test_nvme_tcp.py runs them."""

from __future__ import annotations

import unittest
from typing import Callable, List

import fuzz
import hostile
from cases import IO, OPENED, PEER_IDENTIFIER, PEER_NQN, outcome, peer_data, reached
from nvme_tcp_connection import LAST, Connection, Fabrics, Kind, Opcode, Pdu, Sgl, capsule, connect_entry, entry, h2c_data
from nvme_tcp_connection import initialize_request
from nvme_tcp_host import ANY_CONTROLLER, ENABLED, Action, Host
from target import FILTER, Over

BLOCK = bytes(range(256)) * 2


def admin_session() -> List[bytes]:
    """The PDUs of an admin queue that has each admin command, and commands that are refused."""
    connect = connect_entry(1, 0, 31)
    sent = [initialize_request(), capsule(connect, peer_data(ANY_CONTROLLER)[:-1]), capsule(connect, peer_data(ANY_CONTROLLER))]
    fabrics = [(1, 0, 4), (8 << 32, 0, 4), (0x14 << 32, ENABLED, 0), (0x1C << 32, 0, 4), (0x24 << 32, 0, 4), (0, 0, 9)]
    commands = [entry(Opcode.FABRICS, 2, where, value, namespace=kind) for where, value, kind in fabrics]
    structures = ((0, 0, 1), (1, 0, 0), (2, 0, 0), (3, 0, 1), (5, 2, 1), (6, 2, 0), (0x1C, 0, 0), (9, 0, 0))
    commands += [hostile.identify(*structure) for structure in structures]
    commands += [hostile.log_page(page, 512, length=512) for page in (1, 2, 3, 5, 9)]
    commands += [entry(opcode, 3, 0x0F | 9000 << 32) for opcode in (Opcode.SET_FEATURES, Opcode.GET_FEATURES)]
    commands += [entry(opcode, 4 + opcode) for opcode in (0x0C, Opcode.ABORT, Opcode.KEEP_ALIVE, 0x80)]
    commands += [entry(Opcode.FABRICS, 2, 0x14 << 32, ENABLED | 0x4000, namespace=Fabrics.PROPERTY_SET)]
    return sent + [capsule(command) for command in commands]


def io_session(data: bytes) -> List[bytes]:
    """The PDUs of I/O queue 2 that has each command of the device. It begins and ends with the same zones, but for what a run at its
    end does, whose completion is the last."""
    sent = [initialize_request(), capsule(connect_entry(1, 2, 31), data)]
    sent += [capsule(entry(Opcode.ZONE_MANAGEMENT_SEND, 2, 0, 0, Action.RESET | 0x100))]
    sent += [capsule(entry(Opcode.WRITE, 3, 0, length=512)), capsule(entry(Opcode.WRITE, 14, 1, length=512, sgl=Sgl.IN_CAPSULE), BLOCK)]
    sent += [h2c_data(3, 0, BLOCK[:200], 0), h2c_data(3, 200, BLOCK[200:])]
    sent += [capsule(entry(Opcode.ZONE_APPEND, 4, 0, length=512)), h2c_data(4, 0, BLOCK)]
    sent += [capsule(entry(Opcode.WRITE, 5, 0, length=512)), h2c_data(5, 0, BLOCK)]
    sent += [capsule(entry(Opcode.READ, 6, 0, 2, length=1536)), capsule(entry(Opcode.READ, 7, 0, length=512, sgl=0))]
    sent += [capsule(entry(Opcode.LOAD, 8, 66 << 32, len(FILTER), length=len(FILTER))), h2c_data(8, 0, FILTER)]
    sent += [capsule(entry(Opcode.RESULT, 9, 0, length=1024)), capsule(entry(0x04, 10))]
    sent += [capsule(entry(Opcode.ZONE_MANAGEMENT_SEND, 11, 16, 0, Action.OPEN))]
    sent += [capsule(entry(Opcode.ZONE_MANAGEMENT_RECEIVE, 12, 0, 79, 1 << 16, length=320))]
    sent += [capsule(entry(Opcode.RUN, 13, 0, 1, int.from_bytes(BLOCK[8:12], "little"), 16))]
    return sent


class Pieces(Over):
    """How a stream is cut makes no difference."""

    def answer(self, sent: bytes, count: int, *cuts: int) -> bytes:
        """So many bytes that answer a stream, which is cut; the target reads one piece before it gets the next. No more may come."""
        connection = Connection(self.target.address)
        connection.send(sent, cuts, self.fence)
        came = connection.receive_bytes(count)
        connection.end()
        self.assertEqual(connection.receive_to_end(), b"")
        connection.shut()
        return came

    def whole(self, sent: bytes, completions: int) -> bytes:
        """All bytes that answer a stream which has so many completions."""
        connection, came = Connection(self.target.address), b""
        connection.send(sent)
        while completions:
            answer = connection.receive()
            came += raw(answer)
            completions -= answer.kind == Kind.CAPSULE_RESP
        connection.shut()
        return came

    def assert_pieces(self, sent: bytes, completions: int) -> None:
        """Whole, byte by byte, and cut in two at each place, a stream is answered by the same bytes."""
        came = self.whole(sent, completions)
        self.assertEqual(self.answer(sent, len(came), *range(1, len(sent))), came)
        for place in range(1, len(sent)):
            self.assertEqual(self.answer(sent, len(came), place), came, f"cut at {place}")

    def test_an_admin_queue(self) -> None:
        """Each of its capsules has a completion, but for an event request."""
        sent = admin_session()
        self.assert_pieces(b"".join(sent), len(sent) - 2)

    def test_an_io_queue(self) -> None:
        """Also where a run is the last."""
        sent = io_session(self.host.connect_data())
        self.assert_pieces(b"".join(sent), len([piece for piece in sent if piece[0] == Kind.CAPSULE_CMD]))


    def test_data_of_four_r2ts(self) -> None:
        """Which comes in turn, and of commands whose data is in the capsule between them."""
        sent = [initialize_request(), capsule(connect_entry(1, 2, 31), self.host.connect_data())]
        sent += [capsule(entry(Opcode.ZONE_MANAGEMENT_SEND, 2, 0, 0, Action.RESET | 0x100))]
        for identifier in range(3, 9):
            sgl = Sgl.IN_CAPSULE if identifier == 5 else Sgl.TRANSPORT
            sent += [capsule(entry(Opcode.ZONE_APPEND, identifier, 0, length=512, sgl=sgl), BLOCK if identifier == 5 else b"")]
        for at in range(0, 512, 128):
            sent += [h2c_data(identifier, at, BLOCK[at : at + 128], LAST * (at == 384), tag) for tag, identifier in enumerate((3, 4, 6, 7))]
        sent += [h2c_data(8, 0, BLOCK)]
        self.assert_pieces(b"".join(sent), 8)


def raw(came: Pdu) -> bytes:
    """The bytes of a PDU whose data isn't padded."""
    return came.header + came.data


class Ends(Over):
    """Connections that end in the middle of each PDU: what they had begun never happens."""

    def assert_nothing_happens(self, sent: bytes, check: Callable[[int], object]) -> None:
        """A connection of I/O queue 2 that ends at each place within these bytes is checked to have done nothing."""
        for place in range(len(sent)):
            connection = reached(self.target.address, IO)
            connection.send(sent[:place])
            connection.shut()
            check(place)

    def check_zones(self, place: int) -> None:
        """No block is written."""
        self.assertEqual([zone.write_pointer for zone in self.queue.report()], [0, 16, 32, 48], place)

    def test_in_a_write(self) -> None:
        """Whose data comes in two PDUs, before a command that waits behind it."""
        sent = capsule(entry(Opcode.WRITE, 1, 0, length=512)) + capsule(entry(Opcode.ZONE_MANAGEMENT_SEND, 2, 16, 0, Action.FINISH))
        self.assert_nothing_happens(sent + h2c_data(1, 0, BLOCK[:99], 0) + h2c_data(1, 99, BLOCK[99:]), self.check_zones)

    def test_in_a_write_with_its_data(self) -> None:
        """Which is in the capsule, behind one that waits for data."""
        write = capsule(entry(Opcode.WRITE, 2, 16, length=512, sgl=Sgl.IN_CAPSULE), BLOCK)
        self.assert_nothing_happens(write, self.check_zones)
        self.assert_nothing_happens(capsule(entry(Opcode.WRITE, 1, 0, length=512)) + write, self.check_zones)

    def test_in_an_append(self) -> None:
        """Whose data comes at once."""
        self.assert_nothing_happens(capsule(entry(Opcode.ZONE_APPEND, 1, 16, length=512)) + h2c_data(1, 0, BLOCK), self.check_zones)

    def test_in_a_load(self) -> None:
        """The slot has no program."""
        sent = capsule(entry(Opcode.LOAD, 1, 5, len(FILTER), length=len(FILTER))) + h2c_data(1, 0, FILTER)
        self.assert_nothing_happens(sent, lambda place: self.assert_refused(0x7C1, self.queue.result, 5))

    def test_in_a_zone_action(self) -> None:
        """Within its capsule."""
        self.assert_nothing_happens(capsule(entry(Opcode.ZONE_MANAGEMENT_SEND, 1, 0, 0, Action.FINISH)), self.check_zones)

    def test_in_a_connect(self) -> None:
        """No controller is made, and none is left."""
        sent = initialize_request() + capsule(connect_entry(1, 0, 31), peer_data(ANY_CONTROLLER))
        for place in range(len(sent)):
            connection = reached(self.target.address, OPENED)
            connection.send(sent[:place])
            connection.end()
            self.fence()
            if place % 50 == 0:
                with Host(self.target.address, identifier=PEER_IDENTIFIER, name=PEER_NQN) as new:
                    self.assertEqual(new.controller, 2, place)
            connection.shut()

    def test_by_a_reset(self) -> None:
        """Of the TCP connection, at each place of a Write, and while data is on the way to the host."""
        write = capsule(entry(Opcode.WRITE, 1, 16, length=512)) + h2c_data(1, 0, BLOCK)
        for place in range(len(write)):
            connection = reached(self.target.address, IO)
            connection.send(write[:place])
            connection.reset()
            self.fence()
        reads = b"".join(capsule(entry(Opcode.READ, identifier, 0, 15, length=8192)) for identifier in range(4))
        for _ in range(20):
            connection = reached(self.target.address, IO)
            connection.send(reads)
            connection.reset()
            self.fence()
        self.check_zones(0)

    def test_at_once(self) -> None:
        """Many connections that end with data of theirs on the way, while others write."""
        write = capsule(entry(Opcode.WRITE, 1, 16, length=512)) + h2c_data(1, 0, BLOCK)
        for lba in range(16):
            connection = reached(self.target.address, IO)
            connection.send(write[:-1])
            self.queue.write(lba, BLOCK)
            connection.shut()
        self.assertEqual([zone.write_pointer for zone in self.queue.report()][1:], [16, 32, 48])
        self.assertEqual(self.queue.read(0, 16), BLOCK * 16)


class Hostile(Over):
    """The table of hostile.py."""

    def assert_answers(self, behind: bytes, cut: bool) -> None:
        """Tries each row that fits, and checks that the zones are as they were."""
        before = self.queue.report()
        for case in hostile.cases():
            if case.ends or not behind:
                with self.subTest(case.name):
                    self.assertEqual(outcome(self.target.address, case, behind, cut), "")
                    self.assertEqual(self.queue.report(), before)

    def test_each_row_is_answered_as_it_says(self) -> None:
        """A common header that is wrong without waiting for what its PDU may have behind it."""
        self.assert_answers(b"", cut=False)

    def test_byte_by_byte(self) -> None:
        """With the same answer."""
        self.assert_answers(b"", cut=True)

    def test_nothing_behind_a_fatal_error_is_done(self) -> None:
        """Neither a command, nor data, nor an ICReq."""
        behind = capsule(entry(Opcode.ZONE_MANAGEMENT_SEND, 9, 0, 0, Action.FINISH)) + initialize_request()
        self.assert_answers(behind + capsule(entry(Opcode.WRITE, 8, 0, length=512)) + h2c_data(8, 0, BLOCK), cut=False)


class Fuzz(unittest.TestCase):
    """The streams of fuzz.py."""

    def test_streams_harm_nobody_else(self) -> None:
        """Some hundreds; more are tried by fuzz.py itself."""
        came = fuzz.run(300, "test").answers
        for kind in (Kind.IC_RESP, Kind.C2H_TERM_REQ, Kind.CAPSULE_RESP, Kind.C2H_DATA, Kind.R2T):
            self.assertGreater(came[kind], 30)
