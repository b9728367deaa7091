"""Tests of what an NVMe/TCP target answers to each command. test_nvme_tcp.py runs them."""

from __future__ import annotations

import random
import struct
from typing import Dict, List, Tuple

import target
from nvme_tcp_connection import DATA_FIELDS, LAST, Connection, Kind, Opcode, Pdu, Sgl, TimedOut, capsule, connect_entry, entry, h2c_data
from nvme_tcp_host import CAP, CC, CSTS, ENABLED, SUBSYSTEM_NQN, VS, Action, Host, ZoneState
from target import FILTER, Over, little, order


def page(fields: Dict[int, bytes], size: int = 4096) -> bytes:
    """A page of zeros, but for these fields."""
    laid = bytearray(size)
    for at, field in fields.items():
        laid[at : at + len(field)] = field
    return bytes(laid)


class AdminQueues(Over):
    """What controllers answer on their admin queues."""

    def test_properties_are_those_of_an_enabled_controller(self) -> None:
        """CAP, VS, CC and CSTS."""
        found = [self.host.get_property(which) for which in (CAP, VS, CC, CSTS)]
        self.assertEqual(found, [0x0000_0820_1401_007F, 0x0001_0400, ENABLED, 1])

    def test_identify_tells_the_controller(self) -> None:
        """Each byte, but for the serial number, the model and the firmware, which are text."""
        came = self.host.identify(0x01)
        self.assertRegex(came[4:72].decode("ascii"), "^[ -~]{68}$")
        fields = {4: came[4:72], 76: b"\2\5", 78: little(1, 2), 80: little(0x10400, 4), 111: b"\1", 258: b"\3\3\3\2", 320: b"\x0a"}
        fields.update({512: b"\x66\x44", 514: little(128, 2), 516: little(1, 4), 536: little(0x100001, 4), 768: SUBSYSTEM_NQN.encode()})
        fields.update({1792: little(516, 4), 1796: little(1, 4), 1803: b"\1"})
        self.assertEqual(came, page(fields))

    def test_identify_tells_the_namespace(self) -> None:
        """Its size, its descriptors, its zones, and the lists in which it is."""
        nguid = self.host.identify(0x03, namespace=1)[4:20]
        self.assertNotEqual(nguid, bytes(16))
        blocks = little(target.ZONES * target.ZONE_SIZE, 8)
        self.assertEqual(self.host.identify(0x00, namespace=1), page({0: blocks * 3, 30: b"\1", 104: nguid, 130: b"\x09"}))
        self.assertEqual(self.host.identify(0x03, namespace=1), page({0: b"\2\x10", 4: nguid, 20: b"\4\1\0\0\2"}))
        zoned = page({4: little(3, 4), 8: little(3, 4), 2816: little(target.ZONE_SIZE, 8)})
        self.assertEqual(self.host.identify(0x05, 2, namespace=1), zoned)
        for structure, command_set, namespace, first in ((2, 0, 0, 1), (2, 9, 1, 0), (7, 2, 0, 1), (7, 0, 0, 0), (7, 2, 1, 0)):
            found = self.host.identify(structure, command_set, namespace)
            self.assertEqual(found, page({0: little(first, 4)}), (structure, command_set, namespace))

    def test_identify_tells_each_geometry(self) -> None:
        """The size and the blocks of a namespace, and its limits, which are zero-based."""
        for block, zones, size, most_open, most_active in ((512, 1, 1, 1, 1), (4096, 64, 1024, 3, 5), (16384, 9, 7, 9, 9)):
            with target.started(block=block, zones=zones, zone_size=size, most_open=most_open, most_active=most_active) as program:
                with Host(program.address) as host:
                    came = host.identify(0x00, namespace=1)
                    self.assertEqual((came[:24], 1 << came[130]), (little(zones * size, 8) * 3, block))
                    zoned = page({4: little(most_active - 1, 4), 8: little(most_open - 1, 4), 2816: little(size, 8)})
                    self.assertEqual(host.identify(0x05, 2, namespace=1), zoned)
                    host.queue(1).write(0, bytes(block))
                    self.assertEqual(len(host.queue(1).report()), zones)

    def test_identify_tells_the_command_sets(self) -> None:
        """Those of blocks and of zones."""
        self.assertEqual(self.host.identify(0x06, 0), page({}))
        self.assertEqual(self.host.identify(0x06, 2), page({0: b"\5"}))
        self.assertEqual(self.host.identify(0x1C), page({0: b"\5"}))

    def test_log_pages_are_given_from_any_dword_on(self) -> None:
        """Behind a page's end are zeros."""
        firmware = self.host.identify(0x01)[64:72]
        admin = {4 * opcode: b"\1" for opcode in (0x02, 0x06, 0x08, 0x09, 0x0A, 0x0C, 0x18)}
        effects = {0x01: 3, 0x02: 1, 0x79: 3, 0x7A: 1, 0x7D: 3, 0xC0: 3, 0xC1: 1, 0xC2: 1}
        both = {**admin, **{1024 + 4 * opcode: little(effect, 1) for opcode, effect in effects.items()}}
        pages = {(1, 0): page({}, 64), (2, 0): page({1: little(300, 2)}, 512), (3, 0): page({0: b"\1", 8: firmware}, 512)}
        pages.update({(5, 0): page(admin), (5, 2): page(both), (5, 1): page(admin)})
        for (log, command_set), whole in pages.items():
            for offset, size in ((0, 4096), (0, 4), (4, 64), (len(whole) - 4, 8), (len(whole), 4), (60, 4)):
                came = self.host.log_page(log, size, offset=offset, command_set=command_set)
                self.assertEqual(came, (whole[offset:] + bytes(4096))[:size], (log, command_set, offset, size))

    def test_features_are_kept(self) -> None:
        """The number of queues is 8, zero-based, whatever is wanted; two others are kept."""
        self.assertEqual([self.host.set_feature(0x07, 0xFFFF_FFFF), self.host.feature(0x07)], [0x0007_0007, 0x0007_0007])
        for feature, value in ((0x0B, 0x1_0000), (0x0F, 120_000)):
            self.assertEqual([self.host.feature(feature), self.host.set_feature(feature, value)], [0, 0])
            self.assertEqual(self.host.feature(feature), value)

    def test_nothing_is_aborted(self) -> None:
        """Dword 0 of an Abort says so."""
        self.assertEqual(self.host.admin.command(Opcode.ABORT, 0, namespace=0).dword0, 1)

    def test_event_requests_are_kept(self) -> None:
        """Four of them, and other commands go on; a controller that is stopped drops them, without completions."""
        requests = [self.host.admin.submit(Opcode.ASYNCHRONOUS_EVENT_REQUEST) for _ in range(5)]
        self.assertEqual(self.host.admin.completion(requests[4]).status, 0x105)
        self.host.set_property(CC, ENABLED - 1)
        self.host.enable()
        more = self.host.admin.submit(Opcode.ASYNCHRONOUS_EVENT_REQUEST)
        with self.assertRaises(TimedOut):
            self.host.admin.completion(more, patience=0.05)
        self.host.keep_alive()

    def test_a_controller_is_enabled_and_stopped(self) -> None:
        """CSTS tells what CC came to: ready, failed, or shut down. Its I/O queues are closed where it isn't ready."""
        for value, status in ((ENABLED - 1, 0), (ENABLED, 1), (ENABLED & ~0x70, 1), (0x0045_0061, 1), (0, 0), (0x0045_0061, 2), (0, 0)):
            self.host.set_property(CC, value)
            self.assertEqual([self.host.get_property(CC), self.host.get_property(CSTS)], [value, status], f"{value:X}")
        for wrong in (0x0036_0061, 0x0046_0011, 0x0046_00E1, 0x0046_0861, 0x0046_0071):
            self.host.set_property(CC, wrong)
            self.assertEqual(self.host.get_property(CSTS), 2, f"{wrong:X}")
            self.host.set_property(CC, 0)
        self.assertEqual(self.queue.connection.receive_to_end(), b"")
        self.assert_refused(0x182, self.host.queue, 2)
        self.host.enable()
        queue = self.host.queue(2)
        self.host.set_property(CC, ENABLED | 0x4000)
        self.assertEqual(self.host.get_property(CSTS), 9)
        self.assertEqual(queue.connection.receive_to_end(), b"")


class IoQueues(Over):
    """The device's commands."""

    geometry = {"zone_size": 512}

    def test_blocks_are_written_and_read(self) -> None:
        """By Write, by Append, and where nothing was written as zeros."""
        self.queue.write(0, order(1) + order(2))
        self.assertEqual([self.queue.append(0, order(3)), self.queue.append(512, order(4))], [2, 512])
        self.assertEqual(self.queue.read(1, 3), order(2) + order(3) + bytes(512))

    def test_zones_are_told_and_changed(self) -> None:
        """Each action, and a report of all zones or of those of a state."""
        for zone in (0, 512, 1024):
            self.queue.append(zone, order(0))
        for action, zone in ((Action.CLOSE, 0), (Action.FINISH, 512), (Action.OPEN, 1536)):
            self.queue.zone_action(action, zone)
        states = [ZoneState.CLOSED, ZoneState.FULL, ZoneState.IMPLICITLY_OPENED, ZoneState.EXPLICITLY_OPENED]
        self.assertEqual([zone.state for zone in self.queue.report()], states)
        self.assertEqual([zone.start for zone in self.queue.report(512, most=2)], [512, 1024])
        self.assertEqual([zone.start for zone in self.queue.report(state=4)], [0])
        self.assert_refused(0x1BF, self.queue.zone_action, Action.OFFLINE, 0)
        self.queue.zone_action(Action.RESET, None)
        self.assertEqual([(zone.state, zone.write_pointer) for zone in self.queue.report()][1], (ZoneState.EMPTY, 512))

    def test_a_program_runs(self) -> None:
        """What it emits is appended, and told by the completion; a program that is no program is refused with the reason."""
        self.queue.write(0, order(3) + order(1) + order(3))
        self.queue.zone_action(Action.OPEN, 512)
        self.queue.load(7, FILTER, emit=66)
        self.assertEqual(self.queue.run(7, 0, 3, 512, argument=3), (2, 1))
        record = b"\x40\0" + order(3)[:64]
        self.assertEqual(self.queue.read(512, 1), (record * 2).ljust(512, b"\0"))
        self.assertEqual(self.queue.result(7), bytes(1024))
        self.assert_refused(0x7C1, self.queue.result, 6)
        self.assertEqual(self.assert_refused(0x7C2, self.queue.load, 6, bytes(7), 0)[:2], (0, 20))

    def test_refusals_have_the_statuses_of_the_device(self) -> None:
        """All but success say that it is of no use to try again."""
        self.assert_refused(0x1BC, self.queue.write, 1, order(0))
        self.assert_refused(0x080, self.queue.read, 4 * 512, 1)
        self.assert_refused(0x1B8, self.queue.read, 511, 2)
        self.assert_refused(0x001, self.queue.command, 0x05, 0)
        self.assertEqual(self.assert_refused(0x7C2, self.queue.load, 0, FILTER, 65)[:2], (5, 10))
        self.assert_refused(0x7C5, self.load_and_run)

    def load_and_run(self) -> None:
        """Starts a run into a zone that isn't open."""
        self.queue.append(0, order(0))
        self.queue.load(0, FILTER, emit=66)
        self.queue.run(0, 0, 1, 512)

    def test_data_comes_in_capsules(self) -> None:
        """Of a Write, an Append and a Load, up to 8192 bytes, in one round trip: no R2T asks for it."""
        data = random.Random(4).randbytes(8192)
        self.write_in_capsule(0, data[:512])
        self.write_in_capsule(1, data)
        append = self.queue.submit(Opcode.ZONE_APPEND, 0, data=order(3), in_capsule=True)
        self.assertEqual(self.queue.done(append).value, 17)
        self.assertEqual(self.queue.read(0, 18), data[:512] + data + order(3))
        self.queue.done(self.queue.submit(Opcode.LOAD, 66 << 32, len(FILTER), data=FILTER, in_capsule=True))
        self.queue.zone_action(Action.OPEN, 512)
        self.assertEqual(self.queue.run(0, 17, 1, 512, argument=3), (1, 1))

    def write_in_capsule(self, lba: int, data: bytes) -> None:
        """A Write whose data is in its capsule: nothing comes before its completion."""
        command = entry(Opcode.WRITE, 0xFFFE, lba, len(data) // 512 - 1, length=len(data), sgl=Sgl.IN_CAPSULE)
        self.queue.connection.send(capsule(command, data))
        came = self.queue.connection.receive()
        self.assertEqual((came.kind, came.header[20:24]), (Kind.CAPSULE_RESP, b"\xfe\xff\0\0"))

    def test_data_of_each_size_comes_in_pieces_of_each_size(self) -> None:
        """Writes of 1 to 256 blocks, sent in H2CData PDUs of 1 byte to 131072."""
        rng, lba = random.Random(3), 0
        for blocks, piece in ((1, 1), (1, 7), (1, 511), (2, 512), (3, 1000), (37, 4096), (256, 65536), (150, 131072)):
            data = rng.randbytes(blocks * 512)
            self.queue.most_h2c_data = piece
            self.queue.write(lba, data)
            self.assertEqual(self.queue.read(lba, blocks), data)
            lba += blocks
        self.assertEqual(lba, self.queue.report(most=1)[0].write_pointer)

    def test_four_r2ts_are_under_way(self) -> None:
        """Of the four oldest commands, whatever MAXR2T is. What comes for one is its own, and with each that goes another is asked for."""
        rng = random.Random(5)
        for zone, most in ((0, 0), (512, 3)):
            connection, blocks = Connection(self.target.address), [rng.randbytes(20 * 512) for _ in range(9)]
            connection.initialize(most_r2t=most)
            connection.send(capsule(connect_entry(0, 2, 31), self.host.connect_data()))
            connection.receive()
            for number, data in enumerate(blocks):
                connection.send(capsule(entry(Opcode.WRITE, number, zone + 20 * number, 19, length=len(data))))
            tags = dict(self.asked_for(connection.receive()) for _ in range(4))
            self.assertEqual(tags, {0: 0, 1: 1, 2: 2, 3: 3})
            for at in (0, 1000):
                for number in (3, 1, 2):
                    last = LAST if at else 0
                    connection.send(h2c_data(number, at, blocks[number][at : None if at else 1000], last, tags[number]))
            with self.assertRaises(TimedOut):
                connection.receive(0.05)
            self.assertEqual(self.done_in_order(connection, blocks, tags), list(range(9)))
            connection.shut()
            self.assertEqual(self.queue.read(zone, 180), b"".join(blocks))

    def asked_for(self, came: Pdu) -> Tuple[int, int]:
        """The command and the tag of an R2T, which asks for all data."""
        self.assertEqual(came.kind, Kind.R2T)
        number, tag, offset, count = DATA_FIELDS.unpack_from(came.header, 8)
        self.assertEqual((offset, count), (0, 20 * 512))
        return number, tag

    def done_in_order(self, connection: Connection, blocks: List[bytes], tags: Dict[int, int]) -> List[int]:
        """Sends the data that is still asked for, and gives the commands in the order in which they are completed."""
        done: List[int] = []
        for number in (0, 4, 5, 6, 7, 8):
            connection.send(h2c_data(number, 0, blocks[number], LAST, tags[number]))
            while number not in done:
                came = connection.receive()
                if came.kind == Kind.R2T:
                    tags.update([self.asked_for(came)])
                else:
                    done.append(int.from_bytes(came.header[20:22], "little"))
        return done

    def test_data_is_aligned_as_the_host_wants_it(self) -> None:
        """It begins at a multiple of 4 (HPDA + 1), the least one behind the header."""
        self.queue.write(0, order(5))
        for alignment in range(32):
            connection = Connection(self.target.address)
            connection.initialize(alignment=alignment)
            connection.send(capsule(connect_entry(0, 2, 3), self.host.connect_data()))
            connection.receive()
            connection.send(capsule(entry(Opcode.READ, 1, 0, length=512)))
            multiple = 4 * (alignment + 1)
            begins = -(-24 // multiple) * multiple
            came = connection.receive_bytes(begins + 512)
            head = struct.pack("<BBBBI", 7, 4, 24, begins, begins + 512)
            self.assertEqual(came, (head + little(1, 8) + little(512, 4)).ljust(begins, b"\0") + order(5))
            connection.shut()
