"""Tests of a disk of Linux. The kernel is played: each ioctl does its command on a device of `zscli`."""

from __future__ import annotations

import ctypes
import doctest
import errno
import struct
import sys
import unittest
from pathlib import Path
from typing import Any, List, Tuple
from unittest import mock

sys.path.insert(0, str(Path(__file__).resolve().parent))
import pifnjarl
import pifnjarl_linux
import pifnjarl_query
from pifnjarl import ZoneState
from pifnjarl_linux import ADMIN, ID, IO, Disk
from test_query import LAYOUT, Over, data, orders

DNR = 1 << 14
"""Do Not Retry, in a status."""


class Kernel:
    """What the ioctls do. `struct nvme_passthru_cmd64` of linux/nvme_ioctl.h has the opcode in byte 0, the namespace in 4, the address of
    the data in 24 and its bytes in 36, dwords 10 to 15 from 40 on, the timeout in 64, and the result in 72."""

    def __init__(self, device: pifnjarl.Device) -> None:
        self.device = device
        self.namespace = 1
        self.failure = 0
        self.timeouts: List[int] = []

    def ioctl(self, _: int, request: int, command: bytearray, __: bool) -> int:
        """An ioctl."""
        if self.failure:
            raise OSError(self.failure, "played")
        if request == ID:
            return self.namespace
        if len(command) != 80:
            raise OSError(errno.EINVAL, "played")
        opcode, namespace, address, length = struct.unpack_from("<B3xI16xQ4xI", command)
        self.timeouts.append(struct.unpack_from("<I", command, 64)[0])
        dwords = struct.unpack_from("<QIIQ", command, 40)
        went = ctypes.string_at(address, length) if opcode & 1 else b""
        status, result, came = self.admin(dwords) if request == ADMIN else self.io(request, opcode, dwords, went)
        if came and not status:
            if opcode & 1 or len(came) > length:
                raise OSError(errno.EFAULT, "played")
            ctypes.memmove(address, came, len(came))
        struct.pack_into("<Q", command, 72, result)
        return status if namespace == 1 else 0x400B

    def admin(self, dwords: Tuple[int, ...]) -> Tuple[int, int, bytes]:
        """Identify: a namespace whose second format is in use, and that of zoned namespaces."""
        geometry, structure = self.device.geometry, bytearray(4096)
        if dwords[0] & 0xFF == 0x00:
            struct.pack_into("<Q", structure, 0, geometry.zones * geometry.zone_size)
            structure[26], structure[128 + 4 + 2] = 1, geometry.block.bit_length() - 1
        elif dwords[0] == 2 << 56 | 0x05:
            struct.pack_into("<II", structure, 4, geometry.most_active - 1, 2**32 - 1)
            struct.pack_into("<Q", structure, 2816 + 16, geometry.zone_size)
        else:
            return DNR | 0x02, 0, b""
        return 0, 0, bytes(structure)

    def io(self, request: int, opcode: int, dwords: Tuple[int, ...], went: bytes) -> Tuple[int, int, bytes]:
        """A command of the device: its status, dwords 0 and 1, and its data."""
        if request != IO:
            raise OSError(errno.ENOTTY, "played")
        try:
            if opcode == 0xC0:
                lba, counts, argument, to = dwords
                run = self.device.run(counts >> 16 & 0xFF, lba, (counts & 0xFFFF) + 1, to, argument).wait()
                return 0, run.records | run.blocks << 32, b""
            done = self.device._do(pifnjarl._Opcode(opcode), *dwords, data=went)
        except pifnjarl.Refused as refused:
            return DNR | refused.type << 8 | refused.code, refused.dword0 | refused.dword1 << 32, b""
        return 0, done.dword0 | done.dword1 << 32, done.data


class Disks(Over):
    """A disk over a device that keeps 6 of the 8 blocks of a zone."""

    def setUp(self) -> None:
        super().setUp()
        self.served = self.device(block=4096, zones=5, zone_size=8, zone_capacity=6, most_active=4)
        self.kernel = Kernel(self.served)
        played = mock.patch("fcntl.ioctl", self.kernel.ioctl)
        played.start()
        self.addCleanup(played.stop)

    def disk(self, **words: Any) -> Disk:
        """A disk, shut at the test's end."""
        opened = Disk(self.folder / "zoned.img", **words)
        self.addCleanup(opened.shut)
        return opened

    def test_the_numbers_are_those_of_the_namespace(self) -> None:
        """Without a limit of open zones, each zone can be open."""
        self.assertEqual(self.disk().geometry, self.served.geometry._replace(most_open=5))

    def test_commands_are_those_of_a_device(self) -> None:
        """Blocks, zones, a program, its run and what it leaves."""
        disk = self.disk(timeout=7.5)
        rows = orders(128 * 3)
        self.assertEqual((disk.append(8, data(rows[:256], 4096)), disk.append_async(8, data(rows[256:], 4096)).wait()), (8, 10))
        self.assertTrue(disk.write_async(16, bytes(4096)).done)
        self.assertEqual(disk.read(8, 3), data(rows, 4096))
        self.assertEqual(disk.report(), self.served.report())
        self.assertEqual([zone.start for zone in disk.report(state=ZoneState.IMPLICITLY_OPENED)], [8, 16])
        disk.open(24)
        disk.load(2, pifnjarl.EMITS_NOTHING, emit=0)
        run = disk.run(2, 8, 3, to=24)
        self.assertTrue(run.ended and run.turn())
        self.assertEqual((run.wait(), disk.result(2)), (pifnjarl.Result(0, 0), bytes(1024)))
        disk.reset(pifnjarl.ALL_ZONES)
        self.assertEqual({zone.state for zone in self.served.report()}, {ZoneState.EMPTY})
        self.assertEqual(set(self.kernel.timeouts), {7500})

    def test_refusals_are_those_of_a_device(self) -> None:
        """With the reason of a Load; they name no queue, which Linux chooses."""
        disk = self.disk()
        with self.assertRaisesRegex(pifnjarl.ZoneInvalidWrite, "^write of 1 block from LBA 2 on: refused: Zone Invalid Write"):
            disk.write(2, bytes(4096))
        with self.assertRaises(pifnjarl.ProgramRefused) as refused:
            disk.load(0, pifnjarl.EMITS_NOTHING[:8], emit=0)
        self.assertEqual(refused.exception.reason, 3)
        append = disk.append_async(8, bytes(7 * 4096))
        with self.assertRaises(pifnjarl.ZoneBoundaryError):
            append.wait()
        with self.assertRaises(pifnjarl.NoSuchProgram):
            disk.run(5, 0, 1, to=8)
        for slot, blocks in ((256, 1), (0, 0)):
            with self.assertRaises(ValueError):
                disk.run(slot, 0, blocks, to=8)

    def test_questions_are_asked(self) -> None:
        """Rows, tallies and images, and beside a device of `zscli`."""
        disk = self.disk()
        rows = orders(128 * 5)
        disk.append(8, data(rows, 4096))
        wanted = [row for row in rows if row.region == 3]
        self.assertEqual(disk.query(8, LAYOUT, "region == 3"), wanted)
        self.assertEqual(disk.query(8, LAYOUT, "region == arg", argument=3, sum="price").sum, sum(row.price for row in wanted))
        self.assertEqual([zone.state for zone in disk.report()].count(ZoneState.EMPTY), 4)
        disk.finish(8)
        self.assertEqual(disk.query(8, LAYOUT, "number != 0", count=True).count, 640)

    def test_another_host_may_load_programs(self) -> None:
        """So one question more loads its program again, into the same slot."""
        disk, other = self.disk(), self.disk()
        disk.append(8, data(orders(128), 4096))
        question = pifnjarl_query.Question(LAYOUT, "number != 0", count=True)
        self.assertEqual(question.ask(disk, 8).count, 128)
        other.load(7, pifnjarl.EMITS_NOTHING, emit=0)
        self.assertEqual(question.ask(disk, 8).count, 128)
        self.assertEqual((question.ask(other, 8).count, list(disk._question_slots), list(other._question_slots)), (128, [7], [6]))

    def test_what_is_no_disk(self) -> None:
        """No such file, no namespace of this project, one without zones, and calls that fail."""
        with self.assertRaisesRegex(pifnjarl.DeviceError, "none: No such file or directory; name a namespace"):
            Disk(self.folder / "none")
        self.kernel.namespace = 2
        with self.assertRaisesRegex(pifnjarl.DeviceError, "namespace 2; "):
            self.disk()
        self.kernel.namespace = 1
        with mock.patch.object(self.kernel, "admin", return_value=(0, 0, bytes(4096))):
            with self.assertRaisesRegex(pifnjarl.DeviceError, "the namespace has no zones"):
                self.disk()
        with mock.patch.object(self.kernel, "admin", return_value=(DNR | 0x0B, 0, b"")):
            with self.assertRaisesRegex(pifnjarl.DeviceError, "Identify was refused, with status Bh; is it a zoned namespace"):
                self.disk()
        disk = self.disk()
        self.kernel.failure = errno.EACCES
        with self.assertRaisesRegex(pifnjarl.DeviceError, "played; be root"):
            disk.read(0, 1)
        self.kernel.failure = 0
        disk.shut()
        disk.shut()
        with self.assertRaisesRegex(pifnjarl.DeviceError, "the device is shut"):
            disk.read(0, 1)


def load_tests(loader: unittest.TestLoader, tests: unittest.TestSuite, pattern: object) -> unittest.TestSuite:
    """The examples of docstrings are tests too."""
    tests.addTests(doctest.DocTestSuite(pifnjarl_linux))
    return tests


if __name__ == "__main__":
    unittest.main()
