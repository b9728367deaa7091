"""Tests of a target whose journal grows long, on a disk that has room for a new file or has none."""

from __future__ import annotations

import os
import subprocess
import tempfile
from pathlib import Path
from typing import ClassVar

from nvme_tcp_host import Action, Host, IoQueue
from target import BLOCK, Target
from test_durable import Kept

LONG = 64 << 20
"""By how many bytes a journal grows before it is folded."""

BLOCKS = 256
"""How many blocks a command moves."""


class Room(Kept):
    """Each test has a target with the library of calls.c in front of the C library. The disk is full while `full` exists."""

    zone_size = 4096
    folder: ClassVar[Path]

    @classmethod
    def setUpClass(cls) -> None:
        folder = tempfile.TemporaryDirectory()
        cls.addClassCleanup(folder.cleanup)
        cls.folder = Path(folder.name)
        source = Path(__file__).resolve().parents[1] / "tests/faults/calls.c"
        words = [os.environ.get("CC", "gcc"), "-std=c11", "-O1", "-shared", "-fPIC", str(source), "-o", str(cls.folder / "calls.so")]
        subprocess.run(words, check=True)

    def setUp(self) -> None:
        super().setUp()
        self.full = self.image.with_name("full")
        self.errors = self.image.with_name("errors")

    def target(self) -> Target:
        """A target on the image, as it is, whose standard error goes to a file."""
        variables = {"LD_PRELOAD": str(self.folder / "calls.so"), "ASAN_OPTIONS": "verify_asan_link_order=0", "NO_ROOM": str(self.full)}
        return Target(self.image, is_durable=True, variables=variables, errors=self.errors)

    def write(self, queue: IoQueue, count: int) -> None:
        """Fills zone 0 up to so many bytes, again and again from its beginning, and leaves its first block as the last one wrote it."""
        commands = count // (BLOCKS * BLOCK)
        for command in range(commands):
            if command % (self.zone_size // BLOCKS) == 0:
                queue.zone_action(Action.RESET, 0)
            queue.append(0, bytes([command % 255 + 1]) * (BLOCKS * BLOCK))

    def size(self) -> int:
        return self.image.stat().st_size

    def said(self) -> int:
        """How often the target said that it couldn't fold."""
        return self.errors.read_text().count(f"cannot fold {self.image}: No space left on device; its journal goes on growing\n")

    def test_a_long_journal_is_folded_while_it_is_served(self) -> None:
        with self.target() as target, Host(target.address) as host:
            queue = host.queue(1)
            self.write(queue, LONG + LONG // 4)
            zones, data = queue.report(), queue.read(0, 64)
            self.assertLess(self.size(), LONG // 2)
            self.assertEqual(target.stop(), 0)
        with self.target() as target, Host(target.address) as host:
            queue = host.queue(1)
            self.assertEqual((queue.report(), queue.read(0, 64)), (zones, data))
        self.assertEqual(self.errors.read_text(), "")

    def test_without_room_the_old_file_is_used_on(self) -> None:
        """Whether the new file can't be written or, after 64 MiB more, can't be brought to the disk."""
        with self.target() as target, Host(target.address) as host:
            queue = host.queue(1)
            self.full.touch()
            self.write(queue, LONG + LONG // 4)
            self.assertGreater(self.size(), LONG)
            self.assertEqual(self.said(), 1)
            self.full.write_text("sync")
            self.write(queue, LONG)
            self.assertGreater(self.size(), 2 * LONG)
            self.assertEqual(self.said(), 1)
            data = queue.read(0, 64)
            self.assertEqual(target.stop(), 0)
        self.assertFalse(self.image.with_name(self.image.name + ".unfinished").exists())

        # no room is needed to open it, and it isn't folded before it has grown by as much again
        with self.target() as target, Host(target.address) as host:
            queue = host.queue(1)
            self.assertEqual(queue.read(0, 64), data)
            queue.zone_action(Action.RESET, 4096)
            self.assertGreater(self.size(), 2 * LONG)
            self.full.unlink()
            self.write(queue, LONG - LONG // 4)
            self.assertGreater(self.size(), 2 * LONG)
            self.write(queue, LONG // 2)
            self.assertLess(self.size(), LONG // 2)
            self.assertEqual(self.said(), 0)
            data = queue.read(0, 64)
            self.assertEqual(target.stop(), 0)
        with self.target() as target, Host(target.address) as host:
            self.assertEqual(host.queue(1).read(0, 64), data)
        self.assertFalse(self.image.with_name(self.image.name + ".unfinished").exists())
