"""Tests of a target whose device is kept: what was answered is there when it is killed, and when its disk fails."""

from __future__ import annotations

import fcntl
import os
import re
import signal
import stat
import subprocess
import tempfile
import unittest
from pathlib import Path

from killing import kill_once, numbers
from nvme_tcp_connection import HostError, Refused
from nvme_tcp_host import Action, Host, IoQueue
from target import BLOCK, EMITS_NOTHING, FILTER, ZONE_SIZE, Target, format_image, order, uuid_file

ROUNDS = 5
SECONDS = 0.2


class Kept(unittest.TestCase):
    """Each test has an image of its own, which targets keep in turn."""

    zone_size = ZONE_SIZE

    def setUp(self) -> None:
        folder = tempfile.TemporaryDirectory()
        self.addCleanup(folder.cleanup)
        self.image = Path(folder.name) / "zoned.img"
        format_image(self.image, zone_size=self.zone_size)

    def again(self) -> Target:
        """A target on the image, as it is."""
        return Target(self.image, is_durable=True)


class WhatIsKept(Kept):
    """What a target has that was killed."""

    def test_blocks_and_zones(self) -> None:
        with self.again() as target, Host(target.address) as host:
            queue = host.queue(1)
            self.assertEqual([queue.append(16, bytes([n]) * BLOCK) for n in range(3)], [16, 17, 18])
            queue.zone_action(Action.FINISH, 16)
            zones = queue.report()
            target.stop(by=signal.SIGKILL)
        with self.again() as target, Host(target.address) as host:
            queue = host.queue(1)
            self.assertEqual(queue.read(16, 3), b"".join(bytes([n]) * BLOCK for n in range(3)))
            self.assertEqual(queue.report(), zones)

    def test_programs_and_results(self) -> None:
        with self.again() as target, Host(target.address) as host:
            queue = host.queue(1)
            queue.write(0, order(3) + order(1) + order(3))
            queue.zone_action(Action.OPEN, 16)
            queue.load(0, FILTER, emit=66)
            self.assertEqual(queue.run(0, 0, 3, 16, argument=3)[0], 2)
            result, emitted = queue.result(0), queue.read(16, 1)
            target.stop(by=signal.SIGKILL)
        with self.again() as target, Host(target.address) as host:
            queue = host.queue(1)
            self.assertEqual((queue.result(0), queue.read(16, 1)), (result, emitted))
            queue.zone_action(Action.OPEN, 32)
            self.assertEqual(queue.run(0, 0, 3, 32, argument=3)[0], 2)

    def test_another_target_is_refused(self) -> None:
        with self.again():
            with self.assertRaises(AssertionError):
                Target(self.image, is_durable=True, is_quiet=True)

    def test_a_signal_ends_it(self) -> None:
        with self.again() as target, Host(target.address) as host:
            host.queue(1).append(0, bytes(BLOCK))
            self.assertEqual(target.stop(), 0)
        with self.again() as target, Host(target.address) as host:
            self.assertEqual(host.queue(1).report(most=1)[0].write_pointer, 1)


class Files(Kept):
    """The files that a target opens and makes."""

    def test_no_message_goes_into_the_journal(self) -> None:
        """Of a target that begins without standard output and error, whose numbers are free then."""
        with self.again():
            pass
        before = self.image.read_bytes()
        words = 'exec "$NVME_TCP_TARGET" "$0" --listen 192.0.2.1:4420 <&- >&- 2>&-'
        self.assertEqual(subprocess.run(["sh", "-c", words, self.image]).returncode, 1)
        self.assertEqual(self.image.read_bytes(), before)

    def test_a_new_file_that_a_program_holds_is_left_alone(self) -> None:
        held = self.image.with_name(self.image.name + ".unfinished")
        with open(held, "w") as file:
            fcntl.flock(file, fcntl.LOCK_EX)
            with self.assertRaises(AssertionError):
                Target(self.image, is_durable=True, is_quiet=True)
            self.assertTrue(held.exists())
        with self.again():
            self.assertFalse(held.exists())

    def test_what_is_no_ordinary_file_is_left_alone(self) -> None:
        """Whether it has the name of a new file or of the UUID's: the program ends at once, and names it."""
        uuid_file(self.image).unlink()
        for ending in (".unfinished", ".uuid", ".uuid.unfinished"):
            odd = self.image.with_name(self.image.name + ending)
            with self.subTest(ending):
                os.mkfifo(odd)
                before = self.image.read_bytes()
                command = [os.environ["NVME_TCP_TARGET"], str(self.image), "--listen", "127.0.0.1:0"]
                ended = subprocess.run(command, capture_output=True, text=True, timeout=30, check=False)
                self.assertEqual((ended.returncode, ended.stdout), (1, ""))
                self.assertRegex(ended.stderr, f"^nvme_tcp: cannot [a-zA-Z ]* {re.escape(str(odd.resolve()))}: it is no ordinary file.*\n$")
                self.assertTrue(stat.S_ISFIFO(odd.lstat().st_mode))
                odd.unlink()
                if ending == ".unfinished":
                    self.assertEqual(self.image.read_bytes(), before)
        with self.again():
            self.assertTrue(uuid_file(self.image).is_file())

    @unittest.skipIf(os.geteuid() != 0, "only root gives a file to another user")
    def test_the_owner_stays(self) -> None:
        os.chown(self.image, 1234, 1235)
        self.image.chmod(0o640)
        with self.again():
            pass
        about = self.image.stat()
        self.assertEqual((about.st_uid, about.st_gid, about.st_mode & 0o7777), (1234, 1235, 0o640))


class Runs(Kept):
    """A run that was cut off goes on."""

    zone_size = 4096

    def test_a_run_goes_on(self) -> None:
        with self.again() as target, Host(target.address) as host:
            queue = host.queue(1)
            for _ in range(4096 // 64):
                queue.append(0, bytes(64 * BLOCK))
            queue.zone_action(Action.OPEN, 4096)
            queue.load(0, EMITS_NOTHING, emit=0)
            queue.submit_run(0, 0, 4096, 4096)
            host.keep_alive()
            target.stop(by=signal.SIGKILL)
        with self.again() as target, Host(target.address) as host:
            queue = host.queue(1)
            # a zone that a run writes to takes no action
            self.assertTrue(any(self.is_finished(queue, 4096) for _ in range(10000)))

    def is_finished(self, queue: IoQueue, zone: int) -> bool:
        """Finishes a zone, and says whether it could."""
        try:
            queue.zone_action(Action.FINISH, zone)
        except Refused:
            return False
        return True


class Killed(Kept):
    """Rounds in which the target is killed while a host appends."""

    zone_size = 16384

    def test_each_acknowledged_block_is_there(self) -> None:
        before = []
        for _ in range(ROUNDS):
            before = kill_once(self.image, before, SECONDS)


class FailingDisk(Kept):
    """A disk on which a file can't grow."""

    zone_size = 4096

    def test_the_target_ends_and_keeps_what_it_answered(self) -> None:
        with self.again() as target:
            self.assertEqual(target.stop(), 0)
        most = self.image.stat().st_size + 40 * 4096
        answered = 0
        with Target(self.image, is_durable=True, is_quiet=True, most_bytes=most) as target:
            host = Host(target.address)
            queue = host.queue(1)
            with self.assertRaises((HostError, OSError)):
                for answered in range(4096):
                    queue.append(0, (answered + 1).to_bytes(8, "little") * (BLOCK // 8))
            self.assertEqual(target.wait(), 1)
            for one in (host.admin, queue):
                one.connection.shut()
        self.assertGreater(answered, 0)
        with self.again() as target, Host(target.address) as host:
            found = numbers(host.queue(1))
        self.assertEqual(found[:answered], list(range(1, answered + 1)))
        self.assertLessEqual(len(found), answered + 1)
