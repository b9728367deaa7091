"""Tests of a target with `--memory`, which saves its image at the end, and of the words of its command line."""

from __future__ import annotations

import fcntl
import os
import signal
import stat
import subprocess
import tempfile
import unittest
from pathlib import Path

from nvme_tcp_host import Host
from target import BLOCK, Target, format_image, uuid_file

JOURNAL = b"ZNSJRN01"
"""What a journal begins with."""

ENDS = (signal.SIGTERM, signal.SIGINT, signal.SIGHUP, signal.SIGQUIT)
"""The signals that end the target."""


class Image(unittest.TestCase):
    """Each test has a folder of its own with an image."""

    def setUp(self) -> None:
        folder = tempfile.TemporaryDirectory()
        self.addCleanup(folder.cleanup)
        self.folder = Path(folder.name).resolve()
        self.image = self.folder / "zoned.img"
        self.unfinished = self.folder / "zoned.img.unfinished"
        format_image(self.image)
        self.before = self.image.read_bytes()

    def append_and_end(self, image: Path, by: signal.Signals = signal.SIGTERM) -> int:
        """Appends a block, ends the target by a signal, and gives its status."""
        with Target(image, is_quiet=True) as target, Host(target.address) as host:
            host.queue(1).append(0, b"x" * BLOCK)
            return target.stop(by)


class Saving(Image):
    """What is saved, and where."""

    def assert_saved(self) -> None:
        """The image has a block more, and nothing but its UUID is beside it."""
        self.assertEqual(len(self.image.read_bytes()), len(self.before) + BLOCK)
        self.assertEqual(sorted(self.folder.glob("zoned.img*")), [self.image, uuid_file(self.image)])

    def test_signals_save(self) -> None:
        for by in ENDS:
            with self.subTest(by.name):
                self.image.write_bytes(self.before)
                self.assertEqual(self.append_and_end(self.image, by), 0)
                self.assert_saved()

    def test_what_a_killed_program_left_is_replaced(self) -> None:
        self.unfinished.write_bytes(b"a beginning")
        self.assertEqual(self.append_and_end(self.image), 0)
        self.assert_saved()

    def test_permissions_and_owner_stay(self) -> None:
        owner = (12345, 23456) if os.geteuid() == 0 else (os.geteuid(), os.getegid())
        os.chown(self.image, *owner)
        self.image.chmod(0o640)
        self.assertEqual(self.append_and_end(self.image), 0)
        self.assert_saved()
        about = self.image.stat()
        self.assertEqual((about.st_uid, about.st_gid, stat.S_IMODE(about.st_mode)), (*owner, 0o640))

    def test_a_link_leads_on(self) -> None:
        link = self.folder / "link.img"
        link.symlink_to("zoned.img")
        self.assertEqual(self.append_and_end(link), 0)
        self.assertTrue(link.is_symlink())
        self.assert_saved()

    def test_another_program_that_saves_is_left_alone(self) -> None:
        """The image stays as it was, and the status says so."""
        with open(self.unfinished, "wb") as other:
            fcntl.flock(other, fcntl.LOCK_EX)
            self.assertEqual(self.append_and_end(self.image), 1)
        self.assertEqual(self.image.read_bytes(), self.before)
        self.assertTrue(self.unfinished.exists())

    def test_what_is_no_ordinary_file_is_left_alone(self) -> None:
        """The image stays as it was, and what is printed names what stands in the new one's place."""
        errors = self.folder / "errors"
        with Target(self.image, errors=errors) as target, Host(target.address) as host:
            host.queue(1).append(0, b"x" * BLOCK)
            os.mkfifo(self.unfinished)
            self.assertEqual(target.stop(), 1)
        self.assertEqual(errors.read_text(), f"nvme_tcp: cannot write {self.image}: {self.unfinished} is no ordinary file\n")
        self.assertEqual(self.image.read_bytes(), self.before)
        self.assertTrue(stat.S_ISFIFO(self.unfinished.lstat().st_mode))


class Words(Image):
    """The words of the command line."""

    def front(self, *words: str) -> bytes:
        """What the image begins with while the target serves it."""
        with Target(self.image, words=words):
            return self.image.read_bytes()[: len(JOURNAL)]

    def test_a_journal_is_kept_if_nothing_else_is_said(self) -> None:
        self.assertNotEqual(self.front("--memory"), JOURNAL)
        self.assertEqual(self.front(), JOURNAL)

    def test_durable_changes_nothing(self) -> None:
        self.assertEqual(self.front("--durable"), JOURNAL)

    def test_signals_end_it_with_a_journal_too(self) -> None:
        for by in ENDS:
            with Target(self.image, is_durable=True) as target:
                self.assertEqual(target.stop(by), 0, by.name)

    def test_wrong_words_are_refused(self) -> None:
        for words in (["--memory", "--durable"], ["--durable", "--memory"], ["--memory", "--memory"], ["--listen"], ["--what"]):
            ran = subprocess.run([os.environ["NVME_TCP_TARGET"], self.image, *words], capture_output=True, text=True, check=False)
            self.assertEqual((ran.returncode, ran.stdout), (2, ""), words)
            self.assertEqual(ran.stderr, "usage: nvme_tcp IMAGE [--memory] [--listen ADDRESS:PORT] [-v]\n")
        self.assertEqual(self.image.read_bytes(), self.before)
