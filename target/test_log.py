"""Tests of what the target prints: connections, commands, and counters; and that nobody has to read it."""

from __future__ import annotations

import contextlib
import fcntl
import os
import re
import signal
import socket
import subprocess
import tempfile
import time
import unittest
from pathlib import Path
from typing import Callable, List, Tuple

from nvme_tcp_connection import Connection
from nvme_tcp_host import Host
from target import BLOCK, Target, format_image

COUNTED = re.compile(
    r"nvme_tcp: connections: (\d+), refused: 0, commands: (\d+), turns: 0, bytes that came: (\d+), sent: (\d+), commits: 1, rounds: (\d+)"
)
"""The line with counters."""


class Log(unittest.TestCase):
    """Each test has a folder of its own with an image."""

    def setUp(self) -> None:
        folder = tempfile.TemporaryDirectory()
        self.addCleanup(folder.cleanup)
        self.image = Path(folder.name) / "zoned.img"
        self.errors = self.image.with_name("errors")
        format_image(self.image)

    def append(self, *words: str) -> List[str]:
        """Appends a block by a target that is started with these words, and gives the lines that it prints."""
        with Target(self.image, words=words, errors=self.errors) as target:
            with Host(target.address) as host:
                host.queue(1).append(0, b"x" * BLOCK)
            with Host(target.address):
                pass
            self.assertEqual(target.stop(), 0)
        return self.errors.read_text().splitlines()

    def test_nothing_is_printed_if_it_is_not_asked_for(self) -> None:
        self.assertEqual(self.append(), [])

    def test_connections_are_printed(self) -> None:
        said = self.append("-v")
        for line in (r"connection 0 begins from 127\.0\.0\.1:\d+", r"connection 1 begins from .*", "connection 0 is closed by its host"):
            self.assertRegex("\n".join(said), f"(?m)^nvme_tcp: {line}$")
        self.assertFalse([line for line in said if "commands" in line])

    def test_commands_are_printed(self) -> None:
        said = self.append("-vv")
        self.assertRegex("\n".join(said), r"(?m)^nvme_tcp: connection 1 begins from ")
        self.assertIn("nvme_tcp: connection 1: commands: 1", said)
        self.assertIn("nvme_tcp: connection 1: commands: 1", self.append("-v", "-v"))

    def test_a_signal_has_counters_printed(self) -> None:
        with Target(self.image, words=[], errors=self.errors) as target, Host(target.address) as host:
            host.queue(1).append(0, b"x" * BLOCK)
            target.send(signal.SIGUSR1)
            for _ in range(100):
                counted = COUNTED.fullmatch(self.errors.read_text().rstrip("\n"))
                if counted:
                    break
                time.sleep(0.05)
            assert counted is not None, self.errors.read_text()
            connections, commands, came, sent, _rounds = map(int, counted.groups())
            self.assertEqual(connections, 2)
            self.assertGreater(commands, 2)
            self.assertGreater(came, BLOCK)
            self.assertGreater(sent, 0)
            host.keep_alive()
            self.assertEqual(target.stop(), 0)


F_SETPIPE_SZ = 1031
"""Sets how many bytes a pipe has room for, on Linux."""

CROWD = 400
"""How many connections come one after another."""

MOST_OF_A_KIND = 40
"""How many lines of a kind are printed in a second."""

MORE = re.compile(r"nvme_tcp: (\d+) more lines like 'connection \d+ begins.*'")
"""The line that counts the others."""

DROPPED = re.compile(r"nvme_tcp: lines that were not printed: (\d+)")
"""The line that counts those that couldn't be written."""


def holds_soon(holds: Callable[[], bool]) -> bool:
    """Waits until something holds, for 5 seconds at most, and says whether it does."""
    until = time.monotonic() + 5
    while not holds() and time.monotonic() < until:
        time.sleep(0.05)
    return holds()


def read_more(end: int, said: bytearray) -> str:
    """Reads what is there to be read, and gives all that was read."""
    with contextlib.suppress(BlockingIOError):
        said += os.read(end, 4096)
    return said.decode()


def connects(address: Tuple[str, int]) -> bool:
    """Does something listen there?"""
    with contextlib.suppress(OSError):
        socket.create_connection(address, 10).close()
        return True
    return False


def close(descriptor: int) -> None:
    """Closes a descriptor, unless it is closed."""
    with contextlib.suppress(OSError):
        os.close(descriptor)


class Readers(unittest.TestCase):
    """What becomes of lines that nobody reads. Each test has an image of its own."""

    def setUp(self) -> None:
        folder = tempfile.TemporaryDirectory()
        self.addCleanup(folder.cleanup)
        self.image = Path(folder.name) / "zoned.img"
        format_image(self.image)

    def pipe(self) -> Tuple[int, int]:
        """The ends of a pipe, which are closed when the test ends, if they weren't before."""
        ends = os.pipe()
        for end in ends:
            self.addCleanup(close, end)
        return ends

    def assert_appended(self, count: int) -> None:
        """So many blocks were kept. Then a journal has the image's place."""
        with Target(self.image, is_durable=True) as target, Host(target.address) as host:
            self.assertEqual(host.queue(1).report(most=1)[0].write_pointer, count)

    def test_a_reader_that_goes_away_ends_nothing(self) -> None:
        """And what was written is kept, by what is saved at the end and by a journal."""
        for count, words in enumerate((["-vv", "--memory"], ["-vv"]), 1):
            end, errors = self.pipe()
            with Target(self.image, words=words, errors=errors) as target:
                os.close(errors)
                os.close(end)
                with Host(target.address) as host:
                    host.queue(1).append(0, b"x" * BLOCK)
                target.send(signal.SIGUSR1)
                with Host(target.address) as host:
                    host.keep_alive()
                self.assertEqual(target.stop(), 0)
            self.assert_appended(count)

    def test_nobody_reads_where_it_listens(self) -> None:
        """It serves all the same."""
        with socket.socket() as free:
            free.bind(("127.0.0.1", 0))
            address = free.getsockname()
        end, printed = self.pipe()
        os.close(end)
        command = [os.environ["NVME_TCP_TARGET"], str(self.image), "--listen", f"127.0.0.1:{address[1]}"]
        with subprocess.Popen(command, stdout=printed) as program:
            try:
                self.assertTrue(holds_soon(lambda: connects(address)))
                self.assertIsNone(program.poll())
            finally:
                program.terminate()
            self.assertEqual(program.wait(30), 0)

    def assert_holds_up_nobody(self, errors: int, end: int, full: int) -> None:
        """A target serves whose lines go to a descriptor that takes no more, since so many bytes wait at its other end. Once they are read,
        a line says how many were dropped. The descriptor itself still waits for its reader, as others need it."""
        with Target(self.image, words=["-vv"], errors=errors) as target:
            with Host(target.address) as host:
                for _ in range(8):
                    host.queue(1).append(0, b"x" * BLOCK)
            self.assertTrue(os.get_blocking(errors))
            os.set_blocking(end, False)
            said = bytearray()
            self.assertTrue(holds_soon(lambda: len(read_more(end, said)) >= full))
            del said[:full]
            self.assertTrue(holds_soon(lambda: DROPPED.search(read_more(end, said)) is not None), said)
            self.assertGreater(int(DROPPED.search(said.decode()).group(1)), 0)
            self.assertEqual(target.stop(), 0)
        self.assert_appended(8)

    def test_a_pipe_that_nobody_reads_holds_up_nobody(self) -> None:
        end, errors = self.pipe()
        full = os.write(errors, bytes(fcntl.fcntl(errors, F_SETPIPE_SZ, 4096)))
        self.assert_holds_up_nobody(errors, end, full)

    def test_a_socket_that_nobody_reads_holds_up_nobody(self) -> None:
        """As that of a journal."""
        with contextlib.ExitStack() as stack:
            errors, end = map(stack.enter_context, socket.socketpair())
            full = 0
            with contextlib.suppress(BlockingIOError):
                while True:
                    full += errors.send(bytes(16), socket.MSG_DONTWAIT)
            self.assert_holds_up_nobody(errors.fileno(), end.fileno(), full)

    def test_a_crowd_is_counted(self) -> None:
        """Of the lines of a kind the first are printed in each second; the others are counted in one line."""
        errors = self.image.with_name("errors")
        with Target(self.image, words=["-v"], errors=errors) as target:
            began = time.monotonic()
            for _ in range(CROWD):
                Connection(target.address).shut()
            took = time.monotonic() - began
            self.assertEqual(target.stop(), 0)
        said = errors.read_text()
        begins = len(re.findall(r"^nvme_tcp: connection \d+ begins", said, re.M))
        self.assertEqual(begins + sum(map(int, MORE.findall(said))), CROWD)
        self.assertLessEqual(begins, MOST_OF_A_KIND * (int(took) + 3))


if __name__ == "__main__":
    unittest.main()
