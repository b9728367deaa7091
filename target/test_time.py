"""Tests of how long a target waits for its hosts: with a clock that goes faster, and with a disk that is slow. test_nvme_tcp.py runs them."""

from __future__ import annotations

import os
import subprocess
import tempfile
import time
import unittest
from contextlib import ExitStack
from pathlib import Path
from typing import ClassVar

from nvme_tcp_connection import Connection, Ended, HostError, Opcode, capsule, entry, initialize_request
from nvme_tcp_host import CSTS, Host
from target import Target, format_image, order

OTHER_HOST = {"identifier": b"a second host...", "name": "nqn.2026-11.test:second"}


class OtherTime(unittest.TestCase):
    """Each test has a target over a new image, with the library of calls.c in front of the C library."""

    is_durable: ClassVar[bool] = False
    goes: ClassVar[int] = 1
    sync_takes: ClassVar[int] = 0
    folder: ClassVar[Path]

    @classmethod
    def setUpClass(cls) -> None:
        folder = tempfile.TemporaryDirectory()
        cls.addClassCleanup(folder.cleanup)
        cls.folder = Path(folder.name)
        source = Path(__file__).resolve().parents[1] / "tests/faults/calls.c"
        words = [os.environ.get("CC", "gcc"), "-std=c11", "-O1", "-shared", "-fPIC", str(source), "-o", str(cls.folder / "calls.so")]
        subprocess.run(words, check=True)

    def setUp(self) -> None:
        stack = ExitStack()
        self.addCleanup(stack.close)
        image = Path(stack.enter_context(tempfile.TemporaryDirectory())) / "zoned.img"
        format_image(image, zone_size=256)
        variables = {"LD_PRELOAD": str(self.folder / "calls.so"), "ASAN_OPTIONS": "verify_asan_link_order=0"}
        variables.update({"TIME_GOES": str(self.goes), "SYNC_TAKES": str(self.sync_takes)})
        self.target = stack.enter_context(Target(image, is_durable=self.is_durable, variables=variables))
        self.began = time.monotonic()

    def gone(self) -> float:
        """The program's seconds since the test began."""
        return (time.monotonic() - self.began) * self.goes

    def host(self, **words: object) -> Host:
        """A host, which is shut at the test's end."""
        host = Host(self.target.address, **words)
        self.addCleanup(host.shut)
        return host

    def connection(self) -> Connection:
        """A connection, which is shut at the test's end."""
        connection = Connection(self.target.address)
        self.addCleanup(connection.shut)
        return connection


class Silence(OtherTime):
    """Connections on which hosts say nothing, or take nothing."""

    goes = 20

    def assert_ends(self, connection: Connection, least: float, most: float) -> None:
        """Checks that a connection is closed between so many of the program's seconds after the test's beginning."""
        connection.receive_to_end()
        self.assertTrue(least < self.gone() < most, self.gone())

    def test_a_connection_without_a_connect_is_closed(self) -> None:
        """After 30 seconds, whether it sends something or not."""
        silent, slow = self.connection(), self.connection()
        slow.initialize()
        for byte in capsule(entry(Opcode.READ, 1, 0))[:20]:
            slow.send(bytes([byte]))
            time.sleep(0.02)
        self.assert_ends(silent, 30, 90)
        self.assert_ends(slow, 30, 90)

    def test_silent_connections_shut_out_no_host_for_ever(self) -> None:
        """As many as there may be; those of a host that has a queue stay."""
        queue = self.host().queue(1)
        silent = [self.connection() for _ in range(38)]
        for connection in silent[:19]:
            connection.send(initialize_request()[:64])
        self.assertRaises((HostError, OSError), Host, self.target.address, **OTHER_HOST)
        for connection in silent:
            connection.receive_to_end()
        self.assertEqual(self.host(**OTHER_HOST).queue(1).read(0, 1), bytes(512))
        self.assertEqual(queue.read(0, 1), bytes(512))

    def test_a_host_that_takes_nothing_is_given_up(self) -> None:
        """After 60 seconds its connection is closed; one of which it takes a little goes on, and so do its other queues."""
        host = self.host()
        host.queue(1).write(0, bytes(131072))
        lost, slow = host.queue(2), host.queue(3)
        for queue in (lost, slow):
            for number in range(120):
                queue.connection.send(capsule(entry(Opcode.READ, number, 0, 255, length=131072)))
        while self.gone() < 90:
            slow.connection.receive()
            time.sleep(0.1)
        with self.assertRaises((Ended, OSError)):
            for _ in range(240):
                lost.connection.receive()
        self.assertEqual(host.queue(1).read(0, 1), bytes(512))
        slow.connection.receive()


class TenMinutes(OtherTime):
    """Controllers without a Keep Alive Timeout."""

    goes = 120

    def test_a_controller_ends_of_which_nothing_came(self) -> None:
        """On any of its queues; what comes on one of them keeps all."""
        lost, spared, kept = self.host(), self.host(), self.host(**OTHER_HOST)
        idle, busy, quiet = lost.queue(1), kept.queue(1), kept.queue(2)
        while self.gone() < 480:
            busy.read(0, 1)
            time.sleep(0.1)
        self.assertEqual([host.get_property(CSTS) for host in (lost, spared)], [1, 1])
        self.began = time.monotonic()
        while self.gone() < 720:
            busy.read(0, 1)
            if self.gone() < 480:
                spared.keep_alive()
            time.sleep(0.1)
        self.assertEqual(idle.connection.receive_to_end(), b"")
        self.assertEqual(lost.admin.connection.receive_to_end(), b"")
        self.assertEqual((quiet.read(0, 1), kept.get_property(CSTS), spared.get_property(CSTS)), (bytes(512), 1, 1))


class SlowDisk(OtherTime):
    """A disk of which each sync takes longer than hosts with a Keep Alive Timeout are waited for."""

    is_durable = True
    sync_takes = 1600

    def test_the_disk_s_time_is_no_host_s_silence(self) -> None:
        """Whoever speaks, or waits for an answer, isn't given up."""
        hosts = [self.host(keep_alive=1000), self.host(**OTHER_HOST, keep_alive=1000)]
        queue = hosts[0].queue(1)
        for number in range(3):
            written = queue.submit(Opcode.WRITE, number, data=order(number))
            for host in hosts:
                host.keep_alive()
            queue.done(written)
        for host in hosts:
            self.assertEqual(host.get_property(CSTS), 1)


class Descriptors(unittest.TestCase):
    """A program that has no descriptor for one more connection."""

    def test_it_waits_without_work(self) -> None:
        """The host that it has is served, and others are once there is a descriptor."""
        with tempfile.TemporaryDirectory() as folder:
            image = Path(folder) / "zoned.img"
            format_image(image)
            with Target(image, most_files=14) as program, Host(program.address) as host:
                more = [Connection(program.address) for _ in range(20)]
                host.keep_alive()
                before = program.processor_seconds()
                time.sleep(2)
                self.assertLess(program.processor_seconds() - before, 0.5)
                host.keep_alive()
                for connection in more:
                    connection.shut()
                self.assertEqual(host.queue(1).read(0, 1), bytes(512))
