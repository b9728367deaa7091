"""Tests of where a target listens, and what it says of that, and of where hosts come from. test_nvme_tcp.py runs them."""

from __future__ import annotations

import os
import re
import socket
import subprocess
import tempfile
import unittest
from contextlib import suppress
from pathlib import Path

from nvme_tcp_host import Host
from target import Target, format_image

NO_PLACES = (
    "127.0.0.1:+4420",
    "127.0.0.1:-1",
    "127.0.0.1: 4420",
    "127.0.0.1:4420 ",
    " 127.0.0.1:4420",
    "127.0.0.1:65536",
    "127.0.0.1:4294971716",
    "127.0.0.1:18446744073709551617",
    "127.0.0.1:004420",
    "127.0.0.1:0x10",
    "127.0.0.1:",
    "127.0.0.1",
    "127.1:4420",
    ":4420",
    "4420",
    "",
    "::1:4420",
    "[::1]",
    "[::1]:",
    "[::1]4420",
    "[::1:4420",
    "::1]:4420",
    "[]:4420",
    "[127.0.0.1]:4420",
    "[::1 ]:4420",
    "localhost:4420",
    "[" + "0" * 100 + "::1]:4420",
)
"""What is no ADDRESS:PORT."""


def has_six() -> bool:
    """Does this machine have IPv6?"""
    with suppress(OSError), socket.socket(socket.AF_INET6) as probe:
        probe.bind(("::1", 0))
        return True
    return False


class Listening(unittest.TestCase):
    """Each test has an image of its own."""

    def setUp(self) -> None:
        folder = tempfile.TemporaryDirectory()
        self.addCleanup(folder.cleanup)
        self.image = Path(folder.name) / "zoned.img"
        self.errors = self.image.with_name("errors")
        format_image(self.image)

    def test_what_is_no_address_is_refused(self) -> None:
        """Before the image is opened."""
        before = self.image.read_bytes()
        for place in NO_PLACES:
            with self.subTest(place):
                command = [os.environ["NVME_TCP_TARGET"], str(self.image), "--listen", place]
                ran = subprocess.run(command, capture_output=True, text=True, timeout=30, check=False)
                self.assertEqual((ran.returncode, ran.stdout), (2, ""))
                said = f"nvme_tcp: cannot listen at {place}: it is no ADDRESS:PORT, as 127.0.0.1:4420 or [::1]:4420\n"
                self.assertEqual(ran.stderr, said)
        self.assertEqual(self.image.read_bytes(), before)

    def test_a_place_that_is_taken_is_named(self) -> None:
        with socket.socket() as other:
            other.bind(("127.0.0.1", 0))
            place = f"127.0.0.1:{other.getsockname()[1]}"
            command = [os.environ["NVME_TCP_TARGET"], str(self.image), "--listen", place]
            ran = subprocess.run(command, capture_output=True, text=True, timeout=30, check=False)
        self.assertEqual((ran.returncode, ran.stderr), (1, f"nvme_tcp: cannot listen at {place}: Address already in use\n"))

    def assert_serves(self, listen: str, at: str, peer: str) -> None:
        """A target that listens at one address serves a host that goes to another, and says that it comes from a third."""
        with Target(self.image, words=["-v"], errors=self.errors, listen=f"{listen}:0") as target:
            self.assertEqual(target.address[0], listen.strip("[]"))
            address = at, target.address[1]
            with Host(address) as host:
                self.assertEqual(host.queue(1).read(0, 1), bytes(512))
            with socket.create_connection(address, 10) as other:
                port = other.getsockname()[1]
            with Host(address) as host:
                host.keep_alive()
            self.assertEqual(target.stop(), 0)
        begins = re.findall(r"^nvme_tcp: connection \d+ begins from (.*):(\d+)$", self.errors.read_text(), re.M)
        self.assertEqual([address for address, _ in begins], [peer] * 4)
        self.assertEqual(begins[2], (peer, str(port)))

    def test_an_address_of_ipv4(self) -> None:
        self.assert_serves("127.0.0.1", "127.0.0.1", "127.0.0.1")
        self.assert_serves("0.0.0.0", "127.0.0.1", "127.0.0.1")

    @unittest.skipUnless(has_six(), "this machine has no IPv6")
    def test_an_address_of_ipv6(self) -> None:
        """[::] is each address, also of IPv4."""
        self.assert_serves("[::1]", "::1", "[::1]")
        self.assert_serves("[::]", "::1", "[::1]")
        self.assert_serves("[::]", "127.0.0.1", "[::ffff:127.0.0.1]")


class Readiness(unittest.TestCase):
    """A service manager that waits until the target serves (sd_notify(3))."""

    def setUp(self) -> None:
        folder = tempfile.TemporaryDirectory()
        self.addCleanup(folder.cleanup)
        self.folder = Path(folder.name)
        self.image = self.folder / "zoned.img"
        format_image(self.image)

    def test_it_is_told_once_hosts_are_served(self) -> None:
        """By a socket with a file, and by one without."""
        for name in (str(self.folder / "notify"), f"@pifnjarl-{os.getpid()}"):
            with self.subTest(name), socket.socket(socket.AF_UNIX, socket.SOCK_DGRAM) as manager:
                manager.bind(name.replace("@", "\0", 1))
                manager.settimeout(10)
                with Target(self.image, variables={"NOTIFY_SOCKET": name}) as target:
                    self.assertEqual(manager.recv(100), b"READY=1")
                    with Host(target.address) as host:
                        host.keep_alive()
                    self.assertEqual(target.stop(), 0)
                manager.settimeout(0)
                self.assertRaises(BlockingIOError, manager.recv, 100)

    def test_one_that_is_gone_ends_nothing(self) -> None:
        for name in (str(self.folder / "nobody"), "/" + "n" * 200, ""):
            with self.subTest(name):
                errors = self.folder / "errors"
                with Target(self.image, variables={"NOTIFY_SOCKET": name}, errors=errors) as target, Host(target.address) as host:
                    host.keep_alive()
                    self.assertEqual(target.stop(), 0)
                self.assertRegex(errors.read_text(), f"^nvme_tcp: cannot report to {name}: .*\n$")
