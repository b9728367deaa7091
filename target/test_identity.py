"""Tests of what hosts know a target by. test_nvme_tcp.py runs them."""

from __future__ import annotations

import re
import tempfile
import unittest
import uuid
from pathlib import Path

from nvme_tcp_connection import Refused
from nvme_tcp_host import Host
from target import Target, format_image, uuid_file


class Identity(unittest.TestCase):
    """Names that come of the UUID beside an image."""

    def setUp(self) -> None:
        folder = tempfile.TemporaryDirectory()
        self.addCleanup(folder.cleanup)
        self.images = [Path(folder.name) / name for name in ("one.img", "other.img")]
        for image in self.images:
            format_image(image)
            uuid_file(image).unlink()

    def test_images_have_names_of_their_own(self) -> None:
        """They are made of a random UUID, and stay."""
        names = []
        for image in self.images * 2:
            with Target(image) as program, Host(program.address, subsystem=program.nqn) as host:
                controller = host.identify(0x01)
                nguid = host.identify(0x03, namespace=1)[4:20]
                self.assertEqual(host.identify(0x00, namespace=1)[104:120], nguid)
                names.append((program.nqn, controller[4:24], nguid))
            kept = uuid.UUID(re.fullmatch("([0-9a-f-]{36})\n", uuid_file(image).read_text()).group(1))
            self.assertEqual((kept.version, names[-1]), (4, (f"nqn.2014-08.org.nvmexpress:uuid:{kept}", kept.hex[:20].encode(), kept.bytes)))
        self.assertEqual(names[:2], names[2:])
        for one, other in zip(*names[:2]):
            self.assertNotEqual(one, other)

    def test_a_host_names_the_subsystem(self) -> None:
        """Another's name is refused."""
        with Target(self.images[0]) as program:
            with self.assertRaises(Refused) as caught:
                Host(program.address)
            self.assertEqual((caught.exception.completion.status, caught.exception.completion.dword0), (0x182, 0x1_0100))
            Host(program.address, subsystem=program.nqn).shut()

    def test_several_controllers_share_the_namespace(self) -> None:
        """CMIC and NMIC say so."""
        with Target(self.images[0]) as program, Host(program.address, subsystem=program.nqn) as host:
            self.assertEqual((host.identify(0x01)[76], host.identify(0x00, namespace=1)[30]), (2, 1))

    def test_a_file_that_has_no_uuid_is_refused(self) -> None:
        """And stays as it is."""
        for text in ("", "0" * 36 + "\n", "0f2b6a34-8c1d-4e7a-9b35-7a6f6e6a6172", "0f2b6a34-8c1d-4e7a-9b35-7a6f6e6a617g\n"):
            uuid_file(self.images[0]).write_text(text)
            self.assertRaises(AssertionError, Target, self.images[0], is_quiet=True)
            self.assertEqual(uuid_file(self.images[0]).read_text(), text)
