"""The target as a program, over an image of its own, for tests.

The variable `NVME_TCP_TARGET` names the program, which target/nvme_tcp.c makes, and `ZSCLI` the one that makes the image.
"""

from __future__ import annotations

import os
import resource
import signal
import subprocess
import tempfile
import unittest
from contextlib import ExitStack, contextmanager
from functools import partial
from pathlib import Path
from typing import Callable, ClassVar, Dict, Iterator, Optional, Sequence, Union

from nvme_tcp_connection import Address, Completion, Refused
from nvme_tcp_host import Host

BLOCK, ZONES, ZONE_SIZE = 512, 4, 16
"""The numbers of the image where nothing else is said."""

EMITS_NOTHING = bytes.fromhex("b700000000000000" "9500000000000000")
"""A program: R0 = 0, exit."""

FILTER = bytes.fromhex(
    "6126080000000000"  # ldxw r6, [r2+8]
    "6117140000000000"  # ldxw r7, [r1+20]
    "5d76030000000000"  # jne r6, r7, end
    "bf21000000000000"  # mov r1, r2
    "b702000040000000"  # mov r2, 64
    "8500000001000000"  # call 1
    "b700000000000000"  # end: mov r0, 0
    "9500000000000000"  # exit
)
"""A program that emits the first 64 bytes of each block whose number in bytes 8 to 11 is the run's argument."""


UUID = "0f2b6a34-8c1d-4e7a-9b35-7a6f6e6a6172"
"""The UUID of an image whose target has the name `SUBSYSTEM_NQN`."""


def format_image(
    image: Path, block: int = BLOCK, zones: int = ZONES, zone_size: int = ZONE_SIZE, most_open: int = 0, most_active: int = 0
) -> None:
    """Makes an image of Empty zones, all blocks of which can be written; all can be open, and active, where no other number is said. Its
    UUID is `UUID`."""
    active = most_active or zones
    numbers = {"block": block, "zones": zones, "size": zone_size, "capacity": zone_size, "open": most_open or active, "active": active}
    options = [word for name, number in numbers.items() for word in (f"--{name}", str(number))]
    subprocess.run([os.environ["ZSCLI"], "format", str(image), *options], check=True, stdout=subprocess.DEVNULL)
    uuid_file(image).write_text(UUID + "\n")


def uuid_file(image: Path) -> Path:
    """The file beside an image that has its UUID."""
    return image.with_name(image.name + ".uuid")


def _prepare(most_bytes: Optional[int], most_files: Optional[int]) -> None:
    """Has SIGHUP come, also where these tests are kept from it; and each write fail that makes a file longer than so many bytes, and each
    call that opens one more file than so many."""
    signal.signal(signal.SIGHUP, signal.SIG_DFL)
    if most_bytes is not None:
        signal.signal(signal.SIGXFSZ, signal.SIG_IGN)
        resource.setrlimit(resource.RLIMIT_FSIZE, (most_bytes, most_bytes))
    if most_files is not None:
        resource.setrlimit(resource.RLIMIT_NOFILE, (most_files, most_files))


class Target:
    """A target that has started: `address` is where it listens, and `nqn` the name of its subsystem."""

    def __init__(
        self,
        image: Path,
        *,
        is_quiet: bool = False,
        is_durable: bool = False,
        most_bytes: Optional[int] = None,
        words: Optional[Sequence[str]] = None,
        most_files: Optional[int] = None,
        variables: Optional[Dict[str, str]] = None,
        errors: Union[Path, int, None] = None,
        listen: str = "127.0.0.1:0",
    ) -> None:
        """Starts the program on an image, in memory or durable, or with other words, at an address and a port, which is any free one where it
        is 0; what it says on standard error is shown unless it is quiet. Where most bytes are told, no file that it writes may have more;
        where most files are, it has no descriptor of a higher number. Its environment has these variables too. Where a file is named for
        it, or a descriptor, what it says on standard error goes there."""
        if words is None:
            words = [] if is_durable else ["--memory"]
        said = open(errors, "w", closefd=not isinstance(errors, int)) if errors is not None else None
        command = [os.environ["NVME_TCP_TARGET"], str(image), "--listen", listen, *words]
        self._program = subprocess.Popen(
            command,
            stdout=subprocess.PIPE,
            stderr=subprocess.DEVNULL if is_quiet else said,
            text=True,
            preexec_fn=partial(_prepare, most_bytes, most_files),
            env={**os.environ, **(variables or {})},
        )
        if said is not None:
            said.close()
        self.address = self._address()
        assert self._program.stdout is not None
        self.nqn = self._program.stdout.readline().rstrip("\n")

    def __enter__(self) -> Target:
        return self

    def __exit__(self, *failure: object) -> None:
        self.stop()

    @property
    def runs(self) -> bool:
        """Does the program still run?"""
        return self._program.poll() is None

    def resident_bytes(self) -> int:
        """How much memory the program has, as Linux tells it."""
        status = Path(f"/proc/{self._program.pid}/status").read_text()
        return 1024 * int(status.partition("VmRSS:")[2].split()[0])

    def processor_seconds(self) -> float:
        """How much of the processor's time the program took, as Linux tells it."""
        fields = Path(f"/proc/{self._program.pid}/stat").read_text().rpartition(")")[2].split()
        return (int(fields[11]) + int(fields[12])) / os.sysconf("SC_CLK_TCK")

    def send(self, which: signal.Signals) -> None:
        """Sends the program a signal."""
        self._program.send_signal(which)

    def stop(self, by: signal.Signals = signal.SIGTERM) -> int:
        """Ends the program by a signal, and gives its exit status. Does nothing more where it has ended."""
        if self.runs:
            self._program.send_signal(by)
        status = self._program.wait(timeout=30)
        assert self._program.stdout is not None
        self._program.stdout.close()
        return status

    def wait(self) -> int:
        """Waits until the program has ended by itself, and gives its exit status."""
        self._program.wait(timeout=30)
        return self.stop()

    def _address(self) -> Address:
        """Where it listens, as its first line says."""
        assert self._program.stdout is not None
        line = self._program.stdout.readline()
        said, _, place = line.rstrip("\n").rpartition(" ")
        if said != "listening on":
            raise AssertionError(f"the target prints {line!r}, and ended with {self.stop()}")
        name, _, port = place.rpartition(":")
        return name.strip("[]"), int(port)


@contextmanager
def started(**geometry: int) -> Iterator[Target]:
    """A target over a new image, which is removed at the end; it has to end with status 0."""
    with tempfile.TemporaryDirectory() as folder:
        image = Path(folder) / "zoned.img"
        format_image(image, **geometry)
        with Target(image) as target:
            yield target
            status = target.stop()
            if status:
                raise AssertionError(f"the target ended with {status}")


def little(value: int, size: int) -> bytes:
    """A number of so many bytes."""
    return value.to_bytes(size, "little")


def order(region: int) -> bytes:
    """A block of 512 bytes with a region in bytes 8 to 11."""
    return (b"an order" + little(region, 4)).ljust(512, b".")


@contextmanager
def example() -> Iterator[Host]:
    """A host of a target over a new image of four zones of 16 blocks of 512 bytes, for examples."""
    with started() as target, Host(target.address) as host:
        yield host


class Over(unittest.TestCase):
    """Each test has a target of its own, with a host that has controller 1 and its I/O queue 1."""

    geometry: ClassVar[Dict[str, int]] = {}

    def setUp(self) -> None:
        stack = ExitStack()
        self.addCleanup(stack.close)
        self.target = stack.enter_context(started(**self.geometry))
        self.host = stack.enter_context(Host(self.target.address))
        self.queue = self.host.queue(1)

    def assert_refused(self, status: int, call: Callable[..., object], *words: object) -> Completion:
        """Checks that a command is refused by a status, and gives its completion."""
        with self.assertRaises(Refused) as caught:
            call(*words)
        completion = caught.exception.completion
        self.assertEqual((f"{completion.status:03X}h", completion.do_not_retry), (f"{status:03X}h", status != 0x181))
        return completion

    def fence(self) -> None:
        """Waits until the target has read all that was sent to it, on whatever connection: a round of it lies between two answers."""
        self.host.keep_alive()
        self.host.keep_alive()
