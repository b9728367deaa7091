"""The zoned device as a disk of Linux, from Python: `Disk` has the methods of `pifnjarl.Device`, and sends each command through the kernel.

A target over NVMe/TCP (docs/nvme_tcp.md) gives Linux a block device `/dev/nvme0n1`, and beside it `/dev/ng0n1`, which takes any command of
the namespace by an ioctl. So programs are loaded and run, and questions asked, beside file systems and tools that know nothing of them:

    import pifnjarl_linux

    with pifnjarl_linux.Disk("/dev/ng0n1") as disk:
        print(disk.query(1024, "orders.layout", "region == 3", sum="price"))

It wants Linux 5.13 or later, and root. Commands are done one after another: a method that ends in `_async` returns when its command is
done, and `run` when the run has ended. A disk has no image that could be saved, and faults of zones can't be made. Other hosts may use the
same namespace: two that ask questions at a time want slots of their own, as `query(.., slots=[7])` names one, and zones.
"""

from __future__ import annotations

import ctypes
import fcntl
import os
import struct
from typing import Optional, Tuple

import pifnjarl
from pifnjarl import Commands, DeviceError, FilePath, Geometry, Refused, Result, Run

# ---- the ioctls of linux/nvme_ioctl.h

# opcode, namespace, address of the data, its bytes, dwords 10 to 15, the timeout in milliseconds, and dwords 0 and 1 of the completion
_PASSED = struct.Struct("=Bx2xI8x8xQ4xI24sI4xQ")


def _request(number: int, size: int) -> int:
    """The number of an ioctl of NVMe, which takes and gives so many bytes (include/uapi/asm-generic/ioctl.h).

    >>> hex(_request(0x48, _PASSED.size)), hex(_request(0x40, 0))
    ('0xc0504e48', '0x4e40')
    """
    return (3 << 30 if size else 0) | size << 16 | ord("N") << 8 | number


ID = _request(0x40, 0)
"""NVME_IOCTL_ID: which namespace it is."""

ADMIN = _request(0x47, _PASSED.size)
"""NVME_IOCTL_ADMIN64_CMD: a command to the admin queue."""

IO = _request(0x48, _PASSED.size)
"""NVME_IOCTL_IO64_CMD: a command to an I/O queue."""

IDENTIFY = 0x06
"""The admin command that asks what a namespace is (NVMe Base 2.0, 5.17)."""

_NAMESPACE = 1
_NO_LIMIT = 2**32 - 1


class Disk(Commands):
    """A namespace of Linux."""

    _is_shared = True

    def __init__(self, path: FilePath, *, timeout: float = 600.0, program: Optional[FilePath] = None) -> None:
        """Opens it, as `/dev/ng0n1`. A command may take so many seconds: without a limit of its own Linux waits 30 s, and connects again.
        `program` is `zscli`, which makes the programs of questions.

        >>> Disk("/dev/null")
        Traceback (most recent call last):
        pifnjarl.DeviceError: /dev/null: Inappropriate ioctl for device; name a namespace's character device, as /dev/ng0n1
        """
        super().__init__(program, queue=0)
        self._path, self._timeout = os.fspath(path), timeout
        try:
            self._file: Optional[int] = os.open(path, os.O_RDWR)
        except OSError as error:
            raise self._failure(error) from None
        try:
            self.geometry = self._geometry()
        except BaseException:
            self.shut()
            raise

    def __enter__(self) -> Disk:
        return self

    def __exit__(self, *_: object) -> None:
        self.shut()

    def shut(self) -> None:
        """Closes it. Does nothing where it is closed."""
        if self._file is not None:
            os.close(self._file)
            self._file = None

    def run(self, slot: int, lba: int, blocks: int, to: int, argument: int = 0) -> Run:
        """Run: the program of a slot over written blocks from an LBA on, into an open zone. The run has ended when this returns."""
        completion = self._completion_of(self._submit_run(slot, lba, blocks, to, argument))
        run = Run(self, 0, blocks, slot, self._loaded.get(slot))
        run._result = Result(completion.dword0, completion.dword1)
        self._ended[slot] = run
        return run

    # ---- commands

    def _geometry(self) -> Geometry:
        """The numbers of the namespace, as Identify gives them (NVM Command Set 1.0, 4.1.5.1; ZNS 1.1, 4.1.5.1), and a report."""
        namespace = self._ioctl(ID, bytearray())
        if namespace != _NAMESPACE:
            raise DeviceError(f"{self._path}: namespace {namespace}; a device of this project has namespace 1 alone")
        common, zoned = self._identify(0x00, 0), self._identify(0x05, 2)
        form = common[26] & 0xF
        block = 1 << common[128 + 4 * form + 2]
        blocks, zone_size = int.from_bytes(common[:8], "little"), int.from_bytes(zoned[2816 + 16 * form :][:8], "little")
        if zone_size == 0:
            raise DeviceError(f"{self._path}: the namespace has no zones")
        zones = blocks // zone_size
        most_active, most_open = (zones if most == _NO_LIMIT else most + 1 for most in struct.unpack_from("<II", zoned, 4))
        self.geometry = Geometry(block, zones, zone_size, zone_size, most_open, most_active)
        return self.geometry._replace(zone_capacity=self.report()[0].capacity)

    def _identify(self, structure: int, command_set: int) -> bytes:
        """Identify: a structure (CNS) of the namespace, of a command set (CSI)."""
        status, _, data = self._passed(ADMIN, IDENTIFY, struct.pack("<II16x", structure, command_set << 24), bytes(4096))
        if status:
            raise DeviceError(f"{self._path}: Identify was refused, with status {status & 0x7FF:X}h; is it a zoned namespace?")
        return data

    def _submit(self, opcode: pifnjarl._Opcode, *dwords: int, data: bytes = b"") -> pifnjarl._Asked:
        """Does a command, which is answered at once."""
        asked = pifnjarl._Asked(pifnjarl._words(opcode, *dwords))
        entry = pifnjarl._entry(opcode, 0, *dwords)
        status, result, given = self._passed(IO, opcode, entry[40:], data or bytes(self._room(opcode, *dwords)))
        completion = pifnjarl._Completion(result & 0xFFFFFFFF, result >> 32, 0, 0, (status >> 8 & 7, status & 255), given)
        asked.end(pifnjarl._Frame(pifnjarl._Answer.COMPLETION, 0, 0, completion))
        if isinstance(asked.refusal, Refused):
            # Linux chooses the queue and the identifier, and doesn't say which
            asked.refusal.command = asked.words
        return asked

    def _room(self, opcode: pifnjarl._Opcode, _: int, dword12: int = 0, *others: int) -> int:
        """How many bytes a command gives."""
        if opcode == pifnjarl._Opcode.READ:
            return (dword12 + 1) * self.geometry.block
        if opcode == pifnjarl._Opcode.ZONE_MANAGEMENT_RECEIVE:
            return (dword12 + 1) * 4
        return 1024 if opcode == pifnjarl._Opcode.RESULT else 0

    def _answer_of(self, asked: pifnjarl._Asked) -> pifnjarl._Frame:
        if asked.refusal is not None:
            raise asked.refusal
        assert asked.answer is not None
        return asked.answer

    def _has_come(self, asked: pifnjarl._Asked) -> bool:
        return True

    def _passed(self, request: int, opcode: int, dwords10_15: bytes, data: bytes) -> Tuple[int, int, bytes]:
        """Passes a command on, with data or room for it: the status with its type, dwords 0 and 1 of the completion, and the data that
        came, or that went. Whether data goes or comes is in the opcode's lowest bit."""
        room = ctypes.create_string_buffer(data, len(data)) if data else None
        address = 0 if room is None else ctypes.addressof(room)
        command = bytearray(_PASSED.pack(opcode, _NAMESPACE, address, len(data), dwords10_15, int(1000 * self._timeout), 0))
        status = self._ioctl(request, command)
        return status, _PASSED.unpack(command)[-1], b"" if room is None or opcode & 1 else room.raw

    def _ioctl(self, request: int, command: bytearray) -> int:
        """Asks the kernel."""
        if self._file is None:
            raise DeviceError("the device is shut")
        try:
            return fcntl.ioctl(self._file, request, command, True)
        except OSError as error:
            raise self._failure(error) from None

    def _failure(self, error: OSError) -> DeviceError:
        """Why the kernel did nothing."""
        advice = "be root" if isinstance(error, PermissionError) else "name a namespace's character device, as /dev/ng0n1"
        return DeviceError(f"{self._path}: {error.strerror}; {advice}")
