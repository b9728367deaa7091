"""How filters are judged and run: by the program `zscli`, which the variable ZSCLI names, or else that of this repository.

`Device` is one `zscli serve`, which takes Loads and Runs. `judged_by_profile_3` is one `zscli exec`, which takes a Load of each
program. `traced` is one `zscli trace`, a block run with every check.
"""

from __future__ import annotations

import os
import re
import struct
import subprocess
import sys
from pathlib import Path
from typing import List, NamedTuple, Optional, Sequence

from blocks import BLOCK
from filters import Left, Run
from slots import SCRATCH, with_scratch_loaded

HERE = Path(__file__).resolve().parent
ROOT = HERE.parents[1]
sys.path.insert(0, str(ROOT / "python"))
import pifnjarl

# the blocks of a zone: the first zone is a run's source, the second its destination
_ZONE = 256


class Program(NamedTuple):
    """A program, and the most bytes that it may emit for a block."""

    code: bytes
    limit: int


class Refusal(NamedTuple):
    """The slot for which a program is refused, and the number of the reason."""

    slot: int
    reason: int


class Seen(NamedTuple):
    """What a device says of a run and has after it: how many turns and records, the blocks that were appended, and scratch."""

    turns: int
    records: int
    appended: bytes
    scratch: bytes


class Traced(NamedTuple):
    """What a block run leaves: R0, the group and scratch."""

    r0: int
    group: bytes
    scratch: bytes


def zscli() -> str:
    """The program."""
    return pifnjarl.zscli(os.environ.get("ZSCLI") or None)


def code_of(kind: str, name: str) -> bytes:
    """The bytes of a program that is kept: one slot a line, in hexadecimal.

    >>> code_of("refused", "unbounded")[:8].hex()
    '6921000000000000'
    """
    return bytes.fromhex((HERE / "programs" / kind / f"{name}.hex").read_text())


def limit_of(source: str) -> int:
    """The most bytes that a filter may emit for a block, as the comment of its C says.

    >>> limit_of("filter.c")
    66
    """
    found = re.search(r"(?m)^   Emit: +(\d+)", (ROOT / "examples" / source).read_text())
    assert found, source
    return int(found[1])


def group_of(records: Sequence[bytes]) -> bytes:
    """The group of records: each with its length in 2 bytes before it.

    >>> group_of([b"hi", b"!"])
    b'\\x02\\x00hi\\x01\\x00!'
    """
    return b"".join(len(record).to_bytes(2, "little") + record for record in records)


def expected(left: Left) -> Seen:
    """What a device has to say and have. A group goes whole into one block.

    >>> seen = expected(Left([[bytes(300)], [bytes(300)], []], b"+"))
    >>> seen.turns, seen.records, len(seen.appended), seen.scratch[:2]
    (3, 2, 1024, b'+\\x00')
    """
    appended = b""
    for group in map(group_of, left.groups):
        if len(group) > -len(appended) % BLOCK:
            appended += bytes(-len(appended) % BLOCK)
        appended += group
    appended += bytes(-len(appended) % BLOCK)
    return Seen(len(left.groups), sum(map(len, left.groups)), appended, left.scratch.ljust(SCRATCH, b"\0"))


def _formatted(image: Path) -> Path:
    """An image of two Empty zones."""
    pifnjarl.format_image(image, block=BLOCK, zones=2, zone_size=_ZONE, program=zscli())
    return image


class Device:
    """A device with one program in it, for runs one after another."""

    def __init__(self, folder: Path) -> None:
        self._device = pifnjarl.Device(_formatted(folder / "served.img"), program=zscli())

    def shut(self) -> None:
        """Ends the program that serves the device."""
        self._device.shut()

    def load(self, program: Program) -> Optional[Refusal]:
        """Loads a program, which is judged by profile 2: None where it is accepted."""
        try:
            self._device.load(0, program.code, program.limit)
        except pifnjarl.ProgramRefused as refused:
            return Refusal(refused.slot, refused.reason)
        return None

    def run(self, run: Run) -> Seen:
        """Runs the program that was loaded last."""
        device = self._device
        device.reset(0)
        device.reset(_ZONE)
        device.append(0, bytes(BLOCK * run.first) + b"".join(run.blocks))
        device.open(_ZONE)
        begun = device.run(0, run.first, len(run.blocks), to=_ZONE, argument=run.argument)
        turns = device.drain()
        records, blocks = begun.wait()
        return Seen(turns, records, device.read(_ZONE, blocks) if blocks else b"", device.result(0))


def judged_by_profile_3(programs: Sequence[Program], folder: Path) -> List[Optional[Refusal]]:
    """What a Load of each program comes to by profile 3: None where it is accepted."""
    words = []
    for index, program in enumerate(programs):
        (folder / f"{index}.bin").write_bytes(program.code)
        words.append(f"load --slot 0 --program {folder / str(index)}.bin --emit {program.limit}\n")
    (folder / "words").write_text("".join(words))
    (folder / "loads.cmd").write_text(_printed("entries", folder / "words"))
    lines = _printed("exec", _formatted(folder / "judged.img"), folder / "loads.cmd", "--profile", "3").splitlines()
    return [_verdict(line) for line in lines]


def _verdict(line: str) -> Optional[Refusal]:
    """What the completion of a Load says.

    >>> _verdict("cpl 1 00000000000000000000010001000000")
    >>> _verdict("cpl 1 280000000a000000000001000200840f")
    Refusal(slot=40, reason=10)
    """
    found = re.fullmatch(r"cpl 1 ([0-9a-f]{32})", line)
    if not found:
        raise ValueError(f"not the completion of a Load: {line}")
    slot, reason, status = struct.unpack("<II6xH", bytes.fromhex(found[1]))
    if status and (status >> 9 & 7, status >> 1 & 255) != (pifnjarl.ProgramRefused.type, pifnjarl.ProgramRefused.code):
        raise ValueError(f"neither accepted nor refused: {line}")
    return Refusal(slot, reason) if status else None


def traced(program: Program, block: bytes, folder: Path) -> Traced:
    """What a program leaves of one block, where every check is made."""
    (folder / "traced.bin").write_bytes(with_scratch_loaded(program.code))
    (folder / "traced.block").write_bytes(block)
    printed = _printed("trace", folder / "traced.bin", folder / "traced.block", "--emit", program.limit, "--registers")
    *steps, end = printed.splitlines()
    # the last step is EXIT, and those before it load scratch
    words = [int(step.split(" r2 = ")[1], 16) for step in steps[-1 - SCRATCH // 8 : -1]]
    word, r0, _, group = end.split()
    if word != "exit":
        raise ValueError(end)
    return Traced(int(r0), bytes.fromhex(group.strip("-")), struct.pack("<128Q", *words))


def _printed(*words: object) -> str:
    """What `zscli` prints where it succeeds."""
    return subprocess.run([zscli(), *map(str, words)], stdout=subprocess.PIPE, check=True, text=True).stdout
