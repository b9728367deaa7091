#!/usr/bin/env python3
"""Compares random filters as clang makes them with the programs that `zscli link` makes of them.

Of each seed there is a file of C (`generate.py`). clang compiles it, and the object is interpreted as it is (`interpret.py`) over
random blocks. `zscli link` makes a program of the same object, which a device is given and runs over the same blocks. What comes out
is of one of these kinds:

    same        both leave the same: the frames of each block, R0, and scratch
    refused     `link` makes no program, and says why
    unaccepted  it makes one that the device refuses
    guard       a guard that `link` told of ended the run, and up to there both are the same, but for the 16 bytes that it wrote
    untold      a guard that it did not tell of ended the run
    differs     they differ in another way
    traps       the object itself does what can't be done, or doesn't end
    undefined   what the object leaves rests on bytes or registers that nothing has set
    device      the device and the interpreter differ over the program that was linked

    compare.py --count 2000 --seed 1 --jobs 1 [--reduce 3] [--cpus v2,v3]

prints how many there are of each, and each seed that is one of `untold`, `differs`, `unaccepted` and `device`; with `--reduce` as
many of each kind as smaller programs. The last line is 'N passed, M failed'. ZSCLI names the program, or else it is that of this
repository.
"""

from __future__ import annotations

import argparse
import re
import resource
import signal
import struct
import subprocess
import sys
import tempfile
from collections import Counter
from concurrent.futures import ProcessPoolExecutor
from pathlib import Path
from typing import Dict, List, NamedTuple, Optional, Sequence

from generate import ROOT, Drawn, Flags, NotCompiled, compiled, drawn
from interpret import LIMIT, Left, Machine, Parameters, rests_on_nothing
from layout import Code, of_object, of_slots
from object_file import BadObject
from reduce import Reducer

sys.path.insert(0, str(ROOT / "tests/filters"))
import device
import filters

GUARDS = range(0x7001, 0x7005)
"""R0 where a guard ended the run."""

BAD = ("untold", "differs", "device", "unaccepted")
"""The kinds that a test may not come to. What the device refuses is one: `link` is to refuse it itself."""

_SECONDS = 3
_TRIES = 1000


def _limit() -> None:
    """Gives a process so many seconds of a processor."""
    resource.setrlimit(resource.RLIMIT_CPU, (_SECONDS, _SECONDS + 1))


class Result(NamedTuple):
    """What came of a program: its kind, and what is said of it."""

    kind: str
    told: str = ""

    @property
    def signature(self) -> str:
        """What stays the same while a program gets smaller: the kind, and what is said without numbers of places."""
        return f"{self.kind} {re.sub(r'[0-9]+', 'N', re.sub(r'70+[0-9]h', lambda it: chr(96 + int(it[0][-2])), self.told))}"


class Linked(NamedTuple):
    """What `zscli link` printed, and the program, where it made one, with the byte of scratch from which on its guards write, if they
    do, and their slots, by their numbers."""

    program: Optional[bytes]
    told: str
    mark: Optional[int] = None
    guards: Dict[int, int] = {}


def linked(program: bytes, told: str, notes: str) -> Linked:
    """What `zscli link` made, with the notes that it wrote beside the program.

    >>> linked(b"", "", "linked 1\\nblock 512\\nprofile 2\\nguard-at 1008\\nguard 1 slot 37 filter.c:12 in filter: no byte\\n")[2:]
    (1008, {1: 37})
    """
    mark, guards = None, {}
    for line in notes.splitlines():
        words = line.split()
        if words[0] == "guard-at":
            mark = int(words[1])
        elif words[0] == "guard":
            guards[int(words[1])] = int(words[3])
    return Linked(program, told, mark, guards)


class Comparer:
    """Compares programs, with a folder and a device of its own."""

    def __init__(self, folder: Path, words: Sequence[str] = ()) -> None:
        self._folder = folder
        self._words = list(words)
        self._device = device.Device(folder)

    def shut(self) -> None:
        """Ends the device."""
        self._device.shut()

    def link(self, data: bytes) -> Linked:
        """The program of an object."""
        file, made = self._folder / "filter.o", self._folder / "filter.bin"
        file.write_bytes(data)
        made.unlink(missing_ok=True)
        words = [device.zscli(), "link", str(file), "--block", "512", "-o", str(made), *self._words]
        done = subprocess.run(words, stdout=subprocess.PIPE, stderr=subprocess.PIPE, text=True, preexec_fn=_limit)
        if done.returncode == -signal.SIGXCPU:
            return Linked(None, f"link refused: not done after {_SECONDS} seconds")
        told = done.stdout + done.stderr
        if done.returncode not in (0, 3):
            raise RuntimeError(f"zscli link: status {done.returncode}: {told}")
        if not made.exists():
            return Linked(None, told)
        return linked(made.read_bytes(), told, (self._folder / "filter.bin.linked").read_text())

    def result(self, source: str, flags: Flags, parameters: Parameters) -> Result:
        """What comes of a file of C."""
        try:
            data = compiled(source, flags)
            code = of_object(data)
        except NotCompiled as told:
            return Result("uncompiled", str(told).splitlines()[0])
        except BadObject as told:
            return Result("uncompiled", str(told))
        left = Machine(code).run(parameters)
        if left.blocks[-1].r0 is None:
            return Result("traps", left.blocks[-1].trap)
        return self._against(code, left, self.link(data), parameters)

    def _against(self, code: Code, left: Left, linked: Linked, parameters: Parameters) -> Result:
        """Compares what the object leaves with what the program of it does."""
        if linked.program is None:
            return Result("refused", reason_of(linked.told))
        refusal = self._device.load(device.Program(linked.program, LIMIT))
        if refusal:
            return Result("unaccepted", f"reason {refusal.reason}")
        other = Machine(of_slots(linked.program)).run(parameters)
        seen = self._device.run(filters.Run(parameters.blocks, parameters.argument, parameters.first))
        if seen != device.expected(filters.Left([it.frames for it in other.blocks], other.scratch)):
            return Result("device", "the device and the interpreter differ")
        result = compared(left, other, linked.told)
        if result.kind in ("guard", "untold"):
            if not is_marked(linked, other):
                result = Result("differs", f"what a guard wrote, {result.told}")
            elif not was_on_the_way(code, parameters, other, linked.mark):
                result = Result("differs", f"scratch, before {result.told}")
        if result.kind in BAD and code.words:
            result = result._replace(told=f"{result.told}, where data has addresses")
        if result.kind != "same" and not rests_on_nothing(code, parameters, left):
            return Result("undefined")
        return result


def reason_of(told: str) -> str:
    """Why no program was made, without the place and without numbers.

    >>> reason_of("link refused: crc.c, line 22, in crc: a loop that isn't known to be over after 309 rounds; give it\\n")
    "a loop that isn't known to be over after N rounds"
    >>> reason_of("link refused: filter, slot 3: an address of data that can be changed; call functions\\n")
    'an address of data that can be changed'
    """
    line = next((it for it in told.splitlines() if "refused" in it), told)
    line = re.sub(r"^link refused: (.*?(line \d+, in [^:]*|slot \d+): )?", "", line).split(";")[0]
    return re.sub(r"\d+", "N", line)


def is_told(told: str, r0: int) -> bool:
    """Did `link` tell of the guard that ends with this R0? Of loops that are cut it says how many rounds there is room for.

    >>> is_told("there is room for 30 rounds of a loop: a block that needs more ends its run with R0 = 7004h", 0x7004)
    True
    """
    return "guard" in told or (f"{r0:x}h" in told and "room for" in told)


def compared(left: Left, other: Left, told: str) -> Result:
    """Compares what an object leaves with what a program leaves.

    Where a guard ended the run, the frames of its block are those that the object begins with, and scratch isn't looked at here.
    """
    last = other.blocks[-1].r0
    assert last is not None, "an accepted program traps"
    for index, (mine, others) in enumerate(zip(left.blocks, other.blocks)):
        if mine[:2] == others[:2]:
            continue
        if last not in GUARDS or others is not other.blocks[-1]:
            part = "frames" if mine.frames != others.frames else f"R0, {mine.r0:#x} and {others.r0:#x},"
            return Result("differs", f"the {part} of block {index}")
        if others.frames != mine.frames[: len(others.frames)]:
            return Result("differs", f"the frames of block {index}, which a guard ended")
        return Result("guard" if is_told(told, last) else "untold", f"guard {last:x}h in block {index}")
    if len(left.blocks) != len(other.blocks):
        return Result("differs", f"{len(left.blocks)} and {len(other.blocks)} blocks")
    if left.scratch != other.scratch:
        return Result("differs", "scratch")
    return Result("same")


def where(comparer: Comparer, made: Drawn, count: int = 8) -> str:
    """The last instructions of the program of a file of C, as `zscli disasm` shows them."""
    linked = comparer.link(compiled(made.source(), made.flags))
    if linked.program is None:
        return ""
    slots: List[int] = []
    Machine(of_slots(linked.program)).run(made.parameters, lambda slot, _: slots.append(slot))
    with tempfile.NamedTemporaryFile() as file:
        file.write(linked.program)
        file.flush()
        lines = subprocess.run([device.zscli(), "disasm", file.name, "--slots"], stdout=-1, text=True).stdout.splitlines()
    by_slot = {int(line.split()[0]): line for line in lines}
    return "\n".join(by_slot[slot] for slot in slots[-count:])


MARK = struct.Struct("<IIQ")
"""What a guard writes: its number, its slot, and the block's index in the run."""


def is_marked(made: Linked, other: Left) -> bool:
    """Did the guard that ended a run write which one it was, if it is to?"""
    if made.mark is None:
        return True
    number, slot, block = MARK.unpack_from(other.scratch, made.mark)
    return made.guards.get(number) == slot and block == len(other.blocks) - 1


def was_on_the_way(code: Code, parameters: Parameters, other: Left, mark: Optional[int]) -> bool:
    """Did an object have the scratch of a program, which a guard ended, at some step of the block in which it ended? What the guard
    wrote stands where nothing else is stored."""
    machine, last, found = Machine(code), len(other.blocks) - 1, False
    scratch = bytearray(other.scratch)
    if mark is not None:
        scratch[mark : mark + MARK.size] = bytes(MARK.size)

    def watch(_: int, registers: List[int]) -> None:
        nonlocal found
        found = found or (machine.block == last and machine.scratch == scratch)

    machine.run(Parameters(parameters.blocks[: last + 1], parameters.argument, parameters.first), watch)
    return found


# ---- many programs


class Given(NamedTuple):
    """What is asked for: the versions of the instruction set, words for `link`, how many programs of each kind are reduced, whether
    each is said at once, and which features no program has."""

    cpus: Sequence[str]
    words: Sequence[str]
    reduce: int
    says_each: bool = False
    without: Sequence[str] = ()


def results(seeds: Sequence[int], given: Given) -> Dict[int, Result]:
    """What comes of the programs of seeds; those to be reduced are printed."""
    found: Dict[int, Result] = {}
    reduced: Counter[str] = Counter()
    with tempfile.TemporaryDirectory() as folder:
        comparer = Comparer(Path(folder), given.words)
        try:
            for seed in seeds:
                made = drawn(seed, given.cpus, given.without)
                found[seed] = comparer.result(made.source(), made.flags, made.parameters)
                if given.says_each:
                    print(f"{seed} {found[seed].kind}: {found[seed].told}", file=sys.stderr, flush=True)
                if found[seed].kind in BAD and reduced[found[seed].signature] < given.reduce:
                    reduced[found[seed].signature] += 1
                    _show(comparer, made, found[seed])
        finally:
            comparer.shut()
    return found


def _show(comparer: Comparer, whole: Drawn, result: Result) -> None:
    """Prints a program with what came of it, made smaller."""

    def is_same(other: Drawn) -> bool:
        return comparer.result(other.source(), other.flags, other.parameters).signature == result.signature

    made = Reducer(whole, is_same, _TRIES).reduced()
    now = comparer.result(made.source(), made.flags, made.parameters)
    print(f"---- seed {made.seed}, {made.flags.cpu} {made.flags.level}: {result.kind}, {result.told}; reduced: {now.kind}, {now.told}")
    print(f"argument {made.parameters.argument}, first {made.parameters.first}, {len(made.parameters.blocks)} blocks")
    print(made.source() + where(comparer, made), flush=True)


def report(found: Dict[int, Result], given: Given) -> int:
    """Prints what came of programs, and says how many are bad."""
    kinds = Counter(it.kind for it in found.values())
    for kind, count in kinds.most_common():
        print(f"{count:6} {kind}")
        if kind not in ("same", "differs"):
            said = Counter(re.sub(r" in block \d+| at 0x\w+", "", it.told) for it in found.values() if it.kind == kind)
            for told, times in said.most_common(12):
                print(f"       {times:6} {told}")
    for seed in sorted(found):
        if found[seed].kind in BAD:
            flags = drawn(seed, given.cpus, given.without).flags
            print(f"seed {seed} {flags.cpu} {flags.level}: {found[seed].kind}, {found[seed].told}")
    return sum(kinds[kind] for kind in BAD)


def main(words: Sequence[str]) -> int:
    """Compares the programs of many seeds."""
    parser = argparse.ArgumentParser(description="compares random filters with the programs that link makes of them")
    parser.add_argument("--count", type=int, default=200)
    parser.add_argument("--seed", type=int, default=1)
    parser.add_argument("--jobs", type=int, default=1)
    parser.add_argument("--reduce", type=int, default=0, metavar="N")
    parser.add_argument("--cpus", default="v2,v3")
    parser.add_argument("--link", default="", metavar="WORDS", help="more words for zscli link")
    parser.add_argument("--without", default="", metavar="FEATURES", help="leave these out, as 'strings,two areas'")
    parser.add_argument("--each", action="store_true", help="say of each program at once what came of it, on standard error")
    parser.add_argument("--show", action="store_true", help="show the one program of --seed, reduced")
    asked = parser.parse_args(words)
    given = Given(asked.cpus.split(","), asked.link.split(), 1 if asked.show else asked.reduce, asked.each, asked.without.split(","))
    seeds = range(asked.seed, asked.seed + (1 if asked.show else asked.count))
    found: Dict[int, Result] = {}
    if asked.jobs == 1:
        found = results(seeds, given)
    else:
        with ProcessPoolExecutor(asked.jobs) as pool:
            for some in pool.map(results, [seeds[at :: asked.jobs] for at in range(asked.jobs)], [given] * asked.jobs):
                found.update(some)
    bad = report(found, given)
    print(f"{len(found) - bad} passed, {bad} failed", flush=True)
    return 1 if bad else 0


if __name__ == "__main__":
    sys.exit(main(sys.argv[1:]))
