#!/usr/bin/env python3
"""Tests of filters as clang makes them of the C of `examples/`, over the program that the variable ZSCLI names: by default the one
that the gate proves and builds.

The filters of `examples/` run on a device, and have to leave what a second implementation of each says. What those of
`examples/spills/` have to leave was worked out by hand. Those of `examples/refused/` are refused. `programs/` has the bytes of all:
`make check` in `examples/` compares them with what clang makes today.
"""

from __future__ import annotations

import doctest
import sys
import tempfile
import unittest
from pathlib import Path
from typing import Any, Callable, Dict, Iterable, List, Type

import blocks
import device
import filters
import scenes
import slots
import wrong
from blocks import BLOCK
from device import Program, Refusal

VERSIONS = ("v2", "v3")
"""The versions of the instruction set that clang made the filters of `examples/` for."""

REFUSED: Dict[str, Refusal] = {
    "argument": Refusal(slot=1, reason=6),
    "counts": Refusal(slot=3, reason=5),
    "last": Refusal(slot=3, reason=5),
    "range": Refusal(slot=6, reason=9),
    "signed": Refusal(slot=8, reason=9),
    "unbounded": Refusal(slot=2, reason=5),
}
"""The filters of `examples/refused/`, each with the first slot that fails and the number of its reason."""

OVER_LIMIT = 10
"""The number of the reason that more is emitted than the limit leaves."""


def examples_of(name: str) -> List[Program]:
    """A filter of `examples/`, for each version."""
    return [Program(device.code_of(version, name), device.limit_of(f"{name}.c")) for version in VERSIONS]


def spilling(name: str) -> Program:
    """A filter of `examples/spills/`."""
    return Program(device.code_of("spills", name), device.limit_of(f"spills/{name}.c"))


def for_each(names: Iterable[str]) -> Callable[[Type[Any]], Type[Any]]:
    """Gives a class of tests one for each name, by its method `check`."""

    def with_tests(tests: Type[Any]) -> Type[Any]:
        for name in names:
            setattr(tests, f"test_{name}", lambda self, name=name: self.check(name))
        return tests

    return with_tests


class OnDevice(unittest.TestCase):
    """Tests that have a folder and a device."""

    folder: Path
    served: device.Device

    @classmethod
    def setUpClass(cls) -> None:
        folder = tempfile.TemporaryDirectory()
        cls.addClassCleanup(folder.cleanup)
        cls.folder = Path(folder.name)
        cls.served = device.Device(cls.folder)
        cls.addClassCleanup(cls.served.shut)

    def check_limit(self, program: Program) -> None:
        """A program is accepted with its limit, and one that emits isn't with one byte less."""
        if program.limit > 0:
            refusal = self.served.load(program._replace(limit=program.limit - 1))
            self.assertEqual(refusal and refusal.reason, OVER_LIMIT)
        self.assertIsNone(self.served.load(program))


@for_each(filters.FILTERS)
class Examples(OnDevice):
    """The filters of `examples/`."""

    def check(self, name: str) -> None:
        """A filter leaves what its second implementation says, and no wrong one."""
        runs = blocks.runs(name)
        left = [says(filters.FILTERS[name], run) for run in runs]
        for program in examples_of(name):
            self.check_limit(program)
            for run, right in zip(runs, left):
                self.assertEqual(self.served.run(run), right)
        for line, implementation in wrong.implementations(name):
            self.assertTrue(any(says(implementation, run) != right for run, right in zip(runs, left)), f"not noticed: {line}")


def says(implementation: wrong.Implementation, run: filters.Run) -> object:
    """What a device has to say and have by an implementation; or how it fails, as some that are wrong do."""
    try:
        return device.expected(implementation(run))
    except Exception as failure:
        return failure


@for_each(scenes.SCENES)
class Spills(OnDevice):
    """The filters of `examples/spills/`."""

    def check(self, name: str) -> None:
        """A filter leaves of each block what was worked out, on a device and with every check."""
        program = spilling(name)
        self.check_limit(program)
        for scene in scenes.SCENES[name]:
            self.assertIsNone(self.served.load(scene.for_device(program)))
            self.assertEqual(self.served.run(scene.run()), scene.seen(), scene)
            traced = device.traced(scene.for_trace(program), scene.bytes_of_block, self.folder)
            self.assertEqual(traced, scene.traced(), scene)


class Verdicts(OnDevice):
    """What Loads come to by both profiles. That profile 2 accepts what is accepted, the other tests show."""

    def test_each_has_a_test(self) -> None:
        """The names are those of the files of C, and of the programs that are kept."""
        kept, sources = device.HERE / "programs", device.ROOT / "examples"
        for program, source, names in (
            ("v2", "", filters.FILTERS),
            ("v3", "", filters.FILTERS),
            ("spills", "spills", scenes.SCENES),
            ("refused", "refused", REFUSED),
        ):
            for files in ((sources / source).glob("*.c"), (kept / program).glob("*.hex")):
                self.assertEqual(sorted(file.stem for file in files), sorted(names))

    def test_filters_are_accepted(self) -> None:
        """By profile 3 too, with the limit that the comment of the C says."""
        programs = [program for name in filters.FILTERS for program in examples_of(name)]
        programs += [spilling(name) for name in scenes.SCENES]
        self.assertEqual(device.judged_by_profile_3(programs, self.folder), [None] * len(programs))

    def test_filters_are_refused(self) -> None:
        """A refusal names the first slot that fails, and why."""
        refused = [Program(device.code_of("refused", name), BLOCK) for name in REFUSED]
        self.assertEqual([self.served.load(program) for program in refused], list(REFUSED.values()))
        self.assertEqual(device.judged_by_profile_3(refused, self.folder), list(REFUSED.values()))


def load_tests(loader: unittest.TestLoader, tests: unittest.TestSuite, pattern: object) -> unittest.TestSuite:
    """The examples of docstrings are tests too."""
    for module in (blocks, device, filters, scenes, slots, wrong):
        tests.addTests(doctest.DocTestSuite(module))
    return tests


def main() -> int:
    """Runs the tests; what is printed last is 'N passed, M failed'."""
    result = unittest.main(exit=False).result
    failed = [test for test, _ in result.failures + result.errors]
    # a class whose device can't be opened fails, and none of its tests is run
    passed = result.testsRun - sum(isinstance(test, unittest.TestCase) for test in failed)
    print(f"{passed} passed, {len(failed)} failed", flush=True)
    return 1 if failed else 0


if __name__ == "__main__":
    sys.exit(main())
