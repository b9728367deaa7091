#!/usr/bin/env python3
"""Tests of the interpreter of objects, by the examples of RFC 9669 and by objects of clang; and 200 random filters, each compared with
the program that `zscli link` makes of it. The program is the one that the variable ZSCLI names, or else that of this repository."""

from __future__ import annotations

import doctest
import sys
import unittest
from typing import List

import compare
import expressions
import generate
import interpret
import object_file
import operations
import tree
from generate import Flags, compiled
from interpret import BLOCK, Ended, Left, Machine, Parameters, Undefined, rests_on_nothing
from layout import of_object, of_slots
from operations import HALF, WORD

sys.path.insert(0, str(generate.ROOT / "tests/filters"))
from slots import EXIT, slot

KERNEL = range(1, 201)
"""The seeds of the programs that the gate compares."""


def wide(register: int, word: int) -> bytes:
    """`lddw` of a word."""
    return slot(0x18, register, immediate=_signed(word % 2**32)) + slot(0, immediate=_signed(word >> 32))


def _signed(half: int) -> int:
    return half - 2**32 if half >> 31 else half


def ended(slots: bytes, block: bytes = bytes(BLOCK)) -> Ended:
    """How a block ends."""
    return Machine(of_slots(slots)).run(Parameters([block])).blocks[0]


def computed(opcode: int, left: int, right: int, offset: int = 0) -> int:
    """What an operation of R0 and R4 leaves in R0."""
    r0 = ended(wide(0, left & WORD) + wide(4, right & WORD) + slot(opcode, 0x40, offset) + EXIT).r0
    assert r0 is not None
    return r0


def computed_by(opcode: int, left: int, immediate: int, offset: int = 0) -> int:
    """What an operation of R0 and a number leaves in R0."""
    r0 = ended(wide(0, left & WORD) + slot(opcode, 0x00, offset, immediate) + EXIT).r0
    assert r0 is not None
    return r0


def jumps(opcode: int, left: int, right: int) -> bool:
    """Does a compare of R4 and R5 jump?"""
    code = wide(4, left & WORD) + wide(5, right & WORD) + slot(opcode, 0x54, 2) + slot(0xB7, 0) + EXIT + slot(0xB7, 0, immediate=1) + EXIT
    return ended(code).r0 == 1


class Arithmetic(unittest.TestCase):
    """RFC 9669, 4.1 and 4.2."""

    def test_32_bits(self) -> None:
        """`{ADD, X, ALU}` means dst = (u32)((u32)dst + (u32)src)."""
        self.assertEqual(computed(0x0C, 2**63 + HALF, 2**40 + 2), 1)
        self.assertEqual(computed(0x0F, 2**63 + HALF, 2), 2**63 + 2**32 + 1)

    def test_immediate(self) -> None:
        """`{XOR, K, ALU}` means dst = (u32)dst ^ (u32)imm, `{XOR, K, ALU64}` dst = dst ^ imm, whose sign is extended."""
        self.assertEqual(computed_by(0xA4, 2**40, -1), HALF)
        self.assertEqual(computed_by(0xA7, 0, -1), WORD)

    def test_wraps(self) -> None:
        """Underflow and overflow wrap."""
        self.assertEqual(computed(0x1F, 0, 1), WORD)
        self.assertEqual(computed(0x1C, 0, 1), HALF)
        self.assertEqual(computed(0x2F, 2**63 + 1, 2), 2)

    def test_division(self) -> None:
        """By 0 a quotient is 0, a remainder the dividend, of which 32 bits are kept by 32-bit ones. Immediates are unsigned but for
        signed division."""
        self.assertEqual(computed(0x3F, 7, 0), 0)
        self.assertEqual(computed(0x9F, 2**40 + 7, 0), 2**40 + 7)
        self.assertEqual(computed(0x9C, 2**40 + 7, 0), 7)
        self.assertEqual(computed_by(0x37, 2**64 - 2, -1), 0)
        self.assertEqual(computed_by(0x34, 2**32 - 1, -1), 1)

    def test_signed_division(self) -> None:
        """It is truncated: -13 % 3 is -1; and the least number by -1 is itself, with the remainder 0."""
        self.assertEqual(computed(0x9F, -13, 3, 1), WORD)
        self.assertEqual(computed(0x3F, -13, 3, 1), WORD - 3)
        self.assertEqual(computed(0x3F, 2**63, -1, 1), 2**63)
        self.assertEqual(computed(0x9F, 2**63, -1, 1), 0)
        self.assertEqual(computed(0x3C, 2**31, HALF, 1), 2**31)
        self.assertEqual(computed(0x9F, -5, 0, 1), WORD - 4)

    def test_shifts(self) -> None:
        """The distance is masked, by 0x3F or by 0x1F."""
        self.assertEqual(computed(0x6F, 1, 65), 2)
        self.assertEqual(computed(0x6C, 1, 33), 2)
        self.assertEqual(computed(0xCF, 2**63, 63), WORD)
        self.assertEqual(computed(0xCC, 2**31, 31), HALF)
        self.assertEqual(computed(0x7F, 2**63, 127), 1)

    def test_moves(self) -> None:
        """`{MOVSX, X, ALU64}` extends the sign of 8, 16 or 32 bits, `{MOVSX, X, ALU}` that of 8 or 16 and zeros the upper half."""
        self.assertEqual(computed(0xBF, 0, 0x80, 8), WORD - 0x7F)
        self.assertEqual(computed(0xBF, 0, 2**31, 32), WORD - 2**31 + 1)
        self.assertEqual(computed(0xBC, 0, 0x8000, 16), HALF - 0x7FFF)
        self.assertEqual(computed(0xBC, 0, WORD), HALF)
        self.assertIn("no instruction", ended(slot(0xBC, 0x40, 32) + EXIT).trap)

    def test_negation(self) -> None:
        """`neg` of 64 and of 32 bits."""
        self.assertEqual(computed_by(0x87, 1, 0), WORD)
        self.assertEqual(computed_by(0x84, 2**40 + 1, 0), HALF)

    def test_byte_order(self) -> None:
        """`{END, LE, ALU}` keeps low bytes, `{END, BE, ALU}` and `{END, TO_LE, ALU64}` swap them."""
        word = 0x1122334455667788
        self.assertEqual(computed_by(0xD4, word, 16), 0x7788)
        self.assertEqual(computed_by(0xDC, word, 32), 0x88776655)
        self.assertEqual(computed_by(0xD7, word, 64), 0x8877665544332211)


class Jumps(unittest.TestCase):
    """RFC 9669, 4.3."""

    def test_compares(self) -> None:
        """`{JSGE, X, JMP32}` means if (s32)dst s>= (s32)src goto +offset; of JMP all 64 bits count."""
        self.assertTrue(jumps(0x7E, 2**40 + 1, HALF))
        self.assertFalse(jumps(0x3E, 2**40 + 1, HALF))
        self.assertTrue(jumps(0x2D, WORD, 1))
        self.assertFalse(jumps(0x6D, WORD, 1))
        self.assertTrue(jumps(0xCD, WORD, 1))
        self.assertTrue(jumps(0x4D, 6, 4))
        self.assertFalse(jumps(0x4D, 6, 9))
        self.assertTrue(jumps(0x1E, 2**40 + 5, 5))

    def test_number(self) -> None:
        """`{JLE, K, JMP}` compares with the immediate, whose sign is extended."""
        code = wide(4, 2**63) + slot(0xB5, 0x04, 2, -1) + slot(0xB7, 0) + EXIT + slot(0xB7, 0, immediate=1) + EXIT
        self.assertEqual(ended(code).r0, 1)

    def test_distances(self) -> None:
        """`{JA, K, JMP}` goes by its offset, `{JA, K, JMP32}` by its immediate, backward too."""
        self.assertEqual(ended(slot(0xB7, 0) + slot(0x06, immediate=1) + slot(0xB7, 0, immediate=5) + EXIT).r0, 0)
        loop = slot(0xB7, 0, immediate=3) + slot(0x07, 0, immediate=-1) + slot(0x55, 0x00, -2) + EXIT
        self.assertEqual((ended(loop).r0, ended(loop).steps), (0, 8))
        self.assertIn("steps", ended(slot(0x05, 0, -1)).trap)

    def test_local_calls(self) -> None:
        """R6 to R9 and R10 are as before behind a call, and the stack of the called function is another."""
        inner = slot(0xB7, 6, immediate=9) + slot(0x7A, 10, -8, 4) + slot(0x79, 0xA0, -8) + EXIT
        outer = slot(0xB7, 6, immediate=2) + slot(0x7A, 10, -8, 1) + slot(0x85, 0x10, immediate=4)
        rest = slot(0x0F, 0x60) + slot(0x79, 0xA4, -8) + slot(0x0F, 0x40) + EXIT
        self.assertEqual(ended(outer + rest + inner).r0, 7)


class Memory(unittest.TestCase):
    """RFC 9669, 5, and the areas of docs/programs.md."""

    def test_loads(self) -> None:
        """Loads are little-endian, and extend the sign where their mode is MEMSX."""
        block = bytes([1, 0x80, 0xFF, 0xFF, 2, 0, 0, 0x80]).ljust(BLOCK, b"\0")
        for opcode, expected in ((0x71, 1), (0x69, 0x8001), (0x61, 0xFFFF8001), (0x79, 0x80000002FFFF8001), (0x89, WORD - 0x7FFE)):
            self.assertEqual(ended(slot(opcode, 0x20) + EXIT, block).r0, expected)

    def test_areas(self) -> None:
        """A run's scratch is kept; the block and the context can't be changed, and no access leaves its area."""
        add = slot(0x79, 0x34, 1016) + slot(0x07, 4, immediate=1) + slot(0x7B, 0x43, 1016) + slot(0xB7, 0) + EXIT
        self.assertEqual(Machine(of_slots(add)).run(Parameters([bytes(BLOCK)] * 3)).scratch[-8:], b"\3" + bytes(7))
        self.assertIn("store", ended(slot(0x72, 2) + EXIT).trap)
        self.assertIn("store", ended(slot(0x72, 1) + EXIT).trap)
        for over in (slot(0x79, 0x20, 505), slot(0x71, 0x20, -1), slot(0x61, 0x10, 29), slot(0x79, 0x30, 1017), slot(0x71, 0xA0, 0)):
            self.assertIn("in no area", ended(over + EXIT).trap)

    def test_context(self) -> None:
        """The fields of the context, and that a run ends with the first block whose R0 isn't 0."""
        code = slot(0x79, 0x10) + slot(0x07, 0, immediate=-6) + EXIT
        left = Machine(of_slots(code)).run(Parameters([bytes(BLOCK)] * 3, 7, 6))
        self.assertEqual([it.r0 for it in left.blocks], [0, 1])
        for at, expected in ((8, 0), (12, 1), (16, 512), (20, 0), (24, 0)):
            self.assertEqual(ended(slot(0x61, 0x10, at) + EXIT).r0, expected)

    def test_emit(self) -> None:
        """A frame has at least one byte, from one area, and all fit a block with their lengths."""

        def emitted(length: int) -> Ended:
            return ended(slot(0xBF, 0x21) + slot(0xB7, 2, immediate=length) + slot(0x85, immediate=1) + EXIT)

        self.assertEqual([(it.frames, it.r0) for it in [emitted(2)]], [([bytes(2)], 0)])
        self.assertIn("no area", emitted(0).trap)
        self.assertEqual(emitted(510).trap, "")
        self.assertIn("emitted", emitted(511).trap)

    def test_undefined(self) -> None:
        """What nothing has set is seen."""
        for code, rests in ((slot(0x79, 0xA0, -8) + EXIT, False), (slot(0xBF, 0x60) + EXIT, False), (slot(0xB7, 0) + EXIT, True)):
            parameters = Parameters([bytes(BLOCK)])
            left: Left = Machine(of_slots(code), Undefined()).run(parameters)
            self.assertEqual(rests_on_nothing(of_slots(code), parameters, left), rests)


SOURCE = """
#include "pifnjarl.h"
struct entry { const char *name; u32 kind; };
static const char *const names[] = { "one", "three", "two", 0 };
static const struct entry entries[] = { { "aa", 3 }, { "bcd", 5 } };
static u32 changed[2] = { 7, 8 };
static __attribute__((noinline)) u64 summed(const u8 *bytes, u64 count)
{
    u64 sum = 0;
    for (u64 i = 0; i < count; i++)
        sum += bytes[i];
    return sum;
}
long filter(const struct context *context, const u8 *block, u8 *scratch)
{
    u8 copy[64];
    int count = 0;

    while (names[count])
        count++;
    __builtin_memcpy(copy, block + (block[0] & 1), 64);
    emit(names[block[1] & 1], 3);
    emit(entries[block[2] & 1].name + 1, 1);
    return count + summed(copy, 10) + entries[block[3] & 1].kind + changed[block[4] & 1];
}
"""


class Objects(unittest.TestCase):
    """Objects of clang."""

    def test_relocations(self) -> None:
        """Calls, tables of pointers, strings and data that could be changed, at each level."""
        block = bytes([0, 1, 1, 0, 1, 2, 3, 4, 5, 6]).ljust(BLOCK, b"\1")
        for cpu in ("v2", "v3"):
            for level in ("-O0", "-O1", "-O2", "-O3"):
                code = of_object(compiled(SOURCE, Flags(cpu, level)))
                left = Machine(code).run(Parameters([block]))
                self.assertEqual(left.blocks[0][:3], ([b"thr", b"c"], 3 + 23 + 3 + 8, ""), (cpu, level))


class Random(unittest.TestCase):
    """Random filters."""


def _with_kernel() -> None:
    """Gives `Random` a test for each seed."""
    found: List[compare.Result] = []

    def result(seed: int) -> compare.Result:
        if not found:
            some = compare.results(KERNEL, compare.Given(("v2", "v3"), (), 0))
            found.extend(some[it] for it in KERNEL)
        return found[seed - KERNEL.start]

    def with_seed(seed: int) -> None:
        def check(self: unittest.TestCase) -> None:
            told = result(seed)
            words = f"compare.py --show --seed {seed}: {told}"
            self.assertNotIn(told.kind, compare.BAD, words)
            if told.kind == "uncompiled":
                # clang has no instruction for what it makes of the C
                self.assertIn("is not supported", told.told, words)

        setattr(Random, f"test_{seed:03}", check)

    for seed in KERNEL:
        with_seed(seed)


_with_kernel()


def load_tests(loader: unittest.TestLoader, tests: unittest.TestSuite, pattern: object) -> unittest.TestSuite:
    """The examples of docstrings are tests too."""
    for module in (compare, expressions, interpret, object_file, operations, tree):
        tests.addTests(doctest.DocTestSuite(module))
    return tests


def main() -> int:
    """Runs the tests; what is printed last is 'N passed, M failed'."""
    result = unittest.main(exit=False).result
    failed = len(result.failures) + len(result.errors)
    print(f"{result.testsRun - failed} passed, {failed} failed", flush=True)
    return 1 if failed else 0


if __name__ == "__main__":
    sys.exit(main())
