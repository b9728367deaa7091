#!/usr/bin/env python3
"""Makes a random filter in C from a seed: constant tables, structures, functions that call one another, and the function that a
program starts with, as docs/programs.md says and `examples/pifnjarl.h` has it.

    generate.py SEED [--compiled OBJECT]

prints the C, and the words for clang in its first line.
"""

from __future__ import annotations

import argparse
import os
import subprocess
import sys
from pathlib import Path
from random import Random
from typing import List, NamedTuple, Optional, Sequence

from expressions import NUMBERS
from interpret import BLOCK, Parameters
from scope import TYPES, U8, U32, U64, Array, Function, Pointer, Record, Scope, Strings, Structure, Type, Variable
from statements import Statements
from tree import Part, text

ROOT = Path(__file__).resolve().parents[2]

FEATURES = [
    "signed",
    "two areas",
    "equal bytes",
    "remainders",
    "pointers",
    "arrays",
    "copies",
    "switch",
    "bounds from data",
    "records",
    "lengths",
    "bits",
    "search",
    "unrolled",
    "early ends",
    "tables",
    "strings",
    "functions",
    "unknown bounds",
]
"""What a program may have; each has half of them."""

RARE = {"two areas": 0.3, "strings": 0.3, "unknown bounds": 0.2}
"""How many programs have a feature, where it isn't half of them."""

WORDS = ["one", "three", "alpha", "zone", "block", "disk", "lamp", "of", "fn", "x1", "reset", "append", "open", "ok", "error", "warn"]

LEVELS = ["-O0", "-O1", "-O1", "-O2", "-O2", "-O2", "-O3", "-Os"]


class Flags(NamedTuple):
    """How clang is called: the version of the instruction set, and the level."""

    cpu: str
    level: str

    def words(self) -> List[str]:
        """The words for clang; that for version 4 is another one, which the variable CLANG_V4 names."""
        clang = os.environ.get("CLANG_V4", "clang") if self.cpu == "v4" else "clang"
        made = f"-target bpf -mcpu={self.cpu} {self.level} -g -w -fno-strict-aliasing -I {ROOT / 'examples'} -x c -c"
        return [clang, *made.split()]


class Drawn(NamedTuple):
    """A program: its parts, and how it is compiled and run."""

    seed: int
    flags: Flags
    parts: List[Part]
    parameters: Parameters

    def source(self) -> str:
        """Its C."""
        return text(self.parts)


class Generator(Statements):
    """Draws a file of C."""

    def file(self) -> List[Part]:
        """The parts of the file."""
        self._structures: List[Structure] = []
        parts = [Part('#include "pifnjarl.h"'), Part("struct view { const u8 *at; u64 length; };")]
        scope = Scope()
        for _ in range(self.rng.randrange(1, 3)):
            parts.append(self._structure())
        if "tables" in self.features:
            parts += [self._table(scope) for _ in range(self.rng.randrange(1, 4))]
        if "strings" in self.features:
            parts.append(self._string_table(scope))
        if "functions" in self.features:
            for _ in range(self.rng.randrange(1, 4)):
                parts += self._function(scope)
        return [*parts, self._entry(scope)]

    def structures(self) -> List[Structure]:
        """The structure types of the file."""
        return self._structures

    # ---- declarations

    def _structure(self) -> Part:
        """A structure without padding: its fields fall in size, and bytes fill it up."""
        kinds = sorted((self.type() for _ in range(self.rng.randrange(2, 6))), key=lambda it: -it.bits)
        fields = tuple(Variable(f"f{at}", kind) for at, kind in enumerate(kinds))
        held = sum(it.bytes for it in kinds)
        size = next(it for it in (8, 16, 32, 64) if it >= held)
        name = self.new_name("record")
        lines = " ".join(f"{it.type.name} {it.name};" for it in fields)
        rest = f" u8 rest[{size - held}];" if size > held else ""
        self._structures.append(Structure(name, fields, size))
        return Part(f"struct {name} {{ {lines}{rest} }};")

    def _constant_of(self, kind: Type) -> str:
        """A constant that fits a type."""
        return str(self.pick([it for it in NUMBERS if it < 2 ** (kind.bits - kind.is_signed)]))

    def _table(self, scope: Scope) -> Part:
        """A constant table of numbers or of records."""
        if self.rng.random() < 0.3:
            structure, name, count = self.pick(self._structures), self.new_name("entries"), self.pick([2, 4, 8])
            rows = [", ".join(self._constant_of(it.type) for it in structure.fields) for _ in range(count)]
            scope.records += [Record(f"{name}[{at}].", structure, False) for at in range(count)]
            scope.pointers.append(Pointer(f"((const u8 *){name})", count * structure.size, False))
            held = ", ".join(f"{{ {row} }}" for row in rows)
            return Part(f"static const struct {structure.name} {name}[{count}] = {{ {held} }};")
        kind, length = self.type(), self.pick([4, 8, 16, 16])
        numbers = [self._constant_of(kind) for _ in range(length)]
        if self.rng.random() < 0.4:
            numbers.sort(key=int)
        scope.arrays.append(Array(self.new_name("table"), kind, length, False))
        return Part(f"static const {kind.name} {scope.arrays[-1].name}[{length}] = {{ {', '.join(numbers)} }};")

    def _string_table(self, scope: Scope) -> Part:
        """A constant table of strings."""
        words = self.rng.sample(WORDS, self.pick([2, 4, 4, 8]))
        ends = self.rng.random() < 0.4
        table = Strings(self.new_name("names"), len(words), min(map(len, words)), ends)
        held = ", ".join(f'"{word}"' for word in words) + (", 0" if ends else "")
        scope.strings.append(table)
        pointer = self.pick(["const char *const", "const char *const", "const char *"])
        return Part(f"static {pointer} {table.name}[] = {{ {held} }};")

    # ---- functions

    def _within(self, outside: Scope) -> Scope:
        """The scope in which a function begins, with what all functions see."""
        scope = outside.inner()
        scope.functions = list(outside.functions)
        scope.variables = [Variable("sum", U64)]
        return scope

    def _function(self, outside: Scope) -> List[Part]:
        """A function, with statements of its own or a loop over the bytes that it is given."""
        scope, name = self._within(outside), self.new_name("part")
        takes, words, room = [], [], self.pick([8, 16, 64])
        for at in range(self.rng.randrange(1, 4)):
            taken = self.pick(["number", "bytes", "bytes", "out"])
            kind = self.type()
            takes.append(taken)
            if taken == "number":
                scope.variables.append(Variable(f"n{at}", kind))
                words.append(f"{kind.name} n{at}")
            elif taken == "bytes":
                scope.pointers.append(Pointer(f"b{at}", room, False))
                words.append(f"const u8 *b{at}")
            else:
                scope.variables.append(Variable(f"(*out{at})", U64))
                words.append(f"u64 *out{at}")
        kept, emits = self.budget, self.emit_left
        self.budget, self.emit_left = max(40, kept // 4), min(emits, 40)
        whole = self.budget
        given = [it.name for it in scope.variables[1:]] + [f"{it.text}[0]" for it in scope.pointers if it.text.startswith("b")]
        body = self.body(scope, self.rng.randrange(1, 6), 2)
        cost, emitted = whole - self.budget + 10, min(emits, 40) - self.emit_left
        self.budget, self.emit_left = kept, emits
        outside.functions.append(Function(name, tuple(takes), room, cost, emitted))
        how = self.pick(["static", "static", "static inline", "static __attribute__((noinline))", "static __attribute__((noinline))"])
        kind = self.pick([it for it in TYPES if it.bits >= 32])
        head = f"{how} {kind.name} {name}({', '.join(words)})\n{{"
        return [Part(head, [Part(f"u64 sum = {self.pick(given)};"), *body, Part("return sum;")], "}")]

    def _from_block(self, scope: Scope) -> List[Part]:
        """Variables that are fields of the block."""
        parts = []
        for _ in range(self.rng.randrange(1, 4)):
            variable = Variable(self.new_name("v"), self.type())
            kind, at = self.type(), self.rng.randrange(64)
            parts.append(Part(f"{variable.type.name} {variable.name} = *(const {kind.name} *)(block + {at});"))
            scope.variables.append(variable)
        return parts

    def _entry(self, outside: Scope) -> Part:
        """The function that the program starts with."""
        scope = self._within(outside)
        scope.is_entry = True
        scope.pointers += [Pointer("block", BLOCK, False), Pointer("block", BLOCK, False), Pointer("scratch", 1024, True)]
        first = [Part("u64 sum = 1;"), *self._from_block(scope)]
        if self.rng.random() < 0.4:
            structure = self.pick(self._structures)
            area, name = self.pick(["block", "scratch"]), self.new_name("r")
            const = "const " if area == "block" else ""
            first.append(Part(f"{const}struct {structure.name} *{name} = ({const}struct {structure.name} *){area};"))
            scope.records.append(Record(f"{name}->", structure, area == "scratch"))
        if "records" in self.features:
            structure, name = self.pick(self._structures), self.new_name("s")
            first.append(Part(f"struct {structure.name} {name} = {{ {', '.join('0' for _ in structure.fields)} }};"))
            scope.records.append(Record(f"{name}.", structure, True))
            scope.pointers.append(Pointer(f"((const u8 *)&{name})", structure.size, True))
        body = self.body(scope, self.rng.randrange(4, 16), 3)
        shows = self.pick(["((u64 *)scratch)[127] += sum;", "emit(&sum, sizeof sum);", "((u64 *)scratch)[context->index & 63] = sum;"])
        if "emit" in shows and self.emit_left < 10:
            shows = "((u64 *)scratch)[127] += sum;"
        ends = self.pick(["return 0;"] * 6 + ["return sum % 16 == 3;", "return (sum & 15) == 7 ? 5 : 0;"])
        head = "long filter(const struct context *context, const u8 *block, u8 *scratch)\n{"
        return Part(head, [*first, *body, Part(shows), Part(ends)], "}")


# ---- blocks


def _block(rng: Random) -> bytes:
    """A block whose bytes are any, small ones, few ones, or entries behind their lengths."""
    way = rng.randrange(5)
    if way == 0:
        return rng.randbytes(BLOCK)
    if way == 1:
        return bytes(rng.choice([0, 1, 2, 3, 4, 7, 8, 15, 16, 255]) for _ in range(BLOCK))
    if way == 2:
        return bytes(rng.choice([0, 0, 0, 0, 1, 128, 255]) for _ in range(BLOCK))
    if way == 3:
        letters = " ".join(rng.choice(WORDS) for _ in range(100)).encode()
        return letters.ljust(BLOCK, b"\0")[:BLOCK]
    entries = b""
    while len(entries) < BLOCK:
        length = rng.choice([0, 1, 3, 8, 20, 33, 60, 255]) if len(entries) > 64 else rng.choice([1, 3, 8, 20, 30, 32])
        entries += bytes([length]) + rng.randbytes(length)
    return entries[:BLOCK]


def _parameters(rng: Random, count: int) -> Parameters:
    """A run over random blocks. The first two are different in kind from the others, where these are random."""
    blocks = [_block(rng) for _ in range(count)]
    return Parameters(blocks, rng.choice([0, 1, 7, 100, 2**31, 2**32 - 1, rng.randrange(256)]), rng.randrange(32))


def drawn(seed: int, cpus: Sequence[str] = ("v2", "v3"), without: Sequence[str] = ()) -> Drawn:
    """The program of a seed, for one of some versions of the instruction set, and without some features."""
    rng = Random(seed)
    cpu, level = rng.choice(list(cpus)), rng.choice(LEVELS)
    features = {it for it in FEATURES if rng.random() < RARE.get(it, 0.5)}
    features -= set(without)
    budget = rng.choice([100, 300, 600, 1000, 1500, 2500])
    if level == "-O0":
        budget //= 2
    parts = Generator(rng, frozenset(features), cpu == "v4", budget).file()
    return Drawn(seed, Flags(cpu, level), parts, _parameters(rng, 8))


class NotCompiled(Exception):
    """clang refuses a file."""


def compiled(source: str, flags: Flags) -> bytes:
    """The object that clang makes of C."""
    done = subprocess.run([*flags.words(), "-o", "-", "-"], input=source.encode(), stdout=subprocess.PIPE, stderr=subprocess.PIPE)
    if done.returncode:
        raise NotCompiled(done.stderr.decode().strip())
    return done.stdout


def main(words: Sequence[str]) -> int:
    """Prints the program of a seed."""
    parser = argparse.ArgumentParser(description="makes a random filter in C")
    parser.add_argument("seed", type=int)
    parser.add_argument("--cpus", default="v2,v3", help="versions of the instruction set, of which one is drawn")
    parser.add_argument("--without", default="", metavar="FEATURES", help="leave these out, as 'strings,two areas'")
    parser.add_argument("--compiled", type=Path, metavar="OBJECT", help="where what clang makes of it is put")
    parser.add_argument("--blocks", type=Path, metavar="FILE", help="where the blocks that it runs over are put")
    given = parser.parse_args(words)
    made = drawn(given.seed, given.cpus.split(","), given.without.split(","))
    print("/*", *made.flags.words(), "*/")
    print(f"/* --argument {made.parameters.argument} --first {made.parameters.first} */")
    print(made.source(), end="")
    if given.blocks:
        given.blocks.write_bytes(b"".join(made.parameters.blocks))
    if given.compiled:
        given.compiled.write_bytes(compiled(made.source(), made.flags))
    return 0


if __name__ == "__main__":
    sys.exit(main(sys.argv[1:]))
