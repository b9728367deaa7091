"""Random expressions of C, whose meaning is defined but for what a sum of signed numbers comes to: indexes are bounded, in one of the
ways that people write that, and no address leaves its area."""

from __future__ import annotations

from random import Random
from typing import FrozenSet, List, Optional, Sequence, TypeVar

from scope import SIGNED, TYPES, UNSIGNED, Array, Function, Pointer, Record, Scope, Type, Variable

T = TypeVar("T")

FIELDS = ("lba", "index", "count", "block_size", "argument")
"""The fields of the context."""

NUMBERS = [0, 1, 2, 3, 4, 5, 7, 8, 10, 16, 31, 32, 63, 64, 100, 127, 128, 200, 255, 256, 257, 1000, 4095, 65535, 65536, 2**31 - 1]
"""Constants: those at which bytes, halves and signs end, and small ones, that bytes of blocks often are."""

_BINARY = ["+", "+", "-", "*", "&", "|", "^"]
_COMPARES = ["==", "!=", "<", "<=", ">", ">="]


def least_bits(number: int) -> int:
    """The greatest power of 2 that is not over a number.

    >>> least_bits(8), least_bits(15), least_bits(1)
    (8, 8, 1)
    """
    return 1 << (number.bit_length() - 1)


class Expressions:
    """Draws expressions.

    `features` are what a program may have; `signed_division` says whether the instruction set has it. `budget` is how many
    instructions are left to be drawn, counted with rounds, and `emit_left` how many bytes can still be emitted for a block.
    """

    def __init__(self, rng: Random, features: FrozenSet[str], signed_division: bool, budget: int) -> None:
        self.rng = rng
        self.features = features
        self.signed_division = signed_division
        self.budget = budget
        self.emit_left = 500
        self._names = 0

    # ---- small things

    def has(self, feature: str, chance: float = 1.0) -> bool:
        """Is something drawn that only programs with a feature have?"""
        return feature in self.features and self.rng.random() < chance

    def new_name(self, word: str) -> str:
        """A name that nothing else has."""
        self._names += 1
        return f"{word}{self._names}"

    def spend(self, scope: Scope, cost: int) -> None:
        """Takes instructions from the budget."""
        self.budget -= cost * scope.rounds

    def can(self, scope: Scope, cost: int) -> bool:
        """Are there so many instructions for each round?"""
        return cost * scope.rounds <= self.budget

    def pick(self, found: Sequence[T]) -> T:
        """One of several."""
        return self.rng.choice(found)

    def type(self) -> Type:
        """A type, mostly an unsigned one."""
        return self.pick(TYPES if "signed" in self.features else UNSIGNED)

    def constant(self) -> str:
        """A constant."""
        if self.rng.random() < 0.1:
            return f"{self.rng.getrandbits(self.pick([16, 31, 40, 63]))}ull"
        number = self.pick(NUMBERS)
        return f"(-{number})" if number and self.has("signed", 0.15) else str(number)

    # ---- numbers

    def number(self, scope: Scope, depth: int = 2) -> str:
        """An expression for an integer."""
        self.spend(scope, 2)
        if depth <= 0 or self.rng.random() < 0.15 or not self.can(scope, 8):
            return self._leaf(scope)
        ways = [self._arithmetic, self._arithmetic, self._arithmetic, self._shift, self._cast, self._compare, self._unary]
        ways += [self._of_area, self._of_area, self._of_array, self._of_array, self._choice, self._remainder]
        if scope.records:
            ways += [self._of_record, self._of_record]
        if scope.strings:
            ways += [self._of_strings, self._of_strings]
        if "two areas" in self.features:
            ways += [self._of_either]
        if scope.functions:
            ways += [self._call, self._call]
        if "equal bytes" in self.features:
            ways += [self._equal_bytes]
        return self.pick(ways)(scope, depth - 1) or self._leaf(scope)

    def _leaf(self, scope: Scope) -> str:
        """A variable, a constant, a field of the context, or a byte at a known offset."""
        draw = self.rng.random()
        if scope.variables and draw < 0.45:
            return self.pick(scope.variables).name
        if scope.is_entry and draw < 0.5:
            return f"context->{self.pick(FIELDS)}"
        if scope.pointers and draw < 0.82:
            pointer = self.pick(scope.pointers)
            return f"{pointer.text}[{self.rng.randrange(pointer.room)}]"
        return self.constant()

    def _arithmetic(self, scope: Scope, depth: int) -> str:
        return f"({self.number(scope, depth)} {self.pick(_BINARY)} {self.number(scope, depth)})"

    def _shift(self, scope: Scope, depth: int) -> str:
        kind = self.pick([it for it in TYPES if it.bits >= 32 and (not it.is_signed or "signed" in self.features)])
        by = f"({self.number(scope, depth)} & {kind.bits - 1})" if self.rng.random() < 0.5 else str(self.rng.randrange(kind.bits))
        way = "<<" if not kind.is_signed and self.rng.random() < 0.5 else ">>"
        return f"(({kind.name}){self.number(scope, depth)} {way} {by})"

    def _cast(self, scope: Scope, depth: int) -> str:
        return f"({self.type().name}){self.number(scope, depth)}"

    def _unary(self, scope: Scope, depth: int) -> str:
        return f"({self.pick(['-', '~', '!'])}{self.number(scope, depth)})"

    def _choice(self, scope: Scope, depth: int) -> str:
        return f"({self.condition(scope, depth)} ? {self.number(scope, depth)} : {self.number(scope, depth)})"

    def _compare(self, scope: Scope, depth: int) -> str:
        return f"({self.number(scope, depth)} {self.pick(_COMPARES)} {self.number(scope, depth)})"

    def _remainder(self, scope: Scope, depth: int) -> str:
        kinds = [it for it in UNSIGNED if it.bits >= 32]
        if self.signed_division and "signed" in self.features:
            kinds += [it for it in SIGNED if it.bits >= 32]
        kind = self.pick(kinds)
        by = str(self.pick([3, 7, 10, 60, 1000])) if self.rng.random() < 0.5 else f"(({kind.name}){self.number(scope, depth)} | 1)"
        return f"(({kind.name}){self.number(scope, depth)} {self.pick('/%')} {by})"

    def condition(self, scope: Scope, depth: int = 1) -> str:
        """An expression that is looked at as true or false."""
        draw = self.rng.random()
        if draw < 0.6:
            return self._compare(scope, depth)
        if draw < 0.75:
            return f"({self.number(scope, depth)} & {1 << self.rng.randrange(8)})"
        if draw < 0.9 and depth > 0:
            joined = self.pick(["&&", "||"])
            return f"({self.condition(scope, depth - 1)} {joined} {self.condition(scope, depth - 1)})"
        return f"!{self.number(scope, depth)}"

    # ---- indexes and memory

    def index(self, scope: Scope, length: int, depth: int = 1) -> str:
        """An expression for a number below a length."""
        counters = [it.name for it in scope.variables if it.most < length]
        draw = self.rng.random()
        if counters and draw < 0.45:
            return self.pick(counters)
        if length == 1 or draw < 0.55:
            return str(self.rng.randrange(length))
        power = least_bits(length)
        number = self.number(scope, depth)
        if draw < 0.65 and "remainders" in self.features:
            return f"((u32){number} % {length})"
        if draw < 0.7 and power <= 256 and power > 1:
            return f"((u8){number} >> {9 - power.bit_length()})"
        if draw < 0.75:
            return f"masked({number}, {power - 1})"
        if draw < 0.8 and power >= 8:
            return f"(({number} & {power // 2 - 1}) + {self.rng.randrange(power // 2 + 1)})"
        return f"({number} & {power - 1})"

    def address(self, scope: Scope, least: int, depth: int = 1, writes: bool = False) -> Optional[Pointer]:
        """An expression for the address of so many bytes."""
        pointers = [it for it in scope.pointers if it.room >= least and (it.is_writable or not writes)]
        arrays = [it for it in scope.arrays if it.length * it.type.bytes >= least and (it.is_writable or not writes)]
        if arrays and (not pointers or self.rng.random() < 0.3):
            array = self.pick(arrays)
            return Pointer(f"((const u8 *){array.name})", array.length * array.type.bytes, array.is_writable)
        if not pointers:
            return None
        pointer = self.pick(pointers)
        spare = pointer.room - least
        if spare < 1 or self.rng.random() < 0.2:
            return pointer
        if self.rng.random() < 0.4:
            offset = self.rng.randrange(spare + 1)
            return Pointer(f"({pointer.text} + {offset})", pointer.room - offset, pointer.is_writable)
        reach = least_bits(spare + 1)
        return Pointer(f"({pointer.text} + {self.index(scope, reach, depth)})", pointer.room - reach + 1, pointer.is_writable)

    def _of_area(self, scope: Scope, depth: int) -> Optional[str]:
        """A load of 1, 2, 4 or 8 bytes at an offset."""
        kind = self.type()
        pointer = self.address(scope, kind.bytes, depth)
        if not pointer:
            return None
        if kind.bits == 8 and not kind.is_signed:
            return f"{pointer.text}[{self.index(scope, least_bits(pointer.room), depth)}]"
        if not kind.is_signed and self.rng.random() < 0.3:
            return f"le{kind.bits}({pointer.text}, {self.index(scope, least_bits(pointer.room - kind.bytes + 1), depth)})"
        return f"*(const {kind.name} *){pointer.text}"

    def _of_array(self, scope: Scope, depth: int) -> Optional[str]:
        if not scope.arrays:
            return None
        array = self.pick(scope.arrays)
        return f"{array.name}[{self.index(scope, array.length, depth)}]"

    def _of_record(self, scope: Scope, depth: int) -> str:
        record = self.pick(scope.records)
        return f"{record.text}{self.pick(record.structure.fields).name}"

    def _of_strings(self, scope: Scope, depth: int) -> str:
        table = self.pick(scope.strings)
        return f"{table.name}[{self.index(scope, table.count, depth)}][{self.index(scope, table.least, depth)}]"

    def _of_either(self, scope: Scope, depth: int) -> Optional[str]:
        """One load from either of two areas."""
        first, second = self.address(scope, 1, depth), self.address(scope, 1, depth)
        if not first or not second:
            return None
        room = min(first.room, second.room)
        return f"({self.condition(scope, depth)} ? {first.text} : {second.text})[{self.index(scope, least_bits(room), depth)}]"

    def _equal_bytes(self, scope: Scope, depth: int) -> Optional[str]:
        """A compare of bytes by memcmp."""
        length = self.pick([1, 2, 3, 4, 7, 8, 16])
        first, second = self.address(scope, length, depth), self.address(scope, length, depth)
        if not first or not second:
            return None
        self.spend(scope, length)
        return f"(__builtin_memcmp({first.text}, {second.text}, {length}) {self.pick(['==', '!=', '<', '>'])} 0)"

    # ---- calls

    def _call(self, scope: Scope, depth: int) -> Optional[str]:
        """A call of a function, where it is cheap enough for all rounds."""
        fitting = [it for it in scope.functions if self.can(scope, it.cost) and it.emitted * scope.rounds <= self.emit_left]
        return self.call(scope, self.pick(fitting), depth) if fitting else None

    def call(self, scope: Scope, function: Function, depth: int) -> Optional[str]:
        """A call of this function."""
        words: List[str] = []
        for taken in function.takes:
            word = self._argument(scope, function, taken, depth)
            if not word:
                return None
            words.append(word)
        self.spend(scope, function.cost)
        self.emit_left -= function.emitted * scope.rounds
        return f"{function.name}({', '.join(words)})"

    def _argument(self, scope: Scope, function: Function, taken: str, depth: int) -> Optional[str]:
        """An argument of a call."""
        if taken == "number":
            return self.number(scope, depth)
        if taken == "bytes":
            pointer = self.address(scope, function.room, depth)
            return pointer and pointer.text
        outs = [it for it in scope.variables if it.is_assigned and it.type.name == "u64"]
        return f"&{self.pick(outs).name}" if outs else None


def fields_of(record: Record) -> List[Variable]:
    """The fields of a record that can be assigned to."""
    return [it for it in record.structure.fields] if record.is_writable else []


def writable_arrays(scope: Scope) -> List[Array]:
    """The arrays that can be written."""
    return [it for it in scope.arrays if it.is_writable]
