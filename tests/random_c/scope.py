"""What a place in a C program can name, and the types that it has."""

from __future__ import annotations

from dataclasses import dataclass, field, replace
from typing import List, NamedTuple, Tuple


class Type(NamedTuple):
    """An integer type."""

    name: str
    bits: int
    is_signed: bool

    @property
    def bytes(self) -> int:
        """Its size."""
        return self.bits // 8


UNSIGNED = [Type(f"u{bits}", bits, False) for bits in (8, 16, 32, 64)]
"""The unsigned types of pifnjarl.h."""

SIGNED = [Type("signed char", 8, True), Type("short", 16, True), Type("int", 32, True), Type("long long", 64, True)]
"""The signed types."""

TYPES = UNSIGNED + SIGNED
U8, U16, U32, U64 = UNSIGNED


class Variable(NamedTuple):
    """A variable that holds an integer; of a counter, how great it can be."""

    name: str
    type: Type
    most: int = 2**64
    is_assigned: bool = True


class Array(NamedTuple):
    """An array of integers, of a length that is a power of 2."""

    name: str
    type: Type
    length: int
    is_writable: bool


class Pointer(NamedTuple):
    """An expression for an address, behind which so many bytes can be read, and perhaps written."""

    text: str
    room: int
    is_writable: bool


class Strings(NamedTuple):
    """A table of so many strings, each of at least some letters; it may end with a null."""

    name: str
    count: int
    least: int
    ends_with_null: bool


class Structure(NamedTuple):
    """A structure type: its name, its fields, and its size."""

    name: str
    fields: Tuple[Variable, ...]
    size: int


class Record(NamedTuple):
    """An expression for a structure, with `.` or `->` behind it."""

    text: str
    structure: Structure
    is_writable: bool


class Function(NamedTuple):
    """A function: what its parameters are, 'number', 'bytes' of so much room, or 'out', and what a call costs and emits."""

    name: str
    takes: Tuple[str, ...]
    room: int
    cost: int
    emitted: int


@dataclass
class Scope:
    """What can be named."""

    variables: List[Variable] = field(default_factory=list)
    arrays: List[Array] = field(default_factory=list)
    pointers: List[Pointer] = field(default_factory=list)
    strings: List[Strings] = field(default_factory=list)
    records: List[Record] = field(default_factory=list)
    functions: List[Function] = field(default_factory=list)
    is_entry: bool = False
    rounds: int = 1
    in_loop: bool = False

    def inner(self, rounds: int = 1, in_loop: bool = False) -> Scope:
        """The scope of a body that is done so many times."""
        lists = {name: list(getattr(self, name)) for name in ("variables", "arrays", "pointers", "strings", "records")}
        return replace(self, rounds=self.rounds * rounds, in_loop=self.in_loop or in_loop, **lists)

    def assigned(self) -> List[Variable]:
        """The variables that can be assigned to."""
        return [it for it in self.variables if it.is_assigned]
