"""What a question means, by the definitions of docs/statement/questions.md: each function here is the definition of its name there.

Nothing is taken of the code that compiles questions, nor of how `zscli` reads and prints them.
"""

from __future__ import annotations

from dataclasses import dataclass
from typing import Dict, List, Optional, Union

Record = bytes


@dataclass(frozen=True)
class Field:
    """A number in a record: its bytes, how many come before it, and whether it is signed, and the highest byte first."""

    size: int
    offset: int
    signed: bool = False
    big: bool = False


@dataclass(frozen=True)
class Argument:
    """The argument of the run, as an operand."""


Operand = Union[int, Argument, Field]


@dataclass(frozen=True)
class Compare:
    """A field compares so with an operand."""

    field: Field
    comparison: str
    operand: Operand


@dataclass(frozen=True)
class Bytes:
    """From an offset on, the record has these bytes."""

    offset: int
    bytes: bytes


@dataclass(frozen=True)
class And:
    """Both are met."""

    first: Predicate
    second: Predicate


@dataclass(frozen=True)
class Or:
    """One of them is met, or both are."""

    first: Predicate
    second: Predicate


@dataclass(frozen=True)
class Not:
    """It isn't met."""

    inner: Predicate


Predicate = Union[Compare, Bytes, And, Or, Not]


@dataclass(frozen=True)
class ByteRange:
    """Some bytes of a record."""

    offset: int
    size: int


@dataclass(frozen=True)
class Tally:
    """What is tallied: `count`, or the `sum`, the `least` or the `greatest` of a field."""

    kind: str
    field: Optional[Field] = None


@dataclass(frozen=True)
class Grouping:
    """Groups of the records that match, by the value of a field: one for each of so many values from one on."""

    field: Field
    first: int
    values: int


@dataclass(frozen=True)
class Question:
    """A question about the records of a block."""

    first: int
    size: int
    count: int
    wanted: Predicate
    emitted: Optional[ByteRange]
    tallies: List[Tally]
    by: Optional[Grouping] = None


def little_number(count: int, some: bytes) -> int:
    """The number that so many bytes spell, the lowest first.

    >>> little_number(2, bytes([1, 2, 3]))
    513
    """
    return sum(some[at] << 8 * at for at in range(count))


def big_number(count: int, some: bytes) -> int:
    """The number that so many bytes spell, the highest first.

    >>> big_number(2, bytes([1, 2, 3]))
    258
    """
    return little_number(count, some[:count][::-1])


def twos_complement(count: int, number: int) -> int:
    """The value of a number of so many bytes, whose highest bit is the sign.

    >>> twos_complement(1, 127), twos_complement(1, 128), twos_complement(2, 128)
    (127, -128, 128)
    """
    return number if number < 1 << 8 * count - 1 else number - (1 << 8 * count)


def number_in(field: Field, record: Record) -> int:
    """The number in a field of a record, without a sign.

    >>> number_in(Field(2, 1, big=True), bytes([9, 1, 2]))
    258
    """
    some = record[field.offset :]
    return big_number(field.size, some) if field.big else little_number(field.size, some)


def value_of(field: Field, record: Record) -> int:
    """The value of a field of a record.

    >>> value_of(Field(1, 0, signed=True), b"\\xff"), value_of(Field(1, 0), b"\\xff")
    (-1, 255)
    """
    number = number_in(field, record)
    return twos_complement(field.size, number) if field.signed else number


def operand_value(argument: int, operand: Operand, record: Record) -> int:
    """The value that a field is compared with, where the run has this argument.

    >>> [operand_value(7, operand, b"\\3") for operand in (-5, Argument(), Field(1, 0))]
    [-5, 7, 3]
    """
    if isinstance(operand, int):
        return operand
    return argument if isinstance(operand, Argument) else value_of(operand, record)


def compares(comparison: str, x: int, y: int) -> bool:
    """Do two values compare so?

    >>> [compares(it, 1, 2) for it in ("==", "!=", "<", "<=", ">", ">=")]
    [False, True, True, True, False, False]
    """
    return {"==": x == y, "!=": x != y, "<": x < y, "<=": x <= y, ">": y < x, ">=": y <= x}[comparison]


def matches(argument: int, predicate: Predicate, record: Record) -> bool:
    """Does a record match, where the run has this argument?

    >>> matches(0, Not(Bytes(1, b"b")), b"abc"), matches(0, And(Bytes(0, b"ab"), Compare(Field(1, 2), ">", 98)), b"abc")
    (False, True)
    """
    if isinstance(predicate, Compare):
        return compares(predicate.comparison, value_of(predicate.field, record), operand_value(argument, predicate.operand, record))
    if isinstance(predicate, Bytes):
        return record[predicate.offset :][: len(predicate.bytes)] == predicate.bytes
    if isinstance(predicate, And):
        return matches(argument, predicate.first, record) and matches(argument, predicate.second, record)
    if isinstance(predicate, Or):
        return matches(argument, predicate.first, record) or matches(argument, predicate.second, record)
    return not matches(argument, predicate.inner, record)


def records_in(question: Question, block: bytes) -> List[Record]:
    """The records of a block.

    >>> records_in(Question(1, 2, 2, Bytes(0, b"a"), None, []), b"-aabbcc")
    [b'aa', b'bb']
    """
    rest = block[question.first :]
    return [rest[question.size * at :][: question.size] for at in range(question.count)]


def matching(question: Question, argument: int, block: bytes) -> List[Record]:
    """The records of a block that match."""
    return [record for record in records_in(question, block) if matches(argument, question.wanted, record)]


def cut(some: ByteRange, record: Record) -> bytes:
    """The bytes of a record in a range.

    >>> cut(ByteRange(1, 2), b"abcd")
    b'bc'
    """
    return record[some.offset :][: some.size]


def cuts(some: Optional[ByteRange], records: List[Record]) -> List[bytes]:
    """What is emitted of these records: nothing, where no range is."""
    return [] if some is None else [cut(some, record) for record in records]


def answer(question: Question, argument: int, block: bytes) -> List[bytes]:
    """The answer of a block: what is emitted of its records that match, in order.

    >>> answer(Question(0, 2, 3, Bytes(0, b"a"), ByteRange(1, 1), []), 0, b"a1b2a3")
    [b'1', b'3']
    """
    return cuts(question.emitted, matching(question, argument, block))


def word_in(field: Field, record: Record) -> int:
    """The word that a field of a record is loaded as: its value, in two's complement.

    >>> word_in(Field(1, 0, signed=True), b"\\xff") == 2**64 - 1
    True
    """
    return value_of(field, record) % 2**64


def rank_in(field: Field, record: Record) -> int:
    """How far a field's value is above the least that 64 bits hold of its sign.

    >>> rank_in(Field(1, 0), b"\\2"), rank_in(Field(1, 0, signed=True), b"\\xff") == 2**63 - 1
    (2, True)
    """
    return value_of(field, record) + (2**63 if field.signed else 0)


def tally_step(tally: Tally, record: Record, word: int) -> int:
    """A tally's word with one record more.

    >>> tally_step(Tally("sum", Field(1, 0)), b"\\2", 2**64 - 1), tally_step(Tally("least", Field(1, 0)), b"\\2", 0) == 2**64 - 3
    (1, True)
    """
    if tally.field is None:
        return (word + 1) % 2**64
    steps: Dict[str, int] = {
        "sum": (word + word_in(tally.field, record)) % 2**64,
        "least": max(word, 2**64 - 1 - rank_in(tally.field, record)),
        "greatest": max(word, rank_in(tally.field, record)),
    }
    return steps[tally.kind]


def group_of(by: Optional[Grouping], record: Record) -> Optional[int]:
    """The group of a record, if it has one: the only one, or that of the value of the field.

    >>> [group_of(Grouping(Field(1, 0), 3, 2), record) for record in (b"\2", b"\3", b"\4", b"\5")], group_of(None, b"\2")
    ([None, 0, 1, None], 0)
    """
    if by is None:
        return 0
    value = number_in(by.field, record)
    return value - by.first if by.first <= value < by.first + by.values else None


def tally_from(tally: Tally, records: List[Record], word: int) -> int:
    """A tally of these records, from a word on.

    >>> tally_from(Tally("count"), [b"", b""], 0), tally_from(Tally("greatest", Field(1, 0)), [b"\\2", b"\\7", b"\\3"], 0)
    (2, 7)
    """
    for record in records:
        word = tally_step(tally, record, word)
    return word
