"""Draws a question: a layout, blocks of records, a condition of each form of the language, and what is wanted of the records that match.

docs/command_line.md has the language. What is drawn is at once the words of `zscli query` and a question of meaning.py, from which
its answer follows.
"""

from __future__ import annotations

import struct
from random import Random
from typing import Dict, List, NamedTuple, Optional, Sequence, Tuple

import meaning
from meaning import And, Argument, ByteRange, Bytes, Compare, Field, Grouping, Not, Operand, Or, Predicate, Tally

BLOCKS = (512, 1024, 2048, 4096, 8192, 16384)
ZONES, ZONE = 3, 6
SCRATCH_WORDS = 128
COMPARISONS = ("==", "!=", "<", "<=", ">", ">=")
LETTERS = b'aabc ,"\0\0\xff'


class Column(NamedTuple):
    """What a layout names: a type, an offset, how many bytes there are, and the field, if it is a number."""

    name: str
    kind: str
    offset: int
    size: int
    field: Optional[Field]


class Written(NamedTuple):
    """A condition as text, and what it means; how tightly it holds together: 0 for `||`, 1 for `&&`, 2 for what needs no parentheses."""

    text: str
    means: Predicate
    binds: int = 2


class Wanted(NamedTuple):
    """What is wanted of the records that match: the words, and columns, or tallies with their names in a row and the column by whose value
    there is a row of them, if there is one."""

    words: List[str]
    columns: Sequence[Column] = ()
    tallies: Sequence[Tuple[str, Tally]] = ()
    by: Optional[Column] = None

    def grouping(self) -> Optional[Grouping]:
        """The groups: of a byte all its values, and of a wider field as many as there are words for, a count among them."""
        if self.by is None or self.by.field is None:
            return None
        words = 1 + sum(tally.kind != "count" for _, tally in self.tallies)
        return Grouping(self.by.field, 0, 256 if self.by.size == 1 else SCRATCH_WORDS // words)


class Answer(NamedTuple):
    """What a question's answer has: names, and rows of what records have in these columns, or tallies; and what is emitted of records."""

    names: List[str]
    rows: List[List[object]]
    emitted: bytes


class Drawn(NamedTuple):
    """A question: its files by their names, its words, and its answer, or that it is refused, and how the sentence begins then."""

    files: Dict[str, bytes]
    words: List[str]
    answer: Optional[Answer]
    told: str = ""


def kind_of(field: Field) -> str:
    """The type of a field.

    >>> kind_of(Field(2, 0, signed=True, big=True)), kind_of(Field(1, 0))
    ('i16be', 'u8')
    """
    return f"{'i' if field.signed else 'u'}{8 * field.size}{'be' if field.big else ''}"


def bounds(field: Field) -> Tuple[int, int]:
    """The least and the greatest number of a field's type.

    >>> bounds(Field(1, 0, signed=True)), bounds(Field(2, 0))
    ((-128, 127), (0, 65535))
    """
    bits = 8 * field.size
    return (-(2 ** (bits - 1)), 2 ** (bits - 1) - 1) if field.signed else (0, 2**bits - 1)


class Draw:
    """Draws by a seed."""

    def __init__(self, seed: int) -> None:
        self.rng = Random(seed)
        rng = self.rng
        self.block = rng.choice(BLOCKS)
        self.size = rng.choice([1, 2, 4, 8, 12, 16, 20, 32, 50, 64, 100, 128, 256, 512])
        self.first = rng.choice([0, 0, 0, 4, 17]) if self.size < 512 else 0
        fitting = (self.block - self.first) // self.size
        # a program has so many slots that many records with a long condition need several of them
        self.count = rng.randint(1, min(fitting, 40)) if rng.random() < 0.5 else fitting
        self.argument = rng.choice([0, 1, 2, 7, 255, 2**31, 2**32 - 1, rng.randrange(2**32)])
        self.columns = [self.column(f"{rng.choice(['f', 'field_', 'F_'])}{number}") for number in range(rng.randint(1, 5))]

    def maybe(self, share: float) -> bool:
        """Yes, in this share of the draws."""
        return self.rng.random() < share

    # ---- layouts

    def number(self) -> Field:
        """A number that lies in a record."""
        size = self.rng.choice([size for size in (1, 2, 4, 8) if size <= self.size])
        return Field(size, self.rng.randint(0, self.size - size), self.maybe(0.4), size > 1 and self.maybe(0.3))

    def column(self, name: str) -> Column:
        """A column of any type."""
        if self.maybe(0.75):
            field = self.number()
            return Column(name, kind_of(field), field.offset, field.size, field)
        size = self.rng.randint(1, min(12, self.size))
        return Column(name, f"{self.rng.choice(['text', 'bytes'])}{size}", self.rng.randint(0, self.size - size), size, None)

    def layout(self) -> bytes:
        """A layout's file, with comments and blanks between."""
        head = ["records", str(self.size)]
        if self.first or self.maybe(0.2):
            head += ["from", str(self.first)]
        if self.count != (self.block - self.first) // self.size or self.maybe(0.2):
            head += ["count", str(self.count)]
        rows = [head] + [[column.name, column.kind, f"@{column.offset}"] for column in self.columns]
        lines = [self.rng.choice([" ", " ", "  ", "\t"]).join(row) for row in rows]
        for number in range(len(lines)):
            if self.maybe(0.1):
                lines[number] += self.rng.choice(["  ; what", ";", "\t"])
        if self.maybe(0.2):
            lines.insert(self.rng.randint(0, len(lines)), self.rng.choice(["", "; u32 @0", "  "]))
        return "".join(line + "\n" for line in lines).encode()

    # ---- conditions

    def condition(self, depth: int) -> Written:
        """A condition; parentheses are around what needs them, and around others now and then."""
        if depth == 0 or self.maybe(0.3):
            return self.comparison()
        kind = self.rng.choice(["!", "&&", "&&", "||", "||"])
        if kind == "!":
            inner = self.condition(depth - 1)
            return Written(self.rng.choice(["!", "! "]) + self.within(inner, 2), Not(inner.means))
        binds = 1 if kind == "&&" else 0
        parts = [self.condition(depth - 1) for _ in range(self.rng.choice([2, 2, 2, 3]))]
        # `a && b && c` is `(a && b) && c`: of a part that isn't the first the same sign needs none either, as the order tells nothing
        text = self.rng.choice([kind, f" {kind} ", f"  {kind}\t"]).join(self.within(part, binds) for part in parts)
        means = parts[0].means
        for part in parts[1:]:
            means = And(means, part.means) if kind == "&&" else Or(means, part.means)
        return Written(text, means, binds)

    def within(self, part: Written, binds: int) -> str:
        """A part in another condition."""
        needs = part.binds < binds
        return f"({part.text})" if needs or self.maybe(0.15) else part.text

    def comparison(self) -> Written:
        """A comparison: of a number in one of four forms, or of bytes."""
        form = self.rng.choice(["compare"] * 6 + ["range", "set", "bytes", "text"])
        if form == "bytes":
            return self.some_bytes()
        name, field = self.some_field()
        if form == "text":
            return self.text(name, field)
        if form == "range":
            (low, first), (high, last) = self.operand(field), self.operand(field)
            dots, comparison = self.rng.choice([("..", "<"), ("..=", "<=")])
            means: Predicate = And(Compare(field, ">=", first), Compare(field, comparison, last))
            return Written(f"{name} in {low}{dots}{high}", means)
        if form == "set":
            elements = [self.operand(field) for _ in range(self.rng.randint(1, 4))]
            means = Compare(field, "==", elements[0][1])
            for _, element in elements[1:]:
                means = Or(means, Compare(field, "==", element))
            between = self.rng.choice([", ", ","])
            return Written(f"{name} in {{{between.join(text for text, _ in elements)}}}", means)
        comparison = self.rng.choice(COMPARISONS)
        text, operand = self.operand(field)
        return Written(f"{name}{self.rng.choice([comparison, f' {comparison} '])}{text}", Compare(field, comparison, operand))

    def some_field(self) -> Tuple[str, Field]:
        """A field of the layout by its name, or one without a name."""
        named = [(column.name, column.field) for column in self.columns if column.field is not None]
        if named and self.maybe(0.7):
            return self.rng.choice(named)
        field = self.number()
        return f"{kind_of(field)}@{field.offset}", field

    def operand(self, field: Field) -> Tuple[str, Operand]:
        """What a field is compared with: a number of its type, the argument, or a field of the same sign."""
        choice = self.rng.random()
        if choice < 0.1:
            return "arg", Argument()
        if choice < 0.25:
            name, other = self.some_field()
            if other.signed == field.signed:
                return name, other
        low, high = bounds(field)
        number = self.rng.choice([low, high, 0, 1, 2, 3, -1, 97, 98, 127, 128, 255, 256, self.rng.randint(low, high)])
        number = min(max(number, low), high)
        return (hex(number) if number >= 0 and self.maybe(0.2) else str(number)), number

    def some_bytes(self) -> Written:
        """Bytes that are there, or aren't."""
        length = self.rng.randint(1, min(12, self.size))
        offset = self.rng.randint(0, self.size - length)
        if self.maybe(0.5):
            wanted = bytes(self.rng.choice([0, 0, 1, 97, 255]) for _ in range(length))
            text = f"0x{wanted.hex()}"
        else:
            wanted = bytes(self.rng.choice(b"aabc ,|&)!;") for _ in range(length))
            text = f'"{wanted.decode()}"'
        return self.equals(f"bytes@{offset}", text, Bytes(offset, wanted))

    def text(self, name: str, field: Field) -> Written:
        """A text of as many bytes as a field has, where the field is."""
        wanted = bytes(self.rng.choice(b"aabc ") for _ in range(field.size))
        return self.equals(name, f'"{wanted.decode()}"', Bytes(field.offset, wanted))

    def equals(self, front: str, text: str, means: Bytes) -> Written:
        """These bytes, or others."""
        if self.maybe(0.7):
            return Written(f"{front} == {text}", means)
        return Written(f"{front} != {text}", Not(means))

    # ---- records

    def blocks(self) -> bytes:
        """Blocks whose bytes are often the same."""
        kinds: List[Sequence[int]] = [[0], [0, 1, 2, 3], [0, 0, 255], range(256), LETTERS]
        made = bytearray()
        for _ in range(self.rng.randint(1, ZONE)):
            some = [self.rng.choice(kinds) for _ in range(self.size)]
            # of each place of a record the bytes are of one kind
            made += bytes(self.rng.choice(some[at % self.size]) for at in range(self.block))
        return bytes(made)

    # ---- what is wanted of them

    def wanted(self) -> Wanted:
        """What is wanted."""
        if self.maybe(0.5):
            return self.tallies()
        if self.maybe(0.2):
            return Wanted([], self.columns)
        some = self.rng.sample(self.columns, self.rng.randint(1, len(self.columns)))
        return Wanted(["--select", ",".join(column.name for column in some)], some)

    def tallies(self) -> Wanted:
        """Tallies, of all records that match or of each value of a column."""
        numbers = [column for column in self.columns if column.field is not None]
        named: List[Tuple[str, Tally]] = []
        words: List[str] = []
        for kind in ("sum", "least", "greatest"):
            if numbers and self.maybe(0.6):
                column = self.rng.choice(numbers)
                words += [f"--{kind}", column.name]
                named.append((f"{kind}({column.name})", Tally(kind, column.field)))
        if not words or self.maybe(0.5):
            words.append("--count")
            # it is the first, whatever the order of the words
            named.insert(0, ("count", Tally("count")))
        unsigned = [column for column in numbers if column.field is not None and not column.field.signed]
        if not unsigned or self.maybe(0.5):
            return Wanted(words, tallies=named)
        # few wide fields have small values
        small = [column for column in unsigned if column.size == 1]
        by = self.rng.choice(small if small and self.maybe(0.7) else unsigned)
        return Wanted([*words, "--by", by.name], tallies=named, by=by)

    def drawn(self) -> Drawn:
        """The question."""
        blocks = self.blocks()
        condition = self.condition(self.rng.randint(0, 3))
        wanted = self.wanted()
        by = wanted.grouping()
        by_name = "" if wanted.by is None else wanted.by.name
        if by is not None and by.field.size > 1 and self.maybe(0.7):
            # most values of a wide field have no group
            text = f"{self.within(condition, 1)} && {by_name} < {by.values}"
            condition = Written(text, And(condition.means, Compare(by.field, "<", by.values)), 1)
        emitted = None
        if wanted.columns:
            first = min(column.offset for column in wanted.columns)
            emitted = ByteRange(first, max(column.offset + column.size for column in wanted.columns) - first)
        tallies = [tally for _, tally in wanted.tallies]
        question = meaning.Question(self.first, self.size, self.count, condition.means, emitted, tallies, by)
        asked = [blocks[at : at + self.block] for at in range(0, len(blocks), self.block)]
        words = wanted.words + self.rng.choice([[], ["--csv"], ["--json"], ["--raw"] if wanted.columns else []])
        if self.maybe(0.2):
            asked = asked[: self.rng.randint(1, len(asked))]
            words += ["--blocks", str(len(asked))]
        zone = self.rng.randrange(ZONES)
        front = ["query", "zoned.img", "--zone", str(zone), "--layout", "layout", f"--where={condition.text}"]
        given = ["--argument", str(self.argument)] if self.argument or self.maybe(0.5) else []
        files = {"zoned.img": image(self.block, zone, blocks), "layout": self.layout()}
        records = [record for block in asked for record in meaning.matching(question, self.argument, block)]
        lacking = sum(meaning.group_of(by, record) is None for record in records)
        if by is not None and lacking:
            told = f"--by {by_name}: of the records that match {lacking} have a value of {by.values} or more"
            return Drawn(files, [*front, *given, *words], None, told)
        return Drawn(files, [*front, *given, *words], answer_of(question, records, wanted))

    # ---- questions that can't be asked

    def wrong(self) -> Drawn:
        """One that is to be refused: it has a part that no question may have, among parts that are right."""
        field = self.number()
        low, high = bounds(field)
        there = f"{kind_of(field)}@{field.offset}"
        length = self.rng.randint(1, 9)
        other = Field(field.size, field.offset, not field.signed, field.big)
        wrong = self.rng.choice(
            [
                f"{there} == {high + self.rng.choice([1, 2, 2**64])}",
                f"{there} > {low - 1}",
                f"{there} < {kind_of(other)}@{other.offset}",
                f"u16@{self.size - 1} != 0",
                f"{there} in {{}}",
                f"{there} in 1",
                f"unnamed <= {high}",
                f"{there} = 1",
                f"({there} == 1",
                f"{there} == 1)",
                f'bytes@{self.size - length + 1} == "{"a" * length}"' if length <= self.size else 'bytes@0 == ""',
                "bytes@0 < 0x00",
                "bytes@0 == 0x0",
                f'{there} == "{"a" * (field.size + 1)}"',
                "",
            ]
        )
        right, words = self.condition(2), ["--count"]
        text = wrong if not wrong or self.maybe(0.5) else self.rng.choice([f"({right.text}) && {wrong}", f"{wrong} || {right.text}"])
        if self.maybe(0.2):
            text, words = right.text, self.wrong_groups()
        words = ["query", "zoned.img", "--zone", "0", "--layout", "layout", f"--where={text}", *words]
        return Drawn({"zoned.img": image(self.block, 0, self.blocks()), "layout": self.layout()}, words, None)

    def wrong_groups(self) -> List[str]:
        """The words for groups by what isn't an unsigned field of the layout, or without a tally."""
        column = self.rng.choice(self.columns)
        if column.field is None or column.field.signed:
            return ["--count", "--by", column.name]
        return self.rng.choice([["--by", column.name], ["--count", "--by", "unnamed"], ["--by", column.name, "--select", column.name]])


# ---- answers


def answer_of(question: meaning.Question, records: List[bytes], wanted: Wanted) -> Answer:
    """The answer of a question of which these records match, each of a group."""
    emitted = b"".join(meaning.cuts(question.emitted, records))
    if wanted.columns:
        rows = [[cell(column, record) for column in wanted.columns] for record in records]
        return Answer([column.name for column in wanted.columns], rows, emitted)
    names = [name for name, _ in wanted.tallies]
    if question.by is None or wanted.by is None:
        return Answer(names, [tally_values(question, records)], emitted)
    groups: Dict[int, List[bytes]] = {}
    for record in records:
        group = meaning.group_of(question.by, record)
        assert group is not None
        groups.setdefault(group, []).append(record)
    rows = [[question.by.first + group, *tally_values(question, groups[group])] for group in sorted(groups)]
    return Answer([wanted.by.name, *names], rows, emitted)


def tally_values(question: meaning.Question, records: List[bytes]) -> List[object]:
    """What the words of all tallies of some records say."""
    return [tally_value(tally, records) for tally in question.tallies]


def tally_value(tally: Tally, records: List[bytes]) -> Optional[int]:
    """What a tally's word says: of no record there is no least and no greatest; of a sum the word is in two's complement, if the field is
    signed; the word of a greatest is its rank, and that of a least has the rank subtracted.

    >>> tally_value(Tally("least", Field(1, 0)), [b"\\3", b"\\2"]), tally_value(Tally("least", Field(1, 0)), [])
    (2, None)
    >>> [tally_value(Tally(kind, Field(1, 0, signed=True)), [b"\\xfe", b"\\1"]) for kind in ("sum", "least", "greatest")]
    [-1, -2, 1]
    """
    word, signed = meaning.tally_from(tally, records, 0), tally.field is not None and tally.field.signed
    if tally.kind in ("least", "greatest"):
        rank = 2**64 - 1 - word if tally.kind == "least" else word
        return rank - (2**63 if signed else 0) if records else None
    return meaning.twos_complement(8, word) if signed else word


def cell(column: Column, record: bytes) -> object:
    """What a row has in a column.

    >>> cell(Column("a", "text4", 0, 4, None), b"a \\0 "), cell(Column("a", "bytes2", 1, 2, None), b"abc")
    ('a', '0x6263')
    """
    if column.field is not None:
        return meaning.value_of(column.field, record)
    some = record[column.offset : column.offset + column.size]
    if column.kind.startswith("text"):
        try:
            return some.rstrip(b"\0 ").decode()
        except UnicodeDecodeError:
            pass
    return f"0x{some.hex()}"


def image(block: int, zone: int, blocks: bytes) -> bytes:
    """An image (docs/device.md), of which one zone has these blocks; it is open, or Full.

    >>> len(image(512, 1, bytes(1024)))
    1112
    """
    written = len(blocks) // block
    header = b"ZNSIMG02" + struct.pack("<6I", block, ZONES, ZONE, ZONE, ZONES, ZONES) + struct.pack("<Q", written) + bytes(24)
    state = 0xE if written == ZONE else 2
    rows = [struct.pack("<B3xI", state, written) if number == zone else struct.pack("<B3xI", 1, 0) for number in range(ZONES)]
    return header + b"".join(rows) + blocks


def draw(seed: int) -> Drawn:
    """The question of a seed. One of ten can't be asked."""
    drawing = Draw(seed)
    return drawing.wrong() if seed % 10 == 0 else drawing.drawn()
