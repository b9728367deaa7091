"""Questions about the records of a zone, which programs on a device of pifnjarl.py answer beside the data.

`query` asks one device, `Question.ask_image` an image by its path, and `query_all` several side by side. The condition, the layout and the
words are those of `zscli query`, which makes the programs, and whose sentences a wrong question gets.

    >>> with example() as device:
    ...     device.query(0, LAYOUT, "region == 3", select=["order", "price"])
    [Row(order='order 1', price=20), Row(order='order 3', price=400)]
    >>> with example() as device:
    ...     device.query(0, LAYOUT, "region == arg", argument=3, count=True, sum="price", least="price")
    Tallies(count=2, sum=420, least=20, greatest=None)

A layout is the text of a layout file, its path, a list of fields, each with its name, its type and its offset, or a dtype of numpy; of a
dtype the rows are an array of that dtype.

What a question takes of a device: an Empty zone, which is open meanwhile and Empty again at the end, and free slots, of which there is
one at least. A program stays in its slot, since no command removes one; the next question of the same device takes the same slots. To
open the zone, the device may close one that is implicitly open. Where an exception leaves a run active, as Ctrl-C can, its zone isn't
reset.
"""

from __future__ import annotations

import importlib
import json
import os
import re
import struct
import subprocess
import sys
import tempfile
from collections import namedtuple
from concurrent.futures import Executor, wait
from contextlib import contextmanager, suppress
from dataclasses import dataclass
from pathlib import Path
from typing import Any, Callable, ContextManager, Dict, Iterator, List, Mapping, NamedTuple, Optional, Sequence, Tuple, Union

import pifnjarl
from pifnjarl import Commands, Device, DeviceError, FilePath, Zone, ZoneState

Field = Sequence[Any]
"""A field of a layout: its name, its type and its offset; without an offset it begins where the field before it ends."""

Layout = Union[FilePath, Sequence[Field], Any]
"""The text of a layout file, its path, a list of fields, or a dtype of numpy."""

# ---- errors, each with one sentence


class QuestionRefused(DeviceError):
    """The question can't be asked. The text is the sentence of `zscli query`.

    >>> with example() as device:
    ...     device.query(0, LAYOUT, "regon == 3")
    Traceback (most recent call last):
    pifnjarl_query.QuestionRefused: --where, column 1: the layout has no field of this name; without a name a field is written as u32@8
      regon == 3
      ^
    """


class NoZoneFree(DeviceError):
    """No zone can be opened for what the programs append."""


class NoSlotFree(DeviceError):
    """Each slot has a program that was loaded otherwise."""


class AnswerDamaged(DeviceError):
    """What the device appended aren't the records that its run counted."""


# ---- words


class _Tally(NamedTuple):
    """What is done with a tally of a field, which is signed or not: how its value is had of its word in scratch, and how the values of
    several runs come to one."""

    value: Callable[[int, bool], int]
    joined: Callable[[Sequence[int], bool], int]


def _number(word: int, signed: bool) -> int:
    """A word of 64 bits as a number, in two's complement if it is signed.

    >>> _number(2**64 - 1, True), _number(2**64 - 1, False)
    (-1, 18446744073709551615)
    """
    return word - 2**64 if signed and word >> 63 else word


def _above_least(rank: int, signed: bool) -> int:
    """The number that is so far above the least one of 64 bits.

    >>> _above_least(1, False), _above_least(2**63 - 2, True)
    (1, -2)
    """
    return rank - 2**63 if signed else rank


def _total(numbers: Sequence[int], signed: bool) -> int:
    """A sum modulo 2^64."""
    return _number(sum(numbers) % 2**64, signed)


# the words by which records are tallied, in the order of their words in scratch, which docs/command_line.md has
_TALLIES = {
    "count": _Tally(_number, _total),
    "sum": _Tally(_number, _total),
    "least": _Tally(lambda word, signed: _above_least(2**64 - 1 - word, signed), lambda values, _: min(values)),
    "greatest": _Tally(_above_least, lambda values, _: max(values)),
}

# all words of `zscli query` that say what is wanted
_WORDS = ("select", *_TALLIES, "by")


def _options(words: Mapping[str, Any]) -> List[str]:
    """The options of `zscli query` for words.

    >>> _options({"select": ["order", "price"], "sum": None}), _options({"count": True, "least": "price"})
    (['--select=order,price'], ['--count', '--least=price'])
    """
    found = []
    for name, value in words.items():
        if name not in _WORDS:
            raise TypeError(f"a question has no word {name!r}; its words are {', '.join(_WORDS)}")
        if value is None or value is False:
            continue
        if (value is True) != (name == "count"):
            raise TypeError("count is True or False" if name == "count" else f"{name} wants the name of a field")
        fields = value if value is True else _names(value)
        if not fields:
            raise ValueError(f"{name} names no field")
        found.append(f"--{name}" if value is True else f"--{name}={fields}")
    return found


def _names(value: Any) -> str:
    """The name of a field, or the names of several with commas between them."""
    return value if isinstance(value, str) else ",".join(value)


# ---- layouts


class Column(NamedTuple):
    """What records have in a column: a name, a kind, which is u, i, text or bytes, the number of its bytes, whether the highest comes
    first, and how many bytes of the record come before it."""

    name: str
    kind: str
    size: int
    big: bool
    offset: int


def layout_of(layout: Union[Sequence[Field], Any], *, size: Optional[int] = None, first: int = 0, count: Optional[int] = None) -> str:
    """The text of a layout file, of a list of fields or a dtype. A record has `size` bytes: without it as many as the dtype, or as the
    fields take. `first` bytes of a block come before its first record, and `count` records are in a block: without it as many as fit.

    >>> print(layout_of([("order", "text8"), ("region", "u32")], size=64, count=1), end="")
    records 64 from 0 count 1
    order text8 @0
    region u32 @8
    """
    dtype: Any = layout if _is_dtype(layout) else None
    placed, end = [], 0
    for name, kind, *offsets in layout if dtype is None else _fields_of_dtype(dtype):
        if not re.fullmatch(r"[A-Za-z_]\w*", name, re.ASCII):
            raise ValueError(f"{name!r} is no name of a field: letters, digits and _, no digit first")
        if not re.fullmatch(r"\w+", kind, re.ASCII):
            raise ValueError(f"{kind!r} is no type of a field, as u32, i16be, text8 and bytes12 are")
        [offset] = offsets or [end]
        end = offset + _bytes_of(kind)
        placed.append((name, kind, offset))
    if size is None:
        size = max((offset + _bytes_of(kind) for _, kind, offset in placed), default=0) if dtype is None else dtype.itemsize
    several = "" if count is None else f" count {count}"
    lines = [f"{name} {kind} @{offset}\n" for name, kind, offset in placed]
    return f"records {size} from {first}{several}\n" + "".join(lines)


def _bytes_of(kind: str) -> int:
    """How many bytes a field of a type has.

    >>> _bytes_of("i16be"), _bytes_of("text8")
    (2, 8)
    """
    found = re.match(r"(\D*)(\d+)", kind)
    if found is None:
        return 0
    return int(found[2]) // (8 if found[1] in ("u", "i") else 1)


def _is_dtype(layout: object) -> bool:
    """Is it a dtype of numpy? One that was made has read numpy."""
    numpy = sys.modules.get("numpy")
    return numpy is not None and isinstance(layout, numpy.dtype)


def _fields_of_dtype(dtype: Any) -> List[Field]:
    """The fields of a dtype. What is neither a number without a point nor text is bytes."""
    if dtype.names is None:
        raise ValueError(f"{dtype!r} has no fields")
    return [(name, _kind_of_dtype(dtype.fields[name][0]), dtype.fields[name][1]) for name in dtype.names]


def _kind_of_dtype(dtype: Any) -> str:
    """The type of a field of a dtype."""
    letter = {"u": "u", "b": "u", "i": "i", "m": "i", "M": "i"}.get(dtype.kind)
    if letter is not None:
        return f"{letter}{8 * dtype.itemsize}{'be' if dtype.str[0] == '>' and dtype.itemsize > 1 else ''}"
    return f"{'text' if dtype.kind == 'S' else 'bytes'}{dtype.itemsize}"


def _text_of(layout: Layout) -> Tuple[str, str]:
    """The name of a layout's file, which the sentences of `zscli` have, and its text. A text has lines, or begins with `records`; another
    one is a path.

    >>> _text_of("records 64")
    ('layout', 'records 64')
    """
    if isinstance(layout, str) and ("\n" in layout or layout.split()[:1] == ["records"]):
        return "layout", layout
    if not isinstance(layout, (str, os.PathLike)):
        return "layout", layout_of(layout)
    path = Path(layout)
    try:
        return path.name, path.read_text(encoding="utf-8")
    except OSError as error:
        raise DeviceError(f"{layout}: {(error.strerror or str(error)).lower()}; name a layout file, or give its text") from None


def _signed_fields(text: str) -> List[str]:
    """The names of the signed fields of a layout.

    >>> _signed_fields("records 8 ; of\\nheight i16be@0\\n\\tprice u32  @4 ; i32\\n;low i8 @2\\n")
    ['height']
    """
    lines = [line.partition(";")[0].split() for line in text.split("\n")]
    return [line[0] for line in lines if line[1:] and line[1].startswith("i")]


# ---- what comes of a question


@dataclass(frozen=True)
class Tallies:
    """What the records that match come to: how many they are, and of a field that was asked for the sum modulo 2^64, and the least and
    the greatest value, of which there is none for no record."""

    count: int
    sum: Optional[int] = None
    least: Optional[int] = None
    greatest: Optional[int] = None


# (mypy wants the names of a tuple to be written out)
_ROW: Any = namedtuple


class _Rows:
    """Records, of which columns are wanted. A piece of the answer is the bytes of records, from the first column to the end of the last."""

    appends = True
    form = "--raw"

    def __init__(self, columns: List[Column]) -> None:
        self.columns = columns
        self.offset = min(column.offset for column in columns)
        self.size = max(column.offset + column.size for column in columns) - self.offset

    def piece(self, device: Commands, slot: int, lba: int, done: pifnjarl.Result) -> bytes:
        """What a run appended from an LBA on."""
        return unpacked(device.read(lba, done.blocks), device.geometry.block, self.size, done.records)

    def printed(self, text: bytes) -> bytes:
        """What `zscli query` printed in this form."""
        return text

    def answer(self, pieces: Sequence[Any]) -> Any:
        """A row for each record."""
        records = b"".join(pieces)
        cells = [_reader(column, column.offset - self.offset) for column in self.columns]
        row = _ROW("Row", [column.name for column in self.columns], rename=True)
        return [row(*[cell(records, at) for cell in cells]) for at in range(0, len(records), self.size)]


class _Array(_Rows):
    """The same as an array of numpy."""

    def __init__(self, columns: List[Column], dtype: Any, is_whole: bool) -> None:
        """`is_whole` wants all of the dtype, also the bytes that are of no column, which are zeros."""
        super().__init__(columns)
        self.dtype, self.is_whole = dtype, is_whole

    def answer(self, pieces: Sequence[Any]) -> Any:
        """An element for each record."""
        numpy: Any = importlib.import_module("numpy")
        records = numpy.array(bytearray().join(pieces), "u1")
        records = records.reshape(len(records) // self.size, self.size)
        if self.is_whole:
            rows = numpy.zeros(len(records), self.dtype)
            rows.view("u1").reshape(len(records), self.dtype.itemsize)[:, self.offset : self.offset + self.size] = records
            return rows
        formats = [_format_of(column) if self.dtype is None else self.dtype.fields[column.name][0] for column in self.columns]
        offsets = [column.offset - self.offset for column in self.columns]
        names = [column.name for column in self.columns]
        dtype = numpy.dtype({"names": names, "formats": formats, "offsets": offsets, "itemsize": self.size})
        return records.reshape(-1).view(dtype)


class _Tallied:
    """Tallies. A piece of the answer is those of a run."""

    appends = False
    form = "--json"

    def __init__(self, names: List[str], signed: List[bool]) -> None:
        """The names, which begin with the count, and which of them are of a signed field."""
        self.names, self.signed = names, signed

    def piece(self, device: Commands, slot: int, lba: int, done: pifnjarl.Result) -> Tallies:
        """What a run left in scratch."""
        words = struct.unpack_from(f"<{len(self.names)}Q", device.result(slot))
        # a count of 0 stands for 2^64 records too, which no device has
        values = [_TALLIES[name].value(word, signed) for name, word, signed in zip(self.names, words, self.signed)]
        return self._of(values, words[0] == 0)

    def printed(self, text: bytes) -> Any:
        """What `zscli query` printed in this form: one row, whose columns are these."""
        [row] = json.loads(text)
        return Tallies(**dict(zip(self.names, row.values())))

    def answer(self, pieces: Sequence[Any]) -> Any:
        """The tallies of all pieces."""
        return self._joined(pieces)

    def _joined(self, pieces: Sequence[Tallies]) -> Tallies:
        """What some tallies come to together."""
        columns = [[value for piece in pieces if (value := getattr(piece, name)) is not None] for name in self.names]
        joined = [_TALLIES[name].joined(values or [0], signed) for name, values, signed in zip(self.names, columns, self.signed)]
        return self._of(joined, not any(piece.count for piece in pieces))

    def _of(self, values: Sequence[int], is_none: bool) -> Tallies:
        """Tallies of these values; of no record there is no least and no greatest."""
        named: Dict[str, Any] = dict(zip(self.names, values))
        if is_none:
            named.update({name: None for name in ("least", "greatest") if name in named})
        return Tallies(**named)


class _Grouped(_Tallied):
    """Tallies of each value of a field that is there. A piece of the answer is those of an image."""

    def printed(self, text: bytes) -> Any:
        """What `zscli query` printed in this form: a row of each value, which comes first."""
        # (the value's column may have the name of a tally's)
        rows = json.loads(text, object_pairs_hook=lambda pairs: [value for _, value in pairs])
        return {value: Tallies(**dict(zip(self.names, row))) for value, *row in rows}

    def answer(self, pieces: Sequence[Any]) -> Any:
        """The tallies of all pieces, in the order of the values."""
        values = sorted({value for piece in pieces for value in piece})
        return {value: self._joined([piece[value] for piece in pieces if value in piece]) for value in values}


class Part(NamedTuple):
    """A part of an answer, which `joined` puts together with others."""

    answers: Union[_Rows, _Tallied]
    pieces: List[Any]


def joined(parts: Sequence[Part]) -> Any:
    """The answer of its parts, in their order: rows one after another, or the tallies of all.

    >>> question = Question(LAYOUT, "region == 1", select=["price"])
    >>> with example() as one, example() as other:
    ...     joined([question.part(one, 0), question.part(other, 0)])
    [Row(price=3), Row(price=3)]
    """
    return parts[0].answers.answer([piece for part in parts for piece in part.pieces])


def unpacked(appended: bytes, block: int, size: int, count: int) -> bytes:
    """The records in blocks of so many bytes that a run appended, one after another. They have so many bytes each, and are so many;
    after the records of a block there are zeros.

    >>> unpacked(b"\\x02\\x00hi\\x02\\x00ho".ljust(512, b"\\0"), 512, size=2, count=2)
    b'hiho'
    >>> unpacked(b"\\x02\\x00hi\\x02\\x00ho".ljust(512, b"\\0"), 512, size=2, count=3)
    Traceback (most recent call last):
    pifnjarl_query.AnswerDamaged: the run emitted 3 records, and the blocks that it appended have 2
    """
    # a record has its length before it, in two bytes, the lower first
    length = re.escape(size.to_bytes(2, "little"))
    record = re.compile(length + b"(.{%d})" % size, re.S)
    records = re.compile(b"(?:%s.{%d})*" % (length, size), re.S)
    found: List[bytes] = []
    for start in range(0, len(appended), block):
        end = start + block
        front = records.match(appended, start, end)
        at = start if front is None else front.end()
        if appended.count(0, at, end) != end - at:
            raise AnswerDamaged(f"from byte {at} on there is neither a record of {size} bytes nor zeros to the end of its block")
        found += record.findall(appended, start, at)
    if len(found) != count:
        raise AnswerDamaged(f"the run emitted {count} records, and the blocks that it appended have {len(found)}")
    return b"".join(found)


def _reader(column: Column, offset: int) -> Callable[[bytes, int], object]:
    """What reads a column, at an offset of the record that begins at a byte. Text is given without the zeros and blanks after it, and as
    bytes where it isn't UTF-8."""
    if column.kind in ("u", "i"):
        letter = {1: "b", 2: "h", 4: "i", 8: "q"}[column.size]
        number = struct.Struct(("<", ">")[column.big] + (letter.upper() if column.kind == "u" else letter))
        return lambda records, at: number.unpack_from(records, at + offset)[0]

    def text(records: bytes, at: int) -> object:
        part = records[at + offset : at + offset + column.size]
        with suppress(UnicodeDecodeError):
            return part.rstrip(b"\0 ").decode() if column.kind == "text" else part
        return part

    return text


def _format_of(column: Column) -> str:
    """A column's type in numpy.

    >>> _format_of(Column("price", "i", 2, True, 0)), _format_of(Column("what", "text", 16, False, 8))
    ('>i2', 'S16')
    """
    letter = {"text": "S", "bytes": "V"}.get(column.kind)
    return f"{('<', '>')[column.big]}{column.kind}{column.size}" if letter is None else f"{letter}{column.size}"


# ---- questions


class _Program(NamedTuple):
    """A program's bytes, and the most that it emits for a block."""

    code: bytes
    emit: int


class _Compiled(NamedTuple):
    """What a question comes to for blocks of one size: its programs, and what comes of them."""

    programs: List[_Program]
    answers: Union[_Rows, _Tallied]


_SELECT = re.compile(r"^select: (.*)$", re.M)
_COLUMN = re.compile(r"(\w+) (u|i|text|bytes)(\d+)(be)? @(\d+)")
_PROGRAM = re.compile(r"^program: .* \(--emit (\d+)\)$", re.M)


class Question:
    """A question, which can be asked of each zone of each device. Its programs are made when a device with blocks of a size is asked
    first.

    >>> question = Question(LAYOUT, "region == arg", count=True)
    >>> with example() as device:
    ...     [question.ask(device, 0, argument=region).count for region in (1, 2, 3)]
    [1, 0, 2]
    """

    def __init__(self, layout: Layout, where: str, *, numpy: bool = False, program: Optional[FilePath] = None, **words: Any) -> None:
        """The words are `select`, with a name of a field or several, `count=True`, `sum`, `least` and `greatest`, each with a name, and
        `by` with a name beside these. `program` is `zscli`, which makes the programs."""
        self._file, self._text = _text_of(layout)
        self._dtype: Any = layout if _is_dtype(layout) else None
        self._numpy, self._zscli = numpy, program
        if any(words.get(name) for name in _TALLIES):
            # how many records match says whether there is a least and a greatest, also of several answers
            words = {**words, "count": words.get("count") or True}
        self._options = [f"--where={where}", *_options(words)]
        self._names = [name for name in _TALLIES if words.get(name)]
        # of the fields that are tallied the layout says the types
        signed = _signed_fields(self._text)
        self._signed = [name != "count" and _names(words[name]) in signed for name in self._names]
        self._is_grouped = bool(words.get("by"))
        self._is_whole = words.get("select") is None
        self._compiled: Dict[int, _Compiled] = {}

    def compile(self, block: int) -> None:
        """Makes the programs for blocks of so many bytes, if they aren't there yet. Of a wrong question it raises `QuestionRefused`, and of
        one with `by`, whose words only `zscli query` reads."""
        if self._is_grouped:
            raise QuestionRefused("by: only an image or a journal is asked for tallies of each value, by Question.ask_image or query_all")
        if block not in self._compiled:
            told = self._told(f"--block={block}", "--explain")
            programs = [_Program(self._program(block, part), int(emit)) for part, emit in enumerate(_PROGRAM.findall(told))]
            self._compiled[block] = _Compiled(programs, self._answers(told))

    def ask(
        self,
        device: Commands,
        zone: int,
        *,
        blocks: Optional[int] = None,
        argument: int = 0,
        into: Optional[int] = None,
        slots: Optional[Sequence[int]] = None,
    ) -> Any:
        """Asks about the written blocks of a zone, or the first of them, and gives the answer: see `Commands.query`."""
        return joined([self.part(device, zone, blocks=blocks, argument=argument, into=into, slots=slots)])

    def part(
        self,
        device: Commands,
        zone: int,
        *,
        blocks: Optional[int] = None,
        argument: int = 0,
        into: Optional[int] = None,
        slots: Optional[Sequence[int]] = None,
    ) -> Part:
        """Asks as `ask` does, and gives the answer as a part of that of several zones and devices."""
        self.compile(device.geometry.block)
        compiled = self._compiled[device.geometry.block]
        zones = device.report()
        source = next((other for other in zones if other.start == zone), None)
        if source is None:
            raise ValueError(f"{zone} is the lowest LBA of no zone")
        _check_blocks(blocks)
        if blocks is None and source.write_pointer is not None:
            blocks = source.write_pointer - source.start
        if blocks == 0:
            return Part(compiled.answers, [])
        appends = compiled.answers.appends
        to = _answer_zone(zones, source, into, appends)
        asking = _Asking(device, compiled.programs, argument, source, to, _slots(device, len(compiled.programs), slots))
        if blocks is None:
            blocks = asking.written()
        with asking.opened():
            return Part(compiled.answers, [compiled.answers.piece(device, *run) for run in asking.runs(blocks, appends)])

    def ask_image(self, image: FilePath, zone: int, *, blocks: Optional[int] = None, argument: int = 0) -> Any:
        """Asks an image or a journal that no program has: `zscli query` asks a device in memory, and the file stays as it is.

        >>> with tempfile.TemporaryDirectory() as folder:
        ...     image = Path(folder) / "zoned.img"
        ...     geometry = pifnjarl.format_image(image)
        ...     with pifnjarl.Device(image) as device:
        ...         first = device.append(64, struct.pack("<8sII48x8sII", b"desk", 3, 90, b"lamp", 3, 20).ljust(512, b"\\0"))
        ...     Question(LAYOUT, "price != 0", sum="price", by="region").ask_image(image, 64)
        {3: Tallies(count=2, sum=110, least=None, greatest=None)}
        """
        return joined([self.part_of_image(image, zone, blocks=blocks, argument=argument)])

    def part_of_image(self, image: FilePath, zone: int, *, blocks: Optional[int] = None, argument: int = 0) -> Part:
        """Asks as `ask_image` does, and gives the answer as a part of that of several."""
        geometry = pifnjarl.geometry_of(image)
        number, rest = divmod(zone, geometry.zone_size)
        if rest or not 0 <= number < geometry.zones:
            raise ValueError(f"{zone} is the lowest LBA of no zone of {os.fspath(image)}")
        _check_blocks(blocks)
        answers = self._answers(self._told(f"--block={geometry.block}", "--explain"))
        path = os.path.abspath(image)
        if blocks is None and self._is_unwritten(path, number):
            return Part(answers, [])
        first = [] if blocks is None else [f"--blocks={blocks}"]
        words = [f"--zone={number}", f"--argument={argument}", *first, answers.form]
        return Part(answers, [answers.printed(self._printed(*words, path))])

    def _is_unwritten(self, image: str, number: int) -> bool:
        """Is no block of an image's zone written? One that is Offline is refused by `zscli query`."""
        line = self._ran("zones", image).decode().split("\n")[number]
        _, state, written = line.split()
        return written == "0" and state != "offline"

    def _answers(self, told: str) -> Union[_Rows, _Tallied]:
        """What comes of the question, by what `zscli` says of it."""
        selected = _SELECT.search(told)
        if selected is None:
            return (_Grouped if self._is_grouped else _Tallied)(self._names, self._signed)
        columns = [
            Column(name, kind, int(number) // (8 if kind in ("u", "i") else 1), big == "be", int(offset))
            for name, kind, number, big, offset in _COLUMN.findall(selected[1])
        ]
        if self._dtype is not None or self._numpy:
            return _Array(columns, self._dtype, self._dtype is not None and self._is_whole)
        return _Rows(columns)

    def _program(self, block: int, part: int) -> bytes:
        """The bytes of one of the programs."""
        with tempfile.TemporaryDirectory() as folder:
            file = Path(folder) / "program"
            self._told(f"--block={block}", f"--program={file}", f"--part={part}")
            return file.read_bytes()

    def _told(self, *words: str) -> str:
        """What `zscli query` says of the question."""
        return self._printed(*words).decode()

    def _printed(self, *words: str) -> bytes:
        """What `zscli query` prints. In sentences the layout has its file's name alone."""
        with tempfile.TemporaryDirectory() as folder:
            file = Path(folder) / self._file
            file.write_text(self._text, encoding="utf-8")
            return self._ran("query", f"--layout={file}", *self._options, *words, hidden=f"{folder}{os.sep}")

    def _ran(self, *words: str, hidden: str = "") -> bytes:
        """What `zscli` prints. A failure is raised, with its sentence, in which a part may be hidden."""
        ran = subprocess.run([pifnjarl.zscli(self._zscli), *words], stdin=subprocess.DEVNULL, capture_output=True, check=False)
        if ran.returncode == 0:
            return ran.stdout
        told = ran.stderr.decode(errors="replace").strip().replace(hidden, "")
        if ran.returncode == 3:
            # the line at the end is for programs
            raise QuestionRefused(told.rpartition("\n")[0])
        raise DeviceError(told or f"zscli ended with status {ran.returncode}")


def _check_blocks(blocks: Optional[int]) -> None:
    """A question is about one block at least."""
    if blocks is not None and blocks < 1:
        raise ValueError(f"a question is about 1 block or more, and not about {blocks}")


# ---- several devices

Asked = Union[Commands, FilePath, Callable[[], ContextManager[Commands]]]
"""What is asked: a device; the path of an image or a journal, whose file stays as it is; or what opens a device for `with`, as
`functools.partial(pifnjarl.Device, "zoned.img", durable=True)`."""


def query_all(
    devices: Sequence[Asked],
    zone: Union[int, Sequence[int]],
    layout: Layout,
    where: str,
    *,
    executor: Union[Executor, Any],
    blocks: Optional[int] = None,
    argument: int = 0,
    slots: Optional[Sequence[int]] = None,
    numpy: bool = False,
    program: Optional[FilePath] = None,
    **words: Any,
) -> Any:
    """Asks several devices one question side by side, each in a call of an executor, and gives one answer: rows in the order of the
    devices, or the tallies of them all; with `by`, which is for images alone, those of each value. The zone is one for all, or one for
    each; the words are those of `Question`. It ends when all devices are done; if one fails, its error is raised, of several the first in
    the order of the devices.

    An executor is one of `concurrent.futures`, or a `distributed.Client` of Dask. A device that is open can be asked in a thread of this
    process alone; other processes and machines get an image's path, or a function that opens a device there, of a module that they have.

    >>> from concurrent.futures import ThreadPoolExecutor
    >>> with ThreadPoolExecutor() as executor, example() as one, example() as other:
    ...     query_all([one, other], 0, LAYOUT, "price > 10", executor=executor, sum="price").sum
    840
    """
    zones = [zone] * len(devices) if isinstance(zone, int) else list(zone)
    if not devices or len(zones) != len(devices):
        raise ValueError(f"{len(devices)} devices are asked about {len(zones)} zones")
    opened = [device for device in devices if isinstance(device, Commands)]
    if len({id(device) for device in opened}) != len(opened):
        raise ValueError("a device is asked twice at a time; ask one after another, or name two devices")
    question = Question(layout, where, numpy=numpy, program=program, **words)
    for device in opened:
        question.compile(device.geometry.block)
    if hasattr(executor, "get_executor"):
        # a client of Dask takes the same call for one that needn't be made again, if it isn't told
        executor = executor.get_executor(pure=False)
    under_way = []
    try:
        for asked, its_zone in zip(devices, zones):
            under_way.append(executor.submit(_part_of, question, asked, its_zone, blocks, argument, slots))
    finally:
        wait(under_way)
    return joined([done.result() for done in under_way])


def _part_of(
    question: Question, asked: Asked, zone: int, blocks: Optional[int], argument: int, slots: Optional[Sequence[int]]
) -> Part:
    """What one device answers. An executor may have this called in another process."""
    if isinstance(asked, Commands):
        return question.part(asked, zone, blocks=blocks, argument=argument, slots=slots)
    if isinstance(asked, (str, os.PathLike)):
        return question.part_of_image(asked, zone, blocks=blocks, argument=argument)
    with asked() as device:
        return question.part(device, zone, blocks=blocks, argument=argument, slots=slots)


# ---- a device that is asked

_SLOTS = range(8)
_MOST_BLOCKS = 65536
_OPEN = (ZoneState.IMPLICITLY_OPENED, ZoneState.EXPLICITLY_OPENED)


def _answer_zone(zones: List[Zone], source: Zone, into: Optional[int], appends: bool) -> Zone:
    """The zone for what the programs append: the one that is named, or the first that is Empty; where nothing is appended, else one
    that is open."""
    others = [other for other in zones if other.start != source.start and into in (None, other.start)]
    for states in ((ZoneState.EMPTY,), () if appends else _OPEN):
        for other in others:
            if other.state in states:
                return other
    if into is None:
        raise NoZoneFree("no zone is Empty for the answer; reset one whose blocks aren't wanted any more")
    if not others:
        raise ValueError(f"into={into} is the lowest LBA of no other zone")
    raise NoZoneFree(f"the zone of LBA {into} isn't Empty, and the answer is appended to it and reset")


class _Asking:
    """A device that is asked about a zone, with another one for what the programs append, and slots for them, which are one or more."""

    def __init__(self, device: Commands, programs: List[_Program], argument: int, source: Zone, to: Zone, slots: List[int]) -> None:
        self._device, self._programs, self._argument, self._source, self._to = device, programs, argument, source, to
        self._slots = slots
        if device._is_shared:
            # whatever this one loaded before, another host may have loaded over it
            device._question_slots = dict.fromkeys(device._question_slots)
        # how many blocks are appended since the zone was empty
        self._used = 0

    def written(self) -> int:
        """How many blocks are written of a zone of which no report says it, as of one that is Full or Read Only: a run that is tried
        before the answer's zone is open is refused with a status by which it is known. The last block is tried first."""
        least, most = 0, self._source.capacity
        tried = most
        while least < most:
            if self._is_written(self._source.start + tried - 1):
                least = tried
            else:
                most = tried - 1
            tried = (least + most + 1) // 2
        return least

    def _is_written(self, lba: int) -> bool:
        """Is a block written? (Where the answer's zone was open before, nothing is appended to it, and the run is done.)"""
        try:
            self._device.run(self._held(0), lba, 1, to=self._to.start).wait()
        except pifnjarl.SourceNotWritten:
            return False
        except pifnjarl.DestinationNotOpen:
            pass
        return True

    @contextmanager
    def opened(self) -> Iterator[None]:
        """The answer's zone is open meanwhile, and at the end as it was."""
        if self._to.state != ZoneState.EMPTY:
            yield
            return
        try:
            self._device.open(self._to.start)
        except (pifnjarl.TooManyActiveZones, pifnjarl.TooManyOpenZones) as refused:
            raise NoZoneFree("no more zones can be open for the answer; finish, close or reset one") from refused
        try:
            yield
        except BaseException:
            # what goes wrong isn't covered by what fails then
            with suppress(DeviceError):
                self._device.reset(self._to.start)
            raise
        self._device.reset(self._to.start)

    def runs(self, blocks: int, appends: bool) -> Iterator[Tuple[int, int, pifnjarl.Result]]:
        """Runs the programs over so many blocks, and gives of each run that has ended the slot, where it began to append, and what it
        came to."""
        # the records of several programs come in order where each run is over one block; what a run appends fits an empty zone, as no
        # program emits more than a block for one
        most = 1 if appends and len(self._programs) > 1 else _MOST_BLOCKS
        for before in range(0, blocks, most):
            for index in range(len(self._programs)):
                yield self._run(index, self._source.start + before, min(most, blocks - before))

    def _run(self, index: int, lba: int, blocks: int) -> Tuple[int, int, pifnjarl.Result]:
        """Runs a program over blocks, to its end."""
        program, slot = self._programs[index], self._held(index)
        # what is emitted for so many blocks goes into one, whatever matches
        needed = -(-blocks // (self._device.geometry.block // program.emit)) if program.emit else 0
        if self._used + needed > self._device.geometry.zone_capacity:
            self._device.reset(self._to.start)
            self._device.open(self._to.start)
            self._used = 0
        done = self._device._run_to_end(slot, lba, blocks, self._to.start, self._argument)
        at, self._used = self._to.start + self._used, self._used + done.blocks
        return slot, at, done

    def _held(self, index: int) -> int:
        """The slot of a program, which is loaded there where it isn't yet."""
        slot, program = self._slots[index % len(self._slots)], self._programs[index]
        if self._device._question_slots.get(slot) != program:
            self._device.load(slot, program.code, emit=program.emit)
            self._device._question_slots[slot] = program
        return slot


def _slots(device: Commands, most: int, named: Optional[Sequence[int]]) -> List[int]:
    """Slots for so many programs, or fewer: of those that are named, or those that questions took before, and those that have no program,
    the highest first."""
    if named is not None:
        if not named or not set(named) <= set(_SLOTS):
            raise ValueError(f"slots={list(named)!r} names no slots from 0 to {_SLOTS[-1]}")
        return list(dict.fromkeys(named))[:most]
    found = sorted(device._question_slots, reverse=True)[:most]
    for slot in reversed(_SLOTS):
        if len(found) < most and slot not in device._question_slots:
            try:
                device.result(slot)
            except pifnjarl.NoSuchProgram:
                found.append(slot)
    if not found:
        raise NoSlotFree(f"each of the {len(_SLOTS)} slots has a program, and a question needs one; name one to be replaced, as slots=[7]")
    return found


# ---- examples

LAYOUT = """\
records 64
order text8 @0
region u32 @8
price u32 @12
"""
"""A layout for examples: 8 orders in a block of 512 bytes."""


@contextmanager
def example() -> Iterator[Device]:
    """A device for examples, whose first zone has a block with three orders, and zeros.

    >>> with example() as device:
    ...     device.query(0, LAYOUT, "price != 0", select=["region", "price"])
    [Row(region=3, price=20), Row(region=1, price=3), Row(region=3, price=400)]
    """
    orders = ((b"order 1", 3, 20), (b"order 2", 1, 3), (b"order 3", 3, 400))
    with pifnjarl.example() as device:
        device.append(0, b"".join(struct.pack("<8sII48x", *order) for order in orders).ljust(512, b"\0"))
        yield device
