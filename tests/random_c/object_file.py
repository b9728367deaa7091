"""A relocatable object, as clang makes it for BPF: the sections, symbols and relocations of an ELF file of 64 bits.

Written from the ELF specification and from what the psABI of eBPF says of relocations: `R_BPF_64_64` of a wide instruction,
`R_BPF_64_ABS64` of a word of data, and `R_BPF_64_32` of a call. The number that is added stands in the place itself.
"""

from __future__ import annotations

import struct
from typing import Dict, Iterator, List, NamedTuple, Tuple

WIDE = 1
"""`R_BPF_64_64`: the 64-bit immediate of a wide instruction."""

WORD = 2
"""`R_BPF_64_ABS64`: 8 bytes of data."""

CALL = 10
"""`R_BPF_64_32`: the distance of a call of a local function."""

FUNCTION = 2
"""`STT_FUNC`: the symbol is a function."""

_SHT_PROGBITS, _SHT_SYMTAB, _SHT_NOBITS, _SHT_REL = 1, 2, 8, 9
_SHF_WRITE, _SHF_ALLOC, _SHF_EXECINSTR = 1, 2, 4


class BadObject(Exception):
    """The bytes are no object that this module reads."""


class Section(NamedTuple):
    """A section with its bytes."""

    name: str
    kind: int
    flags: int
    data: bytes
    link: int
    info: int
    align: int

    @property
    def is_code(self) -> bool:
        """Does it have instructions?"""
        return self.kind == _SHT_PROGBITS and bool(self.flags & _SHF_EXECINSTR)

    @property
    def is_data(self) -> bool:
        """Is it data that a program can read?"""
        placed = bool(self.flags & _SHF_ALLOC) and not self.flags & _SHF_EXECINSTR
        return placed and self.kind in (_SHT_PROGBITS, _SHT_NOBITS)

    @property
    def is_writable(self) -> bool:
        """Can its data be changed?"""
        return bool(self.flags & _SHF_WRITE)


class Symbol(NamedTuple):
    """A symbol: a place in a section, or a name that is looked for elsewhere, where the section is 0."""

    name: str
    section: int
    value: int
    size: int
    kind: int
    is_global: bool


class Relocation(NamedTuple):
    """A place in a section's bytes that depends on where a symbol is."""

    at: int
    kind: int
    symbol: Symbol


class Object(NamedTuple):
    """The sections, and the relocations of each section that has some."""

    sections: List[Section]
    symbols: List[Symbol]
    relocations: Dict[int, List[Relocation]]

    def functions(self) -> List[Symbol]:
        """The functions that the object has."""
        return [it for it in self.symbols if it.kind == FUNCTION and it.section]

    def start(self) -> Symbol:
        """The only function that other files see."""
        found = [it for it in self.functions() if it.is_global]
        if len(found) != 1:
            raise BadObject(f"{len(found)} global functions")
        return found[0]


def _text(table: bytes, at: int) -> str:
    """The text at an offset of a string table.

    >>> _text(b"\\0.text\\0", 1)
    '.text'
    """
    return table[at : table.index(b"\0", at)].decode()


def _sections(data: bytes) -> List[Section]:
    """The sections of a file."""
    at, size, count, names = _header(data)
    headers = [struct.unpack_from("<IIQQQQIIQQ", data, at + size * index) for index in range(count)]
    table = headers[names]
    strings = data[table[4] : table[4] + table[5]]
    found = []
    for name, kind, flags, _, offset, length, link, info, align, _ in headers:
        held = bytes(length) if kind == _SHT_NOBITS else data[offset : offset + length]
        found.append(Section(_text(strings, name), kind, flags, held, link, info, align))
    return found


def _header(data: bytes) -> Tuple[int, int, int, int]:
    """Where the headers of sections are, the size of one, how many there are, and which has their names."""
    if data[:6] != b"\x7fELF\2\1":
        raise BadObject("not an ELF file of 64 bits, little-endian")
    kind, machine = struct.unpack_from("<HH", data, 16)
    if (kind, machine) != (1, 247):
        raise BadObject("not a relocatable object for BPF")
    (at,) = struct.unpack_from("<Q", data, 40)
    size, count, names = struct.unpack_from("<HHH", data, 58)
    return at, size, count, names


def _symbols(sections: List[Section]) -> Iterator[Symbol]:
    """The symbols of the file's only table of them."""
    for table in sections:
        if table.kind != _SHT_SYMTAB:
            continue
        names = sections[table.link].data
        for name, info, _, section, value, size in struct.iter_unpack("<IBBHQQ", table.data):
            yield Symbol(_text(names, name), section, value, size, info & 15, info >> 4 != 0)


def read_object(data: bytes) -> Object:
    """The object of a file's bytes.

    >>> read_object(b"text")
    Traceback (most recent call last):
    object_file.BadObject: not an ELF file of 64 bits, little-endian
    """
    sections = _sections(data)
    symbols = list(_symbols(sections))
    relocations: Dict[int, List[Relocation]] = {}
    for section in sections:
        if section.kind == _SHT_REL:
            entries = struct.iter_unpack("<QQ", section.data)
            relocations[section.info] = [Relocation(at, info & 0xFFFFFFFF, symbols[info >> 32]) for at, info in entries]
    return Object(sections, symbols, relocations)
