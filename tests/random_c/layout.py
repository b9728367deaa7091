"""Code as an interpreter runs it: all functions of an object in one list of slots, and data in areas of its own.

It knows nothing of how `zscli link` lays out a program. A program that was linked, a list of slots, is code without data.
"""

from __future__ import annotations

import struct
from typing import Dict, List, NamedTuple, Tuple

from object_file import CALL, WIDE, WORD, BadObject, Object, Relocation, read_object
from operations import signed


class Code(NamedTuple):
    """The slots of all functions, one behind the other, the slot that a program starts with, and data: the bytes of areas, and which
    slots and which words of data have the address of which area, and how far behind its first byte."""

    slots: bytes
    start: int
    data: List[bytearray]
    wide: List[Tuple[int, int, int]]
    words: List[Tuple[int, int, int, int]]
    libraries: Dict[int, str]


def of_slots(slots: bytes) -> Code:
    """A program without data, of its bytes."""
    return Code(slots, 0, [], [], [], {})


class _Laying:
    """Lays out an object: its code in one list of slots, its data in areas."""

    def __init__(self, held: Object) -> None:
        self._held = held
        self._slots = bytearray()
        self._base: Dict[int, int] = {}
        self._area: Dict[int, int] = {}
        self._data: List[bytearray] = []
        self._wide: List[Tuple[int, int, int]] = []
        self._words: List[Tuple[int, int, int, int]] = []
        self._libraries: Dict[int, str] = {}

    def code(self) -> Code:
        """The object laid out."""
        for index, section in enumerate(self._held.sections):
            if section.is_code:
                self._base[index] = len(self._slots) // 8
                self._slots += section.data
            elif section.is_data:
                self._area[index] = len(self._data)
                self._data.append(bytearray(section.data))
        for index in [*self._base, *self._area]:
            for relocation in self._held.relocations.get(index, []):
                self._resolve(index, relocation)
        start = self._held.start()
        slot = self._base[start.section] + start.value // 8
        return Code(bytes(self._slots), slot, self._data, self._wide, self._words, self._libraries)

    def _resolve(self, index: int, relocation: Relocation) -> None:
        """Does what a relocation says."""
        symbol = relocation.symbol
        if relocation.kind == CALL and index in self._base:
            self._call(self._base[index] + relocation.at // 8, relocation)
        elif relocation.kind == WIDE and index in self._base and symbol.section in self._area:
            slot = self._base[index] + relocation.at // 8
            low, high = struct.unpack_from("<4xI4xI", self._slots, 8 * slot)
            self._wide.append((slot, self._area[symbol.section], symbol.value + signed(low | high << 32, 64)))
        elif relocation.kind == WORD and index in self._area and symbol.section in self._area:
            area = self._area[index]
            added = int.from_bytes(self._data[area][relocation.at : relocation.at + 8], "little", signed=True)
            self._words.append((area, relocation.at, self._area[symbol.section], symbol.value + added))
        else:
            raise BadObject(f"a relocation of kind {relocation.kind} that this interpreter doesn't know, by {symbol.name}")

    def _call(self, slot: int, relocation: Relocation) -> None:
        """Gives a call its distance; one of a function of the C library keeps its name."""
        symbol = relocation.symbol
        if not symbol.section:
            self._libraries[slot] = symbol.name
            return
        (distance,) = struct.unpack_from("<i", self._slots, 8 * slot + 4)
        called = self._base[symbol.section] + symbol.value // 8 + distance + 1
        struct.pack_into("<i", self._slots, 8 * slot + 4, called - slot - 1)


def of_object(data: bytes) -> Code:
    """The code of an object's bytes."""
    return _Laying(read_object(data)).code()
