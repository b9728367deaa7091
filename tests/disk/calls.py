"""The notes of shadow.c: each call that a program made for the files of a folder, and what it said, in the order in which they happened.

    >>> list(calls_of(_HEAD.pack(Kind.UNLINKED, 0, 0, 0, 1, 0) + b"a"))
    [Call(kind=<Kind.UNLINKED: 7>, inode=0, place=0, name='a', to='', data=b'', is_new=False, is_folder=False, has_failed=False, is_skipped=False)]
"""

from __future__ import annotations

import struct
from enum import IntEnum
from typing import Iterator, NamedTuple

# kind, flags, inode, place, and the bytes of two parts
_HEAD = struct.Struct("<IIQQII")
_IS_NEW, _IS_FOLDER, _HAS_FAILED, _IS_SKIPPED = 1, 2, 4, 8


class Kind(IntEnum):
    """Which call; shadow.c has the same numbers."""

    OPENED = 1
    WRITTEN = 2
    TRUNCATED = 3
    SYNCED = 4
    RENAMED = 5
    LINKED = 6
    UNLINKED = 7
    SAID = 8


class Call(NamedTuple):
    """A call. `place` is the offset of a write, the length of a truncation, or the descriptor of what was said; `to` is the name that
    another one was given; a file that was opened is new where its name was not there; a sync that is skipped was not made."""

    kind: Kind
    inode: int = 0
    place: int = 0
    name: str = ""
    to: str = ""
    data: bytes = b""
    is_new: bool = False
    is_folder: bool = False
    has_failed: bool = False
    is_skipped: bool = False

    def __str__(self) -> str:
        """In a line.

        >>> print(Call(Kind.WRITTEN, 7, 4096, data=bytes(512)))
        a write of 512 bytes at 4096
        """
        words = {
            Kind.OPENED: f"the opening of {'the new file ' * self.is_new}{self.name}",
            Kind.WRITTEN: f"a write of {len(self.data)} bytes at {self.place}",
            Kind.TRUNCATED: f"a truncation to {self.place} bytes",
            Kind.SYNCED: f"a sync of {'the folder' if self.is_folder else 'a file'}{' that fails' * self.has_failed}{' that is skipped' * self.is_skipped}",
            Kind.RENAMED: f"the rename of {self.name} to {self.to}",
            Kind.LINKED: f"a link of {self.name} as {self.to}",
            Kind.UNLINKED: f"the unlink of {self.name}",
            Kind.SAID: f"{len(self.data)} bytes said to descriptor {self.place}",
        }
        return words[self.kind]


def calls_of(notes: bytes) -> Iterator[Call]:
    """The calls that were noted."""
    at = 0
    while at < len(notes):
        number, flags, inode, place, first, second = _HEAD.unpack_from(notes, at)
        at += _HEAD.size
        kind = Kind(number)
        one, two = notes[at : at + first], notes[at + first : at + first + second]
        at += first + second
        is_data = kind in (Kind.WRITTEN, Kind.SAID)
        name, data = ("", one) if is_data else (one.decode(), b"")
        set_flags = [bool(flags & flag) for flag in (_IS_NEW, _IS_FOLDER, _HAS_FAILED, _IS_SKIPPED)]
        yield Call(kind, inode, place, name, two.decode(), data, *set_flags)
