"""The memory of an interpreter: areas of bytes, far from one another."""

from __future__ import annotations

from typing import Dict, Tuple

from operations import HALF


class Trap(Exception):
    """An instruction that can't be done."""


class Memory:
    """Areas, each at a multiple of 2^32, with its bytes."""

    def __init__(self, first: int) -> None:
        self._next = first
        self._areas: Dict[int, Tuple[bytearray, bool]] = {}

    def place(self, data: bytearray, writable: bool) -> int:
        """Adds an area, and says its address."""
        self._areas[self._next] = (data, writable)
        self._next += 1
        return (self._next - 1) << 32

    def at(self, address: int, length: int, writes: bool = False) -> Tuple[bytearray, int]:
        """The area of so many bytes, and the offset of the first."""
        data, writable = self._areas.get(address >> 32, (b"", False))
        offset = address & HALF
        if offset + length > len(data) or not length:
            raise Trap(f"{length} bytes at {address:#x} are in no area")
        if writes and not writable:
            raise Trap(f"a store to {address:#x}, where data can't be changed")
        return data, offset  # type: ignore[return-value]

    def load(self, address: int, length: int) -> int:
        """The number that stands there, the least byte first."""
        data, offset = self.at(address, length)
        return int.from_bytes(data[offset : offset + length], "little")

    def store(self, address: int, length: int, word: int) -> None:
        """Puts the low bytes of a word there."""
        data, offset = self.at(address, length, True)
        data[offset : offset + length] = (word & ((1 << 8 * length) - 1)).to_bytes(length, "little")
