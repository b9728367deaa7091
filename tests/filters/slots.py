"""Slots that are put before a program and after it. They give a block run the context and the scratch that a test asks for, and
show the scratch that it leaves. The program stays as it is, since all jumps go by distances; only its EXITs become jumps where
slots come after it.
"""

from __future__ import annotations

import struct

SCRATCH = 1024
"""The bytes of scratch."""

STACK = 512
"""The bytes of the stack, which ends at R10."""

# the address of scratch
_SCRATCH_AT = 0x4_0000_0000

_SLOT_BYTES = 8


def slot(opcode: int, registers: int = 0, offset: int = 0, immediate: int = 0) -> bytes:
    """The bytes of a slot. The destination is the low half of the registers.

    >>> slot(0x61, 0x14, offset=8).hex()
    '6114080000000000'
    """
    return struct.pack("<BBhi", opcode, registers, offset, immediate)


EXIT = slot(0x95)
"""Ends the block run."""


def at_index(index: int) -> bytes:
    """Goes on with the block of an index, and ends the block run of each other one: `ldxw r4, [r1+8]`, `jeq r4, INDEX, +2`,
    `mov r0, 0`, `exit`.

    >>> at_index(5).hex()
    '61140800000000001504020005000000b7000000000000009500000000000000'
    """
    return slot(0x61, 0x14, offset=8) + slot(0x15, 0x04, offset=2, immediate=index) + slot(0xB7, 0x00) + EXIT


def with_scratch(scratch: bytes) -> bytes:
    """Stores bytes in scratch, which is zeros: a `stb [r3+AT], BYTE` of each other one.

    >>> with_scratch(b"\\0\\7").hex()
    '7203010007000000'
    """
    return b"".join(slot(0x72, 0x03, at, byte) for at, byte in enumerate(scratch) if byte)


def with_context(context: bytes) -> bytes:
    """Stores a context where the stack begins, and gives R1 its address: a `stw [r10-512], WORD` of each word, `mov r1, r10`,
    `add r1, -512`.

    >>> with_context(b"\\1\\0\\0\\0").hex()
    '620a00fe01000000bfa10000000000000701000000feffff'
    """
    words = enumerate(word for (word,) in struct.iter_unpack("<i", context))
    stores = [slot(0x62, 0x0A, 4 * at - STACK, word) for at, word in words]
    return b"".join([*stores, slot(0xBF, 0xA1), slot(0x07, 0x01, immediate=-STACK)])


def with_scratch_loaded(code: bytes) -> bytes:
    """A program that loads each word of scratch to R2 before it exits: its EXITs jump to `lddw r1, SCRATCH`, a `ldxdw r2, [r1+AT]`
    of each word, and `exit`.

    >>> with_scratch_loaded(EXIT)[:24].hex()
    '050000000000000018010000000000000000000004000000'
    """
    count = len(code) // _SLOT_BYTES
    slots = [code[at : at + _SLOT_BYTES] for at in range(0, len(code), _SLOT_BYTES)]
    jumps = [slot(0x05, offset=count - 1 - at) if it == EXIT else it for at, it in enumerate(slots)]
    address = slot(0x18, 0x01, immediate=_SCRATCH_AT % 2**32) + slot(0, immediate=_SCRATCH_AT // 2**32)
    loads = [slot(0x79, 0x12, at) for at in range(0, SCRATCH, 8)]
    return b"".join([*jumps, address, *loads, EXIT])
