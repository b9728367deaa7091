"""The filters of `examples/spills/`: blocks, and what each filter makes of them, worked out by hand from its C and the block alone.

Each filter has a word on the stack that has to be known when it is loaded again, after an emit or where branches meet: were it any
bytes, an access or an emit that goes by it would be refused. Which slots load such words is said of each filter, as `zscli disasm
--slots` numbers them.
"""

from __future__ import annotations

import struct
from typing import Dict, List, NamedTuple

from blocks import BLOCK, put
from device import Program, Seen, Traced, expected, group_of
from filters import Left, Run
from slots import SCRATCH, at_index, with_context, with_scratch

LBA = 0x2A
"""The LBA of each block, except of one whose index is greater: there it is the index."""

COUNT = 16
"""How many blocks a run has, except where the index is greater."""


class Scene(NamedTuple):
    """A block, and what a filter has to make of it. Bytes are written as `spelled` and `area` read them."""

    argument: int = 0
    # of the block in its run
    index: int = 0
    # what is put into a block whose bytes count up from 0, twice to 255
    block: str = ""
    # what is put into scratch, of zeros, before
    before: str = ""
    # the records that have to be emitted
    records: str = ""
    # what the filter has to change in scratch
    after: str = ""

    @property
    def bytes_of_block(self) -> bytes:
        """The block."""
        return area(bytes(range(256)) * 2, self.block)

    @property
    def scratch(self) -> bytes:
        """Scratch before the block run."""
        return area(bytes(SCRATCH), self.before)

    @property
    def left(self) -> bytes:
        """Scratch after it."""
        return area(self.scratch, self.after)

    @property
    def group(self) -> List[bytes]:
        """The records."""
        return [spelled(word) for word in self.records.split()]

    def run(self) -> Run:
        """A run in which the block has this index. All blocks are the same."""
        lba, count = max(LBA, self.index), max(COUNT, self.index + 1)
        return Run([self.bytes_of_block] * count, self.argument, lba - self.index)

    def for_device(self, program: Program) -> Program:
        """The program with slots before it, which do nothing for other blocks, and store what scratch has before this one."""
        return Program(at_index(self.index) + with_scratch(self.scratch) + program.code, program.limit)

    def for_trace(self, program: Program) -> Program:
        """The program with slots before it, which store the context and scratch."""
        context = struct.pack("<QIIII8x", LBA, self.index, COUNT, BLOCK, self.argument)
        return Program(with_scratch(self.scratch) + with_context(context) + program.code, program.limit)

    def seen(self) -> Seen:
        """What a device has to say and have of the run."""
        groups: List[List[bytes]] = [[] for _ in self.run().blocks]
        groups[self.index] = self.group
        return expected(Left(groups, self.left))

    def traced(self) -> Traced:
        """What the block run has to leave, R0 too."""
        return Traced(0, group_of(self.group), self.left)


def spelled(word: str) -> bytes:
    """The bytes that a word spells: those in hexadecimal, and all of a range.

    >>> spelled("0102+20-23")
    b'\\x01\\x02 !"#'
    """
    found = b""
    for part in word.split("+"):
        first, _, last = part.partition("-")
        found += bytes(range(int(first, 16), int(last, 16) + 1)) if last else bytes.fromhex(part)
    return found


def area(data: bytes, words: str) -> bytes:
    """Data with bytes at their offsets.

    >>> area(bytes(6), "1:61+62-63 5:ff")
    b'\\x00abc\\x00\\xff'
    """
    for word in words.split():
        at, _, part = word.partition(":")
        data = put(data, int(at), spelled(part))
    return data


SCENES: Dict[str, List[Scene]] = {
    # ---- addresses, kept over emits
    # Slots 21, 32 and 45 load the address of the context, slot 58 that of scratch.
    "fields": [
        # The third record begins at byte 128, and has 5, 7, 11 and 13, 36 in all. The argument is 8 + 4 + 1.
        Scene(
            argument=13,
            block="0:02 136:0500000000000000+0700000000000000+0b00000000000000+0d00000000000000",
            before="0:01 8:02",
            records="0500000000000000 0b00000000000000 0d00000000000000",
            after="0:04 8:26",
        ),
    ],
    # Slot 42 loads the address of scratch, slot 48 that of the context.
    "lists": [
        # Of 0x35 and 0x4a the first is below 0x40. The shorter entry has 1 byte, and of index 6 the low 2 bits are 2.
        Scene(
            argument=0x40,
            index=6,
            block="0:35030700 256:4a000200",
            before="0:0a 8:14",
            records="0700 35-38 0200 80",
            after="0:0e 8:15",
        ),
    ],
    # Slot 55 loads the address of scratch.
    "chain": [
        # From 3, at byte 48, to 5, 2 and 7, at byte 112, which is 64 further.
        Scene(
            block="48:f5 80:02 32:07 256:03",
            before="0:01",
            records="f5+31-3f 02+51-5f 07+21-2f 70-7f 70-7f f5+31-3f",
            after="0:41",
        ),
        # Entry 2 has the argument.
        Scene(argument=0x21, block="48:f5 80:02 32:07 256:03", before="0:01", records="f5+31-3f 02+51-5f"),
    ],
    # Slots 16, 30 and 42 load the address of scratch, slot 44 that of the block.
    "ring": [
        # Of index 10 the low 3 bits are 2, and of 0x0d they are 5: places at bytes 32 and 80 of scratch.
        Scene(
            argument=7,
            index=10,
            block="0:0d",
            before="32:a0-af 80:b0-bf 128:04",
            records="0d+01-0f a0-af b0-bf",
            after="32:0d+01-0f 128:07",
        ),
        # Of the three the second is not asked for.
        Scene(
            argument=5,
            index=10,
            block="0:0d",
            before="32:a0-af 80:b0-bf 128:04",
            records="0d+01-0f b0-bf",
            after="32:0d+01-0f 128:06",
        ),
    ],
    # Slots 16, 28, 39, 50 and 56 load the address of scratch, slot 60 that of the context.
    "rows": [
        # 10, 100, 99 and 256, 465 in all, of which two are above 99.
        Scene(
            argument=99,
            index=3,
            block="12:0a000000 76:64000000 140:63000000 204:00010000",
            before="8:01",
            records="2a00000000000000+01000000+64000000 2a00000000000000+03000000+00010000",
            after="0:0001 8:d201 16:03",
        ),
    ],
    # Slot 59 loads the address of the context.
    "tally": [
        # The low 2 bits of 2, 3, 6 and 1 are 2, 3, 2 and 1. 1, 9, 17 and 25 are 52. The record is the last of four.
        Scene(
            argument=1,
            block="0:02 8:03 16:06 24:01",
            before="0:01",
            records="0000000000000000+0100000000000000+0200000000000000+0100000000000000 58-5f 02+01-07",
            after="0:35 8:02+01-07",
        ),
    ],
    # ---- words that branches leave in one place
    # Slots 25 and 27 load the length of an entry, slots 51 and 70 the offset of the longest so far, slot 65 that of the last
    # entry.
    "longest": [
        # 3 bytes at byte 0x30, 7 at 0x40, 7 at 0x50 and 2 at 0x60: 19 in all.
        Scene(block="0:30000300400007005000070060000200", before="0:64", records="30-32 40-46 50-56 60-61 40-46", after="0:77"),
        # The last is the longest.
        Scene(block="0:30000100400001005000010060000200", records="30 40 50 60-61 60-61", after="0:05"),
        # The third has 33 bytes, which ends the block.
        Scene(block="0:30000300400007005000210060000200", records="30-32 40-46", after="0:0a"),
    ],
    # Slots 43 and 52 load the address of the greatest so far, slot 50 that of the fourth record, slots 63 and 68 those of scratch
    # and of the context.
    "extremes": [
        # The measures are 7, 3, 9 and 3.
        Scene(
            block="4:07000000 68:03000000 132:09000000 196:03000000",
            records="40-43+03000000+48-4f 80-83+09000000+88-8f",
            after="0:03 8:09 16:2a",
        ),
        # All are 7: the first is both.
        Scene(
            block="4:07000000 68:07000000 132:07000000 196:07000000",
            records="00-03+07000000+08-0f 00-03+07000000+08-0f",
            after="0:07 8:07 16:2a",
        ),
        # They fall from 4 to 1.
        Scene(
            block="4:04000000 68:03000000 132:02000000 196:01000000",
            records="c0-c3+01000000+c8-cf 00-03+04000000+08-0f",
            after="0:01 8:04 16:2a",
        ),
    ],
    # Slot 76 loads the address of the context.
    "merge": [
        # 1, 4, 4 and 9 beside 2, 4, 5 and 6: of equal ones the left come first.
        Scene(
            block="0:01000000 16:04000000 32:04000000 48:09000000 256:02000000 272:04000000 288:05000000 304:06000000",
            before="8:0a",
            records="01000000+04-0f 02000000+04-0f 04000000+14-1f 04000000+24-2f",
            after="0:03 8:0b 16:2a",
        ),
        # All of the right list come before 9.
        Scene(
            block="0:09000000 256:01000000 272:02000000 288:03000000 304:04000000",
            before="8:0a",
            records="01000000+04-0f 02000000+14-1f 03000000+24-2f 04000000+34-3f",
            after="8:0e 16:2a",
        ),
    ],
    # ---- offsets and lengths, with their bounds
    # Slot 21 loads the offset of the note, slot 26 the address of scratch.
    "headers": [
        # The body is 5 bytes at byte 0x90, the note 32 at byte 0x120.
        Scene(argument=1, block="0:900005002001", before="0:07", records="08-0f 90-94 20-3f", after="0:0c"),
        # No note is asked for.
        Scene(block="0:900005002001", before="0:07", records="08-0f 90-94", after="0:0c"),
    ],
    # Slot 28 loads an offset, of at most 255.
    "sections": [
        # 0x140, 0xff10, 0x80, 0xff and 0x20, of which the low bytes count.
        Scene(block="0:400110ff8000ff002000", records="40-43 10-13 80-83 ff+00-02 20-23"),
    ],
    # Slots 32 and 36 load the offsets of the two fields, slot 44 the address of the context.
    "kinds": [
        # Kind 1: fields at bytes 0x30 and 0x80, the trailer at byte 0x40.
        Scene(block="0:0140003080", records="08-0b 30-33 80-83 40-47", after="0:01 16:2a"),
        # Kind 2: the trailer is at byte 0x80 + 5.
        Scene(block="0:0200053080", before="8:04", records="08-13 30-33 80-83 85-8c", after="8:05 16:2a"),
    ],
    # Slots 20, 29, 33, 40 and 44 load the offsets of columns, slot 50 the address of scratch.
    "columns": [
        # The low bits of 0x25 and 0x08 are 5 and 8, those of 0xff and 0xf3 are 7 and 3, each 1 less than a width.
        Scene(block="0:25ff08f3", before="0:14", records="45-4c 48-4b 85-8c 88-8b c5-cc c8-cb", after="0:20"),
    ],
    # Slots 23 and 34 load numbers that lengths are made of, slots 58 and 62 the addresses of the context and of scratch.
    "lengths": [
        # Names of 3, 8 and 1 bytes, values of 4, 16 and 1: 33 in all.
        Scene(index=130, block="0:020307fff800", records="40-42 60-63 80-87 a0-af c0 e0", after="16:21"),
    ],
    # Slot 14 loads the offset of the record, slot 16 its length.
    "places": [
        # The low 7 bits of 0x85 are 5.
        Scene(block="0:8507", records="2a00000000000000+0500000000000000+0800000000000000 05-0c"),
    ],
    # ---- tables in scratch
    # Slot 58 loads the address of the context.
    "rising": [
        # Behind 5 come 7, 6, 9 and 9, 31 in all.
        Scene(
            block="8:0700000000000000 24:0600000000000000 40:0900000000000000 56:0900000000000000",
            before="0:05 8:04 16:64",
            records="00-07+0700000000000000 20-27+0900000000000000",
            after="0:09 8:06 16:83 24:2a",
        ),
    ],
    # Slot 85 loads the address of the context.
    "dedup": [
        # The keys are 1, 65, which has the same place, 1 again, and 2, which is in its place.
        Scene(
            block="0:0100000000000000 16:4100000000000000 32:0100000000000000 48:0200000000000000",
            before="16:02",
            records="0100000000000000+08-0f 4100000000000000+18-1f 0100000000000000+28-2f",
            after="8:01 512:03 520:01 528:2a",
        ),
    ],
    # Slot 72 loads the address of the context.
    "buckets": [
        # Of 0x05, 0x25, 0x45 and 0x65 the low 6 bits are 5, 37, 5 and 37, of which the second has 1. Each adds 3.
        Scene(argument=3, before="296:01", records="00-07", after="40:06 296:07 512:01 520:2a"),
    ],
    # Slot 105 loads the address of the context.
    "ranks": [
        # The last block. 20, 50, 5 and 60 come to 50 and 10; of two of 50 the greater key comes first.
        Scene(
            index=15,
            block="0:05000000 16:14000000 64:06000000 80:32000000 128:07000000 144:05000000 192:08000000 208:3c000000",
            before="0:01000000+32000000+02000000+0a000000",
            records="08000000+3c000000+06000000+32000000+01000000+32000000+05000000+14000000",
            after="0:08000000+3c000000+06000000+32000000+01000000+32000000+05000000+14000000",
        ),
        # A block before emits nothing.
        Scene(
            index=14,
            block="0:05000000 16:14000000 64:06000000 80:32000000 128:07000000 144:05000000 192:08000000 208:3c000000",
            after="0:08000000+3c000000+06000000+32000000+05000000+14000000+07000000+05000000",
        ),
    ],
}
"""The scenes of each filter, by the name of its file."""
