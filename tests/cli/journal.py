#!/usr/bin/env python3
"""What a journal has after the gate of a batch (docs/durability.md): a seal, events, and zeros up to the end of a sector.

    journal.py OFFSET < EVENTS      OFFSET is that of the gate, in bytes
"""

import struct
import sys

SECTOR = 4096


def crc32c(data: bytes) -> int:
    """The CRC-32C of bytes (RFC 3720, appendix B.4).

    >>> hex(crc32c(b"123456789"))
    '0xe3069283'
    """
    remainder = 0xFFFFFFFF
    for byte in data:
        remainder ^= byte
        for _ in range(8):
            remainder = remainder >> 1 ^ (0x82F63B78 if remainder & 1 else 0)
    return remainder ^ 0xFFFFFFFF


def payload(offset: int, events: bytes) -> bytes:
    """The sectors of a batch of these events, without its gate.

    >>> payload(4096, b"").hex()[:42]
    'fe00100000000000000000000000000000dc7cf626'
    """
    numbers = struct.pack("<QQ", offset, len(events))
    sealed = b"\xfe" + numbers + struct.pack("<I", crc32c(numbers + events)) + events
    return sealed + bytes(SECTOR - len(sealed) % SECTOR)


if __name__ == "__main__":
    sys.stdout.buffer.write(payload(int(sys.argv[1]), sys.stdin.buffer.read()))
