#!/usr/bin/env python3
"""Frames, as `zscli serve --frames` reads and writes them (docs/device.md), from words and in words.

    frames.py make     reads lines of words, and writes the frames of these requests
    frames.py show     reads the frames of answers, and prints a line of words for each

Requests are lines of a command file, and some more: `submit QUEUE ENTRY [DATA]`, `turn RUN`, `fault ZONE readonly|offline`,
`drain TURNS`, `save`, and `bytes HEX` for bytes as they are. Answers are lines as `zscli exec` prints them: `cpl QUEUE ENTRY [DATA]`,
`pending RUN`, `idle`, `done`, `refused`, and `drained TURNS` and `saved`. Of data 16 equal bytes and more are shown as `42x512`.
"""

import re
import struct
import sys
from typing import Iterator, List

HEADER = struct.Struct("<BBHIII")
STATES = {"readonly": 1, "offline": 2}


def frame(line: str) -> bytes:
    """The frame of a request in words.

    >>> frame("fault 2 offline").hex()
    '03020000020000000000000000000000'
    """
    word, *rest = line.split()
    if word == "submit":
        data = bytes.fromhex("".join(rest[2:]))
        return HEADER.pack(1, 0, int(rest[0]), 0, len(data), 0) + bytes.fromhex(rest[1]) + data
    if word == "turn":
        return HEADER.pack(2, int(rest[0]), 0, 0, 0, 0)
    if word == "fault":
        return HEADER.pack(3, STATES[rest[1]], 0, int(rest[0]), 0, 0)
    if word == "drain":
        return HEADER.pack(4, 0, 0, int(rest[0]), 0, 0)
    if word == "save":
        return HEADER.pack(5, 0, 0, 0, 0, 0)
    if word == "bytes":
        return bytes.fromhex("".join(rest))
    raise ValueError(f"no request: {line}")


def shown(data: bytes) -> str:
    """Data in hexadecimal, with what repeats shown as such.

    >>> shown(b"ab" + bytes(510))
    '6162 00x510'
    """
    parts: List[str] = []
    for match in re.finditer(rb"(?s)(.)\1{15,}|(?:(.)(?!\2{15}))+", data):
        parts.append(f"{match[1].hex()}x{len(match[0])}" if match[1] else match[0].hex())
    return " ".join(parts)


def answers(stream: bytes) -> Iterator[str]:
    """The answers of a stream in words.

    >>> list(answers(frame("turn 3") + frame("bytes 0300")))
    ['pending 3', 'rest 0300']
    """
    at = 0
    while len(stream) - at >= HEADER.size:
        kind, part, queue, number, length, zeros = HEADER.unpack_from(stream, at)
        at += HEADER.size
        if kind == 1:
            entry, data = stream[at : at + 16], stream[at + 16 : at + 16 + length]
            at += 16 + length
            yield " ".join(["cpl", str(queue), entry.hex()] + [shown(data)] * (length > 0))
        else:
            words = {2: f"pending {part}", 3: "idle", 4: "done", 5: "refused", 6: f"drained {number}", 7: "saved"}
            yield words[kind] if zeros == 0 else f"zeros {zeros:#x}"
    if at < len(stream):
        yield f"rest {stream[at:].hex()}"


def main(what: str) -> None:
    """Reads standard input, and writes standard output."""
    if what == "make":
        for line in sys.stdin:
            sys.stdout.buffer.write(frame(line))
    else:
        for answer in answers(sys.stdin.buffer.read()):
            print(answer)


if __name__ == "__main__":
    main(sys.argv[1])
