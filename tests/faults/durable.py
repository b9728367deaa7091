#!/usr/bin/env python3
"""Kills `serve --durable --frames` at random moments, again and again, and looks for each acknowledged event.

    tests/faults/durable.py [ROUNDS]        500 rounds where none is given

In each round the program serves an image, and is sent Appends of one block, each with a number of its own, in batches of one to 64.
At a random moment it is killed (SIGKILL): behind its first reply, and in each fifth round behind its start, so while it opens.
Then it serves the image again and reads the blocks of the zone: those of the rounds before, each that was acknowledged, and behind
them at most those that were sent, in their order and whole. Each 25 rounds begin with an image of version 2, which the first of them
makes durable. Prints how many rounds ended how, and ends with status 1 at the first that shows something else.
"""

import pathlib
import random
import struct
import subprocess
import sys
import tempfile
import threading
import time

TOP = pathlib.Path(__file__).resolve().parents[2]
PROGRAM = TOP / "crates/zscli/out/zscli"
HEADER = struct.Struct("<BBHII4x")
BLOCK, ZONE = 512, 16384
APPEND, READ = 0x7D, 0x02
SECONDS = 0.03


class Lost(Exception):
    """What was found is not what was acknowledged."""


def submission(opcode: int, lba: int, blocks: int, data: bytes) -> bytes:
    """The frame of an entry."""
    entry = bytearray(64)
    entry[0] = opcode
    struct.pack_into("<HI", entry, 2, 1, 1)
    struct.pack_into("<Q", entry, 40, lba)
    struct.pack_into("<I", entry, 48, blocks - 1)
    return HEADER.pack(1, 0, 1, 0, len(data)) + entry + data


def block(number: int) -> bytes:
    """The block of a number, which it fills."""
    return number.to_bytes(8, "little") * (BLOCK // 8)


def replies(stream: bytes):
    """The status and the data of each completion that came whole."""
    at = 0
    while at + 32 <= len(stream):
        kind, _, _, _, size = HEADER.unpack_from(stream, at)
        if kind != 1:
            raise Lost(f"a reply of kind {kind}")
        if at + 32 + size > len(stream):
            return
        yield int.from_bytes(stream[at + 30 : at + 32], "little"), stream[at + 32 : at + 32 + size]
        at += 32 + size


def serve(image: pathlib.Path) -> subprocess.Popen:
    """Starts the program."""
    words = [PROGRAM, "serve", image, "--durable", "--frames"]
    return subprocess.Popen(words, stdin=subprocess.PIPE, stdout=subprocess.PIPE, stderr=subprocess.PIPE)


def numbers(image: pathlib.Path, most: int) -> list[int]:
    """The numbers of the blocks in zone 0, of which there are at most so many."""
    asked = b"".join(submission(READ, lba, 1, b"") for lba in range(most + 1))
    served = serve(image)
    told, said = served.communicate(asked)
    if served.returncode != 0:
        raise Lost(f"it isn't served again: {said.decode()}")
    read = list(replies(told))
    if len(read) != most + 1 or any(status != 0 for status, _ in read):
        raise Lost("not each Read is answered")
    found = []
    for _, data in read:
        number = int.from_bytes(data[:8], "little")
        if data != block(number):
            raise Lost("a block is there in part")
        found.append(number)
    # numbers begin at 1, and behind the write pointer zeros are read
    while found and found[-1] == 0:
        found.pop()
    return found


class Sender(threading.Thread):
    """Sends Appends in batches until the program is gone."""

    def __init__(self, to, first: int) -> None:
        super().__init__()
        self.to, self.first, self.sent = to, first, 0

    def run(self) -> None:
        try:
            while self.sent < 4096:
                count = random.randint(1, 64)
                frames = [submission(APPEND, 0, 1, block(self.first + self.sent + at)) for at in range(count)]
                self.sent += count
                self.to.write(b"".join(frames))
                self.to.flush()
            self.to.close()
        except (BrokenPipeError, OSError):
            pass


def hear(served: subprocess.Popen, opening: bool) -> bytes:
    """What the program says until it is killed, at a random moment behind its start or behind its first reply."""
    killer = threading.Timer(random.random() * SECONDS, served.kill)
    if opening:
        killer.start()
    told = served.stdout.read(1)
    if not opening:
        killer.start()
    told += served.stdout.read()
    served.wait()
    killer.cancel()
    return told


def play(image: pathlib.Path, opening: bool, before: list[int], ends: dict[str, int]) -> list[int]:
    """Plays one round, and gives the numbers of the blocks behind it."""
    served = serve(image)
    first = 1 + (before[-1] if before else 0)
    sender = Sender(served.stdin, first)
    sender.start()
    told = hear(served, opening)
    sender.join()
    acknowledged = sum(1 for status, _ in replies(told) if status == 0)
    after = numbers(image, len(before) + sender.sent)
    if after[: len(before)] != before:
        raise Lost("a block of an earlier round is lost")
    added = after[len(before) :]
    if added != list(range(first, first + len(added))):
        raise Lost("the blocks are not those that were sent, in order")
    if len(added) < acknowledged:
        raise Lost(f"{acknowledged} were acknowledged, and {len(added)} are there")
    if served.returncode == 0:
        ends["not killed in time"] += 1
    elif len(added) == acknowledged:
        ends["killed, with what was acknowledged and no more"] += 1
    else:
        ends["killed, with a batch more"] += 1
    ends["blocks acknowledged"] += acknowledged
    return after


def main() -> None:
    """Plays all rounds, and tells how they ended."""
    rounds = int(sys.argv[1]) if len(sys.argv) > 1 else 500
    subprocess.run([TOP / "zscli", "--help"], check=True, stdout=subprocess.DEVNULL)
    told = ("killed, with what was acknowledged and no more", "killed, with a batch more", "not killed in time", "blocks acknowledged")
    ends = {end: 0 for end in told}
    with tempfile.TemporaryDirectory(dir="/dev/shm") as name:
        image = pathlib.Path(name) / "durable.img"
        found: list[int] = []
        for at in range(rounds):
            if at % 25 == 0 or len(found) > ZONE - 8192:
                image.unlink(missing_ok=True)
                shape = f"--block {BLOCK} --zones 2 --size {ZONE} --capacity {ZONE} --open 2 --active 2"
                subprocess.run([PROGRAM, "format", image, *shape.split()], check=True)
                found = []
            try:
                found = play(image, at % 5 == 0, found, ends)
            except Lost as error:
                print(f"round {at}: {error}")
                sys.exit(1)
    print(f"{rounds} rounds:")
    for end, count in ends.items():
        print(f"{count:7} {end}")


if __name__ == "__main__":
    main()
