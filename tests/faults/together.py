#!/usr/bin/env python3
"""Starts two and eight `exec` at a time on one image, again and again, and kills some of them.

    tests/faults/together.py [ROUNDS]        2000 rounds where none is given

Each command appends a block with a number of its own, and a third of them are killed at a random moment (SIGKILL). After each
round the image has to load; it has the blocks of the rounds before and of each command that ended with status 0, and of no
other, but for those that were killed; and each other command said that the image is in use. One more command has to do its work
then, and to leave nothing beside the image. Prints how the commands ended, and ends with status 1 at the first round that shows
something else.
"""

import pathlib
import random
import struct
import subprocess
import sys
import tempfile
import time

TOP = pathlib.Path(__file__).resolve().parents[2]
PROGRAM = TOP / "crates/zscli/out/zscli"
HEADER = struct.Struct("<8s6IQ24x")
ROW = struct.Struct("<B3xI")
FULL = 14


class Shape:
    """An image of four zones, of which the first two are full of blocks and the last is appended to."""

    def __init__(self, name: str, block: int, size: int) -> None:
        self.name, self.block, self.size = name, block, size

    def begin(self, image: pathlib.Path) -> None:
        """Makes the image anew."""
        filled = 2 * self.size
        header = HEADER.pack(b"ZNSIMG02", self.block, 4, self.size, self.size, 2, 2, filled)
        rows = ROW.pack(FULL, self.size) * 2 + ROW.pack(1, 0) * 2
        with open(image, "wb") as out:
            out.write(header + rows)
            out.write(random.randbytes(self.block) * filled)

    def numbers(self, image: pathlib.Path) -> list[int]:
        """The numbers of the blocks in the last zone, as the image's text has them."""
        with open(image, "rb") as text:
            magic, *shape, total = HEADER.unpack(text.read(HEADER.size))
            rows = [ROW.unpack(text.read(ROW.size)) for _ in range(4)]
            written = [count for _, count in rows]
            assert magic == b"ZNSIMG02" and shape[:3] == [self.block, 4, self.size] and total == sum(written)
            text.seek(self.block * sum(written[:3]), 1)
            blocks = [text.read(self.block) for _ in range(written[3])]
            assert all(len(block) == self.block for block in blocks) and not text.read(1)
        return [int.from_bytes(block[:8], "little") for block in blocks]


def append(shape: Shape, number: int, file: pathlib.Path) -> None:
    """Writes a command file that appends a block with this number to the last zone."""
    entry = bytearray(64)
    entry[0] = 0x7D
    struct.pack_into("<HI", entry, 2, 1, 1)
    struct.pack_into("<Q", entry, 40, 3 * shape.size)
    block = number.to_bytes(8, "little") + bytes(shape.block - 8)
    file.write_text(f"submit 1 {entry.hex()} {block.hex()}\n")


def play(shape: Shape, folder: pathlib.Path, count: int, number: int, ends: dict[str, int]) -> None:
    """Plays one round of so many commands, and one more, with the numbers from this one on."""
    image = folder / f"{shape.name}.img"
    before = shape.numbers(image)
    files = [folder / f"{at}.cmd" for at in range(count + 1)]
    for at, file in enumerate(files):
        append(shape, number + at, file)
    started = [
        subprocess.Popen([PROGRAM, "exec", image, file], stdout=subprocess.PIPE, stderr=subprocess.PIPE, text=True)
        for file in files[:count]
    ]
    killed = [command for command in started if random.random() < 1 / 3]
    time.sleep(random.random() * shape.seconds)
    for command in killed:
        command.kill()
    told = [command.communicate() for command in started]
    after = shape.numbers(image)
    assert after[: len(before)] == before, "a block of an earlier round is lost"
    added = after[len(before) :]
    assert len(set(added)) == len(added), "a command had its effect twice"
    for at, (command, (_, said)) in enumerate(zip(started, told)):
        had_effect = number + at in added
        if command.returncode == 0:
            assert had_effect, "a command that was done had no effect"
            ends["done"] += 1
        elif command in killed and command.returncode < 0:
            ends["killed, the new image" if had_effect else "killed, the old image"] += 1
        else:
            wanted = f"{image}: in use by another command\ncannot write {image}\n"
            assert (command.returncode, said) == (1, wanted), (command.returncode, said)
            assert not had_effect, "a command that was refused had an effect"
            ends["in use"] += 1
    subprocess.run([PROGRAM, "exec", image, files[count]], check=True, stdout=subprocess.DEVNULL)
    assert shape.numbers(image) == after + [number + count], "the command behind them did something else"
    assert list(folder.glob("*.unfinished*")) == [], "something is left beside the image"


def main() -> None:
    """Plays all rounds, and tells how their commands ended."""
    rounds = int(sys.argv[1]) if len(sys.argv) > 1 else 2000
    subprocess.run([TOP / "zscli", "--help"], check=True, stdout=subprocess.DEVNULL)
    shapes = [Shape("small", 512, 16), Shape("large", 4096, 8192)]
    ends = {end: 0 for end in ("done", "in use", "killed, the old image", "killed, the new image")}
    with tempfile.TemporaryDirectory(dir="/dev/shm") as name:
        folder = pathlib.Path(name)
        for shape in shapes:
            image = folder / f"{shape.name}.img"
            shape.begin(image)
            append(shape, 0, folder / "0.cmd")
            begun = time.monotonic()
            subprocess.run([PROGRAM, "exec", image, folder / "0.cmd"], check=True, stdout=subprocess.DEVNULL)
            shape.seconds = 1.2 * (time.monotonic() - begun)
        for at in range(rounds):
            shape = shapes[at % 2]
            image = folder / f"{shape.name}.img"
            if len(shape.numbers(image)) + 9 > shape.size:
                shape.begin(image)
            try:
                play(shape, folder, 2 if at % 4 < 2 else 8, 1 + 9 * at, ends)
            except (AssertionError, subprocess.CalledProcessError) as error:
                print(f"round {at}, {shape.name}: {error}")
                sys.exit(1)
    print(f"{rounds} rounds of two or eight commands and one behind them, on images of 16 KiB and of 64 MiB:")
    for end, count in ends.items():
        print(f"{count:7} {end}")


if __name__ == "__main__":
    main()
