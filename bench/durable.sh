#!/bin/sh
# Times Appends of 4 KiB in batches of 32 by `zscli serve --frames`, with --durable and without, beside a program that appends the
# same blocks to a file with an fdatasync after each batch. Prints the least nanoseconds of an Append of several rounds, of batches
# that are asked for one at a time, and eight at once. The files are in memory (/dev/shm) unless FOLDER names another folder: in memory
# no disk is waited for, so what is seen is what the journal costs beside it. Then the nanoseconds of each when the journal is opened and
# done again, and by `zscli exec` of the same as text.
set -eu
here=$(cd "$(dirname "$0")" && pwd)
work=$(mktemp -d "${FOLDER:-/dev/shm}/durable.XXXXXX")
trap 'rm -r "$work"' EXIT
"$here/../zscli" --help > /dev/null
zscli=$here/../crates/zscli/out/zscli
"$zscli" format "$work/empty.img" --block 4096 --zones 2 --size 16384 --capacity 16384 --open 2 --active 2
python3 - "$zscli" "$work" "${ROUNDS:-5}" << 'END'
import fcntl
import os
import pathlib
import shutil
import struct
import subprocess
import sys
import time

zscli, work, rounds = sys.argv[1], pathlib.Path(sys.argv[2]), int(sys.argv[3])
BLOCK, BATCH, BATCHES = 4096, 32, 128
# of a pipe's room, so that a batch comes whole (Linux)
F_SETPIPE_SZ, ROOM = 1031, 1 << 20
entry = bytearray(64)
entry[0] = 0x7D
struct.pack_into("<HI", entry, 2, 1, 1)
data = bytes(range(256)) * (BLOCK // 256)
frames = (struct.pack("<BBHII4x", 1, 0, 1, 0, BLOCK) + entry + data) * BATCH
blocks = data * BATCH


def served(*words: str, at_once: int = 1) -> float:
    """The seconds that all batches take by the program, so many asked for at once."""
    shutil.copy(work / "empty.img", work / "zoned.img")
    program = subprocess.Popen([zscli, "serve", work / "zoned.img", *words], stdin=subprocess.PIPE, stdout=subprocess.PIPE, bufsize=0)
    fcntl.fcntl(program.stdin, F_SETPIPE_SZ, ROOM)
    spent = 0.0
    for batch in range(BATCHES // at_once + 1):
        # the first batch finds the program starting
        count = at_once if batch else 1
        begun = time.perf_counter()
        left = memoryview(frames * count)
        while left:
            left = left[program.stdin.write(left) :]
        answers = b""
        while len(answers) < 32 * BATCH * count:
            more = program.stdout.read(65536)
            if not more:
                sys.exit("the program ended")
            answers += more
        if any(answers[at + 30] or answers[at + 31] for at in range(0, len(answers), 32)):
            sys.exit("an Append was refused")
        spent += time.perf_counter() - begun if batch else 0
    program.stdin.close()
    if program.wait():
        sys.exit("the program failed")
    return spent


def plain() -> float:
    """The seconds that they take in a file that is synced behind each."""
    with open(work / "plain", "wb", buffering=0) as out:
        out.write(blocks)
        begun = time.perf_counter()
        for _ in range(BATCHES):
            out.write(blocks)
            os.fdatasync(out.fileno())
        return time.perf_counter() - begun


def spent(*words) -> float:
    """The seconds that the program takes, with nothing to read."""
    begun = time.perf_counter()
    subprocess.run([zscli, *words], stdin=subprocess.DEVNULL, stdout=subprocess.DEVNULL, check=True)
    return time.perf_counter() - begun


def above(some, none) -> int:
    """The least nanoseconds of an Append of the first, above the least time of the second, which has none."""
    times = [min(spent(*words()) for _ in range(rounds)) for words in (some, none)]
    return round((times[0] - times[1]) / (BATCH * (BATCHES + 1)) * 1e9)


def fresh() -> pathlib.Path:
    """A new copy of the image."""
    return pathlib.Path(shutil.copy(work / "empty.img", work / "new.img"))


def least(what) -> int:
    """The least nanoseconds of an Append."""
    return round(min(what() for _ in range(rounds)) / (BATCH * BATCHES) * 1e9)


durable, held, file = least(lambda: served("--durable", "--frames")), least(lambda: served("--frames")), least(plain)
print(f"an Append of 4 KiB in batches of {BATCH}: durable {durable} ns, not durable {held} ns, a file that is synced {file} ns")
durable, held = least(lambda: served("--durable", "--frames", at_once=8)), least(lambda: served("--frames", at_once=8))
print(f"the same, eight batches asked for at once: durable {durable} ns, not durable {held} ns")
(work / "data").write_bytes(data)
line = subprocess.run([zscli, "entry", "append", "--lba", "0", "--data", work / "data"], stdout=subprocess.PIPE, check=True).stdout
(work / "commands").write_bytes(line * (BATCH * (BATCHES + 1)))
served("--durable", "--frames")
empty = fresh().rename(work / "journal.img")
spent("serve", empty, "--durable", "--frames")
opening = above(lambda: ("serve", work / "zoned.img", "--durable", "--frames"), lambda: ("serve", empty, "--durable", "--frames"))
executing = above(lambda: ("exec", fresh(), work / "commands"), lambda: ("exec", fresh(), os.devnull))
print(f"an Append that is done again: by opening the journal {opening} ns, by exec of it as text {executing} ns")
END
