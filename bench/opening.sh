#!/bin/sh
# Opens a journal of 256 MiB and one of 1 GiB by `zscli serve --durable`, which does each of its events again, beside `cp` of the same bytes.
# Prints the least seconds of either, of several rounds, and the most memory that the program took, above what it takes to open the empty
# journal of the same device. The files are in memory (/dev/shm) unless FOLDER names another folder. MIB names other lengths.
set -eu
here=$(cd "$(dirname "$0")" && pwd)
work=$(mktemp -d "${FOLDER:-/dev/shm}/opening.XXXXXX")
trap 'rm -r "$work"' EXIT
zscli=${ZSCLI:-$here/../crates/zscli/out/zscli}
if [ -z "${ZSCLI-}" ]; then
    "$here/../zscli" --help > /dev/null
fi
"$zscli" format "$work/new" --block 4096 --zones 2 --size 4096 --capacity 4096 --open 2 --active 2
python3 - "$zscli" "$work" "${ROUNDS:-5}" ${MIB:-256 1024} << 'END'
import os
import pathlib
import struct
import subprocess
import sys
import time

zscli, work, rounds, lengths = sys.argv[1], pathlib.Path(sys.argv[2]), int(sys.argv[3]), [int(it) for it in sys.argv[4:]]
MIB, LARGE = 1 << 20, 1 << 17
# a zone has 16 MiB: by so many Appends of 128 KiB, after a Reset
FILLED = 128


def frame(entry: bytes, data: bytes = b"") -> bytes:
    """The frame of a submission."""
    return struct.pack("<BBHII4x", 1, 0, 1, 0, len(data)) + entry + data


def entry(opcode: int, low: int = 0, action: int = 0) -> bytes:
    """The entry of a command to zone 0."""
    made = bytearray(64)
    made[0] = opcode
    struct.pack_into("<HI", made, 2, 1, 1)
    struct.pack_into("<I", made, 48, low)
    struct.pack_into("<I", made, 52, action)
    return bytes(made)


# Zone Append of 32 blocks, and Zone Management Send with Reset Zone
append = frame(entry(0x7D, LARGE // 4096 - 1), bytes(range(256)) * (LARGE // 256))
reset = frame(entry(0x79, 0, 4))
filled = (reset + append * FILLED) * 3


def ran(*words, stdin=None) -> tuple:
    """The seconds that a program took, and the most memory, in bytes."""
    begun = time.perf_counter()
    child = subprocess.Popen([str(word) for word in words], stdin=stdin or subprocess.DEVNULL, stdout=subprocess.DEVNULL)
    _, status, used = os.wait4(child.pid, 0)
    child.returncode = status
    if status:
        sys.exit(f"{words} failed")
    return time.perf_counter() - begun, used.ru_maxrss * 1024


def served(image: pathlib.Path, frames: bytes) -> None:
    """Does the frames of a stream, each of which succeeds."""
    answers = subprocess.run([zscli, "serve", image, "--durable", "--frames"], input=frames, stdout=subprocess.PIPE, check=True).stdout
    if any(answers[at + 30] or answers[at + 31] for at in range(0, len(answers), 32)):
        sys.exit("a command was refused")


def grown(image: pathlib.Path, length: int) -> None:
    """A journal of about so many bytes. The program folds it once it has grown by 64 MiB since it was opened, so it is opened again before."""
    while image.stat().st_size < length:
        missing = (length - image.stat().st_size) // (LARGE + 4096) + 1
        served(image, filled if missing > 3 * FILLED else reset + append * min(missing, FILLED))


journal, copied = work / "journal", work / "copy"
(work / "new").rename(journal)
served(journal, b"")
_, least = ran(zscli, "serve", journal, "--durable", "--frames")
print(f"an empty journal: {least / MIB:.1f} MiB")
for mib in lengths:
    grown(journal, mib * MIB)
    opened = [ran(zscli, "serve", journal, "--durable", "--frames") for _ in range(rounds)]
    copies = []
    for _ in range(rounds):
        copied.unlink(missing_ok=True)
        copies.append(ran("cp", journal, copied)[0])
    copied.unlink()
    seconds, memory = min(it[0] for it in opened), max(it[1] for it in opened)
    print(
        f"{journal.stat().st_size / MIB:.0f} MiB: opened in {seconds:.2f} s, {(memory - least) / MIB:.1f} MiB more;"
        f" copied in {min(copies):.2f} s; {seconds / min(copies):.2f} times its time"
    )
END
