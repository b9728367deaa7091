#!/usr/bin/env python3
"""Finds records by reading all blocks, and by a filter that runs beside them: what crossed, and how long it took.

    python3 examples/scan.py [BLOCKS]

appends so many orders (2,048 where nothing is said), each at the start of a block of 4096 bytes with its region in bytes 8 to 11,
and finds those of region 3 of 20 both ways. The bytes are those of data: a turn also takes two frames of 16 bytes.
"""

from __future__ import annotations

import struct
import subprocess
import sys
import tempfile
import time
from pathlib import Path
from typing import Callable, List, Tuple

sys.path.insert(0, str(Path(__file__).resolve().parents[1]))
import pifnjarl

BLOCK = 4096
REGION = 3

# emits the first 64 bytes of a block whose number in bytes 8 to 11 is the run's argument
FILTER = """
        ldxw r6, [r2+8]
        ldxw r7, [r1+20]
        jne r6, r7, end
        mov r1, r2
        mov r2, 64
        call 1
end:    mov r0, 0
        exit
"""


def order(number: int) -> bytes:
    """An order, in a block of its own."""
    return struct.pack("<8sI52s", b"order", number * 7 % 20, b"number %d" % number).ljust(BLOCK, b"\0")


def assembled(text: str, folder: Path) -> bytes:
    """A program's bytes, as `zscli asm` makes them."""
    (folder / "filter.txt").write_text(text)
    subprocess.run([pifnjarl.zscli(), "asm", folder / "filter.txt", folder / "filter.bin"], check=True)
    return (folder / "filter.bin").read_bytes()


def by_reading(device: pifnjarl.Device, blocks: int) -> Tuple[List[bytes], int]:
    """Reads all blocks, and keeps the orders of the region: these, and the bytes that crossed."""
    everything = device.read(0, blocks)
    orders = (everything[at : at + 64] for at in range(0, len(everything), BLOCK))
    return [found for found in orders if struct.unpack_from("<I", found, 8)[0] == REGION], len(everything)


def by_filter(device: pifnjarl.Device, blocks: int) -> Tuple[List[bytes], int]:
    """Runs the filter over the blocks, into the zone behind them, and reads what it appended."""
    device.open(blocks)
    done = device.run(0, 0, blocks, to=blocks, argument=REGION).wait()
    return device.records(blocks, done.blocks), done.blocks * BLOCK


def timed(way: Callable[[pifnjarl.Device, int], Tuple[List[bytes], int]], device: pifnjarl.Device, blocks: int) -> List[bytes]:
    """Finds the orders, and prints what that took."""
    began = time.perf_counter()
    orders, crossed = way(device, blocks)
    spent = time.perf_counter() - began
    print(f"{way.__name__}: {len(orders)} orders, {crossed:,} bytes crossed, {1000 * spent:.1f} ms")
    return orders


def main() -> None:
    """Finds them both ways."""
    blocks = int(sys.argv[1]) if len(sys.argv) > 1 else 2048
    with tempfile.TemporaryDirectory() as folder:
        image = Path(folder) / "orders.img"
        pifnjarl.format_image(image, block=BLOCK, zones=2, zone_size=blocks)
        with pifnjarl.Device(image) as device:
            device.append(0, b"".join(order(number) for number in range(blocks)))
            device.load(0, assembled(FILTER, Path(folder)), emit=66)
            same = timed(by_reading, device, blocks) == timed(by_filter, device, blocks)
    print("the same orders" if same else "other orders")


if __name__ == "__main__":
    main()
