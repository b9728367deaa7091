#!/usr/bin/env python3
"""Kills `nvme_tcp` at random moments, again and again, and looks for each acknowledged block.

    NVME_TCP_TARGET=nvme_tcp ZSCLI=zscli tests/faults/nvme_tcp.py [ROUNDS]        200 rounds where none is given

In each round a host appends blocks, each with a number of its own, 16 at a time, until the target is killed (SIGKILL) at a random
moment behind its start. Then it is started again on the file, and the zone read: it has the blocks of the rounds before, each that was
acknowledged where the host was told, and behind them at most others that were sent, whole. Each 25 rounds begin with a new image. Prints
how many blocks were acknowledged, and ends with status 1 at the first round that shows something else.
"""

import pathlib
import sys
import tempfile

TOP = pathlib.Path(__file__).resolve().parents[2]
sys.path.insert(0, str(TOP / "target"))
from killing import Lost, kill_once  # noqa: E402
from target import format_image  # noqa: E402

SECONDS = 0.3
ROUNDS_OF_AN_IMAGE = 25
ZONE = 1 << 17


def main() -> int:
    rounds = int(sys.argv[1]) if len(sys.argv) > 1 else 200
    blocks = 0
    found: list = []
    with tempfile.TemporaryDirectory(dir="/dev/shm") as folder:
        for done in range(rounds):
            image = pathlib.Path(folder) / f"{done // ROUNDS_OF_AN_IMAGE}.img"
            if done % ROUNDS_OF_AN_IMAGE == 0:
                format_image(image, zones=1, zone_size=ZONE)
                found = []
            before = len(found)
            try:
                found = kill_once(image, found, SECONDS)
            except Lost as lost:
                print(f"round {done}: {lost}")
                return 1
            blocks += len(found) - before
    print(f"{rounds} rounds: {blocks} blocks, each that was acknowledged among them")
    return 0


if __name__ == "__main__":
    sys.exit(main())
