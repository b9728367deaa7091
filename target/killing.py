"""Rounds in which a durable target is killed at a random moment while a host appends, and what must be found then."""

from __future__ import annotations

import random
import signal
import threading
import time
from pathlib import Path
from typing import List

from nvme_tcp_connection import HostError, Opcode
from nvme_tcp_host import Host, IoQueue
from target import Target

MOST_FLYING = 16
"""Appends that are in flight at once."""


class Lost(Exception):
    """What was found is not what was acknowledged."""


def block(number: int, size: int) -> bytes:
    """The block of a number, from 1 on, which it fills."""
    return number.to_bytes(8, "little") * (size // 8)


class Sender(threading.Thread):
    """Appends blocks of the numbers from one on to the first zone, until its target is gone: those up to `sent` were sent, and those in
    `told` acknowledged, each with the LBA that it was told."""

    def __init__(self, queue: IoQueue, first: int) -> None:
        super().__init__()
        self.queue, self.sent, self.told = queue, first - 1, {}

    def run(self) -> None:
        flying = {}
        try:
            while True:
                while len(flying) < MOST_FLYING:
                    number = self.sent + 1
                    self.sent = number
                    flying[number] = self.queue.submit(Opcode.ZONE_APPEND, 0, data=block(number, self.queue.block))
                number = next(iter(flying))
                self.told[number] = self.queue.done(flying.pop(number)).value
        except (HostError, OSError):
            pass


def numbers(queue: IoQueue) -> List[int]:
    """The numbers of the blocks in the first zone."""
    found = []
    for lba in range(queue.report(0, most=1)[0].write_pointer):
        data = queue.read(lba, 1)
        number = int.from_bytes(data[:8], "little")
        if data != block(number, queue.block):
            raise Lost(f"the block {lba} is there in part")
        found.append(number)
    return found


def check(found: List[int], before: List[int], sender: Sender) -> None:
    """The blocks are those from before, and behind them others that were sent, each once, with each that was acknowledged where it was
    told to be."""
    new = found[len(before) :]
    if found[: len(before)] != before:
        raise Lost("blocks of rounds before are gone")
    if len(set(new)) != len(new) or not set(new) <= set(range(1, sender.sent + 1)) - set(before):
        raise Lost("there are blocks that weren't sent")
    lost = [number for number, lba in sender.told.items() if lba >= len(found) or found[lba] != number]
    if lost:
        raise Lost(f"{len(lost)} acknowledged blocks are gone, of which the first is {lost[0]}")


def kill_once(image: Path, before: List[int], seconds: float) -> List[int]:
    """A round: gives the numbers of the blocks that are there behind it."""
    with Target(image, is_durable=True) as target:
        host = Host(target.address)
        sender = Sender(host.queue(1), max(before, default=0) + 1)
        sender.start()
        time.sleep(random.uniform(0, seconds))
        target.stop(by=signal.SIGKILL)
        sender.join()
        for queue in (host.admin, sender.queue):
            queue.connection.shut()
    with Target(image, is_durable=True) as target, Host(target.address) as host:
        found = numbers(host.queue(1))
    check(found, before, sender)
    return found
