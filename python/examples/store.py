#!/usr/bin/env python3
"""A log-structured store of keys and values on zones.

Each put appends a record to the zone that is open, in whole blocks; one that is full is left, and an Empty zone is opened. Where
each key's newest record lies is kept in memory, and found again from the zones when the store is opened. One zone is kept Empty:
before it is the last, the zone with the fewest blocks of newest records is compacted, these being moved and the zone reset.

    python3 examples/store.py

puts 2,000 values under 50 keys, opens the store again, and reads them.
"""

from __future__ import annotations

import struct
import sys
import tempfile
from pathlib import Path
from typing import Dict, Iterator, NamedTuple, Optional, Set, Tuple

sys.path.insert(0, str(Path(__file__).resolve().parents[1]))
import pifnjarl

# the front of a record, then its number among all records, the lengths of the key and of the value, and whether the key is deleted
HEAD = struct.Struct("<4sQHI?")
MAGIC = b"kept"


class Place(NamedTuple):
    """Where a record lies, its number, and whether it deletes its key."""

    zone: int
    lba: int
    blocks: int
    number: int
    deletes: bool


class Store:
    """Keys and values, both bytes, on a device of which all zones are the store's.

    >>> with pifnjarl.example() as device:
    ...     store = Store(device)
    ...     store.put(b"lamps", b"2")
    ...     store.put(b"lamps", b"3")
    ...     store.get(b"lamps"), store.get(b"desks"), Store(device).get(b"lamps")
    (b'3', None, b'3')
    """

    def __init__(self, device: pifnjarl.Device) -> None:
        """Finds the newest record of each key in the zones."""
        self.resets = 0
        self._device = device
        self._block = device.geometry.block
        self._capacity = device.geometry.zone_capacity
        self._newest: Dict[bytes, Place] = {}
        self._number = 0
        zones = device.report()
        self._empty = [zone.start for zone in zones if zone.state is pifnjarl.ZoneState.EMPTY]
        self._written = [zone.start for zone in zones if zone.start not in self._empty]
        # nothing is appended any more to what an earlier store left open
        device.finish(pifnjarl.ALL_ZONES)
        self._room = 0
        for zone in self._written:
            for key, place in self._records(zone):
                self._number = max(self._number, place.number)
                if key not in self._newest or place.number > self._newest[key].number:
                    self._newest[key] = place

    def put(self, key: bytes, value: bytes) -> None:
        """Keeps a value under a key, in place of the one before."""
        self._append(key, value, deletes=False)

    def delete(self, key: bytes) -> None:
        """Forgets a key."""
        if key in self.keys():
            self._append(key, b"", deletes=True)

    def get(self, key: bytes) -> Optional[bytes]:
        """The value of a key, or None."""
        place = self._newest.get(key)
        if place is None or place.deletes:
            return None
        record = self._device.read(place.lba, place.blocks)
        _, _, of_key, of_value, _ = HEAD.unpack_from(record)
        return record[HEAD.size + of_key :][:of_value]

    def keys(self) -> Set[bytes]:
        """All keys."""
        return {key for key, place in self._newest.items() if not place.deletes}

    # ---- records

    def _append(self, key: bytes, value: bytes, deletes: bool) -> None:
        """Appends a record, the newest of its key."""
        self._number += 1
        record = HEAD.pack(MAGIC, self._number, len(key), len(value), deletes) + key + value
        blocks = self._blocks(len(record))
        if blocks > self._capacity:
            raise ValueError(f"a record of {blocks} blocks has no room in a zone")
        for _ in range(self._device.geometry.zones):
            if self._room < blocks:
                self._next_zone()
        if self._room < blocks:
            raise OSError("the store is full")
        self._newest[key] = self._append_to_open(record, Place(0, 0, blocks, self._number, deletes))

    def _append_to_open(self, record: bytes, place: Place) -> Place:
        """Appends a record to the open zone, which has room: where it lies now."""
        zone = self._written[-1]
        lba = self._device.append(zone, record.ljust(place.blocks * self._block, b"\0"))
        self._room -= place.blocks
        return place._replace(zone=zone, lba=lba)

    def _records(self, zone: int) -> Iterator[Tuple[bytes, Place]]:
        """The keys and places of the records of a zone, from its first on."""
        lba = zone
        while lba < zone + self._capacity:
            magic, number, of_key, of_value, deletes = HEAD.unpack_from(self._device.read(lba, 1))
            if magic != MAGIC:
                return
            blocks = self._blocks(HEAD.size + of_key + of_value)
            yield self._device.read(lba, blocks)[HEAD.size :][:of_key], Place(zone, lba, blocks, number, deletes)
            lba += blocks

    def _blocks(self, size: int) -> int:
        """The blocks of a record of so many bytes."""
        return -(-size // self._block)

    # ---- zones

    def _next_zone(self) -> None:
        """Leaves the open zone. Opens an Empty one, but the last only for what is moved when another one is compacted."""
        if not self._empty:
            raise OSError("a store wants an Empty zone")
        if self._written:
            self._device.finish(self._written[-1])
        compacts = len(self._empty) == 1
        self._written.append(self._empty.pop())
        self._room = self._capacity
        if compacts:
            self._compact()

    def _compact(self) -> None:
        """Moves the newest records of the zone that has the fewest blocks of them to the open zone, and resets it."""
        blocks = dict.fromkeys(self._written[:-1], 0)
        for place in self._newest.values():
            blocks[place.zone] += place.blocks
        zone = min(blocks, key=lambda zone: blocks[zone])
        for key, place in self._newest.items():
            if place.zone == zone:
                self._newest[key] = self._append_to_open(self._device.read(place.lba, place.blocks), place)
        self._device.reset(zone)
        self.resets += 1
        self._written.remove(zone)
        self._empty.append(zone)


def main() -> None:
    """Puts values, and reads them."""
    with tempfile.TemporaryDirectory() as folder:
        image = Path(folder) / "store.img"
        pifnjarl.format_image(image, zones=8, most_active=1)
        expected = {}
        with pifnjarl.Device(image) as device:
            store = Store(device)
            for number in range(2000):
                key, value = b"key %02d" % (number * 7 % 50), b"value %04d " % number * (number % 60)
                store.put(key, value)
                expected[key] = value
            resets = store.resets
        with pifnjarl.Device(image) as device:
            store = Store(device)
            right = store.keys() == set(expected) and all(store.get(key) == value for key, value in expected.items())
    print(f"{len(expected)} keys, {'all' if right else 'not all'} as they were put; zones were reset {resets} times")


if __name__ == "__main__":
    main()
