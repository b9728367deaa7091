"""A disk below a folder of files, as the calls for them leave it: what programs read, and what a crash may leave.

A file is pages of 4096 bytes, each in sectors of 512. Of a page it is known what programs read there, and what may be on the disk: what
the last sync brought there, and each content since. A crash leaves any of these, for the page as a whole or for each sector by itself;
of a page that was changed since also what was there before. A page that is written again with the bytes that it has is left with one of
those that it had and has. A length that was set since the last sync is anything between. A name
leads where it led at the folder's last sync, or anywhere since.

A sync that fails leaves what may be on the disk as it was, and the pages as if they were there: a later sync brings none of them to the
disk that isn't written again.

    >>> disk = Disk({"a": b"old"})
    >>> disk.take(Call(Kind.OPENED, 7, place=3, name="a"))
    >>> disk.take(Call(Kind.WRITTEN, 7, data=b"new"))
    >>> sorted({disk.crash(Chance(seed))["a"] for seed in range(50)})
    [b'new', b'old']
    >>> disk.take(Call(Kind.SYNCED, 7))
    >>> {disk.crash(Chance(seed))["a"] for seed in range(50)}
    {b'new'}
"""

from __future__ import annotations

import random
from enum import Enum
from typing import Dict, List, Optional

from calls import Call, Kind

PAGE, SECTOR = 4096, 512
_NOTHING = bytes(PAGE)


class Mood(Enum):
    """What of the writes since a sync is on the disk."""

    ALL = "all"
    NONE = "none"
    FIRST = "those up to one"
    LAST = "those from one on"
    MIXED = "some, and parts of some"


class Chance(random.Random):
    """What a crash comes to, of all that it may: one mood for all files, and a moment that parts their writes."""

    def __init__(self, seed: object) -> None:
        """The same for the same seed."""
        super().__init__(repr(seed))
        self.mood = self.choices(list(Mood), (3, 3, 4, 5, 5))[0]
        self.moment = 0


class Page:
    """A page of a file: what is read there, and what may be on the disk, of which the first is what was brought there last."""

    def __init__(self, read: bytes = _NOTHING) -> None:
        """A page that is on the disk."""
        self.read = read
        self.may_be = [read]
        self.moments = [0]
        self.stale: List[bytes] = []
        self.is_dirty = self.is_changed = False

    def write(self, at: int, data: bytes, moment: int) -> None:
        """Bytes are written within the page."""
        before = self.read
        self.read = before[:at] + data + before[at + len(data) :]
        self.is_changed |= self.read != before
        self.may_be.append(self.read)
        self.moments.append(moment)
        self.is_dirty = True

    def sync(self) -> None:
        """A sync is done: the page is on the disk, if it was written since the last one, be that done or failed."""
        if self.is_dirty:
            self.stale.append(self.may_be[0])
            self.may_be, self.moments = [self.read], [0]
            self.is_dirty = self.is_changed = False

    def crash(self, chance: Chance) -> bytes:
        """What a crash leaves."""
        if len(self.may_be) == 1:
            return self.may_be[0]
        if chance.mood is Mood.ALL:
            return self.may_be[-1]
        if chance.mood is Mood.FIRST:
            return [content for content, moment in zip(self.may_be, self.moments) if moment <= chance.moment][-1]
        if chance.mood is Mood.LAST:
            return self.may_be[-1 if self.moments[-1] >= chance.moment else 0]
        if chance.mood is Mood.MIXED:
            return self._mixed(chance)
        return self.may_be[0]

    def _mixed(self, chance: Chance) -> bytes:
        """Any content, or of each sector any."""
        contents = [*(self.stale[-2:] if self.is_changed else ()), *self.may_be]
        if chance.random() < 0.5:
            return b"".join(chance.choice(contents)[at : at + SECTOR] for at in range(0, PAGE, SECTOR))
        return chance.choice([self.may_be[0], self.read, chance.choice(contents)])


class File:
    """A file: its pages and its length, and which lengths may be on the disk."""

    def __init__(self, content: bytes = b"") -> None:
        """A file that is on the disk."""
        self.pages = [Page(content[at : at + PAGE].ljust(PAGE, b"\0")) for at in range(0, len(content), PAGE)]
        self.length = len(content)
        self.lengths = [self.length]

    @property
    def read(self) -> bytes:
        """What programs read."""
        return b"".join(page.read for page in self.pages)[: self.length].ljust(self.length, b"\0")

    @property
    def moments(self) -> List[int]:
        """When what isn't on the disk was written."""
        return [moment for page in self.pages for moment in page.moments[1:]]

    def write(self, at: int, data: bytes, moment: int) -> None:
        """Bytes are written at an offset."""
        end = at + len(data)
        while len(self.pages) * PAGE < end:
            self.pages.append(Page())
        while at < end:
            number, within = divmod(at, PAGE)
            count = min(PAGE - within, end - at)
            self.pages[number].write(within, data[len(data) - (end - at) :][:count], moment)
            at += count
        self._set_length(max(self.length, end))

    def truncate(self, length: int, moment: int) -> None:
        """The length is set."""
        for number, page in enumerate(self.pages):
            kept = max(0, min(PAGE, length - number * PAGE))
            if kept < PAGE and any(page.read[kept:]):
                page.write(kept, bytes(PAGE - kept), moment)
        self._set_length(length)

    def sync(self) -> None:
        """A sync of the file is done."""
        for page in self.pages:
            page.sync()
        self.lengths = [self.length]

    def fail_sync(self) -> None:
        """A sync of the file fails."""
        for page in self.pages:
            page.is_dirty = False

    def crash(self, chance: Chance) -> bytes:
        """What a crash leaves."""
        length = self.length
        if len(self.lengths) > 1:
            between = chance.randint(min(self.lengths), max(self.lengths))
            length = chance.choice([self.lengths[0], self.length, self.length, between])
        whole = b"".join(page.crash(chance) for page in self.pages)
        return whole[:length].ljust(length, b"\0")

    def _set_length(self, length: int) -> None:
        if length != self.length:
            self.length = length
            self.lengths.append(length)


class Disk:
    """A folder of files."""

    def __init__(self, contents: Dict[str, bytes]) -> None:
        """Files that are on the disk."""
        self._names: Dict[str, List[Optional[File]]] = {name: [File(content)] for name, content in contents.items()}
        self._inodes: Dict[int, File] = {}
        self._moment = 0

    def read(self) -> Dict[str, bytes]:
        """What programs read of each file."""
        return {name: leads[-1].read for name, leads in self._names.items() if leads[-1] is not None}

    def take(self, call: Call) -> None:
        """A call is made."""
        self._moment += 1
        if call.kind is Kind.OPENED:
            self._open(call)
        elif call.kind is Kind.WRITTEN:
            self._inodes[call.inode].write(call.place, call.data, self._moment)
        elif call.kind is Kind.TRUNCATED:
            self._inodes[call.inode].truncate(call.place, self._moment)
        elif call.kind is Kind.SYNCED and not call.is_skipped:
            self._sync(call)
        elif call.kind is Kind.RENAMED:
            self._lead(call.to, self._file(call.name))
            self._lead(call.name, None)
        elif call.kind is Kind.LINKED:
            self._lead(call.to, self._file(call.name))
        elif call.kind is Kind.UNLINKED:
            self._lead(call.name, None)

    def crash(self, chance: Chance) -> Dict[str, bytes]:
        """What a crash leaves of each file. A file is left as one, whatever names lead to it."""
        left: Dict[File, bytes] = {}
        found = {}
        files = {file for leads in self._names.values() for file in leads if file is not None}
        chance.moment = chance.choice(sorted(moment for file in files for moment in file.moments) or [0])
        for name, leads in sorted(self._names.items()):
            file = chance.choice([leads[0], leads[-1], chance.choice(leads)])
            if file is not None:
                if file not in left:
                    left[file] = file.crash(chance)
                found[name] = left[file]
        return found

    def _open(self, call: Call) -> None:
        if call.is_new:
            self._lead(call.name, File())
        file = self._file(call.name)
        assert file is not None, call
        self._inodes[call.inode] = file
        if call.place < file.length:
            file.truncate(call.place, self._moment)

    def _sync(self, call: Call) -> None:
        if call.is_folder:
            if not call.has_failed:
                self._names = {name: leads[-1:] for name, leads in self._names.items()}
        elif call.has_failed:
            self._inodes[call.inode].fail_sync()
        else:
            self._inodes[call.inode].sync()

    def _file(self, name: str) -> Optional[File]:
        return self._names[name][-1]

    def _lead(self, name: str, file: Optional[File]) -> None:
        self._names.setdefault(name, [None]).append(file)
