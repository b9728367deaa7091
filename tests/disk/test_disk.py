#!/usr/bin/env python3
"""Tests of the shadow disk: that it sees each kind of sync that isn't made, and that what it knows of a disk is what happened.

tests/disk/test.sh names the programs by the variables of programs.py, and runs this.
"""

from __future__ import annotations

import doctest
import os
import sys
import unittest
from concurrent.futures import ThreadPoolExecutor
from pathlib import Path

sys.path.insert(0, str(Path(__file__).resolve().parent))
import calls
import disk
import events
import programs
import run
import stories
from calls import Call, Kind
from disk import Chance, Disk

LEFT_OUT = {
    "serve": ("payload", "gate", "new", "folder", "name"),
    "kept_frames": ("payload", "gate", "new", "folder", "name"),
    "nvme_tcp": ("payload", "gate", "new", "folder"),
    "fold": ("new",),
    "format": ("new", "folder"),
    "exec": ("new", "folder"),
    "saves": ("new", "folder"),
}
"""The kinds of syncs that a story shows by a loss, if they aren't made: shadow.c says which they are. (What `fold` makes has another form
and the same state, so that nothing is lost where its name is the old one. The target folds what it opens, so that nothing rests on the
name that it found.)"""

MOST_STORIES, POINTS = 30, 10
"""In how many stories a loss has to be found, and by how many points of each."""


class LeftOut(unittest.TestCase):
    """Syncs that aren't made."""

    def test_each_is_seen(self) -> None:
        with ThreadPoolExecutor(os.cpu_count()) as workers:
            begun = {(name, kind): workers.submit(is_seen, name, kind) for name, kinds in LEFT_OUT.items() for kind in kinds}
        for (name, kind), seen in begun.items():
            with self.subTest(f"{name} without {kind}"):
                self.assertTrue(seen.result(), "no loss is found")


def is_seen(name: str, kind: str) -> bool:
    """Is something lost at some point by a program that doesn't make syncs of a kind? Before power fails nothing is."""
    for at in range(0, MOST_STORIES * run.POINTS_OF_A_STORY, run.POINTS_OF_A_STORY):
        wrong = run.tried(name, 1, list(range(at, at + POINTS)), kind)
        if wrong:
            return run.BEFORE not in wrong[0]
    return False


class Disks(unittest.TestCase):
    """What a disk may have."""

    def found(self, disk: Disk, name: str) -> set[bytes | None]:
        """What many crashes leave of a file."""
        return {disk.crash(Chance(seed)).get(name) for seed in range(300)}

    def test_a_page_is_old_or_new_or_in_sectors_of_both(self) -> None:
        made = Disk({"a": b"o" * 4096})
        made.take(Call(Kind.OPENED, 1, place=4096, name="a"))
        made.take(Call(Kind.WRITTEN, 1, data=b"n" * 1024))
        found = self.found(made, "a")
        mixed = b"n" * 512 + b"o" * 3584
        self.assertLessEqual({b"o" * 4096, b"n" * 1024 + b"o" * 3072, mixed}, found)
        self.assertEqual({content[1024:] for content in found if content is not None}, {b"o" * 3072})

    def test_a_page_may_be_stale_until_a_sync(self) -> None:
        made = Disk({"a": b"1" * 512})
        made.take(Call(Kind.OPENED, 1, place=512, name="a"))
        for content in (b"2", b"3"):
            made.take(Call(Kind.WRITTEN, 1, data=content * 512))
            made.take(Call(Kind.SYNCED, 1))
        self.assertEqual(self.found(made, "a"), {b"3" * 512})
        made.take(Call(Kind.WRITTEN, 1, data=b"4" * 512))
        self.assertEqual(self.found(made, "a"), {number * 512 for number in (b"1", b"2", b"3", b"4")})

    def test_a_length_is_anything_between(self) -> None:
        made = Disk({"a": b"12"})
        made.take(Call(Kind.OPENED, 1, place=2, name="a"))
        made.take(Call(Kind.WRITTEN, 1, place=2, data=b"34"))
        self.assertEqual({len(content or b"") for content in self.found(made, "a")}, {2, 3, 4})
        made.take(Call(Kind.TRUNCATED, 1, place=0))
        self.assertIn(b"", self.found(made, "a"))

    def test_a_name_is_old_or_new_until_the_folder_is_synced(self) -> None:
        made = Disk({"a": b"old"})
        made.take(Call(Kind.OPENED, 1, name="b", is_new=True))
        made.take(Call(Kind.WRITTEN, 1, data=b"new"))
        made.take(Call(Kind.SYNCED, 1))
        made.take(Call(Kind.RENAMED, name="b", to="a"))
        self.assertEqual(self.found(made, "a"), {b"old", b"new"})
        made.take(Call(Kind.SYNCED, is_folder=True))
        self.assertEqual((self.found(made, "a"), self.found(made, "b")), ({b"new"}, {None}))

    def test_a_sync_that_failed_leaves_what_a_later_one_does_not_bring(self) -> None:
        made = Disk({"a": b"o" * 4096})
        made.take(Call(Kind.OPENED, 1, place=4096, name="a"))
        made.take(Call(Kind.WRITTEN, 1, data=b"n" * 4096))
        made.take(Call(Kind.SYNCED, 1, has_failed=True))
        made.take(Call(Kind.SYNCED, 1))
        self.assertEqual(made.read(), {"a": b"n" * 4096})
        self.assertIn(b"o" * 4096, self.found(made, "a"))
        made.take(Call(Kind.WRITTEN, 1, data=b"n"))
        made.take(Call(Kind.SYNCED, 1))
        self.assertEqual(self.found(made, "a"), {b"n" * 4096})


def load_tests(loader: unittest.TestLoader, tests: unittest.TestSuite, pattern: object) -> unittest.TestSuite:
    """The examples of docstrings are tests too."""
    for module in (calls, disk, events, programs, stories):
        tests.addTests(doctest.DocTestSuite(module))
    return tests


def main() -> int:
    """Runs the tests; what is printed last is 'N passed, M failed'."""
    result = unittest.main(exit=False).result
    failed = len(result.failures) + len(result.errors)
    print(f"{result.testsRun - failed} passed, {failed} failed", flush=True)
    return 1 if failed else 0


if __name__ == "__main__":
    sys.exit(main())
