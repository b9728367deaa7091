#!/usr/bin/env python3
"""Tries the helpers of the transcripts."""

import doctest
import unittest
from pathlib import Path
from tempfile import TemporaryDirectory
from unittest import mock

import frames
import pages


class Pages(unittest.TestCase):
    """Which blocks of a page are examples."""

    def test_blocks_with_a_command_alone(self) -> None:
        page = "    $ a\n    b\n\nText `$ c`.\n\n    d\n    $ e\n\n    $ f\n    > g\n      h\nend\n"
        self.assertEqual(pages.examples(page), [["$ a", "b"], ["$ f", "> g", "  h"]])

    def test_a_page_without_examples_gives_no_transcript(self) -> None:
        with TemporaryDirectory() as name:
            folder = Path(name)
            (folder / "a.md").write_text("    output\n")
            pages.main(folder, [folder / "a.md"])
            self.assertEqual([file.name for file in folder.iterdir()], ["a.md"])

    def test_a_page_whose_tools_are_missing_is_named(self) -> None:
        with TemporaryDirectory() as name, mock.patch("shutil.which", return_value=None), mock.patch("builtins.print") as told:
            folder = Path(name)
            for page in ("first_run.md", "a.md"):
                (folder / page).write_text("    $ make\n")
            pages.main(folder, [folder / "first_run.md", folder / "a.md"])
            self.assertEqual(sorted(file.name for file in folder.glob("*.t")), ["first_run.md.t"])
            told.assert_called_once_with(f"{folder / 'a.md'}: not run, since there is no clang and no make")


class Frames(unittest.TestCase):
    """Frames from words, and in words."""

    def test_the_frames_of_the_page(self) -> None:
        self.assertEqual(frames.frame("turn 5").hex(), "02050000" + "00" * 12)
        entry = "c200090001" + "00" * 59
        self.assertEqual(frames.frame(f"submit 1 {entry}").hex(), "01000100" + "00" * 12 + entry)

    def test_answers(self) -> None:
        completion = bytes.fromhex("01000100000000000004000000000000") + bytes(range(16)) + bytes(1023) + b"\1"
        told = ["cpl 1 " + bytes(range(16)).hex() + " 00x1023 01", "idle", "drained 7", "rest 01"]
        rest = bytes.fromhex("03" + "00" * 15 + "06000000070000000000000000000000" + "01")
        self.assertEqual(list(frames.answers(completion + rest)), told)


class Examples(unittest.TestCase):
    """The examples in the documentation of functions."""

    def test_examples(self) -> None:
        for module in (frames, pages):
            self.assertEqual(doctest.testmod(module).failed, 0)


if __name__ == "__main__":
    unittest.main()
