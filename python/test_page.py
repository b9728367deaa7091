"""Tests of the page of a command file: its text is parsed, no browser is needed."""

from __future__ import annotations

import contextlib
import doctest
import io
import json
import re
import shutil
import subprocess
import sys
import tempfile
import unittest
from html.parser import HTMLParser
from pathlib import Path
from typing import Dict, List, Optional, Set, Tuple
from unittest import mock

sys.path.insert(0, str(Path(__file__).resolve().parent))
import pifnjarl
import pifnjarl_drawing
import pifnjarl_page

# one program emits nothing; a run is left with turns after the last line; each state of a zone comes
WORDS = """
append --lba 0 --data two
load --slot 0 --program filter --emit 0
open --lba 8
run --slot 0 --from 0 --blocks 2 --to 8
turn 0
reset --lba 0 --queue 2
turn 1
turn 0
append --lba 16 --data two
close --lba 16
append --lba 24 --data four
append --lba 32 --data two
finish --lba 32
fault 5 readonly
fault 6 offline
fault 6 readonly
report --lba 0
run --slot 0 --from 0 --blocks 2 --to 8 --queue 3
turn 0
"""
EVENTS, ZONES = 20, 8


class Parsed(HTMLParser):
    """The elements of a page: of each its name, its attributes, and the text in it."""

    def __init__(self, text: str) -> None:
        super().__init__()
        self.elements: List[Tuple[str, Dict[str, Optional[str]], List[str]]] = []
        self.open: List[Tuple[str, List[str]]] = []
        self.feed(text)
        self.close()

    def handle_starttag(self, tag: str, attrs: List[Tuple[str, Optional[str]]]) -> None:
        inner: List[str] = []
        self.elements.append((tag, dict(attrs), inner))
        if tag not in ("meta", "input", "br"):
            self.open.append((tag, inner))

    def handle_endtag(self, tag: str) -> None:
        if tag not in ("meta", "input", "br"):
            assert self.open and self.open[-1][0] == tag, (tag, self.open)
            self.open.pop()

    def handle_data(self, data: str) -> None:
        for _, inner in self.open:
            inner.append(data)

    def text(self, name: str) -> str:
        """The text in the element with an id."""
        (found,) = ["".join(inner) for _, attributes, inner in self.elements if attributes.get("id") == name]
        return found

    def of_class(self, name: str) -> List[str]:
        """The texts in the elements of a class."""
        return ["".join(inner) for _, attributes, inner in self.elements if name in (attributes.get("class") or "").split()]


class Pages(unittest.TestCase):
    """A page of what the words above do."""

    def setUp(self) -> None:
        folder = tempfile.TemporaryDirectory()
        self.addCleanup(folder.cleanup)
        self.folder = Path(folder.name)
        self.image, self.commands = self.folder / "zoned.img", self.folder / "<work> & co.cmd"
        for name, blocks in (("two", 2), ("four", 4)):
            (self.folder / name).write_bytes(bytes(512 * blocks))
        (self.folder / "filter").write_bytes(pifnjarl.EMITS_NOTHING)
        self.write(WORDS)
        pifnjarl.format_image(self.image, zones=ZONES, zone_size=8, zone_capacity=4, most_open=4, most_active=6)

    def zscli(self, *words: str) -> str:
        """What a command prints."""
        ran = subprocess.run([pifnjarl.zscli(), *words], cwd=self.folder, capture_output=True, text=True, check=True)
        return ran.stdout

    def write(self, words: str) -> None:
        """Makes the command file."""
        (self.folder / "words").write_text(words)
        self.commands.write_text("; a comment\n" + self.zscli("entries", "words"))

    def page(self) -> Parsed:
        """The page, whose elements are closed in order."""
        parsed = Parsed(pifnjarl_drawing.page(pifnjarl_page.story(self.image, self.commands)))
        self.assertEqual(parsed.open, [])
        return parsed

    def replies(self) -> Path:
        """What `exec` prints for the commands on a copy, which is saved as after.img."""
        shutil.copy(self.image, self.folder / "after.img")
        replies = self.folder / "replies"
        replies.write_text(self.zscli("exec", "after.img", self.commands.name))
        return replies

    def test_each_event_is_there_in_words(self) -> None:
        """Those of `explain`, also of a turn after the last line."""
        page = self.page()
        told = [page.text(f"event-{number}") for number in range(1, EVENTS + 1)]
        self.assertEqual(len(page.of_class("event")), EVENTS)
        explained = self.zscli("explain", str(self.replies()), "--commands", self.commands.name)
        words = [line for line in explained.splitlines() if line.startswith("queue ")]
        self.assertEqual(len(words), 12)
        for line in words:
            self.assertTrue(any(line in text for text in told), line)
        run = "queue 1, command 4: run of slot 0 over 2 blocks from LBA 0 on, to the zone of LBA 8"
        self.assertIn(f"line 5 {run}: admitted as run 0", told[3])
        self.assertIn("line 6 turn of run 0, which has turns left", told[4])
        self.assertIn("turn of run 1, which is not active", told[6])
        self.assertIn(f"last turn of run 0: {run}: 0 records in 0 blocks", told[7])
        self.assertIn("zone 5 becomes readonly", told[13])
        self.assertIn("fault of zone 6: refused", told[15])
        self.assertIn("SLBA: 0x38", told[16])
        self.assertIn("after the last line last turn of run 0: queue 3", told[19])
        refused = [number for number, text in enumerate(told, 1) if text in page.of_class("refused")]
        self.assertEqual(refused, [6, 16])

    def test_each_zone_is_there_over_time(self) -> None:
        """What the slider shows at the end is what `report` says of the image that was saved; each state has its letter."""
        page = self.page()
        data = json.loads(page.text("data"))
        zones: Dict[int, Tuple[str, int]] = {}
        states: Set[str] = set()
        self.assertEqual(len(data["changes"]), EVENTS + 1)
        for change in data["changes"]:
            zones.update({number: (state, written) for number, state, written in change})
            states.update(state for state, _ in zones.values())
        self.replies()
        report = json.loads(self.zscli("report", "after.img", "--json"))
        self.assertEqual([zones[number] for number in range(ZONES)], [(zone["state"], zone["written"]) for zone in report["zones"]])
        self.assertEqual(states, set(pifnjarl_drawing.LOOKS))
        self.assertEqual(len({look.letter for look in pifnjarl_drawing.LOOKS.values()}), 7)
        for number in range(ZONES):
            self.assertIn(f"zone {number}", page.text(f"zone-{number}"))
            self.assertIn(f"zone {number}LBA {8 * number}", page.text("picture"))
        for look in pifnjarl_drawing.LOOKS.values():
            self.assertIn(look.letter + look.name, "".join(page.of_class("legend")))
            self.assertTrue(look.letter in page.of_class("letter"), look)
            self.assertIn(f"{look.name}, ", page.text("picture"))

    def test_runs_are_bars_over_their_turns(self) -> None:
        """From the event that admits a run to its last turn."""
        page = self.page()
        self.assertEqual(
            page.of_class("run"),
            [
                f"queue {queue}, command {command}: run of slot 0 over 2 blocks from LBA 0 on, to the zone of LBA 8: "
                f"0 records in 0 blocks; admitted by event {event}, 2 turns"
                for queue, command, event in ((1, 4, 4), (3, 1, 18))
            ],
        )
        self.assertEqual(len(page.of_class("turn")), 4)

    def test_of_many_zones_those_that_change_have_a_lane(self) -> None:
        """The others have a box, and are counted."""
        pifnjarl.format_image(self.image, zones=2100, zone_size=8, zone_capacity=4, most_active=6)
        page = self.page()
        self.assertEqual(len(page.of_class("zone")), 2100)
        self.assertIn("2093 zones without a lane", "".join(page.of_class("dim")))
        self.assertNotIn("zone 7LBA", page.text("picture"))

    def test_it_needs_no_network(self) -> None:
        """Nothing is loaded. Names of files don't become elements."""
        page = self.page()
        for tag, attributes, _ in page.elements:
            self.assertNotIn(tag, ("link", "img", "iframe", "work"))
            self.assertFalse({"src", "href", "xlink:href"} & set(attributes))
        text = Path(pifnjarl_drawing.__file__).with_name("pifnjarl_page.html").read_text()
        self.assertIsNone(re.search(r"https?:|@import|url\(", text))
        self.assertEqual(page.of_class("nothing"), [])
        (title,) = ["".join(inner) for tag, _, inner in page.elements if tag == "title" and "zoned.img" in "".join(inner)]
        self.assertEqual(title, "<work> & co.cmd on zoned.img")

    def ended(self, *more: str) -> Tuple[int, str]:
        """What the program ends with, and tells."""
        told = io.StringIO()
        words = ["pifnjarl_page.py", str(self.image), str(self.commands), "-o", str(self.folder / "page.html"), *more]
        with mock.patch.object(sys, "argv", words), contextlib.redirect_stderr(told):
            return pifnjarl_page.main(), told.getvalue()

    def test_the_program_makes_a_page_and_leaves_the_image(self) -> None:
        """Also where the replies are given that it checks."""
        before = self.image.read_bytes()
        self.assertEqual(self.ended("--replies", str(self.replies())), (0, ""))
        self.assertEqual(self.image.read_bytes(), before)
        self.assertTrue((self.folder / "page.html").read_text().startswith("<!DOCTYPE html>"))

    def test_what_is_wrong_is_told(self) -> None:
        """Other replies, a wrong line, too many events, and no image. No page is made."""
        replies = self.replies()
        replies.write_text(replies.read_text() + "idle\n")
        status, told = self.ended("--replies", str(replies))
        self.assertEqual(status, 1)
        self.assertIn("other replies than", told)
        self.commands.write_text("turn 0\ntrun 1\n")
        wrong = f'{self.commands}, line 2: "trun 1": no such event; submit, turn or fault is expected\nline 2 refused\n'
        self.assertEqual(self.ended(), (1, wrong))
        self.commands.write_text("turn 0\nturn 1\n")
        with mock.patch.object(pifnjarl_page, "_MOST", 15):
            self.assertEqual(self.ended(), (1, "2 events with reports of 8 zones are more than 15 zones\n"))
        self.image.unlink()
        self.assertIn("cannot read", self.ended()[1])
        self.assertFalse((self.folder / "page.html").exists())


def load_tests(loader: unittest.TestLoader, tests: unittest.TestSuite, pattern: object) -> unittest.TestSuite:
    """The examples of docstrings are tests too."""
    for module in (pifnjarl_page, pifnjarl_drawing):
        tests.addTests(doctest.DocTestSuite(module))
    return tests


if __name__ == "__main__":
    unittest.main()
