"""Tests of questions: what a device answers is what Python finds in the same bytes."""

from __future__ import annotations

import doctest
import importlib
import random
import struct
import subprocess
import sys
import tempfile
import unittest
from concurrent.futures import ProcessPoolExecutor, ThreadPoolExecutor
from functools import partial
from pathlib import Path
from typing import Any, Dict, List, NamedTuple, Tuple
from unittest import mock

HERE = Path(__file__).resolve().parent
sys.path[:0] = [str(HERE), str(HERE.parent / "tests" / "random_questions")]
import draw  # type: ignore
import pifnjarl
import pifnjarl_query
from pifnjarl import ZoneState
from pifnjarl_query import Tallies

LAYOUT = """\
; an order
records 32
number u16 @0
region u8 @2
price u32 @4
temperature i16be @8
word text8 @12
"""

# the same without what comes after the fields, so that a record has 20 bytes
FIELDS = [("number", "u16"), ("region", "u8"), ("price", "u32", 4), ("temperature", "i16be"), ("word", "text8", 12)]


class Order(NamedTuple):
    """A record, as Python has it."""

    number: int
    region: int
    price: int
    temperature: int
    word: str

    def packed(self) -> bytes:
        """Its 32 bytes."""
        front = struct.pack("<HBxI", self.number, self.region, self.price) + struct.pack(">hxx", self.temperature)
        return (front + self.word.encode()).ljust(32, b"\0")


def orders(count: int, seed: int = 0) -> List[Order]:
    """So many orders."""
    rng = random.Random(seed)
    return [
        Order(number, rng.randrange(1, 6), rng.randrange(2**32), rng.randrange(-(2**15), 2**15), rng.choice(["lamp", "desk", "nail"]))
        for number in range(1, count + 1)
    ]


def data(rows: List[Order], block: int = 512) -> bytes:
    """Whole blocks with orders, and zeros after the last."""
    found = b"".join(row.packed() for row in rows)
    return found.ljust(-(-len(found) // block) * block, b"\0")


def groups(rows: List[Order], by: str) -> Dict[int, Tallies]:
    """Of each value of a field the tallies of the rows that have it: their temperatures' sum and least, and their greatest price."""
    found = {}
    for value in sorted({getattr(row, by) for row in rows}):
        its = [row for row in rows if getattr(row, by) == value]
        heats = [row.temperature for row in its]
        found[value] = Tallies(len(its), sum(heats), min(heats), max(row.price for row in its))
    return found


class Over(unittest.TestCase):
    """Each test has a folder of its own."""

    def setUp(self) -> None:
        folder = tempfile.TemporaryDirectory()
        self.addCleanup(folder.cleanup)
        self.folder = Path(folder.name)

    def device(self, name: str = "zoned.img", **geometry: Any) -> pifnjarl.Device:
        """A device over a new image, shut at the test's end."""
        pifnjarl.format_image(self.folder / name, **geometry)
        opened = pifnjarl.Device(self.folder / name)
        self.addCleanup(opened.shut)
        return opened


class Answers(Over):
    """What a question answers."""

    def test_rows_are_those_that_python_finds(self) -> None:
        """In blocks of several sizes, up to a whole zone of them."""
        for block, blocks in ((512, 1), (512, 64), (4096, 3), (16384, 2)):
            with self.subTest(block=block, blocks=blocks):
                device = self.device(f"{block}_{blocks}.img", block=block)
                rows = orders(block // 32 * blocks)
                device.append(0, data(rows, block))
                found = device.query(0, LAYOUT, "region == 3 || price < 0x80000000", select=["temperature", "number"])
                wanted = [row for row in rows if row.region == 3 or row.price < 2**31]
                self.assertEqual(found, [(row.temperature, row.number) for row in wanted])

    def test_tallies_are_those_that_python_finds(self) -> None:
        """Also a sum that passes 2^64, and those of no record."""
        device = self.device()
        rows = orders(16 * 20)
        device.append(0, data(rows))
        found = device.query(0, LAYOUT, "temperature < arg", argument=7, count=True, sum="price", least="price", greatest="number")
        wanted = [row for row in rows if row.temperature < 7]
        prices = [row.price for row in wanted]
        self.assertEqual(found, Tallies(len(wanted), sum(prices), min(prices), max(row.number for row in wanted)))
        none = device.query(0, LAYOUT, "region == 9", sum="price", least="price", greatest="price")
        self.assertEqual(none, Tallies(0, 0, None, None))
        self.assertEqual(device.query(0, LAYOUT, "region == 9", count=True), Tallies(0))
        device.append(64, struct.pack("<2Q", 2**64 - 1, 5).ljust(512, b"\0"))
        signed = device.query(0, LAYOUT, "price > arg", argument=9, sum="temperature", least="temperature", greatest="temperature")
        values = [row.temperature for row in rows if row.price > 9]
        self.assertEqual(signed, Tallies(len(values), sum(values), min(values), max(values)))
        self.assertEqual(device.query(0, LAYOUT, "region == 9", sum="temperature", least="temperature"), Tallies(0, 0))
        large = device.query(64, [("n", "u64")], "n != 0", sum="n", least="n", greatest="n")
        self.assertEqual(large, Tallies(2, 4, 5, 2**64 - 1))

    def test_signs_are_those_of_the_layout(self) -> None:
        """Also at the ends of 64 bits, where a sum passes them, and where the layout has blanks, comments and a name in a list."""
        device = self.device()
        ends = [-(2**63), 2**63 - 1, -1, -1]
        device.append(0, struct.pack("<4q", *ends).ljust(512, b"\0"))
        signed, unsigned = "; n u64\nrecords 8 count 4\n\t n\ti64@0;\n", "records 8 count 4\nn u64 @0 ; n i64\n"
        for layout, values in ((signed, ends), (unsigned, [value % 2**64 for value in ends])):
            found = device.query(0, layout, "bytes@7 != 0x00", sum=["n"], least=["n"], greatest="n")
            low = min(0, min(values))
            self.assertEqual(found, Tallies(4, (sum(values) - low) % 2**64 + low, min(values), max(values)))

    def test_tallies_of_each_value(self) -> None:
        """Of a byte, and of a wider field; in blocks of several sizes, and of a journal; the file stays as it is."""
        for name, block, blocks in (("small.img", 512, 64), ("wide.img", 4096, 3), ("journal", 512, 5)):
            rows, image = orders(block // 32 * blocks), self.folder / name
            pifnjarl.format_image(image, block=block)
            with pifnjarl.Device(image, durable=name == "journal") as device:
                device.append(64, data(rows, block))
            before = image.read_bytes()
            tallied: Dict[str, Any] = {"sum": "temperature", "least": "temperature", "greatest": "price"}
            found = pifnjarl_query.Question(LAYOUT, "price < arg", by="region", **tallied).ask_image(image, 64, argument=2**31)
            self.assertEqual(found, groups([row for row in rows if row.price < 2**31], "region"))
            self.assertEqual(list(found), sorted(found))
            few = pifnjarl_query.Question(LAYOUT, "number in 1..=31", by="number", **tallied).ask_image(image, 64)
            self.assertEqual(few, groups(rows[:31], "number"))
            counts = pifnjarl_query.Question(LAYOUT, "number != 0", by="region", count=True).ask_image(image, 64, blocks=1)
            regions = [row.region for row in rows[: block // 32]]
            self.assertEqual(counts, {region: Tallies(regions.count(region)) for region in sorted(set(regions))})
            self.assertEqual(pifnjarl_query.Question(LAYOUT, "region == 9", by="region", count=True).ask_image(image, 64), {})
            self.assertEqual(image.read_bytes(), before)

    def test_a_field_has_the_name_of_a_tally(self) -> None:
        """So that a row has two columns of this name."""
        with self.device() as device:
            device.append(0, bytes([7, 7, 5]).ljust(512, b"\0"))
        found = pifnjarl_query.Question([("count", "u8")], "count != 0", count=True, by="count").ask_image(self.folder / "zoned.img", 0)
        self.assertEqual(found, {5: Tallies(1), 7: Tallies(2)})

    def test_values_without_a_group_are_refused(self) -> None:
        """Those of a wide field that are too great. A device isn't asked for groups at all, and nothing runs there."""
        device = self.device()
        device.append(0, data(orders(16 * 20)))
        device.save()
        question = pifnjarl_query.Question(LAYOUT, "number > 60", sum="price", by="number")
        with self.assertRaisesRegex(pifnjarl_query.QuestionRefused, "^--by number: of the records that match 257 have a value of 64 or"):
            question.ask_image(self.folder / "zoned.img", 0)
        with self.assertRaisesRegex(pifnjarl_query.QuestionRefused, "^by: only an image or a journal is asked"):
            device.query(0, LAYOUT, "number < 60", sum="price", by="number")
        with self.assertRaises(pifnjarl.NoSuchProgram):
            device.result(7)

    def test_an_image_in_which_nothing_is_written(self) -> None:
        """It has no record, whatever its zone's state; of one that is Offline nothing is known, and of its first blocks there are none."""
        device = self.device()
        device.open(64)
        device.finish(128)
        device.fault(192, ZoneState.OFFLINE)
        device.save()
        image = self.folder / "zoned.img"
        counted = pifnjarl_query.Question(LAYOUT, "number != 0", least="price")
        for zone in (0, 64, 128):
            self.assertEqual(pifnjarl_query.Question(LAYOUT, "number != 0").ask_image(image, zone), [])
            self.assertEqual(counted.ask_image(image, zone), Tallies(0))
            self.assertEqual(pifnjarl_query.Question(LAYOUT, "number != 0", count=True, by="region").ask_image(image, zone), {})
            with self.assertRaisesRegex(pifnjarl_query.QuestionRefused, "no block of the zone is written"):
                counted.ask_image(image, zone, blocks=1)
        with self.assertRaisesRegex(pifnjarl_query.QuestionRefused, "the zone is offline"):
            counted.ask_image(image, 192)

    def test_a_layout_is_given_in_several_ways(self) -> None:
        """As text, as a path, and as a list of fields, whose records are as long as these."""
        device = self.device()
        rows = orders(16 * 4)
        device.append(0, data(rows))
        (self.folder / "orders.layout").write_text(LAYOUT)
        whole = pifnjarl_query.layout_of(FIELDS, size=32)
        for layout in (LAYOUT, self.folder / "orders.layout", str(self.folder / "orders.layout"), whole):
            self.assertEqual(device.query(0, layout, "number != 0"), rows)
        device.append(64, data(rows[:1]))
        self.assertEqual(device.query(64, FIELDS, "number == 1"), rows[:1])
        second = pifnjarl_query.layout_of(FIELDS, size=32, first=32, count=2)
        self.assertEqual(device.query(0, second, "number != 0", blocks=1), rows[1:3])

    def test_each_type_is_read(self) -> None:
        """Numbers of each size, sign and order; text that isn't UTF-8 is bytes; a name that a tuple can't have is its place."""
        device = self.device()
        numbers = bytes(range(200, 216))
        device.append(0, (numbers + b"a \0 b \0 " + b"\xff  \0").ljust(512, b"\0"))
        layout, wanted = ["records 32 count 1"], []
        for bits, order in ((8, ""), (16, ""), (16, "be"), (32, ""), (32, "be"), (64, ""), (64, "be")):
            for letter in "ui":
                kind = f"{letter}{bits}{order}"
                layout.append(f"{kind}_ {kind} @{bits // 8}")
                wanted.append(int.from_bytes(numbers[bits // 8 : bits // 4], "big" if order else "little", signed=letter == "i"))
        layout += ["text text8 @16", "class text4 @24", "raw bytes3 @24"]
        [found] = device.query(0, "\n".join(layout), "u8@0 == 200")
        self.assertEqual(list(found), [*wanted, "a \0 b", b"\xff  \0", b"\xff  "])
        self.assertEqual((found.text, found._15, found.raw), ("a \0 b", b"\xff  \0", b"\xff  "))

    def test_several_programs_give_rows_in_order(self) -> None:
        """Whole records of a full block are more than one program emits, and those of a full zone more than another one holds; also where
        one slot alone is free."""
        rows = orders(16 * 6)
        question = pifnjarl_query.Question(LAYOUT + "rest bytes12 @20\n", "price > 1000")
        question.compile(512)
        programs = len(question._compiled[512].programs)
        self.assertGreater(programs, 1)
        for free in (8, 1):
            device = self.device(f"{free}.img", zone_size=8, zone_capacity=6)
            device.append(0, data(rows))
            for slot in range(free, 8):
                device.load(slot, pifnjarl.EMITS_NOTHING, emit=0)
            self.assertEqual(question.ask(device, 0), [(*row, bytes(12)) for row in rows if row.price > 1000])
            self.assertEqual(len(device._question_slots), min(free, programs))
        count = pifnjarl_query.Question(LAYOUT, " && ".join(f"price != {it}" for it in range(10)), count=True)
        count.compile(16384)
        self.assertGreater(len(count._compiled[16384].programs), 1)
        wide = self.device("wide.img", block=16384)
        wide.append(0, data(orders(700), 16384))
        self.assertEqual(count.ask(wide, 0).count, 700)

    def test_a_question_is_about_the_blocks_that_are_written(self) -> None:
        """Also of a zone that is Full or Read Only, of which no report says how many these are; of none there is no record."""
        for written in (0, 1, 5, 16):
            with self.subTest(written=written):
                device = self.device(f"{written}.img", zone_size=16)
                if written:
                    device.append(0, data(orders(16 * written)))
                    device.append(16, data(orders(16 * written)))
                wanted = list(range(1, 16 * written + 1))
                for _ in range(2):
                    self.assertEqual([row.number for row in device.query(0, LAYOUT, "u8@31 == 0", select="number")], wanted)
                    self.assertEqual(device.query(0, LAYOUT, "u8@31 == 0", count=True).count, len(wanted))
                    if written < 16:
                        device.finish(0)
                device.fault(16, ZoneState.READ_ONLY)
                self.assertEqual([row.number for row in device.query(16, LAYOUT, "u8@31 == 0", select="number")], wanted)

    def test_the_first_blocks_alone(self) -> None:
        """More than are written are refused by the device."""
        device = self.device()
        device.append(0, data(orders(16 * 3)))
        self.assertEqual(device.query(0, LAYOUT, "number != 0", count=True, blocks=2).count, 32)
        with self.assertRaises(pifnjarl.SourceNotWritten):
            device.query(0, LAYOUT, "number != 0", blocks=4)
        with self.assertRaisesRegex(ValueError, "1 block or more"):
            device.query(0, LAYOUT, "number != 0", blocks=0)

    def test_a_durable_device_answers(self) -> None:
        """And the journal is opened again."""
        pifnjarl.format_image(self.folder / "kept.img")
        rows = orders(64)
        for _ in range(2):
            with pifnjarl.Device(self.folder / "kept.img", durable=True) as device:
                if device.report()[0].state == ZoneState.EMPTY:
                    device.append(0, data(rows))
                self.assertEqual(device.query(0, LAYOUT, "region == 2"), [row for row in rows if row.region == 2])


class Drawn(Over):
    """Questions that are drawn, as tests/random_questions draws them."""

    def test_what_python_gives_follows_from_the_definitions(self) -> None:
        """Rows and tallies, of devices and of images, and of images those of each value; bytes are in hexadecimal there."""
        for seed in range(1001, 1041):
            drawn = draw.draw(seed)
            for name, content in drawn.files.items():
                (self.folder / name).write_bytes(content)
            words: Dict[str, Any] = {"count": "--count" in drawn.words}
            given = dict(zip(drawn.words, drawn.words[1:]))
            words.update({name: given[f"--{name}"] for name in ("select", "sum", "least", "greatest", "by") if f"--{name}" in given})
            [where] = [word[len("--where=") :] for word in drawn.words if word.startswith("--where=")]
            asked: Dict[str, Any] = {"argument": int(given.get("--argument", "0"))}
            if "--blocks" in given:
                asked["blocks"] = int(given["--blocks"])
            zone = draw.ZONE * int(given["--zone"])
            question = pifnjarl_query.Question(self.folder / "layout", where, **words)
            with self.subTest(seed=seed, words=drawn.words):
                if drawn.answer is None:
                    with self.assertRaises(pifnjarl_query.QuestionRefused):
                        question.ask_image(self.folder / "zoned.img", zone, **asked)
                    continue
                try:
                    found = question.ask_image(self.folder / "zoned.img", zone, **asked)
                except pifnjarl_query.QuestionRefused as refused:
                    self.assertRegex(str(refused), "needs more than 8 programs")
                    continue
                if "--by" not in drawn.words:
                    with pifnjarl.Device(self.folder / "zoned.img") as device:
                        self.assertEqual(question.ask(device, zone, **asked), found)
                kinds = [name.partition("(")[0] for name in drawn.answer.names]
                if isinstance(found, Tallies):
                    rows = [[getattr(found, kind) for kind in kinds]]
                elif isinstance(found, dict):
                    rows = [[value, *(getattr(tallies, kind) for kind in kinds[1:])] for value, tallies in found.items()]
                else:
                    rows = [[f"0x{cell.hex()}" if isinstance(cell, bytes) else cell for cell in row] for row in found]
                self.assertEqual(rows, drawn.answer.rows)


class Numpy(Over):
    """Arrays, where numpy is installed."""

    def setUp(self) -> None:
        super().setUp()
        try:
            self.numpy: Any = importlib.import_module("numpy")
        except ImportError:
            self.skipTest("there is no numpy here")
        self.rows = orders(64)
        self.asked = self.device()
        self.asked.append(0, data(self.rows))

    def test_a_dtype_is_a_layout(self) -> None:
        """The rows are an array of it, with each type of number, and without a field that isn't selected."""
        numpy = self.numpy
        names = ["number", "region", "price", "temperature", "word"]
        formats, offsets = ["<u2", "u1", "<u4", ">i2", "S8"], [0, 2, 4, 8, 12]
        dtype = numpy.dtype({"names": names, "formats": formats, "offsets": offsets, "itemsize": 32})
        whole = numpy.frombuffer(data(self.rows), dtype)
        found = self.asked.query(0, dtype, "region == 3")
        self.assertEqual(found.dtype, dtype)
        self.assertTrue((found == whole[whole["region"] == 3]).all())
        part = self.asked.query(0, dtype, "region != 3", select=["price", "temperature"])
        for name in ("price", "temperature"):
            self.assertTrue((part[name] == whole[whole["region"] != 3][name]).all())
        self.assertEqual(part.dtype.names, ("price", "temperature"))
        self.assertEqual(len(self.asked.query(0, dtype, "region == 9")), 0)
        self.assertEqual(self.asked.query(0, dtype, "number != 0", count=True).count, 64)

    def test_what_is_no_number_is_bytes(self) -> None:
        """Such as floats, which come back as they were; a dtype without fields is none of a layout."""
        numpy = self.numpy
        values = numpy.zeros(16, [("key", "u8"), ("value", "f8"), ("pair", "i4", (2,)), ("when", "M8[s]")])
        values["key"], values["value"], values["pair"] = range(1, 17), numpy.linspace(0, 1, 16), 7
        self.asked.append(64, values.tobytes())
        found = self.asked.query(64, values.dtype, "key > 2 && bytes@16 == 0x07000000")
        self.assertTrue((found == values[2:]).all())
        with self.assertRaisesRegex(ValueError, "no fields"):
            self.asked.query(64, numpy.dtype("u4"), "key > 2")

    def test_another_layout_gives_an_array_too(self) -> None:
        found = self.asked.query(0, LAYOUT, "region == 1", select=["word", "temperature"], numpy=True)
        self.assertEqual([tuple(row) for row in found], [(row.word.encode(), row.temperature) for row in self.rows if row.region == 1])


class Takes(Over):
    """What a question takes of a device, and leaves there."""

    def test_zones_and_slots_are_left(self) -> None:
        """Those of others, and the zone that was appended to; the same slot is taken again, unless another program was loaded there."""
        device = self.device()
        device.append(0, data(orders(64)))
        device.append(64, bytes(512))
        device.load(7, pifnjarl.EMITS_NOTHING, emit=0)
        before = device.report()
        for _ in range(3):
            device.query(0, LAYOUT, "region == 3")
            device.query(0, LAYOUT, "region == 3", count=True)
        self.assertEqual((device.report(), list(device._question_slots)), (before, [6]))
        device.load(6, pifnjarl.EMITS_NOTHING, emit=0)
        device.query(0, LAYOUT, "region == 3")
        self.assertEqual(list(device._question_slots), [5])
        with self.assertRaises(pifnjarl.NoSuchProgram):
            device.result(4)

    def test_a_program_is_loaded_once(self) -> None:
        device = self.device()
        device.append(0, data(orders(64)))
        question = pifnjarl_query.Question(LAYOUT, "region == arg", count=True)
        with mock.patch.object(device, "load", wraps=device.load) as load:
            counts = [question.ask(device, 0, argument=region).count for region in range(6)]
        self.assertEqual((sum(counts), load.call_count), (64, 1))

    def test_runs_of_others_stay_where_they_are(self) -> None:
        device = self.device(zones=6)
        device.append(0, data(orders(64)))
        device.load(0, pifnjarl.EMITS_NOTHING, emit=0)
        device.open(64)
        run = device.run(0, 0, 4, to=64)
        self.assertFalse(run.turn())
        self.assertEqual(device.query(0, LAYOUT, "number != 0", count=True).count, 64)
        self.assertEqual([run.turn() for _ in range(3)], [False, False, True])

    def test_the_zone_that_is_named(self) -> None:
        """It is appended to; it has to be Empty, and another one."""
        device = self.device()
        device.append(0, data(orders(64)))
        device.append(64, bytes(512))
        with mock.patch.object(device, "open", wraps=device.open) as opened:
            self.assertEqual(len(device.query(0, LAYOUT, "number != 0", into=192)), 64)
        opened.assert_called_once_with(192)
        with self.assertRaisesRegex(pifnjarl_query.NoZoneFree, "the zone of LBA 64 isn't Empty"):
            device.query(0, LAYOUT, "number != 0", into=64)
        for other in (0, 1, 512):
            with self.assertRaisesRegex(ValueError, "the lowest LBA of no other zone"):
                device.query(0, LAYOUT, "number != 0", into=other)
        with self.assertRaisesRegex(ValueError, "the lowest LBA of no zone"):
            device.query(1, LAYOUT, "number != 0")

    def test_no_zone_is_free(self) -> None:
        """Tallies need no Empty zone, and a device without a zone that can be opened says so."""
        device = self.device()
        device.append(0, data(orders(64)))
        for zone in (64, 128, 192):
            device.append(zone, bytes(512))
        with self.assertRaisesRegex(pifnjarl_query.NoZoneFree, "reset one"):
            device.query(0, LAYOUT, "number != 0")
        self.assertEqual(device.query(0, LAYOUT, "number != 0", count=True).count, 64)
        device.finish(0)
        self.assertEqual(device.query(0, LAYOUT, "number != 0", count=True).count, 64)
        full = self.device("full.img", most_active=1)
        full.append(0, data(orders(64)))
        with self.assertRaisesRegex(pifnjarl_query.NoZoneFree, "no more zones can be open for the answer; finish, close or reset one"):
            full.query(0, LAYOUT, "number != 0")
        full.finish(0)
        self.assertEqual(len(full.query(0, LAYOUT, "number != 0")), 64)

    def test_no_slot_is_free(self) -> None:
        """Programs that were loaded stay, unless a slot is named whose program may be replaced: as by a device that is opened again, which
        knows nothing of what questions left there."""
        pifnjarl.format_image(self.folder / "kept.img")
        for number in range(9):
            with pifnjarl.Device(self.folder / "kept.img", durable=True) as device:
                if number == 0:
                    device.append(0, data(orders(64)))
                if number < 8:
                    self.assertEqual(device.query(0, LAYOUT, "number != 0", count=True).count, 64)
                    self.assertEqual(list(device._question_slots), [7 - number])
                    continue
                with self.assertRaisesRegex(pifnjarl_query.NoSlotFree, r"name one to be replaced, as slots=\[7\]"):
                    device.query(0, LAYOUT, "number != 0")
                for _ in range(2):
                    self.assertEqual(len(device.query(0, LAYOUT, "number != 0", slots=[3, 2])), 64)
                self.assertEqual(list(device._question_slots), [3])
                self.assertEqual(len(device.query(0, LAYOUT, "region == 2")), sum(row.region == 2 for row in orders(64)))
                named: List[List[int]] = [[], [8], [-1, 3]]
                for slots in named:
                    with self.assertRaisesRegex(ValueError, "names no slots from 0 to 7"):
                        device.query(0, LAYOUT, "number != 0", slots=slots)

    def test_a_failure_leaves_the_zone_empty(self) -> None:
        """And is the one that is raised."""
        device = self.device()
        device.append(0, data(orders(64)))
        with mock.patch.object(pifnjarl_query, "unpacked", side_effect=pifnjarl_query.AnswerDamaged("damaged")):
            with self.assertRaisesRegex(pifnjarl_query.AnswerDamaged, "^damaged$"):
                device.query(0, LAYOUT, "number != 0")
        self.assertEqual(device.report()[1].state, ZoneState.EMPTY)


class Wrong(Over):
    """What can't be asked, and answers that are none."""

    def refused(self, layout: Any, where: str, **words: Any) -> str:
        """The sentence of a question that can't be asked."""
        with self.assertRaises(pifnjarl_query.QuestionRefused) as refused:
            pifnjarl_query.Question(layout, where, **words).compile(512)
        return str(refused.exception)

    def test_the_sentence_is_that_of_zscli(self) -> None:
        """Of the condition, the fields and the layout, whose file is named as the caller's is."""
        (self.folder / "layout").write_text(LAYOUT)
        line = [pifnjarl.zscli(), "query", "--block=512", f"--layout={self.folder / 'layout'}", "--explain"]
        cases: List[Tuple[str, List[str], Dict[str, Any]]] = [
            ("region = 3", [], {}),
            ("-region", [], {}),
            ("word == 3", [], {}),
            ("region == 3", ["--select=number,regon"], {"select": ["number", "regon"]}),
            ("region == 3", ["--select=number,"], {"select": ["number", ""]}),
            ("region == 3", ["--sum=word"], {"sum": "word"}),
            ("region == 3", ["--count", "--select=number"], {"count": True, "select": "number"}),
            ("region == 3", ["--sum=(["], {"sum": "(["}),
        ]
        for where, options, words in cases:
            ran = subprocess.run([*line, f"--where={where}", *options], capture_output=True, text=True, check=False)
            self.assertEqual((ran.returncode, ran.stderr), (3, self.refused(LAYOUT, where, **words) + "\nquestion refused\n"))
        wrong = "records 64\na u32 @62\n"
        (self.folder / "orders.layout").write_text(wrong)
        for layout, name in ((wrong, "layout"), (self.folder / "orders.layout", "orders.layout")):
            said = self.refused(layout, "a == 3")
            self.assertEqual(said, f"{name}, line 2: the field ends at byte 66, and a record at 64")
        self.assertRegex(self.refused([("arg", "u32")], "arg == 3"), "layout, line 2: a name is expected")
        self.assertRegex(self.refused([("a", "u33")], "a == 3"), "layout, line 2: .*a type is expected")
        self.assertRegex(self.refused("records 600\n", "u8@0 == 3", count=True), "a block has 512 bytes; at most 0 fit")

    def test_what_is_no_question_is_refused_here(self) -> None:
        """Names that no layout can have, words that aren't there or say nothing, and a file that isn't there."""
        unnamed: List[List[Tuple[str, str]]] = [[("a b", "u32")], [("a", "u32 @0\nb u8")]]
        for fields in unnamed:
            with self.assertRaisesRegex(ValueError, "is no (name|type) of a field"):
                pifnjarl_query.layout_of(fields)
        wrong: List[Tuple[Dict[str, Any], str]] = [
            ({"select": []}, "select names no field"),
            ({"sum": ""}, "sum names no field"),
            ({"sum": True}, "sum wants the name of a field"),
            ({"count": "price"}, "count is True or False"),
            ({"count": True, "by": True}, "by wants the name of a field"),
            ({"total": "price"}, "a question has no word 'total'; its words are select, count, sum, least, greatest, by"),
        ]
        for words, said in wrong:
            with self.assertRaisesRegex((TypeError, ValueError), said):
                pifnjarl_query.Question(LAYOUT, "number != 0", **words)
        with self.assertRaisesRegex(pifnjarl.DeviceError, "none.layout: no such file or directory; name a layout file"):
            pifnjarl_query.Question("none.layout", "number != 0")

    def test_blocks_that_are_no_answer(self) -> None:
        """A record of another length, one that passes its block, bytes after the last, and too few or too many."""
        whole = b"\x02\0hi\x02\0ho".ljust(512, b"\0")
        self.assertEqual(pifnjarl_query.unpacked(whole + whole, 512, 2, 4), b"hihohiho")
        self.assertEqual(pifnjarl_query.unpacked(b"", 512, 2, 0), b"")
        full = (b"\x02\0hi" * 128).ljust(512, b"\0")
        self.assertEqual(pifnjarl_query.unpacked(full, 512, 2, 128), b"hi" * 128)
        self.assertEqual(pifnjarl_query.unpacked((b"\x07\0" + b"x" * 7) * 56 + b"\0" * 8, 512, 7, 56), b"x" * 7 * 56)
        for wrong, size, count in (
            (b"\x03\0hi!" + whole[5:], 2, 1),
            (b"\x02\0hi" + bytes(2) + whole[6:511] + b"x", 2, 1),
            ((b"\x07\0" + b"x" * 7) * 56 + b"\x07\0" + b"x" * 6, 7, 57),
            (whole[:511] + b"\1", 2, 2),
            (whole, 2, 1),
            (whole, 2, 3),
            (bytes(512), 2, 1),
        ):
            with self.assertRaises(pifnjarl_query.AnswerDamaged):
                pifnjarl_query.unpacked(wrong, 512, size, count)


class Several(Over):
    """Questions to several devices."""

    def setUp(self) -> None:
        """Images with blocks of two sizes, and what they have."""
        super().setUp()
        self.images, self.rows = [], []
        for number, block in enumerate((512, 4096, 512, 4096, 512)):
            self.images.append(self.folder / f"{number}.img")
            self.rows.append(orders(128 * (number + 1), seed=number))
            pifnjarl.format_image(self.images[-1], block=block)
            with pifnjarl.Device(self.images[-1]) as device:
                device.append(0, data(self.rows[-1], block))

    def ask_images(self, executor: Any) -> None:
        """The same of images by their paths, and tallies of each value, which one has or several."""
        self.ask(list(self.images), executor)
        tallied: Dict[str, Any] = {"sum": "temperature", "least": "temperature", "greatest": "price"}
        rows = [row for its in self.rows for row in its]
        for where, by, some in (
            ("number != 0", "region", rows),
            ("number < 32", "number", [row for row in rows if row.number < 32]),
            ("region == 4 && number < 600 && number > 500", "region", [row for row in rows if row.region == 4 and 500 < row.number < 600]),
        ):
            found = pifnjarl.query_all(self.images, 0, LAYOUT, where, executor=executor, by=by, **tallied)
            self.assertEqual((found, list(found)), (groups(some, by), sorted(found)))

    def devices(self) -> List[pifnjarl.Device]:
        """A device over each."""
        found = []
        for image in self.images:
            found.append(pifnjarl.Device(image))
            self.addCleanup(found[-1].shut)
        return found

    def ask(self, asked: List[Any], executor: Any) -> None:
        """Rows come in the order of the devices, and tallies are those of all, also where some have no record that matches."""
        wanted = [row for its in self.rows for row in its if row.region == 4]
        prices = [row.price for row in wanted]
        self.assertEqual(pifnjarl.query_all(asked, 0, LAYOUT, "region == 4", executor=executor), wanted)
        tallied: Dict[str, Any] = {"sum": "price", "least": "number", "greatest": "price"}
        for where, argument in (("region == arg", 4), ("region == 4 && number < arg", 2**32 - 1)):
            found = pifnjarl.query_all(asked, 0, LAYOUT, where, executor=executor, argument=argument, **tallied)
            self.assertEqual(found, Tallies(len(wanted), sum(prices), min(row.number for row in wanted), max(prices)))
        last = pifnjarl.query_all(asked, 0, LAYOUT, "number > 600", executor=executor, **tallied)
        prices = [row.price for row in self.rows[4][600:]]
        self.assertEqual(last, Tallies(40, sum(prices), 601, max(prices)))
        none = pifnjarl.query_all(asked, 0, LAYOUT, "region == 9", executor=executor, **tallied)
        self.assertEqual(none, Tallies(0, 0, None, None))
        first = pifnjarl.query_all(asked, [0] * 5, LAYOUT, "number != 0", executor=executor, blocks=1, count=True)
        self.assertEqual(first, Tallies(3 * 16 + 2 * 128))
        other = pifnjarl.query_all(asked, [0, 64, 64, 64, 64], LAYOUT, "number != 0", executor=executor, select="number")
        self.assertEqual(other, [(row.number,) for row in self.rows[0]])

    def test_devices_are_asked_in_threads(self) -> None:
        devices = self.devices()
        with ThreadPoolExecutor() as executor:
            self.ask(devices, executor)
            asked = pifnjarl.query_all(devices, 0, LAYOUT, "number != 0", executor=executor, count=True, slots=[2])
        self.assertEqual((asked.count, {tuple(device._question_slots) for device in devices}), (128 * 15, {(7, 2)}))

    def test_images_are_asked_by_their_paths(self) -> None:
        """A journal too; their files stay as they are."""
        with pifnjarl.Device(self.images[3], durable=True) as device:
            device.query(64, LAYOUT, "number != 0", count=True)
        before = [image.read_bytes() for image in self.images]
        with ThreadPoolExecutor() as executor:
            self.ask_images(executor)
            self.ask([*self.images[:4], str(self.images[4])], executor)
            with self.assertRaisesRegex(ValueError, "17 is the lowest LBA of no zone of .*0.img"):
                pifnjarl.query_all(self.images, 17, LAYOUT, "number != 0", executor=executor)
            (self.folder / "short.img").write_bytes(b"ZNSIMG02")
            for name, said in (("none.img", "no such file or directory"), ("short.img", "neither an image nor a journal")):
                with self.assertRaisesRegex(pifnjarl.DeviceError, f"{name}: {said}"):
                    pifnjarl.query_all([self.folder / name], 0, LAYOUT, "number != 0", executor=executor)
            with self.assertRaisesRegex(pifnjarl_query.QuestionRefused, "no field of this name"):
                pifnjarl.query_all(self.images, 0, LAYOUT, "nr != 0", executor=executor)
            with self.assertRaisesRegex(pifnjarl_query.QuestionRefused, "^--by number: of the records that match 513 have"):
                pifnjarl.query_all(self.images[4:], 0, LAYOUT, "number != 0", executor=executor, count=True, by="number")
            asked: List[Any] = [*self.images, partial(pifnjarl.Device, self.images[0])]
            with self.assertRaisesRegex(pifnjarl_query.QuestionRefused, "^by: only an image or a journal is asked"):
                pifnjarl.query_all(asked, 0, LAYOUT, "number != 0", executor=executor, count=True, by="region")
        self.assertEqual([image.read_bytes() for image in self.images], before)

    def test_other_processes_are_asked(self) -> None:
        """Of images, and of devices that they open."""
        opening: List[Any] = [partial(pifnjarl.Device, image, durable=number == 1) for number, image in enumerate(self.images)]
        with ProcessPoolExecutor(max_workers=2) as executor:
            self.ask_images(executor)
            self.ask([*self.images[:3], *opening[3:]], executor)
            self.ask(opening, executor)
            with self.assertRaises(pifnjarl_query.QuestionRefused):
                pifnjarl.query_all(opening, 0, LAYOUT, "nr != 0", executor=executor)
            with pifnjarl.Device(self.images[0]) as device:
                with self.assertRaisesRegex(TypeError, "a device that is open can't go to another process"):
                    pifnjarl.query_all([device], 0, LAYOUT, "number != 0", executor=executor)

    def test_a_cluster_is_asked(self) -> None:
        """Of two processes, where Dask's distributed is installed."""
        try:
            distributed: Any = importlib.import_module("distributed")
        except ImportError:
            self.skipTest("there is no distributed here")
        with distributed.LocalCluster(n_workers=2, threads_per_worker=1, dashboard_address=None, local_directory=self.folder) as cluster:
            with distributed.Client(cluster) as client:
                self.ask_images(client)
                self.ask([partial(pifnjarl.Device, image) for image in self.images], client)

    def test_rows_of_several_are_one_array(self) -> None:
        """Where numpy is installed."""
        try:
            importlib.import_module("numpy")
        except ImportError:
            self.skipTest("there is no numpy here")
        with ThreadPoolExecutor() as executor:
            found = pifnjarl.query_all(self.images, 0, LAYOUT, "region == 4", executor=executor, numpy=True, select=["number", "price"])
        wanted = [(row.number, row.price) for its in self.rows for row in its if row.region == 4]
        self.assertEqual(found.tolist(), wanted)

    def test_one_that_fails_is_told_when_all_are_done(self) -> None:
        devices = self.devices()
        devices[1].fault(0, ZoneState.OFFLINE)
        with ThreadPoolExecutor(max_workers=1) as executor:
            with mock.patch.object(executor, "submit", wraps=executor.submit) as submit:
                with self.assertRaises(pifnjarl.ZoneIsOffline):
                    pifnjarl.query_all(devices, 0, LAYOUT, "region == 4", executor=executor)
            self.assertEqual(submit.call_count, 5)
        self.assertTrue(all(device.report()[1].state == ZoneState.EMPTY for device in devices))

    def test_what_is_asked_of_none_or_twice(self) -> None:
        devices = self.devices()
        with ThreadPoolExecutor() as executor:
            asked: List[Tuple[List[pifnjarl.Device], Any]] = [([], 0), (devices, [0, 0]), (devices[:1] * 2, 0)]
            for some, zone in asked:
                with self.assertRaises(ValueError):
                    pifnjarl.query_all(some, zone, LAYOUT, "region == 4", executor=executor)


def load_tests(loader: unittest.TestLoader, tests: unittest.TestSuite, pattern: object) -> unittest.TestSuite:
    """The examples of docstrings are tests too."""
    tests.addTests(doctest.DocTestSuite(pifnjarl_query))
    return tests


if __name__ == "__main__":
    unittest.main()
