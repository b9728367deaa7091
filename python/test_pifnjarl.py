#!/usr/bin/env python3
"""Tests of the device from Python, over `zscli` as pifnjarl finds it."""

from __future__ import annotations

import doctest
import gc
import os
import random
import re
import shutil
import signal
import struct
import subprocess
import sys
import tempfile
import traceback
import unittest
import zlib
from pathlib import Path
from typing import Callable, Dict, List, Optional, Tuple
from unittest import mock

HERE = Path(__file__).resolve().parent
ROOT = HERE.parent
sys.path[:0] = [str(HERE), str(HERE / "examples")]
import pifnjarl
import scan
import store
import test_linux
import test_page
import test_query


def order(number: int, region: int, text: str) -> bytes:
    """An order of the first run, in a block of its own."""
    return (b"order %02d" % number + region.to_bytes(4, "little") + text.encode()).ljust(512)


ORDERS = b"".join([order(1, 3, "2 lamps"), order(2, 1, "1 desk"), order(3, 3, "40 nails"), order(4, 2, "5 cups")])


class Over(unittest.TestCase):
    """Each test has a folder of its own, with an image of four zones of 64 blocks of 512 bytes."""

    def setUp(self) -> None:
        folder = tempfile.TemporaryDirectory()
        self.addCleanup(folder.cleanup)
        self.folder = Path(folder.name)
        self.image = self.folder / "zoned.img"
        pifnjarl.format_image(self.image)

    def device(self) -> pifnjarl.Device:
        """A device over the image, shut at the test's end."""
        opened = pifnjarl.Device(self.image)
        self.addCleanup(opened.shut)
        return opened

    def filter(self) -> bytes:
        """The bytes of a filter by region."""
        return scan.assembled(scan.FILTER, self.folder)


class Devices(Over):
    """Commands, runs and images."""

    def test_another_queue_has_commands_between_the_turns_of_a_run(self) -> None:
        """They are refused where the run holds their zone, and their identifiers are those of their queue."""
        device = self.device()
        device.append(0, ORDERS)
        device.open(64)
        device.load(0, self.filter(), emit=66)
        run = device.run(0, 0, 4, to=64, argument=3)
        self.assertFalse(run.turn())
        device.queue = 2
        with self.assertRaises(pifnjarl.ZoneHeld):
            device.reset(0)
        self.assertEqual(run.wait(), pifnjarl.Result(records=2, blocks=1))
        self.assertEqual([record[:8] for record in device.records(64, 1)], [b"order 01", b"order 03"])

    def test_runs_go_on_side_by_side(self) -> None:
        """A drain gives each a turn after the other, and the completions find their runs."""
        device = self.device()
        device.append(0, ORDERS)
        device.load(0, self.filter(), emit=66)
        runs = []
        for zone, region in ((64, 3), (128, 1)):
            device.open(zone)
            runs.append(device.run(0, 0, 4, to=zone, argument=region))
        self.assertEqual(device.drain(turns=3), 3)
        self.assertEqual([run.ended for run in runs], [False, False])
        self.assertEqual(device.drain(), 5)
        self.assertEqual([run.wait() for run in runs], [(2, 1), (1, 1)])

    def test_a_long_run_is_waited_for(self) -> None:
        """Its turns are more than are under way at once."""
        pifnjarl.format_image(self.image, zone_size=2048)
        device = self.device()
        device.append(0, bytes(512 * 1100))
        device.open(2048)
        device.load(0, self.filter(), emit=66)
        self.assertEqual(device.run(0, 0, 1100, to=2048, argument=0).wait(), (1100, 158))
        self.assertEqual(len(device.records(2048, 158)), 1100)

    def test_what_was_saved_is_there_again(self) -> None:
        """An image has what it was saved with, and keeps its zones when the device ends."""
        with pifnjarl.Device(self.image) as device:
            device.append(128, b"x" * 1024)
            device.save()
            shutil.copy(self.image, self.folder / "copy.img")
            device.append(128, b"y" * 512)
        self.assertEqual(self.device().read(128, 3), b"x" * 1024 + b"y" * 512)
        with pifnjarl.Device(self.folder / "copy.img") as copy:
            self.assertEqual(copy.read(128, 3), b"x" * 1024 + bytes(512))

    def test_a_durable_device_is_there_after_it_is_killed(self) -> None:
        device = pifnjarl.Device(self.image, durable=True)
        first = device.append(0, ORDERS)
        device.open(64)
        device.load(0, self.filter(), emit=66)
        device.run(0, first, 4, to=64, argument=3).turn()
        device._stream._program.kill()
        with self.assertRaises(pifnjarl.DeviceError):
            device.save()
        with pifnjarl.Device(self.image, durable=True) as again:
            self.assertEqual(again.read(first, 4), ORDERS)
            self.assertEqual([record[:8] for record in again.records(64, 1)], [b"order 01", b"order 03"])
            again.run(0, first, 4, to=64, argument=1).wait()
        with pifnjarl.Device(self.image, durable=True) as again:
            self.assertEqual([record[:8] for record in again.records(65, 1)], [b"order 02"])

    def test_ctrl_c_saves(self) -> None:
        """The signal goes to all programs of the terminal's foreground, and comes within a command. What was done is in the image."""
        script = self.folder / "script.py"
        script.write_text(
            "import signal, pifnjarl\n"
            "signal.signal(signal.SIGINT, signal.default_int_handler)\n"
            "with pifnjarl.Device('zoned.img') as device:\n"
            "    print(device.append(64, b'x' * 512), flush=True)\n"
            "    while True:\n"
            "        device.read(64, 64)\n"
        )
        variables = {**os.environ, "PYTHONPATH": str(HERE), "PIFNJARL_ZSCLI": str(Path(pifnjarl.zscli()).resolve())}
        words = [sys.executable, "-B", str(script)]
        pipe = subprocess.PIPE
        with subprocess.Popen(
            words, cwd=self.folder, env=variables, stdout=pipe, stderr=pipe, text=True, start_new_session=True
        ) as program:
            assert program.stdout is not None
            self.assertEqual(program.stdout.readline(), "64\n")
            os.killpg(program.pid, signal.SIGINT)
            _, told = program.communicate()
        self.assertIn("KeyboardInterrupt", told)
        self.assertNotIn("DeviceError", told)
        self.assertEqual(self.device().read(64, 1), b"x" * 512)

    def test_an_exception_saves(self) -> None:
        """`with` ends the device then too."""
        with self.assertRaises(ZeroDivisionError):
            with pifnjarl.Device(self.image) as device:
                device.append(64, b"x" * 512)
                device.append(0, bytes(1 // 0))
        self.assertEqual(self.device().read(64, 1), b"x" * 512)

    def test_a_run_that_is_left_ends_with_the_device(self) -> None:
        """What it has still to append is in the image."""
        with pifnjarl.Device(self.image) as device:
            device.append(0, ORDERS)
            device.open(64)
            device.load(7, self.filter(), emit=66)
            device.run(7, 0, 4, to=64, argument=3)
        self.assertEqual(len(self.device().records(64, 1)), 2)

    def test_long_data_goes_in_transfers(self) -> None:
        """Data over a transfer is written, appended and read in parts."""
        pifnjarl.format_image(self.image, zone_size=1024)
        device, data = self.device(), random.Random(5).randbytes(600 * 512)
        self.assertEqual(device.append(0, data), 0)
        device.write(1024, data)
        self.assertEqual([device.read(lba, 600) == data for lba in (0, 1024)], [True, True])

    def test_many_zones_are_reported(self) -> None:
        """A report that is longer than a transfer comes whole."""
        pifnjarl.format_image(self.image, zones=4096, zone_size=2, zone_capacity=1, most_active=9)
        zones = self.device().report()
        self.assertEqual([zone.start for zone in zones], list(range(0, 8192, 2)))

    def test_a_report_is_of_any_state(self) -> None:
        """The zones, one of each state, are found by it."""
        pifnjarl.format_image(self.image, zones=7, zone_size=4)
        device = self.device()
        device.append(4, bytes(512))
        device.open(8)
        device.append(12, bytes(512))
        device.close(12)
        device.finish(16)
        device.fault(20, pifnjarl.ZoneState.READ_ONLY)
        device.fault(24, pifnjarl.ZoneState.OFFLINE)
        self.assertEqual([zone.state for zone in device.report()], list(pifnjarl.ZoneState))
        self.assertEqual([zone.write_pointer for zone in device.report()], [0, 5, 8, 13, None, None, None])
        for zone in device.report():
            self.assertEqual(device.report(state=zone.state), [zone])
        self.assertEqual(device.report(20, pifnjarl.ZoneState.FULL), [])

    def test_identifiers_of_active_runs_are_not_given_again(self) -> None:
        """However many commands come while a run is active: each completion finds its run."""
        device = self.device()
        device.append(0, ORDERS)
        device.load(0, self.filter(), emit=66)
        runs = []
        for zone, region in ((64, 3), (128, 1)):
            device.open(zone)
            device._identifier = 65535
            runs.append(device.run(0, 0, 4, to=zone, argument=region))
        self.assertEqual(device.drain(), 8)
        self.assertEqual([run.wait() for run in runs], [(2, 1), (1, 1)])

    def test_numbers_that_have_no_place_in_an_entry_are_told(self) -> None:
        """None of them reaches the device, and the next command gets its own answer."""
        device = self.device()
        for call in (
            lambda: device.run(256, 0, 1, to=64),
            lambda: device.run(0, 0, 65537, to=64),
            lambda: device.load(1 << 32, bytes(8), emit=0),
            lambda: device.read(-1, 1),
            lambda: device.append(0, bytes(511)),
            lambda: device.append_async(0, b""),
            lambda: device.append_async(0, bytes(131072 + 512)),
            lambda: device.read_async(0, 0),
            lambda: device.load(0, bytes(131080), emit=0),
            lambda: device.drain(turns=-1),
            lambda: device.fault(0, pifnjarl.ZoneState.FULL),
        ):
            self.assertRaises(ValueError, call)
        self.assertEqual(device.append(0, bytes(512)), 0)

    def test_an_image_is_of_one_device(self) -> None:
        """A second one is told so when it is opened, and a device that is shut when it is used."""
        device = self.device()
        with self.assertRaisesRegex(pifnjarl.DeviceError, "in use by another command"):
            pifnjarl.Device(self.image)
        device.shut()
        with self.assertRaisesRegex(pifnjarl.DeviceError, "shut"):
            device.read(0, 1)

    def test_the_program_is_that_of_this_repository_or_of_the_path(self) -> None:
        """Where none is named. What isn't found is told."""
        built = ROOT / "crates/zscli/out/zscli"
        on_path = self.folder / "zscli"
        on_path.write_text("")
        on_path.chmod(0o755)
        with mock.patch.dict(os.environ, PIFNJARL_ZSCLI="", PATH=str(self.folder)):
            self.assertEqual(pifnjarl.zscli(), str(built if built.exists() else on_path))
            on_path.unlink()
            try:
                found = pifnjarl.zscli()
            except pifnjarl.DeviceError as error:
                found = str(error)
        self.assertIn(str(built), found)

    def test_a_copy_beside_a_script_is_enough(self) -> None:
        """It wants the standard library alone, and the program's name, without which it says how it is named."""
        shutil.copy(pifnjarl.__file__, self.folder)
        script = self.folder / "script.py"
        script.write_text("import pifnjarl\nwith pifnjarl.Device('zoned.img') as it:\n    print(it.append(64, bytes(512)))\n")
        named = {"PIFNJARL_ZSCLI": str(Path(pifnjarl.zscli()).resolve())}
        nowhere = {"PATH": str(self.folder / "nowhere")}
        for variables, printed, told in ((named, "64\n", ""), (nowhere, "", "PIFNJARL_ZSCLI names none")):
            python = [sys.executable, "-B", "-S", str(script)]
            ran = subprocess.run(python, cwd=self.folder, env=variables, capture_output=True, text=True, check=False)
            self.assertEqual(ran.stdout, printed, ran.stderr)
            self.assertIn(told, ran.stderr)

    def test_the_exceptions_are_the_statuses(self) -> None:
        """Their names and what they say are those of docs/device.md."""
        rows = re.findall(r"(?m)^\| (\d)h \| (..)h \| (.*) \| (.*) \|$", (ROOT / "docs/device.md").read_text())
        told = {(int(kind), int(code, 16)): (name, words) for kind, code, name, words in rows if (kind, code) != ("0", "00")}
        said: Dict[Tuple[int, int], Tuple[str, str]] = {}
        for refused in pifnjarl.Refused.__subclasses__():
            words = (refused.__doc__ or "").split("\n")[0].rstrip(".")
            said[refused.type, refused.code] = (refused.name, words[0].lower() + words[1:])
            self.assertEqual(refused.__name__.lower(), refused.name.replace(" ", "").lower())
            self.assertTrue(str(refused()).startswith(f"refused: {refused.name} (type "))
            self.assertIs(getattr(pifnjarl, refused.__name__), refused)
        self.assertEqual(said, {status: (name, words[0].lower() + words[1:]) for status, (name, words) in told.items()})


def mypy() -> Optional[List[str]]:
    """How mypy is called here, if it can be."""
    for python in (sys.executable, "/usr/bin/python3"):
        words = [python, "-m", "mypy"]
        if Path(python).exists() and subprocess.run([*words, "--version"], capture_output=True, check=False).returncode == 0:
            return words
    return None


class Words(Over):
    """What a refusal says: the line of `zscli explain`."""

    def explained(self, replies: List[str], *options: str) -> List[str]:
        """The lines of `zscli explain` for these of `exec`."""
        (self.folder / "replies").write_text("".join(f"{line}\n" for line in replies))
        words = [pifnjarl.zscli(), "explain", str(self.folder / "replies"), *options]
        return subprocess.run(words, capture_output=True, text=True, check=True).stdout.splitlines()

    def test_each_status_and_each_reason_has_its_words(self) -> None:
        """Also what the dwords of a completion add."""
        cases = [(refused, dwords) for refused in pifnjarl.Refused.__subclasses__() for dwords in ((0, 0), (7, 0), (0, 9))]
        cases += [(pifnjarl.ProgramRefused, (3, reason)) for reason in range(300)]
        replies = []
        for refused, (dword0, dword1) in cases:
            status = refused.type << 9 | refused.code << 1
            replies.append(f"cpl 5 {struct.pack('<II2xHHH', dword0, dword1, 5, 8, status).hex()}")
        said = [str(refused(*dwords, "queue 5, command 8")) for refused, dwords in cases]
        self.assertEqual(said, self.explained(replies))

    def test_each_command_has_its_words(self) -> None:
        """A command of each kind is refused: `explain --commands` says the same of its entry and its completion."""
        device = self.device()
        device.append(0, ORDERS)
        device.finish(64)
        calls: List[Callable[[], object]] = [
            lambda: device.write(3, bytes(512)),
            lambda: device.write(64, bytes(1024)),
            lambda: device.read(63, 2),
            lambda: device.append(64, bytes(512)),
            lambda: device.append(1, bytes(1024)),
            lambda: device.open(64),
            lambda: device.close(64),
            lambda: device.finish(1),
            lambda: device.reset(4096),
            lambda: device.offline(128),
            lambda: device.report(4096),
            lambda: device.load(3, bytes(7), emit=0),
            lambda: device.load(3, pifnjarl.EMITS_NOTHING[:8], emit=1),
            lambda: device.load(8, pifnjarl.EMITS_NOTHING, emit=1),
            lambda: device.load(0, b"", emit=1),
            lambda: device.load(0, bytes(1), emit=1),
            lambda: device.run(0, 0, 4, to=128, argument=3),
            lambda: device.run(8, 0, 1, to=128),
            lambda: device.result(0),
            lambda: device.result(9),
        ]
        commands, replies, said = [], [], []
        for call in calls:
            with mock.patch.object(pifnjarl, "_entry", wraps=pifnjarl._entry) as entry, mock.patch.object(
                pifnjarl, "_completion", wraps=pifnjarl._completion
            ) as completion:
                with self.assertRaises(pifnjarl.Refused) as refused:
                    call()
            opcode, identifier, *dwords = entry.call_args.args
            # (the data isn't shown, but is as long as Load's words say)
            data = "00" * (dwords[1] if opcode == 0xC1 else 0)
            commands.append(f"submit 1 {pifnjarl._entry(opcode, identifier, *dwords).hex()} {data}".rstrip())
            replies.append(f"cpl 1 {completion.call_args.args[0].hex()}")
            said.append(str(refused.exception))
        (self.folder / "commands").write_text("".join(f"{line}\n" for line in commands))
        self.assertEqual(said, self.explained(replies, "--commands", str(self.folder / "commands")))

    def test_the_modules_have_types(self) -> None:
        """`mypy --strict` takes them and their tests."""
        words = mypy()
        if words is None:
            self.skipTest("there is no mypy here")
        files = [str(path) for path in sorted([*HERE.glob("*.py"), *HERE.glob("examples/*.py")])]
        ran = subprocess.run([*words, "--strict", "--cache-dir", str(self.folder), *files], capture_output=True, text=True, check=False)
        self.assertEqual(ran.returncode, 0, ran.stdout)


class Linked(Over):
    """Programs from files, with the notes of `zscli link` beside them. Here these are written by hand."""

    # a block whose first byte is over 9 ends at the guard, which is slot 2
    GUARDED = """
            mov r6, r1
            ldxb r7, [r2]
            jle r7, 9, end
            stw [r3+1008], 1
            stw [r3+1012], 2
            ldxw r6, [r6+8]
            stxdw [r3+1016], r6
    end:    mov r0, 0
            exit
    """
    NOTES = "linked 1\nblock 512\nemit 8\nprofile 2\nguard-at 1008\nguard 1 slot 2 filter.c:12 in top: the byte is over 9\n"

    def setUp(self) -> None:
        super().setUp()
        self.program = self.folder / "guarded.bin"
        self.program.write_bytes(scan.assembled(self.GUARDED, self.folder))
        self.note(self.NOTES)

    def note(self, text: str) -> None:
        """Writes notes beside the program."""
        Path(f"{self.program}.linked").write_text(text)

    def over(self, first_bytes: bytes) -> Tuple[pifnjarl.Device, pifnjarl.Run]:
        """A device, and a run of the program over blocks with these first bytes."""
        device = self.device()
        device.append(0, b"".join(bytes([byte]).ljust(512, b"\0") for byte in first_bytes))
        device.open(64)
        device.load(1, self.program, emit=8)
        return device, device.run(1, 0, len(first_bytes), to=64)

    def test_a_guard_that_ended_a_block_is_raised(self) -> None:
        """Each time that the run is waited for."""
        device, run = self.over(bytes([0, 10, 3]))
        for _ in range(2):
            with self.assertRaises(pifnjarl.GuardEnded) as ended:
                run.wait()
        error = ended.exception
        self.assertEqual(str(error), "block 1 ended at the guard of filter.c:12 in top: the byte is over 9")
        self.assertEqual((error.place, error.text, error.block), ("filter.c:12", "in top: the byte is over 9", 1))
        self.assertEqual(error.result, pifnjarl.Result(records=0, blocks=0))
        # the run before it doesn't hide what a later one comes to
        self.assertEqual(device.run(1, 0, 1, to=64).wait(), pifnjarl.Result(records=0, blocks=0))

    def test_no_guard_is_raised_where_none_ended_a_block(self) -> None:
        """Nor where the notes are of another program, or where another run of the slot has ended since."""
        _, run = self.over(bytes([0, 9, 3]))
        self.assertEqual(run.wait(), pifnjarl.Result(records=0, blocks=0))
        self.note(self.NOTES.replace("slot 2", "slot 3"))
        _, run = self.other(bytes([10]))
        self.assertEqual(run.wait(), pifnjarl.Result(records=0, blocks=0))

    def test_a_later_run_of_the_slot_hides_the_guard(self) -> None:
        """The scratch is that of the run which ended last."""
        device, run = self.over(bytes([10]))
        device.open(128)
        later = device.run(1, 0, 1, to=128)
        device.drain()
        self.assertEqual(run.wait(), pifnjarl.Result(records=0, blocks=0))
        with self.assertRaises(pifnjarl.GuardEnded):
            later.wait()

    def other(self, first_bytes: bytes) -> Tuple[pifnjarl.Device, pifnjarl.Run]:
        """The same over another image."""
        self.image = self.folder / "other.img"
        pifnjarl.format_image(self.image)
        return self.over(first_bytes)

    def test_a_program_for_other_numbers_is_not_loaded(self) -> None:
        """Those of the notes have to be the device's block size and the limit."""
        device = self.device()
        with self.assertRaisesRegex(pifnjarl.LinkedOtherwise, "was linked to emit at most 8 bytes for a block, and not 9$"):
            device.load(0, self.program, emit=9)
        self.note(self.NOTES.replace("block 512", "block 4096"))
        with self.assertRaisesRegex(pifnjarl.LinkedOtherwise, "was linked for blocks of 4096 bytes, and the device has 512$"):
            device.load(0, str(self.program), emit=8)
        with self.assertRaises(pifnjarl.NoSuchProgram):
            device.result(0)
        # the program's bytes have no notes
        device.load(0, self.program.read_bytes(), emit=9)

    def test_notes_of_another_program_are_not_used(self) -> None:
        """As their sum says, which is the CRC-32 of the program's bytes."""
        summed = self.NOTES.replace("linked 1\n", f"linked 1\nsum {zlib.crc32(self.program.read_bytes())}\n")
        self.note(summed)
        _, run = self.over(bytes([10]))
        with self.assertRaises(pifnjarl.GuardEnded):
            run.wait()
        self.note(summed.replace("sum ", "sum 1").replace("block 512", "block 4096"))
        with self.assertWarnsRegex(UserWarning, "guarded.bin.linked has the notes of another program, and is not used"):
            _, run = self.other(bytes([10]))
        self.assertEqual(run.wait(), pifnjarl.Result(records=0, blocks=0))

    def test_notes_are_never_needed(self) -> None:
        """Without them, and with damaged ones, a program is loaded and run."""
        self.note("linked 1\nblock 512\n")
        with self.assertWarnsRegex(UserWarning, "guarded.bin.linked is damaged, and not used"):
            _, run = self.over(bytes([10]))
        self.assertEqual(run.wait(), pifnjarl.Result(records=0, blocks=0))
        Path(f"{self.program}.linked").unlink()
        _, run = self.other(bytes([10]))
        self.assertEqual(run.wait(), pifnjarl.Result(records=0, blocks=0))


class UnderWay(Over):
    """Several commands at a time."""

    def test_commands_are_done_in_order(self) -> None:
        """Whatever order they are waited for in, and with calls that wait between them."""
        device = self.device()
        appends = [device.append_async(64, bytes([number]) * 512) for number in range(60)]
        reads = [device.read_async(64 + number, 1) for number in range(60)]
        self.assertEqual(device.append(64, bytes(512)), 124)
        self.assertEqual([read.wait() for read in reversed(reads)], [bytes([number]) * 512 for number in reversed(range(60))])
        self.assertEqual([append.wait() for append in appends], list(range(64, 124)))
        device.write_async(0, bytes(512))
        device.drain()
        self.assertEqual(device.report()[0].write_pointer, 1)

    def test_more_is_under_way_than_the_pipes_hold(self) -> None:
        """Megabytes in both directions, before anything is waited for."""
        pifnjarl.format_image(self.image, zone_size=512, zones=2)
        device, data = self.device(), random.Random(5).randbytes(131072)
        appends = [device.append_async(zone, data) for zone in (0, 512, 0, 512)]
        reads = [device.read_async(256 * (number % 4), 256) for number in range(32)]
        self.assertEqual([append.wait() for append in appends], [0, 512, 256, 768])
        self.assertTrue(all(read.wait() == data for read in reads))

    def test_runs_have_turns_while_commands_are_under_way(self) -> None:
        """Each answer finds what asked for it."""
        device = self.device()
        device.append(0, ORDERS)
        device.open(64)
        device.load(0, self.filter(), emit=66)
        run = device.run(0, 0, 4, to=64, argument=3)
        reads = [device.read_async(lba, 1) for lba in range(4)]
        self.assertFalse(run.turn())
        self.assertEqual(device.drain(), 3)
        self.assertTrue(run.ended)
        self.assertEqual(b"".join(read.wait() for read in reads), ORDERS)

    def test_a_refusal_is_that_of_its_command(self) -> None:
        """Those before it and after it are done."""
        device = self.device()
        first, full, second = device.append_async(0, bytes(512)), device.write_async(64, b"x" * 512), device.append_async(0, bytes(512))
        again = device.write_async(64, bytes(512))
        for _ in range(2):
            with self.assertRaisesRegex(pifnjarl.ZoneInvalidWrite, "command 4: write of 1 block from LBA 64 on: refused"):
                again.wait()
        self.assertEqual((first.wait(), full.wait(), second.wait()), (0, None, 1))

    def test_a_refusal_that_nobody_waited_for_is_raised_at_the_end(self) -> None:
        """The image is saved before. An exception that leaves `with` comes first."""
        with self.assertRaises(pifnjarl.ZoneInvalidWrite):
            with pifnjarl.Device(self.image) as device:
                device.write_async(1, bytes(512))
                device.append_async(64, b"x" * 512)
        with self.assertRaises(ZeroDivisionError):
            with pifnjarl.Device(self.image) as device:
                self.assertEqual(device.read(64, 1), b"x" * 512)
                device.write_async(1, bytes(512))
                device.append_async(64, b"y" * 512)
                device.append(0, bytes(1 // 0))
        with self.device() as device:
            self.assertEqual(device.read(65, 1), b"y" * 512)
            refused = device.write_async(1, bytes(512))
            self.assertRaises(pifnjarl.ZoneInvalidWrite, refused.wait)

    def test_done_does_not_wait(self) -> None:
        """It comes true."""
        device = self.device()
        append = device.append_async(0, bytes(512))
        while not append.done:
            pass
        self.assertEqual(append.wait(), 0)

    def test_what_was_waited_for_is_on_the_disk(self) -> None:
        """Of a durable device that is killed."""
        device = pifnjarl.Device(self.image, durable=True)
        appends = [device.append_async(0, bytes([number]) * 512) for number in range(40)]
        appends[-1].wait()
        device._stream._program.kill()
        self.assertRaises(pifnjarl.DeviceError, device.save)
        with pifnjarl.Device(self.image, durable=True) as again:
            self.assertEqual(again.read(0, 40), b"".join(bytes([number]) * 512 for number in range(40)))


class Interrupted:
    """In the place of what waits for the pipes: an exception comes at a call of it, as Ctrl-C raises one."""

    def __init__(self, polled: object, calls: int) -> None:
        self._polled, self._calls = polled, calls

    def poll(self, *timeout: int) -> object:
        """Counts."""
        self._calls -= 1
        if self._calls == 0:
            raise KeyboardInterrupt
        return getattr(self._polled, "poll")(*timeout)

    def __getattr__(self, name: str) -> object:
        return getattr(self._polled, name)


class Ends(Over):
    """How a device ends."""

    def test_an_exception_within_a_command_saves(self) -> None:
        """Wherever it comes: what was done is in the image, and the exception alone is raised."""
        pifnjarl.format_image(self.image, zone_size=256, zones=2)
        for calls in range(1, 12):
            with self.assertRaises(KeyboardInterrupt) as raised:
                with pifnjarl.Device(self.image) as device:
                    device.append(256, bytes([calls]) * 512)
                    setattr(device._stream, "_polled", Interrupted(device._stream._polled, calls))
                    while True:
                        device.reset(0)
                        device.append_async(0, bytes(131072)).wait()
            self.assertIsNone(raised.exception.__context__)
            with pifnjarl.Device(self.image) as device:
                self.assertEqual(device.read(255 + calls, 1), bytes([calls]) * 512)

    def test_a_device_goes_on_after_an_exception_that_was_caught(self) -> None:
        """The answer that comes late is that of its command."""
        for calls in range(1, 4):
            with pifnjarl.Device(self.image) as device:
                polled = device._stream._polled
                setattr(device._stream, "_polled", Interrupted(polled, calls))
                try:
                    device.append(64, bytes(512 * 30))
                    device.reset(64)
                    device.append(64, bytes(512 * 30))
                    self.fail("no exception came")
                except KeyboardInterrupt:
                    setattr(device._stream, "_polled", polled)
                device.reset(64)
                self.assertEqual(device.append(64, b"z" * 512), 64)
                self.assertEqual(device.read(64, 2), b"z" * 512 + bytes(512))

    def test_nothing_is_waited_for_once_the_device_has_ended(self) -> None:
        """Also if another device has the numbers of its pipes by then."""
        device = pifnjarl.Device(self.image)
        append = device.append_async(64, bytes(512))
        device._stream.end()
        with pifnjarl.Device(self.image) as other:
            another = other.append_async(0, bytes(512))
            self.assertRaises(pifnjarl.DeviceError, append.wait)
            self.assertEqual(another.wait(), 0)

    def test_what_an_exception_cut_off_is_not_sent_again(self) -> None:
        """It comes between a write and what is noted of it: each call says so from then on."""
        write = os.write

        def cut_off(file: int, data: bytes) -> int:
            write(file, data)
            raise KeyboardInterrupt

        device = pifnjarl.Device(self.image)
        with mock.patch("os.write", cut_off):
            self.assertRaises(KeyboardInterrupt, device.append, 0, bytes(512))
        self.assertRaises(pifnjarl.DeviceError, device.report)
        self.assertRaisesRegex(pifnjarl.DeviceError, "cut off", device.shut)
        with pifnjarl.Device(self.image) as again:
            self.assertIn(again.report()[0].write_pointer, (0, 1))

    def test_a_program_that_was_killed_is_told(self) -> None:
        """By one error, whose text says by what, however often it is asked."""
        for durable, words in ((False, "SIGKILL: the image is as it was saved last"), (True, "SIGKILL: what it had answered is on the")):
            with self.assertRaisesRegex(pifnjarl.DeviceError, words) as raised:
                with pifnjarl.Device(self.image, durable=durable) as device:
                    device.append(64, bytes(512))
                    device._stream._program.kill()
                    device._stream._program.wait()
                    with self.assertRaisesRegex(pifnjarl.DeviceError, words):
                        device.append(64, bytes(131072))
                    device.read(64, 1)
            shown = "".join(traceback.format_exception(None, raised.exception, raised.exception.__traceback__))
            self.assertNotIn("During handling", shown)
            self.assertNotIn("BrokenPipe", shown)

    def test_an_exception_goes_on_where_the_device_fails_to_end(self) -> None:
        """It leaves `with`, and a traceback shows what failed before it."""
        (self.folder / "inner").mkdir()
        image = self.folder / "inner/zoned.img"
        pifnjarl.format_image(image)
        with self.assertRaisesRegex(ValueError, "1.5") as raised:
            with pifnjarl.Device(image) as device:
                device.append(64, bytes(512))
                shutil.rmtree(image.parent)
                int("1.5")
        failed = raised.exception.__context__
        self.assertIsInstance(failed, pifnjarl.DeviceError)
        self.assertRegex(str(failed), "cannot write .*zoned.img")
        assert failed is not None
        self.assertIsNone(failed.__context__)

    def test_a_device_that_is_dropped_ends(self) -> None:
        """Its program has saved the image by then; also where a run refers to it."""
        for keeps_run in (False, True):
            device: Optional[pifnjarl.Device] = pifnjarl.Device(self.image)
            assert device is not None
            program = device._stream._program
            device.append(64, b"x" * 512)
            if keeps_run:
                device.open(128)
                device.load(0, pifnjarl.EMITS_NOTHING, emit=0)
                device.run(0, 64, 1, to=128)
            with self.assertWarns(ResourceWarning):
                device = None
                gc.collect()
            self.assertEqual(program.returncode, 0)
            self.assertEqual(self.device().read(64, 1), b"x" * 512)
            self.doCleanups()
            self.setUp()

    def test_a_device_ends_with_the_script(self) -> None:
        script = "import pifnjarl\ndevice = pifnjarl.Device('zoned.img')\ndevice.append(64, b'x' * 512)\nprint(device._stream._program.pid)"
        variables = {**os.environ, "PYTHONPATH": str(HERE), "PIFNJARL_ZSCLI": str(Path(pifnjarl.zscli()).resolve())}
        words = [sys.executable, "-B", "-c", script]
        ran = subprocess.run(words, cwd=self.folder, env=variables, capture_output=True, text=True, check=True)
        self.assertRaises(ProcessLookupError, os.kill, int(ran.stdout), 0)
        self.assertEqual(self.device().read(64, 1), b"x" * 512)

    def test_what_the_program_told_is_told(self) -> None:
        """An image that can't be written: the last words of the program are the error's, whatever is called then."""
        (self.folder / "inner").mkdir()
        image = self.folder / "inner/zoned.img"
        pifnjarl.format_image(image)
        device = pifnjarl.Device(image)
        device.append(64, bytes(512))
        shutil.rmtree(image.parent)
        calls: List[Callable[[], object]] = [device.save, device.report, device.save]
        for call in calls:
            with self.assertRaisesRegex(pifnjarl.DeviceError, "cannot write .*zoned.img") as raised:
                call()
            self.assertIsNone(raised.exception.__context__)
        device.shut()


class Frames(Over):
    """The streams themselves."""

    def served(self, sent: bytes, pieces: int = 1) -> Tuple[int, bytes, str]:
        """What `zscli serve` ends with, writes and tells, when it is sent these bytes in so many pieces."""
        words = [pifnjarl.zscli(), "serve", str(self.image), "--frames"]
        with subprocess.Popen(words, stdin=subprocess.PIPE, stdout=subprocess.PIPE, stderr=subprocess.PIPE) as program:
            assert program.stdin is not None
            size = -(-len(sent) // pieces)
            for at in range(0, len(sent), size):
                program.stdin.write(sent[at : at + size])
                program.stdin.flush()
            written, errors = program.communicate()
            return program.returncode, written, errors.decode()

    def test_pieces_of_a_stream_do_not_show(self) -> None:
        """Byte for byte it gives the same answers as whole."""
        header = b"\x01\0\x01\0" + bytes(4) + (512).to_bytes(4, "little") + bytes(4)
        # a Zone Append, identifier 1, namespace 1: a block to the zone of LBA 0
        sent = (header + b"\x7d\0\1\0\1".ljust(64, b"\0") + bytes(512)) * 3
        status, written, _ = self.served(sent)
        self.assertEqual((status, len(written)), (0, 3 * 32))
        pifnjarl.format_image(self.image)
        self.assertEqual(self.served(sent, pieces=len(sent)), (status, written, ""))

    def test_a_wrong_byte_is_told_by_its_place(self) -> None:
        """What comes before its frame is done."""
        status, written, told = self.served(b"\x02".ljust(16, b"\0") + b"\x09".ljust(16, b"\0"))
        self.assertEqual((status, len(written)), (3, 16))
        self.assertIn("byte 16", told)

    def test_a_stream_that_ends_within_a_frame_is_told(self) -> None:
        """The end of the input in a header is no end of a stream."""
        status, written, told = self.served(b"\x02".ljust(16, b"\0") + b"\x02\0")
        self.assertEqual((status, len(written)), (3, 16))
        self.assertIn("byte 18", told)


class Pages(Over):
    """What docs/first_run.md shows in a shell. (The blocks of Python there and in docs/embedding.md are run by tests/cli.)"""

    def test_python_has_the_replies_of_the_example(self) -> None:
        """As the first run has them in a shell: the lines that `explain` prints, and the records."""
        device = self.device()
        shown = (ROOT / "docs/first_run.md").read_text()
        self.assertIn(f"the first is at LBA {device.append(0, ORDERS)}\n", shown)
        device.open(64)
        device.load(0, self.filter(), emit=66)
        run = device.run(0, 0, 4, to=64, argument=3)
        self.assertEqual([run.turn(), run.turn()], [False, False])
        device.queue = 2
        with self.assertRaises(pifnjarl.ZoneHeld) as held:
            device.reset(0)
        self.assertIn("queue 2, command 1: " + str(held.exception).partition(": ")[2] + "\n", shown)
        self.assertEqual([run.turn(), run.turn()], [False, True])
        records, blocks = run.wait()
        self.assertIn(f": {records} records in {blocks} block\n", shown)
        self.assertIn("".join(f"    {record[:24].hex()}\n" for record in device.records(64, 1)), shown)


class Examples(Over):
    """The programs of examples/."""

    def test_a_store_keeps_what_was_put(self) -> None:
        """Puts and deletes of any length, as a dictionary has them, also when it is opened again; one that is full says so."""
        rng = random.Random(7)
        wanted: Dict[bytes, bytes] = {}
        pifnjarl.format_image(self.image, zones=4, zone_size=16, most_active=1)
        for _ in range(4):
            with pifnjarl.Device(self.image) as device:
                kept = store.Store(device)
                for _ in range(100):
                    key = b"%d" % rng.randrange(12)
                    if rng.random() < 0.2:
                        kept.delete(key)
                        wanted.pop(key, None)
                    else:
                        wanted[key] = rng.randbytes(rng.randrange(900))
                        kept.put(key, wanted[key])
                self.assertEqual({key: kept.get(key) for key in kept.keys()}, wanted)
                self.assertGreater(kept.resets, 0)
        kept = store.Store(self.device())
        with self.assertRaisesRegex(OSError, "full"):
            for number in range(100):
                kept.put(b"more %d" % number, bytes(900))
        self.assertEqual({key: kept.get(key) for key in wanted}, wanted)

    def test_they_print_what_they_found(self) -> None:
        """As programs."""
        for name, words in (("store.py", "50 keys, all as they were put"), ("scan.py", "the same orders")):
            ran = subprocess.run([sys.executable, str(HERE / "examples" / name)], capture_output=True, text=True, check=False)
            self.assertIn(words, ran.stdout, ran.stderr)


def load_tests(loader: unittest.TestLoader, tests: unittest.TestSuite, pattern: object) -> unittest.TestSuite:
    """The examples of docstrings are tests too, and so is what is tested of the page, of questions and of disks of Linux."""
    for others in (test_page, test_query, test_linux):
        tests.addTests(loader.loadTestsFromModule(others))
    for module in (pifnjarl, store):
        tests.addTests(doctest.DocTestSuite(module))
    return tests


def main() -> int:
    """Runs the tests; what is printed last is 'N passed, M failed'."""
    result = unittest.main(exit=False).result
    failed = len(result.failures) + len(result.errors)
    print(f"{result.testsRun - failed} passed, {failed} failed", flush=True)
    return 1 if failed else 0


if __name__ == "__main__":
    sys.exit(main())
