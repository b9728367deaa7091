"""Stories: what programs did to an image, call by call, and what is to be found of it after a crash after each call.

A story has stretches, each of which begins with files that are on the disk. Within one, programs end, are killed and fail, and what
they wrote is read on; from one to the next the power fails.
"""

from __future__ import annotations

import os
import shutil
import subprocess
import tempfile
from contextlib import contextmanager
from functools import lru_cache
from pathlib import Path
from typing import Callable, Dict, Iterator, List, NamedTuple, Sequence, Tuple

from calls import Kind
from disk import Chance, Disk
from events import BLOCK, ZONE_SIZE, ZONES, Event, Opcode, Request, command, look, random_units, replies
from programs import IMAGE, KINDS, PATIENCE, Piped, Session, Step, Trouble, noted, program

Contents = Dict[str, bytes]
"""The files of a folder."""


class Lost(Exception):
    """What is found isn't what may be there."""


class Stretch(NamedTuple):
    """Files that are on the disk, and the calls from then on; in words, what was done to the programs that made them."""

    contents: Contents
    steps: List[Step]
    words: str


class Story(NamedTuple):
    """Stretches, and what is wrong with files that a crash left, where the states of these numbers may be found: nothing, or words."""

    stretches: List[Stretch]
    judge: Callable[[Contents, Tuple[int, ...]], str]


MEMORY = Path("/dev/shm")


@contextmanager
def folder_of(contents: Contents) -> Iterator[Path]:
    """A folder with such files, in memory where there is such a place: nothing waits for a disk here."""
    with tempfile.TemporaryDirectory(dir=MEMORY if os.access(MEMORY, os.W_OK) else None) as outer:
        folder = Path(outer).resolve() / "files"
        folder.mkdir()
        for name, content in contents.items():
            (folder / name).write_bytes(content)
        yield folder


def contents_of(folder: Path) -> Contents:
    """The files of a folder."""
    return {path.name: path.read_bytes() for path in folder.iterdir()}


def done(*words: object) -> None:
    """Runs a command of `zscli`, which has to succeed."""
    none = subprocess.DEVNULL
    subprocess.run([program("ZSCLI"), *map(str, words)], stdin=none, stdout=none, timeout=PATIENCE, check=True)


def shape(zones: int, size: int) -> List[str]:
    """The options of `format`."""
    numbers = {"block": BLOCK, "zones": zones, "size": size, "capacity": size, "open": zones, "active": zones}
    return [word for name, number in numbers.items() for word in (f"--{name}", str(number))]


@lru_cache(None)
def blank() -> bytes:
    """An image of which no block is written."""
    with folder_of({}) as folder:
        done("format", folder / IMAGE, *shape(ZONES, ZONE_SIZE))
        return (folder / IMAGE).read_bytes()


SOMEWHERE = "?"
"""A moment that is drawn."""


def moment(chance: Chance, most: int) -> str:
    """When a program is killed, or a sync fails: at a kind of sync, or at a number."""
    return chance.choice(KINDS) if chance.random() < 0.3 else str(chance.randint(1, most))


class References:
    """What a device has after the first of some events, by a program that keeps nothing: one that does them all, and is asked after each
    for all that it has."""

    def __init__(self, units: Sequence[Sequence[Event]]) -> None:
        """Events in units, after each of which no run is active."""
        self.events = [event for unit in units for event in unit]
        asked = look()
        sent = b"".join([*asked, *(event.frame + b"".join(asked) for event in self.events)])
        with folder_of({IMAGE: blank()}) as folder:
            words = [program("ZSCLI"), "serve", str(folder / IMAGE), "--frames"]
            answers = list(replies(subprocess.run(words, input=sent, stdout=subprocess.PIPE, timeout=PATIENCE, check=True).stdout))
        count = len(asked)
        after = [tuple(answers[at : at + count]) for at in range(0, len(answers), count + 1)]
        assert len(after) == len(self.events) + 1, "the reference doesn't answer"
        self._seen: List[Tuple[bytes, ...]] = []
        for number, had in enumerate(after):
            self._seen.append((*had, *after[_end_of_run(units, number)]))

    def seen(self, number: int) -> Tuple[bytes, ...]:
        """After so many of them, and when the run that is active then has had its turns."""
        return self._seen[number]

    def found(self, what: Tuple[bytes, ...], allowed: Sequence[int]) -> int:
        """After how many of them this is what a device has: one of the numbers that are allowed."""
        for number in allowed:
            if what == self.seen(number):
                return number
        if not what:
            raise Lost("the file isn't opened")
        others = [number for number in range(len(self.events) + 1) if what == self.seen(number)]
        which = f"that of {others[-1]} events" if others else "none that the events lead to"
        raise Lost(f"the device is {which}; {allowed[0]} were acknowledged, and {allowed[-1]} sent at most")


def _end_of_run(units: Sequence[Sequence[Event]], number: int) -> int:
    """After how many events the run has had its turns that is active after this number of them; this number where none is.

    >>> run, turn = command(Opcode.RUN, 0), Event(Request.TURN)
    >>> [_end_of_run([[run, turn, turn], [turn]], number) for number in range(5)]
    [0, 3, 3, 3, 4]
    """
    end = 0
    for unit in units:
        started = next((end + at for at, event in enumerate(unit) if event.opcode == Opcode.RUN), None)
        end += len(unit)
        if started is not None and started < number <= end:
            return end
    return number


# ---- devices that are kept


class Keeping:
    """A device that is kept by a program, session by session."""

    def __init__(self, keeper: Piped, chance: Chance, skip: str, events: int, first: int = 0) -> None:
        """From a blank image on; syncs of a kind may be left out. Where turns happen by themselves there are runs only among the first
        events: a program that is killed there has to be done with them before more can be asked for."""
        self.keeper, self.chance, self.skip = keeper, chance, skip
        runs_at_most = events if keeper.has_turns else first
        self.units = random_units(chance, events, runs_at_most=runs_at_most, has_faults=keeper.has_turns)
        self.events = [event for unit in self.units for event in unit]
        self.references = References(self.units)
        self.stretches: List[Stretch] = []
        self.number = self.acknowledged = self.ahead = 0
        self._begin({IMAGE: blank()})

    def serve(self, most: int, kill: str = "", fail: str = "") -> None:
        """A program serves batches of about so many events, which end with a unit, or is killed or has a sync that fails: at a moment that
        is given, or `SOMEWHERE`."""
        batches = self._batches(most)
        # a batch is two writes and two syncs, and opening some more
        killed = moment(self.chance, 12 + 4 * len(batches)) if kill == SOMEWHERE else kill
        failed = moment(self.chance, 6 + 2 * len(batches)) if fail == SOMEWHERE else fail
        trouble = Trouble(killed, failed, self.skip)
        with folder_of(self.contents) as folder:
            session = self.keeper.session(folder, self.number, batches, trouble)
            self._take(session, folder, str(trouble))
        if session.status and not (kill or fail):
            raise Lost(f"the program ended with {session.status}")
        if session.status == 0 and any(step.call.has_failed for step in session.steps):
            raise Lost("a sync failed, and the program ended with 0")
        self.number = self._found(self.stretches[-1].steps[-1].allowed)

    def fold(self, kill: bool) -> None:
        """The journal is folded, or the command that does it killed."""
        trouble = Trouble(kill=moment(self.chance, 12) if kill else "", skip=self.skip)
        with folder_of(self.contents) as folder:
            calls, status = noted([program("ZSCLI"), "fold", str(folder / IMAGE)], folder, trouble)
            steps = [Step(call, (self.number,)) for call in calls]
            self._take(Session(steps, status), folder, str(trouble))
        self._found((self.number,))

    def fail_power(self) -> None:
        """The power fails after some call. What is on the disk then has to be a device; no run is active in it."""
        for _ in range(50):
            stretch = self.stretches[-1]
            after = self.chance.randrange(len(stretch.steps))
            contents = disk_after(stretch, after).crash(self.chance)
            number = self.references.found(self._look(contents), stretch.steps[after].allowed)
            if number in self._ends():
                self.number = self.acknowledged = number
                self._begin(contents)
                return

    def judge(self, contents: Contents, allowed: Tuple[int, ...]) -> str:
        """What is wrong with files that a crash left."""
        try:
            self.references.found(self._look(contents), allowed)
        except Lost as error:
            return str(error)
        return ""

    @property
    def story(self) -> Story:
        """The story so far."""
        return Story(self.stretches, self.judge)

    def _ends(self) -> List[int]:
        """The numbers of events after which no run is active."""
        return [0, *(sum(map(len, self.units[: count + 1])) for count in range(len(self.units)))]

    def _batches(self, most: int) -> List[List[Event]]:
        """The next events, about so many up to the end of a unit, in batches. A target does the turns of a run by itself: they are in the
        batch of their Run, and end it."""
        end = next((end for end in self._ends() if end >= self.number + most), len(self.events))
        batches: List[List[Event]] = []
        at = self.number
        while at < end:
            count = self.chance.choice([1, 1, 2, 3, 6])
            if not self.keeper.has_turns:
                within = [stop for stop in self._ends() if stop > at]
                count = within[0] - at
            batches.append(self.events[at : min(at + count, end)])
            at += count
        return batches

    def _begin(self, contents: Contents) -> None:
        self.contents = contents
        self.disk = Disk(contents)
        self.stretches.append(Stretch(contents, [], "power fails, " if self.stretches else ""))

    def _take(self, session: Session, folder: Path, words: str) -> None:
        """Goes on from what a program left."""
        stretch = self.stretches[-1]
        end = _end_of_run(self.units, self.number)
        for step in session.steps:
            ahead = range(step.allowed[-1] + 1, min(step.allowed[-1] + self.ahead, end) + 1)
            step = step._replace(allowed=(*step.allowed, *ahead))
            if step.allowed[0] == self.number:
                # what an earlier program left, and didn't acknowledge
                step = step._replace(allowed=(*range(self.acknowledged, self.number), *step.allowed))
            self.acknowledged = step.allowed[0]
            stretch.steps.append(step)
        self.stretches[-1] = stretch._replace(words=f"{stretch.words}{words}; ")
        for step in session.steps:
            self.disk.take(step.call)
        self.contents = contents_of(folder)
        if self.contents != self.disk.read():
            raise Lost("a program changed files by calls that aren't noted")

    def _look(self, contents: Contents) -> Tuple[bytes, ...]:
        if IMAGE not in contents:
            raise Lost(f"there is no {IMAGE}")
        with folder_of(contents) as folder:
            return self.keeper.look(folder / IMAGE)

    def _found(self, allowed: Sequence[int]) -> int:
        """Which of the states the file has, as programs read it: the first, if several look alike. These differ in turns of a run that a
        program was killed in, so up to the run's end the device may be ahead by as many."""
        what = self._look(self.contents)
        number = self.references.found(what, allowed)
        self.ahead = max(other for other in allowed if what == self.references.seen(other)) - number
        return number


def disk_after(stretch: Stretch, last: int) -> Disk:
    """The disk after the call of a number."""
    disk = Disk(stretch.contents)
    for step in stretch.steps[: last + 1]:
        disk.take(step.call)
    return disk


def kept(keeper: Piped, seed: object, skip: str = "") -> Story:
    """A device that a program keeps, is killed, and keeps again; the power fails, and it is kept again."""
    keeping = Keeping(keeper, Chance((seed, keeper.name)), skip, 60, 20)
    # a name that an earlier program gave is brought to the disk by the next one
    first = "folder" if skip == "name" else SOMEWHERE if keeper.has_turns else ""
    keeping.serve(20, kill=first if keeping.chance.random() < 0.5 or skip == "name" else "")
    keeping.serve(15, kill=SOMEWHERE if keeping.chance.random() < 0.5 else "")
    keeping.serve(10)
    if not skip:
        keeping.fail_power()
        keeping.serve(10)
    return keeping.story


def failing(keeper: Piped, seed: object, skip: str = "") -> Story:
    """A device that a program keeps whose syncs fail, and which is started again without a new start of the system."""
    keeping = Keeping(keeper, Chance((seed, keeper.name, "failing")), skip, 50, 10)
    for fail in ("", SOMEWHERE, SOMEWHERE, ""):
        keeping.serve(10, fail=fail)
    return keeping.story


def folded(seed: object, skip: str = "") -> Story:
    """A journal that is folded again and again, of which only what folding does is looked at."""
    keeping = Keeping(Piped(), Chance((seed, "fold")), skip, 40)
    stretches = []
    for kill in (False, True, False):
        keeping.serve(10)
        keeping._begin(keeping.contents)
        keeping.fold(kill)
        stretches.append(keeping.stretches[-1])
    return Story(stretches, keeping.judge)


# ---- images that are replaced


class Replacing:
    """An image that commands replace one after the other, each as a whole."""

    def __init__(self, commands: Sequence[Sequence[str]], first: Contents, others: Contents) -> None:
        """The words of the commands, the first of which names the variable of a program, and in which `{image}` and `{folder}` are to be
        put in; the files from before; and those that commands read."""
        self.commands, self.others = commands, others
        self.states = [first]
        with folder_of({**first, **others}) as folder:
            for words in commands:
                subprocess.run(self._words(words, folder), stdout=subprocess.DEVNULL, timeout=PATIENCE, check=True)
                self.states.append({IMAGE: (folder / IMAGE).read_bytes()})

    def story(self, chance: Chance, skip: str) -> Story:
        """Each command is run, and some are killed first."""
        self.disk, self.contents, self.acknowledged = Disk(self.states[0]), self.states[0], 0
        steps: List[Step] = []
        words = ""
        for number in range(1, len(self.commands) + 1):
            kill = Trouble(kill=moment(chance, 10) if chance.random() < 0.5 else "", skip=skip)
            for trouble in (kill, Trouble(skip=skip)):
                if self.contents.get(IMAGE) != self.states[number][IMAGE]:
                    words += f"command {number} {trouble}; "
                    steps += self._run(number, trouble)
        return Story([Stretch(self.states[0], steps, words)], self.judge)

    def _run(self, number: int, trouble: Trouble) -> List[Step]:
        """Runs the command of a number, from 1 on. Until it succeeds, all from what was acknowledged to what it makes may be there."""
        with folder_of({**self.contents, **self.others}) as folder:
            calls, status = noted(self._words(self.commands[number - 1], folder), folder, trouble)
            self.contents = self._left(folder)
        calls = [call for call in calls if call.kind is not Kind.OPENED or call.name not in self.others]
        steps = [Step(call, tuple(range(self.acknowledged, number + 1))) for call in calls]
        if status == 0:
            self.acknowledged = number
            steps[-1] = steps[-1]._replace(allowed=(number,))
        for call in calls:
            self.disk.take(call)
        if self.contents != self.disk.read():
            raise Lost("a command changed files by calls that aren't noted")
        if not trouble.kill and (status, self.contents.get(IMAGE)) != (0, self.states[number][IMAGE]):
            raise Lost(f"command {number} ended with {status}, or left another image than before")
        return steps

    def _left(self, folder: Path) -> Contents:
        return {name: content for name, content in contents_of(folder).items() if name not in self.others}

    def judge(self, contents: Contents, allowed: Tuple[int, ...]) -> str:
        """What is wrong with files that a crash left; the next command has to work on them."""
        for number in allowed:
            if contents.get(IMAGE) == self.states[number].get(IMAGE):
                return self._goes_on(contents, number)
        return f"there is {'another' if IMAGE in contents else 'no'} image; the states {allowed} may be there"

    def _goes_on(self, contents: Contents, number: int) -> str:
        """What is wrong with the next command."""
        if number == len(self.commands):
            return ""
        with folder_of({**contents, **self.others}) as folder:
            words = self._words(self.commands[number], folder)
            status = subprocess.run(words, stdout=subprocess.DEVNULL, timeout=PATIENCE, check=False).returncode
            left = self._left(folder)
        return "" if (status, left) == (0, self.states[number + 1]) else f"the next command ends with {status}, and leaves {sorted(left)}"

    def _words(self, words: Sequence[str], folder: Path) -> List[str]:
        return [program(words[0]), *(word.format(image=folder / IMAGE, folder=folder) for word in words[1:])]


def formatted(seed: object, skip: str = "") -> Story:
    """An image that is made, and made again in other shapes."""
    chance = Chance((seed, "format"))
    shapes = [shape(chance.randint(1, 600), chance.randint(1, 9)) for _ in range(6)]
    commands = [["ZSCLI", "format", "{image}", *words, *["--force"] * (number > 0)] for number, words in enumerate(shapes)]
    return Replacing(commands, {}, {}).story(chance, skip)


def executed(seed: object, skip: str = "") -> Story:
    """An image on which command files are executed."""
    chance = Chance((seed, "exec"))
    files = {}
    for number in range(6):
        units = random_units(chance, 8, runs_at_most=8, has_faults=False)
        files[f"{number}.cmd"] = "".join(line_of(event) for unit in units for event in unit).encode()
    commands = [["ZSCLI", "exec", "{image}", f"{{folder}}/{name}"] for name in files]
    return Replacing(commands, {IMAGE: blank()}, files).story(chance, skip)


def saved(seed: object, skip: str = "") -> Story:
    """An image that a program in C saves by the library."""
    commands = [["SAVES", "{image}", byte] for byte in "abcdef"]
    return Replacing(commands, {IMAGE: blank()}, {}).story(Chance((seed, "saves")), skip)


def line_of(event: Event) -> str:
    """An event as a line of a command file.

    >>> line_of(Event(Request.TURN))
    'turn 0\\n'
    """
    if not event.opcode:
        return f"turn {event.number}\n"
    return f"submit 1 {event.frame[16:80].hex()} {event.data.hex()}".rstrip() + "\n"
