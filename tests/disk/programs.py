"""The programs that keep a device in a file: how each is fed events, batch by batch, and how each looks at a file that a crash left.

The variable `ZSCLI` names the program of the command line, `NVME_TCP_TARGET` the target over TCP, `KEPT_FRAMES` and `SAVES` the
programs that kept_frames.c and saves.c make, and `SHADOW` the library that shadow.c makes.
"""

from __future__ import annotations

import os
import signal
import struct
import subprocess
import sys
from pathlib import Path
from typing import Dict, Iterator, List, NamedTuple, Optional, Sequence, Tuple

ROOT = Path(__file__).resolve().parents[2]
sys.path.append(str(ROOT / "target"))
from calls import Call, Kind, calls_of
from events import BLOCK, Event, Opcode, Request, look_twice, replies, seen
from nvme_tcp_connection import HostError
from nvme_tcp_connection import Kind as PduKind
from nvme_tcp_host import Host

IMAGE = "zoned.img"
"""The name of the file in its folder."""

MOST_AT_ONCE = 4096
"""The most bytes that a pipe takes whole, so that they are read whole, and are one batch."""

PATIENCE = 600
"""The seconds in which a program has to end."""


KINDS = ("payload", "gate", "opening", "new", "folder", "name")
"""The kinds of a sync, as shadow.c names them."""


class Trouble(NamedTuple):
    """What is done to a program: it is killed at a call, and a sync fails, each given by a number or a kind, and syncs of a kind aren't
    made."""

    kill: str = ""
    fail: str = ""
    skip: str = ""

    def __str__(self) -> str:
        """In words."""
        words = [f"killed at {self.kill}"] * (self.kill != "") + [f"sync {self.fail} fails"] * (self.fail != "")
        return ", ".join(words + [f"without syncs of kind {self.skip}"] * (self.skip != "")) or "served"


class Step(NamedTuple):
    """A call, and which states a crash after it may leave: numbers of events, of which the first was acknowledged."""

    call: Call
    allowed: Tuple[int, ...]


class Session(NamedTuple):
    """What a program did, and with which status it ended."""

    steps: List[Step]
    status: int


def program(variable: str) -> str:
    """The program that a variable names."""
    named = os.environ.get(variable)
    if not named:
        raise SystemExit(f"the variable {variable} names no program: tests/disk/test.sh sets it")
    return named


def environment(folder: Path, notes: Path, trouble: Trouble) -> Dict[str, str]:
    """The variables for a program whose calls for the files of a folder are noted."""
    shadow = {"LD_PRELOAD": program("SHADOW"), "SHADOW_FOLDER": str(folder), "SHADOW_NOTES": str(notes), "SHADOW_SKIP": trouble.skip}
    return {**os.environ, **shadow, "SHADOW_KILL": trouble.kill, "SHADOW_FAIL": trouble.fail}


def noted(words: Sequence[str], folder: Path, trouble: Trouble) -> Tuple[List[Call], int]:
    """The calls that a command makes for the files of a folder, and its status."""
    notes = folder.with_suffix(".notes")
    notes.unlink(missing_ok=True)
    none = subprocess.DEVNULL
    variables = environment(folder, notes, trouble)
    ran = subprocess.run(words, env=variables, stdin=none, stdout=none, stderr=none, timeout=PATIENCE, check=False)
    return list(calls_of(notes.read_bytes())), ran.returncode


class Progress:
    """How far a list of batches is acknowledged, and what a crash may leave then."""

    def __init__(self, first: int, batches: Sequence[Sequence[Event]], whole: Sequence[bool]) -> None:
        """Events from the one of a number on; of a batch that is whole a crash leaves all or nothing."""
        self.ends = [first]
        for batch in batches:
            self.ends.append(self.ends[-1] + len(batch))
        self.whole, self.acknowledged = whole, first

    def allowed(self) -> Tuple[int, ...]:
        """All that was acknowledged, and at most what is left of a batch more."""
        after = [number for number, end in enumerate(self.ends) if end > self.acknowledged]
        if not after:
            return (self.acknowledged,)
        batch, end = after[0] - 1, self.ends[after[0]]
        if self.whole[batch] and self.acknowledged == self.ends[batch]:
            return (self.acknowledged, end)
        return tuple(range(self.acknowledged, end + 1))


class Piped:
    """A program that reads frames from standard input, and writes those of replies: `zscli serve --durable`."""

    name = "serve"
    has_turns = True
    """Do turns happen only when they are asked for?"""

    def words(self, image: Path) -> List[str]:
        """Its command line."""
        return [program("ZSCLI"), "serve", str(image), "--frames", "--durable"]

    def spelled(self, frames: bytes) -> bytes:
        """What is sent for the frames of a batch."""
        return frames

    def is_whole(self, batch: Sequence[Event]) -> bool:
        """Is it one batch for the program too?"""
        return sum(len(event.frame) for event in batch) <= MOST_AT_ONCE

    def session(self, folder: Path, first: int, batches: Sequence[Sequence[Event]], trouble: Trouble) -> Session:
        """Feeds batches, of which each is sent when the one before is answered, to a program on the image of a folder."""
        notes = folder.with_suffix(".notes")
        notes.unlink(missing_ok=True)
        variables = environment(folder, notes, trouble)
        pipe = subprocess.PIPE
        words = self.words(folder / IMAGE)
        with subprocess.Popen(words, bufsize=0, stdin=pipe, stdout=pipe, stderr=subprocess.DEVNULL, env=variables) as served:
            for batch in batches:
                if not self._answers(served, batch):
                    break
            assert served.stdin is not None
            served.stdin.close()
            status = served.wait(PATIENCE)
        progress = Progress(first, batches, [self.is_whole(batch) for batch in batches])
        return Session(self._steps(list(calls_of(notes.read_bytes())), first, progress), status)

    def look(self, image: Path) -> Tuple[bytes, ...]:
        """Opens a file that a crash left, and looks at the device; none where it can't be opened."""
        sent = self.spelled(b"".join(look_twice()))
        ran = subprocess.run(self.words(image), input=sent, capture_output=True, timeout=PATIENCE, check=False)
        return seen(ran.stdout) if ran.returncode == 0 else ()

    def _answers(self, served: subprocess.Popen[bytes], batch: Sequence[Event]) -> bool:
        """Sends a batch, and says whether all of it is answered."""
        assert served.stdin is not None and served.stdout is not None
        came = b""
        try:
            served.stdin.write(self.spelled(b"".join(event.frame for event in batch)))
            while len(list(replies(came))) < len(batch):
                more = served.stdout.read(1 << 16)
                if not more:
                    return False
                came += more
        except BrokenPipeError:
            return False
        return True

    def _steps(self, calls: Sequence[Call], first: int, progress: Progress) -> List[Step]:
        said, steps = b"", []
        for call in calls:
            if call.kind is Kind.SAID:
                said += call.data
                progress.acknowledged = first + len(list(replies(said)))
            steps.append(Step(call, progress.allowed()))
        return steps


class KeptFrames(Piped):
    """The program over the library for C, which takes batches with their lengths, each of which is one batch for it too."""

    name = "kept_frames"

    def words(self, image: Path) -> List[str]:
        return [program("KEPT_FRAMES"), str(image)]

    def spelled(self, frames: bytes) -> bytes:
        return struct.pack("<I", len(frames)) + frames

    def is_whole(self, batch: Sequence[Event]) -> bool:
        return True


class Place(NamedTuple):
    """Where a target listens, and the name of its subsystem."""

    address: Tuple[str, int]
    name: str


class OverTcp(Piped):
    """The target over TCP. Turns happen by themselves there, so that a Run is answered after them."""

    name = "nvme_tcp"
    has_turns = False

    def words(self, image: Path) -> List[str]:
        return [program("NVME_TCP_TARGET"), str(image), "--durable", "--listen", "127.0.0.1:0"]

    def is_whole(self, batch: Sequence[Event]) -> bool:
        return False

    def session(self, folder: Path, first: int, batches: Sequence[Sequence[Event]], trouble: Trouble) -> Session:
        notes = folder.with_suffix(".notes")
        notes.unlink(missing_ok=True)
        identifiers: Dict[int, int] = {}
        served, place = self._started(folder / IMAGE, environment(folder, notes, trouble))
        try:
            if place is not None:
                self._feed(place, first, batches, identifiers)
        except (HostError, OSError):
            pass
        status = self._ended(served)
        progress = Progress(first, batches, [False] * len(batches))
        return Session(self._target_steps(list(calls_of(notes.read_bytes())), identifiers, progress), status)

    def look(self, image: Path) -> Tuple[bytes, ...]:
        """The target opens the file, and goes on with its run for a while; then `zscli` looks at the device."""
        served, place = self._started(image, dict(os.environ))
        if self._ended(served) != 0 or place is None:
            return ()
        return Piped().look(image)

    def _started(self, image: Path, variables: Dict[str, str]) -> Tuple[subprocess.Popen[bytes], Optional[Place]]:
        """The program, and where it is; nowhere if it has ended."""
        served = subprocess.Popen(self.words(image), stdout=subprocess.PIPE, stderr=subprocess.DEVNULL, env=variables)
        assert served.stdout is not None
        port = served.stdout.readline().decode().rpartition(":")[2]
        name = served.stdout.readline().decode().rstrip()
        return served, Place(("127.0.0.1", int(port)), name) if name else None

    def _ended(self, served: subprocess.Popen[bytes]) -> int:
        """Ends the program, if it hasn't ended, and gives its status."""
        if served.poll() is None:
            served.send_signal(signal.SIGTERM)
        status = served.wait(PATIENCE)
        assert served.stdout is not None
        served.stdout.close()
        return status

    def _feed(self, place: Place, first: int, batches: Sequence[Sequence[Event]], identifiers: Dict[int, int]) -> None:
        """Submits the commands of each batch when those of the one before are answered; notes the identifier of each event's command,
        so that a completion says how many events are acknowledged by it."""
        with Host(place.address, subsystem=place.name) as host:
            queue, after = host.queue(1), first
            for batch in batches:
                waiting = []
                for event in batch:
                    after += 1
                    if event.kind is Request.SUBMISSION:
                        length = BLOCK if event.opcode == Opcode.READ else 0
                        waiting.append(queue.submit(event.opcode, *event.dwords, data=event.data, length=length))
                    identifiers[waiting[-1]] = after
                for identifier in waiting:
                    queue.completion(identifier)

    def _target_steps(self, calls: Sequence[Call], identifiers: Dict[int, int], progress: Progress) -> List[Step]:
        """The steps, by the completions that were sent on the second connection, which is that of the I/O queue."""
        streams: Dict[int, bytes] = {}
        steps = []
        for call in calls:
            if call.kind is Kind.SAID and call.place != 1:
                streams[call.place] = streams.get(call.place, b"") + call.data
                for identifier in completed(list(streams.values())[1] if len(streams) > 1 else b""):
                    progress.acknowledged = max(progress.acknowledged, identifiers.get(identifier, 0))
            steps.append(Step(call, progress.allowed()))
        return steps


def completed(stream: bytes) -> Iterator[int]:
    """The identifiers of the commands whose completions a target sent on the connection of an I/O queue, after that of its Connect.

    >>> one = struct.pack("<BBBBI12xHxx", 5, 0, 24, 0, 24, 7)
    >>> list(completed(bytes([1, 0, 8, 0, 8, 0, 0, 0]) + one + one + one[:20]))
    [7]
    """
    at, is_connected = 0, False
    while len(stream) - at >= 8:
        kind, length = stream[at], int.from_bytes(stream[at + 4 : at + 8], "little")
        if len(stream) - at < length:
            return
        if kind == PduKind.CAPSULE_RESP:
            if is_connected:
                yield int.from_bytes(stream[at + 20 : at + 22], "little")
            is_connected = True
        at += length
