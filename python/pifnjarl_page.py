#!/usr/bin/env python3
"""Makes one HTML page of a command file: its zones over time with a slider, each event in words, and runs as bars over their turns.

    python3 python/pifnjarl_page.py IMAGE COMMANDS -o PAGE [--replies REPLIES]

IMAGE is as it was before the commands, and stays so: they are done on a copy, with a report of all zones after each event. REPLIES is
what `zscli exec` printed for them; if the copy replies otherwise, no page is made. Words are those of `zscli explain`. The page needs
no network and no server: a browser opens the file. `PAGE#7` opens it after event 7.
"""

from __future__ import annotations

import argparse
import json
import shutil
import subprocess
import sys
import tempfile
from pathlib import Path
from typing import Dict, List, NamedTuple, Optional, Set, Tuple

sys.path.insert(0, str(Path(__file__).resolve().parent))
import pifnjarl
import pifnjarl_drawing as drawing
from pifnjarl_drawing import Event, Run, Story, ZoneNow

_SEND, _RECEIVE = 0x79, 0x7A
_DESCRIPTORS = pifnjarl.MOST_TRANSFER // 64 - 1
# so many zones in all reports take some 400 MB
_MOST = 1000000


class PageError(Exception):
    """No page can be made, and why."""


class Line(NamedTuple):
    """A line of a command file that has an event."""

    number: int
    words: List[str]

    @property
    def finishes(self) -> bool:
        """Is it an action on zones? One that makes a zone Full writes no block."""
        return self.words[0] == "submit" and int(self.words[2][:2], 16) == _SEND


def lines_of(text: str) -> List[Line]:
    """The events of a command file.

    >>> lines_of("; a comment\\n\\nturn 0 ; the first\\n")
    [Line(number=3, words=['turn', '0'])]
    """
    worded = ((number, line.partition(";")[0].split()) for number, line in enumerate(text.splitlines(), 1))
    return [Line(number, words) for number, words in worded if words]


def zscli(*words: str) -> str:
    """What a command of `zscli` prints."""
    ran = subprocess.run([pifnjarl.zscli(), *words], capture_output=True, text=True, check=False)
    if ran.returncode != 0:
        raise PageError(ran.stderr.strip() or f"zscli {words[0]} ended with {ran.returncode}")
    return ran.stdout


def with_turns(lines: List[Line], replies: List[str]) -> List[Line]:
    """The events, and the turns that `exec` gives after the last: each to the lowest run that is active then.

    >>> run = Line(1, ["submit", "1", "c0" + 126 * "0"])
    >>> [line.words for line in with_turns([run], ["pending 0", "pending 0", "cpl 1 00"])[1:]]
    [['turn', '0'], ['turn', '0']]
    """
    active: Set[str] = set()
    done = list(lines)
    for number, reply in enumerate(replies):
        if number == len(done):
            done.append(Line(0, ["turn", min(active)]))
        kind, _, run = reply.partition(" ")
        if kind == "pending":
            active.add(run)
        elif kind == "cpl" and done[number].words[0] == "turn":
            active.discard(done[number].words[1])
    return done


def reports(zones: int, size: int, queue: int) -> List[str]:
    """The lines of a command file that report all zones, each as many as there is room for."""
    made = []
    for first in range(0, zones, _DESCRIPTORS):
        count = min(_DESCRIPTORS, zones - first)
        entry = bytearray(64)
        entry[0], entry[4] = _RECEIVE, 1
        entry[40:48] = (first * size).to_bytes(8, "little")
        entry[48:52] = ((count + 1) * 16 - 1).to_bytes(4, "little")
        made.append(f"submit {queue} {entry.hex()}")
    return made


def zones_of(replies: List[str], before: List[ZoneNow], finished: bool) -> List[ZoneNow]:
    """The zones of these reports. A zone without a write pointer is written as far as before, but for one that was filled just now."""
    found: List[ZoneNow] = []
    for reply in replies:
        report = bytes.fromhex(reply.split()[3])
        for at in range(64, len(report), 64):
            code, capacity = report[at + 1] >> 4, int.from_bytes(report[at + 8 : at + 16], "little")
            start, pointer = (int.from_bytes(report[at + place : at + place + 8], "little") for place in (16, 24))
            state = drawing.STATES[code]
            written = before[len(found)].written
            if pointer < 1 << 63:
                written = pointer - start
            elif state == "offline":
                written = 0
            elif state == "full" and before[len(found)].state != "full" and not finished:
                written = capacity
            found.append(ZoneNow(state, written))
    return found


def replayed(image: Path, lines: List[Line], geometry: Dict[str, int]) -> Tuple[List[str], List[List[ZoneNow]], List[ZoneNow]]:
    """What a copy of the image replies to events, the zones after each, and those of the image that is saved."""
    taken = {int(line.words[1]) for line in lines if line.words[0] == "submit"}
    asked = reports(geometry["zone_count"], geometry["zone_size"], max(set(range(65536)) - taken))
    with tempfile.TemporaryDirectory() as folder:
        copy, commands = Path(folder) / "copy.img", Path(folder) / "commands"
        shutil.copy(image, copy)
        before = reported(copy)
        commands.write_text("".join(f"{text}\n" for line in lines for text in [" ".join(line.words), *asked]))
        printed = zscli("exec", str(copy), str(commands)).splitlines()
        after = reported(copy)
    step = 1 + len(asked)
    zones = [before]
    for at, line in zip(range(0, step * len(lines), step), lines):
        zones.append(zones_of(printed[at + 1 : at + step], zones[-1], line.finishes))
    return printed[: step * len(lines) : step] + printed[step * len(lines) :], zones, after


def reported(image: Path) -> List[ZoneNow]:
    """The zones of an image, as `zscli report --json` has them."""
    return [ZoneNow(zone["state"], zone["written"]) for zone in json.loads(zscli("report", str(image), "--json"))["zones"]]


def explained(replies: List[str], commands: Path) -> Tuple[List[Dict[str, object]], List[str]]:
    """What `zscli explain` says of each reply: as an object, and in words."""
    with tempfile.TemporaryDirectory() as folder:
        file = Path(folder) / "replies"
        file.write_text("".join(f"{reply}\n" for reply in replies))
        objects = zscli("explain", str(file), "--commands", str(commands), "--json").splitlines()
        words: List[str] = []
        for line in zscli("explain", str(file), "--commands", str(commands)).splitlines():
            # (a zone of a report is on a line of its own, which is indented)
            if line.startswith("  "):
                words[-1] += f"\n{line}"
            else:
                words.append(line)
    return [json.loads(line) for line in objects], words


def events_of(lines: List[Line], told: List[Dict[str, object]], words: List[str]) -> Tuple[List[Event], List[Run]]:
    """The events in words, and the runs with the events that admitted them and gave them turns."""
    events: List[Event] = []
    runs: List[Run] = []
    active: Dict[str, Run] = {}
    for number, (line, reply, text) in enumerate(zip(lines, told, words), 1):
        kind, run = line.words[0], line.words[1]
        if kind == "submit" and reply["reply"] == "pending":
            active[str(reply["run"])] = Run(int(str(reply["run"])), number, [], "", "")
            runs.append(active[str(reply["run"])])
        elif kind == "turn" and run in active:
            active[run].turns.append(number)
            if reply["reply"] == "completion":
                front, _, result = text.rpartition(": ")
                active[run].name, active[run].result = front, result
                del active[run]
            else:
                text = f"turn of run {run}, which has turns left"
        elif kind == "turn":
            text = f"turn of run {run}, which is not active"
        elif kind == "fault":
            text = f"zone {run} becomes {line.words[2]}" if reply["reply"] == "done" else f"fault of zone {run}: {text}"
        refused = reply["reply"] == "refused" or reply.get("refused") is True
        events.append(Event(line.number, kind, text, refused))
    for found in runs:
        name = found.name or "a run that goes on"
        events[found.admitted - 1] = events[found.admitted - 1]._replace(words=f"{name}: admitted as run {found.number}")
        if found.name:
            last = found.turns[-1] - 1
            events[last] = events[last]._replace(words=f"last turn of run {found.number}: {events[last].words}")
    return events, runs


def story(image: Path, commands: Path, replies: Optional[Path] = None) -> Story:
    """What happens to an image by a command file."""
    geometry = json.loads(zscli("report", str(image), "--json"))
    lines = lines_of(commands.read_text())
    with tempfile.TemporaryDirectory() as folder:
        copy = Path(folder) / "copy.img"
        shutil.copy(image, copy)
        plain = zscli("exec", str(copy), str(commands)).splitlines()
    if replies is not None and replies.read_text().splitlines() != plain:
        raise PageError(f"{replies}: other replies than {image} gives to {commands}; is it as it was before them?")
    lines = with_turns(lines, plain)
    if len(lines) * geometry["zone_count"] > _MOST:
        raise PageError(f"{len(lines)} events with reports of {geometry['zone_count']} zones are more than {_MOST} zones")
    again, zones, after = replayed(image, lines, geometry)
    if again != plain or zones[-1] != after:
        raise PageError("the commands don't give the same with reports between them")
    events, runs = events_of(lines, *explained(plain, commands))
    return Story(f"{commands.name} on {image.name}", geometry, events, runs, zones)


def main() -> int:
    """Makes the page."""
    parser = argparse.ArgumentParser(description=(__doc__ or "").partition("\n")[0])
    parser.add_argument("image", type=Path, help="an image, as it was before the commands; it stays as it is")
    parser.add_argument("commands", type=Path, help="the command file")
    parser.add_argument("-o", "--output", type=Path, required=True, metavar="PAGE", help="the page that is written")
    parser.add_argument("--replies", type=Path, help="what `zscli exec` printed: it has to be what the image gives")
    words = parser.parse_args()
    if words.output.exists() and any(words.output.samefile(it) for it in (words.image, words.commands) if it.exists()):
        parser.error(f"{words.output} is what the page is made of")
    try:
        words.output.write_text(drawing.page(story(words.image, words.commands, words.replies)), encoding="utf-8")
    except (PageError, pifnjarl.DeviceError, OSError, UnicodeDecodeError) as error:
        print(error, file=sys.stderr)
        return 1
    return 0


if __name__ == "__main__":
    sys.exit(main())
