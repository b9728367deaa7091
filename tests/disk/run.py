#!/usr/bin/env python3
"""Crashes of programs that keep a device in a file, over a disk that is known: tests/disk/run.py [--points N] [--seed S] [NAME ..]

For each program that is named, or all, so many points are tried: after some call of it power fails, and what the disk may have then is
opened by the program again. It has to have all that was acknowledged, and at most the batch that was under way. Where it hasn't, the
point is printed with the call, what was done to the programs before, and the words that try it again. The last line is
'N passed, M failed'.

The variables of programs.py name the programs; tests/disk/test.sh makes them, and runs this too.
"""

from __future__ import annotations

import argparse
import os
import sys
from collections import defaultdict
from concurrent.futures import ThreadPoolExecutor
from pathlib import Path
from typing import Callable, Dict, Iterable, List, NamedTuple, Tuple

sys.path.insert(0, str(Path(__file__).resolve().parent))
from disk import Chance, Disk
from programs import KeptFrames, OverTcp, Piped
from stories import Contents, Lost, Story, executed, failing, folded, formatted, kept, saved

POINTS_OF_A_STORY = 40
"""How many points are tried of one story."""

BEFORE = "before any of the points, in story"
"""What is printed where a story itself goes wrong."""

Maker = Callable[[object, str], Story]
"""What makes a story, from a seed and the kind of the syncs that aren't made."""

STORIES: Dict[str, Maker] = {
    "serve": lambda seed, skip="": kept(Piped(), seed, skip),
    "kept_frames": lambda seed, skip="": kept(KeptFrames(), seed, skip),
    "nvme_tcp": lambda seed, skip="": kept(OverTcp(), seed, skip),
    "serve_failing": lambda seed, skip="": failing(Piped(), seed, skip),
    "kept_frames_failing": lambda seed, skip="": failing(KeptFrames(), seed, skip),
    "nvme_tcp_failing": lambda seed, skip="": failing(OverTcp(), seed, skip),
    "fold": folded,
    "format": formatted,
    "exec": executed,
    "saves": saved,
}
"""What is tried, by its name."""

class Point(NamedTuple):
    """A point of a story: its number, the stretch and the call after which power fails, and what the disk has then."""

    number: int
    stretch: int
    call: int
    contents: Contents


REACH = {"payload": 1, "gate": 4, "new": 3, "folder": 40, "name": 40}
"""How many calls after a sync of a kind that is skipped may show that: the points of a story without it are there."""


def _places(story: Story, skip: str) -> List[Tuple[int, int]]:
    """Where points may be: the stretches and calls of a story."""
    found = []
    for number, stretch in enumerate(story.stretches):
        last = -1 if skip else len(stretch.steps)
        for call, step in enumerate(stretch.steps):
            last = call + REACH[skip] if step.call.is_skipped else last
            if call <= last:
                found.append((number, call))
    return found


def points(story: Story, seed: object, numbers: Iterable[int], skip: str = "") -> List[Point]:
    """The points of these numbers; none where syncs of a kind are to be skipped and there are none."""
    chances = {number: Chance((seed, "point", number)) for number in numbers}
    places: Dict[Tuple[int, int], List[int]] = defaultdict(list)
    all_places = _places(story, skip)
    for number, chance in chances.items():
        if all_places:
            places[chance.choice(all_places)].append(number)
    found = []
    for at, stretch in enumerate(story.stretches):
        disk = Disk(stretch.contents)
        for call, step in enumerate(stretch.steps):
            disk.take(step.call)
            found += [Point(number, at, call, disk.crash(chances[number])) for number in places[at, call]]
    return found


def tried(name: str, seed: int, numbers: List[int], skip: str = "") -> List[str]:
    """What is wrong at the points of these numbers, all of one story."""
    which = numbers[0] // POINTS_OF_A_STORY
    try:
        story = STORIES[name]((seed, which), skip)
    except Lost as error:
        return [f"{name}, seed {seed}, {BEFORE} {which}: {error}"] * len(numbers)
    wrong = []
    for point in points(story, (seed, name), numbers, skip):
        stretch = story.stretches[point.stretch]
        step = stretch.steps[point.call]
        words = story.judge(point.contents, step.allowed)
        if words:
            wrong.append(
                f"{name}, seed {seed}, point {point.number} ({stretch.words}after call {point.call}, {step.call}): {words}\n"
                f"    again: tests/disk/test.sh --seed {seed} --point {point.number} {name}"
            )
    return wrong


def all_tried(name: str, seed: int, count: int, workers: ThreadPoolExecutor) -> Callable[[], List[str]]:
    """Begins to try so many points; what is given waits for what is wrong with them."""
    stories = [list(range(at, min(at + POINTS_OF_A_STORY, count))) for at in range(0, count, POINTS_OF_A_STORY)]
    waiting = [workers.submit(tried, name, seed, numbers) for numbers in stories]
    return lambda: [words for it in waiting for words in it.result()]


def main() -> int:
    """Tries the points that the command line asks for."""
    parser = argparse.ArgumentParser(description=(__doc__ or "").partition("\n\n")[0])
    parser.add_argument("--points", type=int, default=200, metavar="N", help="how many points of each program")
    parser.add_argument("--seed", type=int, default=1, metavar="S", help="what all is drawn from")
    parser.add_argument("--point", type=int, metavar="N", help="this point alone")
    parser.add_argument("names", nargs="*", metavar="NAME", help=f"of {', '.join(STORIES)}")
    words = parser.parse_args()
    unknown = [name for name in words.names if name not in STORIES]
    if unknown:
        parser.error(f"nothing is called {unknown[0]}")
    print(f"seed {words.seed}", flush=True)
    names = words.names or list(STORIES)
    if words.point is not None:
        wrong = {name: tried(name, words.seed, [words.point]) for name in names}
        count = 1
    else:
        with ThreadPoolExecutor(os.cpu_count()) as workers:
            begun = {name: all_tried(name, words.seed, words.points, workers) for name in names}
            wrong = {name: ended() for name, ended in begun.items()}
        count = words.points
    for name, lines in wrong.items():
        print("\n".join([f"{name}: {count - len(lines)} points passed, {len(lines)} failed", *lines]))
    failed = sum(map(len, wrong.values()))
    print(f"{count * len(names) - failed} passed, {failed} failed")
    return 1 if failed else 0


if __name__ == "__main__":
    sys.exit(main())
