"""Draws what happened to zones as one HTML page, with plain SVG and a script inside: it needs no network."""

from __future__ import annotations

import html
import json
from pathlib import Path
from typing import Dict, List, NamedTuple, Sequence, Tuple

STATES = {
    0x1: "empty",
    0x2: "implicit",
    0x3: "explicit",
    0x4: "closed",
    0xD: "readonly",
    0xE: "full",
    0xF: "offline",
}
"""The words of `zscli zones` for states, by their numbers in a report."""


class Look(NamedTuple):
    """How a state is shown: its letter, its name, and the colours of what is written and of what is not."""

    letter: str
    name: str
    written: str
    room: str


LOOKS = {
    "empty": Look("E", "Empty", "#8a8f98", "#f1f3f5"),
    "implicit": Look("I", "Implicitly Opened", "#56b4e9", "#dff1fb"),
    "explicit": Look("O", "Explicitly Opened", "#0072b2", "#c9e0ef"),
    "closed": Look("C", "Closed", "#e69f00", "#fbeccb"),
    "full": Look("F", "Full", "#009e73", "#c6eadf"),
    "readonly": Look("R", "Read Only", "#cc79a7", "#f4dfea"),
    "offline": Look("X", "Offline", "#444444", "#9a9a9a"),
}


class ZoneNow(NamedTuple):
    """A zone's state, in a word, and how many of its blocks are written."""

    state: str
    written: int


class Event(NamedTuple):
    """An event: its line in the command file (0 of a turn after the last), its kind, what came of it in words, and whether it was
    refused."""

    line: int
    kind: str
    words: str
    refused: bool


class Run:
    """A run: its number, the event that admitted it, those that gave it turns, its command in words, and what it came to."""

    def __init__(self, number: int, admitted: int, turns: List[int], name: str, result: str) -> None:
        self.number, self.admitted, self.turns, self.name, self.result = number, admitted, turns, name, result


class Story(NamedTuple):
    """What is drawn: events from 1 on, and the zones before them and after each."""

    title: str
    geometry: Dict[str, int]
    events: List[Event]
    runs: List[Run]
    zones: List[List[ZoneNow]]


LEFT, LANE, GAP, TOP, BAR = 84, 30, 6, 34, 38
_SHOWN_LANES = 24


class Drawing:
    """The picture of a story over its events: a lane for each zone, and a bar for each run."""

    def __init__(self, story: Story) -> None:
        self.story = story
        self.columns = len(story.events) + 1
        self.step = max(9.0, min(44.0, round(740 / self.columns, 1)))
        self.parts: List[str] = []
        self.lanes = self.lanes_of()
        below = TOP + len(self.lanes) * (LANE + GAP)
        self.runs_top = below + 10
        self.height = self.runs_top + len(story.runs) * BAR + 6

    def lanes_of(self) -> List[int]:
        """The zones that have a lane: all, or of many those that change."""
        numbers = range(len(self.story.zones[0]))
        if len(numbers) <= _SHOWN_LANES:
            return list(numbers)
        return [number for number in numbers if any(zones[number] != self.story.zones[0][number] for zones in self.story.zones)]

    def x(self, column: float) -> float:
        """Where the time after so many events begins."""
        return round(LEFT + column * self.step, 1)

    def text(self, x: float, y: float, words: str, style: str = "") -> None:
        """Adds words."""
        self.parts.append(f'<text x="{x}" y="{y}"{style}>{html.escape(words)}</text>')

    def rect(self, x: float, y: float, width: float, height: float, fill: str, more: str = "", title: str = "") -> None:
        """Adds a box."""
        inner = f"<title>{html.escape(title)}</title>" if title else ""
        self.parts.append(
            f'<rect x="{x}" y="{y}" width="{round(width, 1)}" height="{round(height, 1)}" fill="{fill}"{more}>{inner}</rect>'
        )

    def axis(self) -> None:
        """The numbers of the events, and a mark on each: a cross where it was refused."""
        every = next(count for count in (1, 2, 5, 10, 20, 50, 100, 200, 500, 1000, 10**9) if count * self.step >= 22)
        self.text(8, 14, "after event")
        for number in range(0, self.columns, every):
            self.text(self.x(number + 0.5), 14, str(number), ' class="tick"')
        for number, event in enumerate(self.story.events, 1):
            sign = "×" if event.refused else {"submit": "•", "turn": "|", "fault": "▲"}[event.kind]
            style = ' class="mark refused"' if event.refused else ' class="mark"'
            self.parts.append(
                f'<text x="{self.x(number + 0.5)}" y="28"{style}>{sign}<title>{number}: {html.escape(event.words)}</title></text>'
            )

    def lane(self, row: int, zone: int) -> None:
        """A zone over time: its state by colour and letter, and what is written as the height of the darker part."""
        top, capacity = TOP + row * (LANE + GAP), self.story.geometry["zone_capacity"]
        start = zone * self.story.geometry["zone_size"]
        self.text(8, top + 13, f"zone {zone}", ' class="name"')
        self.text(8, top + 26, f"LBA {start}", ' class="dim"')
        over = [zones[zone] for zones in self.story.zones]
        for first, last in stretches(over):
            look, written = LOOKS[over[first].state], over[first].written
            x, width = self.x(first), (last - first) * self.step
            title = f"zone {zone}, {look.name}, {written} of {capacity} blocks written, {after(first, last)}"
            self.rect(x, top, width, LANE, look.room, title=title)
            height = LANE * written / capacity
            self.rect(x, top + LANE - height, width, height, look.written, ' class="written"')
        for first, last in stretches([now.state for now in over]):
            if (last - first) * self.step >= 9:
                self.text(self.x(first) + 3, top + 12, LOOKS[over[first].state].letter, ' class="letter"')

    def run(self, row: int, run: Run) -> None:
        """A run: a bar from the event that admitted it to its last turn, with a tick for each turn, below what it does."""
        top = self.runs_top + row * BAR
        self.text(8, top + 28, f"run {run.number}", ' class="name"')
        last = run.turns[-1] if run.turns else len(self.story.events)
        x, end = self.x(run.admitted), self.x(last + 1)
        title = f"{run.name}: {run.result}; admitted by event {run.admitted}, {count(len(run.turns), 'turn')}"
        # (words that begin far to the right would leave the picture)
        front = max(LEFT, min(x, self.x(self.columns) - 6.2 * len(f"{run.name}: {run.result}")))
        self.text(round(front, 1), top + 12, f"{run.name}: {run.result}", ' class="dim"')
        self.rect(x, top + 17, end - x, 15, "#d9c7ef", ' rx="3" class="run"', title)
        for turn in run.turns:
            self.rect(round(self.x(turn) + self.step / 2 - 1.5, 1), top + 17, 3, 15, "#6a3fa0", ' class="turn"')

    def svg(self) -> str:
        """The picture."""
        self.axis()
        for row, zone in enumerate(self.lanes):
            self.lane(row, zone)
        for row, run in enumerate(self.story.runs):
            self.run(row, run)
        width = self.x(self.columns) + 8
        return (
            f'<svg id="picture" width="{width}" height="{self.height}" viewBox="0 0 {width} {self.height}" '
            f'data-left="{LEFT}" data-step="{self.step}" role="img" aria-label="zones and runs over the events">'
            f'{"".join(self.parts)}<rect id="cursor" x="{LEFT}" y="3" width="{self.step}" height="{self.height - 5}" rx="3"/></svg>'
        )


def stretches(items: Sequence[object]) -> List[Tuple[int, int]]:
    """The stretches of equal items, each from its first to after its last.

    >>> stretches(["a", "a", "b"])
    [(0, 2), (2, 3)]
    """
    starts = [at for at in range(len(items)) if at == 0 or items[at] != items[at - 1]]
    return list(zip(starts, [*starts[1:], len(items)]))


def after(first: int, last: int) -> str:
    """When a stretch of columns is.

    >>> after(0, 1), after(3, 6)
    ('before event 1', 'after events 3 to 5')
    """
    if last - first == 1:
        return "before event 1" if first == 0 else f"after event {first}"
    return f"after events {first} to {last - 1}"


def count(number: int, noun: str) -> str:
    """So many of these.

    >>> count(1, "turn"), count(2, "turn")
    ('1 turn', '2 turns')
    """
    return f"{number} {noun}" if number == 1 else f"{number} {noun}s"


def legend() -> str:
    """What the colours and letters say, and the marks."""
    states = "".join(
        f'<span class="key"><i style="background:linear-gradient({look.room} 40%, {look.written} 40%)">{look.letter}</i>{look.name}</span>'
        for look in LOOKS.values()
    )
    marks = "".join(
        f'<span class="key"><b{style}>{sign}</b>{words}</span>'
        for sign, style, words in (
            ("•", "", "command"),
            ("|", "", "turn"),
            ("▲", "", "fault"),
            ("×", ' class="refused"', "refused"),
        )
    )
    bar = '<span class="key"><i class="bar"></i>a run, with a tick for each turn</span>'
    return f'<p class="legend">{states}</p><p class="legend">{marks}{bar}<span class="key">dark height: written blocks</span></p>'


def boxes(story: Story) -> str:
    """A box for each zone, which the script fills with its state at the slider's time."""
    return "".join(
        f'<div class="zone" id="zone-{number}"><span class="fill"></span><b></b>'
        f'<span class="what">zone {number}<br><em></em></span></div>'
        for number in range(len(story.zones[0]))
    )


def listed(story: Story) -> str:
    """The events, each in words."""
    items = []
    for number, event in enumerate(story.events, 1):
        line = f"line {event.line}" if event.line else "after the last line"
        refused = " refused" if event.refused else ""
        items.append(
            f'<li id="event-{number}" class="event{refused}" value="{number}"><small>{line}</small> {html.escape(event.words)}</li>'
        )
    return "".join(items)


def changes(story: Story) -> List[List[Tuple[int, str, int]]]:
    """The zones at first, and those that each event changes: number, state, blocks written."""
    made = [[(number, *now) for number, now in enumerate(story.zones[0])]]
    for before, now in zip(story.zones, story.zones[1:]):
        made.append([(number, *zone) for number, zone in enumerate(now) if zone != before[number]])
    return made


def page(story: Story) -> str:
    """The page."""
    shape = story.geometry
    about = (
        f"{count(shape['zone_count'], 'zone')} of {count(shape['zone_size'], 'block')} of {shape['block_bytes']} bytes, "
        f"{shape['zone_capacity']} of which can be written; at most {shape['open_limit']} open and {shape['active_limit']} active. "
        f"{count(len(story.events), 'event')}, {count(sum(event.refused for event in story.events), 'refusal')}."
    )
    data = json.dumps({"changes": changes(story), "capacity": shape["zone_capacity"], "looks": {**LOOKS}}, separators=(",", ":"))
    drawing = Drawing(story)
    left_out = len(story.zones[0]) - len(drawing.lanes)
    note = f'<p class="dim">{count(left_out, "zone")} without a lane: no event changes them.</p>' if left_out else ""
    parts = {
        "TITLE": html.escape(story.title),
        "ABOUT": about,
        "PICTURE": drawing.svg() + note,
        "LEGEND": legend(),
        "LAST": str(len(story.events)),
        "ZONES": boxes(story),
        "EVENTS": listed(story),
        # (a `<` in data could end the script)
        "DATA": data.replace("<", "\\u003c"),
    }
    text = Path(__file__).with_name("pifnjarl_page.html").read_text(encoding="utf-8")
    for name, part in parts.items():
        text = text.replace(f"@{name}@", part)
    return text
