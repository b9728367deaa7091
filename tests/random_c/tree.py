"""A C file as a tree of parts, from which parts can be left out."""

from __future__ import annotations

from dataclasses import dataclass, field
from typing import Iterator, List, Tuple


@dataclass
class Part:
    """A statement or a declaration: a line, or lines, and where it has a body that body and its end."""

    head: str
    body: List[Part] = field(default_factory=list)
    tail: str = ""

    def lines(self, depth: int = 0) -> Iterator[str]:
        """The lines of text."""
        for line in self.head.splitlines():
            yield "    " * depth + line
        for part in self.body:
            yield from part.lines(depth + 1)
        if self.tail:
            yield "    " * depth + self.tail


def text(parts: List[Part]) -> str:
    """The text of parts.

    >>> print(text([Part("if (x) {", [Part("y++;")], "}")]), end="")
    if (x) {
        y++;
    }
    """
    return "".join(line + "\n" for part in parts for line in part.lines())


Place = Tuple[int, ...]
"""Where a part is: its index, or those of the parts that it is in, and then its own."""


def places(parts: List[Part]) -> List[Place]:
    """The places of all parts, the later ones first, and each before those in it.

    >>> places([Part("{", [Part("a;"), Part("b;")], "}"), Part("c;")])
    [(1,), (0,), (0, 1), (0, 0)]
    """
    found: List[Place] = []
    for index in reversed(range(len(parts))):
        found.append((index,))
        found += [(index, *inner) for inner in places(parts[index].body)]
    return found


def replaced(parts: List[Part], place: Place, by: List[Part]) -> List[Part]:
    """Parts with others in place of one.

    >>> print(text(replaced([Part("{", [Part("a;"), Part("b;")], "}")], (0, 1), [])), end="")
    {
        a;
    }
    """
    index, *inner = place
    part = parts[index]
    if inner:
        by = [Part(part.head, replaced(part.body, tuple(inner), by), part.tail)]
    return [*parts[:index], *by, *parts[index + 1 :]]


def part_at(parts: List[Part], place: Place) -> Part:
    """The part at a place.

    >>> part_at([Part("{", [Part("a;")], "}")], (0, 0)).head
    'a;'
    """
    for index in place[:-1]:
        parts = parts[index].body
    return parts[place[-1]]


def _groups(line: str) -> List[Tuple[int, int]]:
    """Where the balanced brackets of a line begin and end, the longest first.

    >>> _groups("f((a), b)")
    [(1, 9), (2, 5)]
    """
    found, open_at = [], []
    for at, letter in enumerate(line):
        if letter == "(":
            open_at.append(at)
        elif letter == ")" and open_at:
            found.append((open_at.pop(), at + 1))
    return sorted(found, key=lambda it: it[0] - it[1])


def simpler(line: str) -> Iterator[str]:
    """Lines like this one with something simpler in the place of what stands in brackets.

    >>> list(simpler("x += (a + 1);"))
    ['x += 1;', 'x += a;']
    """
    for begin, end in _groups(line):
        inner = line[begin + 1 : end - 1]
        for by in dict.fromkeys(["1", *_operands(inner)]):
            if by != line[begin:end]:
                yield line[:begin] + by + line[end:]


def _operands(inner: str) -> List[str]:
    """The first and the last operand of what stands in brackets.

    >>> _operands("a[1] + (b & 3)")
    ['a[1]', '(b & 3)']
    """
    depth, words, word = 0, [], ""
    for letter in inner + " ":
        depth += (letter in "([") - (letter in ")]")
        if letter == " " and not depth:
            words.append(word)
            word = ""
        else:
            word += letter
    return [words[0], words[-1]] if len(words) >= 3 else []
