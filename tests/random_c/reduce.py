"""Makes programs smaller that come to the same."""

from __future__ import annotations

from typing import Callable, List

from generate import Drawn
from interpret import Parameters
from tree import Part, part_at, places, replaced, simpler, text


class Reducer:
    """Makes a program smaller, of which `is_same` says whether it still comes to the same, with at most so many tries."""

    def __init__(self, made: Drawn, is_same: Callable[[Drawn], bool], tries: int) -> None:
        self._made = made
        self._asked = is_same
        self._left = tries

    def _is_same(self, parts: List[Part], parameters: Parameters) -> bool:
        """Does a program come to the same?"""
        if self._left <= 0:
            return False
        self._left -= 1
        return self._asked(self._made._replace(parts=parts, parameters=parameters))

    def reduced(self) -> Drawn:
        """A smaller program, of which nothing more could be left out, or for which all tries were made."""
        parts, parameters = self._made.parts, self._blocks(self._made.parts, self._made.parameters)
        before = ""
        while before != text(parts) and self._left > 0:
            before = text(parts)
            parts = self._without_parts(parts, parameters)
            parts = self._simpler(parts, parameters)
        return self._made._replace(parts=parts, parameters=self._blocks(parts, parameters))

    def _blocks(self, parts: List[Part], parameters: Parameters) -> Parameters:
        """One block, or a few less, that do."""
        for block in parameters.blocks if len(parameters.blocks) > 1 else []:
            one = Parameters([block], parameters.argument, 0)
            if self._is_same(parts, one):
                return one
        return parameters

    def _without_parts(self, parts: List[Part], parameters: Parameters) -> List[Part]:
        """Leaves parts out, or puts what is in them in their place."""
        at = 0
        while at < len(places(parts)):
            place = places(parts)[at]
            part, fewer = part_at(parts, place), None
            for by in ([], part.body) if part.body else ([],):
                other = replaced(parts, place, by)
                if self._is_same(other, parameters):
                    fewer = other
                    break
            parts, at = (fewer, at) if fewer is not None else (parts, at + 1)
        return parts

    def _simpler(self, parts: List[Part], parameters: Parameters) -> List[Part]:
        """Puts simpler expressions in the place of others."""
        for place in places(parts):
            tries = simpler(part_at(parts, place).head)
            for line in tries:
                part = part_at(parts, place)
                other = replaced(parts, place, [Part(line, part.body, part.tail)])
                if self._is_same(other, parameters):
                    parts = other
                    break
        return parts
