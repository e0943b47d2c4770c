"""Numbers that a history gave one after the other, of which its base lacks those of what was purged."""

from __future__ import annotations

from array import array
from bisect import bisect_left, bisect_right
from collections.abc import Iterable


class Numbers:
    """Each number has a place, by rising number from 1 on. One that the base lacks has none, so that it takes no room."""

    def __init__(self) -> None:
        self._kept = array("Q")
        self._based = 0

    def begin(self, kept: Iterable[int], last: int) -> None:
        """Begins with the numbers that a base has, by rising number. The last one that was given may be greater."""
        self._kept, self._based = array("Q", kept), last

    def place(self, number: int) -> int:
        """The place of a number: 0 if the base lacks it. A number that comes later has its place already."""
        if number > self._based:
            return number - self._based + len(self._kept)
        place = bisect_left(self._kept, number)
        return place + 1 if place < len(self._kept) and self._kept[place] == number else 0

    def number(self, place: int) -> int:
        """The number at a place. At 0 there is none, and so it is 0."""
        if place > len(self._kept):
            return self._based + place - len(self._kept)
        return self._kept[place - 1] if place else 0

    def count_until(self, number: int) -> int:
        """How many places there are for numbers up to this one."""
        if number > self._based:
            return number - self._based + len(self._kept)
        return bisect_right(self._kept, number)

    def last(self, count: int) -> int:
        """The last number that was given, if so many places are taken."""
        return self._based + count - len(self._kept)
