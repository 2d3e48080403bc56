"""Rounds what lies on a track to whole metres by one function that rises."""
from __future__ import annotations

from bisect import bisect_left
from collections.abc import Iterable
from math import floor

# Places are averaged in whole millionths of a metre, so that no sum is inexact.
MILLIONTHS = 1_000_000


def nearest(metres: float) -> int:
    """The nearest whole metre, the greater of two."""
    return floor(metres + 0.5)


def spread(places: list[float]) -> list[int]:
    """Whole metres for ascending places that begin with 0, no two equal: 0 first, and each next at
    least one more.

    Before rounding it is the row with the least sum of squared moves: what lies closer than a
    metre is moved apart as a group, to both sides of its middle. Where all lie a metre apart or
    more, each goes to its nearest metre.
    """
    # Less its number in the row, each place must not fall: a row that falls is pooled to its
    # average.
    pools: list[tuple[int, int]] = []
    for number, place in enumerate(places):
        total, count = round(place * MILLIONTHS) - number * MILLIONTHS, 1
        while pools and pools[-1][0] * count >= total * pools[-1][1]:
            total, count = total + pools[-1][0], count + pools[-1][1]
            pools.pop()
        pools.append((total, count))
    made: list[int] = []
    for total, count in pools:
        level = max(0, (2 * total + count * MILLIONTHS) // (2 * count * MILLIONTHS))
        made.extend(level + number for number in range(len(made), len(made) + count))
    return made


class Ruler:
    """Where the places of one track come to lie in whole metres.

    The function never falls, and rises by a metre at least from mark to mark: marks are the two
    ends of the track, and what must stay apart.
    """

    def __init__(self, length: float, marks: Iterable[float]) -> None:
        self.marks = sorted({0.0, length, *(mark for mark in marks if 0 < mark < length)})
        self.metres = spread(self.marks)

    @property
    def length(self) -> int:
        return self.metres[-1]

    def at(self, place: float) -> int:
        """The whole metre of a place on the track; of a place beyond an end, that end."""
        after = bisect_left(self.marks, place)
        if after == len(self.marks):
            return self.metres[-1]
        if after == 0 or self.marks[after] == place:
            return self.metres[after]
        return min(max(nearest(place), self.metres[after - 1]), self.metres[after])

    def span(self, begin: float, end: float) -> tuple[int, int]:
        """The whole metres of a stretch with a length: at least one, and none behind a mark that
        it does not reach.
        """
        low, high = self.at(begin), self.at(end)
        if low < high:
            return low, high
        after = min(max(1, bisect_left(self.marks, end)), len(self.marks) - 1)
        return (low, low + 1) if low < self.metres[after] else (low - 1, low)
