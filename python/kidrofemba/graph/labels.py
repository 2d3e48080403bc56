"""Labels of a picture: how wide a text is, and where it may stand so that it lies over no other
one, over few lines, and within the picture."""
from __future__ import annotations

from collections.abc import Iterable, Iterator, Sequence
from dataclasses import dataclass
from math import ceil, floor, hypot

TEXT = 11
CELL = 6
# The widths of the characters from blank to tilde in DejaVu Sans, in hundredths of its size.
WIDTHS = (
    32, 40, 46, 84, 64, 95, 78, 27, 39, 39, 50, 84, 32, 36, 32, 34, 64, 64, 64, 64, 64, 64, 64, 64,
    64, 64, 34, 34, 84, 84, 84, 53, 100, 68, 69, 70, 77, 63, 58, 77, 75, 29, 29, 66, 56, 86, 75, 79,
    60, 79, 69, 63, 61, 73, 68, 99, 69, 61, 69, 39, 34, 39, 84, 50, 50, 61, 63, 55, 63, 62, 35, 63,
    63, 28, 28, 58, 28, 97, 63, 61, 63, 63, 41, 52, 39, 63, 59, 82, 59, 59, 52, 64, 34, 64, 84)


def text_width(text: str, size: float = TEXT, bold: bool = False) -> float:
    """How wide a text is at most, in DejaVu Sans or a type that is not wider."""
    wide = sum(WIDTHS[ord(one) - 32] if " " <= one <= "~" else 75 if one < "\u0250" else 110
               for one in text)
    return wide * size * (1.18 if bold else 1.03) / 100


def shortened(text: str, room: float, size: float = TEXT, bold: bool = False) -> str:
    """A text, or its beginning with three dots where it is wider than the room."""
    if text_width(text, size, bold) <= room:
        return text
    kept = text
    while kept and text_width(kept + "…", size, bold) > room:
        kept = kept[:-1]
    return kept.rstrip() + "…"


@dataclass(frozen=True)
class Box:
    """A rectangle of the picture."""

    left: float
    top: float
    right: float
    bottom: float

    def is_within(self, other: Box) -> bool:
        return (self.left >= other.left and self.right <= other.right
                and self.top >= other.top and self.bottom <= other.bottom)


def box_of_text(x: float, baseline: float, width: float, anchor: str, size: float = TEXT) -> Box:
    """The rectangle that a text takes."""
    left = x - width * {"start": 0, "middle": 0.5, "end": 1}[anchor]
    return Box(left, baseline - 0.95 * size, left + width, baseline + 0.3 * size)


def spread(wanted: Sequence[float], least: float, low: float, high: float) -> list[float]:
    """Places in ascending order, each as near as can be to the wanted one, with so much between
    two and all from low to high; there must be room for them."""
    runs: list[list[float]] = []
    for place in wanted:
        runs.append([place, 1])
        while True:
            top, count = runs[-1]
            top = max(low, min(top, high - least * (count - 1)))
            runs[-1][0] = top
            if len(runs) < 2 or runs[-2][0] + least * runs[-2][1] <= top:
                break
            before = runs[-2]
            middle = (before[0] * before[1] + (top - least * before[1]) * count)
            runs[-2:] = [[middle / (before[1] + count), before[1] + count]]
    return [top + least * at for top, count in runs for at in range(int(count))]


# ---- Names along lines


class Crowd:
    """Which cells of a grid have lines, and which have labels."""

    def __init__(self) -> None:
        self.lines: dict[tuple[int, int], int] = {}
        self.labels: set[tuple[int, int]] = set()

    @staticmethod
    def cells(box: Box) -> Iterator[tuple[int, int]]:
        for column in range(floor(box.left / CELL), floor(box.right / CELL) + 1):
            for row in range(floor(box.top / CELL), floor(box.bottom / CELL) + 1):
                yield column, row

    def add_line(self, points: Sequence[tuple[float, float]]) -> None:
        """Counts a line in each cell that it comes through."""
        cells = set()
        for (x, y), (to_x, to_y) in zip(points, points[1:]):
            count = max(1, ceil(hypot(to_x - x, to_y - y) / (CELL / 2)))
            for at in range(count + 1):
                cells.add((floor((x + (to_x - x) * at / count) / CELL),
                           floor((y + (to_y - y) * at / count) / CELL)))
        for cell in cells:
            self.lines[cell] = self.lines.get(cell, 0) + 1

    def lines_under(self, box: Box) -> int | None:
        """How many lines come through the cells of a box, or None where a label is there."""
        cells = list(self.cells(box))
        if any(cell in self.labels for cell in cells):
            return None
        return sum(self.lines.get(cell, 0) for cell in cells)

    def take(self, box: Box) -> None:
        self.labels.update(self.cells(box))


@dataclass(frozen=True)
class NamePlace:
    """Where a name may stand: its anchor point, and how far from the middle of the line."""

    x: float
    y: float
    anchor: str
    far: float


def places_along(points: Sequence[tuple[float, float]]) -> Iterator[NamePlace]:
    """Places for a name along a line, above it and below it."""
    lengths = [hypot(b[0] - a[0], b[1] - a[1]) for a, b in zip(points, points[1:])]
    whole = sum(lengths) or 1.0
    pace, gone = max(20.0, whole / 60), 0.0
    for (x, y), (to_x, to_y), long in zip(points, points[1:], lengths):
        for at in range(int(long / pace) + 1):
            share = (at + 0.5) * pace / long if long > pace else 0.5
            if share > 1:
                continue
            here = x + (to_x - x) * share, y + (to_y - y) * share
            far = abs((gone + share * long) / whole - 0.5)
            if abs(to_y - y) < 0.2 * abs(to_x - x):
                yield NamePlace(here[0], here[1] - 5, "middle", far)
                yield NamePlace(here[0], here[1] + 13, "middle", far)
            elif to_y > y:
                yield NamePlace(here[0] + 4, here[1] - 4, "start", far)
                yield NamePlace(here[0] - 4, here[1] + 12, "end", far)
            else:
                yield NamePlace(here[0] + 4, here[1] + 12, "start", far)
                yield NamePlace(here[0] - 4, here[1] - 4, "end", far)
        gone += long


def best_place(places: Iterable[NamePlace], width: float, crowd: Crowd, within: Box
               ) -> NamePlace | None:
    """The place for a name that covers the fewest lines, and of such the one nearest to the middle;
    None where every place meets another name or the edge."""
    best: tuple[float, NamePlace] | None = None
    for place in places:
        box = box_of_text(place.x, place.y, width, place.anchor)
        if not box.is_within(within):
            continue
        lines = crowd.lines_under(box)
        if lines is not None and (best is None or lines + 4 * place.far < best[0]):
            best = (lines + 4 * place.far, place)
    return best[1] if best else None
