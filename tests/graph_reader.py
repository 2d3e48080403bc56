"""Reads a train graph's picture back: where the lines of heads and the blocking times lie in ticks
and metres, and where its texts stand. How wide a text is it estimates by itself."""
from __future__ import annotations

import re
import xml.etree.ElementTree as ElementTree
from collections.abc import Iterator
from dataclasses import dataclass
from itertools import combinations
from pathlib import Path

SVG = "{http://www.w3.org/2000/svg}"
TEXT, TITLE = 11, 15
# How wide characters of common sans-serif types are, in sizes of the type.
NARROW, NARROW_WIDTH, WIDTH, BOLDER = "iIljtfr'.,:;!()[]|- ", 0.34, 0.62, 1.1


@dataclass(frozen=True)
class Label:
    """A text and the rectangle that it takes."""

    text: str
    kind: str
    left: float
    top: float
    right: float
    bottom: float

    def meets(self, other: Label) -> bool:
        return (self.left < other.right and other.left < self.right
                and self.top < other.bottom and other.top < self.bottom)


@dataclass(frozen=True)
class Near:
    """A number that a picture tells to a tenth of a pixel, with what that comes to."""

    value: float
    within: float

    def __eq__(self, other: object) -> bool:
        return isinstance(other, (int, float)) and abs(self.value - other) <= self.within

    def __repr__(self) -> str:
        return f"{self.value:.2f}"


class Picture:
    """A picture whose left and right edges lie at these ticks, of a line of this length."""

    def __init__(self, file: Path, low: float = 0, high: float = 1, length: float = 1):
        self.root = ElementTree.parse(file).getroot()
        self.width, self.height = (float(self.root.attrib[key]) for key in ("width", "height"))
        frame = next(one for one in self.root.iter() if one.get("id") == "frame")
        self.left, self.top, self.wide, self.tall = (
            float(frame.attrib[key]) for key in ("x", "y", "width", "height"))
        self.low, self.high, self.length = low, high, length

    def tick(self, x: float) -> Near:
        pace = (self.high - self.low) / self.wide
        return Near(self.low + (x - self.left) * pace, 0.06 * pace)

    def metre(self, y: float) -> Near:
        pace = self.length / self.tall
        return Near((y - self.top) * pace, 0.06 * pace)

    def _groups(self) -> Iterator[tuple[str, ElementTree.Element]]:
        """The groups of elements that have a title, with it."""
        for group in self.root.iter(f"{SVG}g"):
            title = group.find(f"{SVG}title")
            if title is not None:
                yield title.text or "", group

    def heads(self) -> dict[str, list[list[tuple[Near, Near]]]]:
        """The pieces of each train's line, by its title."""
        found = {}
        for title, group in self._groups():
            for path in group.findall(f"{SVG}path"):
                if path.attrib["class"].split()[0] == "head":
                    found[title] = [[(self.tick(x), self.metre(y)) for x, y in _points(piece)]
                                    for piece in path.attrib["d"].split("M")[1:]]
        return found

    def guessed(self) -> set[str]:
        """The titles of the trains whose lines are dashed."""
        return {title for title, group in self._groups() for path in group.findall(f"{SVG}path")
                if path.attrib["class"] == "head guess"}

    def steps(self, kind: str) -> dict[str, list[tuple[Near, Near, Near, Near]]]:
        """Each train's blocking times of a kind, `own` or `beside`: begin, end, top, bottom."""
        found: dict[str, list[tuple[Near, Near, Near, Near]]] = {}
        for title, group in self._groups():
            for path in group.findall(f"{SVG}path"):
                if path.attrib["class"] == kind:
                    found[title] = [
                        (self.tick(float(x)), self.tick(float(to_x)), self.metre(float(y)),
                         self.metre(float(to_y))) for x, y, to_x, to_y in re.findall(
                            r"M([\d.-]+) ([\d.-]+)H([\d.-]+)V([\d.-]+)H[\d.-]+Z",
                            path.attrib["d"])]
        return found

    def lines(self, kind: str) -> list[list[tuple[float, float]]]:
        """The lines of a kind, such as `station` or `time`, by their points in pixels."""
        return [_points(path.attrib["d"][1:]) for path in self.root.iter(f"{SVG}path")
                if path.get("class") == kind]

    def labels(self) -> list[Label]:
        """All texts of the picture."""
        return [_label(text) for text in self.root.iter(f"{SVG}text")]

    def faults_of_labels(self) -> list[str]:
        """Labels over each other, or beyond the picture's edges."""
        labels = self.labels()
        faults = [f"{a.text} over {b.text}" for a, b in combinations(labels, 2) if a.meets(b)]
        return faults + [f"{one.text} beyond the edge" for one in labels if one.left < 0
                         or one.top < 0 or one.right > self.width or one.bottom > self.height]


def _points(data: str) -> list[tuple[float, float]]:
    pairs = [pair.split() for pair in data.split("L")]
    return [(float(x), float(y)) for x, y in pairs]


def _label(text: ElementTree.Element) -> Label:
    kind = text.get("class", "")
    size, bolder = (TITLE, BOLDER) if kind == "title" else (TEXT, 1)
    wide = size * bolder * sum(NARROW_WIDTH if one in NARROW else WIDTH for one in text.text or "")
    x, y = float(text.attrib["x"]), float(text.attrib["y"])
    left = x - wide * {"start": 0, "middle": 0.5, "end": 1}[text.get("text-anchor", "start")]
    return Label(text.text or "", kind, left, y - 0.75 * size, left + wide, y + 0.2 * size)
