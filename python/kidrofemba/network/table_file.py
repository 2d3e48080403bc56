"""Reads the table of zones and blocks that `list` prints. Names stay as the table writes them."""
from __future__ import annotations

from collections.abc import Iterator
from dataclasses import dataclass
from pathlib import Path

from kidrofemba.common.companion import Refused, read_text


@dataclass(frozen=True)
class Piece:
    """A stretch of a track, in whole metres from the track's begin."""

    track: str
    begin: int
    end: int


@dataclass(frozen=True)
class Passage:
    """A zone that a block passes, and how many metres behind its begin the zone is released."""

    zone: int
    release: int


@dataclass(frozen=True)
class TableBlock:
    """A block: which part of which route it is, its length and sight in metres, its speed in mm/s,
    the zones that it passes, and the operational points on it."""

    route: str
    part: int
    length: int
    speed: int
    sight: int
    cells: tuple[Passage, ...]
    serves: tuple[str, ...]


@dataclass(frozen=True)
class Table:
    """The zones of a network, each with its pieces of track, and its blocks, by their numbers."""

    zones: tuple[tuple[Piece, ...], ...]
    blocks: tuple[TableBlock, ...]
    stops: int

    def zone_text(self, zone: int) -> str:
        """A zone's number, and where it lies."""
        pieces = self.zones[zone]
        first = pieces[0]
        more = f" and {len(pieces) - 1} more" if len(pieces) > 1 else ""
        return f"zone {zone} ({first.track} {first.begin}-{first.end} m{more})"


def _counted(words: Iterator[str]) -> range:
    return range(int(next(words)))


def _expect(words: Iterator[str], word: str) -> Iterator[str]:
    """The words behind this one, which must come next."""
    if next(words) != word:
        raise ValueError(word)
    return words


def _zone_of(words: Iterator[str]) -> tuple[Piece, ...]:
    count = _counted(_expect(words, "pieces"))
    return tuple(Piece(next(words), int(next(words)), int(next(words))) for _ in count)


def _block_of(words: Iterator[str]) -> TableBlock:
    route = next(_expect(words, "route"))
    part, length, speed, sight = (int(next(_expect(words, word)))
                                  for word in ("part", "length", "speed", "sight"))
    cells = tuple(Passage(int(next(words)), int(next(words)))
                  for _ in _counted(_expect(words, "cells")))
    serves = tuple(next(words) for _ in _counted(_expect(words, "serves")))
    return TableBlock(route, part, length, speed, sight, cells, serves)


def read_table_text(text: str, file: str | Path = "table") -> Table:
    """The table of a text that `list` printed; `file` is whose name refusals tell."""
    zones: list[tuple[Piece, ...]] = []
    blocks: list[TableBlock] = []
    stops, counted = 0, (-1, -1)
    for number, line in enumerate(text.splitlines(), 1):
        words = iter(line.split(" "))
        try:
            kind, count = next(words), int(next(words))
            if kind == "zones" and number > 1:
                raise Refused(file, f"line {number}", "a second table begins here: `list` appends "
                                                      "to a file; remove it and list anew")
            if kind == "zones" and number == 1:
                counted = (count, int(next(_expect(words, "blocks"))))
                stops = int(next(_expect(words, "stops")))
            elif kind == "zone" and count == len(zones):
                zones.append(_zone_of(words))
            elif kind == "block" and count == len(blocks):
                blocks.append(_block_of(words))
            else:
                raise ValueError(kind)
            if next(words, None) is not None:
                raise ValueError(line)
        except (ValueError, StopIteration, RuntimeError):
            raise Refused(file, f"line {number}", "no line of a table of `list`") from None
    if counted != (len(zones), len(blocks)):
        raise Refused(file, "", f"{len(zones)} zones and {len(blocks)} blocks, where a whole table "
                                f"of `list` was wanted")
    return Table(tuple(zones), tuple(blocks), stops)


def read_table(file: str | Path) -> Table:
    """The table in a file."""
    return read_table_text(read_text(file), file)
