"""The blocks of a network that the importer made, as lengths, zones and stretches of track.

Each route of such a network is one block. Zones are numbered as `list` numbers them: by their first
piece of track, in the order of the file.
"""
from __future__ import annotations

import math
from bisect import bisect_left, bisect_right
from collections import defaultdict
from collections.abc import Iterator
from dataclasses import dataclass
from typing import Any

FORWARD, BACKWARD = "START_TO_STOP", "STOP_TO_START"
Lists = dict[str, list[dict[str, Any]]]
#: A detector or buffer stop, passed in a direction.
Node = tuple[str, str, str]


@dataclass(frozen=True)
class Stretch:
    """A part of a block on one track, in whole metres in the order of the way: `begin` is more than
    `end` where the way leads against the track."""

    track: str
    begin: int
    end: int

    @property
    def length(self) -> int:
        return abs(self.end - self.begin)


@dataclass(frozen=True)
class Cell:
    """A passage of a zone: the metre of the block at which it ends, and that of its release."""

    zone: int
    end_m: int
    release_m: int


@dataclass(frozen=True)
class PlainBlock:
    """A block: its route, length and sight in metres, zones, stretches of track, its two ends, and
    the operational points that it serves."""

    route: str
    length_m: int
    sight_m: int
    cells: tuple[Cell, ...]
    stretches: tuple[Stretch, ...]
    begin: Node
    end: Node
    serves: tuple[str, ...]


@dataclass(frozen=True)
class PlainNetwork:
    """The blocks of a network, how many zones it has, and for each block those behind and before
    it."""

    blocks: list[PlainBlock]
    zones: int
    behind: list[list[int]]
    before: list[list[int]]


class _Reader:
    """What lies on the tracks of a network's lists."""

    def __init__(self, lists: Lists) -> None:
        self.length = {one["id"]: int(one["length"]) for one in lists["track_sections"]}
        self.place: dict[tuple[str, str], tuple[str, int]] = {}
        rows: dict[str, list[tuple[int, int, str, str]]] = defaultdict(list)
        for kind, key in (("Detector", "detectors"), ("BufferStop", "buffer_stops")):
            for number, one in enumerate(lists[key]):
                self.place[kind, one["id"]] = one["track"], int(one["position"])
                rows[one["track"]].append((int(one["position"]), number, kind, one["id"]))
        self.rows = {track: sorted(rows[track]) for track in self.length}
        self.cuts = {track: sorted({row[0] for row in self.rows[track] if row[2] == "Detector"})
                     for track in self.length}
        self.switch_at = {(end["track"], end["endpoint"]): (one, port)
                          for one in lists["switches"] for port, end in one["ports"].items()}
        self.zone_of, self.zones = self._flooded(lists)
        self.sights = dict(self._sights(lists))
        self.parts: dict[str, list[tuple[int, str]]] = defaultdict(list)
        for one in lists["operational_points"]:
            for part in one["parts"]:
                self.parts[part["track"]].append((math.floor(part["position"]), one["id"]))
        self.rank = {one["id"]: at for at, one in enumerate(lists["operational_points"])}

    def _flooded(self, lists: Lists) -> tuple[dict[tuple[str, int], int], int]:
        """The zone of each piece of a track, and how many there are."""
        beside: dict[tuple[str, int], list[tuple[str, int]]] = defaultdict(list)
        for one in lists["switches"]:
            pieces = [(end["track"], 0 if end["endpoint"] == "BEGIN" else
                       len(self.cuts[end["track"]])) for end in one["ports"].values()]
            for piece in pieces:
                beside[piece] += pieces
        zone_of: dict[tuple[str, int], int] = {}
        count = 0
        for track in self.length:
            for number in range(len(self.cuts[track]) + 1):
                if (track, number) in zone_of:
                    continue
                waiting = [(track, number)]
                while waiting:
                    piece = waiting.pop()
                    if piece not in zone_of:
                        zone_of[piece] = count
                        waiting += beside[piece]
                count += 1
        return zone_of, count

    def _sights(self, lists: Lists) -> Iterator[tuple[tuple[str, str], int]]:
        """The sight distance at each detector and way that has a signal: the importer gives it one
        at the most."""
        for one in lists["signals"]:
            row = [each for each in self.rows[one["track"]] if each[2] == "Detector"]
            places, at = [each[0] for each in row], int(one["position"])
            forward = one["direction"] == FORWARD
            found = bisect_left(places, at) if forward else bisect_right(places, at) - 1
            yield (row[found][3], one["direction"]), int(one["sight_distance"])

    def zone_before(self, track: str, position: int, way: str) -> int:
        """The zone in which one comes to a place on a track."""
        cuts = self.cuts[track]
        piece = bisect_left(cuts, position) if way == FORWARD else bisect_right(cuts, position)
        return self.zone_of[track, piece]

    def onward(self, track: str, way: str, groups: dict[str, str]) -> tuple[str, str]:
        """The track behind the end of one, and the way along it."""
        switch, port = self.switch_at[track, "END" if way == FORWARD else "BEGIN"]
        kind = switch["switch_type"]
        if kind == "link":
            other = {"A": "B", "B": "A"}[port]
        elif kind == "crossing":
            other = {"A1": "B1", "B1": "A1", "A2": "B2", "B2": "A2"}[port]
        else:
            one, _, two = groups[switch["id"]].partition("_")
            other = two if port == one else one
        end = switch["ports"][other]
        return end["track"], FORWARD if end["endpoint"] == "BEGIN" else BACKWARD


def _block(reader: _Reader, route: dict[str, Any]) -> PlainBlock:
    """The block that a route of the importer is."""
    entry, leave = route["entry_point"], route["exit_point"]
    way = route["entry_point_direction"]
    track, here = reader.place[entry["type"], entry["id"]]
    begun, goal, metre = (entry["type"], entry["id"]), (leave["type"], leave["id"]), 0
    last, fresh = here, True
    stretches: list[Stretch] = []
    ends: list[tuple[int, int, str]] = []
    while True:
        for position, _, kind, name in reader.rows[track][::1 if way == FORWARD else -1]:
            if fresh and (position < here if way == FORWARD else position > here):
                continue
            if fresh and (kind, name) == begun:
                continue
            length = metre + abs(position - last)
            if kind == "Detector" and length > (ends[-1][0] if ends else 0):
                ends.append((length, reader.zone_before(track, position, way), name))
            if (kind, name) == goal:
                stretches.append(Stretch(track, last, position))
                if not ends or ends[-1][0] < length:
                    ends.append((length, reader.zone_before(track, position, way), name))
                return _made(reader, route, length, ends, stretches, way)
        end = reader.length[track] if way == FORWARD else 0
        metre += abs(end - last)
        stretches.append(Stretch(track, last, end))
        track, way = reader.onward(track, way, route["switches_directions"])
        last, fresh = 0 if way == FORWARD else reader.length[track], False


def _made(reader: _Reader, route: dict[str, Any], length: int, ends: list[tuple[int, int, str]],
          stretches: list[Stretch], way: str) -> PlainBlock:
    released = {name for name in route["release_detectors"]}
    releases = sorted(end for end, _, name in ends if name in released)
    cells = []
    for end, zone, _ in ends:
        later = [metre for metre in releases if metre >= end]
        cells.append(Cell(zone, end, later[0] if later else length))
    served = {name for one in stretches for at, name in reader.parts.get(one.track, ())
              if min(one.begin, one.end) <= at <= max(one.begin, one.end)}
    entry, leave = route["entry_point"], route["exit_point"]
    first = route["entry_point_direction"]
    sight = reader.sights.get((entry["id"], first), 0) if entry["type"] == "Detector" else 0
    return PlainBlock(route["id"], length, sight, tuple(cells), tuple(stretches),
                      (entry["type"], entry["id"], first), (leave["type"], leave["id"], way),
                      tuple(sorted(served, key=reader.rank.__getitem__)))


def plain_network(lists: Lists) -> PlainNetwork:
    """The blocks of the lists of a network that the importer made."""
    reader = _Reader(lists)
    blocks = [_block(reader, route) for route in lists["routes"]]
    begins: dict[Node, list[int]] = defaultdict(list)
    ends: dict[Node, list[int]] = defaultdict(list)
    for number, block in enumerate(blocks):
        begins[block.begin].append(number)
        ends[block.end].append(number)
    return PlainNetwork(blocks, reader.zones, [begins.get(one.end, []) for one in blocks],
                        [ends.get(one.begin, []) for one in blocks])
