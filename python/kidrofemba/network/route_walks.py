"""Walks the routes of a network file: at which detectors, and in which direction, its blocks begin
and end.

The table of `list` tells a block's route and part, not its ends. A route is cut at its ends and at
each detector to which a signal of the system BAL in the route's direction belongs, and a signal
belongs to the first detector at or after it.
"""
from __future__ import annotations

from bisect import bisect_left, bisect_right
from collections import defaultdict
from collections.abc import Iterator
from dataclasses import dataclass
from typing import Any

from kidrofemba.common.companion import escaped
from kidrofemba.network.table_file import Table

FORWARD, BACKWARD = "START_TO_STOP", "STOP_TO_START"
_KINDS = {"detectors": "Detector", "buffer_stops": "BufferStop"}


@dataclass(frozen=True)
class Point:
    """A detector or a buffer stop, passed in a direction."""

    kind: str
    name: str
    direction: str

    def __str__(self) -> str:
        return f"{self.kind} {self.name} {self.direction}"


class Tracks:
    """What lies on the tracks of a network file, and which end of a track leads to which other."""

    def __init__(self, infra: dict[str, Any]):
        self.length = {one["id"]: int(one["length"]) for one in infra.get("track_sections", [])}
        self.place: dict[tuple[str, str], tuple[str, int]] = {}
        self.row: dict[str, list[tuple[int, int, str, str]]] = defaultdict(list)
        for order, (key, kind) in enumerate(_KINDS.items()):
            for number, one in enumerate(infra.get(key, [])):
                position = int(one["position"])
                self.place[kind, one["id"]] = one["track"], position
                self.row[one["track"]].append((position, order * 65_536 + number, kind, one["id"]))
        for row in self.row.values():
            row.sort()
        self.port = {(end["track"], end["endpoint"]): (one, port)
                     for one in infra.get("switches", []) for port, end in one["ports"].items()}
        self.signalled = set(self._signalled(infra.get("signals", [])))

    def _signalled(self, signals: list[dict[str, Any]]) -> Iterator[Point]:
        """The points to which a block signal belongs."""
        for one in signals:
            systems = [each["signaling_system"] for each in one.get("logical_signals", [])]
            if "BAL" not in systems:
                continue
            row = [each for each in self.row[one["track"]] if each[2] == "Detector"]
            position, forward = int(one["position"]), one["direction"] == FORWARD
            places = [each[0] for each in row]
            at = bisect_left(places, position) if forward else bisect_right(places, position) - 1
            if 0 <= at < len(row):
                yield Point("Detector", row[at][3], one["direction"])

    def onward(self, track: str, forward: bool, ways: dict[str, str]) -> tuple[str, bool] | None:
        """The track behind the end of one, and whether it is entered at its begin."""
        switch, port = self.port.get((track, "END" if forward else "BEGIN"), (None, ""))
        if switch is None:
            return None
        leads_to = _ports_joined(switch["switch_type"], ways.get(switch["id"], ""))
        if port not in leads_to:
            return None
        end = switch["ports"][leads_to[port]]
        return end["track"], end["endpoint"] == "BEGIN"

    def points_of(self, route: dict[str, Any]) -> Iterator[tuple[int, Point]]:
        """The points of a route from its entry to its exit, with the metres behind its entry."""
        entry = Point(route["entry_point"]["type"], route["entry_point"]["id"],
                      route["entry_point_direction"])
        goal = (route["exit_point"]["type"], route["exit_point"]["id"])
        yield 0, entry
        track, position = self.place[entry.kind, entry.name]
        forward, metres, begun = entry.direction == FORWARD, 0, False
        for _ in range(2 * len(self.length) + 2):
            direction = FORWARD if forward else BACKWARD
            for at, _, kind, name in self.row[track][::1 if forward else -1]:
                if not begun:
                    begun = (kind, name) == (entry.kind, entry.name)
                    continue
                metres, position = metres + abs(at - position), at
                yield metres, Point(kind, name, direction)
                if (kind, name) == goal:
                    return
            metres += self.length[track] - position if forward else position
            following = self.onward(track, forward, route.get("switches_directions", {}))
            if following is None:
                break
            track, forward = following
            position, begun = 0 if forward else self.length[track], True
        raise ValueError(f"route {route['id']} does not lead to its exit")

    def cuts_of(self, route: dict[str, Any]) -> list[tuple[int, Point]]:
        """Where a route is cut into blocks, its ends among it, with the metres behind its entry."""
        points = list(self.points_of(route))
        return [points[0], *(one for one in points[1:-1] if one[1] in self.signalled), points[-1]]


def ends_of_blocks(table: Table, infra: dict[str, Any]) -> list[tuple[Point, Point]]:
    """Where each block of a table begins and ends; ValueError where the table is not that of the
    network file."""
    tracks = Tracks(infra)
    cuts = {escaped(route["id"]): tracks.cuts_of(route) for route in infra.get("routes", [])}
    ends = []
    for block in table.blocks:
        both = cuts.get(block.route, [])[block.part:block.part + 2]
        if len(both) < 2 or both[1][0] - both[0][0] != block.length:
            raise ValueError(f"the network has no part {block.part} of route {block.route} "
                             f"that is {block.length} m long")
        ends.append((both[0][1], both[1][1]))
    return ends


def _ports_joined(kind: str, group: str) -> dict[str, str]:
    """From which port to which a way leads, both ways, for a switch of this type and group."""
    if kind == "link":
        pairs = [("A", "B")]
    elif kind == "crossing":
        pairs = [("A1", "B1"), ("A2", "B2")]
    else:
        one, _, other = group.partition("_")
        pairs = [(one, other)]
    return {**dict(pairs), **{other: one for one, other in pairs}}
