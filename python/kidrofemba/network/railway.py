"""What runs can take: the tracks, zones and blocks of a network, with each block's way over tracks.

The zones and blocks come from the table of `list`, which tells a block by its route, its part of
the route and its length. Where a block lies is found by going along its route in the network file.
"""
from __future__ import annotations

import math
from collections import defaultdict
from collections.abc import Iterator
from dataclasses import dataclass
from pathlib import Path
from typing import Any

from kidrofemba.common.companion import Refused, unescaped
from kidrofemba.common.json_spot import Spot, spot_of_file
from kidrofemba.network.table_file import Piece, Table, TableBlock

WAYS_OF_SWITCH = {
    "link": [("A", "B")],
    "point_switch": [("A", "B1"), ("A", "B2")],
    "crossing": [("A1", "B1"), ("A2", "B2")],
    "double_slip_switch": [("A1", "B1"), ("A1", "B2"), ("A2", "B1"), ("A2", "B2")],
}
FIXED_SWITCHES = ("link", "crossing")


@dataclass(frozen=True)
class TrackEnd:
    """The begin of a track, or its end."""

    track: str
    at_end: bool


@dataclass(frozen=True)
class Place:
    """A place on a track, in metres from its begin."""

    track: str
    position: int


@dataclass(frozen=True)
class Stretch:
    """A part of a way on one track: from `begin` to `end`, which is less where the way leads
    against the track's direction."""

    track: str
    begin: int
    end: int
    ascends: bool

    @property
    def length(self) -> int:
        return abs(self.end - self.begin)

    @property
    def reverse(self) -> Stretch:
        return Stretch(self.track, self.end, self.begin, not self.ascends)

    def position(self, offset: float) -> float:
        """The position so many metres behind the begin."""
        return self.begin + offset if self.ascends else self.begin - offset

    def offset(self, position: float) -> float:
        """How many metres behind the begin a position lies."""
        return position - self.begin if self.ascends else self.begin - position


@dataclass(frozen=True)
class Block:
    """A block of the table: its length, its zones in the order of passage, and its way over
    tracks."""

    number: int
    length: int
    zones: tuple[int, ...]
    way: tuple[Stretch, ...]

    @property
    def begins(self) -> tuple[str, int, bool]:
        first = self.way[0]
        return first.track, first.begin, first.ascends

    @property
    def ends(self) -> tuple[str, int, bool]:
        last = self.way[-1]
        return last.track, last.end, last.ascends

    def offset_of(self, places: list[Place]) -> float | None:
        """How far behind the block's begin the first of these places lies on it."""
        gone, found = 0, []
        for stretch in self.way:
            for place in places:
                offset = stretch.offset(place.position)
                if place.track == stretch.track and 0 <= offset <= stretch.length:
                    found.append(gone + offset)
            gone += stretch.length
        return min(found, default=None)


@dataclass(frozen=True)
class Railway:
    """A network: the lengths of its tracks, which end of a track leads to which others, the places
    of its operational points, and the zones and blocks by their numbers."""

    network: str | Path
    table: str | Path
    tracks: dict[str, int]
    joints: dict[TrackEnd, list[TrackEnd]]
    points: dict[str, list[Place]]
    zones: list[list[Piece]]
    blocks: list[Block]

    def followers(self) -> dict[int, list[int]]:
        """For each block those that begin where it ends, but not those that lead back."""
        starts: dict[tuple[str, int, bool], list[int]] = defaultdict(list)
        for block in self.blocks:
            starts[block.begins].append(block.number)
        return {block.number: [other for point in self._beginnings_behind(block)
                               for other in starts.get(point, [])] for block in self.blocks}

    def _beginnings_behind(self, block: Block) -> Iterator[tuple[str, int, bool]]:
        """Where a block that follows can begin: at this block's end, or, where that is the end of
        a track, at the begin of a track that it leads to."""
        track, position, ascends = block.ends
        yield track, position, ascends
        if position == (self.tracks[track] if ascends else 0):
            for end in self.joints.get(TrackEnd(track, ascends), []):
                yield end.track, (self.tracks[end.track] if end.at_end else 0), not end.at_end


@dataclass(frozen=True)
class _Switch:
    """A switch: its type, and the end of track at each port."""

    kind: str
    ports: dict[str, TrackEnd]

    def across(self, port: str, group: str | None) -> str | None:
        """The port to which one enters from another, where the switch stands for this group."""
        ways = (WAYS_OF_SWITCH[self.kind] if self.kind in FIXED_SWITCHES else
                [way for way in WAYS_OF_SWITCH[self.kind] if "_".join(way) == group])
        return next((b if port == a else a for a, b in ways if port in (a, b)), None)


class _Tracks:
    """The tracks of a network file with what lies on them, as routes are followed over them."""

    def __init__(self, infra: Spot):
        self.lengths = {one.member("id").text(): one.member("length").whole()
                        for one in infra.elements_of("track_sections")}
        self.switches: dict[str, _Switch] = {}
        self.switch_at: dict[TrackEnd, tuple[str, str]] = {}
        for one in infra.elements_of("switches"):
            self._add_switch(one)
        self.waypoints = {
            (kind, one.member("id").text()): Place(self.track(one.member("track")),
                                                   one.member("position").whole())
            for kind, key in (("Detector", "detectors"), ("BufferStop", "buffer_stops"))
            for one in infra.elements_of(key)}

    def track(self, spot: Spot) -> str:
        """The id of a track, which must be there."""
        name = spot.text()
        if name not in self.lengths:
            raise spot.wrong(f"no track has the id {name}")
        return name

    def _add_switch(self, spot: Spot) -> None:
        name, kind = spot.member("id").text(), spot.member("switch_type")
        if kind.text() not in WAYS_OF_SWITCH:
            raise kind.wrong(f"no switch type that is read: {kind.value}")
        ports = {}
        for port in {port for way in WAYS_OF_SWITCH[kind.value] for port in way}:
            told = spot.member("ports").member(port)
            ports[port] = TrackEnd(self.track(told.member("track")),
                                   told.member("endpoint").text() == "END")
            self.switch_at[ports[port]] = (name, port)
        self.switches[name] = _Switch(kind.value, ports)

    def joints(self) -> dict[TrackEnd, list[TrackEnd]]:
        """Which end of a track leads to which others, whichever way the switches stand."""
        found: dict[TrackEnd, list[TrackEnd]] = defaultdict(list)
        for switch in self.switches.values():
            for a, b in WAYS_OF_SWITCH[switch.kind]:
                found[switch.ports[a]].append(switch.ports[b])
                found[switch.ports[b]].append(switch.ports[a])
        return found

    def waypoint(self, spot: Spot) -> Place:
        """Where a route's entry or exit is."""
        key = (spot.member("type").text(), spot.member("id").text())
        if key not in self.waypoints:
            raise spot.wrong(f"no {key[0]} has the id {key[1]}")
        return self.waypoints[key]

    def way(self, route: Spot) -> list[Stretch]:
        """The way of a route over tracks, from its entry to its exit."""
        here, leave = (self.waypoint(route.member(key)) for key in ("entry_point", "exit_point"))
        ascends = route.member("entry_point_direction").text() == "START_TO_STOP"
        chosen = route.optional("switches_directions")
        groups = chosen.value if chosen and isinstance(chosen.value, dict) else {}
        track, position = here.track, here.position
        way: list[Stretch] = []
        for _ in range(2 * len(self.lengths) + 2):
            ahead = leave.position - position if ascends else position - leave.position
            if leave.track == track and ahead >= 0:
                return way + [Stretch(track, position, leave.position, ascends)]
            end = self.lengths[track] if ascends else 0
            way.append(Stretch(track, position, end, ascends))
            behind = self._behind(TrackEnd(track, ascends), groups)
            if behind is None:
                raise route.wrong(f"no way leads on at the {'end' if ascends else 'begin'} of "
                                  f"track {track}")
            track, ascends = behind.track, not behind.at_end
            position = 0 if ascends else self.lengths[track]
        raise route.wrong("does not come to its exit")

    def _behind(self, end: TrackEnd, groups: dict[str, Any]) -> TrackEnd | None:
        """The end of track at which one comes in behind another, as the switches are set."""
        if end not in self.switch_at:
            return None
        name, port = self.switch_at[end]
        across = self.switches[name].across(port, groups.get(name))
        return self.switches[name].ports[across] if across else None


def _cut(way: list[Stretch], begin: int, end: int) -> tuple[Stretch, ...]:
    """The part of a way from so many metres behind its begin to so many."""
    cut, gone = [], 0
    for stretch in way:
        first, last = max(begin - gone, 0), min(end - gone, stretch.length)
        if first < last or (first == last and begin == end):
            cut.append(Stretch(stretch.track, int(stretch.position(first)),
                               int(stretch.position(last)), stretch.ascends))
        gone += stretch.length
    return tuple(cut)


def _points(infra: Spot, tracks: _Tracks) -> dict[str, list[Place]]:
    """The places of each operational point."""
    return {one.member("id").text(): [
        Place(tracks.track(part.member("track")), math.floor(part.member("position").number()))
        for part in one.elements_of("parts")] for one in infra.elements_of("operational_points")}


def read_railway(network: str | Path, table_file: str | Path, table: Table) -> Railway:
    """The railway of a network file and its table, which `table_file` is or was told by."""
    infra = spot_of_file(network)
    tracks = _Tracks(infra)
    zones = [[Piece(unescaped(piece.track), piece.begin, piece.end) for piece in zone]
             for zone in table.zones]
    unknown = [piece.track for zone in zones for piece in zone if piece.track not in tracks.lengths]
    if unknown:
        raise Refused(table_file, "", f"has the track {unknown[0]}, which is not in {network}")
    parts: dict[str, list[tuple[int, TableBlock]]] = defaultdict(list)
    for number, block in enumerate(table.blocks):
        parts[unescaped(block.route)].append((number, block))
    blocks: dict[int, Block] = {}
    for route in infra.elements_of("routes"):
        told = parts.pop(route.member("id").text(), [])
        blocks.update(_blocks_of_route(route, tracks.way(route), told, table_file))
    if parts:
        raise Refused(table_file, "", f"has the route {next(iter(parts))}, which is not in "
                                      f"{network}")
    return Railway(network, table_file, tracks.lengths, tracks.joints(), _points(infra, tracks),
                   zones, [blocks[number] for number in range(len(blocks))])


def _blocks_of_route(route: Spot, way: list[Stretch], parts: list[tuple[int, TableBlock]],
                     table_file: str | Path) -> Iterator[tuple[int, Block]]:
    """The blocks of a route by their numbers, each with its part of the route's way."""
    length, told = sum(one.length for one in way), sum(block.length for _, block in parts)
    if length != told:
        raise route.wrong(f"is {length} m long, and its blocks in {table_file} are {told} m")
    gone = 0
    for number, block in sorted(parts, key=lambda one: one[1].part):
        yield number, Block(number, block.length, tuple(cell.zone for cell in block.cells),
                            _cut(way, gone, gone + block.length))
        gone += block.length
