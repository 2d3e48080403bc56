"""Several classes of trains over one set of zones, as one network file.

Each class has virtual tracks of its own for each cell of each block that it may run on. All
virtual tracks of a zone are joined by switches which no route passes otherwise than from a track to
the next of its block, so that they are one zone for the server: no two trains of any class have it
at once. Zones have the numbers that they have in the plain network; lengths, releases and sights
are those of the plain blocks, and a class's operational points are called `NAME@CLASS`.

A block is a row of tracks, one a cell, with a detector at the end of each. Where several blocks end
at one place they come together on a track of a metre, and where several begin they part behind one;
their own tracks are shorter by as much.
"""
from __future__ import annotations

from collections import Counter, defaultdict
from collections.abc import Mapping
from dataclasses import dataclass, field
from typing import Any

from kidrofemba.reality.plain import FORWARD, Lists, Node, PlainBlock, PlainNetwork

MOST = 65_536
#: An end of a track.
End = tuple[str, str]
LISTS = ("track_sections", "switches", "detectors", "buffer_stops", "signals", "routes",
         "operational_points", "speed_sections")


class DoesNotFit(Exception):
    """A list would be longer than the server reads: which, how long, and how many classes fit."""

    def __init__(self, what: str, count: int, fit: int) -> None:
        super().__init__(f"{count} {what}, and the server reads at most {MOST}: "
                         f"the first {fit} of the classes fit")


@dataclass
class _Course:
    """A block of a layer on its way: its tracks by cells, the ways of switches, and the metres that
    it shares with others before its first own track and behind its last one."""

    block: PlainBlock
    tracks: list[str]
    groups: dict[str, str] = field(default_factory=dict)
    first_m: int = 0
    last_m: int = 0

    def lengths(self) -> list[int]:
        """The lengths of its own tracks."""
        ends = [0, *(cell.end_m for cell in self.block.cells)]
        made = [end - begin for begin, end in zip(ends, ends[1:])]
        made[0] -= self.first_m
        made[-1] -= self.last_m
        return made


@dataclass(frozen=True)
class Layered:
    """A layered network: its lists, for each block of it the class and the plain block, and the
    plain blocks of each class that are too short for what parts or comes together there."""

    lists: Lists
    blocks: list[tuple[str, int]]
    too_short: dict[str, list[int]]


class LayerMaker:
    """A layered network under construction."""

    def __init__(self, plain: PlainNetwork) -> None:
        self.plain = plain
        self.lists: Lists = {key: [] for key in LISTS}
        self.open_end: list[End] = []
        self.stops: dict[str, list[tuple[str, int]]] = {}
        self.layer = ""
        self.count: Counter[str] = Counter()
        for zone in range(plain.zones):
            self.open_end.append((self._track(f"zone.{zone}", 1), "END"))

    def _track(self, name: str, length: int) -> str:
        self.lists["track_sections"].append({"id": name, "length": length})
        return name

    def _own(self, kind: str) -> str:
        """A name of this layer that is new."""
        self.count[kind] += 1
        return f"{self.layer}.{kind}{self.count[kind]}"

    def _switch(self, kind: str, **ports: End) -> str:
        name = self._own("s")
        self.lists["switches"].append({"id": name, "switch_type": kind, "ports": {
            port: {"endpoint": end, "track": track} for port, (track, end) in ports.items()}})
        return name

    def _join(self, zone: int, source: End, sink: str) -> None:
        """Leads from an end of a track onto another one, and makes both of a zone."""
        stub = self._track(self._own("j"), 1)
        self._switch("crossing", A1=source, B1=(sink, "BEGIN"), A2=self.open_end[zone],
                     B2=(stub, "BEGIN"))
        self.open_end[zone] = stub, "END"

    def _detector(self, name: str, track: str, position: int, kind: str = "detectors") -> None:
        self.lists[kind].append({"id": name, "track": track, "position": position})

    def add(self, layer: str, speeds: Mapping[int, int]) -> list[int]:
        """Adds a class with its blocks and their speeds in mm/s; answers the blocks that are too
        short, of which none is added then."""
        self.layer, self.count = layer, Counter()
        courses = {number: _Course(self.plain.blocks[number], [
            f"{layer}.b{number}.{cell}" for cell in range(len(self.plain.blocks[number].cells))])
            for number in speeds}
        begins: dict[Node, list[int]] = defaultdict(list)
        ends: dict[Node, list[int]] = defaultdict(list)
        for number, course in courses.items():
            begins[course.block.begin].append(number)
            ends[course.block.end].append(number)
        for node in begins:
            _share(courses, begins[node], True)
        for node in ends:
            _share(courses, ends[node], False)
        short = [number for number, one in courses.items() if min(one.lengths()) < 1]
        if short:
            return short
        for course in courses.values():
            self._lay(course)
        for node in dict.fromkeys([*begins, *ends]):
            self._node(node, [courses[one] for one in ends.get(node, [])],
                       [courses[one] for one in begins.get(node, [])])
        self._tell(courses, speeds)
        return []

    def _lay(self, course: _Course) -> None:
        """The own tracks of a block, with the detectors between its cells."""
        for track, length in zip(course.tracks, course.lengths()):
            self._track(track, length)
        for cell, track, after, length in zip(course.block.cells[1:], course.tracks,
                                              course.tracks[1:], course.lengths()):
            self._detector(f"{track}.d", track, length)
            self._join(cell.zone, (track, "END"), after)

    def _node(self, node: Node, ends: list[_Course], begins: list[_Course]) -> None:
        """Where blocks end and begin: they come together, pass its detector, and part."""
        name = self.node_name(node)
        zone = begins[0].block.cells[0].zone if begins else 0
        track, length = self._together(ends, name)
        if not ends:
            self._track(track, 1)
            stub = self._track(self._own("j"), 1)
            self._switch("point_switch", A=self.open_end[zone], B1=(track, "BEGIN"),
                         B2=(stub, "BEGIN"))
            self.open_end[zone] = stub, "END"
        if not begins:
            self._detector(name, track, length, "buffer_stops")
            return
        self._detector(name, track, length)
        sight = begins[0].block.sight_m
        if sight:
            self.lists["signals"].append({
                "id": f"{name}.s", "track": track, "position": length, "direction": FORWARD,
                "sight_distance": sight, "logical_signals": [{"signaling_system": "BAL"}]})
        self._part(zone, (track, "END"), begins, name)

    def node_name(self, node: Node) -> str:
        """The detector of this layer that a detector or buffer stop with a direction is."""
        return f"{node[1]}{'+' if node[2] == FORWARD else '-'}@{self.layer}"

    def _together(self, ends: list[_Course], name: str) -> tuple[str, int]:
        """The track on which all that end at a node come together, and its length."""
        if len(ends) == 1:
            return ends[0].tracks[-1], ends[0].lengths()[-1]
        if not ends:
            return f"{name}.in", 1
        track = self._track(f"{name}.in", 1)
        into = track
        for at, course in enumerate(ends[:-1]):
            last = at == len(ends) - 2
            beside = ends[-1].tracks[-1] if last else self._track(self._own("m"), 1)
            switch = self._switch("point_switch", A=(into, "BEGIN"),
                                  B1=(course.tracks[-1], "END"), B2=(beside, "END"))
            course.groups[switch] = "A_B1"
            for other in ends[at + 1:]:
                other.groups[switch] = "A_B2"
            into = beside
        return track, 1

    def _part(self, zone: int, source: End, begins: list[_Course], name: str) -> None:
        """The tracks onto which all that begin at a node part."""
        if len(begins) == 1:
            self._join(zone, source, begins[0].tracks[0])
            return
        out = self._track(f"{name}.out", 1)
        self._join(zone, source, out)
        for at, course in enumerate(begins[:-1]):
            last = at == len(begins) - 2
            beside = begins[-1].tracks[0] if last else self._track(self._own("f"), 1)
            switch = self._switch("point_switch", A=(out, "END"),
                                  B1=(course.tracks[0], "BEGIN"), B2=(beside, "BEGIN"))
            course.groups[switch] = "A_B1"
            for other in begins[at + 1:]:
                other.groups[switch] = "A_B2"
            out = beside

    def _tell(self, courses: dict[int, _Course], speeds: Mapping[int, int]) -> None:
        """The routes, operational points and speeds of a layer."""
        by_speed: dict[int, list[dict[str, Any]]] = defaultdict(list)
        served: dict[str, list[dict[str, Any]]] = defaultdict(list)
        going_on = {course.block.begin for course in courses.values()}
        for number, course in courses.items():
            block = course.block
            releases = {cell.release_m for cell in block.cells}
            leaves = "Detector" if block.end in going_on else "BufferStop"
            self.lists["routes"].append({
                "id": f"{block.route}@{self.layer}",
                "entry_point": {"type": "Detector", "id": self.node_name(block.begin)},
                "entry_point_direction": FORWARD,
                "exit_point": {"type": leaves, "id": self.node_name(block.end)},
                "switches_directions": course.groups,
                "release_detectors": [f"{track}.d" for cell, track
                                      in zip(block.cells[:-1], course.tracks)
                                      if cell.end_m in releases]})
            by_speed[speeds[number]].append({
                "track": course.tracks[0], "begin": 0, "end": course.lengths()[0],
                "applicable_directions": FORWARD})
            for stop in block.serves:
                served[stop].append({"track": course.tracks[0], "position": 0})
        for stop, parts in served.items():
            self.lists["operational_points"].append({"id": f"{stop}@{self.layer}", "parts": parts})
        for speed, ranges in sorted(by_speed.items()):
            self.lists["speed_sections"].append({
                "id": f"{speed}@{self.layer}", "speed_limit": speed / 1000,
                "track_ranges": ranges})


def _share(courses: dict[int, _Course], numbers: list[int], first: bool) -> None:
    """Tells blocks that part, or come together, at one place how many metres they share: those with
    the longest cells there are farthest from it."""
    if len(numbers) < 2:
        return

    def cell_length(number: int) -> int:
        ends = [0, *(cell.end_m for cell in courses[number].block.cells)]
        return ends[1] if first else ends[-1] - ends[-2]

    numbers.sort(key=lambda number: (cell_length(number), number))
    for at, number in enumerate(numbers):
        shared = 1 + min(at, len(numbers) - 2)
        if first:
            courses[number].first_m = shared
        else:
            courses[number].last_m = shared


def layered(plain: PlainNetwork, classes: Mapping[str, Mapping[int, int]]) -> Layered:
    """The network of classes, each with its blocks and their speeds in mm/s; DoesNotFit where the
    server would not read it. Blocks that are too short are left out and told."""
    maker = LayerMaker(plain)
    blocks: list[tuple[str, int]] = []
    too_short: dict[str, list[int]] = defaultdict(list)
    for at, (layer, speeds) in enumerate(classes.items()):
        kept = dict(speeds)
        while short := maker.add(layer, kept):
            too_short[layer] += short
            kept = {number: speed for number, speed in kept.items() if number not in short}
        blocks += [(layer, number) for number in kept]
        _judge(maker.lists, at)
    return Layered(maker.lists, blocks, dict(too_short))


def _judge(lists: Lists, fit: int) -> None:
    """Raises where the lists are too long with the class after the first so many."""
    points = 2 * (len(lists["detectors"]) + len(lists["buffer_stops"]))
    counts = {key: len(objects) for key, objects in lists.items()}
    for what, count in (counts | {"directed points": points}).items():
        if count > MOST:
            raise DoesNotFit(what, count, fit)
