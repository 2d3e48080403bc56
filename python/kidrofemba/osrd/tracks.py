"""The tracks of an export in whole metres, with what lies on them in order, and the walks of
routes.
"""
from __future__ import annotations

from collections import defaultdict
from collections.abc import Iterable
from dataclasses import dataclass

from kidrofemba.osrd.changes import Change, Report
from kidrofemba.osrd.export import (BACKWARD, BEGIN, BUFFER_STOP, DETECTOR, END, FORWARD, Export,
                                    Point, Route, Switch, shown_name)
from kidrofemba.osrd.whole_metres import Ruler

# How far a thing is moved from the place of another one, before all is rounded.
APART_M = 0.5


@dataclass(slots=True, eq=False)
class Place:
    """A detector or a buffer stop on its track: where the export has it, where it is ordered, and
    its whole metre.
    """

    point: Point
    at: float
    metre: int = 0

    @property
    def name(self) -> tuple[str, str]:
        return self.point.kind, self.point.id


class Tracks:
    """The rows of detectors and buffer stops of all tracks, from BEGIN to END, in whole metres."""

    def __init__(self, export: Export, report: Report) -> None:
        self.export, self.report = export, report
        # For each detector or buffer stop that lies where another one does, that other one; and for
        # each of these those that it stands for.
        self.same: dict[tuple[str, str], tuple[str, str]] = {}
        self.also: dict[tuple[str, str], list[str]] = defaultdict(list)
        self.rows: dict[str, list[Place]] = {track: [] for track in export.tracks}
        self.places: dict[tuple[str, str], Place] = {}
        self._lay_out()
        self._set_apart()
        self.rulers = self._measured()
        for row in self.rows.values():
            for place in row:
                place.metre = self.rulers[place.point.track].at(place.at)

    def place(self, name: tuple[str, str]) -> Place:
        """The place of a detector or buffer stop, or of the one that stands for it."""
        return self.places[self.same.get(name, name)]

    def detectors(self, track: str) -> list[Place]:
        return [place for place in self.rows[track] if place.point.kind == DETECTOR]

    def _lay_out(self) -> None:
        """Lays what lies on tracks in rows, and lets one thing stand for all of its kind at one
        place.
        """
        for points in (self.export.buffer_stops, self.export.detectors):
            at_place: dict[tuple[str, float], Place] = {}
            for point in points.values():
                length = self.export.tracks[point.track].length
                if point.position > length:
                    self.report.note(
                        Change.BEYOND,
                        f"{described(point)}: at {point.position} m of "
                        f"track {shown_name(point.track)}, which ends at {length} m",
                    )
                at = min(point.position, length)
                first = at_place.get((point.track, at))
                if first is not None:
                    self.same[point.kind, point.id] = first.name
                    self.also[first.name].append(point.id)
                    self.report.note(
                        Change.MERGED,
                        f"{described(point)}: at the place of {described(first.point)}",
                    )
                    continue
                place = Place(point, at)
                at_place[point.track, at] = self.places[place.name] = place
                self.rows[point.track].append(place)
        for row in self.rows.values():
            row.sort(key=lambda place: place.at)

    def _set_apart(self) -> None:
        """Moves detectors from the place of a buffer stop, and from the end of a track behind which
        another one lies at once."""
        for track, row in self.rows.items():
            for first, second in list(zip(row, row[1:])):
                if first.at == second.at:
                    detector = second if second.point.kind == DETECTOR else first
                    self._move_inside(detector, "a buffer stop lies there")
        for switch in self.export.switches.values():
            at_ends = [place for end in switch.ports.values() for place in self._at_end(end)]
            for place in at_ends[1:]:
                if place.point.kind == DETECTOR:
                    self._move_inside(
                        place,
                        f"{described(at_ends[0].point)} lies there too, at the "
                        f"other side of switch {shown_name(switch.id)}",
                    )

    def _at_end(self, end: tuple[str, str]) -> Iterable[Place]:
        track, where = end
        row = self.rows[track]
        at = 0.0 if where == BEGIN else self.export.tracks[track].length
        return [place for place in (row[:1] if where == BEGIN else row[-1:]) if place.at == at]

    def _move_inside(self, place: Place, why: str) -> None:
        """Moves a detector off its place, to the side on which its track is longer."""
        track = place.point.track
        length = self.export.tracks[track].length
        others = [other.at for other in self.rows[track] if other.at != place.at] + [0.0, length]
        if place.at <= length / 2:
            room = min((at for at in others if at > place.at), default=length) - place.at
            place.at += min(APART_M, room / 2)
        else:
            room = place.at - max((at for at in others if at < place.at), default=0.0)
            place.at -= min(APART_M, room / 2)
        self.rows[track].sort(key=lambda one: one.at)
        self.report.note(
            Change.APART,
            f"{described(place.point)} at {place.point.position} m of track "
            f"{shown_name(track)}: to {place.at} m, since {why}",
        )

    def _measured(self) -> dict[str, Ruler]:
        """The ruler of each track, and what it rounds."""
        stations: dict[str, list[float]] = defaultdict(list)
        for point in self.export.operational_points.values():
            for part, position in point.parts:
                stations[part].append(position)
        rulers: dict[str, Ruler] = {}
        for name, track in self.export.tracks.items():
            row = self.rows[name]
            ruler = Ruler(track.length, [place.at for place in row] + stations[name])
            rulers[name] = ruler
            self._tell_rounded(name, ruler)
        return rulers

    def _tell_rounded(self, track: str, ruler: Ruler) -> None:
        moved = [(mark, metre) for mark, metre in zip(ruler.marks, ruler.metres) if mark != metre]
        if moved:
            told = ", ".join(f"{mark} is {metre}" for mark, metre in moved)
            self.report.note(Change.ROUNDED, f"track {shown_name(track)}: {told}")
        for mark, metre in moved:
            if abs(mark - metre) > 0.5:
                self.report.note(
                    Change.CROWDED, f"track {shown_name(track)}: {mark} m is {metre} m"
                )


def described(point: Point) -> str:
    kind = "detector" if point.kind == DETECTOR else "buffer stop"
    return f"{kind} {shown_name(point.id)}"


@dataclass(slots=True, frozen=True)
class Passage:
    """A detector or buffer stop that a route passes."""

    kind: str
    id: str
    way: str
    metre: int
    track: str


@dataclass(slots=True, frozen=True)
class Crossing:
    """A switch that a route crosses, from port to port, onto another track."""

    switch: str
    source: str
    sink: str
    metre: int
    track: str
    way: str


Step = Passage | Crossing


class NoWay(Exception):
    """Why a route does not lead to its end."""


class Walker:
    """Walks routes over the tracks of an export."""

    def __init__(self, export: Export, tracks: Tracks) -> None:
        self.export, self.tracks = export, tracks
        self.at_end: dict[tuple[str, str], tuple[Switch, str]] = {
            end: (switch, port)
            for switch in export.switches.values()
            for port, end in switch.ports.items()
        }

    def walk(self, route: Route) -> list[Step]:
        """What a route passes and crosses, from its entry to its exit."""
        first = self.tracks.place(route.entry)
        goal = self.tracks.place(route.exit).name
        track, way, metre = first.point.track, route.direction, 0
        steps: list[Step] = [Passage(*first.name, way, 0, track)]
        row = self._ahead(track, way)
        row = row[row.index(first) + 1 :]
        here, entered = first.metre, set()
        while True:
            for place in row:
                metre += abs(place.metre - here)
                here = place.metre
                steps.append(Passage(*place.name, way, metre, track))
                if place.name == goal:
                    return steps
                if place.point.kind == BUFFER_STOP:
                    raise NoWay(f"it comes to {described(place.point)}")
            length = self.tracks.rulers[track].length
            metre += length - here if way == FORWARD else here
            switch, source, sink = self._crossed(route, track, END if way == FORWARD else BEGIN)
            track, end = switch.ports[sink]
            way = FORWARD if end == BEGIN else BACKWARD
            if (track, way) in entered:
                raise NoWay("it goes round without coming to its exit")
            entered.add((track, way))
            here = 0 if way == FORWARD else self.tracks.rulers[track].length
            steps.append(Crossing(switch.id, source, sink, metre, track, way))
            row = self._ahead(track, way)

    def _ahead(self, track: str, way: str) -> list[Place]:
        row = self.tracks.rows[track]
        return row if way == FORWARD else row[::-1]

    def _crossed(self, route: Route, track: str, end: str) -> tuple[Switch, str, str]:
        """The switch at an end of a track, and the ports by which a route crosses it."""
        if (track, end) not in self.at_end:
            raise NoWay(f"no switch is at {end} of track {shown_name(track)}")
        switch, port = self.at_end[track, end]
        groups = self.export.types[switch.type]
        group = route.groups.get(switch.id)
        if group is None and len(groups) == 1:
            group = next(iter(groups))
        if group is None:
            raise NoWay(f"it names no group of switch {shown_name(switch.id)}")
        for source, sink in groups[group]:
            if port in (source, sink):
                return switch, port, sink if port == source else source
        raise NoWay(
            f"group {shown_name(group)} of switch {shown_name(switch.id)} does not lead on "
            f"from track {shown_name(track)}"
        )
