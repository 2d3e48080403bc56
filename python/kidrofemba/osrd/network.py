"""Makes the network that the server reads from an export of OSRD."""
from __future__ import annotations

import math
import re
import unicodedata
from collections import defaultdict
from collections.abc import Iterator
from dataclasses import dataclass, field
from typing import Any

from kidrofemba.common.progress import Progress
from kidrofemba.osrd.blocks import Block, Blocks, Names, ReadSwitch, read_switch_of
from kidrofemba.osrd.changes import Change, Report
from kidrofemba.osrd.export import (BEGIN, BUFFER_STOP, DETECTOR, END, FORWARD, Export,
                                    OperationalPoint, SpeedSection, Switch, shown_name)
from kidrofemba.osrd.signals import Posts, metre_of_signal
from kidrofemba.osrd.tracks import NoWay, Step, Tracks, Walker

# A speed section above it counts as no limit.
FASTEST = 200.0
# From how much of a limit on the report tells that it is left out beyond a joint.
TOLD_M = 0.001


@dataclass(frozen=True)
class Choices:
    """What the user chooses of an export."""

    systems: tuple[str, ...] = ("BAL",)
    tags: tuple[str, ...] = ()
    lines: tuple[str, ...] = ()
    keeps_ids: bool = False


@dataclass
class Network:
    """The lists of a network file, and how many zones and cells the server counts in them."""

    lists: dict[str, list[dict[str, Any]]] = field(default_factory=dict)
    zones: int = 0
    cells: int = 0


class Maker:
    """One network on its way from an export."""

    def __init__(
        self, export: Export, choices: Choices, report: Report, progress: Progress
    ) -> None:
        self.export, self.choices, self.report, self.progress = export, choices, report, progress
        self.kept = {
            name
            for name, track in export.tracks.items()
            if not choices.lines or track.line in choices.lines
        }
        self.tracks = Tracks(export, report)
        self.posts = Posts(export, self.tracks, choices.systems, report)
        walks = self._walks()
        self.posts.follow(walks.values())
        self.signal_of = self.posts.nearest()
        self.switches = self._read_switches()
        self.blocks = self._blocks(walks)

    def network(self) -> Network:
        """The network's lists, in the order of its form."""
        made = Network()
        made.lists = {
            "track_sections": [
                {"id": name, "length": self.tracks.rulers[name].length}
                for name in self.export.tracks
                if name in self.kept
            ],
            "switches": list(self._switch_objects()),
            "detectors": list(self._points(DETECTOR)),
            "buffer_stops": list(self._points(BUFFER_STOP)),
            "signals": list(self._signals()),
            "routes": list(self._routes()),
            "operational_points": list(self._operational_points()),
            "speed_sections": list(self._speed_sections()),
        }
        made.zones = self._count_zones()
        made.cells = sum(len(block.inside) + 1 for block in self.blocks)
        if self.choices.lines:
            gone = len(self.export.tracks) - len(self.kept)
            self.report.note(Change.OUTSIDE, f"{gone} tracks with what lies on them")
        for key, count in self.export.unused.items():
            if count:
                self.report.note(Change.UNUSED, f"{shown_name(key)}: {count} objects")
        return made

    def _walks(self) -> dict[str, list[Step]]:
        """What each route passes, but of those that lead nowhere."""
        walker = Walker(self.export, self.tracks)
        walks: dict[str, list[Step]] = {}
        for number, (name, route) in enumerate(self.export.routes.items()):
            if number % 64 == 0:
                self.progress.tell(lambda: f"{number} of {len(self.export.routes)} routes followed")
            try:
                walks[name] = walker.walk(route)
            except NoWay as wrong:
                self.report.note(Change.LOST_ROUTE, f"route {shown_name(name)}: {wrong}")
        return walks

    def _read_switches(self) -> dict[str, ReadSwitch]:
        """The switches that have a way between two tracks that are kept, as the server reads
        them.
        """
        read: dict[str, ReadSwitch] = {}
        for name, switch in self.export.switches.items():
            kept = {port for port, end in switch.ports.items() if end[0] in self.kept}
            groups = self.export.types[switch.type]
            if not any(set(way) <= kept for ways in groups.values() for way in ways):
                continue
            made = read_switch_of(switch, groups, kept)
            if made is None:
                self.report.note(
                    Change.NO_SWITCH,
                    f"switch {shown_name(name)} of type " f"{shown_name(switch.type)}",
                )
                continue
            read[name] = made
            self._tell_type(switch, made)
        return read

    def _tell_type(self, switch: Switch, made: ReadSwitch) -> None:
        left = sorted(set(switch.ports) - set(made.ports))
        if made.type != switch.type or left:
            ports = ", ".join(f"{shown_name(old)} is {new}" for old, new in made.ports.items())
            gone = f"; without {', '.join(map(shown_name, left))}" if left else ""
            self.report.note(
                Change.RETYPED,
                f"switch {shown_name(switch.id)} of type "
                f"{shown_name(switch.type)}: {made.type}, {ports}{gone}",
            )

    def _blocks(self, walks: dict[str, list[Step]]) -> list[Block]:
        """The blocks that lie on tracks and lead over switches that are kept."""
        blocks = Blocks(self.tracks, self.signal_of, self.report)
        for name, walk in walks.items():
            blocks.cut(self.export.routes[name], walk)
        kept = []
        for block in blocks.readable():
            lost = [one.switch for one in block.crossings if one.switch not in self.switches]
            tracks = set(block.tracks())
            if not tracks <= self.kept:
                if tracks & self.kept:
                    self.report.note(Change.OUTSIDE,
                                     f"block {block.told()}, which leads out of them")
                continue
            if lost:
                self.report.note(
                    Change.LOST_ROUTE,
                    f"block {block.told()}, over switch "
                    f"{shown_name(lost[0])}: routes " + ", ".join(map(shown_name, block.routes)),
                )
            else:
                kept.append(block)
        return kept

    def _switch_objects(self) -> Iterator[dict[str, Any]]:
        for name, made in self.switches.items():
            ends = self.export.switches[name].ports
            yield {
                "id": name,
                "switch_type": made.type,
                "ports": {
                    new: {"endpoint": ends[old][1], "track": ends[old][0]}
                    for old, new in sorted(made.ports.items(), key=lambda pair: pair[1])
                },
            }

    def _points(self, kind: str) -> Iterator[dict[str, Any]]:
        """Detectors or buffer stops at whole metres; beside them, for the companions, where the
        export has them, and the ids of others at the same place.
        """
        points = self.export.detectors if kind == DETECTOR else self.export.buffer_stops
        for name, point in points.items():
            if point.track in self.kept and (kind, name) not in self.tracks.same:
                made = {
                    "id": name,
                    "track": point.track,
                    "position": self.tracks.place((kind, name)).metre,
                    "real": point.position,
                }
                also = self.tracks.also.get((kind, name))
                yield made | {"also": also} if also else made

    def _signals(self) -> Iterator[dict[str, Any]]:
        names = Names(self.export.signals)
        used: set[str] = set()
        for (detector, way), signal in self.signal_of.items():
            place = self.tracks.place((DETECTOR, detector))
            if place.point.track not in self.kept:
                continue
            name = signal.id
            if name in used:
                name = names.new(f"{signal.id}.{detector}", "signal")
            used.add(name)
            yield {
                "id": name,
                "track": place.point.track,
                "position": metre_of_signal(self.tracks, signal, place),
                "direction": way,
                "sight_distance": math.ceil(signal.sight),
                "logical_signals": [{"signaling_system": "BAL"}],
            }

    def _routes(self) -> Iterator[dict[str, Any]]:
        names = Names(self.export.routes)
        for block in self.blocks:
            name = block.alone or names.new(f"rt.{block.begin.id}->{block.end.id}", "block")
            yield {
                "id": name,
                "entry_point": {"type": block.begin.kind, "id": block.begin.id},
                "entry_point_direction": block.begin.way,
                "exit_point": {"type": block.end.kind, "id": block.end.id},
                "switches_directions": {
                    one.switch: self.switches[one.switch].group(one.source, one.sink)
                    for one in block.crossings
                },
                "release_detectors": [one for one in block.inside if one in block.releases],
            }

    def _operational_points(self) -> Iterator[dict[str, Any]]:
        names = Names(self.export.operational_points)
        reached = self._reached()
        for name, point in self.export.operational_points.items():
            parts = [
                (track, self.tracks.rulers[track].at(position))
                for track, position in point.parts
                if track in self.kept
            ]
            if point.parts and not parts:
                continue
            title = name if self.choices.keeps_ids else self._title(point, names)
            if not any(
                low <= metre <= high
                for track, metre in parts
                for low, high in reached.get(track, ())
            ):
                self.report.note(Change.UNREACHED, f"operational point {shown_name(title)}")
            yield {
                "id": title,
                "parts": [{"track": track, "position": metre} for track, metre in parts],
            }

    def _title(self, point: OperationalPoint, names: Names) -> str:
        """A name that a person can type: of visible ASCII characters alone."""
        plain = unicodedata.normalize("NFKD", point.name or "").encode("ascii", "ignore").decode()
        title = re.sub(r"[^!-~]+|%", "_", plain.strip())
        code = re.sub(r"[^!-~]+|%", "_", (point.code or "").strip())
        if not title.strip("_"):
            return point.id
        title = f"{title}/{code}" if code else title
        if title == point.id:
            return title
        title = names.new(title, "station")
        self.report.note(Change.NAMED, f"operational point {shown_name(point.id)}: {title}")
        return title

    def _reached(self) -> dict[str, list[tuple[int, int]]]:
        """The stretches of track that blocks cover."""
        covered: dict[str, set[tuple[int, int]]] = defaultdict(set)
        for block in self.blocks:
            track, way, here = block.begin.track, block.begin.way, self._metre(block.begin)
            for crossing in block.crossings:
                length = self.tracks.rulers[track].length
                covered[track].add((here, length) if way == FORWARD else (0, here))
                track, way = crossing.track, crossing.way
                here = 0 if way == FORWARD else self.tracks.rulers[track].length
            last = self._metre(block.end)
            covered[track].add((min(here, last), max(here, last)))
        return {track: sorted(stretches) for track, stretches in covered.items()}

    def _metre(self, passage: Any) -> int:
        return self.tracks.place((passage.kind, passage.id)).metre

    def _speed_sections(self) -> Iterator[dict[str, Any]]:
        for name, section in self.export.speed_sections.items():
            shown = f"speed section {shown_name(name)}"
            limit = self._limit(section, shown)
            ranges = [
                made
                for one in section.ranges
                if one[0] in self.kept
                for made in self._range(one, shown)
            ]
            if limit is not None and ranges:
                if section.on_routes:
                    self.report.note(Change.ROUTE_LIMIT, shown)
                yield {"id": name, "speed_limit": min(limit, FASTEST), "track_ranges": ranges}
            elif limit is None:
                self.report.note(
                    Change.EMPTY_LIMIT, f"{shown}: no speed for the trains that are sold"
                )

    def _limit(self, section: SpeedSection, shown: str) -> float | None:
        """The least limit of the trains that are sold; what it does not tell of others goes into
        the report.
        """
        general, by_tag = section.limit, section.by_tag
        tags = self.choices.tags
        limits = [by_tag.get(tag, general) for tag in tags] or [general]
        least = min((limit for limit in limits if limit is not None), default=None)
        lower = ", ".join(
            f"{shown_name(tag)} {limit} m/s"
            for tag, limit in by_tag.items()
            if tag not in tags and (least is None or limit < least)
        )
        if lower:
            self.report.note(Change.TAGGED_LIMIT, f"{shown}: {lower}")
        return least

    def _range(self, given: tuple[str, float, float, str], shown: str) -> Iterator[dict[str, Any]]:
        track, begin, end, way = given
        ruler = self.tracks.rulers[track]
        end = min(end, ruler.marks[-1])
        if begin >= end:
            self.report.note(
                Change.EMPTY_LIMIT, f"{shown}: at {begin} m of track {shown_name(track)}"
            )
            return
        low, high = ruler.span(begin, end)
        for place in self.tracks.detectors(track):
            before, behind = place.at - begin, end - place.at
            if before > TOLD_M and behind > TOLD_M and place.metre in (low, high):
                lost = before if place.metre == low else behind
                self.report.note(
                    Change.SHORT_LIMIT,
                    f"{shown}: {lost:.3f} m beyond detector "
                    f"{shown_name(place.point.id)} of track {shown_name(track)}",
                )
        yield {"track": track, "begin": low, "end": high, "applicable_directions": way}

    def _count_zones(self) -> int:
        """How many zones the server makes: pieces of track between detectors, joined at switches.
        """
        parent: dict[tuple[str, str], tuple[str, str]] = {}

        def root(end: tuple[str, str]) -> tuple[str, str]:
            while parent.setdefault(end, end) != end:
                end = parent[end]
            return end

        pieces = 0
        for track in self.kept:
            cuts = len(self.tracks.detectors(track))
            pieces += cuts + 1
            if not cuts:
                parent[track, END] = root((track, BEGIN))
        joined = 0
        for name, made in self.switches.items():
            first, *others = (self.export.switches[name].ports[port] for port in made.ports)
            for end in others:
                joined += root(end) != root(first)
                parent[root(end)] = root(first)
        return pieces - joined
