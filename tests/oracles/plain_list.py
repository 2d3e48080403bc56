"""Prints the table that `list` prints of a network file, by a plain model of its own.

The model reads a file in the server's form and says what zones and blocks it has, or the first
fault of its graph, its walks and its blocks. Faults of fields (a missing one, a fraction where a
whole number must be, an unknown name) are not its task: they are told in words of its own, with
status 2.

    PYTHONPATH=python python3 -m tests.oracles.plain_list examples/station.json
"""
from __future__ import annotations

import argparse
import json
import math
import sys
from collections import defaultdict
from dataclasses import dataclass, field
from fractions import Fraction
from pathlib import Path
from typing import Any

from kidrofemba.common.companion import Refused, escaped, read_text, run_companion

NAME = "plain_list"
FORWARD, BACKWARD = "START_TO_STOP", "STOP_TO_START"
FASTEST_MM_S = 200_000
PORTS = {
    "point_switch": ("A", "B1", "B2"),
    "link": ("A", "B"),
    "crossing": ("A1", "B1", "A2", "B2"),
    "double_slip_switch": ("A1", "A2", "B1", "B2"),
}
GROUPS = {
    "point_switch": ("A_B1", "A_B2"),
    "double_slip_switch": ("A1_B1", "A1_B2", "A2_B1", "A2_B2"),
}


class NetworkFault(Exception):
    """The first fault of a network, as `list` tells it behind `network: `."""


@dataclass(frozen=True)
class Stand:
    """A detector or buffer stop on its track, with its number in the file."""

    id: str
    track: str
    position: int
    number: int


@dataclass(frozen=True)
class Stretch:
    """A part of a track that a walk covers, from the lower metre to the higher, and the way."""

    track: str
    low: int
    high: int
    way: str


@dataclass
class Passed:
    """A detector or buffer stop that a walk passes, the metres up to it, the stretches and the zone
    between it and the one before (no zone between detectors at one position)."""

    kind: str
    id: str
    way: str
    metre: int
    stretches: list[Stretch] = field(default_factory=list)
    zone: int | None = None


@dataclass(frozen=True)
class Limit:
    begin: int
    end: int
    ways: str
    speed: int


class Network:
    """A network file, and what the model makes of it."""

    def __init__(self, infra: dict[str, Any]) -> None:
        self.infra = infra
        self.length = {one["id"]: whole(one["length"]) for one in self.objects("track_sections")}
        self.detectors = self._stands("detectors")
        self.stops = self._stands("buffer_stops")
        self.detectors_on = self._by_track(self.detectors)
        self.stops_on = self._by_track(self.stops)
        self.cuts = {
            track: sorted({one.position for one in self.detectors_on[track]})
            for track in self.length
        }
        self.switch_at: dict[tuple[str, str], tuple[dict[str, Any], str]] = {}
        self._join_switches()
        self._judge_positions()
        self.zone_of: dict[tuple[str, int], int] = {}
        self.zones = self._flood()
        self.sights = self._sights()
        self.limits = self._limits()
        self.parts: dict[str, list[tuple[int, int]]] = defaultdict(list)
        for number, one in enumerate(self.objects("operational_points")):
            for part in one.get("parts", []):
                self.parts[part["track"]].append((math.floor(number_of(part["position"])), number))

    def objects(self, key: str) -> list[dict[str, Any]]:
        return self.infra.get(key, [])

    def _stands(self, key: str) -> dict[str, Stand]:
        return {
            one["id"]: Stand(one["id"], one["track"], whole(one["position"]), number)
            for number, one in enumerate(self.objects(key))
        }

    def _by_track(self, stands: dict[str, Stand]) -> dict[str, list[Stand]]:
        rows: dict[str, list[Stand]] = {track: [] for track in self.length}
        for one in stands.values():
            rows[one.track].append(one)
        for row in rows.values():
            row.sort(key=lambda one: (one.position, one.number))
        return rows

    def _join_switches(self) -> None:
        for switch in self.objects("switches"):
            for port in PORTS[switch["switch_type"]]:
                end = switch["ports"][port]["track"], switch["ports"][port]["endpoint"]
                if end in self.switch_at:
                    raise NetworkFault(f"end-twice {escaped(end[0])} {end[1]}")
                self.switch_at[end] = switch, port

    def _judge_positions(self) -> None:
        placed = [
            (one.id, one.track, one.position)
            for stands in (self.detectors, self.stops)
            for one in stands.values()
        ]
        placed += [
            (one["id"], one["track"], whole(one["position"]))
            for one in self.objects("signals")
            if is_kept(one)
        ]
        placed += [
            (one["id"], part["track"], math.floor(number_of(part["position"])))
            for one in self.objects("operational_points")
            for part in one.get("parts", [])
        ]
        for name, track, position in placed:
            if position > self.length[track]:
                raise NetworkFault(f"off-track {escaped(name)}")

    # Zones.

    def bounds(self, track: str) -> list[int]:
        """Where the pieces of a track begin and end."""
        return [0, *self.cuts[track], self.length[track]]

    def end_piece(self, track: str, end: str) -> tuple[str, int]:
        return track, 0 if end == "BEGIN" else len(self.cuts[track])

    def _flood(self) -> list[list[tuple[str, int]]]:
        """The zones, each with its pieces: a switch joins the pieces at its ports."""
        beside: dict[tuple[str, int], list[tuple[str, int]]] = defaultdict(list)
        for switch in self.objects("switches"):
            pieces = [
                self.end_piece(end["track"], end["endpoint"])
                for end in (switch["ports"][port] for port in PORTS[switch["switch_type"]])
            ]
            for piece in pieces:
                beside[piece] += pieces
        order = [
            (track, number) for track in self.length for number in range(len(self.cuts[track]) + 1)
        ]
        zones: list[list[tuple[str, int]]] = []
        for piece in order:
            if piece in self.zone_of:
                continue
            self.zone_of[piece] = len(zones)
            reached = [piece]
            for one in reached:
                for other in beside[one]:
                    if other not in self.zone_of:
                        self.zone_of[other] = len(zones)
                        reached.append(other)
            zones.append([])
        for piece in order:
            zones[self.zone_of[piece]].append(piece)
        return zones

    # Signals, speeds.

    def _sights(self) -> dict[tuple[str, str], int]:
        """The sight distance at each detector and way that has a block signal, of the nearest
        one.
        """
        found: dict[tuple[str, str], tuple[int, int]] = {}
        for signal in filter(is_kept, self.objects("signals")):
            at, way = whole(signal["position"]), signal["direction"]
            row = self.detectors_on[signal["track"]]
            ahead = (
                [one for one in row if one.position >= at][:1]
                if way == FORWARD
                else [one for one in row if one.position <= at][-1:]
            )
            for one in ahead:
                gap = abs(one.position - at)
                if (one.id, way) not in found or gap < found[one.id, way][0]:
                    found[one.id, way] = gap, math.ceil(number_of(signal["sight_distance"]))
        return {post: sight for post, (_, sight) in found.items()}

    def _limits(self) -> dict[str, list[Limit]]:
        limits: dict[str, list[Limit]] = defaultdict(list)
        for section in self.objects("speed_sections"):
            if section.get("speed_limit") is None:
                continue
            speed = min(FASTEST_MM_S, math.floor(number_of(section["speed_limit"]) * 1000))
            for one in section.get("track_ranges", []):
                begin = math.floor(number_of(one["begin"]))
                end = min(math.ceil(number_of(one["end"])), self.length[one["track"]])
                limits[one["track"]].append(Limit(begin, end, one["applicable_directions"], speed))
        return limits

    def least_speed(self, stretches: list[Stretch]) -> int:
        """The least limit that shares a length with one of the stretches, in its direction."""
        return min(
            (
                limit.speed
                for one in stretches
                for limit in self.limits.get(one.track, ())
                if limit.ways in ("BOTH", one.way)
                and min(limit.end, one.high) > max(limit.begin, one.low)
            ),
            default=FASTEST_MM_S,
        )

    def served(self, stretches: list[Stretch]) -> list[int]:
        """The operational points with a part on one of the stretches, their ends included."""
        return sorted(
            {
                number
                for one in stretches
                for at, number in self.parts.get(one.track, ())
                if one.low <= at <= one.high
            }
        )

    # Walks.

    def walk(self, route: dict[str, Any]) -> list[Passed]:
        """What a route passes, from its entry to its exit."""
        return Walk(self, route).passed

    def blocks_of(self, route: dict[str, Any], passed: list[Passed]) -> list[str]:
        """The table's words for each block of a route."""
        releases = self._releases(route, passed)
        lines = []
        cuts = self.cuts_of(passed)
        for first, last in zip(cuts, cuts[1:]):
            begin, end = passed[first], passed[last]
            inside = passed[first + 1 : last + 1]
            stretches = [stretch for one in inside for stretch in one.stretches]
            cells = []
            for one in inside:
                if one.zone is not None:
                    behind = [metre for metre in releases if metre >= one.metre]
                    cells.append(f"{one.zone} {min([*behind, end.metre]) - begin.metre}")
            is_signal = begin.kind == "Detector"
            sight = self.sights.get((begin.id, begin.way), 0) if is_signal else 0
            stops = self.served(stretches)
            names = [escaped(self.objects("operational_points")[number]["id"]) for number in stops]
            words = [
                f"length {end.metre - begin.metre} speed {self.least_speed(stretches)}",
                f"sight {sight} cells {len(cells)}",
                *cells,
                f"serves {len(stops)}",
                *names,
            ]
            lines.append(" ".join(words))
        return lines

    def cuts_of(self, passed: list[Passed]) -> list[int]:
        """Where a walk is cut: at its ends, and at detectors with a block signal."""
        return [
            at
            for at, one in enumerate(passed)
            if at in (0, len(passed) - 1)
            or one.kind == "Detector"
            and (one.id, one.way) in self.sights
        ]

    def _releases(self, route: dict[str, Any], passed: list[Passed]) -> list[int]:
        metre = {one.id: one.metre for one in passed if one.kind == "Detector"}
        return [metre[name] for name in route.get("release_detectors", [])]

    def judge_releases(self, route: dict[str, Any], passed: list[Passed]) -> None:
        on_way = {one.id for one in passed if one.kind == "Detector"}
        for name in route.get("release_detectors", []):
            if name not in on_way:
                raise NetworkFault(f"stray-release {escaped(route['id'])} {escaped(name)}")

    def judge_lengths(self, route: dict[str, Any], passed: list[Passed]) -> None:
        cuts = self.cuts_of(passed)
        for first, last in zip(cuts, cuts[1:]):
            if passed[first].metre == passed[last].metre:
                raise NetworkFault(f"empty-block {escaped(route['id'])} at {passed[last].metre}")


class Walk:
    """One route's way over a network."""

    def __init__(self, network: Network, route: dict[str, Any]) -> None:
        self.network, self.route = network, route
        entry, leave = route["entry_point"], route["exit_point"]
        stands = network.detectors if entry["type"] == "Detector" else network.stops
        first = stands[entry["id"]]
        self.goal = leave["type"], leave["id"]
        self.track, self.way, self.at = first.track, route["entry_point_direction"], first.position
        self.metre = 0
        self.passed = [Passed(entry["type"], entry["id"], self.way, 0)]
        self.fresh: list[Stretch] = []
        # Whether a detector at the present position was passed: then no zone lies up to the next
        # detector there.
        self.on_detector = entry["type"] == "Detector"
        ahead = self._ahead_of(first, entry["type"])
        while not self._follow(ahead):
            self._cross()
            ahead = self._row()

    def _row(self) -> list[tuple[str, Stand]]:
        """What lies on the present track, in the order in which a route that comes from one of its
        ends meets it: at an end the buffer stop is outermost, else it is behind the detectors."""
        length = self.network.length[self.track]
        forward = self.way == FORWARD
        first_end = 0 if forward else length
        sign = 1 if forward else -1

        def rank(entry: tuple[str, Stand]) -> tuple[int, int, int]:
            kind, one = entry
            is_stop = kind == "BufferStop"
            behind = -1 if is_stop and one.position == first_end else int(is_stop)
            return sign * one.position, behind, sign * one.number

        entries = [("Detector", one) for one in self.network.detectors_on[self.track]]
        entries += [("BufferStop", one) for one in self.network.stops_on[self.track]]
        return sorted(entries, key=rank)

    def _ahead_of(self, first: Stand, kind: str) -> list[tuple[str, Stand]]:
        """What lies ahead of a route's entry on its track."""
        row = self._row()
        length = self.network.length[self.track]
        sign = 1 if self.way == FORWARD else -1
        beyond = [(what, one) for what, one in row if sign * one.position > sign * first.position]
        there = [(what, one) for what, one in row if one.position == first.position]
        last_end = length if self.way == FORWARD else 0
        inside = 0 < first.position < length
        detectors = [entry for entry in there if entry[0] == "Detector"]
        others = [entry for entry in there if entry[0] == "BufferStop" and entry[1] is not first]
        if kind == "Detector":
            numbers = [one.number for _, one in detectors]
            detectors = detectors[numbers.index(first.number) + 1 :]
            # A buffer stop at its position is ahead, but for one at the end that the route leaves.
            stops = others if inside or first.position == last_end else []
            return detectors + stops + beyond
        exits = [entry for entry in others if inside and (entry[0], entry[1].id) == self.goal]
        if exits:
            return exits
        return ([] if first.position == last_end else detectors) + beyond

    def _follow(self, ahead: list[tuple[str, Stand]]) -> bool:
        """Goes along the present track, and tells whether the exit was reached."""
        stops = {
            one.position
            for kind, one in ahead
            if kind == "BufferStop" and (kind, one.id) == self.goal
        }
        for kind, one in ahead:
            if kind == "BufferStop" and one.position in stops and (kind, one.id) != self.goal:
                continue
            self._go_to(one.position)
            zone: int | None = self._zone(kind)
            if kind == "BufferStop" and (kind, one.id) != self.goal:
                raise NetworkFault(f"no-way {escaped(self.route['id'])} at {self.metre}")
            if kind == "Detector":
                if any(other.kind == kind and other.id == one.id for other in self.passed):
                    raise NetworkFault(f"loop {escaped(self.route['id'])}")
                zone = None if self.on_detector else zone
                self.on_detector = True
            self.passed.append(Passed(kind, one.id, self.way, self.metre, self.fresh, zone))
            self.fresh = []
            if (kind, one.id) == self.goal:
                return True
        return False

    def _go_to(self, position: int) -> None:
        low, high = sorted((self.at, position))
        self.fresh.append(Stretch(self.track, low, high, self.way))
        self.metre += high - low
        self.on_detector = self.on_detector and low == high
        self.at = position

    def _zone(self, kind: str) -> int:
        """The zone in which a route comes to the present position: up to a detector it is that of
        the piece before, up to a buffer stop with detectors at its position that of the piece
        behind.
        """
        behind = kind == "BufferStop" and self.on_detector
        cuts = self.network.cuts[self.track]
        if self.way == FORWARD:
            piece = sum(cut <= self.at if behind else cut < self.at for cut in cuts)
        else:
            piece = sum(cut < self.at if behind else cut <= self.at for cut in cuts)
        return self.network.zone_of[self.track, piece]

    def _cross(self) -> None:
        """Goes on to the end of the present track, and over the switch there."""
        network = self.network
        forward = self.way == FORWARD
        self._go_to(network.length[self.track] if forward else 0)
        self.on_detector = False
        found = network.switch_at.get((self.track, "END" if forward else "BEGIN"))
        port = None if found is None else self._port_beyond(*found)
        if found is None or port is None:
            raise NetworkFault(f"no-way {escaped(self.route['id'])} at {self.metre}")
        end = found[0]["ports"][port]
        self.track = end["track"]
        self.way = FORWARD if end["endpoint"] == "BEGIN" else BACKWARD
        self.at = 0 if self.way == FORWARD else network.length[self.track]

    def _port_beyond(self, switch: dict[str, Any], port: str) -> str | None:
        kind = switch["switch_type"]
        if kind in ("link", "crossing"):
            letter = "B" if port[0] == "A" else "A"
            return letter + port[1:]
        group = self.route.get("switches_directions", {}).get(switch["id"])
        ports = group.split("_") if group in GROUPS[kind] else []
        return next((other for other in ports if port in ports and other != port), None)


def number_of(value: Any) -> Fraction:
    """A number of the file, exactly."""
    return Fraction(value)


def whole(value: Any) -> int:
    """A whole number of the file."""
    number = number_of(value)
    if number.denominator != 1:
        raise ValueError(f"{value} is no whole number")
    return int(number)


def is_kept(signal: dict[str, Any]) -> bool:
    entries = signal.get("logical_signals", [])
    return any(entry.get("signaling_system") == "BAL" for entry in entries)


def table(path: Path) -> str:
    """The table of a network file; a fault of it raises NetworkFault."""
    try:
        # Numbers stay texts until they are wanted: geometry is never turned into numbers.
        return table_of(json.loads(read_text(path), parse_float=str))
    except json.JSONDecodeError as wrong:
        raise Refused(path, f"line {wrong.lineno}", f"no JSON: {wrong.msg}") from None
    except (KeyError, TypeError, ValueError, AttributeError) as wrong:
        raise Refused(path, "", f"not in the server's form: {wrong!r}") from None


def table_of(infra: dict[str, Any]) -> str:
    """The table of a network, whose numbers are whole, or texts."""
    network = Network(infra)
    routes = network.objects("routes")
    walks = []
    for route in routes:
        walks.append(network.walk(route))
        network.judge_releases(route, walks[-1])
    for route, passed in zip(routes, walks):
        network.judge_lengths(route, passed)
    lines: list[str] = []
    for route, passed in zip(routes, walks):
        for part, told in enumerate(network.blocks_of(route, passed)):
            lines.append(f"block {len(lines)} route {escaped(route['id'])} part {part} {told}")
    stops = len(network.objects("operational_points"))
    head = [f"zones {len(network.zones)} blocks {len(lines)} stops {stops}"]
    for number, pieces in enumerate(network.zones):
        words = []
        for track, piece in pieces:
            begin, end = network.bounds(track)[piece : piece + 2]
            words.append(f"{escaped(track)} {begin} {end}")
        head.append(f"zone {number} pieces {len(pieces)} {' '.join(words)}")
    return "\n".join(head + lines) + "\n"


def main() -> int:
    parser = argparse.ArgumentParser(
        prog=NAME, description=__doc__, formatter_class=argparse.RawDescriptionHelpFormatter
    )
    parser.add_argument("network", type=Path, metavar="NETWORK.json")
    given = parser.parse_args()
    try:
        sys.stdout.write(table(given.network))
    except NetworkFault as fault:
        raise Refused(given.network, "network", str(fault)) from None
    return 0


if __name__ == "__main__":
    sys.exit(run_companion(NAME, main))
