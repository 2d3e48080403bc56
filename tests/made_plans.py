"""Makes planned trains over a small made network, in the form in which OSRD tells them.

The network is a line of tracks through two passing stations, with detectors at fractions of metres
as an export has them; positions are rounded, and `real` tells where they were. Trains pass zones in
an order, each behind the other; how far apart they are is drawn, down to nothing.
"""
from __future__ import annotations

import random
from dataclasses import dataclass
from datetime import datetime, timedelta
from typing import Any

BEGIN = "2026-11-29T00:00:00+01:00"
FORWARD = "START_TO_STOP"


@dataclass(frozen=True)
class MadeZone:
    """A zone: its name as OSRD tells it, a place strictly within it, and whether it has a
    switch."""

    name: str
    track: str
    metre: float
    has_switch: bool


def _signal(track: str, position: int) -> dict[str, Any]:
    return {"id": f"S.{track}.{position}", "track": track, "position": position,
            "direction": FORWARD, "sight_distance": 300,
            "logical_signals": [{"signaling_system": "BAL"}]}


class MadeNetwork:
    """The network, its zones from west to east by either track, and which of its tracks is
    where."""

    def __init__(self) -> None:
        self.infra: dict[str, Any] = {key: [] for key in (
            "track_sections", "switches", "detectors", "buffer_stops", "signals", "routes",
            "operational_points", "speed_sections")}
        self.zones: list[MadeZone] = []
        self.ways: list[list[int]] = [[], []]
        self._line("A", 3_000, [700.4, 1_800.6], "", "in1")
        self._station("1", "A", "B")
        self._line("B", 4_000, [1_000.5, 2_500.25, 3_900.75], "out1", "in2")
        self._station("2", "B", "C")
        self._line("C", 2_500, [600.5], "out2", "")
        self._bound_switch_zones()

    def _track(self, name: str, length: int, places: list[float]) -> None:
        self.infra["track_sections"].append({"id": name, "length": length})
        for at, real in enumerate(places):
            self.infra["detectors"].append({"id": f"D.{name}.{at}", "track": name,
                                            "position": round(real), "real": real})

    def _line(self, name: str, length: int, places: list[float], behind: str, before: str) -> None:
        """A track between stations: zones between its detectors, and at its ends switches or
        buffer stops."""
        self._track(name, length, places)
        bounds = [f"D.{name}.{at}" for at in range(len(places))]
        spans = list(zip([0.0, *places], [*places, float(length)]))
        for at, (low, high) in enumerate(spans):
            first = f"{bounds[at - 1]}:INCREASING" if at else "" if behind else "west:INCREASING"
            last = f"{bounds[at]}:DECREASING" if at < len(bounds) else (
                "" if before else "east:DECREASING")
            if first and last:
                self._zone(f"zone.[{first}, {last}]", name, (low + high) / 2, (0, 1))

    def _zone(self, name: str, track: str, metre: float, ways: tuple[int, ...]) -> None:
        for way in ways:
            self.ways[way].append(len(self.zones))
        self.zones.append(MadeZone(name, track, metre, False))

    def _station(self, name: str, before: str, behind: str) -> None:
        """Two tracks between two switches; the switches' zones are named once all is there."""
        self._switch_zone(f"in{name}", before)
        for way, port in enumerate(("B1", "B2")):
            track = f"{name}.{port}"
            self._track(track, 800, [90.5, 710.5])
            self._zone(f"zone.[D.{track}.0:INCREASING, D.{track}.1:DECREASING]", track, 400.0,
                       (way,))
        self._switch_zone(f"out{name}", behind)
        for switch, line, end, near in ((f"in{name}", before, "END", "BEGIN"),
                                        (f"out{name}", behind, "BEGIN", "END")):
            self.infra["switches"].append({
                "id": switch, "switch_type": "point_switch", "ports": {
                    "A": {"track": line, "endpoint": end},
                    "B1": {"track": f"{name}.B1", "endpoint": near},
                    "B2": {"track": f"{name}.B2", "endpoint": near}}})

    def _switch_zone(self, switch: str, line: str) -> None:
        self.ways[0].append(len(self.zones))
        self.ways[1].append(len(self.zones))
        self.zones.append(MadeZone(switch, line, 0.0, True))

    def _bound_switch_zones(self) -> None:
        """Names the zones with switches by the detectors around them, and gives them a place."""
        row = {track["id"]: [one for one in self.infra["detectors"] if one["track"] == track["id"]]
               for track in self.infra["track_sections"]}
        length = {track["id"]: track["length"] for track in self.infra["track_sections"]}
        ports = {one["id"]: one["ports"] for one in self.infra["switches"]}
        for at, zone in enumerate(self.zones):
            if zone.has_switch:
                bounds = [f"{row[end['track']][0]['id']}:DECREASING"
                          if end["endpoint"] == "BEGIN" else
                          f"{row[end['track']][-1]['id']}:INCREASING"
                          for end in ports[zone.name].values()]
                begins = ports[zone.name]["A"]["endpoint"] == "BEGIN"
                self.zones[at] = MadeZone(f"zone.[{', '.join(sorted(bounds))}]", zone.track,
                                          1.0 if begins else length[zone.track] - 1.0, True)
        self.infra["buffer_stops"] = [{"id": "west", "track": "A", "position": 0},
                                      {"id": "east", "track": "C", "position": length["C"]}]


def zone_numbers(network: MadeNetwork, table: str) -> list[int]:
    """The number of each zone, found in a table by the place within it."""
    numbers = []
    for zone in network.zones:
        for line in table.splitlines():
            words = line.split()
            if words[0] == "zone" and any(
                    words[at] == zone.track and float(words[at + 1]) < zone.metre
                    < float(words[at + 2]) for at in range(4, len(words), 3)):
                numbers.append(int(words[1]))
    return numbers


def train(name: str, start_s: int, spacing: list[dict[str, Any]],
          routing: list[dict[str, Any]] | None = None) -> dict[str, Any]:
    """A train that starts so many seconds behind tick 0."""
    start = datetime.fromisoformat(BEGIN) + timedelta(seconds=start_s)
    return {"name": name, "start_time": start.isoformat(), "spacing_requirements": spacing,
            "routing_requirements": routing or []}


def need(zone: str, begin: int, end: int) -> dict[str, Any]:
    return {"zone": zone, "begin_time": begin, "end_time": end}


def made_plan(network: MadeNetwork, source: random.Random, count: int) -> dict[str, Any]:
    """A plan of so many trains without conflicts; times in milliseconds, some trains before
    tick 0."""
    free_at = [-20_000_000] * len(network.zones)
    trains, start = [], source.randrange(-3_000, 3_000)
    for number in range(count):
        start += source.randrange(0, 600)
        head = 1000 * start
        spacing = []
        for zone in source.choice(network.ways):
            begin = max(head - source.randrange(0, 90_000), free_at[zone])
            end = begin + source.choice((0, 1, source.randrange(200_000), 10_000))
            free_at[zone] = end + source.choice((0, 0, 1, source.randrange(12_000)))
            head = begin + source.randrange(0, 60_000)
            spacing.append(need(network.zones[zone].name, begin - 1000 * start, end - 1000 * start))
        trains.append(train(f"T {number}", start, spacing))
    return {"trains": trains}
