"""Makes small random networks in the server's form, with everything odd that the form allows:
detectors at one place and at ends of tracks, buffer stops inside tracks, rings, names of any
characters, and numbers in any spelling. Most have no fault; some have routes that lead nowhere.
"""
from __future__ import annotations

import random
from collections.abc import Callable
from typing import Any

FORWARD, BACKWARD = "START_TO_STOP", "STOP_TO_START"
PORTS = {
    "point_switch": ("A", "B1", "B2"),
    "link": ("A", "B"),
    "crossing": ("A1", "B1", "A2", "B2"),
    "double_slip_switch": ("A1", "A2", "B1", "B2"),
}
GROUPS = {
    "point_switch": ("A_B1", "A_B2"),
    "link": ("STATIC",),
    "crossing": ("STATIC", "any"),
    "double_slip_switch": ("A1_B1", "A1_B2", "A2_B1", "A2_B2"),
}
Route = dict[str, Any]
ODD_NAMES = (
    "a b",
    "50%",
    "Gen\u00e8ve",
    "\u6771\u4eac",
    "x\ty",
    '"quoted"',
    "\U0001f682",
    "-",
    "1e3",
)


class NetworkMaker:
    """One random network."""

    def __init__(self, source: random.Random) -> None:
        self.source = source
        self.infra: dict[str, list[dict[str, Any]]] = {
            key: []
            for key in (
                "track_sections",
                "switches",
                "detectors",
                "buffer_stops",
                "signals",
                "routes",
                "operational_points",
                "speed_sections",
            )
        }
        self.length: dict[str, int] = {}

    def name(self, kind: str, key: str) -> str:
        plain = f"{kind}{len(self.infra[key])}"
        if self.source.random() < 0.05:
            return plain + self.source.choice(ODD_NAMES)
        return plain

    def metres(self, value: int) -> Any:
        """A whole number in one of its spellings."""
        return self.source.choice([value, float(value), value])

    def position(self, track: str) -> int:
        length = self.length[track]
        return self.source.choice(
            [
                0,
                length,
                self.source.randint(0, length),
                self.source.randint(0, length),
                min(length, 10),
            ]
        )

    def fraction(self, track: str) -> float:
        length = self.length[track]
        return min(
            float(length), self.position(track) + self.source.choice([0, 0, 0.5, 0.001, 0.999])
        )

    def any_track(self) -> str:
        return self.source.choice(list(self.length))

    def tracks(self) -> None:
        for _ in range(self.source.randint(1, 8)):
            name = self.name("T", "track_sections")
            self.length[name] = self.source.choice([1, 2, 20, self.source.randint(1, 3000)])
            self.infra["track_sections"].append(
                {"id": name, "length": self.metres(self.length[name]), "geo": {"type": "none"}}
            )

    def switches(self) -> None:
        ends = [(track, end) for track in self.length for end in ("BEGIN", "END")]
        self.source.shuffle(ends)
        while len(ends) > 1 and self.source.random() < 0.9:
            kind = self.source.choice([one for one in PORTS if len(PORTS[one]) <= len(ends)])
            ports = {}
            for port in PORTS[kind]:
                track, end = ends.pop()
                ports[port] = {"track": track, "endpoint": end}
            self.infra["switches"].append(
                {"id": self.name("S", "switches"), "switch_type": kind, "ports": ports}
            )

    def points(self) -> None:
        for track in self.length:
            for _ in range(self.source.choice([0, 1, 2, 3, 5])):
                self.infra["detectors"].append(
                    {
                        "id": self.name("D", "detectors"),
                        "track": track,
                        "position": self.metres(self.position(track)),
                    }
                )
        for _ in range(self.source.randint(0, 3)):
            track = self.any_track()
            at = self.source.choice([0, self.length[track], self.position(track)])
            self.infra["buffer_stops"].append(
                {"id": self.name("B", "buffer_stops"), "track": track, "position": self.metres(at)}
            )

    def signals(self) -> None:
        for _ in range(self.source.randint(0, 6)):
            track = self.any_track()
            systems = self.source.choice([["BAL"], ["BAL"], ["BAPR"], ["TVM300", "BAL"], []])
            self.infra["signals"].append(
                {
                    "id": self.name("G", "signals"),
                    "track": track,
                    "position": self.metres(self.position(track)),
                    "direction": self.source.choice([FORWARD, BACKWARD]),
                    "sight_distance": self.source.choice([0, 400, 123.4, 99.999]),
                    "logical_signals": [{"signaling_system": one} for one in systems],
                }
            )

    def stations(self) -> None:
        for _ in range(self.source.randint(0, 4)):
            parts = []
            for _ in range(self.source.randint(0, 3)):
                track = self.any_track()
                parts.append({"track": track, "position": self.fraction(track)})
            self.infra["operational_points"].append(
                {"id": self.name("O", "operational_points"), "parts": parts}
            )

    def limits(self) -> None:
        for _ in range(self.source.randint(0, 4)):
            ranges = []
            for _ in range(self.source.randint(0, 3)):
                track = self.any_track()
                begin, end = self.fraction(track), self.fraction(track)
                ranges.append(
                    {
                        "track": track,
                        "begin": begin,
                        "end": end + self.source.choice([0, 0, 7.5]),
                        "applicable_directions": self.source.choice([FORWARD, BACKWARD, "BOTH"]),
                    }
                )
            limit = self.source.choice(
                [None, 22.22222222222222, 5, 83.333333333333329, 300.5, 0.001]
            )
            self.infra["speed_sections"].append(
                {
                    "id": self.name("V", "speed_sections"),
                    "speed_limit": limit,
                    "track_ranges": ranges,
                }
            )

    def route(self) -> Route | None:
        """A route between two random points, with random groups over all switches."""
        points = [("Detector", one["id"]) for one in self.infra["detectors"]]
        points += [("BufferStop", one["id"]) for one in self.infra["buffer_stops"]]
        if not points:
            return None
        entry, leave = self.source.choice(points), self.source.choice(points)
        groups = {
            one["id"]: self.source.choice(GROUPS[one["switch_type"]])
            for one in self.infra["switches"]
        }
        detectors = [name for kind, name in points if kind == "Detector"]
        releases = self.source.sample(detectors, self.source.randint(0, min(2, len(detectors))))
        return {
            "id": self.name("R", "routes"),
            "entry_point": {"type": entry[0], "id": entry[1]},
            "entry_point_direction": self.source.choice([FORWARD, BACKWARD]),
            "exit_point": {"type": leave[0], "id": leave[1]},
            "switches_directions": groups,
            "release_detectors": releases,
        }


def made_network(
    source: random.Random, judge_of: Callable[[dict[str, Any]], Callable[[Route], bool]]
) -> dict[str, Any]:
    """A random network. Of the routes that are drawn those are kept that the judge of the network
    accepts; now and then another one is kept too."""
    maker = NetworkMaker(source)
    for step in (
        maker.tracks,
        maker.switches,
        maker.points,
        maker.signals,
        maker.stations,
        maker.limits,
    ):
        step()
    is_good = judge_of(maker.infra)
    for _ in range(40):
        drawn = maker.route()
        if drawn is None or len(maker.infra["routes"]) >= 6:
            break
        for releases in (drawn["release_detectors"], []):
            drawn["release_detectors"] = releases
            if is_good(drawn) or source.random() < 0.003:
                maker.infra["routes"].append(drawn)
                break
    return maker.infra
