"""Makes infrastructures in the form in which OSRD exports them, as far as it is known: lists with
all the keys that the server passes over, routes from delimiter to delimiter, progressive release.

`small` is a made region after OSRD's example of that name, in whole metres. `fractions` is a
double track main line with a branch, as an import would give it: UUIDs, fractions of a metre,
joints closer than a metre, several signalling systems, an own type of switches. `oddities` has
one of everything that is odd. All are made anew each time, by the same numbers.
"""
from __future__ import annotations

import json
import random
import uuid
from collections.abc import Callable, Iterator
from dataclasses import dataclass, field
from typing import Any

FORWARD, BACKWARD = "START_TO_STOP", "STOP_TO_START"
BEGIN, END = "BEGIN", "END"
Ways = dict[str, list[tuple[str, str]]]
TYPES: dict[str, Ways] = {
    "link": {"STATIC": [("A", "B")]},
    "point_switch": {"A_B1": [("A", "B1")], "A_B2": [("A", "B2")]},
    "crossing": {"STATIC": [("A1", "B1"), ("A2", "B2")]},
    "single_slip_switch": {"STATIC": [("A1", "B1"), ("A2", "B2")], "A1_B2": [("A1", "B2")]},
    "double_slip_switch": {f"A{a}_B{b}": [(f"A{a}", f"B{b}")] for a in (1, 2) for b in (1, 2)},
}
NAMESPACE = uuid.UUID("6ba7b810-9dad-11d1-80b4-00c04fd430c8")
Json = dict[str, Any]


def plain_id(kind: str, label: str) -> str:
    return label


def uuid_of(kind: str, label: str) -> str:
    return str(uuid.uuid5(NAMESPACE, kind + label))


@dataclass
class ExportMaker:
    """An export under construction. Things are named by labels; `ident` makes their ids."""

    ident: Callable[[str, str], str] = plain_id
    own_types: dict[str, Ways] = field(default_factory=dict)
    tracks: dict[str, Json] = field(default_factory=dict)
    switches: dict[str, Json] = field(default_factory=dict)
    detectors: list[Json] = field(default_factory=list)
    stops: list[Json] = field(default_factory=list)
    signals: list[Json] = field(default_factory=list)
    stations: list[Json] = field(default_factory=list)
    limits: list[Json] = field(default_factory=list)
    at_end: dict[tuple[str, str], tuple[str, str]] = field(default_factory=dict)
    # Detectors and ways at which routes end.
    delimiters: set[tuple[str, str]] = field(default_factory=set)

    def length(self, track: str) -> float:
        return self.tracks[track]["length"]

    def track(self, label: str, length: float, line: int | None = 500000, number: int = 1) -> str:
        name = self.ident("track", label)
        self.tracks[name] = {
            "id": name,
            "length": length,
            "slopes": [],
            "curves": [],
            "loading_gauge_limits": [],
            "geo": None,
            "extensions": {
                "sncf": {
                    "line_code": line,
                    "line_name": f"line {line}",
                    "track_number": number,
                    "track_name": f"V{number}",
                },
                "source": {"name": "made", "id": label},
            },
        }
        return name

    def switch(self, label: str, kind: str, **ports: tuple[str, str]) -> str:
        name = self.ident("node", label)
        for port, end in ports.items():
            if end in self.at_end:
                raise ValueError(f"{label}: {end} is taken")
            self.at_end[end] = name, port
        self.switches[name] = {
            "id": name,
            "switch_type": kind,
            "extensions": {"sncf": {"label": label}},
            "group_change_delay": 0.0 if kind in ("link", "crossing") else 4.0,
            "ports": {
                port: {"endpoint": end, "track": track} for port, (track, end) in ports.items()
            },
        }
        return name

    def detector(self, label: str, track: str, position: float) -> str:
        name = self.ident("det", label)
        self.detectors.append(
            {"id": name, "track": track, "position": position, "extensions": {"sncf": {"kp": ""}}}
        )
        return name

    def stop(self, label: str, track: str, position: float) -> str:
        name = self.ident("buf", label)
        self.stops.append({"id": name, "track": track, "position": position, "extensions": None})
        return name

    def signal(
        self,
        label: str,
        track: str,
        position: float,
        way: str,
        ends_route: bool = True,
        systems: tuple[str, ...] = ("BAL",),
        sight: float = 400.0,
        settings: dict[str, str] | None = None,
    ) -> str:
        name = self.ident("sig", label)
        logical = [
            {
                "signaling_system": system,
                "next_signaling_systems": [system],
                "settings": {"Nf": "true" if ends_route else "false"} | (settings or {}),
                "default_parameters": {"jaune_cli": "false"} if system == "BAL" else {},
                "conditional_parameters": [],
            }
            for system in systems
        ]
        self.signals.append(
            {
                "id": name,
                "track": track,
                "position": position,
                "direction": way,
                "sight_distance": sight,
                "logical_signals": logical,
                "extensions": {"sncf": {"label": label, "side": "LEFT", "kp": ""}},
            }
        )
        if ends_route:
            ahead = self._detector_ahead(track, position, way)
            if ahead is not None:
                self.delimiters.add((ahead, way))
        return name

    def _detector_ahead(self, track: str, position: float, way: str) -> str | None:
        own = [
            one
            for one in self.detectors
            if one["track"] == track
            and (one["position"] >= position if way == FORWARD else one["position"] <= position)
        ]
        own.sort(key=lambda one: one["position"], reverse=way == BACKWARD)
        return own[0]["id"] if own else None

    def station(
        self, label: str, parts: list[tuple[str, float]], number: int, code: str = "BV"
    ) -> str:
        name = self.ident("op", label)
        self.stations.append(
            {
                "id": name,
                "weight": 50,
                "parts": [
                    {"track": track, "position": position, "extensions": {"sncf": {"kp": ""}}}
                    for track, position in parts
                ],
                "extensions": {
                    "sncf": {
                        "ci": number,
                        "ch": code,
                        "ch_short_label": code,
                        "trigram": label[:3].upper(),
                        "ch_long_label": "B\u00e2timent voyageurs",
                    },
                    "identifier": {"name": label.replace("_", " "), "uic": 87000000 + number},
                },
            }
        )
        return name

    def limit(
        self,
        label: str,
        speed: float | None,
        ranges: list[tuple[str, float, float, str]],
        tags: dict[str, float] | None = None,
    ) -> None:
        self.limits.append(
            {
                "id": self.ident("speed", label),
                "speed_limit": speed,
                "speed_limit_by_tag": tags or {},
                "track_ranges": [
                    {"track": track, "begin": begin, "end": end, "applicable_directions": way}
                    for track, begin, end, way in ranges
                ],
                "on_routes": None,
                "extensions": {"psl_sncf": None},
            }
        )

    def everywhere(self, tracks: list[str] | None = None) -> list[tuple[str, float, float, str]]:
        """A range over all of each track."""
        return [(track, 0.0, self.length(track), "BOTH") for track in tracks or self.tracks]

    # Routes.

    def rows(self) -> dict[str, list[tuple[float, str, str]]]:
        """What lies on each track from BEGIN to END: position, type and id."""
        rows: dict[str, list[tuple[float, str, str]]] = {track: [] for track in self.tracks}
        for kind, points in (("Detector", self.detectors), ("BufferStop", self.stops)):
            for one in points:
                rows[one["track"]].append((one["position"], kind, one["id"]))
        for row in rows.values():
            row.sort()
        return rows

    def routes(self, most_switches: int = 40) -> list[Json]:
        """All routes from delimiter to delimiter, each way round every switch."""
        rows = self.rows()
        place = {one["id"]: one for one in self.detectors}
        starts = [
            (
                "BufferStop",
                one["id"],
                one["track"],
                one["position"],
                FORWARD if one["position"] == 0 else BACKWARD,
            )
            for one in self.stops
        ]
        starts += [
            ("Detector", name, place[name]["track"], place[name]["position"], way)
            for name, way in sorted(self.delimiters)
        ]
        made: list[Json] = []
        for kind, name, track, position, way in starts:
            for route in self._routes_from(rows, track, position, way, most_switches):
                if route["exit_point"]["id"] != name:
                    made.append(
                        route
                        | {
                            "id": f"rt.{name}->{route['exit_point']['id']}",
                            "entry_point": {"type": kind, "id": name},
                            "entry_point_direction": way,
                        }
                    )
        count: dict[str, int] = {}
        for route in made:
            number = count[route["id"]] = count.get(route["id"], 0) + 1
            route["id"] += f"_{number}" if number > 1 else ""
        return made

    def _routes_from(
        self,
        rows: dict[str, list[tuple[float, str, str]]],
        track: str,
        position: float,
        way: str,
        most: int,
    ) -> Iterator[Json]:
        """The ends of all routes from a place on."""
        waiting: list[tuple[str, float, str, list[str], dict[str, str]]] = [
            (track, position, way, [], {})
        ]
        while waiting:
            track, position, way, releases, groups = waiting.pop()
            releases, found = list(releases), None
            for at, kind, name in rows[track] if way == FORWARD else rows[track][::-1]:
                if (at > position) if way == FORWARD else (at < position):
                    if kind == "BufferStop" or (name, way) in self.delimiters:
                        found = {"type": kind, "id": name}
                        break
                    releases.append(name)
            if found is not None:
                yield {
                    "exit_point": found,
                    "release_detectors": releases,
                    "switches_directions": groups,
                }
            elif len(groups) < most:
                for next_track, next_way, switch, group in self._beyond(track, way):
                    if switch not in groups:
                        begin = -1.0 if next_way == FORWARD else float("inf")
                        waiting.append(
                            (next_track, begin, next_way, releases, groups | {switch: group})
                        )

    def _beyond(self, track: str, way: str) -> Iterator[tuple[str, str, str, str]]:
        """Each way over the switch at the end of a track: the track, the way along it, the switch
        and the group.
        """
        found = self.at_end.get((track, END if way == FORWARD else BEGIN))
        if found is None:
            return
        switch = self.switches[found[0]]
        types = TYPES | self.own_types
        for group, pairs in types[switch["switch_type"]].items():
            for pair in pairs:
                if found[1] in pair:
                    port = pair[1] if pair[0] == found[1] else pair[0]
                    end = switch["ports"][port]
                    yield (
                        end["track"],
                        FORWARD if end["endpoint"] == BEGIN else BACKWARD,
                        found[0],
                        group,
                    )

    # The whole.

    def export(self, points: int = 2) -> Json:
        """The export, with so many points of geometry for each track."""
        for number, track in enumerate(self.tracks.values()):
            track["geo"] = {
                "type": "LineString",
                "coordinates": [
                    [2.3 + number * 1e-3 + at * 1.234567e-5, 48.8 + at * 1.2345678e-5]
                    for at in range(points)
                ],
            }
        types = [
            {
                "id": name,
                "ports": sorted(
                    {port for pairs in groups.values() for pair in pairs for port in pair}
                ),
                "groups": {
                    group: [{"src": source, "dst": sink} for source, sink in pairs]
                    for group, pairs in groups.items()
                },
            }
            for name, groups in self.own_types.items()
        ]
        wires = [
            {
                "id": self.ident("el", "e0"),
                "voltage": "25000V",
                "track_ranges": [
                    {"track": track, "begin": begin, "end": end, "applicable_directions": way}
                    for track, begin, end, way in self.everywhere()
                ],
            }
        ]
        return {
            "version": "3.4.12",
            "operational_points": self.stations,
            "routes": self.routes(),
            "extended_switch_types": types,
            "switches": list(self.switches.values()),
            "track_sections": list(self.tracks.values()),
            "speed_sections": self.limits,
            "electrifications": wires,
            "signals": self.signals,
            "buffer_stops": self.stops,
            "detectors": self.detectors,
            "neutral_sections": [],
        }


def begin(track: str) -> tuple[str, str]:
    return track, BEGIN


def end(track: str) -> tuple[str, str]:
    return track, END


def small(slip: str = "single_slip_switch") -> Json:
    """A region of seven stations with all built-in types of switches, in whole metres; the slip
    before its last stations is of this type."""
    make = ExportMaker()
    lengths = dict(
        TA0=2000,
        TA1=1950,
        TA2=1950,
        TA3=50,
        TA4=50,
        TA5=50,
        TA6=10000,
        TA7=10000,
        TB0=3000,
        TB1=200,
        TC0=1050,
        TC1=1000,
        TC2=1000,
        TC3=1050,
        TD0=25000,
        TD1=25000,
        TD2=2000,
        TD3=3000,
        TE0=1500,
        TE1=2000,
        TE2=2000,
        TE3=1500,
        TF0=3,
        TF1=6500,
        TG0=1000,
        TG1=4000,
        TG2=3000,
        TG3=3000,
        TG4=2000,
        TG5=2000,
        TH0=1000,
        TH1=5000,
    )
    for name, length in lengths.items():
        make.track(name, float(length))
    for name, kind, ports in (
        ("PA0", "point_switch", dict(A=begin("TA3"), B1=end("TA1"), B2=end("TA2"))),
        ("PA2", "point_switch", dict(A=begin("TA6"), B1=end("TA0"), B2=begin("TA4"))),
        ("PA3", "point_switch", dict(A=begin("TA7"), B1=end("TA3"), B2=begin("TA5"))),
        ("LA0", "link", dict(A=end("TA4"), B=end("TB1"))),
        ("PB0", "point_switch", dict(A=end("TB0"), B1=begin("TB1"), B2=end("TA5"))),
        ("PC0", "point_switch", dict(A=end("TA6"), B1=begin("TC0"), B2=begin("TC1"))),
        ("PC1", "point_switch", dict(A=end("TA7"), B1=begin("TC3"), B2=begin("TC2"))),
        ("PC2", "point_switch", dict(A=begin("TD0"), B1=end("TC0"), B2=end("TC1"))),
        ("PC3", "point_switch", dict(A=begin("TD1"), B1=end("TC3"), B2=end("TC2"))),
        (
            "PD0",
            "double_slip_switch",
            dict(A1=end("TD0"), A2=end("TD1"), B1=begin("TD2"), B2=begin("TD3")),
        ),
        ("PE0", "point_switch", dict(A=end("TD2"), B1=begin("TE0"), B2=begin("TE1"))),
        ("PE1", "point_switch", dict(A=end("TD3"), B1=begin("TE3"), B2=begin("TE2"))),
        ("PF0", "crossing", dict(A1=end("TE0"), B1=begin("TG0"), A2=end("TE3"), B2=begin("TF0"))),
        ("LF0", "link", dict(A=end("TF0"), B=begin("TF1"))),
        ("PG0", slip, dict(A1=end("TE1"), A2=end("TE2"), B1=begin("TG1"), B2=begin("TH0"))),
        ("PG1", "point_switch", dict(A=end("TG0"), B1=begin("TG2"), B2=begin("TG3"))),
        ("PG2", "point_switch", dict(A=end("TG1"), B1=begin("TG4"), B2=begin("TG5"))),
        ("LH0", "link", dict(A=end("TH0"), B=begin("TH1"))),
    ):
        make.switch(name, kind, **ports)
    for number, track in enumerate(("TA0", "TA1", "TA2", "TB0")):
        make.stop(f"buffer_stop.{number}", track, 0.0)
    for number, track in enumerate(("TF1", "TG2", "TG3", "TG4", "TG5", "TH1")):
        make.stop(f"buffer_stop.{number + 4}", track, float(lengths[track]))
    for name, length in lengths.items():
        if length >= 500:
            _block_signals(make, name, length)
    for number, (name, parts) in enumerate(
        (
            ("West_station", [("TA0", 700.0), ("TA1", 500.0), ("TA2", 500.0)]),
            ("South_West_station", [("TB0", 500.0)]),
            ("Mid_West_station", [("TC0", 550.0), ("TC1", 550.0), ("TC2", 450.0), ("TC3", 450.0)]),
            ("Mid_East_station", [("TD0", 14000.0), ("TD1", 14000.0)]),
            ("North_station", [("TG2", 1500.0), ("TG3", 1500.0), ("TG4", 1000.0), ("TG5", 1000.0)]),
            ("South_station", [("TF1", 4000.0)]),
            ("South_East_station", [("TH1", 4400.0)]),
        )
    ):
        make.station(name, parts, number + 1)
    make.limit("speed_section.0", 83.333333, make.everywhere())
    make.limit(
        "speed_section.1",
        39.444444,
        [("TH0", 500.0, 1000.0, "BOTH"), ("TH1", 0.0, 4000.0, "BOTH")],
        {"MA100": 27.777778},
    )
    return make.export()


def _block_signals(make: ExportMaker, track: str, length: int) -> None:
    """Joints about each 1,500 m of a track, with a signal 20 m before each, in both ways."""
    count = max(1, round(length / 1500)) if length > 3500 else 1
    places = [200.0, *(float(round(at * length / count)) for at in range(1, count)), length - 200.0]
    for number, place in enumerate(places):
        make.detector(f"D{track[1:]}_{number}", track, place)
    for number, place in enumerate(places):
        outer = number in (0, len(places) - 1)
        if number > 0:
            make.signal(f"S{track[1:]}_{number}", track, place - 20.0, FORWARD, outer)
        if number < len(places) - 1:
            make.signal(f"S{track[1:]}_{number}r", track, place + 20.0, BACKWARD, outer)


class MainLine:
    """A double track main line with so many stations, as an import would give it."""

    def __init__(self, stations: int, seed: int) -> None:
        self.stations, self.source = stations, random.Random(seed)
        self.make = ExportMaker(
            uuid_of, {"three_way_stub": {"TO_L": [("IN", "L")], "TO_R": [("IN", "R")]}}
        )
        # The first and the last section of each line behind a station, by station and track.
        self.lines: dict[tuple[int, int], tuple[str, str]] = {}
        self.crossed: dict[int, tuple[str, str]] = {}

    def some(self, low: float, high: float) -> float:
        return round(self.source.uniform(low, high), self.source.choice([1, 2, 4, 6, 9]))

    def line(self, at: int, number: int) -> None:
        """The line behind a station: three sections, cut by automatic signals in both directions.
        """
        make = self.make
        parts = [
            make.track(f"L{at}V{number}s{part}", self.some(5500, 7500), 570000, number)
            for part in range(3)
        ]
        for part in (0, 1):
            make.switch(
                f"link{at}V{number}{part}", "link", A=end(parts[part]), B=begin(parts[part + 1])
            )
        for part, track in enumerate(parts):
            self.joints(at, number, part, track)
        self.lines[at, number] = parts[0], parts[2]

    def joints(self, at: int, number: int, part: int, track: str) -> None:
        make, length = self.make, self.make.length(track)
        places = []
        place = self.some(20, 60) if part == 0 else self.some(200, 800)
        while place < length - 250:
            places.append(round(place, 9))
            place += self.some(1350, 1750)
        if part == 2:
            places.append(round(length - self.some(40, 60), 9))
        for count, place in enumerate(places):
            make.detector(f"d{at}{number}{part}{count}", track, place)
        systems = {self.stations - 3: ("BAPR",), 2: ("BAL", "ETCS_LEVEL2")}.get(at, ("BAL",))
        for count, place in enumerate(places):
            first, last = (part, count) == (0, 0), (part, count) == (2, len(places) - 1)
            label = f"{at}{number}{part}{count}"
            if not first:
                gap = min(self.some(19, 26), place / 2)
                make.signal(
                    f"s{label}",
                    track,
                    round(place - gap, 6),
                    FORWARD,
                    last,
                    systems,
                    self.some(150, 400),
                )
            if not last:
                gap = min(self.some(19, 26), (length - place) / 2)
                make.signal(
                    f"r{label}",
                    track,
                    round(place + gap, 6),
                    BACKWARD,
                    first,
                    systems,
                    self.some(150, 400),
                )
            if systems == ("BAPR",) and not first:
                make.signal(
                    f"a{label}",
                    track,
                    round(max(0.25, place - 1200.75), 6),
                    FORWARD,
                    False,
                    systems,
                    settings={"distant": "true"},
                )

    def platforms(self, at: int) -> dict[int, str]:
        """A station's tracks: 1 and 2 go through, -1 and -2 are sidings."""
        make = self.make
        tracks: dict[int, str] = {}
        for number in (1, 2):
            tracks[number] = make.track(f"M{at}V{number}", self.some(850, 1200), 570000, number)
            tracks[-number] = make.track(
                f"S{at}V{number}", self.some(800, 1000), 570000, number + 2
            )
            for kind, track in (("m", tracks[number]), ("s", tracks[-number])):
                west = self.some(30, 60)
                east = round(make.length(track) - self.some(30, 60), 6)
                make.detector(f"{kind}w{at}{number}", track, west)
                make.detector(f"{kind}e{at}{number}", track, east)
                systems = ("BAL", "TVM300") if at == 4 else ("BAL",)
                make.signal(
                    f"{kind}se{at}{number}",
                    track,
                    round(east - self.some(2, 25), 6),
                    FORWARD,
                    systems=systems,
                    sight=self.some(100, 300),
                )
                make.signal(
                    f"{kind}sw{at}{number}",
                    track,
                    round(west + self.some(2, 25), 6),
                    BACKWARD,
                    sight=self.some(100, 300),
                )
        make.station(
            f"Station_{at}",
            [(tracks[one], self.some(300, 600)) for one in (1, 2, -1, -2)],
            100 + at,
        )
        if at % 3 == 1:
            make.station(
                f"Station_{at}_freight",
                [(tracks[one], self.some(300, 600)) for one in (-1, -2)],
                100 + at,
                "FR",
            )
        return tracks

    def west_end(self, tracks: dict[int, str]) -> None:
        """Where the main line begins: two buffer stops, and an own type of switches."""
        for number in (1, 2):
            head = self.make.track(f"H{number}", self.some(300, 400), 570000, number)
            self.make.stop(f"bw{number}", head, 0.0)
            ends = end(head), begin(tracks[number]), begin(tracks[-number])
            if number == 2:
                self.make.switch("w02", "three_way_stub", IN=ends[0], L=ends[1], R=ends[2])
            else:
                self.make.switch("w01", "point_switch", A=ends[0], B1=ends[1], B2=ends[2])

    def west_throat(self, at: int, tracks: dict[int, str]) -> None:
        """The tracks come together before a station: by a slip, or by a crossover."""
        make = self.make
        ins = {number: self.lines[at - 1, number][1] for number in (1, 2)}
        stub = {
            number: make.track(f"W{at}V{number}", self.some(25, 70), 570000, number)
            for number in (1, 2)
        }
        if at in (3, 5):
            make.switch(
                f"slip{at}",
                "double_slip_switch" if at == 3 else "single_slip_switch",
                A1=end(ins[1]),
                A2=end(ins[2]),
                B1=begin(stub[1]),
                B2=begin(stub[2]),
            )
        else:
            over = make.track(f"X{at}w", self.some(40, 80), 570000)
            last = over
            if at == 2:
                # A track of a third of a metre, as joins of imported halves have it.
                last = make.track("tiny", 0.3127, 570000)
                make.switch("tinylink", "link", A=end(over), B=begin(last))
            make.switch(f"xa{at}", "point_switch", A=end(ins[1]), B1=begin(stub[1]), B2=begin(over))
            make.switch(f"xb{at}", "point_switch", A=begin(stub[2]), B1=end(ins[2]), B2=end(last))
        for number in (1, 2):
            make.switch(
                f"w{at}{number}",
                "point_switch",
                A=end(stub[number]),
                B1=begin(tracks[number]),
                B2=begin(tracks[-number]),
            )

    def east_throat(self, at: int, tracks: dict[int, str]) -> None:
        make = self.make
        for number in (1, 2):
            ports = dict(B1=end(tracks[number]), B2=end(tracks[-number]))
            if at == self.stations - 1:
                head = make.track(f"E{number}", self.some(300, 400), 570000, number)
                make.stop(f"be{number}", head, make.length(head))
            else:
                self.line(at, number)
                head = self.lines[at, number][0]
                if at == 6:
                    # The branch crosses between this stub and the line.
                    gap = make.track(f"G{number}", self.some(40, 60), 570000, number)
                    self.crossed[number] = gap, head
                    head = gap
            make.switch(f"e{at}{number}", "point_switch", A=begin(head), **ports)

    def branch(self) -> None:
        """A single track that crosses the main line on the level."""
        make = self.make
        north = make.track("BRn", self.some(3000, 4000), 571000)
        middle = make.track("BRm", self.some(8, 12), 571000)
        south = make.track("BRs", self.some(3000, 4000), 571000)
        for number, (first, second) in ((1, (north, middle)), (2, (middle, south))):
            make.switch(
                f"cross{number}",
                "crossing",
                A1=end(self.crossed[number][0]),
                B1=begin(self.crossed[number][1]),
                A2=end(first),
                B2=begin(second),
            )
        make.stop("bn", north, 0.0)
        make.stop("bs", south, make.length(south))
        make.detector("bnd", north, round(make.length(north) - 45.5517, 6))
        make.signal("bns", north, round(make.length(north) - 66.25, 6), FORWARD)
        make.detector("bsd", south, 41.4142)
        make.signal("bss", south, 61.8034, BACKWARD)
        make.station("Branch_north", [(north, 1200.5)], 300)
        make.station("Branch_south", [(south, 1200.5)], 301)

    def close_joints(self) -> None:
        """Two joints 0.3 m apart, each with a signal, and a signal whose joint is behind a link."""
        make, track = self.make, self.lines[0, 1][0]
        make.detector("closeA", track, 3000.1)
        make.detector("closeB", track, 3000.4)
        make.signal("closeAs", track, 3000.05, FORWARD, False)
        make.signal("closeBs", track, 3000.3, FORWARD, False)
        make.signal("beyond", track, round(make.length(track) - 5.5, 6), FORWARD, False)

    def speeds(self) -> None:
        make = self.make
        make.limit(
            "line",
            44.44444444444444,
            make.everywhere(),
            {"MA100": 27.77777777777778, "ME120": 33.333333333333336, "E32C": 36.11111111111111},
        )
        short = [track for track in make.tracks if make.length(track) < 100]
        make.limit(
            "throats", 16.666666666666668, make.everywhere(short), {"MA100": 11.11111111111111}
        )
        # From each station to the first joint of the line behind it.
        joint = {track: min(at for at, _, _ in row) for track, row in make.rows().items() if row}
        make.limit(
            "station ends",
            11.11111111111111,
            [(first, 0.0, joint[first], "BOTH") for first, _ in self.lines.values()],
        )


def fractions(stations: int = 10, seed: int = 7, points: int = 12) -> Json:
    """A double track main line with a branch, with UUIDs and fractions of a metre."""
    made = MainLine(stations, seed)
    for at in range(stations):
        tracks = made.platforms(at)
        if at == 0:
            made.west_end(tracks)
        else:
            made.west_throat(at, tracks)
        made.east_throat(at, tracks)
    if 6 in {at for at, _ in made.lines}:
        made.branch()
    made.close_joints()
    made.speeds()
    return made.make.export(points)


def write_large(out: Any, megabytes: int, stations: int = 400) -> None:
    """Writes an export of about so many megabytes: a main line with geometry at each few metres."""
    infra = fractions(stations, points=2)
    bare = len(json.dumps(infra))
    tracks = len(infra["track_sections"])
    points = max(2, int((megabytes * 1e6 - bare) / tracks / 37))
    for number, track in enumerate(infra["track_sections"]):
        track["geo"]["coordinates"] = [
            [2.3 + number * 1e-3 + at * 1.234567e-5, 48.8 + at * 1.2345678e-5]
            for at in range(points)
        ]
    out.write(json.dumps(infra, ensure_ascii=False))


# Names and types of the odd export.
ODD_TRACK = "voie  Gen\u00e8ve \u2013 \u6771\u4eac 50%"
ODD_TYPES: dict[str, Ways] = {
    # One port against two, with its pairs told from either side, as an own type may have them.
    "reversed fork": {"left": [("L", "stem")], "right": [("stem", "R")]},
    # Two ways that never meet, under names of their own.
    "diamond": {"only": [("nw", "se"), ("ne", "sw")]},
    # Three of the four ways of a double slip, and a group with two pairs.
    "half slip": {"straight": [("a", "c"), ("b", "d")], "bent": [("a", "d")]},
    # What the server has nothing like.
    "three ways": {"1": [("in", "o1")], "2": [("in", "o2")], "3": [("in", "o3")]},
    "triangle": {"x": [("p", "q")], "y": [("q", "r")], "z": [("r", "p")]},
}


def oddities() -> Json:
    """One of everything odd that the importer takes: nothing in it is a fault."""
    make = ExportMaker(own_types=ODD_TYPES)
    west = _odd_west(make)
    east = _odd_station(make, west)
    _odd_east(make, east)
    make.station("Gen\u00e8ve Cornavin", [(ODD_TRACK, 120.25)], 1)
    make.station("Gen\u00e8ve  Cornavin", [(ODD_TRACK, 400.5)], 2)
    make.station("\u6771\u4eac", [("P1", 400.25), ("P2", 400.25)], 3, "")
    make.station("East 100%", [("C", 700.125)], 4)
    make.station("nowhere", [], 5)
    make.station("lost", [("Q1", 10.0)], 6)
    make.signals[0]["logical_signals"][0]["settings"] = None
    make.signals.append(
        {
            "id": "no logic",
            "track": "C",
            "position": 3,
            "direction": FORWARD,
            "sight_distance": 1,
            "logical_signals": None,
        }
    )
    infra = make.export()
    _odd_routes(infra)
    _odd_keys(infra)
    return infra


def _odd_west(make: ExportMaker) -> str:
    """A line from a buffer stop, over a track of a fifth of a metre, with joints as close as can
    be.
    """
    make.track(ODD_TRACK, 1000.4, 7)
    make.track("tiny", 0.2, 7)
    make.track("B", 2000.75, 7)
    make.switch("l1", "link", A=end(ODD_TRACK), B=begin("tiny"))
    make.switch("l2", "link", B=end("tiny"), A=begin("B"))
    make.stop("stop w", ODD_TRACK, 0.0)
    # At the buffer stop's very place, with a signal there.
    make.detector("at stop", ODD_TRACK, 0.0)
    make.signal("s at stop", ODD_TRACK, 0.0, FORWARD, False)
    # At both sides of a link, with a signal each; and a signal before the first.
    make.detector("before link", ODD_TRACK, 1000.4)
    make.detector("in tiny", "tiny", 0.0)
    make.signal("s before link", ODD_TRACK, 980.0, FORWARD, False)
    make.signal("s in tiny", "tiny", 0.0, FORWARD, False)
    for name, place in (
        ("j1", 500.0),
        ("j2", 500.3),
        ("k1", 900.1),
        ("k2", 900.2),
        ("k3", 900.3),
        ("k4", 900.4),
        ("twin 1", 1200),
        ("twin 2", 1200.0),
        ("home", 1.95e3),
    ):
        make.detector(name, "B", place)
    for name, place in (("j1", 499.9), ("j2", 500.2), ("k4", 899.0), ("twin 1", 1190.0)):
        make.signal(f"s {name}", "B", place, FORWARD, False)
    make.signal("s home", "B", 1930.5, FORWARD, systems=("TVM300", "BAL"))
    make.signal(
        "s home distant", "B", 1000.0, FORWARD, False, ("BAPR",), settings={"distant": "true"}
    )
    make.signal("s bapr", "B", 1500.0, FORWARD, False, ("BAPR",))
    return "B"


def _odd_station(make: ExportMaker, before: str) -> str:
    """Three tracks behind own types of switches, and types that cannot be had."""
    for name, length in (("P1", 800.5), ("P2", 800.25), ("C", 1500.0), ("D", 700.0)):
        make.track(name, length, None if name == "D" else 7)
    make.switch("fork", "reversed fork", stem=end(before), L=begin("P1"), R=begin("P2"))
    make.switch("slip", "half slip", a=end("P1"), b=end("P2"), c=begin("C"), d=begin("D"))
    # A signal before the facing fork, whose detectors lie on both tracks behind.
    make.signal("s two ways", before, 1990.0, FORWARD, False, sight=77.7)
    for name in ("P1", "P2"):
        make.detector(f"{name} in", name, 50.5)
        make.detector(f"{name} out", name, make.length(name) - 49.9)
        make.signal(f"s {name}", name, make.length(name) - 60.2, FORWARD, sight=250.01)
    return "C"


def _odd_east(make: ExportMaker, before: str) -> None:
    """The end of the line, and beside it tracks at types that cannot be had."""
    make.detector("C in", before, 40.0)
    make.detector("C beyond", before, 1500.0000000001)
    make.stop("stop e", before, 1500.0)
    make.stop("stop d", "D", 700.0)
    for name in ("Q1", "Q2", "Q3", "Q4", "R1", "R2", "R3", "X1", "X2", "X3", "X4"):
        make.track(name, 300.0, 8)
    make.switch(
        "triple",
        "three ways",
        **{"in": end("Q1"), "o1": begin("Q2"), "o2": begin("Q3"), "o3": begin("Q4")},
    )
    make.switch("wye", "triangle", p=end("R1"), q=end("R2"), r=end("R3"))
    make.switch("cross", "diamond", nw=end("X1"), se=begin("X2"), ne=begin("X3"), sw=end("X4"))
    for name in ("Q1", "R1", "X1", "X4"):
        make.stop(f"stop {name}", name, 0.0)
    for name in ("Q2", "X2", "X3"):
        make.stop(f"stop {name}", name, 300.0)
    make.stop("stop R2", "R2", 0.0)
    make.limit(
        "line", 44.44444444444444, make.everywhere(), {"MA100": 27.77777777777778, "E32C": 20}
    )
    # It ends at a joint, and so does the next, but for the sum's last digit; and one goes on 0.3 m.
    make.limit("to joint", 11.1, [("B", 0.0, 500.3, "BOTH")])
    make.limit("from joint", 12.2, [("B", 900.4000000000001, 1200.0000000001, FORWARD)])
    make.limit("past joint", 13.3, [("P1", 0.0, 50.8, "BOTH")])
    make.limit("short", 5.5, [("P2", 400.1, 400.3, "BOTH")])
    make.limit("nothing", 1.0, [("P2", 400.0, 400.0, "BOTH"), ("P1", 900.0, 901.0, "BOTH")])
    make.limit("tags only", None, [("C", 0.0, 10.0, "BOTH")], {"E32C": 3.0})
    make.limit("none", None, [("C", 0.0, 10.0, "BOTH")])
    make.limit("fast", 500.0, [("C", 0.0, 10.0, "BOTH")])


def _odd_routes(infra: Json) -> None:
    """Routes that lead nowhere, that share blocks with other release detectors, and absent lists.
    """
    routes = {one["id"]: one for one in infra["routes"]}
    first = routes["rt.stop w->home"]
    first["release_detectors"] = ["j1", "k4", "P1 in"]
    short = json.loads(json.dumps(first)) | {
        "id": "rt short",
        "exit_point": {"type": "Detector", "id": "twin 2"},
        "release_detectors": ["k2", "k4"],
    }
    astray = json.loads(json.dumps(first)) | {
        "id": "rt astray",
        "exit_point": {"type": "Detector", "id": "C in"},
        "switches_directions": None,
    }
    infra["routes"] += [short, astray]
    for route in infra["routes"]:
        if not route["release_detectors"]:
            del route["release_detectors"]


def _odd_keys(infra: Json) -> None:
    """Keys that nobody knows, at each level, and lists that are null."""
    infra["no such list"] = [{"id": "T", "deep": [[[[{}]]]]}]
    infra["a number"] = 12345678901234567890
    infra["nothing"] = None
    for key, objects in infra.items():
        if isinstance(objects, list) and objects and key != "no such list":
            objects[0]["further"] = {"key": ["\U0001f682", None, True, 1e-7]}
    infra["operational_points"][0]["extensions"] = None
    infra["switches"][0]["ports"]["A"]["further"] = 1
