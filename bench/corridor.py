"""Makes the RailJSON file of a corridor: single tracks with block signals, and stations of two tracks, all run from west to east.

A corridor has so many sections and a station between each two. A section is one track that is cut into blocks by its signals; a station is a
main track and a siding between two switches. Geometry that the program passes over makes the file as large as an exported one.
"""
from __future__ import annotations

import argparse
import json
from dataclasses import dataclass
from pathlib import Path
from typing import Any

BLOCK_M = 1500
STATION_M = 1000
CLEAR_M = 100


@dataclass(frozen=True)
class Corridor:
    """A corridor, and what it is made of."""

    infra: dict[str, Any]
    blocks: int
    zones: int
    stops: list[str]


def signal(name: str, track: str, position: int) -> dict[str, Any]:
    return {
        "id": name, "track": track, "position": float(position), "direction": "START_TO_STOP", "sight_distance": 400.0,
        "logical_signals": [{"signaling_system": "BAL", "next_signaling_systems": ["BAL"], "settings": {"Nf": "false"}}],
    }


def route(name: str, entry: tuple[str, str], leave: tuple[str, str], ways: dict[str, str], releases: list[str]) -> dict[str, Any]:
    return {
        "id": name, "entry_point": {"type": entry[0], "id": entry[1]}, "entry_point_direction": "START_TO_STOP",
        "exit_point": {"type": leave[0], "id": leave[1]}, "switches_directions": ways, "release_detectors": releases,
    }


def geometry(points: int, at: int) -> dict[str, Any]:
    return {"type": "LineString", "coordinates": [[2.3 + at * 1e-4 + i * 1e-6, 48.8 + i * 1.25e-6] for i in range(points)]}


def corridor(sections: int, blocks_of_section: int, points: int = 2) -> Corridor:
    """A corridor of so many sections of so many blocks, with so many points of geometry for each track."""
    tracks: list[dict[str, Any]] = []
    switches: list[dict[str, Any]] = []
    detectors: list[dict[str, Any]] = []
    signals: list[dict[str, Any]] = []
    routes: list[dict[str, Any]] = []
    stations: list[dict[str, Any]] = []
    ranges: list[dict[str, Any]] = []

    def track(name: str, length: int) -> None:
        tracks.append({"id": name, "length": float(length), "geo": geometry(points, len(tracks)), "extensions": {"sncf": {"line_code": 1}}})
        ranges.append({"track": name, "begin": 0.0, "end": float(length), "applicable_directions": "BOTH"})

    def detector(name: str, on: str, position: int) -> tuple[str, str]:
        detectors.append({"id": name, "track": on, "position": float(position)})
        return "Detector", name

    line_m = BLOCK_M * blocks_of_section
    before: tuple[str, str] = ("BufferStop", "west")
    arrivals: list[tuple[tuple[str, str], dict[str, str]]] = []
    for section in range(sections):
        line = f"line{section}"
        track(line, line_m)
        starts = arrivals or [(before, {})]
        clear = detector(f"{line}.clear", line, CLEAR_M)
        bounds = []
        for block in range(1, blocks_of_section):
            bounds.append(detector(f"{line}.d{block}", line, block * BLOCK_M))
            signals.append(signal(f"{line}.s{block}", line, block * BLOCK_M - 20))
        last = section == sections - 1
        home = ("BufferStop", "east")
        if not last:
            home = detector(f"{line}.home", line, line_m - CLEAR_M)
            signals.append(signal(f"{line}.shome", line, line_m - CLEAR_M - 20))
        ends = bounds + [home]
        for entry, ways in starts:
            routes.append(route(f"rt.{entry[1]}->{ends[0][1]}", entry, ends[0], ways, [clear[1]]))
        for entry, leave in zip(ends, ends[1:]):
            routes.append(route(f"rt.{entry[1]}->{leave[1]}", entry, leave, {}, []))
        if last:
            break
        arrivals = []
        stations.append({"id": f"Station {section}", "parts": []})
        switch_in, switch_out = f"in{section}", f"out{section}"
        for port, kind in (("B1", "main"), ("B2", "side")):
            name = f"{kind}{section}"
            track(name, STATION_M)
            enters = detector(f"{name}.enter", name, CLEAR_M)
            leaves = detector(f"{name}.leave", name, STATION_M - CLEAR_M)
            signals.append(signal(f"{name}.exit", name, STATION_M - CLEAR_M - 20))
            routes.append(route(f"rt.{home[1]}->{leaves[1]}", home, leaves, {switch_in: f"A_{port}"}, [enters[1]]))
            arrivals.append((leaves, {switch_out: f"A_{port}"}))
            stations[-1]["parts"].append({"track": name, "position": STATION_M / 2})
        switches.append({"id": switch_in, "switch_type": "point_switch", "group_change_delay": 4.0, "ports": {
            "A": {"endpoint": "END", "track": line}, "B1": {"endpoint": "BEGIN", "track": f"main{section}"},
            "B2": {"endpoint": "BEGIN", "track": f"side{section}"}}})
        switches.append({"id": switch_out, "switch_type": "point_switch", "group_change_delay": 4.0, "ports": {
            "A": {"endpoint": "BEGIN", "track": f"line{section + 1}"}, "B1": {"endpoint": "END", "track": f"main{section}"},
            "B2": {"endpoint": "END", "track": f"side{section}"}}})
    last_line = f"line{sections - 1}"
    points_of_line = [{"id": "West", "parts": [{"track": "line0", "position": CLEAR_M + 200.0}]}] + stations + [
        {"id": "East", "parts": [{"track": last_line, "position": line_m - 200.0}]}]
    infra = {
        "version": "3.4.9",
        "operational_points": points_of_line,
        "track_sections": tracks,
        "switches": switches,
        "detectors": detectors,
        "buffer_stops": [{"id": "west", "track": "line0", "position": 0.0}, {"id": "east", "track": last_line, "position": float(line_m)}],
        "signals": signals,
        "routes": routes,
        "speed_sections": [{"id": "line speed", "speed_limit": 33.333333333333336, "track_ranges": ranges}],
    }
    # One block for each route, since no signal stands within one.
    blocks = len(routes)
    # Each detector makes one piece more than tracks have; each switch joins three pieces into one zone.
    zones = len(tracks) + len(detectors) - 2 * len(switches)
    return Corridor(infra, blocks, zones, [one["id"] for one in points_of_line])


def sized(megabytes: float) -> Corridor:
    """A corridor whose file has about so many megabytes."""
    sections = max(2, min(3000, int(megabytes * 40)))
    made = corridor(sections, 6)
    short = megabytes * 1e6 - len(json.dumps(made.infra))
    tracks = len(made.infra["track_sections"])
    return corridor(sections, 6, max(2, int(2 + short / tracks / 32)))


def main() -> None:
    parser = argparse.ArgumentParser(description=__doc__)
    parser.add_argument("out", type=Path)
    parser.add_argument("--sections", type=int, default=8)
    parser.add_argument("--blocks", type=int, default=6, help="blocks of a section")
    parser.add_argument("--points", type=int, default=2, help="points of geometry of a track")
    chosen = parser.parse_args()
    made = corridor(chosen.sections, chosen.blocks, chosen.points)
    chosen.out.write_text(json.dumps(made.infra))
    print(f"blocks {made.blocks} zones {made.zones} stops {len(made.stops)}")


if __name__ == "__main__":
    main()
