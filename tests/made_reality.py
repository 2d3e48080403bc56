"""A made export with what trains meet in reality: slopes to 25 per mille, curves, gaps of the wire,
a narrow gauge and throats of 40 km/h; and a file of three classes of trains for it."""
from __future__ import annotations

import json
import random
from pathlib import Path
from typing import Any

from tests.made_exports import Json, fractions

TAG = "MA100"


def made_reality(stations: int = 10, seed: int = 7) -> Json:
    """The main line of `fractions` with slopes, curves, wires and gauges."""
    infra = fractions(stations, seed, points=2)
    draw = random.Random(seed)
    wires: list[Json] = []
    rolling = {(at, part): [draw.choice((-4.0, -2.0, 0.0, 2.0, 4.0)) for _ in range(4)]
               for at in range(stations) for part in range(3)}
    for track in infra["track_sections"]:
        label = track["extensions"]["source"]["id"]
        length, line = track["length"], track["extensions"]["sncf"]["line_code"]
        gaps: list[tuple[float, float]] = []
        if label.startswith("L") and "V" in label:
            at, part = int(label[1:label.index("V")]), int(label[-1])
            track["slopes"] = _slopes(at, part, length, rolling[at, part])
            if (at, part) == (1, 0):
                track["curves"] = [{"begin": 1500.0, "end": 2100.0, "radius": 400.0}]
            if label == "L0V2s1":
                gaps = [(3000.0, 3300.0)]
            if label == "L6V1s2":
                track["loading_gauge_limits"] = [{"begin": 0.0, "end": length, "category": "GA"}]
        if line == 571000 or label == "S3V1":
            gaps = [(0.0, length)]
        here = 0.0
        for begin, end in [*gaps, (length, length)]:
            if begin > here:
                wires.append({"track": track["id"], "begin": here, "end": begin,
                              "applicable_directions": "BOTH"})
            here = end
    infra["electrifications"] = [{"id": "wire", "voltage": "25000V", "track_ranges": wires}]
    return infra


def _slopes(at: int, part: int, length: float, rolling: list[float]) -> list[Json]:
    def one(begin: float, end: float, gradient: float) -> Json:
        return {"begin": begin, "end": end, "gradient": gradient}

    if (at, part) == (2, 1):
        return [one(0.0, length, 8.0)]
    if (at, part) == (4, 1):
        return [one(800.0, 4800.0, 12.5)]
    if (at, part) == (5, 1):
        return [one(2000.0, 3500.0, 25.0)]
    quarter = length / 4
    return [one(quarter * place, quarter * (place + 1), gradient)
            for place, gradient in enumerate(rolling)]


def _stock(name: str, mass_t: float, watts: float, newtons: float, top: float, electric: bool
           ) -> Json:
    corner = watts / newtons
    speeds = [0.0, corner, *[corner + step for step in range(1, 30)]]
    efforts = [newtons, newtons, *[watts / speed for speed in speeds[2:]]]
    return {"name": name, "length": 20.0, "mass": mass_t * 1000, "max_speed": top,
            "comfort_acceleration": 0.3, "const_gamma": 0.5, "inertia_coefficient": 1.1,
            "rolling_resistance": {"type": "davis", "A": 20 * mass_t, "B": 0.0,
                                   "C": 10 * 3.6 ** 2 * mass_t / 1500},
            "effort_curves": {"default_mode": "x", "modes": {"x": {
                "is_electric": electric,
                "default_curve": {"speeds": speeds, "max_efforts": efforts}}}}}


STOCKS = [_stock("electric", 90, 4.2e6, 300e3, 38.9, True),
          _stock("diesel", 130, 2.2e6, 400e3, 33.3, False)]


def class_of(name: str, stock: str, towed: float, length: float, brake: str, **needs: Any) -> Json:
    return {"name": name, "stock_file": "stock.json", "stock": stock, "towed_t": towed,
            "length_m": length, "vmax_kmh": 100, "brake": brake, "tags": [TAG],
            "allowances": [0, 12, 30], "needs": needs}


CLASSES = {
    "lines": {"571000": {"axle_load_t": 20.0, "category": "C4"}},
    "classes": [
        class_of("E1800", "electric", 1800, 700, "G", electrification=["25000V"], gauge="GA",
                 axle_load_t=22.5),
        class_of("E1000", "electric", 1000, 500, "P", electrification=["25000V"], gauge="GB1",
                 axle_load_t=22.5),
        class_of("D800", "diesel", 800, 450, "P", gauge="GA", axle_load_t=20.0)]}


def write_reality(folder: Path, stations: int = 10, seed: int = 7) -> None:
    """Writes export.json, stock.json and classes.json into a folder."""
    for name, value in (("export.json", made_reality(stations, seed)), ("stock.json", STOCKS),
                        ("classes.json", CLASSES)):
        (folder / name).write_text(json.dumps(value), encoding="utf-8")
