"""Runs the train of a sold path by steps of time, and compares when it needs each zone with the
claims of its path. It shares nothing with the program's own simulation and judgement.

    PYTHONPATH=python python3 -m tests.sold_trains FOLDER COUNT SEED [--plain]

FOLDER has what tests.made_reality wrote and what import-network made of it. It sells COUNT drawn
asks by the plain model of the server, holds for each what its train wants beside its claims, as
`verified-ask` does, and tells how many trains leave their claims, with and without what was held.
"""
from __future__ import annotations

import json
import sys
import time
from collections import Counter
from collections.abc import Sequence
from pathlib import Path
from typing import Any

from kidrofemba.network.blocking_times import Railway, Settings, Train, blocks_of, joined
from kidrofemba.network.blocking_times import train_of
from kidrofemba.network.table_file import read_table_text
from kidrofemba.reality.running_file import Running, read_running
from kidrofemba.reality.sold_train import Driving, course_of, judged, missing
from tests.oracles import train_by_time as by_time
from tests.oracles.plain_list import table
from tests.sold_by_model import Seller, Sold, drawn

SETTING_S = RELEASE_S = 5.0
EARLY_S = 15.0
TICK_S = 10


def road_of(running: Running, sold: Sold, railway: Railway, plain: Sequence[int]) -> by_time.Road:
    """The way of a path as the independent model wants it."""
    road, at, begun = by_time.Road([], [], 0.0), 0.0, sold.runs[0].enter * TICK_S
    for number, run in zip(plain, sold.runs):
        here = at
        for length, gradient in running.gradients[number]:
            road.slopes.append((here, here + length, gradient))
            here += length
        here = at
        for length, limit in running.limits[sold.name][number]:
            road.limits.append((here, here + length, limit))
            here += length
        at += railway.blocks[run.block].length
        road.not_before.append((at, run.leave * TICK_S - EARLY_S - begun))
    road.length = at
    return road


def outside_s(running: Running, sold: Sold, railway: Railway, plain: Sequence[int],
              claims: Sequence[tuple[int, int, int]], dt: float) -> float:
    """By how many seconds the train is at most outside of its claims, before or behind."""
    told = running.bodies[sold.name]
    body = by_time.Body(told.mass_kg, told.length_m, told.top_m_s,
                        list(zip(told.speeds, told.efforts)), told.resistance, told.inertia,
                        told.comfort_m_s2, told.brake_m_s2)
    road = road_of(running, sold, railway, plain)
    try:
        log = by_time.drive(body, road, 0.0, 0.0, dt)
    except ValueError:
        return float("inf")
    begun = sold.runs[0].enter * TICK_S
    begins = [0.0]
    for run in sold.runs:
        begins.append(begins[-1] + railway.blocks[run.block].length)
    worst = -float("inf")
    for at, run in enumerate(sold.runs):
        first = 0.0
        if at >= 2:
            before = railway.blocks[sold.runs[at - 1].block]
            seen = begins[at - 1] - before.sight
            first = log.when(seen) if seen > 0 else 0.0
        for zone, release in railway.blocks[run.block].cells:
            clear = begins[at] + release + told.length_m
            last = log.when(clear) if clear < road.length else log.t[-1]
            low, high = begun + first - SETTING_S, begun + last + RELEASE_S
            out = min((max(begin * TICK_S - low, high - end * TICK_S)
                       for other, begin, end in claims if other == zone), default=float("inf"))
            worst = max(worst, out)
    return worst


def railway_of(folder: Path, name: str, setting: int, release: int) -> tuple[Railway, Any]:
    infra = json.loads((folder / f"{name}.json").read_text())
    told = read_table_text(table(folder / f"{name}.json"))
    settings = Settings(TICK_S, setting, release, 17_280, name == "plain")
    return Railway(blocks_of(told, infra), settings=settings), infra


def held(seller: Seller, running: Running, sold: Sold, plain: Sequence[int]
         ) -> list[tuple[int, int, int]] | None:
    """What is held beside a path for its train; None where another one has it."""
    driving = Driving(SETTING_S, RELEASE_S, EARLY_S)
    course = course_of(running, sold.name, sold.runs, seller.railway.blocks, plain, TICK_S, driving)
    spans = missing(judged(course.needs, sold.claims, TICK_S), TICK_S)
    for zone, begin, end in spans:
        for low, high, owner in seller.railway.claims.get(zone, []):
            own = owner == sold.name and any(
                one == (zone, low, high) for one in sold.claims)
            if not own and begin < high and low < end:
                return None
    seller.railway.add(spans, "margin")
    return spans


def main(words: list[str]) -> None:
    folder, count, seed = Path(words[0]), int(words[1]), int(words[2])
    is_plain = "--plain" in words
    setting, release = 2, 2
    railway, infra = railway_of(folder, "plain" if is_plain else "layered", setting, release)
    running = read_running(folder / "running.json")
    trains = {one["name"]: train_of(one) for one in
              json.loads((folder / "trains.json").read_text())["trains"] if "+" not in one["name"]}
    names = [one["id"] for one in infra["operational_points"]]
    if is_plain:
        trains = {name: Train(one.length, int(running.bodies[name].top_m_s * 1000), one.accel,
                              one.brake, 5) for name, one in trains.items()}
    stops = {name: names if is_plain else [one for one in names if one.endswith(f"@{name}")]
             for name in trains}
    seller, begun = Seller(railway), time.monotonic()
    result: Counter[str] = Counter()
    worst, worst_bare = -1e9, -1e9
    sold = drawn(seller, trains, stops, count, seed)
    print(f"sold {len(sold)} in {time.monotonic() - begun:.0f} s", flush=True)
    for at, one in enumerate(sold):
        plain = [run.block if is_plain else running.blocks[run.block][1] for run in one.runs]
        spans: list[tuple[int, int, int]] | None = []
        if not is_plain:
            spans = held(seller, running, one, plain)
        bare = outside_s(running, one, railway, plain, one.claims, 0.25)
        result["outside without holds"] += bare > 0
        result["stalls"] += bare == float("inf")
        worst_bare = max(worst_bare, bare if bare < 1e8 else worst_bare)
        if spans is None:
            result["given back"] += 1
            continue
        result["kept"] += 1
        result["with holds"] += bool(spans)
        if spans:
            bare = outside_s(running, one, railway, plain, joined([*one.claims, *spans]), 0.25)
        result["outside with holds"] += bare > 0
        worst = max(worst, bare if bare < 1e8 else worst)
        if at % 25 == 24:
            print(at + 1, dict(result), f"worst bare {worst_bare:.1f} s, with holds {worst:.1f} s "
                  f"({time.monotonic() - begun:.0f} s)", flush=True)
    print(len(sold), dict(result), f"worst bare {worst_bare:.1f} s, with holds {worst:.1f} s")


if __name__ == "__main__":
    main(sys.argv[1:])
