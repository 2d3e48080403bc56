"""Measures by simulation by how much real trains differ from the server's running times.

    PYTHONPATH=python:. python3 bench/reality.py
"""
from __future__ import annotations

import math

from kidrofemba.plan.rolling_stock import Traction, reached
from kidrofemba.reality import physics
from kidrofemba.reality.train_classes import TOWED

FAR = 1e9
BLOCK_M, BLOCKS = 1500.0, 40


def train(watts: float, newtons: float, engine_t: float, towed_t: float, length: float,
          brake: float) -> physics.Vehicle:
    corner = watts / newtons
    speeds = (0.0, corner, *(corner + step for step in range(1, 30)))
    efforts = (newtons, newtons, *(watts / speed for speed in speeds[2:]))
    davis = (20 * engine_t + TOWED["A"] * towed_t, 0.0,
             10 * 3.6 ** 2 * engine_t / 1500 + TOWED["C"] * towed_t)
    return physics.Vehicle(1000 * (engine_t + towed_t), length, 100 / 3.6, speeds, efforts, davis,
                           1.06, 0.3, brake)


TRAINS = {"electric 4.2 MW, 1,800 t, 700 m": train(4.2e6, 300e3, 90, 1800, 700, 0.3),
          "electric 4.2 MW, 1,000 t, 500 m": train(4.2e6, 300e3, 90, 1000, 500, 0.5),
          "diesel 2.2 MW, 1,600 t, 600 m": train(2.2e6, 400e3, 130, 1600, 600, 0.3),
          "diesel 2.2 MW, 800 t, 450 m": train(2.2e6, 400e3, 130, 800, 450, 0.5)}
LINES: dict[str, list[tuple[float, float]]] = {
    "level": [], "5 per mille up and down": [(3000.0, 5.0), (3000.0, -5.0)] * 10,
    "8 per mille, 10 km": [(20_000.0, 0.0), (10_000.0, 8.0)],
    "12.5 per mille, 8 km": [(20_000.0, 0.0), (8_000.0, 12.5)],
    "25 per mille, 5 km": [(20_000.0, 0.0), (5_000.0, 25.0)]}


def even(body: physics.Vehicle) -> tuple[float, float]:
    """The speed and the even acceleration that a train file would have."""
    return reached(Traction(list(body.speeds), list(body.efforts), body.resistance,
                            body.mass_kg * body.inertia, body.comfort_m_s2), body.top_m_s)


def ticks(seconds: float, tick_s: int = 10) -> int:
    return max(1, math.ceil(math.ceil(seconds) / tick_s))


def sold(body: physics.Vehicle, allowance: int, blocks: list[float]) -> list[float]:
    """When the server has the head at the end of each block, from stand to stand."""
    speed, gain = even(body)
    told, now = [], 0.0
    for at, length in enumerate(blocks):
        seconds = length * (100 + allowance) / 100 / speed
        seconds += speed / (2 * gain) if at == 0 else 0.0
        seconds += speed / (2 * body.brake_m_s2) if at == len(blocks) - 1 else 0.0
        now += 10 * ticks(seconds)
        told.append(now)
    return told


def slopes() -> None:
    print("60 km, blocks of 1,500 m, allowance 5, ticks of 10 s; late and early at blocks' ends\n"
          f"{'train':<34} {'line':<26} {'real s':>7} {'sold s':>7} {'late s':>7} {'early s':>8}")
    for name, body in TRAINS.items():
        for line, pieces in LINES.items():
            way = physics.Way(BLOCK_M * BLOCKS, 0.0, pieces, [(BLOCK_M * BLOCKS, FAR)])
            told = sold(body, 5, [BLOCK_M] * BLOCKS)
            try:
                real = physics.run(body, way, 0.0, 0.0)
            except physics.Stalled as stalled:
                print(f"{name:<34} {line:<26} stalls at {stalled.place / 1000:.1f} km")
                continue
            apart = [real.time_at(BLOCK_M * (at + 1)) - moment for at, moment in enumerate(told)]
            print(f"{name:<34} {line:<26} {real.times[-1]:>7.0f} {told[-1]:>7.0f} "
                  f"{max(apart):>7.0f} {-min(apart):>8.0f}")


def starts() -> None:
    print("\nThe first block from stand: the server's seconds, and the train's\n"
          f"{'train':<34} {'block m':>8} {'server':>7} {'real':>6} {'early s':>8}")
    for name, body in TRAINS.items():
        speed, gain = even(body)
        real = physics.run(body, physics.Way(20_000.0, 0.0, [], [(20_000.0, FAR)]), 0.0, FAR)
        for length in (400.0, 800.0, 1500.0):
            server = math.ceil(length / speed) + math.ceil(speed / (2 * gain))
            print(f"{name:<34} {length:>8.0f} {server:>7} {real.time_at(length):>6.0f} "
                  f"{server - real.time_at(length):>8.0f}")


def tails() -> None:
    print("\nOut of 40 km/h: the head 3 km on, behind the limit's end and behind the tail's\n"
          f"{'train':<34} {'server':>7} {'real':>6} {'late s':>7}")
    for name, body in TRAINS.items():
        speed, _ = even(body)
        way = physics.Way(6000.0, 0.0, [], [(3000.0, 40 / 3.6), (3000.0, FAR)])
        real = physics.run(body, way, 40 / 3.6, FAR).time_at(6000.0) - 3000.0 / (40 / 3.6)
        print(f"{name:<34} {3000 / speed:>7.0f} {real:>6.0f} {real - 3000 / speed:>7.0f}")


def rounding() -> None:
    print("\nAllowance on a block of 1,500 m at 100 km/h, in ticks of 10 s")
    row: dict[int, list[int]] = {}
    for percent in range(0, 41):
        row.setdefault(ticks(1500 * (100 + percent) / 100 / (100 / 3.6)), []).append(percent)
    for count, percents in row.items():
        print(f"{percents[0]:>3} to {percents[-1]:>3} per cent: {count} ticks")


if __name__ == "__main__":
    slopes()
    starts()
    tails()
    rounding()
