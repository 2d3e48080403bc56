"""Tests of the running of trains by distance: by hand, and against a train run by steps of time.

    PYTHONPATH=python python3 -m unittest tests.test_train_physics
"""
from __future__ import annotations

import math
import random
import unittest

from kidrofemba.reality import physics
from tests.oracles import train_by_time as by_time

FAR = 1e9


def vehicle(**changed: object) -> physics.Vehicle:
    """An electric freight train of 1,890 t."""
    speeds = (0.0, 14.0, *(14.0 + step for step in range(1, 27)))
    efforts = (300e3, 300e3, *(4.2e6 / (14.0 + step) for step in range(1, 27)))
    told = dict(mass_kg=1.89e6, length_m=700.0, top_m_s=27.78, speeds=speeds, efforts=efforts,
                resistance=(23_400.0, 0.0, 62.0), inertia=1.06, comfort_m_s2=0.3, brake_m_s2=0.35)
    return physics.Vehicle(**(told | changed))  # type: ignore[arg-type]


def body_of(train: physics.Vehicle) -> by_time.Body:
    return by_time.Body(train.mass_kg, train.length_m, train.top_m_s,
                        list(zip(train.speeds, train.efforts)), train.resistance, train.inertia,
                        train.comfort_m_s2, train.brake_m_s2)


def even(**changed: object) -> physics.Vehicle:
    """A train that gains exactly 0.2 m/s² at any speed on the level."""
    return vehicle(speeds=(0.0,), efforts=(0.2e6 * 1.0,), mass_kg=1e6, inertia=1.0,
                   resistance=(0.0, 0.0, 0.0), comfort_m_s2=1.0, top_m_s=20.0, brake_m_s2=0.5,
                   length_m=100.0, **changed)


class ByHand(unittest.TestCase):
    def test_level(self) -> None:
        # 20 m/s at 0.2: 100 s and 1,000 m; 2,600 m at 20: 130 s; braked at 0.5: 40 s and 400 m.
        way = physics.Way(4000.0, 0.0, [], [(4000.0, FAR)])
        told = physics.run(even(), way, 0.0, 0.0)
        self.assertAlmostEqual(told.times[-1], 270.0, delta=0.2)
        self.assertAlmostEqual(told.time_at(1000.0), 100.0, delta=0.1)
        self.assertAlmostEqual(told.time_at(2000.0), 150.0, delta=0.1)

    def test_constant_slope(self) -> None:
        # Ten per mille take 0.0981 of 0.2 m/s²: 300 m from stand in sqrt(600 / 0.1019).
        way = physics.Way(300.0, 100.0, [(400.0, 10.0)], [(400.0, FAR)])
        told = physics.run(even(), way, 0.0, FAR, 1.0)
        self.assertAlmostEqual(told.times[-1], math.sqrt(600 / 0.1019), delta=0.05)

    def test_mass_is_over_the_length(self) -> None:
        # Of 100 m of train 40 stand on ten per mille: four per mille under it.
        slope = physics.Slope([(60.0, 0.0), (40.0, 10.0)])
        self.assertAlmostEqual(slope.mean(0.0, 100.0), 4.0)
        self.assertAlmostEqual(slope.mean(-50.0, 50.0), 0.0)
        self.assertAlmostEqual(slope.mean(50.0, 250.0), 2.0)

    def test_balancing_speed(self) -> None:
        # Resistance only C v²: 100 v² and a pull of 40,000 N balance at 20 m/s.
        train = even()
        train = vehicle(speeds=(0.0,), efforts=(40_000.0,), mass_kg=1e6, inertia=1.0,
                        resistance=(0.0, 0.0, 100.0), top_m_s=40.0)
        self.assertAlmostEqual(train.balance(0.0), 20.0, places=4)
        # Two per mille take 19,620 N: sqrt(203.8).
        self.assertAlmostEqual(train.balance(2.0), math.sqrt(203.8), places=4)
        # Five per mille take more than there is.
        self.assertEqual(train.balance(5.0), 0.0)
        way = physics.Way(60_000.0, 0.0, [(60_000.0, 2.0)], [(60_000.0, FAR)])
        told = physics.run(train, way, 30.0, FAR)
        self.assertAlmostEqual(told.speeds[-1], math.sqrt(203.8), delta=0.01)

    def test_limit_under_the_tail(self) -> None:
        # Head at 10 m/s up to 500 m and until the tail of 100 m is past: 600 m in 60 s.
        way = physics.Way(2000.0, 0.0, [], [(500.0, 10.0), (1500.0, FAR)])
        told = physics.run(even(), way, 10.0, FAR)
        self.assertAlmostEqual(told.time_at(600.0), 60.0, delta=0.01)
        self.assertAlmostEqual(told.speed_at(600.0), 10.0, delta=0.01)
        self.assertGreater(told.speed_at(650.0), 10.5)

    def test_limit_before_the_way_lies_under_the_tail(self) -> None:
        way = physics.Way(2000.0, 80.0, [], [(80.0, 10.0), (2000.0, FAR)])
        told = physics.run(even(), way, 20.0, FAR)
        self.assertAlmostEqual(told.time_at(100.0), 10.0, delta=0.01)

    def test_braking_for_a_limit(self) -> None:
        # From 20 to 10 m/s at 0.5: 300 m and 20 s, before the limit begins.
        way = physics.Way(2000.0, 0.0, [], [(1000.0, FAR), (1000.0, 10.0)])
        told = physics.run(even(), way, 20.0, FAR)
        self.assertAlmostEqual(told.time_at(700.0), 35.0, delta=0.05)
        self.assertAlmostEqual(told.time_at(1000.0), 55.0, delta=0.2)

    def test_stall(self) -> None:
        way = physics.Way(8000.0, 700.0, [(3700.0, 0.0), (5000.0, 25.0)], [(8700.0, FAR)])
        with self.assertRaises(physics.Stalled) as told:
            physics.run(vehicle(), way, 27.0, FAR)
        self.assertGreater(told.exception.place, 3000)
        self.assertLess(told.exception.place, 8000)


class ByTime(unittest.TestCase):
    """Drawn lines, each run both ways: seed 55."""

    def test_drawn_lines(self) -> None:
        draw = random.Random(55)
        worst = 0.0
        for _ in range(25):
            lengths = [draw.randrange(300, 3000) for _ in range(10)]
            gradients = [draw.choice((0, 0, 2, 4, 6, 8, -5, -12)) for _ in lengths]
            limits = [draw.choice((27.78, 27.78, 22.2, 11.1, 16.7)) for _ in lengths]
            train = vehicle(length_m=float(draw.choice((300, 500, 700))),
                            mass_kg=draw.choice((0.9e6, 1.3e6, 1.89e6)))
            total = float(sum(lengths))
            way = physics.Way(total, 0.0, list(zip(lengths, gradients)),
                              list(zip(lengths, limits)))
            told = physics.run(train, way, 0.0, 0.0)
            at, road = 0.0, by_time.Road([], [], total)
            for length, gradient, limit in zip(lengths, gradients, limits):
                road.slopes.append((at, at + length, gradient))
                road.limits.append((at, at + length, limit))
                at += length
            log = by_time.drive(body_of(train), road, 0.0, 0.0, 0.05)
            for place in [total * part / 20 for part in range(1, 20)]:
                worst = max(worst, abs(told.time_at(place) - log.when(place)))
        print(f"drawn lines: at most {worst:.2f} s apart")
        self.assertLess(worst, 3.0)


if __name__ == "__main__":
    unittest.main()
