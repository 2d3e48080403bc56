"""Tests of the gap that planned trains are given.

    PYTHONPATH=python python3 -m unittest tests.test_plan_gap
"""
from __future__ import annotations

import unittest

from kidrofemba.plan.needs import Need, Owner
from kidrofemba.plan.ticks import held_within, spans_of, widened


class Gap(unittest.TestCase):
    def test_before_and_after_trains_alone(self) -> None:
        owners = [Owner("IC 7", False, "f"), Owner("works", True, "f")]
        needs = [[Need(3, 100_000, 160_000)], [Need(4, 100_000, 160_000)]]
        wide = widened(owners, needs, 35)
        # From 65 to 195 s: ticks 6 to 19, and the works' as they were.
        held, _ = held_within(spans_of(wide, 10, 1, 100), 2)
        self.assertEqual(held, [[{"zone": 3, "from": 6, "to": 20}],
                                [{"zone": 4, "from": 10, "to": 16}]])

    def test_two_trains_that_come_together(self) -> None:
        """The gap between them is held all through; each tick is given once."""
        owners = [Owner("A", False, "f"), Owner("B", False, "f")]
        wide = widened(owners, [[Need(1, 100_000, 200_000)], [Need(1, 230_000, 300_000)]], 20)
        held, shared = held_within(spans_of(wide, 10, 1, 100), 2)
        self.assertEqual(held, [[{"zone": 1, "from": 8, "to": 22}],
                                [{"zone": 1, "from": 22, "to": 32}]])
        self.assertEqual(shared, 1)


if __name__ == "__main__":
    unittest.main()
