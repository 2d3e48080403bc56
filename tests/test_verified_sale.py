"""Tests of sales that are verified: the ladder, what is held, what is given back, and standing.

A door that is scripted answers; what is wanted was worked out by hand.

    PYTHONPATH=python python3 -m unittest tests.test_verified_sale
"""
from __future__ import annotations

import tempfile
import unittest
from dataclasses import dataclass
from pathlib import Path
from types import SimpleNamespace
from typing import Any

from kidrofemba.network.blocking_times import Block, Railway, Settings, Train
from kidrofemba.reality.physics import Vehicle
from kidrofemba.reality.running_file import Running
from kidrofemba.reality.sold_train import Driving, Judged, Need, course_of, judged, missing
from kidrofemba.reality.verified_sale import Sale, Standing, UnderWay, _cut_out

#: Gains and brakes at 0.2 m/s² without any resistance.
EVEN = Vehicle(1e6, 100.0, 20.0, (0.0,), (0.2e6,), (0.0, 0.0, 0.0), 1.0, 1.0, 0.2)
TRAIN = Train(100, 20_000, 200, 200, 0)
BLOCKS = [Block(2000, 20_000, 400, ((at, 2000),), (), str(at), str(at + 1)) for at in range(3)]
LEVEL = Running({"E": EVEN}, {"E": [0, 12]}, [[(2000.0, 0.0)]] * 3,
                {"E": [[(2000.0, 200.0)]] * 3}, [("E", at) for at in range(3)])


class Needs(unittest.TestCase):
    """Three blocks of 2,000 m: from stand 150 s, 100 s, and 150 s to a stand."""

    def test_by_hand(self) -> None:
        railway = Railway(BLOCKS, settings=Settings(10, 1, 1))
        runs = railway.run(TRAIN, [0, 1, 2], 6)
        self.assertEqual([run.leave for run in runs], [21, 31, 46])
        course = course_of(LEVEL, "E", runs, BLOCKS, [0, 1, 2], 10, Driving(5, 5, None))
        needs = course.needs
        # Zone 0 from 60 - 5 until the tail is past 2,000 m: at 60 + 155, and 5.
        self.assertAlmostEqual(needs[0].begin_s, 55.0)
        self.assertAlmostEqual(needs[0].end_s, 220.0, delta=0.6)
        # Zone 2 from when the signal at 2,000 m is seen: at 1,600 m, 60 + 130, less 5.
        self.assertAlmostEqual(needs[2].begin_s, 185.0, delta=0.6)
        self.assertAlmostEqual(needs[2].end_s, 460.0 + 5.0, delta=1.0)
        self.assertTrue(all(max(row.early_s, row.late_s) <= 0 for row in
                            judged(needs, railway.stairway(TRAIN, runs), 10)))

    def test_what_is_missing(self) -> None:
        rows = [Judged(Need(4, 93.0, 188.0, 0), (10, 18), 7.0, 8.0),
                Judged(Need(5, 103.0, 150.0, 0), (10, 18), -3.0, -30.0)]
        self.assertEqual(missing(rows, 10, 0.0), [(4, 9, 10), (4, 18, 19)])
        # A guard of 4 s: zone 5 wants tick 9 as well.
        self.assertEqual(missing(rows, 10, 4.0), [(4, 8, 10), (4, 18, 20), (5, 9, 10)])

    def test_cut_out(self) -> None:
        self.assertEqual(_cut_out([(1, 0, 10), (2, 0, 10)], [(1, 3, 5), (2, 0, 12)]),
                         [(1, 0, 3), (1, 5, 10)])


@dataclass
class Door:
    """A client whose door has its replies written down."""

    replies: list[str]

    def __post_init__(self) -> None:
        self.sent: list[str] = []
        self.numbers: Any = SimpleNamespace(last=0)

    def want(self, word: str, rest: str) -> str:
        self.numbers.last += 1
        return self.send(f"{word} {self.numbers.last} {rest}")

    def send(self, line: str) -> str:
        self.sent.append(line)
        return self.replies.pop(0)


GRANTED = "granted {0} entry {1} at {2} runs 3 0 6 21 0 1 21 31 0 2 31 46 1"


class Ladder(unittest.TestCase):
    def sale(self, folder: str, replies: list[str], setting: int, standing: Standing = Standing()
             ) -> tuple[Sale, Door]:
        railway = Railway(BLOCKS, settings=Settings(10, setting, 1))
        verifier: Any = SimpleNamespace(
            running=LEVEL, driving=Driving(5, 5, None), base=SimpleNamespace(
                settings=railway.settings), blocks=BLOCKS,
            class_of=lambda runs: ("E", [0, 1, 2]), claims_of=railway.stairway)
        door: Any = Door(replies)
        return Sale(door, verifier, UnderWay.of(Path(folder) / "sale"), standing), door

    def test_it_holds_at_once(self) -> None:
        with tempfile.TemporaryDirectory() as folder:
            sale, door = self.sale(folder, [GRANTED.format(1, 0, 1)], 1)
            self.assertTrue(sale.sell([("E", TRAIN)], "A B 6 6 0 99 0", lambda _: None))
            self.assertEqual(door.sent, ["ask 1 E A B 6 6 0 99 0"])
            self.assertFalse((Path(folder) / "sale").exists())

    def test_held_beside_it(self) -> None:
        """Without any time to set routes, each zone is wanted a tick earlier."""
        with tempfile.TemporaryDirectory() as folder:
            sale, door = self.sale(folder, [GRANTED.format(1, 0, 1), "held 2 entry 1 at 2"], 0)
            self.assertTrue(sale.sell([("E", TRAIN)], "A B 6 6 0 99 0", lambda _: None))
            self.assertEqual(door.sent[1], "holds 2 margin%201 3 0 5 6 1 5 6 2 18 19")

    def test_taken_then_the_next_train(self) -> None:
        with tempfile.TemporaryDirectory() as folder:
            sale, door = self.sale(folder, [
                GRANTED.format(1, 0, 1), "taken 2 zone 1 by base 0 at 1", "freed 3 entry 1 of 0",
                "no-path 4 at 2"], 0)
            told: list[str] = []
            self.assertFalse(sale.sell([("E", TRAIN), ("E+12", TRAIN)], "A B 6 6 0 99 0",
                                       told.append))
            self.assertEqual(door.sent[2:], ["free 3 0", "ask 4 E+12 A B 6 6 0 99 0"])
            self.assertFalse((Path(folder) / "sale").exists())

    def test_a_process_that_ended_in_the_middle(self) -> None:
        with tempfile.TemporaryDirectory() as folder:
            left = UnderWay.of(Path(folder) / "sale")
            left.add("ask 1 E A B 6 6 0 99 0")
            left.add("holds 2 margin%201 1 0 5 6")
            sale, door = self.sale(folder, ["kept 1 entry 0 at 2 runs 1 0 6 21 1",
                                            "kept 2 entry 1 at 2 holds margin%201 1 0 5 6",
                                            "freed 3 entry 2 of 1 at 3",
                                            "freed 4 entry 3 of 0 at 4"], 1)
            self.assertEqual(sale.undo_left(), 2)
            self.assertEqual(door.sent[2:], ["free 1 1", "free 2 0"])
            self.assertFalse((Path(folder) / "sale").exists())

    def test_standing(self) -> None:
        """Five minutes before on zone 0, ten after under 100 m of zone 2."""
        with tempfile.TemporaryDirectory() as folder:
            sale, door = self.sale(folder, [GRANTED.format(1, 0, 1), "held 2 entry 1 at 2"], 1,
                                   Standing(300.0, 600.0))
            self.assertTrue(sale.sell([("E", TRAIN)], "A B 6 6 0 99 0", lambda _: None))
            # Zone 0 from tick 6 - 30 to its claim at 5; zone 2 from its claim's end 47 to 46 + 60.
            self.assertEqual(door.sent[1], "holds 2 margin%201 2 0 -24 5 2 47 106")


if __name__ == "__main__":
    unittest.main()
