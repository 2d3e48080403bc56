"""Tests of running times by block: rounding along a line, limits under the tail, and the network
files that block-speeds makes.

    PYTHONPATH=python python3 -m unittest tests.test_block_speeds
"""
from __future__ import annotations

import json
import tempfile
import unittest
from pathlib import Path

from kidrofemba.common.companion import Refused
from kidrofemba.network.blocking_times import up
from kidrofemba.network.table_file import read_table_text
from kidrofemba.reality import block_speeds, tails
from kidrofemba.reality.block_times import speeds_of
from kidrofemba.reality.plain import Cell, PlainBlock, PlainNetwork, Stretch
from tests.made_reality import write_reality
from tests.oracles.plain_list import table


def line_of(lengths: list[int]) -> PlainNetwork:
    """Blocks one behind the other."""
    count = len(lengths)
    blocks = [PlainBlock(f"r{at}", length, 0, (Cell(at, length, length),),
                         (Stretch(f"T{at}", 0, length),), ("Detector", str(at), "+"),
                         ("Detector", str(at + 1), "+"), ())
              for at, length in enumerate(lengths)]
    return PlainNetwork(blocks, count, [[at + 1] if at + 1 < count else [] for at in range(count)],
                        [[at - 1] if at else [] for at in range(count)])


class Rounding(unittest.TestCase):
    def test_along_a_line(self) -> None:
        """Twelve blocks of 1,500 m in 54.3 s each take 651.6 s: 66 ticks, and not 12 times 6."""
        plain = line_of([1500] * 12)
        speeds = speeds_of(plain, dict.fromkeys(range(12), 54.3), 10)
        ticks = [up(up(1000 * 1500, speeds[at]), 10) for at in range(12)]
        self.assertEqual(sum(ticks), 66)
        for at in range(12):
            spent = 10 * sum(ticks[:at + 1]) - 54.3 * (at + 1)
            self.assertTrue(0 <= spent < 10)

    def test_short_blocks_take_a_tick(self) -> None:
        speeds = speeds_of(line_of([20, 20]), {0: 1.0, 1: 1.0}, 10)
        self.assertEqual(speeds, {0: 20_000, 1: 20_000})


class UnderTheTail(unittest.TestCase):
    def test_over_a_switch(self) -> None:
        """50 m behind the end on A, then 30 m on both tracks behind it, one of which is turned."""
        lists = {"track_sections": [{"id": name, "length": 100} for name in "ABC"],
                 "switches": [{"id": "p", "switch_type": "point_switch", "ports": {
                     "A": {"track": "A", "endpoint": "END"},
                     "B1": {"track": "B", "endpoint": "BEGIN"},
                     "B2": {"track": "C", "endpoint": "END"}}}],
                 "speed_sections": [{"id": "v", "speed_limit": 11.1, "track_ranges": [
                     {"track": "A", "begin": 20, "end": 50,
                      "applicable_directions": "START_TO_STOP"}]}]}
        self.assertEqual(tails.lengthen_limits(lists, 80), 3)  # type: ignore[arg-type]
        ranges = lists["speed_sections"][0]["track_ranges"]  # type: ignore[index]
        self.assertEqual([(one["track"], one["begin"], one["end"], one["applicable_directions"])
                          for one in ranges[1:]],  # type: ignore[index]
                         [("A", 50, 100, "START_TO_STOP"), ("B", 0, 30, "START_TO_STOP"),
                          ("C", 70, 100, "STOP_TO_START")])

    def test_both_ways(self) -> None:
        lists = {"track_sections": [{"id": "A", "length": 100}], "switches": [],
                 "speed_sections": [{"id": "v", "speed_limit": 9.0, "track_ranges": [
                     {"track": "A", "begin": 40, "end": 50, "applicable_directions": "BOTH"}]}]}
        tails.lengthen_limits(lists, 30)  # type: ignore[arg-type]
        self.assertEqual([(one["begin"], one["end"], one["applicable_directions"]) for one in
                          lists["speed_sections"][0]["track_ranges"][1:]],  # type: ignore[index]
                         [(10, 40, "STOP_TO_START"), (50, 80, "START_TO_STOP")])


class Files(unittest.TestCase):
    def test_networks(self) -> None:
        with tempfile.TemporaryDirectory() as name:
            folder = Path(name)
            write_reality(folder, 6)
            words = [str(folder / one) for one in ("export.json", "network.json")]
            more = ["--report", str(folder / "report.txt")]
            block_speeds.block_speeds([*words, *more, "--tail", "700", "--tags", "MA100"])
            plain = read_table_text(table(folder / "network.json"))
            block_speeds.block_speeds([*words, *more, "--classes", str(folder / "classes.json"),
                                       "--tags", "MA100"])
            timed = read_table_text(table(folder / "network.json"))
            self.assertEqual([one.cells for one in plain.blocks],
                             [one.cells for one in timed.blocks])
            self.assertNotEqual([one.speed for one in plain.blocks],
                                [one.speed for one in timed.blocks])
            self.assertTrue(all(one.speed < 60_000 for one in timed.blocks if one.length > 300))
            told = json.loads((folder / "network.json").read_text())
            self.assertTrue(told["speed_sections"])
            with self.assertRaises(Refused):
                block_speeds.block_speeds([*words, *more])


if __name__ == "__main__":
    unittest.main()
