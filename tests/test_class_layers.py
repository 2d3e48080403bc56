"""Tests of classes of trains over one set of zones: the layered network against the plain one by
the plain model of `list`, and what each class may not run on by a look of its own at the export.

    PYTHONPATH=python python3 -m unittest tests.test_class_layers
"""
from __future__ import annotations

import json
import subprocess
import tempfile
import unittest
from pathlib import Path

from kidrofemba.common.companion import Refused
from kidrofemba.network.route_walks import ends_of_blocks
from kidrofemba.network.table_file import Table, read_table_text
from kidrofemba.osrd import import_network
from kidrofemba.reality import layers, plain
from kidrofemba.reality.train_classes import read_classes
from tests.made_reality import CLASSES, made_reality, write_reality
from tests.oracles.plain_list import table

PROGRAM = Path(__file__).resolve().parent.parent / "crates/stdcm/out/stdcm"


class Layered:
    """The network of three classes and the plain one, of an export of so many stations."""

    def __init__(self, folder: Path, stations: int) -> None:
        write_reality(folder, stations)
        names = ("network.json", "report.txt", "trains.json", "running.json", "plain.json")
        network, report, trains, running, plain_file = (folder / name for name in names)
        import_network.import_network([
            str(folder / "export.json"), str(network), "--report", str(report), "--classes",
            str(folder / "classes.json"), "--trains", str(trains), "--running", str(running),
            "--plain", str(plain_file), "--tags", "MA100"])
        self.files = {"network": network, "plain": plain_file}
        self.infra, self.plain_infra, told = (json.loads(one.read_text()) for one in
                                              (network, plain_file, running))
        self.blocks: list[tuple[str, int]] = [(one[0], one[1]) for one in told["blocks"]]
        self.text = table(network)
        self.table, self.plain = read_table_text(self.text), read_table_text(table(plain_file))


class SameZones(unittest.TestCase):
    """Made exports of 584 and 2,966 blocks, three classes each."""

    def judge(self, stations: int, least: int) -> None:
        with tempfile.TemporaryDirectory() as folder:
            made = Layered(Path(folder), stations)
            self.assertGreaterEqual(len(made.plain.blocks), least)
            self.assertEqual(len(made.table.zones), len(made.plain.zones))
            self.assertEqual(len(made.table.blocks), len(made.blocks))
            for (name, number), block in zip(made.blocks, made.table.blocks):
                wanted = made.plain.blocks[number]
                self.assertEqual((block.cells, block.length, block.sight),
                                 (wanted.cells, wanted.length, wanted.sight))
                self.assertEqual(set(block.serves), {f"{stop}@{name}" for stop in wanted.serves})
            self.follow(made)
            self.covered(made)
            if stations <= 10:
                self.program(made)

    def follow(self, made: Layered) -> None:
        """A block follows another of its class where the plain ones do, and none of another."""
        ends = ends_of_blocks(made.table, made.infra)
        plain_ends = ends_of_blocks(made.plain, made.plain_infra)
        begins: dict[str, set[int]] = {}
        for number, (begin, _) in enumerate(ends):
            begins.setdefault(str(begin), set()).add(number)
        for number, (_, end) in enumerate(ends):
            name, block = made.blocks[number]
            wanted = {at for at, (other, of) in enumerate(made.blocks)
                      if other == name and str(plain_ends[of][0]) == str(plain_ends[block][1])} \
                if number % 17 == 0 else None
            if wanted is not None:
                self.assertEqual(begins.get(str(end), set()), wanted)

    def covered(self, made: Layered) -> None:
        """Each zone is covered by the blocks of a class whose plain blocks cover it."""
        def by_zone(blocks: Table, numbers: list[tuple[int, int]]) -> dict[int, set[int]]:
            found: dict[int, set[int]] = {}
            for own, told in numbers:
                for cell in blocks.blocks[own].cells:
                    found.setdefault(cell.zone, set()).add(told)
            return found

        for name in ("E1800", "E1000", "D800"):
            own = [(at, of) for at, (other, of) in enumerate(made.blocks) if other == name]
            self.assertEqual(by_zone(made.table, own),
                             by_zone(made.plain, [(of, of) for _, of in own]))

    def program(self, made: Layered) -> None:
        """The built program reads the network as the plain model does."""
        done = subprocess.run([PROGRAM, "list", "--network", made.files["network"], "--out",
                               "stdout"], capture_output=True, timeout=900)
        self.assertEqual((done.returncode, done.stdout.decode()), (0, made.text))

    def test_600_blocks(self) -> None:
        self.judge(10, 580)

    def test_3000_blocks(self) -> None:
        self.judge(45, 2900)


class Allowed(unittest.TestCase):
    """No class has a block on which it may not run, and it has all others that it can climb."""

    def test_wires_gauges_and_lines(self) -> None:
        with tempfile.TemporaryDirectory() as folder:
            made = Layered(Path(folder), 10)
            export = made_reality()
            bare, narrow, branch = set(), set(), set()
            wired: dict[str, list[tuple[float, float]]] = {}
            for one in export["electrifications"][0]["track_ranges"]:
                wired.setdefault(one["track"], []).append((one["begin"], one["end"]))
            for track in export["track_sections"]:
                if sum(end - begin for begin, end in wired.get(track["id"], [])) \
                        < track["length"] - 1e-6:
                    bare.add(track["id"])
                if track["loading_gauge_limits"]:
                    narrow.add(track["id"])
                if track["extensions"]["sncf"]["line_code"] == 571000:
                    branch.add(track["id"])
            told = plain.plain_network(made.plain_infra)
            count = {"E1800": 0, "E1000": 0, "D800": 0}
            for name, number in made.blocks:
                count[name] += 1
                tracks = {one.track for one in told.blocks[number].stretches if one.length}
                if name != "D800":
                    self.assertFalse(tracks & branch)
                    # Where a track has a gap of 300 m, blocks beside it may be run on.
                    whole = {track for track in bare if track not in wired}
                    self.assertFalse(tracks & whole)
                if name == "E1000":
                    self.assertFalse(tracks & narrow)
            self.assertEqual(count["D800"], len(told.blocks))

    def test_the_steep_rise(self) -> None:
        """1,890 t on 25 per mille want 463 kN of the engine's 300; 1,090 t want 267."""
        with tempfile.TemporaryDirectory() as folder:
            made = Layered(Path(folder), 10)
            steep = {track["id"] for track in made_reality()["track_sections"]
                     if any(one["gradient"] == 25.0 for one in track["slopes"])}
            told = plain.plain_network(made.plain_infra)
            inside = {number for number, block in enumerate(told.blocks) for one in block.stretches
                      if one.track in steep and one.begin < 2600 < 3300 < one.end or
                      one.track in steep and one.begin < 2900 <= one.end}
            self.assertTrue(inside)
            run = {name: {number for other, number in made.blocks if other == name}
                   for name in ("E1800", "E1000")}
            self.assertFalse(run["E1800"] & inside)
            self.assertTrue(inside <= run["E1000"])


class Limits(unittest.TestCase):
    def test_too_many_classes(self) -> None:
        """The message says how many classes fit."""
        with tempfile.TemporaryDirectory() as name:
            folder = Path(name)
            write_reality(folder, 45)
            diesel = CLASSES["classes"][2]
            many = {"classes": [diesel | {"name": f"D{at}"} for at in range(9)]}
            (folder / "classes.json").write_text(json.dumps(many))
            told = plain.plain_network(_plain_lists(folder))
            speeds = {number: 20_000 for number in range(len(told.blocks))}
            with self.assertRaises(layers.DoesNotFit) as wrong:
                layers.layered(told, {f"D{at}": speeds for at in range(9)})
            self.assertRegex(str(wrong.exception), "65536: the first [1-8] of the classes fit")
            fit = int(str(wrong.exception).split("the first ")[1].split(" ")[0])
            made = layers.layered(told, {f"D{at}": speeds for at in range(fit)})
            self.assertTrue(all(len(one) <= 65_536 for one in made.lists.values()))

    def test_wrong_classes(self) -> None:
        with tempfile.TemporaryDirectory() as name:
            folder = Path(name)
            write_reality(folder)
            wrong = json.loads(json.dumps(CLASSES))
            wrong["classes"][1]["needs"]["gauge"] = "G9"
            (folder / "classes.json").write_text(json.dumps(wrong))
            with self.assertRaises(Refused) as told:
                read_classes(folder / "classes.json")
            self.assertIn("classes[1].needs.gauge: is none of G1", str(told.exception))


def _plain_lists(folder: Path) -> plain.Lists:
    network, report = folder / "n.json", folder / "r.txt"
    import_network.import_network([str(folder / "export.json"), str(network), "--report",
                                   str(report), "--tags", "MA100"])
    told: plain.Lists = json.loads(network.read_text())
    return told


if __name__ == "__main__":
    unittest.main()
