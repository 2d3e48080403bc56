"""Tests the plain model of running times, blocking times and proofs by rows that were worked out by
hand, and by what the program itself grants and prints.

    PYTHONPATH=python python3 -m tests.test_blocking_times --program crates/stdcm/out/stdcm
"""
from __future__ import annotations

import json
import sys
import tempfile
from pathlib import Path
from typing import Any

from kidrofemba.network.blocking_times import Railway, Run, Settings, Train, blocks_of, joined
from kidrofemba.network.table_file import read_table
from kidrofemba.why.members import Judge, Line, busy_of, read_proofs
from tests.cases import Cases, World, program_of

REPOSITORY = Path(__file__).resolve().parent.parent


EXAMPLES = REPOSITORY / "examples"
BASE = {"tick_s": 10, "setting": 1, "release": 1, "horizon": 17_280, "journal_bytes": 268_435_456,
        "trains": []}
TRAINS = {one["name"]: one for one in json.loads((EXAMPLES / "trains.json").read_text())["trains"]}
SLOW = {"id": "slow", "speed_limit": 5.0, "track_ranges": [
    {"track": "T", "begin": 2000, "end": 4000, "applicable_directions": "BOTH"}]}


def train(name: str) -> Train:
    one = TRAINS[name]
    return Train(one["length_m"], one["speed"], one["accel"], one["brake"], one["allowance"])


def runs(text: str) -> list[Run]:
    """Runs as lines tell them."""
    numbers = list(map(int, text.split()))
    return [Run(*numbers[at:at + 3], numbers[at + 3] == 1) for at in range(0, len(numbers), 4)]


# Network, with a slow section or not, train, runs, claims (zone, begin, end).
ROWS = [
    ("line3", False, "F1", "0 6 21 0 1 21 31 0 2 31 45 1", [(0, 5, 24), (1, 5, 38), (2, 18, 46)]),
    ("line3", False, "F2", "0 6 21 0 1 21 35 1 2 44 63 1", [(0, 5, 56), (1, 5, 64), (2, 43, 64)]),
    ("line3", True, "F1", "0 6 21 0 1 21 64 0 2 64 81 1", [(0, 5, 33), (1, 5, 74), (2, 12, 82)]),
    ("line6", False, "F3", "0 10 16 0 1 16 19 0 2 19 22 0 3 22 27 1 4 31 37 0 5 37 42 1",
     [(0, 9, 36), (1, 9, 41), (2, 13, 43), (3, 16, 43), (4, 30, 43), (5, 30, 43)]),
    ("station", False, "F4", "0 0 22 0 1 22 35 0 3 35 62 1",
     [(0, -1, 26), (1, -1, 28), (2, -1, 41), (3, 16, 43), (5, 16, 63)]),
]
PROOFS = [  # members beside the path of the first row, and whether they show that there is no other
    ("members 1\nmember 1 0 0 0 0 40 53\n", True), ("members 1\nmember 1 0 0 0 0 40 52\n", False),
    ("members 0\n", False), ("members 1\nmember 1 0 3 0 0 40 53\n", False),
    ("members 1\nmember 1 0 0 0 0 30 53\n", True), ("members 1\nmember 1 0 0 0 0 40 54\n", False),
]


def railway_of(world: World, network: str, slow: bool) -> Railway:
    """An example's railway."""
    infra: dict[str, Any] = json.loads((EXAMPLES / f"{network}.json").read_text())
    if slow:
        infra["speed_sections"] = [SLOW]
    world.write("network", infra)
    world.write("base", BASE | {"speed_loss": int(slow)})
    world.write("trains", {"trains": list(TRAINS.values())})
    world.list()
    blocks = blocks_of(read_table(world.path("table")), infra)
    return Railway(blocks, settings=Settings(speed_loss=slow))


def try_rows(cases: Cases, world: World) -> None:
    """The claims of paths, by hand and by `stairs`, and the ticks of their runs by `pin`."""
    for network, slow, name, text, claims in ROWS:
        row = f"{network} {name}{' slow' if slow else ''}"
        railway = railway_of(world, network, slow)
        path = runs(text)
        cases.equal(f"{row}: claims", claims, railway.stairway(train(name), path))
        for at, run in enumerate(path):
            block = railway.blocks[run.block]
            entered = railway.entered(train(name), path, at)
            ticks = railway.ticks(block, train(name), block.length, entered, run.stops)
            cases.equal(f"{row}: run {at}", run.leave - run.enter, ticks)
        world.init()
        told = world.serve("A", [f"pin 1 {name} {len(path)} {text}"])
        cases.equal(f"{row}: pinned", ["pinned 1 entry 0 at 1"], told)
        done = world.command("stairs", *world.files("network", "base", "journal"),
                             "--entry", "0", "--out", "stdout")
        cells = [tuple(map(int, line.split()[:3])) for line in done.stdout.splitlines()[1:]]
        cases.equal(f"{row}: stairs", claims, joined(cells))


def try_losses(cases: Cases, world: World) -> None:
    """Seconds over the slow block, of which 23 are lost by braking from 20 m/s to 5 m/s, and over
    the one behind it, of which 29 are lost by getting faster again and 40 by the stop."""
    blocks = railway_of(world, "line3", True).blocks
    for loss, slow, behind in ((True, 423, 169), (False, 400, 140)):
        railway = Railway(blocks, settings=Settings(tick_s=1, speed_loss=loss))
        cases.equal(f"slow block, loss {loss}", slow, railway.ticks(
            blocks[1], train("F1"), 2_000, 20_000, False))
        cases.equal(f"behind it, loss {loss}", behind, railway.ticks(
            blocks[2], train("F1"), 2_000, 5_000, True))


def try_followers(cases: Cases, world: World) -> None:
    """Blocks of one route follow one another, and nothing else does on these lines."""
    for network, wanted in (("line3", [[1], [2], []]), ("station", [[1, 2], [3], [4], [], []])):
        railway = railway_of(world, network, False)
        found = [[number for number, block in enumerate(railway.blocks)
                  if block.begins == one.ends] for one in railway.blocks]
        cases.equal(f"{network}: what follows", wanted, found[:len(wanted)])


def try_proofs(cases: Cases, world: World) -> None:
    """Members that prove that a second path can't be granted, and members that do not."""
    railway = railway_of(world, "line3", False)
    judge = Judge(Line(railway, train("F1")), busy_of(ROWS[0][4]))
    for members, holds in PROOFS:
        text = "proof at 1 ask 2 F1 W E 6 38 0 17280 0\n" + members
        proof = next(read_proofs(text))
        cases.equal(f"{members.split()[2:]}: proves", holds, judge.fault(proof) is None)
        cases.equal(f"{members.split()[2:]}: there and back", text, proof.text())
    for wrong in ("proof at 1 ask 2 F1 W E 6 38 0 17280 0\nmembers 1\n", "proof at 1\n", "x\n\n",
                  "proof at 1 ask 2 F1 W E 6 38 0 17280 0\nmembers 0"):
        try:
            list(read_proofs(wrong))
            cases.holds(f"{wrong!r} is no proof", False)
        except ValueError:
            cases.holds(f"{wrong!r} is no proof", True)


def main() -> int:
    program, cases = program_of(__doc__), Cases()
    with tempfile.TemporaryDirectory() as folder:
        world = World(program, Path(folder))
        try_rows(cases, world)
        try_losses(cases, world)
        try_followers(cases, world)
        try_proofs(cases, world)
    return cases.end()


if __name__ == "__main__":
    sys.exit(main())
