"""Tests the schedules that are made of sold paths: by hand on a line of three blocks, and back
again into runs on a corridor.

    PYTHONPATH=python python3 -m tests.test_export_sold --program crates/stdcm/out/stdcm
"""
from __future__ import annotations

import json
import re
import sys
import tempfile
from datetime import datetime
from pathlib import Path
from typing import Any

from bench.corridor import corridor
from kidrofemba.journal import export_sold
from tests.cases import Cases, Ran, World, leftovers, program_of, run

REPOSITORY = Path(__file__).resolve().parent.parent


EXAMPLES = REPOSITORY / "examples"
BEGINS = "2026-11-29T22:59:00+01:00"
BASE = {"tick_s": 10, "setting": 1, "release": 1, "horizon": 17_280, "journal_bytes": 268_435_456,
        "begins": BEGINS, "trains": []}
LINES = [  # of clients on the line of three blocks, with what the replies begin with
    ("A", "ask 1 F2 W E 6 6 0 17280 1 M 9", "granted 1 entry 0"),
    ("A", "hold 2 0 900 901", "held 2 entry 1"),
    ("B", "ask 1 F1 W E 200 200 0 17280 0", "granted 1 entry 2"),
    ("B", "pin 7 F1 1 1 500 519 1", "pinned 7 entry 3"),
    ("B", "free 8 2", "freed 8 entry 4"),
]


def export(world: World, *options: object) -> Ran:
    """Exports the journal's paths."""
    world.path("out").unlink(missing_ok=True)
    return run(export_sold, world.path("journal"), *world.files("network", "table", "base", "out"),
               *options)


def make_line(cases: Cases, world: World) -> None:
    """Sells paths on the line of three blocks, one detector of which lay at a fraction."""
    infra = json.loads((EXAMPLES / "line3.json").read_text())
    infra["detectors"][1]["real"] = 3999.6
    world.write("network", infra)
    world.write("trains", (EXAMPLES / "trains.json").read_text())
    world.write("base", BASE)
    world.list()
    world.init()
    for client, line, begins in LINES:
        reply = world.serve(client, [line])[0]
        cases.holds(f"{line}", reply.startswith(begins), reply)


def try_line(cases: Cases, world: World) -> None:
    """The schedules, by hand: the first path enters at tick 6, passes D1 at 21, stands at D2 from
    35 to 44, and ends at 63."""
    done = export(world, "--tag", "MA100", "--stock", "F1=freight 1800t")
    cases.equal("status", (0, "2 schedules\n", ""), (done.status, done.out, done.err))
    first, pinned = world.read("out")
    cases.equal("name, train, tag", ("A-1", "F2", "MA100"), (
        first["train_name"], first["rolling_stock_name"], first["speed_limit_tag"]))
    cases.equal("start", "2026-11-29T23:00:00+01:00", first["start_time"])
    cases.equal("path", [("p0", "T", 0), ("p1", "T", 2_000_000), ("p2", "T", 3_999_600),
                         ("p3", "T", 6_000_000)],
                [(one["id"], one["track"], one["offset"]) for one in first["path"]])
    cases.equal("calls", [("p1", "PT150S", None), ("p2", "PT290S", "PT90S"),
                          ("p3", "PT570S", "PT0S")],
                [(one["at"], one["arrival"], one["stop_for"]) for one in first["schedule"]])
    cases.equal("pinned", ("B-7", "freight 1800t", "2026-11-30T00:22:20+01:00", 2_000_000), (
        pinned["train_name"], pinned["rolling_stock_name"], pinned["start_time"],
        pinned["path"][0]["offset"]))
    for options, names in ((["--client", "B"], ["B-7"]), (["--entry", 0], ["A-1"]),
                           (["--entry", 3, "--entry", 0], ["A-1", "B-7"])):
        export(world, *options)
        cases.equal(f"{options}", names, [one["train_name"] for one in world.read("out")])
    export(world, "--begin", "2027-01-01T00:00:00Z", "--entry", 0)
    cases.equal("another begin", "2027-01-01T00:01:00+00:00", world.read("out")[0]["start_time"])


def ticks_of(duration: str) -> int:
    """The ticks of a duration."""
    found = re.fullmatch(r"PT(\d+)0S|PT0S", duration)
    if found is None:
        raise SystemExit(f"no duration in whole ticks: {duration}")
    return int(found[1] or 0)


def runs_again(schedule: dict[str, Any]) -> list[tuple[str, int, int, int]]:
    """Where and when a schedule has its train: the track and millimetres at which each stretch
    begins, and the ticks at which the head enters and leaves it."""
    behind = datetime.fromisoformat(schedule["start_time"]) - datetime.fromisoformat(BEGINS)
    start = enter = int(behind.total_seconds()) // 10
    told = []
    for begin, call in zip(schedule["path"], schedule["schedule"]):
        leave = start + ticks_of(call["arrival"])
        told.append((begin["track"], begin["offset"], enter, leave))
        enter = leave + ticks_of(call["stop_for"] or "PT0S")
    return told


def try_corridor(cases: Cases, world: World) -> None:
    """On a corridor, whose routes are one block each: schedules tell the runs of the replies."""
    made = corridor(5, 4)
    world.write("network", made.infra)
    world.list()
    world.init()
    stops = [stop.replace(" ", "%20") for stop in made.stops]
    replies = world.serve("A", [
        f"ask {number} F1 {stops[0]} {stops[-1]} {400 * number} {400 * number} 0 17280 1 "
        f"{stops[1 + number % 4]} {3 * number}" for number in range(20)])
    place = {one["id"]: (one["track"], int(1000 * one["position"]))
             for key in ("detectors", "buffer_stops") for one in made.infra[key]}
    cases.equal("corridor: granted", 20, sum(reply.startswith("granted") for reply in replies))
    export(world)
    schedules = world.read("out")
    for reply, schedule in zip(replies, schedules):
        numbers = list(map(int, reply.split()[8:]))
        wanted = [(*place[made.infra["routes"][numbers[at]]["entry_point"]["id"]],
                   numbers[at + 1], numbers[at + 2]) for at in range(0, len(numbers), 4)]
        cases.equal(f"corridor: {reply[:30]}", wanted, runs_again(schedule))


def try_bad_input(cases: Cases, world: World) -> None:
    """One line that tells what is wrong, status 2, and nothing written."""
    journal = world.path("journal").read_bytes()

    def try_one(name: str, wanted: str, *options: object) -> None:
        done = export(world, *options)
        cases.holds(f"{name}: told", done.err.startswith("export: ") and wanted in done.err
                    and len(done.err.splitlines()) == 1, done.err)
        cases.holds(f"{name}: nothing made", done.status == 2 and not world.path("out").exists()
                    and not list(leftovers(world.folder)))

    try_one("no path", "journal: entry 1: is no path", "--entry", 1)
    try_one("a freed path", "journal: entry 2: is no path", "--entry", 2)
    try_one("a client that has none", "journal: client ZZ: has no path that is sold", "--client",
            "A", "--client", "ZZ")
    try_one("a stock without a train", "--stock: is no TRAIN=STOCK: =x", "--stock", "=x")
    try_one("out is base", "is named twice", "--out", world.path("base"))
    try_one("no folder", "no/out: No such file", "--out", world.path("no/out"))
    undated = {key: value for key, value in BASE.items() if key != "begins"}
    world.write("undated", undated)
    try_one("no date", "undated: has no `begins`", "--base", world.path("undated"))
    try_one("another base", "journal: belongs to another", "--begin", "2027-01-01T00:00:00Z",
            "--base", world.path("undated"))
    try_one("a base without ticks", "base2: has no `tick_s`", "--base",
            world.write("base2", {"trains": []}))
    table = world.path("table").read_text()
    try_one("another table", "table2: is no table of", "--table",
            world.write("table2", table.replace("length 2000", "length 2001")))
    try_one("a cut table", "table2: 3 zones and 2 blocks", "--table",
            world.write("table2", "".join(table.splitlines(keepends=True)[:-1])))
    try_one("no table", "table2: line 1: no line of a table", "--table",
            world.write("table2", "x\n"))
    world.path("journal").write_bytes(journal[:90])
    try_one("a cut journal", "journal: byte 76: an open gate")
    world.path("journal").write_bytes(b"x")
    try_one("no journal", "journal: byte 0: not a journal")
    world.path("journal").write_bytes(journal)


def main() -> int:
    program, cases = program_of(__doc__), Cases()
    with tempfile.TemporaryDirectory() as folder:
        world = World(program, Path(folder))
        make_line(cases, world)
        try_line(cases, world)
        try_bad_input(cases, world)
        try_corridor(cases, world)
    return cases.end()


if __name__ == "__main__":
    sys.exit(main())
