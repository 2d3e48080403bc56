"""Tests who is told to stand in the way of an ask: on corridors with planned trains, sold paths and
holds each of them is taken out in turn, in timetables made anew, and the program is asked.

    PYTHONPATH=python python3 -m tests.test_why_not --program crates/stdcm/out/stdcm
"""
from __future__ import annotations

import os
import random
import re
import sys
import tempfile
from collections.abc import Iterator
from dataclasses import dataclass
from pathlib import Path
from typing import Any

from bench.corridor import corridor
from kidrofemba.network.blocking_times import Railway, Settings, Train, blocks_of
from kidrofemba.network.table_file import read_table
from kidrofemba.why import why_not
from tests.cases import Cases, Ran, World, changed, program_of, run

REPOSITORY = Path(__file__).resolve().parent.parent


SECTIONS, BLOCKS, PLANNED = 4, 3, 14
LATEST = 1_500
TRAINS = [
    {"name": "F1", "length_m": 400, "speed": 20_000, "accel": 200, "brake": 250, "allowance": 0},
    {"name": "long one", "length_m": 900, "speed": 25_000, "accel": 150, "brake": 250,
     "allowance": 5}]
BASE = {"tick_s": 10, "setting": 1, "release": 1, "horizon": 3_000, "journal_bytes": 268_435_456,
        "begins": "2026-11-29T05:00:00+01:00"}


@dataclass(frozen=True)
class Taken:
    """One that has zones, as the report names it: a planned train, by its place, or an entry, by
    the line that makes the same entry again."""

    name: str
    planned: int | None = None
    line: str | None = None


class Corridor:
    """A corridor with planned trains, on which a client sells paths and holds zones."""

    def __init__(self, world: World, speed_loss: bool, source: random.Random):
        self.world, self.source = world, source
        made = corridor(SECTIONS, BLOCKS)
        slow = {"id": "slow", "speed_limit": 12.5, "track_ranges": [
            {"track": "line1", "begin": 1500.0, "end": 3000.0, "applicable_directions": "BOTH"}]}
        made.infra["speed_sections"].append(slow)
        self.stops = [stop.replace(" ", "%20") for stop in made.stops]
        world.write("network", made.infra)
        world.write("trains", {"trains": TRAINS})
        world.list()
        blocks = blocks_of(read_table(world.path("table")), made.infra)
        self.railway = Railway(blocks, settings=Settings(horizon=3_000, speed_loss=speed_loss))
        self.base = BASE | {"speed_loss": int(speed_loss), "trains": self._plan()}
        world.write("base", self.base)
        world.init()
        lines = list(self._lines())
        self.standing = list(zip(lines, world.serve("B", lines)))

    def _plan(self) -> list[dict[str, Any]]:
        """Planned trains that do not clash, each over a part of the corridor."""
        one = TRAINS[self.source.randrange(2)]
        train = Train(*(one[key] for key in ("length_m", "speed", "accel", "brake", "allowance")))
        follows: dict[str, list[int]] = {}
        for number, block in enumerate(self.railway.blocks):
            follows.setdefault(block.begins, []).append(number)
        trains: list[dict[str, Any]] = []
        while len(trains) < PLANNED:
            way = [self.source.randrange(len(self.railway.blocks))]
            while len(way) < 14 and follows.get(self.railway.blocks[way[-1]].ends):
                way.append(self.source.choice(follows[self.railway.blocks[way[-1]].ends]))
            runs = self.railway.run(train, way, self.source.randrange(LATEST))
            claims = self.railway.stairway(train, runs)
            if self.railway.clash(claims) is None:
                self.railway.add(claims, "planned")
                trains.append({"name": f"IC {len(trains)}", "requirements": [
                    {"zone": zone, "from": begin, "to": end} for zone, begin, end in claims]})
        return trains

    def _ask(self, number: int, width: int) -> str:
        """An ask over some sections, one in three with a stop on the way."""
        first = self.source.randrange(len(self.stops) - 1)
        last = self.source.randrange(first + 1, len(self.stops))
        tick = self.source.randrange(LATEST)
        train = self.source.choice(("F1", "long%20one"))
        between = self.stops[first + 1:last]
        stop = ""
        if between and self.source.randrange(3) == 0:
            stop = f" {self.source.choice(between)} {self.source.randrange(30)}"
        return (f"ask {number} {train} {self.stops[first]} {self.stops[last]} {tick} "
                f"{tick + width} 0 {tick + self.source.choice((400, 700, 3_000))} "
                f"{1 if stop else 0}{stop}")

    def _lines(self) -> Iterator[str]:
        """What the client sells and holds."""
        for number in range(12):
            yield self._ask(number, 100)
        for number in range(12, 18):
            zone, tick = self.source.randrange(15), self.source.randrange(LATEST)
            if number % 2:
                yield f"hold {number} {zone} {tick} {tick + 60}"
            else:
                yield f"holds {number} works%20{number} 2 {zone} {tick} {tick + 50} " \
                      f"{zone + 1} {tick} {tick + 50}"

    def asked(self, count: int) -> list[tuple[str, str]]:
        """Asks of another client with their replies; their proofs are in a file."""
        asks = [self._ask(number, 20) for number in range(count)]
        self.world.path("proofs").unlink(missing_ok=True)
        replies = self.world.serve("A", asks, "--proof", f"A={self.world.path('proofs')}")
        return list(zip(asks, replies))

    def holders(self, asked: list[tuple[str, str]]) -> list[Taken]:
        """All that have zones behind these asks, as the report must name them."""
        named = [Taken(f"planned {one['name']}", planned=at)
                 for at, one in enumerate(self.base["trains"])]
        told = [("B", *one) for one in self.standing] + [("A", *one) for one in asked]
        for at, (owner, line, reply) in enumerate(told):
            words = line.split()
            if reply.startswith("granted"):
                again = f"pin {at} {words[2]} {' '.join(reply.split()[7:])}"
                what, reason = "path", ""
            elif reply.startswith("held"):
                again = " ".join([words[0], str(at), *words[2:]])
                what, reason = "hold", f", works {words[1]}" if words[0] == "holds" else ""
            else:
                continue
            entry = reply.split()[3]
            named.append(Taken(f"{what} {words[1]} of {owner}{reason} (entry {entry})",
                               line=again))
        return named


class Elsewhere:
    """Timetables made anew, each without one of those that have zones: what stood is held and
    pinned again line by line."""

    def __init__(self, corridor: Corridor, world: World, holders: list[Taken]):
        self.corridor, self.world, self.holders = corridor, world, holders
        for name in ("network", "trains"):
            world.write(name, corridor.world.path(name).read_text())

    def grants(self, taken: Taken | None, ask: str) -> bool:
        """Whether an ask is granted once one is taken out."""
        base = changed(self.corridor.base, lambda it: None)
        if taken is not None and taken.planned is not None:
            del base["trains"][taken.planned]
        self.world.write("base", base)
        self.world.init()
        lines = [one.line for one in self.holders if one.line is not None and one != taken]
        replies = self.world.serve("C", [*lines, "ask 1000000 " + ask.split(" ", 2)[2]])
        if not all(reply.split()[0] in ("pinned", "held") for reply in replies[:-1]):
            raise SystemExit(f"what stood does not stand again: {replies}")
        return replies[-1].startswith("granted ")

    def grants_alone(self, ask: str) -> bool:
        """Whether an ask is granted where nothing is planned and nothing stands."""
        self.world.write("base", self.corridor.base | {"trains": []})
        self.world.init()
        return self.world.serve("C", [ask])[0].startswith("granted ")


def explain(world: World, *options: object) -> Ran:
    return run(why_not, world.path("proofs"), *world.files(
        "network", "table", "base", "trains", "journal"), *options)


def try_corridor(cases: Cases, corridor: Corridor, other: World, seed: int) -> None:
    """Each that has zones is taken out: the report names just those without which the ask is
    granted."""
    asked = corridor.asked(30)
    refused = [at for at, (_, reply) in enumerate(asked) if reply.startswith("no-path ")]
    cases.holds(f"corridor {seed}: asks are refused", len(refused) >= 4, asked)
    for number in refused[:4]:
        ask, holders = asked[number][0], corridor.holders(asked[:number])
        elsewhere = Elsewhere(corridor, other, holders)
        cases.holds(f"corridor {seed}: {ask}: refused elsewhere", not elsewhere.grants(None, ask))
        done = explain(corridor.world, "--ask", number, "--ask-again", corridor.world.program)
        cases.equal(f"{ask}: status", 0, done.status)
        told = re.findall(r"^  Without (.*): a path,", done.out, re.MULTILINE)
        wanted = [one.name for one in holders if elsewhere.grants(one, ask)]
        cases.equal(f"corridor {seed}: {ask}", sorted(wanted), sorted(told))
        quiet = explain(corridor.world, "--ask", number)
        is_alone = elsewhere.grants_alone(ask)
        cases.equal(f"corridor {seed}: {ask}: with nothing in the way", [not is_alone] * 2,
                    ["Even with nothing in the way" in one.out for one in (done, quiet)])
        if not is_alone:
            continue
        may = re.search(r"there may be a path: (.*)", quiet.out)
        cases.holds(f"{ask}: who may help has who helps", may is not None and all(
            name in may[1] for name in told), quiet.out)


def try_texts(cases: Cases, world: World) -> None:
    """On a line of three blocks, by hand: the path that is sold has zone 1 from tick 5 to 38, and
    the train that departs at 6 to 38 would enter the block before it at its departure."""
    for name in ("line3", "trains"):
        world.write("network" if name == "line3" else name,
                    (REPOSITORY / f"examples/{name}.json").read_text())
    world.write("base", BASE | {"trains": []})
    world.list()
    world.init()
    sold = world.serve("A", ["ask 1 F1 W E 6 6 0 17280 0", "hold 2 2 900 905"])
    cases.holds("sold", sold[0].startswith("granted 1 entry 0"), sold)
    world.path("proofs").unlink(missing_ok=True)
    world.serve("A", ["ask 3 F1 W E 6 38 0 3000 0", "ask 4 F1 W E 100 100 0 120 0",
                      "ask 5 F1 E W 100 200 0 3000 0", "ask 6 F1 W E 300 300 0 3000 0",
                      "ask 7 F1 W E 2990 2999 0 3000 0", "ask 8 F1 W E 6 38 0 60 0",
                      "ask 9 F1 W E 6 40 0 44 0", "ask 10 F1 W E 100 100 200 300 0"],
                "--proof", f"A={world.path('proofs')}")
    done = explain(world, "--ask-again", world.program)
    wanted = [
        "ask 3: F1 from W to E, leaving 05:01:00 to 05:06:20, arriving 05:00:00 to 13:20:00: "
        "no path beside 2 entries",
        "    path 1 of A (entry 0) has zone 1 (T 2000-4000 m) 05:00:50 to 05:06:20: "
        "it can't go on at 05:06:40 to 05:08:50; and 1 of its claims more",
        "  Without path 1 of A (entry 0): a path, leaving 05:01:00, arriving 05:07:30",
        "  Even with nothing in the way there is no path: it could arrive at 05:23:10 at the "
        "earliest, 190 s behind its window.",
        "  Asked again, its arrival open to the horizon, with nothing in the way: a path, leaving "
        "05:16:40, arriving 05:23:10; beside what stands: a path, leaving 05:16:40, arriving "
        "05:23:10",
        "  Even with nothing in the way there is no path: no move ends within the horizon, "
        "13:20:00.",
        "  Asked again, its arrival open to the horizon, with nothing in the way: no path; beside "
        "what stands: no path",
        "  Even with nothing in the way there is no path: it could arrive at 05:07:30 at the "
        "earliest, 10 s behind its window.",
        "  Beside what stands it could arrive at 05:13:00 at the earliest, 340 s behind its "
        "window.",
        "  Even with nothing in the way there is no path: it could arrive at 05:23:10 at the "
        "latest, 610 s before its window.",
        "  No way leads there in this network, whoever is taken out."]
    for line in wanted:
        cases.holds("told", line in done.out.splitlines(), f"{line}\nnot in\n{done.out}")
    cases.equal("where nobody is in the way nobody is told", 2, done.out.count("In its way, "))
    cases.equal("asks that are explained", [f"ask {at}" for at in (3, 4, 5, 7, 8, 9, 10)],
                re.findall(r"^ask \d+", done.out, re.MULTILINE))
    sixth = explain(world, "--ask", 6)
    cases.holds("a granted ask: no earlier arrival", "05:56:30" in sixth.out
                or "could arrive" in sixth.out, sixth.out)


def try_bad_input(cases: Cases, world: World) -> None:
    """One line that tells what is wrong, and status 2."""
    proofs = world.path("proofs").read_text()

    def try_one(name: str, wanted: str, *options: object) -> None:
        done = explain(world, *options)
        cases.holds(f"{name}: told", done.err.startswith("why: ") and wanted in done.err
                    and len(done.err.splitlines()) == 1 and done.status == 2, done.err)

    try_one("no such ask", "proofs: ask 99: has no proof here", "--ask", 99)
    try_one("no such program", "words: --ask-again nothing: is no program", "--ask-again",
            "nothing")
    cases.equal("no such program: nothing is told", "", explain(world, "--ask-again", "none").out)
    before = os.environ["PATH"]
    os.environ["PATH"] = f"{world.program.parent}:{before}"
    done = explain(world, "--ask", 3, "--ask-again", world.program.name)
    os.environ["PATH"] = before
    cases.holds("a program of the search path is asked", (done.status, done.err) == (0, "")
                and "Without path 1 of A (entry 0): a path" in done.out, f"{done}")
    table = world.path("table").read_text()
    try_one("a table twice", "t: line 8: a second table begins here: `list` appends to a file; "
            "remove it and list anew", "--table", world.write("t", table + table))
    try_one("a program that fails", "ended with status", "--ask-again", "/bin/false")
    try_one("other trains", "has no train F1", "--trains", world.write("t", {"trains": []}))
    slower = changed(world.read("trains"), lambda it: it["trains"][0].update(speed=10_000))
    try_one("a slower train", "does not hold beside these files", "--trains",
            world.write("t", slower))
    try_one("another base", "belongs to another network or base", "--base",
            world.write("b", world.read("base") | {"setting": 2}))
    for name, text, wanted in (
            ("cut proofs", proofs[:-1], "proofs: no proofs: the last line"),
            ("no proofs", "x\n", "proofs: no proofs: line 1 begins no proof"),
            ("members that are missing", "proof at 0 ask 1 F1 W E 0 0 0 0 0\nmembers 2\n",
             "no proofs: behind line 1 members are missing"),
            ("more entries", proofs.replace("proof at 2", "proof at 7"), "speaks of 7 entries"),
            ("another block", re.sub(r"member 1 0", "member 1 77", proofs), "names block 77")):
        world.write("proofs", text)
        try_one(name, wanted)
    world.write("proofs", proofs)


def main() -> int:
    program, cases = program_of(__doc__), Cases()
    with tempfile.TemporaryDirectory() as place:
        folders = [Path(place) / name for name in ("line", "one", "two", "other")]
        for folder in folders:
            folder.mkdir()
        line, *rest, other = (World(program, folder) for folder in folders)
        try_texts(cases, line)
        try_bad_input(cases, line)
        for seed, world in enumerate(rest):
            corridor = Corridor(world, seed == 1, random.Random(seed))
            try_corridor(cases, corridor, other, seed)
    return cases.end()


if __name__ == "__main__":
    sys.exit(main())
