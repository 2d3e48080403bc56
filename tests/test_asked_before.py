"""Tests that what a client asked before changes no reply, and of a proof no more than the order of
its members: a client keeps what searches of its last requests had worked out, and finds by it what a
client finds that has asked nothing yet.

On corridors with planned trains one client asks all in one session. Another server, over a journal
of its own, is begun anew for each ask. More relations are asked for than are kept, each of them
several times, in windows of its own; holds come in between. One client asks for more trains than are
kept charts of, one for more stops of one train than a chart tells of.

    PYTHONPATH=python python3 -m tests.test_asked_before --program crates/stdcm/out/stdcm
"""
from __future__ import annotations

import random
import sys
import tempfile
from dataclasses import dataclass
from pathlib import Path
from typing import Any

from bench.corridor import corridor
from kidrofemba.network.blocking_times import Railway, Settings, Train, blocks_of
from kidrofemba.network.table_file import read_table
from tests.cases import Cases, World, program_of

REPOSITORY = Path(__file__).resolve().parent.parent


HORIZON, LATEST, PLANNED = 3_000, 1_500, 10
FIRST = {"name": "F1", "length_m": 400, "speed": 20_000, "accel": 200, "brake": 250, "allowance": 0}
LONG = {"name": "long one", "length_m": 900, "speed": 25_000, "accel": 150, "brake": 250,
        "allowance": 5}
#: More trains than the eight whose charts a client keeps, no two alike.
TWELVE = [{**FIRST, "name": f"F{number}", "length_m": 380 + 20 * number} for number in range(1, 13)]
BASE = {"tick_s": 10, "setting": 1, "release": 1, "horizon": HORIZON, "journal_bytes": 268_435_456}


@dataclass(frozen=True)
class Talk:
    """One client's asks on a corridor of so many sections."""

    seed: int
    trains: list[dict[str, Any]]
    proves: bool = False
    sections: int = 4
    #: How many relations are asked for: more than the sixteen whose courses a client keeps.
    relations: int = 24
    asks: int = 160

    @property
    def blocks_of_section(self) -> int:
        return 3 if self.sections < 20 else 1


#: The last one has 201 stops, more than the 128 that a chart tells of.
TALKS = [
    Talk(1, [FIRST, LONG]), Talk(2, [FIRST, LONG], proves=True), Talk(3, [FIRST, LONG]),
    Talk(4, TWELVE, relations=60, asks=320),
    Talk(5, [FIRST], sections=200, relations=400, asks=500)]


def planned(talk: Talk, railway: Railway, source: random.Random) -> list[dict[str, Any]]:
    """Planned trains that do not clash, each over a part of the corridor."""
    follows: dict[str, list[int]] = {}
    for number, block in enumerate(railway.blocks):
        follows.setdefault(block.begins, []).append(number)
    trains: list[dict[str, Any]] = []
    while len(trains) < PLANNED:
        told = source.choice(talk.trains)
        train = Train(*(told[key] for key in ("length_m", "speed", "accel", "brake", "allowance")))
        way = [source.randrange(len(railway.blocks))]
        while len(way) < 14 and follows.get(railway.blocks[way[-1]].ends):
            way.append(source.choice(follows[railway.blocks[way[-1]].ends]))
        claims = railway.stairway(train, railway.run(train, way, source.randrange(LATEST)))
        if railway.clash(claims) is None:
            railway.add(claims, "planned")
            trains.append({"name": f"IC {len(trains)}", "requirements": [
                {"zone": zone, "from": begin, "to": end} for zone, begin, end in claims]})
    return trains


def relations_of(talk: Talk, stops: list[str], source: random.Random) -> list[tuple[str, str]]:
    """Relations of which no two are the same: train, origin and destination; and what stands behind
    the windows, one stop or none."""
    found: set[tuple[str, str]] = set()
    while len(found) < talk.relations:
        first = source.randrange(len(stops) - 1)
        last = source.randrange(first + 1, len(stops))
        train = source.choice(talk.trains)["name"].replace(" ", "%20")
        between = stops[first + 1:last]
        is_halting = bool(between) and source.randrange(2) == 0
        stop = f"1 {source.choice(between)} {source.randrange(30)}" if is_halting else "0"
        found.add((f"{train} {stops[first]} {stops[last]}", stop))
    return sorted(found)


def lines_of(talk: Talk, stops: list[str], zones: int, source: random.Random) -> list[str]:
    """Asks of these relations in a drawn order, with a hold behind every eighth."""
    relations, lines = relations_of(talk, stops, source), []
    for number in range(talk.asks):
        relation, stop = source.choice(relations)
        tick = source.randrange(LATEST)
        windows = f"{tick} {tick + source.choice((0, 20, 200))} 0 " \
                  f"{tick + source.choice((300, 700, HORIZON))}"
        lines.append(f"ask {len(lines)} {relation} {windows} {stop}")
        if number % 8 == 7:
            lines.append(f"hold {len(lines)} {source.randrange(zones)} {tick} {tick + 40}")
    return lines


def in_order(proofs: str) -> list[list[str]]:
    """Each proof's head, and then its members in the order of their texts."""
    made: list[list[str]] = []
    for line in proofs.splitlines():
        if line.startswith("proof "):
            made.append([])
        made[-1].append(line)
    return [[*proof[:2], *sorted(proof[2:])] for proof in made]


def try_talk(cases: Cases, program: Path, folder: Path, talk: Talk) -> None:
    """All lines in one session, and each in a session of its own over another journal."""
    seed, source = talk.seed, random.Random(talk.seed)
    made = corridor(talk.sections, talk.blocks_of_section)
    worlds = [World(program, folder / name) for name in (f"one{seed}", f"many{seed}")]
    for world in worlds:
        world.folder.mkdir()
        world.write("network", made.infra)
        world.write("trains", {"trains": talk.trains})
        world.list()
    blocks = blocks_of(read_table(worlds[0].path("table")), made.infra)
    railway = Railway(blocks, settings=Settings(horizon=HORIZON))
    base = BASE | {"trains": planned(talk, railway, source)}
    stops = [stop.replace(" ", "%20") for stop in made.stops]
    zones = 1 + max(zone for block in blocks for zone, _ in block.cells)
    lines = lines_of(talk, stops, zones, source)
    one, many = worlds
    for world in worlds:
        world.write("base", base)
        cases.equal(f"corridor {seed}: a journal is begun", 0, world.init())

    def proof_of(world: World) -> list[str]:
        return ["--proof", f"A={world.path('proofs')}"] if talk.proves else []

    together = one.serve("A", lines, *proof_of(one))
    apart = [many.serve("A", [line], *proof_of(many))[0] for line in lines]
    counts = {word: sum(reply.startswith(f"{word} ") for reply in together)
              for word in ("granted", "no-path", "held")}
    cases.holds(f"corridor {seed}: paths are granted and refused, and holds are taken",
                min(counts["granted"], counts["no-path"], 5 * counts["held"]) >= 20, counts)
    for line, wanted, got in zip(lines, apart, together):
        cases.equal(f"corridor {seed}: {line}", wanted, got)
    cases.equal(f"corridor {seed}: as many replies", len(lines), len(together))
    if talk.proves:
        wanted, got = (in_order(world.path("proofs").read_text()) for world in (many, one))
        proved = [line for line, reply in zip(lines, together)
                  if reply.split()[0] in ("granted", "no-path")]
        cases.equal(f"corridor {seed}: as many proofs in one session", len(proved), len(got))
        cases.equal(f"corridor {seed}: as many proofs apart", len(proved), len(wanted))
        for line, apart_proof, proof in zip(proved, wanted, got):
            cases.equal(f"corridor {seed}: the proof beside {line}", apart_proof, proof)


def main() -> int:
    program, cases = program_of(__doc__), Cases()
    with tempfile.TemporaryDirectory() as place:
        for talk in TALKS:
            try_talk(cases, program, Path(place), talk)
    return cases.end()


if __name__ == "__main__":
    sys.exit(main())
