"""Corridors with planned trains, asks over them, and sessions of the built program that answer them."""
from __future__ import annotations

import random
import subprocess
import time
from dataclasses import dataclass, field
from pathlib import Path
from typing import Any

from bench.served import TRAINS, World, make_world, peak_of, without_syncs
from kidrofemba.network.blocking_times import HORIZON, Ask, Railway, Run, blocks_of, train_of
from kidrofemba.network.table_file import read_table_text

NAMES = "ABCD"
BLOCKS_OF_SECTION = 8
F1 = train_of(TRAINS[0])


@dataclass(frozen=True)
class Figures:
    """One run of the server."""

    seconds: float
    peak_mb: float
    replies: list[list[str]]
    report: list[str] = field(default_factory=list)


def plan(railway: Railway, count: int, source: random.Random) -> list[dict[str, Any]]:
    """So many planned trains, each on a part of the corridor, of which no two clash."""
    leads: dict[str, list[int]] = {}
    for number, block in enumerate(railway.blocks):
        leads.setdefault(block.begins, []).append(number)
    trains: list[dict[str, Any]] = []
    for _ in range(200 * count):
        if len(trains) == count:
            return trains
        blocks = [source.randrange(len(railway.blocks))]
        for _ in range(source.randrange(4, 12) * (BLOCKS_OF_SECTION + 1)):
            following = leads.get(railway.blocks[blocks[-1]].ends, [])
            if not following:
                break
            blocks.append(source.choice(following))
        runs = railway.run(F1, blocks, source.randrange(HORIZON))
        if runs[-1].leave > HORIZON:
            continue
        claims = railway.stairway(F1, runs)
        if railway.clash(claims) is None:
            railway.add(claims, f"planned train {len(trains)}")
            needs = [{"zone": zone, "from": begin, "to": end} for zone, begin, end in claims]
            trains.append({"name": f"P{len(trains)}", "requirements": needs})
    raise SystemExit(f"only {len(trains)} of {count} trains could be planned")


def world_of(folder: Path, sections: int, trains: int, source: random.Random) -> tuple[World, Railway]:
    """A corridor with planned trains, and what the model knows of it."""
    folder.mkdir()
    world = make_world(folder, sections, BLOCKS_OF_SECTION)
    table = subprocess.run(world.words("list", ["network"], "--out", "stdout"), check=True, stdout=subprocess.PIPE, text=True).stdout
    railway = Railway(blocks_of(read_table_text(table), world.made.infra))
    planned = plan(railway, trains, source)
    world.path("base").unlink()
    return make_world(folder, sections, BLOCKS_OF_SECTION, planned), railway


def stops_of(railway: Railway) -> list[str]:
    """The stops along the corridor."""
    stops: dict[str, None] = {}
    for block in railway.blocks:
        stops.update(dict.fromkeys(block.serves))
    return list(stops)


def relation_of(stops: list[str], source: random.Random) -> tuple[str, str]:
    """An origin and a destination, some ten sections apart."""
    first = source.randrange(len(stops) - 1)
    return stops[first], stops[min(len(stops) - 1, first + source.randrange(2, 12))]


def asks_of(stops: list[str], client: int, count: int, source: random.Random, relations: int = 0) -> list[Ask]:
    """Asks over some ten sections: every other one at one tick alone, the rest in a window of 100 ticks.

    They are of so many relations, or each of one that is drawn anew.
    """
    drawn = [relation_of(stops, source) for _ in range(relations)]
    asks = []
    for number in range(count):
        origin, destination = source.choice(drawn) if drawn else relation_of(stops, source)
        tick = source.randrange(HORIZON - 2000)
        wide = 0 if number % 2 else 100
        asks.append(Ask(number, origin, destination, (tick, tick + wide), (0, min(HORIZON, tick + 1500))))
    return asks


def text_of(asks: list[Ask]) -> str:
    return "".join(ask.line() + "\n" for ask in asks)


def run_words(world: World, words: list[str], outputs: list[Path]) -> Figures:
    """Runs the program without syncs, and reads what it wrote; it must end with status 0."""
    environment = without_syncs(world.folder)
    report = world.path("report")
    for written in outputs:
        written.unlink(missing_ok=True)
    peak = 0.0
    with report.open("wb") as told:
        begin = time.monotonic()
        with subprocess.Popen(words, env=environment, stderr=told) as child:
            while child.poll() is None:
                peak = max(peak, peak_of(child.pid))
                time.sleep(0.001)
        seconds = time.monotonic() - begin
    lines = report.read_text().splitlines()
    if child.returncode != 0:
        raise SystemExit(f"{words[1]} ended with {child.returncode}: {lines}")
    return Figures(seconds, peak, [written.read_text().splitlines() for written in outputs], lines)


def serve(world: World, sessions: list[str], proofs: bool = False) -> Figures:
    """Serves one session for each client, over files and without syncs; with proofs each client's go to a file, `proofs0` and so on."""
    named, outputs = [], []
    for client, text in enumerate(sessions):
        read, written = world.path(f"in{client}"), world.path(f"out{client}")
        read.write_text(text)
        outputs.append(written)
        named.append((NAMES[client], read, written))
    words = world.serve(named)
    if proofs:
        for client in range(len(sessions)):
            world.path(f"proofs{client}").unlink(missing_ok=True)
            words += ["--proof", f"{NAMES[client]}={world.path(f'proofs{client}')}"]
    return run_words(world, words, outputs)


def runs_of(words: list[str]) -> list[Run]:
    """The runs of a reply that grants a path."""
    count = int(words[words.index("runs") + 1])
    fields = words[words.index("runs") + 2:]
    if len(fields) != 4 * count:
        raise SystemExit(f"{len(fields)} fields of {count} runs")
    rows = zip(*(fields[at::4] for at in range(4)))
    return [Run(int(block), int(enter), int(leave), stops == "1") for block, enter, leave, stops in rows]


def close(world: World, railway: Railway, stop: str) -> None:
    """Begins the journal anew, with holds that close a stop for all ticks."""
    world.begin()
    holds = []
    for zone in sorted({block.cells[-1][0] for block in railway.blocks if stop in block.serves}):
        at = -100
        for start, end, _ in sorted(railway.claims.get(zone, [])):
            if at < start:
                holds.append((zone, at, start))
            at = max(at, end)
        holds.append((zone, at, HORIZON + 100))
    text = "".join(f"hold {number} {zone} {start} {end}\n" for number, (zone, start, end) in enumerate(holds))
    told = serve(world, [text]).replies[0]
    if not all(reply.startswith("held ") for reply in told):
        raise SystemExit("the destination could not be closed")


def hopeless(stops: list[str], count: int) -> tuple[str, list[Ask]]:
    """A stop some way off, and asks that seek a path to it at any time: all of them are refused once it is closed."""
    far = stops[min(len(stops) - 1, 12)]
    return far, [Ask(1_000_000 + number, stops[0], far, (0, HORIZON), (0, HORIZON)) for number in range(count)]
