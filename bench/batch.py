"""Measures `batch`: lists of asks on corridors with planned trains, answered by one worker, by two and by four, over files and without syncs.

One list has asks that are all refused, each after a whole search: on four quiet processors four workers should answer it at least three times as fast
as one. The other has asks of which most are granted; each granted path is looked at by a plain model of the rules and claims. Then the same list is
answered again: nothing may be granted a second time. The seconds are less those of the same command with an empty list.
"""
from __future__ import annotations

import argparse
import random
import tempfile
from pathlib import Path

from bench.planned import (F1, Figures, asks_of, close, hopeless, run_words, runs_of, stops_of,
                           text_of, world_of)
from bench.served import World
from kidrofemba.network.blocking_times import Ask, Railway

WORKERS = (1, 2, 4)


def batch(world: World, text: str, workers: int) -> Figures:
    """Answers one list by so many workers."""
    read, written = world.path("list"), world.path("replies")
    read.write_text(text)
    words = world.words("batch", ["network", "trains", "base", "journal"], "--client", f"B={read}:{written}", "--workers", str(workers))
    return run_words(world, words, [written])


def lines_of(report: list[str]) -> list[int]:
    """How many replies were written, and how many lines each worker answered."""
    return [int(line.split()[3]) for line in report]


def counted(figures: Figures, asked: int, workers: int) -> None:
    """The report must tell of each line once."""
    written, *each = lines_of(figures.report)
    if written != asked or len(each) != workers or sum(each) != asked or len(figures.replies[0]) != asked:
        raise SystemExit(f"{asked} lines came to {len(figures.replies[0])} replies, and the report tells {figures.report}")


def check(railway: Railway, asks: list[Ask], replies: list[str]) -> tuple[int, int]:
    """Looks at each granted path by the plain model, in the order of their entries; tells how many were granted and refused."""
    granted = []
    refused = 0
    for ask, reply in zip(asks, replies):
        words = reply.split()
        if int(words[1]) != ask.number:
            raise SystemExit(f"the reply to ask {ask.number} is {reply}")
        if words[0] == "granted":
            granted.append((int(words[3]), ask, runs_of(words)))
        elif words[0] == "no-path":
            refused += 1
        else:
            raise SystemExit(f"ask {ask.number} was told {reply}")
    fresh = Railway(railway.blocks, {zone: list(claims) for zone, claims in railway.claims.items()})
    for entry, ask, runs in sorted(granted, key=lambda one: one[0]):
        broken = fresh.broken(F1, runs, ask)
        claims = fresh.stairway(F1, runs)
        clash = fresh.clash(claims)
        if broken is not None or clash is not None:
            raise SystemExit(f"entry {entry} breaks {broken} or clashes with {clash}")
        fresh.add(claims, f"entry {entry}")
    return len(granted), refused


def row(blocks: int, kind: str, workers: int, granted: int, refused: int, seconds: float, one: float, peak: float) -> None:
    told = granted + refused
    print(f"| {blocks:,} | {kind} | {workers} | {told:,} | {granted:,}, {refused:,} | {told / seconds:,.0f} | {one / seconds:.2f} | {peak:,.0f} |", flush=True)


def refusals(world: World, railway: Railway, count: int) -> None:
    """A list whose asks are all refused."""
    far, asks = hopeless(stops_of(railway), count)
    close(world, railway, far)
    one = 0.0
    for workers in WORKERS:
        idle = batch(world, "", workers).seconds
        figures = batch(world, text_of(asks), workers)
        counted(figures, count, workers)
        if not all(reply.startswith("no-path ") for reply in figures.replies[0]):
            raise SystemExit("a search to a closed destination was not refused")
        seconds = max(figures.seconds - idle, 1e-9)
        one = one or seconds
        row(len(railway.blocks), "refused", workers, 0, count, seconds, one, figures.peak_mb)


def grants(world: World, railway: Railway, count: int, source: random.Random) -> None:
    """A list of which most asks are granted, and the same list again."""
    asks = asks_of(stops_of(railway), 0, count, source)
    one = 0.0
    for workers in WORKERS:
        world.begin()
        idle = batch(world, "", workers).seconds
        figures = batch(world, text_of(asks), workers)
        counted(figures, count, workers)
        granted, refused = check(railway, asks, figures.replies[0])
        again = batch(world, text_of(asks), workers)
        counted(again, count, workers)
        kept = sum(reply.startswith("kept ") for reply in again.replies[0])
        if kept != granted or any(reply.startswith("granted ") for reply in again.replies[0]):
            raise SystemExit(f"of {granted} granted paths {kept} were kept where the list was answered again")
        seconds = max(figures.seconds - idle, 1e-9)
        one = one or seconds
        row(len(railway.blocks), "granted", workers, granted, refused, seconds, one, figures.peak_mb)


def main() -> None:
    parser = argparse.ArgumentParser(description=__doc__)
    parser.add_argument("--asks", type=int, default=1000)
    parser.add_argument("--refusals", type=int, default=400)
    parser.add_argument("--trains", type=int, default=300)
    parser.add_argument("--sections", type=int, nargs="+", default=[60, 300])
    asked = parser.parse_args()
    source = random.Random(17)
    print("| blocks | list | workers | asks | granted, refused | asks a second | times as fast as one worker | peak MB |")
    print("|---|---|---|---|---|---|---|---|")
    with tempfile.TemporaryDirectory() as place:
        for sections in asked.sections:
            world, railway = world_of(Path(place) / f"sections{sections}", sections, asked.trains, source)
            refusals(world, railway, asked.refusals)
            grants(world, railway, asked.asks, source)


if __name__ == "__main__":
    main()
