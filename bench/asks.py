"""Asks the built program for paths on corridors with planned trains, with 1 and 4 clients at once, and checks each path that it grants.

A plain model that knows the rules of paths and of blocking times looks at each granted path: it keeps what was asked for, and clashes with no
planned train and no path of an earlier entry. It prints how many asks were granted and refused, asks a second, how the time of an ask grows
with the corridor and with the number of asks, and the peak memory. At last it sets the refused searches of four clients at once beside those of
one client: where searches are long, four clients get up to as many times the answers as there are processors. A refusal is not looked at by the
model.
"""
from __future__ import annotations

import argparse
import random
import tempfile
from pathlib import Path

from bench.planned import (F1, Figures, asks_of, close, hopeless, runs_of, serve, stops_of, text_of,
                           world_of)
from bench.served import World
from kidrofemba.network.blocking_times import Ask, Railway


def check(railway: Railway, asked: list[list[Ask]], replies: list[list[str]]) -> tuple[int, int]:
    """Looks at each granted path in the order of entries, and tells how many asks were granted and refused."""
    granted: list[tuple[int, Ask, list[str]]] = []
    refused = 0
    for asks, told in zip(asked, replies):
        if len(asks) != len(told):
            raise SystemExit(f"{len(told)} replies to {len(asks)} asks")
        for ask, reply in zip(asks, told):
            words = reply.split()
            if words[1] != str(ask.number):
                raise SystemExit(f"{ask.line()} was told {reply}")
            if words[0] == "granted":
                granted.append((int(words[3]), ask, words))
            elif words[0] in ("no-path", "again"):
                refused += 1
            else:
                raise SystemExit(f"{ask.line()} was told {reply}")
    for entry, ask, words in sorted(granted, key=lambda one: one[0]):
        runs = runs_of(words)
        broken = railway.broken(F1, runs, ask)
        if broken is not None:
            raise SystemExit(f"entry {entry} breaks what was asked for: {broken}")
        claims = railway.stairway(F1, runs)
        clash = railway.clash(claims)
        if clash is not None:
            raise SystemExit(f"entry {entry} clashes: {clash}")
        railway.add(claims, f"entry {entry}")
    if sorted(entry for entry, _, _ in granted) != list(range(len(granted))):
        raise SystemExit("the entries of the granted paths are not the numbers from 0 on")
    return len(granted), refused


def measure(world: World, railway: Railway, clients: int, count: int, source: random.Random, relations: int) -> tuple[Figures, float, int, int]:
    """Serves so many asks, and checks them."""
    world.begin()
    idle = serve(world, ["front\n"] * clients).seconds
    stops = stops_of(railway)
    asked = [asks_of(stops, client, count // clients, source, relations) for client in range(clients)]
    figures = serve(world, [text_of(asks) for asks in asked])
    fresh = Railway(railway.blocks, {zone: list(claims) for zone, claims in railway.claims.items()})
    granted, refused = check(fresh, asked, figures.replies)
    return figures, max(figures.seconds - idle, 1e-9), granted, refused


def refusals_at_once(world: World, railway: Railway, count: int) -> float:
    """How many times as many refused searches four clients get in the time of one."""
    far, asks = hopeless(stops_of(railway), count)
    seconds = []
    for clients in (1, 4):
        close(world, railway, far)
        idle = serve(world, ["front\n"] * clients).seconds
        figures = serve(world, [text_of(asks)] * clients)
        if not all(reply.startswith("no-path ") for told in figures.replies for reply in told):
            raise SystemExit("a search to a closed destination was not refused")
        seconds.append(max(figures.seconds - idle, 1e-9))
    return 4 * seconds[0] / seconds[1]


def main() -> None:
    parser = argparse.ArgumentParser(description=__doc__)
    parser.add_argument("--asks", type=int, default=2000)
    parser.add_argument("--trains", type=int, default=300)
    parser.add_argument("--sections", type=int, nargs="+", default=[60, 300])
    parser.add_argument("--refusals", type=int, default=200)
    parser.add_argument("--relations", type=int, default=0, metavar="N", help="asks of so many relations of a client; 0: each of one that is drawn anew")
    asked = parser.parse_args()
    source = random.Random(17)
    print("| blocks | clients | asks | granted | refused | asks a second | milliseconds an ask, beside half as many asks | beside the corridor before | peak MB |")
    print("|---|---|---|---|---|---|---|---|---|")
    before: dict[int, float] = {}
    with tempfile.TemporaryDirectory() as place:
        for sections in asked.sections:
            world, railway = world_of(Path(place) / f"sections{sections}", sections, asked.trains, source)
            for clients in (1, 4):
                _, half, _, _ = measure(world, railway, clients, asked.asks // 2, source, asked.relations)
                figures, seconds, granted, refused = measure(world, railway, clients, asked.asks, source, asked.relations)
                told = granted + refused
                each = 1000 * seconds / told
                growth = each / (1000 * half / (asked.asks // 2 // clients * clients))
                beside = f"{each / before[clients]:.1f}" if clients in before else ""
                before[clients] = each
                print(f"| {len(railway.blocks):,} | {clients} | {told:,} | {granted:,} | {refused:,} | {told / seconds:,.0f} | {each:.2f}, {growth:.2f} | {beside} | {figures.peak_mb:,.0f} |", flush=True)
            ratio = refusals_at_once(world, railway, asked.refusals)
            print(f"refused searches on {len(railway.blocks):,} blocks: four clients at once get {ratio:.2f} times as many as one client in a time", flush=True)


if __name__ == "__main__":
    main()
