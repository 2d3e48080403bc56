"""Measures what proofs cost: asks that are answered without and with proofs beside the replies, and the check of these proofs.

It serves asks of one client on corridors with planned trains, over files and without syncs. Each figure of seconds is less that of the same command
without asks, or without proofs. The file of proofs is cut between proofs where it is longer than `check` reads, and each part is checked.
"""
from __future__ import annotations

import argparse
import random
import tempfile
from collections.abc import Iterator
from pathlib import Path

from bench.planned import asks_of, run_words, serve, stops_of, text_of, world_of
from bench.served import World

MOST_BYTES = 67_108_864


def parts_of(text: str) -> Iterator[tuple[str, int]]:
    """The text cut between proofs into parts that can be checked, each with how many proofs it has."""
    proofs = ["proof at " + rest for rest in text.split("proof at ")[1:]]
    part: list[str] = []
    size = 0
    for proof in proofs:
        if part and size + len(proof) > MOST_BYTES:
            yield "".join(part), len(part)
            part, size = [], 0
        part.append(proof)
        size += len(proof)
    yield "".join(part), len(part)


def check(world: World, text: str, count: int) -> tuple[float, float]:
    """The seconds that a check of so many proofs takes, and its peak memory."""
    world.path("part").write_text(text)
    figures = run_words(world, world.words("check", ["network", "trains", "base", "journal"], "--proof", str(world.path("part"))), [])
    if figures.report != [f"proofs {count}"]:
        raise SystemExit(f"check told {figures.report} of {count} proofs")
    return figures.seconds, figures.peak_mb


def answers(figures: list[str]) -> tuple[int, int]:
    granted = sum(reply.startswith("granted ") for reply in figures)
    refused = sum(reply.startswith("no-path ") for reply in figures)
    if granted + refused != len(figures):
        raise SystemExit("a reply is neither a path nor a refusal")
    return granted, refused


def main() -> None:
    parser = argparse.ArgumentParser(description=__doc__)
    parser.add_argument("--asks", type=int, default=200)
    parser.add_argument("--trains", type=int, default=300)
    parser.add_argument("--sections", type=int, nargs="+", default=[60, 300])
    asked = parser.parse_args()
    source = random.Random(17)
    print("| blocks | asks | granted, refused | milliseconds an ask without proofs | with proofs | to check a proof | bytes a proof | members a proof | peak MB of the server without, with, of the check |")
    print("|---|---|---|---|---|---|---|---|---|")
    with tempfile.TemporaryDirectory() as place:
        for sections in asked.sections:
            world, railway = world_of(Path(place) / f"sections{sections}", sections, asked.trains, source)
            text = text_of(asks_of(stops_of(railway), 0, asked.asks, source))
            world.begin()
            idle = serve(world, ["front\n"]).seconds
            bare = serve(world, [text])
            world.begin()
            proved = serve(world, [text], proofs=True)
            granted, refused = answers(proved.replies[0])
            answers(bare.replies[0])
            nothing, _ = check(world, "", 0)
            proofs = world.path("proofs0").read_text()
            seconds, peak = 0.0, 0.0
            for part, count in parts_of(proofs):
                took, used = check(world, part, count)
                seconds, peak = seconds + took - nothing, max(peak, used)
            each = [1000 * max(value, 0.0) / asked.asks for value in (bare.seconds - idle, proved.seconds - idle, seconds)]
            print(
                f"| {len(railway.blocks):,} | {asked.asks:,} | {granted:,}, {refused:,} | {each[0]:.2f} | {each[1]:.2f} | {each[2]:.2f} "
                f"| {len(proofs) / asked.asks:,.0f} | {proofs.count('member ') / asked.asks:,.0f} "
                f"| {bare.peak_mb:,.0f}, {proved.peak_mb:,.0f}, {peak:,.0f} |",
                flush=True,
            )


if __name__ == "__main__":
    main()
