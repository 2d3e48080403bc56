"""Sells paths as the server does, by the plain model of running and blocking times: each ask gets
the quickest way of its class and the first departure that fits beside all that was sold."""
from __future__ import annotations

import heapq
import random
from collections import defaultdict
from dataclasses import dataclass

from kidrofemba.network.blocking_times import Block, Railway, Run, Train


@dataclass(frozen=True)
class Sold:
    """A path that was sold, and its claims."""

    name: str
    train: Train
    runs: list[Run]
    claims: list[tuple[int, int, int]]


class Seller:
    """Sells on blocks, beside what was sold before."""

    def __init__(self, railway: Railway) -> None:
        self.railway = railway
        self.begins: dict[str, list[int]] = defaultdict(list)
        for number, block in enumerate(railway.blocks):
            self.begins[block.begins].append(number)

    def way(self, train: Train, origin: str, destination: str) -> list[int] | None:
        """The quickest blocks from one operational point to another."""
        def cost(number: int) -> int:
            block: Block = self.railway.blocks[number]
            return self.railway.ticks(block, train, block.length, block.speed, False)

        blocks = self.railway.blocks
        best: dict[int, int] = {}
        queue = [(cost(number), number, (number,)) for number, one in enumerate(blocks)
                 if origin in one.serves]
        heapq.heapify(queue)
        while queue:
            spent, number, way = heapq.heappop(queue)
            if number in best:
                continue
            best[number] = spent
            if destination in blocks[number].serves and len(way) > 1:
                return list(way)
            for other in self.begins[blocks[number].ends]:
                if other not in best:
                    heapq.heappush(queue, (spent + cost(other), other, (*way, other)))
        return None

    def sell(self, name: str, train: Train, way: list[int], first: int, last: int, step: int = 1
             ) -> Sold | None:
        """The first path over these blocks that departs between two ticks and fits."""
        for tick in range(first, last + 1, step):
            runs = self.railway.run(train, way, tick)
            if runs[-1].leave > self.railway.settings.horizon:
                return None
            claims = self.railway.stairway(train, runs)
            if self.railway.clash(claims) is None:
                self.railway.add(claims, name)
                return Sold(name, train, runs, claims)
        return None


def drawn(seller: Seller, trains: dict[str, Train], stops: dict[str, list[str]], count: int,
          seed: int) -> list[Sold]:
    """So many paths of drawn asks that were sold; `stops` are the operational points of each class.
    """
    draw, sold = random.Random(seed), []
    ways: dict[tuple[str, str, str], list[int] | None] = {}
    for _ in range(30 * count):
        if len(sold) == count:
            break
        name = draw.choice(sorted(trains))
        origin, destination = draw.sample(stops[name], 2)
        tick = draw.randrange(0, 16_000)
        key = name, origin, destination
        if key not in ways:
            ways[key] = seller.way(trains[name], origin, destination)
        way = ways[key]
        made = seller.sell(name, trains[name], way, tick, tick + 360, 6) if way else None
        if made is not None:
            sold.append(made)
    return sold
