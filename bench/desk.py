"""Loads a desk over the example day: so many tenants send requests at an even rate, of which some
buy and the rest look, and so many event streams stand idle. Tells for each kind how many were
answered by which status, and how long an answer took.

    bench/desk                                        20 requests a second for 20 s, 2 of which buy
    bench/desk --tenants 500 --rate 200 --buys 20 --streams 1000 --seconds 60
"""
from __future__ import annotations

import argparse
import asyncio
import json
import random
import time
from collections import Counter, defaultdict
from pathlib import Path
from typing import Any

from kidrofemba.desk.store import Store
from tests.desk_world import Desks, moment
from tests.door_world import PROGRAM

_CONNECTIONS = 64


def wanted(draw: random.Random, is_look: bool) -> dict[str, Any]:
    """A request at a drawn time of the two days."""
    day, minute = divmod(draw.randrange(0, 2 * 1440 - 240), 1440)
    points = ["Station_0/BV", "Station_2/BV"]
    draw.shuffle(points)
    begin = moment(f"{minute // 60:02}:{minute % 60:02}", day + 1)
    return {"train": "freight", "mode": "try" if is_look else "sell",
            "from": {"point": points[0], "depart": {"at": begin, "minutes_after": 30}},
            "to": {"point": points[1]}}


class Load:
    """The connections to a desk, and what was measured."""

    def __init__(self, port: int, tokens: list[str]):
        self.port, self.tokens = port, tokens
        self.free: asyncio.Queue[tuple[asyncio.StreamReader, asyncio.StreamWriter]] = \
            asyncio.Queue()
        self.times_s: defaultdict[str, list[float]] = defaultdict(list)
        self.statuses: Counter[tuple[str, int]] = Counter()

    async def open(self) -> None:
        """Opens the connections."""
        for _ in range(_CONNECTIONS):
            self.free.put_nowait(await asyncio.open_connection("127.0.0.1", self.port))

    async def send(self, kind: str, token: str, body: dict[str, Any]) -> None:
        """Sends a request over a free connection; waiting for one counts."""
        begun = time.monotonic()
        reader, writer = await self.free.get()
        data = json.dumps(body).encode()
        writer.write(f"POST /v1/requests HTTP/1.1\r\nHost: desk\r\nAuthorization: Bearer {token}"
                     f"\r\nContent-Type: application/json\r\nContent-Length: {len(data)}\r\n\r\n"
                     .encode() + data)
        head = (await reader.readuntil(b"\r\n\r\n")).decode()
        length = next(int(row.split(":")[1]) for row in head.split("\r\n")
                      if row.lower().startswith("content-length:"))
        await reader.readexactly(length)
        self.times_s[kind].append(time.monotonic() - begun)
        self.statuses[kind, int(head.split(" ")[1])] += 1
        self.free.put_nowait((reader, writer))

    async def listen(self, token: str) -> tuple[asyncio.StreamWriter, int]:
        """An idle event stream, and its status."""
        reader, writer = await asyncio.open_connection("127.0.0.1", self.port)
        writer.write(f"GET /v1/events HTTP/1.1\r\nHost: desk\r\nAuthorization: Bearer {token}"
                     "\r\n\r\n".encode())
        head = await reader.readuntil(b"\r\n\r\n")
        return writer, int(head.split(b" ")[1])


async def measure(load: Load, options: argparse.Namespace) -> None:
    """Sends at an even rate, however long answers take."""
    draw = random.Random(1)
    await load.open()
    streams = [await load.listen(load.tokens[at % len(load.tokens)])
               for at in range(options.streams)]
    print(f"event streams: {dict(Counter(status for _, status in streams))}")
    tasks, begun = [], time.monotonic()
    for at in range(int(options.rate * options.seconds)):
        await asyncio.sleep(max(0.0, begun + at / options.rate - time.monotonic()))
        is_look = draw.random() >= options.buys / options.rate
        tasks.append(asyncio.ensure_future(load.send(
            "look" if is_look else "buy", draw.choice(load.tokens), wanted(draw, is_look))))
    await asyncio.gather(*tasks)
    took = time.monotonic() - begun
    print(f"{len(tasks)} requests in {took:.1f} s, {len(tasks) / took:.1f} a second")
    for writer, _ in streams:
        writer.close()


def tell(load: Load, memory_mb: float) -> None:
    """Prints what was measured."""
    for kind, times in sorted(load.times_s.items()):
        times.sort()
        at = {share: times[min(len(times) - 1, len(times) * share // 100)]
              for share in (50, 95, 99)}
        shares = ", ".join(f"p{share} {1000 * time_s:.0f} ms" for share, time_s in at.items())
        told = {status: count for (name, status), count in sorted(load.statuses.items())
                if name == kind}
        print(f"{kind}: {len(times)}, statuses {told}; {shares}, most {1000 * times[-1]:.0f} ms")
    print(f"the desk's memory at its peak: {memory_mb:.0f} MB")


def main() -> int:
    parser = argparse.ArgumentParser(description=__doc__)
    parser.add_argument("--program", type=Path, default=PROGRAM)
    for name, value in (("tenants", 20), ("rate", 20.0), ("buys", 2.0), ("seconds", 20.0),
                        ("streams", 10)):
        parser.add_argument(f"--{name}", type=type(value), default=value)
    options = parser.parse_args()
    with Desks(options.program.absolute()) as desks:
        desk = desks.of("--streams", str(max(1, options.streams)))
        store = Store(desk.store)
        tokens = [store.add_token(store.add_tenant(f"tenant of load {at}", 100_000, 1_000_000),
                                  "operator", "load") for at in range(options.tenants)]
        store.close()
        load = Load(desk.port, tokens)
        asyncio.run(measure(load, options))
        assert desk.process is not None
        rows = Path(f"/proc/{desk.process.pid}/status").read_text().splitlines()
        tell(load, next(int(row.split()[1]) / 1024 for row in rows if row.startswith("VmHWM:")))
    return 0


if __name__ == "__main__":
    raise SystemExit(main())
