"""Drives the built program with 1, 4 and 16 clients at once, and compares every reply with a plain model.

Each client holds on zones of its own, so that the model knows which hold is taken, and by which of the client's own
entries; the entries of all clients together must be the numbers from 0 on, each once. It prints lines a second with and
without syncs, beside a bare loop of the same writes and syncs, over files and over named pipes, and the peak memory of
sessions of 1,000 and of 100,000 lines.
"""
from __future__ import annotations

import argparse
import os
import random
import subprocess
import tempfile
import threading
import time
from bisect import bisect_left, insort
from dataclasses import dataclass, field
from pathlib import Path

from bench.served import World, make_world, peak_of, without_syncs

NAMES = "ABCDEFGHIJKLMNOP"
# What an entry of a hold takes in a journal: its length, its body, and the gate behind it.
RECORD = 4 + 8 + 4 + 1 + 1 + 1 + 4 + 8 + 8 + 1


@dataclass
class Model:
    """What one client is told of holds on zones of its own."""

    zones: dict[int, list[tuple[int, int, int]]] = field(default_factory=dict)
    entries: list[int] = field(default_factory=list)

    def check(self, line: tuple[int, int, int, int], reply: str) -> None:
        number, zone, begin, end = line
        claims = self.zones.setdefault(zone, [])
        at = bisect_left(claims, (begin, end, 0))
        clash = None
        if at > 0 and claims[at - 1][1] > begin:
            clash = claims[at - 1]
        elif at < len(claims) and claims[at][0] < end:
            clash = claims[at]
        words = reply.split()
        front = int(words[-1])
        if clash is not None:
            wanted = f"taken {number} zone {zone} by entry {clash[2]} at {front}"
        else:
            wanted = f"held {number} entry {front - 1} at {front}"
            insort(claims, (begin, end, front - 1))
            self.entries.append(front - 1)
        if reply != wanted:
            raise SystemExit(f"{line} was told {reply!r}, and {wanted!r} was wanted")


def lines_of(client: int, clients: int, count: int, zones: int, source: random.Random) -> list[tuple[int, int, int, int]]:
    """So many holds of short spans on the zones of one client."""
    own = [zone for zone in range(zones) if zone % clients == client]
    lines = []
    for number in range(count):
        begin = source.randrange(-100_000, 99_990)
        lines.append((number, source.choice(own), begin, begin + source.randrange(1, 9)))
    return lines


def text_of(lines: list[tuple[int, int, int, int]]) -> bytes:
    return "".join(f"hold {n} {z} {b} {e}\n" for n, z, b, e in lines).encode()


def compare(all_lines: list[list[tuple[int, int, int, int]]], replies: list[list[str]]) -> int:
    """Compares the replies with the model, and tells how many entries they added."""
    entries: list[int] = []
    for lines, told in zip(all_lines, replies):
        if len(lines) != len(told):
            raise SystemExit(f"{len(told)} replies to {len(lines)} lines")
        model = Model()
        for line, reply in zip(lines, told):
            model.check(line, reply)
        if model.entries != sorted(model.entries):
            raise SystemExit("a client's own entries do not ascend")
        entries += model.entries
    if sorted(entries) != list(range(len(entries))):
        raise SystemExit("the entries of all clients are not the numbers from 0 on, each once")
    return len(entries)


def seconds_alone(folder: Path, entries: int, syncs: bool) -> float:
    """What the writes and syncs of so many entries take alone: a record, a sync, its gate, a sync."""
    path = folder / "alone"
    begin = time.monotonic()
    file = os.open(path, os.O_RDWR | os.O_CREAT | os.O_TRUNC)
    for at in range(entries):
        os.pwrite(file, bytes(RECORD), 77 + at * RECORD)
        if syncs:
            os.fsync(file)
        os.pwrite(file, b"\x01", 76 + at * RECORD)
        if syncs:
            os.fsync(file)
    os.close(file)
    path.unlink()
    return time.monotonic() - begin


def over_files(world: World, clients: int, count: int, syncs: bool, source: random.Random) -> None:
    """All clients' lines through real files."""
    world.begin()
    lines = [lines_of(client, clients, count // clients, world.made.zones, source) for client in range(clients)]
    named = []
    for client in range(clients):
        read, written = world.path(f"in{client}"), world.path(f"out{client}")
        read.write_bytes(text_of(lines[client]))
        written.unlink(missing_ok=True)
        named.append((NAMES[client], read, written))
    environment = os.environ if syncs else without_syncs(world.folder)
    begin = time.monotonic()
    report = subprocess.run(world.serve(named), check=True, env=environment, stderr=subprocess.PIPE).stderr.decode()
    seconds = time.monotonic() - begin
    wanted = "".join(f"client {NAMES[client]} lines {len(lines[client])} end input\n" for client in range(clients))
    if report != wanted:
        raise SystemExit(f"the report is {report!r}")
    entries = compare(lines, [written.read_text().splitlines() for _, _, written in named])
    told = sum(len(some) for some in lines)
    alone = seconds_alone(world.folder, entries, syncs)
    print(f"{clients} clients, files, {'with' if syncs else 'without'} syncs: {told:,} lines and {entries:,} entries in {seconds:.2f} s, "
          f"{told / seconds:,.0f} lines a second; the same writes{' and syncs' if syncs else ''} alone {alone:.2f} s; ratio {seconds / alone:.1f}")


def over_pipes(world: World, clients: int, count: int, source: random.Random) -> None:
    """Each client sends its next line once it has its reply, through named pipes."""
    world.begin()
    lines = [lines_of(client, clients, count // clients, world.made.zones, source) for client in range(clients)]
    replies: list[list[str]] = [[] for _ in range(clients)]
    named = []
    for client in range(clients):
        pair = world.path(f"in{client}.pipe"), world.path(f"out{client}.pipe")
        for path in pair:
            path.unlink(missing_ok=True)
            os.mkfifo(path)
        named.append((NAMES[client], *pair))

    def talk(client: int) -> None:
        _, read, written = named[client]
        with read.open("wb", buffering=0) as to, written.open("rb") as back:
            for line in lines[client]:
                to.write(text_of([line]))
                replies[client].append(back.readline().decode().rstrip("\n"))

    child = subprocess.Popen(world.serve(named), env=without_syncs(world.folder), stderr=subprocess.DEVNULL)
    begin = time.monotonic()
    threads = [threading.Thread(target=talk, args=(client,)) for client in range(clients)]
    for thread in threads:
        thread.start()
    for thread in threads:
        thread.join()
    seconds = time.monotonic() - begin
    if child.wait() != 0:
        raise SystemExit(f"the server ended with {child.returncode}")
    compare(lines, replies)
    told = sum(len(some) for some in lines)
    print(f"{clients} clients, named pipes, one line at a time, without syncs: {told:,} lines in {seconds:.2f} s, {told / seconds:,.0f} lines a second")


def memory(world: World, count: int) -> float:
    """The MB at the peak of a session of so many lines that add nothing."""
    world.begin()
    read, written = world.path("in.pipe"), world.path("out")
    read.unlink(missing_ok=True)
    written.unlink(missing_ok=True)
    os.mkfifo(read)
    written.touch()
    child = subprocess.Popen(world.serve([("A", read, written)]), stderr=subprocess.DEVNULL)
    with read.open("wb", buffering=0) as to:
        lines, sent = b"front\n" * count, 0
        while sent < len(lines):
            sent += to.write(lines[sent:])
        while child.poll() is None and written.stat().st_size < len("front at 0\n") * count:
            time.sleep(0.005)
        peak = peak_of(child.pid)
    if child.wait() != 0:
        raise SystemExit(f"the server ended with {child.returncode}")
    return peak


def main() -> None:
    parser = argparse.ArgumentParser(description=__doc__)
    parser.add_argument("--lines", type=int, default=20_000, help="of all clients together, with syncs a tenth of them (default 20,000)")
    parser.add_argument("--seed", type=int, default=1, help="of the random holds (default 1)")
    parser.add_argument("--quick", action="store_true", help="files alone, and no memory")
    parser.add_argument("--folder", type=Path, help="where the files are written (default: a new folder for temporary files)")
    options = parser.parse_args()
    source = random.Random(options.seed)
    with tempfile.TemporaryDirectory(dir=options.folder) as name:
        world = make_world(Path(name))
        for clients in (1, 4, 16):
            over_files(world, clients, options.lines, False, source)
            over_files(world, clients, max(options.lines // 10, 16), True, source)
            if not options.quick:
                over_pipes(world, clients, options.lines, source)
        if not options.quick:
            few, many = memory(world, 1_000), memory(world, 100_000)
            print(f"peak memory: {few:.1f} MB with 1,000 lines, {many:.1f} MB with 100,000")
            if many - few >= 1:
                raise SystemExit("memory grows with the lines")


if __name__ == "__main__":
    main()
