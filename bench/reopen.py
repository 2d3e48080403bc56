"""Opens journals of 100,000 and 1,000,000 entries by `serve`, for clients of which each asks for the front, beside a copy of
the same bytes by cat: the time of opening, how it grows, and the memory at the peak. With --carry each is then carried into
another timetable, and what `carry` writes is compared with the bytes that it must be.

    bench/reopen                               one client; the holds of a zone stand by their ticks
    bench/reopen --clients 16 --shuffled       sixteen clients; the holds stand in a drawn order
    bench/reopen --carry                       opening, and carrying beside it
"""
from __future__ import annotations

import argparse
import hashlib
import json
import random
import string
import subprocess
import tempfile
import time
from pathlib import Path

from bench.served import World, make_world, peak_of


def body(number: int, zone: int, begin: int) -> bytes:
    """The body of a hold of one tick, of the client A."""
    head = b"\x01" + number.to_bytes(8, "big") + number.to_bytes(4, "big") + b"\x01A" + zone.to_bytes(4, "big")
    return head + begin.to_bytes(8, "big", signed=True) + (begin + 1).to_bytes(8, "big", signed=True)


def write_journal(world: World, count: int, zones: int, is_shuffled: bool) -> None:
    """A journal of so many holds over so many zones, in the order of their ticks or in a drawn one."""
    places = list(range(count))
    if is_shuffled:
        random.Random(1).shuffle(places)
    digests = b"".join(hashlib.sha256(world.path(name).read_bytes()).digest() for name in ("network", "base"))
    with world.path("journal").open("wb") as to:
        to.write(b"STDCMJNL" + (2).to_bytes(4, "big") + digests)
        for number, place in enumerate(places):
            record = body(number, place % zones, place // zones - 100_000)
            to.write(b"\x01" + len(record).to_bytes(4, "big") + record)
        to.write(b"\0")


def measured(words: list[str], report: Path) -> tuple[int, float, float]:
    """The status of a call, its seconds, and the MB at its peak; its report goes to a file."""
    begin, peak = time.monotonic(), 0.0
    with report.open("wb") as told:
        child = subprocess.Popen(words, stderr=told)
        while child.poll() is None:
            peak = max(peak, peak_of(child.pid))
            time.sleep(0.002)
    return child.returncode, time.monotonic() - begin, peak


def open_by_serving(world: World, count: int, clients: int) -> tuple[float, float]:
    """The seconds of a session of so many clients over a journal of so many entries, and the MB at its peak."""
    streams = {name: (world.path(f"in-{name}"), world.path(f"out-{name}")) for name in string.ascii_uppercase[:clients]}
    for read, written in streams.values():
        read.write_text("front\n")
        written.unlink(missing_ok=True)
    status, seconds, peak = measured(world.serve([(name, *pair) for name, pair in streams.items()]), world.path("report"))
    if status != 0 or any(written.read_text() != f"front at {count}\n" for _, written in streams.values()):
        raise SystemExit(f"the session over {count} entries ended with {status}")
    return seconds, peak


def carry(world: World, count: int) -> tuple[float, float]:
    """The seconds of carrying a journal of so many entries into another timetable, and the MB at its peak."""
    later, new = world.path("later"), world.path("new")
    later.write_text(json.dumps(json.loads(world.path("base").read_text()) | {"journal_bytes": 268435455}))
    new.unlink(missing_ok=True)
    words = world.words("carry", ["network"], "--base", str(later), "--journal", str(new), "--from", str(world.path("journal")),
                        "--from-base", str(world.path("base")))
    status, seconds, peak = measured(words, world.path("report"))
    told = world.path("report").read_text()
    if (status, told) != (0, f"carried {count} left 0\n"):
        raise SystemExit(f"the carry of {count} entries ended with {status}: {told}")
    old = world.path("journal").read_bytes()
    if new.read_bytes() != old[:44] + hashlib.sha256(later.read_bytes()).digest() + old[76:]:
        raise SystemExit(f"the carry of {count} entries wrote other bytes")
    return seconds, peak


def main() -> None:
    formatter = argparse.RawDescriptionHelpFormatter
    parser = argparse.ArgumentParser(description=__doc__, formatter_class=formatter)
    parser.add_argument("--entries", type=int, nargs="+", default=[100_000, 1_000_000])
    parser.add_argument("--clients", type=int, choices=range(1, 17), default=1, metavar="1..16")
    parser.add_argument("--sections", type=int, default=8, help="of the corridor, which has 61 zones where it has 8 sections")
    parser.add_argument("--shuffled", action="store_true", help="the holds stand in a drawn order")
    parser.add_argument("--carry", action="store_true", help="each journal is also carried into another timetable")
    options = parser.parse_args()
    with tempfile.TemporaryDirectory() as name:
        world = make_world(Path(name), options.sections)
        for zones in (world.made.zones, 1):
            before: tuple[int, float, float] | None = None
            for count in options.entries:
                # A zone has 200,000 ticks.
                count = min(count, 200_000 * zones)
                write_journal(world, count, zones, options.shuffled)
                seconds, peak = open_by_serving(world, count, options.clients)
                begin = time.monotonic()
                with world.path("copied").open("wb") as out:
                    subprocess.run(["cat", str(world.path("journal"))], stdout=out, check=True)
                copy = time.monotonic() - begin
                growth = "" if before is None else (f"; {count / before[0]:.1f} times the entries: {seconds / before[1]:.1f} times as long, "
                                                    f"{peak / before[2]:.1f} times the memory")
                print(f"{count:,} holds over {zones} zones, {options.clients} clients: {seconds:.2f} s; cat of the same bytes {copy:.3f} s; peak memory {peak:.0f} MB{growth}")
                if options.carry:
                    carried, carried_peak = carry(world, count)
                    print(f"  carried: {carried:.2f} s, {carried / seconds:.2f} times the opening; peak memory {carried_peak:.0f} MB")
                before = (count, seconds, peak)


if __name__ == "__main__":
    main()
