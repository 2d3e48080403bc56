"""Runs `capacity` over corridors of 40 and 600 zones with 100, 1,000 and 4,000 granted trains, and compares every shift
with a plain model.

A corridor is cut into sections, in which trains follow one another; each departs and stops within its section. The
model moves the stairway of the first train, which `stairs` tells. It prints the seconds, the peak memory, and the growth
of both from count to count.
"""
from __future__ import annotations

import argparse
import hashlib
import json
import os
import subprocess
import tempfile
import time
from dataclasses import dataclass
from pathlib import Path
from typing import Any

from bench.served import PROGRAM

BLOCK_M, TRACK_BLOCKS = 2000, 40
FIRST_DEPARTURE, HEADWAY, HORIZON = 6, 34, 17_280


@dataclass(frozen=True)
class Files:
    """The files of one corridor and its trains."""

    network: Path
    base: Path
    journal: Path
    out: Path

    def words(self, command: str, *rest: str) -> list[str]:
        self.out.unlink(missing_ok=True)
        return [str(PROGRAM), command, "--network", str(self.network), "--base", str(self.base),
                "--journal", str(self.journal), *rest, "--out", str(self.out)]


def corridor(blocks: int) -> dict[str, Any]:
    """Tracks one behind the other, cut into blocks of one zone each by a detector and a signal every 2000 m."""
    # Tracks are joined in the middle of a block, so that no detector stands where two of them meet.
    shift_m = BLOCK_M // 2
    bounds = [TRACK_BLOCKS * BLOCK_M * number + shift_m for number in range(1, -(-blocks // TRACK_BLOCKS))]
    ends = bounds + [blocks * BLOCK_M]
    tracks, switches = [], []
    for number, (begin, end) in enumerate(zip([0, *bounds], ends)):
        tracks.append({"id": f"T{number}", "length": float(end - begin)})
        if number > 0:
            switches.append({"id": f"L{number}", "switch_type": "link", "ports": {
                "A": {"endpoint": "END", "track": f"T{number - 1}"}, "B": {"endpoint": "BEGIN", "track": f"T{number}"}}})
    begins = [0, *bounds]
    detectors: list[dict[str, Any]] = []
    signals: list[dict[str, Any]] = []
    track = 0
    for bound in range(BLOCK_M, blocks * BLOCK_M, BLOCK_M):
        while ends[track] < bound:
            track += 1
        place: dict[str, Any] = {"track": f"T{track}", "position": float(bound - begins[track])}
        detectors.append({"id": f"D{bound}", **place})
        signals.append({"id": f"S{bound}", **place, "direction": "START_TO_STOP", "sight_distance": 400.0,
                        "logical_signals": [{"signaling_system": "BAL"}]})
    last = len(tracks) - 1
    return {
        "track_sections": tracks, "switches": switches, "detectors": detectors, "signals": signals,
        "buffer_stops": [{"id": "west", "track": "T0", "position": 0.0},
                         {"id": "east", "track": f"T{last}", "position": tracks[last]["length"]}],
        "routes": [{"id": "west->east", "entry_point": {"type": "BufferStop", "id": "west"},
                    "entry_point_direction": "START_TO_STOP", "exit_point": {"type": "BufferStop", "id": "east"},
                    "switches_directions": {}, "release_detectors": []}],
        "operational_points": [], "speed_sections": [],
    }


def grant(number: int, first: int, count: int, depart: int) -> bytes:
    """The body of a pinned path over so many blocks from a first one on, from a start to a stop."""
    body = b"\x03" + number.to_bytes(8, "big") + number.to_bytes(4, "big") + b"\x01A\x02F1"
    for value in (400, 20_000, 200, 250, 0):
        body += value.to_bytes(4, "big")
    body += count.to_bytes(4, "big")
    enter = depart
    for run in range(count):
        leave = enter + (15 if run == 0 else 14 if run == count - 1 else 10)
        body += (first + run).to_bytes(4, "big") + enter.to_bytes(8, "big") + leave.to_bytes(8, "big")
        body += bytes([run == count - 1])
        enter = leave
    return body


def make_files(folder: Path, blocks: int, sections: int, trains: int) -> Files:
    files = Files(folder / "network.json", folder / "base.json", folder / "journal", folder / "capacity")
    files.network.write_text(json.dumps(corridor(blocks)))
    files.base.write_text(json.dumps({"tick_s": 10, "setting": 1, "release": 1, "horizon": HORIZON,
                                      "journal_bytes": 268_435_456, "trains": []}))
    length = blocks // sections
    with files.journal.open("wb") as to:
        to.write(b"STDCMJNL" + (2).to_bytes(4, "big"))
        to.write(hashlib.sha256(files.network.read_bytes()).digest() + hashlib.sha256(files.base.read_bytes()).digest())
        for train in range(trains):
            body = grant(train + 1, train % sections * length, length, departure(train, sections))
            to.write(b"\x01" + len(body).to_bytes(4, "big") + body)
        to.write(b"\0")
    return files


def departure(train: int, sections: int) -> int:
    return FIRST_DEPARTURE + train // sections * HEADWAY


def run(words: list[str]) -> tuple[float, float]:
    """The seconds that a command took, and its peak memory in MB."""
    begun = time.monotonic()
    child = subprocess.Popen(words, stderr=subprocess.PIPE)
    _, status, used = os.wait4(child.pid, 0)
    seconds = time.monotonic() - begun
    if status != 0:
        assert child.stderr is not None
        raise SystemExit(f"{words[1]} ended with {status}: {child.stderr.read().decode()}")
    return seconds, used.ru_maxrss / 1024


def shifts_of(files: Files, sections: int, trains: int) -> dict[int, int]:
    """The least shift of each train, by the stairway of the first one: those of a section keep its order on its zones."""
    run(files.words("stairs", "--entry", "0"))
    rows = [[int(field) for field in row.split()] for row in files.out.read_text().splitlines()[1:]]
    stairs = [(zone, begin - FIRST_DEPARTURE, end - FIRST_DEPARTURE) for zone, begin, end, _ in rows]
    start = min(begin for _, begin, _ in stairs)
    taken: dict[tuple[int, int], int] = {}
    shifts = {}
    for train in range(trains):
        depart = departure(train, sections)
        shift = FIRST_DEPARTURE - depart
        for zone, begin, _ in stairs:
            shift = max(shift, taken.get((train % sections, zone), FIRST_DEPARTURE + start) - begin - depart)
        for zone, _, end in stairs:
            taken[train % sections, zone] = depart + end + shift
        shifts[train] = shift
    return shifts


def check(text: str, shifts: dict[int, int]) -> None:
    """Compares the trains and their shifts with the model's."""
    rows = [row.split() for row in text.splitlines() if row.startswith("train ")]
    told = {int(row[2]): int(row[6]) for row in rows}
    if told != shifts:
        raise SystemExit(f"{len(told)} trains were told, and not the {len(shifts)} shifts of the model")


def main() -> None:
    parser = argparse.ArgumentParser(description=__doc__)
    parser.add_argument("--trains", type=int, nargs="*", default=[100, 1_000, 4_000])
    counts = parser.parse_args().trains
    for blocks, sections in ((40, 8), (600, 10)):
        before: tuple[int, float, float] | None = None
        for trains in counts:
            with tempfile.TemporaryDirectory() as name:
                files = make_files(Path(name), blocks, sections, trains)
                shifts = shifts_of(files, sections, trains)
                seconds, peak = run(files.words("capacity", "--first", "0", "--last", str(blocks - 1),
                                                "--from", "0", "--to", str(HORIZON)))
                text = files.out.read_text()
                check(text, shifts)
                size = files.journal.stat().st_size / 1e6
            growth = "" if before is None else (f", {seconds / before[1]:.1f} times the time and {peak / before[2]:.1f} "
                                                f"times the memory for {trains / before[0]:.1f} times the trains")
            print(f"{blocks} zones, {trains:,} trains, journal {size:.1f} MB: {seconds:.2f} s, peak {peak:.0f} MB, "
                  f"chain of {sum(row.startswith('link ') for row in text.splitlines())}{growth}")
            before = (trains, seconds, peak)


if __name__ == "__main__":
    main()
