"""Compares `list` of the built program with the plain model, byte for byte.

Networks: those of examples/, 360 small random ones, and corridors. The model itself is held to the
printed table of the station, and to rows that were worked out by hand.

    PYTHONPATH=python python3 -m tests.test_plain_list --program crates/stdcm/out/stdcm
"""
from __future__ import annotations

import argparse
import json
import random
import subprocess
import sys
import tempfile
from collections import Counter
from collections.abc import Callable
from pathlib import Path
from typing import Any

from bench.corridor import corridor
from tests.made_networks import made_network
from tests.oracles.plain_list import Network, NetworkFault, table

REPOSITORY = Path(__file__).resolve().parent.parent


RANDOM_NETWORKS = 360


class Cases:
    """Counts cases, and prints those that fail."""

    def __init__(self) -> None:
        self.passed = self.failed = 0

    def check(self, name: str, wanted: Any, got: Any) -> None:
        if wanted == got:
            self.passed += 1
            return
        self.failed += 1
        print(f"{name}: {str(got)[:600]!r}, and wanted was {str(wanted)[:600]!r}")


def told_by_model(network: Path) -> tuple[int, str, str]:
    """The status, table and report of `list` by the model."""
    try:
        return 0, table(network), ""
    except NetworkFault as fault:
        return 3, "", f"network: {fault}\n"


def told_by_program(program: Path, network: Path) -> tuple[int, str, str]:
    done = subprocess.run(
        [program, "list", "--network", network, "--out", "stdout"], capture_output=True, timeout=60
    )
    return done.returncode, done.stdout.decode("ascii"), done.stderr.decode("ascii")


def judge_of(infra: dict[str, Any]) -> Callable[[dict[str, Any]], bool]:
    """Tells of a network's routes whether the model finds no fault in them."""
    network = Network(infra)

    def is_good(route: dict[str, Any]) -> bool:
        try:
            passed = network.walk(route)
            network.judge_releases(route, passed)
            network.judge_lengths(route, passed)
        except NetworkFault:
            return False
        return True

    return is_good


def ring() -> dict[str, Any]:
    """A track of 300 m whose ends are linked, with detectors at 0 (twice), 100 and 300 m."""
    return {
        "track_sections": [{"id": "T", "length": 300}],
        "switches": [
            {
                "id": "L",
                "switch_type": "link",
                "ports": {
                    "A": {"track": "T", "endpoint": "END"},
                    "B": {"track": "T", "endpoint": "BEGIN"},
                },
            }
        ],
        "detectors": [
            {"id": name, "track": "T", "position": at}
            for name, at in (("a", 0), ("b", 0), ("c", 100), ("d", 300))
        ],
        "signals": [
            {
                "id": "s",
                "track": "T",
                "position": 90.0,
                "direction": "START_TO_STOP",
                "sight_distance": 50.5,
                "logical_signals": [{"signaling_system": "BAL"}],
            }
        ],
        "routes": [
            {
                "id": "r",
                "entry_point": {"type": "Detector", "id": "a"},
                "entry_point_direction": "START_TO_STOP",
                "exit_point": {"type": "Detector", "id": "d"},
                "release_detectors": [],
            }
        ],
        "speed_sections": [
            {
                "id": "v",
                "speed_limit": 10.0009,
                "track_ranges": [
                    {"track": "T", "begin": 99.9, "end": 100.0, "applicable_directions": "BOTH"}
                ],
            }
        ],
        "operational_points": [{"id": "o", "parts": [{"track": "T", "position": 100.9}]}],
    }


def by_hand(cases: Cases, folder: Path) -> None:
    """Rows that were worked out on paper: pieces [0,0], [0,100], [100,300] and [300,300], of
    which the first and the last are one zone; a block up to the signal's detector at 100 m, and
    one behind.
    """
    file = folder / "ring.json"
    file.write_text(json.dumps(ring()))
    wanted = """zones 3 blocks 2 stops 1
zone 0 pieces 2 T 0 0 T 300 300
zone 1 pieces 1 T 0 100
zone 2 pieces 1 T 100 300
block 0 route r part 0 length 100 speed 10000 sight 0 cells 1 1 100 serves 1 o
block 1 route r part 1 length 200 speed 200000 sight 51 cells 1 2 200 serves 1 o
"""
    cases.check("a ring by hand", (0, wanted, ""), told_by_model(file))
    faults = {
        "no-way r at 300": {
            "exit_point": {"type": "Detector", "id": "d"},
            "entry_point_direction": "STOP_TO_START",
        },
        "loop r": {"exit_point": {"type": "Detector", "id": "a"}},
        "stray-release r b": {
            "entry_point": {"type": "Detector", "id": "c"},
            "release_detectors": ["b"],
        },
    }
    changed = ring()
    changed["switches"] = []
    for fault, fields in faults.items():
        infra = changed if fault.startswith("no-way") else ring()
        infra["routes"][0] |= fields
        if fault.startswith("no-way"):
            infra["routes"][0]["entry_point"] = {"type": "Detector", "id": "d"}
            infra["routes"][0]["exit_point"] = {"type": "Detector", "id": "d"}
        file.write_text(json.dumps(infra))
        cases.check(f"{fault} by hand", (3, "", f"network: {fault}\n"), told_by_model(file))


def bad_files(cases: Cases, folder: Path) -> None:
    """What is no network file is refused by one line and status 2."""
    rows = {
        "no JSON": "{",
        "no object": "[]",
        "no UTF-8": b"\xff",
        "no length": '{"track_sections":[{"id":"T"}]}',
        "a fraction": '{"track_sections":[{"id":"T","length":1.5}]}',
    }
    for name, text in rows.items():
        file = folder / "bad.json"
        file.write_bytes(text if isinstance(text, bytes) else text.encode())
        done = subprocess.run(
            [sys.executable, "-m", "tests.oracles.plain_list", file],
            cwd=REPOSITORY,
            capture_output=True,
            text=True,
        )
        told = done.stderr.splitlines()
        cases.check(
            f"bad file, {name}",
            (2, 1, True, ""),
            (done.returncode, len(told), told[0].startswith(f"plain_list: {file}: "), done.stdout),
        )


def compare(cases: Cases, program: Path, folder: Path) -> Counter[str]:
    """All networks by the program and by the model; counts what they came to."""
    came = Counter()
    files = [path for path in sorted((REPOSITORY / "examples").glob("*.json"))]
    for sections, blocks in ((1, 1), (2, 3), (9, 4)):
        files.append(folder / f"corridor{sections}.json")
        files[-1].write_text(json.dumps(corridor(sections, blocks).infra))
    source = random.Random(20261129)
    for number in range(RANDOM_NETWORKS):
        files.append(folder / f"random{number}.json")
        infra = made_network(source, judge_of)
        files[-1].write_text(json.dumps(infra, ensure_ascii=source.random() < 0.5))
    for file in files:
        told = told_by_model(file)
        came[
            told[2].split(" ")[1] if told[0] else "blocks" if "\nblock " in told[1] else "zones"
        ] += 1
        cases.check(f"network {file.name}", told, told_by_program(program, file))
    return came


def main() -> int:
    parser = argparse.ArgumentParser(
        description=__doc__, formatter_class=argparse.RawDescriptionHelpFormatter
    )
    parser.add_argument("--program", type=Path, default=REPOSITORY / "crates/stdcm/out/stdcm")
    program = parser.parse_args().program
    if not program.is_file():
        print(f"no program at {program}")
        return 1
    cases = Cases()
    with tempfile.TemporaryDirectory() as name:
        folder = Path(name)
        cases.check(
            "the station's table",
            (REPOSITORY / "examples/station.table").read_text(),
            table(REPOSITORY / "examples/station.json"),
        )
        by_hand(cases, folder)
        bad_files(cases, folder)
        came = compare(cases, program, folder)
    print(", ".join(f"{count} {what}" for what, count in sorted(came.items())))
    print(f"{cases.passed} passed, {cases.failed} failed")
    return int(cases.failed > 0)


if __name__ == "__main__":
    sys.exit(main())
