"""Runs `list` over corridors of 1, 8 and 64 MB, and compares what its table counts with what was
made, and the table with that of a plain model, byte for byte.

It prints megabytes a second, the growth of the time from size to size, the peak memory, and the
time beside a plain parse of the same file by Python's `json`.
"""
from __future__ import annotations

import argparse
import json
import os
import subprocess
import tempfile
import time
from pathlib import Path

from bench.corridor import sized
from bench.served import PROGRAM
from tests.oracles.plain_list import table


def run_list(network: Path, out: Path) -> tuple[float, int]:
    """The seconds that `list` took, and its peak memory in kilobytes."""
    begun = time.monotonic()
    words = [str(PROGRAM), "list", "--network", str(network), "--out", str(out)]
    child = subprocess.Popen(words, stderr=subprocess.PIPE)
    _, status, used = os.wait4(child.pid, 0)
    seconds = time.monotonic() - begun
    if status != 0:
        assert child.stderr is not None
        raise SystemExit(f"list ended with {status}: {child.stderr.read().decode()}")
    return seconds, used.ru_maxrss


def main() -> None:
    parser = argparse.ArgumentParser(description=__doc__)
    parser.add_argument("--sizes", type=float, nargs="*", default=[1, 8, 64], help="megabytes")
    sizes = parser.parse_args().sizes
    before: tuple[float, float] | None = None
    with tempfile.TemporaryDirectory() as name:
        network, out = Path(name) / "network.json", Path(name) / "table"
        for megabytes in sizes:
            made = sized(megabytes)
            network.write_text(json.dumps(made.infra))
            size = network.stat().st_size / 1e6
            out.unlink(missing_ok=True)
            seconds, peak = run_list(network, out)
            printed = out.read_text()
            head = printed.split("\n", 1)[0]
            wanted = f"zones {made.zones} blocks {made.blocks} stops {len(made.stops)}"
            if head != wanted:
                raise SystemExit(f"the table begins with {head!r}, and {wanted!r} were made")
            if printed != table(network):
                raise SystemExit("the table is not that of the plain model")
            begun = time.monotonic()
            json.loads(network.read_text())
            plain = time.monotonic() - begun
            growth = ""
            if before is not None:
                more, longer = size / before[0], seconds / before[1]
                growth = f", {longer:.1f} times the time for {more:.1f} times the size"
            print(
                f"{size:.1f} MB, {made.blocks} blocks: {seconds:.2f} s, {size / seconds:.1f} MB/s,"
                f" peak {peak / 1024:.0f} MB, {seconds / plain:.2f} of Python's parse{growth}"
            )
            before = (size, seconds)


if __name__ == "__main__":
    main()
