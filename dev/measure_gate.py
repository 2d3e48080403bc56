"""Runs the toolchain's gate, `rt ci`, and tells what each crate costs in it.

While the gate runs the processes of the prover are looked at twice a second: the processor time of
each, and the memory that it held at most, by crate and by what it was for. At the end a table tells
for each crate the seconds of its first check, of the proof of its tests, of the check that its
planted edits begin with and of the edits, and the most memory of one process; then the sums, how
long the gate took, and when each program stood. What the machine kept of earlier runs costs
nothing, so give `--anew` to `rt ci` for the cost of all.

    dev/measure_gate                     the whole gate
    dev/measure_gate --anew --out gate.table
    dev/measure_gate rail_types          rt ci NAME ..
"""
from __future__ import annotations

import argparse
import os
import subprocess
import sys
import time
from collections import defaultdict
from dataclasses import dataclass, field
from pathlib import Path

from dev.processes import end, family, resident_bytes
from dev.repository import ROOT, Repository

TICKS_A_SECOND = os.sysconf("SC_CLK_TCK")
LOOK_S = 0.5
#: How often the memory of all processes together is looked at, which takes longer.
MEMORY_S = 5.0
#: What a process of the prover is for, in the order of the table's columns.
FIRST, TESTS, SEED, EDITS = "first check", "tests", "seed", "edits"
KINDS = (FIRST, TESTS, SEED, EDITS)


@dataclass(frozen=True)
class Proof:
    """A process of the prover as it was last seen."""

    crate: str
    kind: str
    time_s: float
    memory_bytes: int


def proof_of(pid: int) -> Proof | None:
    """What a process proves, where it is one of the prover's."""
    folder = Path(f"/proc/{pid}")
    try:
        words = (folder / "cmdline").read_bytes().decode(errors="replace").split("\0")
        if Path(words[0]).name != "rattle" or "--crate-name" not in words:
            return None
        crate = words[words.index("--crate-name") + 1]
        place = Path(os.readlink(folder / "cwd")).name
        fields = (folder / "stat").read_text().rpartition(")")[2].split()
        status = (folder / "status").read_text()
    except (OSError, IndexError):
        return None
    peak = next((1024 * int(row.split()[1]) for row in status.splitlines()
                 if row.startswith("VmHWM:")), 0)
    time_s = (int(fields[11]) + int(fields[12])) / TICKS_A_SECOND
    return Proof(crate, kind_of(words, place), time_s, peak)


def kind_of(words: list[str], folder: str) -> str:
    """What a call of the prover is for: edits and what they begin with are tried in copies."""
    if folder.startswith("rt-edit-"):
        over = words[words.index("--incremental") + 1] if "--incremental" in words else ""
        return SEED if Path(over).name == "seed" else EDITS
    return TESTS if "--test" in words else FIRST


@dataclass
class Costs:
    """What each crate cost: processor seconds by kind, and bytes."""

    seen: dict[int, Proof] = field(default_factory=dict)
    seconds: dict[str, dict[str, float]] = field(
        default_factory=lambda: defaultdict(lambda: defaultdict(float)))
    memory: dict[str, int] = field(default_factory=lambda: defaultdict(int))

    def look(self, pids: list[int]) -> None:
        now = {pid: proof for pid in pids if (proof := proof_of(pid)) is not None}
        for pid, proof in self.seen.items():
            later = now.get(pid)
            if later is None or (later.crate, later.kind) != (proof.crate, proof.kind):
                self.count(proof)
        self.seen = now

    def count(self, proof: Proof) -> None:
        self.seconds[proof.crate][proof.kind] += proof.time_s
        self.memory[proof.crate] = max(self.memory[proof.crate], proof.memory_bytes)

    def close(self) -> None:
        for proof in self.seen.values():
            self.count(proof)
        self.seen = {}

    def table(self) -> list[str]:
        """A table for a page, the dearest crate first."""
        rows = [f"| crate | {' | '.join(KINDS)} | GB |", "|---|" + "---|" * (len(KINDS) + 1)]
        dearest = sorted(self.seconds, key=lambda crate: -sum(self.seconds[crate].values()))
        for crate in dearest:
            cells = [f"{self.seconds[crate][kind]:.0f}" if self.seconds[crate][kind] else ""
                     for kind in KINDS]
            gb = self.memory[crate] / 1e9
            rows.append(f"| `{crate}` | {' | '.join(cells)} | {gb:.1f} |")
        sums = [sum(self.seconds[crate][kind] for crate in dearest) / 60 for kind in KINDS]
        rows.append(f"| all, in minutes | {' | '.join(f'{it:.0f}' for it in sums)} | |")
        return rows


def programs(repository: Repository) -> dict[str, Path]:
    """Where the gate links each program."""
    return {name: repository.folder(name) / "out" / name for name in repository.libraries
            if (repository.folder(name) / "src/main.rt").is_file()}


def main(words: list[str]) -> int:
    formatter = argparse.RawDescriptionHelpFormatter
    parser = argparse.ArgumentParser(description=__doc__, formatter_class=formatter)
    parser.add_argument("crates", nargs="*", metavar="CRATE", help="these and those below alone")
    parser.add_argument("--anew", action="store_true", help="prove all, whatever was kept")
    parser.add_argument("--out", type=Path, help="a file for the table")
    options = parser.parse_args(words)
    begun, looked, most = time.time(), 0.0, 0
    costs, stood = Costs(), {}
    places = programs(Repository(ROOT))
    process = subprocess.Popen(["rt", "ci", *(["--anew"] if options.anew else []),
                                *options.crates], cwd=ROOT, stdin=subprocess.DEVNULL)
    try:
        while process.poll() is None:
            members = family(process.pid)
            costs.look([one.pid for one in members])
            for name, path in places.items():
                if name not in stood and path.is_file() and path.stat().st_mtime > begun:
                    stood[name] = time.time() - begun
            if time.time() - looked >= MEMORY_S:
                most, looked = max(most, resident_bytes(members)), time.time()
            time.sleep(LOOK_S)
    except KeyboardInterrupt:
        end(process)
        return 130
    costs.close()
    rows = costs.table()
    for name, seconds in stood.items():
        rows.append(f"{name} stood after {seconds / 60:.1f} minutes")
    rows.append(f"the gate took {(time.time() - begun) / 60:.1f} minutes, and held"
                f" {most / 1e9:.1f} GB at most")
    print("\n".join(rows), file=sys.stderr)
    if options.out:
        options.out.write_text("\n".join(rows) + "\n")
    return process.returncode


if __name__ == "__main__":
    sys.exit(main(sys.argv[1:]))
