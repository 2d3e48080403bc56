"""Tells which functions and files of a crate cost most of its proof, by its last check.

`rt check` keeps what it has proved of a crate module by module, each written as soon as it was
proved. The time between one and the next is what that one cost; the table sums it by function, or
by file of specs/ and proofs/, the dearest first, with the dearest parts of each: `Proof` is the
proof of its clauses, `Lts` that of its borrows and of what is dropped on each way out of it. Times
pass by the clock, so other work that keeps the processors busy makes them longer.

    dev/proof_costs rail_types            what the last check proved anew
    dev/proof_costs --check rail_types    proves the crate from nothing first, by one processor
"""
from __future__ import annotations

import argparse
import shutil
import subprocess
import sys
from collections import Counter, defaultdict
from dataclasses import dataclass
from pathlib import Path

from dev.repository import ROOT, Repository
from kidrofemba.common.companion import Refused, run_companion

ENDING = ".oantt"
#: The second of the two files that a module may have.
RECORD_ENDING = ".decls.oantt"
#: A longer time between two modules is none that a proof took: another check began.
MOST_S = 600.0
#: How many parts of a function are told.
PARTS = 3


@dataclass(frozen=True)
class Module:
    """A module that a check proved: whose it is, and which part of that."""

    owner: str
    part: str


def module_of(crate: str, name: str) -> Module:
    """What a file's name tells. A function's name begins in lower case, a part's in upper case."""
    ending = RECORD_ENDING if name.endswith(RECORD_ENDING) else ENDING
    place = name.removesuffix(ending).removeprefix(f"Rattle-{crate}")
    library, words = next(((it, place.removeprefix(it).strip(".").split("."))
                           for it in ("-specs", "-proofs") if place.startswith(it)),
                          ("", place.strip(".").split(".")))
    if library == "":
        return Module("what is passed on to the crates above", "")
    last = max((at for at, word in enumerate(words) if word[:1].islower()), default=-1)
    if last < 0 or words == [""]:
        return Module(f"{library[1:]}/{words[0] or 'Lib'}.antt", "")
    return Module("::".join(words[:last + 1]), ".".join(words[last + 1:]))


def costs_of(crate: str, folder: Path) -> dict[str, Counter[str]]:
    """The nanoseconds of each function and file, by parts, of what stands in the folder of a
    check."""
    files = sorted((path.stat().st_mtime_ns, path.name) for path in folder.rglob(f"*{ENDING}"))
    costs: dict[str, Counter[str]] = defaultdict(Counter)
    for (before, _), (now, name) in zip(files, files[1:]):
        module = module_of(crate, name)
        if now - before < MOST_S * 1e9:
            costs[module.owner][module.part] += now - before
    return costs


def table_of(costs: dict[str, Counter[str]], shown: int) -> list[str]:
    """A table for a page, and the sum of all."""
    rows = ["| seconds | function or file | dearest parts |", "|---|---|---|"]
    for owner in sorted(costs, key=lambda it: -costs[it].total())[:shown]:
        parts = ", ".join(f"{part} {taken_ns / 1e9:.1f}"
                          for part, taken_ns in costs[owner].most_common(PARTS)
                          if part and taken_ns >= 1e8)
        rows.append(f"| {costs[owner].total() / 1e9:.1f} | `{owner}` | {parts} |")
    whole = sum(it.total() for it in costs.values())
    rows.append(f"| {whole / 1e9:.1f} | all {len(costs)} | |")
    return rows


def prove(crate: str, folder: Path, kept: Path) -> None:
    """Proves the crate from nothing, over what stands of the crates below it. What the check says
    goes to standard error, a line for each function that is proved."""
    rt = shutil.which("rt")
    if rt is None:
        raise Refused("rt", "PATH", "not found: install the Rattle kit")
    shutil.rmtree(kept, ignore_errors=True)
    ran = subprocess.run([rt, "check", "--jobs", "1"], cwd=folder, stdout=sys.stderr, check=False)
    if ran.returncode:
        raise Refused(f"crates/{crate}", "", "it is not proved, as its check told")


def main() -> int:
    formatter = argparse.RawDescriptionHelpFormatter
    parser = argparse.ArgumentParser(description=__doc__, formatter_class=formatter)
    parser.add_argument("crate", metavar="CRATE")
    parser.add_argument("--check", action="store_true", help="prove the crate from nothing first")
    parser.add_argument("--rows", type=int, default=30, help="how many functions are told (30)")
    parser.add_argument("--root", type=Path, default=ROOT, help=argparse.SUPPRESS)
    options = parser.parse_args()
    repository = Repository(options.root)
    if options.crate not in repository.rows:
        raise Refused("crates.txt", options.crate, "no crate has this name")
    folder = repository.folder(options.crate)
    kept = folder / "out/incremental"
    if options.check:
        prove(options.crate, folder, kept)
    costs = costs_of(options.crate, kept)
    if not costs:
        raise Refused(f"crates/{options.crate}/out/incremental", "", "no check is kept there: give"
                      " --check, or run rt check --jobs 1 in the crate's folder")
    print("\n".join(table_of(costs, options.rows)))
    return 0


if __name__ == "__main__":
    sys.exit(run_companion("proof_costs", main))
