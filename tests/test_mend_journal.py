"""Tests of `kidrofemba mend`: each byte of a journal is spoilt, one after the other, and mended
by a backup; and beginnings that the program opens.

    PYTHONPATH=python python3 -m tests.test_mend_journal --program crates/stdcm/out/stdcm
"""
from __future__ import annotations

import sys
import tempfile
from pathlib import Path

from kidrofemba.journal import mend
from tests.cases import Cases, Ran, World, program_of, run

REPOSITORY = Path(__file__).resolve().parent.parent


EXAMPLES = REPOSITORY / "examples"
HEADER, RECORD = 76, 40
"""Bytes before the first gate; and of a hold of one zone by A, with the gate before it."""


def mended(world: World, *words: object) -> Ran:
    world.path("mended").unlink(missing_ok=True)
    return run(mend, "--journal", world.path("damaged"), "--out", world.path("mended"),
               *words)


def front_of(world: World, name: str) -> list[str]:
    """What the program says of a journal."""
    world.path("journal").write_bytes(world.path(name).read_bytes())
    return world.serve("C", ["front"])


def try_backups(cases: Cases, world: World, whole: bytes, backup: bytes) -> None:
    """Any byte of the backup may be another one in the journal."""
    world.path("backup").write_bytes(backup)
    for at in range(HEADER + 2 * RECORD):
        world.path("damaged").write_bytes(whole[:at] + bytes([whole[at] ^ 0x5A]) + whole[at + 1:])
        told = mended(world, "--backup", world.path("backup"))
        cases.equal(f"byte {at}: told", (0, "front 5, 2 of them of the backup, where 1 bytes were "
                                            "others\n", ""), (told.status, told.out, told.err))
        cases.equal(f"byte {at}", whole, world.path("mended").read_bytes())
    cases.equal("front", ["front at 5"], front_of(world, "mended"))
    # A backup that was made while a record was written behind its closed gate.
    world.path("backup").write_bytes(backup + whole[len(backup):len(backup) + 9])
    told = mended(world, "--backup", world.path("backup"))
    cases.equal("a record that was being written", whole, world.path("mended").read_bytes())
    gate = HEADER + 3 * RECORD
    world.path("damaged").write_bytes(whole[:gate + 1] + b"\x7f" + whole[gate + 2:])
    told = mended(world, "--backup", world.path("backup"))
    cases.equal("damage behind the backup", (2, f"mend: {world.path('damaged')}: byte "
                f"{gate}: an open gate with no whole record behind it\n"), (told.status, told.err))
    world.path("damaged").write_bytes(whole[:HEADER + RECORD])
    told = mended(world, "--backup", world.path("backup"))
    cases.holds("a journal that is shorter", told.status == 2 and "ends before" in told.err, told)
    cases.holds("nothing is made", not world.path("mended").exists())


def try_beginnings(cases: Cases, world: World, whole: bytes) -> None:
    """The first entries, whatever stands behind them."""
    gate = HEADER + 3 * RECORD
    world.path("damaged").write_bytes(whole[:gate + 1] + b"\x7f" + whole[gate + 2:])
    for entries in range(4):
        told = mended(world, "--entries", entries)
        cases.equal(f"{entries} entries: told", (0, f"front {entries}\n"), (told.status, told.out))
        cases.equal(f"{entries} entries", whole[:HEADER + RECORD * entries] + b"\0",
                    world.path("mended").read_bytes())
        cases.equal(f"{entries}: front", [f"front at {entries}"], front_of(world, "mended"))
    cases.equal("only its user reads it", 0o600, world.path("mended").stat().st_mode & 0o777)
    told = run(mend, "--journal", world.path("damaged"), "--entries", 1, "--out",
               world.path("mended"))
    cases.equal("a file that is there", (2, f"mend: {world.path('mended')}: is there: name "
                                            "a new file\n"), (told.status, told.err))
    for words, wanted in ((("--entries", 4), f"byte {gate}: an open gate"),
                          (("--entries", -1), "words: --entries: is less than 0")):
        told = mended(world, *words)
        cases.holds(f"{words}", told.status == 2 and wanted in told.err, told)
        cases.holds("nothing is made", not world.path("mended").exists())


def main() -> int:
    program, cases = program_of(__doc__), Cases()
    with tempfile.TemporaryDirectory() as folder:
        world = World(program, Path(folder))
        for name, example in (("base", "base"), ("trains", "trains"), ("network", "line3")):
            world.write(name, (EXAMPLES / f"{example}.json").read_text())
        world.init()
        world.serve("A", ["hold 1 0 1 2", "hold 2 0 2 3"])
        backup = world.path("journal").read_bytes()
        world.serve("A", ["hold 3 0 3 4", "hold 4 0 4 5", "hold 5 0 5 6"])
        whole = world.path("journal").read_bytes()
        cases.equal("length", HEADER + 5 * RECORD + 1, len(whole))
        try_backups(cases, world, whole, backup)
        try_beginnings(cases, world, whole)
    return cases.end()


if __name__ == "__main__":
    sys.exit(main())
