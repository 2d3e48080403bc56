"""Tests the reader of journals, by journals that the program wrote, and by ones that are cut or
damaged.

    PYTHONPATH=python python3 -m tests.test_journal_file --program crates/stdcm/out/stdcm
"""
from __future__ import annotations

import sys
import tempfile
from pathlib import Path

from kidrofemba.common.companion import Refused, escaped
from kidrofemba.journal.journal_file import (Claim, Journal, JournalTrain, Kind, Request, Run,
                                             beginning_of, read_journal)
from tests.cases import Cases, World, program_of

REPOSITORY = Path(__file__).resolve().parent.parent


EXAMPLES = REPOSITORY / "examples"
FIRST_GATE = 76
LINES = [  # a client's lines, and the bytes that the journal then has
    ("A", "hold 1 1 38 50", 117),
    ("A", "holds 2 works%20%C3%A9 2 0 5 9 2 5 9", 190),
    ("B", "ask 1 F1 W E 100 130 0 17280 1 M 4", None),
    ("B", "pin 9223372036854775807 F4 1 0 1000 1025 1", None),
    ("A", "free 3 0", None),
]
RUNS = (Run(0, 100, 115, False), Run(1, 115, 129, True), Run(2, 133, 152, True))


def journal_made(cases: Cases, world: World) -> None:
    """Serves the lines one after another, and looks at the length of the journal."""
    for name in ("base", "trains"):
        world.write(name, (EXAMPLES / f"{name}.json").read_text())
    world.write("network", (EXAMPLES / "line3.json").read_text())
    world.init()
    cases.equal("begun", 77, world.path("journal").stat().st_size)
    cases.equal("begun, entries", (), read_journal(world.path("journal")).entries)
    for client, line, length in LINES:
        reply = world.serve(client, [line])
        cases.holds(f"{line}: {reply}", reply[0].split()[0] in (
            "held", "granted", "pinned", "freed"))
        if length is not None:
            cases.equal(f"{line}: bytes", length, world.path("journal").stat().st_size)


def try_entries(cases: Cases, journal: Journal) -> None:
    """The entries as the lines and replies tell them."""
    hold, works, path, pin, free = journal.entries
    cases.equal("kinds", [Kind.HOLD, Kind.HOLDS, Kind.GRANT, Kind.PIN, Kind.FREE],
                [entry.kind for entry in journal.entries])
    cases.equal("owners", ["A", "A", "B", "B", "A"], [entry.owner for entry in journal.entries])
    cases.equal("numbers", [1, 2, 1, 2 ** 63 - 1, 3], [entry.number for entry in journal.entries])
    cases.equal("places", [0, 1, 2, 3, 4], [entry.at for entry in journal.entries])
    cases.equal("hold", (Claim(1, 38, 50),), hold.claims)
    cases.equal("works", (Claim(0, 5, 9), Claim(2, 5, 9)), works.claims)
    cases.equal("reason", "works é", works.reason)
    cases.equal("reason as in lines", "works%20%C3%A9", escaped(works.reason or ""))
    cases.equal("train", JournalTrain("F1", 400, 20_000, 200, 250, 0), path.train)
    cases.equal("request", Request(0, 2, (100, 130), (0, 17_280), ((1, 4),)), path.request)
    cases.equal("runs", RUNS, path.runs)
    cases.equal("pinned", ((Run(0, 1_000, 1_025, True),), None), (pin.runs, pin.request))
    cases.equal("free", (0, 4), (free.frees, hold.freed_by))
    cases.equal("live", [1, 2, 3], [entry.at for entry in journal.live()])
    cases.equal("live at 4", [0, 1, 2, 3], [entry.at for entry in journal.live_at(4)])
    cases.equal("live at 1", [0], [entry.at for entry in journal.live_at(1)])


def try_copies(cases: Cases, world: World, journal: Journal) -> None:
    """Beginnings of the journal for another base file: the program opens them."""
    network, base = world.path("network").read_bytes(), world.path("base").read_bytes()
    cases.holds("it is of its files", journal.is_of(network, base))
    cases.holds("it is of no other base", not journal.is_of(network, base + b" "))
    other = base.replace(b'"trains":[]', b'"trains": []')
    whole = world.path("journal").read_bytes()
    for front in range(6):
        copy = beginning_of(world.path("journal"), front, other)
        world.path("base").write_bytes(other)
        world.path("journal").write_bytes(copy)
        cases.equal(f"opened at {front}", [f"front at {front}"], world.serve("C", ["front"]))
        cases.equal(f"read at {front}", front, len(read_journal(world.path("journal")).entries))
        world.path("base").write_bytes(base)
        world.path("journal").write_bytes(whole)


def try_damage(cases: Cases, world: World) -> None:
    """Files that are no journal, or one that was cut or damaged."""
    whole = world.path("journal").read_bytes()
    body = FIRST_GATE + 5
    damaged = {
        "byte 0: not a journal": b"", "byte 8: not a whole journal": whole[:FIRST_GATE],
        "byte 8": whole[:11] + b"\1" + whole[12:],
        f"byte {FIRST_GATE}: an open gate": whole[:FIRST_GATE + 20],
        "entry 0: 9 is not": whole[:body] + b"\x09" + whole[body + 1:],
        "entry 0: its body is cut": whole[:body + 13] + b"\xff" + whole[body + 14:],
    }
    for wanted, data in damaged.items():
        world.path("damaged").write_bytes(data)
        try:
            read_journal(world.path("damaged"))
            cases.holds(f"{wanted}: refused", False)
        except Refused as refusal:
            cases.holds(f"{wanted}: told", f"damaged: {wanted}" in str(refusal), refusal)
    cut = bytearray(whole)
    cut[FIRST_GATE + 5 + 35] = 7
    world.path("damaged").write_bytes(bytes(cut))
    cases.equal("entries end at a gate that is not 1", 1,
                len(read_journal(world.path("damaged")).entries))


def main() -> int:
    program, cases = program_of(__doc__), Cases()
    with tempfile.TemporaryDirectory() as folder:
        world = World(program, Path(folder))
        journal_made(cases, world)
        journal = read_journal(world.path("journal"))
        try_entries(cases, journal)
        try_copies(cases, world, journal)
        try_damage(cases, world)
    return cases.end()


if __name__ == "__main__":
    sys.exit(main())
