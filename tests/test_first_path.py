"""Tests the way from an export to a first path, with nothing planned yet: for each made export the
network, a journal, a path that is sold, and a train graph of it.

    PYTHONPATH=python python3 -m tests.test_first_path --program crates/stdcm/out/stdcm
"""
from __future__ import annotations

import contextlib
import io
import sys
import tempfile
from itertools import permutations
from pathlib import Path
from xml.etree import ElementTree

from kidrofemba.common import progress
from kidrofemba.common.companion import Refused, escaped
from kidrofemba.graph import train_graph
from kidrofemba.osrd import import_network
from tests.cases import REPOSITORY, Cases, World, program_of, run
from tests.made_exports import Json, fractions, oddities, small

# A busy machine may take longer than two seconds, and what is told of that is no refusal.
progress.FIRST_S = 3600.0


def import_export(cases: Cases, name: str, world: World, export: Json) -> None:
    """Makes the network of an export."""
    words = [str(world.write("export", export)), str(world.path("network")), "--report",
             str(world.path("report"))]
    try:
        with contextlib.redirect_stdout(io.StringIO()):
            import_network.import_network(words)
        cases.holds(f"{name}: the report is written", world.path("report").stat().st_size > 0)
    except Refused as refusal:
        cases.holds(f"{name}: the export is taken", False, refusal)


def sell_first(world: World) -> tuple[str, str] | None:
    """The first pair of operational points between which a path is sold, as the network names
    them."""
    points = [one["id"] for one in world.read("network")["operational_points"]]
    for begin, end in permutations(points, 2):
        line = f"ask 1 F1 {escaped(begin)} {escaped(end)} 100 200 0 17280 0"
        if world.serve("A", [line])[0].startswith("granted 1 entry 0 "):
            return begin, end
    return None


def try_export(cases: Cases, name: str, world: World, export: Json) -> None:
    """From the export to a picture of the path that is sold first."""
    import_export(cases, name, world, export)
    world.write("base", (REPOSITORY / "examples/base.json").read_text(encoding="utf-8"))
    world.write("trains", (REPOSITORY / "examples/trains.json").read_text(encoding="utf-8"))
    cases.equal(f"{name}: planned trains", [], world.read("base")["trains"])
    cases.equal(f"{name}: a journal is begun", 0, world.init())
    pair = sell_first(world)
    cases.holds(f"{name}: a path is sold", pair is not None)
    if pair is None:
        return
    picture, page = world.path("graph.svg"), world.path("graph.html")
    done = run(train_graph, *world.files("network", "base", "journal"), "--program", world.program,
               "--along", *pair, "--out", picture, "--out", page)
    cases.equal(f"{name}: drawn", (0, ""), (done.status, done.err))
    if done.status != 0:
        return
    cases.holds(f"{name}: the path is on the line", done.out.endswith(
        "; 0 planned, 1 sold, 0 held\n"), done.out)
    drawn = "".join(ElementTree.parse(picture).getroot().itertext())
    for text in (f"{pair[0]} \u2013 {pair[1]}", "sold by entry 0", "sold, in colours"):
        cases.holds(f"{name}: the picture has {text}", text in drawn)
    told = page.read_text(encoding="utf-8")
    cases.holds(f"{name}: the page has the path", told.lower().startswith("<!doctype html>")
                and "sold by entry 0" in told, told[:80])


def main() -> int:
    program, cases = program_of(__doc__), Cases()
    with tempfile.TemporaryDirectory() as place:
        for name, export in (("small", small()), ("fractions", fractions(3)),
                             ("oddities", oddities())):
            folder = Path(place) / name
            folder.mkdir()
            try_export(cases, name, World(program, folder), export)
    return cases.end()


if __name__ == "__main__":
    sys.exit(main())
