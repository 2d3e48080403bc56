"""Draws a train graph: distance down, clock time across, each train's head as a line, and the steps
of its blocking times; planned trains grey, sold ones in colours.

An output whose name ends in .svg is a picture; one that ends in .html is a page that needs nothing
else, with zoom, and with time, train and zone at the pointer. The line leads by the operational
points of --along, named as in the network file. Sold paths come from a journal, from a client's
replies, or from tables of `stairs` of entries. With --program the table of `list` and the blocking
times of a journal's paths are asked from the program.

  kidrofemba graph --network examples/corridor.json --base examples/corridor_planned.json \\
      --program crates/stdcm/out/stdcm --journal journal --along West East \\
      --out corridor.svg --out corridor.html

  kidrofemba graph --network N --table TABLE --base B --replies A=replies --stairs 0=stairs0 \\
      --along "Station 1" "Station 4" --from 06:00 --to 09:30 --out part.svg
"""
from __future__ import annotations

import argparse
import subprocess
import sys
from pathlib import Path
from typing import NoReturn

from kidrofemba.common.clock import Clock, clock_of
from kidrofemba.common.companion import Refused, read_text, run_companion, unescaped, write_whole
from kidrofemba.common.json_spot import Spot, spot_of_file
from kidrofemba.common.progress import Progress
from kidrofemba.graph.page import page
from kidrofemba.graph.picture import LEAST_HEIGHT, LEAST_WIDTH, Graph, draw
from kidrofemba.graph.trains import (GraphTrain, Standing, Train, claims_of_stairs, on_line,
                                     read_planned, read_replies, read_sold_journal, taken_in_order,
                                     with_stairs)
from kidrofemba.network.line_places import line_of
from kidrofemba.network.railway import Railway, read_railway
from kidrofemba.network.table_file import read_table, read_table_text

NAME = "graph"


class Words(argparse.ArgumentParser):
    """Words whose faults are told in one line."""

    def error(self, message: str) -> NoReturn:
        print(f"{NAME}: words: {message}", file=sys.stderr)
        sys.exit(2)


def options_of(words: list[str]) -> argparse.Namespace:
    """The options that words spell."""
    parser = Words(prog=f"kidrofemba {NAME}", description=__doc__, allow_abbrev=False,
                   formatter_class=argparse.RawDescriptionHelpFormatter)
    parser.add_argument("--network", required=True, metavar="F", help="the network file")
    parser.add_argument("--base", required=True, metavar="F", help="the base file")
    parser.add_argument("--table", metavar="F", help="the table of `list`")
    parser.add_argument("--program", metavar="F",
                        help="the program, for what --table and --stairs would tell")
    parser.add_argument("--along", required=True, nargs="+", metavar="POINT",
                        help="the operational points by which the line leads, from top to bottom")
    parser.add_argument("--journal", metavar="F", help="the journal with what was sold")
    parser.add_argument("--replies", action="append", default=[], metavar="NAME=F",
                        help="replies to the client NAME; may repeat")
    parser.add_argument("--stairs", action="append", default=[], metavar="I=F",
                        help="the table of `stairs` of entry I; may repeat")
    parser.add_argument("--from", dest="begin", metavar="TIME",
                        help="the left edge, such as 06:30 or 00:10+1d; without it some time "
                        "before the first sold train, or the first planned one")
    parser.add_argument("--to", dest="end", metavar="TIME", help="the right edge")
    parser.add_argument("--plain-planned", action="store_true",
                        help="planned trains without their blocking times")
    parser.add_argument("--width", type=int, default=1200, help="of the picture, in pixels")
    parser.add_argument("--height", type=int, default=720, help="of the picture, in pixels")
    parser.add_argument("--out", required=True, action="append", metavar="F",
                        help="what is written: .svg or .html; may repeat")
    options = parser.parse_args(words)
    if len(options.along) < 2:
        parser.error("--along: a line needs two operational points")
    if not options.table and not options.program:
        parser.error("--table or --program is needed")
    for out in options.out:
        if Path(out).suffix not in (".svg", ".html"):
            parser.error(f"--out: the name {out} ends neither in .svg nor in .html")
    if options.width < LEAST_WIDTH or options.height < LEAST_HEIGHT:
        parser.error(f"--width and --height: a picture has at least {LEAST_WIDTH} x {LEAST_HEIGHT}")
    for key in ("replies", "stairs"):
        pairs = [one.partition("=") for one in getattr(options, key)]
        if any(not name or not file for name, _, file in pairs):
            parser.error(f"--{key}: its value is no NAME=F")
        setattr(options, key, [(name, file) for name, _, file in pairs])
    if any(not entry.isdecimal() for entry, _ in options.stairs):
        parser.error("--stairs: its value is no I=F with the number of an entry")
    return options


def told_by_program(options: argparse.Namespace, *words: str) -> str:
    """What a command of the program prints."""
    command = [options.program, *words, "--network", options.network, "--out", "stdout"]
    done = subprocess.run(command, stdin=subprocess.DEVNULL, capture_output=True)
    if done.returncode:
        told = done.stderr.decode("utf-8", "replace").strip() or f"status {done.returncode}"
        raise Refused(options.program, words[0], told)
    return done.stdout.decode("ascii", "replace")


def railway_of(options: argparse.Namespace) -> Railway:
    """The network and its table, from a file or from the program."""
    if options.table:
        return read_railway(options.network, options.table, read_table(options.table))
    told_by = f"{options.program} list"
    table = read_table_text(told_by_program(options, "list"), told_by)
    return read_railway(options.network, told_by, table)


def sold_of(options: argparse.Namespace, railway: Railway, progress: Progress) -> list[Train]:
    """What was sold and what is held, in the order of entries."""
    found: dict[int, Train] = {}
    if options.journal:
        found |= read_sold_journal(options.journal, options.network, options.base, railway)
    for client, file in options.replies:
        found |= read_replies(client, file, railway)
    for entry, file in options.stairs:
        with_stairs(found, int(entry), claims_of_stairs(file, read_text(file), railway))
    if options.program and options.journal:
        for entry, train in list(found.items()):
            if train.runs and not train.claims:
                progress.tell(lambda: f"asks for the blocking times of entry {entry}")
                text = told_by_program(options, "stairs", "--base", options.base, "--journal",
                                       options.journal, "--entry", str(entry))
                with_stairs(found, entry, claims_of_stairs(f"{options.program} stairs", text,
                                                           railway))
    return [found[entry] for entry in sorted(found)]


def points_of(words: list[str], railway: Railway) -> list[str]:
    """Operational points as the network names them; they may be written as lines write names."""
    return [word if word in railway.points else unescaped(word) for word in words]


def clock_from(base: Spot) -> Clock:
    """The clock of a base file."""
    try:
        return clock_of(base.value)
    except ValueError as wrong:
        raise base.wrong(str(wrong)) from None


def window_of(options: argparse.Namespace, clock: Clock, trains: list[GraphTrain]
              ) -> tuple[float, float]:
    """The ticks of the left and the right edge."""
    sold = [train for train in trains if train.standing is Standing.SOLD]
    ticks = [tick for train in sold or trains for tick in train.ticks()]
    low, high = min(ticks, default=0.0), max(ticks, default=3600 / clock.tick_s)
    spare = max((high - low) / 40, 60 / clock.tick_s)
    edges = [low - spare, high + spare]
    for at, text in enumerate((options.begin, options.end)):
        if text is not None:
            try:
                edges[at] = clock.seconds(text) / clock.tick_s
            except ValueError as wrong:
                raise Refused("words", ("--from", "--to")[at], str(wrong)) from None
    if edges[0] >= edges[1]:
        raise Refused("words", "--to", "the right edge is not behind the left one")
    return edges[0], edges[1]


def graph_of(options: argparse.Namespace, progress: Progress) -> Graph:
    """The train graph that the options ask for."""
    railway = railway_of(options)
    progress.tell(lambda: f"has read {options.network}")
    base = spot_of_file(options.base)
    clock = clock_from(base)
    told = read_planned(base, railway) + sold_of(options, railway, progress)
    progress.tell(lambda: f"has read {len(told)} trains")
    points = points_of(options.along, railway)
    line = line_of(railway, points, taken_in_order(told, railway))
    trains = [one for one in (on_line(train, railway, line) for train in told) if one is not None]
    low, high = window_of(options, clock, trains)
    title = f"{points[0]} – {points[-1]}"
    zones = {zone: ", ".join(f"{piece.track} {piece.begin}-{piece.end}" for piece in
                             railway.zones[zone]) for zone in line.zones}
    return Graph(title, line, clock, trains, low, high, zones, not options.plain_planned)


def work(words: list[str]) -> None:
    """Reads, draws and writes."""
    options, progress = options_of(words), Progress(NAME)
    graph = graph_of(options, progress)
    made = []
    for out in options.out:
        progress.tell(lambda: f"draws {out}")
        if Path(out).suffix == ".html":
            made.append((out, page(graph)))
            continue
        picture, unnamed = draw(graph, options.width, options.height)
        made.append((out, picture))
        if unnamed:
            print(f"{NAME}: {out}: {unnamed} names of trains have no room in it", file=sys.stderr)
    for out, text in made:
        write_whole(out, text)
    counts = ", ".join(f"{sum(train.standing is one for train in graph.trains)} {one.value}"
                       for one in Standing)
    print(f"{graph.line.length} m, {len(graph.line.stations)} stations; {counts}")


def main(words: list[str]) -> int:
    """Draws what the words name; the exit status."""
    return run_companion(NAME, lambda: work(words))
