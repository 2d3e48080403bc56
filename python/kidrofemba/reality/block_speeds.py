"""Writes simulated running times into an ordinary network file, which has the same blocks for all
trains.

    kidrofemba block-speeds export.json network.json --report report.txt --classes classes.json
    kidrofemba block-speeds export.json network.json --report report.txt --tail 700 --tags MA100

With --classes the speed of each block and direction is the one at which the server's formula gives
the simulated time of the slowest class: put `speed_loss` 0 into the base file then, as these times
have the losses already. Where blocks share all of their track the slowest of them counts for each,
which is told. Blocks that a class can not run on keep the time of the others, and are named: what
must not be sold there needs classes of their own (import-network --classes).

With --tail alone each limit is lengthened by so many metres behind its end, in its direction, so
that it holds until the tail of a train is past it.
"""
from __future__ import annotations

import argparse
import gc
from collections import defaultdict
from collections.abc import Sequence
from pathlib import Path

from kidrofemba.common.companion import Refused, run_companion
from kidrofemba.common.files_together import must_differ, write_together
from kidrofemba.common.progress import Progress
from kidrofemba.osrd.changes import Change, Report
from kidrofemba.osrd.export import read_export
from kidrofemba.osrd.import_network import (
    judge_choices,
    judge_faults,
    judge_limits,
    listed,
    text_of,
    tick_of,
)
from kidrofemba.osrd.network import Choices, Maker, Network
from kidrofemba.reality.block_times import speeds_of
from kidrofemba.reality.class_network import ClassNetwork
from kidrofemba.reality.plain import BACKWARD, FORWARD, PlainNetwork
from kidrofemba.reality.tails import lengthen_limits

NAME = "block-speeds"
Part = tuple[str, str, int, int]


def _parser() -> argparse.ArgumentParser:
    about, _, more = (__doc__ or "").partition("\n\n")
    parser = argparse.ArgumentParser(prog=NAME, description=about, epilog=more, allow_abbrev=False,
                                     formatter_class=argparse.RawDescriptionHelpFormatter)
    add = parser.add_argument
    add("export", type=Path, metavar="EXPORT.json")
    add("network", type=Path, metavar="NETWORK.json")
    add("--report", type=Path, required=True, metavar="REPORT.txt",
        help="where each change is told, and why it was made")
    add("--classes", type=Path, metavar="CLASSES.json", help="the trains that are simulated")
    add("--tail", type=int, metavar="METRES", help="lengthens limits by a train's length")
    add("--tick", type=tick_of, default=10, metavar="SECONDS",
        help="the tick of the base file (default 10)")
    add("--systems", type=listed, default=("BAL",), metavar="NAME,..",
        help="signals that end blocks, BAL alone by itself")
    add("--tags", type=listed, default=(), metavar="TAG,..",
        help="speed limit tags of the trains that are sold")
    add("--lines", type=listed, default=(), metavar="CODE,..",
        help="line codes of the tracks that are kept; all by itself")
    add("--drop-faulty", action="store_true", help="leave out what has a fault")
    return parser


def own_parts(plain: PlainNetwork) -> list[list[Part]]:
    """For each block the stretches of track, with their direction, that no other block has."""
    rows: dict[tuple[str, str], list[tuple[int, int, int]]] = defaultdict(list)
    for number, block in enumerate(plain.blocks):
        for one in block.stretches:
            if one.length:
                way = FORWARD if one.begin <= one.end else BACKWARD
                rows[one.track, way].append((min(one.begin, one.end), max(one.begin, one.end),
                                             number))
    own: list[list[Part]] = [[] for _ in plain.blocks]
    for (track, way), row in rows.items():
        marks = sorted({mark for low, high, _ in row for mark in (low, high)})
        for low, high in zip(marks, marks[1:]):
            users = {number for begin, end, number in row if begin <= low and high <= end}
            if len(users) == 1:
                own[users.pop()].append((track, way, low, high))
    return own


def write_speeds(network: Network, plain: PlainNetwork, speeds: dict[int, int], report: Report
                 ) -> None:
    """Puts the speed of each block on the track that it alone has, in place of all limits."""
    by_speed: dict[int, list[dict[str, object]]] = defaultdict(list)
    for number, own in enumerate(own_parts(plain)):
        if number not in speeds:
            continue
        block = plain.blocks[number]
        if not own:
            report.note(Change.CLASSES, f"{block.route}: has no track of its own: its speed holds "
                        "for the blocks that share it")
            own = [(one.track, FORWARD if one.begin <= one.end else BACKWARD,
                    min(one.begin, one.end), max(one.begin, one.end))
                   for one in block.stretches if one.length]
        by_speed[speeds[number]] += [{"track": track, "begin": low, "end": high,
                                      "applicable_directions": way}
                                     for track, way, low, high in own]
    network.lists["speed_sections"] = [
        {"id": f"blocks at {speed}", "speed_limit": speed / 1000, "track_ranges": ranges}
        for speed, ranges in sorted(by_speed.items())]


def block_speeds(words: Sequence[str]) -> None:
    """Does what the words say."""
    given = _parser().parse_args(words)
    if (given.classes is None) == (given.tail is None):
        raise Refused("words", "--classes, --tail", "one of them is wanted")
    if given.tail is not None and not 1 <= given.tail <= 5000:
        raise Refused("words", "--tail", "a train has 1 to 5000 metres")
    named = {"the export": given.export, "the network": given.network, "the report": given.report}
    must_differ(named | ({"the classes": given.classes} if given.classes else {}))
    gc.disable()
    progress, report = Progress(NAME), Report()
    choices = Choices(given.systems, given.tags, given.lines)
    export = read_export(given.export, progress)
    judge_faults(export, given.export, given.drop_faulty, report)
    judge_choices(export, given.export, choices)
    maker = Maker(export, choices, report, progress)
    network = maker.network()
    if given.tail is not None:
        count = lengthen_limits(network.lists, given.tail)
        report.note(Change.CLASSES, f"limits lengthened by {given.tail} m: {count} ranges more")
    else:
        made = ClassNetwork(export, given.export, given.classes, maker, network, given.tick,
                            progress)
        seconds: dict[int, float] = {}
        for each in made.times:
            for number, value in each.times.seconds.items():
                seconds[number] = max(value, seconds.get(number, 0.0))
            for number, why in sorted(each.times.left_out.items()):
                report.note(Change.CLASSES, f"class {each.one.name} can not run on "
                            f"{made.plain.blocks[number].route}: {why}")
        write_speeds(network, made.plain, speeds_of(made.plain, seconds, given.tick), report)
    text = list(text_of(network))
    judge_limits(network, given.export, sum(len(piece.encode()) for piece in text))
    write_together({given.report: report.lines(), given.network: text})
    for line in report.summary():
        print(line)


def main(words: list[str]) -> int:
    """Makes the network that the words name; the exit status."""
    return run_companion(NAME, lambda: block_speeds(words))
