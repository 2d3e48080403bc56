"""Makes the network file of a path server from an infrastructure that OSRD exported.

Every place on a track is rounded to whole metres by one rising function: the order of what lies
on it stays, and what lay apart stays at least a metre apart. Each block becomes a route of its
own, once, whatever routes it is a part of. The report tells each thing that was moved, changed or
dropped, and why; what is kept, rounded and dropped is said in docs/OSRD.md.

    kidrofemba import-network export.json network.json --report report.txt --tags MA100
    kidrofemba import-network export.json network.json --report report.txt --lines 570000,571000
    kidrofemba list --network network.json --out stdout

With --classes the network has the blocks of each class of trains over the same zones, which are
numbered as in the plain network; docs/REALITY.md tells the file of classes.

    kidrofemba import-network export.json network.json --report report.txt --classes classes.json \
        --trains trains.json --running running.json --plain plain.json

Where the export has a fault, each is told with its place, and nothing is written, with status 2.
"""
from __future__ import annotations

import argparse
import gc
import json
import sys
from collections import Counter
from collections.abc import Iterable, Iterator, Sequence
from pathlib import Path

from kidrofemba.common.companion import Refused, run_companion
from kidrofemba.common.files_together import must_differ, write_together
from kidrofemba.common.progress import Progress
from kidrofemba.osrd.changes import Change, Report
from kidrofemba.osrd.export import Export, read_export, shown_name
from kidrofemba.osrd.network import Choices, Maker, Network

NAME = "import-network"
# How many faults are told at once.
TOLD_FAULTS = 20
# What the server reads at most.
MOST, MOST_CELLS, LONGEST_FILE, LONGEST_BLOCK_M = 65_536, 1_048_576, 67_108_864, 10_000_000


def words_of_importer() -> argparse.ArgumentParser:
    """The words that the importer understands."""
    about, _, more = (__doc__ or "").partition("\n\n")
    parser = argparse.ArgumentParser(
        prog=f"kidrofemba {NAME}",
        description=about,
        epilog=more,
        formatter_class=argparse.RawDescriptionHelpFormatter,
    )
    parser.add_argument("export", type=Path, metavar="EXPORT.json")
    parser.add_argument("network", type=Path, metavar="NETWORK.json")
    parser.add_argument(
        "--report",
        type=Path,
        required=True,
        metavar="REPORT.txt",
        help="where each change is told, and why it was made",
    )
    parser.add_argument(
        "--systems",
        type=listed,
        default=("BAL",),
        metavar="NAME,..",
        help="signals that end blocks, BAL alone by itself: BAL,BAPR adds BAPR",
    )
    parser.add_argument(
        "--tags",
        type=listed,
        default=(),
        metavar="TAG,..",
        help="speed limit tags of the trains that are sold: the least limit counts",
    )
    parser.add_argument(
        "--lines",
        type=listed,
        default=(),
        metavar="CODE,..",
        help="line codes of the tracks that are kept; all by itself",
    )
    parser.add_argument(
        "--ids",
        action="store_true",
        help="operational points keep their ids, and are not called by their names",
    )
    parser.add_argument(
        "--drop-faulty",
        action="store_true",
        help="leave out what has a fault, and tell it in the report",
    )
    classes = parser.add_argument_group("classes of trains")
    classes.add_argument("--classes", type=Path, metavar="CLASSES.json",
                         help="the classes that are sold, each with blocks of its own")
    classes.add_argument("--trains", type=Path, metavar="TRAINS.json",
                         help="is written: the trains of the classes")
    classes.add_argument("--running", type=Path, metavar="RUNNING.json",
                         help="is written: what verify simulates sold paths by")
    classes.add_argument("--plain", type=Path, metavar="PLAIN.json",
                         help="is written: the network without classes, with the same zones")
    classes.add_argument("--tick", type=tick_of, default=10, metavar="SECONDS",
                         help="the tick of the base file (default 10)")
    return parser


def tick_of(text: str) -> int:
    """A tick in seconds."""
    if not text.isdecimal() or not 1 <= int(text) <= 3600:
        raise argparse.ArgumentTypeError(f"{text}: is no tick of 1 to 3600 seconds")
    return int(text)


def listed(text: str) -> tuple[str, ...]:
    return tuple(part.strip() for part in text.split(",") if part.strip())


def judge_faults(export: Export, path: Path, drop: bool, report: Report) -> None:
    """Refuses an export with faults, or tells them in the report."""
    for fault in export.faults:
        report.note(Change.FAULTY, f"{fault.place}: {fault.wrong}")
    told = [fault for fault in export.faults if not fault.follows]
    if not told or drop:
        return
    *others, last = told[:TOLD_FAULTS]
    for fault in others:
        print(f"{NAME}: {path}: {fault.place}: {fault.wrong}", file=sys.stderr)
    more = len(told) - TOLD_FAULTS
    hint = f" (and {more} faults more)" if more > 0 else ""
    raise Refused(
        path, last.place, f"{last.wrong}{hint}; --drop-faulty leaves out what has a fault"
    )


def judge_choices(export: Export, path: Path, choices: Choices) -> None:
    """Refuses names of lines, systems and tags that the export does not have."""
    lines = Counter(track.line for track in export.tracks.values() if track.line is not None)
    for line in choices.lines:
        if line not in lines:
            raise Refused(
                path, "track_sections", f"no track is of line {shown_name(line)}" f"{known(lines)}"
            )
    systems = Counter(system for signal in export.signals.values() for system in signal.systems)
    for system in choices.systems:
        if system not in systems and system != "BAL":
            if not export.signals:
                raise Refused(path, "", f"has no signals, and so none of {shown_name(system)}")
            raise Refused(path, "signals", f"none is of {shown_name(system)}{known(systems)}")
    tags = Counter(tag for one in export.speed_sections.values() for tag in one.by_tag)
    for tag in choices.tags:
        if tag not in tags:
            raise Refused(
                path, "speed_sections", f"none has the tag {shown_name(tag)}{known(tags)}"
            )


def known(names: Counter[str]) -> str:
    """The names that there are, the most frequent first."""
    shown = ", ".join(shown_name(name) for name, _ in names.most_common(12))
    more = len(names) - 12
    return f"; there are {shown}" + (f" and {more} more" if more > 0 else "") if shown else ""


def judge_limits(network: Network, path: Path, size: int) -> None:
    """Refuses a network that is larger than what the server reads."""
    lists = network.lists
    points = 2 * (len(lists["detectors"]) + len(lists["buffer_stops"]))
    counts = [(key, len(objects), MOST) for key, objects in lists.items()]
    counts += [
        ("directed points (two for each detector and buffer stop)", points, MOST),
        ("zones", network.zones, MOST),
        ("cells", network.cells, MOST_CELLS),
        ("bytes", size, LONGEST_FILE),
    ]
    counts += [
        (f"ranges of speed section {shown_name(one['id'])}", len(one["track_ranges"]), MOST)
        for one in lists["speed_sections"]
    ]
    for what, count, most in counts:
        if count > most:
            raise Refused(
                path,
                "",
                f"the network would have {count} {what}, and the server reads at "
                f"most {most}: choose fewer lines by --lines",
            )


def text_of(network: Network) -> Iterator[str]:
    """The network as a file, each object on a line."""
    mark = "{\n"
    for key, objects in network.lists.items():
        yield f'{mark}"{key}":['
        mark = ",\n"
        for index, one in enumerate(objects):
            yield ",\n " if index else "\n "
            yield json.dumps(one, ensure_ascii=False, separators=(",", ":"))
        yield "]"
    yield "}\n"


def judge_words(given: argparse.Namespace) -> None:
    """Refuses words that do not go together."""
    wanted = {"--trains": given.trains, "--running": given.running, "--plain": given.plain}
    for word, path in wanted.items():
        if (path is None) == (given.classes is not None):
            raise Refused("words", word, "goes with --classes, and --classes with it")
    named = {"the export": given.export, "the network": given.network, "the report": given.report}
    if given.classes is not None:
        named |= {"the classes": given.classes, **wanted}
    must_differ(named)


def with_classes(given: argparse.Namespace, export: Export, maker: Maker, network: Network,
                 progress: Progress, report: Report) -> tuple[Network, dict[Path, Iterable[str]]]:
    """The network of the classes, and the texts of what is written beside it."""
    from kidrofemba.reality.class_network import ClassNetwork, trains_text
    made = ClassNetwork(export, given.export, given.classes, maker, network, given.tick, progress)
    layers = made.layered()
    for line in made.told(layers):
        report.note(Change.CLASSES, line)
    cells = sum(len(made.plain.blocks[number].cells) for _, number in layers.blocks)
    others: dict[Path, Iterable[str]] = {
        given.trains: trains_text(made.trains()),
        given.running: made.running(layers.blocks).text(), given.plain: list(text_of(network))}
    return Network(layers.lists, network.zones, cells), others


def import_network(words: Sequence[str]) -> None:
    """Does what the words say."""
    given = words_of_importer().parse_args(words)
    choices = Choices(given.systems, given.tags, given.lines, given.ids)
    judge_words(given)
    # What is made here has no cycles, and a collector would go through all of it again and again.
    gc.disable()
    progress, report = Progress(NAME), Report()
    export = read_export(given.export, progress)
    judge_faults(export, given.export, given.drop_faulty, report)
    judge_choices(export, given.export, choices)
    maker = Maker(export, choices, report, progress)
    network = maker.network()
    others: dict[Path, Iterable[str]] = {}
    if given.classes is not None:
        network, others = with_classes(given, export, maker, network, progress, report)
    text = list(text_of(network))
    judge_limits(network, given.export, sum(len(piece.encode()) for piece in text))
    counts = ", ".join(f"{len(objects)} {key}" for key, objects in network.lists.items())
    report.note(Change.MADE, f"{counts}; {network.zones} zones")
    write_together({given.report: report.lines(), given.network: text, **others})
    for line in report.summary():
        print(line)
    print(f"each of these is told in {shown_name(str(given.report))}")


def main(words: list[str]) -> int:
    """Imports what the words name; the exit status."""
    return run_companion(NAME, lambda: import_network(words))
