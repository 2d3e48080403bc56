"""Gives sold paths back to OSRD as train schedules, to be simulated, drawn and published there.

Each live path of a journal becomes a schedule. Its places are where its blocks begin and end, as a
track and millimetres from the track's begin; at each the schedule tells when the head is there, in
seconds since the start, and where the train stops, for how long. The form of a schedule is written
from memory of OSRD: compare it with the version in use.
"""
from __future__ import annotations

import argparse
import json
from dataclasses import replace
from pathlib import Path
from typing import Any

from kidrofemba.common.clock import Clock, moment_of
from kidrofemba.common.companion import Refused, run_companion, write_whole
from kidrofemba.common.files_together import must_differ
from kidrofemba.journal.journal_file import Entry, Run
from kidrofemba.journal.served_files import Network, read_base, read_journal_of, read_network
from kidrofemba.network.route_walks import Point

NAME = "export"
EXAMPLE = """example:
  kidrofemba export journal --network network.json --table network.table --base base.json \\
      --out schedules.json --tag MA100
"""


class Places:
    """Where blocks begin and end, as OSRD tells places."""

    def __init__(self, network: Network):
        self._ends = network.ends()
        self._place = {(kind, one["id"]): (one["track"], one.get("real", one["position"]))
                       for kind, key in (("Detector", "detectors"), ("BufferStop", "buffer_stops"))
                       for one in network.infra.get(key, [])}

    def _told(self, point: Point) -> dict[str, Any]:
        track, metres = self._place[point.kind, point.name]
        return {"track": track, "offset": round(1000 * float(metres))}

    def begin(self, block: int) -> dict[str, Any]:
        """The place at which a block begins."""
        return self._told(self._ends[block][0])

    def end(self, block: int) -> dict[str, Any]:
        """The place at which a block ends."""
        return self._told(self._ends[block][1])


def lasting(seconds: int) -> str:
    """A duration, as ISO 8601 writes it."""
    return f"PT{seconds}S"


def calls_of(runs: tuple[Run, ...], tick_s: int) -> list[dict[str, Any]]:
    """When the head is at the end of each run, and how long the train stands there."""
    calls = []
    for at, run in enumerate(runs, 1):
        call = {"at": f"p{at}", "arrival": lasting((run.leave - runs[0].enter) * tick_s),
                "stop_for": None, "reception_signal": "OPEN", "locked": False}
        if run.stops:
            onward = runs[at].enter if at < len(runs) else run.leave
            call["stop_for"] = lasting((onward - run.leave) * tick_s)
        calls.append(call)
    return calls


def schedule_of(entry: Entry, places: Places, clock: Clock, stock: str, tag: str | None
                ) -> dict[str, Any]:
    """The schedule of a sold path."""
    path = [places.begin(entry.runs[0].block), *(places.end(run.block) for run in entry.runs)]
    return {
        "train_name": f"{entry.owner}-{entry.number}",
        "labels": ["sold", f"entry {entry.at}"],
        "rolling_stock_name": stock,
        "start_time": clock.moment(entry.runs[0].enter).isoformat(),
        "path": [{"id": f"p{at}"} | place for at, place in enumerate(path)],
        "schedule": calls_of(entry.runs, clock.tick_s),
        "initial_speed": 0.0,
        "speed_limit_tag": tag,
        "margins": {"boundaries": [], "values": ["0%"]},
        "comfort": "STANDARD",
        "constraint_distribution": "STANDARD",
        "power_restrictions": [],
        "options": {"use_electrical_profiles": False},
    }


def chosen(entries: list[Entry], options: argparse.Namespace) -> list[Entry]:
    """The sold paths among these entries, of the clients and entries that were asked for."""
    paths = [entry for entry in entries if entry.train is not None]
    for client in options.client:
        if client not in [entry.owner for entry in paths]:
            raise Refused(options.journal, f"client {client}", "has no path that is sold")
    for number in options.entry:
        if number not in [entry.at for entry in paths]:
            raise Refused(options.journal, f"entry {number}", "is no path that is sold")
    return [entry for entry in paths if (not options.client or entry.owner in options.client)
            and (not options.entry or entry.at in options.entry)]


def stocks_of(words: list[str]) -> dict[str, str]:
    """The rolling stock of trains, each told as TRAIN=STOCK."""
    for word in words:
        if not all(word.partition("=")[::2]):
            raise Refused("--stock", "", f"is no TRAIN=STOCK: {word}")
    return {train: stock for train, _, stock in (word.partition("=") for word in words)}


def export(options: argparse.Namespace) -> None:
    """Writes the schedules of the chosen paths."""
    read = {"JOURNAL": options.journal, "--network": options.network, "--table": options.table,
            "--base": options.base, "--out": options.out}
    must_differ({what: Path(file) for what, file in read.items()})
    base, network = read_base(options.base), read_network(options.network, options.table)
    clock = base.clock if options.begin is None else replace(base.clock, zero=options.begin)
    if not clock.is_dated:
        raise Refused(options.base, "", "has no `begins`: tell by --begin when tick 0 begins")
    journal = read_journal_of(options.journal, network.file, base.file)
    stocks, places = stocks_of(options.stock), Places(network)
    schedules = []
    for entry in chosen(journal.live(), options):
        assert entry.train is not None
        stock = stocks.get(entry.train.name, entry.train.name)
        schedules.append(schedule_of(entry, places, clock, stock, options.tag))
    write_whole(options.out, json.dumps(schedules, indent=1, ensure_ascii=False) + "\n")
    print(f"{len(schedules)} schedules")


def options_of(words: list[str]) -> argparse.Namespace:
    """The words of the command line."""
    parser = argparse.ArgumentParser(prog=f"kidrofemba {NAME}", description=__doc__, epilog=EXAMPLE,
                                     formatter_class=argparse.RawDescriptionHelpFormatter)
    parser.add_argument("journal", metavar="JOURNAL")
    for name, what in (("network", "the network file"), ("base", "the base file"),
                       ("table", "what `list` prints of the network"),
                       ("out", "where the schedules go, a JSON list")):
        parser.add_argument(f"--{name}", required=True, help=what)
    parser.add_argument("--client", action="append", default=[], metavar="NAME",
                        help="only paths of this client; may stand several times")
    parser.add_argument("--entry", action="append", default=[], type=int, metavar="I",
                        help="only this entry; may stand several times")
    parser.add_argument("--stock", action="append", default=[], metavar="TRAIN=STOCK",
                        help="the rolling stock of a train, where it has another name there")
    parser.add_argument("--tag", help="the tag of speed limits, such as MA100")
    parser.add_argument("--begin", type=_moment, metavar="MOMENT",
                        help="when tick 0 begins, where the base file does not tell it")
    return parser.parse_args(words)


def _moment(text: str) -> Any:
    try:
        return moment_of(text)
    except ValueError as wrong:
        raise argparse.ArgumentTypeError(str(wrong)) from None


def main(words: list[str]) -> int:
    """Exports what the words name; the exit status."""
    options = options_of(words)
    return run_companion(NAME, lambda: export(options))
