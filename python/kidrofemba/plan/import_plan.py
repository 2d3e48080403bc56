"""Makes the train file and the base file of a path server from what OSRD knows.

`trains` reads rolling stock files. `base` reads planned trains: what OSRD's simulation says that
each needs of which zone (spacing and routing requirements), and works, as ranges of tracks.

Times become ticks, begins rounded down and ends up. Where two trains that have a zone one behind
the other then share a tick, the tick stays with the one that has the zone first: which ticks are
taken is what is sold by, and that does not change. Where the plan itself has two trains in a zone
at once, nothing is made, and each such conflict is told; `--keep-conflicts` takes them into the
report alone.
"""
from __future__ import annotations

import argparse
import json
import sys
from collections.abc import Callable
from datetime import datetime
from pathlib import Path

from kidrofemba.common.clock import Clock, moment_of
from kidrofemba.common.companion import Refused, read_json, run_companion, write_whole
from kidrofemba.common.files_together import must_differ, write_together
from kidrofemba.common.json_spot import Spot, spot_of_file
from kidrofemba.common.progress import Progress
from kidrofemba.common.report import Report
from kidrofemba.network.table_file import Table, read_table
from kidrofemba.osrd.zones import OsrdZones
from kidrofemba.plan.needs import Need, Owner, read_plan
from kidrofemba.plan.rolling_stock import train_of_stock
from kidrofemba.plan.ticks import (Conflict, Span, conflicts_of, held_within, shared_by_rounding,
                                   spans_of, widened)

NAME = "import-plan"
TOLD_CONFLICTS = 20
MOST_CLAIMS = 262_144
EXAMPLE = """examples:
  kidrofemba import-plan trains trains.json freight.json --allowance 5
  import_planned.py base base.json planned.json --network network.json --table network.table \\
      --report base.report --begin 2026-11-29T00:00:00+01:00
"""
LIMITS = {"tick_s": (1, 3_600), "setting": (0, 1_000), "release": (0, 1_000),
          "horizon": (1, 17_280), "journal_bytes": (77, 268_435_456)}


def stocks_in(file: str) -> list[Spot]:
    """The rolling stock of a file: one object, or a list of them."""
    spot = Spot(file, "", read_json(file))
    stocks = list(spot.elements()) if isinstance(spot.value, list) else [spot]
    return [stock.named("name") for stock in stocks]


def make_trains(options: argparse.Namespace) -> None:
    """Makes a train file from rolling stock files."""
    must_differ({"OUT": Path(options.out),
                 **{f"FILE {at}": Path(file) for at, file in enumerate(options.files, 1)}})
    made, names = [], set()
    for stock in (stock for file in options.files for stock in stocks_in(file)):
        train = train_of_stock(stock, options.allowance)
        if train.told["name"] in names:
            raise stock.member("name").wrong("another rolling stock has this name")
        names.add(train.told["name"])
        made.append(train.told)
        values = "{length_m} m, {speed} mm/s, gains {accel} mm/s², brakes {brake} mm/s²"
        print(f"{train.told['name']}: {values.format(**train.told)}; {'; '.join(train.notes)}")
    write_whole(options.out, json.dumps({"trains": made}, indent=1, ensure_ascii=False) + "\n")


class Plan:
    """The planned trains and works of some files, and their needs in a network's zones."""

    def __init__(self, options: argparse.Namespace, report: Report):
        self.clock = Clock(options.tick_s, options.begin)
        self.table = read_table(options.table)
        network = spot_of_file(options.network)
        self.zones = _zones_of(network, self.table, options.table)
        self.owners: list[Owner] = []
        self.needs: list[list[Need]] = []
        progress = Progress(NAME)
        for file in options.files:
            for owner, needs in read_plan(spot_of_file(file), self.zones, self.clock,
                                          options.unit, report):
                self.owners.append(owner)
                self.needs.append(needs)
                progress.tell(lambda: f"{len(self.owners)} trains and works read")

    def zone_text(self, zone: int) -> str:
        return self.table.zone_text(zone)

    def conflict_text(self, conflict: Conflict) -> str:
        """A conflict, with both names, the zone and the clock times."""
        one, other = (self.owners[at].name for at in (conflict.one, conflict.other))
        begin = self.clock.text_of_seconds(conflict.begin // 1000)
        end = self.clock.text_of_seconds(-(-conflict.end // 1000))
        return (f"{self.zone_text(conflict.zone)}: {one} and {other} {conflict.what} "
                f"from {begin} to {end}")


def _zones_of(network: Spot, table: Table, file: str) -> OsrdZones:
    """The zones of a network file, which must be one that `list` accepts."""
    try:
        return OsrdZones(network.value, table, file)
    except (KeyError, TypeError, ValueError, IndexError) as wrong:
        raise network.wrong(f"is no network file that `list` accepts ({wrong!r})") from None


def settings_of(options: argparse.Namespace) -> dict[str, int | str]:
    """The settings of the base file, each within the limits of the server."""
    for key, (least, most) in LIMITS.items():
        if not least <= getattr(options, key) <= most:
            raise Refused(f"--{key.replace('_', '-')}", "", f"must be {least} to {most}")
    told: dict[str, int | str] = {key: getattr(options, key) for key in LIMITS}
    return told | {"speed_loss": int(options.speed_loss), "begins": options.begin.isoformat()}


def tell_sharing(plan: Plan, spans: dict[int, list[Span]], report: Report) -> None:
    """Tells where ticks are shared by rounding alone."""
    for zone, one, other, apart in shared_by_rounding(spans):
        first, second = (plan.owners[at].name for at in (one.owner, other.owner))
        tick = plan.clock.text(other.first)
        report.note("Ticks that two trains share by rounding alone, kept by the first",
                    f"{plan.zone_text(zone)} at {tick}: {first}, and {second} "
                    f"{apart / 1000:.1f} s behind it")


def refuse_conflicts(plan: Plan, conflicts: list[Conflict], options: argparse.Namespace) -> None:
    """Refuses a plan that has two trains in a zone at once, with each conflict on a line."""
    for conflict in conflicts[:TOLD_CONFLICTS]:
        file = plan.owners[conflict.other].file
        print(f"{NAME}: {file}: {plan.conflict_text(conflict)}", file=sys.stderr)
    rest = len(conflicts) - TOLD_CONFLICTS
    more = f", of which {rest} are not shown" if rest > 0 else ""
    raise Refused(options.out, "", f"not made: conflicts of the plan {len(conflicts)}{more}; "
                                   "--keep-conflicts makes it, and tells all in the report")


def make_base(options: argparse.Namespace) -> None:
    """Makes a base file from planned trains and works."""
    outputs = {"OUT": Path(options.out), "--report": Path(options.report)}
    inputs = {"--network": options.network, "--table": options.table,
              **{f"FILE {at}": file for at, file in enumerate(options.files, 1)}}
    must_differ(outputs | {what: Path(file) for what, file in inputs.items()})
    settings, report = settings_of(options), Report()
    plan = Plan(options, report)
    conflicts = conflicts_of(plan.owners, plan.needs)
    for conflict in conflicts:
        report.note("CONFLICTS OF THE PLAN, of which each tick is kept by the first",
                    plan.conflict_text(conflict))
    if conflicts and not options.keep_conflicts:
        refuse_conflicts(plan, conflicts, options)
    needs = widened(plan.owners, plan.needs, options.gap)
    spans = spans_of(needs, options.tick_s, options.setting, options.horizon + options.release)
    tell_sharing(plan, spans, report)
    held, shared = held_within(spans, len(plan.owners))
    count = sum(map(len, held))
    if count > MOST_CLAIMS:
        raise Refused(options.out, "", f"not made: {count} claims, and the server reads at most "
                                       f"{MOST_CLAIMS}; give it fewer hours or a smaller region")
    trains = []
    for owner, claims in zip(plan.owners, held):
        if claims:
            trains.append({"name": owner.name, "requirements": claims})
        else:
            report.note("Left out, nothing within this network and the time of this timetable",
                        owner.name)
    report.tell("Written", f"{len(trains)} trains and works with {count} claims; tick 0 is "
                           f"{options.begin.isoformat()}, a tick has {options.tick_s} s; "
                           f"{shared} ticks of zones were wanted by two")
    written = json.dumps(settings | {"trains": trains}, ensure_ascii=False)
    write_together({Path(options.out): [written, "\n"], Path(options.report): [report.text()]})
    print(report.text(3), end="")


def options_of(words: list[str]) -> argparse.Namespace:
    """The words of the command line."""
    parser = argparse.ArgumentParser(prog=f"kidrofemba {NAME}", description=__doc__, epilog=EXAMPLE,
                                     formatter_class=argparse.RawDescriptionHelpFormatter)
    commands = parser.add_subparsers(dest="command", required=True)
    trains = commands.add_parser("trains", help="makes a train file")
    trains.add_argument("out", metavar="OUT", help="the train file")
    trains.add_argument("files", metavar="FILE", nargs="+", help="rolling stock files of OSRD")
    trains.add_argument("--allowance", type=_percent, default=5, metavar="PERCENT",
                        help="what running times are longer than the least, 5 unless given")
    trains.set_defaults(make=make_trains)
    base = commands.add_parser("base", help="makes a base file")
    base.add_argument("out", metavar="OUT", help="the base file")
    base.add_argument("files", metavar="FILE", nargs="+", help="planned trains and works")
    base.add_argument("--network", required=True, help="the network file")
    base.add_argument("--table", required=True, help="what `list` prints of the network")
    base.add_argument("--report", required=True, help="where what was done is told")
    base.add_argument("--begin", required=True, type=_moment, metavar="MOMENT",
                      help="when tick 0 begins, such as 2026-11-29T00:00:00+01:00")
    base.add_argument("--unit", choices=("ms", "s"), default="ms",
                      help="of requirements, ms unless given")
    base.add_argument("--keep-conflicts", action="store_true",
                      help="make the file although the plan has two trains in a zone at once")
    base.add_argument("--gap", type=_gap, default=0, metavar="SECONDS",
                      help="how long before and after a planned train a zone is kept free for it "
                           "besides, 0 unless given")
    base.add_argument("--no-speed-loss", dest="speed_loss", action="store_false",
                      help="trains lose no time at changes of speed")
    for name, value, what in (("tick-s", 10, "seconds a tick"),
                              ("setting", 1, "ticks to set a route"),
                              ("release", 1, "ticks to release a zone"),
                              ("horizon", 17_280, "the last tick"),
                              ("journal-bytes", 268_435_456, "what a journal may take")):
        base.add_argument(f"--{name}", type=int, default=value, metavar="N",
                          help=f"{what}, {value} unless given")
    base.set_defaults(make=make_base)
    return parser.parse_args(words)


def _percent(text: str) -> int:
    """An allowance on running times."""
    if not text.isascii() or not text.isdigit() or int(text) > 1_000:
        raise argparse.ArgumentTypeError(f"no whole number from 0 to 1000: {text}")
    return int(text)


def _gap(text: str) -> int:
    """Seconds before and after planned trains."""
    if not text.isascii() or not text.isdigit() or int(text) > 3_600:
        raise argparse.ArgumentTypeError(f"no whole number from 0 to 3600: {text}")
    return int(text)


def _moment(text: str) -> datetime:
    """The moment of tick 0, a whole second."""
    try:
        moment = moment_of(text)
    except ValueError as wrong:
        raise argparse.ArgumentTypeError(str(wrong)) from None
    if moment.microsecond:
        raise argparse.ArgumentTypeError(f"no whole second: {text}")
    return moment


def main(words: list[str]) -> int:
    """Makes the file that the words name; the exit status."""
    options = options_of(words)
    make: Callable[[argparse.Namespace], int | None] = options.make
    return run_companion(NAME, lambda: make(options))
