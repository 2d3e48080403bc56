"""Simulates the trains of sold paths over their blocks with their stops, and tells whether each is
inside the claims of its path.

    kidrofemba verify --network layered.json --table layered.table --base base.json \\
        --journal journal --running running.json
    kidrofemba verify .. --entry 12 --picture path.svg

For each path it prints by how many seconds the train needs a zone before its claim begins
(`early`), and after it ends (`late`), where it is worst; less than 0 is time to spare. A path is
outside where one of them is more than --margin. Holds of the same client with the reason
`margin NUMBER` count as claims of the path NUMBER. The status is 1 where a path is outside.
"""
from __future__ import annotations

import argparse
from collections.abc import Sequence
from dataclasses import dataclass
from pathlib import Path

from kidrofemba.common.companion import Refused, run_companion, write_whole
from kidrofemba.journal.journal_file import Entry, Journal, Kind
from kidrofemba.journal.served_files import Base, Network, read_base, read_journal_of, read_network
from kidrofemba.network.blocking_times import Railway, Train, joined
from kidrofemba.network.blocking_times import Run as ModelRun
from kidrofemba.reality import physics
from kidrofemba.reality.running_file import Running, read_running
from kidrofemba.reality.sold_train import Course, Driving, Judged, course_of, judged

NAME = "verify"
REASON = "margin"


@dataclass(frozen=True)
class Verdict:
    """A sold path with its simulated train, or where that stalls, and its needs beside its claims.
    """

    entry: Entry
    name: str
    course: Course | None
    stalls_m: float | None
    rows: list[Judged]
    claims: list[tuple[int, int, int]]

    @property
    def early_s(self) -> float:
        return max((row.early_s for row in self.rows), default=float("inf"))

    @property
    def late_s(self) -> float:
        return max((row.late_s for row in self.rows), default=float("inf"))

    def is_inside(self, margin_s: float) -> bool:
        """Whether the train is nowhere outside by more than this."""
        return self.course is not None and max(self.early_s, self.late_s) <= margin_s


class Verifier:
    """The files that paths are judged by."""

    def __init__(self, network: Network, base: Base, running: Running, driving: Driving,
                 only_class: str | None = None) -> None:
        self.running, self.driving, self.only_class = running, driving, only_class
        self.base, self.blocks = base, network.blocks()
        self.railway = Railway(self.blocks, settings=base.settings)
        count = len(running.gradients) if only_class else len(running.blocks)
        if count != len(self.blocks):
            raise Refused(network.file, "", f"has {len(self.blocks)} blocks, and the running file "
                          f"{count}: they were not made together")

    def class_of(self, runs: Sequence[ModelRun]) -> tuple[str, list[int]]:
        """The class of a path's train, and the plain blocks that it runs over."""
        if self.only_class:
            return self.only_class, [run.block for run in runs]
        own = [self.running.blocks[run.block] for run in runs]
        return own[0][0], [plain for _, plain in own]

    def claims_of(self, train: Train, runs: Sequence[ModelRun]) -> list[tuple[int, int, int]]:
        """The claims of a path."""
        return self.railway.stairway(train, list(runs))

    def judge(self, entry: Entry, more: Sequence[tuple[int, int, int]] = ()) -> Verdict:
        """A sold path, with claims that were held beside it."""
        told = entry.train
        assert told is not None
        train = Train(told.length_m, told.speed, told.accel, told.brake, told.allowance)
        runs = [ModelRun(run.block, run.enter, run.leave, run.stops) for run in entry.runs]
        name, plain = self.class_of(runs)
        tick_s = self.base.settings.tick_s
        claims = joined([*self.claims_of(train, runs), *more])
        try:
            course = course_of(self.running, name, runs, self.blocks, plain, tick_s, self.driving)
        except physics.Stalled as stalled:
            return Verdict(entry, name, None, stalled.place, [], claims)
        return Verdict(entry, name, course, None, judged(course.needs, claims, tick_s), claims)


def margins_of(journal: Journal, entry: Entry) -> list[tuple[int, int, int]]:
    """The claims that were held beside a path, for its train."""
    reason = f"{REASON} {entry.number}"
    return [(claim.zone, claim.begin, claim.end) for one in journal.live()
            if one.kind is Kind.HOLDS and one.owner == entry.owner and one.reason == reason
            for claim in one.claims]


def paths_of(journal: Journal) -> list[Entry]:
    """The paths that stand."""
    return [entry for entry in journal.live() if entry.runs]


def row_of(verdict: Verdict, margin_s: float) -> str:
    """A path in the table."""
    entry = verdict.entry
    told = "inside" if verdict.is_inside(margin_s) else "OUTSIDE"
    if verdict.stalls_m is not None:
        return (f"{entry.owner:<10} {entry.number:>9} {entry.at:>7} {verdict.name:<12} "
                f"{len(entry.runs):>6} stalls {verdict.stalls_m / 1000:.1f} km from its begin  "
                f"{told}")
    return (f"{entry.owner:<10} {entry.number:>9} {entry.at:>7} {verdict.name:<12} "
            f"{len(entry.runs):>6} {verdict.early_s:>8.1f} {verdict.late_s:>8.1f}  {told}")


HEADING = (f"{'client':<10} {'number':>9} {'entry':>7} {'class':<12} {'blocks':>6} {'early s':>8} "
           f"{'late s':>8}")


def _parser() -> argparse.ArgumentParser:
    about, _, more = (__doc__ or "").partition("\n\n")
    parser = argparse.ArgumentParser(prog=NAME, description=about, epilog=more, allow_abbrev=False,
                                     formatter_class=argparse.RawDescriptionHelpFormatter)
    add = parser.add_argument
    for word in ("network", "table", "base", "journal"):
        add(f"--{word}", required=True, metavar="F")
    add("--running", type=Path, required=True, metavar="F",
        help="what import-network --running wrote")
    add("--class", dest="only_class", metavar="NAME",
        help="the network is the plain one, and all its trains are of this class")
    add("--entry", type=int, metavar="I", help="one path alone, zone by zone")
    add("--picture", type=Path, metavar="SVG", help="with --entry: a graph by distance")
    add_driving(parser)
    add("--margin", type=float, default=0.0, metavar="SECONDS",
        help="what may be missing of a claim (default 0)")
    return parser


def add_driving(parser: argparse.ArgumentParser) -> None:
    """The words that say how a train is driven."""
    add = parser.add_argument
    add("--setting-s", type=float, default=5.0, metavar="SECONDS",
        help="what it takes to set a route (default 5)")
    add("--release-s", type=float, default=5.0, metavar="SECONDS",
        help="what it takes to release a zone (default 5)")
    add("--early", type=float, default=10.0, metavar="SECONDS",
        help="how much a driver may be before his path at the end of a block (default 10)")
    add("--free", action="store_true", help="trains run as fast as they go, whatever their path")


def driving_of(given: argparse.Namespace) -> Driving:
    """The driving that the words say."""
    return Driving(given.setting_s, given.release_s, None if given.free else given.early)


def _zones(verdict: Verdict, tick_s: int) -> list[str]:
    """A path zone by zone: run, zone, what is needed and what is claimed, in seconds."""
    rows = [f"{'run':>4} {'zone':>6} {'needs from':>11} {'to':>9} {'claim from':>11} {'to':>9} "
            f"{'early s':>8} {'late s':>8}"]
    for row in verdict.rows:
        low, high = row.claim or (0, 0)
        rows.append(f"{row.need.run:>4} {row.need.zone:>6} {row.need.begin_s:>11.1f} "
                    f"{row.need.end_s:>9.1f} {low * tick_s:>11} {high * tick_s:>9} "
                    f"{row.early_s:>8.1f} {row.late_s:>8.1f}")
    return rows


def verify(words: Sequence[str]) -> int:
    """Does what the words say; 1 where a path is outside."""
    given = _parser().parse_args(words)
    if given.picture is not None and given.entry is None:
        raise Refused("words", "--picture", "is of one path: it needs --entry")
    network, base = read_network(given.network, given.table), read_base(given.base)
    running = read_running(given.running)
    if given.only_class is not None and given.only_class not in running.bodies:
        raise Refused(given.running, "", f"has no class {given.only_class}")
    journal = read_journal_of(given.journal, network.file, base.file)
    verifier = Verifier(network, base, running, driving_of(given), given.only_class)
    paths = [entry for entry in paths_of(journal) if given.entry in (None, entry.at)]
    if given.entry is not None and not paths:
        raise Refused(given.journal, f"entry {given.entry}", "is no path that stands")
    print(HEADING)
    outside = 0
    for entry in paths:
        verdict = verifier.judge(entry, margins_of(journal, entry))
        outside += not verdict.is_inside(given.margin)
        print(row_of(verdict, given.margin), flush=True)
        if given.entry is not None:
            print("\n".join(_zones(verdict, base.settings.tick_s)))
            if given.picture is not None:
                from kidrofemba.reality.path_picture import picture_of
                write_whole(given.picture, picture_of(verdict, verifier))
    print(f"{len(paths)} paths, {outside} outside by more than {given.margin:g} s")
    return 1 if outside else 0


def main(words: list[str]) -> int:
    """Judges what the words name; the exit status."""
    return run_companion(NAME, lambda: verify(words))
