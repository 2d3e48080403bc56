"""Rolls a journal over to a new operating day or a new timetable: what was sold and held before,
and is not over, stands in the new journal under the same owners and numbers.

Where ticks stay and the network does, the program's own `carry` does it. Where tick 0 moves, or the
program has no such command, the live entries are given to a server over the new journal as lines of
their owners: a path as `pin`, a hold as it was. --shift says how many ticks later the new tick 0
is; without it the two base files tell by `begins`. A path that has begun before the new tick 0
can't be pinned; it becomes a planned train `sold NAME N` in --out-base, which is --base with these
trains, and the base file of the new journal then. Such a train of --from-base that is not over and
not in --base stays sold: it is written into --out-base too, and without that nothing is made.

What can't be carried is told, one line each: `entry I owner NAME number N REASON`, or for a path
that is a planned train already `sold NAME N REASON`. Without --left
the first ends it, and nothing is made; with --left all are written there, and the rest is carried.
The exit status is 0 where all was carried, 1 where something is lost, and 2 where a file is
refused. Stop the server of the old journal before. Nothing of the old files is changed.
"""
from __future__ import annotations

import argparse
import asyncio
import fcntl
import json
import os
import re
import shutil
import subprocess
import sys
import tempfile
import time
from collections.abc import Iterator, Sequence
from contextlib import contextmanager
from dataclasses import dataclass, field
from pathlib import Path
from typing import Any

from kidrofemba.common.clock import Clock, clock_of
from kidrofemba.common.companion import Refused, escaped, read_json, run_companion, write_whole
from kidrofemba.common.program_names import report_of
from kidrofemba.common.synced import sync_name
from kidrofemba.door.server_process import NoReply, Server, ServerEnded
from kidrofemba.journal.journal_file import Claim, Entry, JournalTrain, read_journal
from kidrofemba.network.table_file import Table, read_table_text

NAME = "roll-over"
EXAMPLE = """example:
  kidrofemba roll-over --program stdcm --network network.json --trains trains.json \\
      --base tuesday.json --out-base tuesday_base.json --journal tuesday.journal \\
      --from monday.journal --from-base monday_base.json --left lost
"""
_MAX_CLIENTS = 16
_MAX_LINE_BYTES = 65_536
_LEAST_TICK = -100_000
_DONE = frozenset({"held", "pinned", "kept"})
# The name of a planned train that was a path under way at an earlier tick 0.
_SOLD = re.compile(r"sold [A-Za-z0-9_][A-Za-z0-9_-]{0,31} [0-9]+")


@dataclass(frozen=True)
class Side:
    """The files of one side, before or behind the new tick 0, and what they say."""

    program: Path
    network: Path
    base: Path
    told: dict[str, Any]
    clock: Clock

    def run(self, command: str, *options: str) -> subprocess.CompletedProcess[str]:
        """Runs a command of the program over the network file and further options."""
        return subprocess.run([str(self.program), command, "--network", str(self.network),
                               *options], capture_output=True, text=True, check=False)

    def table(self) -> Table:
        """The zones and blocks of the network."""
        told = self.run("list", "--out", "stdout")
        if told.returncode:
            raise Refused(self.network, "", report_of(told))
        return read_table_text(told.stdout, self.network)


@dataclass(frozen=True)
class SoldTrain:
    """A path that is under way as a planned train."""

    name: str
    claims: tuple[Claim, ...]


@dataclass(frozen=True)
class Lost:
    """What is not carried, an entry or a sold train, and why."""

    what: Entry | SoldTrain
    reason: str

    def __str__(self) -> str:
        if isinstance(self.what, SoldTrain):
            return f"{self.what.name} {self.reason}"
        return (f"entry {self.what.at} owner {self.what.owner} number {self.what.number} "
                f"{self.reason}")


@dataclass
class Rolled:
    """What becomes of the live entries: lines of their owners, planned trains, or nothing; and
    which sold trains of the old base file go on as such."""

    lines: list[tuple[Entry, str]] = field(default_factory=list)
    under_way: list[SoldTrain] = field(default_factory=list)
    sold_before: list[SoldTrain] = field(default_factory=list)
    lost: list[Lost] = field(default_factory=list)
    over: int = 0

    @property
    def added(self) -> list[SoldTrain]:
        """The planned trains that the new base file gains."""
        return self.sold_before + self.under_way


class Roll:
    """Rolls entries over, one by one."""

    def __init__(self, before: Side, behind: Side, journal: Path, shift: int,
                 trains: frozenset[JournalTrain]):
        self.before, self.journal, self.shift, self.trains = before, journal, shift, trains
        self.planned = _planned(behind.told)
        self.sold_planned = _sold(behind.told)
        new = behind.table()
        old = before.table() if before.network != behind.network else new
        blocks = {(block.route, block.part): at for at, block in enumerate(new.blocks)}
        self.blocks = {at: blocks.get((block.route, block.part))
                       for at, block in enumerate(old.blocks)}
        zones = {zone: at for at, zone in enumerate(new.zones)}
        self.zones = {at: zones.get(zone) for at, zone in enumerate(old.zones)}

    def sold_trains(self) -> Rolled:
        """What becomes of the sold trains of the old base file that are not over, and are not in
        the new one."""
        rolled = Rolled()
        for train in _sold(self.before.told):
            claims = self._moved(train.claims)
            if claims is None:
                rolled.lost.append(Lost(train, "its zones are not all there"))
            elif not claims or self._is_planned(train.name, claims):
                continue
            elif (other := self._in_the_way(claims)) is not None:
                zone, number = other
                rolled.lost.append(Lost(train, f"taken zone {zone} by base {number}"))
            else:
                rolled.sold_before.append(SoldTrain(train.name, claims))
        return rolled

    def _is_planned(self, name: str, claims: Sequence[Claim]) -> bool:
        """Whether the new base file has all these claims under the name of a sold train."""
        there = [one for train in self.sold_planned if train.name == name for one in train.claims]
        return all(any(one.zone == claim.zone and one.begin <= claim.begin
                       and claim.end <= one.end for one in there) for claim in claims)

    def roll(self, entries: Sequence[Entry], rolled: Rolled) -> None:
        """Adds what becomes of these live entries."""
        for entry in entries:
            if not entry.runs:
                self._hold(entry, rolled)
            elif entry.runs[0].enter >= self.shift:
                self._path(entry, rolled)
            else:
                self._begun(entry, rolled)

    def _moved(self, claims: Sequence[Claim]) -> tuple[Claim, ...] | None:
        """The claims that are not over, by new zones and ticks; None where a zone is gone."""
        moved: list[tuple[int, int, int]] = []
        for claim in claims:
            if claim.end > self.shift:
                zone = self.zones[claim.zone]
                if zone is None:
                    return None
                begin = max(_LEAST_TICK, claim.begin - self.shift)
                moved.append((zone, begin, claim.end - self.shift))
        return tuple(Claim(*one) for one in sorted(moved))

    def _hold(self, entry: Entry, rolled: Rolled) -> None:
        claims = self._moved(entry.claims)
        if claims is None:
            rolled.lost.append(Lost(entry, "its zones are not all there"))
        elif not claims:
            rolled.over += 1
        else:
            spans = " ".join(f"{one.zone} {one.begin} {one.end}" for one in claims)
            line = f"hold {entry.number} {spans}" if entry.reason is None else \
                f"holds {entry.number} {escaped(entry.reason)} {len(claims)} {spans}"
            rolled.lines.append((entry, line))

    def _path(self, entry: Entry, rolled: Rolled) -> None:
        """A path that begins behind the new tick 0."""
        assert entry.train is not None
        runs = [(self.blocks[run.block], run.enter - self.shift, run.leave - self.shift,
                 int(run.stops)) for run in entry.runs]
        line = (f"pin {entry.number} {escaped(entry.train.name)} {len(runs)} "
                + " ".join(f"{block} {enter} {leave} {stops}"
                           for block, enter, leave, stops in runs))
        if any(block is None for block, *_ in runs):
            rolled.lost.append(Lost(entry, "its blocks are not all there"))
        elif entry.train not in self.trains:
            rolled.lost.append(Lost(entry, f"train {escaped(entry.train.name)} is not there as "
                                    "it was"))
        elif len(line) > _MAX_LINE_BYTES:
            rolled.lost.append(Lost(entry, f"a line of {len(line)} bytes is too long"))
        else:
            rolled.lines.append((entry, line))

    def _begun(self, entry: Entry, rolled: Rolled) -> None:
        """A path that begins before the new tick 0, and may be over."""
        if entry.runs[-1].leave + 2 * self.before.told["release"] < self.shift:
            rolled.over += 1  # once the train stands, what is under it is released
            return
        claims = self._moved(self._stairs(entry))
        if claims is None:
            rolled.lost.append(Lost(entry, "its zones are not all there"))
        elif not claims:
            rolled.over += 1
        elif (train := self._in_the_way(claims)) is not None:
            zone, number = train
            rolled.lost.append(Lost(entry, f"taken zone {zone} by base {number}"))
        else:
            rolled.under_way.append(SoldTrain(f"sold {entry.owner} {entry.number}", claims))

    def _in_the_way(self, claims: Sequence[Claim]) -> tuple[int, int] | None:
        """The zone and the planned train that clash with one of these claims."""
        for claim in claims:
            for train, begin, end in self.planned.get(claim.zone, ()):
                if begin < claim.end and claim.begin < end:
                    return claim.zone, train
        return None

    def _stairs(self, entry: Entry) -> list[Claim]:
        """What a path takes, as the program tells it."""
        told = self.before.run("stairs", "--base", str(self.before.base), "--journal",
                               str(self.journal), "--entry", str(entry.at), "--out", "stdout")
        if told.returncode:
            raise Refused(self.journal, f"entry {entry.at}", report_of(told))
        rows = [row.split() for row in told.stdout.splitlines()[1:]]
        return [Claim(int(zone), int(begin), int(end)) for zone, begin, end, _ in rows]


def _planned(base: dict[str, Any]) -> dict[int, list[tuple[int, int, int]]]:
    """What the planned trains take: by zone the train, and the ticks."""
    planned: dict[int, list[tuple[int, int, int]]] = {}
    for at, train in enumerate(base["trains"]):
        for one in train["requirements"]:
            planned.setdefault(one["zone"], []).append((at, one["from"], one["to"]))
    return planned


def _sold(base: dict[str, Any]) -> list[SoldTrain]:
    """The planned trains of a base file that were paths under way at its tick 0."""
    return [SoldTrain(train["name"], tuple(Claim(one["zone"], one["from"], one["to"])
                                           for one in train["requirements"]))
            for train in base["trains"] if _SOLD.fullmatch(train["name"])]


def _with_trains(base: dict[str, Any], sold: Sequence[SoldTrain]) -> dict[str, Any]:
    """A base file's object with the paths that are under way as planned trains."""
    trains = [{"name": train.name, "requirements": [
        {"zone": one.zone, "from": one.begin, "to": one.end} for one in train.claims]}
        for train in sold]
    return base | {"trains": base["trains"] + trains}


async def _give(behind: Side, trains: Path, journal: Path,
                lines: Sequence[tuple[Entry, str]], keep_on: bool) -> list[Lost]:
    """Gives lines to a server over the new journal, in their order but by 16 owners at a time;
    answers what it refuses, the first alone unless told to keep on."""
    owners = list(dict.fromkeys(entry.owner for entry, _ in lines))
    lost: list[Lost] = []
    done, told_s = 0, time.monotonic()
    for at in range(0, len(owners), _MAX_CLIENTS):
        some = owners[at:at + _MAX_CLIENTS]
        server = Server([str(behind.program), "serve", "--network", str(behind.network), "--base",
                         str(behind.base), "--trains", str(trains), "--journal", str(journal)],
                        some, _tell)
        await server.start()
        try:
            for entry, line in lines:
                if entry.owner not in some:
                    continue
                reply = (await server.ask(entry.owner, line.encode() + b"\n")).decode().split()
                if reply[0] not in _DONE:
                    lost.append(Lost(entry, _reason(reply)))
                    if not keep_on:
                        return lost
                done += 1
                if time.monotonic() - told_s > 2:
                    _tell(f"{done} of {len(lines)} entries")
                    told_s = time.monotonic()
        finally:
            await server.stop()
    return lost


def _reason(reply: Sequence[str]) -> str:
    """Why a line was refused: its reply without the number and the front."""
    words = list(reply[:1]) + list(reply[2:] if reply[0] != "bad" else reply[1:])
    return " ".join(words[:-2] if words[-2:-1] == ["at"] else words)


def _tell(text: str) -> None:
    print(f"{NAME}: {text}", file=sys.stderr, flush=True)


@contextmanager
def _alone_with(journal: Path) -> Iterator[None]:
    """Holds the journal as a server does, so that none sells into it meanwhile."""
    with journal.open("rb") as held:
        try:
            fcntl.flock(held, fcntl.LOCK_EX | fcntl.LOCK_NB)
        except OSError:
            raise Refused(journal, "", "a server has this journal: stop it first") from None
        yield


def _side(program: Path, network: Path, base: Path) -> Side:
    """A side, with what its base file says."""
    told = read_json(base)
    try:
        clock = clock_of(told)
        horizon_and_so_on = [told[key] for key in ("release", "horizon", "trains")]
        _planned(told)
        _sold(told)
    except (AttributeError, KeyError, TypeError, ValueError) as wrong:
        raise Refused(base, "", f"no base file: {wrong}") from None
    if not isinstance(horizon_and_so_on[0], int):
        raise Refused(base, "release", "no whole number")
    return Side(program, network, base, told, clock)


def _shift(given: int | None, before: Side, behind: Side) -> int:
    """How many ticks later the new tick 0 is."""
    if before.clock.tick_s != behind.clock.tick_s:
        raise Refused(behind.base, "tick_s", f"is {behind.clock.tick_s}, and was "
                                             f"{before.clock.tick_s}: ticks can't be moved")
    if given is not None:
        return given
    if not before.clock.is_dated or not behind.clock.is_dated:
        raise Refused("words", "--shift", "is needed where a base file has no `begins`")
    try:
        seconds = before.clock.seconds_to(behind.clock.zero)
    except ValueError as wrong:
        raise Refused(behind.base, "begins", str(wrong)) from None
    if seconds % before.clock.tick_s:
        raise Refused(behind.base, "begins", "is not a whole number of ticks later")
    return int(seconds) // before.clock.tick_s


def _carry(behind: Side, options: argparse.Namespace) -> int | None:
    """Has the program carry the journal; None where it has no such command."""
    left = ["--left", str(options.left)] if options.left is not None else []
    told = behind.run("carry", "--base", str(behind.base), "--journal", str(options.journal),
                      "--from", str(options.old), "--from-base", str(options.from_base), *left)
    report = report_of(told)
    if told.returncode == 2 and report == "words not understood":
        return None
    if told.returncode == 0:
        sync_name(options.journal)
    print(report)
    if told.returncode == 0:
        if options.out_base is not None:
            write_whole(options.out_base, behind.base.read_text(encoding="utf-8"))
        return 0 if report.endswith(" left 0") else 1
    return 1 if told.returncode == 1 else 2


def _trains_of(file: Path) -> frozenset[JournalTrain]:
    """The trains of a train file, as a journal has them."""
    try:
        return frozenset(JournalTrain(*(one[key] for key in (
            "name", "length_m", "speed", "accel", "brake", "allowance")))
            for one in read_json(file)["trains"])
    except (KeyError, TypeError) as wrong:
        raise Refused(file, "", f"no train file: {wrong!r}") from None


def _by_lines(before: Side, behind: Side, options: argparse.Namespace, roll: Roll) -> int:
    """Makes the new journal from lines of the owners."""
    entries = read_journal(options.old)
    if not entries.is_of(before.network.read_bytes(), before.base.read_bytes()):
        raise Refused(options.old, "", f"belongs to another network or base file than "
                                       f"{before.network} and {before.base}")
    rolled = roll.sold_trains()
    roll.roll(entries.live(), rolled)
    if rolled.lost and options.left is None:
        print(rolled.lost[0])
        return 1
    if rolled.added and options.out_base is None:
        raise Refused("words", "--out-base",
                      f"is needed: {len(rolled.added)} paths are under way at the new tick 0: "
                      + ", ".join(train.name for train in rolled.added))
    place = options.journal.parent
    with tempfile.TemporaryDirectory(prefix=".roll_over.", dir=place) as name:
        base, journal = Path(name) / "base", Path(name) / "journal"
        # Where nothing is added, the base file stays the same byte for byte.
        text = json.dumps(_with_trains(behind.told, rolled.added)) if rolled.added else \
            behind.base.read_text(encoding="utf-8")
        base.write_text(text, encoding="utf-8")
        made = Side(behind.program, behind.network, base, behind.told, behind.clock)
        told = made.run("init", "--base", str(base), "--journal", str(journal))
        if told.returncode:
            raise Refused(behind.base, "", report_of(told))
        refused = asyncio.run(
            _give(made, options.trains, journal, rolled.lines, options.left is not None))
        rolled.lost += refused
        if rolled.lost and options.left is None:
            print(rolled.lost[0])
            return 1
        if options.left is not None:
            write_whole(options.left, "".join(f"{one}\n" for one in rolled.lost))
        if options.out_base is not None:
            write_whole(options.out_base, text)
        _put(journal, options.journal)
    carried = len(rolled.lines) - len(refused) + len(rolled.under_way)
    print(f"carried {carried} left {len(rolled.lost)}"
          + (f"; {len(rolled.under_way)} of them as planned trains" if rolled.under_way else "")
          + (f"; {rolled.over} were over" if rolled.over else "")
          + (f"; {len(rolled.sold_before)} sold trains go on" if rolled.sold_before else ""))
    return 1 if rolled.lost else 0


def _put(made: Path, journal: Path) -> None:
    """Puts the new journal into its place, for good."""
    os.replace(made, journal)
    sync_name(journal)


def _parser() -> argparse.ArgumentParser:
    parser = argparse.ArgumentParser(
        prog=f"kidrofemba {NAME}", description=__doc__, epilog=EXAMPLE, allow_abbrev=False,
        formatter_class=argparse.RawDescriptionHelpFormatter)
    add = parser.add_argument
    add("--program", required=True, help="the built program")
    add("--network", type=Path, required=True, help="the network of the new journal")
    add("--trains", type=Path, required=True, help="the trains behind the new tick 0")
    add("--base", type=Path, required=True, help="the planned trains behind the new tick 0")
    add("--out-base", type=Path, help="is written: --base and the paths that are under way")
    add("--journal", type=Path, required=True, help="is made: the new journal")
    add("--from", type=Path, required=True, dest="old", metavar="JOURNAL", help="the old journal")
    add("--from-base", type=Path, required=True, help="the base file of the old journal")
    add("--from-network", type=Path, help="the network of the old journal (default: --network)")
    add("--shift", type=int, help="ticks from the old tick 0 to the new one")
    add("--left", type=Path, metavar="L", help="is written: what is not carried")
    return parser


def _roll_over(options: argparse.Namespace) -> int:
    """Rolls the journal over."""
    if options.journal.exists() and options.journal.stat().st_size:
        raise Refused(options.journal, "", "is there, and is not empty")
    old_network = options.from_network or options.network
    if old_network.read_bytes() == options.network.read_bytes():
        old_network = options.network
    program = shutil.which(options.program)
    if program is None:
        raise Refused("words", f"--program {options.program}", "is no program")
    before = _side(Path(program).absolute(), old_network, options.from_base)
    behind = _side(Path(program).absolute(), options.network, options.base)
    shift = _shift(options.shift, before, behind)
    with _alone_with(options.old):
        pass  # a server that runs is noticed here; `carry` takes the journal itself
    roll = Roll(before, behind, options.old, shift, _trains_of(options.trains))
    sold = roll.sold_trains()
    if shift == 0 and old_network == options.network and not (sold.sold_before or sold.lost):
        status = _carry(behind, options)
        if status is not None:
            return status
    try:
        with _alone_with(options.old):
            return _by_lines(before, behind, options, roll)
    except (ServerEnded, NoReply) as wrong:
        raise Refused(options.journal, "", str(wrong)) from None


def main(words: list[str]) -> int:
    """Rolls the journal over that the words name; the exit status."""
    options = _parser().parse_args(words)
    return run_companion(NAME, lambda: _roll_over(options))
