"""The trains of a train graph, and where their heads and their blocking times lie along a line.

Planned trains come from a base file, sold paths and holds from replies, tables of `stairs` or a
journal. Where the ticks of a train's runs are known, the line of its head is exact; else it is
estimated from its blocking times.
"""
from __future__ import annotations

from collections.abc import Callable, Iterable, Iterator
from dataclasses import dataclass, field, replace
from enum import Enum
from functools import partial
from itertools import groupby
from pathlib import Path

from kidrofemba.common.companion import Refused, read_text
from kidrofemba.common.json_spot import Spot
from kidrofemba.journal.journal_file import Claim, Entry, Kind, Run, read_journal
from kidrofemba.network.line_places import Line, segments_of
from kidrofemba.network.railway import Railway

# Replies that may tell runs, each with the field, counted from 0, at which these begin.
RUNS_AT = {"granted": 6, "kept": 6, "shown": 8}

# A train that is off the line for no more metres than this has not left it.
SHORT_M = 300


class Standing(Enum):
    """By what right a train, or a hold, has its zones."""

    PLANNED = "planned"
    SOLD = "sold"
    HELD = "held"


@dataclass(frozen=True)
class Train:
    """A train as its source tells it: a short name and a long one, its runs where they are known,
    its blocking times, and for some zones the tick at which its head enters them."""

    standing: Standing
    name: str
    about: str
    runs: tuple[Run, ...] = ()
    claims: tuple[Claim, ...] = ()
    heads: dict[Claim, int] = field(default_factory=dict)


@dataclass(frozen=True)
class Point:
    """A place of a train's head: at a tick, at a distance along the line."""

    tick: float
    metre: float


@dataclass(frozen=True)
class Step:
    """A blocking time: a zone, from tick `begin` on and before tick `end`, and where it lies."""

    zone: int
    begin: int
    end: int
    top: float
    bottom: float
    beside: bool


@dataclass(frozen=True)
class GraphTrain:
    """A train along a line: the pieces of its head's line, whether they are only estimated, and its
    blocking times."""

    standing: Standing
    name: str
    about: str
    pieces: tuple[tuple[Point, ...], ...]
    is_estimated: bool
    steps: tuple[Step, ...]

    def ticks(self) -> Iterator[float]:
        """The ticks at which something of it lies on the line."""
        yield from (point.tick for piece in self.pieces for point in piece)
        yield from (tick for step in self.steps for tick in (step.begin, step.end))


# ---- Reading


def read_planned(base: Spot, railway: Railway) -> list[Train]:
    """The planned trains of a base file."""
    trains = []
    for train in base.member("trains").elements():
        claims, heads = [], {}
        for one in train.member("requirements").elements():
            claim = Claim(*(one.member(key).whole() for key in ("zone", "from", "to")))
            if not 0 <= claim.zone < len(railway.zones):
                raise one.member("zone").wrong(f"zone {claim.zone} is not in {railway.table}")
            if claim.begin >= claim.end:
                raise one.wrong(f"has no tick from {claim.begin} to {claim.end}")
            head = one.optional("head")
            if head is not None:
                heads[claim] = head.whole()
            claims.append(claim)
        name = train.member("name").text()
        trains.append(Train(Standing.PLANNED, name, f"{name}, planned", (), tuple(claims), heads))
    return trains


def _check_runs(runs: tuple[Run, ...], railway: Railway, wrong: Callable[[str], Refused]) -> None:
    """Refuses runs over blocks that are not there, or in which time runs backwards."""
    at = None
    for run in runs:
        if not 0 <= run.block < len(railway.blocks):
            raise wrong(f"block {run.block} is not in {railway.table}")
        if run.leave < run.enter or (at is not None and run.enter < at):
            raise wrong(f"the run over block {run.block} begins before it can")
        at = run.leave


def _check_claims(claims: Iterable[Claim], railway: Railway, wrong: Callable[[str], Refused]
                  ) -> None:
    """Refuses claims of zones that are not there."""
    for claim in claims:
        if not 0 <= claim.zone < len(railway.zones):
            raise wrong(f"zone {claim.zone} is not in {railway.table}")


def read_replies(client: str, file: str | Path, railway: Railway) -> dict[int, Train]:
    """The paths that a client's replies tell and that were not freed later in them, by entry."""
    found: dict[int, Train] = {}
    for number, line in enumerate(read_text(file).splitlines(), 1):
        def wrong(what: str, at: int = number) -> Refused:
            return Refused(file, f"line {at}", what)
        try:
            _take_reply(client, line.split(), found, railway, wrong)
        except (ValueError, IndexError):
            raise wrong("is no reply in its form") from None
    return found


def _take_reply(client: str, words: list[str], found: dict[int, Train], railway: Railway,
                wrong: Callable[[str], Refused]) -> None:
    """Adds the path that a reply tells, or takes out the one that it tells freed."""
    if words and words[0] == "freed":
        found.pop(int(words[5]), None)
    at = RUNS_AT.get(words[0]) if words else None
    if at is None:
        return
    if words[at:at + 1] != ["runs"]:
        if words[0] == "granted":
            raise ValueError(words)
        return
    if words[0] == "shown":
        entry, owner, number = int(words[1]), words[5], int(words[7])
    else:
        entry, owner, number = int(words[3]), client, int(words[1])
    count, fields = int(words[at + 1]), words[at + 2:]
    if len(fields) < 4 * count:
        raise wrong(f"has fewer than {count} runs")
    if fields[4 * count:4 * count + 1] == ["freed"]:
        found.pop(entry, None)
        return
    runs = tuple(Run(int(block), int(enter), int(leave), stops == "1")
                 for block, enter, leave, stops in zip(*(fields[at:4 * count:4] for at in range(4))))
    _check_runs(runs, railway, wrong)
    found[entry] = Train(Standing.SOLD, f"{owner} {number}",
                         f"{owner} {number}, sold by entry {entry}", runs)


def claims_of_stairs(source: str | Path, text: str, railway: Railway) -> tuple[Claim, ...]:
    """The blocking times of a table of `stairs`."""
    claims = []
    for number, line in enumerate(text.splitlines(), 1):
        words = line.split()
        if number == 1 and words == ["zone", "from", "to", "run"]:
            continue
        if number == 1 or len(words) != 4 or not all(word.lstrip("-").isdecimal()
                                                     for word in words):
            raise Refused(source, f"line {number}", "is no line of a table of `stairs`")
        zone, begin, end = map(int, words[:3])
        claims.append(Claim(zone, begin, end))
        _check_claims(claims[-1:], railway, partial(Refused, source, f"line {number}"))
    return tuple(claims)


def with_stairs(trains: dict[int, Train], entry: int, claims: tuple[Claim, ...]) -> None:
    """Gives the train of an entry its blocking times; without such a train there is a new one."""
    known = trains.get(entry, Train(Standing.SOLD, f"entry {entry}", f"sold by entry {entry}"))
    trains[entry] = replace(known, claims=claims)


def read_sold_journal(file: str | Path, network: str | Path, base: str | Path, railway: Railway
                      ) -> dict[int, Train]:
    """The paths and holds that stand in a journal, by entry."""
    journal = read_journal(file)
    if not journal.is_of(Path(network).read_bytes(), Path(base).read_bytes()):
        raise Refused(file, "", f"does not belong to {network} and {base}")
    found = {}
    for entry in journal.live():
        def wrong(what: str, at: int = entry.at) -> Refused:
            return Refused(file, f"entry {at}", what)
        _check_runs(entry.runs, railway, wrong)
        _check_claims(entry.claims, railway, wrong)
        found[entry.at] = _train_of_entry(entry)
    return found


def _train_of_entry(entry: Entry) -> Train:
    """The train, or the hold, of an entry that stands."""
    name = f"{entry.owner} {entry.number}"
    if entry.kind in (Kind.HOLD, Kind.HOLDS):
        reason = f": {entry.reason}" if entry.reason else ""
        return Train(Standing.HELD, entry.reason or name, f"{name}, held by entry {entry.at}"
                     + reason, (), entry.claims)
    train = entry.train.name if entry.train else ""
    return Train(Standing.SOLD, name, f"{name}, train {train}, sold by entry {entry.at}",
                 entry.runs)


def taken_in_order(trains: Iterable[Train], railway: Railway) -> set[tuple[int, int]]:
    """The pairs of zones that some train takes one behind the other."""
    taken: set[tuple[int, int]] = set()
    for train in trains:
        if train.runs:
            zones = [zone for run in train.runs for zone in railway.blocks[run.block].zones]
        else:
            zones = [claim.zone for claim in _in_order(train.claims)]
        taken.update(zip(zones, zones[1:]))
    return taken


# ---- Along a line


def _in_order(claims: Iterable[Claim]) -> list[Claim]:
    """Claims in the order in which a train leaves them behind."""
    return sorted(claims, key=lambda one: (one.end, one.begin))


def _head_of_runs(runs: Iterable[Run], railway: Railway, line: Line
                  ) -> tuple[tuple[Point, ...], ...]:
    """The pieces of a head's line that lie along the line, by its runs. A short way off the line,
    as over switches from one track to the other, parts no piece."""
    pieces: list[list[Point]] = []
    gone, left_at = 0.0, 0.0
    for run in runs:
        block = railway.blocks[run.block]
        pace = (run.leave - run.enter) / max(block.length, 1)
        for segment in segments_of(block.way, line):
            first = Point(run.enter + pace * segment.offset, segment.metre)
            last = Point(run.enter + pace * segment.end_offset, segment.end_metre)
            off_line = gone + segment.offset - left_at
            if (not pieces or off_line > SHORT_M
                    or abs(pieces[-1][-1].metre - first.metre) > off_line + 0.5):
                pieces.append([first])
            elif first.tick > pieces[-1][-1].tick:
                pieces[-1].append(first)
            pieces[-1].append(last)
            left_at = gone + segment.end_offset
        gone += block.length
    return tuple(tuple(_without_needless(piece)) for piece in pieces)


def _without_needless(points: list[Point]) -> list[Point]:
    """Points without those that lie on the straight line between their neighbours."""
    kept: list[Point] = []
    for at, point in enumerate(points):
        if kept and at + 1 < len(points):
            before, behind = kept[-1], points[at + 1]
            cross = ((point.tick - before.tick) * (behind.metre - before.metre)
                     - (behind.tick - before.tick) * (point.metre - before.metre))
            if abs(cross) < 1e-6:
                continue
        kept.append(point)
    return kept


def _head_of_claims(train: Train, line: Line) -> tuple[tuple[Point, ...], ...]:
    """The pieces of a head's line, by blocking times: where the ticks at which it enters zones are
    told, by these, else estimated."""
    make = _entries if is_told(train, line) else _estimated
    pieces: list[tuple[Point, ...]] = []
    before: Claim | None = None
    for is_there, group in groupby(_in_order(train.claims), lambda one: one.zone in line.zones):
        claims = list(group)
        if is_there and len(claims) > 1:
            pieces.append(tuple(make(claims, before, train, line)))
        before = claims[-1]
    return tuple(piece for piece in pieces if len(piece) > 1)


def _estimated(claims: list[Claim], before: Claim | None, train: Train, line: Line) -> list[Point]:
    """The head as it may have gone: it enters the train's first zone when that is taken, and leaves
    each zone a little before it is free again, since the tail follows: an eighth of the train's
    middle blocking time. Of zones that are free at once it leaves the last then."""
    lengths = sorted(claim.end - claim.begin for claim in train.claims)
    tail = lengths[len(lengths) // 2] / 8
    enters = min(claims[0].begin if before is None else before.end - tail, claims[0].end - tail)
    points = [Point(enters, _edge(claims, 0, line, leaves=False))]
    for at, claim in enumerate(claims):
        if at + 1 == len(claims) or claims[at + 1].end != claim.end:
            points.append(Point(max(claim.end - tail, claim.begin, points[-1].tick),
                                _edge(claims, at, line, leaves=True)))
    return points


def _edge(claims: list[Claim], at: int, line: Line, leaves: bool) -> float:
    """Where a train enters one of the zones that it takes one behind the other, or leaves it."""
    extent = line.zones[claims[at].zone]
    before, behind = (line.zones[claims[max(0, min(place, len(claims) - 1))].zone]
                      for place in ((at, at + 1) if at == 0 else (at - 1, at)))
    goes_down = before.top + before.bottom <= behind.top + behind.bottom
    return extent.bottom if goes_down == leaves else extent.top


def _entries(claims: list[Claim], _before: Claim | None, train: Train, line: Line) -> list[Point]:
    """The head where it enters each zone, at the ticks that are told."""
    ordered = sorted(claims, key=lambda one: train.heads[one])
    goes_down = bool(ordered) and (line.zones[ordered[0].zone].top
                                   <= line.zones[ordered[-1].zone].top)
    return [Point(train.heads[one], line.zones[one.zone].top if goes_down
                  else line.zones[one.zone].bottom) for one in ordered]


def is_told(train: Train, line: Line) -> bool:
    """Whether the train's line is told by its source, and need not be estimated."""
    return bool(train.runs) or all(claim in train.heads for claim in train.claims
                                   if claim.zone in line.zones)


def on_line(train: Train, railway: Railway, line: Line) -> GraphTrain | None:
    """A train as it lies along a line; None where nothing of it does."""
    steps = []
    for claim in train.claims:
        extent = line.zones.get(claim.zone)
        if extent is not None:
            steps.append(Step(claim.zone, claim.begin, claim.end, extent.top, extent.bottom,
                              extent.beside))
    if train.standing is Standing.HELD:
        pieces: tuple[tuple[Point, ...], ...] = ()
    elif train.runs:
        pieces = _head_of_runs(train.runs, railway, line)
    else:
        pieces = _head_of_claims(train, line)
    if not steps and not pieces:
        return None
    return GraphTrain(train.standing, train.name, train.about, pieces,
                      bool(pieces) and not is_told(train, line), tuple(steps))
