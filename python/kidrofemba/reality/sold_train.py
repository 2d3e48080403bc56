"""The very train of a sold path, run over its very blocks with its stops: when it needs each zone,
and whether the path's claims give it the zone for all that time.

Times are seconds since tick 0, places metres from the path's begin.
"""
from __future__ import annotations

import math
from bisect import bisect_left
from collections import defaultdict
from collections.abc import Iterable, Sequence
from dataclasses import dataclass
from typing import Protocol

from kidrofemba.network.blocking_times import Block
from kidrofemba.reality import physics
from kidrofemba.reality.running_file import Pieces, Running

STEP_M = 20.0
GUARD_S = 4.0
"""By how much two simulations of a train may differ: the margin of what is held for it."""
FREE = 1e9


class SoldRun(Protocol):
    """A block of a path, with the ticks at which the head enters and leaves it."""

    @property
    def block(self) -> int: ...
    @property
    def enter(self) -> int: ...
    @property
    def leave(self) -> int: ...
    @property
    def stops(self) -> bool: ...


@dataclass(frozen=True)
class Driving:
    """How a train is driven, and what it needs beside its running: seconds to set a route and to
    release a zone. `early_s` is by how much it may be before its path at the end of a block; None:
    it is driven as fast as it goes."""

    setting_s: float = 5.0
    release_s: float = 5.0
    early_s: float | None = None


@dataclass(frozen=True)
class Need:
    """A zone that the train needs, and of which run."""

    zone: int
    begin_s: float
    end_s: float
    run: int


@dataclass(frozen=True)
class Leg:
    """The way between two stands: places, when the train starts, and its running."""

    begin_m: float
    end_m: float
    depart_s: float
    running: physics.Running

    def time_at(self, place: float) -> float:
        """When the head is at a place of this leg."""
        return self.depart_s + self.running.time_at(place - self.begin_m)


@dataclass(frozen=True)
class Course:
    """A train on its path: its legs, where each block begins (and the last one ends), what it
    needs, and the gradients and limits along its way."""

    legs: list[Leg]
    places: list[float]
    needs: list[Need]
    limits: Pieces

    def time_at(self, place: float) -> float:
        """When the head is at a place; at a stop, when it comes there."""
        for leg in self.legs:
            if place <= leg.end_m:
                return leg.time_at(place)
        return self.legs[-1].time_at(self.legs[-1].end_m)

    def departs(self, place: float) -> float | None:
        """When the train starts at a place, if it stands there."""
        return next((leg.depart_s for leg in self.legs if leg.begin_m == place), None)

    def seen_at(self, place: float, signal: float) -> float:
        """When a signal must be clear that is seen from a place: where the train stands between
        them, when it starts there."""
        starts = [leg for leg in self.legs if place <= leg.begin_m <= signal]
        return starts[-1].depart_s if starts else self.time_at(place)


def course_of(running: Running, name: str, runs: Sequence[SoldRun], blocks: Sequence[Block],
              plain: Sequence[int], tick_s: int, driving: Driving) -> Course:
    """The run of a class's train over a path; `plain` are its plain blocks. physics.Stalled where
    it does not get on, with the metres from the path's begin."""
    body = running.bodies[name]
    gradients = [piece for one in plain for piece in running.gradients[one]]
    limits = [piece for one in plain for piece in running.limits[name][one]]
    places = [0.0]
    for run in runs:
        places.append(places[-1] + blocks[run.block].length)
    legs: list[Leg] = []
    first, arrived = 0, -FREE
    for at, run in enumerate(runs):
        if not run.stops:
            continue
        depart = max(float(runs[first].enter * tick_s), arrived)
        driver = _Driver(places[first:at + 2], [one.leave * tick_s - depart
                                                for one in runs[first:at + 1]], body, driving)
        way = physics.Way(places[at + 1] - places[first], places[first], gradients, limits)
        try:
            told = driver.drive(way)
        except physics.Stalled as stalled:
            raise physics.Stalled(stalled.place + places[first]) from None
        legs.append(Leg(places[first], places[at + 1], depart, told))
        arrived, first = depart + told.times[-1], at + 1
    course = Course(legs, places, [], limits)
    course.needs.extend(_needs(course, runs, blocks, body.length_m, driving))
    return course


class _Driver:
    """A driver of one leg, who knows when he is to be at the end of each block."""

    def __init__(self, places: Sequence[float], leaves: Sequence[float], body: physics.Vehicle,
                 driving: Driving) -> None:
        self.ends = [place - places[0] for place in places[1:]]
        self.leaves, self.body, self.early_s = leaves, body, driving.early_s

    def drive(self, way: physics.Way) -> physics.Running:
        """The run over the leg, to a stand at its end."""
        grid = [0.0]
        for end in self.ends:
            count = max(1, math.ceil((end - grid[-1]) / STEP_M))
            begin = grid[-1]
            grid += [begin + (end - begin) * at / count for at in range(1, count)] + [end]
        ceilings = physics.ceilings_of(self.body, way, grid, 0.0)
        keeps = None if self.early_s is None else self._keeps
        return physics.run_within(self.body, way, grid, ceilings, 0.0, keeps)

    def _keeps(self, place: float, time: float) -> float:
        """The even speed at which the head is at the end of its block no sooner than it may be."""
        at = min(bisect_left(self.ends, place + 1e-6), len(self.ends) - 1)
        assert self.early_s is not None
        left = self.leaves[at] - self.early_s - time
        metres = self.ends[at] - place
        if at == len(self.ends) - 1 and left > 0:
            # Braking to a stand takes longer than its way at an even speed by v / 2c.
            left -= metres / left / (2 * self.body.brake_m_s2)
        return metres / left if left > 0 else FREE


def _needs(course: Course, runs: Sequence[SoldRun], blocks: Sequence[Block], length: float,
           driving: Driving) -> Iterable[Need]:
    """What the train needs: each zone of a block from when the signal before the block before it
    must be clear until its tail is past the release."""
    end = course.places[-1]
    for at, run in enumerate(runs):
        place = course.places[at]
        own = course.departs(place)
        before = course.departs(course.places[at - 1]) if at else None
        if own is not None:
            begin = own
        elif before is not None:
            begin = before
        else:
            signal = course.places[at - 1]
            begin = course.seen_at(signal - blocks[runs[at - 1].block].sight, signal)
        for zone, release in blocks[run.block].cells:
            clear = course.time_at(min(end, place + release + length))
            yield Need(zone, begin - driving.setting_s, clear + driving.release_s, at)


@dataclass(frozen=True)
class Judged:
    """A need beside the claim that is there for it, in ticks (None where there is none): by how
    many seconds the train wants the zone before the claim begins, and after it ends; less than 0
    where there is time to spare."""

    need: Need
    claim: tuple[int, int] | None
    early_s: float
    late_s: float


def judged(needs: Sequence[Need], claims: Sequence[tuple[int, int, int]], tick_s: int
           ) -> list[Judged]:
    """Each need beside the claims of a path: zone, begin and end, joined on each zone."""
    by_zone: dict[int, list[tuple[int, int]]] = defaultdict(list)
    for zone, begin, end in claims:
        by_zone[zone].append((begin, end))
    made = []
    for need in needs:
        def shared(claim: tuple[int, int], need: Need = need) -> float:
            return min(need.end_s, claim[1] * tick_s) - max(need.begin_s, claim[0] * tick_s)

        best = max(by_zone.get(need.zone, []), key=shared, default=None)
        if best is None:
            made.append(Judged(need, None, math.inf, math.inf))
        else:
            made.append(Judged(need, best, best[0] * tick_s - need.begin_s,
                               need.end_s - best[1] * tick_s))
    return made


def missing(rows: Sequence[Judged], tick_s: int, guard_s: float = GUARD_S
            ) -> list[tuple[int, int, int]]:
    """The spans of zones that the train needs and its claims do not have, in ticks, joined. What it
    needs counts as longer by `guard_s` either way."""
    found: dict[int, list[tuple[int, int]]] = defaultdict(list)
    for row in rows:
        begin = math.floor((row.need.begin_s - guard_s) / tick_s)
        end = math.ceil((row.need.end_s + guard_s) / tick_s)
        low, high = row.claim if row.claim is not None else (end, end)
        if row.early_s > -guard_s:
            found[row.need.zone].append((begin, min(low, end)))
        if row.late_s > -guard_s and row.claim is not None:
            found[row.need.zone].append((max(high, begin), end))
    made: list[tuple[int, int, int]] = []
    for zone, spans in sorted(found.items()):
        for begin, end in sorted(spans):
            if made and made[-1][0] == zone and begin <= made[-1][2]:
                made[-1] = zone, made[-1][1], max(end, made[-1][2])
            elif begin < end:
                made.append((zone, begin, end))
    return made
