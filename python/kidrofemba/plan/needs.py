"""What planned trains and works need of zones, as OSRD tells it.

A file has `trains`, each with `name`, `start_time`, and what OSRD's simulation answers for it,
either in the train or within its `final_output`: `spacing_requirements` (a zone from `begin_time`
to `end_time`: its blocking time), `routing_requirements` (a route that is set at `begin_time`, with
each of its zones until `end_time`) and `zone_updates` (when the head enters a zone). These times
count from the start. It may have `work_schedules`, each with `obj_id`, `start_date_time`,
`end_date_time` and `track_ranges`.
"""
from __future__ import annotations

import math
from collections import defaultdict
from collections.abc import Iterator
from dataclasses import dataclass
from datetime import datetime
from pathlib import Path

from kidrofemba.common.clock import Clock, moment_of
from kidrofemba.common.json_spot import Spot
from kidrofemba.common.report import Report
from kidrofemba.osrd.zones import OsrdZones

LONGEST_NAME = 255
Passage = tuple[str, str, tuple[tuple[str, str], ...]]
"""How a route passes a zone: the detectors where it enters and leaves, and its switches."""


@dataclass(frozen=True)
class Owner:
    """A planned train, or works, and the file that it comes from."""

    name: str
    is_work: bool
    file: str | Path


@dataclass(frozen=True)
class Need:
    """A zone that is needed from `begin` to `end`, in milliseconds from tick 0: as a blocking time
    or closed for works, or where it has a passage as part of a route that is set. `head` is when
    the head enters, where that is told."""

    zone: int
    begin: int
    end: int
    passage: Passage | None = None
    head: int | None = None


def read_plan(plan: Spot, zones: OsrdZones, clock: Clock, unit: str, report: Report
              ) -> Iterator[tuple[Owner, list[Need]]]:
    """The trains and the works of a file with their needs; times in `unit`, ms or s."""
    if plan.optional("trains") is None and plan.optional("work_schedules") is None:
        raise plan.wrong("has neither `trains` nor `work_schedules`")
    for train in (one.named("name") for one in plan.elements_of("trains")):
        owner = Owner(_name_of(train.member("name"), ""), False, plan.file)
        yield owner, list(_Train(train, owner.name, zones, clock, unit, report).needs())
    for work in (one.named("obj_id") for one in plan.elements_of("work_schedules")):
        owner = Owner(_name_of(work.member("obj_id"), "works "), True, plan.file)
        yield owner, list(_needs_of_work(work, owner.name, zones, clock, report))


def _name_of(spot: Spot, before: str) -> str:
    """The name of a train or works, as short as a base file's must be."""
    name = before + spot.text()
    if not spot.text() or len(name.encode("utf-8", "surrogatepass")) > LONGEST_NAME:
        raise spot.wrong(f"must have 1 to {LONGEST_NAME} bytes")
    return name


def _moment_of(spot: Spot, clock: Clock) -> int:
    """The milliseconds from tick 0 to the moment that a text tells."""
    try:
        moment: datetime = moment_of(spot.text())
        return math.floor(1000 * clock.seconds_to(moment))
    except ValueError as wrong:
        raise spot.wrong(str(wrong)) from None


class _Train:
    """One train of a plan, whose times count from its start."""

    def __init__(self, train: Spot, name: str, zones: OsrdZones, clock: Clock, unit: str,
                 report: Report):
        self.train, self.name, self.zones, self.report = train, name, zones, report
        self.start = _moment_of(train.member("start_time"), clock)
        self.scale = 1 if unit == "ms" else 1000
        self.simulated = train.optional("final_output") or train
        self.entered = self._entered()

    def _milliseconds(self, spot: Spot) -> float:
        """A time since the start, in milliseconds from tick 0."""
        told = spot.number()
        if not abs(told) < 1e15:
            raise spot.wrong("is no time")
        return self.start + told * self.scale

    def _entered(self) -> dict[str, list[int]]:
        """When the head enters each zone, in milliseconds from tick 0."""
        entered: dict[str, list[int]] = defaultdict(list)
        for update in self.simulated.elements_of("zone_updates"):
            if update.member("is_entry").value is True:
                time = math.floor(self._milliseconds(update.member("time")))
                entered[update.member("zone").text()].append(time)
        return entered

    def needs(self) -> Iterator[Need]:
        """Blocking times everywhere, and routes that are set where others could cross them:
        elsewhere trains follow one another in a route, each behind the other's blocking time."""
        if self.simulated.optional("spacing_requirements") is None:
            raise self.simulated.wrong("has no `spacing_requirements`")
        for one in self.simulated.elements_of("spacing_requirements"):
            yield from self._taken(one.member("zone"), one.member("begin_time"),
                                   one.member("end_time"), None)
        for route in self.simulated.elements_of("routing_requirements"):
            for one in route.elements_of("zones"):
                yield from self._taken(one.member("zone"), route.member("begin_time"),
                                       one.member("end_time"), _passage_of(one))

    def _taken(self, zone: Spot, begin: Spot, end: Spot, passage: Passage | None
               ) -> Iterator[Need]:
        """The needs of one requirement, rounded outwards to milliseconds."""
        name = zone.text()
        first = math.floor(self._milliseconds(begin))
        last = math.ceil(self._milliseconds(end))
        if last < first:
            raise end.wrong("is before its begin")
        head = next((time for time in self.entered.get(name, []) if first <= time <= last), None)
        for number in self._zones_named(zone):
            if passage is None or number in self.zones.with_switches:
                yield Need(number, first, last, passage, head)

    def _zones_named(self, zone: Spot) -> set[int]:
        try:
            found = self.zones.named(zone.text())
        except ValueError as wrong:
            raise zone.wrong(str(wrong)) from None
        if len(found) != 1:
            heading = ("Zones in parts here, all of which are taken" if found else
                       "Zones that the network does not have, left out")
            self.report.note(heading, f"{self.name}: {zone.text()}")
        return found


def _passage_of(one: Spot) -> Passage:
    """How a route passes a zone."""
    switches = one.optional("switches")
    if switches is not None and not isinstance(switches.value, dict):
        raise switches.wrong("is no object")
    ways = sorted((switches.value if switches else {}).items())
    return (one.member("entry_detector").text(), one.member("exit_detector").text(),
            tuple((str(switch), str(way)) for switch, way in ways))


def _needs_of_work(work: Spot, name: str, zones: OsrdZones, clock: Clock, report: Report
                   ) -> Iterator[Need]:
    """What works close: each zone of which a part lies on their tracks."""
    begin, end = (_moment_of(work.member(key), clock)
                  for key in ("start_date_time", "end_date_time"))
    if end < begin:
        raise work.member("end_date_time").wrong("is before its begin")
    closed = set()
    for one in work.elements_of("track_ranges"):
        track = one.member("track").text()
        low, high = (one.member(key).number() for key in ("begin", "end"))
        if not 0 <= low <= high < math.inf:
            raise one.wrong("must begin at 0 m or behind, and end no earlier than it begins")
        if not zones.has_track(track):
            report.note("Tracks of works that the network does not have", f"{name}: {track}")
            continue
        if zones.is_beyond(track, high):
            report.note("Works beyond the end of a track, its last zone is closed",
                        f"{name}: {track} to {high} m")
        closed |= zones.on(track, low, high)
    for zone in sorted(closed):
        yield Need(zone, begin, end)
