"""From times to ticks: conflicts of a plan, ticks shared by rounding, and whose each is."""
from __future__ import annotations

from collections import defaultdict
from collections.abc import Iterator, Sequence
from dataclasses import dataclass, replace
from typing import Any

from kidrofemba.plan.needs import Need, Owner

FARTHEST_TICK = 100_000
BEFORE_S = 3_600
"""What ends longer than this before tick 0 stands in no path's way: no train is seen so early."""


@dataclass(frozen=True)
class Conflict:
    """Two of a plan, by their places in it, that need a zone at once, in milliseconds."""

    zone: int
    one: int
    other: int
    begin: int
    end: int
    what: str


@dataclass(frozen=True)
class Span:
    """A need of an owner, and its ticks: from `first` on and before `last`, and that in which the
    head enters, where it is told."""

    owner: int
    need: Need
    first: int
    last: int
    head: int | None


def conflicts_of(owners: Sequence[Owner], needs: Sequence[list[Need]]) -> list[Conflict]:
    """Where the plan has a zone twice at once: two blocking times, a blocking time and works, or
    two routes that pass the zone otherwise. Works may close a zone together."""
    by_zone: dict[int, list[tuple[int, Need]]] = defaultdict(list)
    for owner, taken in enumerate(needs):
        for need in taken:
            by_zone[need.zone].append((owner, need))
    found: dict[tuple[int, int, int], Conflict] = {}
    for zone, needed in sorted(by_zone.items()):
        needed.sort(key=lambda one: (one[1].begin, one[0]))
        for (one, earlier), (other, later) in _overlapping(needed):
            what = _conflict_between(owners[one], earlier, owners[other], later)
            end = min(earlier.end, later.end)
            if one != other and what is not None:
                pair = (zone, min(one, other), max(one, other))
                found.setdefault(pair, Conflict(zone, one, other, later.begin, end, what))
    return list(found.values())


def _overlapping(taken: list[tuple[int, Need]]
                 ) -> Iterator[tuple[tuple[int, Need], tuple[int, Need]]]:
    """The pairs of needs that overlap, the earlier first; they stand by their begins."""
    open_ones: list[tuple[int, Need]] = []
    for later in taken:
        open_ones = [one for one in open_ones if one[1].end > later[1].begin]
        if later[1].end > later[1].begin:
            yield from ((earlier, later) for earlier in open_ones)
            open_ones.append(later)


def _conflict_between(one: Owner, earlier: Need, other: Owner, later: Need) -> str | None:
    """What is wrong with two needs of a zone that overlap, if anything is."""
    if one.is_work and other.is_work:
        return None
    if earlier.passage is None and later.passage is None:
        return "both have it"
    if earlier.passage is not None and later.passage is not None:
        differ = earlier.passage != later.passage
        return "have routes set through it in two ways" if differ else None
    return None


def widened(owners: Sequence[Owner], needs: Sequence[list[Need]], gap_s: int) -> list[list[Need]]:
    """The needs of trains, each longer by so many seconds before and after; works stay."""
    gap = 1000 * gap_s
    return [taken if owner.is_work else
            [replace(need, begin=need.begin - gap, end=need.end + gap) for need in taken]
            for owner, taken in zip(owners, needs)]


def spans_of(needs: Sequence[list[Need]], tick_s: int, setting: int, end: int
             ) -> dict[int, list[Span]]:
    """The ticks of needs by zone, each zone's in the order of their begins, without those that
    stand in no path's way: those over long before tick 0, and those that begin at tick `end`, when
    the last path has left, or later."""
    spans: dict[int, list[Span]] = defaultdict(list)
    tick_ms = 1000 * tick_s
    begin = -setting - -(-BEFORE_S // tick_s)
    for owner, taken in enumerate(needs):
        for need in taken:
            first = need.begin // tick_ms
            last = max(first + 1, -(-need.end // tick_ms))
            if last > begin and first < end:
                head = None if need.head is None else need.head // tick_ms
                spans[need.zone].append(Span(owner, need, max(first, -FARTHEST_TICK),
                                             min(last, FARTHEST_TICK), head))
    for row in spans.values():
        row.sort(key=lambda one: (one.need.begin, one.owner))
    return dict(sorted(spans.items()))


def shared_by_rounding(spans: dict[int, list[Span]]) -> Iterator[tuple[int, Span, Span, int]]:
    """The blocking times of two that share a tick and no moment: the zone, the earlier and the
    later, and the milliseconds between them."""
    for zone, row in spans.items():
        open_ones: list[Span] = []
        for later in row:
            if later.need.passage is not None:
                continue
            open_ones = [one for one in open_ones if one.last > later.first]
            for earlier in open_ones:
                apart = later.need.begin - earlier.need.end
                if apart >= 0 and earlier.owner != later.owner:
                    yield zone, earlier, later, apart
            open_ones.append(later)


def held_within(spans: dict[int, list[Span]], owners: int
                ) -> tuple[list[list[dict[str, Any]]], int]:
    """The requirements of each owner for a base file, in which each tick of a zone is given to the
    first that wants it, and how many ticks of zones were wanted by another besides."""
    held: list[list[dict[str, Any]]] = [[] for _ in range(owners)]
    shared = 0
    for zone, row in spans.items():
        taken_until = -FARTHEST_TICK
        wanted_until: dict[int, int] = {}
        for span in row:
            wanted = max(span.first, wanted_until.get(span.owner, -FARTHEST_TICK))
            wanted_until[span.owner] = max(span.last, wanted)
            first = max(wanted, taken_until)
            shared += max(0, min(first, span.last) - wanted)
            if first < span.last:
                _give(held[span.owner], zone, first, span)
                taken_until = span.last
    for claims in held:
        claims.sort(key=lambda one: (one["from"], one["zone"]))
    return held, shared


def _give(claims: list[dict[str, Any]], zone: int, first: int, span: Span) -> None:
    """Gives a zone from a tick on to whom a span belongs."""
    head = {} if span.head is None else {"head": span.head}
    if claims and claims[-1]["zone"] == zone and claims[-1]["to"] == first:
        claims[-1] = head | claims[-1] | {"to": span.last}
    else:
        claims.append({"zone": zone, "from": first, "to": span.last} | head)
