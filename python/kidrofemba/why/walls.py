"""Who stands in a train's way, told from a proof that no path can be granted.

The proof holds each place that the train can come to, with the ticks at which it may be there. What
bars the moves from there are claims on zones; whoever has these is in its way. Of each of them it
is found whether the proof still holds without its claims: where it does, the train would find no
path even so.
"""
from __future__ import annotations

from collections import defaultdict
from collections.abc import Iterator, Sequence
from dataclasses import dataclass, field
from heapq import heappop, heappush

from kidrofemba.why.members import (LOW, START, Asked, Judge, Line, Place, Proof, Step, bits_of,
                                    busy_of, held_by, moved)


@dataclass(frozen=True)
class Holder:
    """Who has zones: a planned train, by its place in the base file, or an entry of the journal."""

    name: str
    claims: tuple[tuple[int, int, int], ...]
    planned: int | None = None
    entry: int | None = None


@dataclass(frozen=True)
class Claim:
    """A holder's claim on a zone."""

    holder: int
    zone: int
    begin: int
    end: int


@dataclass(frozen=True)
class Wall:
    """A claim that bars moves from places that the train comes to: the first and the last tick at
    which it does, how many metres are left there to the end of the way, and whether a move is
    barred that leads on to where the train never comes."""

    claim: Claim
    first: int
    last: int
    left: int
    at_front: bool


@dataclass
class _Barred:
    """What a claim bars: ticks, and the move that is nearest to the end."""

    ticks: int = 0
    left: int = 1 << 62
    at_front: bool = False


@dataclass(frozen=True)
class _Move:
    """A move that may be a part of a path to the end: where it leads, or None where it ends the
    path, and the metres that are left before it."""

    step: Step
    following: Place | None
    left: int


@dataclass
class Reached:
    """What a proof tells: what is in the train's way, from which places a holder may be, at which
    ticks the train could arrive were the window of its arrival another, how many metres are left to
    the end of the way from where it comes nearest, and the operational points that it comes to
    nearest to the end."""

    walls: list[Wall] = field(default_factory=list)
    places_of: dict[int, set[Place]] = field(default_factory=lambda: defaultdict(set))
    arrivals: int = 0
    left: int = 1 << 62
    past: tuple[str, ...] = ()


class Ways:
    """The moves of a request that lead to the end of its way, whatever stands there."""

    def __init__(self, line: Line, asked: Asked):
        self.line = line
        self._moves: dict[Place, list[tuple[Step, Place | None]]] = {}
        before: dict[Place, list[Place]] = defaultdict(list)
        ends: list[tuple[int, Place]] = []
        for place in (START, *line.places(asked)):
            self._moves[place] = []
            for step, is_end in line.moves(asked, place):
                following = None if is_end else line.after(place, step)
                self._moves[place].append((step, following))
                if following is None:
                    heappush(ends, (self._metres(step), place))
                else:
                    before[following].append(place)
        self.left = self._left_of(ends, before)

    def _metres(self, step: Step) -> int:
        return self.line.blocks[step.block].length

    def _left_of(self, queue: list[tuple[int, Place]], before: dict[Place, list[Place]]
                 ) -> dict[Place, int]:
        """The least metres from a place to the end of the way; none where no way leads there."""
        left: dict[Place, int] = {}
        while queue:
            metres, place = heappop(queue)
            if place not in left:
                left[place] = metres
                length = self.line.blocks[place.tail[-1]].length if place.tail else 0
                for other in before[place]:
                    if other not in left:
                        heappush(queue, (metres + length, other))
        return left

    def moves(self, place: Place) -> Iterator[_Move]:
        """The moves from a place that lead to the end."""
        for step, following in self._moves.get(place, []):
            if following is None or following in self.left:
                yield _Move(step, following, self.left[place])


class Walls:
    """The claims of holders, and what they bar of a line's moves."""

    def __init__(self, line: Line, holders: Sequence[Holder]):
        self.line, self.holders = line, holders
        self.busy = busy_of(claim for holder in holders for claim in holder.claims)
        self.judge, self.unbarred = Judge(line, self.busy), Judge(line, {})
        self.on_zone: dict[int, list[Claim]] = defaultdict(list)
        for number, holder in enumerate(holders):
            for zone, begin, end in holder.claims:
                self.on_zone[zone].append(Claim(number, zone, begin, end))

    def reached(self, proof: Proof, ways: Ways) -> Reached:
        """What a proof that holds tells."""
        held = held_by(proof.members)
        blocks = {place.tail[-1] for place in held}
        found, barred = Reached(), defaultdict[Claim, _Barred](_Barred)
        for place, ticks in [(START, bits_of(*proof.asked.depart)), *held.items()]:
            entering = self._entering(self.judge, proof.asked, place, ticks)
            wanted = self._entering(self.unbarred, proof.asked, place, ticks)
            for move in ways.moves(place):
                if move.following is None:
                    found.arrivals |= self._arrivals(place, move.step, entering)
                onward = move.following is None or move.step.block not in blocks
                for claim, bars in self._barring(place, move):
                    if bars & wanted:
                        found.places_of[claim.holder].add(place)
                    _add(barred, claim, bars & entering, move.left, onward)
                for claim, bars in self._standing_before(place, ticks, wanted):
                    found.places_of[claim.holder].add(place)
                    _add(barred, claim, bars, move.left, onward)
        self._tell_nearest(found, ways, [START, *held])
        found.walls = sorted((_wall(*one) for one in barred.items()), key=lambda wall: (
            not wall.at_front, wall.left, wall.first, wall.claim.zone))
        return found

    def arrivals_alone(self, asked: Asked, ways: Ways) -> int:
        """The ticks at which the train could arrive with nothing in its way, those of its window
        alone as soon as there is one."""
        held: dict[Place, int] = defaultdict(int)
        queue = [(LOW, START, bits_of(*asked.depart))]
        arrivals, wanted = 0, bits_of(*asked.arrive)
        while queue:
            _, place, ticks = heappop(queue)
            entering = self._entering(self.unbarred, asked, place, ticks)
            for move in ways.moves(place):
                leaves = moved(entering & self.unbarred.entries(place, move.step),
                               self.line.run(place, move.step))
                if move.following is None:
                    arrivals |= leaves
                    if arrivals & wanted:
                        return arrivals & wanted
                    continue
                fresh = leaves & ~held[move.following]
                if fresh:
                    held[move.following] |= fresh
                    heappush(queue, ((fresh & -fresh).bit_length() + LOW, move.following, fresh))
        return arrivals

    def _tell_nearest(self, found: Reached, ways: Ways, places: list[Place]) -> None:
        """Tells how near the train comes to the end, and past which operational points."""
        onward = [place for place in places if place in ways.left]
        serving = [place for place in onward
                   if place.tail and self.line.blocks[place.tail[-1]].serves]
        found.left = min(ways.left[place] for place in onward)
        if serving:
            nearest = min(serving, key=lambda place: (ways.left[place], place))
            found.past = self.line.blocks[nearest.tail[-1]].serves

    def _entering(self, judge: Judge, asked: Asked, place: Place, ticks: int) -> int:
        """The ticks at which a train goes on from a place that it reaches at these."""
        return ticks if place == START else judge.onward(asked, place, ticks)

    def _arrivals(self, place: Place, step: Step, entering: int) -> int:
        """The ticks at which a path may end with this move."""
        leaves = moved(entering & self.judge.entries(place, step), self.line.run(place, step))
        return self.judge.ends(self.line.after(place, step), leaves)

    def _barring(self, place: Place, move: _Move) -> Iterator[tuple[Claim, int]]:
        """The claims that can bar a move, each with the ticks of entry that it bars."""
        run = self.line.run(place, move.step)
        horizon = bits_of(0, self.line.settings.horizon - run)
        pieces = self.line.pieces(place, move.step)
        if move.following is None:
            standing = self.line.uncleared(self.line.after(place, move.step).tail)
            pieces += [(zone, run, run + self.line.settings.release) for zone, _ in standing]
        for zone, begin, end in pieces:
            for claim in self.on_zone.get(zone, []):
                bars = horizon & bits_of(claim.begin - end + 1, claim.end - begin - 1)
                if bars:
                    yield claim, bars

    def _standing_before(self, place: Place, ticks: int, wanted: int
                         ) -> Iterator[tuple[Claim, int]]:
        """The claims that are the next ones on the zones in which the train stands, reached at some
        of these ticks: it must be gone when they begin. Each comes with ticks at which the train
        can't go on for that."""
        if place == START or not place.stands or not wanted:
            return
        lowest = (wanted & -wanted).bit_length() - 1 + LOW
        zones = {zone for zone, _ in self.line.uncleared(place.tail)}
        claims = sorted((claim for zone in zones for claim in self.on_zone.get(zone, [])),
                        key=lambda claim: claim.begin)
        before = LOW - 1
        for at, claim in enumerate(claims):
            if at and claims[at - 1].begin < claim.begin:
                before = claims[at - 1].begin
            if ticks & bits_of(before + 1, claim.begin):
                bars = bits_of(max(claim.begin + 1, lowest), max(claim.end, lowest))
                yield claim, bars & wanted

    def opens_without(self, proof: Proof, reached: Reached, holder: int) -> bool:
        """Whether the proof no longer holds once a holder's claims are taken out."""
        busy = dict(self.busy)
        for zone, begin, end in self.holders[holder].claims:
            busy[zone] &= ~bits_of(begin, end - 1)
        judge = Judge(self.line, busy)
        return judge.opened(proof.asked, held_by(proof.members),
                            reached.places_of[holder]) is not None


def _add(barred: dict[Claim, _Barred], claim: Claim, bars: int, left: int, onward: bool) -> None:
    """Adds what a claim bars of one move."""
    if bars:
        one = barred[claim]
        one.ticks |= bars
        one.left = min(one.left, left)
        one.at_front |= onward


def _wall(claim: Claim, barred: _Barred) -> Wall:
    first = (barred.ticks & -barred.ticks).bit_length() - 1 + LOW
    last = barred.ticks.bit_length() - 1 + LOW
    return Wall(claim, first, last, barred.left, barred.at_front)
