"""The running time of each block by simulation, and the speed at which the server's formula gives
that time.

A train comes onto a block in several ways, and leaves it in several. Of all of them the slowest
counts: the lowest speed at which it may come in, the steepest tail behind it, the limits under its
tail, and braking for the lowest limit ahead. So no train is later than its block says; one that
comes in faster is earlier.
"""
from __future__ import annotations

import math
from collections.abc import Mapping
from dataclasses import dataclass, field

from kidrofemba.reality.line_data import ClassLine
from kidrofemba.reality.physics import Running, Slope, Stalled, Vehicle, Way, run
from kidrofemba.reality.plain import PlainNetwork

FREE = 1e3
STEP_M = 20.0
LEAST_START = 0.01
"""A train does not start where it gains less than this, in metres a second squared."""
MOST_ROUNDS = 60
Pieces = list[tuple[float, float]]


@dataclass
class BlockTimes:
    """The blocks of a class with their seconds, and those left out with the reason. `lag_s` is by
    how much the head is at most later inside a block than at an even speed."""

    seconds: dict[int, float] = field(default_factory=dict)
    left_out: dict[int, str] = field(default_factory=dict)
    lag_s: dict[int, float] = field(default_factory=dict)


class Simulation:
    """A class of trains on a network."""

    def __init__(self, line: ClassLine, plain: PlainNetwork) -> None:
        self.train: Vehicle = line.one.vehicle
        self.plain = plain
        self.times = BlockTimes()
        self.gradients: dict[int, Pieces] = {}
        self.limits: dict[int, Pieces] = {}
        for number, block in enumerate(plain.blocks):
            wrong = line.why_not(block)
            if wrong is not None:
                self.times.left_out[number] = wrong
                continue
            self.gradients[number] = line.gradients(block)
            self.limits[number] = line.limits(block)
        self.kept = set(self.gradients)

    def solve(self) -> BlockTimes:
        """The times of all blocks that the class can run on."""
        while True:
            self.allowed = self._allowed()
            lost = self._round()
            if not lost:
                return self.times
            self.times.left_out |= lost
            self.kept -= set(lost)

    def _allowed(self) -> dict[int, float]:
        """The speed at each block's begin from which all that lies ahead can be kept."""
        allowed = {number: FREE for number in self.kept}
        waiting = list(self.kept)
        rounds = 0
        while waiting and rounds < MOST_ROUNDS * len(self.kept):
            number = waiting.pop()
            rounds += 1
            ahead = min((allowed[one] for one in self.plain.behind[number] if one in allowed),
                        default=FREE)
            made = self._ceiling(number, ahead)
            if made < allowed[number] - 0.01:
                allowed[number] = made
                waiting += [one for one in self.plain.before[number] if one in self.kept]
        return allowed

    def _ceiling(self, number: int, ahead: float) -> float:
        """The greatest speed at a block's begin from which it can brake for all limits on it."""
        best, at, brake = FREE, 0.0, 2 * self.train.brake_m_s2
        for length, limit in self.limits[number]:
            best = min(best, math.sqrt(limit * limit + brake * at))
            at += length
        return min(best, math.sqrt(ahead * ahead + brake * at), self.train.top_m_s)

    def _round(self) -> dict[int, str]:
        """Times of all blocks; those that cannot be climbed instead, where there are some."""
        out = {number: FREE for number in self.kept}
        worst: dict[int, int | None] = {}
        lost: dict[int, str] = {}
        self.times.seconds, self.times.lag_s = {}, {}
        waiting, queued, rounds = sorted(self.kept), set(self.kept), 0
        while waiting and rounds < MOST_ROUNDS * len(self.kept):
            number = waiting.pop(0)
            queued.discard(number)
            rounds += 1
            sources: list[int | None] = [one for one in self.plain.before[number]
                                         if one in self.kept]
            sources = sources or [None]
            slowest = FREE
            for source in sources:
                try:
                    told = self._run(number, source, out, worst)
                except Stalled as stalled:
                    lost[number] = f"does not get on {stalled.place:.0f} m from its begin"
                    break
                self._note(number, told)
                if told.speeds[-1] < slowest:
                    slowest, worst[number] = told.speeds[-1], source
            if number not in lost and slowest < out[number] - 0.05:
                out[number] = slowest
                for one in self.plain.behind[number]:
                    if one in self.kept and one not in queued:
                        waiting.append(one)
                        queued.add(one)
        return lost

    def _note(self, number: int, told: Running) -> None:
        seconds = told.times[-1]
        length = self.plain.blocks[number].length_m
        if seconds > self.times.seconds.get(number, 0.0):
            self.times.seconds[number] = seconds
        lag = max(time - seconds * place / length
                  for place, time in zip(told.places, told.times))
        self.times.lag_s[number] = max(lag, self.times.lag_s.get(number, 0.0))

    def _run(self, number: int, source: int | None, out: Mapping[int, float],
             worst: Mapping[int, int | None]) -> Running:
        """The train on a block behind another one, or where there is none at its full speed."""
        chain, before, behind = [number], 0.0, source
        while behind is not None and before < self.train.length_m and len(chain) < 50:
            chain.append(behind)
            before += self.plain.blocks[behind].length_m
            behind = worst.get(behind)
        chain.reverse()
        gradients = [piece for one in chain for piece in self.gradients[one]]
        limits = [piece for one in chain for piece in self.limits[one]]
        length = float(self.plain.blocks[number].length_m)
        self._judge_start(Slope(gradients), before, length)
        ahead = min((self.allowed[one] for one in self.plain.behind[number] if one in self.kept),
                    default=FREE)
        first = self.train.top_m_s if source is None else min(out[source], self.train.top_m_s)
        return run(self.train, Way(length, before, gradients, limits), first, ahead, STEP_M)

    def _judge_start(self, slope: Slope, before: float, length: float) -> None:
        """Stalled where the train could not start from a stand."""
        count = max(1, math.ceil(length / 100))
        for at in range(count + 1):
            place = length * at / count
            gradient = slope.mean(before + place - self.train.length_m, before + place)
            if self.train.gain(0.0, gradient) < LEAST_START:
                raise Stalled(place)


def speeds_of(plain: PlainNetwork, seconds: Mapping[int, float], tick_s: int) -> dict[int, int]:
    """The speed of each block in mm/s at which it takes whole ticks by the server's formula: what
    rounding up gives a train is carried on to the block behind, so that on a line it is less than a
    tick in all; where lines come together the least of it is carried."""
    ready: dict[int, float] = {}
    speeds: dict[int, int] = {}
    for number in _in_order(plain, set(seconds)):
        sources = [one for one in plain.before[number] if one in seconds]
        known = [ready[one] for one in sources if one in ready]
        spare = min(known) if known and len(known) == len(sources) else 0.0
        ticks = max(1, math.ceil((seconds[number] - spare) / tick_s - 1e-9))
        ready[number] = min(spare + ticks * tick_s - seconds[number], float(tick_s))
        metres = plain.blocks[number].length_m
        least = -(-1000 * metres // (ticks * tick_s))
        # Of a short block the true speed: at a lower one its sight would last for ticks on end.
        true = math.floor(1000 * metres / seconds[number]) if ticks < 3 else 1
        speeds[number] = min(200_000, max(1, least, true))
    return speeds


def _in_order(plain: PlainNetwork, kept: set[int]) -> list[int]:
    """The blocks such that, where no ring leads back, each stands behind those before it."""
    left = {number: sum(one in kept for one in plain.before[number]) for number in kept}
    free = sorted(number for number, count in left.items() if count == 0)
    rest = sorted(kept)
    order: list[int] = []
    done: set[int] = set()
    while len(order) < len(kept):
        if not free:
            while rest and rest[0] in done:
                rest.pop(0)
            free.append(rest[0])
        number = free.pop()
        if number in done:
            continue
        done.add(number)
        order.append(number)
        for one in plain.behind[number]:
            if one in kept and one not in done:
                left[one] -= 1
                if left[one] <= 0:
                    free.append(one)
    return order
