"""The running of a train as a whole body: traction, resistance, slopes and curves under all of its
length, limits that hold until its tail is past them, and braking.

The train is gone through by distance: backward for the speeds from which it can still brake,
forward for those that its traction reaches. Lengths are metres, speeds metres a second, masses
kilograms, forces newtons, gradients per mille.
"""
from __future__ import annotations

import math
from bisect import bisect_left, bisect_right
from collections.abc import Callable, Sequence
from dataclasses import dataclass

GRAVITY = 9.81
STEP_M = 10.0
"""How finely a way is gone through, by itself."""
STALLED_M_S = 1.0
"""A train that gets slower than this on its way does not get on."""
KEPT_M_S = 2.0
"""A driver who keeps to his times does not go slower than this."""
CURVE = 800.0
"""A curve of R metres resists as a rise of CURVE / R per mille does."""


@dataclass(frozen=True)
class Vehicle:
    """A train as a body. Its `efforts` belong to `speeds`, with straight lines between them;
    `resistance` is A + B v + C v²; `inertia` is by how much turning masses add to its mass."""

    mass_kg: float
    length_m: float
    top_m_s: float
    speeds: tuple[float, ...]
    efforts: tuple[float, ...]
    resistance: tuple[float, float, float]
    inertia: float
    comfort_m_s2: float
    brake_m_s2: float

    def effort(self, speed: float) -> float:
        """The greatest pull at a speed."""
        after = bisect_right(self.speeds, speed)
        if after == 0 or after == len(self.speeds):
            return self.efforts[after - 1 if after else 0]
        low, high = self.speeds[after - 1], self.speeds[after]
        share = (speed - low) / (high - low)
        return self.efforts[after - 1] + share * (self.efforts[after] - self.efforts[after - 1])

    def drag(self, speed: float, gradient: float) -> float:
        """What holds the train back, on a mean gradient under it."""
        a, b, c = self.resistance
        return a + speed * (b + speed * c) + self.mass_kg * GRAVITY * gradient / 1000

    def gain(self, speed: float, gradient: float) -> float:
        """The acceleration at full pull, at most the comfortable one."""
        free = self.effort(speed) - self.drag(speed, gradient)
        return min(self.comfort_m_s2, free / (self.mass_kg * self.inertia))

    def balance(self, gradient: float) -> float:
        """The greatest speed that the train keeps on a gradient; 0 where it does not start."""
        if self.gain(0.0, gradient) <= 0:
            return 0.0
        low, high = 0.0, self.top_m_s
        if self.gain(high, gradient) >= 0:
            return high
        while high - low > 1e-6:
            middle = (low + high) / 2
            low, high = (middle, high) if self.gain(middle, gradient) > 0 else (low, middle)
        return low


class Slope:
    """Gradients along a way, one from each place on, and their mean over a stretch."""

    def __init__(self, pieces: Sequence[tuple[float, float]]) -> None:
        """`pieces` are lengths and gradients, in the order of the way; before and behind them it is
        level."""
        self._at, self._rise, self._gradient = [0.0], [0.0], [0.0]
        for length, gradient in pieces:
            self._gradient[-1] = gradient
            self._at.append(self._at[-1] + length)
            self._rise.append(self._rise[-1] + length * gradient)
            self._gradient.append(0.0)

    def _risen(self, place: float) -> float:
        if place <= 0:
            return 0.0
        at = min(bisect_right(self._at, place), len(self._at)) - 1
        return self._rise[at] + (place - self._at[at]) * self._gradient[at]

    def mean(self, begin: float, end: float) -> float:
        """The mean gradient between two places."""
        return (self._risen(end) - self._risen(begin)) / (end - begin)


def held_until_tail(limits: Sequence[tuple[float, float]], length: float
                    ) -> list[tuple[float, float]]:
    """The limits of a train's head, as places from which each holds, of limits along a way: lengths
    and speeds. A lower limit holds on until the train's tail is past it."""
    places = [0.0]
    for stretch, _ in limits:
        places.append(places[-1] + stretch)
    spans = [(begin, end + length, speed)
             for begin, end, (_, speed) in zip(places, places[1:], limits)]
    marks = sorted({mark for begin, end, _ in spans for mark in (begin, end)
                    if mark < places[-1]})
    return [(mark, min(speed for begin, end, speed in spans if begin <= mark < end))
            for mark in marks]


@dataclass(frozen=True)
class Running:
    """The head of a train along a way: at each place its speed, and the time since the way's begin.
    """

    places: list[float]
    speeds: list[float]
    times: list[float]

    def time_at(self, place: float) -> float:
        """When the head is at a place."""
        return self._between(place, self.times)

    def speed_at(self, place: float) -> float:
        """How fast the head passes a place."""
        return self._between(place, self.speeds)

    def _between(self, place: float, values: list[float]) -> float:
        after = bisect_left(self.places, place)
        if after == 0:
            return values[0]
        if after == len(self.places):
            return values[-1]
        low, high = self.places[after - 1], self.places[after]
        share = (place - low) / (high - low)
        if values is not self.times:
            return values[after - 1] + share * (values[after] - values[after - 1])
        # Between two places the speed's square changes evenly.
        v0, v1 = self.speeds[after - 1], self.speeds[after]
        here = math.sqrt(max(0.0, v0 * v0 + share * (v1 * v1 - v0 * v0)))
        return self.times[after - 1] + 2 * (place - low) / max(1e-9, v0 + here)


class Stalled(Exception):
    """A train does not get on; where, in metres from the way's begin."""

    def __init__(self, place: float) -> None:
        super().__init__(place)
        self.place = place


@dataclass(frozen=True)
class Way:
    """What a train runs over: the length of the part that it is timed on, lengths and gradients and
    lengths and limits that begin so many metres before that part, so that they lie under its tail.
    """

    length: float
    before: float
    gradients: Sequence[tuple[float, float]]
    limits: Sequence[tuple[float, float]]


def run(train: Vehicle, way: Way, first: float, last: float, step: float = STEP_M) -> Running:
    """The least running time over a way, entered at a speed (at most) and left at a speed (at
    most); Stalled where it does not get on."""
    count = max(1, math.ceil(way.length / step))
    places = [way.length * at / count for at in range(count + 1)]
    return run_within(train, way, places, ceilings_of(train, way, places, last), first)


def run_within(train: Vehicle, way: Way, places: Sequence[float], ceilings: Sequence[float],
               first: float, keeps: Callable[[float, float], float] | None = None) -> Running:
    """The run over a way by its places, below the greatest speed at each. `keeps` is the speed that
    a driver keeps to at a place and a time since the way's begin, where he has times to keep to."""
    slope = Slope(way.gradients)
    speeds, times = [min(first, ceilings[0])], [0.0]
    for place, after, ceiling in zip(places, places[1:], ceilings[1:]):
        speed, pace = speeds[-1], after - place
        middle = way.before + place + pace / 2
        gradient = slope.mean(middle - train.length_m, middle)
        reached = _after(train, speed, gradient, pace)
        if reached < STALLED_M_S and ceiling >= STALLED_M_S and speed >= reached:
            raise Stalled(place)
        if keeps is not None:
            kept = max(keeps(place, times[-1]), KEPT_M_S)
            slower = math.sqrt(max(0.0, speed * speed - 2 * train.brake_m_s2 * pace))
            reached = min(reached, max(kept, slower))
        speeds.append(min(ceiling, reached))
        times.append(times[-1] + 2 * pace / max(1e-6, speed + speeds[-1]))
    return Running(list(places), speeds, times)


def _after(train: Vehicle, speed: float, gradient: float, pace: float) -> float:
    """The speed at full pull some metres on: by the mean of the accelerations at both ends."""
    gain = train.gain(speed, gradient)
    guess = math.sqrt(max(0.0, speed * speed + 2 * gain * pace))
    gain = (gain + train.gain(guess, gradient)) / 2
    return math.sqrt(max(0.0, speed * speed + 2 * gain * pace))


def ceilings_of(train: Vehicle, way: Way, places: Sequence[float], last: float) -> list[float]:
    """The greatest speed at each place from which all limits ahead can still be kept."""
    steps = held_until_tail(way.limits, train.length_m)
    marks = [mark for mark, _ in steps]
    stretches = []
    for begin, end in zip(places, places[1:]):
        # Of a stretch between two places the least limit counts.
        low = max(0, bisect_right(marks, way.before + begin + 1e-9) - 1)
        high = max(low + 1, bisect_left(marks, way.before + end - 1e-9))
        stretches.append(min([train.top_m_s, *(limit for _, limit in steps[low:high])]))
    ceilings = [stretches[0], *(min(pair) for pair in zip(stretches, stretches[1:])),
                min(stretches[-1], last)]
    for number in range(len(places) - 2, -1, -1):
        pace = places[number + 1] - places[number]
        braking = math.sqrt(ceilings[number + 1] ** 2 + 2 * train.brake_m_s2 * pace)
        ceilings[number] = min(ceilings[number], braking)
    return ceilings
