"""A train run by small steps of time: the independent model that simulated running times and sold
paths are held to. It shares nothing with the program's own simulation, which goes by distance.

The train's weight is spread over its length, so that what pulls it down a slope is the height
between its head and its tail; heights are kept for each metre. The driver looks ahead at each
moment: he brakes as soon as he must for a limit or a stop ahead, and pulls with all there is else.
The equation is integrated by the middle point of each step.
"""
from __future__ import annotations

from dataclasses import dataclass, field

G = 9.81


@dataclass
class Body:
    """A train: masses in kg, metres, metres a second; `curve` are (speed, newtons)."""

    mass: float
    length: float
    top: float
    curve: list[tuple[float, float]]
    davis: tuple[float, float, float]
    inertia: float
    comfort: float
    brake: float

    def pull(self, v: float) -> float:
        last = self.curve[0]
        for point in self.curve:
            if point[0] >= v:
                if point[0] == last[0]:
                    return point[1]
                return last[1] + (v - last[0]) * (point[1] - last[1]) / (point[0] - last[0])
            last = point
        return self.curve[-1][1]


@dataclass
class Road:
    """Spans along a way in metres, which may begin below 0 (under the tail): gradients in per mille
    with begin and end, and limits with begin and end; stops are places at which the head stands,
    with the moment before which it does not go on."""

    slopes: list[tuple[float, float, float]]
    limits: list[tuple[float, float, float]]
    length: float
    stops: list[tuple[float, float]] = field(default_factory=list)
    #: Places that the head does not pass before a moment, in their order.
    not_before: list[tuple[float, float]] = field(default_factory=list)


@dataclass
class Log:
    """Moments and places of the head."""

    t: list[float]
    x: list[float]
    v: list[float]

    def when(self, place: float) -> float:
        """The first moment at which the head is at a place or beyond."""
        low, high = 0, len(self.x) - 1
        if place > self.x[high] + 0.5:
            raise ValueError(f"it never comes to {place}")
        while low < high:
            mid = (low + high) // 2
            low, high = (mid + 1, high) if self.x[mid] < place else (low, mid)
        if low == 0 or self.x[low] == self.x[low - 1]:
            return self.t[low]
        share = (place - self.x[low - 1]) / (self.x[low] - self.x[low - 1])
        return self.t[low - 1] + min(1.0, max(0.0, share)) * (self.t[low] - self.t[low - 1])


def drive(body: Body, road: Road, v: float, t: float, dt: float = 0.1, stop_at_end: bool = True,
          most: float = 200_000.0) -> Log:
    """The run of a train from place 0 at a speed and a moment to the end of the road."""
    stops = list(road.stops) + ([(road.length, t)] if stop_at_end else [])
    stops.sort()
    # A limit holds from its begin until the tail is past its end.
    spans = sorted((begin, end + body.length, limit) for begin, end, limit in road.limits)
    heights = _heights(road, body.length)
    x, log = 0.0, Log([t], [0.0], [v])
    first_span, first_time = 0, 0
    while x < road.length - 1e-6:
        while first_span < len(spans) and spans[first_span][1] < x:
            first_span += 1
        goal, leave = stops[0] if stops else (float("inf"), 0.0)
        near = v * v / (2 * body.brake) + v * dt + 5
        allowed, must = body.top, False
        for begin, end, limit in spans[first_span:]:
            if begin > x + near + 50:
                break
            if begin <= x < end:
                allowed = min(allowed, limit)
            elif begin > x and v > limit:
                must = must or v * v - limit * limit >= 2 * body.brake * (begin - x - v * dt)
        must = must or v * v >= 2 * body.brake * (goal - x - v * dt)
        while first_time < len(road.not_before) and road.not_before[first_time][0] <= x:
            first_time += 1
        if first_time < len(road.not_before):
            place, moment = road.not_before[first_time]
            if goal <= place:
                # Braking to a stand loses v / 2c.
                moment -= v / (2 * body.brake)
            if moment > t:
                allowed = min(allowed, max(2.0, (place - x) / (moment - t)))
        if must or v > allowed + 1e-9:
            a = -body.brake
        else:
            k1 = _gain(body, heights, v, x)
            middle = max(0.0, v + k1 * dt / 2)
            a = _gain(body, heights, middle, x + v * dt / 2)
        new = v + a * dt
        if a > 0:
            new = min(new, max(allowed, v))
        elif a == -body.brake and not must:
            new = max(new, allowed)
        if new <= 0 and not must:
            raise ValueError(f"stalls at {x}")
        if must and new <= 0.15:
            # It stands: the last decimetres before the place are crept.
            new = 0.15
        x += (v + new) / 2 * dt
        v = new
        t += dt
        if x >= goal - 1e-3:
            x = max(x, goal)
            stops.pop(0)
            v = 0.0
            log.t.append(t), log.x.append(x), log.v.append(v)
            if t < leave:
                t = leave
        log.t.append(t), log.x.append(x), log.v.append(v)
        if t > most:
            raise ValueError(f"does not come on at {x}")
    return log


def _heights(road: Road, length: float) -> tuple[list[float], int]:
    """The height in metres at each metre of the way, from a train's length before its begin on, and
    at which of these the way begins."""
    before, count = int(length) + 2, int(road.length) + 60
    rise = [0.0] * (before + count)
    for begin, end, gradient in road.slopes:
        for metre in range(max(-before, round(begin)), min(count, round(end))):
            rise[metre + before] += gradient / 1000
    heights = [0.0]
    for one in rise:
        heights.append(heights[-1] + one)
    return heights, before


def _gain(body: Body, heights: tuple[list[float], int], v: float, x: float) -> float:
    """The acceleration at full pull with the head at a place."""
    row, before = heights
    head = max(0.0, x + before)
    tail = max(0.0, head - body.length)

    def at(place: float) -> float:
        whole = int(place)
        return row[whole] + (row[whole + 1] - row[whole]) * (place - whole)

    weight = body.mass * G * (at(head) - at(tail)) / body.length
    a, b, c = body.davis
    return min(body.comfort,
               (body.pull(v) - a - b * v - c * v * v - weight) / (body.mass * body.inertia))
