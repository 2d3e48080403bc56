"""Trains of a train file from OSRD's rolling stock.

OSRD tells a train's pull as curves of effort by speed, in newtons, and its resistance to running as
A + B v + C v²; the server knows one even acceleration. That one is chosen so that no train is said
to start faster than its curves allow: for each speed up to its highest it loses at least as much
time from a stand as the curves do on level track. All that is rounded is rounded so that running
times become longer, never shorter.
"""
from __future__ import annotations

import math
from bisect import bisect_right
from dataclasses import dataclass
from typing import Any

from kidrofemba.common.json_spot import Spot

LONGEST_M, FASTEST, STRONGEST, LONGEST_NAME = 5_000, 200_000, 10_000, 255
STEP = 0.05
"""How finely speeds are gone through, in metres a second."""
FAINT = 0.01
"""A train does not count as getting faster by less than this, in metres a second squared."""
NOT_KEPT = ("startup_time", "startup_acceleration", "power_restrictions", "base_power_class",
            "energy_sources", "loading_gauge", "supported_signaling_systems")


@dataclass(frozen=True)
class MadeTrain:
    """A train as an object of a train file, and what is to be said of how it was made."""

    told: dict[str, Any]
    notes: tuple[str, ...]


@dataclass(frozen=True)
class Traction:
    """What makes a train faster on level track: efforts by speed, resistance, and mass."""

    speeds: list[float]
    efforts: list[float]
    resistance: tuple[float, float, float]
    mass: float
    comfort: float

    def gain(self, speed: float) -> float:
        """The acceleration at a speed, in metres a second squared."""
        drag = sum(part * speed ** power for power, part in enumerate(self.resistance))
        return min(self.comfort, (self._effort(speed) - drag) / self.mass)

    def _effort(self, speed: float) -> float:
        after = bisect_right(self.speeds, speed)
        if after == 0 or after == len(self.speeds):
            return self.efforts[after - 1 if after else 0]
        low, high = self.speeds[after - 1], self.speeds[after]
        share = (speed - low) / (high - low)
        return self.efforts[after - 1] + share * (self.efforts[after] - self.efforts[after - 1])


def reached(traction: Traction, fastest: float) -> tuple[float, float]:
    """The speed up to which a train gets faster, at most its fastest, and the even acceleration
    that loses as much time from a stand as it does, for the speed where it loses most."""
    seconds = metres = speed = 0.0
    even = traction.comfort
    while speed < fastest:
        step = min(STEP, fastest - speed)
        middle = speed + step / 2
        gain = traction.gain(middle)
        if gain < FAINT:
            break
        seconds, metres, speed = seconds + step / gain, metres + middle * step / gain, speed + step
        even = min(even, speed / (2 * (seconds - metres / speed)))
    return speed, even


def train_of_stock(stock: Spot, allowance: int) -> MadeTrain:
    """The train that a rolling stock file tells, with this allowance on running times, in per
    cent."""
    name = stock.member("name").text()
    if not 1 <= len(name.encode("utf-8", "surrogatepass")) <= LONGEST_NAME:
        raise stock.member("name").wrong(f"must have 1 to {LONGEST_NAME} bytes")
    fastest = _positive(stock.member("max_speed"))
    traction, notes = _traction_of(stock)
    speed, even = (fastest, traction) if isinstance(traction, float) else reached(traction, fastest)
    if speed == 0:
        raise stock.member("effort_curves").wrong("its pull does not move the train")
    if speed < fastest:
        notes.append(f"reaches {speed:.1f} m/s of {fastest:.1f} m/s on level track")
    notes += [f"{key} is not kept" for key in NOT_KEPT if stock.optional(key) is not None]
    length = math.ceil(_positive(stock.member("length")))
    if length > LONGEST_M:
        raise stock.member("length").wrong(f"is {length} m, at most {LONGEST_M} m are read")
    told = {"name": name, "length_m": length, "speed": min(FASTEST, _thousandths(speed)),
            "accel": min(STRONGEST, _thousandths(even)),
            "brake": min(STRONGEST, _thousandths(_braking_of(stock))), "allowance": allowance}
    for key, what in (("speed", "max_speed"), ("accel", "effort_curves"), ("brake", "const_gamma")):
        if told[key] == 0:
            raise stock.wrong(f"by its `{what}` the train does not get on")
    return MadeTrain(told, tuple(notes))


def _thousandths(value: float) -> int:
    """Thousandths, rounded down; what floating point lost of a whole one is made good."""
    return math.floor(value * 1000 + 1e-6)


def _positive(spot: Spot) -> float:
    value = spot.number()
    if not 0 < value < math.inf:
        raise spot.wrong(f"is {value}, and must be more than 0")
    return value


def _braking_of(stock: Spot) -> float:
    """The braking that is always reached; older files tell it within `gamma`, some with a minus."""
    gamma = stock.optional("const_gamma")
    if gamma is None:
        older = stock.optional("gamma")
        gamma = older.member("value") if older else stock.member("const_gamma")
    return abs(gamma.number())


def _traction_of(stock: Spot) -> tuple[Traction | float, list[str]]:
    """What makes the train faster: its curve of efforts, or where it has none its comfortable
    acceleration alone; and what is to be said of it."""
    comfort = _positive(stock.member("comfort_acceleration"))
    curves = stock.optional("effort_curves")
    modes = curves.member("modes") if curves else None
    if curves is None or modes is None or not modes.value:
        return comfort, ["has no curve of efforts: its comfortable acceleration is kept"]
    chosen = curves.optional("default_mode")
    name = chosen.text() if chosen else next(iter(modes.value))
    curve = modes.member(name).member("default_curve")
    speeds, efforts = ([one.number() for one in curve.member(key).elements()]
                       for key in ("speeds", "max_efforts"))
    if not speeds or len(speeds) != len(efforts) or sorted(set(speeds)) != speeds:
        raise curve.wrong("needs as many speeds as efforts, the speeds rising")
    resistance = stock.member("rolling_resistance")
    constant, linear, square = (resistance.member(key).number() for key in "ABC")
    inertia = stock.optional("inertia_coefficient")
    mass = _positive(stock.member("mass")) * (_positive(inertia) if inertia else 1.0)
    return Traction(speeds, efforts, (constant, linear, square), mass, comfort), [f"pulls as in its mode {name}"]
