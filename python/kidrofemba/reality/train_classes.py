"""The classes of trains that are sold: a file of what each is made of and where it may run.

    {"lines": {"570000": {"axle_load_t": 22.5, "category": "D4"}},
     "classes": [{"name": "E1800", "stock_file": "stock.json", "stock": "BB 27000",
       "towed_t": 1800, "length_m": 700, "vmax_kmh": 100, "brake": "G", "tags": ["MA100"],
       "allowances": [0, 12, 30],
       "needs": {"electrification": ["25000V"], "gauge": "GB1", "axle_load_t": 22.5,
                 "line_category": "D4", "forbidden_lines": ["571000"]}}]}
"""
from __future__ import annotations

import re
from dataclasses import dataclass
from pathlib import Path

from kidrofemba.common.json_spot import Spot, spot_of_file
from kidrofemba.plan.rolling_stock import Traction, reached
from kidrofemba.reality.physics import GRAVITY, Vehicle

NAME_FORM = re.compile(r"[A-Za-z0-9._-]{1,40}")
BRAKES = {"G": 0.3, "P": 0.5}
"""Braking in metres a second squared: of long freight trains, and of fast ones."""
TOWED = {"A": 12.0, "B": 0.0, "C": 10 * 3.6 ** 2 / 4000}
"""Resistance of block trains of loaded wagons, in newtons a tonne: 1.2 + V²/4000 daN/t."""
TOWED_INERTIA = 1.05
#: Loading gauges from the narrowest on.
GAUGES = ("G1", "GA", "GB", "GB1", "GB2", "GC")


@dataclass(frozen=True)
class Needs:
    """Where a class may run: voltages of which one must hang over it, or none; its gauge, axle load
    and line category, or None; and lines on which it may not run."""

    electrification: tuple[str, ...] = ()
    gauge: str | None = None
    axle_load_t: float | None = None
    line_category: str | None = None
    forbidden_lines: frozenset[str] = frozenset()


@dataclass(frozen=True)
class TrainClass:
    """A class: its train as a body, its limits' tags, its needs, the allowances in per cent of its
    trains, and the gradient on which its even acceleration is reckoned."""

    name: str
    vehicle: Vehicle
    tags: tuple[str, ...]
    needs: Needs
    allowances: tuple[int, ...]
    start_gradient: float

    def even_acceleration(self) -> float:
        """The even acceleration that loses as much from a stand as the train does, for the speed
        where it loses most; in metres a second squared."""
        body = self.vehicle
        a, b, c = body.resistance
        steep = a + body.mass_kg * GRAVITY * self.start_gradient / 1000
        pull = Traction(list(body.speeds), list(body.efforts), (steep, b, c),
                        body.mass_kg * body.inertia, body.comfort_m_s2)
        return reached(pull, body.top_m_s)[1]


@dataclass(frozen=True)
class LineKind:
    """What a line bears."""

    axle_load_t: float | None
    category: str | None


def read_classes(file: Path) -> tuple[list[TrainClass], dict[str, LineKind]]:
    """The classes of a file, and what it says of lines."""
    told = spot_of_file(file)
    classes: list[TrainClass] = []
    for one in told.member("classes").elements():
        made = _class_of(one, file)
        if made.name in [other.name for other in classes]:
            raise one.member("name").wrong(f"another class is called {made.name} too")
        classes.append(made)
    if not classes:
        raise told.member("classes").wrong("has no class")
    lines = told.optional("lines")
    kinds = {code: _line_of(lines.member(code)) for code in lines.value} if lines else {}
    return classes, kinds


def _line_of(told: Spot) -> LineKind:
    load, category = told.optional("axle_load_t"), told.optional("category")
    return LineKind(_positive(load) if load else None, _category(category) if category else None)


def _category(told: Spot) -> str:
    if not re.fullmatch("[A-G][0-9]?", told.text()):
        raise told.wrong("is no line category such as D4")
    return str(told.value)


def _positive(told: Spot) -> float:
    value = told.number()
    if not 0 < value < 1e9:
        raise told.wrong(f"is {value}, and must be more than 0")
    return float(value)


def _texts(told: Spot | None) -> tuple[str, ...]:
    return tuple(one.text() for one in told.elements()) if told else ()


def _class_of(told: Spot, file: Path) -> TrainClass:
    name = told.member("name")
    if not NAME_FORM.fullmatch(name.text()):
        raise name.wrong("must have 1 to 40 letters, digits, `.`, `_` or `-`")
    allowances = told.optional("allowances")
    percents = tuple(one.whole() for one in allowances.elements()) if allowances else (0,)
    if not percents or min(percents) < 0 or max(percents) > 1000 or \
            sorted(set(percents)) != list(percents):
        raise told.member("allowances").wrong("must be rising, from 0 to 1000 per cent")
    start = told.optional("start_gradient")
    return TrainClass(name.value, _vehicle_of(told, file), _texts(told.optional("tags")),
                      _needs_of(told.optional("needs")), percents,
                      float(start.number()) if start else 0.0)


def _needs_of(told: Spot | None) -> Needs:
    if told is None:
        return Needs()
    gauge, load, category = (told.optional(key)
                             for key in ("gauge", "axle_load_t", "line_category"))
    if gauge is not None and gauge.text() not in GAUGES:
        raise gauge.wrong(f"is none of {', '.join(GAUGES)}")
    return Needs(_texts(told.optional("electrification")), gauge.value if gauge else None,
                 _positive(load) if load else None, _category(category) if category else None,
                 frozenset(_texts(told.optional("forbidden_lines"))))


def _stock_of(told: Spot, file: Path) -> Spot:
    """The rolling stock that a class names."""
    path, name = told.member("stock_file"), told.member("stock")
    stock_file = file.parent / path.text()
    from kidrofemba.common.companion import read_json
    value = read_json(stock_file)
    rows = value if isinstance(value, list) else [value]
    for at, one in enumerate(rows):
        if isinstance(one, dict) and one.get("name") == name.text():
            return Spot(stock_file, f"[{at}]" if isinstance(value, list) else "", one)
    raise name.wrong(f"{stock_file} has no stock of this name")


def _vehicle_of(told: Spot, file: Path) -> Vehicle:
    stock = _stock_of(told, file)
    engine_kg, towed = _positive(stock.member("mass")), told.optional("towed_t")
    towed_t = float(towed.number()) if towed else 0.0
    if towed_t < 0:
        raise told.member("towed_t").wrong("is less than 0")
    inertia = stock.optional("inertia_coefficient")
    turning = engine_kg * (_positive(inertia) if inertia else 1.0)
    turning += towed_t * 1000 * TOWED_INERTIA
    mass_kg = engine_kg + towed_t * 1000
    rolling, own = stock.member("rolling_resistance"), told.optional("towed_resistance")
    parts = [float(rolling.member(key).number()) + towed_t *
             (float(own.member(key).number()) if own else TOWED[key]) for key in "ABC"]
    speeds, efforts = _curve_of(stock)
    top = _positive(stock.member("max_speed"))
    vmax = told.optional("vmax_kmh")
    length = told.optional("length_m") or stock.member("length")
    return Vehicle(mass_kg, _positive(length), min(top, _positive(vmax) / 3.6 if vmax else top),
                   speeds, efforts, (parts[0], parts[1], parts[2]), turning / mass_kg,
                   _positive(stock.member("comfort_acceleration")), _brake_of(told, stock))


def _brake_of(told: Spot, stock: Spot) -> float:
    brake = told.optional("brake")
    if brake is None:
        return _positive(stock.member("const_gamma"))
    if isinstance(brake.value, str):
        if brake.value not in BRAKES:
            raise brake.wrong(f"is none of {', '.join(BRAKES)}, and no number of m/s²")
        return BRAKES[brake.value]
    return _positive(brake)


def _curve_of(stock: Spot) -> tuple[tuple[float, ...], tuple[float, ...]]:
    """Speeds and efforts of the mode that counts."""
    curves = stock.member("effort_curves")
    modes = curves.member("modes")
    chosen = curves.optional("default_mode")
    curve = modes.member(chosen.text() if chosen else next(iter(modes.value), ""))
    curve = curve.member("default_curve")
    speeds, efforts = (tuple(float(one.number()) for one in curve.member(key).elements())
                       for key in ("speeds", "max_efforts"))
    if not speeds or len(speeds) != len(efforts) or list(speeds) != sorted(set(speeds)):
        raise curve.wrong("needs as many speeds as efforts, the speeds rising")
    return speeds, efforts
