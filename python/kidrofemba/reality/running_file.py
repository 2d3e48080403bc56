"""What a sold path is simulated by: the classes as bodies, and what each meets on the blocks of the
network. A file of it is written beside a network, and read after a sale."""
from __future__ import annotations

import json
from collections.abc import Iterator
from dataclasses import asdict, dataclass
from pathlib import Path
from typing import Any

from kidrofemba.common.json_spot import Spot, spot_of_file
from kidrofemba.reality.physics import Vehicle

Pieces = list[tuple[float, float]]


@dataclass(frozen=True)
class Running:
    """The bodies of classes by their names, the allowances of each, the gradients and the limits
    of each plain block (limits by class), and the class and plain block of each block of the
    network; a plain network has no classes there."""

    bodies: dict[str, Vehicle]
    allowances: dict[str, list[int]]
    gradients: list[Pieces]
    limits: dict[str, list[Pieces]]
    blocks: list[tuple[str, int]]

    def text(self) -> Iterator[str]:
        """The file, a block on a line."""
        yield json.dumps({"classes": {name: asdict(body) for name, body in self.bodies.items()},
                          "allowances": self.allowances})[:-1]
        rows: dict[str, list[Any]] = {"gradients": list(self.gradients), "blocks": list(self.blocks)}
        rows |= {f"limits {name}": list(one) for name, one in self.limits.items()}
        for key, row in rows.items():
            yield f",\n{json.dumps(key)}:[\n" + ",\n".join(map(json.dumps, row)) + "]"
        yield "}\n"


def _pieces(told: Spot) -> Pieces:
    rows = told.value
    if not isinstance(rows, list) or not all(
            isinstance(one, list) and len(one) == 2 and all(isinstance(part, (int, float))
                                                            for part in one) for one in rows):
        raise told.wrong("is no list of lengths and values")
    return [(float(length), float(value)) for length, value in rows]


def _vehicle(told: Spot) -> Vehicle:
    number: dict[str, Any] = {key: float(told.member(key).number()) for key in
                              ("mass_kg", "length_m", "top_m_s", "inertia", "comfort_m_s2",
                               "brake_m_s2")}
    rows = {key: tuple(float(one.number()) for one in told.member(key).elements())
            for key in ("speeds", "efforts", "resistance")}
    if len(rows["resistance"]) != 3 or len(rows["speeds"]) != len(rows["efforts"]):
        raise told.wrong("is no train of such a file")
    return Vehicle(**number, **rows)  # type: ignore[arg-type]


def read_running(file: Path) -> Running:
    """What a file tells."""
    told = spot_of_file(file)
    classes = told.member("classes")
    names = list(classes.value)
    blocks = [(str(one.value[0]), int(one.value[1])) for one in told.member("blocks").elements()]
    return Running({name: _vehicle(classes.member(name)) for name in names},
                   told.member("allowances").value,
                   [_pieces(one) for one in told.member("gradients").elements()],
                   {name: [_pieces(one) for one in told.member(f"limits {name}").elements()]
                    for name in names}, blocks)
