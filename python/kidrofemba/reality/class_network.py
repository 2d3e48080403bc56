"""From an export and a file of classes to the network of all classes, their trains, and what sold
paths are simulated by."""
from __future__ import annotations

import json
import math
from collections.abc import Iterator
from dataclasses import dataclass
from pathlib import Path
from typing import Any

from kidrofemba.common.companion import Refused
from kidrofemba.common.progress import Progress
from kidrofemba.osrd.export import Export
from kidrofemba.osrd.network import Maker, Network
from kidrofemba.reality.block_times import BlockTimes, Simulation, speeds_of
from kidrofemba.reality.layers import DoesNotFit, Layered, layered
from kidrofemba.reality.line_data import ClassLine, TrackData, limits_of, read_line_data
from kidrofemba.reality.plain import PlainNetwork, plain_network
from kidrofemba.reality.running_file import Running
from kidrofemba.reality.train_classes import LineKind, TrainClass, read_classes

STRONGEST = 10_000


@dataclass(frozen=True)
class ClassTimes:
    """A class with what it meets, its times, and its blocks' speeds in mm/s."""

    one: TrainClass
    line: ClassLine
    times: BlockTimes
    speeds: dict[int, int]


class ClassNetwork:
    """The classes of a file over a network of the importer."""

    def __init__(self, export: Export, export_file: Path, classes_file: Path, maker: Maker,
                 network: Network, tick_s: int, progress: Progress) -> None:
        self.tick_s, self.classes_file = tick_s, classes_file
        self.plain: PlainNetwork = plain_network(network.lists)
        rulers = maker.tracks.rulers
        data = read_line_data(export_file, export, rulers)
        classes, kinds = read_classes(classes_file)
        self.times = [self._timed(one, export, data, rulers, kinds, progress) for one in classes]

    def _timed(self, one: TrainClass, export: Export, data: dict[str, TrackData], rulers: Any,
               kinds: dict[str, LineKind], progress: Progress) -> ClassTimes:
        progress.tell(lambda: f"running times of class {one.name}")
        line = ClassLine(one, data, limits_of(export, one.tags, rulers), kinds)
        times = Simulation(line, self.plain).solve()
        if not times.seconds:
            raise Refused(self.classes_file, f"class {one.name}", "may run on no block")
        return ClassTimes(one, line, times, speeds_of(self.plain, times.seconds, self.tick_s))

    def layered(self) -> Layered:
        """The network of all classes."""
        try:
            return layered(self.plain, {one.one.name: one.speeds for one in self.times})
        except DoesNotFit as wrong:
            raise Refused(self.classes_file, "", f"the network would have {wrong}") from None

    def trains(self, faster: bool = True) -> list[dict[str, Any]]:
        """The trains of all classes for a train file, one for each allowance. `faster` gives them
        the greatest speed of their blocks, so that each block's own counts."""
        made = []
        for each in self.times:
            one = each.one
            top = math.floor(1000 * one.vehicle.top_m_s + 1e-6)
            even = math.floor(1000 * one.even_acceleration() + 1e-6)
            if even < 1:
                raise Refused(self.classes_file, f"class {one.name}", "does not start")
            for percent in one.allowances:
                made.append({
                    "name": one.name + (f"+{percent}" if percent else ""),
                    "length_m": math.ceil(one.vehicle.length_m),
                    "speed": max(each.speeds.values()) if faster else top,
                    "accel": min(STRONGEST, even),
                    "brake": min(STRONGEST, math.floor(1000 * one.vehicle.brake_m_s2 + 1e-6)),
                    "allowance": percent})
        return made

    def running(self, blocks: list[tuple[str, int]]) -> Running:
        """What paths over these blocks are simulated by."""
        numbers = range(len(self.plain.blocks))
        first = self.times[0].line
        return Running(
            {each.one.name: each.one.vehicle for each in self.times},
            {each.one.name: list(each.one.allowances) for each in self.times},
            [first.gradients(self.plain.blocks[number]) for number in numbers],
            {each.one.name: [each.line.limits(self.plain.blocks[number]) for number in numbers]
             for each in self.times}, blocks)

    def told(self, made: Layered) -> Iterator[str]:
        """What each class can not do, and by how much its trains differ from their blocks."""
        for each in self.times:
            name, blocks = each.one.name, self.plain.blocks
            lag = max(each.times.lag_s.values())
            yield (f"class {name}: {sum(layer == name for layer, _ in made.blocks)} of "
                   f"{len(blocks)} blocks; inside a block at most {lag:.0f} s behind its even "
                   "speed")
            for number, why in sorted(each.times.left_out.items()):
                yield f"  left out: {blocks[number].route}: {why}"
            for number in made.too_short.get(name, []):
                yield f"  left out: {blocks[number].route}: too short for what parts there"


def trains_text(trains: list[dict[str, Any]]) -> list[str]:
    """The train file of trains."""
    return [json.dumps({"trains": trains}, indent=1) + "\n"]
