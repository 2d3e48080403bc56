"""What lies along the tracks of an export and the server passes over: slopes, curves, wires,
gauges and lines; and the limits of a class of trains.

Places are whole metres of the network, by the importer's own rounding.
"""
from __future__ import annotations

from collections import defaultdict
from collections.abc import Callable, Iterable, Mapping
from dataclasses import dataclass, field
from functools import partial
from pathlib import Path

from kidrofemba.common.json_spot import Spot, spot_of_file
from kidrofemba.osrd.export import Export
from kidrofemba.osrd.whole_metres import Ruler
from kidrofemba.reality.physics import CURVE
from kidrofemba.reality.plain import BACKWARD, FORWARD, PlainBlock, Stretch
from kidrofemba.reality.train_classes import GAUGES, LineKind, TrainClass

FASTEST = 200.0
#: Begin, end and a value.
Span = tuple[float, float, float]
NamedSpan = tuple[float, float, str]


@dataclass
class TrackData:
    """Along one track: gradients in per mille, what curves resist in per mille, voltages of wires,
    stretches without a current that trains roll over, gauges, and the track's line."""

    gradients: list[Span] = field(default_factory=list)
    curves: list[Span] = field(default_factory=list)
    wires: list[NamedSpan] = field(default_factory=list)
    neutral: list[NamedSpan] = field(default_factory=list)
    gauges: list[NamedSpan] = field(default_factory=list)
    line: str | None = None


def read_line_data(file: Path, export: Export, rulers: Mapping[str, Ruler]
                   ) -> dict[str, TrackData]:
    """What an export tells along its tracks."""
    told = spot_of_file(file)
    data = {name: TrackData(line=track.line) for name, track in export.tracks.items()}
    for one in told.elements_of("track_sections"):
        track = one.member("id").text()
        if track in data:
            _read_track(one, data[track], rulers[track])
    for key in ("electrifications", "neutral_sections"):
        for one in told.elements_of(key):
            name = one.member("voltage").text() if key == "electrifications" else ""
            for given in one.elements_of("track_ranges"):
                track = given.member("track").text()
                if track not in data:
                    continue
                begin, end = _range(given, rulers[track])
                row = data[track].wires if name else data[track].neutral
                row.append((begin, end, name))
    return data


def _range(told: Spot, ruler: Ruler) -> tuple[float, float]:
    begin, end = told.member("begin").number(), told.member("end").number()
    if begin > end:
        raise told.member("end").wrong(f"is {end}, before the begin at {begin}")
    return float(ruler.at(begin)), float(ruler.at(end))


def _read_track(one: Spot, track: TrackData, ruler: Ruler) -> None:
    for given in one.elements_of("slopes"):
        gradient = given.member("gradient")
        if not -200 <= gradient.number() <= 200:
            raise gradient.wrong(f"is {gradient.value} per mille, which no line has")
        track.gradients.append((*_range(given, ruler), float(gradient.value)))
    for given in one.elements_of("curves"):
        radius = abs(given.member("radius").number())
        if radius > 0:
            track.curves.append((*_range(given, ruler), CURVE / radius))
    for given in one.elements_of("loading_gauge_limits"):
        track.gauges.append((*_range(given, ruler), given.member("category").text()))


def limits_of(export: Export, tags: tuple[str, ...], rulers: Mapping[str, Ruler]
              ) -> dict[tuple[str, str], list[Span]]:
    """The limits by track and way of trains with these tags: of several the least counts."""
    found: dict[tuple[str, str], list[Span]] = defaultdict(list)
    for section in export.speed_sections.values():
        limits = [section.by_tag.get(tag, section.limit) for tag in tags] or [section.limit]
        least = min((limit for limit in limits if limit is not None), default=None)
        if least is None:
            continue
        for track, begin, end, way in section.ranges:
            ruler = rulers[track]
            end = min(end, ruler.marks[-1])
            if begin >= end:
                continue
            low, high = ruler.span(begin, end)
            for one in (FORWARD, BACKWARD) if way == "BOTH" else (way,):
                found[track, one].append((low, high, least))
    return found


def _all_of(rows: list[Span], _: Stretch) -> list[Span]:
    """The spans of a stretch's track, whatever the stretch."""
    return rows


def along(stretches: Iterable[Stretch], spans: Callable[[Stretch], list[Span]],
          whole: Callable[[list[float]], float]) -> list[tuple[float, float]]:
    """Lengths and values along a block: `whole` makes one value of all spans at a place."""
    pieces: list[tuple[float, float]] = []
    for one in stretches:
        low, high = min(one.begin, one.end), max(one.begin, one.end)
        rows = [row for row in spans(one) if row[0] < high and row[1] > low]
        marks = sorted({float(low), float(high),
                        *(mark for row in rows for mark in row[:2] if low < mark < high)})
        made = [(end - begin, whole([value for first, last, value in rows
                                     if first <= begin and last >= end]))
                for begin, end in zip(marks, marks[1:])]
        pieces += made if one.begin <= one.end else made[::-1]
    return pieces or [(0.0, whole([]))]


class ClassLine:
    """What a class of trains meets on blocks: gradients, limits, and whether it may run there."""

    def __init__(self, one: TrainClass, data: Mapping[str, TrackData],
                 limits: Mapping[tuple[str, str], list[Span]], lines: Mapping[str, LineKind]):
        self.one, self.data, self.limits_by, self.lines = one, data, limits, lines

    def gradients(self, block: PlainBlock) -> list[tuple[float, float]]:
        """Lengths and gradients along a block, curves among them as rises."""
        pieces: list[tuple[float, float]] = []
        for stretch in block.stretches:
            track, sign = self.data[stretch.track], 1.0 if stretch.begin <= stretch.end else -1.0
            rows = [(begin, end, sign * value) for begin, end, value in track.gradients]
            rows += track.curves
            pieces += along([stretch], partial(_all_of, rows), sum)
        return pieces

    def limits(self, block: PlainBlock) -> list[tuple[float, float]]:
        """Lengths and limits along a block, in metres a second."""
        def spans(stretch: Stretch) -> list[Span]:
            way = FORWARD if stretch.begin <= stretch.end else BACKWARD
            return self.limits_by.get((stretch.track, way), [])

        return along(block.stretches, spans, lambda values: min(values, default=FASTEST))

    def why_not(self, block: PlainBlock) -> str | None:
        """Why the class may not run on a block; None where it may."""
        needs = self.one.needs
        for stretch in block.stretches:
            track = self.data[stretch.track]
            low, high = sorted((stretch.begin, stretch.end))
            if low == high:
                continue
            wrong = self._line_wrong(track.line)
            if wrong is None and needs.electrification:
                hung = [(begin, end) for begin, end, volts in track.wires
                        if volts in needs.electrification]
                gap = _uncovered(low, high, hung + [row[:2] for row in track.neutral])
                wrong = None if gap is None else f"no wire of {'/'.join(needs.electrification)}"
                wrong = wrong and f"{wrong} from {gap:.0f} m"
            if wrong is None and needs.gauge is not None:
                wrong = _gauge_wrong(needs.gauge, low, high, track.gauges)
            if wrong is not None:
                return f"{wrong} of track {stretch.track}"
        return None

    def _line_wrong(self, line: str | None) -> str | None:
        needs, kind = self.one.needs, self.lines.get(line or "")
        if line is not None and line in needs.forbidden_lines:
            return f"forbidden line {line}"
        if kind is None:
            return None
        if needs.axle_load_t and kind.axle_load_t and needs.axle_load_t > kind.axle_load_t:
            return f"axle load of {kind.axle_load_t} t on line {line}"
        if needs.line_category and kind.category and not _bears(kind.category,
                                                                needs.line_category):
            return f"category {kind.category} of line {line}"
        return None


def _bears(line: str, wanted: str) -> bool:
    """Whether a line of a category bears trains of another one: letter by letter, axle load and
    mass a metre."""
    return line[0] >= wanted[0] and line[1:] >= wanted[1:]


def _gauge_wrong(gauge: str, low: float, high: float, spans: list[NamedSpan]) -> str | None:
    for begin, end, told in spans:
        if begin < high and end > low and told != gauge and not (
                told in GAUGES and GAUGES.index(told) >= GAUGES.index(gauge)):
            return f"gauge {told}"
    return None


def _uncovered(low: float, high: float, spans: Iterable[tuple[float, float]]) -> float | None:
    """The first place between two that no span covers."""
    here = low
    for begin, end in sorted(spans):
        if begin > here:
            break
        here = max(here, end)
    return None if here >= high else here
