"""Draws a train graph as an SVG picture: distance down, clock time across.

The picture has its own ground, dark where the reader prefers that, and keeps all text within its
edges: no label lies over another one. A train's name stands where no other label and few lines are,
and is left out where there is no such place.
"""
from __future__ import annotations

import re
from collections.abc import Iterable, Iterator, Sequence
from dataclasses import dataclass, field
from datetime import timedelta
from html import escape
from math import ceil, floor

from kidrofemba.common.clock import Clock
from kidrofemba.graph.labels import (TEXT, Box, Crowd, NamePlace, best_place, box_of_text,
                                     places_along, shortened, spread, text_width)
from kidrofemba.graph.trains import GraphTrain, Point, Standing, Step
from kidrofemba.network.line_places import Line

LEAST_WIDTH, LEAST_HEIGHT = 480, 320
TITLE = 15
ROW = 14
GAP = 8
NAME_AT_MOST = 140
LIGHT = ("#1f5fb4", "#c2410c", "#2b7a3d", "#9333b8", "#c2255c", "#0b7285", "#7f5f00")
DARK = ("#7db4ff", "#ff9d5c", "#6fd08c", "#dba0f5", "#ff8fb4", "#5cc8dd", "#e3c04f")
STEPS_OF_TIME = (10, 20, 30, 60, 120, 300, 600, 900, 1800, 3600, 7200, 10800, 21600, 43200, 86400)
DAY_S = 86400

STYLE = """
text{font:%dpx "DejaVu Sans",Verdana,Arial,sans-serif;fill:#1b1b1b}
.title{font-size:%dpx;font-weight:bold}
.faint{fill:#5c5c5c}
.ground{fill:#ffffff}
.edge{fill:none;stroke:#444}
.fine{stroke:#ececec}.time{stroke:#c4c4c4}.station{stroke:#8a8a8a}.lead{stroke:#8a8a8a;fill:none}
.own{fill:currentColor;fill-opacity:.26;stroke:currentColor;stroke-opacity:.5;stroke-width:.5}
.beside{fill:none;stroke:currentColor;stroke-opacity:.75;stroke-width:.7;stroke-dasharray:2 2}
.head{fill:none;stroke:currentColor;stroke-width:2.2;stroke-linejoin:round}
.planned .head{stroke-width:1.3}
.guess{stroke-dasharray:5 3}
.name{fill:currentColor;stroke:#ffffff;stroke-width:3px;stroke-linejoin:round;paint-order:stroke}
.sold .name{font-weight:bold}
.planned{color:#606060}.held{color:#8a5a2b}
%s
@media (prefers-color-scheme:dark){
text{fill:#ececec}
.faint{fill:#b0b0b0}
.ground{fill:#16181c}
.edge{stroke:#b0b0b0}
.fine{stroke:#25282e}.time{stroke:#454a52}.station,.lead{stroke:#7c828b}
.name{fill:currentColor;stroke:#16181c}
.planned{color:#a9adb3}.held{color:#d9a066}
%s
}
"""


# ---- What is drawn


@dataclass(frozen=True)
class Graph:
    """A train graph: its line, its clock, its trains, the ticks from which to which it is drawn,
    and the pieces of track of the line's zones in words."""

    title: str
    line: Line
    clock: Clock
    trains: list[GraphTrain]
    low: float
    high: float
    zones: dict[int, str]
    are_planned_steps_shown: bool = True


@dataclass(frozen=True)
class Frame:
    """The part of a picture in which the trains are drawn, with its scales."""

    box: Box
    low: float
    high: float
    length: float

    def x(self, tick: float) -> float:
        return self.box.left + (self.box.right - self.box.left) * (tick - self.low) / (
            self.high - self.low)

    def y(self, metre: float) -> float:
        return self.box.top + (self.box.bottom - self.box.top) * metre / self.length


@dataclass
class Sheet:
    """The elements of a picture so far."""

    width: int
    height: int
    elements: list[str] = field(default_factory=list)

    def add(self, element: str) -> None:
        self.elements.append(element)

    def line(self, kind: str, x1: float, y1: float, x2: float, y2: float) -> None:
        self.add(f'<path class="{kind}" d="{path_over((x1, y1), (x2, y2))}"/>')

    def text(self, x: float, y: float, text: str, anchor: str = "start", kind: str = "",
             whole: str = "") -> None:
        """A text; where it was shortened, the whole one stands at the pointer."""
        shown = f"<title>{_text(whole)}</title>" if whole and whole != text else ""
        place = "" if anchor == "start" else f' text-anchor="{anchor}"'
        named = f' class="{kind}"' if kind else ""
        self.add(f'<text x="{_tenths(x)}" y="{_tenths(y)}"{place}{named}>{_text(text)}{shown}'
                 "</text>")


NO_XML = re.compile("[^\\t\\n -\ud7ff\ue000-\ufffd\U00010000-\U0010ffff]")


def _text(text: str) -> str:
    """A text as XML has it; characters that XML can't have are shown as a question mark."""
    return escape(NO_XML.sub("?", text))


def _tenths(number: float) -> str:
    """A coordinate, to a tenth."""
    return f"{number:.1f}".removesuffix(".0")


def path_over(*points: tuple[float, float]) -> str:
    """A path from point to point."""
    return "M" + "L".join(f"{_tenths(x)} {_tenths(y)}" for x, y in points)


def path_around(left: float, top: float, right: float, bottom: float) -> str:
    """A path around a rectangle."""
    return f"M{_tenths(left)} {_tenths(top)}H{_tenths(right)}V{_tenths(bottom)}H{_tenths(left)}Z"


def colour_class(train: GraphTrain, at: int) -> str:
    """The class of a train's colour; `at` is its place among those that are sold."""
    if train.standing is Standing.SOLD:
        return f"sold s{at % len(LIGHT)}"
    return str(train.standing.value)


def with_classes(trains: Iterable[GraphTrain]) -> list[tuple[GraphTrain, str]]:
    """Each train with the class of its colour, those that are sold last."""
    found, sold = [], 0
    for train in sorted(trains, key=lambda one: one.standing is Standing.SOLD):
        found.append((train, colour_class(train, sold)))
        sold += train.standing is Standing.SOLD
    return found


# ---- Scales and margins


def steps_of_time(seconds_wide: float, pixels: float) -> tuple[int, int]:
    """The seconds between two labels of the clock, and between two fine lines."""
    second = pixels / seconds_wide
    label = next((one for one in STEPS_OF_TIME if one * second >= (74 if one < 60 else 58)), None)
    if label is None:
        label = 86400 * ceil(58 / second / 86400)
    fine = next((one for one in STEPS_OF_TIME if label % one == 0 and one * second >= 9), label)
    return label, fine


def first_at(clock: Clock, low: float, step: int) -> int:
    """The first moment not before another one that is a whole number of steps behind midnight."""
    midnight = clock.seconds("00:00")
    return midnight + ceil((low - midnight) / step) * step


def date_of(clock: Clock, seconds: float, form: str) -> str:
    """The date of a moment, or how many days behind that of tick 0 it is where that has no date."""
    if clock.is_dated:
        return (clock.zero + timedelta(seconds=seconds)).strftime(form)
    day = floor((seconds - clock.seconds("00:00")) / DAY_S)
    return f"{day:+}d" if day else ""


def frame_of(graph: Graph, width: int, height: int, legend_rows: int) -> tuple[Frame, int]:
    """The part of a picture for the trains, and the picture's height, which is more than was wanted
    where the stations' names need it."""
    names = [shortened(one.name, width / 3) for one in graph.line.stations]
    left = max((text_width(name) for name in names), default=0) + 3 * GAP
    right = max(text_width(text) for text in kilometres(graph.line)) + 3 * GAP
    above, below = 64, 28 + legend_rows * ROW + GAP
    tall = max(height - above - below, ROW * (len(names) + 1))
    box = Box(round(left), above, round(width - right), above + tall)
    return Frame(box, graph.low, graph.high, max(graph.line.length, 1)), above + tall + below


def kilometres(line: Line) -> list[str]:
    """How far each station is behind the first."""
    first = line.stations[0].metre
    return [f"{(one.metre - first) / 1000:.1f} km" for one in line.stations]


# ---- Drawing


def draw(graph: Graph, width: int, height: int) -> tuple[str, int]:
    """The picture as SVG, and how many trains had no room for their names."""
    entries = legend_of(graph)
    rows = legend_rows(entries, width)
    frame, height = frame_of(graph, width, height, len(rows))
    sheet = Sheet(width, height)
    sheet.add('<rect class="ground" width="100%" height="100%"/>')
    draw_title(sheet, graph, frame)
    draw_clock(sheet, graph, frame)
    draw_stations(sheet, graph, frame)
    trains = with_classes(graph.trains)
    for train, kind in trains:
        draw_steps(sheet, train, kind, graph, frame)
    for train, kind in trains:
        draw_head(sheet, train, kind, frame)
    unnamed = draw_names(sheet, trains, graph.line, frame)
    box = frame.box
    sheet.add(f'<rect class="edge" id="frame" x="{_tenths(box.left)}" y="{_tenths(box.top)}" '
              f'width="{_tenths(box.right - box.left)}" height="{_tenths(box.bottom - box.top)}"/>')
    draw_legend(sheet, rows, box.bottom + 28)
    return whole_picture(sheet, graph), unnamed


def whole_picture(sheet: Sheet, graph: Graph) -> str:
    """The SVG document of a sheet."""
    colours = ["".join(f".s{at}{{color:{colour}}}" for at, colour in enumerate(palette))
               for palette in (LIGHT, DARK)]
    head = (f'<svg xmlns="http://www.w3.org/2000/svg" width="{sheet.width}" '
            f'height="{sheet.height}" viewBox="0 0 {sheet.width} {sheet.height}" role="img">')
    style = STYLE % (TEXT, TITLE, colours[0], colours[1])
    lines = [head, f"<title>{_text(graph.title)}</title>", f"<style>{style}</style>",
             *sheet.elements, "</svg>"]
    return "\n".join(lines) + "\n"


def draw_title(sheet: Sheet, graph: Graph, frame: Frame) -> None:
    """The line's ends, and the day of the first time that stands at the clock."""
    low, high = graph.low * graph.clock.tick_s, graph.high * graph.clock.tick_s
    label, _ = steps_of_time(high - low, frame.box.right - frame.box.left)
    day = date_of(graph.clock, first_at(graph.clock, low, label), "%d.%m.%Y")
    title = graph.title + (f", {day}" if day else "")
    room = sheet.width - frame.box.left - GAP
    sheet.text(frame.box.left, 24, shortened(title, room, TITLE, bold=True), kind="title",
               whole=title)


def draw_clock(sheet: Sheet, graph: Graph, frame: Frame) -> None:
    """The clock's lines, with their times above and below."""
    clock, box = graph.clock, frame.box
    low, high = graph.low * clock.tick_s, graph.high * clock.tick_s
    midnight = clock.seconds("00:00")
    label, fine = steps_of_time(high - low, box.right - box.left)
    at = first_at(clock, low, fine)
    while at <= high:
        x = frame.x(at / clock.tick_s)
        is_labelled = (at - midnight) % label == 0
        sheet.line("time" if is_labelled else "fine", x, box.top, x, box.bottom)
        if is_labelled:
            time = clock.text_of_seconds(at)[:8 if label < 60 else 5]
            sheet.text(x, box.top - 6, time, "middle")
            sheet.text(x, box.bottom + 15, time, "middle")
            if (at - midnight) % DAY_S == 0 and date_of(clock, at, "%d.%m."):
                sheet.text(x, box.top - 6 - ROW, date_of(clock, at, "%d.%m."), "middle", "faint")
        at += fine


def draw_stations(sheet: Sheet, graph: Graph, frame: Frame) -> None:
    """A line for each station, with its name and its distance from the first."""
    box, stations = frame.box, graph.line.stations
    places = spread([frame.y(one.metre) + 4 for one in stations], ROW - 1, box.top + TEXT,
                    box.bottom)
    for station, distance, place in zip(stations, kilometres(graph.line), places):
        y = frame.y(station.metre)
        sheet.line("station", box.left, y, box.right, y)
        for edge, away in ((box.left, -1), (box.right, 1)):
            lead = path_over((edge, y), (edge + 3 * away, y), (edge + 9 * away, place - 4))
            sheet.add(f'<path class="lead" d="{lead}"/>')
        sheet.text(box.left - 12, place, shortened(station.name, sheet.width / 3), "end",
                   whole=station.name)
        sheet.text(box.right + 12, place, distance, kind="faint")


def _rectangle(step: Step, frame: Frame) -> str | None:
    """A blocking time as a part of a path; None where it lies outside the picture's times."""
    begin, end = max(step.begin, frame.low), min(step.end, frame.high)
    if begin >= end:
        return None
    return path_around(frame.x(begin), frame.y(step.top), frame.x(end), frame.y(step.bottom))


def draw_steps(sheet: Sheet, train: GraphTrain, kind: str, graph: Graph, frame: Frame) -> None:
    """A train's blocking times: filled on the line's own track, an outline beside it."""
    if train.standing is Standing.PLANNED and not graph.are_planned_steps_shown:
        return
    paths = []
    for name, beside in (("own", False), ("beside", True)):
        told = [_rectangle(step, frame) for step in train.steps if step.beside == beside]
        data = "".join(one for one in told if one)
        if data:
            paths.append(f'<path class="{name}" d="{data}"/>')
    if paths:
        sheet.add(f'<g class="{kind}"><title>{_text(train.about)}</title>{"".join(paths)}</g>')


def clipped(piece: Sequence[Point], low: float, high: float) -> list[Point]:
    """The part of a head's line between two ticks."""
    inside: list[Point] = []
    for a, b in zip(piece, piece[1:]):
        if b.tick < low or a.tick > high:
            continue
        for point in (_at_tick(a, b, max(a.tick, low)), _at_tick(a, b, min(b.tick, high))):
            if not inside or inside[-1] != point:
                inside.append(point)
    return inside


def _at_tick(a: Point, b: Point, tick: float) -> Point:
    """The point between two others at a tick."""
    if tick == a.tick:
        return a
    if tick == b.tick:
        return b
    share = (tick - a.tick) / (b.tick - a.tick)
    return Point(tick, a.metre + share * (b.metre - a.metre))


def heads_in(train: GraphTrain, frame: Frame) -> list[list[tuple[float, float]]]:
    """The pieces of a head's line within the picture's times, in pixels."""
    pieces = (clipped(piece, frame.low, frame.high) for piece in train.pieces)
    return [[(frame.x(point.tick), frame.y(point.metre)) for point in piece]
            for piece in pieces if len(piece) > 1]


def draw_head(sheet: Sheet, train: GraphTrain, kind: str, frame: Frame) -> None:
    """The line of a train's head, dashed where it is estimated."""
    data = "".join(path_over(*piece) for piece in heads_in(train, frame))
    if data:
        guess = " guess" if train.is_estimated else ""
        sheet.add(f'<g class="{kind}"><title>{_text(train.about)}</title>'
                  f'<path class="head{guess}" d="{data}"/></g>')


# ---- Names of trains


def places_in_steps(train: GraphTrain, frame: Frame) -> Iterator[NamePlace]:
    """Places for the name of what has blocking times alone: within, above and below each."""
    for step in train.steps:
        if step.begin < frame.high and step.end > frame.low:
            x = (frame.x(max(step.begin, frame.low)) + frame.x(min(step.end, frame.high))) / 2
            top, bottom = frame.y(step.top), frame.y(step.bottom)
            yield NamePlace(x, (top + bottom) / 2 + 4, "middle", 0)
            yield NamePlace(x, top - 4, "middle", 0.2)
            yield NamePlace(x, bottom + 12, "middle", 0.2)


def draw_names(sheet: Sheet, trains: list[tuple[GraphTrain, str]], line: Line, frame: Frame
               ) -> int:
    """Names the trains, those that are sold first; answers how many have no room."""
    crowd = Crowd()
    for station in line.stations:
        y = frame.y(station.metre)
        crowd.add_line([(frame.box.left, y), (frame.box.right, y)])
    for train, _ in trains:
        for head in heads_in(train, frame):
            crowd.add_line(head)
    unnamed = 0
    for train, kind in reversed(trains):
        places = [place for head in heads_in(train, frame) for place in places_along(head)]
        if not train.pieces:
            places = list(places_in_steps(train, frame))
        if places:
            unnamed += not draw_name(sheet, train, kind, places, crowd, frame)
    return unnamed


def draw_name(sheet: Sheet, train: GraphTrain, kind: str, places: list[NamePlace], crowd: Crowd,
              frame: Frame) -> bool:
    """Names a train at the best of these places; whether there was room."""
    is_bold = train.standing is Standing.SOLD
    name = shortened(train.name, NAME_AT_MOST, bold=is_bold)
    width = text_width(name, bold=is_bold)
    best = best_place(places, width, crowd, frame.box)
    if best is None:
        return False
    crowd.take(box_of_text(best.x, best.y, width, best.anchor))
    sheet.add(f'<g class="{kind}">')
    sheet.text(best.x, best.y, name, best.anchor, "name", train.about)
    sheet.add("</g>")
    return True


# ---- Legend


@dataclass(frozen=True)
class LegendEntry:
    """An entry of the legend: the class of its sign, the sign's own class, and what it means."""

    kind: str
    sign: str
    meaning: str

    @property
    def width(self) -> float:
        return 30 + text_width(self.meaning) + 2 * GAP


KINDS = ((Standing.PLANNED, "planned", "planned"), (Standing.SOLD, "sold s0", "sold, in colours"),
         (Standing.HELD, "held", "held"))
BLOCKING = {"own": "blocking time", "beside": "blocking time on a track beside the line"}


def legend_of(graph: Graph) -> list[LegendEntry]:
    """The entries for what is drawn of the graph: each kind of train by the lines of its heads or,
    where none of it has one, by its blocking times; and blocking times, in the colour of trains
    that are sold where there are such."""
    entries: list[LegendEntry] = []
    blocking: dict[str, LegendEntry] = {}
    for standing, kind, meaning in KINDS:
        trains = [train for train in graph.trains if train.standing is standing]
        signs = drawn_signs(graph, trains)
        heads = {train.is_estimated for train in trains if has_drawn_head(graph, train)}
        if False in heads:
            entries.append(LegendEntry(kind, "head", meaning))
        if True in heads:
            entries.append(LegendEntry(kind, "head guess",
                                       f"{meaning}, head estimated from blocking times"))
        if heads:
            blocking |= {sign: LegendEntry(kind, sign, BLOCKING[sign]) for sign in signs}
        elif signs:
            alone = "" if standing is Standing.HELD else ", blocking times alone"
            entries.append(LegendEntry(kind, max(signs), meaning + alone))
    return entries + [blocking[sign] for sign in BLOCKING if sign in blocking]


def drawn_signs(graph: Graph, trains: Iterable[GraphTrain]) -> set[str]:
    """The signs of these trains' blocking times that are drawn within the graph's times."""
    return {"beside" if step.beside else "own" for train in trains for step in train.steps
            if (graph.are_planned_steps_shown or train.standing is not Standing.PLANNED)
            and step.begin < graph.high and step.end > graph.low}


def has_drawn_head(graph: Graph, train: GraphTrain) -> bool:
    """Whether a part of the line of a train's head is drawn within the graph's times."""
    return any(len(clipped(piece, graph.low, graph.high)) > 1 for piece in train.pieces)


def legend_rows(entries: Iterable[LegendEntry], width: int) -> list[list[LegendEntry]]:
    """The entries in rows that fit the width."""
    rows: list[list[LegendEntry]] = [[]]
    for entry in entries:
        if rows[-1] and sum(one.width for one in rows[-1]) + entry.width > width - 2 * GAP:
            rows.append([])
        rows[-1].append(entry)
    return rows


def draw_legend(sheet: Sheet, rows: list[list[LegendEntry]], top: float) -> None:
    """The legend below the picture."""
    for at, row in enumerate(rows):
        x, y = 2.0 * GAP, top + ROW * at + 2
        for entry in row:
            sign = (path_over((x, y + 5), (x + 24, y + 5)) if entry.sign.startswith("head")
                    else path_around(x, y, x + 24, y + 10))
            sheet.add(f'<g class="{entry.kind}"><path class="{entry.sign}" d="{sign}"/></g>')
            sheet.text(x + 30, y + 9, entry.meaning)
            x += entry.width
