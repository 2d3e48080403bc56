"""A train graph as one page of HTML that needs nothing else: it draws with a script of its own, can
be zoomed and moved, and tells time, place, train and zone at the pointer."""
from __future__ import annotations

import json
from dataclasses import replace
from html import escape
from math import inf
from pathlib import Path
from typing import Any

from kidrofemba.graph.picture import DARK, LIGHT, Graph, legend_of, with_classes
from kidrofemba.graph.trains import GraphTrain

TEMPLATE = Path(__file__).resolve().parent / "page.html"


def page(graph: Graph) -> str:
    """The page of a train graph."""
    data = json.dumps(data_of(graph), ensure_ascii=True, separators=(",", ":"))
    parts = {
        "@TITLE@": escape(graph.title),
        "@LIGHT@": palette(LIGHT),
        "@DARK@": palette(DARK),
        "@DATA@": data.replace("<", "\\u003c"),
    }
    made = TEMPLATE.read_text(encoding="utf-8")
    for mark in ("@LIGHT@", "@DARK@", "@TITLE@", "@DATA@"):
        made = made.replace(mark, parts[mark])
    return made


def palette(colours: tuple[str, ...]) -> str:
    """The colours of sold trains as properties of a style."""
    return " ".join(f"--s{at}: {colour};" for at, colour in enumerate(colours))


def data_of(graph: Graph) -> dict[str, Any]:
    """What the page's script draws."""
    clock = graph.clock
    return {
        "tick_s": clock.tick_s,
        "midnight": clock.seconds("00:00"),
        "date": clock.zero.date().isoformat() if clock.is_dated else None,
        "low": graph.low, "high": graph.high, "length": graph.line.length,
        "stations": [[one.name, round(one.metre, 1)] for one in graph.line.stations],
        "zones": graph.zones,
        "legend": [[entry.kind.split()[-1], legend_sign(entry.sign), entry.meaning]
                   for entry in legend_of(replace(graph, low=-inf, high=inf))],
        "trains": [train_data(train, kind.split()[-1])
                   for train, kind in with_classes(graph.trains)],
    }


def legend_sign(sign: str) -> str:
    """The page's class for a sign of the picture's legend."""
    return {"head": "line", "head guess": "guess"}.get(sign, sign)


def train_data(train: GraphTrain, colour: str) -> dict[str, Any]:
    """A train: each piece of its line as tick, metre, tick, metre and so on."""
    return {
        "name": train.name, "about": train.about, "kind": train.standing.value, "colour": colour,
        "guess": train.is_estimated,
        "pieces": [[round(number, 2) for point in piece for number in (point.tick, point.metre)]
                   for piece in train.pieces],
        "steps": [[step.zone, step.begin, step.end, round(step.top, 1), round(step.bottom, 1),
                   int(step.beside)] for step in train.steps],
    }
