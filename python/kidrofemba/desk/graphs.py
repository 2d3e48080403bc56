"""Train graphs of the desk: a corridor with the planned trains, closures and paths on it, as a
picture."""
from __future__ import annotations

from collections.abc import Callable
from functools import lru_cache

from kidrofemba.common.json_spot import spot_of_file
from kidrofemba.desk.network import Day
from kidrofemba.graph.picture import LEAST_HEIGHT, LEAST_WIDTH, Graph, draw
from kidrofemba.graph.trains import Standing, Train, on_line, read_planned, taken_in_order
from kidrofemba.journal.journal_file import Claim, Entry, Run
from kidrofemba.network.line_places import Line, line_of

WIDEST, TALLEST = 2400, 1400


class Graphs:
    """Draws graphs of one day."""

    def __init__(self, day: Day):
        self.day = day
        self.planned = read_planned(spot_of_file(day.files.base), day.railway)
        self._taken = taken_in_order(self.planned, day.railway)
        self._line = lru_cache(maxsize=32)(self._found_line)

    def _found_line(self, points: tuple[str, ...]) -> Line:
        return line_of(self.day.railway, points, self._taken)

    def train_of(self, entry: Entry, name: str) -> Train:
        """A path or a closure under the name by which it may be shown."""
        claims = tuple(Claim(*one) for one in self.day.claims(entry))
        standing = Standing.HELD if entry.train is None else Standing.SOLD
        return Train(standing, name, name, entry.runs, claims)

    def picture(self, points: tuple[str, ...], entries: list[Entry],
                name_of: Callable[[Entry], str], window: tuple[float, float], width: int,
                seen: tuple[Run, ...] = ()) -> str:
        """A picture along these points, between these ticks; `seen` is a path that was only looked
        at."""
        line = self._line(points)
        trains = self.planned + [self.train_of(one, name_of(one)) for one in entries]
        if seen:
            trains.append(Train(Standing.SOLD, "?", "?", seen))
        laid = [one for one in (on_line(train, self.day.railway, line) for train in trains)
                if one is not None]
        width = max(LEAST_WIDTH, min(width, WIDEST))
        height = max(LEAST_HEIGHT, min(width * 3 // 5, TALLEST))
        graph = Graph(f"{points[0]} – {points[-1]}", line, self.day.clock, laid, *window, {})
        return draw(graph, width, height)[0]
