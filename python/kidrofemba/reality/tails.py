"""Limits that hold until a train's tail is past them, for a network in which all trains are alike:
each limit is lengthened behind its end, in its direction, over whatever track comes next."""
from __future__ import annotations

from collections import defaultdict
from collections.abc import Iterator
from typing import Any

from kidrofemba.reality.plain import BACKWARD, FORWARD, Lists

WAYS = {
    "link": (("A", "B"),),
    "point_switch": (("A", "B1"), ("A", "B2")),
    "crossing": (("A1", "B1"), ("A2", "B2")),
    "double_slip_switch": (("A1", "B1"), ("A1", "B2"), ("A2", "B1"), ("A2", "B2")),
}
#: A stretch of a track and the way along it: begin and end are from the track's begin on.
Part = tuple[str, int, int, str]


class Tails:
    """The tracks of a network's lists, and what lies behind the end of each."""

    def __init__(self, lists: Lists) -> None:
        self.length = {one["id"]: int(one["length"]) for one in lists["track_sections"]}
        self.behind: dict[tuple[str, str], list[tuple[str, str]]] = defaultdict(list)
        for one in lists["switches"]:
            for ports in WAYS[one["switch_type"]]:
                ends = [one["ports"][port] for port in ports]
                for source, sink in (ends, ends[::-1]):
                    way = FORWARD if source["endpoint"] == "END" else BACKWARD
                    into = FORWARD if sink["endpoint"] == "BEGIN" else BACKWARD
                    self.behind[source["track"], way].append((sink["track"], into))

    def parts(self, track: str, end: int, way: str, metres: int) -> Iterator[Part]:
        """The stretches on so many metres behind a place."""
        waiting, seen = [(track, end, way, metres)], set()
        while waiting:
            track, here, way, left = waiting.pop()
            room = self.length[track] - here if way == FORWARD else here
            part = min(left, room)
            if part > 0:
                low, high = (here, here + part) if way == FORWARD else (here - part, here)
                yield track, low, high, way
            if left <= room:
                continue
            for other, into in self.behind[track, way]:
                if (other, into, left - room) not in seen:
                    seen.add((other, into, left - room))
                    begin = 0 if into == FORWARD else self.length[other]
                    waiting.append((other, begin, into, left - room))


def lengthen_limits(lists: Lists, metres: int) -> int:
    """Lengthens each limit by a train's length behind its end; how many ranges came to be."""
    tails, count = Tails(lists), 0
    for section in lists["speed_sections"]:
        added: set[Part] = set()
        for one in section["track_ranges"]:
            ways = (FORWARD, BACKWARD) if one["applicable_directions"] == "BOTH" else \
                (one["applicable_directions"],)
            for way in ways:
                end = int(one["end"] if way == FORWARD else one["begin"])
                added.update(tails.parts(one["track"], end, way, metres))
        covered = {(one["track"], int(one["begin"]), int(one["end"]), way)
                   for one in section["track_ranges"]
                   for way in (FORWARD, BACKWARD) if one["applicable_directions"] in ("BOTH", way)}
        for track, low, high, way in sorted(added):
            if not any(other == track and along == way and begin <= low and high <= end
                       for other, begin, end, along in covered):
                section["track_ranges"].append(_range(track, low, high, way))
                count += 1
    return count


def _range(track: str, low: int, high: int, way: str) -> dict[str, Any]:
    return {"track": track, "begin": low, "end": high, "applicable_directions": way}
