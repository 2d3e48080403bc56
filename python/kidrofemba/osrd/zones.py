"""The zones of a network, found as OSRD tells them: by the detectors that bound a zone, or by a
stretch of track.

OSRD names a zone `zone.[D1:INCREASING, D2:DECREASING]`, each bound a detector or a buffer stop with
the way in which one passes it into the zone. Places on tracks are metres with fractions there;
a network that was made from an export may tell them as `real` beside the rounded position.
"""
from __future__ import annotations

import math
import re
from collections import defaultdict
from pathlib import Path
from typing import Any

from kidrofemba.common.companion import Refused, escaped
from kidrofemba.network.table_file import Table

_BOUND = re.compile(r", ?(?=[^,]*:(?:INCREASING|DECREASING)(?:,|$))")


class OsrdZones:
    """The zones of a network file and of the table that `list` prints of it."""

    def __init__(self, infra: dict[str, Any], table: Table, file: str | Path):
        self._pieces = _pieces_of(infra, table)
        self._place: dict[str, tuple[str, int]] = {}
        cuts: dict[str, dict[int, float]] = {track: {} for track in self._pieces}
        for key in ("detectors", "buffer_stops"):
            for one in infra.get(key, []):
                position = int(one["position"])
                self._place[one["id"]] = one["track"], position
                if key == "detectors":
                    cuts[one["track"]][position] = float(one.get("real", one["position"]))
        self._cuts = {track: [real for _, real in sorted(row.items())]
                      for track, row in cuts.items()}
        self._length = {one["id"]: float(one["length"]) for one in infra["track_sections"]}
        for track, row in self._pieces.items():
            if len(row) != len(self._cuts[track]) + 1:
                raise Refused(file, f"track {track}", "its pieces are not those of the network: "
                                                      "this is no table of it")
        self.with_switches = {self._at_end(end) for one in infra.get("switches", [])
                              if one["switch_type"] != "link" for end in one["ports"].values()}
        """The zones with a switch that moves, or with a crossing."""

    def _at_end(self, end: dict[str, str]) -> int:
        return self._pieces[end["track"]][0 if end["endpoint"] == "BEGIN" else -1][2]

    def named(self, name: str) -> set[int]:
        """The zones of a name; ValueError where it is none. It is one zone, but none where the
        network has nothing of it, and several where tracks or switches of it were left out."""
        if not name.startswith("zone.[") or not name.endswith("]"):
            raise ValueError(f"no name such as zone.[D1:INCREASING, D2:DECREASING]: {name}")
        found = set()
        for bound in _BOUND.split(name[6:-1]):
            detector, _, way = bound.rpartition(":")
            if way not in ("INCREASING", "DECREASING"):
                raise ValueError(f"{bound} of {name} has neither INCREASING nor DECREASING")
            if detector in self._place:
                found.add(self._beside(*self._place[detector], way == "INCREASING"))
        return found

    def _beside(self, track: str, position: int, onward: bool) -> int:
        """The zone behind a place on a track, or before it."""
        row = self._pieces[track]
        if onward:
            return [zone for begin, _, zone in row if begin <= position][-1]
        return next(zone for _, end, zone in row if end >= position)

    def has_track(self, track: str) -> bool:
        return track in self._pieces

    def is_beyond(self, track: str, metre: float) -> bool:
        """Whether a place lies more than a metre beyond the end of a track."""
        return metre > self._length[track] + 1

    def on(self, track: str, begin: float, end: float) -> set[int]:
        """The zones of which a stretch of track has a part."""
        bounds = [-math.inf, *self._cuts[track], math.inf]
        return {zone for (_, _, zone), low, high in zip(self._pieces[track], bounds, bounds[1:])
                if (low < end and begin < high) or low <= begin == end <= high}


def _pieces_of(infra: dict[str, Any], table: Table) -> dict[str, list[tuple[int, int, int]]]:
    """The pieces of each track, from its begin on: begin, end and zone."""
    written = {escaped(one["id"]): one["id"] for one in infra["track_sections"]}
    pieces: dict[str, list[tuple[int, int, int]]] = defaultdict(list)
    for track in written.values():
        pieces[track] = []
    for number, zone in enumerate(table.zones):
        for piece in zone:
            pieces[written.get(piece.track, "")].append((piece.begin, piece.end, number))
    pieces.pop("", None)
    for row in pieces.values():
        row.sort()
    return dict(pieces)
