"""Which detectors end a block, by the signals of an export that stand before them."""
from __future__ import annotations

from collections import defaultdict
from collections.abc import Collection, Iterable
from dataclasses import dataclass

from kidrofemba.osrd.changes import Change, Report
from kidrofemba.osrd.export import DETECTOR, FORWARD, Export, Signal, shown_name
from kidrofemba.osrd.tracks import Crossing, Passage, Place, Step, Tracks

# A detector, and the way in which it is passed.
Post = tuple[str, str]


@dataclass(slots=True)
class Candidate:
    """A signal before a detector, and how far before."""

    signal: Signal
    distance: float


class Posts:
    """For each detector and way the signals before it, of which the nearest counts."""

    def __init__(
        self, export: Export, tracks: Tracks, systems: Collection[str], report: Report
    ) -> None:
        self.tracks, self.report = tracks, report
        self.candidates: dict[Post, dict[str, Candidate]] = defaultdict(dict)
        # Signals without a detector ahead on their own track, by track and way.
        self.lost: dict[tuple[str, str], list[Signal]] = defaultdict(list)
        for signal in export.signals.values():
            if self._ends_blocks(signal, systems):
                self._place(signal)

    def _ends_blocks(self, signal: Signal, systems: Collection[str]) -> bool:
        own = [system for system in signal.systems if system in systems]
        if not own:
            self._tell_other(signal, systems)
        elif not set(own) & set(signal.ending):
            self.report.note(Change.DISTANT_SIGNAL, f"signal {shown_name(signal.id)}")
            return False
        return bool(own)

    def _tell_other(self, signal: Signal, systems: Collection[str]) -> None:
        """Tells of a signal that it is of none of the chosen systems."""
        names = [shown_name(system) for system in signal.systems]
        told = f"signal {shown_name(signal.id)} of {', '.join(names) or 'no system'}"
        self.report.note(Change.OTHER_SIGNAL, told, " and ".join(names) or "none")
        for system in signal.systems:
            if any(system.casefold() == chosen.casefold() for chosen in systems):
                self.report.note(Change.OTHER_CASE, told, shown_name(system))

    def _place(self, signal: Signal) -> None:
        """Gives a signal to the first detector at or after it on its track, if there is one."""
        forward = signal.direction == FORWARD
        ahead = None
        for place in self.tracks.detectors(signal.track):
            gap = place.point.position - signal.position
            if forward and gap >= 0:
                ahead = place
                break
            if not forward and gap <= 0:
                ahead = place
        if ahead is None:
            self.lost[signal.track, signal.direction].append(signal)
        else:
            gap = abs(ahead.point.position - signal.position)
            self._add((ahead.point.id, signal.direction), signal, gap)

    def _add(self, post: Post, signal: Signal, distance: float) -> None:
        self.candidates[post].setdefault(signal.id, Candidate(signal, distance))

    def follow(self, walks: Iterable[list[Step]]) -> None:
        """Gives signals whose detector lies on another track to the next detector on each route."""
        found: dict[str, set[Post]] = defaultdict(set)
        for walk in walks if self.lost else ():
            self._follow(walk, found)
        for signals in self.lost.values():
            for signal in signals:
                for detector, _ in sorted(found[signal.id]):
                    self.report.note(
                        Change.MOVED_SIGNAL,
                        f"signal {shown_name(signal.id)}: to " f"detector {shown_name(detector)}",
                    )
                if not found[signal.id]:
                    self.report.note(Change.NO_DETECTOR, f"signal {shown_name(signal.id)}")

    def _follow(self, walk: list[Step], found: dict[str, set[Post]]) -> None:
        first = walk[0]
        assert isinstance(first, Passage)
        entry = self.tracks.place((first.kind, first.id)).point.position
        here = [
            signal
            for signal in self.lost.get((first.track, first.way), [])
            if (signal.position >= entry) == (first.way == FORWARD)
        ]
        waiting: list[tuple[Signal, float]] = []
        for step in walk[1:]:
            if isinstance(step, Crossing):
                waiting += [(signal, step.metre - self._to_end(signal)) for signal in here]
                here = self.lost.get((step.track, step.way), [])
            elif waiting and step.kind == DETECTOR:
                for signal, metre in waiting:
                    found[signal.id].add((step.id, step.way))
                    self._add((step.id, step.way), signal, step.metre - metre)
                waiting = []

    def _to_end(self, signal: Signal) -> float:
        """The metres from a signal to the end of its track that it looks to."""
        if signal.direction == FORWARD:
            return max(0.0, self.tracks.rulers[signal.track].length - signal.position)
        return signal.position

    def nearest(self) -> dict[Post, Signal]:
        """The signal of each detector and way that has one."""
        chosen: dict[Post, Signal] = {}
        for post, candidates in self.candidates.items():
            best = min(candidates.values(), key=lambda candidate: candidate.distance)
            chosen[post] = best.signal
            for candidate in candidates.values():
                if candidate is not best:
                    self.report.note(
                        Change.FARTHER_SIGNAL,
                        f"signal {shown_name(candidate.signal.id)}, "
                        f"{candidate.distance:.1f} m before detector {shown_name(post[0])}",
                    )
        return chosen


def metre_of_signal(tracks: Tracks, signal: Signal, place: Place) -> int:
    """Where a signal is put on its detector's track: where it stood, but behind the detector
    before, and not beyond its own.
    """
    ruler, track = tracks.rulers[place.point.track], place.point.track
    if signal.track != track:
        return place.metre
    row = tracks.detectors(track)
    at = row.index(place)
    metre = ruler.at(signal.position)
    if signal.direction == FORWARD:
        least = row[at - 1].metre + 1 if at > 0 else 0
        return min(max(metre, least), place.metre)
    most = row[at + 1].metre - 1 if at + 1 < len(row) else ruler.length
    return max(min(metre, most), place.metre)
