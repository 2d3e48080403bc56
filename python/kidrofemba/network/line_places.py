"""Where tracks, zones and operational points lie along a line.

A line is a way over tracks through a chain of operational points; what lies on it has a distance
in metres from its begin. A track beside it, such as a siding or the other track of a double line,
is laid along it between the places that both share: operational points with a place on either, and
switches that lead from one to the other.
"""
from __future__ import annotations

from collections import defaultdict
from collections.abc import Iterable, Iterator, Sequence
from dataclasses import dataclass
from heapq import heapify, heappop, heappush

from kidrofemba.common.companion import Refused, escaped
from kidrofemba.network.railway import Block, Place, Railway, Stretch, TrackEnd
from kidrofemba.network.table_file import Piece

# A way that no train is known to take counts as so many times as long as one that trains take.
UNTAKEN = 1.5
# A track is beside the line where it is no longer than the line beside it, times this and with so
# many metres more. Longer ones are other lines that meet it twice.
LONGER_AT_MOST, LONGER_AT_MOST_M = 1.5, 1000
# How many names a refusal tells.
SHOWN_NAMES = 10


@dataclass(frozen=True)
class Laid:
    """A part of a track, from position `low` to `high`, and the distances at which these lie."""

    low: float
    high: float
    at_low: float
    at_high: float
    beside: bool

    def metre(self, position: float) -> float:
        """The distance of a position of this part."""
        if self.high == self.low:
            return self.at_low
        share = (position - self.low) / (self.high - self.low)
        return self.at_low + share * (self.at_high - self.at_low)


@dataclass(frozen=True)
class Station:
    """An operational point on the line."""

    name: str
    metre: float


@dataclass(frozen=True)
class Extent:
    """From where to where something lies along the line, and whether it is only beside it."""

    top: float
    bottom: float
    beside: bool


@dataclass(frozen=True)
class Line:
    """A line: its length, its stations in the order of distance, where the parts of tracks lie, and
    where zones do."""

    length: int
    stations: list[Station]
    laid: dict[str, list[Laid]]
    zones: dict[int, Extent]


def chain_of_blocks(railway: Railway, points: Sequence[str], taken: set[tuple[int, int]]
                    ) -> list[Block]:
    """The shortest chain of blocks that comes by these operational points in order, or an empty one
    where there is none. Where zones follow each other as no train takes them, a block counts as
    longer."""
    followers = railway.followers()
    offsets = [{block.number: offset for block in railway.blocks
                if (offset := block.offset_of(railway.points[point])) is not None}
               for point in points]

    def cost(before: int | None, number: int) -> float:
        block = railway.blocks[number]
        zones = (*(railway.blocks[before].zones[-1:] if before is not None else ()), *block.zones)
        return block.length * (1 if all(pair in taken for pair in zip(zones, zones[1:]))
                               else UNTAKEN)

    def made(count: int, number: int) -> int:
        """How many points are made once this block is passed, where so many were before it."""
        at = -1.0
        while count < len(points) and offsets[count].get(number, -1.0) > at:
            at = offsets[count][number]
            count += 1
        return count

    queue: list[tuple[float, int, int, tuple[int, int] | None]] = [
        (cost(None, number), made(0, number), number, None) for number in offsets[0]]
    heapify(queue)
    came_from: dict[tuple[int, int], tuple[int, int] | None] = {}
    while queue:
        far, count, number, before = heappop(queue)
        here = (count, number)
        if here in came_from:
            continue
        came_from[here] = before
        if count == len(points):
            return _followed_back(railway, here, came_from)
        for other in followers[number]:
            if railway.blocks[other].zones[0] != railway.blocks[number].zones[-1]:
                heappush(queue, (far + cost(number, other), made(count, other), other, here))
    return []


def _followed_back(railway: Railway, last: tuple[int, int],
                   came_from: dict[tuple[int, int], tuple[int, int] | None]) -> list[Block]:
    """The blocks that a search came by, from the first to the last."""
    chain: list[Block] = []
    here: tuple[int, int] | None = last
    while here is not None:
        chain.append(railway.blocks[here[1]])
        here = came_from[here]
    return chain[::-1]


def _there_are(names: list[str]) -> str:
    """The first of the names that there are."""
    shown = [name if name.isprintable() else escaped(name) for name in names[:SHOWN_NAMES]]
    more = f" and {len(names) - SHOWN_NAMES} more" if len(names) > SHOWN_NAMES else ""
    return f"; there are {', '.join(shown)}{more}" if shown else "; there is none"


def way_of_points(railway: Railway, points: Sequence[str], taken: set[tuple[int, int]]
                  ) -> list[Stretch]:
    """The way over tracks by these operational points, along blocks or against them."""
    for at, point in enumerate(points, 1):
        if point not in railway.points:
            raise Refused(railway.network, f"--along {at}",
                          f"no operational point is {point}{_there_are(list(railway.points))}")
        if not railway.points[point]:
            raise Refused(railway.network, f"--along {at}", f"{point} lies on no track")
    there = chain_of_blocks(railway, points, taken)
    if there:
        return [stretch for block in there for stretch in block.way]
    back = chain_of_blocks(railway, points[::-1], taken)
    if back:
        return [stretch.reverse for block in back[::-1] for stretch in block.way[::-1]]
    raise _no_way(railway, points, taken)


def _no_way(railway: Railway, points: Sequence[str], taken: set[tuple[int, int]]) -> Refused:
    """Why no blocks lead by these points: between which two there is no way, if between two."""
    for at in range(len(points) - 1):
        two = points[at:at + 2]
        if not chain_of_blocks(railway, two, taken) and not chain_of_blocks(railway, two[::-1],
                                                                            taken):
            return Refused(railway.network, f"--along {at + 2}",
                           f"no blocks lead from {two[0]} to {two[1]}, nor back")
    return Refused(railway.network, "--along",
                   f"no chain of blocks leads by {', '.join(points)} in this order, nor back")


def _joined(way: Iterable[Stretch]) -> list[Stretch]:
    """A way with one stretch where several follow each other on one track."""
    joined: list[Stretch] = []
    for one in way:
        last = joined[-1] if joined else None
        if last and (last.track, last.end, last.ascends) == (one.track, one.begin, one.ascends):
            joined[-1] = Stretch(one.track, last.begin, one.end, one.ascends)
        else:
            joined.append(one)
    return joined


def _lay_way(way: Iterable[Stretch]) -> tuple[int, dict[str, list[Laid]]]:
    """The length of a way, and where its stretches lie along it."""
    laid: dict[str, list[Laid]] = defaultdict(list)
    gone = 0
    for one in _joined(way):
        (low, at_low), (high, at_high) = sorted([(one.begin, gone), (one.end, gone + one.length)])
        laid[one.track].append(Laid(low, high, at_low, at_high, beside=False))
        gone += one.length
    return gone, laid


def _distance(place: Place, laid: dict[str, list[Laid]]) -> float | None:
    """The least distance of a place that is laid."""
    return min((part.metre(place.position) for part in laid.get(place.track, [])
                if part.low <= place.position <= part.high), default=None)


def _stations(railway: Railway, laid: dict[str, list[Laid]]) -> list[Station]:
    """The operational points on the line, in the order of distance."""
    found = []
    for name, places in railway.points.items():
        distances = [_distance(place, laid) for place in places]
        if any(one is not None for one in distances):
            found.append(Station(name, min(one for one in distances if one is not None)))
    return sorted(found, key=lambda one: (one.metre, one.name))


@dataclass(frozen=True)
class _Anchor:
    """A position of a track whose distance along the line is known."""

    position: float
    metre: float


@dataclass(frozen=True)
class _Reach:
    """How far behind an anchor is, and its distance along the line."""

    gone: float
    metre: float


class _Beside:
    """Lays tracks beside a line, between anchors: the ends of what lies on the line itself, and the
    places of its operational points on other tracks. A switch has one distance, which all tracks
    that meet there share."""

    def __init__(self, railway: Railway, own: dict[str, list[Laid]], stations: list[Station]):
        self.railway, self.own = railway, own
        self.anchors: dict[str, list[_Anchor]] = defaultdict(list)
        for track, parts in own.items():
            for part in parts:
                self.anchors[track] += [_Anchor(part.low, part.at_low),
                                        _Anchor(part.high, part.at_high)]
        for station in stations:
            for place in railway.points[station.name]:
                if _distance(place, own) is None:
                    self.anchors[place.track].append(_Anchor(place.position, station.metre))
        for anchors in self.anchors.values():
            anchors.sort(key=lambda one: one.position)
        self.reached = self._reached()

    def _reached(self) -> dict[TrackEnd, _Reach]:
        """Which anchor a train that leaves a track at this end has come from, over tracks without
        anchors and without turning round: the nearest one, for each end that can be reached."""
        lengths = self.railway.tracks
        queue: list[tuple[float, float, str, bool]] = []
        for track, anchors in self.anchors.items():
            first, last = anchors[0], anchors[-1]
            queue.append((first.position, first.metre, track, False))
            queue.append((lengths[track] - last.position, last.metre, track, True))
        heapify(queue)
        found: dict[TrackEnd, _Reach] = {}
        while queue:
            gone, metre, track, at_end = heappop(queue)
            end = TrackEnd(track, at_end)
            if end in found:
                continue
            found[end] = _Reach(gone, metre)
            for other in self.railway.joints.get(end, []):
                if other.track not in self.anchors:
                    heappush(queue, (gone + lengths[other.track], metre, other.track,
                                     not other.at_end))
        return found

    def _metre_of_end(self, end: TrackEnd) -> float | None:
        """The distance of the place where a track ends, with all that is joined there: that of the
        line, else between the anchors from which one comes there from either side; of several such
        pairs by the one whose way is most nearly as long as the line between them."""
        joined = self._joined_at(end)
        for one in sorted(joined, key=lambda it: (it.track, it.at_end)):
            position = self.railway.tracks[one.track] if one.at_end else 0
            metre = _distance(Place(one.track, position), self.own)
            if metre is not None:
                return metre
        pairs = [(self.reached[one], self.reached[other]) for one in joined if one in self.reached
                 for other in self.railway.joints.get(one, []) if other in self.reached]
        between = [pair for pair in pairs if _is_beside(pair[0].gone + pair[1].gone,
                                                        pair[0].metre, pair[1].metre)]
        if not between:
            return None
        nearer, farther = min(between, key=lambda pair: (
            abs(pair[0].gone + pair[1].gone - abs(pair[0].metre - pair[1].metre)),
            pair[0].metre, pair[1].metre))
        return (nearer.metre + (farther.metre - nearer.metre) * nearer.gone
                / max(nearer.gone + farther.gone, 1))

    def _joined_at(self, end: TrackEnd) -> set[TrackEnd]:
        """All ends of tracks that are joined where this one is."""
        joined, left = {end}, [end]
        while left:
            for other in self.railway.joints.get(left.pop(), []):
                if other not in joined:
                    joined.add(other)
                    left.append(other)
        return joined

    def lay(self) -> dict[str, list[Laid]]:
        """The parts of tracks that lie beside the line."""
        laid: dict[str, list[Laid]] = {}
        for track, length in self.railway.tracks.items():
            marks = list(self.anchors.get(track, []))
            for at_end, position in ((False, 0), (True, length)):
                metre = self._metre_of_end(TrackEnd(track, at_end))
                if metre is not None and all(one.position != position for one in marks):
                    marks.append(_Anchor(position, metre))
            marks.sort(key=lambda one: one.position)
            laid[track] = [Laid(a.position, b.position, a.metre, b.metre, beside=True)
                           for a, b in zip(marks, marks[1:]) if a.position < b.position
                           and not self._is_own(track, a, b)
                           and _is_beside(b.position - a.position, a.metre, b.metre)]
        return laid

    def _is_own(self, track: str, before: _Anchor, behind: _Anchor) -> bool:
        """Whether the line itself is what lies on a track between two positions."""
        return any(part.low <= before.position and behind.position <= part.high
                   for part in self.own.get(track, []))


def _is_beside(length: float, metre: float, other: float) -> bool:
    """Whether a way of this length between two distances of the line lies beside it."""
    beside = abs(other - metre)
    return 0 < beside and length <= LONGER_AT_MOST * beside + LONGER_AT_MOST_M


def _extent(pieces: Iterable[Piece], laid: dict[str, list[Laid]]) -> Extent | None:
    """Where a zone lies: by its pieces on the line, else by those beside it."""
    found = []
    for piece in pieces:
        for part in laid.get(piece.track, []):
            low, high = max(piece.begin, part.low), min(piece.end, part.high)
            if low < high:
                found.append((part.beside, part.metre(low), part.metre(high)))
    on_line = [one for one in found if not one[0]] or found
    if not on_line:
        return None
    metres = [metre for _, *both in on_line for metre in both]
    return Extent(min(metres), max(metres), on_line[0][0])


def line_of(railway: Railway, points: Sequence[str], taken: set[tuple[int, int]]) -> Line:
    """The line by these operational points; `taken` are pairs of zones that trains take one behind
    the other, by which the line goes where several ways lead."""
    length, laid = _lay_way(way_of_points(railway, points, taken))
    stations = _stations(railway, laid)
    for track, parts in _Beside(railway, laid, stations).lay().items():
        laid[track] = sorted(laid.get(track, []) + parts, key=lambda one: one.low)
    extents = ((zone, _extent(pieces, laid)) for zone, pieces in enumerate(railway.zones))
    return Line(length, stations, laid, {zone: extent for zone, extent in extents if extent})


@dataclass(frozen=True)
class Segment:
    """A part of a way that lies along the line: from one offset and distance to another."""

    offset: float
    metre: float
    end_offset: float
    end_metre: float


def segments_of(way: Iterable[Stretch], line: Line) -> Iterator[Segment]:
    """The parts of a way that lie along the line, in order."""
    gone = 0
    for stretch in way:
        parts = line.laid.get(stretch.track, [])
        for part in parts if stretch.ascends else reversed(parts):
            low = max(min(stretch.begin, stretch.end), part.low)
            high = min(max(stretch.begin, stretch.end), part.high)
            if low < high:
                first, last = (low, high) if stretch.ascends else (high, low)
                yield Segment(gone + stretch.offset(first), part.metre(first),
                              gone + stretch.offset(last), part.metre(last))
        gone += stretch.length
