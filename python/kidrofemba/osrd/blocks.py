"""The blocks of an export's routes, each once, and the switches that the server reads for them."""
from __future__ import annotations

from collections.abc import Collection, Iterable, Iterator
from dataclasses import dataclass, field

from kidrofemba.osrd.changes import Change, Report
from kidrofemba.osrd.export import BUILT_IN, DETECTOR, Route, Switch, Ways, shown_name
from kidrofemba.osrd.signals import Post
from kidrofemba.osrd.tracks import Crossing, Passage, Step, Tracks

LONGEST_ID = 255
READ_TYPES = ("link", "point_switch", "crossing", "double_slip_switch")


@dataclass(slots=True)
class Block:
    """A stretch of routes between two places where blocks end."""

    begin: Passage
    end: Passage
    inside: list[str]
    crossings: tuple[Crossing, ...]
    # The detectors inside at which all of its routes are released, and at which some are.
    releases: set[str]
    some_releases: set[str]
    routes: list[str] = field(default_factory=list)
    # The route that is this block and nothing else.
    alone: str | None = None

    def tracks(self) -> Iterator[str]:
        yield self.begin.track
        for crossing in self.crossings:
            yield crossing.track

    def told(self) -> str:
        return f"from {shown_name(self.begin.id)} to {shown_name(self.end.id)}"


class Blocks:
    """All blocks of all routes, in the order in which routes come to them."""

    def __init__(self, tracks: Tracks, posts: Collection[Post], report: Report) -> None:
        self.tracks, self.posts, self.report = tracks, posts, report
        self.known: dict[tuple[object, ...], Block] = {}

    def cut(self, route: Route, walk: list[Step]) -> None:
        """Cuts a route into its blocks."""
        cuts = [at for at, step in enumerate(walk) if at in (0, len(walk) - 1) or self._ends(step)]
        releases = self._releases_of(route, walk)
        for first, last in zip(cuts, cuts[1:]):
            block = self._block(walk[first : last + 1], releases)
            key = (
                block.begin.kind,
                block.begin.id,
                block.begin.way,
                block.end.kind,
                block.end.id,
                tuple((one.switch, one.source, one.sink) for one in block.crossings),
            )
            known = self.known.setdefault(key, block)
            if len(cuts) == 2 and known.alone is None:
                known.alone = route.id
            known.releases &= block.releases
            known.some_releases |= block.releases
            known.routes.append(route.id)
        if len(cuts) > 2:
            self.report.note(Change.CUT, f"route {shown_name(route.id)}: {len(cuts) - 1} blocks")

    def _ends(self, step: Step) -> bool:
        return (
            isinstance(step, Passage)
            and step.kind == DETECTOR
            and (step.id, step.way) in self.posts
        )

    def _releases_of(self, route: Route, walk: list[Step]) -> set[str]:
        wanted = {self.tracks.place((DETECTOR, name)).point.id: name for name in route.releases}
        passed = {step.id for step in walk if isinstance(step, Passage) and step.kind == DETECTOR}
        for name in wanted:
            if name not in passed:
                self.report.note(
                    Change.RELEASE,
                    f"route {shown_name(route.id)}: detector "
                    f"{shown_name(wanted[name])}, which it does not pass",
                )
        return set(wanted)

    def _block(self, steps: list[Step], releases: set[str]) -> Block:
        inside = [
            step.id for step in steps[1:-1] if isinstance(step, Passage) and step.kind == DETECTOR
        ]
        crossings = tuple(step for step in steps if isinstance(step, Crossing))
        own = releases & set(inside)
        first, last = steps[0], steps[-1]
        assert isinstance(first, Passage) and isinstance(last, Passage)
        return Block(first, last, inside, crossings, own, set(own))

    def readable(self) -> list[Block]:
        """The blocks that the server reads: with a length, and no detector twice."""
        kept = []
        for block in self.known.values():
            ends = [one.id for one in (block.begin, block.end) if one.kind == DETECTOR]
            passed = block.inside + ends
            if block.begin.metre == block.end.metre:
                self.report.note(Change.EMPTY_BLOCK, f"block {block.told()}: it has no length")
            elif len(set(passed)) < len(passed):
                self.report.note(
                    Change.EMPTY_BLOCK, f"block {block.told()}: it comes to a detector twice"
                )
            else:
                kept.append(block)
                self._tell_shared(block)
        return kept

    def _tell_shared(self, block: Block) -> None:
        if len(block.routes) > 1:
            names = ", ".join(map(shown_name, block.routes))
            self.report.note(Change.SHARED, f"block {block.told()}: routes {names}")
        for name in block.inside:
            if name in block.some_releases - block.releases:
                self.report.note(
                    Change.RELEASE,
                    f"block {block.told()}: detector {shown_name(name)}, "
                    "at which only some of its routes are released",
                )


class Names:
    """Names that are given once."""

    def __init__(self, taken: Iterable[str] = ()) -> None:
        self.taken = set(taken)

    def new(self, wanted: str, short: str) -> str:
        """The wanted name, or the like of it where it is taken, or a short one's where it is
        long.
        """
        name, number = wanted, 1
        while name in self.taken or len(name.encode()) > LONGEST_ID:
            if len(name.encode()) > LONGEST_ID:
                wanted = short
            number += 1
            name = f"{wanted}_{number}"
        self.taken.add(name)
        return name


@dataclass(slots=True)
class ReadSwitch:
    """A switch as the server reads it: the type, and for each port of the export the one here."""

    type: str
    ports: dict[str, str]

    def group(self, source: str, sink: str) -> str:
        """The group that leads from a port of the export to another."""
        if self.type in ("link", "crossing"):
            return "STATIC"
        return "_".join(sorted((self.ports[source], self.ports[sink])))


def sides_of(ways: Iterable[tuple[str, str]]) -> list[tuple[list[str], list[str]]] | None:
    """The ports that ways join, in groups that hang together, each in two sides such that each way
    leads from one to the other; nothing where there are no such sides."""
    beside: dict[str, set[str]] = {}
    for source, sink in ways:
        beside.setdefault(source, set()).add(sink)
        beside.setdefault(sink, set()).add(source)
    side: dict[str, int] = {}
    parts = []
    for start in sorted(beside):
        if start in side:
            continue
        side[start] = 0
        reached = [start]
        for port in reached:
            for other in sorted(beside[port]):
                if other not in side:
                    side[other] = 1 - side[port]
                    reached.append(other)
                elif side[other] == side[port]:
                    return None
        parts.append(
            (
                [port for port in sorted(reached) if side[port] == 0],
                [port for port in sorted(reached) if side[port] == 1],
            )
        )
    return parts


def read_switch_of(
    switch: Switch, groups: dict[str, Ways], kept: Collection[str]
) -> ReadSwitch | None:
    """The switch with the same ways between the ports that are kept, as the server reads it;
    nothing where it reads none.
    """
    all_ways = {way for ways in groups.values() for way in ways}
    ways = {way for way in all_ways if way[0] in kept and way[1] in kept}
    if switch.type in READ_TYPES and groups == BUILT_IN[switch.type] and ways == all_ways:
        return ReadSwitch(switch.type, {port: port for way in ways for port in way})
    parts = sides_of(ways)
    if parts is None or not parts:
        return None
    shape = [tuple(sorted((left, right), key=len)) for left, right in parts]
    sizes = [(len(few), len(many)) for few, many in shape]
    few, many = shape[0]
    match sizes:
        case [(1, 1)]:
            return ReadSwitch("link", {few[0]: "A", many[0]: "B"})
        case [(1, 2)]:
            return ReadSwitch("point_switch", {few[0]: "A", many[0]: "B1", many[1]: "B2"})
        case [(2, 2)]:
            return ReadSwitch(
                "double_slip_switch", {few[0]: "A1", few[1]: "A2", many[0]: "B1", many[1]: "B2"}
            )
        case [(1, 1), (1, 1)]:
            (left, right), (other_left, other_right) = shape
            return ReadSwitch(
                "crossing",
                {left[0]: "A1", right[0]: "B1", other_left[0]: "A2", other_right[0]: "B2"},
            )
    return None
