"""A plain model of running and blocking times: paths, their rules and their claims, as slow and as
short as they can be said (Pachl, Railway Operation and Control: blocking time).

Lengths are metres, speeds mm/s, ticks those of the base file.
"""
from __future__ import annotations

from collections.abc import Iterable
from dataclasses import dataclass, field
from typing import Any

from kidrofemba.network.route_walks import ends_of_blocks
from kidrofemba.network.table_file import Table

HORIZON = 17_280
STILL = 0
"""The speed in the block before where there is none: the block is entered from stand."""


@dataclass(frozen=True)
class Settings:
    """What a base file says of time: seconds a tick, ticks to set a route and to release a zone,
    the last tick, and whether trains lose time at changes of speed."""

    tick_s: int = 10
    setting: int = 1
    release: int = 1
    horizon: int = HORIZON
    speed_loss: bool = False


@dataclass(frozen=True)
class Block:
    """A block: its length and sight, its speed, its cells (zone, release point), the stops that it
    serves, and the points at which it begins and ends."""

    length: int
    speed: int
    sight: int
    cells: tuple[tuple[int, int], ...]
    serves: tuple[str, ...]
    begins: str
    ends: str


@dataclass(frozen=True)
class Train:
    """A train: metres, mm/s, mm/s² twice, and per cent."""

    length: int
    speed: int
    accel: int
    brake: int
    allowance: int


@dataclass(frozen=True)
class Run:
    """One block of a path: the ticks at which the head enters it and reaches its end, and whether
    the train stops there."""

    block: int
    enter: int
    leave: int
    stops: bool


@dataclass(frozen=True)
class Ask:
    """What is asked for, without stops on the way."""

    number: int
    origin: str
    destination: str
    depart: tuple[int, int]
    arrive: tuple[int, int]

    def line(self, train: str = "F1") -> str:
        windows = " ".join(map(str, (*self.depart, *self.arrive)))
        return f"ask {self.number} {train} {self.origin} {self.destination} {windows} 0"


def train_of(told: dict[str, Any]) -> Train:
    """A train of a train file's object."""
    return Train(*(told[key] for key in ("length_m", "speed", "accel", "brake", "allowance")))


def blocks_of(table: Table, infra: dict[str, Any]) -> list[Block]:
    """The blocks of a network file and of the table that `list` prints of it; ValueError where the
    two do not belong together."""
    return [Block(one.length, one.speed, one.sight,
                  tuple((cell.zone, cell.release) for cell in one.cells), one.serves,
                  str(begins), str(ends))
            for one, (begins, ends) in zip(table.blocks, ends_of_blocks(table, infra))]


def up(a: int, b: int) -> int:
    """The least whole number that is at least a / b."""
    return -(-a // b)


def joined(claims: Iterable[tuple[int, int, int]]) -> list[tuple[int, int, int]]:
    """Claims by zone and begin, those of one zone that overlap or touch made one."""
    told: list[tuple[int, int, int]] = []
    for zone, begin, end in sorted(claims):
        if told and told[-1][0] == zone and begin <= told[-1][2]:
            told[-1] = (zone, told[-1][1], max(end, told[-1][2]))
        else:
            told.append((zone, begin, end))
    return told


@dataclass
class Railway:
    """Blocks, the claims that stand on their zones (begin, end and owner), and the settings."""

    blocks: list[Block]
    claims: dict[int, list[tuple[int, int, str]]] = field(default_factory=dict)
    settings: Settings = Settings()

    def ticks(self, block: Block, train: Train, metres: int, entered: int, stops: bool) -> int:
        """The ticks for so many metres of a block, entered from stand or at the speed of the block
        before, with a stop at its end or none."""
        speed = min(train.speed, block.speed)
        seconds = up(1000 * metres * (100 + train.allowance), 100 * speed)
        if entered == STILL:
            seconds += up(speed, 2 * train.accel)
        elif self.settings.speed_loss and entered < speed:
            seconds += up((speed - entered) ** 2, 2 * train.accel * speed)
        elif self.settings.speed_loss and entered > speed:
            seconds += up((entered - speed) ** 2, 2 * train.brake * entered)
        if stops:
            seconds += up(speed, 2 * train.brake)
        return max(1, up(seconds, self.settings.tick_s))

    def sight(self, block: Block, train: Train) -> int:
        """The ticks over a block's sight distance."""
        if block.sight == 0:
            return 0
        return self.ticks(block, train, block.sight, min(train.speed, block.speed), False)

    def run(self, train: Train, blocks: list[int], at: int) -> list[Run]:
        """The path over these blocks without a stop, which departs at that tick."""
        runs: list[Run] = []
        for place, number in enumerate(blocks):
            block, last = self.blocks[number], place == len(blocks) - 1
            entered = self.entered(train, runs, place)
            leave = at + self.ticks(block, train, block.length, entered, last)
            runs.append(Run(number, at, leave, last))
            at = leave
        return runs

    def entered(self, train: Train, runs: list[Run], place: int) -> int:
        """The speed in the block before that of a run, or STILL where it is entered from stand."""
        if place == 0 or runs[place - 1].stops:
            return STILL
        return min(train.speed, self.blocks[runs[place - 1].block].speed)

    def begin(self, train: Train, runs: list[Run], place: int) -> int:
        """The tick from which the cells of a run are claimed."""
        if self.entered(train, runs, place) == STILL:
            return runs[place].enter - self.settings.setting
        before = runs[place - 1]
        if self.entered(train, runs, place - 1) == STILL:
            return before.enter - self.settings.setting
        sight = self.sight(self.blocks[before.block], train)
        return before.enter - self.settings.setting - sight

    def end(self, train: Train, runs: list[Run], place: int, release: int) -> int:
        """The tick at which the train has cleared a release point of a run, and the zone is free
        again."""
        metres = release + train.length
        for at in range(place, len(runs)):
            run, block = runs[at], self.blocks[runs[at].block]
            if metres <= block.length:
                entered = self.entered(train, runs, at)
                cleared = run.enter + self.ticks(block, train, metres, entered, run.stops)
                return cleared + self.settings.release
            metres -= block.length
        return runs[-1].leave + self.settings.release

    def stairway(self, train: Train, runs: list[Run]) -> list[tuple[int, int, int]]:
        """The claims of a path: zone, begin and end, joined on each zone."""
        claims = []
        for place, run in enumerate(runs):
            begin = self.begin(train, runs, place)
            claims += [(zone, begin, self.end(train, runs, place, release))
                       for zone, release in self.blocks[run.block].cells]
        return joined(claims)

    def broken(self, train: Train, runs: list[Run], ask: Ask) -> str | None:
        """The first rule that a path breaks, in words."""
        for place, run in enumerate(runs):
            block = self.blocks[run.block]
            before = runs[place - 1] if place else None
            if before and self.blocks[before.block].ends != block.begins:
                return f"run {place} does not follow"
            ticks = self.ticks(block, train, block.length, self.entered(train, runs, place),
                               run.stops)
            if run.leave != run.enter + ticks:
                return f"run {place} takes another time"
            late = before and run.enter > before.leave and not before.stops
            if before and (run.enter < before.leave or late):
                return f"run {place} is not entered when it is reached"
            if run.enter < 0 or run.leave > self.settings.horizon:
                return f"run {place} is outside the horizon"
            if run.stops and place < len(runs) - 1:
                return f"run {place} stops where no stop is asked for"
        return self._ends_wrong(runs, ask)

    def _ends_wrong(self, runs: list[Run], ask: Ask) -> str | None:
        """What is wrong with where and when a path begins and ends."""
        first, last = runs[0], runs[-1]
        if not last.stops:
            return "the last run does not stop"
        serves = self.blocks[first.block].serves, self.blocks[last.block].serves
        if ask.origin not in serves[0] or ask.destination not in serves[1]:
            return "it leads elsewhere"
        departs = ask.depart[0] <= first.enter <= ask.depart[1]
        if not (departs and ask.arrive[0] <= last.leave <= ask.arrive[1]):
            return "it is outside its windows"
        return None

    def clash(self, claims: list[tuple[int, int, int]]) -> str | None:
        """The owner of a claim that clashes with one of these."""
        for zone, begin, end in claims:
            for other_begin, other_end, owner in self.claims.get(zone, []):
                if begin < other_end and other_begin < end:
                    return (f"zone {zone} from {begin} to {end} with {owner} "
                            f"from {other_begin} to {other_end}")
        return None

    def add(self, claims: list[tuple[int, int, int]], owner: str) -> None:
        for zone, begin, end in claims:
            self.claims.setdefault(zone, []).append((begin, end, owner))
