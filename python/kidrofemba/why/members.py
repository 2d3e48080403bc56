"""A plain model of proofs that no path can be granted: the places of a train, its moves, and
whether members hold all that a free move leads to.

A place tells the blocks under the train, how it entered the last of them, whether it stands there,
and how many of the named stops it has made. A member is a place with a window of ticks at which the
head is at the end of its last block. Members prove that no path can be granted where they hold what
each free move from the start or from a member leads to, and no free end arrives in time. Sets of
ticks are kept as the bits of one number, so that nothing is cut into windows here.
"""
from __future__ import annotations

from collections.abc import Callable, Collection, Iterable, Iterator
from dataclasses import dataclass
from typing import NamedTuple

from kidrofemba.network.blocking_times import STILL, Railway, Train

# The first tick that has a bit. The claims of a move that is entered at tick 0 begin no earlier,
# for a train of which `Line.is_within_ticks` holds.
LOW = -2_000


class Place(NamedTuple):
    """Blocks under the train, the speed in the block before its last one or STILL, whether it
    stands, and the stops that it has made."""

    tail: tuple[int, ...]
    entered: int
    stands: bool
    made: int


START = Place((), STILL, True, 0)


class Step(NamedTuple):
    """A block, and whether the train stops at its end."""

    block: int
    stops: bool


class Member(NamedTuple):
    """A place, and the first and the last tick of a window."""

    place: Place
    first: int
    last: int

    def line(self) -> str:
        place = self.place
        fields = [len(place.tail), *place.tail, place.entered, int(place.stands), place.made,
                  self.first, self.last]
        return "member " + " ".join(map(str, fields))


@dataclass(frozen=True)
class Asked:
    """What is asked for: from where to where, within which windows, and the stops on the way with
    their least waits."""

    train: str
    origin: str
    destination: str
    depart: tuple[int, int]
    arrive: tuple[int, int]
    stops: tuple[tuple[str, int], ...] = ()

    def fields(self) -> str:
        windows = " ".join(map(str, (*self.depart, *self.arrive)))
        stops = "".join(f" {name} {wait}" for name, wait in self.stops)
        return (f"{self.train} {self.origin} {self.destination} {windows} {len(self.stops)}"
                + stops)


@dataclass(frozen=True)
class Proof:
    """How many entries were searched, the number and the request of the ask, and the members."""

    at: int
    number: int
    asked: Asked
    members: tuple[Member, ...]

    def text(self) -> str:
        head = [f"proof at {self.at} ask {self.number} {self.asked.fields()}",
                f"members {len(self.members)}"]
        return "".join(line + "\n" for line in head + [member.line() for member in self.members])


def asked_of(fields: list[str]) -> Asked:
    """What the fields behind the number of an ask, or of a proof, ask for; else ValueError."""
    train, origin, destination, *rest = fields
    numbers = list(map(int, rest[:5]))
    if len(numbers) != 5 or len(rest) != 5 + 2 * numbers[4]:
        raise ValueError(f"no request: {' '.join(fields)}")
    stops = tuple((rest[5 + 2 * i], int(rest[6 + 2 * i])) for i in range(numbers[4]))
    return Asked(train, origin, destination, (numbers[0], numbers[1]), (numbers[2], numbers[3]),
                 stops)


def member_of(line: str) -> Member:
    """The member that a line tells; else ValueError."""
    word, count, *rest = line.split(" ")
    blocks = int(count)
    numbers = list(map(int, rest))
    if word != "member" or len(numbers) != blocks + 5:
        raise ValueError(f"no member: {line}")
    entered, stands, made, first, last = numbers[blocks:]
    return Member(Place(tuple(numbers[:blocks]), entered, stands == 1, made), first, last)


def read_proofs(text: str) -> Iterator[Proof]:
    """The proofs of a text that has nothing but proofs; ValueError where it has something else."""
    lines = text.split("\n")
    if lines.pop() != "":
        raise ValueError("the last line of the proofs is not ended")
    at = 0
    while at < len(lines):
        head, count = lines[at].split(" "), lines[at + 1:at + 2]
        if head[:2] != ["proof", "at"] or head[3:4] != ["ask"] or not count:
            raise ValueError(f"line {at + 1} begins no proof: {lines[at]}")
        word, number = count[0].split(" ")
        members = tuple(map(member_of, lines[at + 2:at + 2 + int(number)]))
        if word != "members" or len(members) != int(number):
            raise ValueError(f"behind line {at + 1} members are missing")
        yield Proof(int(head[2]), int(head[4]), asked_of(head[5:]), members)
        at += 2 + len(members)


def bits_of(first: int, last: int) -> int:
    """The ticks of a window, those outside the bits left out."""
    first = max(first, LOW)
    return ((1 << (last - first + 1)) - 1) << (first - LOW) if first <= last else 0


def ticks_of(bits: int) -> Iterator[int]:
    while bits:
        lowest = bits & -bits
        yield lowest.bit_length() - 1 + LOW
        bits ^= lowest


def moved(bits: int, ticks: int) -> int:
    """Each tick so many later."""
    return bits << ticks if ticks >= 0 else bits >> -ticks


def spread(busy: int, begin: int, end: int) -> int:
    """The ticks t for which one of t + begin .. t + end - 1 is busy."""
    length, covered, reach = end - begin, busy, 1
    if length <= 0:
        return 0
    while 2 * reach <= length:
        covered |= covered >> reach
        reach *= 2
    covered |= covered >> (length - reach)
    return moved(covered, -begin)


class Line:
    """A railway's blocks, with which of them follow one another and which serve a stop, for one
    train."""

    def __init__(self, railway: Railway, train: Train):
        self.railway, self.train, self.blocks = railway, train, railway.blocks
        self.settings = railway.settings
        self.behind: dict[str, list[int]] = {}
        self.serving: dict[str, list[int]] = {}
        for number, block in enumerate(self.blocks):
            self.behind.setdefault(block.begins, []).append(number)
            for stop in block.serves:
                self.serving.setdefault(stop, []).append(number)

    def speed(self, number: int) -> int:
        return min(self.train.speed, self.blocks[number].speed)

    def ticks(self, number: int, metres: int, entered: int, stops: bool) -> int:
        return self.railway.ticks(self.blocks[number], self.train, metres, entered, stops)

    def entered(self, place: Place) -> int:
        """The speed in the block before the one that a move from a place enters, or STILL."""
        return STILL if place.stands else self.speed(place.tail[-1])

    def run(self, place: Place, step: Step) -> int:
        return self.ticks(step.block, self.blocks[step.block].length, self.entered(place),
                          step.stops)

    def metres(self, tail: Iterable[int]) -> int:
        return sum(self.blocks[number].length for number in tail)

    def after(self, place: Place, step: Step) -> Place:
        """Where a step leads: the longest tail whose blocks behind the first are together shorter
        than the train."""
        tail = (*place.tail, step.block)
        while self.metres(tail[1:]) >= self.train.length:
            tail = tail[1:]
        return Place(tail, self.entered(place), step.stops, place.made + step.stops)

    def moves(self, asked: Asked, place: Place) -> Iterator[tuple[Step, bool]]:
        """The moves from a place, each with whether it ends the path."""
        numbers = (self.behind.get(self.blocks[place.tail[-1]].ends, []) if place.tail
                   else self.serving.get(asked.origin, []))
        all_made = place.made == len(asked.stops)
        wanted = asked.destination if all_made else asked.stops[place.made][0]
        for number in numbers:
            yield Step(number, False), False
            if wanted in self.blocks[number].serves:
                yield Step(number, True), all_made

    def places(self, asked: Asked) -> set[Place]:
        """The places to which moves lead, ends left out."""
        found: set[Place] = set()
        fresh = [START]
        while fresh:
            place = fresh.pop()
            for step, ends in self.moves(asked, place):
                following = self.after(place, step)
                if not ends and following not in found:
                    found.add(following)
                    fresh.append(following)
        return found

    def is_within_ticks(self) -> bool:
        """Whether no block takes the train so long that what it claims begins before LOW."""
        slowest = (max(self.ticks(number, block.length, entered, False)
                       for entered in (STILL, self.train.speed))
                   + self.railway.sight(block, self.train)
                   for number, block in enumerate(self.blocks))
        return self.settings.setting + max(slowest, default=0) <= -LOW

    def uncleared(self, tail: tuple[int, ...]) -> list[tuple[int, int]]:
        """The zones under a train whose head is at the end of the last block, with the metres that
        are left until each is cleared."""
        left = []
        for at, number in enumerate(tail):
            over = self.train.length - self.metres(tail[at:])
            left += [(zone, release + over) for zone, release in self.blocks[number].cells
                     if release + over > 0]
        return left

    def begin(self, place: Place) -> int:
        """From when a new block is claimed, its head entering at tick 0."""
        if place.stands:
            return -self.settings.setting
        before = place.tail[-1]
        block = self.blocks[before]
        approach = (self.ticks(before, block.length, place.entered, False)
                    + self.settings.setting)
        if place.entered == STILL:
            return -approach
        return -approach - self.railway.sight(block, self.train)

    def pieces(self, place: Place, step: Step) -> list[tuple[int, int, int]]:
        """The claims of a step whose head enters at tick 0: zone, begin and end."""
        block, run, entered = self.blocks[step.block], self.run(place, step), self.entered(place)

        def end(metres: int) -> int:
            if metres > block.length:
                return run
            return self.ticks(step.block, metres, entered, step.stops) + self.settings.release

        new = [(zone, self.begin(place), end(release + self.train.length))
               for zone, release in block.cells]
        return new + [(zone, 0, end(metres)) for zone, metres in self.uncleared(place.tail)]


def busy_of(claims: Iterable[tuple[int, int, int]],
            busy: dict[int, int] | None = None) -> dict[int, int]:
    """The busy ticks of each zone, beside those that were busy."""
    told = dict(busy or {})
    for zone, begin, end in claims:
        told[zone] = told.get(zone, 0) | bits_of(begin, end - 1)
    return told


class Judge:
    """Judges members by the claims that are live: the busy ticks of each zone."""

    def __init__(self, line: Line, busy: dict[int, int]):
        self.line, self.busy, self.settings = line, busy, line.settings

    def entries(self, place: Place, step: Step) -> int:
        """The ticks at which a move may be entered: from 0, within the horizon, its pieces
        free."""
        blocked = 0
        for zone, begin, end in self.line.pieces(place, step):
            blocked |= spread(self.busy.get(zone, 0), begin, end)
        return bits_of(0, self.settings.horizon - self.line.run(place, step)) & ~blocked

    def standing(self, place: Place) -> int:
        """The ticks at which one of the zones on which a train stands is taken."""
        taken = 0
        for zone, _ in self.line.uncleared(place.tail):
            taken |= self.busy.get(zone, 0)
        return taken

    def onward(self, asked: Asked, place: Place, held: int) -> int:
        """The ticks at which a train may go on from a place that it reaches at those held."""
        if not place.stands:
            return held
        wait = asked.stops[place.made - 1][1] if place.made <= len(asked.stops) else 0
        taken, horizon = self.standing(place), self.settings.horizon
        onward, latest, reached = 0, None, list(ticks_of(held))
        free_since, at = LOW, 0
        for tick in range(reached[0] if reached else horizon, horizon + 1):
            while at < len(reached) and reached[at] + wait <= tick:
                latest, at = reached[at], at + 1
            if tick > LOW and taken >> (tick - 1 - LOW) & 1:
                free_since = tick
            if latest is not None and latest >= free_since:
                onward |= 1 << (tick - LOW)
        return onward

    def ends(self, place: Place, leaves: int) -> int:
        """Those ticks at which a path may end here: what the train stands on is free until it is
        released."""
        blocked = 0
        for zone, _ in self.line.uncleared(place.tail):
            blocked |= spread(self.busy.get(zone, 0), 0, self.settings.release)
        return leaves & ~blocked

    def leads(self, asked: Asked, place: Place, entering: int,
              on: Callable[[Place, int], None]) -> str | None:
        """Tells where the free moves lead that are entered at these ticks, or that a free end
        arrives in time."""
        for step, ends in self.line.moves(asked, place):
            free = entering & self.entries(place, step)
            leaves = moved(free, self.line.run(place, step))
            following = self.line.after(place, step)
            if not ends:
                on(following, leaves)
            elif self.ends(following, leaves) & bits_of(*asked.arrive):
                return f"a path over block {step.block} can arrive in time"
        return None

    def fault(self, proof: Proof) -> str | None:
        """Why the members prove nothing, or None where they prove that no path can be granted."""
        places = self.line.places(proof.asked)
        for member in proof.members:
            if member.place not in places:
                return f"no train comes to a place: {member.line()}"
        return self.opened(proof.asked, held_by(proof.members))

    def opened(self, asked: Asked, held: dict[Place, int],
               among: Collection[Place] | None = None) -> str | None:
        """Where a free move leads beyond the ticks that are held at places, or that a free end
        arrives in time; None where neither does. With `among` only moves from these places are
        looked at."""
        missing: list[str] = []

        def on(place: Place, leaves: int) -> None:
            beyond = leaves & ~held.get(place, 0)
            if beyond:
                missing.append(f"no member holds {next(ticks_of(beyond))} at {place}")

        for place, ticks in [(START, bits_of(*asked.depart)), *held.items()]:
            if among is not None and place not in among:
                continue
            entering = ticks if place == START else self.onward(asked, place, ticks)
            arrives = self.leads(asked, place, entering, on)
            if arrives or missing:
                return arrives or missing[0]
        return None


def held_by(members: Iterable[Member]) -> dict[Place, int]:
    """The ticks that members hold at each place."""
    held: dict[Place, int] = {}
    for member in members:
        window = bits_of(member.first, member.last)
        held[member.place] = held.get(member.place, 0) | window
    return held
