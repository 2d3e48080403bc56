"""Tells who stood in the way of asks that were told `no-path`, from the proofs of these replies.

PROOFS is the file that `serve --proof NAME=PROOFS` writes. For each `no-path` it tells how near the
train comes to its destination, and which planned trains, sold paths and holds bar the way on there,
where and when, in clock time. Of each of them alone it tells whether the proof would hold without
it: then there is no path even so. With --ask-again the program is asked again, in a copy of base
file and journal without it, for each of those that are left: so it is found, not guessed, whom to
ask for room. Where there is no path even with nothing in the way, that is told, and when the train
could arrive.

A model of its own judges the moves here; where it finds that a proof does not hold beside these
files, it says so and tells nothing. Rules of clients are not looked at.
"""
from __future__ import annotations

import argparse
from collections import Counter, defaultdict
from collections.abc import Iterator
from dataclasses import dataclass, replace
from pathlib import Path

from kidrofemba.common.clock import Clock
from kidrofemba.common.companion import Refused, read_text, run_companion, unescaped
from kidrofemba.common.progress import Progress
from kidrofemba.journal.journal_file import Entry, Journal, Kind, Run
from kidrofemba.journal.served_files import (Base, Network, read_base, read_journal_of,
                                             read_network, read_trains)
from kidrofemba.network.blocking_times import Railway, Run as ModelRun, Train
from kidrofemba.why.ask_again import Again, program_called
from kidrofemba.why.members import LOW, Line, Proof, bits_of, read_proofs
from kidrofemba.why.walls import Holder, Reached, Wall, Walls, Ways

NAME = "why"
EXAMPLE = """example:
  kidrofemba why proofs --network network.json --table network.table --base base.json \\
      --trains trains.json --journal journal --ask-again stdcm
"""


@dataclass(frozen=True)
class World:
    """What the server was given, and the journal that it wrote."""

    network: Network
    base: Base
    trains: dict[str, Train]
    journal: Journal | None

    @property
    def clock(self) -> Clock:
        return self.base.clock

    def railway(self) -> Railway:
        return Railway(self.network.blocks(), settings=self.base.settings)

    def holders(self, railway: Railway, front: int) -> list[Holder]:
        """Who has zones beside the first `front` entries."""
        planned = [Holder(f"planned {train.name}", train.claims, planned=at)
                   for at, train in enumerate(self.base.trains)]
        live = self.journal.live_at(front) if self.journal else []
        return planned + [self._holder_of(railway, entry) for entry in live]

    def _holder_of(self, railway: Railway, entry: Entry) -> Holder:
        claims = tuple((claim.zone, claim.begin, claim.end) for claim in entry.claims)
        reason = f", {entry.reason}" if entry.reason else ""
        what = "hold" if entry.train is None else "path"
        if entry.train is not None:
            train = Train(entry.train.length_m, entry.train.speed, entry.train.accel,
                          entry.train.brake, entry.train.allowance)
            runs = [ModelRun(run.block, run.enter, run.leave, run.stops) for run in entry.runs]
            claims = tuple(railway.stairway(train, runs))
        return Holder(f"{what} {entry.number} of {entry.owner}{reason} (entry {entry.at})", claims,
                      entry=entry.at)


class Told:
    """What is told of one proof, line by line."""

    def __init__(self, world: World, proof: Proof, walls: Walls, all_walls: bool):
        self.world, self.proof, self.walls, self.all_walls = world, proof, walls, all_walls
        self.clock = world.clock

    def _window(self, first: int, last: int) -> str:
        text = self.clock.text(first)
        return text if first == last else f"{text} to {self.clock.text(last)}"

    def heading(self) -> str:
        """What was asked for."""
        asked = self.proof.asked
        by = "".join(f", standing {self.clock.tick_s * wait} s at {unescaped(stop)}"
                     for stop, wait in asked.stops)
        return (f"ask {self.proof.number}: {unescaped(asked.train)} from {unescaped(asked.origin)}"
                f" to {unescaped(asked.destination)}{by}, leaving {self._window(*asked.depart)},"
                f" arriving {self._window(*asked.arrive)}: no path beside {self.proof.at} entries")

    def late(self, arrivals: int) -> str:
        """When the train could arrive, at some of these ticks, were its window another."""
        first = (arrivals & -arrivals).bit_length() - 1 + LOW
        last = arrivals.bit_length() - 1 + LOW
        first_asked, last_asked = self.proof.asked.arrive
        if first > last_asked:
            return (f"it could arrive at {self.clock.text(first)} at the earliest, "
                    f"{(first - last_asked) * self.clock.tick_s} s behind its window")
        if last < first_asked:
            return (f"it could arrive at {self.clock.text(last)} at the latest, "
                    f"{(first_asked - last) * self.clock.tick_s} s before its window")
        return ("it could arrive before its window and behind it, "
                f"{self._window(first, last)}, not within")

    def alone(self, arrivals: int, beside: int) -> Iterator[str]:
        """That there is no path even with nothing in the way, with the ticks at which the train
        could arrive then, and at which it could beside what stands."""
        horizon = self.clock.text(self.world.base.settings.horizon)
        why = self.late(arrivals) if arrivals else f"no move ends within the horizon, {horizon}"
        yield f"  Even with nothing in the way there is no path: {why}."
        if beside:
            yield f"  Beside what stands {self.late(beside)}."

    def path(self, runs: tuple[Run, ...] | None) -> str:
        """A path that the program found, or that it found none."""
        if runs is None:
            return "no path"
        return (f"a path, leaving {self.clock.text(runs[0].enter)}, "
                f"arriving {self.clock.text(runs[-1].leave)}")

    def walls_met(self, reached: Reached) -> Iterator[str]:
        """What bars the way on from where the train comes nearest: of each holder the claim that
        is nearest to the end, or with --all each."""
        past = f"past {', '.join(map(unescaped, reached.past))}, " if reached.past else ""
        yield (f"  It comes {past}to {reached.left / 1000:.1f} km before the end of its way. "
               "In its way, nearest to the end first:")
        walls = reached.walls
        if not self.all_walls:
            by_holder: dict[int, list[Wall]] = defaultdict(list)
            for wall in walls:
                by_holder[wall.claim.holder].append(wall)
            walls = [own[0] for own in by_holder.values()]
        for wall in walls:
            more = len(by_holder[wall.claim.holder]) - 1 if not self.all_walls else 0
            others = f"; and {more} of its claims more" if more else ""
            yield f"    {self._wall_text(wall)}{others}"
        if not walls:
            yield "    nobody: no move ends within the horizon"

    def _wall_text(self, wall: Wall) -> str:
        claim, holder = wall.claim, self.walls.holders[wall.claim.holder]
        return (f"{holder.name} has {self.world.network.table.zone_text(claim.zone)} "
                f"{self.clock.text(claim.begin)} to {self.clock.text(claim.end)}: "
                f"it can't go on at {self._window(wall.first, wall.last)}")


def one_of_them(walls: Walls, proof: Proof, reached: Reached, progress: Progress) -> list[int]:
    """The holders without whose claims the proof no longer holds, those most in the way first."""
    zones = Counter(wall.claim.holder for wall in reached.walls)
    opening = []
    for done, holder in enumerate(sorted(zones, key=lambda one: (-zones[one], one))):
        progress.tell(lambda: f"{done} of {len(zones)} in the way looked at")
        if walls.opens_without(proof, reached, holder):
            opening.append(holder)
    return opening


def tell_asked_again(told: Told, again: Again, opening: list[int], progress: Progress
                     ) -> Iterator[str]:
    """What the program says once each of these alone is taken out."""
    fields = told.proof.asked.fields()
    if again.without(None, fields) is not None:
        raise Refused(again.program, f"ask {told.proof.number}",
                      "is granted by these files as they are: they are not those of the proof")
    still = []
    for done, holder in enumerate(opening):
        progress.tell(lambda: f"asked again without {done} of {len(opening)}")
        name = told.walls.holders[holder].name
        runs = again.without(told.walls.holders[holder], fields)
        if runs is None:
            still.append(name)
            continue
        yield f"  Without {name}: {told.path(runs)}"
    if len(still) == len(opening):
        yield "  No single one of them, taken out, lets it through."
    if still:
        yield f"  Still no path without one of: {', '.join(still)}"


def tell_widened(told: Told, again: Again) -> Iterator[str]:
    """What the program says where nothing is in the way, and beside what stands, once the window of
    the arrival is all the time of the timetable."""
    open_to_horizon = (0, told.world.base.settings.horizon)
    fields = replace(told.proof.asked, arrive=open_to_horizon).fields()
    yield ("  Asked again, its arrival open to the horizon, with nothing in the way: "
           f"{told.path(again.alone(fields))}; beside what stands: "
           f"{told.path(again.without(None, fields))}")


class Explainer:
    """Explains the proofs of a file."""

    def __init__(self, options: argparse.Namespace):
        self.options, self.progress = options, Progress(NAME)
        self.program = program_called(options.ask_again) if options.ask_again else None
        network = read_network(options.network, options.table)
        base, trains = read_base(options.base), read_trains(options.trains)
        journal = (read_journal_of(options.journal, network.file, base.file)
                   if options.journal else None)
        self.world = World(network, base, trains, journal)
        self.railway = self.world.railway()

    def proofs(self) -> list[Proof]:
        """The proofs that are to be explained: those that were asked for, or all beside
        `no-path`."""
        try:
            proofs = list(read_proofs(read_text(self.options.proofs)))
        except (ValueError, IndexError) as wrong:
            raise Refused(self.options.proofs, "", f"no proofs: {wrong}") from None
        chosen = [proof for proof in proofs if (proof.number in self.options.ask
                                                if self.options.ask else
                                                not self._is_beside_path(proof))]
        missing = set(self.options.ask) - {proof.number for proof in chosen}
        if missing:
            raise Refused(self.options.proofs, f"ask {min(missing)}", "has no proof here")
        return chosen

    def _is_beside_path(self, proof: Proof) -> bool:
        """Whether a proof stands beside a granted path, of which it shows that none arrives
        earlier."""
        entries = self.world.journal.entries[proof.at:] if self.world.journal else ()
        return any(entry.kind is Kind.GRANT and entry.number == proof.number
                   and entry.request is not None and entry.request.depart == proof.asked.depart
                   and entry.runs[-1].leave == proof.asked.arrive[1] + 1 for entry in entries)

    def explain(self, proof: Proof) -> Iterator[str]:
        """What is to be said of a proof."""
        front = len(self.world.journal.entries) if self.world.journal else 0
        if proof.at > front:
            raise Refused(self.options.proofs, f"ask {proof.number}",
                          f"speaks of {proof.at} entries, and "
                          + (f"{self.options.journal} has {front}" if self.world.journal
                             else "no --journal is given"))
        line = self._line(proof)
        walls = Walls(line, self.world.holders(self.railway, proof.at))
        told = Told(self.world, proof, walls, self.options.all)
        fault = walls.judge.fault(proof)
        if fault is not None:
            raise Refused(self.options.proofs, f"ask {proof.number}",
                          f"its proof does not hold beside these files: {fault}")
        yield told.heading()
        yield from self._reasons(proof, told, walls)

    def _line(self, proof: Proof) -> Line:
        """The railway for the train that was asked for."""
        asked = proof.asked
        name = unescaped(asked.train)
        if name not in self.world.trains:
            raise Refused(self.options.trains, "", f"has no train {name}")
        blocks = {number for member in proof.members for number in member.place.tail}
        if max(blocks, default=0) >= len(self.railway.blocks):
            raise Refused(self.options.proofs, f"ask {proof.number}",
                          f"names block {max(blocks)}, which {self.options.table} does not have")
        line = Line(self.railway, self.world.trains[name])
        if not line.is_within_ticks():
            raise Refused(self.options.trains, "", f"{name} takes longer than {-LOW} ticks over a "
                                                   f"block: too long for this model")
        return line

    def _reasons(self, proof: Proof, told: Told, walls: Walls) -> Iterator[str]:
        ways = Ways(walls.line, proof.asked)
        if not ways.left:
            yield "  No way leads there in this network, whoever is taken out."
            return
        reached = walls.reached(proof, ways)
        alone = walls.arrivals_alone(proof.asked, ways)
        if not alone & bits_of(*proof.asked.arrive):
            yield from told.alone(alone, reached.arrivals)
            if self.program is not None:
                yield from tell_widened(told, self._again(self.program, proof))
            return
        if reached.arrivals:
            late = told.late(reached.arrivals)
            yield f"  {late[0].upper()}{late[1:]}."
        yield from told.walls_met(reached)
        opening = one_of_them(walls, proof, reached, self.progress)
        names = [walls.holders[holder].name for holder in opening]
        others = len({wall.claim.holder for wall in reached.walls}) - len(opening)
        if others:
            yield (f"  Of {others} of them it is proved that they do not help, taken out alone: "
                   "the proof holds without each.")
        if self.program is None:
            yield f"  Without one of these there may be a path: {', '.join(names) or 'nobody'}"
        else:
            again = self._again(self.program, proof)
            yield from tell_asked_again(told, again, opening, self.progress)

    def _again(self, program: Path, proof: Proof) -> Again:
        journal = Path(self.options.journal) if self.options.journal else None
        return Again(program, self.world.network.file, Path(self.options.trains), self.world.base,
                     self.world.journal, journal, proof.at)


def explain_all(options: argparse.Namespace) -> None:
    """Explains all proofs that are asked for."""
    explainer = Explainer(options)
    for proof in explainer.proofs():
        for line in explainer.explain(proof):
            print(line, flush=True)


def options_of(words: list[str]) -> argparse.Namespace:
    """The words of the command line."""
    parser = argparse.ArgumentParser(prog=f"kidrofemba {NAME}", description=__doc__, epilog=EXAMPLE,
                                     formatter_class=argparse.RawDescriptionHelpFormatter)
    parser.add_argument("proofs", metavar="PROOFS")
    for name, what in (("network", "the network file"), ("base", "the base file"),
                       ("table", "what `list` prints of the network"),
                       ("trains", "the train file")):
        parser.add_argument(f"--{name}", required=True, help=what)
    parser.add_argument("--journal", help="the journal; not needed beside no entries")
    parser.add_argument("--ask", type=int, action="append", default=[], metavar="NUMBER",
                        help="only this ask, also one that was granted: why no path arrives "
                             "earlier; may stand several times")
    parser.add_argument("--ask-again", metavar="PROGRAM",
                        help="the server's program, to be asked again without each that may help")
    parser.add_argument("--all", action="store_true",
                        help="tell each claim in the way, not one for each who has it")
    return parser.parse_args(words)


def main(words: list[str]) -> int:
    """Explains what the words name; the exit status."""
    options = options_of(words)
    return run_companion(NAME, lambda: explain_all(options))
