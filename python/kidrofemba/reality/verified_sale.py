"""Asks for a path, simulates its train over it, and holds what the train needs beside the claims of
the path; what does not hold does not stay sold.

    kidrofemba verified-ask --socket A.sock --state A.state --base base.json \\
        --network layered.json --table layered.table --running running.json \\
        E1800 West/BV East/BV 06:00 07:00 06:00 12:00

The words behind the options are a class, where the train comes from and goes to, and its windows of
departure and arrival, in clock times or ticks; then stops on the way with their dwells in ticks.
Names of operational points are those of the export: `@CLASS` is added. The trains of the class are
asked for one after another, from the least allowance on: where a path's train is outside its
claims, what is missing is held under the reason `margin NUMBER`; where another has that, the path is freed,
and the next train is asked for. The status is 1 where no path stays sold.

What is under way stands in a file beside --state. Where the process ends in the middle, its next
start frees what was sold and not verified.
"""
from __future__ import annotations

import argparse
import hashlib
import json
import math
from collections.abc import Callable, Sequence
from dataclasses import dataclass, field
from pathlib import Path

from kidrofemba.common.companion import Refused, escaped, read_json, run_companion
from kidrofemba.common.files_together import write_together
from kidrofemba.door.client import Numbers, PathClient
from kidrofemba.door.line_times import Times, line_of
from kidrofemba.journal.journal_file import Run, runs_of_words
from kidrofemba.journal.served_files import Base, read_base, read_network, read_trains
from kidrofemba.network.blocking_times import Run as ModelRun
from kidrofemba.network.blocking_times import Train
from kidrofemba.reality.physics import Stalled
from kidrofemba.reality.running_file import read_running
from kidrofemba.reality.sold_train import course_of, judged, missing
from kidrofemba.reality.verify import REASON, Verifier, add_driving, driving_of

NAME = "verified-ask"
MOST_SPANS = 64
Spans = list[tuple[int, int, int]]


@dataclass(frozen=True)
class Standing:
    """For how many seconds the train stands on its first zones before its path begins, and on its
    last ones once it has arrived."""

    before_s: float = 0.0
    after_s: float = 0.0


@dataclass
class UnderWay:
    """The lines of a sale that is not verified yet, kept in a file so that they can be undone."""

    file: Path
    lines: list[str] = field(default_factory=list)

    def add(self, line: str) -> None:
        """Notes a line before it is sent."""
        self.lines.append(line)
        write_together({self.file: [json.dumps(self.lines) + "\n"]})

    def end(self) -> None:
        """The sale is verified, or undone."""
        self.lines = []
        self.file.unlink(missing_ok=True)

    @classmethod
    def of(cls, file: Path) -> UnderWay:
        """What an earlier process left."""
        return cls(file, list(read_json(file)) if file.exists() else [])


def entry_of_reply(reply: str) -> int | None:
    """The entry that a reply to a sale or a hold tells, if something stands by it."""
    words = reply.split(" ")
    if words[0] in ("granted", "held", "kept", "unsettled") and words[2:3] == ["entry"]:
        return int(words[3])
    return None


class Sale:
    """One sale of a client: `send` sends a line with a new number behind its word."""

    def __init__(self, client: PathClient, verifier: Verifier, under_way: UnderWay,
                 standing: Standing) -> None:
        self.client, self.verifier = client, verifier
        self.under_way, self.standing = under_way, standing
        self.entries: list[int] = []

    def undo_left(self) -> int:
        """Frees what an earlier process sold or held and did not verify; how many entries."""
        for line in self.under_way.lines:
            entry = entry_of_reply(self.client.send(line))
            if entry is not None:
                self.entries.append(entry)
        count = len(self.entries)
        self._undo()
        return count

    def _want(self, word: str, rest: str) -> tuple[int, str]:
        """The number of a line and the reply to it; what it sold or held is remembered."""
        numbers = self.client.numbers
        assert numbers is not None
        number = numbers.last + 1
        self.under_way.add(f"{word} {number} {rest}")
        reply = self.client.want(word, rest)
        entry = entry_of_reply(reply)
        if entry is not None:
            self.entries.append(entry)
        return number, reply

    def _undo(self) -> None:
        for entry in reversed(self.entries):
            self.client.want("free", str(entry))
        self.entries = []
        self.under_way.end()

    def sell(self, ladder: Sequence[tuple[str, Train]], rest: str, tell: Callable[[str], None]
             ) -> bool:
        """Asks for the trains of a ladder until a path holds; whether one is sold."""
        for name, train in ladder:
            number, reply = self._want("ask", f"{escaped(name)} {rest}")
            tell(f"{name}: {reply}")
            if not reply.startswith("granted "):
                self._undo()
                if reply.startswith("no-path "):
                    continue
                return False
            runs = runs_of_words(reply.split(" ")[7:])
            wrong = self._hold(train, runs, number)
            if wrong is None:
                tell(f"{name}: verified, number {number}")
                self.entries = []
                self.under_way.end()
                return True
            tell(f"{name}: {wrong}; the path is given back")
            self._undo()
        return False

    def _hold(self, train: Train, runs: Sequence[Run], number: int) -> str | None:
        """Holds what the train of a path needs; what is wrong where it can not be had."""
        try:
            spans = self.spans_of(train, runs)
        except Stalled as stalled:
            return f"the train does not get on {stalled.place / 1000:.1f} km from its begin"
        reason = escaped(f"{REASON} {number}")
        for at in range(0, len(spans), MOST_SPANS):
            part = spans[at:at + MOST_SPANS]
            words = " ".join(f"{zone} {begin} {end}" for zone, begin, end in part)
            _, reply = self._want("holds", f"{reason} {len(part)} {words}")
            if not reply.startswith("held "):
                return f"what it needs beside its claims is not free: {reply}"
        return None

    def spans_of(self, train: Train, runs: Sequence[Run]) -> Spans:
        """What the train of a path needs beside the path's claims, the zones that it stands on
        among it; Stalled where it does not get on."""
        verifier = self.verifier
        model = [ModelRun(run.block, run.enter, run.leave, run.stops) for run in runs]
        name, plain = verifier.class_of(model)
        tick_s = verifier.base.settings.tick_s
        claims = verifier.claims_of(train, model)
        course = course_of(verifier.running, name, model, verifier.blocks, plain, tick_s,
                           verifier.driving)
        spans = missing(judged(course.needs, claims, tick_s), tick_s)
        spans += _cut_out(self._stood_on(train, model), claims)
        return _joined(spans)

    def _stood_on(self, train: Train, runs: Sequence[ModelRun]) -> Spans:
        """The zones under the train where it stands before and after its path: those of its first
        block, and those over its last metres."""
        tick_s, blocks = self.verifier.base.settings.tick_s, self.verifier.blocks
        spans: Spans = []
        if self.standing.before_s > 0:
            enter = runs[0].enter
            begin = enter - math.ceil(self.standing.before_s / tick_s)
            spans += [(zone, begin, enter) for zone, _ in blocks[runs[0].block].cells]
        if self.standing.after_s > 0:
            end = runs[-1].leave + math.ceil(self.standing.after_s / tick_s)
            left = train.length
            for run in reversed(runs):
                block = blocks[run.block]
                spans += [(zone, runs[-1].leave, end) for zone, release in block.cells
                          if release > block.length - left]
                left -= block.length
                if left <= 0:
                    break
        return spans


def _joined(spans: Spans) -> Spans:
    made: Spans = []
    for zone, begin, end in sorted(spans):
        if made and made[-1][0] == zone and begin <= made[-1][2]:
            made[-1] = zone, made[-1][1], max(end, made[-1][2])
        else:
            made.append((zone, begin, end))
    return made


def _cut_out(spans: Spans, claims: Sequence[tuple[int, int, int]]) -> Spans:
    """Spans without what claims have already."""
    left = list(spans)
    for zone, begin, end in claims:
        left = [piece for other, low, high in left for piece in (
            [(other, low, high)] if other != zone or high <= begin or low >= end else
            [one for one in ((other, low, min(high, begin)), (other, max(low, end), high))
             if one[1] < one[2]])]
    return left


def _parser() -> argparse.ArgumentParser:
    about, _, more = (__doc__ or "").partition("\n\n")
    parser = argparse.ArgumentParser(prog=NAME, description=about, epilog=more, allow_abbrev=False,
                                     formatter_class=argparse.RawDescriptionHelpFormatter)
    add = parser.add_argument
    add("--socket", type=Path, required=True, help="the client's socket at the door")
    add("--state", type=Path, required=True, help="the file of this client's numbers")
    for word in ("base", "network", "table", "trains"):
        add(f"--{word}", required=True, metavar="F")
    add("--running", type=Path, required=True, metavar="F",
        help="what import-network --running wrote")
    add_driving(parser)
    add("--stand-before", type=float, default=0.0, metavar="MINUTES",
        help="for how long the train stands on its first block before it departs")
    add("--stand-after", type=float, default=0.0, metavar="MINUTES",
        help="for how long it stands where it arrives")
    add("--tries", type=int, default=3, help="how many trains of the class are tried (default 3)")
    add("--give-up", type=float, default=300.0, metavar="SECONDS",
        help="how long one line is sent again (default 300)")
    add("words", nargs="+", metavar="WORD",
        help="CLASS FROM TO DEPART DEPART ARRIVE ARRIVE [STOP DWELL ..]")
    return parser


def rest_of(words: Sequence[str], base: Base) -> str:
    """An ask behind its train, with the operational points of a class."""
    if len(words) < 7 or len(words) % 2 == 0:
        raise Refused("words", " ".join(words), "are not CLASS FROM TO DEPART DEPART ARRIVE ARRIVE "
                      "[STOP DWELL ..]")
    layer = words[0]
    names = [f"{name}@{layer}" for name in (words[1], words[2], *words[7::2])]
    stops = [part for name, dwell in zip(names[2:], words[8::2]) for part in (name, dwell)]
    fields = ["ask", "1", layer, names[0], names[1], *words[3:7], str(len(stops) // 2), *stops]
    try:
        times = Times(base.clock, base.settings.horizon, bare_dwells=True)
        return line_of(" ".join(fields), times).split(" ", 3)[3]
    except ValueError as wrong:
        raise Refused("words", " ".join(words), str(wrong)) from None


def ladder_of(layer: str, allowances: Sequence[int], trains: dict[str, Train], file: str,
              tries: int) -> list[tuple[str, Train]]:
    """The trains of a class, from the least allowance on, as many as are tried."""
    names = [layer + (f"+{percent}" if percent else "") for percent in allowances]
    lost = [name for name in names if name not in trains]
    if lost:
        raise Refused(file, "", f"has no train {lost[0]}")
    return [(name, trains[name]) for name in names][:tries]


def verified_ask(words: Sequence[str]) -> int:
    """Does what the words say; 1 where no path stays sold."""
    given = _parser().parse_args(words)
    base, network = read_base(given.base), read_network(given.network, given.table)
    running = read_running(given.running)
    layer = given.words[0]
    if layer not in running.bodies:
        raise Refused(given.running, "", f"has no class {layer}; it has "
                      f"{', '.join(running.bodies)}")
    rest = rest_of(given.words, base)
    ladder = ladder_of(layer, running.allowances[layer], read_trains(given.trains), given.trains,
                       given.tries)
    verifier = Verifier(network, base, running, driving_of(given))
    digest = hashlib.sha256(Path(given.base).read_bytes()).hexdigest()
    numbers = Numbers(given.state, base=digest)
    client = PathClient(given.socket, numbers, given.give_up)
    sale = Sale(client, verifier, UnderWay.of(Path(f"{given.state}.sale")),
                Standing(60 * given.stand_before, 60 * given.stand_after))
    client.finish_open()
    undone = sale.undo_left()
    if undone:
        print(f"freed: {undone} entries that an earlier run sold and did not verify", flush=True)
    sold = sale.sell(ladder, rest, lambda text: print(text, flush=True))
    if not sold:
        print("no path stays sold")
    return 0 if sold else 1


def main(words: list[str]) -> int:
    """Sells what the words ask for; the exit status."""
    return run_companion(NAME, lambda: verified_ask(words))
