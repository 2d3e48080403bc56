"""Replies as people read them: the words of the reply, and behind them what it means, in clock
times and names of stations where these are known."""
from __future__ import annotations

from collections.abc import Callable, Sequence
from dataclasses import dataclass

from kidrofemba.common.clock import Clock
from kidrofemba.door.line_forms import why_bad, words_of

_RULES = {
    "quota": "your rule lets you have no more paths at once: free one, or have the rule changed",
    "curfew": "your rule lets no path depart at these times: ask for other ones",
    "longest": "your rule lets no train as long as this one run: ask with a shorter one",
}
_BROKEN = {
    "1": "its block does not follow the one before",
    "2": "its leave is not its enter and the train's running time",
    "3": "it does not enter when the run before leaves, or, where the train stopped, not later",
    "4": "it is the last, and the train does not stop there",
    "5": "its ticks are not from 0 to the horizon",
    "6": "the train stops on the way where no operational point is",
}
_PLAIN = {
    "again": "three paths were found, and each was sold to another one meanwhile: ask again",
    "no-path": "no path keeps this request beside what is planned and sold: widen a window, ask "
               "for another time, or again once something is freed",
    "wide": "this request can reach more places of a train than are searched (65536): name fewer "
            "stops, or ask twice, to a station on the way and on from there, departing once the "
            "first has arrived, with a hold for the standing between; where the second is refused, "
            "free the first",
    "full": "the journal has no room for it, and nothing was added: its operator carries it into "
            "one with more room",
    "unsettled": "the disk failed, and it may be done or not: send the line again, with its number",
    "disk-fault": "the disk failed, and nothing was done: send the line again",
    "no-memory": "the server wants memory, and nothing was done: send the line again",
}
_OF_CLOSED_LINE = "the line is longer than 65536 bytes"


@dataclass(frozen=True)
class Stops:
    """The stations of an `ask`: where it begins and ends, and the named stops between."""

    origin: str
    destination: str
    named: tuple[str, ...]


def stops_of(line: str) -> Stops | None:
    """The stations that a line asks for."""
    words = words_of(line)
    if words[0] != "ask" or len(words) < 10:
        return None
    return Stops(words[3], words[4], tuple(words[10::2]))


class Answers:
    """Replies as a person reads them, in clock times where the clock is known. `planned` are the
    names of the base file's trains in their order; `runs` has each block of a path told."""

    def __init__(self, clock: Clock | None, runs: bool = False, planned: Sequence[str] = ()):
        self.clock, self.runs, self.planned = clock, runs, planned
        self._meanings: dict[str, Callable[[list[str], str], str | None]] = {
            "bad": lambda words, line: why_bad(int(words[1]), line),
            "past": lambda words, _: f"it departs before {self._time(words[3])}, which is now",
            "closed": self._closed, "hidden": self._hidden, "denied": self._denied,
            "taken": self._taken, "gone": self._gone, "other": self._other,
            "unknown": self._unknown, "breaks": self._breaks, "ahead": self._ahead,
            "not-yours": self._not_yours, "already-freed": self._already_freed,
            "freed": lambda words, _: f"entry {words[5]} is given back",
            "held": self._held, "pinned": self._held,
        }

    def text(self, reply: str, line: str) -> str:
        """A reply to a line, in words."""
        words = reply.split(" ")
        meaning = self._meanings.get(words[0])
        told = meaning(words, line) if meaning is not None else _PLAIN.get(words[0])
        if told is not None:
            return f"{reply}: {told}"
        for at, word in enumerate(words):
            # The content of an entry is the last thing of a reply, but for the state that `show`
            # tells; no name before it is `runs`, as these are numbers and the word `number`.
            if at > 3 and word in ("runs", "hold", "holds") and words[at - 1].isdecimal():
                before = "done before, " if words[0] == "kept" else ""
                told = self._content(words[at:], stops_of(line))
                return f"{' '.join(words[:at])}: {before}{told}"
        return f"{reply}: done before" if words[0] == "kept" else reply

    def _time(self, tick: str) -> str:
        return self.clock.text(int(tick)) if self.clock is not None else f"tick {tick}"

    def _taken(self, words: list[str], _: str) -> str:
        at = int(words[6])
        if words[5] == "entry":
            holder = f"entry {at}, which `show {at}` tells,"
        elif at < len(self.planned):
            holder = f"the planned train {self.planned[at]}"
        else:
            holder = f"planned train {at} of the base file"
        return f"zone {words[3]} is not free then, {holder} has it: choose other times"

    def _gone(self, words: list[str], _: str) -> str:
        return (f"this was done by entry {words[3]}, and given back by entry {words[5]}: to have "
                "it again take a new number")

    def _other(self, words: list[str], _: str) -> str:
        return f"number {words[1]} was used for something else, entry {words[3]}: take a new number"

    def _unknown(self, words: list[str], line: str) -> str:
        if words_of(line)[0] == "show":
            return f"there is no entry {words[1]}"
        return f"entry {words[1]} is no hold and no path, or is not there"

    def _not_yours(self, words: list[str], _: str) -> str:
        return f"entry {words[3]} is {words[5]}'s, who alone may free it"

    def _already_freed(self, words: list[str], _: str) -> str:
        return f"entry {words[3]} was given back before, by entry {words[5]}: nothing is left to do"

    def _breaks(self, words: list[str], _: str) -> str:
        return f"run {words[3]}, counted from 0, is wrong: {_BROKEN.get(words[5], 'see the rule')}"

    def _ahead(self, words: list[str], _: str) -> str:
        return f"fewer than {words[1]} entries stand: wait, and ask again"

    def _closed(self, words: list[str], _: str) -> str:
        if words[1:] == ["line"]:
            return _OF_CLOSED_LINE
        return (f"you may not send `{' '.join(words[1:])}` here: who runs the door has not "
                "allowed it")

    def _hidden(self, words: list[str], _: str) -> str:
        return f"entry {words[1]} is another client's, and is not told to you"

    def _denied(self, words: list[str], _: str) -> str | None:
        return _RULES.get(words[2])

    def _held(self, _: list[str], line: str) -> str | None:
        """What a line has taken, in clock times; they may be rounded outwards."""
        words = words_of(line)
        if self.clock is None:
            return None
        if words[0] == "pin":
            return self._content(["runs", *words[3:]], None)
        return self._content([words[0], *words[2:]], None)

    def _content(self, words: list[str], stops: Stops | None) -> str:
        """What an entry has, and what a reply says behind it."""
        if words[0] == "runs":
            return self._path([words[at:at + 4] for at in range(2, 2 + 4 * int(words[1]), 4)],
                              words[2 + 4 * int(words[1]):], stops)
        if words[0] == "hold":
            spans, rest = [words[1:4]], words[4:]
        else:
            end = 3 + 3 * int(words[2])
            spans, rest = [words[at:at + 3] for at in range(3, end, 3)], words[end:]
        told = [f"zone {zone} {self._time(begin)} to {self._time(end)}"
                for zone, begin, end in spans]
        return " ".join([", ".join(told), *rest])

    def _path(self, runs: list[list[str]], rest: list[str], stops: Stops | None) -> str:
        """A path's departure, its stops on the way, its arrival, and its runs where asked for."""
        standing = [(block, leave, following[1])
                    for (block, _, leave, stop), following in zip(runs, runs[1:]) if stop == "1"]
        named = stops.named if stops is not None and len(stops.named) == len(standing) else ()
        first, last = (f" from {stops.origin}", f" at {stops.destination}") if stops else ("", "")
        parts = [f"departs {self._time(runs[0][1])}{first}"]
        for at, (block, begin, end) in enumerate(standing):
            place = f"at {named[at]}" if named else f"at the end of block {block}"
            parts.append(f"stands {place} {self._time(begin)} to {self._time(end)}")
        parts.append(f"arrives {self._time(runs[-1][2])}{last}")
        rows = [f"\n  block {block} {self._time(enter)} to {self._time(leave)}"
                for block, enter, leave, _ in runs] if self.runs else []
        return " ".join([", ".join(parts), *rest]) + "".join(rows)
