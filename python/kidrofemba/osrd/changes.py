"""What the importer changed, moved or dropped, told one by one under what it is and why."""
from __future__ import annotations

from collections import Counter, defaultdict
from collections.abc import Iterator
from enum import Enum

SHOWN_KINDS = 12


class Change(Enum):
    """A kind of change: what it is, and why it is made."""

    FAULTY = (
        "dropped, since a field is wrong",
        "the importer was told to leave such objects out, and what cannot do without them",
    )
    OTHER_CASE = (
        "LOOK: signals of systems that differ from a chosen one in case only",
        "a system counts as it is written, and these signals end no block; --systems may name both",
    )
    NO_SWITCH = (
        "dropped switches, with all routes across",
        "the server reads link, point_switch, crossing and double_slip_switch, and no such "
        "switch has the same ways",
    )
    LOST_ROUTE = (
        "dropped routes or parts of routes",
        "no way leads from their beginning to their end",
    )
    TAGGED_LIMIT = (
        "NOT KEPT: lower limits of trains with other tags",
        "the server has one limit for all trains; --tags names those that are sold",
    )
    SHORT_LIMIT = (
        "limits that no longer reach beyond a joint",
        "a block has one speed: it is not slowed as a whole for the part of a metre that rounding "
        "takes away",
    )
    EMPTY_LIMIT = ("dropped limits", "they cover no length of a track, or set no speed")
    ROUTE_LIMIT = (
        "limits of some routes, applied to all",
        "the server's limits hold for a track, whatever the route",
    )
    NO_DETECTOR = ("dropped signals without a detector ahead", "no block can end at them")
    MOVED_SIGNAL = (
        "signals moved to their detector on the next track",
        "the server looks for a signal's detector on the signal's own track",
    )
    FARTHER_SIGNAL = (
        "left out: signals farther from their detector than another",
        "a block ends once; the nearest signal's sight counts",
    )
    DISTANT_SIGNAL = ("left out: distant signals", "they end no block")
    OTHER_SIGNAL = (
        "left out: signals of other systems",
        "blocks end at signals of the systems that --systems names",
    )
    MERGED = (
        "one joint: several detectors or buffer stops at one place",
        "routes name the first of them now; no zone and no block lies between them",
    )
    APART = (
        "moved from where another one lies",
        "blocks between two things at one place would have no length",
    )
    CROWDED = ("moved by more than half a metre", "something else lies closer than a metre")
    BEYOND = ("moved to the end of its track", "its position is beyond the end")
    RETYPED = (
        "switches of another type, with the same ways",
        "the server reads link, point_switch, crossing and double_slip_switch",
    )
    RELEASE = (
        "release detectors left out",
        "the route does not pass them, or another route over the same block does not have "
        "them: a zone is never free earlier than all of its routes say",
    )
    EMPTY_BLOCK = (
        "left out: blocks that the server does not read",
        "they have no length, or come to one detector twice",
    )
    CUT = ("routes cut at their signals", "each block is a route of its own")
    SHARED = ("blocks that several routes share", "each is there once")
    OUTSIDE = ("left out: what lies on other lines", "--lines names the lines that are kept")
    CLASSES = (
        "classes of trains",
        "a class has no block on which it may not run or does not get on",
    )
    UNREACHED = ("operational points to which no route leads", "an ask from or to them is refused")
    NAMED = ("operational points named anew", "asks name them; --ids keeps OSRD's ids")
    UNUSED = ("passed over", "the server has nothing like it")
    ROUNDED = ("rounded to whole metres", "zones and blocks are counted in whole metres")
    MADE = ("written", "what the network file has")


class Report:
    """The changes of one import."""

    def __init__(self) -> None:
        self.notes: dict[Change, list[str]] = defaultdict(list)
        self.kinds: dict[Change, Counter[str]] = defaultdict(Counter)

    def note(self, change: Change, text: str, kind: str | None = None) -> None:
        """Adds a note; notes that have kinds are counted by them, too."""
        self.notes[change].append(text)
        if kind is not None:
            self.kinds[change][kind] += 1

    def lines(self) -> Iterator[str]:
        """The whole report, the heaviest changes first."""
        for change in Change:
            if self.notes[change]:
                yield self._heading(change) + "\n"
                yield f"  ({change.value[1]})\n"
                yield from (f"  {text}\n" for text in self.notes[change])
                yield "\n"

    def summary(self) -> Iterator[str]:
        """How often each kind of change was made, and what was written."""
        for change in Change:
            if change is Change.MADE:
                yield from (f"{change.value[0]}: {text}" for text in self.notes[change])
            elif self.notes[change]:
                yield self._heading(change)

    def _heading(self, change: Change) -> str:
        """A kind of change and how often it was made."""
        counts = sorted(self.kinds[change].items(), key=lambda one: (-one[1], one[0].casefold()))
        kinds = [f"{kind} {count}" for kind, count in counts]
        more = f", and {len(kinds) - SHOWN_KINDS} more" if len(kinds) > SHOWN_KINDS else ""
        by_kind = f" ({', '.join(kinds[:SHOWN_KINDS])}{more})" if kinds else ""
        return f"{change.value[0]}: {len(self.notes[change])}{by_kind}"
