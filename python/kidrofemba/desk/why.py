"""Who is in the way of a request, by name, place and time: read from the proof of its refusal.

The work is long beside a request, so it is done in a process of its own, over the files.
"""
from __future__ import annotations

import ctypes
import signal
from dataclasses import dataclass
from functools import lru_cache
from typing import Any

from kidrofemba.common.companion import unescaped
from kidrofemba.desk.network import Day, Files
from kidrofemba.journal.journal_file import Entry, read_journal
from kidrofemba.why.members import Line, bits_of, read_proofs
from kidrofemba.why.walls import Holder, Walls, Ways

MOST_WALLS = 8
#: Linux's PR_SET_PDEATHSIG.
_DEATH_SIGNAL = 1


@dataclass(frozen=True)
class Found:
    """Who is in the way: the place of a planned train in the base file or an entry, the zone, and
    the ticks from which and before which; whether it is proved that it does not help alone."""

    planned: int | None
    entry: int | None
    zone: int
    begin: int
    end: int
    is_vain: bool


def end_with_parent() -> None:
    """Has this process killed where the desk that started it is gone, however that ended."""
    ctypes.CDLL(None).prctl(_DEATH_SIGNAL, signal.SIGKILL)


@lru_cache(maxsize=1)
def _day(files: Files) -> Day:
    return Day(files)


def found_in(files: Files, text: str) -> dict[str, Any]:
    """What a proof tells: `reason`, `nearest_km` where the train comes on its way, and `walls`."""
    day = _day(files)
    proof = next(iter(read_proofs(text)))
    entries = read_journal(files.journal).live_at(proof.at)
    walls = Walls(Line(day.model, day.trains[unescaped(proof.asked.train)]),
                  _holders(day, entries))
    if walls.judge.fault(proof) is not None:
        return {"reason": "unknown", "nearest_km": None, "walls": []}
    ways = Ways(walls.line, proof.asked)
    if not ways.left:
        return {"reason": "no_way", "nearest_km": None, "walls": []}
    if not walls.arrivals_alone(proof.asked, ways) & bits_of(*proof.asked.arrive):
        return {"reason": "windows", "nearest_km": None, "walls": []}
    reached = walls.reached(proof, ways)
    nearest: dict[int, Found] = {}
    for wall in reached.walls:
        one = walls.holders[wall.claim.holder]
        if wall.claim.holder not in nearest and len(nearest) < MOST_WALLS:
            nearest[wall.claim.holder] = Found(
                one.planned, one.entry, wall.claim.zone, wall.claim.begin, wall.claim.end,
                not walls.opens_without(proof, reached, wall.claim.holder))
    return {"reason": "walls", "nearest_km": round(reached.left / 1000, 1),
            "walls": list(nearest.values())}


def _holders(day: Day, entries: list[Entry]) -> list[Holder]:
    """Who has zones."""
    planned = [Holder(train.name, train.claims, planned=at)
               for at, train in enumerate(day.base.trains)]
    return planned + [Holder("", day.claims(entry), entry=entry.at) for entry in entries]
