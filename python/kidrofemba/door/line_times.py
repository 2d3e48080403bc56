"""Lines in which times are written as people write them, made into lines of ticks.

In an `ask` the windows are moments, each begin the first tick from then on, each end the last until
then; `*` is an arrival window that does not matter, 0 to the horizon; a dwell is a duration,
rounded up to ticks. In `hold` and `holds` the ticks cover the times that are named, and an end may
be a duration from its begin. In `pin` each time is a tick exactly, and a leave may be a duration
from its enter. A clock time without a day that lies before the time that it has to follow is of the
first later day on which it does not.
"""
from __future__ import annotations

from dataclasses import dataclass

from kidrofemba.common.clock import Clock
from kidrofemba.common.written_times import (DAY_S, duration_s, is_duration, is_time, moment_s,
                                             says_no_day)
from kidrofemba.door.line_forms import FORMS, shown

_ANY = "*"
_FIRST_WINDOW, _ARRIVAL, _COUNT = 5, 7, 9
_NAMES = FORMS["ask"].fields


@dataclass(frozen=True)
class Times:
    """What times of lines mean: the clock and the horizon of a base file, where there is one, and
    whether a dwell that is a bare number beside it counts ticks."""

    clock: Clock | None = None
    horizon: int = 0
    bare_dwells: bool = False


def line_of(text: str, times: Times) -> str:
    """The line of ticks that a text asks for; ValueError, with the field, where a time is none."""
    fields = text.split(" ")
    first = 2 if fields[0] == "after" else 0
    return " ".join(fields[:first] + _Line(fields[first:], times).in_ticks())


class _Line:
    """The fields of one line from its word on."""

    def __init__(self, fields: list[str], times: Times):
        self.fields, self.times = fields, times

    def in_ticks(self) -> list[str]:
        """The fields with ticks in place of times."""
        word = self.fields[0] if self.fields else ""
        if word == "ask":
            self._ask()
        elif word == "hold":
            self._span(3, "")
        elif word == "holds":
            for at in range(5, len(self.fields), 3):
                self._span(at, f" of span {(at - 2) // 3}")
        elif word == "pin":
            for at in range(5, len(self.fields), 4):
                self._run(at, f" of run {(at - 1) // 4}", at - 3 if at > 5 else None)
        return self.fields

    def _has(self, at: int) -> bool:
        return at < len(self.fields)

    def _clock(self, at: int, name: str) -> Clock:
        """The clock, which a time in a field needs."""
        if self.times.clock is None:
            raise ValueError(f"{self._told(at, name)}: a time needs --base, which says how long a "
                             "tick is and when tick 0 begins")
        return self.times.clock

    def _told(self, at: int, name: str) -> str:
        return f"{shown(self.fields[at])} ({name})"

    def _moment(self, at: int, name: str, least_s: int | None = None) -> int | None:
        """The seconds from tick 0 to the moment in a field, not before `least_s` where it says no
        day; None where it is no time."""
        text = self.fields[at] if self._has(at) else ""
        if not is_time(text):
            return None
        clock = self._clock(at, name)
        if is_duration(text):
            raise ValueError(f"{self._told(at, name)}: is a duration, where a clock time is wanted")
        try:
            second = moment_s(text, clock)
        except ValueError as wrong:
            raise ValueError(f"{self._told(at, name)}: {wrong}") from None
        if least_s is not None and says_no_day(text) and second < least_s:
            second += -((second - least_s) // DAY_S) * DAY_S
        return second

    def _second(self, at: int) -> int | None:
        """The seconds from tick 0 to the tick in a field; None where it is no tick."""
        text, clock = self.fields[at] if self._has(at) else "", self.times.clock
        is_tick = text.removeprefix("-").isdecimal() and text.isascii()
        return int(text) * clock.tick_s if is_tick and clock is not None else None

    def _ask(self) -> None:
        self._open_window()
        departs = self._window(_FIRST_WINDOW, None)
        self._window(_ARRIVAL, departs)
        for at in range(_COUNT + 2, len(self.fields), 2):
            self._dwell(at, f"dwell at stop {(at - _COUNT) // 2}")

    def _open_window(self) -> None:
        """Writes 0 and the horizon in place of a `*`, which is the whole arrival window, or one of
        its two ends where both stand there."""
        if _ANY not in self.fields[_ARRIVAL:_COUNT]:
            return
        at = self.fields.index(_ANY, _ARRIVAL)
        if self.times.clock is None:
            raise ValueError(f"{_ANY} ({_NAMES[at - 1]}): needs --base, which says the horizon")
        rest = self.fields[_ARRIVAL:]
        if rest == [_ANY]:
            raise ValueError(f"{_ANY} is the arrival window: behind it stands the count of stops, "
                             "0 for none")
        if rest[0] == _ANY and len(rest) % 2 == 0:
            rest[:1] = ["0", str(self.times.horizon)]
        elif rest[0] == _ANY:
            rest[0] = "0"
        if rest[1] == _ANY:
            rest[1] = str(self.times.horizon)
        self.fields[_ARRIVAL:] = rest

    def _window(self, at: int, least_s: int | None) -> int | None:
        """Makes a window of moments one of ticks, on the first day on which it does not end before
        `least_s`; its begin in seconds from tick 0 where it is known."""
        first, last = _NAMES[at - 1], _NAMES[at]
        given = self.fields[at:at + 2]
        begin, end = self._moment(at, first), None
        begin_s = begin if begin is not None else self._second(at)
        end = self._moment(at + 1, last, begin_s)
        if end is not None and least_s is not None and end < least_s and says_no_day(given[1]):
            later = -((end - least_s) // DAY_S) * DAY_S
            end += later
            if begin is not None and says_no_day(given[0]):
                begin += later
        clock = self.times.clock
        if clock is not None and begin is not None:
            self.fields[at] = str(-(-begin // clock.tick_s))
        if clock is not None and end is not None:
            self.fields[at + 1] = str(end // clock.tick_s)
        if None not in (begin, end) and int(self.fields[at]) > int(self.fields[at + 1]):
            raise ValueError(f"{given[0]} to {given[1]} ({first}, {last}): no tick lies between")
        return begin if begin is not None else begin_s

    def _dwell(self, at: int, name: str) -> None:
        """Makes a dwell ticks."""
        text, clock = self.fields[at], self.times.clock
        if is_time(text):
            self.fields[at] = str(-(-self._duration(at, name) // self._clock(at, name).tick_s))
        elif clock is not None and text.isascii() and text.isdecimal() and int(text) > 0 \
                and not self.times.bare_dwells:
            raise ValueError(
                f"{self._told(at, name)}: a bare number: write {text}min or {text}s, or, for "
                f"{text} ticks, {int(text) * clock.tick_s}s; with --ticks bare dwells are ticks")

    def _duration(self, at: int, name: str) -> int:
        try:
            return duration_s(self.fields[at])
        except ValueError as wrong:
            raise ValueError(f"{self._told(at, name)}: {wrong}") from None

    def _span(self, at: int, of: str) -> None:
        """Makes a span of a hold the ticks that cover it."""
        begin = self._moment(at, f"begin{of}")
        begin_s = begin if begin is not None else self._second(at)
        end = self._behind(at + 1, f"end{of}", begin_s)
        clock = self.times.clock
        if clock is not None and begin is not None:
            self.fields[at] = str(begin // clock.tick_s)
        if clock is not None and end is not None:
            self.fields[at + 1] = str(-(-end // clock.tick_s))

    def _behind(self, at: int, name: str, begin_s: int | None) -> int | None:
        """The seconds from tick 0 to an end, a moment or a duration from its begin."""
        if not self._has(at) or not is_duration(self.fields[at]):
            return self._moment(at, name, begin_s)
        self._clock(at, name)
        if begin_s is None:
            raise ValueError(f"{self._told(at, name)}: a duration from a begin that is no time")
        return begin_s + self._duration(at, name)

    def _run(self, at: int, of: str, before: int | None) -> None:
        """Makes a run of a path the ticks that it names, each exactly."""
        least_s = self._second(before) if before is not None else None
        enter = self._moment(at, f"enter{of}", least_s)
        enter_s = enter if enter is not None else self._second(at)
        leave = self._behind(at + 1, f"leave{of}", enter_s)
        for field, name, second in ((at, "enter", enter), (at + 1, "leave", leave)):
            if second is not None:
                tick_s = self._clock(field, name).tick_s
                if second % tick_s:
                    raise ValueError(f"{self._told(field, name + of)}: lies between two ticks of "
                                     f"{tick_s} s")
                self.fields[field] = str(second // tick_s)
