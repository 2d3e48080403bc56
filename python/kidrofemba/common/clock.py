"""Clock time of ticks.

A base file says how many seconds a tick has (`tick_s`), and may say in `begins`, a key that the
server passes over, at which date and time tick 0 begins (`2026-11-29T00:00:00+01:00`). Without it
tick 0 is midnight of a day without a date. Clock times are written `HH:MM:SS`; on a later day than
that of tick 0 the days stand behind, `00:10:00+1d`, and on an earlier one `23:50:00-1d`.
"""
from __future__ import annotations

import re
from dataclasses import dataclass
from datetime import datetime, timedelta
from typing import Any

UNDATED = datetime(1, 1, 1)
_DAY_S = 86_400
_TIME = re.compile(r"(\d{1,2}):([0-5]\d)(?::([0-5]\d))?([+-]\d{1,3}d)?")


@dataclass(frozen=True)
class Clock:
    """How many seconds a tick has, and the moment at which tick 0 begins."""

    tick_s: int
    zero: datetime = UNDATED

    @property
    def is_dated(self) -> bool:
        """Whether the day of tick 0 has a date."""
        return self.zero.year != UNDATED.year

    @property
    def _zero_of_day(self) -> int:
        """The seconds from midnight to tick 0."""
        return self.zero.hour * 3600 + self.zero.minute * 60 + self.zero.second

    def text(self, tick: int) -> str:
        """The clock time at which a tick begins."""
        return self.text_of_seconds(tick * self.tick_s)

    def text_of_seconds(self, seconds: int) -> str:
        """The clock time so many seconds behind tick 0."""
        day, second = divmod(seconds + self._zero_of_day, _DAY_S)
        hours, minutes = second // 3600, second // 60 % 60
        return f"{hours:02}:{minutes:02}:{second % 60:02}" + (f"{day:+}d" if day else "")

    def seconds(self, text: str) -> int:
        """The seconds from tick 0 to a clock time; ValueError where the text is none."""
        found = _TIME.fullmatch(text)
        if found is None or int(found[1]) > 23:
            raise ValueError(f"no clock time such as 06:30, 06:30:20 or 00:10+1d: {text}")
        hours, minutes, seconds = int(found[1]), int(found[2]), int(found[3] or 0)
        day = int(found[4][:-1]) if found[4] else 0
        return day * _DAY_S + hours * 3600 + minutes * 60 + seconds - self._zero_of_day

    def tick_from(self, text: str) -> int:
        """The first tick that begins at a clock time or later."""
        return -(-self.seconds(text) // self.tick_s)

    def tick_until(self, text: str) -> int:
        """The last tick that begins at a clock time or earlier."""
        return self.seconds(text) // self.tick_s

    def moment(self, tick: int) -> datetime:
        """The date and time at which a tick begins, of a clock that is dated."""
        if not self.is_dated:
            raise ValueError("the day of tick 0 has no date")
        return self.zero + timedelta(seconds=tick * self.tick_s)

    def seconds_to(self, moment: datetime) -> float:
        """The seconds from tick 0 to a moment, of a clock that is dated. Both say their offsets
        from UTC or neither does: else ValueError."""
        if not self.is_dated:
            raise ValueError("the day of tick 0 has no date")
        if (moment.tzinfo is None) != (self.zero.tzinfo is None):
            raise ValueError(f"{moment.isoformat()} and {self.zero.isoformat()}: "
                             "one has an offset from UTC, the other has none")
        return (moment - self.zero).total_seconds()


def moment_of(text: str) -> datetime:
    """The moment that a text such as `2026-11-29T00:00:00+01:00` names; else ValueError."""
    try:
        moment = datetime.fromisoformat(text)
    except (TypeError, ValueError):
        raise ValueError(f"no date and time such as 2026-11-29T00:00:00+01:00: {text}") from None
    if moment.year == UNDATED.year:
        raise ValueError(f"a date in the year {UNDATED.year}: {text}")
    return moment


def clock_of(base: dict[str, Any]) -> Clock:
    """The clock of a base file's object; ValueError where it tells none."""
    tick_s = base.get("tick_s")
    if isinstance(tick_s, bool) or not isinstance(tick_s, int | float) or tick_s != tick_s // 1:
        raise ValueError("`tick_s` is no whole number of seconds")
    tick_s = int(tick_s)
    if tick_s < 1:
        raise ValueError("`tick_s` is less than 1")
    if "begins" not in base:
        return Clock(tick_s)
    zero = moment_of(base["begins"])
    if zero.microsecond:
        raise ValueError(f"`begins` is no whole second: {base['begins']}")
    return Clock(tick_s, zero)
