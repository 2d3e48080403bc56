"""Times as people write them, in seconds.

A *moment* is a clock time of the day of tick 0, `06:30` or `06:30:20`; with its days behind it on
another day, `00:10+1d`; or a date and a time, `2026-12-02T06:30`, with an offset from UTC or that
of tick 0. `24:00` is the next midnight. A *duration* is `90s`, `8min`, `1h`, `1h30min`, or, where
no moment can stand, `00:08` or `00:08:00`.
"""
from __future__ import annotations

import re

from kidrofemba.common.clock import Clock, moment_of

DAY_S = 86_400
_CLOCK_TIME = re.compile(r"\d{1,2}:\d\d(?::\d\d)?")
_MIDNIGHT = re.compile(r"24:00(?::00)?(?:([+-])(\d{1,3})d)?")
_DATED = re.compile(r"\d{4}-\d\d-\d\dT\d\d:\d\d(?::\d\d)?(Z|[+-]\d\d:\d\d)?")
_UNITS = re.compile(r"(?:(\d{1,3})h)?(?:(\d{1,4})min)?(?:(\d{1,6})s)?")
_HOURS = re.compile(r"(\d{1,3}):([0-5]\d)(?::([0-5]\d))?")


def is_time(text: str) -> bool:
    """Whether a text looks like a moment or a duration, rightly written or not; a whole number, and
    a name, do not."""
    return ":" in text or is_duration(text)


def is_duration(text: str) -> bool:
    """Whether a text is a duration with its units."""
    return bool(text) and _UNITS.fullmatch(text) is not None


def says_no_day(text: str) -> bool:
    """Whether a moment is a clock time alone, without a date or days."""
    return _CLOCK_TIME.fullmatch(text) is not None


def duration_s(text: str) -> int:
    """The seconds of a duration; ValueError where the text is none."""
    units, hours = _UNITS.fullmatch(text), _HOURS.fullmatch(text)
    if text and units is not None:
        parts = units.groups()
    elif hours is not None:
        parts = hours.groups()
    else:
        raise ValueError(f"no duration such as 90s, 8min, 1h30min or 00:08:00: {text}")
    return sum(int(part or 0) * of for part, of in zip(parts, (3600, 60, 1)))


def moment_s(text: str, clock: Clock) -> int:
    """The seconds from tick 0 to a moment; ValueError where the text is none."""
    midnight = _MIDNIGHT.fullmatch(text)
    if midnight is not None:
        days = 1 + int(f"{midnight[1] or '+'}{midnight[2] or 0}")
        return clock.seconds("00:00") + days * DAY_S
    dated = _DATED.fullmatch(text)
    if dated is None:
        return clock.seconds(text)
    if not clock.is_dated:
        raise ValueError(f"a date, where the base file tells none in `begins`: {text}")
    moment = moment_of(text)
    if moment.tzinfo is None:
        moment = moment.replace(tzinfo=clock.zero.tzinfo)
    return int(clock.seconds_to(moment))
