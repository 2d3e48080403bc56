"""Tests clock times of ticks, by values that were worked out by hand, and there and back.

    PYTHONPATH=python python3 -m tests.test_clock
"""
from __future__ import annotations

import sys
from collections.abc import Callable
from datetime import datetime, timedelta, timezone
from pathlib import Path

from kidrofemba.common.clock import Clock, clock_of, moment_of
from tests.cases import Cases

REPOSITORY = Path(__file__).resolve().parent.parent


EVENING = datetime(2026, 11, 29, 22, 0, tzinfo=timezone(timedelta(hours=1)))
TEXTS = [  # seconds a tick, tick 0, a tick, its clock time
    (10, None, 0, "00:00:00"), (10, None, 8_639, "23:59:50"), (10, None, 8_640, "00:00:00+1d"),
    (10, None, 17_280, "00:00:00+2d"), (10, None, -1, "23:59:50-1d"),
    (7, EVENING, 0, "22:00:00"), (7, EVENING, 1_029, "00:00:03+1d"), (60, EVENING, 119, "23:59:00"),
    (3_600, EVENING, -23, "23:00:00-1d"),
]
FROM_TEXTS = [  # seconds a tick, a clock time, the first tick from it, the last tick until it
    (10, "00:00:09", 1, 0), (10, "00:00:10", 1, 1), (10, "6:30", 2_340, 2_340),
    (7, "00:00:20", 3, 2), (10, "00:10+1d", 8_700, 8_700), (10, "23:59:55-1d", 0, -1),
]
NO_TIMES = ["", "24:00", "12:60", "12:00:60", "12", "12:00 +1d", "12:00+d", "-1:00", "12:00:00.5"]
NO_CLOCKS = [{}, {"tick_s": 0}, {"tick_s": "10"}, {"tick_s": 2.5}, {"tick_s": True},
             {"tick_s": 10, "begins": "tomorrow"}, {"tick_s": 10, "begins": 7},
             {"tick_s": 10, "begins": "2026-11-29T00:00:00.5"}]


def refuses(work: Callable[[], object]) -> bool:
    """Whether a call is answered by ValueError."""
    try:
        work()
    except ValueError:
        return True
    return False


def main() -> int:
    cases = Cases()
    for tick_s, zero, tick, text in TEXTS:
        clock = Clock(tick_s) if zero is None else Clock(tick_s, zero)
        cases.equal(f"tick {tick} of {tick_s} s from {zero}", text, clock.text(tick))
    for tick_s, text, first, last in FROM_TEXTS:
        clock = Clock(tick_s)
        cases.equal(f"{text} in ticks of {tick_s} s", (first, last),
                    (clock.tick_from(text), clock.tick_until(text)))
    evening = Clock(7, EVENING)
    there_and_back = all(evening.tick_from(evening.text(tick)) == tick ==
                         evening.tick_until(evening.text(tick)) for tick in range(-40_000, 40_000))
    cases.holds("each tick is found again by its clock time", there_and_back)
    cases.equal("a moment", "2026-11-30T00:00:03+01:00", evening.moment(1_029).isoformat())
    cases.equal("seconds to a moment told in another zone", 3_600.0,
                evening.seconds_to(moment_of("2026-11-29T22:00:00Z")))
    for text in NO_TIMES:
        cases.holds(f"{text!r} is no clock time", refuses(lambda: Clock(10).seconds(text)))
    for base in NO_CLOCKS:
        cases.holds(f"{base} tells no clock", refuses(lambda: clock_of(base)))
    cases.equal("a base file without a date", Clock(10), clock_of({"tick_s": 10.0}))
    cases.holds("a clock without a date tells no moment", refuses(lambda: Clock(10).moment(0)))
    cases.holds("moments with and without an offset are not compared",
                refuses(lambda: evening.seconds_to(moment_of("2026-11-29T22:00:00"))))
    return cases.end()


if __name__ == "__main__":
    sys.exit(main())
