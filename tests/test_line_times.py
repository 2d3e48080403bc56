"""Tests of times in lines: each expected tick was worked out by hand.

Ticks have 10 s and tick 0 is midnight where nothing else is said: 06:30 is 23,400 s, tick 2,340.
"""
from __future__ import annotations

import unittest
from datetime import datetime, timedelta, timezone

from kidrofemba.common.clock import Clock
from kidrofemba.common.written_times import duration_s, moment_s
from kidrofemba.door.line_times import Times, line_of

MIDNIGHT = datetime(2026, 12, 1, tzinfo=timezone(timedelta(hours=1)))
DAY = Times(Clock(10, MIDNIGHT), 17_280)
UNDATED = Times(Clock(10), 17_280)
EVENING = Times(Clock(7, datetime(2026, 11, 29, 22, 0)), 12_000)


class Durations(unittest.TestCase):
    """Durations in seconds."""

    def test_units_and_hours(self) -> None:
        for text, seconds in {"90s": 90, "8min": 480, "1h": 3_600, "1h30min": 5_400, "0s": 0,
                              "2min30s": 150, "00:08": 480, "00:08:00": 480, "0:01:30": 90,
                              "36:00:00": 129_600}.items():
            self.assertEqual(duration_s(text), seconds, text)

    def test_what_is_none(self) -> None:
        for text in ("", "8", "8m", "min", "1.5min", "30min1h", "8 min", "00:60", "00:08:60",
                     "-8min", "00:08+1d", "\u0668min:"):
            with self.assertRaises(ValueError, msg=text):
                duration_s(text)


class Moments(unittest.TestCase):
    """Moments in seconds from tick 0."""

    def test_dated(self) -> None:
        clock = Clock(10, MIDNIGHT)
        for text, seconds in {"06:30": 23_400, "24:00": 86_400, "24:00+1d": 172_800,
                              "24:00:00-1d": 0, "00:10+1d": 87_000, "2026-12-01T06:30": 23_400,
                              "2026-12-02T00:00:10": 86_410, "2026-11-30T23:59:50": -10,
                              "2026-12-01T05:30Z": 23_400,
                              "2026-12-01T07:30+02:00": 23_400}.items():
            self.assertEqual(moment_s(text, clock), seconds, text)

    def test_tick_0_in_the_evening(self) -> None:
        """Tick 0 is at 22:00, so the next midnight is 7,200 s later."""
        clock = EVENING.clock
        assert clock is not None
        for text, seconds in {"22:00": 0, "24:00": 7_200, "00:00+1d": 7_200, "21:59:59": -1,
                              "2026-11-30T00:00": 7_200}.items():
            self.assertEqual(moment_s(text, clock), seconds, text)

    def test_what_is_none(self) -> None:
        for text in ("25:00", "24:01", "12:60", "2026-12-01", "2026-13-01T00:00", "12:00:00.5",
                     "2026-12-01T24:00", "06:30 "):
            with self.assertRaises(ValueError, msg=text):
                moment_s(text, Clock(10, MIDNIGHT))
        with self.assertRaises(ValueError):
            moment_s("2026-12-01T06:30", Clock(10))


class Lines(unittest.TestCase):
    """Lines of ticks."""

    def same(self, text: str, line: str, times: Times = DAY) -> None:
        self.assertEqual(line_of(text, times), line)

    def refused(self, text: str, part: str, times: Times = DAY) -> None:
        with self.assertRaisesRegex(ValueError, part):
            line_of(text, times)

    def test_windows(self) -> None:
        self.same("ask 1 F W E 06:30 07:00:09 06:30:01 09:00 0",
                  "ask 1 F W E 2340 2520 2341 3240 0")
        self.same("ask - F W E 6 6 -330 2190 0", "ask - F W E 6 6 -330 2190 0")
        self.same("after 7 ask 1 F W E 06:30 07:00 0 17280 0",
                  "after 7 ask 1 F W E 2340 2520 0 17280 0")
        self.same("ask 1 F W E 2026-12-01T23:00 2026-12-02T00:10 0 17280 0",
                  "ask 1 F W E 8280 8700 0 17280 0")

    def test_an_arrival_that_does_not_matter(self) -> None:
        self.same("ask 1 F W E 06:30 07:00 * 0", "ask 1 F W E 2340 2520 0 17280 0")
        self.same("ask 1 F W E 06:30 07:00 * 1 M 8min", "ask 1 F W E 2340 2520 0 17280 1 M 48")
        self.same("ask 1 F W E 06:30 07:00 * 09:00 0", "ask 1 F W E 2340 2520 0 3240 0")
        self.same("ask 1 F W E 06:30 07:00 08:00 * 0", "ask 1 F W E 2340 2520 2880 17280 0")
        self.same("ask 1 F W E 06:30 07:00 * * 1 M 0", "ask 1 F W E 2340 2520 0 17280 1 M 0")
        self.refused("ask 1 F W E 06:30 07:00 *", "behind it stands the count of stops")
        self.refused("ask 1 F W E 6 6 * 0", "needs --base", Times())

    def test_over_midnight(self) -> None:
        """00:10 of the next day is 87,000 s, tick 8,700; 03:00 is tick 9,720."""
        self.same("ask 1 F W E 23:50 00:10 0 17280 0", "ask 1 F W E 8580 8700 0 17280 0")
        self.same("ask 1 F W E 23:50 00:10 00:00 03:00 0", "ask 1 F W E 8580 8700 8640 9720 0")
        self.same("ask 1 F W E 22:00 23:00 23:30 03:00 0", "ask 1 F W E 7920 8280 8460 9720 0")
        self.same("ask 1 F W E 06:00 07:00 00:00 09:00 0", "ask 1 F W E 2160 2520 0 3240 0")
        self.same("ask 1 F W E 23:50 24:00 * 0", "ask 1 F W E 8580 8640 0 17280 0")
        self.same("ask 1 F W E 00:30+1d 01:00 02:00 03:00 0",
                  "ask 1 F W E 8820 9000 9360 9720 0")
        self.same("ask 1 F W E 23:00 23:30 0 02:00 0", "ask 1 F W E 8280 8460 0 9360 0")
        self.same("hold 1 4 23:50 00:10", "hold 1 4 8580 8700")

    def test_a_window_that_says_its_days_is_not_moved(self) -> None:
        self.refused("ask 1 F W E 23:50 00:10-1d 0 17280 0", "no tick lies between")
        self.refused("ask 1 F W E 06:30:01 06:30:09 0 17280 0", "no tick lies between")

    def test_ticks_of_seven_seconds(self) -> None:
        """Tick 0 at 22:00: 22:00:20 is behind tick 2 (14 s) and before tick 3 (21 s); midnight,
        7,200 s, lies between ticks 1,028 (7,196 s) and 1,029 (7,203 s)."""
        self.same("ask 1 F W E 22:00:20 24:00 * 0", "ask 1 F W E 3 1028 0 12000 0", EVENING)
        self.same("hold 1 4 22:00:20 00:00", "hold 1 4 2 1029", EVENING)

    def test_dwells_are_rounded_up(self) -> None:
        ask = "ask 1 F W E 6 6 0 100"
        for text, ticks in {"8min": 48, "00:08:00": 48, "00:08": 48, "90s": 9, "91s": 10, "1s": 1,
                            "0s": 0, "0": 0}.items():
            self.same(f"{ask} 1 M {text}", f"{ask} 1 M {ticks}")
        self.same(f"{ask} 2 M 8min N 25s", f"{ask} 2 M 48 N 3")

    def test_a_bare_dwell_is_refused_beside_a_base_file(self) -> None:
        ask = "ask 1 F W E 6 6 0 100 2 M 8min N 8"
        self.refused(ask, r"8 \(dwell at stop 2\): a bare number: write 8min or 8s, or, for 8 "
                          "ticks, 80s; with --ticks bare dwells are ticks")
        self.same(ask, "ask 1 F W E 6 6 0 100 2 M 48 N 8", Times(DAY.clock, 17_280, True))
        self.same("ask 1 F W E 6 6 0 100 1 M 8", "ask 1 F W E 6 6 0 100 1 M 8", Times())
        self.refused("ask 1 F W E 6 6 0 100 1 M 8min", r"8min \(dwell at stop 1\): a time needs "
                     "--base", Times())

    def test_holds_cover_what_they_name(self) -> None:
        self.same("hold - 4 22:00 22:30", "hold - 4 7920 8100")
        self.same("hold - 4 22:00:05 22:30:05", "hold - 4 7920 8101")
        self.same("hold - 4 22:00:05 45s", "hold - 4 7920 7925")
        self.same("hold - 4 38 50", "hold - 4 38 50")
        self.same("hold - 4 7920 30min", "hold - 4 7920 8100")
        self.same("holds - works 2 4 22:00 1h 5 23:50 00:10",
                  "holds - works 2 4 7920 8280 5 8580 8700")
        self.refused("hold - 4 30min 22:00", r"30min \(begin\): is a duration")
        self.refused("holds - works 2 4 1 2 5 x 1h", r"1h \(end of span 2\): a duration from a "
                     "begin that is no time")

    def test_pins_are_exact(self) -> None:
        self.same("pin 1 F 2 0 23:58:20 00:00 0 1 24:00 140s 1",
                  "pin 1 F 2 0 8630 8640 0 1 8640 8654 1")
        self.same("pin 1 F 2 0 23:58:20 00:00 0 1 00:00 00:02:20 1",
                  "pin 1 F 2 0 8630 8640 0 1 8640 8654 1")
        self.refused("pin 1 F 1 0 06:00:05 06:01 1", r"06:00:05 \(enter of run 1\): lies between")
        self.refused("pin 1 F 1 0 06:00 15s 1", r"15s \(leave of run 1\): lies between")

    def test_what_is_no_time_is_left(self) -> None:
        for text in ("front", "show 3", "free - 3", "hold 1 0 5", "ask 1 F W E six 6 0 100 0",
                     "ask 1 F W", "holds 1 a%2 1 0 5 6", "pin 1 F 1 0 6 21 2", "", "after 3"):
            self.same(text, text)

    def test_what_is_wrong_has_its_field(self) -> None:
        self.refused("ask 1 F W E 25:00 1 1 1 0",
                     r"25:00 \(begin of the departure\): no clock time")
        self.refused("ask 1 F W E 06:30 8min 0 1 0",
                     r"8min \(end of the departure\): is a duration")
        self.refused("hold 1 0 06:30 7", "needs --base", Times())
        self.refused("ask 1 F W E 2026-12-01T06:30 * * 0", "a date, where the base file tells none",
                     UNDATED)


if __name__ == "__main__":
    unittest.main()
