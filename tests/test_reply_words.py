"""Tests of replies in words: what is told behind each reply, by the rows of docs/FORMATS.md.

Ticks have 10 s and tick 0 is midnight: tick 2,160 is 06:00:00, tick 2,880 is 08:00:00.
"""
from __future__ import annotations

import re
import unittest
from datetime import datetime
from pathlib import Path

from kidrofemba.common.clock import Clock
from kidrofemba.door.reply_words import Answers

FORMATS = Path(__file__).resolve().parent.parent / "docs/FORMATS.md"
ASK = "ask 1 F1 W E 2160 2880 0 17280 1 M 48"
#: A path over four blocks: it departs at tick 2,160, stands from 2,190 to 2,238, and arrives 2,260.
RUNS = "runs 4 0 2160 2170 0 1 2170 2190 1 2 2238 2250 0 3 2250 2260 1"
MEANT = {
    # a reply, to a line, and what is told behind the reply
    ("taken 9 zone 4 by base 1 at 3", "hold 9 4 5 6"):
        "zone 4 is not free then, the planned train IC 7 has it: choose other times",
    ("taken 9 zone 4 by base 2 at 3", "hold 9 4 5 6"):
        "zone 4 is not free then, planned train 2 of the base file has it: choose other times",
    ("taken 9 zone 4 by entry 1 at 3", "hold 9 4 5 6"):
        "zone 4 is not free then, entry 1, which `show 1` tells, has it: choose other times",
    ("gone 5 entry 0 by 3 at 4", ASK):
        "this was done by entry 0, and given back by entry 3: to have it again take a new number",
    ("other 5 entry 0 at 4", ASK):
        "number 5 was used for something else, entry 0: take a new number",
    ("past 5 before 2160", ASK): "it departs before 06:00:00, which is now",
    ("closed hold", "hold 1 0 5 6"):
        "you may not send `hold` here: who runs the door has not allowed it",
    ("closed line", "hold 1 0 5 6"): "the line is longer than 65536 bytes",
    ("hidden 7 at 9", "show 7"): "entry 7 is another client's, and is not told to you",
    ("denied 4 quota at 3", ASK):
        "your rule lets you have no more paths at once: free one, or have the rule changed",
    ("denied 4 curfew at 3", ASK):
        "your rule lets no path depart at these times: ask for other ones",
    ("denied 4 longest at 3", ASK):
        "your rule lets no train as long as this one run: ask with a shorter one",
    ("unknown 7 at 3", "show 7"): "there is no entry 7",
    ("unknown 7 at 3", "free 1 7"): "entry 7 is no hold and no path, or is not there",
    ("not-yours 4 entry 0 owner B at 3", "free 4 0"): "entry 0 is B's, who alone may free it",
    ("already-freed 4 entry 0 by 2 at 3", "free 4 0"):
        "entry 0 was given back before, by entry 2: nothing is left to do",
    ("freed 4 entry 3 of 1 at 4", "free 4 1"): "entry 1 is given back",
    ("ahead 9 at 3", "after 9 front"): "fewer than 9 entries stand: wait, and ask again",
    ("held 4 entry 3 at 4", "hold 4 1 2160 2163"): "zone 1 06:00:00 to 06:00:30",
    ("held 4 entry 3 at 4", "after 3 holds 4 works 2 1 2160 2163 2 0 1"):
        "zone 1 06:00:00 to 06:00:30, zone 2 00:00:00 to 00:00:10",
    ("pinned 4 entry 3 at 4", "pin 4 F1 1 0 2160 2170 1"): "departs 06:00:00, arrives 06:01:40",
    ("breaks 4 run 0 rule 4 at 4", "pin 4 F1 1 0 2160 2170 0"):
        "run 0, counted from 0, is wrong: it is the last, and the train does not stop there",
    ("kept 4 entry 3 at 4 free 1", "free 4 1"): "done before",
}


class Replies(unittest.TestCase):
    """Replies in words."""

    def setUp(self) -> None:
        self.answers = Answers(Clock(10, datetime(2026, 12, 1)), planned=("R 101", "IC 7"))

    def test_what_each_reply_means(self) -> None:
        for (reply, line), meaning in MEANT.items():
            self.assertEqual(self.answers.text(reply, line), f"{reply}: {meaning}")

    def test_a_path_has_its_stations(self) -> None:
        path = ("departs 06:00:00 from W, stands at M 06:05:00 to 06:13:00, arrives 06:16:40 at E")
        self.assertEqual(self.answers.text(f"granted 1 entry 0 at 1 {RUNS}", ASK),
                         f"granted 1 entry 0 at 1: {path}")
        self.assertEqual(self.answers.text(f"kept 1 entry 0 at 1 {RUNS}", f"after 1 {ASK}"),
                         f"kept 1 entry 0 at 1: done before, {path}")

    def test_a_stop_that_nobody_named_has_its_block(self) -> None:
        told = self.answers.text(f"granted 1 entry 0 at 1 {RUNS}", "ask 1 F1 W E 2160 2880 0 1 0")
        self.assertIn("stands at the end of block 1 06:05:00 to 06:13:00", told)

    def test_an_entry_that_is_shown_has_no_stations(self) -> None:
        self.assertEqual(self.answers.text(f"shown 0 at 1 owner A number 1 {RUNS} live", "show 0"),
                         "shown 0 at 1 owner A number 1: departs 06:00:00, stands at the end of "
                         "block 1 06:05:00 to 06:13:00, arrives 06:16:40 live")

    def test_ticks_without_a_clock(self) -> None:
        plain = Answers(None)
        self.assertEqual(plain.text("past 5 before 2160", ASK),
                         "past 5 before 2160: it departs before tick 2160, which is now")
        self.assertEqual(plain.text("held 4 entry 3 at 4", "hold 4 1 2160 2163"),
                         "held 4 entry 3 at 4")

    def test_each_reply_that_says_no_is_told_in_words(self) -> None:
        """The replies of FORMATS.md: each has a meaning, but for the entries themselves."""
        page = FORMATS.read_text(encoding="utf-8")
        table = page[page.index("## Replies"):page.index("## Proofs")]
        words = {form.split()[0]: form for row in table.splitlines() if row.startswith("| `")
                 for form in re.findall(r"`([^`]+)`", row.split("|")[1])}
        self.assertLess({"taken", "gone", "other", "denied", "wide", "no-path", "bad"},
                        words.keys())
        filled = {"N": "4", "I": "3", "J": "2", "K": "9", "M": "8", "A": "12", "Z": "1", "T": "0",
                  "R": "0", "B": "1", "F": "3", "NAME": "C", "RULE": "quota", "C": "0", "..": ""}
        for word in words.keys() - {"granted", "kept", "shown", "front"}:
            reply = " ".join(filled.get(part, part) for part in words[word].split())
            self.assertRegex(self.answers.text(reply, "hold 4 1 2160 2163"),
                             f"^{re.escape(reply)}: .{{15,}}", word)

    def test_wide_says_what_helps(self) -> None:
        told = self.answers.text("wide 7 at 9", ASK)
        self.assertIn("name fewer stops, or ask twice", told)
        self.assertNotIn("name a stop", told)


if __name__ == "__main__":
    unittest.main()
