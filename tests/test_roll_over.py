"""Tests of `kidrofemba roll-over`: a day rolled over to the next one by lines of the clients, what
is lost told, and `carry` where the program has it."""
from __future__ import annotations

import argparse
import fcntl
import json
import os
import subprocess
import sys
from dataclasses import dataclass
from pathlib import Path

from kidrofemba.journal.journal_file import Claim, Entry, Kind, Run, read_journal
from tests.door_world import (EXAMPLES, KIDROFEMBA, LONG_S, PROGRAM, World, in_memory, new_world,
                              run_cases, want)

DAY = 8_640
MONDAY = {"tick_s": 10, "setting": 1, "release": 1, "horizon": 17280, "journal_bytes": 268435456,
          "trains": [], "begins": "2026-11-30T00:00:00+01:00"}
TUESDAY = MONDAY | {"begins": "2026-12-01T00:00:00+01:00"}
# Lines of two clients on Monday, with what becomes of each at Tuesday's tick 0.
LINES = [
    ("A", "ask 1 F1 W E 100 100 0 17280 0"),            # over
    ("A", "ask 2 F1 W E 8628 8628 0 17280 0"),          # under way
    ("A", "ask 3 F1 W E 9000 9000 0 17280 0"),          # tomorrow
    ("B", "hold 1 0 20 30"),                            # over
    ("B", "hold 2 1 8500 8600"),                        # over, by itself
    ("B", "hold 3 2 16000 16100"),                      # tomorrow
    ("B", "holds 4 night%20work 2 0 8639 8643 2 8600 8605"),  # one zone over, one half
    ("A", "ask 5 F1 W E 9500 9500 0 17280 0"),          # freed
    ("A", "free 6 7"),
    ("B", "hold 7 5 99990 100000"),                     # far behind the horizon
    ("A", "ask 8 F1 W E 9200 9200 0 17280 0"),          # tomorrow
]


@dataclass
class Two:
    """Monday's world, sold and held, and the files of Tuesday."""

    monday: World
    replies: dict[tuple[str, int], str]

    @property
    def folder(self) -> Path:
        return self.monday.folder

    @property
    def journal(self) -> Path:
        return self.folder / "tuesday.journal"

    def words(self, *options: str, base: dict | None = None) -> list[str]:
        """The words that roll over to a base file of this content."""
        tuesday = self.folder / "tuesday.json"
        tuesday.write_text(json.dumps(base or TUESDAY))
        return [sys.executable, str(KIDROFEMBA), "roll-over", "--program", str(self.monday.program),
                "--network", str(self.monday.network), "--trains", str(self.monday.trains),
                "--base", str(tuesday), "--journal", str(self.journal), "--from",
                str(self.monday.journal), "--from-base", str(self.monday.base), *options]

    def roll(self, *options: str, base: dict | None = None) -> tuple[int, str, str]:
        told = subprocess.run(self.words(*options, base=base), capture_output=True, text=True,
                              timeout=LONG_S, check=False)
        return told.returncode, told.stdout, told.stderr

    def out_base(self) -> Path:
        return self.folder / "tuesday_base.json"

    def later(self) -> Two:
        """The new day in the place of the old one, and files of a later carry."""
        folder = self.folder / "later"
        folder.mkdir()
        world = World(self.monday.program, folder,
                      base_object=json.loads(self.out_base().read_text()))
        world.base.write_bytes(self.out_base().read_bytes())
        world.journal.write_bytes(self.journal.read_bytes())
        return Two(world, {})

    def replies_of(self, client: str, lines: list[str], base: Path) -> list[str]:
        """What a server over the new journal replies."""
        told = subprocess.run(
            [str(self.monday.program), "serve", "--network", str(self.monday.network), "--base",
             str(base), "--trains", str(self.monday.trains), "--journal", str(self.journal),
             "--client", f"{client}=stdin:stdout"], input="\n".join(lines), text=True,
            capture_output=True, check=True)
        return told.stdout.splitlines()


def two(world: World, lines: list[tuple[str, str]]) -> Two:
    """Monday, once these lines are answered in their order."""
    replies: dict[tuple[str, int], str] = {}
    for client, line in lines:
        told = subprocess.run([*world.serve_words(), "--client", f"{client}=stdin:stdout"],
                              input=line, capture_output=True, text=True, check=True)
        replies[client, int(line.split()[1])] = told.stdout.rstrip("\n")
    want(all(reply.split()[0] in ("granted", "held", "freed") for reply in replies.values()),
         f"{replies}")
    return Two(world, replies)


def moved(entry: Entry) -> tuple[Run, ...]:
    """The runs of an entry a day later."""
    return tuple(Run(run.block, run.enter - DAY, run.leave - DAY, run.stops) for run in entry.runs)


def a_day_is_rolled_over(program: Path) -> None:
    with new_world(program, in_memory(), base_object=MONDAY) as world:
        given = two(world, LINES)
        before = world.journal.read_bytes()
        # A program is named by a path from here, or found as commands are.
        words = given.words("--out-base", str(given.out_base()))
        words[words.index("--program") + 1] = f"./{program.name}"
        ended = subprocess.run(words, capture_output=True, text=True, timeout=LONG_S, check=False,
                               cwd=program.parent)
        status, told, wrong = ended.returncode, ended.stdout, ended.stderr
        want(status == 0 and not [row for row in wrong.splitlines() if "roll-over" in row],
             f"{status} {told} {wrong}")
        want(told == "carried 6 left 0; 1 of them as planned trains; 3 were over\n", told)
        want(world.journal.read_bytes() == before, "the old journal is changed")
        old, new = read_journal(world.journal).entries, read_journal(given.journal)
        want(new.is_of(world.network.read_bytes(), given.out_base().read_bytes()), "its base file")
        entries = new.entries
        want([(one.owner, one.number, one.kind) for one in entries] ==
             [("A", 3, Kind.PIN), ("B", 3, Kind.HOLD), ("B", 4, Kind.HOLDS), ("B", 7, Kind.HOLD),
              ("A", 8, Kind.PIN)], f"{entries}")
        want(entries[0].runs == moved(old[2]) and entries[4].runs == moved(old[10]), "paths")
        want(entries[0].runs[0].enter == 360 and entries[0].train == old[2].train, "A's path")
        want(entries[1].claims == (Claim(2, 7360, 7460),), f"{entries[1]}")
        want((entries[2].claims, entries[2].reason) == ((Claim(0, -1, 3),), "night work"),
             f"{entries[2]}")
        want(entries[3].claims == (Claim(5, 91_350, 91_360),), f"{entries[3]}")
        under_way_is_planned(given)
        again = ["ask 3 F1 W E 9000 9000 0 17280 0", "free 9 0"]
        want(given.replies_of("A", again, given.out_base())[1].startswith("freed 9 entry 5 of 0 "),
             "an own path can be freed")
        want(given.replies_of("B", ["hold 3 2 7360 7460"], given.out_base())
             == ["kept 3 entry 1 at 6 hold 2 7360 7460"], "its number stands")


def under_way_is_planned(given: Two) -> None:
    """The path that has begun is a planned train: all that its stairway has behind the new tick 0,
    and nothing else."""
    stairs = subprocess.run([str(given.monday.program), "stairs", *given.monday.files(),
                             "--entry", "1", "--out", "stdout"], capture_output=True, text=True,
                            check=True).stdout.splitlines()[1:]
    claims = [(int(zone), int(begin) - DAY, int(end) - DAY)
              for zone, begin, end, _ in map(str.split, stairs)]
    standing = sorted(claim for claim in claims if claim[2] > 0)
    want(0 < len(standing) < len(claims), f"{claims}")
    told = json.loads(given.out_base().read_text())
    want(told | {"trains": []} == TUESDAY, "the settings of the day")
    want([train["name"] for train in told["trains"]] == ["sold A 2"], f"{told['trains']}")
    want([(one["zone"], one["from"], one["to"]) for one in told["trains"][0]["requirements"]]
         == standing, f"{told['trains']}")
    # A stranger is refused each of its ticks, one by one.
    lines = [f"hold {at} {zone} {tick} {tick + 1}" for at, (zone, tick) in enumerate(
        (zone, tick) for zone, begin, end in standing for tick in range(max(begin, -5), end))]
    told = given.replies_of("Z", lines, given.out_base())
    want(all(" by base 0 " in reply for reply in told) and len(told) == len(lines) > 20, f"{told}")


def losses_are_told(program: Path) -> None:
    """A planned train of Tuesday stands across A's path 3 and the one under way, and B's hold 7 is
    in the way of nothing."""
    trains = [{"name": "IC 1", "requirements": [{"zone": 2, "from": 372, "to": 390}]},
              {"name": "IC 2", "requirements": [{"zone": 5, "from": 5, "to": 90}]}]
    with new_world(program, in_memory(), base_object=MONDAY) as world:
        given = two(world, LINES)
        base = TUESDAY | {"trains": trains}
        wanted = ["entry 1 owner A number 2 taken zone 5 by base 1\n",
                  "entry 2 owner A number 3 taken zone 2 by base 0\n"]
        status, told, wrong = given.roll("--out-base", str(given.out_base()), base=base)
        want(status == 1 and told == wanted[0], f"{status} {told} {wrong}")
        want(not given.journal.exists() and not given.out_base().exists(), "something is made")
        left = given.folder / "left"
        status, told, wrong = given.roll("--out-base", str(given.out_base()), "--left", str(left),
                                         base=base)
        want(status == 1, f"{status} {told} {wrong}")
        want(told == "carried 4 left 2; 3 were over\n", told)
        want(left.read_text() == "".join(wanted), left.read_text())
        entries = read_journal(given.journal).entries
        want([(one.owner, one.number) for one in entries] == [("B", 3), ("B", 4), ("B", 7),
                                                              ("A", 8)], f"{entries}")
        want(sorted(one.name for one in given.folder.iterdir()) == [
            "base.json", "journal", "left", "tuesday.journal", "tuesday.json",
            "tuesday_base.json"], f"{list(given.folder.iterdir())}")


def a_loss_among_the_lines_makes_nothing(program: Path) -> None:
    trains = [{"name": "IC 1", "requirements": [{"zone": 2, "from": 7300, "to": 7361}]}]
    with new_world(program, in_memory(), base_object=MONDAY) as world:
        given = two(world, LINES[3:7])
        status, told, wrong = given.roll(base=TUESDAY | {"trains": trains})
        want(status == 1 and told == "entry 2 owner B number 3 taken zone 2 by base 0\n",
             f"{status} {told} {wrong}")
        want(sorted(one.name for one in given.folder.iterdir()) == ["base.json", "journal",
                                                                    "tuesday.json"], "files")


def a_new_timetable_of_the_same_day_keeps_all(program: Path) -> None:
    """Ticks and network stay: the program's `carry` does it, or lines where there is none."""
    base = MONDAY | {"journal_bytes": 200_000_000, "trains": [
        {"name": "IC 1", "requirements": [{"zone": 2, "from": 3000, "to": 3100}]}]}
    with new_world(program, in_memory(), base_object=MONDAY) as world:
        given = two(world, LINES)
        status, told, wrong = given.roll(base=base)
        want(status == 0 and told == "carried 9 left 0\n", f"{status} {told} {wrong}")
        old = [one for one in read_journal(world.journal).entries if one.is_live]
        new = read_journal(given.journal).entries
        want([(one.owner, one.number, one.claims, one.reason, one.train, one.runs) for one in old]
             == [(one.owner, one.number, one.claims, one.reason, one.train, one.runs)
                 for one in new], "live entries")
        given.journal.unlink()
        base["trains"][0]["requirements"][0] |= {"zone": 2, "from": 16050, "to": 16060}
        status, told, wrong = given.roll(base=base)
        want(status == 1 and told == "entry 5 owner B number 3 taken zone 2 by base 0\n",
             f"{status} {told} {wrong}")
        want(not given.journal.exists() or not given.journal.read_bytes(), "it is made")


def carry_is_used_where_it_stands(program: Path) -> None:
    """A stand-in for the program notes its words: ticks that stay are carried by it."""
    with new_world(program, in_memory(), base_object=MONDAY) as world:
        given = two(world, LINES[3:6])
        for report, status, wanted in (("carried 3 left 0", 0, 0), ("carried 2 left 1", 0, 1),
                                       ("entry 1 owner B number 2 breaks run 0 rule 2", 1, 1),
                                       ("from: damaged at 77", 6, 2)):
            stand_in = given.folder / "stand_in"
            stand_in.write_text(f"#!/bin/sh\n[ \"$1\" = list ] && exec {program} \"$@\"\n"
                                f"echo \"$@\" >{given.folder}/words\necho {report} >&2\n"
                                f"exit {status}\n")
            stand_in.chmod(0o755)
            words = given.words("--left", str(given.folder / "left"), base=MONDAY)
            words[words.index("--program") + 1] = str(stand_in)
            told = subprocess.run(words, capture_output=True, text=True, check=False)
            want(told.returncode == wanted and told.stdout == f"{report}\n", f"{told}")
            want((given.folder / "words").read_text() == (
                f"carry --network {world.network} --base {given.folder}/tuesday.json --journal "
                f"{given.journal} --from {world.journal} --from-base {world.base} --left "
                f"{given.folder}/left\n"), (given.folder / "words").read_text())


def paths_under_way_stay_sold_at_later_carries(program: Path) -> None:
    """A's path 2 is a planned train of Tuesday. Tuesday's timetable is then made anew without it,
    and Wednesday's too: its ticks stay sold as long as they are not over."""
    with new_world(program, in_memory(), base_object=MONDAY) as world:
        given = two(world, LINES[:3])
        status, told, wrong = given.roll("--out-base", str(given.out_base()))
        want(status == 0, f"{status} {told} {wrong}")
        sold = json.loads(given.out_base().read_text())["trains"]
        later = given.later()
        base = TUESDAY | {"journal_bytes": 200_000_000}
        status, told, wrong = later.roll(base=base)
        want((status, told) == (2, "") and wrong == "roll-over: words: --out-base: is needed: 1 "
             "paths are under way at the new tick 0: sold A 2\n", f"{status} {told} {wrong}")
        want(not later.journal.exists(), "a journal is made without it")
        # A train of this name at other ticks is not that train.
        moved = [sold[0] | {"requirements": [
            one | {"from": one["from"] + 500, "to": one["to"] + 500}
            for one in sold[0]["requirements"]]}]
        status, told, wrong = later.roll(base=base | {"trains": moved})
        want(status == 2 and "sold A 2" in wrong, f"{status} {told} {wrong}")
        status, told, wrong = later.roll("--out-base", str(later.out_base()), base=base)
        want((status, told) == (0, "carried 1 left 0; 1 sold trains go on\n"), f"{told} {wrong}")
        want(json.loads(later.out_base().read_text()) == base | {"trains": sold}, "the train")
        want(read_journal(later.journal).is_of(world.network.read_bytes(),
                                               later.out_base().read_bytes()), "its base file")
        later.journal.unlink()
        status, told, wrong = later.roll(base=base | {"trains": sold})
        want((status, told) == (0, "carried 1 left 0\n"), f"where it is there: {told} {wrong}")
        later.journal.unlink()
        one = sold[0]["requirements"][-1]
        clash = {"name": "IC 1", "requirements": [one]}
        status, told, wrong = later.roll("--out-base", str(later.out_base()),
                                         base=base | {"trains": [clash]})
        want((status, told) == (1, f"sold A 2 taken zone {one['zone']} by base 0\n"),
             f"{status} {told} {wrong}")
        want(not later.journal.exists(), "a journal is made over the clash")
        # At Wednesday's tick 0 the train is over.
        status, told, wrong = later.roll(base=TUESDAY | {"begins": "2026-12-02T00:00:00+01:00"})
        want((status, told) == (0, "carried 0 left 0; 1 were over\n"), f"{told} {wrong}")


def another_network_is_mapped_by_names(program: Path) -> None:
    """A network in which zones have other numbers: what lies somewhere stays there. One without
    routes has no blocks: paths are lost."""
    with new_world(program, in_memory(), base_object=MONDAY) as world:
        network = json.loads((EXAMPLES / "line6.json").read_text())
        network["track_sections"].insert(0, {"id": "siding", "length": 500.0})
        network["buffer_stops"] += [{"id": "X", "track": "siding", "position": 0.0},
                                    {"id": "Y", "track": "siding", "position": 500.0}]
        other = world.folder / "other.json"
        other.write_text(json.dumps(network))
        given = two(world, LINES)
        words = ["--out-base", str(given.out_base()), "--from-network", str(world.network)]
        rolled = given.words(*words)
        rolled[rolled.index("--network") + 1] = str(other)
        told = subprocess.run(rolled, capture_output=True, text=True, check=False)
        want(told.returncode == 0, f"{told}")
        table = [subprocess.run([str(program), "list", "--network", str(file), "--out", "stdout"],
                                capture_output=True, text=True, check=True).stdout.splitlines()
                 for file in (world.network, other)]
        zones = [[row.split(" ", 4)[4] for row in rows if row.startswith("zone ")]
                 for rows in table]
        want(zones[0] != zones[1], "both networks have the same numbers")
        new = read_journal(given.journal).entries
        want(zones[1][new[1].claims[0].zone] == zones[0][2], "B's hold lies where it lay")
        want(zones[1][new[2].claims[0].zone] == zones[0][0], "B's work lies where it lay")
        network["routes"] = []
        other.write_text(json.dumps(network))
        given.journal.unlink()
        left = given.folder / "left"
        told = subprocess.run([*rolled, "--left", str(left)], capture_output=True, text=True,
                              check=False)
        want(told.returncode == 1, f"{told}")
        want("entry 2 owner A number 3 its blocks are not all there\n" in left.read_text(),
             left.read_text())


def trains_that_changed_are_lost(program: Path) -> None:
    with new_world(program, in_memory(), base_object=MONDAY) as world:
        given = two(world, LINES)
        trains = json.loads(world.trains.read_text())
        trains["trains"][0]["length_m"] += 1
        world.trains = given.folder / "trains.json"
        world.trains.write_text(json.dumps(trains))
        left = given.folder / "left"
        status, _, wrong = given.roll("--out-base", str(given.out_base()), "--left", str(left))
        want(status == 1, wrong)
        wanted = "".join(f"entry {at} owner A number {number} train F1 is not there as it was\n"
                         for at, number in ((2, 3), (10, 8)))
        want(left.read_text() == wanted, left.read_text())


def many_owners_are_carried(program: Path) -> None:
    """A server has 16 clients at most; a journal may have more owners."""
    with new_world(program, in_memory(), base_object=MONDAY) as world:
        given = two(world, [(f"C{at}", f"hold 1 {at % 6} {9000 + 10 * at} {9005 + 10 * at}")
                            for at in range(20)])
        status, told, wrong = given.roll()
        want(status == 0 and told == "carried 20 left 0\n", f"{status} {told} {wrong}")
        entries = read_journal(given.journal).entries
        want(sorted((one.owner, one.claims[0].begin) for one in entries)
             == sorted((f"C{at}", 360 + 10 * at) for at in range(20)), f"{entries}")


def bad_files_are_refused(program: Path) -> None:
    with new_world(program, in_memory(), base_object=MONDAY) as world:
        given = two(world, LINES)
        dated = dict(TUESDAY)
        del dated["begins"]
        for base, options, place in (
                (TUESDAY, [], "words: --out-base: is needed: 1 paths are under way"),
                (TUESDAY | {"tick_s": 30}, [], "tuesday.json: tick_s: is 30, and was 10"),
                (dated, [], "words: --shift: is needed"),
                (TUESDAY | {"begins": "2026-12-01T00:00:05+01:00"}, [], "begins: is not a whole"),
                (TUESDAY | {"begins": "2026-12-01T00:00:00"}, [], "one has an offset from UTC"),
                (TUESDAY | {"trains": 5}, [], "tuesday.json: no base file"),
                (TUESDAY | {"horizon": 20_000}, ["--out-base", "x"], "limit horizon 20000")):
            status, told, wrong = given.roll(*options, base=base)
            want(status == 2 and place in wrong and wrong.count("\n") == 1 and not told,
                 f"{place}: {status} {wrong}")
            want(not given.journal.exists(), f"{place}: a journal is made")
        with world.journal.open("rb") as held:
            fcntl.flock(held, fcntl.LOCK_EX)
            status, _, wrong = given.roll("--out-base", str(given.out_base()))
            want(status == 2 and "a server has this journal" in wrong, wrong)
        given.journal.write_text("x")
        status, _, wrong = given.roll("--out-base", str(given.out_base()))
        want(status == 2 and "is there, and is not empty" in wrong, wrong)
        os.truncate(given.journal, 0)
        status, _, wrong = given.roll("--out-base", str(given.out_base()))
        want(status == 0, f"an empty file is no journal: {wrong}")


CASES = [a_day_is_rolled_over, losses_are_told, a_loss_among_the_lines_makes_nothing,
         a_new_timetable_of_the_same_day_keeps_all, carry_is_used_where_it_stands,
         paths_under_way_stay_sold_at_later_carries,
         another_network_is_mapped_by_names, trains_that_changed_are_lost,
         many_owners_are_carried, bad_files_are_refused]


def main() -> int:
    parser = argparse.ArgumentParser(description=__doc__)
    parser.add_argument("--program", type=Path, default=PROGRAM)
    parser.add_argument("--case", help="the one case of this name")
    options = parser.parse_args()
    cases = [case for case in CASES if options.case in (None, case.__name__)]
    return run_cases(cases, options.program.resolve())


if __name__ == "__main__":
    sys.exit(main())
