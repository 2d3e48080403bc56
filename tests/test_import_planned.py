"""Tests the making of train files and base files from what OSRD knows, over made plans and single
cases that were worked out by hand.

    PYTHONPATH=python python3 -m tests.test_import_planned --program crates/stdcm/out/stdcm
"""
from __future__ import annotations

import random
import subprocess
import sys
import tempfile
from collections import defaultdict
from collections.abc import Callable
from fractions import Fraction
from math import ceil, floor
from pathlib import Path
from typing import Any

from kidrofemba.plan import import_plan
from tests.cases import Cases, Ran, World, changed, leftovers, program_of, run
from tests.made_plans import BEGIN, MadeNetwork, made_plan, need, train, zone_numbers

REPOSITORY = Path(__file__).resolve().parent.parent


PLANS = 60
STOCK = {"name": "freight 1800t", "length": 649.5, "mass": 1_800_000.0, "max_speed": 25.0,
         "startup_time": 10.0, "comfort_acceleration": 0.25, "const_gamma": 0.5,
         "rolling_resistance": {"type": "davis", "A": 0.0, "B": 0.0, "C": 0.0},
         "effort_curves": {"default_mode": "25000V", "modes": {"25000V": {
             "default_curve": {"speeds": [0.0, 40.0], "max_efforts": [360_000.0, 360_000.0]}}}}}

Ticks = dict[int, set[int]]


class Made:
    """The made network with its table, and what is imported over it."""

    def __init__(self, world: World):
        self.world, self.network = world, MadeNetwork()
        world.write("network", self.network.infra)
        world.list()
        self.numbers = zone_numbers(self.network, world.path("table").read_text())

    def base(self, plan: Any, *options: object) -> Ran:
        """Makes the base file of a plan."""
        for name in ("base", "report"):
            self.world.path(name).unlink(missing_ok=True)
        self.world.write("plan", plan)
        return run(import_plan, "base", self.world.path("base"), self.world.path("plan"),
                   *self.world.files("network", "table", "report"), "--begin", BEGIN, *options)

    def zone(self, at: int) -> str:
        return self.network.zones[at].name

    def claims(self) -> dict[str, list[tuple[int, int, int]]]:
        """The claims of each train of the base file."""
        return {one["name"]: [(claim["zone"], claim["from"], claim["to"])
                              for claim in one["requirements"]]
                for one in self.world.read("base")["trains"]}

    def ticks(self) -> tuple[Ticks, int]:
        """The ticks of each zone that are taken, and how many claims take one that is taken."""
        taken: Ticks = defaultdict(set)
        twice = 0
        for claims in self.claims().values():
            for zone, begin, end in claims:
                ticks = set(range(begin, end))
                twice += bool(taken[zone] & ticks)
                taken[zone] |= ticks
        return {zone: ticks for zone, ticks in taken.items() if ticks}, twice

    def wanted(self, plan: dict[str, Any], tick_s: int) -> Ticks:
        """The ticks that the blocking times of a plan touch."""
        number = {zone.name: at for zone, at in zip(self.network.zones, self.numbers)}
        taken: Ticks = defaultdict(set)
        for one in plan["trains"]:
            start = import_plan.moment_of(one["start_time"]) - import_plan.moment_of(BEGIN)
            for told in one["spacing_requirements"]:
                begin, end = (Fraction(1000 * round(start.total_seconds()) + told[key],
                                       1000 * tick_s) for key in ("begin_time", "end_time"))
                first = floor(begin)
                taken[number[told["zone"]]] |= set(range(first, max(first + 1, ceil(end))))
        return dict(taken)


def try_plans(cases: Cases, made: Made) -> None:
    """Over made plans the ticks that are taken are those of the plan, each once."""
    for number in range(PLANS):
        source = random.Random(number)
        tick_s = source.choice((1, 7, 10, 60))
        plan = made_plan(made.network, source, 12)
        done = made.base(plan, "--tick-s", tick_s)
        cases.equal(f"plan {number}: status", (0, ""), (done.status, done.err))
        taken, twice = made.ticks()
        cases.equal(f"plan {number}: claims on a tick that is taken", 0, twice)
        cases.equal(f"plan {number}: ticks", made.wanted(plan, tick_s), taken)
        if number % 12 == 0:
            cases.equal(f"plan {number}: the program takes it", 0, made.world.init())


def try_rounding(cases: Cases, made: Made) -> None:
    """Ticks of 10 s, by hand; zone 0 is the first on the line."""
    zone, number = made.zone(0), made.numbers[0]
    for begin, end, first, last in ((12_345, 29_999, 1, 3), (10_000, 20_000, 1, 2),
                                    (9_999, 20_001, 0, 3), (15_000, 15_000, 1, 2),
                                    (10_000, 10_000, 1, 2), (-1, 0, -1, 0)):
        made.base({"trains": [train("X", 0, [need(zone, begin, end)])]})
        cases.equal(f"{begin} to {end} ms", {"X": [(number, first, last)]}, made.claims())
    seconds = {"trains": [train("X", 100, [need(zone, -12.5, 7.25)])]}
    made.base(seconds, "--unit", "s")
    cases.equal("in seconds", {"X": [(number, 8, 11)]}, made.claims())
    other = {"trains": [train("X", 0, [need(zone, 0, 10_000)])]}
    other["trains"][0]["start_time"] = "2026-11-29T05:00:00Z"
    made.base(other)
    cases.equal("a start told in another zone", {"X": [(number, 2_160, 2_161)]}, made.claims())
    within = changed(other, lambda plan: plan["trains"][0].update(
        final_output={"spacing_requirements": plan["trains"][0].pop("spacing_requirements")}))
    made.base(within)
    cases.equal("within `final_output`", {"X": [(number, 2_160, 2_161)]}, made.claims())
    updates = [{"zone": zone, "time": 7_000, "is_entry": True},
               {"zone": zone, "time": 4_000, "is_entry": False}]
    headed = changed(other, lambda plan: plan["trains"][0].update(
        zone_updates=updates, spacing_requirements=[need(zone, 0, 30_000)]))
    made.base(headed, "--tick-s", "5")
    cases.equal("when the head enters", 4_321,
                made.world.read("base")["trains"][0]["requirements"][0].get("head"))


def try_sharing(cases: Cases, made: Made) -> None:
    """A tick that two share by rounding alone is the first's, and the report names both."""
    zone, number = made.zone(0), made.numbers[0]
    plan = {"trains": [train("late", 0, [need(zone, 15_000, 30_000)]),
                       train("early", 0, [need(zone, 0, 12_300)])]}
    done = made.base(plan)
    cases.equal("shared tick: status", 0, done.status)
    cases.equal("shared tick", {"early": [(number, 0, 2)], "late": [(number, 2, 3)]},
                made.claims())
    report = made.world.path("report").read_text()
    cases.holds("shared tick: told", f"zone {number} (A 0-700 m) at 00:00:10: early, and late 2.7 s"
                in report, report)
    inside = {"trains": [train("long", 0, [need(zone, 0, 18_000)]),
                         train("short", 0, [need(zone, 18_500, 19_500)])]}
    made.base(inside)
    cases.equal("a train that shares all its ticks", {"long": [(number, 0, 2)]}, made.claims())
    cases.holds("and is left out by name", "Left out" in made.world.path("report").read_text()
                and "  short" in made.world.path("report").read_text())
    far = {"trains": [train("gone", -90_000, [need(zone, 0, 10_000)]),
                      train("far", 300_000, [need(zone, 0, 10_000)]),
                      train("here", 0, [need(zone, 0, 10_000)])]}
    made.base(far)
    cases.equal("only what is within the timetable's time", ["here"], list(made.claims()))


def try_conflicts(cases: Cases, made: Made) -> None:
    """A zone that the plan has twice at once is refused, with names, zone and clock times."""
    zone, number = made.zone(0), made.numbers[0]
    plan = {"trains": [train("IC 7", 3_600, [need(zone, 0, 20_000)]),
                       train("FRET 8", 3_600, [need(zone, 10_500, 40_000)])]}
    done = made.base(plan)
    told = (f"import-plan: {made.world.path('plan')}: zone {number} (A 0-700 m): IC 7 and FRET 8"
            " both have it from 01:00:10 to 01:00:20")
    cases.equal("conflict: status", 2, done.status)
    cases.equal("conflict: told", told, done.err.splitlines()[0])
    cases.holds("conflict: nothing made", not made.world.path("base").exists()
                and not made.world.path("report").exists() and not list(
                    leftovers(made.world.folder)))
    done = made.base(plan, "--keep-conflicts")
    cases.equal("conflict kept: status", 0, done.status)
    cases.equal("conflict kept", {"IC 7": [(number, 360, 362)], "FRET 8": [(number, 362, 364)]},
                made.claims())
    cases.holds("conflict kept: reported", "IC 7 and FRET 8 both have it from 01:00:10 to 01:00:20"
                in made.world.path("report").read_text())
    touching = changed(plan, lambda it: it["trains"][1].update(
        spacing_requirements=[need(zone, 20_000, 40_000)]))
    cases.equal("one that begins as the other ends", 0, made.base(touching).status)
    many = {"trains": [train(f"T{at}", 0, [need(zone, 0, 1_000)]) for at in range(9)]}
    done = made.base(many)
    cases.equal("many conflicts: lines", (21, True), (
        len(done.err.splitlines()), "36, of which 16 are not shown" in done.err.splitlines()[-1]))


def route(zone: str, begin: int, end: int, leave: str) -> dict[str, Any]:
    return {"route": "r", "begin_time": begin, "zones": [
        {"zone": zone, "entry_detector": "D.A.1", "exit_detector": leave, "switches": {},
         "end_time": end}]}


def try_routes(cases: Cases, made: Made) -> None:
    """Routes that are set take zones with switches alone, and two ways through one conflict."""
    plain, switch = made.zone(0), made.zone(2)
    number = made.numbers[2]
    cases.holds("zone 2 has a switch", made.network.zones[2].has_switch)
    one = train("one", 0, [need(switch, 40_000, 60_000)],
                [route(switch, 0, 60_000, "D.1.B1.0"), route(plain, 0, 60_000, "D.A.0")])
    made.base({"trains": [one]})
    cases.equal("a route that is set", {"one": [(number, 0, 6)]}, made.claims())
    for leave, begin, status in (("D.1.B2.0", 50_000, 2), ("D.1.B1.0", 50_000, 0),
                                 ("D.1.B2.0", 60_000, 0)):
        other = train("other", 0, [need(switch, 60_000, 90_000)],
                      [route(switch, begin, 90_000, leave)])
        done = made.base({"trains": [one, other]})
        cases.equal(f"set to {leave} at {begin}", status, done.status)
        if status == 0:
            cases.equal(f"set to {leave} at {begin}: ticks", {number: set(range(9))},
                        made.ticks()[0])
        else:
            cases.holds("two ways: told", "one and other have routes set through it in two ways "
                        "from 00:00:50 to 00:01:00" in done.err, done.err)


def work(name: str, track: str, begin: float, end: float) -> dict[str, Any]:
    return {"obj_id": name, "start_date_time": "2026-11-29T00:01:00+01:00",
            "end_date_time": "2026-11-29T00:02:05+01:00",
            "track_ranges": [{"track": track, "begin": begin, "end": end}]}


def try_works(cases: Cases, made: Made) -> None:
    """Works close each zone of which a part lies on their tracks. Track A has zone 0 to 700.4 m,
    zone 1 to 1800.6 m and zone 2, that of a switch, behind it."""
    zones = made.numbers
    for begin, end, closed in ((100.25, 200.75, [0]), (0, 700.4, [0]), (700.4, 701, [1]),
                               (700.3, 700.5, [0, 1]), (500, 2_900, [0, 1, 2]), (700.4, 700.4,
                                                                                 [0, 1])):
        made.base({"work_schedules": [work("w", "A", begin, end)]})
        cases.equal(f"works from {begin} to {end}",
                    {"works w": [(zones[at], 6, 13) for at in sorted(closed)]}, made.claims())
    two = {"work_schedules": [work("w", "A", 0, 10), work("v", "A", 5, 20)]}
    cases.equal("two works in one zone", 0, made.base(two).status)
    both = {"work_schedules": [work("w", "A", 0, 10)],
            "trains": [train("X", 0, [need(made.zone(0), 100_000, 200_000)])]}
    done = made.base(both)
    cases.holds("a train through works", done.status == 2 and "X and works w" in done.err
                or "works w and X both have it from 00:01:40 to 00:02:05" in done.err, done.err)
    made.base({"work_schedules": [work("w", "Z", 0, 10), work("v", "A", 5, 20)]})
    cases.holds("a track that is not there", "  works w: Z"
                in made.world.path("report").read_text())
    strange = train("X", 0, [need("zone.[D.Z.0:INCREASING, D.Z.1:DECREASING]", 0, 10),
                             need("zone.[D.A.0:DECREASING, D.B.0:INCREASING]", 0, 10)])
    made.base({"trains": [strange]})
    report = made.world.path("report").read_text()
    cases.holds("a zone that is not there", "X: zone.[D.Z.0:INCREASING" in report, report)
    second = next(at for at, zone in enumerate(made.network.zones)
                  if "D.B.0:INCREASING" in zone.name)
    cases.equal("a zone in two parts takes both", sorted([zones[0], zones[second]]),
                [zone for zone, _, _ in made.claims()["X"]])


def bad_plans(made: Made) -> list[tuple[str, Callable[[Any], object], str]]:
    """What is wrong with a plan, and where this is told."""
    name = made.zone(0)

    def set_train(**fields: object) -> Callable[[Any], object]:
        return lambda plan: plan["trains"][0].update(fields)

    def set_need(**fields: object) -> Callable[[Any], object]:
        return lambda plan: plan["trains"][0]["spacing_requirements"][0].update(fields)

    def set_work(**fields: object) -> Callable[[Any], object]:
        return lambda plan: plan["work_schedules"][0].update(fields)

    first = "trains[0] X: spacing_requirements[0]"
    return [
        ("no name", lambda plan: plan["trains"][0].pop("name"), "trains[0]: has no `name`"),
        ("a long name", set_train(name="x" * 256), "trains[0].name: must have"),
        ("a start, with a name on two lines", set_train(name="X\nY", start_time="soon"),
         "trains[0].start_time: no date and time"),
        ("an empty name", set_train(name=""), "trains[0].name: must have"),
        ("a name that is no text", set_train(name=7), "trains[0].name: is no text"),
        ("no start", set_train(start_time="soon"), "trains[0] X: start_time: no date and time"),
        ("a start without an offset", set_train(start_time="2026-11-29T05:00:00"),
         "trains[0] X: start_time: 2026-11-29T05:00:00 and"),
        ("no requirements", lambda plan: plan["trains"][0].pop("spacing_requirements"),
         "trains[0] X: has no `spacing_requirements`"),
        ("requirements that are no list", set_train(spacing_requirements={}),
         "trains[0] X: spacing_requirements: is no list"),
        ("a train that is no object", lambda plan: plan["trains"].append(3),
         "trains[1]: is no object"),
        ("a zone without a name", set_need(zone="zone 5"), f"{first}.zone: no name such as"),
        ("a zone without ways", set_need(zone="zone.[D.A.0]"), f"{first}.zone: D.A.0 of"),
        ("an end before the begin", set_need(end_time=-1), f"{first}.end_time: is before"),
        ("a begin that is no number", set_need(begin_time="0"),
         f"{first}.begin_time: is no number"),
        ("a begin without bounds", set_need(begin_time=1e300), f"{first}.begin_time: is no time"),
        ("works that end before", set_work(end_date_time="2026-11-28T00:00:00+01:00"),
         "work_schedules[0] w: end_date_time: is before"),
        ("works against the track", set_work(track_ranges=[{"track": "A", "begin": 5, "end": 4}]),
         "work_schedules[0] w: track_ranges[0]: must begin"),
        ("a range without a track", set_work(track_ranges=[{"begin": 5, "end": 6}]),
         "work_schedules[0] w: track_ranges[0]: has no `track`"),
        ("neither trains nor works", lambda plan: plan.clear(), "has neither `trains` nor"),
        ("routes without detectors", set_train(routing_requirements=[
            {"route": "r", "begin_time": 0, "zones": [{"zone": name, "end_time": 5}]}]),
         "trains[0] X: routing_requirements[0].zones[0]: has no `entry_detector`"),
    ]


def refused(cases: Cases, made: Made, name: str, done: Ran, wanted: str) -> None:
    """One line that tells what is wrong, status 2, and nothing written."""
    cases.equal(f"{name}: status", 2, done.status)
    cases.holds(f"{name}: told", done.err.startswith("import-plan: ") and wanted in done.err
                and len(done.err.splitlines()) == 1, done.err)
    cases.holds(f"{name}: nothing written", not made.world.path("base").exists()
                and not made.world.path("report").exists()
                and not list(leftovers(made.world.folder)))


def try_bad_input(cases: Cases, made: Made) -> None:
    plan = {"trains": [train("X", 0, [need(made.zone(0), 0, 10_000)])],
            "work_schedules": [work("w", "C", 5, 20)]}
    cases.equal("the plan that is spoiled below", 0, made.base(plan).status)
    headings = [row for row in made.world.path("report").read_text().splitlines() if row[0] != " "]
    cases.equal("what is written stands under a heading without a count", "Written", headings[-1])
    for name, spoil, wanted in bad_plans(made):
        refused(cases, made, name, made.base(changed(plan, spoil)),
                f"{made.world.path('plan')}: {wanted}")
    for name, text, wanted in (("no JSON", "{", "line 1: no JSON"), ("a list", "[]", "is no JSON"),
                               ("not a number", '{"trains": NaN}', "NaN is no number")):
        refused(cases, made, name, made.base(text), wanted)
    garbage = made.world.write("garbage", '{"x": 1}')
    for option, value, wanted in (("--tick-s", 0, "--tick-s: must be"),
                                  ("--horizon", 17_281, "--horizon: must be"),
                                  ("--table", garbage, "garbage: line 1: no line of a table"),
                                  ("--network", garbage, "no network file that `list` accepts"),
                                  ("--network", made.world.path("x"), "x: No such file"),
                                  ("--network", made.world.path("plan"), "is named twice"),
                                  ("--report", made.world.path("base"), "is named twice"),
                                  ("--report", made.world.path("no/report"), "not written")):
        refused(cases, made, f"{option} {value}", made.base(plan, option, value), wanted)
    import_plan.MOST_CLAIMS = 1
    refused(cases, made, "too many claims", made.base(plan), "2 claims, and the server reads at")
    import_plan.MOST_CLAIMS = 262_144
    words = [sys.executable, REPOSITORY / "kidrofemba", "import-plan", "base", "x", "y"]
    done = subprocess.run(words, capture_output=True, text=True)
    cases.holds("words that are wrong", done.returncode == 2 and "usage" in done.stderr)


def stock_train(made: Made, stock: Any) -> tuple[Ran, dict[str, Any]]:
    """The train that is made of a rolling stock."""
    made.world.path("made").unlink(missing_ok=True)
    done = run(import_plan, "trains", made.world.path("made"),
               made.world.write("stock", stock), "--allowance", 7)
    trains = made.world.read("made")["trains"] if done.status == 0 else [{}]
    return done, trains[0]


def try_stock(cases: Cases, made: Made) -> None:
    """Trains by hand: 360 kN on 1,800 t without resistance are 0.2 m/s²."""
    done, told = stock_train(made, STOCK)
    cases.equal("stock", {"name": "freight 1800t", "length_m": 650, "speed": 25_000, "accel": 200,
                          "brake": 500, "allowance": 7}, told)
    cases.holds("stock: what is not kept", "startup_time is not kept" in done.out, done.out)

    def stock(**fields: object) -> dict[str, Any]:
        return stock_train(made, STOCK | fields)[1]

    cases.equal("with inertia", 160, stock(inertia_coefficient=1.25)["accel"])
    cases.equal("comfort is the most", 150, stock(comfort_acceleration=0.15)["accel"])
    cases.equal("no curve", 250, stock(effort_curves=None)["accel"])
    cases.equal("braking told with a minus", 650, stock(
        const_gamma=None, gamma={"type": "CONST", "value": -0.65})["brake"])
    # At 10 m/s the resistance is all but the pull: A + B v = 180,000 + 18,000 * 10.
    steep = stock(rolling_resistance={"A": 180_000.0, "B": 18_000.0, "C": 0.0})
    cases.holds("the speed that is reached on level track", 8_900 <= steep["speed"] <= 9_000, steep)
    # Gain 0.2 up to 12.5 m/s and 0.1 behind: 62.5 s and 125 s. 25 m/s take 187.5 s, over
    # 390.625 m + 2343.75 m, so 78.125 s are lost, and 25 / (2 * 78.125) is 0.16 m/s².
    halves = changed(STOCK["effort_curves"], lambda curves: curves["modes"]["25000V"].update(
        default_curve={"speeds": [0, 12.499, 12.5, 40], "max_efforts": [
            360_000, 360_000, 180_000, 180_000]}))
    cases.holds("a pull that halves", 159 <= stock(effort_curves=halves)["accel"] <= 160,
                stock(effort_curves=halves))


def try_bad_stock(cases: Cases, made: Made) -> None:
    curve = "effort_curves.modes.25000V.default_curve"

    def with_curve(**fields: object) -> Callable[[Any], object]:
        return lambda it: it["effort_curves"]["modes"]["25000V"]["default_curve"].update(fields)

    for name, spoil, wanted in (
            ("no length", lambda it: it.pop("length"), "stock: freight 1800t: has no `length`"),
            ("a long train", lambda it: it.update(length=5_000.5), "length: is 5001 m"),
            ("no weight", lambda it: it.update(mass=0), "mass: is 0, and must be more than 0"),
            ("no braking", lambda it: it.pop("const_gamma"), "has no `const_gamma`"),
            ("braking of nothing", lambda it: it.update(const_gamma=0), "by its `const_gamma`"),
            ("a mode that is not there", lambda it: it["effort_curves"].update(default_mode="x"),
             "effort_curves.modes: has no `x`"),
            ("a falling curve", with_curve(speeds=[40, 0]), f"{curve}: needs as many"),
            ("a curve without an effort", with_curve(max_efforts=[1]), f"{curve}: needs as many"),
            ("no pull", with_curve(max_efforts=[0, 0]), "its pull does not move the train"),
            ("a list", lambda it: it.clear(), "has no `name`")):
        done, _ = stock_train(made, changed(STOCK, spoil))
        cases.holds(f"stock, {name}", done.status == 2 and wanted in done.err
                    and not made.world.path("made").exists(), done.err)
    done, _ = stock_train(made, [STOCK, STOCK])
    cases.holds("stock, a name twice",
                "stock: [1] freight 1800t: name: another rolling" in done.err, done.err)


def main() -> int:
    program, cases = program_of(__doc__), Cases()
    with tempfile.TemporaryDirectory() as folder:
        made = Made(World(program, Path(folder)))
        cases.equal("each zone is found once", len(made.network.zones), len(set(made.numbers)))
        for attempt in (try_plans, try_rounding, try_sharing, try_conflicts, try_routes, try_works,
                        try_bad_input, try_stock, try_bad_stock):
            attempt(cases, made)
    return cases.end()


if __name__ == "__main__":
    sys.exit(main())
