"""Tests `kidrofemba graph`.

Where lines and blocking times must lie is worked out by hand from the examples: their tracks, runs
and ticks. The picture docs/train_graph.svg must be what the tool draws of examples/ now; where it
ought to change, from the top of the repository

    export stdcm=crates/stdcm/out/stdcm place=$(mktemp -d)
    files="--network examples/corridor.json --base examples/corridor_planned.json"
    files="$files --journal $place/journal"
    $stdcm init $files
    $stdcm serve $files --trains examples/trains.json \\
        --client A=examples/corridor.lines:$place/told
    ./kidrofemba graph $files --program $stdcm --along West East --width 1000 --height 560 \\
        --out docs/train_graph.svg

makes it. Where the machine has a browser, the pages are opened in it, the mouse is moved, and the
texts of pictures are measured.
"""
from __future__ import annotations

import json
import re
import sys
import tempfile
from html.parser import HTMLParser
from pathlib import Path
from typing import Any

from kidrofemba.common import progress
from kidrofemba.graph import train_graph
from tests.browser import Browser, found_browser
from tests.cases import REPOSITORY, Cases, Ran, World, changed, leftovers, program_of, run
from tests.graph_reader import Picture

# A busy machine may take longer than two seconds, and what is told of that is no refusal.
progress.FIRST_S = 3600.0

EXAMPLES = REPOSITORY / "examples"
LINE3_RUNS = "granted 1 entry 0 at 1 runs 3 0 6 21 0 1 21 31 0 2 31 45 1\n"
LINE3_STAIRS = ("  zone     from       to  run\n         0        5       24    0\n"
                "         1        5       38    1\n         2       18       46    2\n")
A1 = "A 1, sold by entry 0"


def example(name: str) -> Any:
    return json.loads((EXAMPLES / name).read_text(encoding="utf-8"))


def base_of(*trains: dict[str, Any], **others: Any) -> dict[str, Any]:
    return example("base.json") | {"trains": list(trains)} | others


def planned(name: str, *needs: tuple[int, ...]) -> dict[str, Any]:
    """A planned train by zone, from, to, and where it is told the tick of its head."""
    return {"name": name, "requirements": [dict(zip(("zone", "from", "to", "head"), need))
                                           for need in needs]}


class Graphs:
    """Draws graphs of a world of its own, and reads them."""

    def __init__(self, program: Path, folder: Path, network: Any, base: Any):
        folder.mkdir()
        self.world = World(program, folder)
        self.world.write("network", network)
        self.world.write("base", base)
        self.world.write("trains", (EXAMPLES / "trains.json").read_text(encoding="utf-8"))
        self.world.list()

    def path(self, name: str) -> Path:
        return self.world.path(name)

    def tool(self, *words: object) -> Ran:
        return run(train_graph, *self.world.files("network", "table", "base"), *words)

    def picture(self, along: list[str], ticks: tuple[int, int], length: int, *words: object
                ) -> Picture:
        """The picture of a line, from one tick to another of ten seconds each."""
        edges = [f"{tick // 360:02}:{tick // 6 % 60:02}:{tick % 6 * 10:02}" for tick in ticks]
        ran = self.tool("--along", *along, "--from", edges[0], "--to", edges[1], "--width", 1500,
                        "--height", 1000, "--out", self.path("out.svg"), *words)
        if ran.status != 0:
            raise SystemExit(f"no picture along {along}: {ran.err}")
        return Picture(self.path("out.svg"), *ticks, length)


# ---- Where things lie


def check_line3(cases: Cases, graphs: Graphs) -> None:
    """A track of 6000 m in three blocks of 2000 m, with W, M and E at 1000, 3000 and 5000 m."""
    replies = f"A={graphs.world.write('replies', LINE3_RUNS)}"
    stairs = f"0={graphs.world.write('stairs', LINE3_STAIRS)}"
    sold = ("--replies", replies, "--stairs", stairs)
    picture = graphs.picture(["W", "E"], (0, 60), 6000, *sold)
    cases.equal("the head's line on line3",
                {A1: [[(6, 0), (21, 2000), (31, 4000), (45, 6000)]]}, picture.heads())
    cases.equal("the blocking times on line3",
                {A1: [(5, 24, 0, 2000), (5, 38, 2000, 4000), (18, 46, 4000, 6000)]},
                picture.steps("own"))
    cases.equal("stations in the order of distance", [1000, 3000, 5000],
                [picture.metre(line[0][1]) for line in picture.lines("station")])
    cases.equal("stations go from edge to edge", {(0, 60)},
                {(picture.tick(line[0][0]).value, picture.tick(line[1][0]).value)
                 for line in picture.lines("station")})
    names = [one.text for one in sorted(picture.labels(), key=lambda it: it.top)
             if one.text in ("W", "M", "E")]
    cases.equal("names of stations from top to bottom", ["W", "M", "E"], names)
    cases.equal("kilometres behind the first station", ["0.0 km", "2.0 km", "4.0 km"],
                [one.text for one in picture.labels() if one.text.endswith(" km")])
    minutes = {one.text: picture.tick((one.left + one.right) / 2) for one in picture.labels()
               if re.fullmatch(r"\d\d:\d\d", one.text)}
    cases.equal("a minute is six ticks", {f"00:{minute:02}": 6 * minute for minute in range(11)},
                minutes)
    over = graphs.picture(["E", "W"], (0, 60), 6000, *sold)
    cases.equal("the line upside down", {A1: [[(6, 6000), (21, 4000), (31, 2000), (45, 0)]]},
                over.heads())
    cases.equal("blocking times upside down",
                {A1: [(5, 24, 4000, 6000), (5, 38, 2000, 4000), (18, 46, 0, 2000)]},
                over.steps("own"))
    part = graphs.picture(["W", "E"], (12, 36), 6000, *sold)
    cases.equal("a line that is cut at the edges",
                {A1: [[(12, 800), (21, 2000), (31, 4000), (36, 4714.29)]]}, part.heads())
    cases.equal("blocking times that are cut at the edges",
                {A1: [(12, 24, 0, 2000), (12, 36, 2000, 4000), (18, 36, 4000, 6000)]},
                part.steps("own"))
    alone = graphs.picture(["W", "E"], (0, 60), 6000, "--replies", replies)
    cases.equal("runs without blocking times", ({A1}, {}), (set(alone.heads()), alone.steps("own")))
    steps = graphs.picture(["W", "E"], (0, 60), 6000, "--stairs", stairs)
    cases.equal("blocking times without runs are estimated", {"sold by entry 0"}, steps.guessed())
    shorter = graphs.picture(["M", "E"], (0, 60), 4000, *sold)
    cases.equal("a line begins where the block of its first point does",
                {A1: [[(21, 0), (31, 2000), (45, 4000)]]}, shorter.heads())
    cases.equal("what lies before the line is left out",
                {A1: [(5, 38, 0, 2000), (18, 46, 2000, 4000)]}, shorter.steps("own"))


def check_replies(cases: Cases, graphs: Graphs) -> None:
    """Which replies tell a path that stands."""
    told = {
        "granted": (LINE3_RUNS, {A1}),
        "kept": (LINE3_RUNS.replace("granted", "kept"), {A1}),
        "shown": ("shown 0 at 3 owner A number 1 runs 3 0 6 21 0 1 21 31 0 2 31 45 1 live\n", {A1}),
        "shown as freed": ("shown 0 at 3 owner A number 1 runs 1 0 6 21 1 freed 2\n", set()),
        "freed later": (LINE3_RUNS + "freed 2 entry 1 of 0 at 2\n", set()),
        "another is freed": (LINE3_RUNS + "freed 2 entry 2 of 1 at 3\n", {A1}),
        "no path": ("no-path 1 at 0\nheld 2 entry 0 at 1\nbad 3\n", set()),
        "a kept hold": ("kept 2 entry 0 at 1 hold 1 5 9\n", set()),
        "an owner called runs": ("shown 0 at 3 owner runs number 1 runs 1 0 6 21 1 live\n",
                                 {"runs 1, sold by entry 0"}),
    }
    for name, (replies, trains) in told.items():
        picture = graphs.picture(["W", "E"], (0, 60), 6000, "--replies",
                                 f"A={graphs.world.write('replies', replies)}")
        cases.equal(f"replies: {name}", trains, set(picture.heads()))


def check_journal(cases: Cases, graphs: Graphs) -> None:
    """A journal with a path, a hold that stands, and one that was freed."""
    graphs.world.init()
    graphs.world.serve("A", ["ask 1 F1 W E 6 6 0 17280 0", "hold 2 1 38 50",
                             "holds 3 works 1 2 50 55", "hold 4 0 30 40", "free 5 3"])
    journal = ("--journal", graphs.path("journal"))
    picture = graphs.picture(["W", "E"], (0, 60), 6000, *journal, "--program",
                             graphs.world.program)
    path = "A 1, train F1, sold by entry 0"
    cases.equal("a journal's path", {path: [[(6, 0), (21, 2000), (31, 4000), (45, 6000)]]},
                picture.heads())
    cases.equal("a journal's blocking times and holds", {
        path: [(5, 24, 0, 2000), (5, 38, 2000, 4000), (18, 46, 4000, 6000)],
        "A 2, held by entry 1": [(38, 50, 2000, 4000)],
        "A 3, held by entry 2: works": [(50, 55, 4000, 6000)]}, picture.steps("own"))
    names = {one.text for one in picture.labels() if one.kind == "name"}
    cases.equal("names of a path and of holds", {"A 1", "A 2", "works"}, names)
    program = run(train_graph, *graphs.world.files("network", "base", "journal"), "--program",
                  graphs.world.program, "--along", "W", "E", "--out", graphs.path("again.svg"))
    cases.equal("without a table the program is asked", (0, ""), (program.status, program.err))
    graphs.world.write("base", base_of(tick_s=20))
    ran = graphs.tool(*journal, "--along", "W", "E", "--out", graphs.path("never.svg"))
    cases.equal("a journal of another base file", 2, ran.status)
    cases.holds("it is named", "journal" in ran.err and "does not belong" in ran.err, ran.err)
    graphs.world.write("base", base_of())


def check_station(cases: Cases, program: Path, folder: Path) -> None:
    """A station of two tracks, TB and TC, between 2000 and 3000 m; planned trains take TB."""
    graphs = Graphs(program, folder / "station", example("station.json"), example("planned.json"))
    told = {"granted 1 entry 0 at 1 runs 3 0 0 22 0 1 22 35 0 3 35 62 1": "A 1, sold by entry 0",
            "granted 2 entry 1 at 2 runs 3 0 170 192 0 2 192 204 1 4 264 290 1":
            "A 2, sold by entry 1"}
    replies = ("--replies", f"A={graphs.world.write('replies', chr(10).join(told))}")
    stairs = LINE3_STAIRS.splitlines()[0] + "\n    0 169 197 0\n    4 169 272 1\n    5 263 291 2\n"
    steps = ("--stairs", f"1={graphs.world.write('stairs', stairs)}")
    picture = graphs.picture(["West", "Mid", "East"], (0, 360), 5000, *replies, *steps)
    heads = picture.heads()
    cases.equal("over the line's own track", [[(0, 0), (22, 1900), (35, 2900), (62, 5000)]],
                heads["A 1, sold by entry 0"])
    cases.equal("over the track beside it, with a stop of 60 ticks",
                [[(170, 0), (192, 1900), (204, 2900), (264, 2900), (290, 5000)]],
                heads["A 2, sold by entry 1"])
    cases.equal("blocking times on the line", [(169, 197, 0, 1900), (263, 291, 3100, 5000)],
                picture.steps("own")["A 2, sold by entry 1"])
    cases.equal("a blocking time beside the line", {"A 2, sold by entry 1": [(169, 272, 2100,
                                                                             2900)]},
                picture.steps("beside"))
    # The middle one of 27, 27, 29, 42 and 47 ticks is 29, of which an eighth is 3.625.
    cases.equal("an estimated line", [[
        (99, 0), (122.375, 1900), (124.375, 2100), (137.375, 2900), (139.375, 3100),
        (159.375, 5000)]], heads["IC 1, planned"])
    cases.equal("planned trains are estimated", {"IC 1, planned", "IC 2, planned"},
                picture.guessed())
    plain = graphs.picture(["West", "East"], (0, 360), 5000, *replies, "--plain-planned")
    cases.equal("planned trains without blocking times",
                ({}, True), (plain.steps("own"), "IC 1, planned" in plain.heads()))
    short = graphs.picture(["West", "Mid"], (0, 360), 2900, *replies)
    cases.equal("a train that leaves the line at its end", [[(0, 0), (22, 1900), (35, 2900)]],
                short.heads()["A 1, sold by entry 0"])
    graphs.world.write("base", base_of(planned("told", (0, 99, 126, 100), (1, 99, 128, 120),
                                               (2, 99, 141, 123), (3, 116, 143, 130)),
                                       planned("off", (5, 300, 310), (3, 300, 310))))
    told_heads = graphs.picture(["West", "Mid"], (0, 360), 2900)
    cases.equal("a line by the ticks at which the head enters zones, and a train that is not here",
                {"told, planned": [[(100, 0), (120, 1900), (123, 2100)]]}, told_heads.heads())
    cases.equal("told ticks are not estimated", set(), told_heads.guessed())


def detour() -> Any:
    """The station with a track TC of 5000 m in place of one beside the line."""
    def lengthen(network: Any) -> None:
        network["track_sections"][2]["length"] = 5000
        next(one for one in network["detectors"] if one["id"] == "DC2")["position"] = 4900
        next(one for one in network["signals"] if one["id"] == "SC")["position"] = 4880
        network["operational_points"][1]["parts"].pop()
    return changed(example("station.json"), lengthen)


def check_detour(cases: Cases, program: Path, folder: Path) -> None:
    """A train that leaves the line at 2000 m and comes back at 3000 m, 5000 m later."""
    graphs = Graphs(program, folder / "detour", detour(), example("base.json"))
    reply = "granted 1 entry 0 at 1 runs 3 0 0 22 0 2 22 72 0 4 72 93 1\n"
    stairs = LINE3_STAIRS.splitlines()[0] + "\n    0 0 25 0\n    4 20 80 1\n    5 70 95 2\n"
    picture = graphs.picture(["West", "Mid", "East"], (0, 120), 5000, "--replies",
                             f"A={graphs.world.write('replies', reply)}", "--stairs",
                             f"0={graphs.world.write('stairs', stairs)}")
    cases.equal("a train that leaves the line and comes back",
                {A1: [[(0, 0), (22, 1900), (23, 2000)], [(73, 3000), (93, 5000)]]},
                picture.heads())
    cases.equal("what it takes off the line is not drawn",
                ({A1: [(0, 25, 0, 1900), (70, 95, 3100, 5000)]}, {}),
                (picture.steps("own"), picture.steps("beside")))


def double_track() -> Any:
    """Two tracks of 2000 m in two parts each, joined in the middle by a track X of 100 m."""
    def place(name: str, track: str, position: int) -> dict[str, Any]:
        return {"id": name, "track": track, "position": position}

    def route(name: str, entry: str, leave: str, direction: str, **ways: str) -> dict[str, Any]:
        return {"id": name, "entry_point": {"type": "BufferStop", "id": entry},
                "entry_point_direction": direction, "switches_directions": ways,
                "exit_point": {"type": "BufferStop", "id": leave}}

    def switch(name: str, **ports: tuple[str, str]) -> dict[str, Any]:
        return {"id": name, "switch_type": "point_switch", "ports": {
            port: {"track": track, "endpoint": end} for port, (track, end) in ports.items()}}

    return {
        "track_sections": [{"id": name, "length": 100 if name == "X" else 1000}
                           for name in ("U0", "U1", "D0", "D1", "X")],
        "switches": [
            switch("su", A=("U0", "END"), B1=("U1", "BEGIN"), B2=("X", "BEGIN")),
            switch("sd", A=("D1", "BEGIN"), B1=("D0", "END"), B2=("X", "END"))],
        "detectors": [place("u0", "U0", 900), place("u1", "U1", 100), place("d0", "D0", 900),
                      place("d1", "D1", 100)],
        "buffer_stops": [place("uw", "U0", 0), place("ue", "U1", 1000), place("dw", "D0", 0),
                         place("de", "D1", 1000)],
        "routes": [route("there", "uw", "ue", "START_TO_STOP", su="A_B1"),
                   route("back", "de", "dw", "STOP_TO_START", sd="A_B1"),
                   route("over", "uw", "de", "START_TO_STOP", su="A_B2", sd="A_B2")],
        "operational_points": [
            {"id": "A", "parts": [{"track": "U0", "position": 200},
                                  {"track": "D0", "position": 200}]},
            {"id": "B", "parts": [{"track": "U1", "position": 800},
                                  {"track": "D1", "position": 800}]}]}


def check_double_track(cases: Cases, program: Path, folder: Path) -> None:
    """A train against the line on the other track, and one that changes over to it at 1000 m."""
    graphs = Graphs(program, folder / "double", double_track(), example("base.json"))
    replies = ("granted 1 entry 0 at 1 runs 1 1 10 30 1\n"
               "granted 2 entry 1 at 2 runs 1 2 0 21 1\n"
               "granted 3 entry 2 at 3 runs 1 0 40 60 1\n")
    picture = graphs.picture(["A", "B"], (0, 60), 2000, "--replies",
                             f"A={graphs.world.write('replies', replies)}")
    cases.equal("on the other track, between what both tracks share",
                [[(12, 1800), (28, 200)]], picture.heads()[A1])
    cases.equal("over the switches to the other track",
                [[(0, 0), (10, 1000), (11, 1000), (19, 1800)]],
                picture.heads()["A 2, sold by entry 1"])
    cases.equal("on the line itself, which is the shorter of two ways that trains take",
                [[(40, 0), (60, 2000)]], picture.heads()["A 3, sold by entry 2"])
    over = graphs.picture(["A", "B"], (0, 60), 2100, "--replies", "A=" + str(
        graphs.world.write("replies", replies.splitlines()[1])))
    cases.equal("the line leads where trains run, though another way is shorter",
                {"A 2, sold by entry 1": [[(0, 0), (21, 2100)]]}, over.heads())
    uneven = changed(double_track(), lambda it: it["operational_points"][1]["parts"][1].update(
        position=700))
    graphs = Graphs(program, folder / "uneven", uneven,
                    base_of(planned("P", (0, 5, 9), (1, 6, 12))))
    picture = graphs.picture(["A", "B"], (0, 60), 2000)
    cases.equal("a zone on both tracks lies where it does on the line",
                {"P, planned": [(5, 9, 0, 900), (6, 12, 900, 1100)]}, picture.steps("own"))


# ---- What is refused


def check_refusals(cases: Cases, graphs: Graphs) -> None:
    """Bad input: a line that names file and place, status 2, and no file."""
    write = graphs.world.write
    table = graphs.path("table").read_text()
    cut = changed(example("line3.json"), lambda it: it["routes"][0].pop("exit_point"))
    away = changed(example("line3.json"), lambda it: it["operational_points"][1].update(
        {"parts": [{"track": "none", "position": 1}]}))
    longer = changed(example("line3.json"), lambda it: (
        it["track_sections"][0].update(length=6500), it["buffer_stops"][1].update(position=6500)))
    faults: list[tuple[str, dict[str, Any], str]] = [
        ("no file", {"network": graphs.path("none")}, "none: No such file"),
        ("a folder", {"base": graphs.path("")}, "Is a directory"),
        ("no JSON", {"network": write("bad1", "{")}, "bad1: line 1: no JSON"),
        ("a list", {"network": write("bad2", [])}, "bad2: is no JSON object"),
        ("no exit", {"network": write("bad3", cut)}, "bad3: routes[0]: has no `exit_point`"),
        ("an unknown track", {"network": write("bad4", away)},
         "bad4: operational_points[1].parts[0].track: no track has the id none"),
        ("another network's table", {"network": write("bad5", longer)},
         "bad5: routes[0]: is 6500 m long, and its blocks in"),
        ("a table that is none", {"table": write("bad6", "nothing\n")}, "bad6: line 1: "),
        ("a table with a cut line", {"table": write("bad7", table[:-20])}, "bad7: line 7: "),
        ("a base file without tick_s", {"base": write("bad8", {"trains": []})}, "bad8: `tick_s`"),
        ("a bad begin", {"base": write("bad9", base_of(begins="noon"))}, "bad9: "),
        ("a zone that is not there", {"base": write("bad10", base_of(planned("P", (3, 1, 2))))},
         "bad10: trains[0].requirements[0].zone: zone 3 is not in"),
        ("an empty span", {"base": write("bad11", base_of(planned("P", (0, 1, 2), (1, 5, 5))))},
         "bad11: trains[0].requirements[1]: has no tick from 5 to 5"),
        ("half a tick", {"base": write("bad12", base_of(planned("P", (0, 1, 2.5))))},
         "bad12: trains[0].requirements[0].to: is no whole number"),
        ("replies that are not there", {"replies": f"A={graphs.path('none')}"}, "none: No such"),
        ("runs over no block", {"replies": "A=" + str(write(
            "bad14", "front at 3\ngranted 1 entry 0 at 1 runs 1 9 6 21 1\n"))},
         "bad14: line 2: block 9 is not in"),
        ("a reply that is cut", {"replies": f"A={write('bad15', LINE3_RUNS[:40])}"},
         "bad15: line 1: has fewer than 3 runs"),
        ("a reply without runs", {"replies": "A=" + str(write(
            "bad16", "granted 1 entry 0 at 1\n"))},
         "bad16: line 1: is no reply in its form"),
        ("runs that go back", {"replies": "A=" + str(write(
            "bad17", "granted 1 entry 0 at 1 runs 2 0 6 21 0 1 20 31 1\n"))},
         "bad17: line 1: the run over block 1"),
        ("a run that ends before it begins", {"replies": "A=" + str(write(
            "bad23", "granted 1 entry 0 at 1 runs 1 0 6 5 1\n"))},
         "bad23: line 1: the run over block 0"),
        ("stairs that are none", {"stairs": f"0={write('bad18', 'zone x')}"}, "bad18: line 1: "),
        ("stairs with a cut line", {"stairs": f"0={write('bad19', LINE3_STAIRS[:-5])}"},
         "bad19: line 4: "),
        ("stairs of a zone that is not there", {"stairs": "0=" + str(write(
            "bad20", LINE3_STAIRS.replace("         2 ", "         7 ")))},
         "bad20: line 4: zone 7 is not in"),
        ("a journal that is none", {"journal": write("bad21", "STDCM")}, "bad21: byte 0: "),
        ("a point that is not there", {"along": ["W", "X"]},
         "network: --along 2: no operational point is X; there are W, M, E\n"),
        ("a point that is not there, of many", {"along": ["W", "X"], "network": write(
            "bad24", changed(example("line3.json"), lambda it: it["operational_points"].extend(
                {"id": f"P{at}", "parts": []} for at in range(9))))},
         "no operational point is X; there are W, M, E, P0, P1, P2, P3, P4, P5, P6 and 2 more\n"),
        ("points that are no chain", {"along": ["W", "E", "M"]},
         "network: --along: no chain of blocks leads by W, E, M"),
        ("a program that is none", {"table": None, "program": graphs.path("none")}, "none: "),
        ("a program that refuses", {"table": None, "program": graphs.world.program,
                                    "network": write("bad22", changed(
                                        example("line3.json"), lambda it: it.pop("routes")))},
         ""),
        ("no clock time", {"from": "25:00"}, "--from: "),
        ("edges the wrong way", {"from": "10:00", "to": "09:00"}, "--to: "),
        ("an output of another kind", {"out": graphs.path("never.png")}, "--out: "),
        ("one point", {"along": ["W"]}, "--along: "),
        ("a picture that is too small", {"width": 10}, "--width"),
        ("no table", {"table": None}, "--table or --program"),
        ("replies without a name", {"replies": "none"}, "--replies: "),
        ("stairs of no entry", {"stairs": "a=b"}, "--stairs: "),
        ("a word too many", {"unknown": "1"}, "unrecognized arguments"),
        ("a folder that is not there", {"out": graphs.path("none") / "out.svg"}, "out.svg: "),
    ]
    for name, words, wanted in faults:
        told = {"network": graphs.path("network"), "base": graphs.path("base"),
                "table": graphs.path("table"), "along": ["W", "E"],
                "out": graphs.path("never.svg")} | words
        spelled = [word for key, value in told.items() if value is not None for word in
                   (f"--{key}", *(value if isinstance(value, list) else [value]))]
        ran = run(train_graph, *spelled)
        one_line = ran.err.startswith("graph: ") and ran.err.count("\n") == 1
        cases.holds(f"refused: {name}", (ran.status, one_line) == (2, True) and wanted in ran.err,
                    f"{ran}")
        cases.holds(f"nothing is written: {name}", not list(graphs.path("").glob("never*"))
                    and not list(leftovers(graphs.path(""))))


# ---- What pictures look like


def check_legend(cases: Cases, graphs: Graphs) -> None:
    """The legend has what is drawn, and nothing else."""
    told = planned("told", (0, 10, 20, 12), (1, 14, 30, 18))
    estimated = planned("estimated", (0, 40, 50), (1, 44, 60))
    guessed = "planned, head estimated from blocking times"
    sold = ("--replies", f"A={graphs.world.write('replies', LINE3_RUNS)}")
    steps = ("--stairs", f"0={graphs.world.write('stairs', LINE3_STAIRS)}")
    rows: list[tuple[str, list[Any], tuple[int, int], tuple[str, ...], list[str]]] = [
        ("heads that are told", [told], (0, 60), (), ["planned", "blocking time"]),
        ("heads that are estimated", [estimated], (0, 60), (), [guessed, "blocking time"]),
        ("both", [told, estimated], (0, 60), (), ["planned", guessed, "blocking time"]),
        ("one before the left edge", [told, estimated], (36, 60), (), [guessed, "blocking time"]),
        ("blocking times that are not wanted", [told], (0, 60), ("--plain-planned",), ["planned"]),
        ("blocking times alone", [planned("works", (1, 10, 20))], (0, 60), (),
         ["planned, blocking times alone"]),
        ("sold", [], (0, 60), (*sold, *steps), ["sold, in colours", "blocking time"]),
        ("sold without blocking times", [], (0, 60), sold, ["sold, in colours"]),
        ("sold without runs", [], (0, 60), steps,
         ["sold, in colours, head estimated from blocking times", "blocking time"]),
    ]
    for name, trains, ticks, words, wanted in rows:
        graphs.world.write("base", base_of(*trains))
        picture = graphs.picture(["W", "E"], ticks, 6000, *words)
        frame = next(one for one in picture.root.iter() if one.get("id") == "frame")
        below = float(frame.attrib["y"]) + float(frame.attrib["height"]) + 24
        got = [one.text for one in picture.labels() if one.top > below]
        cases.equal(f"legend: {name}", wanted, got)
    graphs.world.write("base", base_of())


def crowded_line() -> Any:
    """A track of 30 km with 26 stations, some of them 40 m apart, and long names."""
    names = ["Saint-Rambert-d'Albon – voie de garage", "Ö",
             "Villefranche-sur-Saône <Nord> & \"Sud\"", "駅前 東", "WWWWWW MMMMMM", "iiii"]
    places = sorted([300 + 1171 * at for at in range(25)] + [15040])
    bounds = range(0, 30_001, 1500)
    return {
        "track_sections": [{"id": "T", "length": 30_000}],
        "detectors": [{"id": f"d{at}", "track": "T", "position": at} for at in bounds[1:-1]],
        "buffer_stops": [{"id": "w", "track": "T", "position": 0},
                         {"id": "e", "track": "T", "position": 30_000}],
        "signals": [{"id": f"s{at}", "track": "T", "position": at, "direction": "START_TO_STOP",
                     "sight_distance": 400, "logical_signals": [{"signaling_system": "BAL"}]}
                    for at in bounds[1:-1]],
        "routes": [{"id": "r", "entry_point": {"type": "BufferStop", "id": "w"},
                    "entry_point_direction": "START_TO_STOP",
                    "exit_point": {"type": "BufferStop", "id": "e"}}],
        "operational_points": [{"id": f"{names[at % 6]} {at}",
                                "parts": [{"track": "T", "position": position}]}
                               for at, position in enumerate(places)]}


def full_day() -> Any:
    """Forty trains over a day on the corridor of the examples, and a date."""
    pattern = example("corridor_planned.json")["trains"][0]["requirements"]
    return base_of(*(planned(f"IC {2001 + at}", *((
        need["zone"], need["from"] + 210 * at, need["to"] + 210 * at) for need in pattern))
        for at in range(40)), begins="2026-11-29T00:00:00+01:00")


def pictures_to_measure(cases: Cases, program: Path, folder: Path) -> list[Path]:
    """Pictures of several kinds and sizes, of which each must tell all its names."""
    day = Graphs(program, folder / "day", example("corridor.json"), full_day())
    crowd = Graphs(program, folder / "crowd", crowded_line(), base_of(
        *(planned(f"<Train> & „{at}“", *((zone, 100 * at + 20 * zone, 100 * at + 20 * zone + 60)
                                         for zone in range(20))) for at in range(6)),
        planned("works", (3, 40, 90))))
    stations = [one["id"] for one in crowded_line()["operational_points"]]
    made = []
    for name, graphs, along, words in (
            ("a day", day, ["West", "East"], ("--to", "00:00+1d", "--from", "00:00")),
            ("two days", day, ["West", "East"], ("--to", "00:00+2d", "--from", "18:00")),
            ("a small one", day, ["West", "East"], ("--width", 480, "--height", 320, "--from",
                                                    "23:30", "--to", "02:00+1d")),
            ("seconds", day, ["Station%200", "Station 1"], ("--from", "00:20:05", "--to",
                                                          "00:21:00")),
            ("crowded stations", crowd, [stations[0], stations[-1]], ()),
            ("crowded and small", crowd, [stations[-1], stations[0]], ("--width", 480,
                                                                       "--height", 320))):
        out = graphs.path(name.replace(" ", "_") + ".svg")
        ran = graphs.tool("--along", *along, "--out", out, *words)
        cases.equal(f"{name} is drawn", 0, ran.status)
        made.append(out)
    return made


def check_labels(cases: Cases, pictures: list[Path]) -> None:
    """No label over another one or beyond the edges."""
    for file in pictures:
        picture = Picture(file)
        cases.equal(f"labels of {file.stem}", [], picture.faults_of_labels())
        cases.holds(f"{file.stem} has labels", len(picture.labels()) > 10)
    names = [one.text for one in Picture(pictures[0]).labels() if one.kind == "name"]
    cases.equal("each of forty trains is named", [f"IC {2001 + at}" for at in range(40)],
                sorted(names))
    days = [one.text for one in Picture(pictures[1]).labels() if re.fullmatch(r"\d\d\.\d\d\.",
                                                                              one.text)]
    cases.equal("days begin at midnight", ["30.11.", "01.12."], days)
    stations = {one["id"] for one in crowded_line()["operational_points"]}
    crowd = [one.text for one in Picture(pictures[4]).labels()]
    cases.equal("each of 26 stations is named", stations, stations & set(crowd))


def contrast(colour: str, ground: str) -> float:
    """How much lighter one colour is than another, as the Web Content Accessibility Guidelines
    reckon it: 1 to 21, where 4.5 is wanted of texts."""
    def light(code: str) -> float:
        parts = [int(code[at:at + 2], 16) / 255 for at in (1, 3, 5)]
        linear = [one / 12.92 if one <= 0.04045 else ((one + 0.055) / 1.055) ** 2.4
                  for one in parts]
        return sum(weight * one for weight, one in zip((0.2126, 0.7152, 0.0722), linear))
    both = sorted((light(colour), light(ground)))
    return (both[1] + 0.05) / (both[0] + 0.05)


def check_colours(cases: Cases, picture: Path) -> None:
    """Texts and lines can be read on the light ground and on the dark one."""
    style = picture.read_text(encoding="utf-8").split("<style>")[1].split("</style>")[0]
    light, _, dark = style.partition("@media (prefers-color-scheme:dark){")
    for name, part in (("light", light), ("dark", dark)):
        ground = re.search(r"\.ground\{fill:(#\w{6})", part)[1]
        read = dict(re.findall(r"(\.(?:s\d|planned|held))\{color:(#\w{6})", part))
        read |= dict(re.findall(r"(text|\.faint)\{[^}]*fill:(#\w{6})", part))
        cases.equal(f"colours that are read on {name} ground", 11, len(read))
        for kind, colour in read.items():
            cases.holds(f"{kind} on {name} ground", contrast(colour, ground) >= 4.5,
                        f"{colour} on {ground}")


# ---- Pages


class Links(HTMLParser):
    """Collects what a page could load, and the texts of its scripts."""

    def __init__(self) -> None:
        super().__init__()
        self.links: list[str] = []
        self.scripts: list[str] = []
        self.is_script = False

    def handle_starttag(self, tag: str, attrs: list[tuple[str, str | None]]) -> None:
        self.is_script = tag == "script"
        self.scripts += [""] if self.is_script else []
        self.links += [f"{tag} {key}={value}" for key, value in attrs
                       if key in ("src", "href", "data", "srcset", "action", "poster")]

    def handle_endtag(self, tag: str) -> None:
        self.is_script = False

    def handle_data(self, data: str) -> None:
        if self.is_script:
            self.scripts[-1] += data


def check_page(cases: Cases, graphs: Graphs) -> Path:
    """A page has its data, and loads nothing."""
    evil = "</script><img src=http://example.org/x onerror=alert(1)>"
    graphs.world.write("base", base_of(planned(evil, (0, 100, 110), (1, 104, 120))))
    out = graphs.path("page.html")
    ran = graphs.tool("--along", "W", "E", "--from", "00:00", "--to", "00:10", "--replies",
                      f"A={graphs.world.write('replies', LINE3_RUNS)}", "--stairs",
                      f"0={graphs.world.write('stairs', LINE3_STAIRS)}", "--out", out)
    graphs.world.write("base", base_of())
    cases.equal("a page is made", 0, ran.status)
    text = out.read_text(encoding="utf-8")
    links = Links()
    links.feed(text)
    cases.equal("a page loads nothing", [], links.links)
    cases.equal("a page names no address", [], re.findall(r"url\(|@import|\bimport\(|fetch\(|"
                                                          r"XMLHttp|WebSocket", text))
    cases.equal("a page has its data and its script", 2, len(links.scripts))
    data = json.loads(links.scripts[0])
    cases.equal("names are data", evil, data["trains"][0]["name"])
    cases.equal("a page's train", {
        "name": "A 1", "about": A1, "kind": "sold", "colour": "s0", "guess": False,
        "pieces": [[6, 0, 21, 2000, 31, 4000, 45, 6000]],
        "steps": [[0, 5, 24, 0, 2000, 0], [1, 5, 38, 2000, 4000, 0], [2, 18, 46, 4000, 6000, 0]]},
        data["trains"][1])
    cases.equal("a page's legend", [
        ["planned", "guess", "planned, head estimated from blocking times"],
        ["s0", "line", "sold, in colours"], ["s0", "own", "blocking time"]], data["legend"])
    cases.equal("a page's stations", [["W", 1000], ["M", 3000], ["E", 5000]], data["stations"])
    cases.equal("a page's zones", {"0": "T 0-2000", "1": "T 2000-4000", "2": "T 4000-6000"},
                data["zones"])
    return out


def check_in_browser(cases: Cases, browser: str, page: Path, pictures: list[Path]) -> None:
    """The page under a hand, at two sizes, and the texts of pictures as the browser sets them."""
    with Browser(browser) as shown:
        for width, height, is_dark in ((1400, 900, False), (600, 480, True)):
            shown.be(width, height, is_dark)
            shown.open(page)
            name = f"page at {width} x {height}"
            check_hand(cases, shown, name)
            cases.equal(f"{name}: nothing beyond its edges", [], shown.value(
                "[...document.querySelectorAll('h1, label, button, footer span')].filter(one => "
                "{ const box = one.getBoundingClientRect(); return box.left < 0 || box.right > "
                "innerWidth + 1 || box.bottom > innerHeight + 1; }).map(one => one.textContent)"))
            cases.equal(f"{name}: its ground", "#16181c" if is_dark else "#ffffff",
                        shown.value("colours.ground"))
        for file in pictures:
            shown.open(file)
            cases.equal(f"labels of {file.stem} as a browser sets them", [],
                        shown.value(FAULTS_OF_LABELS))


FAULTS_OF_LABELS = """(() => {
  const svg = document.documentElement, faults = [];
  const boxes = [...svg.querySelectorAll("text")].map(one => [one.firstChild.data, one.getBBox()]);
  boxes.forEach(([text, box], at) => {
    if (box.x < 0 || box.y < 0 || box.x + box.width > svg.viewBox.baseVal.width
      || box.y + box.height > svg.viewBox.baseVal.height) faults.push(text + " beyond the edge");
    for (const [other, its] of boxes.slice(at + 1)) {
      if (box.x < its.x + its.width - 0.5 && its.x < box.x + box.width - 0.5
        && box.y + 2 < its.y + its.height - 2 && its.y + 2 < box.y + box.height - 2)
        faults.push(text + " over " + other);
    }
  });
  return faults;
})()"""


def check_hand(cases: Cases, shown: Browser, name: str) -> None:
    """What the page tells where the head is at 2800 m at tick 25, and how it is zoomed and moved
    there. A hand points at whole pixels."""
    top = shown.value("canvas.getBoundingClientRect().top")
    x, y = (round(one) for one in shown.value(f"[x(25), y(2800) + {top}]"))
    shown.mouse("mouseMoved", x, y)
    told = shown.value("tip.hidden ? '' : tip.textContent")
    for wanted in ("A 1, sold by entry 0", "head 00:04:", " at 1.8 km", "W – M",
                   "zone 1 (T 2000-4000): 00:00:50 to 00:06:20"):
        cases.holds(f"{name}: the pointer tells {wanted}", wanted in told, told)
    seconds = int((re.search(r"head 00:04:(\d\d)", told) or ["", "99"])[1])
    cases.holds(f"{name}: the head is there at 00:04:10", abs(seconds - 10) <= 2, told)
    before = shown.value("[view.low, view.high, view.top, view.bottom]")
    tick, metre = shown.value(f"[tickAt({x}), metreAt({y} - {top})]")
    shown.mouse("mouseWheel", x, y, deltaX=0, deltaY=-240)
    after = shown.value("[view.low, view.high, view.top, view.bottom]")
    cases.holds(f"{name}: the wheel shows less", after[1] - after[0] < before[1] - before[0]
                and after[3] - after[2] < before[3] - before[2], after)
    place = shown.value(f"[x({tick}), y({metre}) + {top}]")
    cases.holds(f"{name}: what is at the pointer stays there",
                abs(place[0] - x) < 0.5 and abs(place[1] - y) < 0.5, f"{place} and {x}, {y}")
    shown.mouse("mousePressed", x, y, button="left", buttons=1, clickCount=1)
    shown.mouse("mouseMoved", x + 20, y + 10, button="left", buttons=1)
    shown.mouse("mouseReleased", x + 20, y + 10, button="left", clickCount=1)
    moved = shown.value(f"[x({tick}), y({metre}) + {top}]")
    cases.holds(f"{name}: a drag moves it", abs(moved[0] - x - 20) < 0.5
                and abs(moved[1] - y - 10) < 0.5, f"{moved} and {x}, {y}")
    shown.value("document.getElementById('first').click()")
    shown.settle()
    cases.equal(f"{name}: the first view again", before,
                shown.value("[view.low, view.high, view.top, view.bottom]"))
    x, y = (round(one) for one in shown.value(f"[x(32), y(2500) + {top}]"))
    shown.mouse("mouseMoved", x, y)
    told = shown.value("tip.textContent")
    cases.holds(f"{name}: within a blocking time the pointer tells it",
                "A 1, sold by entry 0" in told and "head" not in told and "zone 1" in told, told)
    shown.value("document.getElementById('steps').click()")
    shown.mouse("mouseMoved", x, y + 1)
    told = shown.value("tip.textContent")
    cases.holds(f"{name}: blocking times that are not shown are not told", "A 1" not in told, told)


def check_stored_picture(cases: Cases, program: Path, folder: Path) -> None:
    """docs/train_graph.svg is what is drawn of examples/ now."""
    graphs = Graphs(program, folder / "stored", (EXAMPLES / "corridor.json").read_text("utf-8"),
                    (EXAMPLES / "corridor_planned.json").read_text("utf-8"))
    graphs.world.init()
    lines = (EXAMPLES / "corridor.lines").read_text(encoding="utf-8").splitlines()
    replies = graphs.world.serve("A", lines)
    cases.equal("the paths of examples/corridor.lines fit", [
        f"pinned {at + 1} entry {at} at {at + 1}" for at in range(len(lines))], replies)
    out = graphs.path("stored.svg")
    ran = graphs.tool("--program", program, "--journal", graphs.path("journal"), "--along", "West",
                      "East", "--width", 1000, "--height", 560, "--out", out)
    cases.equal("the stored picture is drawn", (0, ""), (ran.status, ran.err))
    stored = REPOSITORY / "docs/train_graph.svg"
    cases.holds("docs/train_graph.svg is not stale", stored.read_bytes() == out.read_bytes(),
                "make it anew as this test's first lines tell")
    cases.holds("docs/train_graph.svg is below 60 KB", stored.stat().st_size < 60_000)
    cases.equal("its labels", [], Picture(stored).faults_of_labels())


def main() -> int:
    program, cases = program_of(__doc__), Cases()
    with tempfile.TemporaryDirectory() as name:
        folder = Path(name)
        graphs = Graphs(program, folder / "line3", example("line3.json"), base_of())
        check_line3(cases, graphs)
        check_replies(cases, graphs)
        check_journal(cases, graphs)
        check_station(cases, program, folder)
        check_detour(cases, program, folder)
        check_double_track(cases, program, folder)
        check_legend(cases, graphs)
        check_refusals(cases, graphs)
        pictures = pictures_to_measure(cases, program, folder)
        check_labels(cases, pictures)
        check_colours(cases, pictures[0])
        page = check_page(cases, graphs)
        check_stored_picture(cases, program, folder)
        browser = found_browser()
        if browser:
            check_in_browser(cases, browser, page, pictures)
        else:
            print("no browser here: pages were not opened, texts not measured by one")
    return cases.end()


if __name__ == "__main__":
    sys.exit(main())
