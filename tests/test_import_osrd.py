"""Tests of the importer of OSRD's exports: rounding, walks, blocks, switches, regions, bad input.

What is wanted comes from paper and pencil, from a walk in real metres of its own, and from the
plain model of `list`; the built program reads what the importer makes.

    PYTHONPATH=python python3 -m tests.test_import_osrd --program crates/stdcm/out/stdcm
"""
from __future__ import annotations

import argparse
import contextlib
import io
import json
import os
import random
import re
import resource
import subprocess
import sys
import tempfile
from collections import Counter
from collections.abc import Callable
from pathlib import Path
from typing import Any

from kidrofemba.common import progress
from kidrofemba.common.companion import Refused
from kidrofemba.osrd import export as osrd_export
from kidrofemba.osrd import import_network
from kidrofemba.osrd.blocks import sides_of
from kidrofemba.osrd.whole_metres import Ruler, spread
from tests import made_exports
from tests.made_exports import BACKWARD, FORWARD, TYPES, Json
from tests.oracles.plain_list import table

REPOSITORY = Path(__file__).resolve().parent.parent


RANDOM_TRACKS = 100_000
RANDOM_CHANGES = 500


class Cases:
    """Counts cases, and prints those that fail; keeps the folder and the program."""

    def __init__(self, program: Path, folder: Path) -> None:
        self.program, self.folder = program, folder
        self.passed = self.failed = 0

    def check(self, name: str, wanted: Any, got: Any) -> None:
        if wanted == got:
            self.passed += 1
            return
        self.failed += 1
        print(f"{name}: {str(got)[:700]}, and wanted was {str(wanted)[:700]}")

    def holds(self, name: str, fact: bool, told: Any = "") -> None:
        self.check(name, True, True if fact else f"false: {told}")


class Imported:
    """What the importer made of an export."""

    def __init__(self, cases: Cases, infra: Json | str, *words: str, listed: bool = True) -> None:
        export, network, report = (cases.folder / name for name in ("e.json", "n.json", "r.txt"))
        text = infra if isinstance(infra, str) else json.dumps(infra)
        export.write_text(text, encoding="utf-8")
        self.told = run_quietly([str(export), str(network), "--report", str(report), *words])
        self.report = report.read_text(encoding="utf-8")
        self.network = json.loads(network.read_text(encoding="utf-8"))
        self.table = table(network)
        if listed:
            done = subprocess.run(
                [cases.program, "list", "--network", network, "--out", "stdout"],
                capture_output=True,
                timeout=120,
            )
            got = done.returncode, done.stdout.decode("ascii"), done.stderr.decode("ascii")
            cases.check("the program's table", (0, self.table, ""), got)

    def objects(self, key: str) -> dict[str, Json]:
        return {one["id"]: one for one in self.network[key]}

    def blocks(self) -> dict[str, str]:
        """Each block's words behind its part, by its route."""
        rows = (line.split(" ", 6) for line in self.table.splitlines() if line.startswith("block "))
        return {row[3]: row[6] for row in rows}

    def zones(self) -> list[str]:
        return [
            line.split(" ", 4)[4] for line in self.table.splitlines() if line.startswith("zone ")
        ]

    def under(self, heading: str) -> list[str]:
        """The lines of the report under the heading that begins so."""
        parts = [part for part in self.report.split("\n\n") if part.startswith(heading)]
        return [line.strip() for part in parts for line in part.splitlines()[2:]]


def run_quietly(words: list[str]) -> str:
    """Runs the importer in this process, and gives what it printed; a refusal is raised."""
    out = io.StringIO()
    with contextlib.redirect_stdout(out), contextlib.redirect_stderr(out):
        import_network.import_network(words)
    return out.getvalue()


# Rounding.


def rounding_by_hand(cases: Cases) -> None:
    rows: dict[str, tuple[list[float], list[int]]] = {
        "each to the nearest, a half up": ([0, 10.4, 11.5, 20.5], [0, 10, 12, 21]),
        "two joints 0.3 m apart": ([0, 3000.1, 3000.4, 5000], [0, 3000, 3001, 5000]),
        "four joints, to both sides": (
            [0, 900.1, 900.2, 900.3, 900.4, 2000],
            [0, 899, 900, 901, 902, 2000],
        ),
        "a track shorter than a metre": ([0, 0.3127], [0, 1]),
        "joints on a track shorter than a metre": ([0, 0.1, 0.2, 0.3], [0, 1, 2, 3]),
        "joints near the begin": ([0, 0.1, 0.4, 100], [0, 1, 2, 100]),
        "joints near the end": ([0, 99.7, 99.9, 100], [0, 99, 100, 101]),
        "exactly a metre apart": ([0, 1.5, 2.5, 3.5], [0, 2, 3, 4]),
    }
    for name, (places, wanted) in rows.items():
        cases.check(name, wanted, spread(places))
    ruler = Ruler(1000.0, [500.0, 500.3])
    cases.check(
        "between marks",
        [0, 250, 499, 500, 500, 501, 501, 1000, 1000],
        [ruler.at(one) for one in (0, 250.2, 499.4, 499.6, 500, 500.3, 500.4, 1000, 1001)],
    )
    cases.check(
        "stretches",
        [(0, 500), (500, 501), (501, 502), (499, 500), (250, 251), (999, 1000)],
        [
            ruler.span(*one)
            for one in (
                (0, 500),
                (500, 500.3),
                (500.31, 500.4),
                (499.7, 500),
                (250.1, 250.2),
                (999.8, 1000),
            )
        ],
    )


def random_tracks(cases: Cases) -> None:
    """No two places of a track are merged or swapped, none is moved without need, and what lies
    between them stays between them."""
    source = random.Random(1)
    merged = swapped = moved = strayed = falling = 0
    for _ in range(RANDOM_TRACKS):
        length = source.choice(
            [source.random() * 3 + 0.01, source.random() * 3000 + 1, float(source.randrange(1, 50))]
        )
        middle = source.random() * length
        marks = [source.random() * length for _ in range(source.randrange(5))]
        marks += [min(length, middle + source.random()) for _ in range(source.randrange(4))]
        ruler = Ruler(length, marks)
        real, made = ruler.marks, ruler.metres
        merged += any(low == high for low, high in zip(made, made[1:])) or made[0] != 0
        swapped += any(low > high for low, high in zip(made, made[1:]))
        if all(high - low >= 1.0 for low, high in zip(real, real[1:])):
            moved += any(abs(a - b) > 0.5000005 for a, b in zip(real, made))
        points = sorted([source.random() * length for _ in range(3)] + real[1:-1])
        places = [ruler.at(point) for point in points]
        falling += places != sorted(places) or any(ruler.at(a) != b for a, b in zip(real, made))
        low, high = ruler.span(points[0], points[-1]) if points[0] < points[-1] else (0, 1)
        strayed += not 0 <= low < high <= made[-1]
    cases.check(
        f"{RANDOM_TRACKS} random tracks",
        (0, 0, 0, 0, 0),
        (merged, swapped, moved, falling, strayed),
    )


# Whole exports.


def whole_metres_change_nothing(cases: Cases) -> None:
    """Of an export in whole metres the zones and blocks are those of the export itself."""
    infra = made_exports.small("double_slip_switch")
    raw = cases.folder / "raw.json"
    raw.write_text(json.dumps(infra))
    wanted = table(raw)
    got = Imported(cases, infra, "--ids")
    zones = [line.split(" ", 4)[4] for line in wanted.splitlines() if line.startswith("zone ")]
    blocks = {line.split(" ", 6)[6] for line in wanted.splitlines() if line.startswith("block ")}
    cases.check("zones of whole metres", zones, got.zones())
    cases.check("blocks of whole metres", blocks, set(got.blocks().values()))
    cases.check("nothing rounded", [], got.under("rounded") + got.under("moved"))


class RealTracks:
    """An export in real metres: how long routes are, and how many zones there are."""

    def __init__(self, infra: Json) -> None:
        self.infra = infra
        own = {
            one["id"]: {
                group: [(pair["src"], pair["dst"]) for pair in pairs]
                for group, pairs in one["groups"].items()
            }
            for one in infra["extended_switch_types"]
        }
        self.types = TYPES | own
        self.length = {one["id"]: one["length"] for one in infra["track_sections"]}
        self.place = {
            one["id"]: (one["track"], one["position"])
            for key in ("detectors", "buffer_stops")
            for one in infra[key]
        }
        self.at_end = {
            (end["track"], end["endpoint"]): (one, port)
            for one in infra["switches"]
            for port, end in one["ports"].items()
        }

    def metres(self, route: Json) -> float:
        """The length of a route."""
        track, here = self.place[route["entry_point"]["id"]]
        last, goal = self.place[route["exit_point"]["id"]]
        way, total = route["entry_point_direction"], 0.0
        while True:
            ahead = goal - here if way == FORWARD else here - goal
            if track == last and ahead >= 0:
                return total + ahead
            total += self.length[track] - here if way == FORWARD else here
            switch, port = self.at_end[track, "END" if way == FORWARD else "BEGIN"]
            group = route["switches_directions"][switch["id"]]
            other = next(
                b if a == port else a
                for a, b in self.types[switch["switch_type"]][group]
                if port in (a, b)
            )
            end = switch["ports"][other]
            track, way = end["track"], FORWARD if end["endpoint"] == "BEGIN" else BACKWARD
            here = 0.0 if way == FORWARD else self.length[track]

    def zones(self) -> int:
        """Pieces between detectors, less one for each port of a switch that joins another piece."""
        joints = {(one["track"], one["position"]) for one in self.infra["detectors"]}
        pieces = len(self.length) + len(joints)
        cut = {track for track, _ in joints}
        group: dict[Any, Any] = {}

        def root(one: Any) -> Any:
            while group.setdefault(one, one) != one:
                one = group[one]
            return one

        joined = 0
        for switch in self.infra["switches"]:
            ends = [
                (end["track"], end["endpoint"] if end["track"] in cut else "both")
                for end in switch["ports"].values()
            ]
            for end in ends[1:]:
                joined += root(end) != root(ends[0])
                group[root(end)] = root(ends[0])
        return pieces - joined


def fractions_keep_what_is_there(cases: Cases) -> None:
    """Zones, routes and lengths of exports with fractions, in whole metres as in real ones."""
    for seed in range(12):
        infra = made_exports.fractions(stations=8 + seed % 4, seed=seed, points=2)
        real = RealTracks(infra)
        systems = ["--systems", "BAL,BAPR"] if seed % 2 else []
        got = Imported(cases, infra, "--tags", "MA100", *systems)
        name = f"made export {seed}"
        cases.check(f"{name}: zones", real.zones(), len(got.zones()))
        cases.check(f"{name}: lost", [], got.under("dropped"))
        cases.check(f"{name}: lengths", [], wrong_lengths(infra, real, got))
        cases.check(f"{name}: following", [], strays(infra, got))
        blocks = [
            (
                one["entry_point"]["id"],
                one["exit_point"]["id"],
                json.dumps(one["switches_directions"]),
            )
            for one in got.network["routes"]
        ]
        cases.check(f"{name}: each block once", len(blocks), len(set(blocks)))


def wrong_lengths(infra: Json, real: RealTracks, got: Imported) -> list[str]:
    """Routes of the export whose blocks together are not as long: within a metre for the route's
    ends and one for each track that it passes.
    """
    length = {name: int(words.split()[1]) for name, words in got.blocks().items()}
    by_entry: dict[tuple[str, str], list[Json]] = {}
    for one in got.network["routes"]:
        by_entry.setdefault((one["entry_point"]["id"], one["entry_point_direction"]), []).append(
            one
        )
    wrong = []
    for route in infra["routes"]:
        metres = real.metres(route)
        slack = 1 + len(route["switches_directions"])
        if not any(
            abs(sum(length[one] for one in names) - metres) <= slack
            for names in chains(by_entry, route)
        ):
            wrong.append(route["id"])
    return wrong


def chains(by_entry: dict[tuple[str, str], list[Json]], route: Json) -> list[list[str]]:
    """The chains of blocks from a route's entry to its exit over its switches alone."""
    goal, switches = route["exit_point"]["id"], set(route["switches_directions"])
    found: list[list[str]] = []
    waiting: list[tuple[str, list[str], list[str]]] = [
        (route["entry_point"]["id"], [route["entry_point_direction"]], [])
    ]
    while waiting:
        at, ways, names = waiting.pop()
        if at == goal and names:
            found.append(names)
            continue
        for one in (one for way in ways for one in by_entry.get((at, way), ())):
            if set(one["switches_directions"]) <= switches and one["id"] not in names:
                waiting.append((one["exit_point"]["id"], [FORWARD, BACKWARD], names + [one["id"]]))
    return found


def strays(infra: Json, got: Imported) -> list[str]:
    """Blocks that begin or end at what the export does not have."""
    known = {one["id"] for key in ("detectors", "buffer_stops") for one in infra[key]}
    return [
        one["id"]
        for one in got.network["routes"]
        if not {one["entry_point"]["id"], one["exit_point"]["id"]} <= known
    ]


def limits_at_joints(cases: Cases) -> None:
    """A limit from a station to the first joint of a line slows no block that ends at this joint;
    read with its fraction of a metre, it would."""
    infra = made_exports.fractions(stations=4, seed=2, points=2)
    limit = next(one for one in infra["speed_sections"] if one["speed_limit"] == 11.11111111111111)
    ends = {(one["track"], one["end"]) for one in limit["track_ranges"]}
    joints = {one["id"] for one in infra["detectors"] if (one["track"], one["position"]) in ends}
    got = Imported(cases, infra, "--systems", "BAL,BAPR")
    raw = cases.folder / "raw.json"
    raw.write_text(json.dumps(got.network | {"speed_sections": infra["speed_sections"]}))
    wanted, slowed = Counter(), Counter()
    exits = {
        one["id"]: one["exit_point"]["id"]
        for one in got.network["routes"]
        if one["entry_point_direction"] == BACKWARD
    }
    for text, count in ((got.table, wanted), (table(raw), slowed)):
        for line in text.splitlines():
            words = line.split(" ")
            if words[0] == "block" and exits.get(words[3]) in joints:
                count[int(words[9])] += 1
    cases.check("blocks up to a joint", Counter({44444: len(joints)}), wanted)
    cases.holds("limits as exported slow some of them", 0 < slowed[11111] <= len(joints), slowed)


def single_slip(cases: Cases) -> None:
    """Over OSRD's single slip lead A1-B1, A2-B2 and A1-B2; the double slip's groups say which."""
    got = Imported(cases, made_exports.small())
    slip = got.objects("switches")["PG0"]
    cases.check("the slip's type", "double_slip_switch", slip["switch_type"])
    cases.check("its ports", ["A1", "A2", "B1", "B2"], sorted(slip["ports"]))
    ways = {
        (
            one["entry_point"]["id"][:2] + one["entry_point"]["id"][2:3],
            one["exit_point"]["id"][:3],
            one["switches_directions"].get("PG0"),
        )
        for one in got.network["routes"]
        if "PG0" in one["switches_directions"]
    }
    cases.check(
        "ways over the slip",
        {
            ("DE1", "DG1", "A1_B1"),
            ("DE1", "DH0", "A1_B2"),
            ("DE2", "DH0", "A2_B2"),
            ("DG1", "DE1", "A1_B1"),
            ("DH0", "DE1", "A1_B2"),
            ("DH0", "DE2", "A2_B2"),
        },
        ways,
    )
    crossing = {
        one["switches_directions"]["PF0"]
        for one in got.network["routes"]
        if "PF0" in one["switches_directions"]
    }
    cases.check("a crossing has one group", {"STATIC"}, crossing)


def shapes(cases: Cases) -> None:
    """Ways of switches as two sides, by hand."""
    cases.check(
        "a fork told from either side",
        [(["L", "R"], ["stem"])],
        sides_of([("L", "stem"), ("stem", "R")]),
    )
    cases.check("two ways", [(["a"], ["b"]), (["c"], ["d"])], sides_of([("d", "c"), ("a", "b")]))
    cases.check("a triangle", None, sides_of([("p", "q"), ("q", "r"), ("r", "p")]))
    cases.check("no way", [], sides_of([]))


# What is odd.


def odd_export(cases: Cases) -> None:
    got = Imported(cases, made_exports.oddities())
    blocks = got.blocks()
    # Worked out by hand: joints at 500 and 500.3 m lie at 500 and 501 m, those at 900.1 to 900.4
    # m at 899 to 902 m; the track of 0.2 m has a joint inside and is 2 m long. Limits that end at
    # 500.3 m and, but for the last digit, at 1200 m slow no block behind; one that goes on for
    # 0.3 m neither.
    serves = "serves 1 %E6%9D%B1%E4%BA%AC"
    wanted = {
        "rt.stop%20w->at%20stop": "length 1 speed 44444 sight 0 cells 1 0 1 serves 0",
        "rt.before%20link->in%20tiny": "length 1 speed 44444 sight 400 cells 1 2 1 serves 0",
        "rt.in%20tiny->j1": "length 501 speed 11100 sight 400 cells 1 3 501 serves 0",
        "rt.j1->j2": "length 1 speed 11100 sight 400 cells 1 4 1 serves 0",
        "rt.j2->k1": "length 398 speed 44444 sight 400 cells 1 5 398 serves 0",
        "rt.k1->twin%201": "length 301 speed 12200 sight 400 cells 4 6 3 7 3 8 3 9 301 serves 0",
        "rt.twin%201->home": "length 750 speed 44444 sight 400 cells 1 10 750 serves 0",
        "rt.home->P1%20in": "length 102 speed 13300 sight 400 cells 1 11 102 serves 0",
        "rt.P1%20in->P1%20out": f"length 700 speed 44444 sight 78 cells 1 12 700 {serves}",
        "rt.P2%20in->P2%20out": f"length 699 speed 5500 sight 78 cells 1 14 699 {serves}",
    }
    for name, words in wanted.items():
        cases.check(f"odd block {name}", words, blocks.get(name))
    switches = {name: one["switch_type"] for name, one in got.objects("switches").items()}
    cases.check(
        "odd switches",
        {
            "l1": "link",
            "l2": "link",
            "fork": "point_switch",
            "slip": "double_slip_switch",
            "cross": "crossing",
        },
        switches,
    )
    cases.check(
        "what cannot be had",
        ["switch triple of type three ways", "switch wye of type triangle"],
        got.under("dropped switches"),
    )
    cases.check(
        "names of stations",
        [
            "Gen\u00e8ve Cornavin",
            "Geneve_Cornavin/BV",
            "\u6771\u4eac",
            "East_100_/BV",
            "nowhere/BV",
            "lost/BV",
        ],
        list(got.objects("operational_points")),
    )
    twin = got.objects("detectors")["twin 1"]
    cases.check("twins", (1200, 1200, ["twin 2"]), (twin["position"], twin["real"], twin["also"]))
    told = {
        "signals moved": 2,
        "left out: signals of other": 3,
        "one joint": 1,
        "moved from where": 3,
        "moved to the end": 1,
        "release detectors": 2,
        "limits that no longer": 1,
        "dropped limits": 4,
        "NOT KEPT": 2,
        "operational points to which": 2,
        "moved by more": 6,
        "blocks that several": 7,
        "switches of another type": 3,
    }
    for heading, count in told.items():
        cases.check(f"report, {heading}", count, len(got.under(heading)))
    ids = Imported(
        cases, made_exports.oddities(), "--ids", "--tags", "E32C", "--systems", "BAL,BAPR"
    )
    cases.check(
        "ids are kept",
        [one["id"] for one in made_exports.oddities()["operational_points"]],
        list(ids.objects("operational_points")),
    )
    limits = {name: one["speed_limit"] for name, one in ids.objects("speed_sections").items()}
    cases.check(
        "limits of a tag",
        {
            "line": 20.0,
            "tags only": 3.0,
            "to joint": 11.1,
            "from joint": 12.2,
            "past joint": 13.3,
            "short": 5.5,
            "fast": 200.0,
        },
        limits,
    )
    cases.check("distant signals", ["signal s home distant"], ids.under("left out: distant"))
    # With BAPR a signal at 1500 m, whose joint is that of the home signal at 1930.5 m.
    cases.check(
        "the farther signal",
        True,
        any("s bapr" in one for one in ids.under("left out: signals farther")),
    )


def other_systems(cases: Cases) -> None:
    """Signals that end no block are counted by their systems, and names in another case told."""
    infra = made_exports.small()
    logics: list[Any] = [[], None, [{"signaling_system": "bal"}], [{"signaling_system": "BAPR"}],
                         [{"signaling_system": "BAPR"}], [{"signaling_system": "BAPR"}],
                         [{"signaling_system": "TVM"}, {"signaling_system": "BAPR"}]]
    for signal, logic in zip(infra["signals"], logics):
        signal["logical_signals"] = logic
    del infra["signals"][7]["logical_signals"]
    got = Imported(cases, infra)
    wanted = "left out: signals of other systems: 8 (BAPR 3, none 3, bal 1, TVM and BAPR 1)"
    in_case = "LOOK: signals of systems that differ from a chosen one in case only: 1 (bal 1)"
    for heading in (wanted, in_case):
        cases.holds(f"printed: {heading}", heading in got.told.splitlines(), got.told)
        cases.holds(f"in the report: {heading}", heading in got.report.splitlines(), got.report)
    cases.check("the signal in another case", [f"signal {infra['signals'][2]['id']} of bal"],
                got.under("LOOK"))
    both = Imported(cases, infra, "--systems", "BAL,bal")
    cases.holds("both are chosen", "LOOK" not in both.told, both.told)


def renamed(cases: Cases) -> None:
    """The names that later versions may have are read as those of now."""
    text = json.dumps(made_exports.oddities())
    for old, new in (
        ("switches_directions", "track_nodes_directions"),
        ("switch_type", "node_type"),
        ("extended_switch_types", "extended_track_node_types"),
        ('"switches"', '"track_nodes"'),
    ):
        text = text.replace(old, new)
    text = text.replace("extended_node_types", "extended_track_node_types")
    cases.check(
        "later names",
        Imported(cases, made_exports.oddities(), listed=False).table,
        Imported(cases, text, listed=False).table,
    )


def pieces(cases: Cases) -> None:
    """However the file is cut in pieces when it is read, the same comes of it."""
    infra = json.dumps(made_exports.oddities(), ensure_ascii=False, indent=1)
    whole = Imported(cases, infra, listed=False)
    kept = osrd_export.PIECE
    try:
        for size in (1, 7, 64, 1000):
            osrd_export.PIECE = size
            cut = Imported(cases, "\ufeff" + infra, listed=False)
            cases.check(
                f"read by {size} bytes", (whole.network, whole.report), (cut.network, cut.report)
            )
    finally:
        osrd_export.PIECE = kept


def region(cases: Cases) -> None:
    """--lines keeps the blocks on these lines, and the switches as far as they are there."""
    infra = made_exports.fractions(stations=8, seed=3, points=2)
    other = {f"L4V{number}s1" for number in (1, 2)} | {"W6V1"}
    rest = set()
    for one in infra["track_sections"]:
        if one["extensions"]["source"]["id"] in other:
            one["extensions"]["sncf"]["line_code"] = "999"
            rest.add(one["id"])
    whole, part = Imported(cases, infra), Imported(cases, infra, "--lines", "571000")
    tracks = {
        one["id"]
        for one in infra["track_sections"]
        if one["extensions"]["sncf"]["line_code"] == 571000
    }
    cases.check("tracks of the line", tracks, set(part.objects("track_sections")))
    cases.check("its switches", {"link"}, {one["switch_type"] for one in part.network["switches"]})
    both = Imported(cases, infra, "--lines", "571000, 570000")
    on = {name: stretch_tracks(whole, one) for name, one in whole.objects("routes").items()}
    inside = {name for name, passed in on.items() if not passed & rest}
    cases.check("blocks of both lines", inside, set(both.objects("routes")))
    leaving = [line for line in both.under("left out: what lies") if line.startswith("block ")]
    wanted = sum(bool(passed & rest) and bool(passed - rest) for passed in on.values())
    cases.check("blocks that lead out", wanted, len(leaving))
    cases.holds("some lead out, and some stay", 0 < wanted < len(inside), wanted)
    # At the edge of the lines a fork of which one way is left is a link.
    edge = {one["extensions"]["sncf"]["label"]: one["id"] for one in infra["switches"]}["w61"]
    cases.check("a switch outside", False, edge in both.objects("switches"))
    cut = next(one["id"] for one in infra["switches"]
               if "xa6" in one["extensions"]["sncf"]["label"])
    cases.check("a switch at the edge", "link", both.objects("switches")[cut]["switch_type"])


def stretch_tracks(got: Imported, route: Json) -> set[str]:
    """The tracks of a block: those of the zones that it passes, as far as its ports tell."""
    place = {
        one["id"]: one["track"] for key in ("detectors", "buffer_stops") for one in got.network[key]
    }
    tracks = {place[route["entry_point"]["id"]], place[route["exit_point"]["id"]]}
    for switch, group in route["switches_directions"].items():
        ports = got.objects("switches")[switch]["ports"]
        for port in group.split("_") if group != "STATIC" else ports:
            tracks.add(ports[port]["track"])
    return tracks


# Bad input.


def changed(change: Callable[[Json], Any]) -> str:
    infra = made_exports.oddities()
    change(infra)
    return json.dumps(infra)


def set_field(key: str, index: int, *path: Any, to: Any = None) -> str:
    """The odd export with one field changed, or without it where it is changed to nothing."""
    infra = made_exports.oddities()
    place: Any = infra[key][index]
    for name in path[:-1]:
        place = place[name]
    if to is None:
        del place[path[-1]]
    else:
        place[path[-1]] = to
    return json.dumps(infra)


def bad_exports() -> dict[str, tuple[str | bytes, str]]:
    """Bad files by their names, each with how the refusal goes on behind the file's name."""
    whole = json.dumps(made_exports.oddities())
    return {
        "nothing": ("", "line 1, character 1: no JSON: the file is no JSON object"),
        "a list": ("[]", "line 1, character 1: no JSON: the file is no JSON object"),
        "cut off": (whole[:5000], "line 1, character "),
        "cut in a text": (whole[: whole.index("Cornavin") + 3], "line 1, character "),
        "no comma": ('{"a":1 "b":2}', "line 1, character 8: no JSON: a comma or } is missing"),
        "no colon": ('{\n"a" 1}', "line 2, character 5: no JSON: a colon is missing behind a key"),
        "a number as key": ("{1:2}", "line 1, character 3: no JSON: a key is no text"),
        "more behind": ('{"track_sections":[]} x', "line 1, character 23: no JSON: more text"),
        "no value": (
            '{"track_sections":[{"id":}]}',
            "line 1, character 26: no JSON: Expecting value",
        ),
        "too deep": ('{"x":' + "[" * 100_000, "line 1, character 7: no JSON: nested too deeply"),
        "digits": (
            '{"x":' + "1" * 5000 + "}",
            "line 1, character 6: no JSON: a number of too many",
        ),
        "no UTF-8": (b'{"track_sections":[{"id":"\xff\xfe"}]}', "byte 26: is no UTF-8"),
        "no infrastructure": (
            '{"type":"FeatureCollection","features":[]}',
            "track_sections: no track is there",
        ),
        "a list that is none": ('{"detectors":{"a":1}}', "detectors: is an object, not a list"),
        "an element that is none": (
            changed(lambda one: one["signals"].insert(0, 5)),
            "signals[0]: is a number, not an object",
        ),
        "a length missing": (
            set_field("track_sections", 1, "length"),
            "track_sections[1].length of tiny: is missing",
        ),
        "a length of 0": (
            set_field("track_sections", 1, "length", to=0.0),
            "track_sections[1].length of tiny: is 0.0, not above 0",
        ),
        "a length as text": (
            set_field("track_sections", 1, "length", to="0.2"),
            "track_sections[1].length of tiny: is a text, not a number",
        ),
        "no number": (
            set_field("track_sections", 1, "length", to=float("nan")),
            "track_sections[1].length of tiny: is nan, which is no length or speed",
        ),
        "endless": (
            set_field("detectors", 2, "position", to=float("inf")),
            "detectors[2].position of in tiny: is inf, which is no length or speed",
        ),
        "before the begin": (
            set_field("detectors", 2, "position", to=-0.25),
            "detectors[2].position of in tiny: is -0.25, before the begin",
        ),
        "beyond the end": (
            set_field("detectors", 2, "position", to=1.7),
            "detectors[2].position of in tiny: is 1.7, beyond the end of its track",
        ),
        "an id missing": (set_field("detectors", 2, "id"), "detectors[2].id: is missing"),
        "an empty id": (set_field("detectors", 2, "id", to=""), "detectors[2].id: has 0 bytes"),
        "a long id": (
            set_field("detectors", 2, "id", to="\u00e9" * 128),
            "detectors[2].id: has 256 bytes, not 1 to 255",
        ),
        "half a character": (
            set_field("detectors", 2, "id", to="\ud83d"),
            "detectors[2].id: has half a character",
        ),
        "an id as number": (
            set_field("detectors", 2, "id", to=17),
            "detectors[2].id: is a number, not a text",
        ),
        "an id twice": (
            set_field("detectors", 2, "id", to="j1"),
            "detectors[3].id of j1: another of detectors has it too, at index 2",
        ),
        "an unknown track": (
            set_field("detectors", 2, "track", to="no\nsuch"),
            'detectors[2].track of in tiny: no track has the id "no\\nsuch"',
        ),
        "an unknown track of a port": (
            set_field("switches", 0, "ports", "A", "track", to="gone"),
            "switches[0].ports.A.track of l1: no track has the id gone",
        ),
        "a port missing": (
            set_field("switches", 0, "ports", "A"),
            "switches[0].ports.A of l1: is missing",
        ),
        "an endpoint": (
            set_field("switches", 0, "ports", "A", "endpoint", to="MIDDLE"),
            "switches[0].ports.A.endpoint of l1: is MIDDLE, not BEGIN or END",
        ),
        "an end twice": (
            set_field("switches", 1, "ports", "B", "endpoint", to="BEGIN"),
            "switches[1].ports.B of l2: BEGIN of track tiny is at port B of switch l1 too",
        ),
        "an unknown type": (
            set_field("switches", 0, "switch_type", to="turntable"),
            "switches[0].switch_type of l1: no type of switches has the id turntable",
        ),
        "a type's groups": (
            set_field("extended_switch_types", 0, "groups", "left", to={}),
            "extended_switch_types[0].groups.left of reversed fork: is an object",
        ),
        "a pair's end": (
            set_field("extended_switch_types", 0, "groups", "left", 0, "src"),
            "extended_switch_types[0].groups.left[0].src of reversed fork: is missing",
        ),
        "a direction": (
            set_field("signals", 1, "direction", to="BOTH"),
            "signals[1].direction of s before link: is BOTH, not START_TO_STOP or",
        ),
        "no sight": (
            set_field("signals", 1, "sight_distance"),
            "signals[1].sight_distance of s before link: is missing",
        ),
        "a system": (
            set_field("signals", 1, "logical_signals", 0, "signaling_system", to=1),
            "signals[1].logical_signals[0].signaling_system of s before link: is a number",
        ),
        "an entry's type": (
            set_field("routes", 0, "entry_point", "type", to="Signal"),
            "routes[0].entry_point.type of rt.stop w->home: is Signal, not Detector or",
        ),
        "an entry's id": (
            set_field("routes", 0, "entry_point", "id", to="j9"),
            "routes[0].entry_point.id of rt.stop w->home: no buffer stop has the id j9",
        ),
        "an exit's id": (
            set_field("routes", 0, "exit_point", "id", to="j9"),
            "routes[0].exit_point.id of rt.stop w->home: no detector has the id j9",
        ),
        "a release": (
            set_field("routes", 0, "release_detectors", 0, to="j9"),
            "routes[0].release_detectors[0] of rt.stop w->home: no detector has the id j9",
        ),
        "a switch of a route": (
            set_field("routes", 0, "switches_directions", "l9", to="STATIC"),
            "routes[0].switches_directions.l9 of rt.stop w->home: no switch has",
        ),
        "a group": (
            set_field("routes", 0, "switches_directions", "l1", to="A_B1"),
            "routes[0].switches_directions.l1 of rt.stop w->home: link has no group A_B1",
        ),
        "a part's track": (
            set_field("operational_points", 1, "parts", 0, "track", to="x"),
            "operational_points[1].parts[0].track of Gen\u00e8ve  Cornavin: no track",
        ),
        "a limit of 0": (
            set_field("speed_sections", 0, "speed_limit", to=0),
            "speed_sections[0].speed_limit of line: is 0.0 m/s, at which no train",
        ),
        "a tag's limit": (
            set_field("speed_sections", 0, "speed_limit_by_tag", "E32C", to="fast"),
            "speed_sections[0].speed_limit_by_tag.E32C of line: is a text, not a number",
        ),
        "a range turned round": (
            set_field("speed_sections", 2, "track_ranges", 0, "end", to=50),
            "speed_sections[2].track_ranges[0].end of from joint: is 50.0, before",
        ),
        "a range's way": (
            set_field("speed_sections", 2, "track_ranges", 0, "applicable_directions"),
            "speed_sections[2].track_ranges[0].applicable_directions of from joint: is " "missing",
        ),
    }


def refusal_of(words: list[str]) -> list[str]:
    """The lines by which the importer refuses its words, in this process."""
    told = io.StringIO()
    with contextlib.redirect_stdout(io.StringIO()), contextlib.redirect_stderr(told):
        try:
            import_network.import_network(words)
        except Refused as refusal:
            return faults_in(f"{told.getvalue()}import-network: {refusal}")
    return []


def faults_in(told: str) -> list[str]:
    """The lines of a report but those of progress, which a busy machine may have."""
    progress_told = re.compile(r"import-network: \d+ of \d+ ")
    return [line for line in told.splitlines() if not progress_told.match(line)]


def command(
    cases: Cases, words: list[str], before: Callable[[], None] | None = None
) -> tuple[int, list[str], str]:
    """The status, report and output of the importer as a command."""
    done = subprocess.run(
        [sys.executable, REPOSITORY / "kidrofemba", "import-network", *words],
        capture_output=True,
        text=True,
        cwd=cases.folder,
        preexec_fn=before,
    )
    return done.returncode, faults_in(done.stderr), done.stdout


def bad_input(cases: Cases) -> None:
    """Each bad export is refused with its place, and nothing is written."""
    export = cases.folder / "bad.json"
    for number, (name, (data, wanted)) in enumerate(bad_exports().items()):
        export.write_bytes(
            data if isinstance(data, bytes) else data.encode("utf-8", "surrogatepass")
        )
        before = sorted(os.listdir(cases.folder))
        words = [
            str(export),
            str(cases.folder / "out.json"),
            "--report",
            str(cases.folder / "out.txt"),
        ]
        told = refusal_of(words)
        cases.holds(
            f"refusal of {name}",
            told != [] and told[0].startswith(f"import-network: {export}: {wanted}"),
            told[:2],
        )
        cases.check(f"nothing written for {name}", before, sorted(os.listdir(cases.folder)))
        if number % 16 == 2:
            cases.check(f"the command's refusal of {name}", (2, told, ""), command(cases, words))


def bad_words(cases: Cases) -> None:
    """Files that cannot be read or written, and choices that the export does not have."""
    folder = cases.folder
    (folder / "good.json").write_text(json.dumps(made_exports.oddities()))
    bare = {key: value for key, value in made_exports.small().items() if key != "signals"}
    (folder / "bare.json").write_text(json.dumps(bare))
    (folder / "a folder").mkdir()
    good = ["good.json", "net.json", "--report", "rep.txt"]

    def no_room() -> None:
        resource.setrlimit(resource.RLIMIT_FSIZE, (2000, 2000))

    rows: dict[str, tuple[list[str], str, Callable[[], None] | None]] = {
        "no file": (["gone.json", *good[1:]], "gone.json: No such file or directory", None),
        "a folder": (["a folder", *good[1:]], "a folder: Is a directory", None),
        "no folder": (
            ["good.json", "gone/net.json", *good[2:]],
            "gone/net.json: not written: No such file or directory",
            None,
        ),
        "a folder in the way": (
            ["good.json", "a folder", *good[2:]],
            "a folder: not written: Is a directory",
            None,
        ),
        "a full disk": (good, "rep.txt: not written: File too large", no_room),
        "a full device": (
            ["good.json", "net.json", "--report", "/dev/full"],
            "/dev/full: not written: No space left on device",
            None,
        ),
        "the export again": (
            ["good.json", "./good.json", *good[2:]],
            "good.json: is named twice, as the export and as the network",
            None,
        ),
        "a report on the network": (
            ["good.json", "net.json", "--report", "net.json"],
            "net.json: is named twice, as the network and as the report",
            None,
        ),
        "an unknown line": (
            [*good, "--lines", "99"],
            "good.json: track_sections: no track is of line 99; there are ",
            None,
        ),
        "an unknown system": (
            [*good, "--systems", "BAL,KVB"],
            "good.json: signals: none is of KVB; there are BAL, ",
            None,
        ),
        "a system where there is no signal": (
            ["bare.json", *good[1:], "--systems", "BAL,BAPR"],
            "bare.json: has no signals, and so none of BAPR",
            None,
        ),
        "an unknown tag": (
            [*good, "--tags", "MA80"],
            "good.json: speed_sections: none has the tag MA80; there are ",
            None,
        ),
    }
    for name, (words, wanted, before) in rows.items():
        there = sorted(os.listdir(folder))
        status, lines, out = command(cases, words, before)
        cases.check(f"{name}: status", (2, 1, ""), (status, len(lines), out))
        cases.holds(name, lines[0].startswith(f"import-network: {wanted}"), lines)
        cases.check(f"{name}: nothing written", there, sorted(os.listdir(folder)))
    cases.holds("the device is one still", not Path("/dev/full").is_file())
    status, lines, out = command(cases, ["--help"])
    cases.holds(
        "help with an example", status == 0 and "kidrofemba import-network export.json" in out, out
    )


def too_large(cases: Cases) -> None:
    """More than the server reads is refused, and the way out told."""
    make = made_exports.ExportMaker()
    track = make.track("T", 900_000.0)
    for number in range(32_769):
        make.detector(f"d{number}", track, number * 2.0)
    file = cases.folder / "large.json"
    file.write_text(json.dumps(make.export()))
    wanted = (
        f"import-network: {file}: the network would have 65538 directed points (two for each "
        "detector and buffer stop), and the server reads at most 65536: choose fewer lines by --lines"
    )
    told = refusal_of([str(file), str(cases.folder / "n"), "--report", str(cases.folder / "r")])
    cases.check("a network that is too large", [wanted], told)


def dropped_faults(cases: Cases) -> None:
    """With --drop-faulty what is at fault is left out and told, and the rest stays."""
    infra = made_exports.oddities()
    infra["detectors"].append({"id": "stray", "track": "no such track", "position": 3.3})
    infra["switches"].append({"id": "odd", "switch_type": "unheard of", "ports": {}})
    infra["routes"][1]["release_detectors"] = ["nowhere"]
    infra["routes"].append(infra["routes"][0])
    infra["operational_points"][3]["parts"].append({"track": "C", "position": "x"})
    got = Imported(cases, infra, "--drop-faulty")
    plain = Imported(cases, made_exports.oddities())
    cases.check("faults told", 5, len(got.under("dropped, since")))
    cases.check("zones beside faults", plain.zones(), got.zones())
    cases.check(
        "the point with a wrong part", False, "East_100_/BV" in got.objects("operational_points")
    )
    infra["switches"][0]["ports"]["A"]["track"] = "gone"
    got = Imported(cases, infra, "--drop-faulty")
    cases.check(
        "what follows from a fault",
        True,
        "routes[0].switches_directions.l1 of rt.stop w->home: "
        "switch l1 has a fault and is left out" in got.under("dropped, since"),
    )
    cases.check("routes over it", False, any("before%20link->in" in one for one in got.blocks()))


def random_changes(cases: Cases) -> None:
    """Whatever is changed in an export, the importer makes a network that is read, or refuses it by
    lines with a place, and never writes a half."""
    source = random.Random(5)
    whole = json.dumps(made_exports.oddities())
    network = cases.folder / "fuzz.json"
    wrong, made, listed = [], 0, 0
    for number in range(RANDOM_CHANGES):
        text = randomly_changed(source, whole)
        export = cases.folder / "fuzzed.json"
        export.write_text(text, encoding="utf-8", errors="surrogatepass")
        words = [str(export), str(network), "--report", str(cases.folder / "fuzz.txt")]
        network.unlink(missing_ok=True)
        try:
            run_quietly(words + ["--drop-faulty"] * (number % 2))
        except Refused as refusal:
            if network.exists() or not str(refusal).startswith(f"{export}: "):
                wrong.append((number, str(refusal)))
            continue
        except Exception as failure:  # noqa: BLE001 - any other failure is what is looked for
            wrong.append((number, repr(failure)))
            continue
        made += 1
        told = table(network)
        if made % 4 == 0:
            listed += 1
            done = subprocess.run(
                [cases.program, "list", "--network", network, "--out", "stdout"],
                capture_output=True,
                text=True,
                timeout=60,
            )
            if (done.returncode, done.stdout) != (0, told):
                wrong.append((number, done.stderr))
    cases.check("random changes", [], wrong[:3])
    cases.holds("enough of them are read", made > RANDOM_CHANGES // 3 and listed > made // 5, made)


def randomly_changed(source: random.Random, whole: str) -> str:
    """An export with one random thing changed: a value, a key, an element, or a character."""
    if source.random() < 0.1:
        at = source.randrange(len(whole))
        return whole[:at] + source.choice(["", "}", '"', "\u00e9", "1"]) + whole[at + 1 :]
    infra = json.loads(whole)
    for _ in range(source.choice([1, 1, 3])):
        place: Any = infra
        while True:
            keys = list(place) if isinstance(place, dict) else list(range(len(place)))
            if not keys:
                break
            key = source.choice(keys)
            inner = place[key]
            if isinstance(inner, (dict, list)) and inner and source.random() < 0.92:
                place = inner
                continue
            if source.random() < 0.25:
                del place[key]
            elif isinstance(inner, float) and source.random() < 0.6:
                place[key] = source.choice([0, 0.0, inner + 0.3, inner - 0.3, inner / 2, 1000.2])
            else:
                place[key] = source.choice(
                    [
                        None,
                        0,
                        -1,
                        1.5,
                        1e300,
                        "",
                        "x",
                        "A1",
                        FORWARD,
                        BACKWARD,
                        [],
                        {},
                        True,
                        "j1",
                        "B",
                        [[]],
                        {"id": "x"},
                        "\ud800\n",
                        {"\ud800\n": "\ud800"},
                        inner,
                    ]
                )
            break
    return json.dumps(infra)


def progress_told(cases: Cases) -> None:
    """Work that takes long is told on standard error, and short work is not."""
    told = io.StringIO()
    with contextlib.redirect_stderr(told):
        short = progress.Progress("tool")
        short.tell(lambda: "soon")
        short.due -= progress.FIRST_S
        short.tell(lambda: "2 of 9 done")
        short.tell(lambda: "3 of 9 done")
    cases.check("progress", "tool: 2 of 9 done\n", told.getvalue())


def main() -> int:
    parser = argparse.ArgumentParser(
        description=__doc__, formatter_class=argparse.RawDescriptionHelpFormatter
    )
    parser.add_argument("--program", type=Path, default=REPOSITORY / "crates/stdcm/out/stdcm")
    program = parser.parse_args().program.resolve()
    if not program.is_file():
        print(f"no program at {program}")
        return 1
    with tempfile.TemporaryDirectory() as name:
        cases = Cases(program, Path(name).resolve())
        for test in (
            rounding_by_hand,
            random_tracks,
            whole_metres_change_nothing,
            fractions_keep_what_is_there,
            limits_at_joints,
            single_slip,
            shapes,
            odd_export,
            other_systems,
            renamed,
            pieces,
            region,
            bad_input,
            bad_words,
            too_large,
            dropped_faults,
            random_changes,
            progress_told,
        ):
            test(cases)
    print(f"{cases.passed} passed, {cases.failed} failed")
    return int(cases.failed > 0)


if __name__ == "__main__":
    sys.exit(main())
