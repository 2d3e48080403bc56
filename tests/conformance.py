"""Tries a built program from outside by scenarios: real files, pipes, kills in between.

Each scenario of tests/scenarios runs in a fresh folder. A line is printed for each: `ok NAME`, or
`FAILED NAME:` with the step and the first difference. The last line is `N passed, M failed`, and
the exit status is 0 only where M is 0.

    tests/conformance --program crates/stdcm/out/stdcm --only crash "killed behind a free"
"""
from __future__ import annotations

import argparse
import json
import sys
import tempfile
from concurrent.futures import ThreadPoolExecutor
from pathlib import Path

from tests.runner.calls import Program
from tests.runner.compare import Difference
from tests.runner.steps import Runner
from tests.runner.texts import Place

HERE = Path(__file__).resolve().parent
PROGRAM = HERE.parent / "crates/stdcm/out/stdcm"


def read_scenarios(folder: Path) -> list[dict]:
    """All scenarios of a folder, by file and place in it."""
    found = []
    for path in sorted(folder.glob("*.json")):
        for scenario in json.loads(path.read_text()):
            scenario["group"] = path.stem
            found.append(scenario)
    names = [scenario["name"] for scenario in found]
    twice = sorted({name for name in names if names.count(name) > 1})
    if twice:
        raise SystemExit(f"conformance: {folder}: scenarios with one name: {', '.join(twice)}")
    return found


def is_chosen(scenario: dict, only: list[str] | None) -> bool:
    """Chosen by its group's name or by a part of its own."""
    return not only or any(word == scenario["group"] or word.lower() in scenario["name"].lower()
                           for word in only)


def first_difference(program: Program, scenario: dict) -> str | None:
    """Runs a scenario in a fresh folder; None where all is as expected."""
    with tempfile.TemporaryDirectory(prefix="conformance-") as folder:
        try:
            Runner(program, Place(Path(folder)), scenario).run()
        except Difference as difference:
            return str(difference)
        except Exception as fault:  # a fault of a scenario must not hide the other results
            return f"the runner could not run it: {type(fault).__name__}: {fault}"
    return None


def parse(arguments: list[str]) -> argparse.Namespace:
    formatter = argparse.RawDescriptionHelpFormatter
    parser = argparse.ArgumentParser(description=__doc__, formatter_class=formatter)
    parser.add_argument("--program", type=Path, default=PROGRAM, help="the built program")
    parser.add_argument("--only", nargs="+", metavar="NAME",
                        help="scenario files without .json, or parts of scenario names")
    parser.add_argument("--list", action="store_true", help="print the scenarios and run none")
    parser.add_argument("--scenarios", type=Path, default=HERE / "scenarios",
                        help="folder of scenario files")
    parser.add_argument("--limit", type=float, default=30.0,
                        help="seconds for each call of the program (30)")
    parser.add_argument("--jobs", type=int, default=2, help="scenarios side by side (2)")
    options = parser.parse_args(arguments)
    if not options.list and not options.program.is_file():
        parser.error(f"no program at {options.program}: dev/build makes it")
    return options


def main(arguments: list[str]) -> int:
    options = parse(arguments)
    chosen = [one for one in read_scenarios(options.scenarios) if is_chosen(one, options.only)]
    if options.list:
        for scenario in chosen:
            print(f"{scenario['group']}: {scenario['name']}")
        return 0
    program = Program(options.program.resolve(), options.limit)
    failed = 0
    with ThreadPoolExecutor(options.jobs) as pool:
        differences = pool.map(lambda scenario: first_difference(program, scenario), chosen)
        for scenario, difference in zip(chosen, differences):
            failed += difference is not None
            told = "ok" if difference is None else "FAILED"
            print(f"{told} {scenario['name']}" + (f": {difference}" if difference else ""),
                  flush=True)
    print(f"{len(chosen) - failed} passed, {failed} failed")
    return 1 if failed else 0


if __name__ == "__main__":
    sys.exit(main(sys.argv[1:]))
