"""Shows that the conformance runner passes a right program, and fails wrong ones.

A toy of tests/selftest is run as it is, then with one fault after another; the scenario that must
find the fault must fail, with the words that tell it.

    PYTHONPATH=python python3 -m tests.test_conformance
"""
from __future__ import annotations

import argparse
import os
import re
import subprocess
import sys
from concurrent.futures import ThreadPoolExecutor
from pathlib import Path

HERE = Path(__file__).resolve().parent
TOY = HERE / "selftest"
#: The seconds that a call of the toy may take, and those where it takes too long.
LIMIT, SHORT_LIMIT = 30, 8
SLOW = ("silent", "no opening", "no end")

#: For each fault of the toy: a scenario that must fail, and words that must stand in its line.
FAULTS = [
    ("wrong reply", "lines in files", "expected 'new 0', got 'NEW 0'"),
    ("wrong reply", "two clients over pipes", "talk 1 (A): expected 'new 0', got 'NEW 0'"),
    ("one reply less", "lines in files", "line 4: expected 'new 2', got nothing"),
    ("one reply more", "lines in files", "line 5: expected nothing, got 'more'"),
    ("no line end", "lines in files", "(no line end)"),
    ("wrong status", "lines in files", "exit status: expected 0, got '1, report"),
    ("wrong report", "lines in files", "input', got 'client A lines 5 end input'"),
    ("forgets", "a kill between lines", "expected 'new 1', got 'new 0'"),
    ("scribbles", "refusals", "which this call must not change"),
    ("takes any words", "refusals", "exit status: expected 2"),
    ("dies", "two clients over pipes", "the program's end with status 3 and report 'a sudden end"),
    ("silent", "two clients over pipes", f"no whole reply within {SHORT_LIMIT} s"),
    ("no opening", "two clients over pipes", f"did not open its input within {SHORT_LIMIT} s"),
    ("no end", "lines in files", f"no end within {SHORT_LIMIT} s"),
    ("no end", "two clients over pipes", f"no end within {SHORT_LIMIT} s"),
]


def run(fault: str) -> tuple[int, list[str]]:
    """Runs the runner over the toy with a fault, and the scenarios that must find it."""
    named = [scenario for one, scenario, _ in FAULTS if one == fault]
    limit = SHORT_LIMIT if fault in SLOW else LIMIT
    words = [sys.executable, "-B", str(HERE / "conformance"), "--program", str(TOY / "toy.py"),
             "--scenarios", str(TOY / "scenarios"), "--limit", str(limit),
             *(["--only", *named] if named else [])]
    done = subprocess.run(words, env={**os.environ, "TOY": fault}, capture_output=True, text=True,
                          check=False)
    return done.returncode, done.stdout.splitlines() + done.stderr.splitlines()


def is_found(scenario: str, words: str, status: int, lines: list[str]) -> bool:
    """Whether the scenario failed with these words, and was counted."""
    named = [line for line in lines if line.startswith(f"FAILED {scenario}: ")]
    counts = re.fullmatch(r"(\d+) passed, (\d+) failed", lines[-1])
    failures = sum(line.startswith("FAILED ") for line in lines)
    return (status == 1 and len(named) == 1 and words in named[0]
            and counts is not None and int(counts[2]) == failures)


def main() -> int:
    parser = argparse.ArgumentParser(description=__doc__.splitlines()[0])
    parser.add_argument("--program", help="not needed: the toy is run in its place")
    parser.parse_args()
    names = ["", *dict.fromkeys(fault for fault, _, _ in FAULTS)]
    with ThreadPoolExecutor(2) as pool:
        results = dict(zip(names, pool.map(run, names)))
    failed = 0
    status, lines = results[""]
    if status or lines[-1] != "4 passed, 0 failed":
        failed += 1
        print("FAILED the toy as it is: " + " / ".join(lines))
    for fault, scenario, words in FAULTS:
        if not is_found(scenario, words, *results[fault]):
            failed += 1
            print(f"FAILED {fault!r} in {scenario!r}: " + " / ".join(results[fault][1]))
    print(f"{len(FAULTS) + 1 - failed} passed, {failed} failed")
    return 1 if failed else 0


if __name__ == "__main__":
    sys.exit(main())
