"""Checks all that needs no proof, with the program at crates/stdcm/out/stdcm (dev/build).

HANDLES, the crates' names and the counts of dev/house, what is made of the tables of cases, the
demo's replies and its proof, the table of the station, types and unused names of the Python sources
(mypy and pyflakes3, where they are installed; else they are told as not run), servers beside plain
models (bench/ and dev/proofs), the scenarios of tests/conformance, and each program
tests/test_*.py. A line tells how each ended and how long it took; one that failed is printed whole.
The last line is `N passed, M failed`, and the exit status is 0 only where M is 0.

    dev/check
    dev/check --only lock conformance
"""
from __future__ import annotations

import argparse
import os
import re
import shutil
import signal
import subprocess
import sys
import threading
import time
from collections.abc import Callable
from concurrent.futures import ThreadPoolExecutor, as_completed
from dataclasses import dataclass

from dev.processes import end
from dev.repository import ROOT, Repository

PROGRAM = ROOT / "crates/stdcm/out/stdcm"
HANDLES = "Handles allowed: Threads, Wait.\n"
#: The seconds after which a check that has not ended is taken for failed.
LIMIT_S = 900.0
COUNTS = re.compile(r"(\d+) passed, (\d+) failed")
PYTHON = [sys.executable, "-B"]
#: Where what is run finds the modules of the repository.
MODULES = {"PYTHONPATH": f"{ROOT / 'python'}:{ROOT}"}


@dataclass(frozen=True)
class Outcome:
    """How a check ended: what it counted, how long it took, and what it told."""

    name: str
    passed: int
    failed: int
    time_s: float
    told: str

    def line(self) -> str:
        word = "FAILED" if self.failed else "ok" if self.passed else "not run"
        rows = self.told.rstrip("\n").splitlines()
        last = f": {rows[-1]}" if rows and COUNTS.fullmatch(rows[-1]) else ""
        return f"{word:<7} {self.time_s:6.1f} s  {self.name}{last}"


@dataclass(frozen=True)
class Check:
    """Something to be checked: a call in this process, or a command.

    Without both it is told as not run. A command must end with status 0. It may count what it tries on its last line; where a file
    is named, what it writes must be what that file holds.
    """

    name: str
    call: Callable[[], list[str]] | None = None
    words: tuple[str, ...] = ()
    wanted: str = ""

    def run(self, running: Running) -> Outcome:
        begun = time.monotonic()
        if self.call is not None:
            faults = self.call()
            return self.outcome(begun, not faults, "\n".join(faults))
        if not self.words:
            return Outcome(self.name, 0, 0, 0.0, "")
        status, written = running.run([*self.words], LIMIT_S)
        if status is None:
            return self.outcome(begun, False, f"{written}no end within {LIMIT_S:.0f} s")
        if self.wanted and written != (ROOT / self.wanted).read_text():
            return self.outcome(begun, False, f"{written}this is not what {self.wanted} holds")
        counts = COUNTS.fullmatch((written.rstrip("\n").splitlines() or [""])[-1])
        if counts is None:
            return self.outcome(begun, status == 0, f"{written}exit status {status}")
        passed, failed = int(counts[1]), int(counts[2])
        if (status == 0) != (failed == 0) or not passed + failed:
            return self.outcome(begun, False, f"{written}exit status {status}")
        return Outcome(self.name, passed, failed, time.monotonic() - begun, written)

    def outcome(self, begun: float, is_well: bool, told: str) -> Outcome:
        """One that counts as a single thing."""
        return Outcome(self.name, int(is_well), int(not is_well), time.monotonic() - begun, told)


class Running:
    """The commands that run now, so that all of them end where this program is ended."""

    def __init__(self) -> None:
        self.lock = threading.Lock()
        self.processes: set[subprocess.Popen[str]] = set()
        self.is_ended = False

    def run(self, words: list[str], limit_s: float) -> tuple[int | None, str]:
        """Runs a command to its end or to the limit; its status, and all that it wrote."""
        with self.lock:
            if self.is_ended:
                return None, ""
            process = subprocess.Popen(
                words, cwd=ROOT, env=os.environ | MODULES, stdin=subprocess.DEVNULL,
                stdout=subprocess.PIPE, stderr=subprocess.STDOUT, text=True, errors="replace", start_new_session=True)
            self.processes.add(process)
        try:
            written, _ = process.communicate(timeout=limit_s)
            return process.returncode, written
        except subprocess.TimeoutExpired:
            end(process)
            return None, process.communicate()[0] or ""
        finally:
            with self.lock:
                self.processes.discard(process)

    def end(self) -> None:
        with self.lock:
            self.is_ended = True
            left = [*self.processes]
        for process in left:
            end(process, patience_s=1.0)


def handles() -> list[str]:
    """HANDLES is the one line that tells what the program may use."""
    if (ROOT / "HANDLES").read_text() == HANDLES:
        return []
    return ["HANDLES is not the one line that it must be"]


def crates() -> list[str]:
    """Each crate of crates.txt is there, and docs/MAP.md names it."""
    page = (ROOT / "docs/MAP.md").read_text()
    names = Repository(ROOT).libraries
    lost = [name for name in names if not (ROOT / "crates" / name / "src").is_dir()]
    untold = [name for name in names if f"`{name}`" not in page]
    return [*(f"crates.txt names {name}, which is not there" for name in lost),
            *(f"docs/MAP.md does not name {name}" for name in untold)]


def linters() -> list[Check]:
    """What looks at the Python sources without running them, where it is installed."""
    commands = (("mypy",), ("pyflakes3", "python", "dev", "bench", "tests"))
    return [Check(words[0], words=words) if shutil.which(words[0])
            else Check(f"{words[0]}, which is not installed here") for words in commands]


def all_checks() -> list[Check]:
    """All that is checked, what takes longest first."""
    tests = sorted((ROOT / "tests").glob("test_*.py"))
    station = ("list", "--network", "examples/station.json", "--out", "stdout")
    batch = ("--sections", "8", "--trains", "20", "--asks", "120", "--refusals", "20")
    demo = ("./demo", "--program", str(PROGRAM))
    house = ("--most-crates", "60", "--longest-chain", "14", "--wide-lines", "1",
             "--most-tests", "0", "--bare-numbers", "0", "--most-dependencies", "12",
             "--but", "osrd_stdcm", "--most-parameters", "8", "--most-relation-parameters", "10")
    return [
        Check("conformance", words=(*PYTHON, "tests/conformance")),
        Check("bench/clients", words=(*PYTHON, "bench/clients", "--lines", "480", "--quick")),
        Check("dev/proofs", words=(*PYTHON, "dev/proofs")),
        Check("bench/batch", words=(*PYTHON, "bench/batch", *batch)),
        *(Check(f"tests/{path.name}", words=(*PYTHON, "-m", f"tests.{path.stem}"))
          for path in tests),
        Check("tests/fuzz_door", words=(*PYTHON, "-m", "tests.fuzz_door", "--seconds", "60")),
        Check("bench/list", words=(*PYTHON, "bench/list", "--sizes", "0.2")),
        Check("dev/house", words=(*PYTHON, "dev/house", *house)),
        *linters(),
        Check("HANDLES", call=handles),
        Check("crates.txt", call=crates),
        Check("dev/tables", words=(*PYTHON, "dev/tables", "--check")),
        Check("demo's replies", words=(*demo, "--replies"), wanted="examples/station.replies"),
        Check("demo's proof", words=(*demo, "--proof"), wanted="examples/refusal.proof"),
        Check("table of the station", words=(str(PROGRAM), *station),
              wanted="examples/station.table"),
    ]


def parse(words: list[str]) -> argparse.Namespace:
    formatter = argparse.RawDescriptionHelpFormatter
    parser = argparse.ArgumentParser(description=__doc__, formatter_class=formatter)
    parser.add_argument("--only", nargs="+", metavar="NAME", help="checks with NAME in their names")
    parser.add_argument("--jobs", type=int, metavar="N",
                        default=2 if len(os.sched_getaffinity(0)) >= 4 else 1,
                        help="how many run side by side (2 where there are four processors)")
    parser.add_argument("--after", metavar="COUNTS", default="0 passed, 0 failed",
                        help="`N passed, M failed` of what ran before, to be counted too")
    options = parser.parse_args(words)
    if not COUNTS.fullmatch(options.after):
        parser.error(f"--after: {options.after!r} is no count")
    if not os.access(PROGRAM, os.X_OK):
        parser.error(f"no program at {PROGRAM.relative_to(ROOT)}: dev/build makes it")
    return options


def main(words: list[str]) -> int:
    options = parse(words)
    chosen = [check for check in all_checks()
              if not options.only or any(word in check.name for word in options.only)]
    running = Running()

    def stop(number: int, _frame: object) -> None:
        running.end()
        os._exit(128 + number)
    for number in (signal.SIGINT, signal.SIGTERM, signal.SIGHUP):
        signal.signal(number, stop)
    passed, failed = (int(word) for word in options.after.split()[::2])
    with ThreadPoolExecutor(max(1, options.jobs)) as pool:
        for future in as_completed([pool.submit(check.run, running) for check in chosen]):
            outcome = future.result()
            passed, failed = passed + outcome.passed, failed + outcome.failed
            print(outcome.line(), flush=True)
            if outcome.failed:
                print("".join(f"    {row}\n" for row in outcome.told.splitlines()), end="")
    print(f"{passed} passed, {failed} failed")
    return 1 if failed else 0


if __name__ == "__main__":
    sys.exit(main(sys.argv[1:]))
