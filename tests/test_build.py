"""Tries dev/build in a repository of four small crates, with a stand-in for the toolchain.

    PYTHONPATH=python python3 -m tests.test_build
"""
from __future__ import annotations

import argparse
import json
import os
import pty
import shutil
import signal
import subprocess
import sys
import tempfile
import time
from collections.abc import Callable
from concurrent.futures import ThreadPoolExecutor
from dataclasses import dataclass
from pathlib import Path

HERE = Path(__file__).resolve().parent
DEV = HERE.parent / "dev"
RIGHT = "demo of the right program\n"
CRATES = {"lowest": "", "middle": "lowest", "stdcm": "middle lowest", "apart": "lowest"}


@dataclass
class Clone:
    """A repository in a fresh folder, with the stand-in on its PATH."""

    root: Path

    def __post_init__(self) -> None:
        (self.root / "dev").mkdir()
        for name in ("build", "build.py", "launch", "processes.py", "repository.py",
                     "__init__.py"):
            shutil.copy2(DEV / name, self.root / "dev" / name)
        (self.root / "HANDLES").write_text("Handles allowed: none.\n")
        rows = [f"{name}: {libraries}\n" for name, libraries in CRATES.items()]
        (self.root / "crates.txt").write_text("".join(rows))
        for name in CRATES:
            source = "main.rt" if name in ("stdcm", "apart") else "lib.rt"
            (self.root / "crates" / name / "src").mkdir(parents=True)
            (self.root / "crates" / name / "src" / source).write_text(f"fn {name}() {{}}\n")
        (self.root / "crates/lowest/must-fail").mkdir()
        (self.root / "crates/lowest/must-fail/wrong.edit").write_text("file: src/lib.rt\n")
        (self.root / ".git").mkdir()
        (self.root / "crates/stdcm/args").write_text("demo\n")
        (self.root / "crates/stdcm/stdout").write_text(RIGHT)

    def start(self, *words: str, fake: str = "", path: str | None = None,
              before: tuple[str, ...] = (), **how) -> subprocess.Popen:
        """Starts dev/build, as a child of another command where one is given."""
        environment = {**os.environ, "FAKE": fake, "NOTES": str(self.root / "noted")}
        environment["PATH"] = path if path is not None else f"{HERE / 'fakes'}:{os.environ['PATH']}"
        environment.update(how.pop("environment", {}))
        how = {"stdout": subprocess.PIPE, "stderr": subprocess.PIPE, **how}
        return subprocess.Popen([*before, sys.executable, "-B", str(self.root / "dev/build"),
                                 *words], cwd=self.root, env=environment, text=True, **how)

    def build(self, *words: str, limit_s: float = 180, **how) -> subprocess.CompletedProcess:
        process = self.start(*words, **how)
        try:
            out, told = process.communicate(timeout=limit_s)
        except subprocess.TimeoutExpired:
            process.kill()
            out, told = process.communicate()
            told += "no end"
        return subprocess.CompletedProcess(process.args, process.returncode, out, told)

    def noted(self) -> list[str]:
        """What the stand-in noted of its runs."""
        notes = self.root / "noted"
        return notes.read_text().splitlines() if notes.is_file() else []

    def runs(self) -> list[str]:
        return [row for row in self.noted() if row.startswith("ci")]

    def is_quiet(self, wait_s: float = 5.0) -> bool:
        """Whether nothing that a run has started is there any more, after a while at most."""
        until = time.monotonic() + wait_s
        while time.monotonic() < until:
            if not self.at_work():
                return True
            time.sleep(0.1)
        return False

    def at_work(self) -> list[str]:
        """The processes that work for this clone, the stand-in's child among them."""
        found = []
        own = f"NOTES={self.root / 'noted'}".encode()
        for at in Path("/proc").iterdir():
            try:
                if at.name.isdigit() and own in (at / "environ").read_bytes().split(b"\0"):
                    state = (at / "stat").read_text().rpartition(")")[2].split()[0]
                    found += [at.name] if state not in "ZX" else []
            except OSError:
                continue
        return found

    def wait_for(self, row: str, wait_s: float = 60.0) -> bool:
        until = time.monotonic() + wait_s
        while time.monotonic() < until:
            if any(one.startswith(row) for one in self.noted()):
                return True
            time.sleep(0.05)
        return False

    def program(self) -> str | None:
        """What the program that stands answers; None where none stands."""
        place = self.root / "crates/stdcm/out/stdcm"
        if not os.access(place, os.X_OK):
            return None
        return subprocess.run([str(place), "demo"], capture_output=True, text=True,
                              check=False).stdout


class Wrong(Exception):
    """What a case found otherwise than it must be."""


def must(is_so: object, what: str) -> None:
    if not is_so:
        raise Wrong(what)


def built(clone: Clone, **how) -> subprocess.CompletedProcess:
    """A build that must come to the right program."""
    ran = clone.build(*how.pop("words", ()), **how)
    must(ran.returncode == 0, f"status {ran.returncode}: {ran.stderr}")
    must(clone.program() == RIGHT, f"the program answers {clone.program()!r}")
    return ran


def a_fresh_clone_is_built_and_the_run_ended(clone: Clone) -> None:
    ran = built(clone, fake="long")
    must(clone.is_quiet(), f"left at work: {clone.at_work()}")
    must("3 crates are proved" in ran.stderr and "a stand-in" in ran.stderr, ran.stderr)
    must("GB of memory" in ran.stderr and "min" in ran.stderr, ran.stderr)
    must(ran.stdout == "", f"it printed {ran.stdout!r}")
    must("whole" not in clone.noted(), "the run was not ended")


def a_kit_that_keeps_nothing_proves_the_program_alone(clone: Clone) -> None:
    built(clone)
    must("has lowest middle stdcm []" in clone.noted(), f"noted {clone.noted()}")
    must(f"in {clone.root}" not in clone.noted(), "it ran at the top")
    left = [path for path in (clone.root / ".git").iterdir()]
    must(not left, f"left behind: {left}")


def a_kit_that_keeps_its_proofs_proves_the_program_alone(clone: Clone) -> None:
    ran = built(clone, fake="knows-anew takes-away long")
    must("has lowest middle stdcm []" in clone.noted(), f"noted {clone.noted()}")
    must(f"in {clone.root}" not in clone.noted(), "it ran at the top")
    must("whole" not in clone.noted() and clone.is_quiet(), f"noted {clone.noted()}")
    must("3 crates are proved" in ran.stderr, ran.stderr)


def crates_that_all_wait_for_have_all_processors(clone: Clone) -> None:
    """The lowest and the highest each in a run that shares processors out by itself."""
    rows = {"lowest": "", "left": "lowest", "right": "lowest", "beyond": "right lowest",
            "stdcm": "left beyond right lowest"}
    (clone.root / "crates.txt").write_text("".join(f"{a}: {b}\n" for a, b in rows.items()))
    for name in ("left", "right", "beyond"):
        (clone.root / "crates" / name / "src").mkdir(parents=True)
        (clone.root / "crates" / name / "src/lib.rt").write_text(f"fn {name}() {{}}\n")
    ran = built(clone, fake="knows-anew long", environment={"RT_JOBS": ""})
    has = [row for row in clone.noted() if row.startswith("has")]
    must(has == ["has lowest []", "has beyond left lowest right []",
                 "has beyond left lowest right stdcm []"], f"noted {has}")
    jobs = [row for row in clone.noted() if row.startswith("jobs")]
    must(jobs[0] == jobs[2] == "jobs none" != jobs[1] and len(jobs) == 3, f"noted {jobs}")
    must("5 crates are proved" in ran.stderr and clone.is_quiet(), ran.stderr)
    log = (clone.root / "out/build.log").read_text()
    must(all(f"rt: {name} proved" in log for name in rows), log)
    shutil.rmtree(clone.root / "out")
    built(clone, fake="knows-anew long", environment={"RT_JOBS": "2"})
    jobs = [row for row in clone.noted() if row.startswith("jobs")][3:]
    must(jobs == ["jobs 2"], f"asked for two, noted {jobs}")


def a_stage_that_fails_ends_the_build(clone: Clone) -> None:
    rows = ("lowest:", "middle: lowest", "apart: lowest", "stdcm: middle apart lowest")
    (clone.root / "crates.txt").write_text("".join(f"{row}\n" for row in rows))
    ran = clone.build(fake="knows-anew fails:middle")
    must(ran.returncode == 1, f"status {ran.returncode}")
    must("middle is not proved" in ran.stderr and "error: not so" in ran.stderr, ran.stderr)
    must(clone.program() is None and clone.is_quiet(), "something is left")


def what_is_kept_there_is_asked_for_anew(clone: Clone) -> None:
    built(clone, fake="kept knows-anew long")
    must(clone.runs() == ["ci", "ci --anew"], f"runs {clone.runs()}")


def a_built_program_is_found_at_once(clone: Clone) -> None:
    built(clone)
    ran = built(clone, path=str(clone.root / "nowhere"))
    must("is built already, of this very tree" in ran.stderr, ran.stderr)
    must(clone.runs() == ["ci"], f"runs {clone.runs()}")


def what_rt_took_away_is_put_back(clone: Clone) -> None:
    built(clone)
    shutil.rmtree(clone.root / "crates/stdcm/out")
    built(clone)
    must(clone.runs() == ["ci"], f"runs {clone.runs()}")


def a_program_of_other_sources_is_built_anew(clone: Clone) -> None:
    built(clone)
    (clone.root / "crates/lowest/src/lib.rt").write_text("fn other() {}\n")
    built(clone)
    must(clone.runs() == ["ci", "ci"], f"runs {clone.runs()}")


def sources_that_are_none_of_its_own_change_nothing(clone: Clone) -> None:
    built(clone)
    (clone.root / "crates/apart/src/main.rt").write_text("fn other() {}\n")
    built(clone)
    must(clone.runs() == ["ci"], f"runs {clone.runs()}")


def a_program_that_lies_there_is_not_trusted(clone: Clone) -> None:
    place = clone.root / "crates/stdcm/out/stdcm"
    place.parent.mkdir()
    place.write_text(f"#!/bin/sh\nprintf '{RIGHT[:-1]}\\n'\n# of another tree\n")
    place.chmod(0o755)
    built(clone)
    must("another tree" not in place.read_text(), "the file of another tree was taken")
    must(clone.runs() == ["ci"], f"runs {clone.runs()}")


def a_kept_program_that_was_changed_is_not_trusted(clone: Clone) -> None:
    built(clone)
    (clone.root / "out/program/stdcm").write_text("#!/bin/sh\n")
    built(clone)
    must(clone.runs() == ["ci", "ci"], f"runs {clone.runs()}")


def a_half_written_program_is_not_taken(clone: Clone) -> None:
    built(clone, fake="halves long")
    text = (clone.root / "crates/stdcm/out/stdcm").read_text()
    must(text.endswith("fi\n"), f"taken too early: {text!r}")


def a_missing_toolchain_is_named(clone: Clone) -> None:
    ran = clone.build(path=str(clone.root / "nowhere"))
    must(ran.returncode == 2, f"status {ran.returncode}")
    must(len(ran.stderr.splitlines()) == 1, ran.stderr)
    must(ran.stderr.startswith("build: rt: ") and "install" in ran.stderr, ran.stderr)
    must(clone.program() is None, "there is a program")


def a_crate_that_is_not_proved_ends_the_build(clone: Clone) -> None:
    ran = clone.build(fake="fails:middle")
    must(ran.returncode == 1, f"status {ran.returncode}")
    must("middle is not proved" in ran.stderr and "error: not so" in ran.stderr, ran.stderr)
    must(clone.program() is None and clone.is_quiet(), "something is left")


def a_run_without_a_program_fails(clone: Clone) -> None:
    ran = clone.build(fake="none")
    must(ran.returncode == 1 and "no program stdcm" in ran.stderr, ran.stderr)


def a_program_that_writes_otherwise_is_not_taken(clone: Clone) -> None:
    ran = clone.build(fake="wrong")
    must(ran.returncode == 1 and "stdout" in ran.stderr, ran.stderr)
    must(not (clone.root / "out/program/stdcm").exists(), "it is kept")


def sources_that_change_under_the_proof_are_noticed(clone: Clone) -> None:
    ran = clone.build(fake="edits-source long")
    must(ran.returncode == 1 and "were changed" in ran.stderr, ran.stderr)
    ran = clone.build(fake="edits-source long knows-anew")
    must(ran.returncode == 1 and "were changed" in ran.stderr, ran.stderr)
    must(clone.is_quiet(), f"left at work: {clone.at_work()}")
    must(not (clone.root / "out/program/stdcm").exists(), "it is kept")


def interrupted(clone: Clone, number: int, status: int) -> None:
    process = clone.start(fake="long none")
    must(clone.wait_for("worker"), "the run did not begin")
    process.send_signal(number)
    _, told = process.communicate(timeout=20)
    must(process.returncode == status, f"status {process.returncode}: {told}")
    must(clone.is_quiet(), f"left at work: {clone.at_work()}")
    built(clone)


def an_interrupt_leaves_nothing_running(clone: Clone) -> None:
    interrupted(clone, signal.SIGINT, 130)


def a_kill_leaves_nothing_running(clone: Clone) -> None:
    interrupted(clone, signal.SIGTERM, 143)


def a_hard_kill_ends_the_toolchain_too(clone: Clone) -> None:
    process = clone.start(fake="long none")
    must(clone.wait_for("worker"), "the run did not begin")
    process.kill()
    process.communicate()
    worker = next(row.split()[1] for row in clone.noted() if row.startswith("worker"))
    until = time.monotonic() + 5
    # the stand-in keeps no guard over its child, as rt does over its own
    while clone.at_work() not in ([], [worker]) and time.monotonic() < until:
        time.sleep(0.1)
    left = clone.at_work()
    for pid in left:
        os.kill(int(pid), signal.SIGKILL)
    must(left in ([], [worker]), f"left at work: {left}")


def it_ends_with_its_parent(clone: Clone) -> None:
    shell = clone.start("--with-parent", fake="long none", before=("sh", "-c", '"$@"; true', "sh"))
    must(clone.wait_for("worker"), "the run did not begin")
    shell.kill()
    must(clone.is_quiet(15), f"left at work: {clone.at_work()}")
    shell.communicate()


def two_builds_at_once_run_one_gate(clone: Clone) -> None:
    first = clone.start(fake="waits")
    must(clone.wait_for("ci"), "the run did not begin")
    second = clone.start()
    told = second.stderr.readline()
    must("another build runs here" in told, told)
    (clone.root / "go").touch()
    for process in (first, second):
        _, told = process.communicate(timeout=60)
        must(process.returncode == 0, f"status {process.returncode}: {told}")
    must("is built already" in told and clone.program() == RIGHT, told)
    must(clone.runs() == ["ci"], f"runs {clone.runs()}")


def a_terminal_shows_how_far_it_is(clone: Clone) -> None:
    master, slave = pty.openpty()
    process = clone.start(stderr=slave, fake="waits")
    os.close(slave)
    told = ""
    while True:
        try:
            told += os.read(master, 4096).decode()
        except OSError:
            break
        if "all 3 crates proved" in told:
            (clone.root / "go").touch()
    os.close(master)
    process.communicate()
    for row in ("0 of 3 crates proved, 0 min gone, about ", "all 3 crates proved, 0 min gone",
                "crates/stdcm/out/stdcm is built"):
        must(row in told, f"{row!r} is not in {told!r}")


def the_gate_is_run_whole_and_printed(clone: Clone) -> None:
    ran = built(clone, words=("--gate",), fake="takes-away")
    must(ran.stdout.splitlines()[-1] == "4 passed, 0 failed", ran.stdout)
    must(ran.stdout.startswith("== lowest\nrt: lowest proved\n"), ran.stdout)
    must("the whole gate by a stand-in: about " in ran.stderr, ran.stderr)
    must(ran.stdout == (clone.root / "out/gate.log").read_text(), "the log is another text")
    must("has apart lowest middle stdcm ['wrong.edit']" in clone.noted(), f"{clone.noted()}")
    must(f"in {clone.root}" in clone.noted(), "it did not run at the top")
    must("whole" in clone.noted() and clone.runs() == ["ci"], f"noted {clone.noted()}")


def a_gate_behind_a_build_runs_too(clone: Clone) -> None:
    built(clone)
    built(clone, words=("--gate",), fake="none takes-away")
    must(clone.runs() == ["ci", "ci"], f"runs {clone.runs()}")


def a_gate_that_fails_fails(clone: Clone) -> None:
    ran = clone.build("--gate", fake="fails:stdcm")
    must(ran.returncode == 1, f"status {ran.returncode}")
    must(ran.stdout.splitlines()[-1] == "3 passed, 1 failed", ran.stdout)


def a_gate_that_kept_all_is_run_anew_for_the_program(clone: Clone) -> None:
    ran = clone.build("--gate", fake="kept knows-anew long")
    must(ran.returncode == 0 and clone.program() == RIGHT, f"{ran.returncode}: {ran.stderr}")
    must(clone.runs() == ["ci", "ci --anew"], f"runs {clone.runs()}")
    must(clone.is_quiet(), f"left at work: {clone.at_work()}")


def a_gate_that_kept_all_and_cannot_begin_anew_fails(clone: Clone) -> None:
    ran = clone.build("--gate", fake="kept")
    must(ran.returncode == 1 and "no program" in ran.stderr, f"{ran.returncode}: {ran.stderr}")


def lanes_are_told_to_the_toolchain(clone: Clone) -> None:
    built(clone, environment={"RT_JOBS": "3"})
    must("jobs 3" in clone.noted(), f"noted {clone.noted()}")
    shutil.rmtree(clone.root / "out")
    built(clone, environment={"RT_JOBS": ""})
    asked = int([row for row in clone.noted() if row.startswith("jobs")][-1].split()[1])
    must(1 <= asked <= 4, f"{asked} at once, of which 8 GB hold four")


def lanes_are_printed(clone: Clone) -> None:
    """One where memory holds less than one proof, else no more than there are processors."""
    told = {gb: clone.build("--lanes", gb) for gb in ("1e9", "1e-9", "0", "none")}
    must(told["1e9"].stdout == "1\n", told["1e9"])
    most = int(told["1e-9"].stdout)
    must(1 <= most <= len(os.sched_getaffinity(0)), f"{most} at once")
    must(told["0"].returncode == told["none"].returncode == 2, told)
    must(not clone.noted() and clone.program() is None, "something was run")


def a_run_that_holds_too_much_memory_pauses(clone: Clone) -> None:
    """Of three that hold a third of a GB each two pause, until those before them have ended."""
    most, told = most_paused(clone, "0.8")
    must(most, "none paused")
    must("at most 1 GB of memory" in told, told)


def one_that_has_only_begun_waits_for_room(clone: Clone) -> None:
    """Beside two that hold a third of a GB each 2.4 GB leave less room than a proof takes, though
    all three hold less than half of that."""
    most, told = most_paused(clone, "2.4")
    must(most, f"none paused: {told}")


def most_paused(clone: Clone, memory_gb: str) -> tuple[int, str]:
    """How many of three that hold a third of a GB each pause at once, and what is told."""
    process = clone.start("--memory", memory_gb, fake="heavy")
    most = 0
    while process.poll() is None:
        stopped = [pid for pid in clone.at_work() if state_of(pid) == "T"]
        most = max(most, len(stopped))
        time.sleep(0.1)
    _, told = process.communicate()
    must(process.returncode == 0, f"status {process.returncode}: {told}")
    must("heavy [0, 0, 0]" in clone.noted(), f"noted {clone.noted()}")
    return most, told


def state_of(pid: str) -> str:
    try:
        return Path(f"/proc/{pid}/stat").read_text().rpartition(")")[2].split()[0]
    except OSError:
        return ""


def another_program_is_asked_for_by_name(clone: Clone) -> None:
    ran = clone.build("lowest")
    must(ran.returncode == 2 and "no such program" in ran.stderr, ran.stderr)
    must(clone.runs() == [], f"runs {clone.runs()}")


def the_record_tells_what_was_built(clone: Clone) -> None:
    built(clone)
    told = json.loads((clone.root / "out/program/stdcm.json").read_text())
    must(told["kit"] == "a stand-in" and told["date"] == time.strftime("%Y-%m-%d"), str(told))


CASES: list[Callable[[Clone], None]] = [
    a_fresh_clone_is_built_and_the_run_ended,
    a_kit_that_keeps_nothing_proves_the_program_alone,
    a_kit_that_keeps_its_proofs_proves_the_program_alone,
    crates_that_all_wait_for_have_all_processors,
    a_stage_that_fails_ends_the_build,
    what_is_kept_there_is_asked_for_anew,
    a_built_program_is_found_at_once,
    what_rt_took_away_is_put_back,
    a_program_of_other_sources_is_built_anew,
    sources_that_are_none_of_its_own_change_nothing,
    a_program_that_lies_there_is_not_trusted,
    a_kept_program_that_was_changed_is_not_trusted,
    a_half_written_program_is_not_taken,
    a_missing_toolchain_is_named,
    a_crate_that_is_not_proved_ends_the_build,
    a_run_without_a_program_fails,
    a_program_that_writes_otherwise_is_not_taken,
    sources_that_change_under_the_proof_are_noticed,
    an_interrupt_leaves_nothing_running,
    a_kill_leaves_nothing_running,
    a_hard_kill_ends_the_toolchain_too,
    it_ends_with_its_parent,
    two_builds_at_once_run_one_gate,
    a_terminal_shows_how_far_it_is,
    the_gate_is_run_whole_and_printed,
    a_gate_behind_a_build_runs_too,
    a_gate_that_fails_fails,
    a_gate_that_kept_all_is_run_anew_for_the_program,
    a_gate_that_kept_all_and_cannot_begin_anew_fails,
    lanes_are_told_to_the_toolchain,
    lanes_are_printed,
    a_run_that_holds_too_much_memory_pauses,
    one_that_has_only_begun_waits_for_room,
    another_program_is_asked_for_by_name,
    the_record_tells_what_was_built,
]


def fault_of(case: Callable[[Clone], None]) -> str | None:
    """Runs a case in a fresh folder; None where all is as it must be."""
    with tempfile.TemporaryDirectory(prefix="build-test-") as folder:
        clone = Clone(Path(folder).resolve())
        try:
            case(clone)
        except Wrong as wrong:
            return str(wrong)
        except subprocess.TimeoutExpired as fault:
            return f"no end: {fault}"
        finally:
            for pid in clone.at_work():
                os.kill(int(pid), signal.SIGKILL)
    return None


def main() -> int:
    parser = argparse.ArgumentParser(description=__doc__.splitlines()[0])
    parser.add_argument("--program", help="not needed: a stand-in is built in its place")
    parser.add_argument("--only", nargs="+", metavar="WORD", help="cases with WORD in their names")
    options = parser.parse_args()
    chosen = [case for case in CASES
              if not options.only or any(word in case.__name__ for word in options.only)]
    failed = 0
    with ThreadPoolExecutor(3) as pool:
        for case, fault in zip(chosen, pool.map(fault_of, chosen)):
            if fault is not None:
                failed += 1
                print(f"FAILED {case.__name__.replace('_', ' ')}: {fault}", flush=True)
    print(f"{len(chosen) - failed} passed, {failed} failed")
    return 1 if failed else 0


if __name__ == "__main__":
    sys.exit(main())
