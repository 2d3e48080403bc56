"""Builds the program stdcm, which is proved first, and puts it at crates/stdcm/out/stdcm.

The toolchain's gate, `rt ci`, runs over a tree of the program's own crates, without the others and
without planted edits; as soon as the program is linked whole and has run once as crates/stdcm/args
and stdout say, it is copied out, and the run is ended. So nothing is built that was not proved. The
copy stands in out/program with a digest of the sources that it is made of: where these are
unchanged it is found at once. Where the toolchain keeps what it passed, the crates that nearly all
others wait for are proved in runs of their own, with all processors at one crate, and later runs,
the whole gate's too, go on from what is kept.

With --gate plain `rt ci` runs at the top, to its end; what it prints is printed, and the exit
status is its own. The program is taken out of that very run.

    dev/build                    the program of the server
    dev/build tests_gate         another program of crates.txt
    dev/build --gate             the whole gate, out of which the program is taken
    dev/build --beside           beside a run of rt ci at the top that another process makes: takes
                                   the program out of that run until it is ended by SIGTERM
    dev/build --lanes 4          prints how many proofs of 4 GB each may run side by side here
    dev/build --standing         builds nothing: status 0 where the program is built of this very
                                 tree, which is put in its place then, and else 1
    dev/build --minutes          prints about how many minutes building takes here from nothing

RT_JOBS in the environment tells how many proofs may run side by side, then always one processor
each; without it there are as many as processors and memory allow. Where they hold too much memory
together, the youngest pause, and one that has only begun pauses until there is room for it.
"""
from __future__ import annotations

import argparse
import fcntl
import hashlib
import json
import os
import re
import shutil
import signal
import subprocess
import sys
import tempfile
import threading
import time
from collections.abc import Iterable, Iterator
from contextlib import contextmanager
from dataclasses import dataclass, field, replace
from pathlib import Path
from typing import IO

from dev.processes import Member, end, ends_with_parent, family, held_bytes, resident_bytes
from dev.repository import ROOT, Repository

KEPT = ROOT / "out/program"
GIT = ROOT / ".git"
GROUPS = Path("/sys/fs/cgroup")
#: The most memory that a run may take, in GB, and what one proof of the larger crates takes.
MEMORY_GB = 8.0
LANE_GB = 1.9
#: Where a run holds more of its memory than the first part, proofs pause; below the second, they
#: go on. Smaller processes are left alone; one that holds no more than BEGUN_GB has only begun.
HIGH, LOW = 0.95, 0.90
SMALL_GB, BEGUN_GB = 0.2, 0.6
PAUSE_S = 1.0
#: What a proved crate takes on the disk while a run goes on.
CRATE_BYTES = 100_000_000
#: How long the proof of a crate takes beside three others: the check's begin, and each line of its
#: code.
BEGIN_S = 20.0
SECONDS_A_LINE = 0.22
#: How much longer the whole gate takes: its edits and the programs of tests come to seven tenths.
GATE_PACE = 1.7
#: All others wait for a crate where at most this part of the work stands beside it, neither above
#: it nor below.
BESIDE = 0.1
#: How often the run is looked at, and how often its state is told where no terminal shows it.
LOOK_S = 0.25
TELL_S = 300.0
TRIAL_S = 120.0
PROVED = re.compile(r"rt: (\w+) (?!NOT PROVED).*?\b(?:proved|kept|passed)\b")
FAILED = re.compile(r"rt: (\w+) NOT PROVED")


class Stopped(Exception):
    """Why the program cannot be built, and the exit status that tells it."""

    def __init__(self, why: str, status: int = 1):
        super().__init__(why)
        self.status = status


def say(text: str) -> None:
    print(f"build: {text}", file=sys.stderr, flush=True)


def digest_of(path: Path) -> str:
    return hashlib.sha256(path.read_bytes()).hexdigest()


# What is kept.


@dataclass(frozen=True)
class Program:
    """A program of crates.txt, where rt ci leaves it, and the copy of it that is kept."""

    repository: Repository
    name: str

    @property
    def place(self) -> Path:
        """Where rt ci links it, and where all that uses it finds it."""
        return self.repository.folder(self.name) / "out" / self.name

    @property
    def copy(self) -> Path:
        return KEPT / self.name

    @property
    def record(self) -> Path:
        return KEPT / f"{self.name}.json"

    def needed(self) -> list[str]:
        """The crates that are proved before it stands, itself among them."""
        return [*self.repository.below(self.name), self.name]

    def kept(self) -> dict[str, str] | None:
        """What is told of the copy, where it is whole and of this very tree."""
        try:
            told = json.loads(self.record.read_text())
            if told["sources"] == self.repository.digest(self.name):
                return told if told["program"] == digest_of(self.copy) else None
        except (OSError, ValueError, KeyError, TypeError):
            pass
        return None

    def keep(self, made: Path, sources: str, kit: str) -> None:
        """Keeps a copy that was tried, with what it is made of; the record comes last."""
        self.record.unlink(missing_ok=True)
        told = {"sources": sources, "program": digest_of(made), "kit": kit,
                "date": time.strftime("%Y-%m-%d")}
        made.replace(self.copy)
        new = self.record.with_suffix(".new")
        new.write_text(json.dumps(told, indent=1) + "\n")
        new.replace(self.record)

    def put_in_place(self) -> None:
        """Puts the kept copy where it is looked for."""
        if self.place.is_file() and digest_of(self.place) == digest_of(self.copy):
            return
        self.place.parent.mkdir(exist_ok=True)
        new = self.place.with_suffix(".new")
        shutil.copy2(self.copy, new)
        new.replace(self.place)

    def trial(self, made: Path) -> str | None:
        """Runs a copy as its crate's files say; None where it does what they want."""
        def given(name: str, without: bytes = b"") -> bytes:
            path = self.repository.folder(self.name) / name
            return path.read_bytes() if path.is_file() else without
        words = [str(made), *given("args").decode().splitlines()]
        data = self.repository.folder(self.name) / "data"
        with tempfile.TemporaryDirectory(prefix="build-") as room:
            if data.is_dir():
                shutil.copytree(data, room, dirs_exist_ok=True)
            try:
                ran = subprocess.run(words, cwd=room, input=given("stdin"), capture_output=True,
                                     timeout=TRIAL_S, check=False,
                                     preexec_fn=ends_with_parent(signal.SIGKILL))
            except (OSError, subprocess.TimeoutExpired) as fault:
                return f"it cannot be run: {fault}"
        if ran.returncode != int(given("status", b"0")):
            return f"it ended with status {ran.returncode}"
        return None if ran.stdout == given("stdout") else "it wrote what its file stdout has not"


@dataclass
class Watch:
    """Looks for a program while rt ci runs, and takes it once it is whole."""

    program: Program
    sources: str
    kit: str
    tree: Path
    is_taken: bool = False
    why: str = "rt ci left none"
    opened: IO[bytes] | None = None
    seen: tuple[int, int, int] | None = None
    tries: int = 0

    @property
    def place(self) -> Path:
        """Where this run links the program."""
        return self.tree / self.program.place.relative_to(self.program.repository.root)

    def look(self, is_last: bool = False) -> bool:
        """Takes the program where it has not changed since the look before and runs."""
        if self.is_taken:
            return False
        try:
            now = self.place.stat()
        except OSError:
            # the file that was opened before can still be read, though its name is gone
            if not (is_last and self.opened):
                return False
            now = os.fstat(self.opened.fileno())
        sign = (now.st_ino, now.st_size, now.st_mtime_ns)
        if sign != self.seen:
            self.seen, self.tries = sign, 0
            self.open_anew()
            if not is_last:
                return False
        if not now.st_size or not now.st_mode & 0o100 or self.tries > 20:
            return False
        self.tries += 1
        return self.take()

    def open_anew(self) -> None:
        if self.opened:
            self.opened.close()
        try:
            self.opened = self.place.open("rb")
        except OSError:
            self.opened = None

    def take(self) -> bool:
        """Copies the program, tries the copy, and keeps it."""
        if self.opened is None:
            return False
        KEPT.mkdir(parents=True, exist_ok=True)
        made = KEPT / f"{self.program.name}.new"
        self.opened.seek(0)
        with made.open("wb") as copy:
            shutil.copyfileobj(self.opened, copy)
        made.chmod(0o755)
        why = self.program.trial(made)
        if why is None and self.sources != self.program.repository.digest(self.program.name):
            raise Stopped("the sources were changed while they were proved: build again")
        if why is not None:
            self.why = f"of the one that rt ci left: {why}"
            made.unlink()
            return False
        self.program.keep(made, self.sources, self.kit)
        self.is_taken = True
        return True


# How long it takes.


@dataclass
class Schedule:
    """The crates of a build, how long each takes, and what is proved of them."""

    repository: Repository
    crates: list[str]
    lanes: int
    proved: set[str] = field(default_factory=set)
    begun: float = field(default_factory=time.monotonic)

    def __post_init__(self) -> None:
        lines = self.repository.lines
        self.seconds = {name: BEGIN_S + SECONDS_A_LINE * lines(name) for name in self.crates}
        self.waits = {name: [it for it in self.repository.libraries[name] if it in self.seconds]
                      for name in self.crates}
        self.behind = self.chains()
        self.whole = self.from_here(set())

    def chains(self) -> dict[str, float]:
        """How long the longest chain of crates takes that begins with each one."""
        found: dict[str, float] = {}
        for name in sorted(self.crates, key=lambda it: -len(self.repository.below(it))):
            above = [found[it] for it in found if name in self.waits[it]]
            found[name] = self.seconds[name] + max(above, default=0.0)
        return found

    def from_here(self, proved: set[str]) -> float:
        """How long the rest takes, the crates with the longest chain behind them first."""
        ended, now = set(proved), 0.0
        running: list[tuple[float, str]] = []
        left = sorted({*self.crates} - ended, key=lambda it: (-self.behind[it], it))
        while left or running:
            ready = [it for it in left if all(below in ended for below in self.waits[it])]
            for name in ready[:self.lanes - len(running)]:
                left.remove(name)
                running.append((now + self.seconds[name], name))
            running.sort()
            now, name = running.pop(0)
            ended.add(name)
        return now

    def gone(self) -> float:
        return time.monotonic() - self.begun

    def left(self) -> float:
        """About how long is left, at the pace so far; at first that of the plan counts too."""
        rest = self.from_here(self.proved)
        return rest * (self.gone() + 300) / (self.whole - rest + 300)

    def told(self) -> str:
        """How far the build is, in one line."""
        gone = minutes(self.gone())
        if len(self.proved) == len(self.crates):
            return f"all {len(self.crates)} crates proved, {gone} gone; the program is compiled"
        return (f"{len(self.proved)} of {len(self.crates)} crates proved, {gone} gone,"
                f" about {minutes(self.left())} left")


def minutes(seconds: float) -> str:
    return f"{round(seconds / 60)} min"


@dataclass(frozen=True)
class Stage:
    """Crates that one run proves, those of earlier runs among them, and in which way.

    Where `is_wide` each proof has one processor, and else one proof has as many as there are.
    """

    crates: list[str]
    is_wide: bool


def stages_of(schedule: Schedule) -> list[Stage]:
    """The runs of a build: those of crates that nearly all others wait for, and the rest between."""
    crates, repository = schedule.crates, schedule.repository
    below = {name: {*repository.below(name)} for name in crates}

    def beside(name: str) -> float:
        return sum(schedule.seconds[it] for it in crates
                   if it != name and it not in below[name] and name not in below[it])
    most = BESIDE * sum(schedule.seconds.values())
    found: list[Stage] = []
    held: set[str] = set()
    for name in sorted(crates, key=lambda it: len(below[it])):
        if beside(name) > most:
            continue
        # (a crate that waits for one alone has all processors with it)
        if len(below[name] - held) > 1:
            found.append(Stage(sorted(below[name]), is_wide=True))
        elif found and not found[-1].is_wide:
            found.pop()
        held = below[name] | {name}
        found.append(Stage(sorted(held), is_wide=False))
    if held != {*crates}:
        found.append(Stage(sorted(crates), is_wide=True))
    return found


# What is at hand.


def number_in(name: str, pattern: str = r"^(\d+)") -> int:
    """The number that a file of the control group tells in this form; 0 where it tells none."""
    try:
        found = re.search(pattern, (GROUPS / name).read_text(), re.M)
    except OSError:
        return 0
    return int(found[1]) if found else 0


def processors() -> int:
    """How many processors there are to use, by the process's own set and its group's quota."""
    found = len(os.sched_getaffinity(0))
    for quota, period in (("cpu.max", ("cpu.max", r" (\d+)")),
                          ("cpu/cpu.cfs_quota_us", ("cpu/cpu.cfs_period_us",))):
        most, whole = number_in(quota), number_in(*period)
        if most and whole:
            found = max(1, min(found, most // whole))
    return found


def free_bytes() -> int:
    """The memory that is free, in the process's group too."""
    rows = Path("/proc/meminfo").read_text().splitlines()
    found = next(1024 * int(row.split()[1]) for row in rows if row.startswith("MemAvailable:"))
    for limit, held in (("memory.max", ("memory.stat", r"^anon (\d+)")),
                        ("memory/memory.limit_in_bytes",
                         ("memory/memory.stat", r"^total_rss (\d+)"))):
        most = number_in(limit)
        if most:
            found = min(found, most - number_in(*held))
    return found


def asked_lanes() -> int:
    """How many proofs RT_JOBS asks for at a time; 0 where it asks for none."""
    asked = os.environ.get("RT_JOBS", "")
    return int(asked) if asked.isdigit() else 0


def lanes_of(memory_gb: float, proof_gb: float) -> int:
    """How many proofs of so much memory each processors and memory allow."""
    return max(1, min(processors(), int(memory_gb / proof_gb)))


def lanes(memory_gb: float) -> int:
    """How many proofs run side by side: RT_JOBS, or what processors and memory allow."""
    return asked_lanes() or lanes_of(min(memory_gb, free_bytes() / 1e9), LANE_GB)


def find_kit() -> tuple[str, str]:
    """The toolchain's command and its name."""
    found = shutil.which("rt")
    if found is None:
        raise Stopped("rt: PATH: not found: the Rattle toolchain proves and builds the program:"
                      " install rattle-kit-13b or a later one, and put its command rt on PATH", 2)
    ran = subprocess.run([found, "version"], capture_output=True, text=True, check=False)
    if ran.returncode:
        told = (ran.stderr or ran.stdout).strip() or f"status {ran.returncode}"
        raise Stopped(f"rt: {found}: its version is not told: {told}", 2)
    return found, ran.stdout.strip()


def knows_anew(rt: str) -> bool:
    """Whether this kit's gate can be told to use nothing that it kept."""
    ran = subprocess.run([rt, "help"], capture_output=True, text=True, check=False)
    return "--anew" in ran.stdout + ran.stderr


# The run.


class Signals:
    """The signal that asked this process to end, if any has; a lost parent counts as one."""

    def __init__(self, with_parent: bool):
        self.number = 0
        self.parent = os.getppid() if with_parent else 0
        for number in (signal.SIGINT, signal.SIGTERM, signal.SIGHUP):
            signal.signal(number, self.note)

    def note(self, number: int, _frame: object) -> None:
        self.number = self.number or number

    def check(self) -> None:
        if self.parent and os.getppid() != self.parent:
            self.number = self.number or signal.SIGTERM
        if self.number:
            raise Stopped("interrupted: nothing of it runs on; the next one goes on from what the"
                          " toolchain keeps", 128 + self.number)


@dataclass(frozen=True)
class Run:
    """A run of rt ci that is to be made: its words, where, with how many proofs at once.

    The toolchain shares processors out by itself where `is_wide` does not hold.
    """

    words: list[str]
    tree: Path
    memory_gb: float
    lane_count: int
    is_whole: bool
    is_wide: bool = True

    @property
    def log(self) -> Path:
        """The file that holds what it prints."""
        return ROOT / "out" / ("gate.log" if self.is_whole else "build.log")

    def told(self, crate: str = "", count: int = 15) -> str:
        """The end of what it printed, or of what it printed of a crate that is not proved."""
        rows = self.log.read_text(errors="replace").splitlines()
        last = f"rt: {crate} NOT PROVED"
        if last in rows:
            rows = rows[:rows.index(last)]
        if f"== {crate}" in rows:
            rows = rows[rows.index(f"== {crate}") + 1:]
        return "\n".join(f"  {row}" for row in [*rows[-count:], f"all of it: {self.log}"])


class Gate:
    """One run of rt ci, its output written into a file and, where it is run whole, on."""

    def __init__(self, run: Run, schedule: Schedule):
        self.schedule, self.shows = schedule, run.is_whole
        self.failed: str | None = None
        self.is_cut_off = False
        run.log.parent.mkdir(exist_ok=True)
        self.log = run.log.open("ab")
        environment = {**os.environ}
        if not run.is_whole:
            # (the whole gate shares processors and memory out by itself)
            environment["RT_JOBS"] = str(run.lane_count)
        if not run.is_wide:
            environment.pop("RT_JOBS", None)
        self.process = subprocess.Popen(
            run.words, cwd=run.tree, env=environment, stdin=subprocess.DEVNULL,
            stdout=subprocess.PIPE, stderr=subprocess.STDOUT, start_new_session=True,
            preexec_fn=ends_with_parent(signal.SIGTERM))
        self.reader = threading.Thread(target=self.read, daemon=True)
        self.reader.start()

    def read(self) -> None:
        """Takes each line that the run prints, and notes what it says is proved."""
        assert self.process.stdout is not None
        for line in self.process.stdout:
            self.log.write(line)
            self.log.flush()
            if self.shows and not self.is_cut_off:
                try:
                    sys.stdout.buffer.write(line)
                    sys.stdout.buffer.flush()
                except OSError:
                    self.is_cut_off = True
            text = line.decode("utf-8", "replace").rstrip("\n")
            proved, failed = PROVED.match(text), FAILED.match(text)
            if proved and proved[1] in self.schedule.seconds:
                self.schedule.proved.add(proved[1])
            if failed and failed[1] in self.schedule.seconds:
                self.failed = self.failed or failed[1]

    def end(self) -> None:
        """Ends the run with all that it started, and reads what it printed last."""
        end(self.process)
        self.reader.join(10)
        self.log.close()


class Pauses:
    """Keeps a run within its memory: where it holds too much, its youngest proofs pause.

    A proof that pauses goes on holding what it has. So one that has only begun pauses while it
    holds little, until there is room for what a proof takes.
    """

    def __init__(self, process: subprocess.Popen[bytes], memory_gb: float):
        self.process, self.memory_gb = process, memory_gb
        self.paused: list[Member] = []
        self.next = 0.0

    def look(self) -> None:
        """Pauses a proof, or lets one go on, by what all of them hold now."""
        if time.monotonic() < self.next:
            return
        self.next = time.monotonic() + PAUSE_S
        members = {one: held_bytes(one) for one in family(self.process.pid)}
        held = {one: own / 1e9 for one, (own, _) in members.items()}
        total = sum(held.values()) + max((both for _, both in members.values()), default=0) / 1e9

        def has_room(one: Member) -> bool:
            return held[one] > BEGUN_GB or total - held[one] + LANE_GB <= self.memory_gb
        self.paused = [one for one in self.paused if one in held]
        at_work = sorted((one for one, gb in held.items()
                          if gb > SMALL_GB and one not in self.paused),
                         key=lambda one: one.started)
        last = at_work[-1] if len(at_work) > 1 else None
        if last and (total > HIGH * self.memory_gb or not has_room(last)):
            self.paused.append(last)
            self.send(last, signal.SIGSTOP)
        elif self.paused and (not at_work or (total < LOW * self.memory_gb
                                              and has_room(self.paused[0]))):
            self.send(self.paused.pop(0), signal.SIGCONT)

    @staticmethod
    def send(one: Member, number: int) -> None:
        try:
            os.kill(one.pid, number)
        except ProcessLookupError:
            pass


class Progress:
    """Tells how far a build is: a line that changes on a terminal, else one now and then."""

    def __init__(self, schedule: Schedule, is_quiet: bool):
        self.schedule = schedule
        self.is_terminal = sys.stderr.isatty() and not is_quiet
        self.is_quiet = is_quiet
        self.next = 0.0 if self.is_terminal else TELL_S

    def tell(self) -> None:
        if self.is_quiet or self.schedule.gone() < self.next:
            return
        if self.is_terminal:
            print(f"\r\x1b[Kbuild: {self.schedule.told()}", end="", file=sys.stderr, flush=True)
            self.next = self.schedule.gone() + 1
        else:
            say(self.schedule.told())
            self.next = self.schedule.gone() + TELL_S

    def close(self) -> None:
        """Ends the changing line, so that the next one stands below it."""
        if self.is_terminal and self.next:
            print(file=sys.stderr, flush=True)


def follow(run: Run, gate: Gate, watches: list[Watch], progress: Progress,
           signals: Signals) -> int | None:
    """Watches a run until all programs are taken, or to its end; gives its status there."""
    pauses = Pauses(gate.process, run.memory_gb)
    while True:
        signals.check()
        status = gate.process.poll()
        for watch in watches:
            if watch.look(is_last=status is not None) and run.is_whole:
                say(f"the program {watch.program.name} is taken out of the run")
        if status is not None:
            return status
        if gate.is_cut_off:
            raise Stopped("what the gate prints cannot be written")
        if not run.is_whole and watches and all(watch.is_taken for watch in watches):
            return None
        if not run.is_whole and gate.failed:
            raise Stopped(f"{gate.failed} is not proved:\n{run.told(gate.failed)}")
        pauses.look()
        progress.tell()
        time.sleep(LOOK_S)


def make(run: Run, watches: list[Watch], progress: Progress, signals: Signals) -> int:
    """Runs rt ci until each program is taken, or whole; its status, 0 where it was ended.

    Without programs to be taken it is run whole too.
    """
    for watch in watches:
        # no file of an earlier run may be taken for this one's
        watch.place.unlink(missing_ok=True)
    gate = Gate(run, progress.schedule)
    try:
        status = follow(run, gate, watches, progress, signals)
    finally:
        gate.end()
        progress.close()
    if status and not run.is_whole:
        raise Stopped(f"rt ci failed before the program stood:\n{run.told()}")
    return status or 0


def needed_by(programs: Iterable[Program]) -> list[str]:
    """The crates that are proved before these programs stand."""
    return sorted({name for program in programs for name in program.needed()})


@contextmanager
def own_tree(repository: Repository, crates: list[str]) -> Iterator[Path]:
    """A tree of these crates alone, without planted edits; it is removed behind its use."""
    room = GIT / "build-tree" if GIT.is_dir() else Path(tempfile.mkdtemp(prefix="build-tree-"))
    shutil.rmtree(room, ignore_errors=True)
    try:
        # a top of its own, so that rt does not look above it
        (room / ".git").mkdir(parents=True)
        rows = [row for name, row in repository.rows.items() if name in crates]
        (room / "crates.txt").write_text("".join(f"{row}\n" for row in rows))
        if (repository.root / "HANDLES").is_file():
            shutil.copy2(repository.root / "HANDLES", room / "HANDLES")
        for name in crates:
            shutil.copytree(repository.folder(name), room / "crates" / name,
                            ignore=shutil.ignore_patterns("out", "must-fail"))
        yield room
    finally:
        shutil.rmtree(room, ignore_errors=True)


def stands(programs: list[Program]) -> bool:
    """Whether each program is built of this very tree, and in its place; not while a build runs."""
    if not all(program.kept() for program in programs):
        return False
    with (KEPT / "lock").open("w") as lock:
        try:
            fcntl.flock(lock, fcntl.LOCK_EX | fcntl.LOCK_NB)
        except BlockingIOError:
            return False
        for program in programs:
            program.put_in_place()
    return True


@contextmanager
def alone(signals: Signals) -> Iterator[None]:
    """Waits until no other build runs in this folder."""
    KEPT.mkdir(parents=True, exist_ok=True)
    with (KEPT / "lock").open("w") as lock:
        is_told = False
        while True:
            try:
                fcntl.flock(lock, fcntl.LOCK_EX | fcntl.LOCK_NB)
                break
            except BlockingIOError:
                if not is_told:
                    say("another build runs here: waiting for it")
                is_told = True
                signals.check()
                time.sleep(LOOK_S)
        yield


def tell_plan(schedule: Schedule, memory_gb: float, programs: list[Program], kit: str,
              is_whole: bool) -> None:
    """Says before anything runs what it needs and how long it takes."""
    names, count = " and ".join(program.name for program in programs), len(schedule.crates)
    free_gb, disk_gb = free_bytes() / 1e9, shutil.disk_usage(ROOT).free / 1e9
    if is_whole:
        say(f"the whole gate by {kit}: about {minutes(schedule.whole * GATE_PACE)}")
    else:
        say(f"{names}: {count} crates are proved before the program is built, by {kit}:"
            f" about {minutes(schedule.whole)}")
    say(f"that is with {schedule.lanes} proofs at a time (RT_JOBS), and less where some are kept;"
        f" it needs at most {min(memory_gb, 2 * LANE_GB * schedule.lanes):.0f} GB of memory"
        f" ({free_gb:.1f} GB are free) and {count * CRATE_BYTES / 1e9:.0f} GB of disk"
        f" ({disk_gb:.0f} GB are free)")
    if free_gb < LANE_GB:
        say("so little memory is free that the system may end the proofs")


def find_built(programs: list[Program]) -> bool:
    """Whether each program is kept as one of this very tree; it is put in its place then."""
    kept = [(program, program.kept()) for program in programs]
    if not all(told for _, told in kept):
        return False
    for program, told in kept:
        assert told is not None
        program.put_in_place()
        say(f"{program.place.relative_to(ROOT)} is built already, of this very tree"
            f" ({told['date']}, {told['kit']})")
    return True


def build(programs: list[Program], memory_gb: float, signals: Signals) -> int:
    """Takes the programs that are not kept out of runs of rt ci, the last of which is ended then."""
    if find_built(programs):
        return 0
    rt, kit = find_kit()
    wanted = [program for program in programs if not program.kept()]
    repository = wanted[0].repository
    schedule = Schedule(repository, needed_by(wanted), lanes(memory_gb))
    stages = [Stage(schedule.crates, is_wide=True)]
    if knows_anew(rt) and not asked_lanes():
        stages = stages_of(schedule)
    tell_plan(schedule, memory_gb, wanted, kit, is_whole=False)
    progress = Progress(schedule, is_quiet=False)
    for stage in stages:
        with own_tree(repository, stage.crates) as tree:
            run = Run([rt, "ci"], tree, memory_gb, schedule.lanes, False, stage.is_wide)
            if stage is stages[0]:
                run.log.unlink(missing_ok=True)
            watches = watches_of(run, wanted, kit) if stage is stages[-1] else []
            make(run, watches, progress, signals)
            take_anew(run, watches, progress, signals)
    for program in programs:
        program.put_in_place()
        say(f"{program.place.relative_to(ROOT)} is built")
    return 0


def run_gate(programs: list[Program], memory_gb: float, signals: Signals) -> int:
    """Runs rt ci at the top to its end, and takes the programs out of it; its exit status."""
    rt, kit = find_kit()
    schedule = Schedule(programs[0].repository, needed_by(programs), lanes(memory_gb))
    run = Run([rt, "ci"], ROOT, memory_gb, schedule.lanes, is_whole=True)
    run.log.unlink(missing_ok=True)
    tell_plan(schedule, memory_gb, programs, kit, is_whole=True)
    watches, progress = watches_of(run, programs, kit), Progress(schedule, is_quiet=True)
    status = make(run, watches, progress, signals)
    if status:
        return status
    take_anew(run, watches, progress, signals)
    for program in programs:
        program.put_in_place()
    return 0


def stand_beside(programs: list[Program], signals: Signals) -> int:
    """Takes the programs out of a run of rt ci that the parent makes, until it is asked to end.

    It then tells how long that took and how much memory the parent and all its children held.
    """
    rt, kit = find_kit()
    run = Run([rt, "ci"], ROOT, 0.0, 0, is_whole=True)
    watches, parent = watches_of(run, programs, kit), os.getppid()
    begun, most, next_look = time.monotonic(), 0, 0.0
    while not signals.number and os.getppid() == parent:
        for watch in watches:
            watch.look()
        if time.monotonic() >= next_look:
            most = max(most, resident_bytes(family(parent)))
            next_look = time.monotonic() + 5.0
        time.sleep(LOOK_S)
    for watch in watches:
        watch.look(is_last=True)
    say(f"the gate took {minutes(time.monotonic() - begun)} and held {most / 1e9:.1f} GB at most")
    # (what a toolchain that keeps all did not build is built by the next call)
    if not knows_anew(rt):
        for watch in watches:
            if not watch.is_taken:
                raise Stopped(f"there is no program {watch.program.name}: {watch.why}")
    return 0


def watches_of(run: Run, programs: list[Program], kit: str) -> list[Watch]:
    """What looks for these programs in a run, each with the digest of what it is made of."""
    return [Watch(program, Repository(run.tree).digest(program.name), kit, run.tree)
            for program in programs]


def take_anew(run: Run, watches: list[Watch], progress: Progress, signals: Signals) -> None:
    """Takes what a run did not build, since the toolchain kept its proofs, out of one anew."""
    missing = [watch for watch in watches if not watch.is_taken and not watch.program.kept()]
    if missing and knows_anew(run.words[0]):
        say("the toolchain kept all proofs and built no program: once more with rt ci --anew")
        anew = replace(run, words=[*run.words, "--anew"], is_whole=False, is_wide=True)
        make(anew, missing, progress, signals)
    for watch in missing:
        if not watch.is_taken:
            raise Stopped(f"there is no program {watch.program.name}: {watch.why}")


def positive(word: str) -> float:
    """A number of GB that is more than none."""
    number = float(word)
    if not 0 < number < float("inf"):
        raise ValueError(word)
    return number


def parse(words: list[str], repository: Repository) -> argparse.Namespace:
    formatter = argparse.RawDescriptionHelpFormatter
    parser = argparse.ArgumentParser(description=__doc__, formatter_class=formatter)
    parser.add_argument("programs", nargs="*", default=["stdcm"], metavar="PROGRAM",
                        help="crates that are programs (stdcm)")
    parser.add_argument("--gate", action="store_true", help="run the whole gate, and print it")
    parser.add_argument("--beside", action="store_true",
                        help="take the program out of a run of rt ci that the parent makes")
    parser.add_argument("--with-parent", action="store_true",
                        help="end when the process ends that started this one")
    parser.add_argument("--lanes", type=positive, metavar="GB",
                        help="print how many proofs of so much memory may run side by side")
    parser.add_argument("--standing", action="store_true",
                        help="tell by the exit status whether the program is built already")
    parser.add_argument("--minutes", action="store_true",
                        help="print about how many minutes building takes from nothing")
    parser.add_argument("--memory", type=positive, metavar="GB",
                        help=f"the most memory that the run may hold ({MEMORY_GB:.0f}; of the gate"
                             " half of what is free, where that is more)")
    options = parser.parse_args(words)
    for name in options.programs:
        if not (repository.folder(name) / "src/main.rt").is_file():
            parser.error(f"{name}: crates.txt has no such program")
    return options


def main(words: list[str]) -> int:
    repository = Repository(ROOT)
    options = parse(words, repository)
    if options.lanes:
        print(lanes_of(free_bytes() / 1e9, options.lanes))
        return 0
    programs = [Program(repository, name) for name in options.programs]
    if options.standing:
        return 0 if stands(programs) else 1
    memory_gb = options.memory or MEMORY_GB
    if options.minutes:
        print(round(Schedule(repository, needed_by(programs), lanes(memory_gb)).whole / 60))
        return 0
    signals = Signals(options.with_parent)
    try:
        with alone(signals):
            if options.beside:
                return stand_beside(programs, signals)
            if options.gate:
                return run_gate(programs, options.memory or max(MEMORY_GB, free_bytes() / 2e9),
                                signals)
            return build(programs, memory_gb, signals)
    except Stopped as stopped:
        say(str(stopped))
        return stopped.status


if __name__ == "__main__":
    sys.exit(main(sys.argv[1:]))
