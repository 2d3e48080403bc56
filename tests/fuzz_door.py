"""Drawn attacks on a door: clients that connect, send half lines, whole lines and floods, read
slowly or not at all and leave, while the server is killed and the door may open no file for a
while. Beside them others hold one span after the other, and are to have every reply.

The draws are those of --seed, which is told; when they are made is up to the machine. At the end
each entry that was acknowledged stands once and at its place, all clients are served, the door's
handles and memory stayed bounded, and SIGTERM ends it within seconds.
"""
from __future__ import annotations

import argparse
import os
import random
import resource
import socket
import subprocess
import sys
import threading
import time
from collections.abc import Callable
from dataclasses import dataclass, field
from pathlib import Path

from kidrofemba.door.limits import CONNECTIONS, handles_wanted
from kidrofemba.journal.journal_file import Entry, read_journal
from tests import door_attacker
from tests.door_world import (LONG_S, PROGRAM, Door, Failed, Talk, World, in_memory, new_world,
                              want)

HONEST = ("A", "B")
HOSTILE = ("H", "I", "J")
NAMES = (*HONEST, *HOSTILE)
ACTORS_EACH = 2
NUMBERS_EACH = 40_000
END_S = 15.0
MEMORY_MB = 80.0
OPTIONS = ("--patience", "1", "--lines", "3000", "--allow", "J=hold,front")


def hold_of(name: str, number: int) -> str:
    """A line with a span that no other one has."""
    begin = -95_000 + 2 * number
    return f"hold {number} {NAMES.index(name)} {begin} {begin + 1}"


class Honest(threading.Thread):
    """A client that holds, one line at a time, and sends a line again that has no reply."""

    def __init__(self, world: World, name: str):
        super().__init__(daemon=True)
        self.path, self.name_of = world.socket_of(name), name
        self.stops, self.wrong, self.lost = False, "", 0
        self.told: dict[int, str] = {}
        self.took_s: list[float] = []

    def run(self) -> None:
        while not self.stops and not self.wrong:
            try:
                with Talk(self.path) as talk:
                    self._talk(talk)
            except (OSError, Failed) as failure:
                self.wrong = f"{failure!r}"

    def _talk(self, talk: Talk) -> None:
        while not self.stops:
            number, begun = len(self.told), time.monotonic()
            reply = talk.say(hold_of(self.name_of, number))[0]
            self.took_s.append(time.monotonic() - begun)
            if not reply:
                self.lost += 1
                return
            if not reply.startswith((f"held {number} entry ", f"kept {number} entry ")):
                self.wrong = reply
                return
            self.told[number] = reply
            time.sleep(0.003)

    def end(self) -> None:
        self.stops = True
        self.join(LONG_S)
        want(not self.is_alive() and not self.wrong, f"{self.name_of}: {self.wrong or 'no reply'}")
        want(not self.lost, f"{self.name_of}: its connection was lost {self.lost} times")


@dataclass
class Actor:
    """What a hostile client draws, and the notes of replies that it read."""

    name: str
    path: Path
    draws: random.Random
    notes: int
    number: int
    last: int
    kept: list[socket.socket] = field(default_factory=list)

    def act(self) -> None:
        one: Callable[[], None] = self.draws.choice(
            [self.hold, self.hold, self.read_slowly, self.keep_open, self.flood, self.stay_silent]
            + [self.attack] * 6)
        one()

    def attack(self) -> None:
        """One of the short attacks, some times in a row."""
        kind = self.draws.choice([door_attacker.line_and_leave, door_attacker.lines_and_leave,
                                  door_attacker.connect_and_leave, door_attacker.long_line,
                                  door_attacker.half_line_and_leave])
        for _ in range(self.draws.randrange(1, 30)):
            kind(self.path, 0.0)

    def flood(self) -> None:
        """A flood that is read, or one that is not."""
        until = time.monotonic() + self.draws.uniform(0.1, 1)
        self.draws.choice([door_attacker.flood, door_attacker.deaf,
                           door_attacker.flood_of_closed_words])(self.path, until)

    def hold(self) -> None:
        """Holds, of whose replies some are read and noted."""
        count = min(self.draws.randrange(1, 60), self.last - self.number)
        lines = [hold_of(self.name, self.number + at) for at in range(count)]
        self.number += count
        with self._connected() as stream:
            stream.sendall("".join(f"{line}\n" for line in lines).encode())
            replies = stream.makefile("rb")
            for _ in range(self.draws.randrange(count + 1)):
                reply = replies.readline()
                if not reply.endswith(b"\n"):
                    return
                os.write(self.notes, reply)

    def read_slowly(self) -> None:
        with self._connected() as stream:
            stream.sendall(b"front\n" * 200)
            for _ in range(self.draws.randrange(60)):
                stream.recv(1)
                time.sleep(0.01)

    def keep_open(self) -> None:
        """Opens connections, and lets some of them go."""
        for _ in range(self.draws.randrange(1, 8)):
            self.kept.append(self._connected())
            self.kept[-1].sendall(self.draws.choice([b"fro", b"front\n", b"x"]))
        while len(self.kept) > 20:
            self.kept.pop(self.draws.randrange(len(self.kept))).close()

    def stay_silent(self) -> None:
        time.sleep(self.draws.uniform(0, 0.2))

    def _connected(self) -> socket.socket:
        stream = socket.socket(socket.AF_UNIX)
        stream.settimeout(2)
        try:
            stream.connect(str(self.path))
        except OSError:
            stream.close()
            raise
        return stream


def act(name: str, path: Path, notes: Path, seed: str, index: int) -> None:
    """The work of one hostile process, until it is killed."""
    out = os.open(notes, os.O_WRONLY | os.O_CREAT | os.O_APPEND)
    first = index * NUMBERS_EACH
    actor = Actor(name, path, random.Random(seed), out, first, first + NUMBERS_EACH)
    while True:
        try:
            actor.act()
        except OSError:
            time.sleep(0.01)


@dataclass
class Storm:
    """One door with all its clients, and what was seen of it."""

    world: World
    door: Door
    seed: int
    most_handles: int = 0
    most_mb: float = 0.0
    kills: int = 0
    shortages: int = 0
    honest: list[Honest] = field(default_factory=list)
    _told: int = 0
    _in_vain: int = 0

    def actors(self) -> list[subprocess.Popen[bytes]]:
        """Starts the hostile processes."""
        return [subprocess.Popen(
            [sys.executable, "-m", "tests.fuzz_door", "--act", name, str(index),
             str(self.world.socket_of(name)), str(self.notes(name, index)),
             "--seed", str(self.seed)])
            for name in HOSTILE for index in range(ACTORS_EACH)]

    def notes(self, name: str, index: int) -> Path:
        return self.world.folder / f"notes-{name}-{index}"

    def blow(self, seconds: float) -> None:
        """Kills the server and takes the door's handles at drawn moments."""
        draws, end = random.Random(self.seed), time.monotonic() + seconds
        while time.monotonic() < end:
            self.watch(min(draws.uniform(0.2, 4), max(0.0, end - time.monotonic())))
            if draws.random() < 0.3:
                self.take_handles(draws.uniform(0.1, 1), kills=draws.random() < 0.7)
            else:
                self.kill()

    def kill(self) -> None:
        """Kills the server, not more than three times before anybody else has a reply: behind eight
        starts without one the door has to end."""
        told = sum(len(one.told) for one in self.honest)
        self._in_vain = self._in_vain + 1 if told == self._told else 0
        self._told = told
        if self._in_vain < 3:
            self.kills += self.door.kill_server()

    def take_handles(self, seconds: float, kills: bool) -> None:
        """Has the door open no file more for a while."""
        pid = self.door.process.pid
        whole = resource.prlimit(pid, resource.RLIMIT_NOFILE)
        resource.prlimit(pid, resource.RLIMIT_NOFILE, (self.handles() - 1, whole[1]))
        self.shortages += 1
        if kills:
            self.kill()
        self.watch(seconds)
        resource.prlimit(pid, resource.RLIMIT_NOFILE, whole)

    def watch(self, seconds: float) -> None:
        """Looks at the door's handles and memory for a while."""
        end = time.monotonic() + seconds
        while time.monotonic() < end:
            want(self.door.process.poll() is None, f"the door ended: {self.world.log()[-500:]}")
            self.most_handles = max(self.most_handles, self.handles())
            self.most_mb = max(self.most_mb, self.resident_mb())
            time.sleep(0.02)

    def handles(self) -> int:
        return len(os.listdir(f"/proc/{self.door.process.pid}/fd"))

    def resident_mb(self) -> float:
        rows = Path(f"/proc/{self.door.process.pid}/status").read_text().splitlines()
        return next(int(row.split()[1]) / 1024 for row in rows if row.startswith("VmRSS:"))


def judge(storm: Storm, honest: list[Honest]) -> int:
    """What was acknowledged against the journal; how many entries it has."""
    entries = read_journal(storm.world.journal).entries
    by_number: dict[tuple[str, int], Entry] = {}
    for entry in entries:
        want((entry.owner, entry.number) not in by_number, f"{entry} stands twice")
        by_number[entry.owner, entry.number] = entry
    for one in honest:
        want(len(one.told) > 20, f"{one.name_of} had {len(one.told)} replies")
        for reply in one.told.values():
            judge_one(one.name_of, reply, by_number)
        own = sum(entry.owner == one.name_of for entry in entries)
        want(own in (len(one.told), len(one.told) + 1), f"{one.name_of}: {own} entries")
    for name in HOSTILE:
        for index in range(ACTORS_EACH):
            notes = storm.notes(name, index)
            for reply in notes.read_text().split("\n")[:-1] if notes.exists() else []:
                judge_one(name, reply, by_number)
    return len(entries)


def judge_one(owner: str, reply: str, by_number: dict[tuple[str, int], Entry]) -> None:
    """One reply to a hold against the entry of its number."""
    words = reply.split()
    want(words[0] in ("held", "kept") and words[2] == "entry", f"{owner} was told {reply}")
    entry = by_number.get((owner, int(words[1])))
    want(entry is not None and entry.at == int(words[3]), f"{owner}: {reply}, and {entry} stands")
    want(entry is not None and hold_of(owner, entry.number).split()[2:] == [
        str(value) for claim in entry.claims for value in (claim.zone, claim.begin, claim.end)],
        f"{owner}: {reply}: {entry}")


def fuzz(program: Path, seed: int, seconds: float) -> str:
    """A storm of so many seconds; what was seen."""
    with new_world(program, in_memory()) as world, world.door(NAMES, *OPTIONS) as door:
        honest = [Honest(world, name) for name in HONEST]
        storm = Storm(world, door, seed, honest=honest)
        for one in honest:
            one.start()
        actors = storm.actors()
        try:
            storm.blow(seconds)
            for one in honest:
                one.end()
            begun = time.monotonic()
            status = end_after_serving(storm, actors) if seed % 2 else door.end()
            took_s = time.monotonic() - begun
        finally:
            for actor in actors:
                actor.kill()
                actor.wait()
        want(status == 0 and took_s < END_S, f"SIGTERM: {status} behind {took_s:.1f} s")
        want("Traceback" not in world.log(), world.log()[:2_000])
        want(storm.most_handles <= handles_wanted(len(NAMES), CONNECTIONS),
             f"{storm.most_handles} handles")
        want(storm.most_mb < MEMORY_MB, f"{storm.most_mb:.0f} MB")
        return text_of(storm, honest, judge(storm, honest), took_s)


def end_after_serving(storm: Storm, actors: list[subprocess.Popen[bytes]]) -> int:
    """Ends the storm, looks whether all clients are served, and ends the door."""
    for actor in actors:
        actor.kill()
        actor.wait()
    for name in NAMES:
        with Talk(storm.world.socket_of(name)) as talk:
            want(talk.say("front")[0].startswith("front at "), f"{name} is not served any more")
    return storm.door.end()


def text_of(storm: Storm, honest: list[Honest], entries: int, took_s: float) -> str:
    took = sorted(value for one in honest for value in one.took_s)
    return (f"{storm.kills} kills, {storm.shortages} shortages; "
            f"{', '.join(f'{one.name_of} {len(one.told)}' for one in honest)} replies, half "
            f"within {1000 * took[len(took) // 2]:.0f} ms, 99 of 100 within "
            f"{1000 * took[len(took) * 99 // 100]:.0f} ms, all within {took[-1]:.1f} s; "
            f"{entries} entries; {storm.most_handles} handles, {storm.most_mb:.0f} MB; "
            f"ended in {took_s:.1f} s")


def main() -> int:
    parser = argparse.ArgumentParser(description=__doc__)
    parser.add_argument("--program", type=Path, default=PROGRAM)
    parser.add_argument("--seed", type=int, default=random.SystemRandom().randrange(1_000_000))
    parser.add_argument("--seconds", type=float, default=60.0)
    parser.add_argument("--act", nargs=4, metavar=("NAME", "INDEX", "SOCKET", "NOTES"),
                        help="be one hostile process; for this program alone")
    options = parser.parse_args()
    if options.act is not None:
        name, index, path, notes = options.act
        act(name, Path(path), Path(notes), f"{options.seed} {name} {index}", int(index))
    print(f"--seed {options.seed} --seconds {options.seconds:g}", flush=True)
    try:
        print(fuzz(options.program.resolve(), options.seed, options.seconds))
    except (Failed, OSError) as wrong:
        print(f"FAILED: {wrong}")
        return 1
    return 0


if __name__ == "__main__":
    sys.exit(main())
