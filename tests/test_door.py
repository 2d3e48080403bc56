"""Tests of `kidrofemba door` with real processes: crashes of servers and of clients, floods,
rights, limits, and the end in order. `--long` runs the crashes at full length: 16 clients, 100,000 lines,
20 kills of the server and 100 of clients.
"""
from __future__ import annotations

import argparse
import math
import os
import random
import re
import signal
import socket
import subprocess
import sys
import threading
import time
from collections.abc import Callable
from concurrent.futures import ThreadPoolExecutor
from dataclasses import dataclass, field
from datetime import datetime, timedelta, timezone
from pathlib import Path

from kidrofemba.journal.journal_file import Claim, Entry, Kind, read_journal
from tests.crashing_client import entry_of, noted, span_of
from tests.door_world import (LONG_S, PROGRAM, Door, Failed, Talk, World, in_memory,
                              new_world, run_cases, wait_until, want)

CLIENT = Path(__file__).resolve().parent / "crashing_client.py"
REPLIES = {"hold": {"held", "kept"}, "taken": {"taken"}, "front": {"front"},
           "free": {"freed", "kept"}, "ask": {"granted", "no-path", "again", "kept"}}


@dataclass
class Crashes:
    """Clients that send so many lines in all while they and the server are killed."""

    world: World
    door: Door
    clients: list[str]
    each: int
    source: random.Random
    running: dict[int, subprocess.Popen[bytes]] = field(default_factory=dict)

    def notes(self, index: int) -> Path:
        return self.world.folder / f"notes{index}"

    def begin(self, index: int) -> None:
        """Starts a client's process."""
        self.running[index] = subprocess.Popen(
            [sys.executable, "-S", str(CLIENT), str(self.world.socket_of(self.clients[index])),
             str(self.notes(index)), str(index), str(self.each)])

    def told(self) -> int:
        """About how many lines have a noted reply: all rows are of nearly one length."""
        sizes = [self.notes(at).stat().st_size for at in range(len(self.clients))
                 if self.notes(at).exists()]
        return sum(sizes) // 30

    def run(self, server_kills: int, client_kills: int) -> tuple[int, int]:
        """Runs all clients to their ends; how often the server and clients were killed."""
        for index in range(len(self.clients)):
            self.begin(index)
        kills = ["server"] * server_kills + ["client"] * client_kills
        self.source.shuffle(kills)
        whole, done = len(self.clients) * self.each, 0
        while self.running:
            due = kills and self.told() >= done * 0.9 * whole / (server_kills + client_kills)
            if due and self.kill(kills[-1]):
                kills.pop()
                done += 1
            self.reap()
            time.sleep(0.002)
        return server_kills - kills.count("server"), client_kills - kills.count("client")

    def kill(self, which: str) -> bool:
        """Kills the server or a client; whether there was one that ran."""
        if which == "server":
            return self.door.kill_server()
        standing = [one for one in self.running.values() if one.poll() is None]
        if not standing:
            return False
        self.source.choice(standing).kill()
        return True

    def reap(self) -> None:
        """Starts clients again that were killed, and lets those go that are done."""
        for index, process in list(self.running.items()):
            status = process.poll()
            if status == 0:
                del self.running[index]
            elif status == -signal.SIGKILL:
                self.begin(index)
            elif status is not None:
                raise Failed(f"client {index} ended with {status}")

    def end(self) -> None:
        for process in self.running.values():
            process.kill()
            process.wait()


def kind_of(number: int) -> str:
    return {2: "ask", 4: "taken", 7: "front", 9: "free"}.get(number % 10, "hold")


def judge(crashes: Crashes) -> int:
    """Each reply against the entries that stand at the end: what was acknowledged stands once, and
    nothing else does. Answers how many entries there are."""
    entries = read_journal(crashes.world.journal).entries
    by_number: dict[tuple[str, int], Entry] = {}
    for entry in entries:
        want((entry.owner, entry.number) not in by_number, f"{entry} stands twice")
        by_number[entry.owner, entry.number] = entry
    told = 0
    for index, client in enumerate(crashes.clients):
        replies = noted(crashes.notes(index))
        want(sorted(replies) == list(range(crashes.each)), f"{client} has {len(replies)} replies")
        for number, reply in replies.items():
            told += judge_one(index, number, reply, by_number.get((client, number)), replies)
    want(told == len(entries), f"{len(entries)} entries, and {told} were acknowledged")
    return told


def judge_one(index: int, number: int, reply: str, entry: Entry | None,
              replies: dict[int, str]) -> int:
    """One reply against the entry of its number; how many entries it told of."""
    word, kind = reply.split()[0], kind_of(number)
    want(word in REPLIES[kind], f"client {index}, line {number}: {reply}")
    if word not in ("held", "kept", "freed", "granted"):
        want(entry is None, f"client {index}, line {number}: {reply}, and {entry} stands")
        return 0
    want(entry is not None and entry.at == entry_of(reply), f"{reply}, and {entry} stands")
    if kind == "hold":
        want(entry.kind is Kind.HOLD and entry.claims == (Claim(*span_of(index, number)),),
             f"{reply}: {entry}")
    elif kind == "free":
        want(entry.frees == entry_of(replies[number - 9]), f"{reply}: {entry}")
    else:
        runs = [str(value) for run in entry.runs
                for value in (run.block, run.enter, run.leave, int(run.stops))]
        want(reply.split(" runs ")[1].split()[1:] == runs, f"{reply}: {entry}")
    return 1


def judge_shown(crashes: Crashes, entries: int) -> None:
    """Every entry as `show` tells it, against the lines that were told of it."""
    with Talk(crashes.world.socket_of(crashes.clients[0])) as talk:
        seen = set()
        for at in range(entries):
            words = talk.say(f"show {at}")[0].split()
            want(words[:2] == ["shown", str(at)], f"show {at}: {' '.join(words)}")
            seen.add((words[5], words[7]))
        want(len(seen) == entries, f"{entries} entries, and {len(seen)} numbers of clients")
        want(talk.say(f"show {entries}")[0].startswith("unknown "), "an entry more is shown")


def crash(program: Path, folder: Path | None, clients: int, lines: int, server_kills: int,
          client_kills: int) -> None:
    """Crashes of both sides, and what stands at the end."""
    names = [f"C{index}" for index in range(clients)]
    with new_world(program, folder) as world, world.door(names) as door:
        crashes = Crashes(world, door, names, lines // clients, random.Random(1))
        begun = time.monotonic()
        try:
            killed = crashes.run(server_kills, client_kills)
        finally:
            crashes.end()
        seconds = time.monotonic() - begun
        want(killed == (server_kills, client_kills), f"killed {killed}")
        entries = judge(crashes)
        judge_shown(crashes, entries)
        starts = world.log().count("started again")
        want(starts >= server_kills, f"{starts} starts again")
        print(f"{clients} clients, {clients * crashes.each:,} lines, {killed[0]} kills of the "
              f"server ({starts} starts again) and {killed[1]} of clients: {entries:,} entries, "
              f"each acknowledged one once, in {seconds:.1f} s", file=sys.stderr)


def crashes_lose_and_double_nothing(program: Path) -> None:
    crash(program, in_memory(), 8, 4_000, 3, 10)


def long_crashes_lose_and_double_nothing(program: Path) -> None:
    crash(program, in_memory(), 16, 100_000, 20, 100)


class Bystander(threading.Thread):
    """A client that holds one span after the other while others misbehave."""

    def __init__(self, path: Path):
        super().__init__()
        self.path, self.stops, self.slowest_s, self.count = path, False, 0.0, 0
        self.wrong = ""

    def run(self) -> None:
        try:
            with Talk(self.path) as talk:
                while not self.stops:
                    begun = time.monotonic()
                    reply = talk.say(f"hold {self.count} 0 {2 * self.count} {2 * self.count + 1}")
                    if not reply[0].startswith(f"held {self.count} entry "):
                        self.wrong = reply[0]
                        return
                    self.slowest_s = max(self.slowest_s, time.monotonic() - begun)
                    self.count += 1
                    time.sleep(0.002)
        except OSError as failure:
            self.wrong = str(failure)

    def __enter__(self) -> Bystander:
        self.start()
        return self

    def __exit__(self, *_) -> None:
        self.stops = True
        self.join()
        want(not self.wrong, f"another client was told {self.wrong!r}")
        want(self.count > 20, f"another client had {self.count} replies")
        want(self.slowest_s < LONG_S / 4, f"another client waited {self.slowest_s:.1f} s")


def swallow(stream: socket.socket) -> int:
    """Reads until the peer ends; how many bytes came."""
    size = 0
    try:
        while data := stream.recv(65_536):
            size += len(data)
    except OSError:
        pass
    return size


def throw(path: Path, data: bytes) -> None:
    """Throws bytes at a socket and leaves; the door may cut it off before."""
    with socket.socket(socket.AF_UNIX) as stream:
        stream.settimeout(LONG_S)
        try:
            stream.connect(str(path))
            reader = threading.Thread(target=swallow, args=(stream,))
            reader.start()
            stream.sendall(data)
            stream.shutdown(socket.SHUT_WR)
            reader.join()
        except OSError:
            pass


def random_bytes(source: random.Random, lines: int) -> bytes:
    """Lines of random bytes, some of which begin as good ones do."""
    starts = [b"", b"", b"hold ", b"ask 1 F1 W E 0 0 ", b"after 0 ", b"show ", b"after ", b"free "]
    return b"".join(source.choice(starts) + source.randbytes(source.randrange(40)).replace(
        b"\n", b"\r") + b"\n" for _ in range(lines))


def noise_harms_nobody_else(program: Path) -> None:
    """10,000 lines of random bytes, half lines, long lines and a flood of connections."""
    source = random.Random(2)
    with new_world(program, in_memory()) as world, world.door(["A", "B"]) as door:
        noisy = world.socket_of("B")
        with Bystander(world.socket_of("A")):
            for _ in range(10):
                throw(noisy, random_bytes(source, 1_000))
            for _ in range(50):
                throw(noisy, b"hold 1 1 0 5")
                throw(noisy, b"x" * 100_000)
            for _ in range(300):
                with socket.socket(socket.AF_UNIX) as stream:
                    stream.connect(str(noisy))
        entries = read_journal(world.journal).entries
        want(all(entry.owner == "A" for entry in entries), "noise made an entry")
        with Talk(noisy) as talk:
            want(talk.say("hold 1 1 0 5")[0].startswith("held 1 "), "the noisy one is not served")
        wait_until(lambda: world.status().get('path_door_cut_off_total{client="B",why="long-line"}',
                                              0) == 50, "50 long lines are counted")
        told = sum(count for name, count in world.status().items()
                   if name.startswith('path_door_replies_total{client="B"'))
        want(told >= 10_000, f"{told:.0f} replies to 10,000 lines")
        want(door.memory_mb() < 150, f"the door took {door.memory_mb():.0f} MB")


def floods_harm_nobody_else(program: Path) -> None:
    """Four connections that send without a pause, and read."""
    with new_world(program, in_memory()) as world, world.door(["A", "B"]) as door:
        with Bystander(world.socket_of("A")):
            flood = [threading.Thread(target=throw, args=(world.socket_of("B"), b"front\n" * 5_000))
                     for _ in range(4)]
            for one in flood:
                one.start()
            for one in flood:
                one.join()
        want(door.memory_mb() < 150, f"the door took {door.memory_mb():.0f} MB")
        with Talk(world.socket_of("B")) as talk:
            want(talk.say("front")[0].startswith("front at "), "the flooding one is not served")


def peers_that_do_not_read_are_cut_off(program: Path) -> None:
    with new_world(program, in_memory()) as world, \
            world.door(["A", "B"], "--patience", "0.5") as door:
        with Bystander(world.socket_of("A")), socket.socket(socket.AF_UNIX) as deaf:
            deaf.settimeout(LONG_S)
            deaf.connect(str(world.socket_of("B")))
            try:
                for _ in range(10_000):
                    deaf.sendall(b"front\n" * 1_000)
                raise Failed("a peer that does not read could send 60 MB")
            except TimeoutError:
                raise Failed("a peer that does not read was not cut off") from None
            except OSError:
                pass
            with Talk(world.socket_of("B")) as talk:
                want(talk.say("front")[0].startswith("front at "), "it may not come again")
        wait_until(lambda: world.status().get(
            'path_door_cut_off_total{client="B",why="does-not-read"}', 0) == 1, "it is counted")
        want(door.memory_mb() < 150, f"the door took {door.memory_mb():.0f} MB")


def too_many_connections_end_the_oldest(program: Path) -> None:
    with new_world(program, in_memory()) as world, world.door(["A", "B"]):
        first = Talk(world.socket_of("B"))
        others = []
        for _ in range(4):
            others.append(Talk(world.socket_of("B")))
            time.sleep(0.05)
        want(first.replies.readline() == b"", "the oldest of five connections stands")
        want(all(one.say("front") == ["front at 0"] for one in others), "four are not served")


def words_and_shows_are_narrowed(program: Path) -> None:
    options = ["--allow", "B=ask,show,front", "--own-shows", "B"]
    with new_world(program, in_memory()) as world, world.door(["A", "B"], *options):
        with Talk(world.socket_of("A")) as talk:
            want(talk.say("hold 1 0 17000 17010") == ["held 1 entry 0 at 1"], "A holds")
        with Talk(world.socket_of("B")) as talk:
            told = talk.say("hold 1 1 0 5", "after 1 holds 1 x 1 1 0 5", "free 1 0", "HOLD",
                            "ho%d\x01", "pin 1 F1 1 0 0 5 1", "ask 7 F1 W E 6 6 0 17280 0",
                            "show 0", "show 1", "show 2", "after 9 show 0", "front", "", "after",
                            "after 2 front x")
        want(told == ["closed hold", "closed holds", "closed free", "closed HOLD",
                      "closed ho%25d%01", "closed pin", told[6], "hidden 0 at 2", told[8],
                      "unknown 2 at 2", "ahead 9 at 2", "front at 2", "bad 1", "bad 2", "bad 4"],
             f"B was told {told}")
        want(told[6].startswith("granted 7 entry 1 at 2 runs 6 0 6 "), told[6])
        want(told[8].startswith("shown 1 at 2 owner B number 7 runs "), told[8])
        with Talk(world.socket_of("A")) as talk:
            want(talk.say("show 1")[0].startswith("shown 1 at 2 owner B "), "A may see all")


def past_departures_are_refused(program: Path) -> None:
    """Tick 0 was 1,000 ticks of 10 s ago, so a path departs at tick 1,001 or later, by a moment."""
    begins = datetime.now(timezone.utc).replace(microsecond=0) - timedelta(seconds=10_000)
    base = {"tick_s": 10, "setting": 1, "release": 1, "horizon": 17280,
            "journal_bytes": 268435456, "trains": [], "begins": begins.isoformat()}
    with new_world(program, in_memory(), base_object=base) as world:
        with world.door(["A", "B"], "--no-past", "B", "--lead", "3"):
            with Talk(world.socket_of("A")) as free, Talk(world.socket_of("B")) as bound:
                told = free.say("ask 1 F1 W E 900 900 0 17280 0")
                want(told[0].startswith("granted 1 "), f"without --no-past: {told}")
                least = tick_now(begins) + 3
                told = bound.say("ask 1 F1 W E 990 2000 0 17280 0", "ask 1 F1 W E x 9 0 9 0",
                                 "after 0 pin 1 F1 1 0 990 995 1", "ask 1 F9 W E 0 0 0 0 0")
                first = int(told[0].split()[-1])
                want(told[0] == f"past 1 before {first}", told[0])
                want(1_003 <= least <= first <= tick_now(begins) + 3, f"{least}: {told[0]}")
                want(told[1:] == ["bad 6", told[2], told[3]], f"{told}")
                want(told[2].startswith("past 1 before "), told[2])
                told = bound.say(f"ask 1 F1 W E {first + 90} {first + 90} 0 17280 0")
                want(told[0].startswith("granted 1 entry 1 "), f"ahead of now: {told}")
        # Tick 0 moves back by a day, by the clock alone: the same line is now one of the past.
        late = begins - timedelta(days=1)
        world.base.write_text(world.base.read_text().replace(begins.isoformat(), late.isoformat()))
        world.journal.unlink()
        world.begin()
        with world.door(["B"]), Talk(world.socket_of("B")) as free:
            line = f"ask 5 F1 W E {first} {first} 0 17280 0"
            want(free.say(line)[0].startswith("granted 5 entry 0 "), "without --no-past")
        with world.door(["B"], "--no-past", "B"), Talk(world.socket_of("B")) as bound:
            told = bound.say(line, line.replace("ask 5", "ask 6"))
            want(told[0].startswith("kept 5 entry 0 at 1 runs "), f"sent again late: {told}")
            want(told[1].startswith("past 6 before "), f"a new one: {told}")


def tick_now(begins: datetime) -> int:
    """The first tick of 10 s that is not over."""
    return math.ceil((datetime.now(timezone.utc) - begins).total_seconds() / 10)


STATUS_ROW = re.compile(r'path_door_[a-z_]+(\{[a-z]+="[^"]*"(,[a-z]+="[^"]*")*\})? -?[0-9.e+-]+')


class StatusReader(threading.Thread):
    """Reads the status file again and again; each time it must be whole."""

    def __init__(self, file: Path):
        super().__init__()
        self.file, self.stops, self.reads, self.wrong, self.last = file, False, 0, "", ""

    def run(self) -> None:
        while not self.stops and not self.wrong:
            try:
                text = self.file.read_text()
            except FileNotFoundError:
                text = ""
            self.last = text or self.last
            rows = text.split("\n")
            good = not text or (rows[-1] == "" and rows[-2].startswith("path_door_written_seconds ")
                                and all(row.startswith("# ") or STATUS_ROW.fullmatch(row)
                                        for row in rows[:-1]))
            self.wrong = "" if good else text[-200:]
            self.reads += bool(text)
            time.sleep(0.0005)


def sigterm_ends_in_order(program: Path) -> None:
    """Open lines are replied to, the server ends with 0, and nothing is left behind."""
    names = ["A", "B", "C"]
    with new_world(program, in_memory()) as world, world.door(names) as door:
        wait_until((world.sockets / "status.prom").exists, "the status is written")
        first = open(world.sockets / "status.prom", encoding="ascii")
        reader = StatusReader(world.sockets / "status.prom")
        reader.start()
        talks = [Talk(world.socket_of(name)) for name in names]
        for at, talk in enumerate(talks):
            talk.stream.sendall("".join(f"hold {number} {at} {2 * number} {2 * number + 1}\n"
                                        for number in range(2_000)).encode())
        with ThreadPoolExecutor() as pool:
            # The last one reads once the door has been told to end, and is replied to even so.
            heard = [pool.submit(swallow_lines, talk, delay)
                     for talk, delay in zip(talks, (0, 0, 1))]
            wait_until(lambda: len(read_journal(world.journal).entries) > 300, "some are held")
            wait_until(lambda: os.fstat(first.fileno()).st_nlink == 0, "the status is replaced")
            server, status = door.server(), door.end()
        reader.stops = True
        reader.join()
        first.seek(0)
        want(first.read().endswith("\n"), "the status file was written over")
        first.close()
        want(status == 0, f"the door ended with {status}")
        want(not Path(f"/proc/{server}").exists(), "the server stands")
        want(os.listdir(world.sockets) == [], str(os.listdir(world.sockets)))
        want(not reader.wrong and reader.reads > 5, f"{reader.reads} reads: {reader.wrong!r}")
        want("end input" in world.log() and "ended with" not in world.log(), world.log())
        entries = read_journal(world.journal).entries
        told = [f"held {entry.number} entry {entry.at} at {entry.at + 1}" for entry in entries]
        replies = [reply for some in heard for reply in some.result()]
        want(sorted(replies) == sorted(told), f"{len(replies)} replies and {len(told)} entries")
        want(3 <= len(told) < 6_000, f"{len(told)} entries: the end came too late or too early")
        fronts = [float(row.rsplit(" ", 1)[1]) for row in reader.last.splitlines()
                  if row.startswith("path_door_front ")]
        want(len(fronts) == 1 and 0 <= fronts[0] <= len(told), f"{fronts} of {len(told)}")


def swallow_lines(talk: Talk, delay_s: float) -> list[str]:
    """The replies until the door ends the connection, read after a while."""
    told: list[str] = []
    time.sleep(delay_s)
    try:
        while reply := talk.replies.readline():
            told.append(reply.decode().rstrip("\n"))
    except OSError:
        pass
    return told


def limits_of_lines_start_the_server_anew(program: Path) -> None:
    with new_world(program, in_memory()) as world, world.door(["A", "B"], "--lines", "50"):
        with Talk(world.socket_of("A")) as one, Talk(world.socket_of("B")) as other:
            for number in range(1_000):
                told = one.say(f"hold {number} 0 {2 * number} {2 * number + 1}")
                want(told == [f"held {number} entry {number} at {number + 1}"], str(told))
                if number % 40 == 0:
                    want(other.say("front") == [f"front at {number + 1}"], "another one's front")
        starts = world.log().count("started again")
        want(20 <= starts <= 23, f"{starts} starts for 1,000 lines of 50")
        want(world.log().count("ended with 0 near its limit") == starts, world.log())


def killed_doors_leave_nothing_in_the_way(program: Path) -> None:
    with new_world(program, in_memory()) as world:
        with world.door(["A"]) as door, Talk(world.socket_of("A")) as talk:
            want(talk.say("hold 1 0 5 6") == ["held 1 entry 0 at 1"], "held")
            server = door.server()
            door.process.kill()
            door.process.wait()
            wait_until(lambda: not Path(f"/proc/{server}").exists(), "the server ends by itself")
            want(world.socket_of("A").exists(), "a killed door leaves its socket")
            world.socket_of("A").rename(world.sockets / "old.sock")
            (world.sockets / "old.sock").rename(world.socket_of("A"))
            words = world.door_words(["A"])
            second = subprocess.Popen(words, stderr=subprocess.DEVNULL)
            try:
                wait_until(lambda: answers(world), "a door opens where one was killed")
            finally:
                second.terminate()
            want(second.wait(LONG_S) == 0, "it ends in order")


def answers(world: World) -> bool:
    """Whether a new door answers, with what was held before."""
    try:
        with Talk(world.socket_of("A")) as talk:
            return talk.say("front") == ["front at 1"]
    except OSError:
        return False


def sockets_say_who_may_be_a_client(program: Path) -> None:
    want(os.geteuid() == 0, "only a test of root can tell")
    with new_world(program) as world:
        os.chmod(world.folder, 0o755)
        with world.door(["A", "B"], "--who", "A=nobody:nogroup:600"):
            found = world.socket_of("A").stat()
            want((found.st_uid, found.st_gid, found.st_mode & 0o777) == (65534, 65534, 0o600),
                 f"{found}")
            want(world.socket_of("B").stat().st_mode & 0o777 == 0o660, "660 unless said otherwise")
            for name, wanted in (("A", 0), ("B", 13)):
                told = as_nobody(lambda path=world.socket_of(name): Talk(path).close())
                want(told == wanted, f"nobody at {name}: {told}")


def as_nobody(work: Callable[[], None]) -> int:
    """How a work of the user nobody ends: 0, or the number of its fault."""
    child = os.fork()
    if child == 0:
        status = 255
        try:
            os.setgroups([])
            os.setgid(65534)
            os.setuid(65534)
            work()
            status = 0
        except OSError as failure:
            status = failure.errno or 255
        finally:
            os._exit(status)
    return os.waitstatus_to_exitcode(os.waitpid(child, 0)[1])


def refused(words: list[str]) -> tuple[int, str]:
    """The status of a door that does not open, and what it says."""
    told = subprocess.run(words, stderr=subprocess.PIPE, text=True, timeout=LONG_S, check=False)
    return told.returncode, told.stderr


def bad_words_and_files_are_refused(program: Path) -> None:
    with new_world(program, in_memory()) as world:
        for options, place in (
                (["--allow", "A=ask,fly"], "--allow A=ask,fly"), (["--allow", "Z=ask"], "Z is no"),
                (["--who", "A=root:root"], "--who root:root"), (["--lines", "1"], "--lines"),
                (["--no-past", "A"], f"{world.base}: begins"),
                (["--own-shows", "A", "--own-shows", "A"], "A has it twice")):
            status, told = refused(world.door_words(["A"], *options))
            want(status == 2 and place in told and told.count("\n") == 1, f"{options}: {told}")
        for names in (["A", "A"], ["A b"], [f"C{at}" for at in range(17)]):
            status, told = refused(world.door_words(names))
            want(status == 2 and told.startswith("door: words: --client"), f"{names}: {told}")
        (world.sockets / "A.sock").mkdir(parents=True)
        status, told = refused(world.door_words(["A"]))
        want(status == 2 and told.endswith("is there, and is no socket\n"), told)
        (world.sockets / "A.sock").rmdir()
        with world.door(["A"]), Talk(world.socket_of("A")) as talk:
            status, told = refused(world.door_words(["A"]))
            want(status in (2, 7), f"a second door ended with {status}: {told}")
            want(talk.say("front") == ["front at 0"], "the first door serves on")
        with world.journal.open("r+b") as journal:
            journal.write(b"X")
        status, told = refused(world.door_words(["A"]))
        want(status == 6 and told.startswith("journal: not a journal at 0\n"), told)


def servers_that_start_no_more_end_the_door(program: Path) -> None:
    """The journal is spoilt while the door serves: it says the server's status, and ends."""
    with new_world(program, in_memory()) as world, world.door(["A"]) as door:
        with Talk(world.socket_of("A")) as talk:
            want(talk.say("hold 1 0 5 6") == ["held 1 entry 0 at 1"], "held")
            world.base.write_text(world.base.read_text() + "\n")
            door.kill_server()
            want(door.process.wait(LONG_S) == 6, "the server's status is the door's")
            want("base HAD" in world.log() or "journal: base " in world.log(), world.log())
        want(world.status()["path_door_server_up"] == 0, "the status says that a server is up")


def journals_that_lost_their_end_end_the_door(program: Path) -> None:
    """The gate before entry 1 is spoilt while the door serves: the server that is started again
    knows one entry of three, and the open line must not come to be entry 1 anew."""
    with new_world(program, in_memory()) as world, world.door(["A"]) as door:
        with Talk(world.socket_of("A")) as talk:
            for at in range(3):
                told = talk.say(f"hold {at} 0 {at} {at + 1}")
                want(told == [f"held {at} entry {at} at {at + 1}"], f"{told}")
            wait_until(lambda: world.status()["path_door_front"] == 3, "the front is told")
            entry = 1 + 4 + 35  # a gate, a length, and a hold of an owner with one letter
            with world.journal.open("r+b") as journal:
                journal.seek(76 + entry)
                want(journal.read(1) == b"\1", "a gate stands there")
                journal.seek(76 + entry)
                journal.write(b"\2")
            spoilt = world.journal.read_bytes()
            door.kill_server()
            try:
                talk.stream.sendall(b"hold 9 0 1 2\n")
                want(talk.replies.readline() == b"", "the line is handed over")
            except OSError:
                pass  # the door had ended before
            want(door.process.wait(LONG_S) == 20, "the door ends with a status of its own")
        want("door: journal: its front is 1, and was 3: " in world.log(), world.log())
        want(world.journal.read_bytes() == spoilt, "something was sold into it")
        want(world.status()["path_door_server_up"] == 0, "the status says that a server is up")
        want(world.status()["path_door_front"] == 3, "the front that was told")


CASES = [crashes_lose_and_double_nothing, noise_harms_nobody_else, floods_harm_nobody_else,
         peers_that_do_not_read_are_cut_off, too_many_connections_end_the_oldest,
         words_and_shows_are_narrowed, past_departures_are_refused, sigterm_ends_in_order,
         limits_of_lines_start_the_server_anew, killed_doors_leave_nothing_in_the_way,
         sockets_say_who_may_be_a_client, bad_words_and_files_are_refused,
         servers_that_start_no_more_end_the_door, journals_that_lost_their_end_end_the_door]


def main() -> int:
    parser = argparse.ArgumentParser(description=__doc__)
    parser.add_argument("--program", type=Path, default=PROGRAM)
    parser.add_argument("--long", action="store_true", help="the crashes at full length alone")
    parser.add_argument("--case", help="the one case of this name")
    options = parser.parse_args()
    cases = [long_crashes_lose_and_double_nothing] if options.long else \
        [case for case in CASES if options.case in (None, case.__name__)]
    return run_cases(cases, options.program.resolve())


if __name__ == "__main__":
    sys.exit(main())
