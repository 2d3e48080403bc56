"""Tries that one process at a time writes a journal, with real processes over real files.

A command that may write a journal (`serve`, `batch`, `init`) has it alone from opening it until
it is put back: another such command is refused by `open: NAME` or `disk: NAME`, and writes
nothing. `stairs`, `capacity` and `check` read it beside a server. A killed server holds nothing.
What `carry` holds is tried by tests/test_carry.py.

    PYTHONPATH=python python3 -m tests.test_lock --program crates/stdcm/out/stdcm
"""
from __future__ import annotations

import argparse
import os
import signal
import subprocess
import sys
import tempfile
import time
from collections.abc import Callable, Iterator
from contextlib import contextmanager
from dataclasses import dataclass
from pathlib import Path

from tests.runner.calls import Ended, Program, Session, stop
from tests.runner.compare import Difference

ROOT = Path(__file__).resolve().parent.parent
EXAMPLES = ROOT / "examples"
PROGRAM = ROOT / "crates/stdcm/out/stdcm"
#: The options that name a file of their own in each command, in its order of opening.
FILES = {"init": ("network", "base", "journal"), "stairs": ("network", "base", "journal"),
         "capacity": ("network", "base", "journal"),
         "serve": ("network", "trains", "base", "journal"),
         "batch": ("network", "trains", "base", "journal"),
         "check": ("network", "trains", "base", "journal")}
#: An ask that is granted at entry 0 of an empty journal, and one that is refused behind it.
GRANTED, REFUSED = "ask 1 F1 W E 6 6 0 17280 0", "ask 2 F1 W E 6 38 0 17280 0"
#: The entries of a journal that takes a while to read, and how often a reader of it is tried.
LONG, STOPS = 60_000, 40


class Wrong(Exception):
    """What a case found otherwise than it must be."""


def must(is_so: object, what: str) -> None:
    if not is_so:
        raise Wrong(what)


@dataclass
class Site:
    """A folder with the journal of a line of three blocks, and the program over it."""

    program: Program
    folder: Path

    def words(self, command: str, *more: str, journal: str = "journal") -> list[str]:
        given = {"network": EXAMPLES / "line3.json", "base": EXAMPLES / "base.json",
                 "trains": EXAMPLES / "trains.json", "journal": journal}
        return [command, *(word for name in FILES[command]
                           for word in (f"--{name}", str(given[name]))), *more]

    def call(self, command: str, *more: str, journal: str = "journal") -> Ended:
        return self.program.call(self.words(command, *more, journal=journal), self.folder)

    def begin(self, journal: str = "journal") -> None:
        ended = self.call("init", journal=journal)
        must(ended.status == 0, f"init ends with {ended.status}: {ended.report!r}")

    def bytes(self, name: str = "journal") -> bytes:
        path = self.folder / name
        return path.read_bytes() if path.is_file() else b""

    def lines(self, name: str, *lines: str) -> str:
        """Writes lines into a file of the folder."""
        (self.folder / name).write_text("".join(line + "\n" for line in lines))
        return name

    def serve(self, lines: list[str], journal: str = "journal", client: str = "Z") -> Ended:
        """One call of serve, one client's lines in a file; its output is a file of this name."""
        source = self.lines(f"{client}.lines", *lines)
        (self.folder / f"{client}.replies").unlink(missing_ok=True)
        words = f"{client}={source}:{client}.replies"
        return self.call("serve", "--client", words, journal=journal)

    def replies(self, client: str = "Z") -> list[str]:
        return self.bytes(f"{client}.replies").decode().splitlines()

    @contextmanager
    def server(self, client: str = "A", journal: str = "journal") -> Iterator[Server]:
        """A server whose one client speaks over pipes."""
        session = Session(self.program, self.folder, [client])
        try:
            session.start(self.words("serve", "--client", session.clients()[0], journal=journal))
            yield Server(session, client)
        finally:
            session.close()


@dataclass
class Server:
    """A server with one client over pipes."""

    session: Session
    client: str

    def ask(self, line: str) -> str:
        self.session.send(self.client, line.encode() + b"\n")
        return self.session.hear(self.client, f"the reply to {line!r}", "a reply")

    def must(self, line: str, reply: str) -> None:
        got = self.ask(line)
        must(got == reply, f"{line!r} is answered {got!r}, not {reply!r}")

    def end(self) -> None:
        ended = self.session.end()
        must(ended.status == 0, f"the server ends with {ended.status}: {ended.report!r}")


def must_be_refused(ended: Ended, journal: str = "journal") -> None:
    """The command met another one at the journal."""
    told = (ended.status, ended.report.decode(errors="replace"))
    must(told in ((7, f"open: {journal}\n"), (8, f"disk: {journal}\n")),
         f"it ends with status {told[0]} and {told[1]!r}, not with open: or disk: {journal}")
    must(ended.out == b"", f"it printed {ended.out!r}")


def a_second_server_is_refused(site: Site) -> None:
    site.begin()
    with site.server() as first:
        first.must("hold 1 1 10 20", "held 1 entry 0 at 1")
        before = site.bytes()
        must_be_refused(site.serve(["hold 1 2 10 20"]))
        must(site.bytes() == before, "the journal was written to")
        must(site.replies() == [], f"its client is told {site.replies()}")
        first.must("hold 2 2 10 20", "held 2 entry 1 at 2")
        first.end()
    must(site.serve(["front"]).status == 0, "no server starts behind it")
    must(site.replies() == ["front at 2"], f"the journal is left at {site.replies()}")


def a_second_server_is_refused_before_any_line(site: Site) -> None:
    """The first has not answered a line yet, so nothing but its opening can keep others out."""
    site.begin()
    with site.server() as first:
        before = site.bytes()
        must_be_refused(site.serve(["hold 1 2 10 20"]))
        must(site.bytes() == before, "the journal was written to")
        first.must("hold 1 1 10 20", "held 1 entry 0 at 1")
        first.end()


def a_refused_server_takes_no_lock_away(site: Site) -> None:
    site.begin()
    with site.server() as first:
        for _ in range(3):
            must_be_refused(site.serve(["hold 1 2 10 20"]))
        first.must("hold 1 1 10 20", "held 1 entry 0 at 1")
        first.end()


def a_journal_by_another_name_is_the_same(site: Site) -> None:
    site.begin()
    os.link(site.folder / "journal", site.folder / "linked")
    (site.folder / "pointed").symlink_to("journal")
    with site.server() as first:
        for name in ("linked", "pointed"):
            must_be_refused(site.serve(["hold 1 2 10 20"], journal=name), name)
        first.must("hold 1 1 10 20", "held 1 entry 0 at 1")
        first.end()


def two_journals_are_served_at_once(site: Site) -> None:
    site.begin()
    site.begin("other")
    with site.server("A") as first, site.server("B", journal="other") as second:
        first.must("hold 1 1 10 20", "held 1 entry 0 at 1")
        second.must("hold 1 1 10 20", "held 1 entry 0 at 1")
        first.end()
        second.end()


def servers_in_turn_each_have_the_journal(site: Site) -> None:
    site.begin()
    for number in range(5):
        ended = site.serve([f"hold {number} 1 {10 * number} {10 * number + 10}"])
        must(ended.status == 0, f"server {number} ends with {ended.status}: {ended.report!r}")
        must(site.replies() == [f"held {number} entry {number} at {number + 1}"],
             f"server {number} answers {site.replies()}")


def a_batch_beside_a_server_is_refused(site: Site) -> None:
    site.begin()
    site.lines("list", GRANTED)
    with site.server() as first:
        first.must("hold 1 1 10000 10010", "held 1 entry 0 at 1")
        before = site.bytes()
        must_be_refused(site.call("batch", "--client", "B=list:sold", "--workers", "2"))
        must(site.bytes() == before, "the journal was written to")
        must(site.bytes("sold") == b"", "replies were written")
        first.end()
    ended = site.call("batch", "--client", "B=list:sold", "--workers", "2")
    must(ended.status == 0, f"behind the server it ends with {ended.status}: {ended.report!r}")


@contextmanager
def waiting(site: Site, command: str, fifo: str, *more: str) -> Iterator[subprocess.Popen]:
    """A command that has opened its journal, and waits for the writer of a named pipe."""
    os.mkfifo(site.folder / fifo)
    process = site.program.start(site.words(command, *more), site.folder,
                                 stdin=subprocess.DEVNULL)
    try:
        yield process
    finally:
        stop(process)


def write_into(site: Site, fifo: str, process: subprocess.Popen, text: str) -> Ended:
    """Gives a waiting command what it waits for, and lets it come to its end."""
    until = time.monotonic() + site.program.limit
    while True:
        try:
            writer = os.open(site.folder / fifo, os.O_WRONLY | os.O_NONBLOCK)
            break
        except OSError:
            must(process.poll() is None and time.monotonic() < until, f"nobody opens {fifo}")
            time.sleep(0.01)
    os.set_blocking(writer, True)
    with open(writer, "w") as pipe:
        pipe.write(text)
    out, report = process.communicate(timeout=site.program.limit)
    return Ended(process.returncode, out, report)


def wait_until_it_waits(site: Site, process: subprocess.Popen, journal: str = "journal") -> None:
    """Waits until a command has the journal open."""
    until = time.monotonic() + site.program.limit
    wanted = str((site.folder / journal).resolve())
    while time.monotonic() < until and process.poll() is None:
        opened = Path(f"/proc/{process.pid}/fd")
        try:
            if any(os.readlink(one) == wanted for one in opened.iterdir()):
                time.sleep(0.1)
                return
        except OSError:
            pass
        time.sleep(0.01)
    raise Wrong("the command does not open the journal and wait")


def a_server_beside_a_batch_is_refused(site: Site) -> None:
    site.begin()
    client = ("--client", "B=list:sold", "--workers", "1")
    with waiting(site, "batch", "list", *client) as process:
        wait_until_it_waits(site, process)
        before = site.bytes()
        must_be_refused(site.serve(["hold 1 2 10 20"]))
        must(site.bytes() == before, "the journal was written to")
        ended = write_into(site, "list", process, GRANTED + "\n")
    must(ended.status == 0, f"the batch ends with {ended.status}: {ended.report!r}")
    must(site.bytes("sold").startswith(b"granted 1 entry 0 "), f"{site.bytes('sold')!r}")


def init_on_a_served_journal_is_refused(site: Site) -> None:
    site.begin()
    with site.server() as first:
        before = site.bytes()
        must_be_refused(site.call("init"))
        must(site.bytes() == before, "the journal was written to")
        first.must("hold 1 1 10 20", "held 1 entry 0 at 1")
        first.end()


def a_served_journal_can_be_read(site: Site) -> None:
    """What the three reading commands tell beside a server is what they tell without one."""
    site.begin()
    calls = {"stairs": ("--entry", "0", "--out", "stdout"),
             "capacity": ("--first", "0", "--last", "2", "--from", "0", "--to", "1000",
                          "--out", "stdout"),
             "check": ("--proof", str(EXAMPLES / "refusal.proof"))}
    with site.server() as first:
        granted = first.ask(GRANTED)
        must(granted.startswith("granted 1 entry 0 at 1 "), f"it is answered {granted!r}")
        refused = first.ask(REFUSED)
        must(refused.startswith("no-path 2 "), f"it is answered {refused!r}")
        before = site.bytes()
        beside = {name: site.call(name, *more) for name, more in calls.items()}
        must(site.bytes() == before, "the journal was written to")
        first.must("hold 3 1 10000 10010", "held 3 entry 1 at 2")
        first.end()
    for name, ended in beside.items():
        must(ended.status == 0, f"{name} ends with {ended.status}: {ended.report!r}")
        must(ended == site.call(name, *calls[name]), f"{name} tells something else behind it")
    must(beside["stairs"].out.count(b"\n") > 3, f"stairs tells {beside['stairs'].out!r}")
    must(beside["check"].report == b"proofs 1\n", f"check tells {beside['check'].report!r}")


def lengthen(site: Site, count: int, journal: str = "journal") -> None:
    """Puts so many holds of one tick behind the entries of a journal that nobody serves."""
    records = bytearray()
    for number in range(count):
        body = (b"\x01" + number.to_bytes(8, "big") + (0).to_bytes(4, "big") + b"\x01B"
                + (0).to_bytes(4, "big") + (20_000 + number).to_bytes(8, "big")
                + (20_001 + number).to_bytes(8, "big"))
        records += b"\x01" + len(body).to_bytes(4, "big") + body
    before = site.bytes(journal)
    must(before[-1:] == b"\0", "the journal does not end with a closed gate")
    (site.folder / journal).write_bytes(before[:-1] + records + b"\0")


def has_open(process: subprocess.Popen, path: Path) -> bool:
    """Whether a process has a file open at this moment."""
    try:
        opened = [*Path(f"/proc/{process.pid}/fd").iterdir()]
        return any(os.readlink(one) == str(path) for one in opened)
    except OSError:
        return False


def is_stopped_with(process: subprocess.Popen, path: Path) -> bool:
    """Stops a process once it has a file open; False where it is done with the file before."""
    while process.poll() is None:
        if has_open(process, path):
            os.kill(process.pid, signal.SIGSTOP)
            os.waitid(os.P_PID, process.pid, os.WSTOPPED | os.WEXITED | os.WNOWAIT)
            return has_open(process, path)
        time.sleep(0.001)
    return False


@contextmanager
def stopped_at_the_journal(site: Site, command: str, *more: str) -> Iterator[subprocess.Popen]:
    """A command that stands still while it has the journal open, until it gets SIGCONT.

    The journal is long, so that reading it takes a while; where the command is done with it before
    it could be stopped, another one is started.
    """
    journal = (site.folder / "journal").resolve()
    for _ in range(STOPS):
        process = site.program.start(site.words(command, *more), site.folder,
                                     stdin=subprocess.DEVNULL)
        try:
            if is_stopped_with(process, journal):
                yield process
                return
        finally:
            stop(process)
    raise Wrong(f"{command} was never found with the journal open, in {STOPS} calls")


def a_server_beside_a_reading_command_starts(site: Site) -> None:
    site.begin()
    must(site.serve([GRANTED]).status == 0, "the first server fails")
    lengthen(site, LONG)
    proof = str(EXAMPLES / "refusal.proof")
    with stopped_at_the_journal(site, "check", "--proof", proof) as process:
        ended = site.serve(["front"])
        must(ended.status == 0, f"the server ends with {ended.status}: {ended.report!r}")
        must(site.replies() == [f"front at {LONG + 1}"], f"it answers {site.replies()}")
        os.kill(process.pid, signal.SIGCONT)
        out, report = process.communicate(timeout=site.program.limit)
    told = (process.returncode, out, report)
    must(told == (0, b"", b"proofs 1\n"), f"check ends with {told}")


def a_killed_server_is_followed_at_once(site: Site) -> None:
    """Each of twenty servers is killed behind an answer; all that was answered stands."""
    site.begin()
    for number in range(20):
        with site.server() as server:
            server.must("front", f"front at {number}")
            server.must(f"hold {number} 1 {10 * number} {10 * number + 10}",
                        f"held {number} entry {number} at {number + 1}")
            server.session.kill()
    must(site.serve(["front"]).status == 0, "no server starts behind them")
    must(site.replies() == ["front at 20"], f"the journal is left at {site.replies()}")


def no_answered_sale_is_lost(site: Site) -> None:
    """Eight servers are started at once: what those tell that serve stands in the end."""
    site.begin()
    names = [f"C{number}" for number in range(8)]
    started = []
    for at, name in enumerate(names):
        site.lines(f"{name}.lines", f"hold 1 1 {10 * at} {10 * at + 10}")
        words = site.words("serve", "--client", f"{name}={name}.lines:{name}.replies")
        started.append(site.program.start(words, site.folder, stdin=subprocess.DEVNULL))
    told = {}
    for name, process in zip(names, started):
        out, report = process.communicate(timeout=site.program.limit)
        if process.returncode:
            must_be_refused(Ended(process.returncode, out, report))
            must(site.replies(name) == [], f"{name} was refused, and is told {site.replies(name)}")
        else:
            told[name] = site.replies(name)
    must(told, "nobody was served")
    entries = [replies[0].split()[3] for replies in told.values()]
    must(len({*entries}) == len(entries), f"two were told of one entry: {told}")
    for name, replies in told.items():
        at = names.index(name)
        ended = site.serve([f"hold 1 1 {10 * at} {10 * at + 10}"], client=name)
        must(ended.status == 0, f"asked again, it ends with {ended.status}")
        entry = replies[0].split()[3]
        must(site.replies(name)[0].startswith(f"kept 1 entry {entry} "),
             f"{name} was told {replies}, and now {site.replies(name)}")


CASES: list[Callable[[Site], None]] = [
    a_second_server_is_refused,
    a_second_server_is_refused_before_any_line,
    a_refused_server_takes_no_lock_away,
    a_journal_by_another_name_is_the_same,
    two_journals_are_served_at_once,
    servers_in_turn_each_have_the_journal,
    a_batch_beside_a_server_is_refused,
    a_server_beside_a_batch_is_refused,
    init_on_a_served_journal_is_refused,
    a_served_journal_can_be_read,
    a_server_beside_a_reading_command_starts,
    a_killed_server_is_followed_at_once,
    no_answered_sale_is_lost,
]


def fault_of(case: Callable[[Site], None], program: Program) -> str | None:
    """Runs a case in a fresh folder; None where all is as it must be."""
    with tempfile.TemporaryDirectory(prefix="lock-test-") as folder:
        try:
            case(Site(program, Path(folder)))
        except (Wrong, Difference) as wrong:
            return str(wrong)
        except subprocess.TimeoutExpired as fault:
            return f"no end: {fault}"
    return None


def main() -> int:
    formatter = argparse.RawDescriptionHelpFormatter
    parser = argparse.ArgumentParser(description=__doc__, formatter_class=formatter)
    parser.add_argument("--program", type=Path, default=PROGRAM, help="the built program")
    options = parser.parse_args()
    if not options.program.is_file():
        parser.error(f"no program at {options.program}: dev/build makes it")
    program = Program(options.program.resolve(), 20.0)
    failed = 0
    for case in CASES:
        fault = fault_of(case, program)
        if fault is not None:
            failed += 1
            print(f"FAILED {case.__name__.replace('_', ' ')}: {fault}", flush=True)
    print(f"{len(CASES) - failed} passed, {failed} failed")
    return 1 if failed else 0


if __name__ == "__main__":
    sys.exit(main())
