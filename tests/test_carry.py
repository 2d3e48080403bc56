"""Tests of the command `carry` over real files: a full journal that goes on, sold paths that a new
timetable is in the way of, drawn journals beside a plain model, servers at both journals, disks
that are full, and kills.

    PYTHONPATH=python python3 -m tests.test_carry --program crates/stdcm/out/stdcm
"""
from __future__ import annotations

import fcntl
import hashlib
import os
import random
import resource
import signal
import subprocess
import sys
import tempfile
import time
from collections.abc import Callable, Iterator, Sequence
from contextlib import contextmanager
from dataclasses import dataclass, field
from pathlib import Path

from kidrofemba.journal.journal_file import Claim, Entry, read_journal
from tests.cases import Cases, World, program_of

REPOSITORY = Path(__file__).resolve().parent.parent


EXAMPLES = REPOSITORY / "examples"
SETTINGS = {"tick_s": 10, "setting": 1, "release": 1, "horizon": 17280,
            "journal_bytes": 268435456, "trains": []}
#: A journal's bytes before its first gate.
HEADER = 76
#: The seconds that a call may take on a machine that is busy.
LIMIT_S = 120.0
#: The options of a carry, and what they name in the folder.
NAMES = {"network": "network", "base": "later", "journal": "new", "from": "journal",
         "from-base": "base"}
#: The path of F1 from W to E over the three blocks of the example: when the head enters and leaves
#: each behind the departure; and when each zone is taken from on and before, without setting and
#: release.
RUNS = ((0, 15), (15, 25), (25, 39))
ZONES = ((0, 17), (0, 31), (13, 39))
#: The seed of what is drawn.
SEED = 20261129


@dataclass(frozen=True)
class Told:
    """How a call ended, and what it told."""

    status: int
    out: str
    report: str


@dataclass(frozen=True)
class Site(World):
    """A folder with the files of a line of three blocks, and the program over them."""

    def held(self, name: str) -> bytes:
        """The bytes of a file, none where it is not there."""
        return self.path(name).read_bytes() if self.path(name).exists() else b""

    def base(self, name: str, **settings: object) -> None:
        """Writes a base file with these settings in the place of the usual ones."""
        self.write(name, SETTINGS | settings)

    def words(self, command: str, names: dict[str, str], *more: str) -> list[str]:
        return [str(self.program), command,
                *(word for option, name in names.items() for word in (f"--{option}", name)), *more]

    def start(self, words: list[str], file_size: int | None = None) -> subprocess.Popen[str]:
        """Starts a call in the folder; `file_size` bounds each file that it writes, as a full disk
        does."""
        def bounded() -> None:
            if file_size is not None:
                signal.signal(signal.SIGXFSZ, signal.SIG_IGN)
                resource.setrlimit(resource.RLIMIT_FSIZE, (file_size, file_size))
        return subprocess.Popen(words, cwd=self.folder, stdin=subprocess.PIPE, text=True,
                                stdout=subprocess.PIPE, stderr=subprocess.PIPE,
                                restore_signals=file_size is None, preexec_fn=bounded)

    def call(self, words: list[str], lines: str = "", file_size: int | None = None) -> Told:
        return ended(self.start(words, file_size), lines)

    def init(self, base: str = "base", journal: str = "journal") -> None:
        told = self.call(self.words("init", {"network": "network", "base": base,
                                             "journal": journal}))
        if told.status:
            raise SystemExit(f"init: {told}")

    def serving(self, client: str, base: str, journal: str) -> list[str]:
        return self.words("serve", {"network": "network", "trains": "trains", "base": base,
                                    "journal": journal}, "--client", f"{client}=stdin:stdout")

    def serve(self, client: str, lines: Sequence[str], base: str = "base",
              journal: str = "journal") -> list[str]:
        """The replies to a client's lines."""
        told = self.call(self.serving(client, base, journal),
                         "".join(line + "\n" for line in lines))
        if told.status:
            raise SystemExit(f"serve: {told}")
        return told.out.splitlines()

    def opens_as(self, base: str = "later", journal: str = "new") -> str:
        """The front of a journal, or why it is refused."""
        told = self.call(self.serving("Z", base, journal), "front\n")
        return (told.out if told.status == 0 else told.report).rstrip("\n")

    def carrying(self, **names: str) -> list[str]:
        return self.words("carry", NAMES | {key.replace("_", "-"): name
                                            for key, name in names.items()})

    def carry(self, file_size: int | None = None, **names: str) -> Told:
        return self.call(self.carrying(**names), file_size=file_size)

    def journal_of(self, records: Sequence[bytes], base: str = "later") -> bytes:
        """The bytes of a journal with these records, as docs/FORMATS.md tells them."""
        digests = b"".join(hashlib.sha256(self.held(name)).digest() for name in ("network", base))
        return b"STDCMJNL" + (2).to_bytes(4, "big") + digests + b"".join(records) + b"\0"


def ended(process: subprocess.Popen[str], lines: str = "") -> Told:
    """A call that is brought to its end."""
    try:
        out, report = process.communicate(lines, timeout=LIMIT_S)
    except subprocess.TimeoutExpired:
        process.kill()
        out, report = process.communicate()
        return Told(-1, out, f"{report}no end within {LIMIT_S} s")
    return Told(process.returncode, out, report)


@contextmanager
def new_site(program: Path, **settings: object) -> Iterator[Site]:
    """A folder with a network, trains, a base file with these settings, and the same as a later
    one."""
    with tempfile.TemporaryDirectory(prefix="carry-test-") as name:
        site = Site(program, Path(name))
        for file, example in (("network", "line3.json"), ("trains", "trains.json")):
            site.path(file).write_bytes((EXAMPLES / example).read_bytes())
        site.base("base", **settings)
        site.base("later", **settings)
        yield site


def records_of(journal: bytes) -> list[bytes]:
    """The records of a journal, each behind its gate."""
    found, at = [], HEADER
    while journal[at] == 1:
        end = at + 5 + int.from_bytes(journal[at + 1:at + 5], "big")
        found.append(journal[at:end])
        at = end
    return found


def hold_record(number: int, zone: int, begin: int) -> bytes:
    """The record of a hold of one tick, of the client A."""
    body = (b"\x01" + number.to_bytes(8, "big") + number.to_bytes(4, "big") + b"\x01A"
            + zone.to_bytes(4, "big") + begin.to_bytes(8, "big", signed=True)
            + (begin + 1).to_bytes(8, "big", signed=True))
    return b"\x01" + len(body).to_bytes(4, "big") + body


def write_holds(site: Site, count: int) -> None:
    """An old journal of so many holds, each of one tick of zone 0."""
    records = [hold_record(number, 0, number) for number in range(count)]
    site.path("journal").write_bytes(site.journal_of(records, base="base"))


@dataclass(frozen=True)
class Timetable:
    """A timetable of the plain model: settings, and what each planned train takes."""

    setting: int
    release: int
    horizon: int
    trains: list[list[Claim]] = field(default_factory=list)

    def settings(self) -> dict[str, object]:
        """The same as settings of a base file."""
        return {"setting": self.setting, "release": self.release, "horizon": self.horizon,
                "trains": [{"name": f"P{at}", "requirements": [
                    {"zone": one.zone, "from": one.begin, "to": one.end} for one in claims]}
                    for at, claims in enumerate(self.trains)]}

    def claims_of(self, entry: Entry) -> list[Claim]:
        """What an entry takes: a hold its claims, a path the zones of the three blocks."""
        if not entry.runs:
            return [*entry.claims]
        departs = entry.runs[0].enter
        return [Claim(zone, departs + begin - self.setting, departs + end + self.release)
                for zone, (begin, end) in enumerate(ZONES)]

    def reason(self, entry: Entry, live: Sequence[tuple[Claim, str]]) -> str | None:
        """Why an entry is left out beside these claims and their owners."""
        for at, run in enumerate(entry.runs):
            if run.leave > self.horizon:
                return f"breaks run {at} rule 5"
        clashes = [(one.zone, one.begin, owner) for one, owner in live
                   for claim in self.claims_of(entry) if one.zone == claim.zone
                   and one.begin < claim.end and claim.begin < one.end]
        return "taken zone {0} by {2}".format(*min(clashes)) if clashes else None

    def carries(self, entries: Sequence[Entry]) -> tuple[list[int], list[str]]:
        """The positions of the live entries that are carried, and the lines of the others."""
        live = [(claim, f"base {at}") for at, claims in enumerate(self.trains) for claim in claims]
        kept, left = [], []
        for entry in entries:
            reason = self.reason(entry, live)
            if reason is None:
                kept.append(entry.at)
                live += [(claim, f"entry {entry.at}") for claim in self.claims_of(entry)]
            else:
                left.append(f"entry {entry.at} owner {entry.owner} number {entry.number} {reason}")
        return kept, left


def try_full_journals(cases: Cases, program: Path) -> None:
    """A journal is filled, carried into one with more room, and served on."""
    lines = [f"hold {number} 0 {100 * number} {100 * number + 5}" for number in range(1, 13)]
    kept = [f"kept {number} entry {number - 1} at 8 hold 0 {100 * number} {100 * number + 5}"
            for number in range(1, 9)]
    with new_site(program, journal_bytes=400) as site:
        site.base("later", journal_bytes=800)
        site.init()
        # An entry of A takes 40 bytes, so that 8 stand beside a header and a gate in 400.
        cases.equal("a journal is filled",
                    [f"held {number} entry {number - 1} at {number}" for number in range(1, 9)]
                    + [f"full {number} at 8" for number in range(9, 13)], site.serve("A", lines))
        old = site.held("journal")
        cases.equal("a full journal is carried", Told(0, "", "carried 8 left 0\n"), site.carry())
        cases.equal("its bytes", site.journal_of(records_of(old)), site.held("new"))
        cases.equal("the old journal is as it was", old, site.held("journal"))
        cases.equal("it goes on, and what stood is kept",
                    kept + [f"held {number} entry {number - 1} at {number}"
                            for number in range(9, 13)],
                    site.serve("A", lines, "later", "new"))
        cases.equal("a carried journal is carried back",
                    Told(0, "", "carried 12 left 0\n"),
                    site.carry(**{"base": "base", "journal": "back", "from": "new",
                                  "from_base": "later"}))
        cases.equal("one with more bytes than its base file allows is full",
                    ["kept 12 entry 11 at 12 hold 0 1200 1205", "full 13 at 12", "full 14 at 12"],
                    site.serve("A", [lines[11], "hold 13 0 0 5", "free 14 0"], "base", "back"))


def try_shorter_journals(cases: Cases, program: Path) -> None:
    """What was freed is left behind: over one base file a carry makes room of it."""
    with new_site(program, journal_bytes=400) as site:
        site.init()
        # Four holds take 160 bytes, and two frees 56: 107 are left, for two holds.
        site.serve("A", [*(f"hold {at} 0 {10 * at} {10 * at + 5}" for at in range(1, 5)),
                         "free 5 0", "free 6 2"])
        told = site.serve("A", [f"hold {at} 1 {10 * at} {10 * at + 5}" for at in range(7, 12)])
        cases.equal("two more have room", ["held", "held", "full", "full", "full"],
                    [reply.split()[0] for reply in told])
        records = records_of(site.held("journal"))
        cases.equal("it is carried by one base file", Told(0, "", "carried 4 left 0\n"),
                    site.carry(base="base"))
        cases.equal("the live ones in their order",
                    site.journal_of([records[at] for at in (1, 3, 6, 7)], "base"),
                    site.held("new"))
        # The number 1 is that of a hold that was freed, so that it is new again.
        told = site.serve("A", ["hold 2 0 20 25", "hold 1 2 0 9", *(
            f"hold {at} 1 {10 * at} {10 * at + 5}" for at in range(9, 14))], "base", "new")
        cases.equal("four more have room", ["kept 2 entry 0 at 4 hold 0 20 25",
                                            "held 1 entry 4 at 5", "held 9 entry 5 at 6",
                                            "held 10 entry 6 at 7", "held 11 entry 7 at 8",
                                            "full 12 at 8", "full 13 at 8"], told)


def try_planned_trains(cases: Cases, program: Path) -> None:
    """A planned train more stands across a sold path."""
    across = [{"name": "IC 1", "requirements": [{"zone": 1, "from": 110, "to": 115}]}]
    line = "entry 0 owner A number 1 taken zone 1 by base 0\n"
    with new_site(program) as site:
        site.base("later", trains=across)
        site.init()
        lines = ["ask 1 F1 W E 100 100 0 139 0", "hold 2 0 500 510"]
        sold = site.serve("A", lines)
        cases.equal("sold and held", ["granted 1 entry 0 at 1 runs 3 0 100 115 0 1 115 125 0 "
                                      "2 125 139 1", "held 2 entry 1 at 2"], sold)
        old = site.held("journal")
        cases.equal("a carry tells what is in the way", Told(1, "", line), site.carry())
        cases.equal("and writes nothing", b"", site.held("new"))
        cases.equal("with a file for such lines it goes on", Told(0, "", "carried 1 left 1\n"),
                    site.carry(left="left"))
        cases.equal("the file has the line", line.encode(), site.held("left"))
        new = site.journal_of(records_of(old)[1:])
        cases.equal("the journal has the hold", new, site.held("new"))
        cases.equal("the old journal is as it was", old, site.held("journal"))
        cases.equal("a journal that stands is not written over",
                    Told(6, "", f"journal: not empty {len(new)}\n"), site.carry(left="left"))
        cases.equal("nor is its file of lines", line.encode(), site.held("left"))
        cases.equal("into another one", Told(0, "", "carried 1 left 1\n"),
                    site.carry(left="left", journal="newer"))
        cases.equal("lines are added to those that stand", 2 * line.encode(), site.held("left"))
        cases.equal("lines that are sent again",
                    ["no-path 1 at 1", "kept 2 entry 0 at 1 hold 0 500 510",
                     "granted 3 entry 1 at 2 runs 3 0 120 135 0 1 135 145 0 2 145 159 1"],
                    site.serve("A", [*lines, "ask 3 F1 W E 120 120 0 17280 0"], "later", "new"))
        stood = site.held("journal"), site.held("left")
        for names in ({"journal": "journal"}, *({"left": name} for name in NAMES.values())):
            cases.equal(f"names that must differ: {names}",
                        Told(2, "", "words not understood\n"), site.carry(**names))
        cases.equal("nothing was written", stood, (site.held("journal"), site.held("left")))


def drawn_lines(draw: random.Random, number: int, own: list[int]) -> str:
    """A line of a client that has these live entries."""
    kind = draw.random()
    if kind < 0.2 and own:
        return f"free {number} {own[draw.randrange(len(own))]}"
    begin = draw.randrange(0, 4000)
    if kind < 0.5:
        return f"hold {number} {draw.randrange(3)} {begin} {begin + draw.randrange(1, 12)}"
    if kind < 0.65:
        spans = " ".join(f"{zone} {begin + 3 * zone} {begin + 9}" for zone in range(3))
        return f"holds {number} works%20{number} 3 {spans}"
    if kind < 0.75:
        return f"ask {number} F1 W E {begin} {begin} 0 {begin + RUNS[-1][1]} 0"
    runs = " ".join(f"{block} {begin + enter} {begin + leave} {int(block == 2)}"
                    for block, (enter, leave) in enumerate(RUNS))
    return f"pin {number} F1 3 {runs}"


def sell_drawn(site: Site, draw: random.Random, clients: Sequence[str]) -> None:
    """Sells and holds what is drawn, in rounds of a client's lines each."""
    numbers = dict.fromkeys(clients, 0)
    for _ in range(3):
        for client in clients:
            own = [entry.at for entry in read_journal(site.path("journal")).live()
                   if entry.owner == client]
            first = numbers[client]
            numbers[client] += 25
            site.serve(client, [drawn_lines(draw, number, own)
                                for number in range(first, numbers[client])])


def drawn_timetable(draw: random.Random) -> Timetable:
    """A timetable to carry into: like the old one or not, and planned trains that don't clash."""
    taken: dict[int, int] = dict.fromkeys(range(3), -200)
    trains = []
    for _ in range(draw.randrange(6)):
        claims = []
        for zone in range(3):
            taken[zone] += draw.randrange(1, 1200)
            claims.append(Claim(zone, taken[zone], taken[zone] + draw.randrange(1, 40)))
            taken[zone] = claims[-1].end
        trains.append(claims)
    return Timetable(draw.randrange(1, 4), draw.randrange(1, 6),
                     draw.choice((17280, 3500, 2000)), trains)


def try_drawn_journals(cases: Cases, program: Path) -> None:
    """Drawn journals are carried into drawn timetables, as the plain model carries them."""
    draw = random.Random(SEED)
    clients = ("A", "B-2", "c" * 32)
    reasons: set[str] = set()
    for world in range(4):
        with new_site(program) as site:
            site.init()
            sell_drawn(site, draw, clients)
            old = site.held("journal")
            entries, records = read_journal(site.path("journal")).live(), records_of(old)
            for number in range(6):
                name = f"drawn journal {world}, timetable {number}"
                table = drawn_timetable(draw)
                site.base("later", **table.settings())
                kept, left = table.carries(entries)
                reasons.update(word for line in left for word in ("base", "entry", "breaks")
                               if f" {word} " in line.partition(" number ")[2])
                for file in ("new", "left"):
                    site.path(file).unlink(missing_ok=True)
                if left:
                    cases.equal(f"{name}: the first that is in the way",
                                Told(1, "", f"{left[0]}\n"), site.carry())
                    cases.equal(f"{name}: nothing is written", b"", site.held("new"))
                cases.equal(f"{name}: carried",
                            Told(0, "", f"carried {len(kept)} left {len(left)}\n"),
                            site.carry(left="left"))
                cases.equal(f"{name}: lines", left, site.held("left").decode().splitlines())
                cases.equal(f"{name}: bytes", site.journal_of([records[at] for at in kept]),
                            site.held("new"))
                cases.equal(f"{name}: it opens", f"front at {len(kept)}", site.opens_as())
            cases.equal(f"drawn journal {world}: the old one is as it was", old,
                        site.held("journal"))
    cases.equal("all reasons were told", {"base", "entry", "breaks"}, reasons)


def waits_at(process: subprocess.Popen[str], is_there: Callable[[], bool]) -> bool:
    """Waits until something is so of a call that runs."""
    until = time.monotonic() + LIMIT_S
    while not is_there():
        if process.poll() is not None or time.monotonic() > until:
            return False
        time.sleep(0.001)
    return True


def read_by(site: Site, *words: str) -> str:
    """What a command reads of a named pipe, none where nobody writes to it."""
    try:
        return subprocess.run(words, cwd=site.folder, stdout=subprocess.PIPE, text=True,
                              timeout=LIMIT_S, check=False).stdout
    except subprocess.TimeoutExpired:
        return ""


def has_open(process: subprocess.Popen[str], path: Path) -> bool:
    """Whether a process has a file open."""
    try:
        return any(os.readlink(one) == str(path.resolve())
                   for one in Path(f"/proc/{process.pid}/fd").iterdir())
    except OSError:
        return False


def try_servers(cases: Cases, program: Path) -> None:
    """A server and a carry are not at one journal at the same time."""
    with new_site(program) as site:
        site.base("later", trains=[{"name": "P", "requirements": [
            {"zone": 0, "from": 0, "to": 5}]}])
        site.init()
        site.serve("A", ["hold 1 0 0 5", "hold 2 1 0 5"])
        server = site.start(site.serving("B", "base", "journal"))
        cases.holds("a server has the old journal",
                    waits_at(server, lambda: has_open(server, site.path("journal"))))
        cases.equal("a carry beside a server", Told(7, "", "open: journal\n"),
                    site.carry(left="left"))
        cases.equal("it writes nothing", (b"", b""), (site.held("new"), site.held("left")))
        cases.equal("the server goes on", ["held 1 entry 2 at 3"],
                    ended(server, "hold 1 2 0 5\n").out.splitlines())
        try_stopped_carries(cases, site)
        with site.path("new").open("ab") as other:
            fcntl.flock(other, fcntl.LOCK_EX)
            cases.equal("another has the new journal", Told(7, "", "open: new\n"), site.carry())
        cases.equal("nobody has it", Told(0, "", "carried 2 left 1\n"), site.carry(left="left"))


def try_stopped_carries(cases: Cases, site: Site) -> None:
    """A carry stands still at a named pipe for its lines: it has the old journal meanwhile."""
    os.mkfifo(site.path("pipe"))
    before = site.held("journal")
    carry = site.start(site.carrying(left="pipe"))
    cases.holds("a carry has the old journal",
                waits_at(carry, lambda: has_open(carry, site.path("journal"))))
    cases.equal("a server beside a carry", "open: journal", site.opens_as("base", "journal"))
    cases.equal("a carry beside a carry", Told(7, "", "open: journal\n"),
                site.carry(journal="other"))
    cases.equal("nothing is written before the lines", b"", site.held("new"))
    cases.equal("the lines", "entry 0 owner A number 1 taken zone 0 by base 0\n",
                read_by(site, "cat", "pipe"))
    cases.equal("it comes to its end", Told(0, "", "carried 2 left 1\n"), ended(carry))
    cases.equal("the old journal is as it was", before, site.held("journal"))
    cases.equal("the new one has what was carried",
                site.journal_of(records_of(before)[1:]), site.held("new"))
    site.path("new").unlink()


def try_lost_lines(cases: Cases, program: Path) -> None:
    """Who reads the lines goes away before the last of them: no journal is written."""
    with new_site(program) as site:
        site.base("later", trains=[{"name": "P", "requirements": [
            {"zone": 0, "from": 0, "to": 5000}]}])
        write_holds(site, 5000)
        os.mkfifo(site.path("pipe"))
        carry = site.start(site.carrying(left="pipe"))
        cases.equal("the first line", "entry 0 owner A number 0 taken zone 0 by base 0\n",
                    read_by(site, "head", "-n", "1", "pipe"))
        cases.equal("the rest is not read", Told(10, "", "left: pipe\n"), ended(carry))
        cases.equal("no journal is written", b"", site.held("new"))
        cases.equal("a folder in the place of the file", Told(7, "", "open: .\n"),
                    site.carry(left="."))
        cases.equal("and no journal", b"", site.held("new"))
        cases.equal("all lines are read", Told(0, "", "carried 0 left 5000\n"),
                    site.carry(left="left"))
        cases.equal("a line each", [f"entry {at} owner A number {at} taken zone 0 by base 0"
                                    for at in range(5000)],
                    site.held("left").decode().splitlines())


def try_full_disks(cases: Cases, program: Path) -> None:
    """The disk is full behind so many bytes of the new journal."""
    with new_site(program) as site:
        site.base("later", journal_bytes=200_000_000)
        write_holds(site, 20)
        whole = site.journal_of(records_of(site.held("journal")))
        for size in (0, 1, 2, HEADER - 1, HEADER, HEADER + 1, len(whole) - 1):
            name = f"room for {size} bytes"
            cases.equal(f"{name}: a carry", Told(8, "", "disk: new\n"), site.carry(size))
            cases.equal(f"{name}: what stands", (b"\0" + whole[1:])[:size], site.held("new"))
            cases.equal(f"{name}: it is refused", "journal: not a journal at 0" if size
                        else "journal: empty", site.opens_as())
            if size:
                cases.equal(f"{name}: it is not written over",
                            Told(6, "", f"journal: not empty {size}\n"), site.carry())
            site.path("new").unlink()
        cases.equal("room for all", Told(0, "", "carried 20 left 0\n"), site.carry(len(whole)))
        cases.equal("all stands", whole, site.held("new"))


def is_begun(site: Site) -> bool:
    path = site.path("new")
    return path.exists() and path.stat().st_size > 0


def try_kills(cases: Cases, program: Path, count: int = 60_000, kills: int = 24) -> None:
    """A carry is killed at a drawn moment, or once the new disk has a byte."""
    draw = random.Random(SEED)
    with new_site(program) as site:
        site.base("later", journal_bytes=200_000_000)
        write_holds(site, count)
        old = site.held("journal")
        whole = site.journal_of(records_of(old))
        begun = time.monotonic()
        cases.equal("it is not killed", Told(0, "", f"carried {count} left 0\n"), site.carry())
        length_s = time.monotonic() - begun
        cases.holds("all stands", site.held("new") == whole)
        found = {"empty": 0, "refused": 0, "whole": 0}
        for kill in range(kills):
            site.path("new").unlink(missing_ok=True)
            carry = site.start(site.carrying())
            if kill % 2:
                waits_at(carry, lambda: is_begun(site))
            else:
                time.sleep(draw.random() * 1.1 * length_s)
            carry.kill()
            ended(carry)
            new = site.held("new")
            state = "whole" if new == whole else "empty" if not new else "refused"
            found[state] += 1
            told = {"whole": f"front at {count}", "empty": "journal: empty",
                    "refused": "journal: not a journal at 0"}[state]
            cases.holds(f"kill {kill}: what stands", state != "refused" or len(new) == 1
                        or new == (b"\0" + whole[1:])[:len(new)], f"{len(new)} bytes")
            cases.equal(f"kill {kill}: how it opens", told, site.opens_as())
        cases.holds("kills came before the end", found["empty"] + found["refused"] > 0, found)
        site.path("new").unlink(missing_ok=True)
        cases.equal("it is carried anew", Told(0, "", f"carried {count} left 0\n"), site.carry())
        cases.holds("all stands behind kills", site.held("new") == whole)
        cases.holds("the old journal is as it was", site.held("journal") == old)


def main() -> int:
    program = program_of(__doc__)
    cases = Cases()
    for tries in (try_full_journals, try_shorter_journals, try_planned_trains, try_drawn_journals,
                  try_servers, try_lost_lines, try_full_disks, try_kills):
        tries(cases, program)
    return cases.end()


if __name__ == "__main__":
    sys.exit(main())
