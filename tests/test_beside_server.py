"""Tries that a journal is read beside the server that writes to it, over real files.

A client holds and frees as fast as the server answers, and meanwhile `stairs`, `capacity` and
`check` read the journal, in turn: each of them sees the journal as it stood at some moment, and
none is told that it is damaged. `--full` reads a journal of 1 MB and one of 60 MB a thousand times
with each command; else the journals have 1 and 16 MB, and each is read for some seconds.

    PYTHONPATH=python python3 -m tests.test_beside_server --program crates/stdcm/out/stdcm
"""
from __future__ import annotations

import argparse
import os
import subprocess
import sys
import tempfile
import threading
import time
from collections import Counter
from collections.abc import Iterator
from contextlib import contextmanager
from dataclasses import dataclass, replace
from pathlib import Path

from tests.runner.calls import Program, stop
from tests.test_lock import EXAMPLES, GRANTED, PROGRAM, Site, Wrong, must

#: What each command is given behind its files; each answers 0 on the journals made here.
COMMANDS = {"stairs": ("--entry", "0", "--out", "stdout"),
            "capacity": ("--first", "0", "--last", "2", "--from", "0", "--to", "1000",
                         "--out", "stdout"),
            "check": ("--proof", str(EXAMPLES / "refusal.proof"))}


@dataclass(frozen=True)
class Plan:
    """A journal of so many bytes, and how often and how long it is read: the readings of each
    command, and the seconds after which no other begins."""

    size: int
    readings: int
    time_s: float


SHORT = (Plan(1_000_000, 200, 5.0), Plan(16_000_000, 200, 12.0))
FULL = (Plan(1_000_000, 1000, 7200.0), Plan(60_000_000, 1000, 7200.0))


class Holding:
    """A server over a journal of so many entries, whose one client holds and frees a zone again
    and again, without a pause."""

    def __init__(self, site: Site, entries: int):
        self.entries = entries
        words = site.words("serve", "--client", "A=stdin:A.replies")
        self.process = site.program.start(words, site.folder, stdin=subprocess.PIPE)
        self.ended = threading.Event()
        self.lines = threading.Thread(target=self.hold)
        self.replies = site.folder / "A.replies"

    def hold(self) -> None:
        """Gives lines until it is told to end; the pipe takes no more than are answered soon."""
        lines = self.process.stdin
        assert lines is not None
        entry = self.entries
        try:
            while not self.ended.is_set():
                os.write(lines.fileno(), b"hold %d 1 20000 20001\nfree %d %d\n"
                         % (entry, entry + 1, entry))
                entry += 2
        except BrokenPipeError:
            pass

    def written(self) -> int:
        """How many entries were told to stand so far."""
        replies = self.replies.read_bytes() if self.replies.exists() else b""
        return replies.count(b"held ") + replies.count(b"freed ")

    def begin(self, limit_s: float) -> None:
        self.lines.start()
        until = time.monotonic() + limit_s
        while self.written() < 10:
            must(self.process.poll() is None and time.monotonic() < until,
                 "the server answers no client")
            time.sleep(0.01)

    def end(self) -> None:
        self.ended.set()
        self.process.kill()
        self.lines.join()
        stop(self.process)


@contextmanager
def holding(site: Site, entries: int, limit_s: float) -> Iterator[Holding]:
    """A server that is kept busy until the block ends."""
    server = Holding(site, entries)
    try:
        server.begin(limit_s)
        yield server
    finally:
        server.end()


def record_of(kind: int, number: int, content: bytes) -> bytes:
    """A record of the owner B behind an open gate byte, as docs/FORMATS.md tells it."""
    body = bytes([kind]) + number.to_bytes(8, "big") + bytes(4) + b"\x01B" + content
    return b"\x01" + len(body).to_bytes(4, "big") + body


def journal_of(site: Site, size: int) -> int:
    """Makes a journal of about so many bytes, a grant and then pairs of a hold and what frees it;
    the count of its entries."""
    site.begin()
    must(site.serve([GRANTED]).status == 0, "the first server fails")
    claim = bytes(4) + (20_000).to_bytes(8, "big") + (20_001).to_bytes(8, "big")
    records = bytearray()
    entries = 1
    while len(records) < size:
        records += record_of(1, entries, claim)
        records += record_of(4, entries + 1, entries.to_bytes(8, "big"))
        entries += 2
    before = site.bytes()
    must(before[-1:] == b"\0", "the journal does not end with a closed gate byte")
    (site.folder / "journal").write_bytes(before[:-1] + records + b"\0")
    return entries


def read_once(site: Site, command: str) -> str:
    """What a reading of the journal is told, none where it is not refused."""
    ended = site.call(command, *COMMANDS[command])
    if ended.status == 0:
        return ""
    return f"{command} ends with {ended.status} and {ended.report.decode(errors='replace')!r}"


def is_read_beside_its_server(site: Site, plan: Plan) -> str:
    """Reads a journal while it grows; the line that tells how often."""
    entries = journal_of(site, plan.size)
    refused: Counter[str] = Counter()
    readings = 0
    with holding(site, entries, site.program.limit) as server:
        begun, first = time.monotonic(), server.written()
        while readings < plan.readings and time.monotonic() < begun + plan.time_s:
            readings += 1
            refused.update(told for told in (read_once(site, name) for name in COMMANDS) if told)
        written = server.written() - first
        must(server.process.poll() is None, "the server ended")
    told = (f"{plan.size / 1e6:g} MB: {readings} readings of each command beside {written} "
            f"entries, {time.monotonic() - begun:.1f} s")
    must(written > readings, f"{told}: too few entries")
    must(not refused, f"{told}: {refused.total()} refused, the first by {[*refused][:1]}")
    return told


def main() -> int:
    formatter = argparse.RawDescriptionHelpFormatter
    parser = argparse.ArgumentParser(description=__doc__, formatter_class=formatter)
    parser.add_argument("--program", type=Path, default=PROGRAM, help="the built program")
    parser.add_argument("--full", action="store_true",
                        help="a thousand readings of each command, of 1 and of 60 MB")
    parser.add_argument("--bytes", type=int, metavar="N",
                        help="a journal of N bytes alone, as a program that is slow needs it")
    options = parser.parse_args()
    if not options.program.is_file():
        parser.error(f"no program at {options.program}: dev/build makes it")
    program = Program(options.program.resolve(), 120.0)
    plans = FULL if options.full else SHORT
    if options.bytes is not None:
        plans = (replace(plans[0], size=options.bytes),)
    failed = 0
    for plan in plans:
        with tempfile.TemporaryDirectory(prefix="beside-test-") as folder:
            try:
                print(is_read_beside_its_server(Site(program, Path(folder)), plan), flush=True)
            except Wrong as wrong:
                failed += 1
                print(f"FAILED {wrong}", flush=True)
    print(f"{len(plans) - failed} passed, {failed} failed")
    return 1 if failed else 0


if __name__ == "__main__":
    sys.exit(main())
