"""Processes with all that they have started: found, measured and ended (Linux, by /proc)."""
from __future__ import annotations

import ctypes
import os
import signal
import subprocess
import time
from collections.abc import Callable
from dataclasses import dataclass
from pathlib import Path

LIBC = ctypes.CDLL(None, use_errno=True)
PR_SET_PDEATHSIG = 1
PAGE = os.sysconf("SC_PAGE_SIZE")


@dataclass(frozen=True)
class Member:
    """A process, told from a later one with the same id by the moment of its start."""

    pid: int
    parent: int
    session: int
    started: int

    def is_alive(self) -> bool:
        now = member(self.pid)
        return now is not None and now.started == self.started


def member(pid: int) -> Member | None:
    """The process with this id, unless it has ended."""
    try:
        # the name, in brackets, may hold blanks
        fields = Path(f"/proc/{pid}/stat").read_text().rpartition(")")[2].split()
    except OSError:
        return None
    state, parent, session, started = fields[0], fields[1], fields[3], fields[19]
    return None if state in "ZX" else Member(pid, int(parent), int(session), int(started))


def family(pid: int) -> list[Member]:
    """The process, all that it has started, and what else is of its session."""
    names = [int(name) for name in os.listdir("/proc") if name.isdigit()]
    every = [one for one in map(member, names) if one is not None]
    found = {pid}
    grown = True
    while grown:
        more = {one.pid for one in every if one.parent in found or one.session == pid}
        grown = not more <= found
        found |= more
    return [one for one in every if one.pid in found]


def ends_with_parent(number: int) -> Callable[[], None]:
    """What a new process calls first, so that it gets this signal when its parent ends."""
    return lambda: LIBC.prctl(PR_SET_PDEATHSIG, number, 0, 0, 0) and None


def end(process: subprocess.Popen[bytes] | subprocess.Popen[str], patience_s: float = 10.0) -> None:
    """Ends a process and all that it has started: asked first, then killed."""
    known = {one.pid: one for one in family(process.pid)}
    if process.poll() is None:
        process.terminate()
    until = time.monotonic() + patience_s
    while process.poll() is None and time.monotonic() < until:
        time.sleep(0.05)
    # what is left has no parent any more to be found by
    for _ in range(200):
        known |= {one.pid: one for one in family(process.pid)}
        left = [one for one in known.values() if one.is_alive()]
        if not left:
            break
        for one in left:
            try:
                os.kill(one.pid, signal.SIGKILL)
            except ProcessLookupError:
                pass
        process.poll()
        time.sleep(0.05)
    process.wait()


def held_bytes(one: Member) -> tuple[int, int]:
    """The memory that a process holds alone, and what it may share with others."""
    try:
        rows = Path(f"/proc/{one.pid}/statm").read_text().split()
        shared = int(rows[2]) * PAGE
        return int(rows[1]) * PAGE - shared, shared
    except (OSError, IndexError):
        return 0, 0


def resident_bytes(members: list[Member]) -> int:
    """The memory that these processes hold together; pages that they share count once."""
    total = 0
    for one in members:
        try:
            rows = Path(f"/proc/{one.pid}/smaps_rollup").read_text().splitlines()
        except OSError:
            continue
        total += sum(1024 * int(row.split()[1]) for row in rows if row.startswith("Pss:"))
    return total
