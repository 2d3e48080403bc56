"""Tells why a name could not be opened. The program says `open: NAME` whether there is no such
file, no right to it, or another process that holds it; here it is looked at once more, and told
apart. Nothing is made or changed by looking."""
from __future__ import annotations

import errno
import fcntl
import os
import pwd
import stat
from collections.abc import Iterator, Sequence
from dataclasses import dataclass
from pathlib import Path

_LOCKS = Path("/proc/locks")
_PROCESSES = Path("/proc")
_MOST_SHOWN = 200


@dataclass(frozen=True)
class Opened:
    """A name that is opened, and what for; `is_made` where a missing file is made, `is_held` where
    its lock is taken."""

    name: str
    reads: bool = True
    writes: bool = False
    is_made: bool = False
    is_held: bool = False


def fault_of(one: Opened, folder: Path = Path(), tries_lock: bool = True) -> str | None:
    """Why a name can't be opened by this user at this moment, in words behind `NAME: `; None where
    nothing is in the way. Names are those of a process in `folder`. Where the system names no
    holder of a lock, it is tried for an instant, unless it must not be: a server that starts in
    that instant would not get it."""
    path = folder / one.name
    try:
        found = path.stat()
    except FileNotFoundError:
        return _missing(path, one)
    except PermissionError:
        return _no_way_to(path)
    except OSError as failure:
        return failure.strerror or str(failure)
    if stat.S_ISDIR(found.st_mode):
        return "is a folder"
    wrong = _refused(path, one, found)
    if wrong is None and one.is_held:
        return _held(path, found, tries_lock)
    return wrong


def told_behind(report: str, names: Sequence[Opened], folder: Path = Path()) -> list[str]:
    """What a report of the program leaves open: for each line `open: NAME` a line that tells why,
    where that is still so."""
    by_name = {one.name: one for one in names}
    told = []
    for row in report.splitlines():
        one = by_name.get(row.removeprefix("open: ")) if row.startswith("open: ") else None
        wrong = fault_of(one, folder) if one is not None else None
        if one is not None:
            told.append(f"{one.name}: {wrong or 'it can be opened now'}")
    return told


def _missing(path: Path, one: Opened) -> str | None:
    """Why a file is not there, or can't be made; None where it would be made."""
    if path.is_symlink():
        return f"leads to {os.readlink(path)}, which is not there"
    folder = path.parent
    if not folder.is_dir():
        return f"there is no folder {folder}"
    if not one.is_made:
        return "there is no such file"
    if os.access(folder, os.W_OK | os.X_OK, effective_ids=True):
        return None
    return f"no right to make it in the folder {folder} ({_rights(folder.stat())})"


def _no_way_to(path: Path) -> str:
    """Which folder on the way to a file can't be entered."""
    for folder in reversed(path.absolute().parents):
        if not os.access(folder, os.X_OK, effective_ids=True):
            return f"no right to enter the folder {folder} ({_rights(folder.stat())})"
    return "no right to enter a folder on the way"


def _refused(path: Path, one: Opened, found: os.stat_result) -> str | None:
    """Why a file that is there can't be opened. One that is no plain file, such as a pipe, is not
    opened to see it, as its other side would notice."""
    for is_wanted, how, flag, access in ((one.reads, "read", os.O_RDONLY, os.R_OK),
                                         (one.writes, "write", os.O_WRONLY, os.W_OK)):
        if not is_wanted:
            continue
        if not stat.S_ISREG(found.st_mode):
            if not os.access(path, access, effective_ids=True):
                return f"no right to {how} it ({_rights(found)})"
            continue
        try:
            os.close(os.open(path, flag | os.O_NOCTTY | os.O_CLOEXEC))
        except OSError as failure:
            if failure.errno == errno.EACCES:
                return f"no right to {how} it ({_rights(found)})"
            return f"can't be opened to {how} it: {failure.strerror}"
    return None


def _rights(found: os.stat_result) -> str:
    """Whose a file is, its mode, and who asks."""
    return (f"owner {_user(found.st_uid)}, mode {stat.S_IMODE(found.st_mode):03o}, "
            f"you are {_user(os.geteuid())}")


def _user(number: int) -> str:
    try:
        return pwd.getpwuid(number).pw_name
    except KeyError:
        return str(number)


def _held(path: Path, found: os.stat_result, tries_lock: bool) -> str | None:
    """Which other process holds the lock of a file; None where none does."""
    holders = [number for number in _lockers(found) if number != os.getpid()]
    if not holders:
        wrong = _lock_fault(path) if tries_lock else None
        if wrong != "":
            return wrong
        holders = [number for number in _openers(found) if number != os.getpid()]
    alive = [f"{number} {_command(number)}" for number in holders if _command(number)]
    return f"another process holds it: {alive[0]}" if alive else "another process holds it"


def _lockers(found: os.stat_result) -> Iterator[int]:
    """The processes that the system names as holders of a lock of this file."""
    place = f"{os.major(found.st_dev):02x}:{os.minor(found.st_dev):02x}:{found.st_ino}"
    try:
        rows = _LOCKS.read_text().splitlines()
    except OSError:
        return
    for row in rows:
        fields = row.split()
        if "->" not in fields and len(fields) > 5 and fields[5] == place and int(fields[4]) > 0:
            yield int(fields[4])


def _lock_fault(path: Path) -> str | None:
    """What a trial to lock a file, for an instant, tells: None where it can be locked, an empty
    text where another process has the lock, else what is wrong."""
    try:
        handle = os.open(path, os.O_RDONLY | os.O_NOCTTY | os.O_CLOEXEC)
    except OSError as failure:
        return failure.strerror or str(failure)
    try:
        fcntl.flock(handle, fcntl.LOCK_SH | fcntl.LOCK_NB)
    except BlockingIOError:
        return ""
    except OSError as failure:
        return f"its file system knows no locks: {failure.strerror}"
    finally:
        os.close(handle)
    return None


def _openers(found: os.stat_result) -> Iterator[int]:
    """The processes that have this file open, of those that this user may look into."""
    for folder in _PROCESSES.iterdir():
        if not folder.name.isdecimal():
            continue
        try:
            for handle in (folder / "fd").iterdir():
                there = handle.stat()
                if (there.st_dev, there.st_ino) == (found.st_dev, found.st_ino):
                    yield int(folder.name)
                    break
        except OSError:
            continue


def _command(process: int) -> str:
    """The command of a process; empty where there is no such process."""
    try:
        words = (_PROCESSES / str(process) / "cmdline").read_bytes().split(b"\0")
        text = " ".join(word.decode("utf-8", "backslashreplace") for word in words).strip()
        return text[:_MOST_SHOWN] or (_PROCESSES / str(process) / "comm").read_text().strip()
    except OSError:
        return ""
