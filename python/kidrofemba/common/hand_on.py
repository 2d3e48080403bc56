"""Runs a command of the program where something is to be done behind it: the name of a journal that
it made is synced, and why a name could not be opened is told behind its report. Its streams and
signals are handed on, and its status is answered."""
from __future__ import annotations

import ctypes
import os
import signal
import subprocess
import sys
from collections.abc import Iterator, Sequence
from contextlib import contextmanager
from types import FrameType
from typing import Any

from kidrofemba.common.open_faults import told_behind
from kidrofemba.common.program_names import OPEN_STATUS, faults_of, names_of, options_of
from kidrofemba.common.synced import sync_name

DISK_STATUS = 8
"""The status of the program where the disk of a journal failed."""
_MAKING = frozenset({"init", "carry"})
_PASSED_ON = (signal.SIGTERM, signal.SIGINT, signal.SIGHUP)
_SIGNAL_AT_PARENTS_DEATH = 1
_KEPT_BYTES = 65_536


def is_followed(command: str, words: Sequence[str]) -> bool:
    """Whether something is to be done behind a command: where it makes a journal, or where one of
    its names can't be opened at this moment."""
    return command in _MAKING or bool(faults_of(command, words, tries_locks=False))


def hand_on(program: str, command: str, words: Sequence[str]) -> int:
    """Runs a command of the program with these words, and answers its status; 128 and the signal's
    number where a signal ended it. A journal that `init` or `carry` made has its name on the disk
    behind a status of 0."""
    with _started([program, command, *words]) as process:
        report = _pass_report(process)
        status = process.wait()
    if status == OPEN_STATUS:
        for row in told_behind(report, names_of(command, words)):
            print(row, file=sys.stderr, flush=True)
    if status == 0 and command in _MAKING:
        return _sync_journal(words)
    return status if status >= 0 else 128 - status


@contextmanager
def _started(words: Sequence[str]) -> Iterator[subprocess.Popen[bytes]]:
    """A process of the program, which gets the signals that ask this process to end, and ends where
    this one is killed: who kills it means the program. No signal is lost while it starts."""
    mask = signal.pthread_sigmask(signal.SIG_BLOCK, _PASSED_ON)
    library = ctypes.CDLL(None)

    def begin() -> None:
        library.prctl(_SIGNAL_AT_PARENTS_DEATH, signal.SIGKILL, 0, 0, 0)
        signal.pthread_sigmask(signal.SIG_SETMASK, mask)

    def pass_on(number: int, _: FrameType | None) -> None:
        process.send_signal(number)

    before: dict[signal.Signals, Any] = {}
    try:
        process = subprocess.Popen(words, stderr=subprocess.PIPE, close_fds=False, preexec_fn=begin)
        before = {number: signal.signal(number, pass_on) for number in _PASSED_ON}
        signal.pthread_sigmask(signal.SIG_SETMASK, mask)
        yield process
    finally:
        for number, handler in before.items():
            signal.signal(number, handler)
        signal.pthread_sigmask(signal.SIG_SETMASK, mask)


def _pass_report(process: subprocess.Popen[bytes]) -> str:
    """Writes what the program reports as it comes, and answers the last of it."""
    assert process.stderr is not None
    kept = b""
    with process.stderr as source:
        while piece := os.read(source.fileno(), _KEPT_BYTES):
            sys.stderr.buffer.write(piece)
            sys.stderr.buffer.flush()
            kept = (kept + piece)[-_KEPT_BYTES:]
    return kept.decode("utf-8", "surrogateescape")


def _sync_journal(words: Sequence[str]) -> int:
    """Syncs the name of the journal that was made."""
    journal = dict(options_of(words)).get("journal", "")
    try:
        sync_name(journal)
    except OSError as failure:
        print(f"disk: {journal}: its name is not on the disk for good: folder "
              f"{failure.filename}: {failure.strerror}", file=sys.stderr)
        return DISK_STATUS
    return 0
