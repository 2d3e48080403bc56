"""The names that the words of the program open, and how: network, base file, trains, journals, the
pipes of clients, tables."""
from __future__ import annotations

from collections.abc import Iterator, Sequence
from pathlib import Path
from subprocess import CompletedProcess

from kidrofemba.common.open_faults import Opened, fault_of, told_behind

OPEN_STATUS = 7
"""The status of the program where a name could not be opened."""

_HOLDING = frozenset({"serve", "batch", "init", "carry"})
_STREAMS = frozenset({"stdin", "stdout"})


def options_of(words: Sequence[str]) -> Iterator[tuple[str, str]]:
    """The options of words, each with its value: `--network F` or `--network=F`."""
    rest = iter(words)
    for word in rest:
        if word.startswith("--") and "=" in word and not word.startswith("--="):
            option, _, value = word[2:].partition("=")
            yield option, value
        elif word.startswith("--"):
            yield word[2:], next(rest, "")


def names_of(command: str, words: Sequence[str]) -> list[Opened]:
    """The names that a command of the program opens by these words."""
    names = [one for option, value in options_of(words) for one in _of(command, option, value)]
    return [one for one in names if one.name and one.name not in _STREAMS]


def faults_of(command: str, words: Sequence[str], tries_locks: bool = True) -> list[str]:
    """The names of these words that can't be opened at this moment, each with its reason; locks are
    tried, for an instant, where the system names no holder and `tries_locks` allows it."""
    told = ((one.name, fault_of(one, Path(), tries_locks)) for one in names_of(command, words))
    return [f"{name}: {wrong}" for name, wrong in told if wrong is not None]


def report_of(done: CompletedProcess[str], folder: Path = Path()) -> str:
    """What a command of the program that is done reported, in one line, and why a name could not be
    opened where that is so. It was run in `folder`."""
    _, command, *words = done.args
    rows = done.stderr.split("\n") + told_behind(done.stderr, names_of(command, words), folder)
    return "; ".join(row.strip() for row in rows if row.strip())


def _of(command: str, option: str, value: str) -> Iterator[Opened]:
    """The names that one option has a command open."""
    holds = command in _HOLDING
    if option in ("network", "base", "trains", "from-base"):
        yield Opened(value)
    elif option == "journal":
        yield Opened(value, writes=holds, is_made=holds, is_held=holds)
    elif option == "from":
        yield Opened(value, is_held=True)
    elif option in ("out", "left"):
        yield Opened(value, reads=False, writes=True, is_made=True)
    elif option == "client":
        come, _, go = value.partition("=")[2].partition(":")
        yield Opened(come)
        yield Opened(go, reads=False, writes=True, is_made=True)
    elif option == "proof" and command == "serve":
        yield Opened(value.partition("=")[2], reads=False, writes=True, is_made=True)
    elif option == "proof":
        yield Opened(value)
