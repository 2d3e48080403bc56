"""A client of a path server behind the door: it sends lines, sends them again after a break, and
prints the answers in words and clock times.

Lines are those of docs/FORMATS.md, from a file or a terminal; empty ones and those that begin with
`#` are passed over. Beside --base times are written as people write them:

  windows of ask    06:30, 06:30:20, 24:00, 00:10+1d (a day later), 2026-12-02T06:30; a time without
                    a day that lies before the one that it follows is of the next day, so that
                    23:50 00:10 is a window over midnight; * is an arrival that does not matter
  dwells of ask     8min, 90s, 1h30min or 00:08:00, rounded up to ticks; a bare number is refused,
                    unless --ticks says that it counts ticks
  hold, holds, pin  the same times, an end also as a duration from its begin, 22:00 45min; what is
                    held covers what is named, and what is pinned is a tick exactly

A bare number in any other place is a tick. Answers are told in clock times, each behind the words
of the reply.

With --state a `-` in the place of NUMBER is the next number of this client: numbers and open lines
are kept in that file, so nothing is asked twice or forgotten, whatever crashes; lines that an
earlier run left open are sent first. In a file that may be given again each line has a number of
its own: `kept` then tells what was done before.

An open line is sent again beside the base file of --base with which it was begun alone: beside
another one its ticks and entries mean something else. So the door is told that base file first, and
a server of another one is given nothing. An open `free` is not sent where the entry that it names
may be another one now: where it was begun without --base, and beside --forget-front. What is not
sent is told, until --drop-open has it dropped. Where a journal was restored or is a new one,
--forget-front has the client forget how many entries it saw of the old one.

A line without a reply, or with one that says so, is sent again with its number, with growing pauses
until --give-up. The exit status is 0 where each line was answered, and 2 where one was not.
"""
from __future__ import annotations

import argparse
import fcntl
import hashlib
import os
import re
import socket
import sys
import time
from collections.abc import Iterable, Iterator
from dataclasses import dataclass
from pathlib import Path

from kidrofemba.common.clock import clock_of
from kidrofemba.common.companion import Refused, escaped, read_json, run_companion, write_whole
from kidrofemba.door.line_forms import NUMBERED
from kidrofemba.door.line_times import Times, line_of
from kidrofemba.door.reply_words import Answers

NAME = "ask"
EXAMPLE = """example:
  kidrofemba ask --socket /run/paths/A.sock --base base.json --state A.state
  ask - F1 West East 06:00 06:30 * 1 Middle 8min
"""
# Replies after which the same line is sent again.
_ONCE_MORE = frozenset({"unsettled", "disk-fault", "no-memory", "again"})
_FRONT = re.compile(r" at ([0-9]+)(?: |$)")
_BASE_ROW = re.compile("base (-|[0-9a-f]{64})")
_FIRST_PAUSE_S, _LONGEST_PAUSE_S = 0.1, 10.0
_NO_BASE = "-"
# Replies to `base` of a server, or of a door, that does not know this word.
_KNOW_NO_BASE = frozenset({"bad 1", "closed base"})


@dataclass(frozen=True)
class OpenLine:
    """A line without a reply, and the digest of the base file beside which it was begun."""

    line: str
    base: str


class Numbers:
    """The numbers of a client and its open lines, kept in a file of rows that are synced before a
    line is sent. One process at a time has it. `base` is the digest of the base file that lines are
    written for, where there is one.

    Rows: `last NUMBER FRONT` (the last number that was used and the last front that was seen),
    `base DIGEST` (of the open lines behind it), `open NUMBER LINE`, and `done NUMBER FRONT`.
    """

    def __init__(self, file: Path, first: int = 1, base: str = _NO_BASE,
                 forgets_front: bool = False, drops_open: bool = False):
        self.file, self.base, self.dropped = file, base, []
        self._lock = open(f"{file}.lock", "w", encoding="ascii")
        try:
            fcntl.flock(self._lock, fcntl.LOCK_EX | fcntl.LOCK_NB)
        except OSError:
            raise Refused(file, "", "another client has this file") from None
        self.last, self.front = first - 1, 0
        self.open_lines: dict[int, OpenLine] = {}
        self._row_base = _NO_BASE
        rows = file.read_text(encoding="ascii").split("\n")[:-1] if file.exists() else []
        for at, row in enumerate(rows, 1):
            self._take(row, at)
        unsendable = self._unsendable(forgets_front)
        if forgets_front:
            if unsendable and not drops_open:
                self.close()
                raise _not_sent(file, unsendable)
            self.front = 0
        if drops_open:
            self.dropped = list(unsendable.values())
            self.open_lines = {number: one for number, one in self.open_lines.items()
                               if number not in unsendable}
        self._begin_anew()

    def _take(self, row: str, at: int) -> None:
        """Takes over one row of an earlier run."""
        if _BASE_ROW.fullmatch(row):
            self._row_base = row.removeprefix("base ")
            return
        try:
            word, number, rest = row.split(" ", 2)
            if word not in ("last", "open", "done"):
                raise ValueError
            self.last = max(self.last, int(number))
            if word == "open":
                self.open_lines[int(number)] = OpenLine(rest, self._row_base)
            else:
                self.front = max(self.front, int(rest))
                self.open_lines.pop(int(number), None)
        except ValueError:
            raise Refused(self.file, f"line {at}", "is no row of such a file") from None

    def _begin_anew(self) -> None:
        """Writes what counts alone, so that the file does not grow from run to run."""
        rows = [f"last {self.last} {self.front}"]
        for number, one in self.open_lines.items():
            rows += [f"base {one.base}", f"open {number} {one.line}"]
        write_whole(self.file, "\n".join([*rows, f"base {self.base}"]) + "\n")

    def _note(self, row: str) -> None:
        with open(self.file, "a", encoding="ascii") as out:
            out.write(row + "\n")
            out.flush()
            os.fsync(out.fileno())

    def next(self) -> int:
        """A number that was not used before."""
        self.last += 1
        return self.last

    def begin(self, number: int, line: str) -> None:
        """Notes a line before it is sent."""
        self.open_lines[number] = OpenLine(line, self.base)
        self._note(f"open {number} {line}")

    def end(self, number: int, front: int) -> None:
        """Notes that a line is answered."""
        self.open_lines.pop(number, None)
        self._note(f"done {number} {front}")

    def must_be_sendable(self) -> None:
        """Refuses open lines that would mean something else now."""
        if unsendable := self._unsendable(False):
            raise _not_sent(self.file, unsendable)

    def _unsendable(self, forgets_front: bool) -> dict[int, str]:
        """The open lines that were begun beside another base file; and each `free` where nobody
        knows that the entry which it names is the same, as it was begun without a base file, or as
        the journal is another one than before."""
        return {number: one.line for number, one in self.open_lines.items()
                if one.base != self.base or one.line.startswith("free ")
                and (forgets_front or one.base == _NO_BASE)}

    def close(self) -> None:
        """Lets another process have the file."""
        self._lock.close()


def _not_sent(file: Path, lines: dict[int, str]) -> Refused:
    """Refuses open lines that would mean something else than when they were begun."""
    return Refused(file, "", "not sent, as ticks and entries may mean something else now: "
                   + "; ".join(lines.values()) + ": give the --base with which they were begun, "
                   "while its journal is served; else look by `show ENTRY` whether they were done, "
                   "and drop them by --drop-open")


class PathClient:
    """A client at one socket of the door.

    Each line is sent behind `after N` with the last front that was told, so that an answer is never
    older than what the client has seen. Where `base` is the digest of the base file that lines are
    written for, the door is told it first, and a server of another one is given no line.
    """

    def __init__(self, path: str | Path, numbers: Numbers | None = None,
                 give_up_s: float = float("inf"), reply_s: float = 660.0,
                 base: str | None = None):
        self.path, self.numbers = str(path), numbers
        known = numbers.base if base is None and numbers is not None else base
        self.base = known if known != _NO_BASE else None
        self.give_up_s, self.reply_s = give_up_s, reply_s
        self.front = numbers.front if numbers is not None else 0
        self._stream: socket.socket | None = None
        self._replies: Iterator[bytes] = iter(())

    def close(self) -> None:
        """Leaves the socket."""
        if self._stream is not None:
            self._stream.close()
        self._stream = None

    def _exchange(self, line: str) -> str:
        """The reply to one line; OSError where there is none."""
        if self._stream is None:
            self._stream = socket.socket(socket.AF_UNIX)
            self._stream.settimeout(self.reply_s)
            self._stream.connect(self.path)
            self._replies = self._stream.makefile("rb")
            self._name_base(self._stream)
        return self._told(self._stream, line)

    def _told(self, stream: socket.socket, line: str) -> str:
        """The reply of this connection to one line; OSError where there is none."""
        stream.sendall(line.encode("ascii") + b"\n")
        reply = next(self._replies, b"")
        if not reply.endswith(b"\n"):
            raise ConnectionError("the door ended the connection")
        return reply[:-1].decode("ascii")

    def _name_base(self, stream: socket.socket) -> None:
        """Tells the door of a new connection which base file lines are written for; refused where
        its server's journal is of another one. An older door does not know, and goes on."""
        if self.base is None:
            return
        reply = self._told(stream, f"base {self.base}")
        if reply in _KNOW_NO_BASE or reply == f"base {self.base}":
            return
        if not reply.startswith("base "):
            raise ConnectionError(f"the door replies to `base` with {reply}")
        self.close()
        raise Refused(self.path, "", f"its journal is of another base file, {reply[5:]}, than "
                      f"lines are written for, {self.base}: nothing is sent, and open lines stay "
                      "open; give the base file that is served now by --base")

    def _exchange_after(self, line: str) -> str:
        """The reply to a line behind the front that was seen; fields are counted as in the line."""
        if not self.front or line.startswith("after "):
            return self._exchange(line)
        reply = self._exchange(f"after {self.front} {line}")
        word, _, field = reply.partition(" ")
        return f"bad {int(field) - 2}" if word == "bad" else reply

    def send(self, line: str) -> str:
        """The reply to a line, which is sent again until there is one; TimeoutError where that
        takes longer than this client waits."""
        begun, pause_s, why = time.monotonic(), _FIRST_PAUSE_S, ""
        while True:
            try:
                reply = self._exchange_after(line)
                why = reply
                if reply.split(" ", 1)[0] not in _ONCE_MORE:
                    return self._seen(reply)
            except OSError as failure:
                why = str(failure)
                self.close()
            if time.monotonic() - begun + pause_s > self.give_up_s:
                raise TimeoutError(why)
            time.sleep(pause_s)
            pause_s = min(_LONGEST_PAUSE_S, 2 * pause_s)

    def _seen(self, reply: str) -> str:
        """A reply, once its front is kept."""
        if reply.startswith("ahead ") and self.front:
            raise Refused(self.path, reply, f"the server has fewer than the {self.front} entries "
                          "that this client has seen: its journal was set back, or is a new one; "
                          "where its operator told you so, go on with --forget-front")
        found = _FRONT.search(reply)
        self.front = max(self.front, int(found[1]) if found is not None else 0)
        return reply

    def want(self, word: str, rest: str) -> str:
        """The reply to `word NUMBER rest` with the next number, noted before it is sent."""
        assert self.numbers is not None
        number = self.numbers.next()
        line = f"{word} {number} {rest}"
        self.numbers.begin(number, line)
        reply = self.send(line)
        self.numbers.end(number, self.front)
        return reply

    def finish_open(self) -> dict[int, str]:
        """The replies to the lines that an earlier process left open, by number: `kept` tells what
        had been done. One whose word is `closed` at the moment stays open: the door alone replied,
        and the line may have been done before. Refused where one would mean something else now,
        before any is sent."""
        assert self.numbers is not None
        self.numbers.must_be_sendable()
        replies: dict[int, str] = {}
        for number, one in list(self.numbers.open_lines.items()):
            replies[number] = reply = self.send(one.line)
            if not reply.startswith("closed "):
                self.numbers.end(number, self.front)
        return replies


def lines_of(source: Iterable[str], name: str, times: Times,
             goes_on: bool = False) -> Iterator[str]:
    """The lines that a file or a terminal asks for. One that is wrong is refused with its place;
    where somebody sits at a terminal it is told, and the next one is taken."""
    for at, row in enumerate(source, 1):
        text = row.rstrip("\n")
        if not text.strip() or text.startswith("#"):
            continue
        try:
            yield _line_of(text, name, at, times)
        except Refused as wrong:
            if not goes_on:
                raise
            print(f"{NAME}: {wrong}", file=sys.stderr)


def _line_of(text: str, name: str, at: int, times: Times) -> str:
    """The line that the text in a row asks for."""
    try:
        line = line_of(text, times)
        line.encode("ascii")
    except UnicodeEncodeError:
        raise Refused(name, f"line {at}", "a byte that no line has; names are written as "
                      f"{escaped(text)!r}") from None
    except ValueError as wrong:
        raise Refused(name, f"line {at}", str(wrong)) from None
    return line


def _answer(client: PathClient, line: str, name: str) -> str:
    """The reply to a line, of which a `-` stands for the next number."""
    word, _, rest = line.partition(" ")
    if word in NUMBERED and rest.startswith("- "):
        if client.numbers is None:
            raise Refused(name, line, "a number `-` needs --state")
        return client.want(word, rest[2:])
    return client.send(line)


def talk(client: PathClient, lines: Iterable[str], answers: Answers, name: str) -> None:
    """Sends lines, those left open first, and prints each answer once it is there."""
    try:
        if client.numbers is not None:
            left_open = dict(client.numbers.open_lines)
            for number, reply in client.finish_open().items():
                told = answers.text(reply, left_open[number].line)
                print(f"left open before: {told}", flush=True)
        for line in lines:
            print(answers.text(_answer(client, line, name), line), flush=True)
    except TimeoutError as last:
        raise Refused(client.path, "", f"no answer: {last}") from None


def _parser() -> argparse.ArgumentParser:
    parser = argparse.ArgumentParser(
        prog=f"kidrofemba {NAME}", description=__doc__, epilog=EXAMPLE, allow_abbrev=False,
        formatter_class=argparse.RawDescriptionHelpFormatter)
    add = parser.add_argument
    add("--socket", type=Path, required=True, help="the client's socket at the door")
    add("--file", type=Path, help="the lines (default: the terminal, or standard input)")
    add("--base", type=Path,
        help="the base file that is served: times are clock times and durations")
    add("--ticks", action="store_true", help="bare numbers of dwells are ticks, also beside --base")
    add("--state", type=Path, help="the file of this client's numbers and open lines")
    add("--forget-front", action="store_true",
        help="the journal was restored or is a new one: forget how many entries --state has seen")
    add("--drop-open", action="store_true",
        help="drop the open lines of --state that are not sent")
    add("--first", type=int, default=1, help="the first number where --state is new (default 1)")
    add("--give-up", type=float, default=300.0, metavar="SECONDS",
        help="how long one line is sent again (default 300)")
    add("--runs", action="store_true", help="print each block of a path")
    return parser


@dataclass(frozen=True)
class BaseFile:
    """What a client takes from a base file: its digest, what times mean beside it, and the names of
    its planned trains in their order."""

    digest: str
    times: Times
    planned: tuple[str, ...]


def base_file(file: Path | None, bare_dwells: bool) -> BaseFile:
    """What a base file says; without one times are ticks."""
    if file is None:
        return BaseFile(_NO_BASE, Times(), ())
    read = read_json(file)
    told = read if isinstance(read, dict) else {}
    try:
        clock, horizon = clock_of(told), told.get("horizon")
        if isinstance(horizon, bool) or not isinstance(horizon, int | float) or horizon % 1:
            raise ValueError("`horizon` is no whole number of ticks")
        names = tuple(str(train["name"]) for train in told.get("trains", []))
    except ValueError as wrong:
        raise Refused(file, "", str(wrong)) from None
    except (KeyError, TypeError) as wrong:
        raise Refused(file, "trains", f"no planned trains of a base file: {wrong!r}") from None
    return BaseFile(hashlib.sha256(file.read_bytes()).hexdigest(),
                    Times(clock, int(horizon), bare_dwells), names)


def _numbers(options: argparse.Namespace, base: str) -> Numbers:
    """The numbers of --state, once open lines that can't be sent are dropped where that is
    wanted."""
    numbers = Numbers(options.state, options.first, base, options.forget_front, options.drop_open)
    for line in numbers.dropped:
        print(f"dropped: {line}", flush=True)
    return numbers


def _check_words(options: argparse.Namespace) -> None:
    """Refuses words that do not go together."""
    if not 0 <= options.first < 2 ** 63:
        raise Refused("words", "--first", "a number of a line is 0 to 9,223,372,036,854,775,807")
    if options.state is None and (options.forget_front or options.drop_open):
        raise Refused("words", "--forget-front, --drop-open", "are about --state")
    if options.base is None and options.ticks:
        raise Refused("words", "--ticks", "is about --base: without it bare numbers are ticks")


def _ask(options: argparse.Namespace) -> int:
    """Sends the lines, and prints the answers."""
    _check_words(options)
    base = base_file(options.base, options.ticks)
    numbers = _numbers(options, base.digest) if options.state is not None else None
    client = PathClient(options.socket, numbers, options.give_up, base=base.digest)
    answers = Answers(base.times.clock, options.runs, base.planned)
    if options.file is not None:
        with open(options.file, encoding="utf-8", errors="surrogateescape") as source:
            lines = lines_of(source, str(options.file), base.times)
            # A file is read to its end first, so that nothing is sent of one that has a fault.
            talk(client, list(lines) if options.file.is_file() else lines, answers,
                 str(options.file))
        return 0
    if sys.stdin.isatty():
        print("lines as docs/FORMATS.md tells them, one each; the end of input ends",
              file=sys.stderr)
    talk(client, lines_of(sys.stdin, "standard input", base.times, sys.stdin.isatty()), answers,
         "standard input")
    return 0


def main(words: list[str]) -> int:
    """Sends the lines that the words name; the exit status."""
    options = _parser().parse_args(words)
    try:
        return run_companion(NAME, lambda: _ask(options))
    except KeyboardInterrupt:
        return 130
