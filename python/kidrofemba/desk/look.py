"""Looks: what a request would get, asked of a server over a copy of the journal, so that nothing is
sold by it.

The copy is made from front to back, which is a journal at any moment while the server writes, and
kept until the journal has grown. What a look is granted is freed again in the copy.
"""
from __future__ import annotations

import asyncio
import os
import shutil
import tempfile
import time
from dataclasses import dataclass
from pathlib import Path

from kidrofemba.desk.network import Files
from kidrofemba.journal.journal_file import Run, runs_of_words

_CLIENT = "look"
_FOLDER = "kidrofemba-look."
_MAX_REPLY_BYTES = 2 ** 24
_LONGEST_S = 60.0
#: A server takes 100,000 lines of a client.
_MOST_LINES = 90_000


class LookFailed(Exception):
    """No look can be had at the moment."""


@dataclass(frozen=True)
class Seen:
    """What a look told: the first word of the reply and the whole, the runs of a path, and how many
    entries stood."""

    word: str
    reply: str
    runs: tuple[Run, ...]
    front: int


class _Copy:
    """A server over a copy of the journal."""

    def __init__(self, files: Files, folder: Path, front: int):
        self.files, self.folder, self.front = files, folder, front
        self.made = time.monotonic()
        self.lines = 0
        self.process: asyncio.subprocess.Process | None = None

    async def start(self) -> None:
        """Copies the journal, and starts the server over it."""
        await asyncio.to_thread(lambda: shutil.copyfile(self.files.journal,
                                                        self.folder / "journal"))
        words = ["serve", "--network", str(self.files.network), "--trains", str(self.files.trains),
                 "--base", str(self.files.base), "--journal", str(self.folder / "journal"),
                 "--client", f"{_CLIENT}=stdin:stdout", "--proof",
                 f"{_CLIENT}={self.folder / 'proofs'}"]
        self.process = await asyncio.create_subprocess_exec(
            str(self.files.program), *words, stdin=asyncio.subprocess.PIPE,
            stdout=asyncio.subprocess.PIPE, stderr=asyncio.subprocess.DEVNULL,
            limit=_MAX_REPLY_BYTES)

    async def say(self, line: str) -> str:
        """The reply to a line."""
        assert self.process is not None and self.process.stdin and self.process.stdout
        self.process.stdin.write(line.encode("ascii") + b"\n")
        self.lines += 1
        reply = await self.process.stdout.readuntil(b"\n")
        return reply[:-1].decode("ascii")

    def proof(self) -> str:
        """The last proof that was written."""
        text = (self.folder / "proofs").read_text(encoding="ascii")
        return text[text.rindex("proof at "):]

    async def end(self) -> None:
        """Ends the server, and removes the copy."""
        if self.process is not None and self.process.returncode is None:
            self.process.kill()
            await self.process.wait()
        shutil.rmtree(self.folder, ignore_errors=True)


def _drop_left_behind() -> None:
    """Removes the copies of desks that are gone."""
    for folder in Path(tempfile.gettempdir()).glob(f"{_FOLDER}*"):
        process = folder.name.removeprefix(_FOLDER).split(".")[0]
        if process.isdecimal() and not Path("/proc", process).exists():
            shutil.rmtree(folder, ignore_errors=True)


class Looks:
    """The looks of all tenants, one after the other."""

    def __init__(self, files: Files, keep_s: float):
        self.files, self.keep_s = files, keep_s
        self._copy: _Copy | None = None
        self._lock = asyncio.Lock()
        self._number = 0
        self.copies = 0
        _drop_left_behind()

    async def ask(self, fields: list[str], front: int, seen: int) -> list[Seen]:
        """What each of these asks would get beside what stands: the fields behind the number.
        `front` is how many entries stand now, `seen` how many the asker was told of: the look is
        never older than that, and else at most as old as a copy is kept."""
        async with self._lock:
            copy = await self._fresh(front, seen)
            return [await self._one(copy, one) for one in fields]

    async def proved(self, fields: str, front: int, seen: int) -> tuple[Seen, str]:
        """The same of one ask, with the proof of its refusal, empty where there is none."""
        async with self._lock:
            copy = await self._fresh(front, seen)
            told = await self._one(copy, fields)
            return told, copy.proof() if told.word == "no-path" else ""

    async def _fresh(self, front: int, seen: int) -> _Copy:
        """A copy that is new enough."""
        copy = self._copy
        if copy is not None and copy.process is not None and copy.process.returncode is None \
                and copy.lines < _MOST_LINES and copy.front >= seen \
                and (copy.front >= front or time.monotonic() - copy.made < self.keep_s):
            return copy
        await self.end()
        folder = Path(tempfile.mkdtemp(prefix=f"{_FOLDER}{os.getpid()}."))
        self._copy = copy = _Copy(self.files, folder, front)
        await copy.start()
        self.copies += 1
        return copy

    async def _one(self, copy: _Copy, fields: str) -> Seen:
        """What one ask would get; the copy is as it was then."""
        self._number += 2
        try:
            async with asyncio.timeout(_LONGEST_S):
                reply = await copy.say(f"ask {self._number} {fields}")
                words = reply.split(" ")
                runs: tuple[Run, ...] = ()
                if words[0] == "granted":
                    runs = runs_of_words(words[7:])
                    freed = await copy.say(f"free {self._number + 1} {words[3]}")
                    if not freed.startswith("freed "):
                        raise LookFailed(freed)
                return Seen(words[0], reply, runs, copy.front)
        except (OSError, TimeoutError, asyncio.IncompleteReadError,
                asyncio.LimitOverrunError) as failure:
            await self.end()
            raise LookFailed(str(failure) or type(failure).__name__) from None
        except BaseException:
            # The reply to an ask that was given up must not be taken for that of another.
            await self.end()
            raise

    async def end(self) -> None:
        """Ends the server over the copy."""
        if self._copy is not None:
            await self._copy.end()
        self._copy = None
