"""Asks the program again for a path, beside a timetable from which one train was taken out, or all.

It works on copies in a folder of its own: a base file without a planned train, and a journal cut
behind the entries beside which the path was searched, from which one entry is freed.
"""
from __future__ import annotations

import json
import shutil
import subprocess
import tempfile
from dataclasses import dataclass
from itertools import count
from pathlib import Path
from typing import Any

from kidrofemba.common.companion import Refused
from kidrofemba.common.program_names import report_of
from kidrofemba.journal.journal_file import Journal, Run, beginning_of, runs_of_words
from kidrofemba.journal.served_files import Base
from kidrofemba.why.walls import Holder

MOST_JOURNAL_BYTES = 268_435_456


def program_called(name: str) -> Path:
    """The program of this name, which may be one of the search path."""
    found = shutil.which(name)
    if found is None:
        raise Refused("words", f"--ask-again {name}", "is no program")
    return Path(found).absolute()


@dataclass(frozen=True)
class Again:
    """The program, the files that it is given, and how many entries of the journal count."""

    program: Path
    network: Path
    trains: Path
    base: Base
    journal: Journal | None
    journal_file: Path | None
    front: int

    def without(self, holder: Holder | None, fields: str) -> tuple[Run, ...] | None:
        """The runs of the path that is granted to an ask with these fields behind its number, once
        a holder is taken out; None where there is no path."""
        with tempfile.TemporaryDirectory(prefix="why_not.") as place:
            folder = Path(place)
            self._make_copies(folder, None if holder is None else holder.planned)
            if holder is not None and holder.entry is not None:
                self._free(folder, holder.entry)
            return self._asked(folder, fields)

    def alone(self, fields: str) -> tuple[Run, ...] | None:
        """The same with nothing in the way: no planned train, and no entry."""
        with tempfile.TemporaryDirectory(prefix="why_not.") as place:
            folder = Path(place)
            self._write_base(folder, [])
            self._run(folder, "init", [])
            return self._asked(folder, fields)

    def _asked(self, folder: Path, fields: str) -> tuple[Run, ...] | None:
        """What a client that owns nothing is granted."""
        reply = self._told(folder, self._stranger(), f"ask 0 {fields}")
        words = reply.split()
        if words[0] == "granted":
            return runs_of_words(words[7:])
        if words[0] == "no-path":
            return None
        raise Refused(self.program, "serve", f"answered the ask with: {reply}")

    def _make_copies(self, folder: Path, planned: int | None) -> None:
        """Copies the base file without a planned train, and the journal for this base file."""
        trains = [one for at, one in enumerate(self.base.told.get("trains", [])) if at != planned]
        data = self._write_base(folder, trains)
        if self.journal_file is not None:
            (folder / "journal").write_bytes(beginning_of(self.journal_file, self.front, data))
        else:
            self._run(folder, "init", [])

    def _write_base(self, folder: Path, trains: list[Any]) -> bytes:
        """Writes the base file with these planned trains, and answers it."""
        told = self.base.told | {"trains": trains, "journal_bytes": MOST_JOURNAL_BYTES}
        data = json.dumps(told).encode()
        (folder / "base").write_bytes(data)
        return data

    def _free(self, folder: Path, entry: int) -> None:
        """Frees an entry as its owner."""
        assert self.journal is not None
        owner = self.journal.entries[entry].owner
        used = {one.number for one in self.journal.entries if one.owner == owner}
        number = next(number for number in count() if number not in used)
        reply = self._told(folder, owner, f"free {number} {entry}")
        if not reply.startswith("freed "):
            raise Refused(self.program, "serve", f"did not free entry {entry}: {reply}")

    def _stranger(self) -> str:
        """The name of a client that owns nothing."""
        owners = {one.owner for one in self.journal.entries} if self.journal else set()
        return next(name for name in (f"why-not-{at}" for at in count()) if name not in owners)

    def _told(self, folder: Path, client: str, line: str) -> str:
        """What the program replies to a client's line."""
        (folder / "line").write_text(line + "\n")
        (folder / "reply").unlink(missing_ok=True)
        self._run(folder, "serve", ["--trains", str(self.trains.resolve()),
                                    "--client", f"{client}=line:reply"])
        return (folder / "reply").read_text().rstrip("\n")

    def _run(self, folder: Path, command: str, others: list[str]) -> None:
        words = [str(self.program), command, "--network", str(self.network.resolve()),
                 "--base", "base", "--journal", "journal", *others]
        done = subprocess.run(words, cwd=folder, stderr=subprocess.PIPE, text=True)
        if done.returncode != 0:
            raise Refused(self.program, command, f"ended with status {done.returncode}: "
                                                 f"{report_of(done, folder)}")
