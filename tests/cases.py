"""What the tests of companions share: cases that are counted, companions that are run within the
test, and servers of the built program over files of a folder."""
from __future__ import annotations

import argparse
import contextlib
import io
import json
import subprocess
import tempfile
from collections.abc import Callable, Iterator
from dataclasses import dataclass
from pathlib import Path
from types import ModuleType
from typing import Any

REPOSITORY = Path(__file__).resolve().parent.parent


class Cases:
    """Counts cases, and prints those that fail."""

    def __init__(self) -> None:
        self.passed = self.failed = 0

    def holds(self, name: str, fact: bool, told: object = "") -> None:
        """A case that passes where a fact holds."""
        self.passed += fact
        self.failed += not fact
        if not fact:
            print(f"{name}: does not hold. {str(told)[:800]}")

    def equal(self, name: str, wanted: object, got: object) -> None:
        """A case that passes where two values are the same."""
        self.holds(name, wanted == got, f"{str(got)[:400]!r}, and wanted was {str(wanted)[:400]!r}")

    def end(self) -> int:
        """The last line, and the exit status."""
        print(f"{self.passed} passed, {self.failed} failed")
        return 1 if self.failed else 0


def program_of(description: str | None) -> Path:
    """The built program, as the command line names it. Folders are made in memory from here on,
    where that can be: a server waits for the disk at each entry."""
    parser = argparse.ArgumentParser(description=description,
                                     formatter_class=argparse.RawDescriptionHelpFormatter)
    parser.add_argument("--program", type=Path,
                        default=REPOSITORY / "crates/stdcm/out/stdcm")
    program = parser.parse_args().program.resolve()
    if Path("/dev/shm").is_dir():
        tempfile.tempdir = "/dev/shm"
    if not program.is_file():
        raise SystemExit(f"{program} is not there: dev/build makes it")
    return program


@dataclass(frozen=True)
class Ran:
    """How a companion ended, and what it told."""

    status: int
    out: str
    err: str


def run(companion: ModuleType, *words: object) -> Ran:
    """Runs a companion's `main` with these words."""
    out, err = io.StringIO(), io.StringIO()
    with contextlib.redirect_stdout(out), contextlib.redirect_stderr(err):
        try:
            status = companion.main([*map(str, words)])
        except SystemExit as end:
            status = end.code if isinstance(end.code, int) else 1
    return Ran(status, out.getvalue(), err.getvalue())


@dataclass(frozen=True)
class World:
    """The files of a server in one folder, and the program that serves them."""

    program: Path
    folder: Path

    def path(self, name: str) -> Path:
        return self.folder / name

    def write(self, name: str, value: Any) -> Path:
        """Writes a file: a text as it is, another value as JSON."""
        text = value if isinstance(value, str) else json.dumps(value)
        self.path(name).write_text(text, encoding="utf-8")
        return self.path(name)

    def read(self, name: str) -> Any:
        return json.loads(self.path(name).read_text(encoding="utf-8"))

    def files(self, *names: str) -> list[str]:
        """The words that name these files, each by the option of its name."""
        return [word for name in names for word in (f"--{name}", str(self.path(name)))]

    def command(self, *words: str) -> subprocess.CompletedProcess[str]:
        return subprocess.run([str(self.program), *words], capture_output=True, text=True)

    def list(self) -> None:
        """Makes the table of the network."""
        self.path("table").unlink(missing_ok=True)
        done = self.command("list", *self.files("network"), "--out", str(self.path("table")))
        if done.returncode != 0:
            raise SystemExit(f"list: {done.stderr}")

    def init(self) -> int:
        """Begins the journal anew; the status."""
        self.path("journal").unlink(missing_ok=True)
        return self.command("init", *self.files("network", "base", "journal")).returncode

    def serve(self, client: str, lines: list[str], *others: str) -> list[str]:
        """The replies to a client's lines."""
        self.write("lines", "".join(line + "\n" for line in lines))
        self.path("replies").unlink(missing_ok=True)
        done = self.command("serve", *self.files("network", "trains", "base", "journal"),
                            "--client", f"{client}={self.path('lines')}:{self.path('replies')}",
                            *others)
        if done.returncode != 0:
            raise SystemExit(f"serve: {done.returncode} {done.stderr}")
        return self.path("replies").read_text().splitlines()


def changed(value: Any, change: Callable[[Any], object]) -> Any:
    """A copy of a JSON value to which something was done."""
    copy = json.loads(json.dumps(value))
    change(copy)
    return copy


def leftovers(folder: Path) -> Iterator[str]:
    """The names of files that were begun beside others and not taken away."""
    return (one.name for one in folder.iterdir() if one.name.startswith("."))
