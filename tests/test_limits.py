"""Tries the limits of large files with the built program over real files.

The cases, and what must come of each, stand in tests/limits.cases, whose head tells its words. A
case of which the program does otherwise is printed with the line of that file.

    PYTHONPATH=python python3 -m tests.test_limits --program crates/stdcm/out/stdcm
    PYTHONPATH=python python3 -m tests.test_limits --only zones "4,096 trains"
"""
from __future__ import annotations

import argparse
import sys
import tempfile
from collections.abc import Iterator
from dataclasses import dataclass, field
from pathlib import Path

from tests.runner.calls import Program
from tests.runner.compare import Difference

HERE = Path(__file__).resolve().parent
PROGRAM = HERE.parent / "crates/stdcm/out/stdcm"
CASES = HERE / "limits.cases"
#: The outputs of commands, in the order in which their lines are compared.
OUTPUTS = ("A", "out")
#: The seconds after which a command that has not ended is taken for failed.
LIMIT_S = 90.0


class NotUnderstood(Exception):
    """A line of the cases that can't be carried out."""

    def __init__(self, line: int, what: str) -> None:
        super().__init__(f"line {line}: {what}")


@dataclass
class Step:
    """A word with what follows it, and the lines that belong to it: of a file, or answers."""

    line: int
    word: str
    rest: str
    lines: list[str] = field(default_factory=list)


@dataclass
class Case:
    """A title, and the steps behind it."""

    title: str
    steps: list[Step] = field(default_factory=list)


def steps_of(text: str) -> Iterator[Step]:
    """The steps of a text, each with its lines; blank lines and remarks are none."""
    rows = enumerate(text.splitlines(), 1)
    step: Step | None = None
    for line, row in rows:
        word, _, rest = row.partition(" ")
        if word in ("", "#"):
            continue
        if word == "=":
            if step is None or step.word != "run":
                raise NotUnderstood(line, "an answer behind no command")
            step.lines.append(rest)
            continue
        if step is not None:
            yield step
        step = Step(line, word, rest)
        if word == "file":
            step.lines = list(file_lines(line, rows))
    if step is not None:
        yield step


def file_lines(begin: int, rows: Iterator[tuple[int, str]]) -> Iterator[str]:
    """The lines of a file up to its dot."""
    for _, row in rows:
        if row == ".":
            return
        yield row
    raise NotUnderstood(begin, "a file without its end")


def cases_of(text: str) -> tuple[list[Step], list[Case]]:
    """The steps before the first case, which belong to all, and the cases."""
    common: list[Step] = []
    cases: list[Case] = []
    for step in steps_of(text):
        if step.word == "case":
            cases.append(Case(step.rest))
        else:
            (cases[-1].steps if cases else common).append(step)
    return common, cases


def times_of(step: Step) -> tuple[int, str]:
    """The number that a step begins with, and the text behind it."""
    number, _, text = step.rest.partition(" ")
    if not number.isdecimal():
        raise NotUnderstood(step.line, f"{number!r} is no number")
    return int(number), text


def bytes_of(step: Step, text: str) -> bytes:
    try:
        return bytes.fromhex(text)
    except ValueError:
        raise NotUnderstood(step.line, f"{text!r} is not hexadecimal") from None


class Site:
    """A case's folder: its files, as far as the steps have made them, and the program."""

    def __init__(self, program: Program, folder: Path) -> None:
        self.program = program
        self.folder = folder
        self.name = ""
        self.content = bytearray()
        self.old = b""
        self.room: int | None = None

    def take(self, step: Step) -> None:
        """Carries out one step."""
        match step.word:
            case "file":
                self.put_file()
                self.name = step.rest
                self.content = bytearray("".join(f"{row}\n" for row in step.lines).encode())
            case "-":
                self.old = step.rest.encode()
            case "+":
                self.replace(step)
            case "fill":
                times, text = times_of(step)
                self.content += bytes_of(step, text) * times
            case "count":
                times, text = times_of(step)
                pieces = (text.replace("#", str(number)) for number in range(1, times + 1))
                self.content += "".join(pieces).encode()
            case "room":
                self.room = times_of(step)[0]
            case "run":
                self.run(step)
            case _:
                raise NotUnderstood(step.line, f"the word {step.word!r} is unknown")

    def replace(self, step: Step) -> None:
        """Puts a text in the place of the old one where that stands first."""
        at = self.content.find(self.old)
        if not self.old or at < 0:
            raise NotUnderstood(step.line, f"{self.old.decode()!r} does not stand in {self.name}")
        self.content[at:at + len(self.old)] = step.rest.encode()
        self.old = b""

    def put_file(self) -> None:
        """Writes the file that was given last into the folder."""
        if self.name:
            (self.folder / self.name).write_bytes(self.content)

    def run(self, step: Step) -> None:
        """Carries out a command, and compares what comes of it with the answers."""
        if not step.lines:
            raise NotUnderstood(step.line, "a command without an answer")
        self.put_file()
        for name in OUTPUTS:
            (self.folder / name).unlink(missing_ok=True)
        ended = self.program.call(step.rest.split(), self.folder, file_size=self.room)
        self.room = None
        came = [f"status {ended.status}", *told_by("report", ended.report)]
        for name in OUTPUTS:
            path = self.folder / name
            came += told_by(name, path.read_bytes() if path.is_file() else b"")
        if came != step.lines:
            raise Difference(difference(step, came))


def told_by(name: str, content: bytes) -> list[str]:
    """The lines of the report or an output, each with its name before it."""
    return [f"{name}: {row}" for row in content.decode(errors="replace").splitlines()]


def difference(step: Step, came: list[str]) -> str:
    """The first answer of a command that is not as it must be."""
    end = "nothing more"
    wanted_rows, came_rows = [*step.lines, end], [*came, end]
    wanted, got = next(pair for pair in zip(wanted_rows, came_rows) if pair[0] != pair[1])
    return f"line {step.line}: wanted {wanted[:200]!r}, and {got[:200]!r} came"


def fault_of(common: list[Step], case: Case, program: Program) -> str | None:
    """Runs a case in a folder of its own; None where all is as it must be."""
    with tempfile.TemporaryDirectory(prefix="limits-test-") as folder:
        site = Site(program, Path(folder))
        try:
            for step in [*common, *case.steps]:
                site.take(step)
        except Difference as wrong:
            return str(wrong)
    return None


def chosen(cases: list[Case], words: list[str]) -> list[Case]:
    """The cases whose titles have one of the words, or all where there is no word."""
    return [case for case in cases
            if not words or any(word.lower() in case.title.lower() for word in words)]


def main() -> int:
    formatter = argparse.RawDescriptionHelpFormatter
    parser = argparse.ArgumentParser(description=__doc__, formatter_class=formatter)
    parser.add_argument("--program", type=Path, default=PROGRAM, help="the built program")
    parser.add_argument("--only", nargs="+", default=[], metavar="WORD",
                        help="the cases whose titles have one of these words")
    options = parser.parse_args()
    if not options.program.is_file():
        parser.error(f"no program at {options.program}: dev/build makes it")
    program = Program(options.program.resolve(), LIMIT_S)
    failed = 0
    try:
        common, cases = cases_of(CASES.read_text())
        cases = chosen(cases, options.only)
        if not cases:
            parser.error("no case has such a title")
        for case in cases:
            fault = fault_of(common, case, program)
            if fault is not None:
                failed += 1
                print(f"FAILED {case.title}: {fault}", flush=True)
    except (NotUnderstood, UnicodeDecodeError) as wrong:
        print(f"test_limits: {CASES.name}: {wrong}", file=sys.stderr)
        return 2
    except OSError as fault:
        print(f"test_limits: {fault.filename}: {fault.strerror}", file=sys.stderr)
        return 2
    print(f"{len(cases) - failed} passed, {failed} failed")
    return 1 if failed else 0


if __name__ == "__main__":
    sys.exit(main())
