"""Tries dev/tables on small tables of a made repository, with a stand-in for their program.

    PYTHONPATH=python python3 -m tests.test_tables
"""
from __future__ import annotations

import shutil
import subprocess
import sys
import tempfile
from dataclasses import dataclass
from pathlib import Path

from tests.cases import REPOSITORY, Cases

#: Carries out a table: `say TEXT` prints a text, `show NAME` a file's lines that are not empty.
STAND_IN = """#!/usr/bin/env python3
import sys
files, rows = {}, iter(sys.stdin.read().splitlines())
for row in rows:
    word, _, rest = row.partition(" ")
    if word in ("", "#"):
        continue
    if word == "file":
        last, files[rest] = rest, []
        for line in rows:
            if line == ".":
                break
            files[rest].append(line)
    elif word in ("copy", "keep"):
        last, of = rest.split()
        files[last] = [*files[of]]
    elif word == "+":
        files[last].append(rest)
    elif word == "case":
        print(rest)
    elif word == "say":
        print("  " + rest)
    elif word == "show":
        print("".join(f"  {line}\\n" for line in files[rest] if line), end="")
    else:
        sys.exit(1)
"""
SHARED = """# How to read it.
#
# `say TEXT` prints a text.

file train
coach
coach
.

# A change of a copy.
copy longer train
+ engine
"""
STATION = """# Trains at a station.

case A train is told
show train
= coach
= coach

each way
case A train goes <way>
say <way>
= <way>
| in
| out

# Rows that stand together have the answers behind them.
each number word train
case Train <number> <word>
show <train>
| 1 | stops | train
| 2 | stops | train
= coach
= coach
| 3 | passes | longer
= coach
= coach
= engine
"""
YARD = """case A train is kept
show longer
= coach
= coach
= engine
keep parked longer

case A parked train has another engine
copy lines parked
+ engine
show lines
= coach
= coach
= engine
= engine
each old new told
# A remark says nothing, and an empty line of a file ends nothing.
file pair
<old>

.
+ <new> <no>
show pair
= <old>
= <told>
| a b | > | > <no>
| c | d
= c
= d <no>
say behind
= behind
"""
STDIN = """# Made by dev/tables of tests/tables/small: change the cases there.
#
# How to read it.
#
# `say TEXT` prints a text.

# shared.cases

# station.cases

file train
coach
coach
.

case A train is told
show train

case A train goes in
say in

case A train goes out
say out

case Train 1 stops
show train

case Train 2 stops
show train

copy longer train
+ engine

case Train 3 passes
show longer

# yard.cases

case A train is kept
show longer
keep parked longer

case A parked train has another engine
copy lines parked
+ engine
show lines
file pair
a b

.
+ > <no>
show pair
file pair
c

.
+ d <no>
show pair
say behind
"""
STDOUT = """A train is told
  coach
  coach
A train goes in
  in
A train goes out
  out
Train 1 stops
  coach
  coach
Train 2 stops
  coach
  coach
Train 3 passes
  coach
  coach
  engine
A train is kept
  coach
  coach
  engine
A parked train has another engine
  coach
  coach
  engine
  engine
  a b
  > <no>
  c
  d <no>
  behind
"""


@dataclass(frozen=True)
class Clone:
    """A repository of one table, with a stand-in for its program."""

    root: Path

    def __post_init__(self) -> None:
        for name in ("dev", "tests/tables/small", "crates/small/out", "python/kidrofemba/common"):
            (self.root / name).mkdir(parents=True)
        for name in ("dev/tables", "dev/launch", "dev/tables.py", "dev/case_tables.py",
                     "dev/repository.py",
                     "dev/__init__.py", "python/kidrofemba/__init__.py",
                     "python/kidrofemba/common/__init__.py",
                     "python/kidrofemba/common/companion.py",
                     "python/kidrofemba/common/synced.py"):
            shutil.copy2(REPOSITORY / name, self.root / name)
        self.build("small", STAND_IN)

    def build(self, name: str, text: str) -> Path:
        """Puts a program beside the crate."""
        path = self.root / "crates/small/out" / name
        path.write_text(text)
        path.chmod(0o755)
        return path

    def write(self, **topics: str) -> None:
        """The topics of the table, these alone."""
        for path in self.tables.glob("*"):
            path.unlink()
        for name, text in topics.items():
            (self.tables / f"{name}.cases").write_text(text)

    @property
    def tables(self) -> Path:
        return self.root / "tests/tables/small"

    def made(self, name: str) -> str:
        return (self.root / "crates/small" / name).read_text()

    def run(self, *words: str) -> subprocess.CompletedProcess[str]:
        return subprocess.run([sys.executable, "-B", str(self.root / "dev/tables"), *words],
                              capture_output=True, text=True)

    def told(self, *words: str) -> tuple[int, str]:
        """The status of a run, and all that it told."""
        done = self.run(*words)
        return done.returncode, done.stdout + done.stderr


def made_tables(clone: Clone, cases: Cases) -> None:
    """What is made of topics, and whether it is up to date."""
    clone.write(shared=SHARED, station=STATION, yard=YARD)
    cases.equal("nothing made yet", (1, "crates/small/stdin is not what dev/tables makes of "
                "tests/tables\ncrates/small/stdout is not what dev/tables makes of tests/tables\n"
                "0 passed, 2 failed\n"), clone.told("--check"))
    cases.equal("made", (0, "made crates/small/stdin\nmade crates/small/stdout\n"), clone.told())
    cases.equal("input", STDIN, clone.made("stdin"))
    cases.equal("answers", STDOUT, clone.made("stdout"))
    cases.equal("up to date", (0, "2 passed, 0 failed\n"), clone.told("--check"))
    cases.equal("nothing to make", (0, ""), clone.told())
    clone.write(shared=SHARED, station=STATION.replace("= engine", "= brake"), yard=YARD)
    cases.equal("answers that changed", (1, "crates/small/stdout is not what dev/tables makes of "
                "tests/tables\n1 passed, 1 failed\n"), clone.told("--check"))


def named_cases(clone: Clone, cases: Cases) -> None:
    """Cases by their titles."""
    clone.write(shared=SHARED, station=STATION, yard=YARD)
    cases.equal("a part of titles", (0, "small/station.cases:12: A train goes in\n"
                "small/station.cases:13: A train goes out\n"), clone.told("--list", "train goes"))
    cases.equal("a whole title", (0, "small/yard.cases:1: A train is kept\n"),
                clone.told("--list", "A train is kept"))
    cases.equal("each title", 8, len(clone.told("--list")[1].splitlines()))
    cases.equal("no title", (2, "tables: tests/tables: no case is called 'engine is'\n"),
                clone.told("--list", "train goes", "engine is"))
    cases.equal("with what it needs", (0, """# small/shared.cases:5
file train
coach
coach
.

# small/shared.cases:11
copy longer train
+ engine

# small/yard.cases:1
case A train is kept
show longer
= coach
= coach
= engine
keep parked longer

"""), clone.told("--show", "A train is kept"))


def written_cases(clone: Clone, cases: Cases) -> None:
    """Cases as files: their inputs, and what must come of them."""
    clone.write(shared=SHARED, station=STATION, yard=YARD)
    folder = clone.root / "written"
    cases.equal("written", (0, ""), clone.told("--write", str(folder), "train goes out", "Train 3"))
    cases.equal("the files", {
        "station-13": "case A train goes out\nsay out\n",
        "station-13.stdout": "A train goes out\n  out\n",
        "station-23": "file train\ncoach\ncoach\n.\ncopy longer train\n+ engine\n"
                      "case Train 3 passes\nshow longer\n",
        "station-23.stdout": "Train 3 passes\n  coach\n  coach\n  engine\n",
    }, {path.name: path.read_text() for path in folder.iterdir()})


def run_cases(clone: Clone, cases: Cases) -> None:
    """Cases that are run alone, and what is printed of them."""
    clone.write(shared=SHARED, station=STATION, yard=YARD)
    cases.equal("each case alone", (0, "8 passed, 0 failed\n"), clone.told("--run"))
    cases.equal("one that passes", (0, """ok small/station.cases:12
  case A train goes in
    say in
      = in
1 passed, 0 failed
"""), clone.told("--run", "A train goes in"))
    clone.write(shared=SHARED, station=STATION,
                yard=YARD.replace("= engine\n= engine", "= engine\n= brake"))
    failed = """FAILED small/yard.cases:8
  case A parked train has another engine
    show lines
      = coach
      = coach
      = engine
      wanted: brake
      got:    engine
    show pair
      = a b
      = > <no>
    show pair
      = c
      = d <no>
    say behind
      = behind
"""
    cases.equal("one that fails", (1, failed + "7 passed, 1 failed\n"), clone.told("--run"))
    clone.write(shared=SHARED, station=STATION, yard=YARD.replace("= engine\nkeep", "keep"))
    status, told = clone.told("--run", "A parked train has another engine")
    cases.equal("what it needs fails", (1, """FAILED small/yard.cases:7
  case A train is kept
    show longer
      = coach
      = coach
      got:    engine
"""), (status, "".join(told.splitlines(True)[:6])))
    clone.write(shared=SHARED, station=STATION + "\ncase A train jumps\njump\n= jumped\n")
    cases.equal("a program that ends", (1, """FAILED small/station.cases:28
  case A train jumps
    jump
      wanted: jumped
      got:    ended with status 1
0 passed, 1 failed
"""), clone.told("--run", "jumps"))
    other = clone.build("other", STAND_IN.replace('"  " + rest', '"  " + rest.upper()'))
    cases.equal("another program", (1, """FAILED small/station.cases:12
  case A train goes in
    say in
      wanted: in
      got:    IN
0 passed, 1 failed
"""), clone.told("--run", "A train goes in", "--program", str(other)))
    second = clone.root / "tests/tables/second"
    second.mkdir()
    (second / "topic.cases").write_text("case A train waits\nsay in\n= in\n")
    cases.equal("a program of no table, and cases of two", (
        2, f"tables: {other}: a program of one table, and cases of several are meant\n"),
        clone.told("--run", "train", "--program", str(other)))
    small = clone.root / "crates/small/out/small"
    clone.write(shared=SHARED, station=STATION)
    cases.equal("the cases of a program", (0, "6 passed, 0 failed\n"),
                clone.told("--run", "--program", str(small)))
    shutil.rmtree(second)
    small.unlink()
    cases.equal("no program", 2, clone.told("--run", "A train goes in")[0])


#: Topics that are not understood: a text, the line that is told, and what is wrong with it.
FAULTS = [
    ("say a\n", 1, "'say' begins neither a case nor a file"),
    ("case A\nsay a\ncase B\n", 3, "a case within a case: a blank line stands between two"),
    ("case A\n= a\n", 2, "an answer behind no step"),
    ("case A\nsay a\n\ncase A\nsay b\n", 4, "the title comes twice: A"),
    ("case A\nfile f\na\n\n", 2, "a file without its end, which is a dot"),
    ("file f\n.\n\nfile f\n.\n", 4, "the file f is made twice for all"),
    ("file f\n.\n\ncase A\nfile f\n.\n", 5, "f is made for all elsewhere: take another name"),
    ("file f\n.\nsay a\n", 3, "'say' stands outside a case"),
    ("copy f g\n\ncopy g f\n\ncase A\nshow f\n", 1, "what it needs needs itself"),
    ("each a\nfile f\n.\n", 2, "an each outside a case begins with the title of its cases"),
    ("each\ncase A\n", 1, "an each without a name"),
    ("each a\ncase <a>\nsay a\n", 1, "an each without rows"),
    ("each a b\ncase <a>\nsay a\n| 1 | 2\n", 1, "<b> stands in no step"),
    ("each a b\ncase <a>\nsay <b>\n| 1\n", 4, "a row of 1 texts, and not of 2"),
    ("each a\ncase <a>\nsay a\n= a\n| 1\n| 2 | 3\n", 6, "a row of 2 texts, and not of 1"),
    ("each a\ncase <a>\nsay <a>\n| 1\n= 1\n| 2\n", 6, "a row without an answer"),
]


def faults(clone: Clone, cases: Cases) -> None:
    """What is not understood is told with its line."""
    for text, line, wrong in FAULTS:
        clone.write(topic=text)
        told = f"tables: {clone.tables}/topic.cases: line {line}: {wrong}\n"
        cases.equal(wrong, (2, told), clone.told("--check"))


def main() -> int:
    cases = Cases()
    for work in (made_tables, named_cases, written_cases, run_cases, faults):
        with tempfile.TemporaryDirectory() as folder:
            work(Clone(Path(folder)), cases)
    return cases.end()


if __name__ == "__main__":
    sys.exit(main())
