"""Makes the input and the answers of the programs that carry out tables, and runs single cases.

The cases stand by topic in tests/tables/CRATE, each with its steps and what must come of them;
tests/README.md tells how they are written. What the gate reads of them, crates/CRATE/stdin and
stdout, is made here.

    dev/tables                                makes stdin and stdout of each table anew
    dev/tables --check                        tells whether they are up to date
    dev/tables --list "Opening call"          the cases with this in their titles
    dev/tables --show "A curfew"              a case, with the files and the cases that it needs
    dev/tables --run "A curfew"               runs it alone, and prints wanted beside got
    dev/tables --run                          all cases, each alone; those that fail are printed
    dev/tables --run curfew --program PATH    over another program than crates/CRATE/out/CRATE
    dev/tables --write FOLDER "A curfew"      its input and what must come of it, as files for
                                                `rt try --cases FOLDER`, which needs no proof

A case is meant by its title, or by a part of it. The last line of --check and of --run is
`N passed, M failed`, and the exit status is 0 only where M is 0; what is not understood is told in
one line, with status 2.
"""
from __future__ import annotations

import argparse
import os
import subprocess
import sys
import tempfile
from dataclasses import dataclass
from difflib import SequenceMatcher
from pathlib import Path

from dev.case_tables import Case, Table, input_of, output_of, read_table
from dev.repository import ROOT
from kidrofemba.common.companion import Refused, run_companion, write_whole

TABLES = ROOT / "tests/tables"
#: The seconds after which a program that has not ended is taken for failed.
LIMIT_S = 120.0


def tables() -> list[Table]:
    """Each table of the repository."""
    return [read_table(path) for path in sorted(TABLES.iterdir()) if path.is_dir()]


def made_files(table: Table) -> dict[Path, str]:
    """The files that are made of a table, with what they must hold."""
    folder = ROOT / "crates" / table.name
    return {folder / "stdin": table.stdin(), folder / "stdout": table.stdout()}


def holds(path: Path, text: str) -> bool:
    return path.is_file() and path.read_bytes() == text.encode()


def make() -> int:
    """Makes what is not up to date."""
    for table in tables():
        for path, text in made_files(table).items():
            if not holds(path, text):
                write_whole(path, text)
                print(f"made {path.relative_to(ROOT)}")
    return 0


def check() -> int:
    """Tells which of the made files are not up to date."""
    files = {path: text for table in tables() for path, text in made_files(table).items()}
    old = [path for path, text in files.items() if not holds(path, text)]
    for path in old:
        print(f"{path.relative_to(ROOT)} is not what dev/tables makes of tests/tables")
    return counted(len(files) - len(old), len(old))


def counted(passed: int, failed: int) -> int:
    """The last line, and the exit status."""
    print(f"{passed} passed, {failed} failed")
    return 1 if failed else 0


def chosen(table: Table, names: list[str]) -> list[Case]:
    """The cases of a table that are meant: by their titles, or else by parts of these."""
    titles = {case.title for case in table.cases}
    return [case for case in table.cases
            if not names or any(name == case.title or (name not in titles and name in case.title)
                                for name in names)]


def all_chosen(names: list[str]) -> list[tuple[Table, list[Case]]]:
    """The cases that are meant, by table. Each name must mean one."""
    found = [(table, chosen(table, names)) for table in tables()]
    for name in names:
        if not any(chosen(table, [name]) for table, _ in found):
            raise Refused(TABLES.relative_to(ROOT), "", f"no case is called {name!r}")
    return [(table, cases) for table, cases in found if cases]


def list_cases(names: list[str]) -> int:
    for table, cases in all_chosen(names):
        for case in cases:
            print(f"{table.name}/{case.place.path.name}:{case.place.line}: {case.title}")
    return 0


def show(names: list[str]) -> int:
    """Prints cases behind what they need, as they are carried out, with the answers wanted."""
    for table, cases in all_chosen(names):
        for one in table.with_needs(cases):
            print(f"# {table.name}/{one.place.path.name}:{one.place.line}")
            if isinstance(one, Case):
                print(f"case {one.title}")
            for step in one.steps:
                print("\n".join([*step.written(), *(f"= {it}" for it in step.answers)]))
            print()
    return 0


def write(folder: Path, names: list[str]) -> int:
    """Writes cases of one table as files, each behind what it needs."""
    found = all_chosen(names)
    if len(found) > 1:
        raise Refused(folder, "", "cases of several tables are meant, whose programs differ")
    table, cases = found[0]
    folder.mkdir(parents=True, exist_ok=True)
    for case in cases:
        order = table.with_needs([case])
        path = folder / f"{case.place.path.stem}-{case.place.line}"
        write_whole(path, input_of(order))
        write_whole(path.with_name(f"{path.name}.stdout"), output_of(order))
    return 0


@dataclass(frozen=True)
class Program:
    """A built program that carries out a table."""

    path: Path

    def run(self, table: str) -> list[str]:
        """The lines that it prints, and behind them how it ended, where that was not well."""
        with tempfile.TemporaryDirectory() as folder:
            try:
                done = subprocess.run([self.path], input=table.encode(), cwd=folder,
                                      stdout=subprocess.PIPE, stderr=subprocess.STDOUT,
                                      timeout=LIMIT_S)
            except subprocess.TimeoutExpired:
                return [f"  no end within {LIMIT_S:.0f} s"]
        lines = done.stdout.decode("utf-8", "backslashreplace").splitlines()
        return lines + ([f"  ended with status {done.returncode}"] if done.returncode else [])


def parts_of(lines: list[str], titles: list[str]) -> dict[str, list[str]]:
    """What was printed of each case, by its title; its lines stand behind two blanks."""
    parts: dict[str, list[str]] = {"": []}
    title = ""
    for line in lines:
        if line in titles:
            title = line
            parts[title] = []
        else:
            parts[title].append(line.removeprefix("  "))
    return parts


def beside(case: Case, got: list[str]) -> list[str]:
    """The steps of a case with what they print: lines as they are wanted, and where others came,
    what was wanted and what was got."""
    rows = [(step.text if at == 0 else "", text)
            for step in case.steps for at, text in enumerate(step.answers)]
    told = [f"case {case.title}"]
    compared = SequenceMatcher(None, [text for _, text in rows], got, autojunk=False)
    for kind, begin, end, first, last in compared.get_opcodes():
        for step, text in rows[begin:end]:
            told += [f"  {step}"] if step else []
            told.append(f"    = {text}" if kind == "equal" else f"    wanted: {text}")
        told += [f"    got:    {text}" for text in got[first:last] if kind != "equal"]
    return told


def run(names: list[str], program: Path | None) -> int:
    """Runs each case in a world of its own, and prints wanted beside got: of cases that were asked
    for by name each, else those that fail."""
    found = all_chosen(names)
    if program is not None:
        found = [it for it in found if it[0].name == program.name] or found
        if len(found) > 1:
            raise Refused(program, "", "a program of one table, and cases of several are meant")
    passed = failed = 0
    for table, cases in found:
        path = program or ROOT / "crates" / table.name / "out" / table.name
        if not os.access(path, os.X_OK):
            raise Refused(path, "", "no program: dev/tables --help tells which is run")
        for case in cases:
            told = run_case(Program(path.resolve()), table, case)
            word = "FAILED" if told.is_failed else "ok"
            passed, failed = passed + (not told.is_failed), failed + told.is_failed
            if names or told.is_failed:
                print(f"{word} {table.name}/{case.place.path.name}:{case.place.line}")
                print("".join(f"  {row}\n" for row in told.rows), end="")
    return counted(passed, failed)


@dataclass(frozen=True)
class Told:
    """Whether a case failed, and the rows that tell what it printed."""

    is_failed: bool
    rows: list[str]


def run_case(program: Program, table: Table, case: Case) -> Told:
    """Runs a case behind what it needs. Of the cases that it needs only those are told that
    fail."""
    order = table.with_needs([case])
    cases = [it for it in order if isinstance(it, Case)]
    parts = parts_of(program.run(input_of(order)), [it.title for it in cases])
    shown = [it for it in cases if it is case or parts.get(it.title) != it.answers]
    is_failed = len(shown) > 1 or parts.get(case.title) != case.answers
    return Told(is_failed, [row for it in shown for row in beside(it, parts.get(it.title, []))])


def main() -> int:
    formatter = argparse.RawDescriptionHelpFormatter
    parser = argparse.ArgumentParser(description=__doc__, formatter_class=formatter)
    work = parser.add_mutually_exclusive_group()
    work.add_argument("--check", action="store_true", help="whether the made files are up to date")
    work.add_argument("--list", nargs="*", metavar="NAME", help="the titles of cases")
    work.add_argument("--show", nargs="+", metavar="NAME", help="cases with what they need")
    work.add_argument("--run", nargs="*", metavar="NAME", help="cases, each alone")
    work.add_argument("--write", nargs="+", metavar=("FOLDER", "NAME"), help="cases as files")
    parser.add_argument("--program", type=Path, metavar="PATH", help="the built program for --run")
    options = parser.parse_args()
    if options.check:
        return check()
    if options.list is not None:
        return list_cases(options.list)
    if options.show is not None:
        return show(options.show)
    if options.run is not None:
        return run(options.run, options.program)
    if options.write is not None:
        return write(Path(options.write[0]), options.write[1:])
    return make()


if __name__ == "__main__":
    sys.exit(run_companion("tables", main))
