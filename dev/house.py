"""Counts what the house rules of this repository bound, and holds the counts to limits.

Crates are those of crates.txt; a product's are the program and what it stands on, so that tests
and benches that are programs of their own are left out. A chain is as long as it has crates. The
libraries of a crate are those that its line names, the kit's among them. Columns are characters, of
all lines of .rt files in src/ and of .antt files in specs/. A function's parameters are counted
with `self`, and a relation's without those in braces: a relation is a definition of specs/ whose
signature ends in `Type`, or a record of that type. Bare numbers are a guess: each stands in a line
of src/ that names no constant, where the crate has a constant of that value, or of the value before
it, or one below it has a public one. Crates where such a number is another one are listed below.
Tests inside crates are the attributes of src/ that name `test`: a crate that has one is proved once
more, with its tests; cases of tests/tables cost no proof.

    dev/house
    dev/house --lines
    dev/house --wide-lines 0 --most-tests 0
    dev/house --most-dependencies 12 --but osrd_stdcm

Each limit that is exceeded is told in a line behind the counts; the exit status is then 1.
"""
from __future__ import annotations

import argparse
import os
import re
import sys
from collections.abc import Iterator
from dataclasses import dataclass
from functools import cached_property
from pathlib import Path

from dev.repository import ROOT, Repository

PROGRAM = "stdcm"
COLUMNS = 100
#: What is listed where no limit is given: crates with more libraries, functions with more
#: parameters, and relations with more parameters than these.
LIBRARIES, PARAMETERS, RELATION_PARAMETERS = 12, 8, 10
NUMBERS = (400_000, 16, 77, 67_108_865)
#: Numbers of crates that are none of those constants: places and bits of a layout of bytes, the
#: base of hexadecimal digits, and a text, in which no constant can stand.
OTHERS = {"entry_codec": (16,), "json_fields": (16,), "command_files": (67_108_865,)}
FUNCTION = re.compile(r"\bfn (\w+)")
RECORD = re.compile(r"(?:pub )?record ([^\s(){}]+)(.*?) : Type \d+ where", re.DOTALL)
SIGNATURE = re.compile(r"(?:(?:abbrev|unfoldable) )?(?:pub )?([^\s(){}]+) : (.*)", re.DOTALL)
NAMED = re.compile(r"\((?P<names>[^():]+) : ")
CONSTANT = re.compile(r"(\bpub )?\bconst (\w+): \w+ = ([\d_]+);")
TEXT = re.compile(r'"(?:[^"\\]|\\.)*"')
NUMBER = re.compile(r"(?<![\w.])\d[\d_]*(?![\w.]*\w)")
TEST = re.compile(r"#!?\s*\[[^]]*\btest\b")
OPENING, CLOSING = "([{<", ")]}>"


@dataclass(frozen=True)
class Spot:
    """A line of a file, and what stands there."""

    path: Path
    line: int
    what: str
    count: int = 0

    def told(self) -> str:
        count = f" {self.count}" if self.count else ""
        return f"    {self.path}:{self.line}:{count} {self.what}"


@dataclass(frozen=True)
class Constant:
    """A constant of a crate, and whether other crates may name it."""

    crate: str
    name: str
    public: bool


def parts(text: str, between: str) -> list[str]:
    """What stands between these texts, those in brackets passed over."""
    found, depth, begin, at = [], 0, 0, 0
    while at < len(text):
        if text.startswith(("->", "=>"), at):
            at += 2
            continue
        depth += (text[at] in OPENING) - (text[at] in CLOSING)
        if depth == 0 and text.startswith(between, at):
            found.append(text[begin:at])
            begin = at + len(between)
        at += 1
    found.append(text[begin:])
    return [part.strip() for part in found]


def parameters(text: str) -> list[str]:
    """The parameters of a function, of the text behind its name."""
    depth = begin = 0
    for at, letter in enumerate(text):
        if letter == ">" and text[at - 1] in "-=":
            continue
        if depth == 0 and letter == "(":
            begin = at + 1
        depth += (letter in OPENING) - (letter in CLOSING)
        if depth == 0 and letter == ")":
            return [it for it in parts(text[begin:at], ",") if it]
    return []


def groups(text: str) -> list[str]:
    """The round brackets that stand side by side at the begin of a text; those in braces are
    passed over."""
    found, rest = [], text.strip()
    while rest.startswith(("(", "{")):
        depth = 0
        for end, letter in enumerate(rest):
            depth += (letter in "({") - (letter in ")}")
            if depth == 0:
                break
        if rest[0] == "(":
            found.append(rest[:end + 1])
        rest = rest[end + 1:].lstrip()
    return found


def names_of(text: str) -> int:
    """How many parameters a part of a signature has: `(a b : A)` has two, and `A` has one."""
    named = [NAMED.match(group) for group in groups(text)]
    if any(named):
        return sum(len(group["names"].split()) for group in named if group)
    return 0 if text.startswith("{") else 1


def without_comment(line: str) -> str:
    """A line of code up to its comment."""
    blank = TEXT.sub(lambda text: "_" * len(text[0]), line)
    return line[:blank.find("//")] if "//" in blank else line


def items(lines: list[str], comment: str) -> Iterator[tuple[int, str]]:
    """What stands at the left margin, with all that is indented below it, comments left out; each
    with the number of its first line."""
    begin = 0
    text: list[str] = []
    for number, line in enumerate([*lines, "end"], 1):
        if line and not line[0].isspace():
            if text:
                yield begin, "\n".join(text)
            begin, text = number, []
        if line.strip() and not line.lstrip().startswith(comment):
            text.append(line)


@dataclass(frozen=True)
class House:
    """What is counted in a repository whose product is one program."""

    repository: Repository
    program: str

    @cached_property
    def crates(self) -> list[str]:
        return [*self.repository.libraries]

    @cached_property
    def products(self) -> list[str]:
        """The program and the crates below it; all where there is no such program."""
        if self.program not in self.crates:
            return self.crates
        return [*self.repository.below(self.program), self.program]

    @cached_property
    def chain(self) -> list[str]:
        """A longest chain of crates, the lowest first."""
        best: dict[str, list[str]] = {}
        for name in self.crates:
            below = [best[it] for it in self.repository.libraries[name] if it in best]
            best[name] = [*max(below, key=len, default=[]), name]
        return max(best.values(), key=len, default=[])

    def with_libraries(self, most: int) -> list[tuple[str, int]]:
        """The crates whose lines name more libraries, those with most first."""
        counts = [(name, len(it)) for name, it in self.repository.libraries.items()]
        return sorted((it for it in counts if it[1] > most), key=lambda it: -it[1])

    def files(self, part: str, suffix: str) -> Iterator[tuple[Path, list[str]]]:
        """The files of a folder of each crate, and their lines."""
        for name in self.crates:
            for path in sorted((self.repository.folder(name) / part).rglob(f"*{suffix}")):
                yield path.relative_to(self.repository.root), path.read_text().splitlines()

    @cached_property
    def code(self) -> list[tuple[Path, list[str]]]:
        return [*self.files("src", ".rt")]

    @cached_property
    def specs(self) -> list[tuple[Path, list[str]]]:
        return [*self.files("specs", ".antt")]

    def wide(self) -> list[Spot]:
        """The lines with more than COLUMNS characters."""
        return [Spot(path, number, line.strip(), len(line))
                for path, lines in [*self.code, *self.specs]
                for number, line in enumerate(lines, 1) if len(line) > COLUMNS]

    def tests(self) -> list[Spot]:
        """The attributes that name `test`."""
        return [Spot(path, number, line.strip())
                for path, lines in self.code
                for number, line in enumerate(map(without_comment, lines), 1)
                if TEST.search(line)]

    def functions(self, most: int) -> list[Spot]:
        """The functions with more parameters."""
        found = []
        for path, lines in self.code:
            text = "\n".join(without_comment(line) for line in lines)
            for function in FUNCTION.finditer(text):
                count = len(parameters(text[function.end():]))
                if count > most:
                    line = text.count("\n", 0, function.start()) + 1
                    found.append(Spot(path, line, function[1], count))
        return found

    def relations(self, most: int) -> list[Spot]:
        """The relations of specs/ with more parameters."""
        found = []
        for path, lines in self.specs:
            for line, item in items(lines, "--"):
                record, signature = RECORD.match(item), SIGNATURE.match(item)
                count = 0
                if record:
                    count = sum(names_of(group) for group in groups(record[2]))
                elif signature:
                    sides = parts(" ".join(signature[2].split()), "→")
                    if re.fullmatch(r"Type \d+", sides[-1]):
                        count = sum(map(names_of, sides[:-1]))
                if count > most:
                    name = record[1] if record else signature[1] if signature else ""
                    found.append(Spot(path, line, name, count))
        return found

    @cached_property
    def constants(self) -> dict[int, list[Constant]]:
        """The constants by their values."""
        found: dict[int, list[Constant]] = {}
        for path, lines in self.code:
            for public, name, value in CONSTANT.findall("\n".join(map(without_comment, lines))):
                constant = Constant(path.parts[1], name, bool(public))
                found.setdefault(int(value.replace("_", "")), []).append(constant)
        return found

    def named(self, crate: str, value: int) -> list[str]:
        """The constants of this value, or of the value before it, that a crate may name."""
        if value in OTHERS.get(crate, ()):
            return []
        found = [*self.constants.get(value, []), *self.constants.get(value - 1, [])]
        below = self.repository.below(crate)
        return [it.name for it in found
                if it.crate == crate or (it.public and it.crate in below)]

    def bare(self) -> list[Spot]:
        """The lines of code with a number of NUMBERS for which a constant stands at hand."""
        found = []
        for path, lines in self.code:
            known = {value: self.named(path.parts[1], value) for value in NUMBERS}
            for number, line in enumerate(map(without_comment, lines), 1):
                values = {int(it.replace("_", "")) for it in NUMBER.findall(line)}
                named = [name for value in NUMBERS if value in values for name in known[value]]
                if named and not any(re.search(rf"\b{name}\b", line) for name in named):
                    found.append(Spot(path, number, f"{line.strip()}  ({', '.join(named)})"))
        return found


def parse(words: list[str]) -> argparse.Namespace:
    formatter = argparse.RawDescriptionHelpFormatter
    parser = argparse.ArgumentParser(description=__doc__, formatter_class=formatter)
    parser.add_argument("--root", type=Path, default=ROOT, metavar="FOLDER",
                        help="another repository")
    parser.add_argument("--program", default=PROGRAM, metavar="NAME",
                        help=f"the product's program ({PROGRAM})")
    parser.add_argument("--lines", action="store_true",
                        help="tell each wide line, each test inside a crate and each bare number, "
                             "and not their count alone")
    for option, told in [
            ("--most-crates", "crates of the product"),
            ("--longest-chain", "crates of the longest chain"),
            ("--most-dependencies", f"libraries of a crate (listed: over {LIBRARIES})"),
            ("--wide-lines", f"lines of more than {COLUMNS} columns"),
            ("--most-tests", "tests proved inside crates"),
            ("--most-parameters", f"parameters of a function (listed: over {PARAMETERS})"),
            ("--most-relation-parameters",
             f"parameters of a relation (listed: over {RELATION_PARAMETERS})"),
            ("--bare-numbers", "bare numbers")]:
        parser.add_argument(option, type=int, metavar="N", help=f"the most {told}")
    parser.add_argument("--but", action="append", default=[], metavar="CRATE",
                        help="a crate that may have more libraries than --most-dependencies")
    return parser.parse_args(words)


def most(counts: list[int]) -> int:
    return max(counts, default=0)


def main(words: list[str]) -> int:
    options = parse(words)
    house = House(Repository(options.root.resolve()), options.program)
    libraries, functions, relations = (house.with_libraries(0), house.functions(0),
                                       house.relations(0))
    wide, tests, bare = house.wide(), house.tests(), house.bare()
    print(f"crates: {len(house.crates)}, of the product {len(house.products)}")
    print(f"longest chain: {len(house.chain)}: {', '.join(house.chain)}")
    listed = [it for it in libraries if it[1] > LIBRARIES]
    print(f"crates with more than {LIBRARIES} libraries: {len(listed)}")
    print("".join(f"    {name} {count}\n" for name, count in listed), end="")
    print(f"lines of more than {COLUMNS} columns: {len(wide)}")
    print("".join(f"{spot.told()}\n" for spot in wide if options.lines), end="")
    print(f"tests proved inside crates: {len(tests)}")
    print("".join(f"{spot.told()}\n" for spot in tests if options.lines), end="")
    for name, spots, limit in [("functions", functions, PARAMETERS),
                               ("relations", relations, RELATION_PARAMETERS)]:
        listed_spots = sorted((spot for spot in spots if spot.count > limit),
                              key=lambda spot: -spot.count)
        print(f"{name} with more than {limit} parameters: {len(listed_spots)}")
        print("".join(f"{spot.told()}\n" for spot in listed_spots), end="")
    print(f"bare numbers: {len(bare)}")
    print("".join(f"{spot.told()}\n" for spot in bare if options.lines), end="")
    over = [f"{what}: {count}, and at most {limit} may be" for what, count, limit in [
        ("crates of the product", len(house.products), options.most_crates),
        ("crates of the longest chain", len(house.chain), options.longest_chain),
        ("libraries of a crate",
         most([count for name, count in libraries if name not in options.but]),
         options.most_dependencies),
        ("wide lines", len(wide), options.wide_lines),
        ("tests proved inside crates", len(tests), options.most_tests),
        ("parameters of a function", most([it.count for it in functions]),
         options.most_parameters),
        ("parameters of a relation", most([it.count for it in relations]),
         options.most_relation_parameters),
        ("bare numbers", len(bare), options.bare_numbers)] if limit is not None and count > limit]
    print("".join(f"over the limit: {line}\n" for line in over), end="")
    return 1 if over else 0


if __name__ == "__main__":
    try:
        status = main(sys.argv[1:])
        sys.stdout.flush()
    except BrokenPipeError:
        # who reads the counts has enough of them, as head does
        os.dup2(os.open(os.devnull, os.O_WRONLY), 1)
        status = 1
    sys.exit(status)
