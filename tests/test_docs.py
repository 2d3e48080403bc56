"""Holds the pages of the repository to what is there.

Each name that docs/DEFINITIONS.md and docs/MAP.md cite stands in the crates that they name: an item
of a list names those that it cites by themselves or as `crate::module`, and those of its heading.
Each source, spec and proof that an item of CONTRIBUTING.md cites is one of a crate that it names.
The order of docs/MAP.md is that of crates.txt, in which a crate names only those above it, and none
stands on one of a higher floor; its table of crates that others give on is what these do. Links
lead to files and headings that are there. What fenced blocks run exists and takes these options,
and blocks behind a line `<!-- run -->` are run in a copy of the repository, in the order of their
page: in one with lines `$ COMMAND` the lines behind each are what it must print, `...` standing for
any lines; without such lines each command must succeed. `<!-- run, status 7 -->` is one whose last
command must end so.

    PYTHONPATH=python python3 -m tests.test_docs --only links blocks
"""
from __future__ import annotations

import argparse
import hashlib
import json
import os
import re
import shutil
import signal
import subprocess
import sys
import tempfile
from collections.abc import Callable, Iterator
from dataclasses import dataclass, field
from functools import cached_property
from pathlib import Path

from dev.repository import Repository
from kidrofemba.cli import COMPANIONS
from tests.runner.compare import show
from tests.runner.words import OPTIONS

ROOT = Path(__file__).resolve().parent.parent


PROGRAM = ROOT / "crates/stdcm/out/stdcm"
#: The most bytes of README.md; None as long as it has no limit.
README_BYTES: int | None = 8_192
BLOCK_S = 300.0

CODE = re.compile(r"(?<!`)`([^`\n]+)`(?!`)")
FENCE = re.compile(r"^```[^\n]*\n.*?^```[^\n]*$", re.M | re.S)
LINK = re.compile(r"\]\(([^()\s]+)\)")
#: A bullet of docs/MAP.md: the crate that it is about.
BULLET = re.compile(r"- `(\w+)`:")
#: A step of a walk in docs/MAP.md.
STEP = re.compile(r"\d+\. ")
HEADING = re.compile(r"^#+ +(.+?) *$", re.M)
#: A file of a crate from which it is proved.
SOURCE = re.compile(r"/.*\.(?:rt|antt)$")
NAME = re.compile(r"[A-Za-z_]\w*(?:::[A-Za-z_]\w*)*\*?")
#: What gives a crate on, in a source and in specs: itself under a name, or what it gives on.
CODE_GIVES = re.compile(r"^pub use (\w+)(?: as (\w+)|::(\w+)|::\{([^{}]*)\});", re.M)
SPECS_GIVE = re.compile(r"^pub use Rattle\.(\w+)\.specs(?:\.(\w+))? as (\w+)$", re.M)
#: What defines a name in a source of Rattle and in one of its specs.
IN_SOURCE = (r"\b(?:fn|struct|enum|trait|type|const|mod|ghost)\s+{0}\b|\bpub use [^;]*\b{0}\b"
             r"|^\s+(?:pub )?{0}\s*[:,({{]")
IN_SPECS = r"^\s*(?:(?:pub|abbrev|unfoldable|opaque|data|record|infixr?|infixl)\s+)*{0}\b"


def pages(root: Path = ROOT) -> list[Path]:
    """The pages that are held to what is there."""
    found = [root / "README.md", root / "CONTRIBUTING.md", *sorted(root.glob("docs/*.md")),
             *sorted(root.glob("*/README.md"))]
    return [path for path in found if path.is_file()]


def items(text: str) -> Iterator[tuple[int, str]]:
    """Each line that is not indented, with the indented ones behind it, and its number.

    Fenced blocks are left out.
    """
    begun, rows, is_fenced = 0, [], False
    for at, row in enumerate(text.splitlines(), 1):
        if row.startswith("```"):
            is_fenced = not is_fenced
        elif is_fenced:
            continue
        elif row.startswith(" ") and rows:
            rows.append(row)
        else:
            if rows:
                yield begun, "\n".join(rows)
            begun, rows = at, [row]
    if rows:
        yield begun, "\n".join(rows)


@dataclass
class Crates:
    """The crates with the texts of their sources and specs."""

    repository: Repository

    @cached_property
    def names(self) -> list[str]:
        return [*self.repository.libraries]

    def texts(self, crate: str) -> tuple[str, str]:
        """All of a crate's sources, and all of its specs."""
        if crate not in self.read:
            folder = self.repository.folder(crate)
            sources, specs = (sorted((folder / part).rglob("*.*")) for part in ("src", "specs"))
            self.read[crate] = ("\n".join(path.read_text() for path in sources),
                                "\n".join(path.read_text() for path in specs))
        return self.read[crate]

    @cached_property
    def plain(self) -> set[str]:
        """What is no name of a single crate: crates, libraries, and words of commands and lines."""
        libraries = {it for named in self.repository.libraries.values() for it in named}
        words = CODE.findall((ROOT / "docs/FORMATS.md").read_text())
        return {*self.names, *libraries, *OPTIONS, *words}

    @cached_property
    def read(self) -> dict[str, tuple[str, str]]:
        return {}

    def named(self, text: str) -> list[str]:
        """The crates that a text cites, by themselves or before `::`."""
        fronts = (cited.partition("::")[0] for cited in CODE.findall(text))
        return [front for front in fronts if front in self.names]

    def has(self, crate: str, name: str) -> bool:
        """Whether a crate defines a name, or gives one on; `put_*` is any that begins so."""
        sources, specs = self.texts(crate)
        for part in name.split("::"):
            word = re.escape(part[:-1]) + r"\w*" if part.endswith("*") else re.escape(part)
            if not (re.search(IN_SOURCE.format(word), sources, re.M)
                    or re.search(IN_SPECS.format(word), specs, re.M)):
                return False
        return True

    def fault(self, cited: str, crates: list[str]) -> str | None:
        """What is wrong with a citation beside these crates; None where it stands in one."""
        if cited in self.plain or (ROOT / cited).exists():
            return None
        front, _, behind = cited.partition("::")
        if behind and front in self.names:
            return None if self.has(front, behind) else f"`{cited}` is no name of {front}"
        if "/" in cited or cited in ("stdin", "args", "stdout"):
            if any((self.repository.folder(crate) / cited).exists() for crate in crates):
                return None
            return f"`{cited}` is no file of {' or '.join(crates)}"
        if not NAME.fullmatch(cited):
            return None
        if any(self.has(crate, cited) for crate in crates):
            return None
        return f"`{cited}` is no name of {' or '.join(crates)}"


def map_names() -> list[str]:
    """Each citation of docs/MAP.md stands in a crate that its bullet, or its step, names."""
    crates, faults = Crates(Repository(ROOT)), []
    for at, item in items((ROOT / "docs/MAP.md").read_text()):
        if BULLET.match(item) or STEP.match(item):
            beside = crates.named(item)
            faults += [f"docs/MAP.md:{at}: {fault}" for fault in
                       (crates.fault(name, beside) for name in CODE.findall(item)) if fault]
    return faults


def map_floors() -> list[str]:
    """The first block of docs/MAP.md has each crate once, and those that it names not above it."""
    libraries = Repository(ROOT).libraries
    block = FENCE.search((ROOT / "docs/MAP.md").read_text())
    rows = block[0].splitlines() if block else []
    floors = [[name for name in re.findall(r"\w+", row) if name in libraries] for row in rows]
    order = [name for floor in floors for name in floor]
    height = {name: at for at, floor in enumerate(floors) for name in floor}
    faults = [f"docs/MAP.md: the floors have {name} {order.count(name)} times"
              for name in libraries if order.count(name) != 1]
    faults += [f"docs/MAP.md: {name} stands on {it}, which is on a higher floor"
               for name in height for it in libraries[name]
               if it in height and height[it] < height[name]]
    return faults


def map_order() -> list[str]:
    """docs/MAP.md has the order of crates.txt, and each crate names only those above it.

    It tells how many crates the longest chain has.
    """
    libraries, page = Repository(ROOT).libraries, (ROOT / "docs/MAP.md").read_text()
    rows = (BULLET.match(item) for _, item in items(page))
    order = [row[1] for row in rows if row]
    faults = []
    if order != [*libraries]:
        pairs = zip(order, libraries)
        first = next(((a, b) for a, b in pairs if a != b), ("its end", "another length"))
        faults.append(f"docs/MAP.md has {first[0]} where crates.txt has {first[1]}")
    #: The longest chain from each crate down.
    chains: dict[str, int] = {}
    for crate, named in libraries.items():
        faults += [f"crates.txt: {crate} names {it}, which stands below it"
                   for it in named if it in libraries and it not in chains]
        chains[crate] = 1 + max((chains[it] for it in named if it in chains), default=0)
    if f"the longest chain has {max(chains.values())} crates" not in " ".join(page.split()):
        faults.append(f"docs/MAP.md: the longest chain has {max(chains.values())} crates")
    return faults


def given_on(repository: Repository) -> set[tuple[str, str, str]]:
    """What crates give on of others, by code or by specs: (the crate, its short name, who)."""
    given: dict[str, dict[str, str]] = {}
    for crate in repository.libraries:
        folder, names = repository.folder(crate), given.setdefault(crate, {})
        code, specs = (path.read_text() if path.exists() else ""
                       for path in (folder / "src/lib.rt", folder / "specs/Lib.antt"))
        for front, name, one, several in CODE_GIVES.findall(code):
            if name:
                names[name] = front
            for word in re.findall(r"\w+", one or several):
                if word in given.get(front, {}):
                    names[word] = given[front][word]
        for front, part, name in SPECS_GIVE.findall(specs):
            names[name] = given.get(front, {}).get(part, part) if part else front
    return {(origin, name, crate) for crate, names in given.items()
            for name, origin in names.items()}


def map_given() -> list[str]:
    """The table of docs/MAP.md names each crate that another gives on, and none besides."""
    table = re.search(r"^\| given on \| as \| by \|\n\|[-|]+\|\n((?:\|.*\n)*)",
                      (ROOT / "docs/MAP.md").read_text(), re.M)
    if not table:
        return ["docs/MAP.md has no table of what is given on"]
    told = set()
    for row in table[1].splitlines():
        origins, names, givers = (CODE.findall(cell) for cell in row.strip("|").split("|"))
        told |= {(origin, name, giver) for origin, name in zip(origins, names) for giver in givers}
    found = given_on(Repository(ROOT))
    return [*(f"docs/MAP.md does not tell that {giver} gives {origin} on as {name}"
              for origin, name, giver in sorted(found - told)),
            *(f"docs/MAP.md tells that {giver} gives {origin} on as {name}, which it does not"
              for origin, name, giver in sorted(told - found))]


def definition_names() -> list[str]:
    """Each citation of docs/DEFINITIONS.md stands in a crate of its heading or of its item."""
    crates, faults = Crates(Repository(ROOT)), []
    heading: list[str] = []
    for at, item in items((ROOT / "docs/DEFINITIONS.md").read_text()):
        named = crates.named(item)
        if item.startswith("#"):
            heading = named
        beside = [*heading, *named]
        if beside:
            faults += [f"docs/DEFINITIONS.md:{at}: {fault}" for fault in
                       (crates.fault(name, beside) for name in CODE.findall(item)) if fault]
    return faults


def files_to_change() -> list[str]:
    """Each source, spec and proof that CONTRIBUTING.md cites is of a crate that its item names."""
    crates, faults = Crates(Repository(ROOT)), []
    for at, item in items((ROOT / "CONTRIBUTING.md").read_text()):
        folders = [ROOT / "crates", *(crates.repository.folder(it) for it in crates.named(item))]
        if "NAME" not in item:
            faults += [f"CONTRIBUTING.md:{at}: `{name}` is no file of a crate of this item"
                       for name in filter(SOURCE.search, CODE.findall(item))
                       if not any((folder / name).is_file() for folder in folders)]
    return faults


def slug(heading: str) -> str:
    """The anchor of a heading."""
    text = re.sub(r"[^\w\- ]", "", heading.replace("`", "").lower())
    return text.replace(" ", "-")


def links() -> list[str]:
    """Each relative link leads to a file, and to a heading of it where it names one."""
    faults = []
    for page in pages():
        text = FENCE.sub("", page.read_text())
        for target in LINK.findall(text):
            if re.match(r"[a-z]+:", target):
                continue
            path, _, anchor = target.partition("#")
            file = (page.parent / path) if path else page
            told = f"{page.relative_to(ROOT)}: ({target})"
            if not file.exists():
                faults.append(f"{told} leads nowhere")
            elif anchor and file.suffix == ".md":
                if anchor not in [slug(one) for one in HEADING.findall(file.read_text())]:
                    faults.append(f"{told} names no heading there")
    return faults


def size_of_readme() -> list[str]:
    """README.md keeps to its size."""
    size = (ROOT / "README.md").stat().st_size
    if README_BYTES is None or size <= README_BYTES:
        return []
    return [f"README.md has {size} bytes, and not {README_BYTES} at most"]


@dataclass
class Command:
    """A command of a block, its line in the page, and what it must print where that is told."""

    text: str
    line: int
    wanted: list[str] | None = None


@dataclass
class Block:
    """A fenced block of a page, and how the commands in it are to be taken."""

    page: Path
    line: int
    rows: list[str]
    is_run: bool
    status: int = 0
    commands: list[Command] = field(default_factory=list)

    def __post_init__(self) -> None:
        """Cuts the block into commands: rows `$ ..` with `> ..` behind them, or each row."""
        has_prompts = any(row.startswith("$ ") for row in self.rows)
        goes_on = False
        for at, row in enumerate(self.rows, self.line + 1):
            if has_prompts and row.startswith("$ "):
                self.commands.append(Command(row[2:], at, []))
            elif has_prompts and row.startswith("> ") and self.commands \
                    and not self.commands[-1].wanted:
                self.commands[-1].text += "\n" + row[2:]
            elif has_prompts and self.commands:
                self.commands[-1].wanted.append(row)
            elif goes_on:
                self.commands[-1].text += "\n" + row
            elif row.strip() and not row.lstrip().startswith("#"):
                self.commands.append(Command(row, at))
            goes_on = not has_prompts and row.endswith("\\")

    @property
    def place(self) -> str:
        return f"{self.page.name}:{self.line}"


def blocks_of(page: Path) -> Iterator[Block]:
    """The fenced blocks of a page that may hold commands."""
    marked = re.compile(r"<!-- run(?:, status (\d+))? -->")
    rows = page.read_text().splitlines()
    mark, begun = None, None
    for at, row in enumerate(rows, 1):
        if begun is not None:
            if row.startswith("```"):
                kind = rows[begun - 1][3:].strip()
                if kind in ("", "sh", "bash", "console") or mark:
                    yield Block(page, begun, rows[begun:at - 1], mark is not None,
                                int(mark[1] or 0) if mark else 0)
                mark, begun = None, None
        elif row.startswith("```"):
            begun = at
        elif row.strip():
            mark = marked.fullmatch(row.strip())


def first_word(text: str) -> tuple[str, list[str]]:
    """What a command runs, without variables before it and redirections behind it."""
    words = re.split(r"[|;&<>]", text.replace("\\\n", " "))[0].split()
    while words and re.fullmatch(r"\w+=\S*", words[0]):
        words.pop(0)
    return (words[0], words[1:]) if words else ("", [])


def fault_of_words(text: str) -> str | None:
    """What is wrong with a command that is not run: what it calls is there, and has its options."""
    name, words = first_word(text)
    used = [word.partition("=")[0] for word in words if word.startswith("--")]
    command = name.rpartition("/")[2]
    if command == "kidrofemba" and words and words[0] in COMPANIONS:
        return fault_of_companion(words[0], used)
    if command in ("stdcm", "kidrofemba"):
        if not words or words[0] not in OPTIONS:
            return f"{' '.join([name, *words[:1]])} is no command"
        lost = [word for word in used if word[2:] not in OPTIONS[words[0]]]
        return f"{words[0]} has no option {lost[0]}" if lost else None
    path = name.removeprefix("./")
    if not (name == "./demo" or path.startswith(("dev/", "bench/", "tests/", ".ci/"))):
        return None
    if not os.access(ROOT / path, os.X_OK):
        return f"{name} is not there, or cannot be run"
    module = ROOT / f"{path}.py"
    told = (module if module.is_file() else ROOT / path).read_text(errors="replace")
    lost = [word for word in used if not re.search(re.escape(word) + r"\b", told)]
    return f"{name} has no option {lost[0]}" if lost else None


def source_of(module: str) -> str:
    """The text of a companion's module, and of those beside it that it imports."""
    folder = ROOT / "python/kidrofemba" / module.partition(".")[0]
    told = (folder / f"{module.rpartition('.')[2]}.py").read_text()
    beside = re.findall(rf"^from kidrofemba\.{folder.name}\.(\w+) import", told, re.MULTILINE)
    return told + "".join((folder / f"{name}.py").read_text() for name in beside)


def fault_of_companion(name: str, used: list[str]) -> str | None:
    """What is wrong with options of a companion; behind `--` stand those of another command."""
    told = source_of(COMPANIONS[name].module)
    own = used[:used.index("--")] if "--" in used else used
    lost = [word for word in own if not re.search(rf"{word}\b|\"{word[2:]}\"", told)]
    return f"kidrofemba {name} has no option {lost[0]}" if lost else None


def words_of_blocks() -> list[str]:
    """Commands in blocks that are not run call what is there."""
    faults = []
    for page in pages():
        for block in blocks_of(page):
            for command in block.commands if not block.is_run else []:
                fault = fault_of_words(command.text)
                if fault:
                    faults.append(f"{page.relative_to(ROOT)}:{command.line}: {fault}")
    return faults


def copy_of_repository(to: Path, program: Path) -> None:
    """A copy of the repository in which the program stands, kept as one of its own sources."""
    def left_out(folder: str, names: list[str]) -> set[str]:
        return {name for name in names if name in (".git", "out", "__pycache__")}
    shutil.copytree(ROOT, to, ignore=left_out, symlinks=True)
    kept = to / "out/program"
    kept.mkdir(parents=True)
    place = to / "crates/stdcm/out/stdcm"
    place.parent.mkdir(parents=True)
    for file in (kept / "stdcm", place):
        shutil.copy2(program, file)
        file.chmod(0o755)
    told = {"sources": Repository(to).digest("stdcm"), "kit": "a test", "date": "today",
            "program": hashlib.sha256(program.read_bytes()).hexdigest()}
    (kept / "stdcm.json").write_text(json.dumps(told))


def runs_of_blocks(program: Path) -> list[str]:
    """Blocks that are marked so are run, page by page, each page in a fresh copy."""
    faults = []
    for page in pages():
        chosen = [block for block in blocks_of(page) if block.is_run]
        if not chosen:
            continue
        with tempfile.TemporaryDirectory(prefix="docs-test-") as room:
            folder = Path(room) / "copy"
            copy_of_repository(folder, program)
            for block in chosen:
                fault = fault_of_run(block, folder)
                if fault:
                    faults.append(f"{page.relative_to(ROOT)}:{fault}")
                    break
    return faults


MARK = "\x1e"


def fault_of_run(block: Block, folder: Path) -> str | None:
    """Runs the commands of a block in one shell; what is first found otherwise than told."""
    script = "".join(f"{one.text}\nprintf '{MARK}%d{MARK}' $?\n" for one in block.commands)
    with tempfile.TemporaryFile("w+", errors="replace") as written:
        shell = subprocess.Popen(["bash", "-c", script], cwd=folder, stdin=subprocess.DEVNULL,
                                 stdout=written, stderr=subprocess.STDOUT, start_new_session=True)
        try:
            shell.wait(BLOCK_S)
        except subprocess.TimeoutExpired:
            return f"{block.line}: no end within {BLOCK_S:.0f} s"
        finally:
            try:
                os.killpg(shell.pid, signal.SIGKILL)
            except ProcessLookupError:
                pass
            shell.wait()
        written.seek(0)
        parts = written.read().split(MARK)
    for at, command in enumerate(block.commands):
        if 2 * at + 1 >= len(parts):
            return f"{command.line}: the shell ended before it: {show(parts[-1])}"
        printed, status = parts[2 * at], int(parts[2 * at + 1])
        wanted = block.status if at == len(block.commands) - 1 else 0
        if status != wanted:
            return f"{command.line}: it ended with status {status}, and printed {show(printed)}"
        fault = first_otherwise(command, printed)
        if fault:
            return fault
    return None


def first_otherwise(command: Command, printed: str) -> str | None:
    """The first line that a command printed otherwise than the page says."""
    if command.wanted is None:
        return None
    got, wanted = printed.splitlines(), command.wanted
    pattern = "".join(r"(?:.*\n)*" if row.strip() == "..." else re.escape(row) + r"\n"
                      for row in wanted)
    if re.fullmatch(pattern, "".join(row + "\n" for row in got)):
        return None
    pairs = enumerate(zip(wanted, got), 1)
    plain = [(at, a, b) for at, (a, b) in pairs if a != b]
    at, told, found = plain[0] if plain else (min(len(wanted), len(got)) + 1, None, None)
    if told is None:
        told = wanted[at - 1] if at <= len(wanted) else None
        found = got[at - 1] if at <= len(got) else None
    return f"{command.line + at}: it printed {show(found)}, and not {show(told)}"


def main() -> int:
    formatter = argparse.RawDescriptionHelpFormatter
    parser = argparse.ArgumentParser(description=__doc__, formatter_class=formatter)
    parser.add_argument("--program", type=Path, default=PROGRAM, help="the built program")
    parser.add_argument("--only", nargs="+", metavar="WORD", help="cases with WORD in their names")
    options = parser.parse_args()
    cases: list[tuple[str, Callable[[], list[str]]]] = [
        ("names of the map", map_names),
        ("order of the map", map_order),
        ("floors of the map", map_floors),
        ("libraries given on", map_given),
        ("names of the definitions", definition_names),
        ("files to change", files_to_change),
        ("links", links),
        ("size of the readme", size_of_readme),
        ("words of blocks", words_of_blocks),
        ("runs of blocks", lambda: runs_of_blocks(options.program.resolve())),
    ]
    chosen = [case for case in cases
              if not options.only or any(word in case[0] for word in options.only)]
    failed = 0
    for name, call in chosen:
        if name == "runs of blocks" and not options.program.is_file():
            faults = [f"no program at {options.program}: dev/build makes it"]
        else:
            faults = call()
        failed += bool(faults)
        for fault in faults:
            print(f"FAILED {name}: {fault}", flush=True)
    print(f"{len(chosen) - failed} passed, {failed} failed")
    return 1 if failed else 0


if __name__ == "__main__":
    sys.exit(main())
