"""Tables of cases by topic, and the stdin and stdout that a program's gate reads made of them.

A folder of tests/tables has the name of the crate whose program carries out its cases, and its
files TOPIC.cases have blocks, each of which ends with a blank line: a case, or files for all.
tests/README.md tells what may stand in them.
"""
from __future__ import annotations

import re
from collections.abc import Iterable, Iterator
from dataclasses import dataclass, field
from pathlib import Path

from kidrofemba.common.companion import Refused, read_text

#: Words that begin a file of a table.
MAKING = ("file", "copy")
#: Words whose rest is a text: it names no file.
TEXTS = ("file", "-", "+", "cut", "put", "fill", "count")
#: The topic whose head tells the instructions of a table.
SHARED = "shared.cases"


@dataclass(frozen=True)
class Place:
    """A line of a file."""

    path: Path
    line: int

    def refused(self, what: str) -> Refused:
        """What a line is refused with that is not understood."""
        return Refused(self.path, f"line {self.line}", what)


@dataclass
class Step:
    """A line of a case, with the lines of its file, and with the answers that it prints."""

    place: Place
    text: str
    lines: list[str] = field(default_factory=list)
    answers: list[str] = field(default_factory=list)

    @property
    def word(self) -> str:
        return self.text.partition(" ")[0]

    @property
    def words(self) -> list[str]:
        return self.text.split(" ")

    def written(self) -> list[str]:
        """The lines by which the program is told of the step."""
        return [self.text, *self.lines, "."] if self.word == "file" else [self.text]

    def texts(self) -> list[str]:
        """All that is said of the step: what the program is told, and what it must print."""
        return [*self.written(), *self.answers]

    def with_cells(self, cells: dict[str, str]) -> Step:
        """The step with the texts of a row in the place of their names."""
        return Step(self.place, put_in(self.text, cells), [put_in(it, cells) for it in self.lines],
                    [put_in(it, cells) for it in self.answers])


def put_in(text: str, cells: dict[str, str]) -> str:
    """A text with each `<NAME>` replaced by the text of this name."""
    return re.sub(r"<(\w+)>", lambda it: cells.get(it[1], it[0]), text)


@dataclass
class Case:
    """A case of a topic: its title and its steps."""

    place: Place
    title: str
    steps: list[Step]

    @property
    def keeps(self) -> list[str]:
        """The files that the case leaves for others."""
        return [step.words[1] for step in self.steps if step.word == "keep"]

    @property
    def answers(self) -> list[str]:
        return [text for step in self.steps for text in step.answers]

    def written(self) -> list[str]:
        return [f"case {self.title}", *(row for step in self.steps for row in step.written())]

    def printed(self) -> list[str]:
        """What the program must print of the case."""
        return [self.title, *(f"  {text}" for text in self.answers)]


@dataclass
class Making:
    """A file that stands outside cases, and is there for each that names it."""

    name: str
    steps: list[Step]

    @property
    def place(self) -> Place:
        return self.steps[0].place

    def written(self) -> list[str]:
        return [row for step in self.steps for row in step.written()]


@dataclass
class Row:
    """A row of an `each`: its cells, and answers of its own where it has some."""

    place: Place
    cells: list[str]
    answers: list[str] = field(default_factory=list)


class Reader:
    """Reads the blocks of a topic's file."""

    def __init__(self, path: Path) -> None:
        self.path = path
        self.rows = read_text(path).split("\n")
        self.at = 0

    @property
    def place(self) -> Place:
        return Place(self.path, self.at + 1)

    @property
    def row(self) -> str | None:
        """The next line that is no remark; None at a block's end."""
        while self.at < len(self.rows) and self.rows[self.at].partition(" ")[0] == "#":
            self.at += 1
        return (self.rows[self.at] or None) if self.at < len(self.rows) else None

    def head(self) -> list[str]:
        """The remarks with which the file begins."""
        count = next((at for at, row in enumerate(self.rows) if not row.startswith("#")), 0)
        return self.rows[:count]

    def blocks(self) -> Iterator[Case | Making]:
        while self.at < len(self.rows):
            word = (self.row or "").partition(" ")[0]
            if word == "":
                self.at += 1
            elif word == "case":
                yield self.case()
            elif word == "each":
                yield from self.each_case()
            elif word in MAKING:
                yield from self.makings()
            else:
                raise self.place.refused(f"{word!r} begins neither a case nor a file")

    def case(self) -> Case:
        """A case, whose title comes next."""
        place, title = self.place, self.rows[self.at].partition(" ")[2]
        self.at += 1
        return Case(place, title, self.steps())

    def makings(self) -> list[Making]:
        """Files for all, each with what changes it."""
        made: list[Making] = []
        for step in self.steps():
            if step.word in MAKING:
                made.append(Making(step.words[1], []))
            elif step.word not in TEXTS:
                raise step.place.refused(f"{step.word!r} stands outside a case")
            made[-1].steps.append(step)
        return made

    def steps(self) -> list[Step]:
        """The steps up to the block's end, those of an `each` for each of its rows."""
        steps: list[Step] = []
        while (row := self.row) is not None and not row.startswith("|"):
            if row.startswith("="):
                if not steps:
                    raise self.place.refused("an answer behind no step")
                steps[-1].answers.append(self.answer())
            elif row.partition(" ")[0] == "each":
                steps += self.each()
            else:
                steps.append(self.step())
        return steps

    def step(self) -> Step:
        step = Step(self.place, self.rows[self.at])
        self.at += 1
        if step.word == "case":
            raise step.place.refused("a case within a case: a blank line stands between two")
        if step.word != "file":
            return step
        while self.at < len(self.rows):
            self.at += 1
            if self.rows[self.at - 1] == ".":
                return step
            step.lines.append(self.rows[self.at - 1])
        raise step.place.refused("a file without its end, which is a dot")

    def answer(self) -> str:
        self.at += 1
        return self.rows[self.at - 1][2:]

    def names(self) -> list[str]:
        """The names of an `each`."""
        names = self.rows[self.at].split()[1:]
        if not names:
            raise self.place.refused("an each without a name")
        self.at += 1
        return names

    def each(self) -> list[Step]:
        """The steps of an `each` within a case, once for each row."""
        place, names = self.place, self.names()
        made = self.expanded(place, names, "", self.steps())
        return [step for _, _, steps in made for step in steps]

    def each_case(self) -> list[Case]:
        """The cases of an `each`, one for each row."""
        place, names = self.place, self.names()
        if (self.row or "").partition(" ")[0] != "case":
            raise self.place.refused("an each outside a case begins with the title of its cases")
        case = self.case()
        return [Case(row, put_in(case.title, cells), steps)
                for row, cells, steps in self.expanded(place, names, case.title, case.steps)]

    def expanded(self, place: Place, names: list[str], title: str,
                 steps: list[Step]) -> list[tuple[Place, dict[str, str], list[Step]]]:
        """Each row of an `each`: its place, its texts by their names, and its steps."""
        is_answered = any(step.answers for step in steps)
        said = "\n".join(text for step in steps for text in step.texts())
        idle = [name for name in names if f"<{name}>" not in f"{title}\n{said}"]
        if idle:
            raise place.refused(f"<{idle[0]}> stands in no step")
        made = []
        for row in self.table(is_answered):
            cells = dict(zip(names, row.cells))
            one = [step.with_cells(cells) for step in steps]
            if row.answers:
                for step in one:
                    step.answers = []
                one[-1].answers = [*row.answers]
            said = "\n".join(text for step in one for text in step.texts())
            lost = [name for name in names[len(row.cells):] if f"<{name}>" in f"{title}\n{said}"]
            if lost or len(row.cells) > len(names):
                raise row.place.refused(f"a row of {len(row.cells)} texts, and not of {len(names)}")
            made.append((row.place, cells, one))
        if not made:
            raise place.refused("an each without rows")
        return made

    def table(self, is_answered: bool) -> list[Row]:
        """The rows of an `each`. Where its steps have no answers, rows that stand together have
        those that come behind them."""
        rows: list[Row] = []
        while (text := self.row) is not None and text.startswith("| "):
            place, cells = self.place, text[2:].split(" | ")
            self.at += 1
            rows.append(Row(place, cells))
            while (self.row or "").startswith("="):
                rows[-1].answers.append(self.answer())
        if is_answered or not any(row.answers for row in rows):
            return rows
        if not rows[-1].answers:
            raise rows[-1].place.refused("a row without an answer")
        for row, behind in reversed([*zip(rows, rows[1:])]):
            row.answers = row.answers or behind.answers
        return rows


@dataclass
class Table:
    """The cases of one program, by topic, and the files that they share."""

    name: str
    head: list[str]
    topics: dict[str, list[Case]]
    makers: dict[str, Making | Case]

    @property
    def cases(self) -> list[Case]:
        return [case for cases in self.topics.values() for case in cases]

    def needs(self, one: Making | Case) -> list[str]:
        """The shared files that a case or a file names before it makes them, each once."""
        own, needed = {one.name} if isinstance(one, Making) else set(), []
        for step in one.steps:
            made = step.words[1:2] if step.word in (*MAKING, "keep") else []
            named = [] if step.word in TEXTS else re.split(r"[ =:]", step.text)[1:]
            needed += [it for it in named if it in self.makers and it not in {*own, *made}]
            own.update(made)
        return [*dict.fromkeys(needed)]

    def with_needs(self, chosen: Iterable[Case],
                   done: set[int] | None = None) -> list[Making | Case]:
        """These cases in their order, each behind the files and the cases that make what it names,
        those left out that are done already."""
        left_out: set[int] = set() if done is None else done
        order: list[Making | Case] = []
        begun: list[Making | Case] = []

        def take(one: Making | Case) -> None:
            if id(one) in left_out:
                return
            if any(it is one for it in begun):
                raise one.place.refused("what it needs needs itself")
            begun.append(one)
            for name in self.needs(one):
                take(self.makers[name])
            begun.pop()
            left_out.add(id(one))
            order.append(one)

        for case in chosen:
            take(case)
        return order

    def order(self) -> dict[str, list[Making | Case]]:
        """What is made for each topic: its cases, and what they need, each once in the table."""
        done: set[int] = set()
        return {topic: self.with_needs(cases, done) for topic, cases in self.topics.items()}

    def stdin(self) -> str:
        """The program's input: each case behind what it needs."""
        rows = [f"# Made by dev/tables of tests/tables/{self.name}: change the cases there.",
                "#", *self.head]
        for topic, order in self.order().items():
            rows += ["", f"# {topic}", *(row for one in order for row in ("", *one.written()))]
        return text_of(rows)

    def stdout(self) -> str:
        """What the program must print of that input."""
        return output_of(one for order in self.order().values() for one in order)


def text_of(rows: Iterable[str]) -> str:
    return "".join(f"{row}\n" for row in rows)


def input_of(order: Iterable[Making | Case]) -> str:
    """A program's input of these alone."""
    return text_of(row for one in order for row in one.written())


def output_of(order: Iterable[Making | Case]) -> str:
    """What a program must print of these."""
    return text_of(row for one in order if isinstance(one, Case) for row in one.printed())


def read_table(folder: Path) -> Table:
    """The table of a folder. A title, and a file that others use, is given once."""
    topics: dict[str, list[Case]] = {}
    makers: dict[str, Making | Case] = {}
    head: list[str] = []
    for path in sorted(folder.glob("*.cases")):
        reader = Reader(path)
        if path.name == SHARED:
            head = reader.head()
        topics[path.name] = []
        for block in reader.blocks():
            if isinstance(block, Case):
                topics[path.name].append(block)
            elif block.name in makers:
                raise block.place.refused(f"the file {block.name} is made twice for all")
            else:
                makers[block.name] = block
    cases = [case for cases in topics.values() for case in cases]
    add_kept(cases, makers)
    titles: set[str] = set()
    for case in cases:
        if case.title in titles:
            raise case.place.refused(f"the title comes twice: {case.title}")
        titles.add(case.title)
        for step in case.steps:
            made = step.words[1] if step.word in (*MAKING, "keep") else None
            if made in makers and makers[made] is not case:
                raise step.place.refused(f"{made} is made for all elsewhere: take another name")
    return Table(folder.name, head, topics, makers)


def add_kept(cases: list[Case], makers: dict[str, Making | Case]) -> None:
    """Adds what one case alone keeps, for the others that name it."""
    kept = [(name, case) for case in cases for name in dict.fromkeys(case.keeps)]
    made = [step.words[1] for case in cases for step in case.steps if step.word in MAKING]
    names = [name for name, _ in kept]
    for name, case in kept:
        if names.count(name) == 1 and name not in made and name not in makers:
            makers[name] = case
