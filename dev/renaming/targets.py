"""What each entry of a map renames: the names of the repository that it means."""
from __future__ import annotations

import re
from collections import defaultdict
from collections.abc import Iterator
from dataclasses import dataclass, field
from fnmatch import fnmatch
from functools import cached_property
from pathlib import Path

from dev.renaming.index import Crate, Node, Repository
from dev.renaming.maps import ITEMS, Entry, Kind

DEFINES = re.compile(r"\b(?:fn|struct|enum|trait|type|const|record|data) (\w+)"
                     r"|^\s*(?:pub|abbrev|unfoldable) [a-z ]*?([A-Za-z_][\w'-]*) :"
                     r"|^    (?:pub )?([a-z_]\w*):", re.M)


@dataclass
class Targets:
    """The entries of a map by what they rename."""

    repository: Repository
    entries: list[Entry]
    #: The folder of the kit's guides, which has the sources of its libraries.
    kit: Path | None = None
    faults: list[str] = field(default_factory=list)
    by_node: dict[Node, Entry] = field(default_factory=dict)
    words: dict[str, list[Entry]] = field(default_factory=lambda: defaultdict(list))
    #: Entries whose old name is gone and whose new one is there: they were applied before.
    done: list[Entry] = field(default_factory=list)

    def __post_init__(self) -> None:
        self.new_crates = {it.new: it.old for it in self.entries if it.kind is Kind.CRATE}
        for entry in self.entries:
            self.resolve(entry)

    def old_crate(self, name: str) -> str:
        """A crate as the repository calls it, by its old or its new name."""
        crates = self.repository.crates
        if name in crates:
            return name
        old = self.new_crates.get(name)
        if old in crates:
            return old or name
        return next((it.new for it in self.entries if it.kind is Kind.CRATE and it.old == name
                     and it.new in crates), name)

    def scoped(self, entry: Entry) -> list[Crate]:
        crates = self.repository.crates
        if entry.crate == "*":
            return [*crates.values()]
        name = self.old_crate(entry.crate)
        return [crates[name]] if name in crates else []

    def resolve(self, entry: Entry) -> None:
        if entry.kind in (Kind.TEXT, Kind.EDIT):
            return
        if entry.kind is Kind.WORD:
            self.words[entry.old].append(entry)
            return
        nodes = [*self.nodes(entry, entry.old)]
        if not nodes:
            if [*self.nodes(entry, entry.new)]:
                self.done.append(entry)
            else:
                self.faults.append(f"line {entry.line}: {entry}: nothing is called so")
            return
        if len(nodes) > 1 and "*" not in entry.owner:
            places = ", ".join(sorted("/".join((it.crate, *it.path)) for it in nodes))
            self.faults.append(f"line {entry.line}: {entry}: several are called so: {places}")
            return
        for node in nodes:
            if node in self.by_node:
                self.faults.append(f"line {entry.line}: {entry}: line {self.by_node[node].line} "
                                   "renames it too")
            self.by_node[node] = entry

    def nodes(self, entry: Entry, called: str) -> Iterator[Node]:
        """What bears a name in the scope of an entry."""
        if entry.kind is Kind.CRATE:
            if called in self.repository.crates:
                yield Node("crate", called)
            return
        for crate in self.scoped(entry):
            if entry.kind is Kind.MODULE:
                *parents, name = called.split("/")
                path = (*self.present(crate, tuple(parents)), name)
                if path in crate.sources:
                    yield Node("module", crate.name, path)
            elif entry.kind in (Kind.SPEC, Kind.LEMMAS):
                files = crate.specs if entry.kind is Kind.SPEC else crate.lemmas
                if (called,) in files:
                    yield Node(entry.kind.value, crate.name, (called,))
            else:
                yield from self.items(entry, crate, called)

    def items(self, entry: Entry, crate: Crate, called: str) -> Iterator[Node]:
        word = re.split(r"::|\.", called)[-1]
        owner = re.split(r"::|\.", called)[0] if entry.has_owner else ""
        module = self.module_of(entry, crate)
        for node in self.repository.definers.get(word, ()):
            if node.crate != crate.name or node.kind != entry.kind.value:
                continue
            if module is not None and node.path[:len(module)] != module:
                continue
            if entry.has_owner and owner not in ("*", *self.owners(node, crate)):
                continue
            yield node

    def module_of(self, entry: Entry, crate: Crate) -> tuple[str, ...] | None:
        module = entry.module
        if module is None:
            return None
        if module in crate.sources or module in crate.specs or module in crate.lemmas:
            return module
        return self.present(crate, module)

    def present(self, crate: Crate, module: tuple[str, ...]) -> tuple[str, ...]:
        """The path of a module as the repository calls it, by the old or the new names of those
        that it stands in."""
        found: tuple[str, ...] = ()
        for end, name in enumerate(module, 1):
            others = (it.new_word for it in self.entries if it.kind is Kind.MODULE
                      and self.old_crate(it.crate) == crate.name
                      and tuple(it.old.split("/")) == module[:end])
            found = next(((*found, it) for it in (name, *others)
                          if (*found, it) in crate.sources), (*found, name))
        return found

    def owners(self, node: Node, crate: Crate) -> set[str]:
        """The type of a member; for a field of a record, the records of its file."""
        if node.path[:-1] in crate.specs or node.path[:-1] in crate.lemmas:
            spec = crate.specs.get(node.path[:-1]) or crate.lemmas[node.path[:-1]]
            return {*spec.items}
        return {node.path[-2]} if len(node.path) > 1 else set()

    def is_in(self, entry: Entry, crate: str, path: str) -> bool:
        """Whether a `word` entry is for a file: its scope lists crates, `CRATE+` with all above
        it, and patterns of paths."""
        for part in entry.scope.split(","):
            name = self.old_crate(part.rstrip("+"))
            if part == "*" or name == crate or fnmatch(path, part):
                return True
            if part.endswith("+") and crate in self.repository.above.get(name, ()):
                return True
        return False

    @cached_property
    def kit_words(self) -> set[str]:
        """The names that the kit's libraries define."""
        found: set[str] = set()
        if self.kit is None:
            return found
        own = self.repository.crates
        used = {it for crate in own.values() for it in crate.libraries if it not in own}
        for name in ("core", "std", "std_alloc", "std_collections", "std_heap", "std_io", *used):
            for part in ("src", "specs"):
                for path in (self.kit / name / part).rglob("*.*t"):
                    found.update(it for groups in DEFINES.findall(path.read_text())
                                 for it in groups if it)
        return found

    def is_alone(self, node: Node) -> bool:
        """Whether nothing else that one crate sees beside it bears its name."""
        word, above = node.name, self.repository.above
        region = above[node.crate]
        new = self.by_node[node].new_word
        others = (it for it in self.repository.definers.get(word, ()) if it != node)
        for other in others:
            if not region & above[other.crate]:
                continue
            entry = self.by_node.get(other)
            if entry is None or entry.new_word != new:
                return False
        return not self.repository.variables.get(word, set()) & region \
            and word not in self.kit_words

    @cached_property
    def alone(self) -> dict[str, list[Node]]:
        """The nodes that are to be renamed wherever their name stands, by this name."""
        found: dict[str, list[Node]] = defaultdict(list)
        for node, entry in self.by_node.items():
            if entry.kind in ITEMS and self.is_alone(node):
                found[node.name].append(node)
        return found

    def lone(self, word: str, crate: str) -> Entry | None:
        """The entry of a name that means one thing in a crate's files."""
        for node in self.alone.get(word, ()):
            if crate in self.repository.above[node.crate]:
                return self.by_node[node]
        return None
