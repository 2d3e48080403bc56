"""Renames in pages and in other texts: what they cite of the code."""
from __future__ import annotations

import re
from dataclasses import dataclass, field
from pathlib import Path

from dev.renaming.index import Node, Repository
from dev.renaming.maps import Entry, Kind
from dev.renaming.rename_code import CodeRenamer
from dev.renaming.targets import Targets
from dev.renaming.texts import CITED, WORD, Edit, line_of

FILE = re.compile(r"(?:crates/(?P<crate>\w+)/)?(?P<part>src|specs|proofs|must-fail)/"
                  r"(?P<path>[\w/+-]+)\.(?P<suffix>rt|antt|md|edit)")
#: The paragraph, the row or the item in which a citation stands names its crates.
ITEM_BREAK = re.compile(r"\n(?=\n|[-*|#]|\d+\. )")
#: Other texts of the repository that may name crates: their suffixes.
PLAIN_SUFFIXES = {".py", ".sh", ".json", ".cases", ".txt", ".service", ".html", ""}


@dataclass
class PageRenamer:
    """Renames in `.md` pages, and the names of crates in other texts."""

    repository: Repository
    targets: Targets
    code: CodeRenamer
    #: Citations that may mean several things, of which some keep their names.
    doubts: list[str] = field(default_factory=list)

    def page(self, path: str, text: str) -> list[Edit]:
        """The renames of a page."""
        edits: list[Edit] = []
        begin = 0
        for end in [it.start() for it in ITEM_BREAK.finditer(text)] + [len(text)]:
            item = text[begin:end]
            crates = [it for it in WORD.findall(item) if it in self.repository.crates]
            edits += [Edit(begin + it.begin, begin + it.end, it.new)
                      for it in self.item(path, item, crates, line_of(text, begin))]
            begin = end
        return edits

    def item(self, path: str, text: str, crates: list[str], line: int) -> list[Edit]:
        edits, taken = [], []
        for match in FILE.finditer(text):
            taken.append((match.start(), match.end()))
            new = self.file(match, crates)
            if new and new != match[0]:
                edits.append(Edit(match.start(), match.end(), new))
        spans = [(it.start(1), it.end(1)) for it in CITED.finditer(text)]
        for match in WORD.finditer(text):
            if any(low <= match.start() < high for low, high in taken):
                continue
            is_cited = any(low <= match.start() < high for low, high in spans)
            at = line + text.count("\n", 0, match.start())
            before = text[max(0, match.start() - 40):match.start()]
            new = self.word(match[0], before, crates, is_cited, f"{path}:{at}")
            if new:
                edits.append(Edit(match.start(), match.end(), new))
        return edits

    def file(self, match: re.Match[str], crates: list[str]) -> str | None:
        """The new path of a file that a page cites; a crate that the item names has it."""
        named = [match["crate"]] if match["crate"] else crates
        tail = f"{match['part']}/{match['path']}.{match['suffix']}"
        found = set()
        for crate in named or [*self.repository.crates]:
            whole = f"crates/{crate}/{tail}"
            if (self.repository.root / whole).exists():
                found.add(self.code.new_path(whole) if match["crate"]
                          else self.code.new_path(whole).split("/", 2)[2])
        return found.pop() if len(found) == 1 else None

    def word(self, word: str, before: str, crates: list[str], is_cited: bool,
             place: str) -> str | None:
        if word in self.repository.crates:
            entry = self.targets.by_node.get(Node("crate", word))
            return self.use(entry, place) if entry else None
        nodes = self.repository.definers.get(word)
        if not is_cited or not nodes:
            return None
        owner = re.search(r"(\w+)(?:::|\.)$", before)
        close = {it for it in nodes if owner and owner[1] in it.path[:-1] + (it.crate,)}
        named = {it for it in close or nodes if it.crate in crates} or close or nodes
        entries = {self.entry(it) for it in named}
        words = {it.new_word if it else word for it in entries}
        if len(words) > 1:
            self.doubts.append(f"{place}: `{word}` may mean {self.told(named)}")
            return None
        entry = next(iter(entries))
        return self.use(entry, place) if entry else None

    def entry(self, node: Node) -> Entry | None:
        return self.targets.by_node.get(node) or self.code.word_entry(node)

    def told(self, nodes: set[Node]) -> str:
        return ", ".join(sorted(f"{it} -> {entry.new_word if entry else 'itself'}"
                                for it in nodes for entry in [self.entry(it)]))

    def use(self, entry: Entry, place: str) -> str:
        entry.count(place.partition(":")[0])
        return entry.new_word

    def plain(self, path: str, text: str) -> list[Edit]:
        """The renames of a text that is no page: the names of crates and of their files."""
        edits, taken = [], []
        for match in FILE.finditer(text):
            taken.append((match.start(), match.end()))
            new = self.file(match, []) if match["crate"] else None
            if new and new != match[0]:
                edits.append(Edit(match.start(), match.end(), new))
        for match in WORD.finditer(text):
            entry = self.targets.by_node.get(Node("crate", match[0]))
            if entry and not any(low <= match.start() < high for low, high in taken):
                edits.append(Edit(match.start(), match.end(), self.use(entry, f"{path}:0")))
        return edits


def replaced_texts(targets: Targets, path: str, text: str) -> str:
    """The text with the entries of kind `text` for this file applied."""
    for entry in targets.entries:
        if entry.kind is Kind.TEXT and Path(path).match(entry.scope) and entry.old in text:
            if entry.old in entry.new and entry.new in text:
                continue
            text = text.replace(entry.old, entry.new)
            entry.count(path)
    return text
