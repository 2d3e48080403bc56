"""A run of a map over a repository: what changes, what is refused, and the writing."""
from __future__ import annotations

import re
import shutil
import subprocess
from collections import Counter, defaultdict
from collections.abc import Iterator
from dataclasses import dataclass, field
from pathlib import Path

from dev.renaming.aliases import AliasRemover
from dev.renaming.index import Crate, Node, Repository, Source
from dev.renaming.layout import broken
from dev.renaming.maps import Entry, Kind
from dev.renaming.names import Names
from dev.renaming.rename_code import CodeRenamer, Context
from dev.renaming.rename_pages import PLAIN_SUFFIXES, PageRenamer, replaced_texts
from dev.renaming.targets import Targets
from dev.renaming.texts import Edit, edited

DOUBLED = re.compile(r"\b([A-Za-z_][\w']*) as \1(?![\w'])")
PLANTED = re.compile(r"^(old|new): (.*)$", re.M)
PLANTED_FILE = re.compile(r"^file: (\S+)$", re.M)
#: Folders and files that no map is for.
SKIPPED = {".git", "__pycache__", "out", "renaming"}
SKIPPED_FILES = {"renames.map", "test_rename.py"}


@dataclass
class Run:
    """The renames of a repository, kept until they are written."""

    repository: Repository
    entries: list[Entry]
    kit: Path | None = None
    removes_aliases: bool = False
    texts: dict[str, tuple[str, str]] = field(default_factory=dict)
    moves: dict[str, str] = field(default_factory=dict)
    faults: list[str] = field(default_factory=list)

    def __post_init__(self) -> None:
        self.names = Names(self.repository)
        self.targets = Targets(self.repository, self.entries, self.kit)
        self.code = CodeRenamer(self.repository, self.names, self.targets)
        self.pages = PageRenamer(self.repository, self.targets, self.code)
        self.aliases = AliasRemover(self.repository, self.names)
        self.aliases.new_names = {it.old: it.new for it in self.entries if it.kind is Kind.CRATE}
        self.faults += self.targets.faults
        self.crates()
        self.others()
        self.faults += self.clashes()

    # What changes.

    def crates(self) -> None:
        for crate in self.repository.crates.values():
            for source in crate.sources.values():
                self.change(source.text, self.code.source_context(crate, source))
            for spec in crate.specs.values():
                self.change(spec.text, self.code.spec_context(crate, spec, False))
            for spec in crate.lemmas.values():
                self.change(spec.text, self.code.spec_context(crate, spec, True))
            for path in sorted((crate.folder / "must-fail").glob("*")):
                self.planted(crate.name, path)

    def change(self, text: str, context: Context) -> None:
        edits = self.code.edits(text, context)
        if self.removes_aliases:
            edits = self.aliases.merged(text, context, edits)
        self.keep(context.path, text, DOUBLED.sub(r"\1", edited(text, edits)) if edits else text)

    def keep(self, path: str, text: str, new: str) -> None:
        """Keeps what a file is to say, and where it is to stand."""
        new = replaced_texts(self.targets, path, new)
        suffix = Path(path).suffix
        if new != text and path.startswith("crates/") and (
                suffix == ".rt" or suffix == ".antt" and "/specs/" in path):
            new = broken(new, suffix)
        moved = self.code.new_path(path)
        if moved != path:
            self.moves[path] = moved
        if new != text:
            self.texts[path] = (text, new)

    def planted(self, crate_name: str, path: Path) -> None:
        """A planted edit: its file, and its old and new texts as pieces of that file."""
        text = path.read_text()
        relative = path.relative_to(self.repository.root).as_posix()
        target = PLANTED_FILE.search(text)
        edits: list[Edit] = []
        if target:
            whole = f"crates/{crate_name}/{target[1]}"
            context = self.context_of(crate_name, target[1])
            new_path = self.code.new_path(whole).split("/", 2)[2]
            if new_path != target[1]:
                edits.append(Edit(target.start(1), target.end(1), new_path))
            for match in PLANTED.finditer(text):
                if context is None:
                    break
                context.path = relative
                edits += [Edit(match.start(2) + it.begin, match.start(2) + it.end, it.new)
                          for it in self.code.edits(match[2], context)]
        self.keep(relative, text, edited(text, edits))

    def context_of(self, crate_name: str, path: str) -> Context | None:
        crate = self.repository.crates[crate_name]
        for source in crate.sources.values():
            if source.path == crate.folder / path:
                return self.code.source_context(crate, source)
        for specs in (crate.specs, crate.lemmas):
            for spec in specs.values():
                if spec.path == crate.folder / path:
                    return self.code.spec_context(crate, spec, specs is crate.lemmas)
        return None

    def others(self) -> None:
        """Pages, tests and tools, and crates.txt."""
        for path in self.other_files():
            relative = path.relative_to(self.repository.root).as_posix()
            try:
                text = path.read_text()
            except UnicodeDecodeError:
                continue
            is_page = path.suffix == ".md"
            edits = self.pages.page(relative, text) if is_page else self.pages.plain(relative, text)
            new = edited(text, edits)
            if relative == "crates.txt" and self.removes_aliases:
                new = self.aliases.crates_text(new, self.code)
            self.keep(relative, text, new)

    def other_files(self) -> Iterator[Path]:
        for path in sorted(self.repository.root.rglob("*")):
            parts = path.relative_to(self.repository.root).parts
            if SKIPPED & {*parts} or path.name in SKIPPED_FILES or not path.is_file():
                continue
            if parts[0] == "crates" or path.is_symlink():
                continue
            if path.suffix == ".md" or path.suffix in PLAIN_SUFFIXES:
                yield path

    # What is refused.

    def clashes(self) -> list[str]:
        return [*self.shared_words(), *self.case_clashes(), *self.crate_clashes(),
                *self.chains()]

    def shared_words(self) -> Iterator[str]:
        """New names that stand in a file already, for something that keeps its name."""
        shared = {(it.old_word, it.new_word) for it in self.entries if it.is_shared}
        found: dict[tuple[str, str], list[str]] = defaultdict(list)
        for path, pairs in self.code.renamed.items():
            words = self.code.words[path]
            gone = Counter({old: sum(n for (it, _), n in pairs.items() if it == old)
                            for old, _ in pairs})
            for old, new in pairs:
                if (old, new) not in shared and words[new] > gone[new]:
                    found[old, new].append(path)
        for (old, new), paths in sorted(found.items()):
            more = f" and {len(paths) - 3} more" if len(paths) > 3 else ""
            yield f"{old} -> {new}: {new} stands already in {', '.join(paths[:3])}{more}"

    def case_clashes(self) -> Iterator[str]:
        """Items of one module, or files of one folder, whose new names differ by case alone."""
        for crate in self.repository.crates.values():
            for source in crate.sources.values():
                nodes = [*source.items.values()] + [
                    Node("module", crate.name, it) for it in crate.sources
                    if it and it[:-1] == source.module]
                where = f"{crate.name}::{'::'.join(source.module)}"
                yield from self.alike(nodes, where)
                yield from self.imported(crate, source, where)
            for kind, specs in (("spec", crate.specs), ("lemmas", crate.lemmas)):
                yield from self.alike([Node(kind, crate.name, it) for it in specs if len(it) == 1],
                                      f"{crate.name} {kind}")
                for spec in specs.values():
                    yield from self.alike([*spec.items.values()], self.code.relative(spec), True)

    def imported(self, crate: Crate, source: Source, where: str) -> Iterator[str]:
        """What a source imports or defines under one new name."""
        seen: dict[str, Node] = {}
        for name, node in self.names.source_names(crate, source).items():
            entry = self.code.entry_of(node) or self.code.word_entry(node)
            new = entry.new_word if entry and node.name == name else name
            if new in seen and seen[new] != node:
                yield f"{where}: {node} and {seen[new]} would both be called {new}"
            seen[new] = node

    def alike(self, nodes: list[Node], where: str, by_case: bool = False) -> Iterator[str]:
        seen: dict[str, tuple[Node, str]] = {}
        for node in nodes:
            entry = self.targets.by_node.get(node)
            name = entry.new_word if entry else node.name
            key = name if by_case else name.lower()
            if key in seen and (entry or seen[key][1] != seen[key][0].name):
                yield f"{where}: {node} and {seen[key][0]} would both be called {name}"
            seen[key] = (node, name)

    def crate_clashes(self) -> Iterator[str]:
        for entry in self.entries:
            if entry.kind is not Kind.CRATE or entry in self.targets.done:
                continue
            used = {it for crate in self.repository.crates.values() for it in crate.libraries}
            if entry.new in used or entry.new in self.repository.crates or \
                    self.kit and (self.kit / entry.new).is_dir():
                yield f"line {entry.line}: {entry}: a crate is called {entry.new} already"

    def chains(self) -> Iterator[str]:
        """Entries of which a second run would rename what this one made."""
        for entry in self.entries:
            for other in self.entries:
                if entry.kind is other.kind is Kind.WORD and entry.new == other.old and \
                        {*entry.scope.split(",")} & {*other.scope.split(",")}:
                    yield f"line {other.line}: {other}: line {entry.line} makes {other.old}"

    # Writing.

    def write(self) -> None:
        """Writes what changed, and moves files and folders."""
        root = self.repository.root
        for path, (_, new) in self.texts.items():
            (root / path).write_text(new)
        held = {path: (root / path).read_bytes() for path in self.moves}
        for path in self.moves:
            (root / path).unlink()
        for path, new in self.moves.items():
            target = root / new
            if target.exists():
                raise FileExistsError(f"{path}: {new} is there already")
            target.parent.mkdir(parents=True, exist_ok=True)
            target.write_bytes(held[path])
        folders = {parent for path in self.moves for parent in (root / path).parents}
        for folder in sorted((it for it in folders if it.is_dir() and it != root),
                             key=lambda it: -len(it.parts)):
            if not any(folder.iterdir()):
                folder.rmdir()
        for crate in (root / "crates").iterdir():
            if crate.is_dir() and not (crate / "src").is_dir():
                shutil.rmtree(crate)

    def unmatched(self) -> list[Entry]:
        """Entries that changed nothing, those aside that were applied before."""
        return [it for it in self.entries if not it.counts and it not in self.targets.done
                and not self.was_applied(it)]

    def was_applied(self, entry: Entry) -> bool:
        if entry.kind is Kind.WORD:
            return any(entry.new in words for path, words in self.code.words.items()
                       if self.targets.is_in(entry, path.split("/")[1], path))
        if entry.kind is Kind.EDIT:
            crates = self.targets.scoped(entry)
            return any((it.folder / "must-fail").glob(f"{entry.new}.*") for it in crates)
        if entry.kind is Kind.TEXT:
            return any(Path(it).match(entry.scope) and entry.new in (self.repository.root
                       / it).read_text() for it in self.paths())
        return False

    def paths(self) -> list[str]:
        root = self.repository.root
        listed = subprocess.run(["git", "-C", str(root), "ls-files"], capture_output=True,
                                text=True, check=False).stdout.splitlines()
        return [it for it in listed if (root / it).is_file() and "/out/" not in it]
