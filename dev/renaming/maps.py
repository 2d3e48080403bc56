"""The map of old and new names: a file with an entry a line."""
from __future__ import annotations

import re
import shlex
from dataclasses import dataclass, field
from enum import Enum
from pathlib import Path


class MapFault(Exception):
    """A map that can't be applied; its text names the file and the line."""


class Kind(Enum):
    """What an entry renames."""

    CRATE = "crate"
    MODULE = "module"
    SPEC = "spec"
    LEMMAS = "lemmas"
    TYPE = "type"
    FUNCTION = "function"
    CONSTANT = "constant"
    VARIANT = "variant"
    METHOD = "method"
    FIELD = "field"
    DEFINITION = "definition"
    LEMMA = "lemma"
    WORD = "word"
    EDIT = "edit"
    TEXT = "text"


#: Kinds whose names are looked up by the imports of a file.
ITEMS = {Kind.TYPE, Kind.FUNCTION, Kind.CONSTANT, Kind.VARIANT, Kind.METHOD, Kind.FIELD,
         Kind.DEFINITION, Kind.LEMMA}
#: Words that a name may not be: of Rattle, and of specs and proofs.
RESERVED = frozenset("""
    as break const continue crate dyn else enum extern false fn for if impl in let loop match mod
    move mut pub ref return self Self static struct super trait true type unsafe use where while
    async await ghost requires ensures result final
    data record deriving module package open unfoldable abbrev axiom unfold unfolding ruleset
    mutual infix infixl infixr elim do Type coe fcoe tcoe hcom com
    then yes no ground assumption row claim world met exit entry now old new initial fn invariant
    search grind omega simp rw cc hlevel first_of refl goal args inside auto
    Option Result Vec String Box Some None Ok Err Drop Clone Copy Default Debug Hash Eq Ord
    PartialEq PartialOrd Iterator From Into Model List Global Fn FnMut FnOnce Send Sync
    """.split())
#: Of these, what a field, a clause or a method may be called all the same.
ONLY_ITEMS = frozenset("row claim world met exit entry now old new initial fn invariant first_of "
                       "search List data args inside auto yes no".split())
PLAIN = re.compile(r"[A-Za-z_]\w*")
SPEC_NAME = re.compile(r"[A-Z]\w*")


@dataclass(eq=False)
class Entry:
    """A line of a map, and how often it was applied."""

    line: int
    kind: Kind
    scope: str
    old: str
    new: str
    #: The new name may stand in files of this entry already: they are one name from then on.
    is_shared: bool = False
    counts: dict[str, int] = field(default_factory=dict)

    @property
    def owner(self) -> str:
        """The type of a variant, a method or a field; else nothing."""
        return re.split(r"::|\.", self.old)[0] if self.has_owner else ""

    @property
    def has_owner(self) -> bool:
        return self.kind in (Kind.VARIANT, Kind.METHOD, Kind.FIELD)

    @property
    def old_word(self) -> str:
        return re.split(r"::|\.|/", self.old)[-1]

    @property
    def new_word(self) -> str:
        return re.split(r"::|\.|/", self.new)[-1]

    @property
    def crate(self) -> str:
        """The crate of a scope, or `*`."""
        return self.scope.partition("/")[0]

    @property
    def module(self) -> tuple[str, ...] | None:
        """The module, or file of specs, of a scope; None where it names none."""
        _, _, behind = self.scope.partition("/")
        return tuple(behind.split("/")) if behind else None

    def count(self, path: str) -> None:
        self.counts[path] = self.counts.get(path, 0) + 1

    def __str__(self) -> str:
        return f"{self.kind.value} {self.scope} {self.old} {self.new}"


def entry_of(path: Path, line: int, text: str) -> Entry:
    """The entry of a line of a map."""
    try:
        parts = shlex.split(text, comments=True)
    except ValueError as fault:
        raise MapFault(f"{path}:{line}: {fault}") from fault
    is_shared = len(parts) == 5 and parts[4] == "shared"
    if len(parts) != 4 + is_shared:
        raise MapFault(f"{path}:{line}: wanted: KIND SCOPE OLD NEW [shared]")
    try:
        kind = Kind(parts[0])
    except ValueError as fault:
        raise MapFault(f"{path}:{line}: no kind is called {parts[0]}") from fault
    entry = Entry(line, kind, parts[1], parts[2], parts[3], is_shared)
    if entry.old == entry.new:
        raise MapFault(f"{path}:{line}: {entry.old} has its name already")
    fault_of_name = name_fault(entry)
    if fault_of_name:
        raise MapFault(f"{path}:{line}: {fault_of_name}")
    return entry


def name_fault(entry: Entry) -> str | None:
    """Why a new name can't be one, or None."""
    if entry.kind in (Kind.TEXT, Kind.EDIT):
        return None
    word = entry.new_word
    if not PLAIN.fullmatch(word):
        return f"{entry.new} is no name"
    reserved = RESERVED - ONLY_ITEMS if entry.kind in (
        Kind.FIELD, Kind.METHOD, Kind.WORD, Kind.VARIANT) else RESERVED
    if word in reserved:
        return f"{word} is a word of the language"
    if entry.kind in (Kind.SPEC, Kind.LEMMAS, Kind.TYPE, Kind.VARIANT):
        return None if SPEC_NAME.fullmatch(word) else f"{word} begins with no capital letter"
    if entry.kind in (Kind.CRATE, Kind.MODULE, Kind.FUNCTION, Kind.METHOD, Kind.FIELD):
        return None if word == word.lower() else f"{word} has capital letters"
    return None


def read_map(path: Path) -> list[Entry]:
    """The entries of a map, in order. No two rename one thing."""
    entries = [entry_of(path, line, text) for line, text
               in enumerate(path.read_text().splitlines(), 1) if text.partition("#")[0].strip()]
    seen: dict[tuple[Kind, str, str], Entry] = {}
    for entry in entries:
        key = (entry.kind, entry.scope, entry.old)
        if key in seen:
            raise MapFault(f"{path}:{entry.line}: line {seen[key].line} renames {entry.old} too")
        seen[key] = entry
    return entries
