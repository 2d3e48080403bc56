"""The crates that crates.txt names: what each stands on, and what it is made of."""
from __future__ import annotations

import hashlib
import re
from dataclasses import dataclass
from functools import cached_property
from pathlib import Path

ROOT = Path(__file__).resolve().parent.parent
#: The folders of a crate from which it is proved and built.
PARTS = ("src", "specs", "proofs")
ROW = re.compile(r"(?P<name>\w+)(?: [\w= ]+)?:(?P<libraries>[\w\s,]*)")


@dataclass(frozen=True)
class Repository:
    """The crates of one folder, in the order of its crates.txt."""

    root: Path

    @cached_property
    def rows(self) -> dict[str, str]:
        """Each crate's name with its line of crates.txt."""
        found = {}
        for line in (self.root / "crates.txt").read_text().splitlines():
            row = ROW.fullmatch(line.partition("#")[0].strip())
            if row:
                found[row["name"]] = row[0]
        return found

    @cached_property
    def libraries(self) -> dict[str, list[str]]:
        """Each crate's name with the libraries that its line names, those of the kit among them."""
        return {name: row.partition(":")[2].replace(",", " ").split()
                for name, row in self.rows.items()}

    def below(self, name: str) -> list[str]:
        """The crates of the repository on which this one stands, however far below, sorted."""
        seen: set[str] = set()
        left = [name]
        while left:
            named = [it for it in self.libraries[left.pop()] if it in self.libraries]
            left += [it for it in named if it not in seen]
            seen |= {*named}
        return sorted(seen)

    def folder(self, name: str) -> Path:
        return self.root / "crates" / name

    def sources(self, name: str) -> list[Path]:
        """The files from which a crate is proved and built, sorted."""
        return sorted(path for part in PARTS for path in (self.folder(name) / part).rglob("*")
                      if path.is_file())

    def lines(self, name: str) -> int:
        """The lines of a crate's code, specs and proofs left out."""
        return sum(path.read_bytes().count(b"\n") for path in self.sources(name)
                   if path.suffix == ".rt")

    def digest(self, name: str) -> str:
        """What a program is made of, as one number: HANDLES, and its own sources and all below.

        Two trees with one digest give the same program, and prove the same of it.
        """
        total = hashlib.sha256()
        handles = self.root / "HANDLES"
        files = [handles] if handles.is_file() else []
        for crate in [*self.below(name), name]:
            total.update(f"{self.rows[crate]}\n".encode())
            files += self.sources(crate)
        for path in files:
            content = path.read_bytes()
            total.update(f"{path.relative_to(self.root)} {len(content)}\n".encode())
            total.update(content)
        return total.hexdigest()
