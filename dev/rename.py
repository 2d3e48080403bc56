"""Renames what the repository names itself, by a map of old and new names.

A map has an entry a line, `KIND SCOPE OLD NEW`, and comments behind `#`. KIND is one of

    crate       a crate: its folder, crates.txt, what imports it, pages and tests
    module      a file of src/, by its path (`request_plans/places`), with its folder of proofs
    spec        a file of specs/; lemmas: one of proofs/
    type function constant definition lemma
                an item; SCOPE is its crate, or `CRATE/FILE` where several of it have the name
    variant method field
                a member, as `Reply::Granted`, `Course::of`, `Run.enter`; `*::of` is of any type
    word        a whole word of all names of code in the files of SCOPE, and in what is derived
                from it in proofs: variables, parameters, fields, clauses, labels. SCOPE lists
                crates, `CRATE+` for it and all above it, or patterns of paths, by commas
    edit        a planted edit of SCOPE, a crate, by its file's name without its suffix
    text        a text in files that match SCOPE, a pattern; quoted

Names are found by the imports of each file, so that `Place` of one crate is not `Place` of another.
A name of a step in a proof, as `c.in_ok-find.ensures.found`, is renamed by its words. A fifth word
`shared` says that the new name may stand in the files already. Nothing is written where a new name
clashes; each clash is told. A second run changes nothing.

    dev/rename dev/renames.map --check
    dev/rename dev/renames.map --aliases

`rt fmt` in each crate lays the code out anew. `--imports` looks whether each import leads somewhere.

    dev/rename --imports
"""
from __future__ import annotations

import argparse
import subprocess
import sys
from pathlib import Path

from dev.renaming.imports import lost_imports
from dev.renaming.index import Repository
from dev.renaming.maps import MapFault, read_map
from dev.renaming.runs import Run

TOP = Path(__file__).resolve().parent.parent


def kit_folder() -> Path | None:
    """The folder of the kit's guides; None without a kit."""
    try:
        told = subprocess.run(["rt", "doc"], capture_output=True, text=True, check=False).stdout
    except OSError:
        return None
    words = told.split()
    return Path(words[-1]).parent if words and Path(words[-1]).is_file() else None


def arguments(words: list[str]) -> argparse.Namespace:
    parser = argparse.ArgumentParser(prog="rename", description=__doc__,
                                     formatter_class=argparse.RawDescriptionHelpFormatter)
    parser.add_argument("map", type=Path, nargs="?", help="the file of entries")
    parser.add_argument("--imports", action="store_true",
                        help="tell the imports of own crates that lead nowhere, and do nothing else")
    parser.add_argument("--root", type=Path, default=TOP, help="the repository")
    parser.add_argument("--check", action="store_true", help="write nothing, and tell the counts")
    parser.add_argument("--force", action="store_true", help="write in spite of clashes")
    parser.add_argument("--aliases", action="store_true",
                        help="name each crate by itself where one gives it on, and list what is"
                             " named in crates.txt")
    parser.add_argument("--only", metavar="KIND", help="apply entries of this kind alone")
    parser.add_argument("--kit", type=Path, help="the folder of the kit's guides")
    parser.add_argument("--verbose", action="store_true", help="a line for each entry")
    return parser.parse_args(words)


def tell(run: Run, is_verbose: bool) -> None:
    """Prints what a run changes, and what a reader has to look at."""
    if is_verbose:
        for entry in run.entries:
            print(f"{sum(entry.counts.values()):6} in {len(entry.counts):4} files  {entry}")
    for entry in run.unmatched():
        print(f"rename: line {entry.line}: {entry}: matched nothing")
    for doubt in run.pages.doubts:
        print(f"rename: {doubt}")
    total = sum(sum(entry.counts.values()) for entry in run.entries)
    print(f"{len(run.entries)} entries, {len(run.targets.done)} applied before: {total} names in"
          f" {len(run.texts)} files, {len(run.moves)} files moved")


def main(words: list[str]) -> int:
    options = arguments(words)
    if options.imports:
        lost = [*lost_imports(Repository(options.root.resolve()))]
        print("\n".join([*lost, f"{len(lost)} imports lead nowhere"]))
        return 1 if lost else 0
    if options.map is None:
        print("rename: no map is given", file=sys.stderr)
        return 2
    try:
        entries = read_map(options.map)
    except (MapFault, OSError) as fault:
        print(f"rename: {fault}", file=sys.stderr)
        return 2
    if options.only:
        entries = [it for it in entries if it.kind.value == options.only]
    run = Run(Repository(options.root.resolve()), entries, options.kit or kit_folder(),
              options.aliases)
    tell(run, options.verbose)
    for told in run.faults:
        print(f"rename: {options.map}: {told}", file=sys.stderr)
    if run.faults and not options.force:
        return 2
    if not options.check:
        run.write()
    return 0


if __name__ == "__main__":
    sys.exit(main(sys.argv[1:]))
