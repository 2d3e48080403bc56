"""Looks whether each import of own crates leads to something, without a proof."""
from __future__ import annotations

from collections.abc import Iterator

from dev.renaming.index import Crate, Repository, Source, Spec
from dev.renaming.names import Names, source_leaves, spec_uses
from dev.renaming.texts import line_of

#: Names that Rattle makes of each type or function.
MADE = {"Ghosts", "Goals", "Given", "contracts", "TheImpl"}


def lost_imports(repository: Repository) -> Iterator[str]:
    """A line for each import that leads nowhere: of code by `use`, of specs and proofs."""
    names = Names(repository)
    for crate in repository.crates.values():
        for source in crate.sources.values():
            yield from lost_in_code(names, crate, source)
            yield from lost_in_specs(names, source)
        for spec in (*crate.specs.values(), *crate.lemmas.values()):
            yield from lost_in_specs(names, spec)


def lost_in_code(names: Names, crate: Crate, source: Source) -> Iterator[str]:
    for leaf in source_leaves(source.code):
        first = leaf.segments[0].name
        nodes = names.source_path(crate, source, leaf.segments)
        is_own = first in names.repository.crates or first in ("crate", "self", "super")
        if (is_own or nodes[0]) and nodes[-1] is None:
            yield (f"{source.path}:{line_of(source.code, leaf.segments[0].begin)}: "
                   + "::".join(it.name for it in leaf.segments))


def lost_in_specs(names: Names, file: Source | Spec) -> Iterator[str]:
    for use in spec_uses(file.code):
        if use.segments[1].name not in names.repository.crates:
            continue
        nodes = names.spec_path(use.segments)
        path = ".".join(it.name for it in use.segments)
        place = f"{file.path}:{line_of(file.code, use.segments[0].begin)}"
        if MADE & {it.name for it in use.segments}:
            at = next(at for at, it in enumerate(use.segments) if it.name in MADE)
            if use.segments[at].name in ("Goals", "Given") and nodes[at - 1] is None:
                yield f"{place}: {path}"
        elif nodes[-1] is None:
            yield f"{place}: {path}"
        else:
            yield from (f"{place}: {path}.{{{it.name}}}" for it, _ in use.listed
                        if it.name not in MADE and "◌" not in it.name
                        and names.spec_child(nodes[-1], it.name) is None)
