"""Takes the short names away under which crates give other crates on."""
from __future__ import annotations

import re
from collections.abc import Iterator

from dev.renaming.index import Node, Repository
from dev.renaming.names import USE, Leaf, Names, Segment, spec_uses, tree_leaves
from dev.renaming.rename_code import INLINE, CodeRenamer, Context
from dev.renaming.texts import Edit, blanked

GIVEN_SPECS = re.compile(r"^pub use Rattle\.\w+\.(?:specs|proofs)(?:\.\w+)* as \w+\n?", re.M)
CITED_CRATE = re.compile(r"\bRattle\.(\w+)")


class AliasRemover:
    """Names each crate by itself where one below gives it on: in code, in specs and in proofs.

    `use path_commit::history::History;` becomes `use grant_log::History;`, and
    `Rattle.path_commit.specs.history.Legal` becomes `Rattle.grant_log.specs.Legal`. The lines that
    give crates on go. `crates.txt` then lists of each crate the own crates that its files name.
    """

    def __init__(self, repository: Repository, names: Names) -> None:
        self.repository, self.names = repository, names
        #: The own crates that the files of each crate name when all is done, by their old names.
        self.used: dict[str, set[str]] = {it: set() for it in repository.crates}

    def merged(self, text: str, context: Context, edits: list[Edit]) -> list[Edit]:
        """The edits of a file with those that take aliases away; these win where both touch."""
        code = blanked(text, context.suffix)
        renames = {(it.begin, it.end): it.new for it in edits}
        own = [*self.specs(code, context, renames)]
        if context.suffix == ".rt" and context.source is not None:
            own += [*self.uses(code, context, renames), *self.inline(code, context, renames)]
        self.note(code, context)
        return own + [it for it in edits
                      if not any(one.begin < it.end and it.begin < one.end for one in own)]

    def note(self, code: str, context: Context) -> None:
        """Notes the crates that a file names, whatever leads to them."""
        used = self.used[context.crate.name]
        gives_on = {(it.start(), it.end()) for it in GIVEN_SPECS.finditer(code)}
        for use in spec_uses(code):
            if any(low <= use.segments[0].begin < high for low, high in gives_on):
                continue
            known = [it for it in self.names.spec_path(use.segments) if it]
            used.update(it.crate for it in known[-1:] if it.crate)
        if context.source is None:
            return
        for leaf in self.leaves(code):
            if self.real_crate(self.nodes(leaf.segments, context)) is None:
                used.update(self.first(leaf.segments, context))
            elif not self.gives_on(leaf, context):
                used.update(self.last_crate(self.nodes(leaf.segments, context)))
        for match in INLINE.finditer(code):
            segments = self.segments(match)
            used.update(self.last_crate(self.nodes(segments, context))
                        or self.first(segments, context))

    def first(self, segments: tuple[Segment, ...], context: Context) -> set[str]:
        names = self.names.source_names(context.crate, context.source) if context.source else {}
        node = names.get(segments[0].name)
        is_crate = segments[0].name in self.repository.crates and (
            node is None or (node.kind == "module" and not node.path
                             and node.crate == segments[0].name))
        return {segments[0].name} if is_crate else set()

    def leaves(self, code: str) -> Iterator[Leaf]:
        for match in USE.finditer(code):
            if not match["tree"].startswith("Rattle."):
                yield from tree_leaves(match["tree"], match.start("tree"), (), bool(match["pub"]))

    def nodes(self, segments: tuple[Segment, ...], context: Context) -> list[Node | None]:
        assert context.source is not None
        return self.names.source_path(context.crate, context.source, segments)

    def real_crate(self, nodes: list[Node | None]) -> int | None:
        """The last place of a path, behind its first, that leads to a whole crate; or None."""
        found = [at for at, it in enumerate(nodes) if at and it is not None
                 and it.kind == "module" and not it.path]
        return found[-1] if found else None

    def last_crate(self, nodes: list[Node | None]) -> set[str]:
        real = self.real_crate(nodes)
        node = nodes[real] if real is not None else None
        return {node.crate} if node else set()

    def gives_on(self, leaf: Leaf, context: Context) -> bool:
        """Whether a leaf gives a whole crate on."""
        last = self.nodes(leaf.segments, context)[-1]
        return bool(leaf.is_public and last and last.kind == "module" and not last.path)

    def uses(self, code: str, context: Context,
             renames: dict[tuple[int, int], str]) -> Iterator[Edit]:
        """Each `use` that an alias stands in, written anew, a line for each crate."""
        for match in USE.finditer(code):
            if match["tree"].startswith("Rattle."):
                continue
            leaves = [*tree_leaves(match["tree"], match.start("tree"), (), bool(match["pub"]))]
            if not any(self.real_crate(self.nodes(it.segments, context)) is not None
                       or self.gives_on(it, context) for it in leaves):
                continue
            rows: dict[str, list[str]] = {}
            for leaf in leaves:
                if not self.gives_on(leaf, context):
                    front, name = self.written(leaf, context, renames)
                    rows.setdefault(front, []).append(name)
            public = match["pub"] or ""
            lines = [f"{public}use {front}::{{{', '.join(names)}}};" if len(names) > 1
                     else f"{public}use {front}::{names[0]};" for front, names in rows.items()]
            end = match.end() + (not lines and code[match.end():match.end() + 1] == "\n")
            yield Edit(match.start(), end, "\n".join(lines))

    def written(self, leaf: Leaf, context: Context,
                renames: dict[tuple[int, int], str]) -> tuple[str, str]:
        """The path of a leaf without its aliases, and its last name, by their new names."""
        nodes = self.nodes(leaf.segments, context)
        real = self.real_crate(nodes)
        words = [renames.get((it.begin, it.end), it.name) for it in leaf.segments]
        if real is not None:
            node = nodes[real]
            assert node is not None
            words = [self.crate_name(node.crate, renames)] + words[real + 1:]
        name = words[-1]
        if leaf.alias:
            alias = renames.get((leaf.alias.begin, leaf.alias.end), leaf.alias.name)
            name += f" as {alias}" if alias != name else ""
        return "::".join(words[:-1]), name

    def crate_name(self, crate: str, renames: dict[tuple[int, int], str]) -> str:
        return self.new_names.get(crate, crate)

    #: The new names of crates that get one, set by the run.
    new_names: dict[str, str] = {}

    def segments(self, match: re.Match[str]) -> tuple[Segment, ...]:
        return tuple(Segment(it[0], match.start() + it.start(), match.start() + it.end())
                     for it in re.finditer(r"(?<![<\w])[A-Za-z_]\w*(?=::|$)", match[0]))

    def inline(self, code: str, context: Context,
               renames: dict[tuple[int, int], str]) -> Iterator[Edit]:
        """A path in code that leads through an alias."""
        items = [(it.start(), it.end()) for it in USE.finditer(code)]
        for match in INLINE.finditer(code):
            segments = self.segments(match)
            if not segments or any(low <= match.start() < high for low, high in items):
                continue
            nodes = self.nodes(segments, context)
            real = self.real_crate(nodes)
            node = nodes[real] if real is not None else None
            if real is not None and node is not None:
                yield Edit(segments[0].begin, segments[real].end,
                           self.crate_name(node.crate, renames))

    def specs(self, code: str, context: Context,
              renames: dict[tuple[int, int], str]) -> Iterator[Edit]:
        for match in GIVEN_SPECS.finditer(code) if context.path.endswith("/Lib.antt") else ():
            yield Edit(match.start(), match.end(), "")
        for use in spec_uses(code):
            if context.path.endswith("/Lib.antt"):
                continue
            nodes = self.names.spec_path(use.segments)
            given = [at for at, it in enumerate(nodes) if at > 2 and it is not None
                     and it.kind in ("specs", "proofs") and not it.path]
            node = nodes[given[-1]] if given else None
            if node is not None:
                crate = self.crate_name(node.crate, renames)
                yield Edit(use.segments[0].begin, use.segments[given[-1]].end,
                           f"Rattle.{crate}.{node.kind}")

    def crates_text(self, text: str, code: CodeRenamer) -> str:
        """crates.txt with the own crates that the files of each crate name."""
        old = {self.new_names.get(it, it): it for it in self.repository.crates}
        rows = []
        for row in text.splitlines():
            head, colon, tail = row.partition(":")
            name = old.get(head.split(" ")[0]) if head.split() else None
            if not colon or name is None:
                rows.append(row)
                continue
            listed = tail.split("#")[0].split()
            used = {self.new_names.get(it, it) for it in self.used[name] - {name}}
            kept = [it for it in listed if it in used or it not in old]
            order = [self.new_names.get(it, it) for it in self.repository.crates]
            added = sorted(used - {*listed}, key=order.index)
            rows.append(f"{head}: {' '.join(kept + added)}".rstrip())
        return "\n".join(rows) + "\n"
