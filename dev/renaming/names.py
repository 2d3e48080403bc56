"""What the names of a file stand for, by its imports and by paths."""
from __future__ import annotations

import re
from collections.abc import Iterator
from dataclasses import dataclass

from dev.renaming.index import Crate, Node, Path_, Repository, Source, Spec, block_of
from dev.renaming.texts import NAME

USE = re.compile(r"(?<!ghost )\b(?P<pub>pub(?:\([^)]*\))? )?use (?P<tree>[^;]+);")
SPEC_USE = re.compile(r"(?P<pub>\bpub\s+)?(?:ghost\s+)?\buse\s+(?P<path>Rattle(?:\.[\w'«»+-]+)+)"
                      r"(?:\.\{(?P<list>[^}]*)\})?(?:\s+as\s+(?P<alias>\w+))?")
LISTED = re.compile(r"(?P<name>[^\s,{}]+)(?:\s+as\s+(?P<alias>[^\s,{}]+))?")
CLAUSE = re.compile(r"\b(?:requires|ensures)\b[^{};]*(?=\{)|\bghost \w+\s*[:=]\s*(?=\{)")
SOURCE_WORD = re.compile(r"[A-Za-z_]\w*")


@dataclass(frozen=True)
class Segment:
    """A name of a path, and where it stands."""

    name: str
    begin: int
    end: int


@dataclass(frozen=True)
class Leaf:
    """A name that a `use` brings, by its whole path."""

    segments: tuple[Segment, ...]
    alias: Segment | None
    is_public: bool

    @property
    def brought(self) -> str:
        return (self.alias or self.segments[-1]).name


def tree_leaves(text: str, at: int, front: tuple[Segment, ...], public: bool) -> Iterator[Leaf]:
    """The leaves of a tree of `use`, which begins at a character of its file."""
    for piece, begin in split_tree(text, at):
        head, brace, inner = piece.partition("{")
        segments = front + tuple(
            Segment(it[0], begin + it.start(), begin + it.end())
            for it in SOURCE_WORD.finditer(head.partition(" as ")[0]))
        if brace:
            inner_begin = begin + len(head) + 1
            yield from tree_leaves(inner.rpartition("}")[0], inner_begin, segments, public)
            continue
        name = re.search(r" as (\w+)", head)
        alias = Segment(name[1], begin + name.start(1), begin + name.end(1)) if name else None
        if segments and segments[-1].name == "self":
            segments = segments[:-1]
        if segments:
            yield Leaf(segments, alias, public)


def split_tree(text: str, at: int) -> Iterator[tuple[str, int]]:
    """The parts of a list of a `use` between its commas, with their places."""
    depth = begin = 0
    for end, letter in enumerate(text + ","):
        if letter == "," and depth == 0:
            if text[begin:end].strip():
                yield text[begin:end], at + begin
            begin = end + 1
        depth += (letter == "{") - (letter == "}")


def source_leaves(code: str) -> Iterator[Leaf]:
    """The leaves of all `use` items of a source."""
    for match in USE.finditer(code):
        if not match["tree"].startswith("Rattle."):
            yield from tree_leaves(match["tree"], match.start("tree"), (), bool(match["pub"]))


@dataclass(frozen=True)
class SpecUse:
    """A `use` of specs or proofs: its path, and the names of its list with their aliases."""

    segments: tuple[Segment, ...]
    listed: tuple[tuple[Segment, Segment | None], ...]
    alias: Segment | None
    is_public: bool


def spec_uses(code: str) -> Iterator[SpecUse]:
    for match in SPEC_USE.finditer(code):
        begin = match.start("path")
        segments = tuple(Segment(it[0], begin + it.start(), begin + it.end())
                         for it in re.finditer(r"[^.]+", match["path"]))
        listed: list[tuple[Segment, Segment | None]] = []
        if match["list"] is not None:
            at = match.start("list")
            for it in LISTED.finditer(match["list"]):
                alias = (Segment(it["alias"], at + it.start("alias"), at + it.end("alias"))
                         if it["alias"] else None)
                listed.append((Segment(it["name"], at + it.start("name"), at + it.end("name")),
                               alias))
        alias = (Segment(match["alias"], match.start("alias"), match.end("alias"))
                 if match["alias"] else None)
        yield SpecUse(segments, tuple(listed), alias, bool(match["pub"]))


class Names:
    """Looks names up in a repository."""

    def __init__(self, repository: Repository) -> None:
        self.repository = repository
        self.known_sources: dict[tuple[str, Path_], dict[str, Node]] = {}
        self.known_own: dict[tuple[str, Path_], dict[str, Node]] = {}
        self.known_leaves: dict[tuple[str, Path_], dict[str, Leaf]] = {}
        self.known_names: dict[tuple[str, Path_, str], Node | None] = {}
        #: What is being looked up: imports may lead back to it.
        self.open_names: set[tuple[str, Path_, str]] = set()
        self.known_members: dict[tuple[Node, str], Node | None] = {}
        self.known_roots: dict[tuple[str, str], dict[str, Node]] = {}

    # Code.

    def source_names(self, crate: Crate, source: Source) -> dict[str, Node]:
        """What each name of a source stands for: what it imports and what it defines."""
        key = (crate.name, source.module)
        if key not in self.known_sources:
            names = [*self.own_names(crate, source), *self.brought(crate, source)]
            found = {name: self.look_up(crate, source, name) for name in names}
            self.known_sources[key] = {name: it for name, it in found.items() if it}
        return self.known_sources[key]

    def own_names(self, crate: Crate, source: Source) -> dict[str, Node]:
        """The items and the modules that a source declares."""
        key = (crate.name, source.module)
        if key not in self.known_own:
            modules = {it[-1]: Node("module", crate.name, it) for it in crate.sources
                       if it and it[:-1] == source.module}
            self.known_own[key] = {**modules, **source.items}
        return self.known_own[key]

    def brought(self, crate: Crate, source: Source) -> dict[str, Leaf]:
        """What a source imports, by the names that it brings."""
        key = (crate.name, source.module)
        if key not in self.known_leaves:
            self.known_leaves[key] = {it.brought: it for it in source_leaves(source.code)}
        return self.known_leaves[key]

    def look_up(self, crate: Crate, source: Source, name: str) -> Node | None:
        """What a name of a source stands for."""
        key = (crate.name, source.module, name)
        if key in self.known_names:
            return self.known_names[key]
        if key in self.open_names:
            return None
        self.open_names.add(key)
        leaf = self.brought(crate, source).get(name)
        node = self.source_path(crate, source, leaf.segments)[-1] if leaf else None
        self.open_names.remove(key)
        found = node or self.own_names(crate, source).get(name)
        if found or not self.open_names:
            self.known_names[key] = found
        return found

    def source_path(self, crate: Crate, source: Source,
                    segments: tuple[Segment, ...]) -> list[Node | None]:
        """What each name of a path in a source stands for."""
        found: list[Node | None] = []
        node: Node | None = None
        for at, segment in enumerate(segments):
            node = (self.first_of(crate, source, segment.name, len(segments) > 1) if at == 0
                    else self.source_child(node, segment.name, crate, source))
            found.append(node)
        return found

    def first_of(self, crate: Crate, source: Source, name: str, leads_on: bool) -> Node | None:
        here = Node("module", crate.name, source.module)
        if name == "crate":
            return Node("module", crate.name)
        if name in ("self", "super"):
            return Node("module", crate.name, source.module[:-1] if name == "super"
                        else source.module) if here else None
        found = self.look_up(crate, source, name)
        holds_names = found is not None and found.kind in ("module", "type")
        if name in self.repository.crates and not (holds_names if leads_on else found):
            return Node("module", name)
        return found

    def source_child(self, node: Node | None, name: str, crate: Crate,
                     source: Source) -> Node | None:
        if node is None:
            return None
        if node.kind == "module" and name == "super":
            return Node("module", node.crate, node.path[:-1])
        if node.kind == "module":
            owner = self.repository.crates[node.crate]
            inner = owner.sources.get(node.path)
            return self.look_up(owner, inner, name) if inner else None
        if node.kind == "type":
            return self.member(node, name)
        return None

    def member(self, node: Node, name: str) -> Node | None:
        """A variant, method, field or constant of a type."""
        key = (node, name)
        if key not in self.known_members:
            self.known_members[key] = self.found_member(node, name)
        return self.known_members[key]

    def found_member(self, node: Node, name: str) -> Node | None:
        crate = self.repository.crates[node.crate]
        for source in crate.sources.values():
            kind = source.members.get(node.name, {}).get(name) if (
                source.module == node.path[:-1] or node.name not in source.items) else None
            if kind and (source.module == node.path[:-1]
                         or self.look_up(crate, source, node.name) == node):
                return Node(kind, node.crate, (*node.path, name))
        return None

    # Specs and proofs.

    def given_on(self, crate: str, kind: str) -> dict[str, Node]:
        """The roots of libraries that a crate's specs or proofs give on, by their short names."""
        key = (crate, kind)
        if key not in self.known_roots:
            found: dict[str, Node] = {}
            self.known_roots[key] = found
            owner = self.repository.crates[crate]
            lib = (owner.specs if kind == "specs" else owner.lemmas).get(("Lib",))
            for use in spec_uses(lib.code) if lib else ():
                node = self.spec_path(use.segments)[-1]
                if use.alias and node and node.kind in ("specs", "proofs"):
                    found[use.alias.name] = node
        return self.known_roots[key]

    def spec_path(self, segments: tuple[Segment, ...]) -> list[Node | None]:
        """What each name of a path of specs stands for; the path begins with `Rattle`."""
        found: list[Node | None] = []
        node: Node | None = None
        for at, segment in enumerate(segments):
            if at == 0:
                node = Node("logic", "")
            elif at == 1:
                node = (Node("crate", segment.name) if segment.name in self.repository.crates
                        else None)
            else:
                node = self.spec_child(node, segment.name)
            found.append(node)
        return found

    def spec_child(self, node: Node | None, name: str) -> Node | None:
        if node is None:
            return None
        crate = self.repository.crates.get(node.crate)
        if crate is None:
            return None
        if node.kind == "crate":
            return Node(name, node.crate) if name in ("specs", "proofs") else None
        if node.kind in ("specs", "proofs") and not node.path:
            return self.library_child(crate, node, name)
        if node.kind == "declared":
            return self.declared_child(crate, node, name)
        if node.kind == "proved":
            return self.proved_child(crate, node, name)
        if node.kind == "variants":
            return Node("variant", node.crate, (*node.path, name))
        if node.kind == "constants":
            return Node("constant", node.crate, (*node.path, name))
        if node.kind in ("spec", "lemmas"):
            specs = crate.specs if node.kind == "spec" else crate.lemmas
            return specs[node.path].items.get(name) if node.path in specs else None
        return None

    def library_child(self, crate: Crate, node: Node, name: str) -> Node | None:
        if node.kind == "specs" and name == "declared":
            return Node("declared", crate.name)
        given = self.given_on(crate.name, node.kind).get(name)
        if given:
            return given
        specs = crate.specs if node.kind == "specs" else crate.lemmas
        if (name,) in specs:
            return Node("spec" if node.kind == "specs" else "lemmas", crate.name, (name,))
        return self.proved_child(crate, node, name) if node.kind == "proofs" else None

    def declared_child(self, crate: Crate, node: Node, name: str) -> Node | None:
        if name in ("TheVariants", "TheConstants"):
            return Node("variants" if name == "TheVariants" else "constants", crate.name, node.path)
        if (*node.path, name) in crate.sources:
            return Node("declared", crate.name, (*node.path, name))
        source = crate.sources.get(node.path)
        if source and name in source.items:
            return Node("declared", crate.name, (*node.path, name))
        if node.path and node.path[-1] == name:
            return self.declared_type(crate, node)
        return None

    def declared_type(self, crate: Crate, node: Node) -> Node | None:
        source = crate.sources.get(node.path[:-1])
        found = source.items.get(node.path[-1]) if source else None
        return found if found and found.kind == "type" else None

    def proved_child(self, crate: Crate, node: Node, name: str) -> Node | None:
        plain, path = name.lstrip("+"), node.path
        if self.proved_item(crate, path, plain):
            return Node("proved", crate.name, (*path, plain))
        return None

    def proved_item(self, crate: Crate, path: Path_, name: str) -> Node | None:
        """The module, item or method for which a folder of proofs stands."""
        if (*path, name) in crate.sources:
            return Node("module", crate.name, (*path, name))
        source = crate.sources.get(path)
        if source:
            return source.items.get(name) or self.impl_of(crate, source, name)
        source = crate.sources.get(path[:-1])
        if source is None:
            return None
        owner = source.items.get(path[-1])
        if owner:
            return self.member(owner, name)
        impl = self.impl_of(crate, source, path[-1])
        return Node("method", crate.name, (*path, name)) if impl else None

    def impl_of(self, crate: Crate, source: Source, name: str) -> Node | None:
        """The impl of a trait, whose name in proofs is that of its type and that of the trait."""
        owner = next((it for it in source.members if it != name and name.startswith(it)
                      and name[len(it):][:1].isupper()), None)
        return Node("impl", crate.name, (*source.module, name)) if owner else None

    def impl_parts(self, node: Node) -> tuple[Node | None, str, str]:
        """The type of an impl, and the names of the type and of the trait."""
        crate = self.repository.crates[node.crate]
        source = crate.sources[node.path[:-1]]
        name = node.name
        owner = max((it for it in source.members if name.startswith(it)
                     and name[len(it):][:1].isupper()), key=len)
        return self.look_up(crate, source, owner), owner, name[len(owner):]

    def meant(self, node: Node | None) -> Node | None:
        """What a map renames where a path leads to this node; itself for most."""
        if node is None:
            return None
        crate = self.repository.crates.get(node.crate)
        if node.kind == "declared" and not node.path:
            return None
        if node.kind == "declared" and crate:
            if node.path in crate.sources:
                return Node("module", node.crate, node.path)
            return self.declared_type(crate, node)
        if node.kind == "proved" and crate:
            return self.proved_item(crate, node.path[:-1], node.path[-1])
        return node

    def spec_names(self, code: str) -> dict[str, Node]:
        """What each name that a text of specs imports stands for."""
        found: dict[str, Node] = {}
        for use in spec_uses(code):
            node = self.spec_path(use.segments)[-1]
            if node is None:
                continue
            for name, alias in use.listed:
                child = self.spec_child(node, name.name)
                if child:
                    found[(alias or name).name] = child
            if use.alias:
                found[use.alias.name] = node
        return found


def clauses(code: str) -> list[tuple[int, int]]:
    """The stretches of a source that are clauses or ghost texts, braces left out."""
    return [block_of(code, match.end()) for match in CLAUSE.finditer(code)]


def whole_names(code: str) -> Iterator[Segment]:
    """All names of a text."""
    for match in NAME.finditer(code):
        yield Segment(match[0], match.start(), match.end())


def spec_items(spec: Spec) -> dict[str, Node]:
    return spec.items
