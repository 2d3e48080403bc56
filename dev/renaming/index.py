"""The names of a repository: its crates, their modules and what these define."""
from __future__ import annotations

import re
from collections import defaultdict
from collections.abc import Iterator
from dataclasses import dataclass, field
from functools import cached_property
from pathlib import Path

from dev.renaming.texts import NAME, blanked

ROW = re.compile(r"(?P<name>\w+)(?P<words>(?: [\w=]+)*)\s*:(?P<libraries>[\w\s,]*)")
ITEM = re.compile(r"^(?:pub(?:\([^)]*\))? )?(?:final )?(?:const )?(?:unsafe )?"
                  r"(?P<kind>fn|struct|enum|trait|const|static|type) (?P<name>\w+)", re.M)
METHOD = re.compile(r"^    (?:pub(?:\([^)]*\))? )?(?:final )?(?:const )?fn (?P<name>\w+)", re.M)
FIELD = re.compile(r"^    (?:pub(?:\([^)]*\))? )?(?:ghost )?(?P<name>[a-z_]\w*):", re.M)
GHOST = re.compile(r"^    (?:pub )?ghost (?P<name>\w+)\s*[:=]", re.M)
CONSTANT = re.compile(r"^    (?:pub(?:\([^)]*\))? )?const (?P<name>[A-Z]\w*):", re.M)
VARIANT = re.compile(r"^    (?P<name>[A-Z]\w*)", re.M)
VARIANT_FIELD = re.compile(r"(?:^        |[{,] ?)(?P<name>[a-z_]\w*):", re.M)
IMPL = re.compile(r"^impl\b", re.M)
DEFINED = re.compile(r"^(?P<indent> *)(?P<words>(?:(?:pub|abbrev|unfoldable|opaque|data|record|"
                     r"ruleset|axiom|module)\s+)*)(?P<name>[A-Za-z_][\w'+-]*)"
                     r"(?P<behind>\s*[:({=]|)", re.M)
#: What binds a variable, in sources and in specs and proofs.
RUST_BINDERS = (re.compile(r"\blet\s+(?:mut\s+)?(\w+)"), re.compile(r"\b([a-z_]\w*)\s*:(?!:)"),
                re.compile(r"\|([^|\n]*)\|"), re.compile(r"\bfor\s+(\w+)\s+in"),
                re.compile(r"\b[A-Z]\w*[({]([^(){}\n]*)[)}]"))
SPEC_BINDERS = (re.compile(r"\blet\s+([\w'+-]+)"), re.compile(r"λ\s*([^.]*)\."),
                re.compile(r"[({]([^(){}:\n]*?)\s:"), re.compile(r"^ *[\w'+-]+ ([^:=\n]*) =", re.M),
                re.compile(r"[|\[] ?\S+ ([^|\n↦]*) ↦"))

Path_ = tuple[str, ...]


@dataclass(frozen=True)
class Node:
    """What a name stands for: a kind, a crate and a path below it.

    Kinds that a map renames are those of its entries. Beside them `root` is a crate's root module,
    `specs` and `proofs` are the roots of its libraries, `declared` is the place of a module's or a
    type's declarations, `variants` and `constants` are those of one, and `proved` is a folder of
    proofs.
    """

    kind: str
    crate: str
    path: Path_ = ()

    @property
    def name(self) -> str:
        return self.path[-1] if self.path else self.crate

    def below(self, kind: str, name: str) -> Node:
        return Node(kind, self.crate, (*self.path, name))

    def __str__(self) -> str:
        return f"{self.kind} {'/'.join((self.crate, *self.path))}"


@dataclass
class Source:
    """A file of code: what it defines."""

    path: Path
    module: Path_
    text: str
    code: str
    items: dict[str, Node] = field(default_factory=dict)
    #: The members of each type that this file defines or has an impl of: their kinds by names.
    members: dict[str, dict[str, str]] = field(default_factory=lambda: defaultdict(dict))
    variables: frozenset[str] = frozenset()


@dataclass
class Spec:
    """A file of specs or proofs: what it defines."""

    path: Path
    module: Path_
    text: str
    code: str
    items: dict[str, Node] = field(default_factory=dict)
    fields: set[str] = field(default_factory=set)
    variables: frozenset[str] = frozenset()


@dataclass
class Crate:
    """A crate with its files."""

    name: str
    words: str
    libraries: list[str]
    folder: Path
    sources: dict[Path_, Source] = field(default_factory=dict)
    specs: dict[Path_, Spec] = field(default_factory=dict)
    lemmas: dict[Path_, Spec] = field(default_factory=dict)


def block_of(code: str, begin: int) -> tuple[int, int]:
    """What stands in the braces that open first behind a place; nothing where `;` comes first."""
    at = begin
    while at < len(code) and code[at] not in "{;":
        at += 1
    if at >= len(code) or code[at] == ";":
        return at, at
    depth, inner = 0, at + 1
    while at < len(code):
        depth += (code[at] == "{") - (code[at] == "}")
        if depth == 0:
            return inner, at
        at += 1
    return inner, len(code)


def implemented(code: str, begin: int) -> str:
    """The type of an `impl`."""
    end = code.find("{", begin)
    head, depth, plain = code[begin + 4:end], 0, []
    for at, letter in enumerate(head):
        if letter == ">" and head[at - 1] in "-=":
            continue
        depth += letter == "<"
        if depth == 0:
            plain.append(letter)
        depth -= letter == ">"
    words = "".join(plain).split(" where ")[0]
    _, for_, behind = words.partition(" for ")
    names = re.findall(r"[A-Za-z_]\w*", behind if for_ else words)
    return str(names[-1]) if names else ""


def bound(code: str, binders: tuple[re.Pattern[str], ...]) -> frozenset[str]:
    """Names of variables, some too many."""
    found: set[str] = set()
    for binder in binders:
        for match in binder.finditer(code):
            found.update(NAME.findall(match[1]))
    return frozenset(found)


def read_source(crate: str, path: Path, module: Path_) -> Source:
    text = path.read_text()
    code = blanked(text, ".rt")
    source = Source(path, module, text, code, variables=bound(code, RUST_BINDERS))
    here = Node("module", crate, module)
    kinds = {"fn": "function", "const": "constant", "static": "constant"}
    for match in ITEM.finditer(code):
        kind, name = match["kind"], match["name"]
        source.items[name] = here.below(kinds.get(kind, "type"), name)
        if kind in ("struct", "enum", "trait"):
            begin, end = block_of(code, match.end())
            add_members(source, name, kind, code[begin:end])
    for match in IMPL.finditer(code):
        begin, end = block_of(code, match.end())
        name, body = implemented(code, match.start()), code[begin:end]
        members = source.members[name]
        members.update({it["name"]: "method" for it in METHOD.finditer(body)})
        members.update({it["name"]: "constant" for it in CONSTANT.finditer(body)})
        members.update({it["name"]: "ghost" for it in GHOST.finditer(body)
                        if it["name"] not in ("Value", "view", "invariant", "use")})
    return source


def add_members(source: Source, name: str, kind: str, body: str) -> None:
    """The variants, fields and methods of a type by its body."""
    members = source.members[name]
    if kind == "enum":
        members.update({it["name"]: "variant" for it in VARIANT.finditer(body)})
        members.update({it["name"]: "field" for it in VARIANT_FIELD.finditer(body)})
        return
    members.update({it["name"]: "field" for it in FIELD.finditer(body)})
    if kind == "trait":
        members.update({it["name"]: "method" for it in METHOD.finditer(body)})
        members.update({it["name"]: "ghost" for it in GHOST.finditer(body)})


def read_spec(crate: str, path: Path, module: Path_, kind: str) -> Spec:
    text = path.read_text()
    code = blanked(text, ".antt")
    spec = Spec(path, module, text, code, variables=bound(code, SPEC_BINDERS))
    record_indent: int | None = None
    for match in DEFINED.finditer(code):
        indent, words, name = len(match["indent"]), match["words"].split(), match["name"]
        if "module" in words:
            record_indent = None
            continue
        if not ({"record", "data", "ruleset"} & {*words} or match["behind"].strip() == ":"):
            continue
        if record_indent is not None and indent > record_indent:
            spec.fields.add(name)
            continue
        record_indent = indent if "record" in words else None
        if name not in ("use", "module", "let", "open", "elim"):
            spec.items[name] = Node(kind, crate, (*module, name))
    return spec


class Repository:
    """The crates of a repository, read whole."""

    def __init__(self, root: Path) -> None:
        self.root = root
        self.crates: dict[str, Crate] = {}
        for line in (root / "crates.txt").read_text().splitlines():
            row = ROW.fullmatch(line.partition("#")[0].strip())
            if row:
                self.crates[row["name"]] = self.read_crate(row)

    def read_crate(self, row: re.Match[str]) -> Crate:
        name = row["name"]
        folder = self.root / "crates" / name
        crate = Crate(name, row["words"], row["libraries"].replace(",", " ").split(), folder)
        for path in sorted((folder / "src").rglob("*.rt")):
            parts = path.relative_to(folder / "src").with_suffix("").parts
            module = () if parts in (("lib",), ("main",)) else parts
            crate.sources[module] = read_source(name, path, module)
        for part, found, kind in (("specs", crate.specs, "definition"),
                                  ("proofs", crate.lemmas, "lemma")):
            for path in sorted((folder / part).rglob("*.antt")):
                module = path.relative_to(folder / part).with_suffix("").parts
                found[module] = read_spec(name, path, module, kind)
        return crate

    @cached_property
    def below(self) -> dict[str, set[str]]:
        """Each crate with all own crates below it, itself among them."""
        found: dict[str, set[str]] = {}

        def of(name: str) -> set[str]:
            if name not in found:
                found[name] = {name}
                for it in self.crates[name].libraries:
                    if it in self.crates:
                        found[name] |= of(it)
            return found[name]

        for name in self.crates:
            of(name)
        return found

    @cached_property
    def above(self) -> dict[str, set[str]]:
        """Each crate with all crates that stand on it, itself among them."""
        return {name: {it for it, below in self.below.items() if name in below}
                for name in self.crates}

    def member_nodes(self, crate: Crate) -> Iterator[Node]:
        """The variants, fields and methods of a crate's types."""
        for source in crate.sources.values():
            for owner, members in source.members.items():
                for name, kind in members.items():
                    yield Node(kind, crate.name, (*source.module, owner, name))

    @cached_property
    def definers(self) -> dict[str, set[Node]]:
        """What bears each name, in all crates: items, members, fields of specs, modules."""
        found: dict[str, set[Node]] = defaultdict(set)
        for crate in self.crates.values():
            found[crate.name].add(Node("crate", crate.name))
            for source in crate.sources.values():
                for name, node in source.items.items():
                    found[name].add(node)
                if source.module:
                    found[source.module[-1]].add(Node("module", crate.name, source.module))
            for node in self.member_nodes(crate):
                found[node.name].add(node)
            for specs in (crate.specs, crate.lemmas):
                for module, spec in specs.items():
                    if specs is crate.lemmas and len(module) > 1:
                        continue
                    for name, node in spec.items.items():
                        found[name].add(node)
                    for name in spec.fields:
                        found[name].add(Node("field", crate.name, (*module, name)))
        return found

    @cached_property
    def variables(self) -> dict[str, set[str]]:
        """The crates that have a variable of each name, some too many."""
        found: dict[str, set[str]] = defaultdict(set)
        for crate in self.crates.values():
            for source in crate.sources.values():
                for name in source.variables:
                    found[name].add(crate.name)
            for spec in (*crate.specs.values(), *crate.lemmas.values()):
                for name in spec.variables:
                    found[name].add(crate.name)
        return found
