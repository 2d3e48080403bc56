"""Renames in code, specs and proofs, and in the names and the edits of their files."""
from __future__ import annotations

import re
from collections import Counter, defaultdict
from dataclasses import dataclass, field

from dev.renaming.index import (IMPL, ITEM, Crate, Node, Repository, Source, Spec,
                            block_of, implemented)
from dev.renaming.maps import Entry, Kind
from dev.renaming.names import Names, Segment, clauses, source_leaves, spec_uses, whole_names
from dev.renaming.targets import Targets
from dev.renaming.texts import CITED, JOINTS, WORD, Edit, Region, blanked, stretches

INLINE = re.compile(r"[A-Za-z_]\w*(?:::(?:<[^<>()]*>::)?[A-Za-z_]\w*)+")
#: What follows the name of a call in a proof.
STEP_FIELDS = re.compile(r"\.(?:ensures|result|requires|new|auto|type_inv|lifetimes|follows|"
                         r"closed|row|args|ghost|In-|After-)")
METHOD_HEAD = re.compile(r"(?:^|\n) {4,}[a-z()]*(?: [a-z]+)* ?\bfn $")
HUMPS = re.compile(r"[A-Z][a-z0-9]+[A-Z]\w*|\w*[a-z0-9]_\w+")
MEMBERS = ("variant", "method", "field", "ghost", "constant")
MODULE_LIKE = ("variants", "constants", "spec", "lemmas", "specs", "proofs", "type", "declared")


@dataclass
class Context:
    """A file, or a piece of one, and what names stand for there."""

    crate: Crate
    path: str
    suffix: str
    source: Source | None = None
    code_names: dict[str, Node] = field(default_factory=dict)
    spec_names: dict[str, Node] = field(default_factory=dict)
    #: The source of the function that the file proves; None for other files.
    proved: Source | None = None
    proved_names: dict[str, Node] = field(default_factory=dict)
    #: Where names of crates and files stand, which are names in paths alone.
    file_names: set[int] = field(default_factory=set)


@dataclass
class Place:
    """A file and a line, for a report."""

    path: str
    line: int

    def __str__(self) -> str:
        return f"{self.path}:{self.line}"


class CodeRenamer:
    """Renames in the files of crates."""

    def __init__(self, repository: Repository, names: Names, targets: Targets) -> None:
        self.repository, self.names, self.targets = repository, names, targets
        #: In each file, how often each word stands, and how often it was renamed to which.
        self.words: dict[str, Counter[str]] = defaultdict(Counter)
        self.renamed: dict[str, Counter[tuple[str, str]]] = defaultdict(Counter)

    # Contexts.

    def source_context(self, crate: Crate, source: Source) -> Context:
        return Context(crate, self.relative(source), ".rt", source,
                       self.names.source_names(crate, source),
                       self.names.spec_names(source.code))

    def spec_context(self, crate: Crate, spec: Spec, is_proof: bool) -> Context:
        found = self.names.spec_names(spec.code)
        context = Context(crate, self.relative(spec), ".antt", spec_names=found)
        if is_proof and len(spec.module) > 1:
            context.proved = self.proved_source(crate, spec)
            if context.proved:
                context.proved_names = self.names.source_names(crate, context.proved)
        else:
            for name, node in spec.items.items():
                found.setdefault(name, node)
        return context

    def proved_source(self, crate: Crate, spec: Spec) -> Source | None:
        for end in range(len(spec.module) - 1, -1, -1):
            if spec.module[:end] in crate.sources:
                return crate.sources[spec.module[:end]]
        return None

    def relative(self, file: Source | Spec) -> str:
        return file.path.relative_to(self.repository.root).as_posix()

    # Names.

    def entry_of(self, node: Node | None) -> Entry | None:
        meant = self.names.meant(node)
        if meant is None:
            return None
        if meant.kind == "module" and not meant.path:
            meant = Node("crate", meant.crate)
        return self.targets.by_node.get(meant)

    def impl_name(self, node: Node) -> str | None:
        """The new name of an impl of a trait, or None where it keeps its own."""
        owner_node, owner, trait = self.names.impl_parts(node)
        entry = self.entry_of(owner_node)
        traits = [it for it in self.repository.definers.get(trait, ()) if it.kind == "type"]
        trait_entry = next((self.targets.by_node[it] for it in traits
                            if it in self.targets.by_node), None)
        names = [entry.new_word if entry else owner,
                 trait_entry.new_word if trait_entry else trait]
        return "".join(names) if names != [owner, trait] else None

    def new_of(self, node: Node | None, context: Context) -> str | None:
        """The new name of what a name stands for, counted; None where it keeps its own."""
        meant = self.names.meant(node)
        if meant is not None and meant.kind == "impl":
            return self.impl_name(meant)
        entry = self.entry_of(node) or (self.word_entry(meant) if meant else None)
        return self.use(entry, context) if entry else None

    def word_entry(self, node: Node) -> Entry | None:
        """The entry for all words of the files in which something is defined."""
        entries = self.targets.words.get(node.name)
        if not entries or node.kind in ("module", "crate", "spec", "lemmas", "declared", "proved"):
            return None
        path = self.defining_path(node)
        return next((it for it in entries
                     if path and self.targets.is_in(it, node.crate, path)), None)

    def defining_path(self, node: Node) -> str | None:
        """The file that defines something, below the repository."""
        crate = self.repository.crates.get(node.crate)
        for end in range(len(node.path) - 1, -1, -1) if crate else ():
            assert crate is not None
            module = node.path[:end]
            found: Source | Spec | None = (crate.sources.get(module) or crate.specs.get(module)
                                           or crate.lemmas.get(module))
            if found:
                return self.relative(found)
        return None

    def use(self, entry: Entry, context: Context) -> str:
        entry.count(context.path)
        return entry.new_word

    def by_word(self, word: str, context: Context) -> str | None:
        """The new name of a word by an entry for all words of a file, or where it is alone."""
        for entry in self.targets.words.get(word, ()):
            if self.targets.is_in(entry, context.crate.name, context.path):
                return self.use(entry, context)
        entry_alone = self.targets.lone(word, context.crate.name)
        return self.use(entry_alone, context) if entry_alone else None

    # Texts.

    def edits(self, text: str, context: Context) -> list[Edit]:
        """All renames in a text of a file."""
        code = blanked(text, context.suffix)
        context.file_names.clear()
        found: dict[tuple[int, int], str] = {}
        seen: set[int] = set()
        if context.suffix == ".rt":
            self.source_uses(code, context, found, seen)
            self.inline_paths(code, context, found, seen)
        self.spec_uses(code, context, found, seen)
        areas = clauses(code) if context.suffix == ".rt" else [(0, len(code))]
        for segment in whole_names(code):
            self.note_words(segment.name, context)
            if segment.begin not in seen:
                in_clause = any(begin <= segment.begin < end for begin, end in areas)
                self.plain(code, segment, in_clause, context, found, seen)
        for (begin, end), new in found.items():
            if begin not in context.file_names:
                self.note_renamed(text[begin:end], new, context)
        edits = [Edit(begin, end, new) for (begin, end), new in found.items()]
        for stretch in stretches(text, context.suffix):
            if stretch.region is Region.COMMENT:
                edits += self.comment(text[stretch.begin:stretch.end], stretch.begin, context)
        return edits

    def note_words(self, name: str, context: Context) -> None:
        self.words[context.path].update(WORD.findall(name))

    def note_renamed(self, old: str, new: str, context: Context) -> None:
        pairs = zip(JOINTS.split(old), JOINTS.split(new))
        self.renamed[context.path].update((it, other) for it, other in pairs if it != other)

    def source_uses(self, code: str, context: Context, found: dict[tuple[int, int], str],
                    seen: set[int]) -> None:
        if context.source is None:
            return
        for leaf in source_leaves(code):
            self.path(leaf.segments, self.names.source_path(context.crate, context.source,
                                                            leaf.segments), context, found, seen)

    def path(self, segments: tuple[Segment, ...], nodes: list[Node | None], context: Context,
             found: dict[tuple[int, int], str], seen: set[int]) -> None:
        """A path whose names stand for these nodes. What leads into the kit stays."""
        for segment, node in zip(segments, nodes):
            if segment.begin in seen:
                continue
            if segment.name in ("crate", "self", "super"):
                seen.add(segment.begin)
                continue
            new = self.new_of(node, context)
            if new:
                found[segment.begin, segment.end] = new
                self.note_file(segment, node, context)
            if new or nodes[0] is None or (node and node.kind not in MEMBERS):
                seen.add(segment.begin)

    def note_file(self, segment: Segment, node: Node | None, context: Context) -> None:
        meant = self.names.meant(node)
        if meant and meant.kind in ("crate", "module", "spec", "lemmas"):
            context.file_names.add(segment.begin)

    def inline_paths(self, code: str, context: Context, found: dict[tuple[int, int], str],
                     seen: set[int]) -> None:
        if context.source is None:
            return
        for match in INLINE.finditer(code):
            segments = tuple(Segment(it[0], match.start() + it.start(), match.start() + it.end())
                             for it in re.finditer(r"(?<![<\w])[A-Za-z_]\w*(?=::|$)", match[0]))
            if not segments or segments[0].begin in seen:
                continue
            nodes = self.names.source_path(context.crate, context.source, segments)
            if segments[0].name == "Self":
                nodes = self.own_path(code, segments, context)
            if nodes[0] is not None:
                self.path(segments, nodes, context, found, seen)

    def variant_at(self, code: str, segment: Segment, context: Context) -> Node | None:
        """The variant that is defined at a place of a source."""
        for match in ITEM.finditer(code, 0, segment.begin):
            if match["kind"] == "enum":
                begin, end = block_of(code, match.end())
                owner = context.code_names.get(match["name"])
                if begin <= segment.begin < end and owner:
                    return self.names.member(owner, segment.name)
        return None

    def method_at(self, code: str, segment: Segment, context: Context) -> Node | None:
        """The method that is defined at a place of a source."""
        owner = self.own_type(code, segment, context)
        return self.names.member(owner, segment.name) if owner else None

    def own_type(self, code: str, segment: Segment, context: Context) -> Node | None:
        """The type of the last impl, or the trait, before a place."""
        before = [(it.start(), implemented(code, it.start()))
                  for it in IMPL.finditer(code, 0, segment.begin)]
        before += [(it.start(), it["name"]) for it in ITEM.finditer(code, 0, segment.begin)
                   if it["kind"] == "trait"]
        owner = context.code_names.get(max(before)[1]) if before else None
        return owner if owner and owner.kind == "type" else None

    def own_path(self, code: str, segments: tuple[Segment, ...],
                 context: Context) -> list[Node | None]:
        """A path that begins with `Self`: the type of the last impl before it."""
        owner = self.own_type(code, segments[0], context)
        nodes: list[Node | None] = [Node("self", context.crate.name)]
        if len(segments) > 1:
            nodes.append(self.names.member(owner, segments[1].name) if owner else None)
        return nodes + [None] * (len(segments) - len(nodes))

    def spec_uses(self, code: str, context: Context, found: dict[tuple[int, int], str],
                  seen: set[int]) -> None:
        for use in spec_uses(code):
            nodes = self.names.spec_path(use.segments)
            for segment, node in zip(use.segments, nodes):
                new = self.new_of(node, context) if node and node.kind != "logic" else None
                if new:
                    plus = "+" if segment.name.startswith("+") else ""
                    found[segment.begin, segment.end] = plus + new
                    self.note_file(segment, node, context)
                seen.add(segment.begin)
                seen.add(segment.begin + len(segment.name) - len(segment.name.lstrip("+")))
            is_goals = use.segments[-1].name in ("Goals", "Given")
            for name, _ in use.listed:
                if is_goals:
                    self.derived(code, name, context, found)
                else:
                    child = self.names.spec_child(nodes[-1], name.name)
                    new = self.new_of(child, context)
                    if new:
                        found[name.begin, name.end] = new
                seen.add(name.begin)

    def plain(self, code: str, segment: Segment, in_clause: bool, context: Context,
              found: dict[tuple[int, int], str], seen: set[int]) -> None:
        """A name that no path led to."""
        node = self.meant_by(code, segment, in_clause, context)
        if node and in_clause and node.kind in MODULE_LIKE:
            self.chained(code, segment, node, context, found, seen)
        # Else it is a variable, a member or a step; or the name that the file gives an import.
        is_named = node is not None and node.name == segment.name and (
            node.kind != "function" or self.is_call(code, segment, context))
        new = self.new_of(node, context) if is_named else None
        if new:
            found[segment.begin, segment.end] = new
        elif node is None or not is_named or node.kind in MEMBERS:
            self.derived(code, segment, context, found)

    def meant_by(self, code: str, segment: Segment, in_clause: bool,
                 context: Context) -> Node | None:
        """What a name that no path led to stands for; None for variables and members."""
        begin, source = segment.begin, context.source
        if code[begin - 1:begin] == "." or code[begin - 2:begin] == "::":
            return None
        if source and code[begin - 5:begin] == "\n    ":
            variant = self.variant_at(code, segment, context)
            if variant:
                return variant
        if source and METHOD_HEAD.search(code[max(0, begin - 60):begin]):
            return self.method_at(code, segment, context)
        if not source and code[max(0, begin - 8):begin] == "pub mod ":
            kind = "spec" if "/specs/" in context.path else "lemmas"
            return Node(kind, context.crate.name, (segment.name,))
        node = (context.spec_names if in_clause else context.code_names).get(segment.name)
        if source and node is None and code[max(0, begin - 4):begin] == "mod ":
            return Node("module", context.crate.name, (*source.module, segment.name))
        return node

    def chained(self, code: str, segment: Segment, node: Node, context: Context,
                found: dict[tuple[int, int], str], seen: set[int]) -> None:
        """The name behind the dot of a module's name or a type's, as the variant of `E.V`."""
        match = re.compile(r"\.([A-Za-z_][\w'+-]*)").match(code, segment.end)
        if not match:
            return
        child = (self.names.member(node, match[1]) if node.kind == "type"
                 else self.names.spec_child(node, match[1]))
        new = self.new_of(child, context)
        if new:
            found[match.start(1), match.end(1)] = new
        if child:
            seen.add(match.start(1))

    def is_call(self, code: str, segment: Segment, context: Context) -> bool:
        """Whether a name is surely that of a function, and not of a variable."""
        behind = code[segment.end:segment.end + 3]
        return (behind.startswith(("(", "::")) or code[:segment.begin].endswith("fn ")
                or context.source is None or segment.name not in context.source.variables)

    def derived(self, code: str, segment: Segment, context: Context,
                found: dict[tuple[int, int], str]) -> None:
        """A name of a step, a goal or a member: each of its words by itself."""
        parts = JOINTS.split(segment.name)
        new = [part if at % 2 else self.part(code, segment, parts, at, context) or part
               for at, part in enumerate(parts)]
        if new != parts:
            found[segment.begin, segment.end] = "".join(new)

    def part(self, code: str, segment: Segment, parts: list[str], at: int,
             context: Context) -> str | None:
        word = parts[at]
        new = self.by_word(word, context)
        if new or not context.proved:
            return new
        if word[:1].isupper():
            return self.variant_part(word, context)
        node = context.proved_names.get(word)
        if node is None or node.kind != "function":
            return None
        if word in context.proved.variables:
            before, behind = parts[:at][-2:-1], parts[at + 1:][1:2]
            is_step = (before in (["in_ok"], ["in_err"]) or behind == ["requires"]
                       or (len(parts) == 1 and STEP_FIELDS.match(code, segment.end)))
            if not is_step:
                return None
        return self.new_of(node, context)

    def variant_part(self, word: str, context: Context) -> str | None:
        """The new name of a variant in the name of a step, by the types that its source names."""
        types = [it for it in context.proved_names.values() if it.kind == "type"]
        found = {it for it in (self.names.member(owner, word) for owner in types)
                 if it and it.kind == "variant"}
        new = {self.entry_of(it) for it in found}
        if len({it and it.new_word for it in new}) == 1:
            entry = new.pop()
            return self.use(entry, context) if entry else None
        return None

    # Comments.

    def comment(self, text: str, begin: int, context: Context) -> list[Edit]:
        """The names that a comment cites: in backticks, or words that only code has."""
        spans = [(it.start(1), it.end(1)) for it in CITED.finditer(text)]
        edits = []
        for match in WORD.finditer(text):
            is_cited = any(low <= match.start() < high for low, high in spans)
            if is_cited or HUMPS.fullmatch(match[0]):
                new = self.cited(match[0], context, is_cited)
                if new:
                    edits.append(Edit(begin + match.start(), begin + match.end(), new))
        return edits

    def cited(self, word: str, context: Context, is_cited: bool) -> str | None:
        for names in (context.code_names, context.spec_names, context.proved_names):
            node = names.get(word)
            if node:
                new = self.new_of(node, context)
                if new:
                    return new
        if is_cited or HUMPS.fullmatch(word):
            new = self.by_word(word, context)
            if new:
                return new
        own = {self.targets.by_node.get(it) for it in self.repository.definers.get(word, ())
               if it.crate == context.crate.name}
        words = {it and it.new_word for it in own}
        if len(words) == 1 and None not in own:
            entry = next(iter(own))
            return self.use(entry, context) if entry else None
        return None

    # Files.

    def new_path(self, path: str) -> str:
        """The path of a file by the new names. Beside crates/ folders may be called like crates."""
        parts = path.split("/")
        if parts[0] != "crates":
            entries = [self.targets.by_node.get(Node("crate", it)) for it in parts]
            return "/".join(entry.new if entry else it for it, entry in zip(parts, entries))
        if len(parts) < 4 or parts[1] not in self.repository.crates:
            return path
        crate = self.repository.crates[parts[1]]
        entry = self.targets.by_node.get(Node("crate", crate.name))
        head = [parts[0], entry.new if entry else crate.name, parts[2]]
        return "/".join(head + self.below(crate, parts[2], parts[3:]))

    def below(self, crate: Crate, part: str, names: list[str]) -> list[str]:
        found: list[str] = []
        path: tuple[str, ...] = ()
        for name in names:
            stem, dot, suffix = name.partition(".")
            plain = stem.lstrip("+")
            if part == "specs" or (part == "proofs" and dot and not path):
                kind = "spec" if part == "specs" else "lemmas"
                node: Node | None = Node(kind, crate.name, (plain,))
            elif part == "src":
                node = Node("module", crate.name, (*path, plain))
            elif part == "must-fail":
                found.append(self.edit_name(crate, plain) + dot + suffix)
                continue
            else:
                node = self.names.proved_item(crate, path, plain)
            new = None
            if node and node.kind == "impl":
                new = self.impl_name(node)
            else:
                entry = self.targets.by_node.get(node) if node else None
                new = entry.new_word if entry else None
                if new is None and node:
                    other = self.word_entry(node) or (
                        self.targets.lone(plain, crate.name) if node.kind in MEMBERS else None)
                    new = other.new_word if other else None
            found.append(stem[:len(stem) - len(plain)] + (new or plain) + dot + suffix)
            path = (*path, plain)
        return found

    def edit_name(self, crate: Crate, name: str) -> str:
        for entry in self.targets.entries:
            if entry.kind is Kind.EDIT and entry.old == name and \
                    self.targets.old_crate(entry.crate) in (crate.name, "*"):
                entry.count(f"crates/{crate.name}/must-fail")
                return entry.new
        return name
