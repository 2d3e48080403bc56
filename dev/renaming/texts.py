"""What a text consists of: code, comments and quoted text; and the names in it."""
from __future__ import annotations

import re
from collections.abc import Iterator
from dataclasses import dataclass
from enum import Enum

#: A whole name of code. Names of proofs join several words by `-` and `+`.
NAME = re.compile(r"[A-Za-z_][\w']*(?:[-+][\w']+)*")
#: One word of a name, as a map has it.
WORD = re.compile(r"[A-Za-z_]\w*")
JOINTS = re.compile(r"([-+])")
#: In a source of Rattle: a comment, a text, a raw text, a letter, a lifetime.
IN_SOURCE = re.compile(
    r"""(?P<comment>//[^\n]*)
      | (?P<quoted>b?"(?:[^"\\]|\\.)*" | b?r(?P<hashes>\#*)".*?"(?P=hashes)
        | b?'(?:[^'\\\n]|\\[^\n]{1,8}?)')
      | (?P<lifetime>'[A-Za-z_]\w*)""", re.X | re.S)
IN_SPECS = re.compile(r"(?P<comment>(?:(?<=\s)|^)--[^\n]*|\{-.*?-\})", re.M | re.S)
CITED = re.compile(r"`([^`\n]+)`")


class Region(Enum):
    """What a stretch of a text is."""

    CODE = "code"
    COMMENT = "comment"
    QUOTED = "quoted"


@dataclass(frozen=True)
class Stretch:
    """A stretch of a text, from a character up to another, and what it is."""

    begin: int
    end: int
    region: Region


def stretches(text: str, suffix: str) -> Iterator[Stretch]:
    """The stretches of a source (`.rt`) or of specs or proofs (`.antt`), in order."""
    pattern = IN_SPECS if suffix == ".antt" else IN_SOURCE
    at = 0
    for match in pattern.finditer(text):
        groups = match.groupdict()
        if groups.get("lifetime"):
            continue
        if at < match.start():
            yield Stretch(at, match.start(), Region.CODE)
        region = Region.COMMENT if groups.get("comment") else Region.QUOTED
        yield Stretch(match.start(), match.end(), region)
        at = match.end()
    if at < len(text):
        yield Stretch(at, len(text), Region.CODE)


def blanked(text: str, suffix: str) -> str:
    """The text with spaces in place of each comment and quoted text; its lines and length stay."""
    parts = [text[it.begin:it.end] if it.region is Region.CODE
             else re.sub(r"[^\n]", " ", text[it.begin:it.end])
             for it in stretches(text, suffix)]
    return "".join(parts)


def line_of(text: str, at: int) -> int:
    """The number of the line in which a character stands, from 1."""
    return text.count("\n", 0, at) + 1


@dataclass(frozen=True)
class Edit:
    """A stretch of a text that gets another text."""

    begin: int
    end: int
    new: str


def edited(text: str, edits: list[Edit]) -> str:
    """The text with its edits made. Equal edits of one stretch count once."""
    parts, at = [], 0
    for edit in sorted(set(edits), key=lambda it: (it.begin, it.end)):
        if edit.begin < at:
            raise ValueError(f"two edits of one stretch: {text[edit.begin:edit.end]!r}")
        parts += [text[at:edit.begin], edit.new]
        at = edit.end
    parts.append(text[at:])
    return "".join(parts)
