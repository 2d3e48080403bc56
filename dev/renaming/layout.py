"""Breaks the lines that new names made wider than the house's columns."""
from __future__ import annotations

import re

COLUMNS = 100
COMMENT = re.compile(r"^(?P<front> *(?://[/!]?|--) )(?P<text>.*)$")
USE_LIST = re.compile(r"^(?P<indent> *)(?P<head>(?:pub )?(?:ghost )?use Rattle\.[^{]*\{)"
                      r"(?P<names>[^{}]*)\}(?P<end>;?)$")
#: What begins a new paragraph in a comment.
BEGINS = re.compile(r"^(?:[-*|#] |\d+\. |```|$|    )")
OPENING, CLOSING = "([{", ")]}"


def broken(text: str, suffix: str) -> str:
    """The text of a source, or of specs or proofs, with its wide lines broken.

    Lists of imports get a name a line, comments are filled anew from the wide line to the end of
    their paragraph, and other wide lines of clauses and specs are broken at a space. Code that is
    no clause is left to `rt fmt`.
    """
    lines, found, at = text.split("\n"), [], 0
    is_source = suffix == ".rt"
    while at < len(lines):
        line = lines[at]
        match = COMMENT.match(line)
        if len(line) <= COLUMNS:
            found.append(line)
        elif match:
            end = paragraph_end(lines, at, match["front"])
            found += filled(lines[at:end], match["front"])
            at = end
            continue
        elif USE_LIST.match(line):
            found += listed(line)
        elif not is_source or is_clause(line):
            found += split(line)
        else:
            found.append(line)
        at += 1
    return "\n".join(found)


def is_clause(line: str) -> bool:
    """Whether a line of a source is one of a clause: it has an operator of specs."""
    return bool(re.match(r" *(?:requires|ensures|ghost)\b", line)) or any(
        it in line for it in "≡≤≢→λ×⊎↔∷◌") or not re.search(r"[;,{]$", line)


def paragraph_end(lines: list[str], at: int, front: str) -> int:
    """The line behind the paragraph of a comment."""
    end = at + 1
    while end < len(lines) and lines[end].startswith(front) \
            and not BEGINS.match(lines[end][len(front):]):
        end += 1
    return end


def filled(lines: list[str], front: str) -> list[str]:
    """A paragraph of a comment, filled anew."""
    found, row = [], front
    for word in " ".join(line[len(front):] for line in lines).split():
        if row != front and len(row) + len(word) > COLUMNS:
            found.append(row.rstrip())
            row = front
        row += word + " "
    return [*found, row.rstrip()]


def listed(line: str) -> list[str]:
    """An import with a name a line."""
    match = USE_LIST.match(line)
    assert match is not None
    indent = match["indent"]
    names = [it.strip() for it in match["names"].split(",") if it.strip()]
    return [indent + match["head"], *(f"{indent}  {it}," for it in names),
            f"{indent}}}{match['end']}"]


def split(line: str) -> list[str]:
    """A line, broken at the space of least depth among the last that fit."""
    indent = len(line) - len(line.lstrip(" "))
    rest, found = line, []
    deeper = indent + 4
    while len(rest) > COLUMNS:
        least = len(rest) - len(rest.lstrip(" ")) + 24
        spots = [at for at, letter in enumerate(rest[:COLUMNS + 1])
                 if letter == " " and at > least and not rest[at + 1:].startswith(("in ", "∙ "))]
        if not spots:
            break
        best = min(spots, key=lambda at: (depth(rest[:at]) * 12 - at, -at))
        found.append(rest[:best])
        rest = " " * deeper + rest[best + 1:].lstrip(" ")
    return [*found, rest]


def depth(text: str) -> int:
    """How many brackets are open at the end of a text."""
    return sum((it in OPENING) - (it in CLOSING) for it in text)
