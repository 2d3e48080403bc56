"""Tries dev/house on a small repository, whose counts were made by hand.

    PYTHONPATH=python python3 -m tests.test_house
"""
from __future__ import annotations

import subprocess
import sys
import tempfile
from pathlib import Path

from tests.cases import Cases

REPOSITORY = Path(__file__).resolve().parent.parent


KIT = " ".join(f"kit_{number}" for number in range(11))
# A chain of four: lowest, middle, program, bench. The program names 13 libraries, the bench 14.
CRATES = f"""# the crates
lowest: thiserror
middle: lowest
program may_wait=2: middle lowest {KIT}
bench: program middle lowest {KIT}  # names all
"""
# Columns are characters: λ is one. The comment in line 2 has 101, the import in line 6 has 105, and
# line 3 has 100 in 107 bytes. `many` has nine parameters, the comma of a comment and those within
# brackets passed over; `eight` has eight, with `self`.
LOWEST = "\n".join([
    "//! The lowest crate.",
    "// " + "a" * 98,
    "// " + "λ" * 7 + "b" * 90,
    "pub const TURNS: u64 = 400_000;",
    "const MOST_BYTES: usize = 67_108_864;",
    "ghost use Rattle.std.specs." + "Prelude" * 9 + ".{length, map};",
    "pub fn many<F: Fn(u8, u8) -> u8>(",
    "    a: u8, b: u8, c: u8, d: u8, e: u8, f: u8, // with a comment, and a comma",
    "    g: Vec<(u8, u8)>, h: [u8; 16], close: F,",
    ") -> u8 { a }",
    "pub fn eight<F: Fn(u8, u8) -> u8>(&self, a: u8, b: u8, c: u8, d: u8, e: u8, f: u8, g: F) {}",
    "fn none() -> u64 { 400000 } // 400000",
    'fn told() -> &str { "limit file 67108865" }',
    "fn known() -> bool { TURNS == 400_000 }",
    "fn other() -> u64 { 400000_u64 + b16 + x.16 + 4000001 }",
    "",
])
# Two attributes name `test`; a comment, a text, a function and a longer word do not. The constant of
# the number in `own` is private to the lowest crate.
MIDDLE = "\n".join([
    "fn above() -> u64 { 400_000 }",
    "#[cfg(test)]",
    "mod tests;",
    "// #[test]",
    'fn test() -> &str { "a test" }',
    "#[derive(Debug)]",
    "#[latest]",
    "    #[test] fn shows() {}",
    "fn own() -> u64 { 67_108_865 }",
    "",
])
# `IsWide` has eleven parameters, two of them of one group, and what stands in braces not counted;
# `IsLong` has eleven, over two lines; `IsTen` and `IsRecord` have ten and twelve; `counts` is no
# relation.
SPECS = "\n".join([
    "-- What is so.",
    "abbrev pub IsWide : {A B : Type 0} → (a b : A) → A → A → A → A → A → A → A → (A → A → A) → A",
    "    → Type 0",
    "IsWide a b c d e f g h i j k = ⊥",
    "",
    "IsLong : List (ℕ × ℕ) → A → A → A → A → A → A → A → A → A",
    "    -- the last",
    "    → A → Type 0",
    "abbrev pub IsTen : A → A → A → A → A → A → A → A → A → (A → Type 0) → Type 0",
    "pub record IsRecord {A : Type 0} (a b c d e f : A) (g : A → Type 0)",
    "    (h i j k l : List (A × A)) : Type 0 where",
    "  pub one : (m n : A) → A → A → A → A → A → A → A → A → A → A → Type 0",
    "pub counts : A → A → A → A → A → A → A → A → A → A → A → A → ℕ",
    "",
])
LISTED = """crates: 4, of the product 3
longest chain: 4: lowest, middle, program, bench
crates with more than 12 libraries: 2
    bench 14
    program 13
lines of more than 100 columns: 2
tests proved inside crates: 2
functions with more than 8 parameters: 1
    crates/lowest/src/lib.rt:7: 9 many
relations with more than 10 parameters: 3
    crates/lowest/specs/Lib.antt:10: 12 IsRecord
    crates/lowest/specs/Lib.antt:2: 11 IsWide
    crates/lowest/specs/Lib.antt:6: 11 IsLong
bare numbers: 3
"""
SPOTS = [
    "    crates/lowest/src/lib.rt:2: 101 // " + "a" * 98,
    "    crates/lowest/src/lib.rt:6: 105 ghost use",
    "    crates/middle/src/lib.rt:2: #[cfg(test)]",
    "    crates/middle/src/lib.rt:8: #[test] fn shows() {}",
    "    crates/lowest/src/lib.rt:12: fn none() -> u64 { 400000 }  (TURNS)",
    '    crates/lowest/src/lib.rt:13: fn told() -> &str { "limit file 67108865" }  (MOST_BYTES)',
    "    crates/middle/src/lib.rt:1: fn above() -> u64 { 400_000 }  (TURNS)",
]
# crates in which a number is none of the constants of that value
OTHERS = {"entry_codec": "16", "json_fields": "16", "command_files": "67108865"}
# each option with what is counted, and how the line over its limit begins
LIMITS = [
    ("--most-crates", 3, "crates of the product"),
    ("--longest-chain", 4, "crates of the longest chain"),
    ("--most-dependencies", 14, "libraries of a crate"),
    ("--wide-lines", 2, "wide lines"),
    ("--most-tests", 2, "tests proved inside crates"),
    ("--most-parameters", 9, "parameters of a function"),
    ("--most-relation-parameters", 12, "parameters of a relation"),
    ("--bare-numbers", 3, "bare numbers"),
]


def made(root: Path) -> None:
    """Writes the repository."""
    (root / "crates.txt").write_text(CRATES)
    for name in ("lowest", "middle", "program", "bench"):
        for part in ("src", "specs"):
            (root / "crates" / name / part).mkdir(parents=True)
        (root / "crates" / name / "src/lib.rt").write_text("//! A crate.\n")
    (root / "crates/lowest/src/lib.rt").write_text(LOWEST)
    (root / "crates/lowest/specs/Lib.antt").write_text(SPECS)
    (root / "crates/middle/src/lib.rt").write_text(MIDDLE)
    # what is no part of a crate's src and specs is not looked at
    (root / "crates/lowest/proofs").mkdir()
    (root / "crates/lowest/proofs/Lib.antt").write_text("-- " + "c" * 200 + "\n")


def bare_numbers(number: str, name: str) -> str:
    """The count of bare numbers where a crate of this name has a number for which the crate below
    it has a constant."""
    with tempfile.TemporaryDirectory() as folder:
        root = Path(folder)
        (root / "crates.txt").write_text(f"lowest: thiserror\n{name}: lowest\n")
        for crate, line in [("lowest", f"pub const MOST: u64 = {number};\n"),
                            (name, f"fn own() -> u64 {{ {number} }}\n")]:
            (root / "crates" / crate / "src").mkdir(parents=True)
            (root / "crates" / crate / "src/lib.rt").write_text(line)
        return told_of(root)[1].splitlines()[-1]


def told_of(root: Path, *words: str) -> tuple[int, str]:
    """The exit status of the tool for a repository, and what it tells."""
    done = subprocess.run([sys.executable, "-B", str(REPOSITORY / "dev/house"), "--root",
                           str(root), *words], capture_output=True, text=True)
    return done.returncode, done.stdout + done.stderr


def main() -> int:
    cases = Cases()
    for name, number in OTHERS.items():
        cases.equal(f"{number} in {name}", "bare numbers: 0", bare_numbers(number, name))
        cases.equal(f"{number} elsewhere", "bare numbers: 1", bare_numbers(number, "elsewhere"))
    with tempfile.TemporaryDirectory() as folder:
        root = Path(folder)
        made(root)

        def house(*words: str, program: str = "program") -> tuple[int, str]:
            return told_of(root, "--program", program, *words)

        cases.equal("counts without limits", (0, LISTED), house())
        status, told = house("--lines")
        cases.equal("the status with each line", 0, status)
        rows = told.splitlines()
        for spot in SPOTS:
            cases.holds(f"a line begins {spot!r}", any(row.startswith(spot) for row in rows), told)
        cases.equal("no line is told beside these", len(LISTED.splitlines()) + len(SPOTS),
                    len(rows))
        for option, count, name in LIMITS:
            cases.equal(f"{option} as many as there are", (0, LISTED), house(option, str(count)))
            over = f"over the limit: {name}: {count}, and at most {count - 1} may be\n"
            cases.equal(f"{option} one less", (1, LISTED + over), house(option, str(count - 1)))
        but = ("--but", "bench", "--most-dependencies")
        cases.equal("a crate aside, as many libraries as the next one has", (0, LISTED),
                    house(*but, "13"))
        over = "over the limit: libraries of a crate: 13, and at most 12 may be\n"
        cases.equal("a crate aside, one less", (1, LISTED + over), house(*but, "12"))
        cases.equal("both crates aside", (0, LISTED), house(*but, "12", "--but", "program"))
        all_over = [word for option, _, _ in LIMITS for word in (option, "0")]
        status, told = house(*all_over)
        cases.equal("the status over each limit", 1, status)
        cases.equal("a line for each limit", len(LIMITS), told.count("over the limit: "))
        first = house(program="absent")[1].splitlines()[0]
        cases.equal("all crates are the product's where the program is not there",
                    "crates: 4, of the product 4", first)
    return cases.end()


if __name__ == "__main__":
    sys.exit(main())
