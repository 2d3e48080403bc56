"""Tries dev/rename on a small repository of three crates, written by hand.

    PYTHONPATH=python python3 -m tests.test_rename
"""
from __future__ import annotations

import subprocess
import sys
import tempfile
import unittest
from pathlib import Path

TOP = Path(__file__).resolve().parent.parent
TOOL = TOP / "dev/rename"

#: `low` has a type `Seat`, `mid` has another, and gives `low` on as `chairs`.
FILES = {
    "crates.txt": "low: thiserror\nmid: low\ntop: mid\n",
    "HANDLES": "Handles allowed: none.\n",
    "crates/low/src/lib.rt": """//! Seats, of which `take_seat` takes one.
#![tactic(auto)]

mod seats;

pub use seats::{Kind, Seat, take_seat};
""",
    "crates/low/src/seats.rt": """//! Seats.

ghost use Rattle.std.specs.Prelude.{◌≡◌, length};
ghost use Rattle.low.specs.Seats.{IsTaken, seat_of};

/// Which seat it is: `Kind::Near` is one at the door.
pub enum Kind {
    Near,
    Far { seat: u32 },
}

/// A seat.
pub struct Seat {
    pub number: u32,
    kind: Kind,
}

impl Seat {
    /// The number of the `Seat`.
    pub fn number(&self) -> u32
        ensures { result ≡ self.now.number }
    {
        self.number
    }
}

/// Takes a seat.
pub fn take_seat(seats: &[Seat], kind: &Kind) -> Option<u32>
    requires seats { length seats.now < 9 }
    ensures found { IsTaken seats.now result }
{
    for one in seats {
        if let Kind::Far { seat } = kind {
            return Some(one.number() + *seat);
        }
    }
    tell("take_seat"); // find the seat
    None
}
""",
    "crates/low/src/seats/rows.rt": "//! Rows.\n\npub(crate) struct Row;\n",
    "crates/low/specs/Lib.antt": "pub mod Seats\n",
    "crates/low/specs/Seats.antt": """-- What is a seat.
use Rattle.low.specs.declared.seats.Seat.{Seat}
use Rattle.low.specs.declared.seats.Kind.TheVariants.{Near, Far}

abbrev pub seat_of : Seat → Seat
seat_of seat = seat

pub record IsTaken (seats : List Seat) (found : Option) : Type 0 where
  pub number : seat_of seats ≡ seats
""",
    "crates/low/proofs/Lib.antt": "pub mod Taking\n",
    "crates/low/proofs/Taking.antt": """use Rattle.low.specs.Seats.{IsTaken, seat_of}

pub taken-seat_of : IsTaken
unfolding seat_of
taken-seat_of = seat_of
""",
    "crates/low/proofs/seats/take_seat/Answers.antt": """\
use Rattle.low.proofs.Taking.{taken-seat_of}
use Rattle.low.proofs.seats.take_seat.Goals as goal
use Rattle.low.proofs.seats.take_seat.Goals.{in-Far}

pub returns-in-Far-clause-found : goal.returns-in-Far-clause-found
returns-in-Far-clause-found c = taken-seat_of c.in-Far.seat c.args.seats c.requires.seats
""",
    "crates/low/must-fail/takes_the_near_seat.md": """file: src/seats.rt
old: if let Kind::Far { seat } = kind {
new: if let Kind::Near = kind {
""",
    "crates/mid/src/lib.rt": """//! Clients at seats.
#![tactic(auto)]

mod guests;

pub use guests::{Seat, serve};
pub use low as chairs;
""",
    "crates/mid/src/guests.rt": """//! Guests.
use low::{Kind, take_seat};

/// Where a guest is, who may have no `low::Seat`.
pub struct Seat {
    pub guest: u32,
}

/// Serves a guest.
pub fn serve(seat: Seat, kind: &Kind) -> Seat {
    let free = take_seat(&[], kind);
    match kind {
        Kind::Near => seat,
        Kind::Far { .. } => Seat { guest: free.unwrap_or(seat.guest) },
    }
}
""",
    "crates/mid/specs/Lib.antt": "pub use Rattle.low.specs as chairs\n",
    "crates/mid/proofs/guests/serve/Answers.antt": """\
use Rattle.mid.proofs.guests.serve.Goals as goal

pub take_seat-requires-clause-seats : goal.take_seat-requires-clause-seats
take_seat-requires-clause-seats c = c.take_seat.ensures.found c.in-Far.take_seat
""",
    "crates/top/src/main.rt": """use mid::chairs::{Kind, take_seat};
use mid::serve;

ghost use Rattle.mid.specs.chairs.Seats.{seat_of};

fn main() {
    let none = mid::chairs::take_seat(&[], &Kind::Near);
    serve(mid::Seat { guest: 1 }, &Kind::Near);
}
""",
    "docs/MAP.md": """# Map

- `low`: a `Seat` of `src/seats.rt`; see `low::take_seat` and [seats](../crates/low/src/seats.rt).
- `mid`: a `Seat` of its own.
""",
    "tests/test_low.py": 'CRATE = "low"\n',
    "tests/tables/low/one.cases": "a seat\n",
}
MAP = """# All kinds.
crate * low chair_rows
module low seats chairs
module low seats/rows seats/lines
type low/seats/rows Row Line
spec low Seats Chairs
lemmas low Taking Finding
type low Seat Chair
function low take_seat find_chair
variant low Kind::Near Kind::AtDoor
definition low seat_of chair_of
word low,mid guest client
word low seats rows
edit low takes_the_near_seat takes_the_chair_at_the_door
"""


class Rename(unittest.TestCase):
    """The tool, run on a copy of the small repository."""

    def setUp(self) -> None:
        folder = tempfile.TemporaryDirectory()
        self.addCleanup(folder.cleanup)
        self.root = Path(folder.name)
        for name, text in FILES.items():
            (self.root / name).parent.mkdir(parents=True, exist_ok=True)
            (self.root / name).write_text(text)

    def run_map(self, text: str, *options: str) -> subprocess.CompletedProcess[str]:
        """Runs a map, with no kit."""
        path = self.root.parent / f"{self.root.name}.map"
        path.write_text(text)
        self.addCleanup(path.unlink, missing_ok=True)
        return subprocess.run(
            [sys.executable, TOOL, path, "--root", self.root, "--kit", self.root, *options],
            capture_output=True, text=True, check=False, timeout=60)

    def read(self, name: str) -> str:
        return (self.root / name).read_text()

    def tree(self) -> dict[str, str]:
        return {path.relative_to(self.root).as_posix(): path.read_text()
                for path in sorted(self.root.rglob("*")) if path.is_file()}

    def apply(self, text: str = MAP, *options: str) -> None:
        run = self.run_map(text, *options)
        self.assertEqual((run.stderr, run.returncode), ("", 0), run.stdout)

    def test_check_writes_nothing(self) -> None:
        before = self.tree()
        run = self.run_map(MAP, "--check", "--verbose")
        self.assertEqual((run.returncode, run.stderr), (0, ""))
        self.assertEqual(self.tree(), before)
        self.assertIn("function low take_seat find_chair", run.stdout)

    def test_files_move(self) -> None:
        self.apply()
        names = {*self.tree()}
        self.assertLessEqual({
            "crates/chair_rows/src/chairs.rt", "crates/chair_rows/specs/Chairs.antt",
            "crates/chair_rows/proofs/Finding.antt",
            "crates/chair_rows/proofs/chairs/find_chair/Answers.antt",
            "crates/chair_rows/must-fail/takes_the_chair_at_the_door.md",
            "tests/tables/chair_rows/one.cases"}, names)
        self.assertFalse([it for it in names if it.startswith("crates/low/")])
        self.assertFalse((self.root / "crates/low").exists())

    def test_code(self) -> None:
        self.apply()
        code = self.read("crates/chair_rows/src/chairs.rt")
        for wanted in ("ghost use Rattle.chair_rows.specs.Chairs.{IsTaken, chair_of};",
                       "    AtDoor,\n", "pub struct Chair {", "impl Chair {",
                       "The number of the `Chair`", "`Kind::AtDoor` is one",
                       "pub fn find_chair(rows: &[Chair]", "requires rows { length rows.now < 9 }",
                       'tell("take_seat"); // find the seat', "Far { seat: u32 }"):
            self.assertIn(wanted, code)
        lib = self.read("crates/chair_rows/src/lib.rt")
        self.assertIn("mod chairs;\n\npub use chairs::{Kind, Chair, find_chair};", lib)
        self.assertIn("of which `find_chair` takes one", lib)

    def test_a_name_of_another_crate_stays(self) -> None:
        self.apply()
        guests = self.read("crates/mid/src/guests.rt")
        self.assertIn("use chair_rows::{Kind, find_chair};", guests)
        self.assertIn("pub struct Seat {\n    pub client: u32,", guests)
        self.assertIn("Kind::AtDoor => seat,", guests)
        self.assertIn("pub fn serve(seat: Seat", guests)
        self.assertIn("mid::Seat { guest: 1 }", self.read("crates/top/src/main.rt"))

    def test_proofs(self) -> None:
        self.apply()
        answers = self.read("crates/chair_rows/proofs/chairs/find_chair/Answers.antt")
        self.assertIn("use Rattle.chair_rows.proofs.chairs.find_chair.Goals as goal", answers)
        self.assertIn("taken-seat_of c.in-Far.seat c.args.rows c.requires.rows", answers)
        lemmas = self.read("crates/chair_rows/proofs/Finding.antt")
        self.assertIn("unfolding chair_of\ntaken-seat_of = chair_of", lemmas)
        serve = self.read("crates/mid/proofs/guests/serve/Answers.antt")
        self.assertIn("find_chair-requires-clause-", serve)
        self.assertIn("c.find_chair.ensures.found c.in-Far.find_chair", serve)

    def test_specs(self) -> None:
        self.apply()
        specs = self.read("crates/chair_rows/specs/Chairs.antt")
        self.assertIn("use Rattle.chair_rows.specs.declared.chairs.Chair.{Chair}", specs)
        self.assertIn("chairs.Kind.TheVariants.{AtDoor, Far}", specs)
        self.assertIn("(rows : List Chair)", specs)
        self.assertEqual(self.read("crates/chair_rows/specs/Lib.antt"), "pub mod Chairs\n")

    def test_planted_edits_pages_and_tests(self) -> None:
        self.apply()
        edit = self.read("crates/chair_rows/must-fail/takes_the_chair_at_the_door.md")
        self.assertEqual(edit, "file: src/chairs.rt\nold: if let Kind::Far { seat } = kind {\n"
                               "new: if let Kind::AtDoor = kind {\n")
        page = self.read("docs/MAP.md")
        self.assertIn("- `chair_rows`: a `Chair` of `src/chairs.rt`; see `chair_rows::find_chair`",
                      page)
        self.assertIn("(../crates/chair_rows/src/chairs.rt)", page)
        self.assertIn("- `mid`: a `Seat` of its own.", page)
        self.assertEqual(self.read("tests/test_low.py"), 'CRATE = "chair_rows"\n')
        self.assertTrue(self.read("crates.txt").startswith("chair_rows: thiserror\nmid: chair_"))

    def test_a_second_run_changes_nothing(self) -> None:
        self.apply(MAP, "--aliases")
        once = self.tree()
        self.apply(MAP, "--aliases")
        self.assertEqual(self.tree(), once)

    def test_aliases(self) -> None:
        self.apply(MAP, "--aliases")
        top = self.read("crates/top/src/main.rt")
        self.assertIn("use chair_rows::{Kind, find_chair};\nuse mid::serve;", top)
        self.assertIn("ghost use Rattle.chair_rows.specs.Chairs.{chair_of};", top)
        self.assertIn("let none = chair_rows::find_chair(", top)
        self.assertNotIn("chairs;", self.read("crates/mid/src/lib.rt"))
        self.assertEqual(self.read("crates/mid/specs/Lib.antt"), "")
        self.assertEqual(self.read("crates.txt"), "chair_rows: thiserror\nmid: chair_rows\n"
                                                  "top: mid chair_rows\n")

    def test_clashes(self) -> None:
        for entries, told in (
                ("word low kind seats", "seats stands already in crates/low/"),
                ("type low Seat Kind", "would both be called Kind"),
                ("function low take_seat seat", "seat stands already"),
                ("type low Kind Take_seat", "would both be called"),
                ("crate * low mid", "a crate is called mid already"),
                ("word low kind sort\nword low sort order", "makes sort"),
                ("type low Seat Chair\ntype low Seat Bench", "renames Seat too"),
                ("type low Stool Chair", "nothing is called so"),
                ("type * Seat Chair", "several are called so"),
                ("function low take_seat then", "then is a word of the language"),
                ("type low Seat chair", "begins with no capital letter"),
                ("type low Seat", "wanted: KIND SCOPE OLD NEW"),
                ("sort low Seat Chair", "no kind is called sort")):
            with self.subTest(entries):
                before = self.tree()
                run = self.run_map(entries + "\n")
                self.assertEqual(run.returncode, 2, run.stdout)
                self.assertIn(told, run.stderr)
                self.assertEqual(self.tree(), before)

    def test_imports(self) -> None:
        self.apply(MAP, "--aliases")
        told = self.run_map("", "--imports")
        self.assertEqual((told.stdout, told.returncode), ("0 imports lead nowhere\n", 0))
        path = self.root / "crates/top/src/main.rt"
        path.write_text(path.read_text().replace("{chair_of}", "{stool_of}"))
        told = self.run_map("", "--imports")
        self.assertIn("main.rt:4: Rattle.chair_rows.specs.Chairs.{stool_of}\n1 imports", told.stdout)
        self.assertEqual(told.returncode, 1)

    def test_wide_lines_are_broken(self) -> None:
        self.apply("type low Seat " + "Chair" * 20 + "\nfunction low take_seat " + "f" * 60 + "\n")
        specs = self.read("crates/low/specs/Seats.antt")
        self.assertIn("Seat.".replace("Seat", "Chair" * 20) + "{\n  " + "Chair" * 20 + ",\n}\n",
                      specs)

    def test_what_matched_nothing_is_told(self) -> None:
        run = self.run_map("word low stool bench\n")
        self.assertIn("line 1: word low stool bench: matched nothing", run.stdout)


if __name__ == "__main__":
    unittest.main()
