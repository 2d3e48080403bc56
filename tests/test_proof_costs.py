"""Tries dev/proof_costs over a crate whose kept modules have times that were given by hand.

    PYTHONPATH=python python3 -m tests.test_proof_costs
"""
from __future__ import annotations

import os
import subprocess
import sys
import tempfile
from pathlib import Path

from tests.cases import Cases

TOOL = Path(__file__).resolve().parent.parent / "dev/proof_costs"
#: Modules of a check, each with the second at which it was written: a first one, of which nothing
#: stands before it; two functions with three and two parts; a file of proofs/ and one of specs/;
#: and what a check wrote on another day.
MODULES = [
    ("k/Rattle-tracks-specs.Lib.oantt", 100.0),
    ("k/Rattle-tracks-proofs.walks.Walk.next.Code.Mir.oantt", 100.5),
    ("k/Rattle-tracks-proofs.walks.Walk.next.Lts.oantt", 103.5),
    ("k/records/Rattle-tracks-proofs.walks.Walk.next.Proof.decls.oantt", 110.5),
    ("k/Rattle-tracks-proofs.zones.of.Lts.oantt", 112.5),
    ("k/records/Rattle-tracks-proofs.zones.of.Proof.decls.oantt", 113.0),
    ("k/records/Rattle-tracks-proofs.Walks.decls.oantt", 117.0),
    ("k/Rattle-tracks-specs.Zones.oantt", 118.0),
    ("k/Rattle-tracks.specs.Zones.oantt", 118.3),
    ("k/Rattle-tracks-proofs.zones.of.Met.oantt", 90_000.0),
]
WANTED = """\
| seconds | function or file | dearest parts |
|---|---|---|
| 10.5 | `walks::Walk::next` | Proof 7.0, Lts 3.0, Code.Mir 0.5 |
| 4.0 | `proofs/Walks.antt` |  |
| 2.5 | `zones::of` | Lts 2.0, Proof 0.5 |
| 1.0 | `specs/Zones.antt` |  |
| 0.3 | `what is passed on to the crates above` |  |
| 18.3 | all 5 | |
"""


#: A check that proves one function, whose modules it writes a second and three behind the first.
PROVING = """\
#!/bin/sh
[ "$*" = "check --jobs 1" ] && [ ! -e out/incremental ] || exit 9
mkdir -p out/incremental
touch -d @50 out/incremental/Rattle-empty-specs.Lib.oantt
touch -d @51 out/incremental/Rattle-empty-proofs.of.Lts.oantt
touch -d @53 out/incremental/Rattle-empty-proofs.of.Proof.oantt
echo checked empty::of, 1 of 1
"""
PROVED = """\
| seconds | function or file | dearest parts |
|---|---|---|
| 3.0 | `of` | Proof 2.0, Lts 1.0 |
| 3.0 | all 1 | |
"""


def run(root: Path, *words: str, path: str | None = None) -> tuple[int, str, str]:
    """What the tool does, with these folders alone as PATH where they are given."""
    ran = subprocess.run([sys.executable, str(TOOL), "--root", str(root), *words],
                         capture_output=True, text=True, check=False,
                         env=os.environ if path is None else os.environ | {"PATH": path})
    return ran.returncode, ran.stdout, ran.stderr


def fake(folder: Path, text: str) -> str:
    """A folder for PATH in which `rt` is this script, beside the machine's own commands."""
    folder.mkdir()
    (folder / "rt").write_text(text)
    (folder / "rt").chmod(0o755)
    return f"{folder}:/usr/bin:/bin"


def main() -> int:
    cases = Cases()
    with tempfile.TemporaryDirectory() as place:
        root = Path(place)
        (root / "crates.txt").write_text("tracks:\nempty: tracks\n")
        (root / "crates/empty").mkdir(parents=True)
        for name, second in MODULES:
            path = root / "crates/tracks/out/incremental" / name
            path.parent.mkdir(parents=True, exist_ok=True)
            path.write_bytes(b"")
            os.utime(path, ns=(0, int(second * 1e9)))
        cases.equal("each function and file by its seconds", (0, WANTED, ""), run(root, "tracks"))
        rows = WANTED.splitlines(keepends=True)
        cases.equal("one row and the sum", (0, "".join([*rows[:3], rows[-1]]), ""),
                    run(root, "tracks", "--rows", "1"))
        cases.equal("a crate without a check",
                    (2, "", "proof_costs: crates/empty/out/incremental: no check is kept there: give"
                     " --check, or run rt check --jobs 1 in the crate's folder\n"),
                    run(root, "empty"))
        cases.equal("no toolchain", (2, "", "proof_costs: rt: PATH: not found: install the Rattle"
                                     " kit\n"), run(root, "empty", "--check", path=str(root)))
        told = "goal left open\n"
        failing = fake(root / "failing", f"#!/bin/sh\nprintf '{told[:-1]}\\n'\nexit 1\n")
        cases.equal("a crate that is not proved",
                    (2, "", f"{told}proof_costs: crates/empty: it is not proved, as its check"
                     " told\n"), run(root, "empty", "--check", path=failing))
        (root / "crates/empty/out/incremental").mkdir(parents=True)
        proving = fake(root / "proving", PROVING)
        cases.equal("a crate that is proved from nothing first",
                    (0, PROVED, "checked empty::of, 1 of 1\n"),
                    run(root, "empty", "--check", path=proving))
        cases.equal("no such crate", (2, "", "proof_costs: crates.txt: nosuch: no crate has this"
                                      " name\n"), run(root, "nosuch"))
    return cases.end()


if __name__ == "__main__":
    sys.exit(main())
