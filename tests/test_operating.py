"""Runs the commands of docs/OPERATING.md as a new operator would, in their order and in one shell,
and compares what they print with what the page says. A block in `sh` is run; a block in `text`
behind it is what it prints."""
from __future__ import annotations

import argparse
import difflib
import os
import re
import signal
import subprocess
import sys
import tempfile
from dataclasses import dataclass
from pathlib import Path

TOP = Path(__file__).resolve().parent.parent
PAGE = TOP / "docs/OPERATING.md"
PROGRAM = TOP / "crates/stdcm/out/stdcm"
BLOCK = re.compile(r"^```sh\n(.*?)^```\n(?:\n```text\n(.*?)^```\n)?", re.M | re.S)
MARK = "=== the end of a block ==="


@dataclass(frozen=True)
class Block:
    """Commands, and what the page says that they print."""

    line: int
    commands: str
    printed: str


def blocks_of(page: str) -> list[Block]:
    return [Block(page.count("\n", 0, found.start()) + 2, found[1], found[2] or "")
            for found in BLOCK.finditer(page)]


def run(blocks: list[Block], program: Path, folder: Path) -> list[str]:
    """What each block prints, in a folder that looks like the repository's top."""
    for name in ("kidrofemba", "python", "examples", "docs"):
        (folder / name).symlink_to(TOP / name)
    place = folder / "crates/stdcm/out"
    place.mkdir(parents=True)
    (place / "stdcm").symlink_to(program)
    script = folder / "commands"
    script.write_text("".join(f"{block.commands}echo '{MARK}'\n" for block in blocks))
    shell = subprocess.Popen(["bash", str(script)], cwd=folder, stdin=subprocess.DEVNULL,
                             stdout=subprocess.PIPE, stderr=subprocess.STDOUT, text=True,
                             process_group=0)
    try:
        told = shell.communicate(timeout=1800)[0]
    finally:
        if shell.poll() is None:
            os.killpg(shell.pid, signal.SIGTERM)
    return told.split(f"{MARK}\n")[:-1]


def main() -> int:
    parser = argparse.ArgumentParser(description=__doc__)
    parser.add_argument("--program", type=Path, default=PROGRAM)
    options = parser.parse_args()
    blocks = blocks_of(PAGE.read_text())
    with tempfile.TemporaryDirectory() as name:
        told = run(blocks, options.program.resolve(), Path(name))
    failed = 0
    for block, printed in zip(blocks, told + ["not run\n"] * (len(blocks) - len(told))):
        if printed != block.printed:
            failed += 1
            print(f"FAILED docs/OPERATING.md line {block.line}")
            sys.stdout.writelines(difflib.unified_diff(
                block.printed.splitlines(True), printed.splitlines(True), "page", "printed"))
    failed += len(blocks) == 0
    print(f"{len(blocks) - failed} passed, {failed} failed")
    return 1 if failed else 0


if __name__ == "__main__":
    sys.exit(main())
