"""Servers of the built program that the benches drive: a corridor's network, a base timetable, trains, and a journal."""
from __future__ import annotations

import json
import os
import subprocess
from dataclasses import dataclass
from pathlib import Path
from typing import Any

from bench.corridor import Corridor, corridor

PROGRAM = Path(__file__).resolve().parent.parent / "crates/stdcm/out/stdcm"
TRAINS = [{"name": "F1", "length_m": 400, "speed": 20000, "accel": 200, "brake": 250, "allowance": 0}]


@dataclass(frozen=True)
class World:
    """The files of a server in one folder, and the corridor that they tell of."""

    folder: Path
    made: Corridor

    def path(self, name: str) -> Path:
        return self.folder / name

    def words(self, command: str, names: list[str], *others: str) -> list[str]:
        options = [word for name in names for word in (f"--{name}", str(self.path(name)))]
        return [str(PROGRAM), command, *options, *others]

    def serve(self, clients: list[tuple[str, Path, Path]]) -> list[str]:
        """The words that serve these clients, each with its input and its output."""
        options = [word for name, source, sink in clients for word in ("--client", f"{name}={source}:{sink}")]
        return self.words("serve", ["network", "trains", "base", "journal"], *options)

    def begin(self) -> None:
        """Begins the journal anew."""
        self.path("journal").unlink(missing_ok=True)
        subprocess.run(self.words("init", ["network", "base", "journal"]), check=True)


def make_world(folder: Path, sections: int = 8, blocks: int = 4, trains: list[dict[str, Any]] | None = None) -> World:
    """A corridor of so many sections of so many blocks, with these planned trains, and a journal without entries."""
    if not PROGRAM.is_file():
        raise SystemExit(f"no program at {PROGRAM}: dev/build makes it")
    made = corridor(sections, blocks)
    base = {"tick_s": 10, "setting": 1, "release": 1, "horizon": 17280, "journal_bytes": 268435456, "trains": trains or []}
    (folder / "network").write_text(json.dumps(made.infra))
    (folder / "base").write_text(json.dumps(base))
    (folder / "trains").write_text(json.dumps({"trains": TRAINS}))
    world = World(folder, made)
    world.begin()
    return world


def without_syncs(folder: Path) -> dict[str, str]:
    """The environment in which a program's syncs of files do nothing: what they cost is left out."""
    source, library = folder / "nosync.c", folder / "nosync.so"
    source.write_text("int fsync(int fd) { (void)fd; return 0; }\nint fdatasync(int fd) { (void)fd; return 0; }\n")
    subprocess.run(["cc", "-shared", "-fPIC", "-O2", "-o", str(library), str(source)], check=True)
    return os.environ | {"LD_PRELOAD": str(library)}


def peak_of(pid: int) -> float:
    """The MB of memory at a process's peak so far."""
    rows = Path(f"/proc/{pid}/status").read_text().splitlines()
    return next((int(row.split()[1]) / 1024 for row in rows if row.startswith("VmHWM:")), 0.0)
