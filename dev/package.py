"""Makes the release: a package of Debian's form and a tarball of the same files.

Both are made of the proved program alone: the one that the build keeps for this very tree, with the
record of what it is made of. What the merge gate printed over this tree is read from a file and
stands in the receipt, so whoever installs the package can tell what was proved, and by what.

    .ci/run 2>&1 | tee out/gate.log
    dev/package --gate out/gate.log

Needed: dpkg-deb (dpkg), help2man, gzip. What is made: out/kidrofemba_VERSION_amd64.deb and
out/kidrofemba-VERSION.tar.gz.
"""
from __future__ import annotations

import argparse
import gzip
import hashlib
import json
import os
import re
import shutil
import subprocess
import sys
import tempfile
import time
from dataclasses import dataclass
from email.utils import formatdate
from pathlib import Path
from typing import Any

from dev.build import Program
from dev.repository import ROOT, Repository
from kidrofemba.cli import COMMANDS, COMPANIONS

OUT = ROOT / "out"
PACKAGING = ROOT / "packaging"
VERSION = re.compile(r"\d+\.\d+\.\d+")
VERDICT = re.compile(r"rt: ok;.*|\d+ passed, \d+ failed")
COUNTS = re.compile(r"(\d+) passed, (\d+) failed")
#: Where the files lie once they are installed.
LIBRARY = "usr/lib/kidrofemba"
DOC = "usr/share/doc/kidrofemba"
#: Pages and examples that are installed; the others are for who changes the code.
PAGES = ("README.md", "CHANGELOG.md", "docs", "examples")


class Refused(Exception):
    """Why nothing can be packaged."""


@dataclass(frozen=True)
class Release:
    """What is released: its version, the built program and its record, and the gate's verdict."""

    version: str
    program: Path
    record: dict[str, Any]
    gate: list[str]

    @property
    def receipt(self) -> str:
        """What this release is made of, and what was said of it, as JSON."""
        told = {"version": self.version, "kit": self.record["kit"],
                "proved": self.record["date"], "packaged": time.strftime("%Y-%m-%d"),
                "sources_sha256": self.record["sources"],
                "program_sha256": self.record["program"], "gate": self.gate}
        return json.dumps(told, indent=1) + "\n"


def gate_verdict(log: Path) -> list[str]:
    """The lines of the merge gate's output that say what passed.

    Refused where the file is missing, where a line counts a failure, and where the proofs' verdict
    or the count of the checks is not there.
    """
    try:
        lines = log.read_text(errors="replace").splitlines()
    except OSError as wrong:
        raise Refused(f"{log}: {wrong.strerror}") from None
    found = [line for line in lines if VERDICT.fullmatch(line)]
    counts = [match for line in found if (match := COUNTS.fullmatch(line))]
    failed = [match[0] for match in counts if int(match[2])]
    if failed:
        raise Refused(f"{log}: the gate did not pass: {failed[0]}")
    if not any(line.startswith("rt: ok;") for line in found) or len(counts) < 2:
        raise Refused(f"{log}: it does not hold the whole output of .ci/run")
    return found


def release_of(gate: Path, version: str) -> Release:
    """The release of this tree. Refused where its program was not proved and built."""
    if not VERSION.fullmatch(version):
        raise Refused(f"VERSION: {version!r} is no version of three numbers")
    program = Program(Repository(ROOT), "stdcm")
    record = program.kept()
    if record is None:
        raise Refused("there is no proved program of this very tree: dev/build makes it")
    return Release(version, program.copy, record, gate_verdict(gate))


def put(source: Path, place: Path, mode: int = 0o644) -> None:
    """Copies a file to a place, whose folders are made."""
    place.parent.mkdir(parents=True, exist_ok=True)
    shutil.copyfile(source, place)
    place.chmod(mode)


def write(place: Path, content: str, mode: int = 0o644) -> None:
    """Writes a file, whose folders are made."""
    place.parent.mkdir(parents=True, exist_ok=True)
    place.write_text(content)
    place.chmod(mode)


def write_packed(place: Path, content: bytes) -> None:
    """Writes a file packed by gzip, with no date in it, so that each run makes the same bytes."""
    place.parent.mkdir(parents=True, exist_ok=True)
    place.write_bytes(gzip.compress(content, mtime=0))
    place.chmod(0o644)


def lay_out(release: Release, top: Path) -> None:
    """Lays out the files of a release as they are installed."""
    put(release.program, top / LIBRARY / "stdcm", 0o755)
    lay_out_commands(top)
    for unit in sorted((PACKAGING / "units").glob("kidrofemba-*")):
        put(unit, top / "lib/systemd/system" / unit.name)
    put(PACKAGING / "sysusers.conf", top / "usr/lib/sysusers.d/kidrofemba.conf")
    put(PACKAGING / "tmpfiles.conf", top / "usr/lib/tmpfiles.d/kidrofemba.conf")
    put(PACKAGING / "logrotate", top / "etc/logrotate.d/kidrofemba")
    lay_out_pages(release, top)
    lay_out_manuals(release, top)


def lay_out_commands(top: Path) -> None:
    """The command for people, its modules, and the program under its own name."""
    package = ROOT / "python/kidrofemba"
    for path in sorted(package.rglob("*")):
        if path.is_file() and "__pycache__" not in path.parts:
            put(path, top / LIBRARY / "python/kidrofemba" / path.relative_to(package))
    put(ROOT / "VERSION", top / LIBRARY / "VERSION")
    put(ROOT / "kidrofemba", top / "usr/bin/kidrofemba", 0o755)
    (top / "usr/bin/stdcm").symlink_to("../lib/kidrofemba/stdcm")


def lay_out_pages(release: Release, top: Path) -> None:
    """Pages, examples, and what this release is made of."""
    tracked = subprocess.run(["git", "-C", ROOT, "ls-files", "-z", *PAGES], check=True,
                             capture_output=True, text=True).stdout
    for name in filter(None, tracked.split("\0")):
        put(ROOT / name, top / DOC / name)
    for name in ("network.conf",):
        put(PACKAGING / name, top / DOC / "examples" / name)
    for unit in sorted((PACKAGING / "units").iterdir()):
        if not unit.name.startswith("kidrofemba-"):
            put(unit, top / DOC / "examples/units" / unit.name)
    put(PACKAGING / "debian/copyright", top / DOC / "copyright")
    write(top / DOC / "receipt.json", release.receipt)
    write_packed(top / DOC / "changelog.gz", changes_of(release).encode())


def changes_of(release: Release) -> str:
    """The list of changes in Debian's form: it names the page that has them."""
    maintainer = re.search("^Maintainer: (.*)$", (PACKAGING / "debian/control").read_text(), re.M)
    if maintainer is None:
        raise Refused("packaging/debian/control: it names no maintainer")
    return (f"kidrofemba ({release.version}) stable; urgency=medium\n\n"
            f"  * The changes are told in /{DOC}/CHANGELOG.md.\n\n"
            f" -- {maintainer[1]}  {formatdate(time.time(), localtime=False)}\n")


def lay_out_manuals(release: Release, top: Path) -> None:
    """A page of the manual for the command and for each of its subcommands, from their --help, and
    one for the program, which has none."""
    for words in ("", *COMPANIONS, *COMMANDS):
        page = f"kidrofemba-{words}" if words else "kidrofemba"
        text = manual_of(release, words)
        write_packed(top / f"usr/share/man/man1/{page}.1.gz", text.encode())
    (top / "usr/share/man/man1/stdcm.1.gz").symlink_to("kidrofemba.1.gz")


def manual_of(release: Release, subcommand: str) -> str:
    """The page of the manual for one subcommand, or for the command itself."""
    command = f"{ROOT / 'kidrofemba'} {subcommand}".strip()
    return run(["help2man", "--no-info", f"--name={title_of(subcommand)}",
                f"--version-string=kidrofemba {release.version}", "--source=Kidrofemba",
                "--manual=Kidrofemba", command]).replace(f"{ROOT}/", "")


def title_of(subcommand: str) -> str:
    """What a subcommand makes, in one line."""
    if subcommand in COMPANIONS:
        return COMPANIONS[subcommand].about
    return COMMANDS[subcommand].about if subcommand else "sell paths for extra freight trains"


def digests(top: Path) -> str:
    """The file md5sums of a package."""
    rows = [f"{hashlib.md5(path.read_bytes()).hexdigest()}  {path.relative_to(top)}\n"
            for path in sorted(top.rglob("*")) if path.is_file() and not path.is_symlink()]
    return "".join(rows)


def make_package(release: Release, top: Path) -> Path:
    """The package of the files that are laid out."""
    size_kb = sum(path.lstat().st_size for path in top.rglob("*")) // 1024
    control = (PACKAGING / "debian/control").read_text()
    control = control.replace("@VERSION@", release.version).replace("@SIZE_KB@", str(size_kb))
    sums = digests(top)
    write(top / "DEBIAN/control", control)
    write(top / "DEBIAN/md5sums", sums)
    write(top / "DEBIAN/conffiles", "/etc/logrotate.d/kidrofemba\n")
    for script in ("postinst", "prerm", "postrm"):
        put(PACKAGING / "debian" / script, top / "DEBIAN" / script, 0o755)
    made = OUT / f"kidrofemba_{release.version}_amd64.deb"
    run(["dpkg-deb", "--root-owner-group", "--build", str(top), str(made)])
    shutil.rmtree(top / "DEBIAN")
    return made


def make_tarball(release: Release, top: Path) -> Path:
    """A tarball of the files that are laid out."""
    made = OUT / f"kidrofemba-{release.version}.tar.gz"
    run(["tar", "--create", "--gzip", "--file", str(made), "--directory", str(top),
         "--owner=root:0", "--group=root:0", "--sort=name", "--mtime=@0",
         f"--transform=s,^\\.,kidrofemba-{release.version},", "."])
    return made


def run(words: list[str]) -> str:
    """Runs a command of the system; what it prints, or refused with what it said of a failure."""
    try:
        ran = subprocess.run(words, capture_output=True, text=True, check=False,
                             env={**os.environ, "PYTHONDONTWRITEBYTECODE": "1"})
    except FileNotFoundError:
        raise Refused(f"{words[0]}: it is not installed") from None
    if ran.returncode:
        raise Refused(f"{words[0]}: {(ran.stderr or ran.stdout).strip()}")
    return ran.stdout


def main(words: list[str]) -> int:
    parser = argparse.ArgumentParser(prog="dev/package", description=__doc__,
                                     formatter_class=argparse.RawDescriptionHelpFormatter)
    parser.add_argument("--gate", type=Path, required=True, metavar="FILE",
                        help="what .ci/run printed over this tree")
    parser.add_argument("--version", default=(ROOT / "VERSION").read_text().strip(),
                        help="the version (that of the file VERSION)")
    options = parser.parse_args(words)
    try:
        release = release_of(options.gate, options.version)
        OUT.mkdir(exist_ok=True)
        with tempfile.TemporaryDirectory(prefix="kidrofemba-package-") as room:
            top = Path(room) / "top"
            top.mkdir(mode=0o755)
            lay_out(release, top)
            for made in (make_tarball(release, top), make_package(release, top)):
                print(f"{made.relative_to(ROOT)}: {made.stat().st_size} bytes, sha256 "
                      f"{hashlib.sha256(made.read_bytes()).hexdigest()}")
    except Refused as refused:
        print(f"package: {refused}", file=sys.stderr)
        return 2
    return 0


if __name__ == "__main__":
    sys.exit(main(sys.argv[1:]))
