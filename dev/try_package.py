"""Tries a package in a system of its own that has nothing but Debian's smallest set of packages.

It is made by debootstrap and entered by chroot. There the package is installed, a service is begun
by the commands that docs/OPERATING.md gives, a path is sold, a newer version is put over the older
one while the journal is live, the path is still there, and the package is removed: the journal
stays. lintian reads the package, and systemd-analyze the units. Each step is a line; the last line
is `N passed, M failed`.

    dev/try_package out/kidrofemba_1.0.0_amd64.deb --newer out/kidrofemba_1.0.1_amd64.deb

Needed: root, debootstrap, lintian, systemd-analyze, and a mirror of Debian's packages.
"""
from __future__ import annotations

import argparse
import shutil
import subprocess
import sys
import tempfile
import time
from collections.abc import Callable, Iterator
from contextlib import contextmanager
from pathlib import Path

from dev.repository import ROOT

PROGRAMS = ("debootstrap", "lintian", "systemd-analyze", "chroot", "mount")
SUITE = "bookworm"
#: The page whose first block in bash begins a service, and the heading above it.
PAGE, HEADING = "docs/OPERATING.md", "### As a service of the machine"
#: What the system of a trial has no use for: the package is there, and no service manager runs.
PASSED_OVER = ("apt-get ", "systemctl ")
#: The command of the unit, with its variables, as the service manager would run it.
SERVE = """
set -eu
. /etc/kidrofemba/line.env
cd /var/lib/kidrofemba/line
exec setpriv --reuid kidrofemba --regid kidrofemba --clear-groups kidrofemba door \
  --folder /run/kidrofemba/line $DOOR_WORDS -- /usr/lib/kidrofemba/stdcm serve \
  --network network.json --trains trains.json --base base.json --journal journal $SERVER_WORDS
"""
ASK = "ask 1 F1 W E 00:01 00:01 0 17280 0"


class Failed(Exception):
    """Why a step failed."""


class Trial:
    """Steps that are counted, and printed as they end."""

    def __init__(self) -> None:
        self.passed = self.failed = 0

    def step(self, name: str, work: Callable[[], str]) -> bool:
        """Does a step; whether it passed."""
        begun = time.monotonic()
        try:
            told = work()
        except Failed as failed:
            self.failed += 1
            print(f"FAILED {name}: {failed}", flush=True)
            return False
        self.passed += 1
        print(f"ok     {name} ({time.monotonic() - begun:.1f} s) {told}".rstrip(), flush=True)
        return True


class System:
    """A system in a folder."""

    def __init__(self, root: Path):
        self.root = root

    def run(self, words: list[str], given: str = "") -> str:
        """Runs a command in the system; what it printed."""
        return run(["chroot", str(self.root), *words], given)

    def shell(self, script: str) -> str:
        """Runs a script in the system."""
        return self.run(["sh", "-c", script])

    def install(self, package: Path) -> str:
        """Installs a package, and what it needs."""
        shutil.copy(package, self.root / "tmp" / package.name)
        self.shell("DEBIAN_FRONTEND=noninteractive apt-get install --yes --quiet "
                   f"--no-install-recommends /tmp/{package.name}")
        return self.run(["dpkg-query", "--showformat=${Version}", "--show", "kidrofemba"])

    @contextmanager
    def service(self) -> Iterator[None]:
        """The service of the example, until the end; it is told to end in order."""
        words = (self.root / "etc/kidrofemba/line.conf").read_text().splitlines()
        rows = [f"{name}='{value}'" for name, mark, value in (row.partition("=") for row in words)
                if mark and not name.startswith("#")]
        (self.root / "etc/kidrofemba/line.env").write_text("\n".join(rows) + "\n")
        with subprocess.Popen(["chroot", str(self.root), "sh", "-c", SERVE],
                              stderr=subprocess.PIPE, text=True) as door:
            try:
                yield
            finally:
                door.terminate()
                told = door.communicate(timeout=60)[1]
        if door.returncode:
            raise Failed(f"the door ended with {door.returncode}: {told}")

    def ask(self, line: str) -> str:
        """A client's line, and its reply."""
        return self.run(["kidrofemba", "ask", "--socket", "/run/kidrofemba/line/A.sock",
                         "--base", "/var/lib/kidrofemba/line/base.json"], f"{line}\n").strip()


def run(words: list[str], given: str = "") -> str:
    """Runs a command; what it printed. Failed with what it said where it ends badly."""
    ran = subprocess.run(words, input=given, capture_output=True, text=True, check=False)
    if ran.returncode:
        raise Failed(f"{words[0]}: status {ran.returncode}: {ran.stderr[-2000:] or ran.stdout}")
    return ran.stdout


def wanted(told: str, begin: str) -> str:
    """What was told, where it begins as wanted."""
    if not told.startswith(begin):
        raise Failed(f"told {told!r}, and wanted was {begin!r}")
    return told


def sell(system: System, begin: str) -> str:
    """Has the service answer the ask, and ends it."""
    with system.service():
        return wanted(system.ask(ASK), begin)


def begin_service(system: System) -> str:
    """Begins the service by the lines of the page, and sells a path."""
    lines = beginning((ROOT / PAGE).read_text())
    system.shell("set -eu\n" + "\n".join(lines))
    system.shell("install -d -o kidrofemba -g kidrofemba -m 755 /run/kidrofemba/line")
    return f"by {len(lines)} lines of {PAGE}: " + sell(system, "granted 1 entry 0 at 1")


def beginning(page: str) -> list[str]:
    """The lines of a page by which a service is begun."""
    block = page.partition(HEADING)[2].partition("```bash\n")[2].partition("```")[0]
    lines = [line for line in block.splitlines() if not line.startswith(PASSED_OVER)]
    if not lines:
        raise Failed(f"{PAGE}: there are no lines below {HEADING!r}")
    return lines


def upgrade(system: System, newer: Path) -> str:
    """Puts a newer version in place while the door runs; what was sold is still there."""
    with system.service():
        wanted(system.ask("hold 2 2 5000 5010"), "held 2 entry 1 at 2")
        version = system.install(newer)
        wanted(system.ask("hold 2 2 5000 5010"), "kept 2 entry 1")
    sell(system, "kept 1 entry 0")
    return version


def remove(system: System) -> str:
    """Removes the package and its settings; the journal must be what it was."""
    journal = system.root / "var/lib/kidrofemba/line/journal"
    before = journal.read_bytes()
    system.shell("DEBIAN_FRONTEND=noninteractive apt-get purge --yes --quiet kidrofemba")
    if not journal.is_file() or journal.read_bytes() != before:
        raise Failed("the journal is gone, or another")
    left = [name for name in ("usr/bin/kidrofemba", "usr/bin/stdcm", "usr/lib/kidrofemba")
            if (system.root / name).exists()]
    if left:
        raise Failed(f"left behind: {', '.join(left)}")
    return f"the journal's {len(before)} bytes stay"


def manual(system: System) -> str:
    """Each subcommand has a page of the manual, and tells its words."""
    told = system.run(["kidrofemba", "--help"])
    pages = sorted((system.root / "usr/share/man/man1").glob("kidrofemba-*.1.gz"))
    names = [page.name.removesuffix(".1.gz").removeprefix("kidrofemba-") for page in pages]
    for name in names:
        if f"  {name} " not in told:
            raise Failed(f"{name}: it has a page, and --help does not name it")
        system.run(["kidrofemba", name, "--help"])
    if len(names) < 2:
        raise Failed("there are no pages")
    return f"{len(pages)} pages"


def verify_units(system: System) -> str:
    """Has the service manager read the units as they are installed."""
    units = sorted(str(unit.relative_to(system.root))
                   for unit in (system.root / "lib/systemd/system").glob("kidrofemba-*"))
    names = [f"/{unit}".replace("@.service", "@line.service") for unit in units]
    told = run(["systemd-analyze", "verify", "--man=no", f"--root={system.root}", *names])
    return told or ", ".join(Path(name).name for name in names)


def read_by_lintian(package: Path) -> str:
    """What lintian finds: an error fails the step, warnings are counted."""
    ran = subprocess.run(["lintian", "--allow-root", "--fail-on", "error", str(package)],
                         capture_output=True, text=True, check=False)
    rows = [row for row in ran.stdout.splitlines() if row.startswith(("E:", "W:"))]
    if ran.returncode:
        raise Failed("\n".join(rows) or ran.stderr)
    return f"{len(rows)} warnings" + "".join(f"\n         {row}" for row in rows)


def main(words: list[str]) -> int:
    parser = argparse.ArgumentParser(prog="dev/try_package", description=__doc__,
                                     formatter_class=argparse.RawDescriptionHelpFormatter)
    parser.add_argument("package", type=Path, help="the package")
    parser.add_argument("--newer", type=Path, required=True, help="the same of a newer version")
    parser.add_argument("--root", type=Path, metavar="FOLDER",
                        help="a folder in which debootstrap made such a system; it is changed")
    options = parser.parse_args(words)
    missing = [name for name in PROGRAMS if shutil.which(name) is None]
    lost = [str(path) for path in (options.package, options.newer) if not path.is_file()]
    if missing or lost:
        what = f"not installed: {', '.join(missing)}" if missing else f"{lost[0]}: is not there"
        print(f"try_package: {what}", file=sys.stderr)
        return 2
    with tempfile.TemporaryDirectory(prefix="kidrofemba-system-") as folder:
        system = System(options.root or Path(folder) / "root")
        return try_all(system, options.package, options.newer, options.root is None)


def make_system(system: System) -> str:
    run(["debootstrap", "--variant=minbase", SUITE, str(system.root)])
    return SUITE


def try_all(system: System, package: Path, newer: Path, is_new: bool) -> int:
    """All steps; the exit status."""
    trial = Trial()
    trial.step("lintian finds no error", lambda: read_by_lintian(package))
    if is_new and not trial.step("a system is made", lambda: make_system(system)):
        return 1
    mount = ["mount", "--types", "proc", "proc", str(system.root / "proc")]
    if not trial.step("its processes can be seen", lambda: run(mount)):
        return 1
    try:
        if trial.step("the package is installed", lambda: system.install(package)):
            trial.step("units are in order", lambda: verify_units(system))
            trial.step("each subcommand has its page", lambda: manual(system))
            trial.step("a service is begun, and a path is sold", lambda: begin_service(system))
            trial.step("a newer version goes on with the journal", lambda: upgrade(system, newer))
            trial.step("it is removed, and the journal stays", lambda: remove(system))
    finally:
        run(["umount", str(system.root / "proc")])
    print(f"{trial.passed} passed, {trial.failed} failed")
    return 1 if trial.failed else 0


if __name__ == "__main__":
    sys.exit(main(sys.argv[1:]))
