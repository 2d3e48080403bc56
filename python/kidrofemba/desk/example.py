"""An example day: the network and the planned trains of examples/osrd, a door, and accounts."""
from __future__ import annotations

import argparse
import secrets
import signal
import subprocess
import sys
import time
from collections.abc import Callable
from pathlib import Path

from kidrofemba.cli import TOP
from kidrofemba.common.companion import Refused
from kidrofemba.desk.network import table_text
from kidrofemba.desk.store import Store

_CLIENT = "WEB"
_BEGINS = "2026-12-01T00:00:00+01:00"
_OPENED_S = 60.0
_WORDS = "ask,free,show,front,holds"
_PEOPLE = (("dispatcher", "Freight Ltd", "operator"), ("manager", "Infrastructure", "admin"))


def _run(*words: object) -> None:
    """Runs the command `kidrofemba`, which must do its work."""
    told = subprocess.run([sys.executable, "-m", "kidrofemba", *map(str, words)], check=False,
                          stdin=subprocess.DEVNULL, capture_output=True, text=True,
                          cwd=TOP / "python")
    if told.returncode:
        raise Refused("example", str(words[0]), told.stderr.strip())


def make_day(folder: Path, program: Path) -> None:
    """Makes the files of the example day in a folder, and a journal without sales."""
    source = TOP / "examples/osrd"
    if not source.is_dir():
        raise Refused(source, "", "is not there: the example is in a checkout")
    folder.mkdir(parents=True, exist_ok=True)
    network, table = folder / "network.json", folder / "network.table"
    _run("import-network", source / "export.json", network, "--report", folder / "network.report",
         "--systems", "BAL,BAPR", "--tags", "MA100")
    table.write_text(table_text(program, network), encoding="ascii")
    _run("import-plan", "trains", folder / "trains.json", source / "rolling_stock.json",
         "--allowance", "5")
    _run("import-plan", "base", folder / "base.json", source / "planned.json", "--network", network,
         "--table", table, "--report", folder / "base.report", "--begin", _BEGINS)
    _run("--program", program, "init", "--network", network, "--base", folder / "base.json",
         "--journal", folder / "journal")


def _add_people(store: Path) -> None:
    """Adds the people of the example with drawn passwords, and prints these."""
    kept = Store(store)
    for name, tenant, role in _PEOPLE:
        password = secrets.token_urlsafe(9)
        known = {told: number for number, told in kept.tenant_names().items()}
        number = known[tenant] if tenant in known else kept.add_tenant(tenant, 100, 600)
        kept.add_person(name, number, role, password)
        print(f"log in as {name}, password {password} ({role} of {tenant})", flush=True)
    kept.close()


def _door(folder: Path, program: Path) -> subprocess.Popen[bytes]:
    """Starts the door, and waits until its socket is there."""
    socket = folder / f"sockets/{_CLIENT}.sock"
    words = [sys.executable, "-m", "kidrofemba", "door", "--folder", str(folder / "sockets"),
             "--client", _CLIENT, "--allow", f"{_CLIENT}={_WORDS}", "--", str(program), "serve",
             *(word for name in ("network", "trains", "base")
               for word in (f"--{name}", str(folder / f"{name}.json"))),
             "--journal", str(folder / "journal")]
    socket.unlink(missing_ok=True)
    process = subprocess.Popen(words, stdin=subprocess.DEVNULL, cwd=TOP / "python")
    end = time.monotonic() + _OPENED_S
    while not socket.exists():
        if process.poll() is not None or time.monotonic() > end:
            process.kill()
            raise Refused(folder, "", "its door does not open")
        time.sleep(0.05)
    return process


def with_example(options: argparse.Namespace, program: Path,
                 serve: Callable[[argparse.Namespace], int]) -> int:
    """Serves the example day of a folder."""
    folder = options.example.absolute()
    if not (folder / "journal").exists():
        make_day(folder, program)
    options.store = options.store or folder / "desk.sqlite"
    if not options.store.exists():
        _add_people(options.store)
    door = _door(folder, program)
    try:
        for name in ("network", "trains", "base"):
            setattr(options, name, folder / f"{name}.json")
        options.journal = folder / "journal"
        options.socket = folder / f"sockets/{_CLIENT}.sock"
        print(f"open http://{options.listen}", flush=True)
        return serve(options)
    finally:
        door.send_signal(signal.SIGTERM)
        door.wait()
