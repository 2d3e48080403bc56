"""The desk: paths are asked for, seen and bought in a browser or by HTTP.

One process before a socket of the door. It keeps who may ask, and which number stands for which
request, in a store of SQLite; what was sold stands in the journal, which it reads. Put caddy or
nginx before it for TLS.
"""
from __future__ import annotations

import argparse
import secrets
import sys
from pathlib import Path

from kidrofemba.cli import program_named
from kidrofemba.common.companion import Refused, run_companion
from kidrofemba.desk.packages import fault_of_packages

NAME = "desk"
EXAMPLE = """examples:
  kidrofemba desk --example day
      a desk with a door and an example network, in the folder day
  kidrofemba desk --network network.json --trains trains.json --base base.json --journal journal \\
      --socket /run/paths/WEB.sock --store desk.sqlite
  kidrofemba desk --store desk.sqlite --add-person alice --tenant "Freight Ltd" --role operator
"""


def _parser() -> argparse.ArgumentParser:
    parser = argparse.ArgumentParser(
        prog=f"kidrofemba {NAME}", description=__doc__, epilog=EXAMPLE, allow_abbrev=False,
        formatter_class=argparse.RawDescriptionHelpFormatter)
    add = parser.add_argument
    for name, what in (("network", "the network file"), ("trains", "the train file"),
                       ("base", "the base file, with `begins` and its offset"),
                       ("journal", "the server's journal, which is read")):
        add(f"--{name}", type=Path, metavar="F", help=what)
    add("--program", metavar="F", help="the built program, for looks (default: where it is built)")
    add("--socket", type=Path, metavar="F", help="the desk's socket at the door; the name of the "
        "file before .sock is the client's")
    add("--store", type=Path, metavar="F", help="the store, made where missing")
    add("--listen", default="127.0.0.1:8080", metavar="HOST:PORT", help="default 127.0.0.1:8080")
    add("--secure", action="store_true", help="cookies for TLS alone: with a proxy before the desk")
    add("--offer-minutes", type=float, default=10.0, metavar="M",
        help="how long an offer stands (default 10)")
    add("--streams", type=int, default=1000, metavar="N",
        help="event streams at once; more are told 503 (default 1000)")
    add("--look-seconds", type=float, default=2.0, metavar="S",
        help="how old a look may be beside others' sales (default 2)")
    add("--patience", type=float, default=20.0, metavar="S",
        help="how long a line waits for the door (default 20)")
    add("--rebuild", action="store_true",
        help="make the store's paths anew from the journal, and end")
    add("--add-person", metavar="NAME", help="add a person or give a new password, print it, and "
        "end; needs --tenant and --role")
    add("--tenant", metavar="NAME", help="of --add-person; made where missing")
    add("--role", choices=("operator", "desk", "admin"), help="of --add-person")
    add("--token", action="store_true", help="with --tenant and --role: print a new API token "
        "of the tenant, and end")
    add("--example", type=Path, metavar="FOLDER", help="make an example day in FOLDER where it is "
        "missing, start a door for it, and be its desk")
    return parser


def _wanted(options: argparse.Namespace, *names: str) -> None:
    lost = [f"--{name}" for name in names if getattr(options, name) is None]
    if lost:
        raise Refused("words", "", f"{', '.join(lost)} is needed; kidrofemba desk --help tells all")


def _tenant(options: argparse.Namespace, store: object) -> int:
    from kidrofemba.desk.store import Store
    assert isinstance(store, Store)
    for number, name in store.tenant_names().items():
        if name == options.tenant:
            return number
    return store.add_tenant(options.tenant, 100, 600)


def _add_person(options: argparse.Namespace) -> int:
    """Adds a person with a drawn password, which is printed."""
    from kidrofemba.desk.store import Store
    _wanted(options, "store", "tenant", "role")
    store, password = Store(options.store), secrets.token_urlsafe(12)
    store.add_person(options.add_person, _tenant(options, store), options.role, password)
    store.close()
    print(password)
    return 0


def _add_token(options: argparse.Namespace) -> int:
    """Prints a new API token of a tenant."""
    from kidrofemba.desk.store import Store
    _wanted(options, "store", "tenant", "role")
    store = Store(options.store)
    print(store.add_token(_tenant(options, store), options.role, "made by hand"))
    store.close()
    return 0


def _rebuild(options: argparse.Namespace) -> int:
    """Makes the store's paths anew from the journal."""
    from kidrofemba.desk.sales import lines_of_journal
    from kidrofemba.desk.store import Store
    from kidrofemba.desk.tail import Tail
    _wanted(options, "network", "base", "journal", "socket", "store")
    tail = Tail(options.journal, options.network.read_bytes(), options.base.read_bytes())
    tail.read_on()
    store = Store(options.store)
    lines, counters = lines_of_journal(tail, options.socket.stem)
    store.rebuild(lines, counters)
    store.close()
    print(f"{len(lines)} paths and closures of {len(counters)} tenants, of {tail.front} entries")
    return 0


def _program(options: argparse.Namespace) -> Path:
    found = program_named(options.program)
    if found is None:
        raise Refused(options.program or "the program", "", "is not built, or is no program")
    return found.absolute()


def _serve(options: argparse.Namespace) -> int:
    """Serves until it is told to end."""
    from kidrofemba.desk.app import serve
    _wanted(options, "network", "trains", "base", "journal", "socket", "store")
    return serve(options, _program(options))


def _example(options: argparse.Namespace) -> int:
    """Makes the example day, starts its door, and serves."""
    from kidrofemba.desk.example import with_example
    return with_example(options, _program(options), _serve)


def work(words: list[str]) -> int:
    """Does what the words say."""
    options = _parser().parse_args(words)
    lost = fault_of_packages(words)
    if lost is not None:
        raise Refused(lost, "", "")
    if options.add_person:
        return _add_person(options)
    if options.token:
        return _add_token(options)
    if options.rebuild:
        return _rebuild(options)
    return _example(options) if options.example else _serve(options)


def main(words: list[str]) -> int:
    """Does what the words say; the exit status."""
    return run_companion(NAME, lambda: work(words))


if __name__ == "__main__":
    sys.exit(main(sys.argv[1:]))
