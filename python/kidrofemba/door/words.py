"""The words of the door, and what they come to."""
from __future__ import annotations

import argparse
import grp
import pwd
import re
import shutil
from collections.abc import Sequence
from dataclasses import dataclass
from pathlib import Path

from kidrofemba.common.clock import Clock, clock_of
from kidrofemba.common.companion import Refused, read_json
from kidrofemba.door.limits import CONNECTIONS, MAX_CONNECTIONS
from kidrofemba.door.rules import WORDS, Rights
from kidrofemba.door.sockets import Owner
from kidrofemba.door.server_process import LINES_A_SESSION

DESCRIPTION = """A door to a path server: a Unix socket for each client, which may come and go,
crash and come again, while the server runs on.

Each line that comes to FOLDER/NAME.sock as a whole is handed to the server as a line of the client
NAME, and its reply goes back; the next line is taken once the reply is gone. Who may be NAME is who
may write to that socket. The server is started again wherever it ended, and before its limit of
lines; open lines are then given once more, and one whose work was done is told `kept`.

The door has four replies of its own: `closed WORD` (the client may not send this word, or its line
is too long: `closed line`), `hidden I at K` (entry I is another client's), `past N before T` (the
path would depart before tick T, which is now), and to a line `base DIGEST` a line `base DIGEST` of
its own: the base file that the journal belongs to. Where it is another one than the client's the
connection ends, and no line behind it is handed over.

No client takes the door from the others: each has so many connections at once, and waits for room
where it opens more; one line of each is taken in turn. Where the machine has no handle, memory or
process left for a start of the server, the start is tried again until it has.

SIGTERM ends it in order: open lines are replied to, the server's inputs end, and the sockets are
gone, and the status file too. Its status is 0 then, that of the server where the server no longer
starts, 20 where a server that is started again knows fewer entries than were told before (its
journal lost its end; no open line is given to it), and 2 where the door's own words or files are
refused, or the program can't be started.
"""
EXAMPLE = """example:
  kidrofemba door --folder /run/paths --client A --client B --allow B=ask,free,front \\
      --who A=alice:freight:660 -- kidrofemba serve --network network.json \\
      --trains trains.json --base base.json --journal journal
"""
_MAX_CLIENTS = 16
_NAME = re.compile(r"[A-Za-z0-9_][A-Za-z0-9_-]{0,31}")


@dataclass(frozen=True)
class Plan:
    """What the words of the command come to."""

    folder: Path
    status: Path
    rights: dict[str, Rights]
    owners: dict[str, Owner]
    server: list[str]
    journal: Path
    journal_limit: int
    lines: int
    connections: int
    patience_s: float
    reply_s: float


def _split(words: Sequence[str]) -> tuple[list[str], list[str]]:
    """The door's own words, and behind `--` those of the server."""
    if "--" not in words:
        return list(words), []
    at = list(words).index("--")
    return list(words[:at]), list(words[at + 1:])


def _value_of(words: Sequence[str], option: str) -> str | None:
    """The value of an option of the server, in either of its forms."""
    for at, word in enumerate(words):
        if word.startswith(f"--{option}="):
            return word.split("=", 1)[1]
        if word == f"--{option}" and at + 1 < len(words):
            return words[at + 1]
    return None


def _parser() -> argparse.ArgumentParser:
    parser = argparse.ArgumentParser(
        prog="kidrofemba door", description=DESCRIPTION, epilog=EXAMPLE,
        usage="kidrofemba door --folder FOLDER --client NAME .. [option ..]"
              " -- kidrofemba serve ..",
        formatter_class=argparse.RawDescriptionHelpFormatter, allow_abbrev=False)
    add = parser.add_argument
    add("--folder", type=Path, required=True, help="where the sockets are; made where missing")
    add("--client", action="append", required=True, metavar="NAME", help="1 to 16 of them")
    add("--allow", action="append", default=[], metavar="NAME=WORD,..",
        help="the words that a client may send (default: all)")
    add("--who", action="append", default=[], metavar="NAME=USER:GROUP:MODE",
        help="owner and file mode of a client's socket (default: who runs the door, 660)")
    add("--own-shows", action="append", default=[], metavar="NAME",
        help="`show` tells this client of its own entries alone")
    add("--no-past", action="append", default=[], metavar="NAME",
        help="refuse `ask` and `pin` of departures before now; needs `begins` in the base file")
    add("--lead", type=int, default=0, metavar="TICKS", help="how far ahead now is (default 0)")
    add("--status", type=Path, metavar="F",
        help="counts in the text that Prometheus reads (default: FOLDER/status.prom)")
    add("--lines", type=int, default=LINES_A_SESSION, metavar="N",
        help=f"lines of a client before the server is started anew (default {LINES_A_SESSION})")
    add("--connections", type=int, default=CONNECTIONS, metavar="N",
        help=f"connections of one client at once, 1 to {MAX_CONNECTIONS} (default {CONNECTIONS})")
    add("--patience", type=float, default=30.0, metavar="SECONDS",
        help="for a peer that does not read (default 30)")
    add("--reply-within", type=float, default=600.0, metavar="SECONDS",
        help="a server that takes longer for a line is started again (default 600)")
    return parser


def _named(given: Sequence[str], option: str, clients: Sequence[str]) -> dict[str, str]:
    """The values of options in the form NAME=VALUE, or NAME."""
    told: dict[str, str] = {}
    for one in given:
        name, _, value = one.partition("=")
        if name not in clients:
            raise Refused("words", f"{option} {one}", f"{name} is no --client")
        if name in told:
            raise Refused("words", f"{option} {one}", f"{name} has it twice")
        told[name] = value
    return told


def _socket_of(text: str) -> Owner:
    """The owner and the mode that USER:GROUP:MODE names."""
    try:
        user, group, mode = text.split(":")
        if not re.fullmatch("[0-7]{3}", mode):
            raise ValueError
        return Owner(pwd.getpwnam(user).pw_uid, grp.getgrnam(group).gr_gid, int(mode, 8))
    except (ValueError, KeyError):
        raise Refused("words", f"--who {text}",
                      "no USER:GROUP:MODE of this machine, MODE as 660") from None


def _words_of(client: str, text: str) -> frozenset[str]:
    words = frozenset(text.split(","))
    if not words <= set(WORDS):
        raise Refused("words", f"--allow {client}={text}", f"the words are {', '.join(WORDS)}")
    return words


def _clock(base: str, told: object) -> Clock:
    """The clock of a base file, which must tell when tick 0 is."""
    try:
        clock = clock_of(told if isinstance(told, dict) else {})
    except ValueError as wrong:
        raise Refused(base, "", str(wrong)) from None
    if not clock.is_dated:
        raise Refused(base, "begins", "is needed for --no-past, and is not there")
    return clock


def plan_of(words: Sequence[str]) -> Plan:
    """What the words of the command come to."""
    own, server = _split(words)
    options = _parser().parse_args(own)
    clients = options.client
    if len(clients) > _MAX_CLIENTS or len(set(clients)) < len(clients):
        raise Refused("words", "--client", "1 to 16 names are wanted, each once")
    for name in clients:
        if not _NAME.fullmatch(name):
            raise Refused("words", f"--client {name}", "1 to 32 of A-Z a-z 0-9 _ - are a name")
    if not 2 <= options.lines <= LINES_A_SESSION or options.patience <= 0 \
            or options.reply_within <= 0:
        raise Refused("words", "--lines, --patience, --reply-within",
                      f"2 to {LINES_A_SESSION} lines and more than 0 seconds are wanted")
    if not 1 <= options.connections <= MAX_CONNECTIONS:
        raise Refused("words", "--connections", f"1 to {MAX_CONNECTIONS} are wanted")
    base, journal = _value_of(server, "base"), _value_of(server, "journal")
    if base is None or journal is None or _value_of(server, "client") is not None:
        raise Refused("words", "--", "`stdcm serve` with --base and --journal, without --client")
    if shutil.which(server[0]) is None:
        raise Refused("words", server[0], "is no program")
    told = read_json(base)
    allowed = _named(options.allow, "--allow", clients)
    shows = _named(options.own_shows, "--own-shows", clients)
    no_past = _named(options.no_past, "--no-past", clients)
    owners = _named(options.who, "--who", clients)
    clock = _clock(base, told) if no_past else None
    rights = {name: Rights(
        name, _words_of(name, allowed[name]) if name in allowed else None, name in shows,
        clock if name in no_past else None, options.lead) for name in clients}
    limit = told.get("journal_bytes", 0) if isinstance(told, dict) else 0
    return Plan(options.folder, options.status or options.folder / "status.prom", rights,
                {name: _socket_of(owners[name]) if name in owners else Owner()
                 for name in clients},
                server, Path(journal), limit if isinstance(limit, int) else 0,
                options.lines, options.connections, options.patience, options.reply_within)
