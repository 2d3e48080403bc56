"""The command `kidrofemba`: a companion, or a command of the built program, by its name."""
from __future__ import annotations

import os
import shutil
import sys
from dataclasses import dataclass
from importlib import import_module
from pathlib import Path

NAME = "kidrofemba"
#: What the folder of the companions, python/, stands in: a checkout, or the package's own folder.
TOP = Path(__file__).resolve().parent.parent.parent
#: Where the program stands: in the package, and in a checkout.
PLACES = (TOP / "stdcm", TOP / "crates/stdcm/out/stdcm", Path("/usr/lib/kidrofemba/stdcm"),
          Path("/usr/bin/stdcm"))
VARIABLE = "KIDROFEMBA_STDCM"


@dataclass(frozen=True)
class Companion:
    """A companion: the module whose `main` does its work, and what it makes."""

    module: str
    about: str


@dataclass(frozen=True)
class Option:
    """An option of a command of the program: what stands behind it, and what that is."""

    value: str
    about: str


@dataclass(frozen=True)
class ProgramCommand:
    """A command of the built program: what it makes, and its options by their names."""

    about: str
    options: dict[str, Option]


_NETWORK = Option("F", "the network file")
_TRAINS = Option("F", "the train file")
_BASE = Option("F", "the base file")
_JOURNAL = Option("F", "the journal")
_OUT = Option("F", "where it is written to; stdout is the standard output")
_RULE = Option("NAME=RULE", "a rule of a client; any number of them")

COMMANDS: dict[str, ProgramCommand] = {
    "list": ProgramCommand("the zones and blocks of a network",
                           {"network": _NETWORK, "out": _OUT}),
    "init": ProgramCommand("a journal for a network and a timetable of planned trains", {
        "network": _NETWORK, "base": _BASE, "journal": Option("F", "is made: the journal"),
        "from": Option("F", "an old journal of version 1 whose entries it takes; may be left out"),
    }),
    "carry": ProgramCommand("a journal with what is live in another one", {
        "network": _NETWORK, "base": _BASE, "journal": Option("F", "is made: the new journal"),
        "from": Option("F", "the old journal"),
        "from-base": Option("F", "the base file of the old journal"),
        "left": Option("F", "is written: what is left out; without it nothing may be"),
    }),
    "serve": ProgramCommand("replies to the lines of up to 16 clients", {
        "network": _NETWORK, "trains": _TRAINS, "base": _BASE, "journal": _JOURNAL,
        "client": Option("NAME=IN:OUT", "where a client's lines come from, and its replies go to;"
                         " 1 to 16 of them"),
        "rule": _RULE,
        "proof": Option("NAME=F", "where the proofs of a client's replies go to; one a client"),
    }),
    "batch": ProgramCommand("replies to a list of asks, by up to 16 workers", {
        "network": _NETWORK, "trains": _TRAINS, "base": _BASE, "journal": _JOURNAL,
        "client": Option("NAME=IN:OUT", "the list of asks, and where the replies go to"),
        "workers": Option("W", "how many answer at once, 1 to 16"),
        "rule": Option("NAME_WW=RULE", "a rule of a worker; any number of them"),
    }),
    "check": ProgramCommand("whether the proofs of replies hold beside a journal", {
        "network": _NETWORK, "trains": _TRAINS, "base": _BASE, "journal": _JOURNAL,
        "proof": Option("F", "the file of proofs that serve --proof wrote"),
    }),
    "stairs": ProgramCommand("the blocking-time stairway of a sale", {
        "network": _NETWORK, "base": _BASE, "journal": _JOURNAL,
        "entry": Option("I", "the entry of the journal that sold it"), "out": _OUT,
    }),
    "capacity": ProgramCommand("how full a stretch is (UIC Code 406)", {
        "network": _NETWORK, "base": _BASE, "journal": _JOURNAL,
        "first": Option("A", "the first zone of the stretch"),
        "last": Option("B", "its last zone"), "from": Option("T", "the tick at which it begins"),
        "to": Option("T", "the tick at which it ends"), "out": _OUT,
    }),
    "demo": ProgramCommand("how many of a thousand asks on a railway of its own are granted", {
        "number": Option("N", "what the asks are drawn by"), "out": _OUT,
    }),
}
COMPANIONS: dict[str, Companion] = {
    "import-network": Companion("osrd.import_network", "a network file from an export of OSRD"),
    "block-speeds": Companion("reality.block_speeds",
                              "a network file with simulated running times"),
    "verify": Companion("reality.verify", "whether the trains of sold paths stay in their claims"),
    "import-plan": Companion("plan.import_plan",
                             "train and base files from rolling stocks and planned trains"),
    "door": Companion("door.door", "a server behind a socket for each client"),
    "verified-ask": Companion("reality.verified_sale", "a path that its real train can keep"),
    "desk": Companion("desk.desk", "a desk in the browser, and an API, before the door"),
    "ask": Companion("door.client", "lines to a client's socket, and replies in clock times"),
    "why": Companion("why.why_not", "who stood in the way of a refused ask"),
    "graph": Companion("graph.train_graph", "a train graph, as a picture or as a page"),
    "export": Companion("journal.export_sold", "what was sold, as train schedules of OSRD"),
    "roll-over": Companion("journal.roll_over", "the journal of the next day"),
    "mend": Companion("journal.mend", "a damaged journal, mended"),
}
GROUPS = (
    ("prepare", ("import-network", "block-speeds", "import-plan", "list", "init")),
    ("serve", ("door", "serve", "ask", "verified-ask", "desk", "batch")),
    ("look into what was sold", ("verify", "why", "check", "graph", "stairs", "capacity", "export")),
    ("keep journals", ("carry", "roll-over", "mend")),
    ("try", ("demo",)),
)
HELP = f"""usage: {NAME} COMMAND [WORD ..]
       {NAME} --program FILE COMMAND [WORD ..]
       {NAME} --help | --version

A server that sells paths for extra freight trains, and its companions. `{NAME} COMMAND --help`
tells the words of a command. Those with a star are commands of the built program, which is given
their words as they are: the one of --program, of {VARIABLE}, or where it was built or
installed.
"""


def version() -> str:
    """The version, of the file VERSION at the top or, where that is missing, of the package."""
    told = TOP / "VERSION"
    if told.is_file():
        return told.read_text(encoding="utf-8").strip()
    from importlib import metadata
    return metadata.version(NAME)


def help_of_all() -> str:
    """Each command with what it makes, by groups."""
    rows = [HELP]
    for title, names in GROUPS:
        rows.append(f"\n{title}:\n")
        for name in names:
            is_program = name in COMMANDS
            about = COMMANDS[name].about if is_program else COMPANIONS[name].about
            rows.append(f"  {name + (' *' if is_program else ''):<18}{about}\n")
    return "".join(rows)


def help_of_program(name: str) -> str:
    """The options of a command of the program."""
    command = COMMANDS[name]
    width = max(len(f"--{key} {one.value}") for key, one in command.options.items())
    rows = [f"usage: {NAME} {name} OPTION ..\n\n{command.about}\n\noptions:\n"]
    rows += [f"  {f'--{key} {one.value}':<{width}}  {one.about}\n"
             for key, one in command.options.items()]
    return "".join(rows) + "\ndocs/FORMATS.md tells each word, and what each status means.\n"


def program_named(word: str | None) -> Path | None:
    """The built program: the one that is named, or one that stands where it is looked for."""
    named = word or os.environ.get(VARIABLE)
    if named:
        found = shutil.which(named)
        return Path(found) if found else None
    return next((place for place in PLACES if os.access(place, os.X_OK) and place.is_file()), None)


def run_program(program: str | None, words: list[str]) -> int:
    """Becomes the built program, which is given these words, or runs it where something is to be
    done or told behind it; its status, or that it is missing."""
    found = program_named(program)
    if found is None:
        named = program or os.environ.get(VARIABLE)
        lost = f"{named}: is no program" if named else \
            "the program is not built: dev/build in the checkout proves and builds it"
        return refused(f"{words[0]}: {lost}")
    from kidrofemba.common.hand_on import hand_on, is_followed
    sys.stdout.flush()
    try:
        if is_followed(words[0], words[1:]):
            return hand_on(str(found), words[0], words[1:])
        os.execv(found, [str(found), *words])
    except OSError as failure:
        return refused(f"{words[0]}: {found}: {failure.strerror}")


def refused(wrong: str) -> int:
    """Tells what is wrong; the status."""
    print(f"{NAME}: {wrong}", file=sys.stderr)
    return 2


def unknown(word: str) -> int:
    """Tells which command is nearest to a word that is none."""
    from difflib import get_close_matches
    near = get_close_matches(word, [*COMPANIONS, *COMMANDS], 1, 0.5)
    return refused(f"{word}: is no command" + (f": did you mean {near[0]}?" if near
                                               else f": {NAME} --help lists them"))


def main(words: list[str]) -> int:
    """Does what the words say; the exit status."""
    program = None
    if words[:1] == ["--program"]:
        if len(words) < 2:
            return refused("--program: its value is missing")
        program, words = words[1], words[2:]
    if not words:
        sys.stderr.write(help_of_all())
        return 2
    name, rest = words[0], words[1:]
    if name in ("--help", "-h", "help"):
        sys.stdout.write(help_of_all())
        return 0
    if name == "--version":
        print(f"{NAME} {version()}")
        return 0
    if name in COMPANIONS:
        return int(import_module(f"kidrofemba.{COMPANIONS[name].module}").main(rest))
    if name not in COMMANDS:
        return unknown(name)
    if rest[:1] in (["--help"], ["-h"]):
        sys.stdout.write(help_of_program(name))
        return 0
    return run_program(program, words)


def command() -> int:
    """The entry point of an installed package; the exit status."""
    return main(sys.argv[1:])
