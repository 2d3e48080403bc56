"""The packages that the desk needs beside the standard library, and which Python has them."""
from __future__ import annotations

import importlib.util
import os
import subprocess
import sys
from pathlib import Path

NEEDED = ("aiohttp", "jinja2", "jsonschema")
COMMAND = "apt-get install python3-aiohttp python3-jinja2 python3-jsonschema"
#: Debian's own Python, which has Debian's packages whatever `python3` is.
DEBIANS = Path("/usr/bin/python3")
#: Set in the process that was started with Debian's Python, so that it is tried once.
_TRIED = "KIDROFEMBA_DESK_PYTHON"


def missing() -> list[str]:
    """The needed packages that this Python does not have."""
    return [name for name in NEEDED if importlib.util.find_spec(name) is None]


def _debians_has_all() -> bool:
    """Whether Debian's Python is another one than this, and has all that is needed."""
    if not DEBIANS.exists() or os.environ.get(_TRIED):
        return False
    told = subprocess.run([DEBIANS, "-c", "import " + ", ".join(NEEDED)], check=False,
                          stdout=subprocess.DEVNULL, stderr=subprocess.DEVNULL)
    return told.returncode == 0


def fault_of_packages(words: list[str]) -> str | None:
    """What is missing, in one line; None where nothing is. Where Debian's Python has what this one
    lacks, this process becomes that one, with the same words, and nothing is answered."""
    lost = missing()
    if not lost:
        return None
    if _debians_has_all():
        folder = Path(__file__).resolve().parents[2]
        os.environ[_TRIED] = "yes"
        os.environ["PYTHONPATH"] = str(folder)
        sys.stdout.flush()
        os.execv(DEBIANS, [str(DEBIANS), "-m", "kidrofemba", "desk", *words])
    return f"{', '.join(lost)} is not installed for {sys.executable}: {COMMAND}"
