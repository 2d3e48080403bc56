"""`python3 -m kidrofemba` is the command `kidrofemba`."""
from __future__ import annotations

import sys

from kidrofemba.cli import command

sys.exit(command())
