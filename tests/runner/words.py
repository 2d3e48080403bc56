"""The words of a command line."""
from __future__ import annotations

from .texts import BASE, JOURNAL, NETWORK, TRAINS

#: The options of each command in the order of docs/FORMATS.md.
OPTIONS = {
    "init": ["network", "base", "journal", "from"],
    "carry": ["network", "base", "journal", "from", "from-base", "left"],
    "serve": ["network", "trains", "base", "journal", "client", "rule", "proof"],
    "list": ["network", "out"],
    "stairs": ["network", "base", "journal", "entry", "out"],
    "demo": ["number", "out"],
    "check": ["network", "trains", "base", "journal", "proof"],
    "capacity": ["network", "base", "journal", "first", "last", "from", "to", "out"],
    "batch": ["network", "trains", "base", "journal", "client", "workers", "rule"],
}
DEFAULTS = {"network": NETWORK, "trains": TRAINS, "base": BASE, "journal": JOURNAL}


def words_of(command: str, values: dict, form: str = "plain", order: str = "table") -> list[str]:
    """The words of a command with these values, or the usual names of its files.

    The form says whether an option's value stands behind it ("plain"), behind an equals sign
    ("equals"), or the one and the other in turn ("mixed").
    """
    pairs = []
    for option in OPTIONS[command]:
        value = values.get(option, DEFAULTS.get(option))
        for one in value if isinstance(value, list) else [value]:
            if one is not None:
                pairs.append((option, str(one)))
    if order == "reversed":
        pairs.reverse()
    words = [command]
    for at, (option, value) in enumerate(pairs):
        if form == "equals" or form == "mixed" and at % 2 == 0:
            words.append(f"--{option}={value}")
        else:
            words += [f"--{option}", value]
    return words


def edited_words(words: list[str], edits: list) -> list[str]:
    """Words with edits: ["drop", OPTION], ["twice", OPTION], ["value", OPTION, VALUE],
    ["swap", OLD, NEW...], ["add", WORD...] or ["put", PLACE, WORD...]."""
    words = list(words)
    for verb, first, *rest in edits:
        if verb == "add":
            words += [first, *rest]
        elif verb == "put":
            words[first:first] = rest
        elif verb == "swap":
            at = words.index(first)
            words[at:at + 1] = rest
        else:
            at = words.index(f"--{first}")
            if verb == "drop":
                del words[at:at + 2]
            elif verb == "twice":
                words[at:at] = words[at:at + 2]
            elif verb == "value":
                words[at + 1:at + 2] = rest
            else:
                raise ValueError(f"no such edit: {verb}")
    return words
