"""A toy that keeps lines and says whether it has seen them: it plans nothing, models no server.

The self test of the conformance runner runs it as it is, and with one fault of those that TOY in
the environment names.
"""
from __future__ import annotations

import os
import sys
import threading
import time
from typing import NoReturn

FAULT = os.environ.get("TOY", "")
KNOWN = {"init": {"--network", "--base", "--journal"},
         "serve": {"--network", "--trains", "--base", "--journal", "--client"}}
lock = threading.Lock()


def end(status: int, *report: str) -> NoReturn:
    os.write(2, "".join(line + "\n" for line in report).encode())
    os._exit(status)


def answer(journal: str, line: bytes) -> bytes:
    """Keeps a line that is new, and tells the place of one that is not."""
    with lock:
        with open(journal, "rb") as kept:
            lines = kept.read().split(b"\n")[1:-1]
        if line in lines:
            return b"kept %d" % lines.index(line)
        if FAULT != "forgets":
            with open(journal, "ab") as kept:
                kept.write(line + b"\n")
                kept.flush()
                os.fsync(kept.fileno())
        return b"new %d" % len(lines)


def reply(journal: str, line: bytes, is_last: bool) -> bytes:
    """The bytes of a reply, as the fault wants them."""
    if FAULT == "dies":
        end(3, "a sudden end")
    text = answer(journal, line)
    if FAULT == "wrong reply":
        text = text.upper()
    if FAULT == "silent" or FAULT == "one reply less" and is_last:
        return b""
    if FAULT == "one reply more" and is_last:
        return text + b"\nmore\n"
    return text if FAULT == "no line end" and is_last else text + b"\n"


def serve(journal: str, name: str, files: str, counts: dict[str, int]) -> None:
    source, sink = files.split(":")
    with open(source, "rb") as lines, open(sink, "ab", buffering=0) as replies:
        count = 0
        for count, line in enumerate(lines, 1):
            replies.write(reply(journal, line.rstrip(b"\n"), b"last" in line))
        counts[name] = count


def begin(journal: str) -> None:
    held = os.path.getsize(journal) if os.path.exists(journal) else 0
    if held:
        if FAULT == "scribbles":
            with open(journal, "ab") as kept:
                kept.write(b"x")
        end(6, f"journal: not empty {held}")
    with open(journal, "wb") as kept:
        kept.write(b"toy\n")


def main(command: str, options: dict[str, list[str]]) -> None:
    journal = options["--journal"][0]
    if command == "init":
        begin(journal)
        return
    if FAULT == "no opening":
        time.sleep(60)
    counts: dict[str, int] = {}
    clients = [word.split("=", 1) for word in options["--client"]]
    threads = [threading.Thread(target=serve, args=(journal, name, files, counts))
               for name, files in clients]
    for thread in threads:
        thread.start()
    for thread in threads:
        thread.join()
    if FAULT == "no end":
        time.sleep(60)
    more = FAULT == "wrong report"
    end(1 if FAULT == "wrong status" else 0,
        *(f"client {name} lines {counts[name] + more} end input" for name, _ in clients))


def understood(words: list[str]) -> dict[str, list[str]]:
    """Options with their values; words that are not a command's are refused."""
    options: dict[str, list[str]] = {}
    for at in range(1, len(words), 2):
        value = words[at + 1] if at + 1 < len(words) else ""
        options.setdefault(words[at], []).append(value)
    known = KNOWN.get(words[0] if words else "")
    is_whole = known == set(options) and all(len(values) == 1 or option == "--client"
                                             for option, values in options.items())
    if not is_whole and FAULT != "takes any words":
        end(2, "words not understood")
    return options


if __name__ == "__main__":
    given = sys.argv[1:]
    if FAULT != "takes any words" or given[:1] in (["init"], ["serve"]) and "--journal" in given:
        main(given[0] if given else "", understood(given))
