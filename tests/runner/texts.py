"""Contents of files: how a scenario writes down bytes, networks and journals."""
from __future__ import annotations

import hashlib
import json
from dataclasses import dataclass
from pathlib import Path

TESTS = Path(__file__).resolve().parent.parent

#: The names of a scenario's files in its folder.
NETWORK, BASE, TRAINS, JOURNAL = "net.json", "base.json", "trains.json", "journal"
#: The journal's version that the program writes.
VERSION = 2


@dataclass
class Place:
    """The temporary folder of one scenario."""

    folder: Path

    def path(self, name: str) -> Path:
        return self.folder / name

    def content(self, name: str) -> bytes | None:
        """Bytes of a file of the folder; None where it is missing."""
        path = self.path(name)
        return path.read_bytes() if path.is_file() else None

    def held(self, name: str) -> bytes:
        """Bytes of a file of the folder, none where it is missing."""
        return self.content(name) or b""


def bytes_of(form, place: Place) -> bytes:
    """The bytes that a text of a scenario stands for (tests/README.md, "Texts")."""
    if isinstance(form, str):
        return form.encode()
    if isinstance(form, list):
        return b"".join(bytes_of(part, place) for part in form)
    if "text" in form:
        return form["text"].encode() * form.get("times", 1)
    if "hex" in form:
        return hex_bytes(form["hex"], place) * form.get("times", 1)
    if "json" in form:
        return json.dumps(form["json"]).encode()
    if "file" in form:
        return place.path(form["file"]).read_bytes()
    if "journal" in form:
        return journal_bytes(form, place)
    if any(key in LINES for key in form):
        return "".join(line + "\n" for line in made(form, LINES)).encode()
    raise ValueError(f"not a text: {form!r}")


#: Long runs of lines and replies, by name: the n-th of them, counted from 1.
LINES = {"holds": "hold {n} 1 {from} {to}", "fronts": "front", "blanks": ""}
REPLIES = {"held": "held {n} entry {at} at {n}", "front": "front at 0", "bad": "bad 1"}


def made(form: dict, patterns: dict) -> list[str]:
    """As many lines of the named pattern as are asked for."""
    name, count = next((key, form[key]) for key in form if key in patterns)
    return [patterns[name].format_map({"n": n, "at": n - 1, "from": 10 * n, "to": 10 * n + 10})
            for n in range(1, count + 1)]


def is_edit(form) -> bool:
    """Whether a form tells an edit of one of the files of tests/."""
    return isinstance(form, dict) and "like" in form


def document(form, kind: str, place: Place) -> bytes:
    """A network, base or train file: by name, as an edit of one, or as a text."""
    if isinstance(form, str):
        return named_document(form, kind).read_bytes()
    if is_edit(form):
        return edited(named_document(form["like"], kind).read_text(), form)
    return bytes_of(form, place)


def named_document(name: str, kind: str) -> Path:
    return TESTS / "networks" / f"{name}.json" if kind == NETWORK else TESTS / f"{name}.json"


def edited(text: str, form: dict) -> bytes:
    """Sets and drops values by path, then swaps pieces of the text."""
    if form.get("set") or form.get("drop"):
        value = json.loads(text)
        for path, new in form.get("set", []):
            holder = walk(value, path[:-1])
            if isinstance(holder, list) and path[-1] == len(holder):
                holder.append(new)
            else:
                holder[path[-1]] = new
        for path in form.get("drop", []):
            del walk(value, path[:-1])[path[-1]]
        text = json.dumps(value)
    for old, new in form.get("swap", []):
        if old not in text:
            raise ValueError(f"{old!r} does not stand in the text")
        text = text.replace(old, new, 1)
    return text.encode()


def walk(value, path: list):
    """The value at a path of keys and places."""
    for key in path:
        value = value[key]
    return value


def digest(content: bytes | None) -> bytes:
    return hashlib.sha256(content or b"").digest()


def journal_header(place: Place, version: int = VERSION) -> bytes:
    """The 76 bytes before the first gate: magic, version, digests of the network and the base."""
    digests = digest(place.content(NETWORK)) + digest(place.content(BASE))
    return b"STDCMJNL" + version.to_bytes(4, "big") + digests


def hex_bytes(text: str, place: Place) -> bytes:
    """Hexadecimal digits; header, header1 and header2 stand for a journal's first 76 bytes, and
    words as u32:7, i64:-1, name:F1 and ascii:X for a number, a name behind its length, letters."""
    out = b""
    for word in text.split():
        if word == "header":
            out += journal_header(place)
        elif word in ("header1", "header2"):
            out += journal_header(place, int(word[-1]))
        elif ":" in word:
            out += packed(*word.split(":", 1))
        else:
            out += bytes.fromhex(word)
    return out


WIDTHS = {"u8": 1, "u32": 4, "u64": 8, "i64": 8}


def packed(kind: str, value: str) -> bytes:
    """A number of a width, most significant byte first, or the bytes of `ascii` or `name`."""
    if kind == "ascii":
        return value.encode()
    if kind == "name":
        return bytes([len(value)]) + value.encode()
    return int(value).to_bytes(WIDTHS[kind], "big", signed=kind == "i64")


def journal_bytes(form: dict, place: Place) -> bytes:
    """A header, then an open gate, length and body for each body, then the last gate on."""
    out = hex_bytes(form.get("header", "header"), place)
    for body in form["journal"]:
        content = hex_bytes(body, place)
        out += b"\1" + len(content).to_bytes(4, "big") + content
    return out + hex_bytes(form.get("end", "00"), place)


def fill(line: str, place: Place) -> str:
    """Replaces {sha FILE} by the file's digest in lower-case hexadecimal."""
    while "{sha " in line:
        head, rest = line.split("{sha ", 1)
        name, tail = rest.split("}", 1)
        line = head + digest(place.content(name)).hex() + tail
    return line


def demo_line(number: int) -> str:
    """The line of the demo, counted over a plain list.

    Two departures fit beside each other exactly where they differ by 30 ticks or more.
    """
    value, granted = number, []
    for _ in range(1000):
        value = (1103515245 * value + 12345) % 2147483648
        departure = value % 16000
        if all(abs(departure - other) >= 30 for other in granted):
            granted.append(departure)
    count = len(granted)
    return f"demo {number} asked 1000 granted {count} refused {1000 - count} front {count}\n"
