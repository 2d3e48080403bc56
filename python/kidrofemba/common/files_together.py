"""Writes several files, all of them or none."""
from __future__ import annotations

import os
import tempfile
from collections.abc import Iterable, Mapping
from pathlib import Path

from kidrofemba.common.companion import Refused
from kidrofemba.common.synced import sync_name


def must_differ(named: Mapping[str, Path]) -> None:
    """Refuses two names of one file: what is written would take the place of what is read."""
    seen: dict[str, str] = {}
    for what, path in named.items():
        other = seen.setdefault(os.path.realpath(path), what)
        if other != what:
            raise Refused(path, "", f"is named twice, as {other} and as {what}")


def write_together(texts: Mapping[Path, Iterable[str]]) -> None:
    """Writes each file beside its place, and renames them there once all are on the disk; once it
    returns their names are too.

    What is there and is no plain file, such as a pipe or a device, is written to as it is.
    """
    beside: list[tuple[Path, Path]] = []
    path = Path()
    try:
        for path, pieces in texts.items():
            if path.exists() and not path.is_file():
                with path.open("w", encoding="utf-8") as out:
                    out.writelines(pieces)
                continue
            target = Path(os.path.realpath(path))
            handle, name = tempfile.mkstemp(prefix=f".{target.name}.", dir=target.parent)
            beside.append((Path(name), target))
            with os.fdopen(handle, "w", encoding="utf-8") as out:
                out.writelines(pieces)
                out.flush()
                os.fsync(out.fileno())
            os.chmod(name, 0o666 & ~_mask())
        for made, target in beside:
            os.replace(made, target)
        for target in {target.parent: target for _, target in beside}.values():
            sync_name(target)
    except OSError as failure:
        raise Refused(path, "", f"not written: {failure.strerror or failure}") from None
    finally:
        for made, _ in beside:
            made.unlink(missing_ok=True)


def _mask() -> int:
    """The mask of permissions that new files of this process have."""
    mask = os.umask(0)
    os.umask(mask)
    return mask
