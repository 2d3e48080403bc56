"""Names that outlast a loss of power: the bytes of a file are on the disk once the file is synced,
and its name once its folder is."""
from __future__ import annotations

import os
from pathlib import Path


def sync_name(file: str | Path) -> None:
    """Syncs the folder in which a file has its name, so that the name is there for good; where the
    name is a link, the folder of what it leads to. OSError, with the folder's name, where the disk
    fails or the file system can't do so."""
    folder = Path(os.path.realpath(file)).parent
    handle = os.open(folder, os.O_RDONLY | os.O_DIRECTORY)
    try:
        os.fsync(handle)
    except OSError as failure:
        raise OSError(failure.errno, failure.strerror, str(folder)) from None
    finally:
        os.close(handle)
