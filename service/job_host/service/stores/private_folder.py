"""The folder of a history is its owner's alone: parameters, logs and names of others stand in it."""

from __future__ import annotations

import logging
import stat
from pathlib import Path

log = logging.getLogger(__name__)

OPEN_TO_OTHERS = stat.S_IRWXG | stat.S_IRWXO
# The log of batchctl with what it keeps beside it, and the SQLite files with theirs.
OWN_FILES = ("history.log*", "beside*.sqlite*")


def make_private(folder: Path) -> None:
    """Makes the folder. An existing one, and the service's files in it, are closed to others, which is said."""
    folder.mkdir(mode=stat.S_IRWXU, parents=True, exist_ok=True)
    for path in [folder, *(path for pattern in OWN_FILES for path in folder.glob(pattern))]:
        close_to_others(path)


def close_to_others(path: Path) -> None:
    if path.is_symlink():
        return
    mode = stat.S_IMODE(path.stat().st_mode)
    if not mode & OPEN_TO_OTHERS:
        return
    try:
        path.chmod(mode & ~OPEN_TO_OTHERS)
    except PermissionError:
        log.warning("%s is open to others (%o), and isn't this user's to close", path, mode)
        return
    log.warning("%s was open to others (%o): it is its owner's alone now", path, mode)
