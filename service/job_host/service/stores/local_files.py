"""Files that may be lost: an instance over PostgreSQL lets batchctl run over them, and keeps nothing there."""

from __future__ import annotations

import fcntl
import logging
import os
import shutil
import tempfile
from contextlib import suppress
from itertools import count
from pathlib import Path

log = logging.getLogger(__name__)

PREFIX = "jobhost-local-"
# The folder's name until it is locked.
MAKING = "jobhost-making-"
FILE_NAME = "history.log"
# A file system in memory: there a sync costs nothing. It is taken if it has so many bytes of room.
MEMORY = Path("/dev/shm")
ENOUGH_ROOM = 2**30
# It isn't taken again after a file went with which it had no more than these.
NO_ROOM = 2**26


class LocalFolder:
    """A folder that is closed to others and locked. What tidies temporary files passes over folders that are locked.

    What an instance has left that was killed isn't locked any more: the next one of the same user removes it.
    """

    def __init__(self, parent: Path) -> None:
        making = Path(tempfile.mkdtemp(prefix=MAKING, dir=parent))
        self.path = making.with_name(PREFIX + making.name.removeprefix(MAKING))
        for left in parent.glob(f"{PREFIX}*"):
            remove_left(left)
        self._lock = os.open(making, os.O_RDONLY | os.O_DIRECTORY)
        fcntl.flock(self._lock, fcntl.LOCK_EX)
        making.rename(self.path)

    def close(self) -> None:
        """Removes all files."""
        shutil.rmtree(self.path, ignore_errors=True)
        os.close(self._lock)


class LocalFiles:
    """Files in a folder in memory, else in the folder of temporary files. If TMPDIR is set, they are there.

    A folder is made when the first file in it is wanted.
    """

    def __init__(self) -> None:
        self._numbers = count(1)
        self._folders: dict[Path, LocalFolder] = {}
        self._memory_was_full = False

    def new(self) -> Path:
        """The name of a file that isn't there, in a folder of its own. Raises OSError if there is no room for that."""
        parent = self._parent()
        folder = self._folders.get(parent)
        if folder is None or not folder.path.is_dir():
            if folder is not None:
                folder.close()
                del self._folders[parent]
            folder = self._folders[parent] = LocalFolder(parent)
        path = folder.path / str(next(self._numbers))
        path.mkdir(mode=0o700)
        return path / FILE_NAME

    def _parent(self) -> Path:
        if "TMPDIR" in os.environ or self._memory_was_full or not has_room(MEMORY, ENOUGH_ROOM):
            return Path(tempfile.gettempdir())
        return MEMORY

    def drop(self, path: Path) -> None:
        """Removes a file with all that stands beside it."""
        if not self._memory_was_full and path.is_relative_to(MEMORY) and not has_room(MEMORY, NO_ROOM):
            self._memory_was_full = True
            log.warning("%s has no more room: batchctl gets files in the folder of temporary files from now on", MEMORY)
        shutil.rmtree(path.parent, ignore_errors=True)

    def close(self) -> None:
        """Removes all files."""
        for folder in self._folders.values():
            folder.close()
        self._folders.clear()


def has_room(folder: Path, least: int) -> bool:
    """Whether files of so many bytes may be made there."""
    try:
        found = os.statvfs(folder)
    except OSError:
        return False
    return found.f_bavail * found.f_frsize >= least and os.access(folder, os.W_OK | os.X_OK)


def remove_left(folder: Path) -> None:
    """Removes a folder that is this user's, and that nobody has."""
    with suppress(OSError):
        lock = os.open(folder, os.O_RDONLY | os.O_DIRECTORY | os.O_NOFOLLOW)
        try:
            if os.fstat(lock).st_uid == os.getuid():
                fcntl.flock(lock, fcntl.LOCK_EX | fcntl.LOCK_NB)
                shutil.rmtree(folder, ignore_errors=True)
                log.warning("%s was left by an instance that was killed, and is removed", folder)
        finally:
            os.close(lock)
