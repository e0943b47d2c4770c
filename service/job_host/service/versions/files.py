"""Where an embedded service keeps the files of its jobs: in the folder of its history, each version as a file of its own.

The settings of a version are a file beside it. The file `changes` has a line for each change. A change counts from its line on,
which is written after its files. All are on the disk before the catalogue grows, so that the files of each version of the log
are there.
"""

from __future__ import annotations

import fcntl
import json
import logging
import os
from collections.abc import Mapping, Sequence
from contextlib import suppress
from pathlib import Path
from typing import Any
from urllib.parse import quote

from job_host.catalogue.jobs import JobFile, SettingsFile
from job_host.catalogue.settings import SUFFIX
from job_host.protocol.lines import compact
from job_host.service.versions.changes import APPLY, Change, change_in, digest_of

log = logging.getLogger(__name__)

FOLDER, CHANGES, SEEN = "jobs", "changes", "seen"
# Characters of a name that a file's name has at most.
MOST_NAME = 180


class DamagedChanges(Exception):
    """The file of changes has a line that is none. The text names it."""


def file_name(name: str, version: int, suffix: str) -> str:
    """The name of a version's file: the job's, with what a file's name can't have written out."""
    written = quote(name, safe=" !#$&'()+,;=@[]{}~").replace(".", "%2E", name.startswith("."))
    if len(written) > MOST_NAME:
        written = f"{written[:MOST_NAME]}~{digest_of(name.encode('utf-8', 'surrogatepass'))[:16]}"
    return f"{written}@{version}{suffix}"


def sync_folder(folder: Path) -> None:
    place = os.open(folder, os.O_RDONLY | os.O_DIRECTORY)
    try:
        os.fsync(place)
    finally:
        os.close(place)


def write_whole(path: Path, data: bytes) -> None:
    """Writes a file so that it is there whole or as it was. After a sync of its folder it is on the disk."""
    begun = path.with_name(f".{path.name}.new")
    with open(os.open(begun, os.O_WRONLY | os.O_CREAT | os.O_TRUNC | os.O_CLOEXEC, 0o600), "wb") as file:
        file.write(data)
        file.flush()
        os.fsync(file.fileno())
    begun.rename(path)


def whole_size(data: bytes) -> int:
    """The size of the whole lines."""
    return data.rfind(b"\n") + 1


def write_or_undo(place: int, lines: bytes, before: int) -> None:
    """Appends lines, and syncs them. If that fails, the file has its size from before."""
    try:
        written = os.write(place, lines)
        if written < len(lines):
            raise OSError(f"{written} of {len(lines)} bytes could be written")
        os.fsync(place)
    except OSError:
        os.ftruncate(place, before)
        raise


class JobFiles:
    """The files of one history's jobs."""

    def __init__(self, data: Path) -> None:
        self._data = data
        self.folder = data / FOLDER

    def load(self) -> list[Change]:
        """All changes, the oldest first, without their files. What a crash has cut off isn't read. Raises DamagedChanges."""
        path = self.folder / CHANGES
        if not path.exists():
            return []
        data = path.read_bytes()
        whole = data[: whole_size(data)]
        if len(whole) < len(data):
            log.warning("%s: a crash has cut off a change, which nobody was told of: it isn't read", path)
        return [self._read(path, number, line) for number, line in enumerate(whole.splitlines(), 1)]

    @staticmethod
    def _read(path: Path, number: int, line: bytes) -> Change:
        try:
            return change_in(json.loads(line), None)
        except (ValueError, KeyError, TypeError) as fault:
            raise DamagedChanges(f"{path}, line {number}: {type(fault).__name__} {fault}") from fault

    def file_of(self, change: Change) -> JobFile | None:
        """The file of a version with its settings, if they are there as they were applied."""
        told = self._told_of(change)
        if told is None:
            return None
        data = self._data_of(change, told["suffix"], told["digest"])
        settings = None
        if "settings" in told:
            held = self._data_of(change, SUFFIX, told["settingsDigest"])
            settings = None if held is None else SettingsFile(told["settings"], held)
        if data is None or (settings is None and "settings" in told):
            return None
        return JobFile(told["file"], told["suffix"], data, settings)

    def _data_of(self, change: Change, suffix: str, digest: str) -> bytes | None:
        with suppress(OSError):
            data = self._place_of(change, suffix).read_bytes()
            return data if digest_of(data) == digest else None
        return None

    def _place_of(self, change: Change, suffix: str) -> Path:
        return self.folder / file_name(change.name, change.version, suffix)

    def _told_of(self, change: Change) -> Mapping[str, Any] | None:
        """The line of a change with a file."""
        data = (self.folder / CHANGES).read_bytes()
        for line in reversed(data[: whole_size(data)].splitlines()):
            told: dict[str, Any] = json.loads(line)
            if (told["action"], told["name"], told["version"]) == (APPLY, change.name, change.version) and "file" in told:
                return told
        return None

    def keep(self, changes: Sequence[Change]) -> None:
        """Keeps changes, with their files. They are on the disk at the end. Raises OSError."""
        if not changes:
            return
        if not self.folder.exists():
            self.folder.mkdir(mode=0o700)
            sync_folder(self._data)
        for change in changes:
            if change.file is not None:
                self._write(change, change.file)
        sync_folder(self.folder)
        self._append(b"".join(compact(change.members()) + b"\n" for change in changes))

    def _write(self, change: Change, file: JobFile) -> None:
        """Writes the file of a version and its settings. A change that a crash has cut off may have left some."""
        write_whole(self._place_of(change, file.suffix), file.data)
        settings = self._place_of(change, SUFFIX)
        if file.settings is None:
            settings.unlink(missing_ok=True)
        else:
            write_whole(settings, file.settings.data)

    def _append(self, lines: bytes) -> None:
        """Puts lines behind the last whole one."""
        path = self.folder / CHANGES
        is_new = not path.exists()
        place = os.open(path, os.O_RDWR | os.O_CREAT | os.O_APPEND | os.O_CLOEXEC, 0o600)
        try:
            fcntl.flock(place, fcntl.LOCK_EX)
            before = whole_size(path.read_bytes())
            os.ftruncate(place, before)
            write_or_undo(place, lines, before)
        finally:
            os.close(place)
        if is_new:
            sync_folder(self.folder)

    def seen(self) -> dict[str, str]:
        """Digests of the files in the folder of `--jobs` as they were read last, by the names of their jobs."""
        try:
            told = json.loads((self.folder / SEEN).read_bytes())
        except (OSError, ValueError):
            return {}
        return {str(name): str(digest) for name, digest in told.items()} if isinstance(told, dict) else {}

    def keep_seen(self, seen: Mapping[str, str]) -> None:
        if self.folder.exists():
            write_whole(self.folder / SEEN, compact(dict(seen)) + b"\n")
