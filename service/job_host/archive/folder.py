"""The folder of an archive: a file for each month, to which whole lines are appended."""

from __future__ import annotations

import fcntl
import json
import logging
import os
import re
import stat
import uuid
from collections.abc import Iterator, Mapping
from datetime import datetime, timezone
from pathlib import Path
from typing import Any, BinaryIO, NamedTuple

from job_host.archive.lines import written

log = logging.getLogger(__name__)

MONTH_FILE = re.compile(r"[0-9]{4,}-[0-9]{2}\.jsonl")
# It says that a folder is an archive, and which one: a folder in its place, as an empty mount point, has another or none.
MARK = "archive.json"
VERSION = 1
OWN_FILE = stat.S_IRUSR | stat.S_IWUSR


class NoArchive(OSError):
    """The folder isn't there, isn't the archive that it was, or isn't read any more."""


class Place(NamedTuple):
    """Where a line stands: its file, and its first byte and its length there."""

    file: str
    offset: int
    length: int


class Line(NamedTuple):
    offset: int
    text: bytes


class ArchiveFolder:
    """An archive. `begin` is called before lines are appended: then another folder in its place is noticed."""

    def __init__(self, path: Path) -> None:
        self.path = path
        self._identity = ""
        self._is_closed = False
        # Files that this object has made sure of in the folder.
        self._synced: set[str] = set()

    def begin(self) -> None:
        """Makes the folder and its mark, if they aren't there. Raises OSError, and NoArchive if a later version wrote it."""
        self.path.mkdir(mode=stat.S_IRWXU, parents=True, exist_ok=True)
        mark = self.path / MARK
        if not mark.exists():
            # A folder that isn't mounted yet looks so, too.
            log.warning("begins a new archive in %s", self.path)
            self._write_mark(mark)
        self._identity = self._read_mark()

    def close(self) -> None:
        """From now on no more of it is read than was begun: whoever reads much of it ends soon, by NoArchive."""
        self._is_closed = True

    def check_open(self) -> None:
        if self._is_closed:
            raise NoArchive(f"{self.path} is closed")

    def _write_mark(self, mark: Path) -> None:
        """Another instance may do so at the same time: the first one's mark stays."""
        new = mark.with_name(f".{MARK}.{uuid.uuid4().hex}")
        text = json.dumps({"version": VERSION, "archive": uuid.uuid4().hex}) + "\n"
        descriptor = os.open(new, os.O_WRONLY | os.O_CREAT | os.O_EXCL, OWN_FILE)
        try:
            with open(descriptor, "wb") as file:
                file.write(text.encode())
                file.flush()
                os.fsync(file.fileno())
            try:
                os.link(new, mark)
            except FileExistsError:
                pass
        finally:
            new.unlink()
        self._sync()

    def _read_mark(self) -> str:
        try:
            told = json.loads((self.path / MARK).read_bytes())
            version, identity = told["version"], told["archive"]
        except FileNotFoundError as fault:
            raise NoArchive(f"{self.path} is no archive: it has no file {MARK}") from fault
        except (ValueError, KeyError, TypeError) as fault:
            raise NoArchive(f"{self.path / MARK} is damaged") from fault
        if version != VERSION:
            raise NoArchive(f"{self.path} is an archive of version {version}, and this program knows version {VERSION}")
        return str(identity)

    def check(self) -> None:
        """Raises NoArchive if the folder is gone, or if it isn't the one that was begun."""
        identity = self._read_mark()
        if self._identity and identity != self._identity:
            raise NoArchive(f"{self.path} is another archive than at the start")

    def append(self, record: Mapping[str, Any], now: int) -> Place:
        """Appends a record to the file of its month. It is on the disk when this returns. Raises OSError, and nothing is left.

        `now` is a moment in milliseconds since 1970.
        """
        self.check()
        text, path = written(record), self.path / month_file(now)
        is_new = path.name not in self._synced or not path.exists()
        descriptor = os.open(path, os.O_RDWR | os.O_APPEND | os.O_CREAT, OWN_FILE)
        with open(descriptor, "rb+", buffering=0) as file:
            # The lock ends with the file. Another instance may have the folder, too.
            fcntl.flock(file, fcntl.LOCK_EX)
            offset = append_line(file.fileno(), text)
        if is_new:
            self._sync()
            self._synced.add(path.name)
        return Place(path.name, offset, len(text))

    def _sync(self) -> None:
        descriptor = os.open(self.path, os.O_RDONLY | os.O_DIRECTORY)
        try:
            os.fsync(descriptor)
        finally:
            os.close(descriptor)

    def files(self) -> list[str]:
        """The files of months, the oldest first. Raises NoArchive if this is no archive."""
        self.check()
        return sorted(
            (name for name in os.listdir(self.path) if MONTH_FILE.fullmatch(name)), key=lambda name: (len(name), name)
        )

    def lines(self, name: str, offset: int) -> Iterator[Line]:
        """The whole lines of a file from an offset on, each with its line feed."""
        with (self.path / name).open("rb") as file:
            yield from lines_of(file, offset)

    def text_at(self, place: Place) -> bytes:
        """What stands at a place. It may be shorter, or another text than was there."""
        with (self.path / place.file).open("rb") as file:
            file.seek(place.offset)
            return file.read(place.length)


def month_file(now: int) -> str:
    when = datetime.fromtimestamp(now // 1000, timezone.utc)
    return f"{when.year:04d}-{when.month:02d}.jsonl"


def append_line(descriptor: int, text: bytes) -> int:
    """Appends a line behind whole lines, and syncs. Returns its offset. If that fails, the file is as it was.

    A line that a crash cut off is ended first: readers pass over it.
    """
    size = os.fstat(descriptor).st_size
    is_cut = size > 0 and os.pread(descriptor, 1, size - 1) != b"\n"
    try:
        write_all(descriptor, b"\n" + text if is_cut else text)
        os.fsync(descriptor)
    except OSError:
        os.ftruncate(descriptor, size)
        raise
    return size + is_cut


def write_all(descriptor: int, text: bytes) -> None:
    rest = memoryview(text)
    while rest:
        rest = rest[os.write(descriptor, rest) :]


def lines_of(file: BinaryIO, offset: int) -> Iterator[Line]:
    file.seek(offset)
    for text in file:
        if not text.endswith(b"\n"):
            return
        yield Line(offset, text)
        offset += len(text)
