"""The journal of a run, which libraries/power_cut.c writes: what the program did to its files and told, in order."""

from __future__ import annotations

import struct
from collections.abc import Iterator
from dataclasses import dataclass
from pathlib import Path

# The kind of a call, the file's number, a place or a length, and how many bytes follow.
HEAD = struct.Struct("=4Q")

WRITE, CUT, TOLD, DROPPED = "w", "c", "t", "a"
SYNC, FAILED_SYNC = "s", "f"
FOLDER_SYNC, FAILED_FOLDER_SYNC = "d", "e"
MADE, RENAME, LINK, UNLINK = "m", "r", "l", "u"
FAILED = FAILED_SYNC, FAILED_FOLDER_SYNC
SYNCS = SYNC, FOLDER_SYNC


@dataclass(frozen=True)
class Event:
    """A call that did something, or a sync that failed."""

    kind: str
    number: int
    place: int
    data: bytes

    def names(self) -> list[str]:
        """The names of files in the log's folder that a call was given."""
        return [Path(name.decode()).name for name in self.data.split(b"\0")]


def events_in(journal: bytes) -> Iterator[Event]:
    at = 0
    while at < len(journal):
        kind, number, place, size = HEAD.unpack_from(journal, at)
        at += HEAD.size
        yield Event(chr(kind), number, place, journal[at : at + size])
        at += size
