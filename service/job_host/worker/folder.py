"""The folder of artifacts: its executables, and whether a worker may claim work for it."""

from __future__ import annotations

import logging
import os
import time
from collections.abc import Iterator, Mapping
from contextlib import suppress
from pathlib import Path
from typing import Any

from job_host.protocol.bounds import MOST_ARTIFACTS
from job_host.protocol.executables import NoArtifact, find
from job_host.protocol.seldom import seldom

log = logging.getLogger(__name__)

SHORTEST_SECONDS = 1.0
LONGEST_SECONDS = 60.0
# The names of the executables are told so often, as a service that has begun anew doesn't know them.
TELL_SECONDS = 60.0
NOTHING: Mapping[str, Any] = {}


def names_of(work: Mapping[str, Any], step: Mapping[str, Any] = NOTHING) -> list[str]:
    """The executables that a work item and what is told of its step name."""
    uses = ("reader", "processor", "writer") if work["kind"] == "chunk" else ("ref",)
    algorithm = step.get("chunk", NOTHING).get("checkpoint-algorithm")
    others = [*([algorithm] if algorithm is not None else []), *step.get("listeners", [])]
    return [*(work[use] for use in uses if work.get(use) is not None), *(other["ref"] for other in others)]


class ArtifactFolder:
    """Says whether the next work item may be claimed: it would fail if its executables weren't there.

    Nothing is claimed while the folder is gone. After a work item without its executables nothing is claimed for a second, or
    until there is another folder or the executable. If the next one is without them too, it is two seconds, then four, and so
    on up to a minute. A work item with its executables sets it back to a second. So a worker whose folder is empty leaves the
    work to others, and one name that is wrong holds up the other jobs for a second each time.
    """

    def __init__(self, path: Path) -> None:
        self.path = path
        self._is_gone = False
        self._pause = SHORTEST_SECONDS
        self._until = 0.0
        self._missing: list[str] = []
        self._state: list[tuple[int, ...]] = []
        self._told: list[str] | None = None
        self._tell_from = 0.0
        self._say_gone = seldom(log.warning)
        self._say_missing = seldom(log.warning)

    def may_claim(self) -> bool:
        was_gone, self._is_gone = self._is_gone, not (self.path.is_dir() and os.access(self.path, os.X_OK))
        if self._is_gone:
            self._say_gone(f"the folder {self.path} is gone: nothing is claimed until it is back")
            return False
        if was_gone:
            log.warning("the folder %s is back", self.path)
        if self._missing and self._state_now() != self._state:
            self._forget()
        return time.monotonic() >= self._until

    def note(self, work: Mapping[str, Any], step: Mapping[str, Any] = NOTHING) -> None:
        """Notes whether a work item that was claimed has its executables."""
        self._missing = [name for name in names_of(work, step) if not self._has(name)]
        if not self._missing:
            self._forget()
            return
        self._state = self._state_now()
        self._until = time.monotonic() + self._pause
        told = f"{', '.join(map(repr, self._missing))} of step {work['element']!r} isn't in {self.path}"
        self._say_missing(f"{told}: nothing is claimed for {self._pause:g} seconds, or until it is there")
        self._pause = min(2 * self._pause, LONGEST_SECONDS)

    def news(self) -> list[str] | None:
        """The first names of the executables, if they have changed since they were told, or weren't told for a minute."""
        names = sorted(self._names())[:MOST_ARTIFACTS]
        if names == self._told and time.monotonic() < self._tell_from:
            return None
        self._told, self._tell_from = names, time.monotonic() + TELL_SECONDS
        return names

    def _names(self) -> Iterator[str]:
        with suppress(OSError), os.scandir(self.path) as files:
            yield from (file.name for file in files if file.is_file() and os.access(file.path, os.X_OK))

    def _forget(self) -> None:
        self._pause, self._until, self._missing = SHORTEST_SECONDS, 0.0, []

    def _has(self, name: str) -> bool:
        try:
            find(self.path, name)
        except NoArtifact:
            return False
        return True

    def _state_now(self) -> list[tuple[int, ...]]:
        """What tells another folder, and a missing executable that has come. What artifacts write beside it changes nothing."""
        return [state_of(self.path)[:2], *(state_of(self.path / name) for name in self._missing if "\0" not in name)]


def state_of(path: Path) -> tuple[int, ...]:
    """A number of the file system and of the file, and when it changed. It is empty if there is none."""
    try:
        found = path.stat()
    except OSError:
        return ()
    return found.st_dev, found.st_ino, found.st_ctime_ns
