"""Versions of jobs that leave the catalogue as a history is compacted: no job instance is of them, and no start has them."""

from __future__ import annotations

from collections.abc import Callable, Sequence
from contextlib import AbstractAsyncContextManager
from typing import NamedTuple

from job_host.protocol.lines import read
from job_host.service.keepers.job_changes import JobChanges
from job_host.service.versions.book import JobBook


def used_in(state: Sequence[bytes]) -> frozenset[str]:
    """The jobs of the catalogue that have a job instance, by the answers to STATE."""
    return frozenset(read(state[-1])["names"])


class Leavers(NamedTuple):
    """Versions that may leave a catalogue, which has this line without them. So many changes were known then."""

    versions: frozenset[str]
    line: bytes
    changes: int


class Leaving:
    """What may leave in a term. `note` is told after versions have left, if somebody wants to know.

    A start takes its version as it queues for the engine's turn. So whoever lets changes rest, and then has the turn, knows all
    starts of versions that no later start has.
    """

    def __init__(self, changes: JobChanges, book: JobBook, note: Callable[[], None] = lambda: None) -> None:
        self._changes = changes
        self._book = book
        self._note = note

    def resting(self) -> AbstractAsyncContextManager[None]:
        """No job is changed meanwhile."""
        return self._changes.resting()

    @property
    def line(self) -> bytes:
        """The catalogue's line."""
        return self._book.line

    def leavers(self, state: Sequence[bytes]) -> Leavers | None:
        """What may leave a history with these answers to STATE, if something may."""
        versions = frozenset(self._book.unneeded(used_in(state)))
        return Leavers(versions, self._book.without(versions), len(self._book.changes)) if versions else None

    def line_now(self, leavers: Leavers) -> bytes | None:
        """The catalogue's line without these versions, behind which others may have come; or none if one was wanted again.

        It may have been started then, also if its job was withdrawn once more.
        """
        is_wanted = any(change.id in leavers.versions for change in self._book.changes[leavers.changes :])
        return None if is_wanted else self._book.without(leavers.versions)

    def leave(self, leavers: Leavers) -> None:
        """They have left the catalogue of the history."""
        self._book.leave(leavers.versions)
        self._note()
