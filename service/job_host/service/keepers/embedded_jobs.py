"""The versions of the jobs of an embedded service: what its folder keeps, what its log has, and what `--jobs` says now."""

from __future__ import annotations

import logging
from collections.abc import Awaitable, Callable, Sequence

from job_host.catalogue.jobs import ForWorkers, JobFile, ServedJobs
from job_host.catalogue.versions import read_for_workers
from job_host.service.keepers.folder_changes import FolderChanges, folder_changes
from job_host.service.keepers.job_changes import JobChanges, kept_change, to_its_end
from job_host.service.keepers.keeper import Fatal
from job_host.service.problems import Problem, unavailable
from job_host.service.settings import ServeSettings
from job_host.service.terms.term import Term
from job_host.service.versions.book import JobBook, nowhere
from job_host.service.versions.changes import Change
from job_host.service.versions.files import DamagedChanges, JobFiles

log = logging.getLogger(__name__)

# Lets a log's catalogue become this line, which begins with the jobs that it has.
Grow = Callable[[bytes], Awaitable[None]]


class EmbeddedJobs:
    """The book of one history, as its files have it."""

    def __init__(self, settings: ServeSettings, elsewhere: Callable[[str], str | None] = nowhere) -> None:
        self._settings = settings
        self._files = JobFiles(settings.data)
        self._elsewhere = elsewhere
        self.book = JobBook(self._files.file_of, self._read, elsewhere)
        self.seen: dict[str, str] = {}

    def _read(self, file: JobFile) -> ForWorkers:
        return read_for_workers(file, self._settings.allow)

    def load(self) -> JobBook:
        """Reads the files again. Raises Fatal if they are damaged."""
        self.book = JobBook(self._files.file_of, self._read, self._elsewhere)
        try:
            self.book.enter(self._files.load())
        except DamagedChanges as fault:
            raise Fatal(f"DamagedChanges: {fault}") from fault
        self.seen = self._files.seen()
        return self.book

    def plan(self, served: ServedJobs) -> FolderChanges:
        """What the folder of `--jobs` changes. Raises NoVerdict, and Fatal if the catalogue has no room for it."""
        found = folder_changes(self.book, self._settings.batchctl, served, self.seen)
        try:
            self.book.with_changes(found.changes)
        except Problem as full:
            raise Fatal(str(full)) from full
        return found

    def changes(self, term: Term, grow: Grow, note: Callable[[], None]) -> JobChanges:
        """Who changes jobs in a term. `note` is told after each change."""
        book = self.book
        term.find_change = lambda client, key: kept_change(book, client, key, term)

        async def keep(changes: Sequence[Change]) -> None:
            await self._change(term, changes, grow)
            note()

        return JobChanges(book, self._settings, keep)

    async def _change(self, term: Term, changes: Sequence[Change], grow: Grow) -> None:
        """Keeps changes on the disk, and then lets the log's catalogue grow. If a part fails, the term ends: the next one
        reads what is kept."""
        book, line = self.book, self.book.with_changes(changes)
        if term.failure is not None:
            raise term.failure
        try:
            await to_its_end(lambda: self.keep(changes))
            if line != book.line:
                await grow(line)
        except BaseException as fault:
            told = f"the change may have been kept: {type(fault).__name__} {fault}"
            term.fail(fault if isinstance(fault, Problem) else unavailable("CommitFailed", told))
            raise
        book.enter(changes)

    def keep(self, changes: Sequence[Change]) -> None:
        """Keeps changes on the disk. Raises a problem if that fails."""
        try:
            self._files.keep(changes)
        except OSError as fault:
            raise unavailable("StoreLost", f"{type(fault).__name__}: {fault}") from fault

    def keep_seen(self, found: FolderChanges) -> None:
        """Keeps how the files of the folder are. If that fails, they are compared again at the next start."""
        for line in found.told:
            log.warning("%s", line)
        self.seen = found.seen
        try:
            self._files.keep_seen(found.seen)
        except OSError as fault:
            log.warning("how the files of the jobs were read isn't kept: %s", fault)
