"""The versions of the jobs of a service over PostgreSQL, as its table has them."""

from __future__ import annotations

import asyncio
import logging
from collections.abc import Callable, Sequence

from job_host.catalogue.faults import NoVerdict
from job_host.catalogue.jobs import ForWorkers, JobFile, JobsRefused, ServedJobs
from job_host.catalogue.versions import read_for_workers
from job_host.service.history.engine import Engine
from job_host.service.keepers.folder_changes import known_files
from job_host.service.keepers.grown_process import FAILED, Epoch, GrownProcess, brought_on
from job_host.service.keepers.job_changes import JobChanges, check_folder, kept_change
from job_host.service.keepers.local_logs import LocalLogs
from job_host.service.keepers.postgres_term import PostgresTerm
from job_host.service.problems import Problem, unavailable
from job_host.service.settings import ServeSettings
from job_host.service.stores.postgres import PostgresStore
from job_host.service.versions.book import JobBook, nowhere
from job_host.service.versions.changes import Change, Growth

log = logging.getLogger(__name__)


class PostgresJobs:
    """The book of one history. `seen` are the files of this instance's folder as they were read last.

    While it holds `turn`, this instance keeps no base: that would take operations away which another co-process is handed.
    """

    def __init__(
        self,
        settings: ServeSettings,
        logs: LocalLogs,
        turn: asyncio.Lock,
        elsewhere: Callable[[str], str | None] = nowhere,
    ) -> None:
        self._settings = settings
        self._elsewhere = elsewhere
        self._logs = logs
        self._turn = turn
        self.book: JobBook | None = None
        self.seen: dict[str, str] = {}

    def _read(self, file: JobFile) -> ForWorkers:
        return read_for_workers(file, self._settings.allow)

    async def load(self, store: PostgresStore, catalogue: bytes) -> JobBook:
        """Reads what the table has, under a catalogue."""
        book = JobBook(lambda change: change.file, self._read, self._elsewhere)
        book.enter(await store.job_changes())
        book.take_over(catalogue)
        self.book = book
        return book

    def changes(self, store: PostgresStore, term: PostgresTerm, book: JobBook) -> JobChanges:
        """Who changes jobs in a term."""
        term.find_change = lambda client, key: kept_change(book, client, key, term)
        return JobChanges(book, self._settings, lambda changes: self._keep(store, term, book, changes))

    async def _keep(self, store: PostgresStore, term: PostgresTerm, book: JobBook, changes: Sequence[Change]) -> None:
        """Keeps changes. If the catalogue grows, a co-process that knows it takes the other one's place behind that."""
        line = book.with_changes(changes)
        if term.failure is not None:
            raise term.failure
        if line == book.line:
            await term.keep_growth(Growth(changes, None))
            book.enter(changes)
            return
        async with self._turn:
            await self._grow(store, term, Growth(changes, line))
        book.enter(changes)

    async def _grow(self, store: PostgresStore, term: PostgresTerm, growth: Growth) -> None:
        """Keeps a catalogue that grows."""
        grown = await self.grown(store, term.engine, growth.catalogue or b"", lambda: term.epoch)
        try:
            await term.keep_growth(growth)
            await grown.take_place()
        except BaseException as fault:
            # The table may have the catalogue that the term's co-process hasn't.
            term.fail(unavailable("CommitFailed", f"a change of jobs may have been kept: {type(fault).__name__} {fault}"))
            await grown.close()
            raise term.failure or fault from fault

    async def follow(self, store: PostgresStore, engine: Engine, line: bytes, epoch: int) -> None:
        """Takes over a catalogue that a leader has kept under this epoch."""
        async with self._turn:
            grown = await self.grown(store, engine, line, lambda: epoch)
            try:
                await grown.take_place()
            finally:
                await grown.close()

    async def grown(self, store: PostgresStore, engine: Engine, line: bytes, epoch: Epoch) -> GrownProcess:
        """A co-process with a catalogue that has grown, which knows what the table has."""
        try:
            return await brought_on(self._logs, store, engine, line, epoch)
        except FAILED as fault:
            raise unavailable("CoProcessEnded", f"nothing is changed: {type(fault).__name__} {fault}") from fault

    async def begin(self, changes: JobChanges, book: JobBook, served: ServedJobs) -> None:
        """Takes in what the folder of a new leader changes. A file that a version was made of before may be an old one."""
        try:
            await self.read_folder(changes, served, known_files(book, served))
        except (Problem, NoVerdict, JobsRefused) as fault:
            log.error("the jobs stay as they are: %s", fault)

    async def read_folder(self, changes: JobChanges, served: ServedJobs, seen: dict[str, str] | None = None) -> None:
        """Takes in what has changed in the folder. Raises a problem, NoVerdict, or JobsRefused."""
        await asyncio.to_thread(check_folder, self._settings.batchctl, served)
        found = await changes.read_folder(served, self.seen if seen is None else seen)
        self.seen = found.seen
        for line in found.told:
            log.warning("%s", line)
