"""Keeping on one machine: operations in the log of batchctl, with their clients and request keys, and an SQLite file beside it.

The log is what holds. What the file knows of it is read out of it again if the file is lost, or of another copy.
"""

from __future__ import annotations

import asyncio
import logging
import sqlite3
from collections.abc import Callable, Sequence
from concurrent.futures import ThreadPoolExecutor
from contextlib import suppress
from functools import partial
from typing import TYPE_CHECKING, TypeVar

from job_host.catalogue import growth, jobs
from job_host.catalogue.faults import NoVerdict
from job_host.catalogue.jobs import ServedJobs
from job_host.service.history import log_file
from job_host.service.history.audited import Audited, AuditWanted, Origin
from job_host.service.history.coprocess import CatalogueRefused, CoProcess, CoProcessEnded
from job_host.service.history.engine import Engine
from job_host.service.history.log_file import Beginning, KnownBase, OtherLog, Search
from job_host.service.keepers.batchctl_compact import COMPACT
from job_host.service.keepers.beside_base import BesideBase
from job_host.service.keepers.chaining import Chaining
from job_host.service.keepers.compacting import Compacting, rest_of
from job_host.service.keepers.due import Due
from job_host.service.keepers.embedded_notes import EmbeddedNotes
from job_host.service.keepers.embedded_term import Beside, EmbeddedTerm
from job_host.service.keepers.exchange import END_SECONDS, exchange
from job_host.service.keepers.keeper import ChainHead, Compaction, Fatal, Keeper, check_catalogue, first_of, needed
from job_host.service.keepers.noting import Noting
from job_host.service.keepers.opened_log import Arrange, opened
from job_host.service.keepers.replayed_log import ReplayedLog
from job_host.service.problems import Problem, unavailable
from job_host.service.settings import ServeSettings
from job_host.service.stores.beside_files import STORE_NAME
from job_host.service.stores.notifications import PolicyNotes
from job_host.service.stores.private_folder import make_private
from job_host.service.stores.sqlite import SqliteStore, refuse_later_file
from job_host.service.stores.sqlite_audit import wanted_in
from job_host.service.stores.versions import LaterVersion
from job_host.service.terms.calls import LogPage, LogSize, WorkLog
from job_host.service.terms.leases import Leases
from job_host.service.terms.sessions import Sessions
from job_host.service.terms.term import Observers, TermSettings, not_yet

if TYPE_CHECKING:
    from job_host.service.keepers.embedded_jobs import EmbeddedJobs
    from job_host.service.keepers.leaving import Leaving

log = logging.getLogger(__name__)

T = TypeVar("T")

RETRY = 0.25
PRUNE_SECONDS = 3_600.0
# How many keys are dropped at a time, so that calls needn't wait for all.
PRUNED = 5_000
LOG_NAME = "history.log"
NO_JOBS = b'{"jobs":[]}'


async def drop_all(beside: Beside, drop_some: Callable[[SqliteStore], bool]) -> None:
    """Drops what is to go, some at a time, so that commits come between."""
    while await beside.do(drop_some):
        pass


class EmbeddedKeeper(Keeper):
    """One instance, which always leads."""

    def __init__(self, settings: ServeSettings, served: ServedJobs, leases: Leases, observers: Observers) -> None:
        super().__init__(served, leases)
        self._settings = settings
        self._observers = observers
        self._file = served.line
        self._log = settings.data / LOG_NAME
        self._replayed = ReplayedLog(settings.batchctl, self._log, self.names)
        self._before_base = BesideBase(settings.data, self._log, settings.forget_keys)
        self._base: KnownBase | None = None
        self._chaining = Chaining(self._log) if settings.chain else None
        due = Due(settings.compact_at)
        self._compacting = Compacting(
            settings.batchctl,
            self._log,
            leases,
            due,
            self._reopen_compact,
            self._note_compaction,
            self._chaining,
            self._leaving,
        )
        self._sessions = Sessions({}, settings.bounds.clients)
        self._beside: Beside | None = None
        self._process: CoProcess | None = None
        self._jobs: EmbeddedJobs | None = self._jobs_of_folder() if served.files is not None else None
        self._closing = asyncio.Event()

    def _jobs_of_folder(self) -> EmbeddedJobs:
        """Only a folder needs what reads JSL."""
        from job_host.service.keepers.embedded_jobs import EmbeddedJobs

        return EmbeddedJobs(self._settings, lambda name: self.elsewhere(name))

    def load_jobs(self) -> None:
        if self._jobs is not None:
            self.book = self._jobs.load()

    async def run(self) -> None:
        make_private(self._settings.data)
        while not self._closing.is_set():
            try:
                await self._serve_once()
            except (CoProcessEnded, NoVerdict, Problem) as fault:
                log.warning("begins again: %s", fault)
            except (growth.CatalogueChanged, LaterVersion) as fault:
                raise Fatal(f"{type(fault).__name__}: {fault}") from fault
            except Fatal:
                raise
            except Exception:
                log.exception("begins again")
            with suppress(asyncio.TimeoutError):
                await asyncio.wait_for(self._closing.wait(), RETRY)

    async def _check_compact(self) -> None:
        """Raises Fatal if the log is to be compacted, and batchctl can't do that."""
        if self._settings.compact_at is not None and not await self._compacting.can():
            raise Fatal(f"{self._settings.batchctl[0]} has no `script --compact`, which --compact-at needs")

    async def _serve_once(self) -> None:
        """Serves until something fails. What fails throws the co-process away. The engine goes on with another one."""
        self.role = "starting"
        self._refuse_later()
        process = self._process = await self._start()
        thread = ThreadPoolExecutor(1, "beside")
        store: SqliteStore | None = None
        try:
            store = self._open_store(await asyncio.to_thread(log_file.beginning_of, self._log))
            beside = self._beside = Beside(store, thread)
            self.engine = await self._bring_on(process, beside)
            if self._chaining is not None:
                await asyncio.to_thread(self._chaining.begin)
            await self._lead(self.engine, beside)
        except sqlite3.Error as fault:
            raise unavailable("StoreLost", f"{type(fault).__name__}: {fault}") from fault
        finally:
            self.role, self.term, self.engine, self._beside = "starting", None, None, None
            await self._end(self._process)
            thread.shutdown(wait=True)
            if store is not None:
                store.close()

    async def _bring_on(self, process: CoProcess, beside: Beside) -> Engine:
        """An engine that knows the log. What the file beside it doesn't know of it is noted there."""
        try:
            return await self._noting(process, beside)
        except OtherLog:
            store = self._settings.data / STORE_NAME
            log.warning(
                "%s knows operations that aren't so in %s: what it knows is read out of the log again", store, self._log
            )
            if self._base is None:
                await beside.do(lambda store: store.forget_log())
            else:
                await self._before_base.forget(beside, self._base)
            return await self._noting(process, beside)

    async def _noting(self, process: CoProcess, beside: Beside) -> Engine:
        base = self._base
        if base is not None:
            await self._before_base.begin(beside, base)
        noted, requests = await beside.do(lambda store: (store.noted(), store.open_requests()))
        noting = Noting(process, beside, requests, self._settings.bounds.days_of_keys)
        search = Search(noted.operations, noted.line, frozenset(request.line for request in requests))
        engine = await self._replayed.bring_on(process, search, noting.note, partial(self._before_base.restore, beside))
        await noting.end(engine.based)
        await beside.do(lambda store: store.drop_unseen(engine.entered, engine.last_work))
        if base is not None:
            await self._before_base.end(beside, engine, base)
        return engine

    def _refuse_later(self) -> None:
        """Raises LaterVersion before batchctl has the log. A damaged file is told of when it is opened."""
        with suppress(sqlite3.Error):
            refuse_later_file(self._settings.data / STORE_NAME)

    def _open_store(self, beginning: Beginning) -> SqliteStore:
        """The store beside the log. One that is damaged ends the service."""
        self._base = beginning.base
        try:
            return self._before_base.open(beginning)
        except sqlite3.DatabaseError as fault:
            if isinstance(fault, sqlite3.OperationalError):
                raise
            raise Fatal(f"{self._settings.data / STORE_NAME} is damaged: {fault}") from fault

    async def _end(self, process: CoProcess | None) -> None:
        """Lets the co-process end by itself, so that its log has a clean end; else it is killed."""
        if process is None:
            return
        with suppress(asyncio.TimeoutError):
            await asyncio.wait_for(process.finish(), 5.0)
        await process.close()

    async def _start(self) -> CoProcess:
        """The co-process over its log, whose jobs may be in another order: then they are put into that order."""
        await check_catalogue(self._settings.batchctl, self.served)
        await self._check_compact()
        if self._jobs is None:
            return await self._open(self._file, self._in_order)
        return await self._start_jobs(self._jobs)

    async def _start_jobs(self, jobs: EmbeddedJobs) -> CoProcess:
        """The co-process over its log, with the versions that are kept, and with those that the folder of `--jobs` brings.

        These are on the disk with their files before batchctl is told of them.
        """
        self.book = jobs.load()
        self.book.take_over(await asyncio.to_thread(self._catalogue_kept))
        process = await self._open(self.book.line, self._behind_the_log) if self._log.exists() else None
        try:
            found = await asyncio.to_thread(jobs.plan, self.served)
            await asyncio.to_thread(jobs.keep, found.changes)
            await asyncio.to_thread(jobs.keep_seen, found)
        except BaseException:
            if process is not None:
                await self._end(process)
            raise
        self.book.enter(found.changes)
        if process is not None and process.catalogue == self.book.line:
            return process
        if process is not None:
            await self._end(process)
        return await self._open(self.book.line, self._behind_the_log)

    def _catalogue_kept(self) -> bytes:
        """The log's catalogue. There is none if the file can't be read: batchctl names what is wrong with it."""
        try:
            kept = log_file.catalogue_of(self._log) or NO_JOBS
            jobs.jobs_of(kept)
        except (OSError, ValueError, KeyError, TypeError):
            return NO_JOBS
        return kept

    async def _behind_the_log(self, given: bytes, refused: CatalogueRefused) -> bytes:
        """The catalogue that the log has, with the versions that it lacks behind it."""
        kept = log_file.catalogue_of(self._log)
        if kept is None or self.book is None:
            raise Fatal(f"{self._log}: {refused}") from refused
        self.book.take_over(kept)
        if self.book.line == given:
            raise Fatal(f"{self._log}: {refused}") from refused
        return self.book.line

    async def _open(self, catalogue: bytes, arrange: Arrange, *more: str) -> CoProcess:
        return await opened(self._settings.batchctl, self._log, catalogue, arrange, *more)

    async def _in_order(self, given: bytes, refused: CatalogueRefused) -> bytes:
        """The catalogue in the order of the log's. Raises what it changes or drops if it was in this order before."""
        kept = log_file.catalogue_of(self._log)
        if kept is None:
            raise Fatal(f"{self._log}: {refused}") from refused
        arranged = jobs.arranged(kept, self._file)
        if arranged == given:
            await asyncio.to_thread(growth.grown, self._settings.batchctl, kept, self._file)
            raise Fatal(f"{self._log}: {refused}") from refused
        return arranged

    async def _lead(self, engine: Engine, beside: Beside) -> None:
        self._replayed.keep(engine)
        self.history = await beside.do(lambda store: store.identity())
        most = self._settings.bounds.clients
        clients = await beside.do(lambda store: store.clients(most))
        self._sessions = Sessions(clients, most, engine.last_session, engine.holding)
        settings = TermSettings(self._settings.history.refuse_from)
        term = EmbeddedTerm(beside, self.history, self._chaining, engine, self._sessions, settings, self._observers)
        self.term, self.role, self.epoch = term, "leader", self.epoch + 1
        self._begin_changes(term)
        log.warning("serves after %d operations", engine.entered)
        tasks = [
            term.commit_rounds(),
            term.know_keys(),
            term.desk.serve(),
            term.desk.watch(),
            self.leases.watch(term),
            self._prune(beside, term),
            self._compacting.run(term, beside),
            self.watch(engine),
        ]
        try:
            await first_of([*tasks, engine.until_ended(), self._closing.wait()])
        finally:
            engine.process.log_end()
            self.role, self.term, self.engine = "starting", None, None
            term.fail(unavailable("Starting", "this instance ends, or begins again"))
            await self._end_changes()
            await self._note_rest(beside, term)

    async def _note_rest(self, beside: Beside, term: EmbeddedTerm) -> None:
        """Notes what isn't noted yet, and how the log stands if all of it is kept: so it is known again if somebody else
        compacts it."""
        engine = term.engine
        with suppress(Problem):
            await beside.do(lambda store: None)
            if engine.is_whole and term.committed == engine.entered:
                rest = rest_of(engine)
                await beside.do(lambda store: store.note_rest(rest))

    def _begin_changes(self, term: EmbeddedTerm) -> None:
        """From now on jobs may change, if they are those of a folder."""
        if self._jobs is not None:
            self.changes = self._jobs.changes(term, lambda line: self._grow(term, line), self._note_change)

    def _note_change(self) -> None:
        """Each change of jobs begins an epoch: consoles read them again."""
        self.epoch += 1

    async def _end_changes(self) -> None:
        changes, self.changes = self.changes, None
        if changes is not None:
            await changes.stop()

    async def _grow(self, term: EmbeddedTerm, catalogue: bytes) -> None:
        """Lets another co-process go on over the log, with a catalogue that has grown. Lines wait meanwhile."""
        async with term.engine.turn:
            if term.failure is not None:
                raise term.failure
            try:
                await exchange(term.engine, lambda: self._reopen(catalogue))
            except (CoProcessEnded, Fatal, asyncio.TimeoutError) as fault:
                raise unavailable("CoProcessEnded", f"the change may have been kept: {fault}") from fault

    async def _reopen(self, catalogue: bytes) -> CoProcess:
        """The co-process that goes on over the log."""
        self._process = await asyncio.wait_for(self._open(catalogue, self._refuse), END_SECONDS)
        return self._process

    async def _reopen_compact(self, catalogue: bytes) -> CoProcess:
        """The co-process that goes on over the log, after it has compacted it."""
        self._process = await self._open(catalogue, self._as_before, COMPACT)
        return self._process

    async def _as_before(self, given: bytes, refused: CatalogueRefused) -> bytes:
        """The catalogue that the log has, if batchctl lets no job leave it."""
        kept = await asyncio.to_thread(log_file.catalogue_of, self._log)
        if kept is None or kept == given:
            raise Fatal(f"{self._log}: {refused}") from refused
        log.warning("no job leaves the catalogue of %s: %s", self._log, refused)
        return kept

    def _leaving(self) -> Leaving | None:
        """The versions of jobs that may leave, if jobs are those of a folder."""
        if self.changes is None or self.book is None:
            return None
        from job_host.service.keepers.leaving import Leaving

        return Leaving(self.changes, self.book, self._note_change)

    def _note_compaction(self, one: Compaction) -> None:
        self.compaction = one

    async def _refuse(self, given: bytes, refused: CatalogueRefused) -> bytes:
        raise Fatal(f"{self._log}: {refused}") from refused

    async def read_folder(self, served: ServedJobs) -> None:
        """Reads it as soon as the service leads."""
        from job_host.service.keepers.job_changes import check_folder

        await asyncio.to_thread(check_folder, self._settings.batchctl, served)
        self.served = served
        while (changes := self.changes) is None and not self._closing.is_set():
            await asyncio.sleep(RETRY)
        if changes is not None and self._jobs is not None:
            found = await changes.read_folder(served, self._jobs.seen)
            await asyncio.to_thread(self._jobs.keep_seen, found)

    async def _forget_names(self, beside: Beside, term: EmbeddedTerm) -> None:
        """Forgets client names that hold no work item and weren't heard for long."""
        heard = term.sessions.take_heard()
        await beside.do(lambda store: store.note_heard(heard))
        found = await beside.do(lambda store: store.silent_clients(self._settings.bounds.name_seconds))
        silent = needed(term.engine, found)
        with term.sessions.forgetting(silent, term.engine.holding()) as dropped:
            await beside.do(lambda store: store.drop_clients(dropped))

    async def _prune(self, beside: Beside, term: EmbeddedTerm) -> None:
        days = self._settings.bounds.days_of_keys
        while True:
            await drop_all(beside, lambda store: store.drop_old_keys(days, PRUNED))
            await drop_all(beside, lambda store: store.audit.drop_based(PRUNED))
            once = await self.of_purged(await beside.do(lambda store: store.old_once(days)))
            await beside.do(lambda store, once=once: store.drop_once(once))  # type: ignore[misc]
            gone = await self.purged(await beside.do(lambda store: store.logged_executions()))
            await beside.do(lambda store, gone=gone: store.drop_logs(gone))  # type: ignore[misc]
            await self._forget_names(beside, term)
            await asyncio.sleep(PRUNE_SECONDS)

    async def reach(self, at_least: int) -> None:
        if at_least > self.reading().entered:
            raise not_yet(at_least, self.committed)

    async def logs(self, wanted: LogPage) -> list[WorkLog]:
        return await self._read(lambda store: store.logs(wanted))

    async def log_sizes(self, wanted: LogPage) -> list[LogSize]:
        return await self._read(lambda store: store.log_sizes(wanted))

    async def log_of(self, work: int) -> WorkLog | None:
        return await self._read(lambda store: store.log_of(work))

    async def log_ends(self, works: Sequence[int]) -> list[WorkLog]:
        return await self._read(lambda store: store.log_ends(works))

    @property
    def chain_head(self) -> ChainHead | None:
        return None if self._chaining is None else self._chaining.head

    async def audit(self, wanted: AuditWanted) -> list[Audited]:
        if self._beside is None:
            raise unavailable("Starting", "the history isn't here yet")
        # Its connection is another one, which sees what is noted by now.
        await self._beside.do(lambda store: None)
        try:
            return await asyncio.to_thread(wanted_in, self._settings.data / STORE_NAME, wanted)
        except sqlite3.Error as fault:
            raise unavailable("StoreLost", f"{type(fault).__name__}: {fault}") from fault

    async def origins(self, numbers: Sequence[int]) -> dict[int, Origin]:
        return await self._read(lambda store: store.audit.origins(numbers))

    async def _read(self, read: Callable[[SqliteStore], T]) -> T:
        if self._beside is None:
            raise unavailable("Starting", "the history isn't here yet")
        return await self._beside.do(read)

    def notes(self) -> PolicyNotes:
        self.leading()
        return EmbeddedNotes(self._read)

    async def client_names(self, sessions: Sequence[int]) -> dict[int, str]:
        names = {one: self._sessions.name(one) for one in sessions}
        unknown = [one for one, name in names.items() if name is None]
        if unknown and self._beside is not None:
            names |= await self._beside.do(lambda store: {one: store.name_of(one) for one in unknown})
        return {one: name for one, name in names.items() if name is not None}

    async def close(self) -> None:
        self._closing.set()
