"""Keeping in PostgreSQL: one instance leads, the others follow the table, answer reads, and take over."""

from __future__ import annotations

import asyncio
import logging
import os
import socket
import time
import uuid
from collections.abc import Awaitable, Callable, Sequence
from contextlib import suppress
from functools import partial
from typing import TYPE_CHECKING, TypeVar

from job_host.catalogue import growth, jobs
from job_host.catalogue.faults import NoVerdict
from job_host.catalogue.jobs import ServedJobs
from job_host.service.history.coprocess import CoProcessEnded
from job_host.service.history.audited import Audited, AuditWanted, Origin
from job_host.service.history.engine import Engine, ReplayDiffers
from job_host.service.keepers.base_making import BaseMaking
from job_host.service.keepers.due import Due
from job_host.service.keepers.grown_process import renew
from job_host.service.keepers.keeper import Compaction, Fatal, Keeper, check_catalogue, first_of, needed
from job_host.service.keepers.local_logs import CatalogueGrew, LocalLogs
from job_host.service.keepers.postgres_compacting import PostgresCompacting
from job_host.service.keepers.postgres_following import check_gap, knows_table, look_at_base
from job_host.service.keepers.postgres_term import PostgresTerm, beating, leading_epoch
from job_host.service.problems import Problem, unavailable
from job_host.service.settings import ServeSettings
from job_host.service.stores.local_files import LocalFiles
from job_host.service.stores.notifications import PolicyNotes
from job_host.service.stores.postgres import Leader, PostgresStore
from job_host.service.stores.postgres_bases import BaseDamaged, BaseGone, OperationsMissing
from job_host.service.stores.postgres_connection import LOST, NoPrimary, NotDurable
from job_host.service.stores.postgres_notifications import PostgresNotes
from job_host.service.stores.versions import LaterVersion
from job_host.service.terms.calls import LogPage, LogSize, WorkLog
from job_host.service.terms.leases import Leases
from job_host.service.terms.sessions import Sessions
from job_host.service.terms.term import Observers, TermSettings, not_yet

if TYPE_CHECKING:
    from job_host.service.keepers.postgres_jobs import PostgresJobs
    from job_host.service.keepers.postgres_leaving import PostgresLeaving

log = logging.getLogger(__name__)

T = TypeVar("T")

POLL = 0.1
CHUNK = 2_000
RETRY = 0.25
# So many beats a leader has before another instance takes it for gone.
BEATS = 5
PRUNE_SECONDS = 3_600.0
RESIGN_SECONDS = 1.0
# How many keys are dropped at a time, so that calls needn't wait for all.
PRUNED = 5_000


# What lets an instance begin again, and what it can't go on with: a person has to look.
AGAIN = (NoPrimary, CoProcessEnded, CatalogueGrew, BaseGone, NoVerdict, Problem, *LOST)
OVER = (ReplayDiffers, BaseDamaged, OperationsMissing, NotDurable, LaterVersion, growth.CatalogueChanged)


class PostgresKeeper(Keeper):
    def __init__(self, settings: ServeSettings, served: ServedJobs, leases: Leases, observers: Observers) -> None:
        super().__init__(served, leases)
        self._settings = settings
        self._observers = observers
        self._holder = f"{socket.gethostname()}:{os.getpid()}:{uuid.uuid4().hex[:8]}"
        self._file = served.line
        self._catalogue = b""
        self._bring: bytes | None = None
        self._has_begun = False
        self._store: PostgresStore | None = None
        # It outlives a connection that is lost, and a term. It has entered nothing of a later epoch.
        self._kept: Engine | None = None
        # The identity of the history whose base it began with.
        self._kept_history = ""
        self._entered_epoch = 0
        self._files = LocalFiles()
        self._logs = LocalLogs(settings.batchctl, settings.postgres, self._files)
        self._compacting = PostgresCompacting(settings.batchctl, Due(settings.compact_at), self._note_compaction)
        self._making = BaseMaking(self._logs, self._files, settings.postgres, self._compacting.put)
        self._sessions = Sessions({}, settings.bounds.clients)
        self._jobs = self._jobs_of_folder() if served.files is not None else None
        self._poke = asyncio.Event()
        self._followed = asyncio.Condition()
        self._closing = asyncio.Event()

    def _jobs_of_folder(self) -> PostgresJobs:
        """Only a folder needs what reads JSL."""
        from job_host.service.keepers.postgres_jobs import PostgresJobs

        return PostgresJobs(self._settings, self._logs, self._compacting.turn, lambda name: self.elsewhere(name))

    def _note_compaction(self, one: Compaction) -> None:
        self.compaction = one

    async def run(self) -> None:
        await check_catalogue(self._settings.batchctl, self.served)
        if self._settings.compact_at is not None and not await self._compacting.can():
            raise Fatal(f"{self._settings.batchctl[0]} has no `script --compact`, which --compact-at needs")
        try:
            await self._serve()
        finally:
            await self._throw_away()
            self._files.close()

    async def _serve(self) -> None:
        while not self._closing.is_set():
            try:
                await self._serve_once()
            except AGAIN as fault:
                log.warning("begins again: %s %s", type(fault).__name__, fault)
            except OVER as fault:
                raise Fatal(f"{type(fault).__name__}: {fault}") from fault
            except Exception:
                log.exception("begins again")
            with suppress(asyncio.TimeoutError):
                await asyncio.wait_for(self._closing.wait(), RETRY)

    async def _serve_once(self) -> None:
        """Follows, then leads, until something fails. What fails throws the connections away."""
        self.role = "starting"
        store = await PostgresStore.open(self._settings.postgres, self._settings.commit_timeout)
        self._store = store
        watching: asyncio.Future[None] | None = None
        try:
            engine = self.engine = await self._engine_over(store)
            await self._load_jobs(store)
            watching = asyncio.ensure_future(self.watch(engine))
            epoch = await self._follow(store, engine)
            if epoch is not None:
                await self._lead(store, engine, epoch)
        finally:
            self.role, self.term, self.engine, self._store = "starting", None, None, None
            if watching is not None:
                watching.cancel()
            store.close()

    async def _engine_over(self, store: PostgresStore) -> Engine:
        """The engine from before, if it knows what the table has and no more; else a new one, which knows the newest base."""
        self._catalogue, self._bring = await self._choose(await store.catalogue())
        self._has_begun = True
        if self._kept is not None and not await self._may_go_on(store, self._kept):
            log.warning(
                "batchctl is begun again: it has ended, or knows what isn't in the table, or lacks what isn't there any more"
            )
            await self._throw_away()
            # Another instance may lead before this one has replayed the table.
            leader = await store.leader()
            if leader.holder == self._holder:
                await self._resign(store, leader.epoch)
        if self._kept is None:
            self._kept, self._kept_history = await self._start_engine()
        return self._kept

    async def _may_go_on(self, store: PostgresStore, engine: Engine) -> bool:
        """Whether its co-process lives, and it knows nothing that isn't in the table."""
        if engine.process.catalogue != self._catalogue or not await engine.has_noted_all():
            return False
        return await knows_table(store, engine, self._entered_epoch)

    async def _start_engine(self) -> tuple[Engine, str]:
        return await self._logs.engine(self._catalogue, self.names)

    async def _throw_away(self) -> None:
        engine, self._kept = self._kept, None
        if engine is not None:
            await engine.process.close()

    async def _choose(self, kept: bytes | None) -> tuple[bytes, bytes | None]:
        """The catalogue to go by; and again, if it is to be kept.

        At its start an instance has a file with each kept job. Later another instance may bring more jobs, which it takes over.
        Jobs of a folder have versions: the kept catalogue has them all.
        """
        if kept is None:
            return self._file, self._file
        if self._jobs is not None:
            return kept, None
        batchctl = self._settings.batchctl
        if self._has_begun and not await asyncio.to_thread(growth.changed_jobs, batchctl, self._file, kept):
            return kept, None
        grown = await asyncio.to_thread(growth.grown, batchctl, kept, self._file)
        has_grown = len(jobs.jobs_of(grown)) > len(jobs.jobs_of(kept))
        return (grown, grown) if has_grown else (kept, None)

    async def _load_jobs(self, store: PostgresStore) -> None:
        """Reads who has changed which jobs."""
        if self._jobs is not None:
            self.book = await self._jobs.load(store, self._catalogue)

    async def _follow(self, store: PostgresStore, engine: Engine) -> int | None:
        """Follows the table until it may lead. Returns the epoch, or none if the service is to end."""
        last: Leader | None = None
        since = time.monotonic()
        while not self._closing.is_set():
            if engine.process.has_ended:
                raise CoProcessEnded(f"batchctl ended with status {engine.process.status}: {engine.process.errors}")
            leader = await store.leader()
            if last is None or leader.epoch != last.epoch:
                await self._look_at_epoch(store, engine, leader)
            await self._catch_up(store, engine, leader.epoch)
            await look_at_base(store, engine, leader)
            if leader != last:
                last, since = leader, time.monotonic()
            self.leader_url, self.epoch, self.history = leader.url, leader.epoch, leader.history
            self.role = "follower"
            is_free = leader.holder in ("", self._holder)
            if self.may_lead() and (is_free or time.monotonic() - since >= self._settings.takeover_after):
                epoch = await store.take_over(leader, self._holder, self._settings.advertise, self._bring)
                if epoch is not None:
                    return epoch
            self._poke.clear()
            with suppress(asyncio.TimeoutError):
                await asyncio.wait_for(self._poke.wait(), POLL)
        return None

    async def _look_at_epoch(self, store: PostgresStore, engine: Engine, leader: Leader) -> None:
        """With a new epoch the catalogue may have more jobs. Versions of jobs are taken over while reads go on."""
        chosen, bring = await self._choose(await store.catalogue())
        if self._jobs is not None and bring is None and chosen != self._catalogue:
            await self._jobs.follow(store, engine, chosen, leader.epoch)
            self._catalogue, self._bring = chosen, None
        if chosen != self._catalogue:
            raise CatalogueGrew(f"by epoch {leader.epoch}")
        await self._load_jobs(store)

    async def _catch_up(self, store: PostgresStore, engine: Engine, epoch: int) -> None:
        """Replays what the table has more than the co-process, up to this epoch, whose catalogue the co-process has.

        The next operations are read while those before them are replayed. Raises BaseGone if a base has taken their place.
        """
        self._entered_epoch = epoch
        records = await store.operations_after(engine.entered, epoch, CHUNK)
        while records:
            await check_gap(store, engine, records)
            coming = asyncio.ensure_future(store.operations_after(records[-1].number, epoch, CHUNK))
            coming.add_done_callback(lambda done: done.cancelled() or done.exception())
            async with engine.turn:
                await engine.replay(records)
            async with self._followed:
                self._followed.notify_all()
            records = await coming

    async def _lead(self, store: PostgresStore, engine: Engine, epoch: int) -> None:
        """Leads until the epoch is another's, a part fails, or the service is to end."""
        begun = time.monotonic()
        beat = min(1.0, self._settings.takeover_after / BEATS)
        async with beating(store, epoch, beat):
            await self._catch_up(store, engine, epoch)
            most = self._settings.bounds.clients
            self._sessions = Sessions(await store.clients(most), most, engine.last_session, engine.holding)
        leader = await store.leader()
        self.history = leader.history
        await look_at_base(store, engine, leader)
        await self._check_history(engine)
        settings = TermSettings(self._settings.history.refuse_from, beat)
        term = PostgresTerm(store, epoch, engine, self._sessions, settings, self._observers)
        self._bring = None
        if self._jobs is None:
            await self._open_doors(term, begun)
        rounds = [term.commit_rounds(), term.know_keys(), term.desk.serve(), term.desk.watch(), self.leases.watch(term)]
        rounds.append(self._prune(store, term))
        rounds.append(self._compacting.run(self._making, term, partial(self._renew, store, term), partial(self._leaving, term)))
        if self._jobs is not None:
            rounds.append(self._lead_jobs(store, term, begun))
        try:
            await first_of([*rounds, engine.until_ended(), self._until_over()])
        finally:
            # Its co-process may know more than the table: nobody reads it before that is known.
            engine.process.log_end()
            self.role, self.term, self.engine = "starting", None, None
            is_over = self._closing.is_set() or not self.may_lead()
            if engine.process.has_ended or (is_over and term.failure is None):
                await self._resign(store, term.epoch)
            term.fail(unavailable("NotLeader", "this instance leads no more"))
            changes, self.changes = self.changes, None
            if changes is not None:
                await changes.stop()

    async def _until_over(self) -> None:
        """Returns after this instance may lead no more, or is to end."""
        while not self._closing.is_set() and self.may_lead():
            with suppress(asyncio.TimeoutError):
                await asyncio.wait_for(self._closing.wait(), POLL)

    async def _check_history(self, engine: Engine) -> None:
        """Raises BaseGone if the engine knows the base of another history: the table was emptied, and a new one has begun."""
        if engine.based and self.history != self._kept_history:
            await self._throw_away()
            raise BaseGone("its history is over, and another one begins")
        self._kept_history = self.history

    async def _open_doors(self, term: PostgresTerm, begun: float) -> None:
        """From now on this instance takes calls."""
        self.term, self.role, self.epoch = term, "leader", term.epoch
        self.leader_url = self._settings.advertise
        self.last_takeover = time.monotonic() - begun
        log.warning("leads by epoch %d, after %d operations", term.epoch, term.engine.entered)
        async with self._followed:
            self._followed.notify_all()

    async def _lead_jobs(self, store: PostgresStore, term: PostgresTerm, begun: float) -> None:
        """Takes in what the folder of `--jobs` changes, and then calls. Notes later epochs of this term, for ever."""
        if self._jobs is None:
            return
        book = self.book = await self._jobs.load(store, self._catalogue)
        changes = self._jobs.changes(store, term, book)
        await self._jobs.begin(changes, book, self.served)
        self._note_epoch(term)
        self.changes = changes
        await self._open_doors(term, begun)
        while True:
            await term.grown.wait()
            self._note_epoch(term)

    def _leaving(self, term: PostgresTerm) -> PostgresLeaving | None:
        """The versions of jobs that may leave, if jobs are those of a folder."""
        if self.changes is None or self.book is None:
            return None
        from job_host.service.keepers.leaving import Leaving
        from job_host.service.keepers.postgres_leaving import PostgresLeaving

        return PostgresLeaving(Leaving(self.changes, self.book), term, self._compacting.turn)

    async def _renew(self, store: PostgresStore, term: PostgresTerm) -> None:
        """Lets a batchctl that begins with the newest base go on in a term."""
        await renew(self._logs, store, term, term.engine.process.catalogue if self.book is None else self.book.line)

    def _note_epoch(self, term: PostgresTerm) -> None:
        term.grown.clear()
        self.epoch = self._entered_epoch = term.epoch

    async def read_folder(self, served: ServedJobs) -> None:
        """The leader reads it. Another instance reads its own when it leads."""
        self.served = served
        if self._jobs is not None and self.changes is not None:
            await self._jobs.read_folder(self.changes, served)

    @staticmethod
    async def _resign(store: PostgresStore, epoch: int) -> None:
        """Lets another instance lead at once. A server that waits for its standby isn't waited for."""
        with suppress(*LOST):
            await asyncio.wait_for(store.resign(epoch), RESIGN_SECONDS)

    async def _forget_names(self, store: PostgresStore, term: PostgresTerm) -> None:
        """Forgets client names that hold no work item and weren't heard for long."""
        await store.note_heard(term.sessions.take_heard())
        silent = needed(term.engine, await store.silent_clients(self._settings.bounds.name_seconds))
        with term.sessions.forgetting(silent, term.engine.holding()) as dropped:
            if dropped:
                await store.drop_clients(term.epoch, dropped)

    async def _prune(self, store: PostgresStore, term: PostgresTerm) -> None:
        """Drops what is old, now and then. If that fails, the term goes on, and it is tried again."""
        while True:
            try:
                await self._prune_once(store, term)
            except (Problem, *LOST) as fault:
                log.warning("what is old is dropped later: %s %s", type(fault).__name__, fault)
            await asyncio.sleep(PRUNE_SECONDS)

    async def _prune_once(self, store: PostgresStore, term: PostgresTerm) -> None:
        days = self._settings.bounds.days_of_keys
        while await store.drop_old_keys(days, PRUNED):
            pass
        await store.drop_once(await self.of_purged(await store.old_once(days)))
        await store.drop_logs(await self.purged(await store.logged_executions()))
        await self._forget_names(store, term)

    async def reach(self, at_least: int) -> None:
        """A follower looks at the table at once, and waits for what is missing."""
        deadline = time.monotonic() + self._settings.bounds.at_least_seconds
        while self.operations < at_least or self.role == "starting":
            self._poke.set()
            remaining = deadline - time.monotonic()
            if remaining <= 0 or (self.term is not None and self.term.failure is not None):
                self.reading()
                raise not_yet(at_least, self.committed)
            async with self._followed:
                with suppress(asyncio.TimeoutError):
                    await asyncio.wait_for(self._followed.wait(), min(remaining, 0.05))

    async def logs(self, wanted: LogPage) -> list[WorkLog]:
        return await self._read(lambda store: store.logs(wanted))

    async def log_sizes(self, wanted: LogPage) -> list[LogSize]:
        return await self._read(lambda store: store.log_sizes(wanted))

    async def log_of(self, work: int) -> WorkLog | None:
        return await self._read(lambda store: store.log_of(work))

    async def log_ends(self, works: Sequence[int]) -> list[WorkLog]:
        return await self._read(lambda store: store.log_ends(works))

    async def audit(self, wanted: AuditWanted) -> list[Audited]:
        return await self._read(lambda store: store.audit(wanted))

    async def origins(self, numbers: Sequence[int]) -> dict[int, Origin]:
        """They aren't known while the server doesn't answer."""
        with suppress(Problem):
            return await self._read(lambda store: store.origins(numbers))
        return {}

    async def _read(self, read: Callable[[PostgresStore], Awaitable[T]]) -> T:
        if self._store is None:
            raise unavailable("Starting", "the history isn't here yet")
        try:
            return await read(self._store)
        except LOST as fault:
            raise unavailable("StoreLost", f"{type(fault).__name__}: {fault}") from fault

    def notes(self) -> PolicyNotes:
        return PostgresNotes(lambda use: self._read(lambda store: store.use(use)), leading_epoch(self.leading()))

    async def client_names(self, sessions: Sequence[int]) -> dict[int, str]:
        names = {one: name for one in sessions if (name := self._sessions.name(one)) is not None}
        unknown = [one for one in sessions if one not in names]
        if unknown and self._store is not None:
            with suppress(*LOST):
                names |= await self._store.names_of(unknown)
        return names

    async def close(self) -> None:
        self._closing.set()
