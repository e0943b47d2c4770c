"""A keeper has the history: over PostgreSQL, or over a log of its own. Routes speak to this class alone."""

from __future__ import annotations

import asyncio
import logging
from abc import ABC, abstractmethod
from collections.abc import AsyncIterator, Awaitable, Callable, Mapping, Sequence
from contextlib import asynccontextmanager
from dataclasses import dataclass, replace
from typing import TYPE_CHECKING, Any, NamedTuple

from job_host.catalogue.jobs import ForWorkers, ServedJobs
from job_host.catalogue.names import PLAIN_NAMES, VERSIONED_NAMES, id_of
from job_host.catalogue.policies import NO_POLICIES, JobPolicies
from job_host.protocol.lines import query, read
from job_host.service.history.actions import Action
from job_host.service.history.answers import Answers
from job_host.service.history.audited import Audited, AuditWanted, Origin, token_of
from job_host.service.history.coprocess import CatalogueRefused, CoProcess
from job_host.service.history.engine import Engine
from job_host.service.history.work_items import Ended, Held
from job_host.service.ids import outside
from job_host.service.pages import Page
from job_host.service.problems import Problem, of_refusal, unavailable
from job_host.service.stores.notifications import PolicyNotes
from job_host.service.terms.calls import SERVICE, SERVICE_SESSION, Call, Kept, LogPage, LogSize, WorkLog
from job_host.service.terms.leases import Leases
from job_host.service.terms.sessions import Silent
from job_host.service.terms.term import Term
from job_host.service.versions.book import FileNotKept, JobBook, nowhere

if TYPE_CHECKING:
    from job_host.service.keepers.job_changes import JobChanges

log = logging.getLogger(__name__)

QUERIES_AT_ONCE = 1_000
# batchctl is asked something so often. If it is silent for longer, this instance isn't ready, and then batchctl is killed.
ASK_SECONDS = 2.0
SILENT_SECONDS = 10.0
KILL_SECONDS = 60.0
# What is cancelled has so long, as it may wait for a process that it kills, before it is cancelled again.
CANCEL_SECONDS = 5.0


@dataclass(frozen=True)
class HeldBy:
    """A busy work item and its client."""

    held: Held
    client: str | None
    remaining: float | None


@dataclass(frozen=True)
class HeldPage:
    """A page of the busy work items, by rising number: of all, of one job execution, or of one number."""

    page: Page
    execution: int | None = None
    work: int | None = None

    def of(self, held: Mapping[int, Held]) -> Sequence[Held]:
        if self.work is not None:
            found = [held[self.work]] if self.work in held else []
        else:
            found = list(held.values())
        return self.page.of([one for one in found if self.execution in (None, one.execution)])


class ChainHead(NamedTuple):
    """The last operation that is chained, its hash in hexadecimal digits, and behind which one the chain's file begins."""

    number: int
    hash: str
    begins: int

    def __str__(self) -> str:
        return f"{self.number}:{self.hash}"


@dataclass(frozen=True)
class Compaction:
    """A compaction: when it began, how many seconds it took, in which calls may wait, and why it failed if it did."""

    begun: int
    seconds: float = 0.0
    failure: str = ""
    is_over: bool = False
    calls_wait: bool = True


class Fatal(Exception):
    """The service can't go on: a person has to look. The text says why."""


class Keeper(ABC):
    """`role` is starting, follower or leader. Calls are for the leader, reads for both."""

    def __init__(self, served: ServedJobs, leases: Leases) -> None:
        self.served = served
        self.role = "starting"
        self.leases = leases
        self.engine: Engine | None = None
        self.term: Term | None = None
        self.epoch = 0
        self.leader_url = ""
        # The identity of the history, to which request keys and logs belong.
        self.history = ""
        self.last_takeover = 0.0
        # Jobs of a folder have versions, and may change while they are served.
        self.names = PLAIN_NAMES if served.files is None else VERSIONED_NAMES
        self.book: JobBook | None = None
        self.changes: JobChanges | None = None
        # The moments at which the leader restarts FAILED job executions by itself.
        self.restart_times: Mapping[int, int] = {}
        # The last compaction that this instance has tried, or that is under way.
        self.compaction: Compaction | None = None
        # The number of its queue, the other queue in which a job may be started, and whether this instance may lead now.
        self.number = 0
        self.elsewhere: Callable[[str], str | None] = nowhere
        self.may_lead: Callable[[], bool] = lambda: True

    def load_jobs(self) -> None:
        """Lets `book` tell the versions of jobs before `run`, if they are at hand. Raises Fatal if they are damaged."""

    def outside(self, number: int) -> int:
        """A number of this history, as people are told it."""
        return outside(self.number, number)

    @abstractmethod
    async def run(self) -> None:
        """Keeps the history until `close`. Raises Fatal if it can't."""

    @abstractmethod
    async def close(self) -> None:
        """Lets what is under way end, and stops."""

    @abstractmethod
    async def logs(self, wanted: LogPage) -> list[WorkLog]:
        """What workers handed in as logs of work items, by rising number."""

    @abstractmethod
    async def log_sizes(self, wanted: LogPage) -> list[LogSize]:
        """Which logs there are, by rising number of the work item."""

    @abstractmethod
    async def log_of(self, work: int) -> WorkLog | None:
        """The log of one work item, if it has one."""

    @abstractmethod
    async def log_ends(self, works: Sequence[int]) -> list[WorkLog]:
        """The ends of the logs of these work items, as far as they have one."""

    @abstractmethod
    async def reach(self, at_least: int) -> None:
        """Returns after so many operations are here. Raises a problem if they don't come."""

    @abstractmethod
    async def client_names(self, sessions: Sequence[int]) -> dict[int, str]:
        """The names of these sessions, as far as they are known here."""

    @property
    def chain_head(self) -> ChainHead | None:
        """The last operation of the chain, if operations are chained here."""
        return None

    @abstractmethod
    async def audit(self, wanted: AuditWanted) -> list[Audited]:
        """The operations that are wanted, the newest first. Of those before a base, what was done to job executions."""

    @abstractmethod
    async def origins(self, numbers: Sequence[int]) -> dict[int, Origin]:
        """Who made these operations, as far as it is known here."""

    @abstractmethod
    def notes(self) -> PolicyNotes:
        """What the leader remembers of its policies. Raises a problem if this instance doesn't lead."""

    @property
    def is_versioned(self) -> bool:
        """Whether jobs have versions."""
        return self.names is VERSIONED_NAMES

    @abstractmethod
    async def read_folder(self, served: ServedJobs) -> None:
        """Takes over what has changed in the folder of `--jobs`. Raises a problem, JobsRefused or NoVerdict if it can't."""

    def changing(self) -> JobChanges:
        """Who changes jobs. Raises a problem if they are fixed, or if another instance leads."""
        if not self.is_versioned:
            raise Problem(
                "JobsFixed", 409, "the jobs of --catalogue are fixed while they are served: --jobs FOLDER lets them change"
            )
        self.leading()
        if self.changes is None:
            raise unavailable("Starting", "the jobs aren't known yet")
        return self.changes

    def known_jobs(self) -> JobBook:
        """The versions of jobs. Raises a problem if they are fixed, or aren't known yet."""
        if not self.is_versioned:
            raise Problem("JobsFixed", 409, "the jobs of --catalogue are fixed while they are served, and have no versions")
        if self.book is None:
            raise unavailable("Starting", "the jobs aren't known yet")
        return self.book

    def for_workers(self, job: str) -> ForWorkers:
        """What a job of the catalogue has for workers, in this very version. Raises FileNotKept."""
        if self.book is not None:
            return self.book.for_workers(job)
        return (self.served.for_workers or {}).get(job, ForWorkers())

    def policies(self, job: str) -> JobPolicies:
        """The policies of a job of the catalogue, in this very version. There are none if its file isn't kept."""
        try:
            return self.for_workers(job).policies
        except FileNotKept:
            return NO_POLICIES

    def newest_policies(self, name: str) -> JobPolicies:
        """Those of a job's newest version. There are none if the job isn't known."""
        version = 0 if self.book is None else self.book.newest(name)
        return self.policies(id_of(name, version)) if version else NO_POLICIES

    @property
    def is_ready(self) -> bool:
        """Whether reads are answered here now: the history is here, and batchctl answers."""
        return self.role != "starting" and self.engine is not None and self.engine.process.silence < SILENT_SECONDS

    async def watch(self, engine: Engine) -> None:
        """Asks batchctl something now and then, for ever. One that is silent for too long is killed."""
        while True:
            await asyncio.sleep(ASK_SECONDS)
            if engine.process.silence >= KILL_SECONDS:
                log.error("batchctl didn't answer for %.0f seconds, and is killed", engine.process.silence)
                engine.process.kill()
            elif engine.process.silence == 0.0:
                engine.look()
                engine.open.settle_soon()

    @property
    def operations(self) -> int:
        """How many operations the co-process has, kept or not."""
        return self.engine.entered if self.engine is not None else 0

    @property
    def committed(self) -> int:
        """How many operations are kept, which anybody may be told of. A follower reads none but those."""
        return self.operations if self.term is None else self.term.committed

    @property
    def behind(self) -> int:
        """How many operations stand behind the base of the log, or in all, if it has none."""
        return max(0, self.committed - (self.engine.based if self.engine is not None else 0))

    def leading(self) -> Term:
        if self.term is None:
            if self.role == "follower":
                raise unavailable("NotLeader", "another instance leads", leader=self.leader_url)
            raise unavailable("Starting", "the history isn't here yet")
        return self.term

    def end_waits(self) -> None:
        """Ends the claims that wait, as the service ends. They are made again by their keys, here or elsewhere."""
        if self.term is not None:
            self.term.desk.fail(unavailable("Starting", "this instance ends"))

    async def submit(self, call: Call) -> Kept:
        return await self.leading().submit(call)

    def reading(self) -> Engine:
        if self.engine is None or self.role == "starting":
            raise unavailable("Starting", "the history isn't here yet")
        return self.engine

    async def ask(self, queries: Sequence[bytes], at_least: int = 0) -> Answers:
        """Asks queries of one state, in which at least so many operations are."""
        await self.reach(at_least)
        if self.term is not None:
            return await self.term.ask(queries, at_least)
        return await self.reading().ask(queries)

    @asynccontextmanager
    async def steps(self, at_least: int) -> AsyncIterator[Steps]:
        """Reads in several steps, all of one state. At the end of the block, refused or not, all that they saw is kept."""
        await self.reach(at_least)
        engine, term = self.reading(), self.term
        refusal: Problem | None = None
        async with engine.turn:
            steps = Steps(engine)
            try:
                # After its answer all operations are known that the answers to come see.
                await steps.ask([query("status_counts")])
                yield steps
            except Problem as problem:
                refusal = problem
        if term is not None:
            await term.until_committed(steps.seen)
        if refusal is not None:
            raise refusal

    async def purged(self, executions: Sequence[int]) -> list[int]:
        """Those of these job executions that a purge has removed."""
        gone = []
        for place in range(0, len(executions), QUERIES_AT_ONCE):
            some = executions[place : place + QUERIES_AT_ONCE]
            answers = await self.ask([query("job_instance", execution=one) for one in some])
            gone += [one for one, reply in zip(some, answers.replies) if of_refusal(read(reply)) is not None]
        return gone

    async def of_purged(self, once: Mapping[str, bytes]) -> dict[str, bytes]:
        """Those of these keys that say once, with their first replies, whose job instance a purge has removed."""
        executions = {key: int(told["execution"]) for key, reply in once.items() if "execution" in (told := read(reply))}
        gone = set(await self.purged(list(executions.values())))
        return {key: once[key] for key, execution in executions.items() if execution in gone}

    async def held_work(self, wanted: HeldPage, at_least: int) -> tuple[list[HeldBy], int]:
        """Who holds which work item since when, and how many operations that saw."""
        await self.reach(at_least)
        engine, term = self.reading(), self.term
        seen, held = engine.entered, wanted.of(engine.held)
        if term is not None:
            await term.until_committed(seen)
        names = await self.client_names([one.session for one in held])
        return [HeldBy(one, names.get(one.session), self._remaining(one.work)) for one in held], seen

    async def work_items(self, execution: int, page: Page, at_least: int) -> tuple[list[tuple[Ended | None, HeldBy]], int]:
        """A page of the work items of a job execution, as far as they are known, and how many operations that saw."""
        await self.reach(at_least)
        engine, term = self.reading(), self.term
        seen = engine.entered
        noted = [(one, one.held) for one in engine.ended_work.of(execution)]
        busy = [(None, one) for one in engine.held.values() if one.execution == execution]
        if term is not None:
            await term.until_committed(seen)
        items = page.of(sorted([*noted, *busy], key=lambda item: item[1].work))
        names = await self.client_names([held.session for _, held in items])
        told = [
            (ended, HeldBy(held, names.get(held.session), self._remaining(held.work) if ended is None else None))
            for ended, held in items
        ]
        return told, seen

    async def actions(self, execution: int, page: Page, at_least: int) -> tuple[list[tuple[Action, Origin]], int]:
        """Who did what to a job execution, the newest first, and how many operations that saw. It may be a purged one."""
        await self.reach(at_least)
        engine, term = self.reading(), self.term
        seen, instance = engine.entered, engine.executions.instance_of(execution)
        found = [] if instance is None else engine.actions.of(execution, instance, page)
        if term is not None:
            await term.until_committed(seen)
        if instance is None:
            raise Problem("NoSuchJobExecutionException", 404)
        names = {SERVICE_SESSION: SERVICE} | await self.client_names(sorted({one.session for one in found} - {SERVICE_SESSION}))
        origins = await self.origins([one.operation for one in found])
        return [(one, known_as(origins.get(one.operation), names.get(one.session))) for one in found], seen

    def _remaining(self, work: int) -> float | None:
        """The seconds of a lease that are left. Only the leader knows."""
        return self.leases.remaining(work) if self.term is not None else None

    async def heartbeat(self, client: str, work: int, log: str | None) -> tuple[bool, int]:
        """Renews a lease. Returns whether the work item's job execution is asked to stop, and how many operations that saw."""
        term = self.leading()
        with term.sessions.hearing(client):
            await term.meet(client)
            session = term.sessions.known(client)
        held = term.engine.held.get(work)
        if held is None or held.session != session:
            await term.confirm()
            raise Problem("NoLease", 409, "no lease of this client on this work item: it is over, or another client's")
        self.leases.renew(work)
        term.workers.note_sign(client)
        await term.confirm(term.log_of(work, log))
        answers = await term.ask([query("job_execution", execution=held.execution)])
        told = read(answers.replies[0])
        problem = of_refusal(told)
        if problem is not None:
            raise problem
        return told["job_execution"]["status"] == "STOPPING", answers.seen


class Steps:
    """Reads of one state, one after the other."""

    def __init__(self, engine: Engine) -> None:
        self.engine = engine
        self.seen = engine.entered

    async def ask(self, queries: Sequence[bytes]) -> list[bytes]:
        if not queries:
            return []
        answers = await self.engine.ask(queries)
        self.seen = answers.seen
        return answers.replies

    async def executions_of(self, instance: int, page: Page) -> list[int]:
        """The job executions of a job instance, the newest first. Raises the refusal of one that isn't there."""
        if not self.engine.executions.has_instance(instance):
            told = read((await self.ask([query("job_executions", instance=instance)]))[0])
            raise of_refusal(told, self.seen) or ValueError(f"job instance {instance} isn't known here")
        return self.engine.executions.of_instance(instance, page)


def known_as(origin: Origin | None, name: str | None) -> Origin:
    """Who made an operation: as it is kept with that, else by the name of its session."""
    if origin is not None and origin.client is not None:
        return origin
    return Origin(name, None if name is None else token_of(name))


def needed(engine: Engine, silent: Sequence[Silent]) -> list[Silent]:
    """Client names, of which those are needed that did something to a job execution: it is told as long as the history."""
    return [replace(one, is_needed=one.is_needed or one.number in engine.actions.sessions) for one in silent]


async def check_catalogue(batchctl: Sequence[str], served: ServedJobs) -> None:
    """Lets batchctl read a catalogue, before its jobs are compared with those that were kept."""
    try:
        process = await CoProcess.start([*batchctl, "script"], served.line)
    except CatalogueRefused as fault:
        told = await asyncio.to_thread(served.told_fault, fault.fault, batchctl)
        raise Fatal(f"the catalogue was refused: {told}") from fault
    except (FileNotFoundError, PermissionError) as fault:
        raise Fatal(f"there is no program {batchctl[0]}: {fault}") from fault
    await process.close()


async def first_of(waits: Sequence[Awaitable[Any]]) -> None:
    """Returns, or raises, after the first of these has ended. The others are cancelled."""
    tasks = [asyncio.ensure_future(_ended(wait)) for wait in waits]
    try:
        done, _ = await asyncio.wait(tasks, return_when=asyncio.FIRST_COMPLETED)
        await asyncio.gather(*done)
    finally:
        await _cancelled(tasks)


async def _cancelled(tasks: Sequence[asyncio.Task[None]]) -> None:
    """Cancels tasks until all have ended.

    asyncpg's connect loses a cancellation that comes as the connection is made or fails, as wait_for of Python 3.11 does. What
    goes on without end then would keep a term from its end, and an instance from leading or following again.
    """
    while running := [task for task in tasks if not task.done()]:
        for task in running:
            task.cancel()
        await asyncio.wait(running, timeout=CANCEL_SECONDS)
    await asyncio.gather(*tasks, return_exceptions=True)


async def _ended(wait: Awaitable[Any]) -> None:
    await wait
