"""Purges job instances. If there is an archive, what queries told of one is on the disk there before it is purged."""

from __future__ import annotations

import asyncio
import logging
from collections.abc import Callable
from contextlib import suppress
from dataclasses import replace
from typing import NamedTuple

from job_host.archive.folder import ArchiveFolder, Place
from job_host.archive.lines import read_line
from job_host.protocol.batch_statuses import UNFINISHED
from job_host.protocol.lines import Members
from job_host.protocol.seldom import seldom
from job_host.service.history.engine import Engine
from job_host.service.keepers.keeper import Keeper
from job_host.service.pages import Page
from job_host.service.problems import Problem, unavailable
from job_host.service.retention.record import Told, record_of
from job_host.service.terms import moments
from job_host.service.terms.calls import Call, Kept

log = logging.getLogger(__name__)

# A job instance that changes while it is archived is archived again, so often at most.
ATTEMPTS = 5
# Lines of so many job instances are known that aren't purged yet.
MOST_LINES = 1_000
# Asked ahead of a purge: after its answer all operations are known that came before.
LOOK = b'{"ask":"status_counts"}'

Operations = tuple[tuple[int, int], ...]


class Changed(Exception):
    """The job instance isn't as it was when it was looked at."""


class ChangedMeanwhile(Exception):
    """Something was done to the job instance while it was archived."""


class Archived(NamedTuple):
    """A line of the archive: for whom a job instance was archived, after which operations on it, and where that stands."""

    client: str
    operations: Operations
    place: Place


def operations_on(engine: Engine, instance: int) -> Operations:
    """The last operation on each job execution of a job instance. Of a purged one there are none."""
    executions = engine.executions
    if not executions.has_instance(instance):
        return ()
    return tuple((one, executions.changed_at(one)) for one in executions.of_instance(instance, Page(0, executions.last)))


def is_running(record: Told) -> bool:
    return any(one["batchStatus"] in UNFINISHED for one in record["jobExecutions"])


class Purging:
    """Purges for everybody. `archived` counts the lines that were appended."""

    def __init__(self, keeper: Keeper, archive: ArchiveFolder | None, clock: Callable[[], int] = moments.clock) -> None:
        self.keeper = keeper
        self._archive = archive
        self._clock = clock
        self._turn = asyncio.Lock()
        self._say = seldom(log.error)
        # Of job instances whose purge is under way, or has failed: that needs no other line.
        self._lines: dict[int, Archived] = {}
        self.archived = 0

    async def purge(self, call: Call) -> Kept:
        """Makes a purge, after its job instance was archived as it is. Raises ArchiveFailed if it can't be.

        Then nothing is purged. A call that is answered by its request key archives nothing.
        """
        if self._archive is None:
            return await self.keeper.submit(call)
        for _ in range(ATTEMPTS):
            one = OnePurge(self, self._archive, call)
            with suppress(ChangedMeanwhile):
                return await self.keeper.submit(replace(call, resolve=one.resolve, confirm=one.confirm))
        raise unavailable("ArchiveFailed", "nothing is purged: the job instance changes while it is archived")

    async def keep(self, archive: ArchiveFolder, call: Call, operations: Operations) -> None:
        """Lets the archive have a job instance as it is after these operations. Raises ArchiveFailed."""
        try:
            async with self._turn:
                if not await self._has_line(archive, call, operations):
                    await self._append(archive, call, operations)
        except OSError as fault:
            self._say(f"the archive fails, and nothing is purged: {fault}")
            raise unavailable("ArchiveFailed", f"nothing is purged: {fault}") from fault

    async def _has_line(self, archive: ArchiveFolder, call: Call, operations: Operations) -> bool:
        """Whether the archive has it by an earlier attempt. Else each attempt of a purge that fails would append a line."""
        line = self._lines.get(call.members["instance"])
        if line is None or (line.client, line.operations) != (call.client, operations):
            return False
        archive.check()
        with suppress(FileNotFoundError):
            return read_line(await asyncio.to_thread(archive.text_at, line.place)) is not None
        return False

    async def _append(self, archive: ArchiveFolder, call: Call, operations: Operations) -> None:
        """Appends a job instance. One that runs isn't: its purge is refused."""
        now, instance = self._clock(), call.members["instance"]
        record = await record_of(self.keeper, instance, call.client, now)
        if is_running(record):
            return
        place = await asyncio.to_thread(archive.append, record, now)
        self.archived += 1
        self._lines[instance] = Archived(call.client, operations, place)
        if len(self._lines) > MOST_LINES:
            del self._lines[next(iter(self._lines))]


class OnePurge:
    """One attempt of a purge: its job instance is archived if the call is a new one, and compared before the call is made."""

    def __init__(self, purging: Purging, archive: ArchiveFolder, call: Call) -> None:
        self._purging = purging
        self._archive = archive
        self._call = call
        self._instance: int = call.members["instance"]
        self._engine = purging.keeper.leading().engine
        self._operations: Operations = ()

    async def resolve(self) -> Members:
        """Archives the job instance, if it is there. Raises what the call itself raises: then it may stay."""
        if self._call.confirm is not None:
            await self._call.confirm()
        self._operations = operations_on(self._engine, self._instance)
        if self._operations:
            try:
                await self._purging.keep(self._archive, self._call, self._operations)
            except Problem as problem:
                self._check_gone(problem)
        return self._call.members

    def _check_gone(self, problem: Problem) -> None:
        """Raises ChangedMeanwhile if the job instance was purged while it was read, else the problem."""
        if problem.status == 404 and operations_on(self._engine, self._instance) != self._operations:
            raise ChangedMeanwhile() from problem
        raise problem

    async def confirm(self) -> None:
        """Raises ChangedMeanwhile if something was done to the job instance since, and what the call itself raises."""
        await self._engine.ask([LOOK])
        if operations_on(self._engine, self._instance) != self._operations:
            raise ChangedMeanwhile()
        if self._call.confirm is not None:
            await self._call.confirm()
