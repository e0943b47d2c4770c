"""Making a base over PostgreSQL, beside all calls: a batchctl of its own is handed the operations, and compacts its log."""

from __future__ import annotations

import asyncio
import logging
from collections.abc import Awaitable, Callable, Sequence
from contextlib import suppress
from pathlib import Path
from typing import NamedTuple

from job_host.service.history import log_file
from job_host.service.history.coprocess import CatalogueRefused, CoProcess, CoProcessEnded
from job_host.service.history.engine import STATE, Engine, Record, ReplayDiffers
from job_host.service.history.log_file import KnownBase
from job_host.service.keepers.batchctl_compact import COMPACT, reason
from job_host.service.keepers.local_logs import CatalogueGrew, LocalLogs
from job_host.service.stores.local_files import LocalFiles
from job_host.service.stores.postgres_bases import BaseGone, Done, KeptBase, Made, PostgresBases

log = logging.getLogger(__name__)

CHUNK = 1_000
# So many job executions are looked at between two other things that the instance does.
LOOKED_AT_ONCE = 5_000

# Keeps what was made, at a time at which no other part of this instance reads the operations.
Put = Callable[[PostgresBases, Made], Awaitable[bool]]


class NotCompacted(Exception):
    """batchctl hasn't made a base, or one that isn't of these operations. The text says why."""


class LeanPlan(NamedTuple):
    """A catalogue that some jobs leave as a base is made over it. `put` keeps the base with that catalogue."""

    catalogue: bytes
    put: Put


class BaseMaking:
    """Makes bases of the operations that an engine has entered."""

    def __init__(self, logs: LocalLogs, files: LocalFiles, dsns: Sequence[str], put: Put) -> None:
        self._logs = logs
        self._files = files
        self._dsns = dsns
        self._put = put

    async def make(self, engine: Engine, until: int, catalogue: bytes, plan: LeanPlan | None = None) -> KeptBase | None:
        """Makes a base of the operations up to `until`, all of which are kept. Returns the newest base at the end.

        That is another one if another instance has made it meanwhile. The table is as it was if this raises: what LOST has,
        NoPrimary, NotCompacted, BaseDamaged, OperationsMissing, CoProcessEnded, CatalogueRefused, CatalogueGrew,
        ReplayDiffers, OSError or a problem. If batchctl lets no job leave the catalogue, the base is over that as it was.
        """
        bases = await PostgresBases.open(self._dsns)
        path: Path | None = None
        try:
            path = self._files.new()
            # Another instance may have made one meanwhile, in place of what this one reads.
            with suppress(BaseGone):
                await self._make(bases, engine, until, catalogue, path, plan)
            return await bases.newest()
        finally:
            bases.close()
            if path is not None:
                self._files.drop(path)

    async def _make(
        self, bases: PostgresBases, engine: Engine, until: int, catalogue: bytes, path: Path, plan: LeanPlan | None
    ) -> None:
        """Makes a base, and keeps it, if the newest one has fewer operations. Raises BaseGone if that is no longer there."""
        before, history = await bases.newest(), await bases.history()
        since = 0 if before is None else before.number
        if since < until:
            known, is_lean = await self._made(bases, before, catalogue, until, path, plan)
            done, gone = await done_between(engine, since, until)
            put = plan.put if plan is not None and is_lean else self._put
            await put(bases, Made(known, before, history, path, done, gone))

    async def _made(
        self, bases: PostgresBases, before: KeptBase | None, catalogue: bytes, until: int, path: Path, plan: LeanPlan | None
    ) -> tuple[KnownBase, bool]:
        """Makes the file of a base, and returns by what it is known, and whether it is over the plan's catalogue."""
        if before is not None:
            await bases.write_to(before, path)
        process = await self._logs.start(path, catalogue, before)
        try:
            await hand_over(bases, process, 0 if before is None else before.number, until)
            state = await process.ask_all(STATE)
            await finished(process)
        finally:
            await process.close()
        process = await self._compacting(path, catalogue, before, plan)
        try:
            return await self._checked(process, path, until, state), plan is not None and process.catalogue == plan.catalogue
        finally:
            await process.close()

    async def _compacting(self, path: Path, catalogue: bytes, before: KeptBase | None, plan: LeanPlan | None) -> CoProcess:
        """A co-process that compacts the file, over the plan's catalogue if batchctl takes it."""
        if plan is not None:
            try:
                return await self._logs.start(path, plan.catalogue, before, COMPACT)
            except (CatalogueGrew, CatalogueRefused) as fault:
                log.warning("no job leaves the catalogue: %s", fault)
        return await self._logs.start(path, catalogue, before, COMPACT)

    @staticmethod
    async def _checked(process: CoProcess, path: Path, until: int, state: Sequence[bytes]) -> KnownBase:
        """By what the base is known, which batchctl has made. It tells the same of the history as before."""
        base = await asyncio.to_thread(log_file.known_base, path)
        if base is None or base.head.operations != until:
            raise NotCompacted(await reason(process))
        after = await process.ask_all(STATE)
        if after != list(state):
            raise NotCompacted(f"the base comes to {after!r}, and the operations came to {state!r}")
        await finished(process)
        return base


async def hand_over(bases: PostgresBases, process: CoProcess, before: int, until: int) -> None:
    """Hands operations to a co-process. Raises ReplayDiffers if a reply isn't the kept one."""
    while before < until:
        records = await bases.operations(before, min(CHUNK, until - before))
        replies = await process.ask_all([record.line for record in records])
        compare(records, replies)
        before += len(records)


def compare(records: Sequence[Record], replies: Sequence[bytes]) -> None:
    """Raises ReplayDiffers at the first reply that isn't the kept one."""
    for record, reply in zip(records, replies, strict=True):
        if record.reply != reply:
            raise ReplayDiffers(record, reply)


async def finished(process: CoProcess) -> None:
    """Returns after a co-process has ended well: its log has a clean end."""
    status = await process.finish()
    if status != 0:
        raise CoProcessEnded(f"batchctl ended with status {status}: {process.errors}", status)


async def done_between(engine: Engine, since: int, until: int) -> tuple[list[Done], list[int]]:
    """What was done to job executions between two operations, and which job executions were purged."""
    executions, done = engine.executions, list[Done]()
    for first in range(1, executions.count + 1, LOOKED_AT_ONCE):
        places = range(first, min(first + LOOKED_AT_ONCE, executions.count + 1))
        done += engine.actions_between(places, since, until)
        await asyncio.sleep(0)
    gone = [one for instance in executions.purged_between(since, until) for one in executions.every_of(instance)]
    return done, gone
