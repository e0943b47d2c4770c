"""When a leader over PostgreSQL makes a base, and what became of it. No call waits."""

from __future__ import annotations

import asyncio
import logging
import time
from collections.abc import Awaitable, Callable, Sequence
from contextlib import suppress
from dataclasses import replace
from typing import TYPE_CHECKING

from job_host.service.history.engine import Engine
from job_host.service.keepers.base_making import BaseMaking
from job_host.service.keepers.batchctl_compact import MOST_SECONDS, can_compact
from job_host.service.keepers.due import Due
from job_host.service.keepers.keeper import Compaction
from job_host.service.stores.postgres_bases import KeptBase, Made, PostgresBases
from job_host.service.terms import moments
from job_host.service.terms.term import Term

if TYPE_CHECKING:
    from job_host.service.keepers.postgres_leaving import PostgresLeaving

log = logging.getLogger(__name__)

LOOK_SECONDS = 1.0


def nobody_leaves() -> None:
    return None


class PostgresCompacting:
    """The bases that one instance makes. `note` is told of each attempt as it begins, and as it ends.

    Whoever holds `turn` reads operations that a base may not take away meanwhile.
    """

    def __init__(self, batchctl: Sequence[str], due: Due, note: Callable[[Compaction], None]) -> None:
        self._batchctl = batchctl
        self._due = due
        self._note = note
        self._making = asyncio.Lock()
        self._can: bool | None = None
        self.turn = asyncio.Lock()

    async def can(self) -> bool:
        """Whether batchctl can compact a log."""
        if self._can is None:
            with suppress(OSError):
                self._can = await asyncio.to_thread(can_compact, self._batchctl)
            if self._can is False:
                log.warning("this batchctl has no `script --compact`, so operations in PostgreSQL aren't compacted")
        return bool(self._can)

    async def put(self, bases: PostgresBases, made: Made) -> bool:
        """Keeps a base that was made."""
        async with self.turn:
            return await bases.put(made)

    async def run(
        self,
        making: BaseMaking,
        term: Term,
        renew: Callable[[], Awaitable[None]],
        leaving: Callable[[], PostgresLeaving | None] = nobody_leaves,
    ) -> None:
        """Makes a base whenever one is due, for ever. Behind each, `renew` lets the engine's co-process begin with it.

        `leaving` gives the jobs that may leave the catalogue.
        """
        while True:
            await asyncio.sleep(LOOK_SECONDS)
            if self._due.is_now(term.engine) and await self.can():
                one = await self.compact(making, term.engine, term.committed, leaving())
                if not one.failure:
                    async with self.turn:
                        await renew()

    async def compact(
        self, making: BaseMaking, engine: Engine, until: int, leaving: PostgresLeaving | None = None
    ) -> Compaction:
        """Makes a base of the first operations of an engine, all of which are kept, and returns what became of it.

        If it fails, the table is as it was. The term goes on.
        """
        async with self._making:
            self._due.note_tried()
            one, begun = Compaction(moments.clock(), calls_wait=False), time.monotonic()
            self._note(one)
            try:
                failure = await self._compact(making, engine, until, leaving)
            except asyncio.CancelledError:
                self._end(replace(one, seconds=time.monotonic() - begun, failure="the term ends, or the instance"))
                raise
            return self._end(replace(one, seconds=time.monotonic() - begun, failure=failure))

    def _end(self, one: Compaction) -> Compaction:
        one = replace(one, is_over=True)
        if one.failure:
            log.error("no base is made, after %.1f seconds: %s", one.seconds, one.failure)
        self._note(one)
        return one

    async def _compact(self, making: BaseMaking, engine: Engine, until: int, leaving: PostgresLeaving | None) -> str:
        """Returns why no base is made, if it isn't. Whatever fails fails beside the term."""
        try:
            # Not by wait_for, which loses a cancellation that comes as the base fails: both do if the server is gone.
            async with asyncio.timeout(MOST_SECONDS):
                if leaving is None:
                    base = await making.make(engine, until, engine.process.catalogue)
                else:
                    base = await making.make(engine, *await leaving.plan())
        except asyncio.TimeoutError:
            return f"it took more than {MOST_SECONDS:.0f} seconds, or the server didn't answer"
        except Exception as fault:
            return f"{type(fault).__name__}: {fault}"
        if base is not None:
            note_newest(engine, base)
        return ""


def note_newest(engine: Engine, base: KeptBase) -> None:
    """Notes the newest base of the table. What the engine knows it has entered itself."""
    if engine.based < base.number <= engine.entered:
        engine.note_base(base.known)
        log.warning("a base has %d rows for %d operations", base.known.head.rows, base.number)
