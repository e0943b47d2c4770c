"""Compacting the log: batchctl makes it anew of the rows that exist, while calls wait."""

from __future__ import annotations

import asyncio
import logging
import time
from collections.abc import Awaitable, Callable, Sequence
from contextlib import nullcontext
from dataclasses import replace
from functools import partial
from pathlib import Path
from typing import TYPE_CHECKING

from job_host.service.history import log_file
from job_host.service.history.coprocess import CoProcess, CoProcessEnded
from job_host.service.history.engine import STATE, Engine
from job_host.service.keepers.batchctl_compact import MOST_SECONDS, can_compact, reason
from job_host.service.keepers.chaining import Chaining
from job_host.service.keepers.due import Due
from job_host.service.keepers.embedded_term import Beside, EmbeddedTerm
from job_host.service.keepers.exchange import exchange
from job_host.service.keepers.keeper import Compaction, Fatal
from job_host.service.stores.history import Rest
from job_host.service.stores.sqlite import SqliteStore
from job_host.service.terms import moments
from job_host.service.terms.leases import Leases

if TYPE_CHECKING:
    from job_host.service.keepers.leaving import Leaving

log = logging.getLogger(__name__)

LOOK_SECONDS = 1.0

# Opens the log with a catalogue, and lets it be compacted before.
Reopen = Callable[[bytes], Awaitable[CoProcess]]


def rest_of(engine: Engine) -> Rest:
    """How the log of an engine stands."""
    executions = engine.executions
    return Rest(engine.entered, executions.last, executions.last_instance, engine.last_work, engine.last_made)


async def note_all(engine: Engine, beside: Beside) -> None:
    """Notes beside the log what its base doesn't tell. All that was entered is kept, and nothing is entered meanwhile."""
    since = await beside.do(SqliteStore.last_action)
    actions = await asyncio.to_thread(engine.actions_behind, since)
    gone, rest = engine.executions.numbers_purged(), rest_of(engine)
    await beside.do(lambda store: store.note_actions(actions, gone))
    await beside.do(lambda store: store.note_rest(rest))


def nobody_leaves() -> None:
    return None


class Compacting:
    """The compactions of one log. `note` is told of each as it begins, and as it ends. `leaving` gives what may leave it."""

    def __init__(
        self,
        batchctl: Sequence[str],
        path: Path,
        leases: Leases,
        due: Due,
        reopen: Reopen,
        note: Callable[[Compaction], None],
        chaining: Chaining | None = None,
        leaving: Callable[[], Leaving | None] = nobody_leaves,
    ) -> None:
        self._batchctl = batchctl
        self._path = path
        self._leases = leases
        self._due = due
        self._reopen = reopen
        self._note = note
        self._chaining = chaining
        self._leaving = leaving
        self._turn = asyncio.Lock()
        self._can: bool | None = None

    async def can(self) -> bool:
        """Whether batchctl can compact a log."""
        if self._can is None:
            self._can = await asyncio.to_thread(can_compact, self._batchctl)
            if not self._can:
                log.warning("this batchctl has no `script --compact`, so %s isn't compacted", self._path)
        return self._can

    async def run(self, term: EmbeddedTerm, beside: Beside) -> None:
        """Compacts the log whenever it is due, for ever. Raises what ends the term."""
        while True:
            await asyncio.sleep(LOOK_SECONDS)
            if self._due.is_now(term.engine) and await self.can():
                await self.compact(term, beside)

    async def compact(self, term: EmbeddedTerm, beside: Beside) -> Compaction:
        """Compacts the log of a term, and returns what became of it. Raises what ends the term."""
        async with self._turn:
            self._due.note_tried()
            one, begun = Compaction(moments.clock()), time.monotonic()
            self._note(one)
            leaving = self._leaving()
            try:
                async with nullcontext() if leaving is None else leaving.resting(), term.engine.turn:
                    begun = time.monotonic()
                    with self._leases.pausing():
                        failure = await self._compact(term, beside, leaving)
            except BaseException as fault:
                told = "the service ends" if isinstance(fault, asyncio.CancelledError) else f"{type(fault).__name__}: {fault}"
                self._end(replace(one, seconds=time.monotonic() - begun, failure=told))
                raise
            return self._end(replace(one, seconds=time.monotonic() - begun, failure=failure))

    def _end(self, one: Compaction) -> Compaction:
        one = replace(one, is_over=True)
        if one.failure:
            log.error("%s isn't compacted, after %.1f seconds: %s", self._path, one.seconds, one.failure)
        self._note(one)
        return one

    async def _compact(self, term: EmbeddedTerm, beside: Beside, leaving: Leaving | None) -> str:
        """Returns why the log isn't compacted, if it isn't. All that it has is noted beside it before: it forgets tags."""
        engine = term.engine
        if term.failure is not None:
            raise term.failure
        state = await engine.ask(STATE)
        await term.until_committed(engine.entered)
        leavers = None if leaving is None else leaving.leavers(state.replies)
        if engine.is_compact and leavers is None:
            return ""
        await note_all(engine, beside)
        # What was to be noted behind the replies may have failed.
        if term.failure is not None:
            raise term.failure
        catalogue = engine.process.catalogue if leavers is None else leavers.line
        failure = ""

        async def open_next() -> CoProcess:
            nonlocal failure
            process, failure = await self._reopened(engine, catalogue, state.replies)
            return process

        await exchange(engine, open_next)
        if leaving is not None and leavers is not None and engine.process.catalogue == catalogue:
            log.warning("%s has no job instance of %d versions of jobs, which have left it", self._path, len(leavers.versions))
            leaving.leave(leavers)
        if not failure:
            term.note_compacted()
            await self._note_base(engine, beside)
        return failure

    async def _note_base(self, engine: Engine, beside: Beside) -> None:
        base, session = engine.base, engine.last_session
        if base is not None:
            log.warning("%s is compacted: %d rows for %d operations", self._path, base.head.rows, base.head.operations)
            await beside.do(partial(SqliteStore.note_base, base=base, session=session))
            if self._chaining is not None:
                await asyncio.to_thread(self._chaining.begin)

    async def _reopened(self, engine: Engine, catalogue: bytes, state: Sequence[bytes]) -> tuple[CoProcess, str]:
        """A co-process over the compacted log, or over the log as it was, and then why."""
        try:
            async with asyncio.timeout(MOST_SECONDS):
                process = await self._reopen(catalogue)
        except asyncio.TimeoutError as fault:
            raise CoProcessEnded(f"batchctl didn't compact the log within {MOST_SECONDS:.0f} seconds") from fault
        try:
            base = await asyncio.to_thread(log_file.known_base, self._path)
            if base is None or base.head.operations != engine.entered:
                return process, await reason(process)
            after = await process.ask_all(STATE)
            if after != list(state):
                raise Fatal(f"the compacted log comes to {after!r}, and it came to {state!r} before")
        except BaseException:
            await process.close()
            raise
        engine.note_base(base)
        return process, ""
