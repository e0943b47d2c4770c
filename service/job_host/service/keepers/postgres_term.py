"""A term over PostgreSQL: it commits its rounds under its epoch, as long as no other instance has taken over."""

from __future__ import annotations

import asyncio
import logging
from collections.abc import AsyncIterator, Sequence
from contextlib import asynccontextmanager, suppress
from dataclasses import dataclass
from typing import Any

from job_host.service.problems import Problem, unavailable
from job_host.service.stores.postgres import PostgresStore
from job_host.service.stores.postgres_connection import LOST
from job_host.service.terms.calls import Item, Kept, KeptRequest
from job_host.service.terms.known_keys import KeptKey
from job_host.service.terms.term import Term
from job_host.service.versions.changes import Growth

log = logging.getLogger(__name__)


@dataclass
class Growing:
    """The epoch of a term, and at the end the one that it has from then on."""

    epoch: int


class PostgresTerm(Term):
    """The rounds of one epoch."""

    def __init__(self, store: PostgresStore, epoch: int, *others: Any) -> None:
        super().__init__(*others)
        self._store = store
        self._kept_sessions = set(self.sessions.numbers())
        self.epoch = epoch
        # Set as its epoch becomes a later one.
        self.grown = asyncio.Event()
        # Held by what is kept under the epoch.
        self._keeping = asyncio.Lock()

    async def find(self, session: int, key: str) -> KeptRequest | None:
        try:
            return await self._store.request(session, key)
        except LOST as fault:
            raise self._lost(fault) from fault

    async def keys_behind(self, last: KeptKey | None, most: int) -> Sequence[KeptKey]:
        try:
            return await self._store.keys_behind(last, most)
        except LOST as fault:
            raise self._lost(fault) from fault

    async def session_of(self, name: str) -> int | None:
        try:
            return await self._store.session_of(name)
        except LOST as fault:
            raise self._lost(fault) from fault

    async def forget(self, key: str, kept: Kept) -> None:
        try:
            await self._store.drop_once({key: kept.reply})
        except LOST as fault:
            raise self._lost(fault) from fault

    def _lost(self, fault: Exception) -> Problem:
        """What is told of a read that failed: why the term has failed, if it has, as its connections end with it.

        Without its connection the term can't find request keys, though it could commit. So it ends, and begins anew.
        """
        problem = self.failure or unavailable("StoreLost", f"{type(fault).__name__}: {fault}")
        if self._store.is_closed and self.failure is None:
            log.warning("a connection is lost: %s %s", type(fault).__name__, fault)
            self.fail(problem)
        return problem

    async def keep(self, items: Sequence[Item]) -> None:
        async with self._keeping:
            await self._keep(items)

    async def _keep(self, items: Sequence[Item]) -> None:
        told = [(item, item.call.client) for item in items if item.call is not None]
        kept = [(item, client) for item, client in told if item.number is not None or item.is_keyed]
        clients = {client: item.session for item, client in kept if item.session not in self._kept_sessions}
        try:
            stands = await self._store.commit(self.epoch, items, clients)
        except LOST as fault:
            log.warning("a commit failed: %s %s", type(fault).__name__, fault)
            raise unavailable("CommitFailed", "the operation may have been kept: ask again by its key") from fault
        if not stands:
            raise unavailable("NotLeader", "another instance has taken over")
        self._kept_sessions.update(clients.values())
        for growth in [item.growth for item in items if item.growth is not None]:
            await self._grow(growth)

    async def _grow(self, growth: Growth) -> None:
        """Keeps changes of jobs. From then on this term has a later epoch."""
        try:
            epoch = await self._store.grow(self.epoch, growth)
        except LOST as fault:
            log.warning("a change of jobs failed: %s %s", type(fault).__name__, fault)
            raise unavailable("CommitFailed", "the change may have been kept: ask again by its key") from fault
        if epoch is None:
            raise unavailable("NotLeader", "another instance has taken over")
        self._note_epoch(epoch)

    def _note_epoch(self, epoch: int) -> None:
        self.epoch = epoch
        self.grown.set()

    @asynccontextmanager
    async def growing(self) -> AsyncIterator[Growing]:
        """Lets something be kept between two rounds. If the block ends well, the term has the epoch that is noted there."""
        async with self._keeping:
            growing = Growing(self.epoch)
            yield growing
            self._note_epoch(growing.epoch)


def leading_epoch(term: Term) -> int:
    """The epoch by which an instance leads now."""
    assert isinstance(term, PostgresTerm)
    return term.epoch


@asynccontextmanager
async def beating(store: PostgresStore, epoch: int, seconds: float) -> AsyncIterator[None]:
    """Gives signs of this leader while it isn't ready yet. Raises NotLeader at the end if another one has taken over."""
    is_ready = asyncio.Event()

    async def beat() -> bool:
        while stands := await store.commit(epoch, [], {}):
            with suppress(asyncio.TimeoutError):
                await asyncio.wait_for(is_ready.wait(), seconds)
            if is_ready.is_set():
                break
        return stands

    task = asyncio.ensure_future(beat())
    try:
        yield
    finally:
        is_ready.set()
        await asyncio.wait([task])
    if not task.result():
        raise unavailable("NotLeader", "another instance has taken over")
