"""A co-process that begins with the newest base: it is brought on beside the engine's, and then takes its place.

Its catalogue may have grown. Its log has no more than the base and what stands behind that.
"""

from __future__ import annotations

import logging
from collections.abc import Callable, Sequence

from job_host.protocol.lines import query
from job_host.service.history.coprocess import CatalogueRefused, CoProcess, CoProcessEnded
from job_host.service.history.engine import Engine, Record, ReplayDiffers
from job_host.service.keepers.local_logs import CatalogueGrew, LocalLogs
from job_host.service.keepers.postgres_term import PostgresTerm
from job_host.service.stores.postgres import PostgresStore
from job_host.service.stores.postgres_bases import BaseDamaged, BaseGone
from job_host.service.stores.postgres_connection import LOST, NoPrimary

log = logging.getLogger(__name__)

CHUNK = 2_000
# What ends a co-process that is to take another one's place.
FAILED = (CoProcessEnded, CatalogueRefused, CatalogueGrew, ReplayDiffers, BaseDamaged, BaseGone, NoPrimary, *LOST)


# The epoch up to which operations are known to be over the catalogue. A leader may get a later one meanwhile.
Epoch = Callable[[], int]


class GrownProcess:
    """Knows the first operations of the engine, up to `number`: at first those before a base. The table has those behind it."""

    def __init__(self, process: CoProcess, store: PostgresStore, engine: Engine, epoch: Epoch, number: int) -> None:
        self._process = process
        self._store = store
        self._engine = engine
        self._epoch = epoch
        self._number = number

    async def bring_on(self) -> None:
        """Replays what the table has of the engine's operations. Calls go on meanwhile.

        Raises BaseGone if a newer base has taken the place of the next ones.
        """
        while records := await self._kept():
            await self._replay(records)

    async def _kept(self) -> list[Record]:
        records = await self._store.operations_after(self._number, self._epoch(), CHUNK)
        return [one for one in records if one.number <= self._engine.entered]

    async def _replay(self, records: Sequence[Record]) -> None:
        if records[0].number != self._number + 1 or records[-1].number != self._number + len(records):
            raise BaseGone(f"operation {self._number + 1} isn't in the table any more")
        replies = await self._process.ask_all([one.line for one in records])
        for record, reply in zip(records, replies, strict=True):
            if record.reply != reply:
                raise ReplayDiffers(record, reply)
        self._number = records[-1].number

    async def take_place(self) -> None:
        """Takes the place of the engine's co-process, after all that this was handed is answered. Lines wait meanwhile.

        What the engine has entered is of its epoch or of those before. A leader may have kept some under the one that began
        with the catalogue.
        """
        engine, before = self._engine, self._engine.process
        async with engine.turn:
            answered = before.ask_all([query("status_counts")])
            before.hold()
            try:
                await answered
                while self._number < engine.entered:
                    await self._replay(await self._next())
                if self._process.has_ended:
                    raise CoProcessEnded(f"batchctl ended with status {self._process.status}: {self._process.errors}")
            except BaseException:
                before.give_up()
                raise
            engine.process = self._process
            before.go_on_in(self._process)
        await before.close()

    async def _next(self) -> list[Record]:
        """The next operations. Raises CoProcessEnded if neither the engine nor the table has them."""
        records = self._recent() or await self._kept()
        if not records:
            raise CoProcessEnded(f"operation {self._number + 1} is neither at hand nor kept")
        return records

    def _recent(self) -> list[Record]:
        """The next operations, if the engine still has them."""
        behind = [one for one in self._engine.recent if one.number > self._number]
        return behind if behind and behind[0].number == self._number + 1 else []

    async def close(self) -> None:
        """Ends it, unless it has taken the other one's place."""
        if self._engine.process is not self._process:
            await self._process.close()


async def brought_on(logs: LocalLogs, store: PostgresStore, engine: Engine, line: bytes, epoch: Epoch) -> GrownProcess:
    """A co-process with this catalogue that knows what the table has of the engine's operations. Calls go on meanwhile.

    Raises what `open` and `bring_on` do; and BaseGone, if the newest base has more than the engine knows.
    """
    opened = await logs.open(line)
    logs.keep(opened)
    grown = GrownProcess(opened.process, store, engine, epoch, opened.number)
    try:
        if opened.number > engine.entered:
            raise BaseGone(f"the base of {opened.number} operations has more than are known here")
        await grown.bring_on()
    except BaseException:
        await grown.close()
        raise
    return grown


async def renew(logs: LocalLogs, store: PostgresStore, term: PostgresTerm, catalogue: bytes) -> None:
    """Lets a batchctl that begins with the newest base take the place of a term's, which has all since its start.

    If it can't be begun, the other one goes on.
    """
    try:
        grown = await brought_on(logs, store, term.engine, catalogue, lambda: term.epoch)
    except FAILED as fault:
        log.warning("batchctl goes on with all since its start: %s %s", type(fault).__name__, fault)
        return
    try:
        await grown.take_place()
    finally:
        await grown.close()
