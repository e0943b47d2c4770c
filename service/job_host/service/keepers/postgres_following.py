"""What an instance over PostgreSQL knows, beside what the table has: it may go on, or begins again with the newest base."""

from __future__ import annotations

from collections.abc import Sequence

from job_host.service.history.engine import Engine, Record
from job_host.service.keepers.postgres_compacting import note_newest
from job_host.service.stores.postgres import Leader, PostgresStore
from job_host.service.stores.postgres_bases import BaseGone, OperationsMissing


async def knows_table(store: PostgresStore, engine: Engine, epoch: int) -> bool:
    """Whether all that an engine has entered is in the table, from the last operation that was known to be there on.

    A commit whose answer was lost may be there or not, and another leader may have written others, in a later epoch than this.
    Each leader began with all operations before its own. So what comes before that last one is the same, too. Of operations
    before the newest base is known that they were there, if the engine has noted this base.
    """
    base, recent = await store.newest_base(), list(engine.recent)
    first = recent[0].number if recent else 1
    if base is not None and base.number > engine.entered:
        return False
    if base is not None and base.known == engine.base:
        recent = [one for one in recent if one.number > base.number]
        first = max(first, base.number + 1)
    return await store.operations_after(first - 1, epoch, len(recent)) == [one._replace(did=None) for one in recent]


async def check_gap(store: PostgresStore, engine: Engine, records: Sequence[Record]) -> None:
    """Raises BaseGone if a base has taken the place of operations between these, or before them, else OperationsMissing."""
    lacking = next((one for place, one in enumerate(records, 1) if one.number != engine.entered + place), None)
    if lacking is None:
        return
    base = await store.newest_base()
    if base is not None and base.number > engine.entered:
        raise BaseGone(f"the base of {base.number} operations stands for some that aren't known here")
    raise OperationsMissing(engine.entered, lacking.number)


async def look_at_base(store: PostgresStore, engine: Engine, leader: Leader) -> None:
    """Notes a new base. Raises BaseGone if the operations behind the engine's are before it."""
    if leader.based > engine.entered:
        raise BaseGone(f"the base of {leader.based} operations stands for some that aren't known here")
    base = await store.newest_base() if leader.based > engine.based else None
    if base is not None:
        note_newest(engine, base)
