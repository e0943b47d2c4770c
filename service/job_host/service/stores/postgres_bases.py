"""The bases in PostgreSQL: the rows that existed after so many operations, in place of these, as the file of a log."""

from __future__ import annotations

import asyncio
from collections.abc import Callable, Iterator, Sequence
from contextlib import AbstractAsyncContextManager, AsyncExitStack
from itertools import islice
from pathlib import Path
from typing import Any, NamedTuple, Protocol

import asyncpg

from job_host.service.history.actions import Action
from job_host.service.history.engine import Record
from job_host.service.history.log_file import Head, KnownBase
from job_host.service.problems import unavailable
from job_host.service.stores.postgres_connection import closed_is_lost, connect_primary, or_drop
from job_host.service.stores.postgres_schema import GROW, KEEP_CATALOGUE

PART_BYTES = 1_048_576
# So many rows are changed by a statement. Between two of them the leader's commits have the server for themselves.
ROWS_AT_ONCE = 5_000
PAUSE_SECONDS = 0.002
# A base that isn't kept after so long is given up: the server may wait for a standby.
PUT_SECONDS = 900.0
# A number that only this package locks, so that two instances don't keep a base at once.
BASES_LOCK = 7_402_118_432

NEWEST = """
select b.number, b.execution, b.instance, b.work, b.rows, b.digest, b.made, b.parts, b.history::text
from job_host_base b join job_host_leader l using (history) order by b.number desc limit 1
"""
PART = "select bytes from job_host_base_part where number = $1 and part = $2"
OPERATIONS = "select number, line, reply from job_host_operation where number > $1 order by number limit $2"
HISTORY = "select history::text from job_host_leader"
KEEP_BASE = """
insert into job_host_base (number, execution, instance, work, rows, digest, made, parts, history)
values ($1, $2, $3, $4, $5, $6, $7, $8, $9::text::uuid)
"""
KEEP_PART = "insert into job_host_base_part (number, part, bytes) values ($1, $2, $3)"
DROP_EARLIER = """
with part as (delete from job_host_base_part where number < $1) delete from job_host_base where number < $1
"""
# The first one stays: by it the next leader knows the history, and that nobody has emptied the table.
DROP_OPERATIONS = "delete from job_host_operation where number between $1 and $2 and number > 1"
ACTIONS = """
select execution, operation, name, session, moment, of from job_host_action
where (operation, execution) > ($1, $2) order by operation, execution limit $3
"""
# Who did it stands in the rows of the operations, which are deleted behind this.
KEEP_ACTIONS = """
insert into job_host_action (execution, operation, name, session, moment, of, job, client, token, address)
select a.*, o.job, o.client, o.token, o.address
from unnest($1::bigint[], $2::bigint[], $3::text[], $4::bigint[], $5::bigint[], $6::bigint[])
    as a(execution, operation, name, session, moment, of)
left join job_host_operation o on o.number = a.operation
on conflict (operation, execution) do nothing
"""
DROP_ACTIONS = "delete from job_host_action where execution = any($1::bigint[])"

# What was done to a job execution, by its number.
Done = tuple[int, Action]


class KeptBase(NamedTuple):
    """A base in the table: by what it is known, of how many parts it is, and the identity of its history."""

    known: KnownBase
    parts: int
    history: str

    @classmethod
    def of(cls, row: Sequence[Any]) -> KeptBase:
        *head, digest, made, parts, history = row
        return cls(KnownBase(Head(*head), digest, made), parts, history)

    @property
    def number(self) -> int:
        """How many operations it stands for."""
        return self.known.head.operations


class BaseDamaged(Exception):
    """A base can't be used, and the operations before it are gone: a person has to look. The text names it."""

    def __init__(self, base: KeptBase, told: str) -> None:
        super().__init__(f"the base of {base.number} operations in job_host_base {told}")


class BaseGone(Exception):
    """A later base has taken the place of the one that was read, and of the operations before it."""


class OperationsMissing(Exception):
    """Operations are neither in the table nor before a base."""

    def __init__(self, before: int, found: int | None) -> None:
        until = "" if found is None else f" up to {found - 1}"
        super().__init__(f"job_host_operation lacks operation {before + 1}{until}, and no base in job_host_base has it")


class Made(NamedTuple):
    """A base that was made: by what it is known, the base that it began from, and its file.

    Also what was done to job executions between these two, and which were purged.
    """

    known: KnownBase
    before: KeptBase | None
    history: str
    path: Path
    done: Sequence[Done]
    gone: Sequence[int]

    @property
    def parts(self) -> int:
        return max(1, -(-self.path.stat().st_size // PART_BYTES))


class EpochGrowing(Protocol):
    """An epoch that begins with a catalogue."""

    epoch: int


class Leaner(NamedTuple):
    """The catalogue of a base that some jobs have left. It begins an epoch: `growing` lets nothing be kept under the one before
    it from then on."""

    line: bytes
    growing: Callable[[], AbstractAsyncContextManager[EpochGrowing]]


def slices(rows: Sequence[Any]) -> Iterator[list[Any]]:
    """So many rows at a time as a statement changes."""
    coming = iter(rows)
    while some := list(islice(coming, ROWS_AT_ONCE)):
        yield some


class PostgresBases:
    """A connection of its own, so that neither a commit nor a read of the service waits for a base.

    What fails raises what LOST has. Then it is closed for good.
    """

    def __init__(self, connection: asyncpg.Connection) -> None:
        self._connection = connection

    @classmethod
    async def open(cls, dsns: Sequence[str]) -> PostgresBases:
        """Connects. Raises NoPrimary, or what LOST has."""
        return cls(await connect_primary(dsns, None))

    def close(self) -> None:
        self._connection.terminate()

    async def _fetch(self, statement: str, *words: Any) -> list[Any]:
        with closed_is_lost(self._connection):
            return list(await self._connection.fetch(statement, *words))

    async def _execute(self, statement: str, *words: Any) -> str:
        with closed_is_lost(self._connection):
            return str(await self._connection.execute(statement, *words))

    async def history(self) -> str:
        """The identity of the history."""
        return str((await self._fetch(HISTORY))[0][0])

    async def newest(self) -> KeptBase | None:
        """The newest base of the history, if it has one."""
        rows = await self._fetch(NEWEST)
        return KeptBase.of(rows[0]) if rows else None

    async def write_to(self, base: KeptBase, path: Path) -> None:
        """Writes the file of a base. Raises BaseGone if there is a newer one now, and BaseDamaged if a part is missing."""
        with path.open("xb") as file:
            for part in range(base.parts):
                rows = await self._fetch(PART, base.number, part)
                if not rows:
                    raise await self._without(base, part)
                await asyncio.to_thread(file.write, rows[0]["bytes"])

    async def _without(self, base: KeptBase, part: int) -> Exception:
        if await self.newest() != base:
            return BaseGone(f"a newer base than that of {base.number} operations was made")
        return BaseDamaged(base, f"has no part {part} of {base.parts} in job_host_base_part")

    async def operations(self, before: int, most: int) -> list[Record]:
        """The next operations, no more than so many. Raises BaseGone if a newer base has them, else OperationsMissing."""
        rows = await self._fetch(OPERATIONS, before, most)
        for place, row in enumerate(rows, 1):
            if row["number"] != before + place:
                raise await self._gap(before + place - 1, row["number"])
        if not rows:
            raise await self._gap(before, None)
        return [Record(row["number"], row["line"].encode(), row["reply"].encode()) for row in rows]

    async def _gap(self, before: int, found: int | None) -> Exception:
        base = await self.newest()
        if base is not None and base.number > before:
            return BaseGone(f"the base of {base.number} operations stands for operation {before + 1}")
        return OperationsMissing(before, found)

    async def actions(self) -> list[Done]:
        """What was done to job executions before the newest base, in the order of the operations."""
        found: list[Done] = []
        last = (0, 0)
        while rows := await self._fetch(ACTIONS, *last, ROWS_AT_ONCE):
            found += [(row[0], Action(*row[1:])) for row in rows]
            last = (rows[-1]["operation"], rows[-1]["execution"])
        return found

    async def put(self, made: Made, leaner: Leaner | None = None) -> bool:
        """Keeps a base, and deletes the operations that it stands for, in one transaction.

        Returns whether the base that it began from was still the newest one. If not, nothing is changed. If the table lacks
        operations between the two, it raises OperationsMissing, and nothing is changed. No row is locked that a commit needs.
        But a catalogue that jobs have left needs the leader's row: a problem is raised if another instance leads.
        """
        return bool(await or_drop(self._connection, PUT_SECONDS, self._put(made, leaner)))

    async def _put(self, made: Made, leaner: Leaner | None) -> bool:
        async with AsyncExitStack() as until_kept, self._connection.transaction():
            await self._execute("select pg_advisory_xact_lock($1)", BASES_LOCK)
            if await self.newest() != made.before or await self.history() != made.history:
                return False
            await self._keep(made)
            await self._keep_actions(made)
            await self._drop_operations(0 if made.before is None else made.before.number, made.known.head.operations)
            if leaner is not None:
                growing = await until_kept.enter_async_context(leaner.growing())
                growing.epoch = await self._lean(growing.epoch, leaner.line)
        return True

    async def _lean(self, epoch: int, line: bytes) -> int:
        """Keeps a catalogue under the next epoch. Raises a problem if this one is over."""
        rows = await self._fetch(GROW, epoch)
        if not rows:
            raise unavailable("NotLeader", "another instance has taken over")
        begun = int(rows[0]["epoch"])
        await self._execute(KEEP_CATALOGUE, begun, line.decode())
        return begun

    async def _keep(self, made: Made) -> None:
        """Keeps the base in place of the one before."""
        number = made.known.head.operations
        await self._execute(KEEP_BASE, *made.known.head, made.known.digest, made.known.made, made.parts, made.history)
        with made.path.open("rb") as file:
            for part in range(made.parts):
                await self._execute(KEEP_PART, number, part, file.read(PART_BYTES))
                await asyncio.sleep(PAUSE_SECONDS)
        await self._execute(DROP_EARLIER, number)

    async def _keep_actions(self, made: Made) -> None:
        for some in slices([(execution, *action) for execution, action in made.done]):
            await self._execute(KEEP_ACTIONS, *map(list, zip(*some)))
        for gone in slices(made.gone):
            await self._execute(DROP_ACTIONS, gone)

    async def _drop_operations(self, before: int, until: int) -> None:
        """Deletes operations. Raises OperationsMissing if they weren't all there."""
        dropped = 0
        for first in range(before + 1, until + 1, ROWS_AT_ONCE):
            told = await self._execute(DROP_OPERATIONS, first, min(first + ROWS_AT_ONCE - 1, until))
            dropped += int(told.rpartition(" ")[2])
            await asyncio.sleep(PAUSE_SECONDS)
        if dropped != until - max(before, 1):
            raise OperationsMissing(before, None)
