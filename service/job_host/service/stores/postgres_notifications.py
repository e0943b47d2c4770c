"""Marks and notifications in PostgreSQL. Each statement that writes does so under its leader's epoch alone."""

from __future__ import annotations

from collections.abc import Awaitable, Callable, Mapping, Sequence
from typing import Any

import asyncpg

from job_host.service.problems import Problem, unavailable
from job_host.service.stores.notifications import NewNotification, Notification, PolicyNotes

ADD_NOTIFICATIONS = """
create table if not exists job_host_mark (name text primary key, value bigint not null);
create table if not exists job_host_notification (
    number bigint generated always as identity primary key,
    id text not null unique,
    execution bigint not null,
    body text not null,
    attempts integer not null default 0,
    due bigint not null default 0
);
create index if not exists job_host_notification_execution on job_host_notification (execution, number);
"""
# A leader that was cut off writes nothing: a later one waits for the row, or has changed it.
FENCE = "with fence as (select epoch from job_host_leader where epoch = $1 for share)"
ADD = f"""
{FENCE}, marked as (
    insert into job_host_mark (name, value)
    select m.name, m.value from unnest($5::text[], $6::bigint[]) as m(name, value) where exists (select from fence)
    on conflict (name) do update set value = excluded.value
), added as (
    insert into job_host_notification (id, execution, body)
    select n.id, n.execution, n.body
    from unnest($2::text[], $3::bigint[], $4::text[]) with ordinality as n(id, execution, body, place)
    where exists (select from fence) order by n.place on conflict (id) do nothing
)
select epoch from fence
"""
DUE = """
select number, id, body, attempts from job_host_notification one where due <= $1 and not exists (
    select from job_host_notification earlier where earlier.execution = one.execution and earlier.number < one.number
) order by number limit $2
"""
DROP = f"""
{FENCE}, gone as (delete from job_host_notification where number = $2 and exists (select from fence))
select epoch from fence
"""
POSTPONE = f"""
{FENCE}, changed as (
    update job_host_notification set attempts = attempts + 1, due = $3 where number = $2 and exists (select from fence)
)
select epoch from fence
"""

# Begins one statement on a connection, whose answer is awaited.
Use = Callable[[asyncpg.Connection], Any]
# Lends a connection. Raises a problem if it is lost.
Using = Callable[[Use], Awaitable[Any]]


class PostgresNotes(PolicyNotes):
    """The tables, for the leader of an epoch."""

    def __init__(self, using: Using, epoch: int) -> None:
        self._using = using
        self._epoch = epoch

    async def marks(self) -> dict[str, int]:
        rows = await self._using(lambda one: one.fetch("select name, value from job_host_mark"))
        return {row["name"]: row["value"] for row in rows}

    async def add(self, notifications: Sequence[NewNotification], marks: Mapping[str, int]) -> None:
        columns = [[one[place] for one in notifications] for place in range(3)]
        await self._write(ADD, *columns, list(marks), list(marks.values()))

    async def count(self) -> int:
        return int(await self._using(lambda one: one.fetchval("select count(*) from job_host_notification")))

    async def due(self, now: int, most: int) -> list[Notification]:
        return [Notification(*row) for row in await self._using(lambda one: one.fetch(DUE, now, most))]

    async def drop(self, number: int) -> None:
        await self._write(DROP, number)

    async def postpone(self, number: int, due: int) -> None:
        await self._write(POSTPONE, number, due)

    async def _write(self, statement: str, *words: Any) -> None:
        if await self._using(lambda one: one.fetchval(statement, self._epoch, *words)) is None:
            raise not_leading()


def not_leading() -> Problem:
    return unavailable("NotLeader", "another instance has taken over")
