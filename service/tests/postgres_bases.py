"""Services over PostgreSQL whose operations are compacted under test, and what their tables have."""

from __future__ import annotations

import asyncio
from collections.abc import AsyncIterator, Callable
from contextlib import asynccontextmanager
from typing import Any, cast

import asyncpg
import pytest
from instances import Caller, Instance
from kept import engine_of

from job_host.service.history.coprocess import CoProcess
from job_host.service.keepers.keeper import Compaction
from job_host.service.keepers.postgres import PostgresKeeper
from job_host.service.settings import ServeSettings


def keeper_of(instance: Instance) -> PostgresKeeper:
    return cast(PostgresKeeper, instance.service.keeper)


async def compact(instance: Instance) -> Compaction:
    """Makes a base of all that an instance has and the table, too."""
    keeper = keeper_of(instance)
    until = keeper.committed
    return await keeper._compacting.compact(keeper._making, engine_of(instance), until)


@asynccontextmanager
async def table_of(made: ServeSettings) -> AsyncIterator[asyncpg.Connection]:
    connection = await asyncpg.connect(made.postgres[0])
    try:
        yield connection
    finally:
        await connection.close()


async def operations_in(made: ServeSettings) -> list[int]:
    """The numbers of the operations in the table."""
    async with table_of(made) as table:
        return [row[0] for row in await table.fetch("select number from job_host_operation order by number")]


async def bases_in(made: ServeSettings) -> list[tuple[int, int]]:
    """The bases in the table, each with its count of parts that are there."""
    async with table_of(made) as table:
        statement = "select number, count(part) from job_host_base join job_host_base_part using (number) group by number"
        return [(row[0], row[1]) for row in await table.fetch(statement)]


async def tables_in(made: ServeSettings) -> list[Any]:
    """All that a base may change, and what nobody may lose."""
    names = ("operation", "base", "base_part", "action", "request", "client", "work_log")
    async with table_of(made) as table:
        return [await table.fetch(f"select * from job_host_{name} order by 1, 2") for name in names]


async def done_in(url: str, executions: tuple[int, ...] = (2, 3, 4, 5)) -> list[Any]:
    """Who did what to job executions, as the service tells it."""
    caller, told = Caller(url, "one"), list[Any]()
    for number in executions:
        rows = (await caller.ask("GET", f"/batch/jobexecutions/{number}/operations")).told
        told.append([(row["action"], row["client"], row["operation"], row["time"]) for row in rows])
    return told


async def settle(*instances: Instance) -> None:
    """Returns after each of them knows as many operations as the first."""
    count = engine_of(instances[0]).entered
    for instance in instances[1:]:
        assert (await Caller(instance.url).ask("GET", f"/batch/jobs?atLeast={count}")).status == 200


def handed(patch: pytest.MonkeyPatch) -> list[bytes]:
    """The operations that co-processes are handed by a replay from now on."""
    lines: list[bytes] = []
    send_all = CoProcess.send_all

    def note(process: CoProcess, given: Any, hearer: Any) -> None:
        lines.extend(line for line in given if b'"do"' in line)
        send_all(process, given, hearer)

    patch.setattr(CoProcess, "send_all", note)
    return lines


class Halt:
    """Halts a step of an instance before it, or behind it, until `go_on` is set."""

    def __init__(self, patch: pytest.MonkeyPatch, owner: Any, name: str, is_before: bool, passed: int = 0) -> None:
        self.reached, self.go_on = asyncio.Event(), asyncio.Event()
        self._passed = passed
        step: Callable[..., Any] = getattr(owner, name)

        async def halt(*given: Any, **more: Any) -> Any:
            self._passed -= 1
            if self._passed >= 0:
                return await step(*given, **more)
            told = None if is_before else await step(*given, **more)
            self.reached.set()
            await self.go_on.wait()
            return told

        patch.setattr(owner, name, halt)
