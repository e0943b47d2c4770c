"""Two PostgreSQL servers with streaming replication: the primary is killed, and the standby promoted."""

from __future__ import annotations

import asyncio
from collections.abc import Callable, Iterator
from dataclasses import replace
from pathlib import Path
from typing import Any

import asyncpg
import pytest
from instances import Answer, Caller, running, until
from postgres_server import PostgresServer

from job_host.commands.program import find_batchctl
from job_host.service.settings import ServeSettings


@pytest.fixture
def pair() -> Iterator[tuple[PostgresServer, PostgresServer]]:
    primary = PostgresServer.make()
    primary.start()
    standby = primary.make_standby()
    primary.replicate_by_one()
    yield primary, standby
    standby.remove()
    primary.remove()


async def test_a_promoted_standby_has_all_that_was_acknowledged(
    pair: tuple[PostgresServer, PostgresServer], catalogue: Path
) -> None:
    primary, standby = pair
    dsns = (primary.dsn, standby.dsn)
    settings = ServeSettings(catalogue=catalogue, batchctl=find_batchctl(None), port=0, takeover_after=1.5, postgres=dsns)
    async with running(settings) as one, running(settings, "follower") as two:
        callers = [Caller(one.url), Caller(two.url)]
        starts = [await callers[0].start("short", key=f"k{number}") for number in range(20)]
        await asyncio.to_thread(primary.kill)
        during = await callers[0].start("short", key="during")
        assert during.status == 503
        await asyncio.to_thread(standby.promote)
        again = [await started(callers, f"k{number}") for number in range(20)]
        assert [answer.told for answer in again] == [answer.told for answer in starts]
        assert (await started(callers, "during")).told["executionId"] == 21
        counts = await callers[0].ask("GET", "/batch/jobs?atLeast=21")
        assert counts.told["statusCounts"] == {"STARTING": 21}


async def started(callers: list[Caller], key: str) -> Answer:
    """The answer of the instance that leads."""
    answers: list[Answer] = []

    async def is_answered() -> bool:
        answers[:] = [answer for caller in callers if (answer := await caller.start("short", key=key)).status == 201]
        return bool(answers)

    await until(is_answered)
    return answers[0]


async def test_a_commit_waits_for_the_standby(pair: tuple[PostgresServer, PostgresServer], catalogue: Path) -> None:
    """Without its standby the primary acknowledges nothing, refusals included."""
    primary, standby = pair
    settings = ServeSettings(catalogue=catalogue, batchctl=find_batchctl(None), port=0, postgres=(primary.dsn,))
    async with running(settings) as instance:
        caller = Caller(instance.url)
        assert (await caller.start("short")).status == 201
        await asyncio.to_thread(standby.kill)
        tasks = [asyncio.create_task(caller.start("short")), asyncio.create_task(caller.change(9, "stop"))]
        done, _ = await asyncio.wait(tasks, timeout=1.5)
        assert not done
        await asyncio.to_thread(standby.start)
        assert [(await task).status for task in tasks] == [201, 404]


async def test_nothing_is_shown_that_the_standby_has_not(pair: tuple[PostgresServer, PostgresServer], catalogue: Path) -> None:
    """The co-process is killed while a commit waits for the standby. A promoted standby wouldn't have that operation."""
    primary, standby = pair
    settings = ServeSettings(catalogue=catalogue, batchctl=find_batchctl(None), port=0, postgres=(primary.dsn,))
    async with running(settings) as instance:
        caller, engine = Caller(instance.url), instance.service.keeper.engine
        assert (await caller.start("short")).status == 201 and engine is not None
        await asyncio.to_thread(standby.kill)
        start = asyncio.create_task(caller.start("short", key="waits"))
        await asyncio.sleep(1.0)
        engine.process.kill()
        assert (await start).status == 503
        await instance.until_role("follower")
        read = await caller.ask("GET", "/batch/jobexecutions/2")
        assert (read.name, read.operations) == ("NoSuchJobExecutionException", 1)
        await asyncio.to_thread(standby.start)
        await instance.until_role("leader")
        again = await caller.start("short", key="waits")
        assert (again.status, again.told["executionId"], again.operations) == (201, 2, 2)


async def test_a_server_that_hangs_is_passed_over(settings: Callable[..., ServeSettings]) -> None:
    """It takes connections, and never answers. The next one takes writes."""
    connections: list[asyncio.StreamWriter] = []

    async def hang(reader: asyncio.StreamReader, writer: asyncio.StreamWriter) -> None:
        connections.append(writer)

    made = settings()
    server = await asyncio.start_server(hang, "127.0.0.1", 0)
    port = server.sockets[0].getsockname()[1]
    dsns = (f"postgresql://nobody@127.0.0.1:{port}/none", *made.postgres)
    async with running(replace(made, postgres=dsns)) as instance:
        assert (await Caller(instance.url).start("short")).status == 201
    for writer in connections:
        writer.close()
    server.close()


@pytest.mark.parametrize("name", ["pg_is_in_recovery", "server_encoding", "job_host_version"])
async def test_a_server_that_hangs_behind_the_handshake_is_passed_over(
    settings: Callable[..., ServeSettings], monkeypatch: pytest.MonkeyPatch, name: str
) -> None:
    """It never answers the first question in which this name is."""
    fetch, asked = asyncpg.Connection.fetchval, list[str]()

    async def hang_once(connection: asyncpg.Connection, query: str, *words: Any, **more: Any) -> Any:
        if name in query and not asked:
            asked.append(query)
            return await fetch(connection, "select pg_sleep(600)", *words, **more)
        return await fetch(connection, query, *words, **more)

    monkeypatch.setattr(asyncpg.Connection, "fetchval", hang_once)
    made = settings(commit_timeout=1.0)
    async with running(replace(made, postgres=made.postgres * 2)) as instance:
        assert (await Caller(instance.url).start("short")).status == 201
