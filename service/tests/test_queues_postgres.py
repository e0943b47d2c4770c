"""Several queues over PostgreSQL: each has tables and an epoch of its own, one instance leads all, and all are taken over."""

from __future__ import annotations

import signal
from collections.abc import AsyncIterator
from contextlib import asynccontextmanager
from pathlib import Path
from typing import Any

import asyncpg
import pytest
from instances import Caller, Instance, Process, running, until
from queued import NIGHT, URGENT, QueueCaller, queued_settings, queues_file, write_jobs

from job_host.service.queues.postgres_numbers import dsn_of, numbers_with, schema_of
from job_host.service.settings import ServeSettings


@pytest.fixture
def made(tmp_path: Path, dsn: str) -> ServeSettings:
    jobs = write_jobs(tmp_path / "jobs")
    return queued_settings(tmp_path, jobs, postgres=(dsn,), takeover_after=1.5)


@asynccontextmanager
async def table(dsn: str) -> AsyncIterator[asyncpg.Connection]:
    connection = await asyncpg.connect(dsn)
    try:
        yield connection
    finally:
        await connection.close()


@pytest.mark.parametrize(
    ("dsn", "number", "expected"),
    [
        ("postgresql://a@h/d", 0, "postgresql://a@h/d"),
        ("postgresql://a:p%40@h:5/d", 2, "postgresql://a:p%40@h:5/d?search_path=job_host_queue_2"),
        (
            "postgresql://h/d?sslmode=require&search_path=x",
            1,
            "postgresql://h/d?sslmode=require&search_path=job_host_queue_1",
        ),
    ],
)
def test_a_queue_has_a_schema(dsn: str, number: int, expected: str) -> None:
    assert dsn_of(dsn, number) == expected and schema_of(3) == "job_host_queue_3"


async def test_numbers_are_given_once(dsn: str) -> None:
    assert await numbers_with([dsn], []) == {}
    async with table(dsn) as connection:
        assert await connection.fetchval("select to_regclass('job_host_queue')") is None
    assert await numbers_with([dsn], ["urgent", "night"]) == {"urgent": 1, "night": 2}
    assert await numbers_with([dsn], ["night"]) == await numbers_with([dsn], []) == {"urgent": 1, "night": 2}


async def test_each_queue_has_its_own_tables(made: ServeSettings) -> None:
    async with running(made) as instance:
        caller = QueueCaller(instance.url)
        for job in ("day", "alarm", "dump", "dump"):
            await caller.start(job)
        assert (await caller.claim_of("urgent", "night")).told["work"]["work"] == URGENT + 1
        assert (await caller.start("dump")).seen == "0,0,3"
    for number, count in ((0, 1), (1, 2), (2, 3)):
        async with table(dsn_of(made.postgres[0], number)) as connection:
            assert await connection.fetchval("select count(*) from job_host_operation") == count
            assert await connection.fetchval("select holder from job_host_leader") == ""


async def test_one_instance_leads_all_queues(made: ServeSettings) -> None:
    async with running(made) as leader, running(made, "follower") as other:
        first, second = QueueCaller(leader.url), QueueCaller(other.url)
        seen = (await first.start("dump")).seen
        assert (await second.seen(f"/batch/jobexecutions/{NIGHT + 1}", seen)).told["jobName"] == "dump"
        assert (await second.start("alarm")).name == "NotLeader"
        assert (await second.claim_of("night")).name == "NotLeader"
        # It gives up the default queue, as a leader that is cut off does: then it gives up the others with it.
        await give_up(leader, made)
        await other.until_role("leader")
        await leader.until_role("follower")
        assert (await second.claim_of("urgent", "night")).told["work"]["execution"] == NIGHT + 1


async def give_up(leader: Instance, made: ServeSettings) -> None:
    """Lets another instance have the default queue's epoch."""
    async with table(made.postgres[0]) as connection:
        await connection.execute("update job_host_leader set epoch = epoch + 1, holder = ''")

    async def has_ended() -> bool:
        return leader.service.keeper.role != "leader"

    await until(has_ended)


@pytest.mark.postgres
async def test_a_takeover_takes_all_queues(tmp_path: Path, dsn: str) -> None:
    jobs, queues = write_jobs(tmp_path / "jobs"), queues_file(tmp_path)
    words = ["--jobs", str(jobs), "--queues", str(queues), "--postgres", dsn, "--takeover-after", "1.5"]
    services = [Process(tmp_path / f"service-{number}.log", *words) for number in range(2)]
    try:
        services[0].start()
        await services[0].until_role("leader")
        services[1].start()
        await services[1].until_role("follower")
        for job, number in (("day", 1), ("alarm", URGENT + 1), ("dump", NIGHT + 1)):
            assert (await QueueCaller(services[0].url).start(job, key=job)).told["executionId"] == number
        services[0].signal(signal.SIGKILL)
        await services[1].until_role("leader")
        caller = QueueCaller(services[1].url)
        assert (await caller.start("dump", key="dump")).told["executionId"] == NIGHT + 1
        assert await caller.run_all("urgent", "night", "default") == [URGENT + 1, NIGHT + 1, 1]
        told: Any = (await Caller(services[1].url).ask("GET", "/batch/history")).told["queues"]
        assert [(one["role"], one["operations"]) for one in told] == [("leader", 3)] * 3
    finally:
        for service in services:
            service.kill()
