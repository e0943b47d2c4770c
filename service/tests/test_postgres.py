"""Keeping in PostgreSQL: what is acknowledged is kept, one instance leads, and a replay is compared."""

from __future__ import annotations

import asyncio
import json
import signal
import sqlite3
from collections.abc import Callable
from contextlib import closing
from pathlib import Path
from typing import Any

import asyncpg
import pytest
from conftest import NIGHTLY, SHORT
from instances import Caller, Instance, Process, running, until
from postgres_server import PostgresServer

from job_host.service.history.coprocess import CoProcessEnded
from job_host.service.history.engine import Engine
from job_host.service.keepers.keeper import Fatal
from job_host.service.settings import Bounds, ServeSettings
from job_host.service.stores.beside_files import STORE_NAME
from job_host.service.stores.postgres import PostgresStore

Make = Callable[..., ServeSettings]
LEADER_ROW = "select epoch from job_host_leader for update"
BLOCKED = "select pid from pg_stat_activity where wait_event_type = 'Lock' and datname = current_database()"


async def connect(settings: ServeSettings) -> asyncpg.Connection:
    return await asyncpg.connect(settings.postgres[0])


async def test_an_operation_is_in_the_table_when_it_is_answered(settings: Make) -> None:
    made = settings()
    async with running(made) as instance:
        told = await Caller(instance.url).start(key="first", date="2026-11-27")
        table = await connect(made)
        rows = await table.fetch("select number, epoch, line, reply, request_key from job_host_operation")
        await table.close()
    assert (told.status, told.operations, told.told["executionId"]) == (201, 1, 1)
    assert [(row["number"], row["epoch"], row["reply"], row["request_key"]) for row in rows] == [
        (1, 1, '{"execution":1}', "first")
    ]
    line = json.loads(rows[0]["line"])
    assert (line["do"], line["job"], line["parameters"]) == ("start", "nightly", {"date": "2026-11-27"})


async def test_no_reply_leaves_before_its_commit(settings: Make) -> None:
    """The leader's row is locked from outside, so that the commit waits: then start, read and refusal wait, too."""
    made = settings()
    async with running(made) as instance:
        caller, table = Caller(instance.url), await connect(made)
        lock = table.transaction()
        await lock.start()
        await table.fetch(LEADER_ROW)
        calls = [caller.start(), caller.ask("GET", "/batch/jobexecutions/1"), caller.change(9, "stop")]
        tasks = [asyncio.create_task(calls[0])]

        async def is_entered() -> bool:
            return instance.service.keeper.operations == 1

        await until(is_entered)
        tasks += [asyncio.create_task(call) for call in calls[1:]]
        done, _ = await asyncio.wait(tasks, timeout=0.7)
        assert not done
        await lock.rollback()
        started, read, refused = await asyncio.gather(*tasks)
        await table.close()
    assert (started.status, read.told["batchStatus"], refused.name) == (201, "STARTING", "NoSuchJobExecutionException")


async def test_a_refused_read_waits_for_what_it_saw(settings: Make) -> None:
    """Reads that saw an operation which isn't kept yet are answered after it is, refused ones too."""
    made = settings()
    async with running(made) as instance:
        caller, table = Caller(instance.url), await connect(made)
        lock = table.transaction()
        await lock.start()
        await table.fetch(LEADER_ROW)
        tasks = [asyncio.create_task(caller.start())]
        await asyncio.sleep(0.2)
        tasks.append(asyncio.create_task(caller.ask("GET", "/batch/jobinstances?jobName=short")))
        tasks.append(asyncio.create_task(caller.ask("GET", "/batch/work")))
        done, _ = await asyncio.wait(tasks, timeout=0.5)
        assert not done
        await lock.rollback()
        started, refused, held = await asyncio.gather(*tasks)
        await table.close()
    assert (started.status, refused.name, held.told, held.operations) == (201, "NoSuchJobException", [], 1)


async def test_a_commit_that_fails_while_a_read_waits(settings: Make) -> None:
    """Neither the call nor the read that saw it is answered, and the history goes on without it."""
    made = settings()
    async with running(made) as instance:
        caller, table = Caller(instance.url), await connect(made)
        assert (await caller.start("short")).told["executionId"] == 1
        lock = table.transaction()
        await lock.start()
        await table.fetch(LEADER_ROW)
        start = asyncio.create_task(caller.start("nightly", key="lost"))
        await asyncio.sleep(0.2)
        read = asyncio.create_task(caller.ask("GET", "/batch/jobexecutions/2"))
        done, _ = await asyncio.wait([start, read], timeout=0.5)
        assert not done
        for row in await table.fetch(BLOCKED):
            await table.fetch("select pg_terminate_backend($1)", row["pid"])
        answers = await asyncio.gather(start, read)
        assert [(answer.status, answer.name) for answer in answers] == [(503, "CommitFailed"), (503, "CommitFailed")]
        await lock.rollback()
        await instance.until_role("starting", "follower")
        await instance.until_role("leader")
        assert (await caller.ask("GET", "/batch/jobexecutions/2")).name == "NoSuchJobExecutionException"
        again = await caller.start("nightly", key="lost")
        assert (again.status, again.told["executionId"], again.operations) == (201, 2, 2)
        await table.close()


async def test_a_commit_whose_answer_is_lost_is_found_by_its_key(settings: Make) -> None:
    made = settings()
    async with running(made) as instance:
        caller, keeper = Caller(instance.url), instance.service.keeper
        assert keeper.term is not None
        store: Any = keeper.term._store  # type: ignore[attr-defined]
        commit = store.commit

        async def commit_and_lose(*given: Any) -> bool:
            await commit(*given)
            raise OSError("the answer is lost")

        store.commit = commit_and_lose
        told = await caller.start(key="again")
        assert (told.status, told.name) == (503, "CommitFailed")
        await instance.until_role("starting", "follower")
        await instance.until_role("leader")
        again = await caller.start(key="again")
        assert (again.status, again.told["executionId"], again.operations) == (201, 1, 1)
        assert keeper.operations == 1


async def test_many_calls_share_a_commit(settings: Make) -> None:
    made = settings()
    async with running(made) as instance:
        callers = [Caller(instance.url, f"client-{number}") for number in range(40)]
        answers = await asyncio.gather(*(caller.start() for caller in callers))
        assert sorted(answer.told["executionId"] for answer in answers) == list(range(1, 41))
        table = await connect(made)
        beats = await table.fetchval("select beats from job_host_leader")
        await table.close()
    assert beats < 30


async def test_the_history_goes_on_after_a_restart(settings: Make) -> None:
    made = settings()
    async with running(made) as instance:
        caller = Caller(instance.url)
        await caller.start()
        claimed = await caller.claim()
        await caller.finish(claimed.told["work"]["work"], "FAILED", exit="DISK FULL", log="no space")
    async with running(made) as instance:
        caller = Caller(instance.url)
        assert await caller.status(1) == "FAILED"
        again = await caller.change(1, "restart")
        assert (again.told["executionId"], again.told["instanceId"]) == (2, 1)
        logs = await caller.ask("GET", "/batch/jobexecutions/1/joblogs")
        assert logs.told == [{"work": 1, "stepName": "load", "partition": None, "log": "no space"}]


async def test_a_killed_co_process_is_replaced(settings: Make) -> None:
    async with running(settings()) as instance:
        caller, keeper = Caller(instance.url), instance.service.keeper
        await caller.start()
        assert keeper.engine is not None
        keeper.engine.process.kill()
        await instance.until_role("starting", "follower")
        await instance.until_role("leader")
        assert (await caller.start()).told["executionId"] == 2


async def test_a_reply_that_differs_stops_the_instance(settings: Make) -> None:
    made = settings()
    async with running(made) as instance:
        await Caller(instance.url).start()
    table = await connect(made)
    await table.execute("update job_host_operation set reply = '{\"execution\":7}'")
    await table.close()
    with pytest.raises(Fatal) as stopped:
        async with running(made) as instance:
            pass
    assert '{"execution":7}' in str(stopped.value) and '{"execution":1}' in str(stopped.value)


async def test_a_catalogue_may_add_jobs_and_change_none(settings: Make, tmp_path: Path) -> None:
    def write(*jobs: Any) -> Path:
        path = tmp_path / "next.json"
        path.write_text(json.dumps({"jobs": jobs}))
        return path

    async with running(settings(catalogue=write(NIGHTLY))) as instance:
        assert (await Caller(instance.url).start("short")).name == "JobStartException"
    async with running(settings(catalogue=write(SHORT, NIGHTLY))) as instance:
        assert (await Caller(instance.url).start("short")).status == 201
    changed = {"id": "nightly", "restartable": False, "elements": NIGHTLY["elements"]}
    with pytest.raises(Fatal, match="'nightly' is changed.*restartable"):
        async with running(settings(catalogue=write(SHORT, changed))):
            pass
    with pytest.raises(Fatal, match="'short' is dropped"):
        async with running(settings(catalogue=write(NIGHTLY))):
            pass


async def test_a_follower_takes_over_the_jobs_that_a_new_leader_brings(settings: Make, tmp_path: Path) -> None:
    fewer, more = tmp_path / "fewer.json", tmp_path / "more.json"
    fewer.write_text(json.dumps({"jobs": [NIGHTLY]}))
    more.write_text(json.dumps({"jobs": [NIGHTLY, SHORT]}))
    async with running(settings(catalogue=fewer)) as one, running(settings(catalogue=fewer), "follower") as two:
        waiting: Any = two.service.keeper

        async def wait(*given: Any) -> None:
            return None

        waiting._store.take_over = wait
        async with running(settings(catalogue=more), "follower") as three:
            await one.stop()
            await three.until_role("leader")
            assert (await Caller(three.url).start("short", key="a")).status == 201
            read = await Caller(two.url).ask("GET", "/batch/jobexecutions/1?atLeast=1")
            assert (read.status, read.told["jobName"]) == (200, "short")
        await two.until_role("leader")
        assert (await Caller(two.url).start("short")).told["executionId"] == 2


@pytest.mark.parametrize("is_stale", [False, True])
async def test_a_follower_that_sleeps_while_a_new_leader_brings_jobs_follows_it(
    settings: Make, tmp_path: Path, is_stale: bool
) -> None:
    fewer, more = tmp_path / "fewer.json", tmp_path / "more.json"
    fewer.write_text(json.dumps({"jobs": [NIGHTLY]}))
    more.write_text(json.dumps({"jobs": [NIGHTLY, SHORT]}))
    async with running(settings(catalogue=fewer)) as one, running(settings(catalogue=fewer), "follower") as two:
        keeper: Any = two.service.keeper
        store = keeper._store
        ask = store.leader
        is_asleep, wake = asyncio.Event(), asyncio.Event()

        async def sleep_and_ask() -> Any:
            leader = await ask()
            is_asleep.set()
            await wake.wait()
            return leader if is_stale else await ask()

        store.leader = sleep_and_ask
        await is_asleep.wait()
        async with running(settings(catalogue=more), "follower") as three:
            await one.stop()
            await three.until_role("leader")
            assert (await Caller(three.url).start("short", key="a")).status == 201
            wake.set()
            read = await Caller(two.url).ask("GET", "/batch/jobexecutions/1?atLeast=1")
            assert (read.status, read.told["jobName"]) == (200, "short")


async def test_a_catalogue_that_is_none_is_refused(settings: Make, tmp_path: Path) -> None:
    path = tmp_path / "empty.json"
    path.write_text('{"jobs":[{"id":"a","elements":[]}]}')
    with pytest.raises(Fatal, match='"fault":"Empty"'):
        async with running(settings(catalogue=path)):
            pass


async def test_a_follower_reads_and_takes_over(settings: Make) -> None:
    async with running(settings(advertise="http://one")) as one:
        first = Caller(one.url)
        async with running(settings(), "follower") as two:
            second = Caller(two.url)
            told = await first.start()
            read = await second.ask("GET", "/batch/jobexecutions/1", **{"Batch-At-Least": str(told.operations)})
            assert (read.status, read.told["batchStatus"], read.operations) == (200, "STARTING", 1)
            refused = await second.start()
            assert (refused.status, refused.name, refused.told["leader"]) == (503, "NotLeader", "http://one")
            await one.service.keeper.close()
            await two.until_role("leader")
            assert (await second.start()).told["executionId"] == 2


async def test_a_leader_whose_batchctl_ends_resigns(settings: Make, monkeypatch: pytest.MonkeyPatch) -> None:
    """It can't begin again. The follower leads at once, though it would wait a minute for a leader that is silent."""
    made = settings(takeover_after=60.0)
    async with running(made) as one, running(made, "follower") as two:
        assert (await Caller(one.url).start()).status == 201
        keeper = one.service.keeper

        async def refused(*words: Any) -> Engine:
            raise CoProcessEnded("no memory")

        assert keeper.engine is not None
        monkeypatch.setattr(keeper, "_start_engine", refused)
        keeper.engine.process.kill()
        await asyncio.wait_for(two.until_role("leader"), 10.0)
        assert (await Caller(two.url).start()).told["executionId"] == 2


async def test_a_leader_that_is_not_ready_for_long_keeps_the_lead(settings: Make, monkeypatch: pytest.MonkeyPatch) -> None:
    """It gives signs before it is ready. The follower would take over after a second and a half."""
    clients = PostgresStore.clients

    async def slowly(store: PostgresStore, most: int) -> dict[str, int]:
        await asyncio.sleep(4.0)
        return await clients(store, most)

    monkeypatch.setattr(PostgresStore, "clients", slowly)
    made = settings()
    one = Instance(made)
    await one.start()
    try:
        await one.until_role("follower")
        table = await connect(made)

        async def has_taken_over() -> bool:
            return bool(await table.fetchval("select epoch = 1 from job_host_leader"))

        await until(has_taken_over)
        await table.close()
        async with running(settings(), "follower") as two:
            await one.until_role("leader")
            assert (one.service.keeper.epoch, two.service.keeper.role) == (1, "follower")
            assert (await Caller(one.url).start()).told["executionId"] == 1
    finally:
        await one.stop()


async def test_a_claim_without_work_leaves_no_row(either: Make) -> None:
    """A worker that is idle asks for ever. A claim by the same key is a new one."""
    made = either()
    async with running(made) as instance:
        caller = Caller(instance.url)
        for number in range(5):
            assert (await caller.claim(wait=0.05, key=f"idle-{number}")).told == {"nothing": True}
        await caller.start("short", key="start")
        assert (await caller.claim(key="idle-1")).told["work"]["work"] == 1
        assert (await caller.claim(key="idle-1")).told["work"]["work"] == 1
    assert await kept_keys(made) == ["idle-1", "start"]


async def kept_keys(settings: ServeSettings) -> list[str]:
    if not settings.postgres:
        with closing(sqlite3.connect(settings.data / STORE_NAME)) as store:
            return [row[0] for row in store.execute("select key from request order by key")]
    table = await connect(settings)
    rows = await table.fetch("select key from job_host_request order by key")
    await table.close()
    return [row["key"] for row in rows]


async def test_old_keys_are_dropped_in_parts(either: Make, monkeypatch: pytest.MonkeyPatch) -> None:
    for module in ("embedded", "postgres"):
        monkeypatch.setattr(f"job_host.service.keepers.{module}.PRUNED", 10)
    made = either(bounds=Bounds(days_of_keys=0))
    async with running(made) as instance:
        for number in range(25):
            await Caller(instance.url).change(9, "stop", key=f"old-{number}")
    async with running(made):

        async def are_gone() -> bool:
            return await kept_keys(made) == []

        await until(are_gone)


async def test_a_term_goes_on_if_what_is_old_cannot_be_dropped(settings: Make, monkeypatch: pytest.MonkeyPatch) -> None:
    async def refused(*words: Any) -> bool:
        raise asyncpg.QueryCanceledError("too long")

    monkeypatch.setattr(PostgresStore, "drop_old_keys", refused)
    async with running(settings()) as instance:
        await asyncio.sleep(0.5)
        assert (instance.service.keeper.role, instance.service.keeper.epoch) == ("leader", 1)
        assert (await Caller(instance.url).start()).status == 201


async def test_a_read_of_operations_that_nobody_made_is_refused(settings: Make) -> None:
    made = settings(bounds=Bounds(at_least_seconds=0.3))
    async with running(made) as one, running(made, "follower") as two:
        for url in (one.url, two.url):
            answer = await Caller(url).ask("GET", "/batch/jobs?atLeast=5")
            assert (answer.status, answer.name) == (503, "NotYetSeen")


async def test_a_key_is_answered_alike_by_the_next_leader(settings: Make) -> None:
    async with running(settings()) as one:
        first = [await Caller(one.url).start(key="a"), await Caller(one.url).change(7, "stop", key="b")]
        async with running(settings(), "follower") as two:
            await one.stop()
            await two.until_role("leader")
            again = [await Caller(two.url).start(key="a"), await Caller(two.url).change(7, "stop", key="b")]
            await Caller(two.url).start()
    assert [answer.told for answer in again] == [answer.told for answer in first]
    assert first[1].name == "NoSuchJobExecutionException"


def words(settings: ServeSettings) -> list[str]:
    given = ["--catalogue", str(settings.catalogue), "--batchctl", settings.batchctl[0], "--takeover-after", "1.5"]
    return [*given, *(word for dsn in settings.postgres for word in ("--postgres", dsn))]


async def test_an_old_leader_that_is_continued_and_would_refuse_a_call(settings: Make, tmp_path: Path) -> None:
    """In its history the job execution is unfinished, so that a restart of it would be refused. It is no leader any more."""
    made = settings()
    old, new = Process(tmp_path / "old", *words(made)), Process(tmp_path / "new", *words(made))
    try:
        old.start()
        await old.until_role("leader")
        assert (await Caller(old.url).start()).told["executionId"] == 1
        new.start()
        await new.until_role("follower")
        old.signal(signal.SIGSTOP)
        restart = asyncio.create_task(Caller(old.url).change(1, "restart"))
        start = asyncio.create_task(Caller(old.url).start())
        await new.until_role("leader")
        assert (await Caller(new.url).change(1, "stop")).status == 200
        assert await Caller(new.url).status(1) == "STOPPED"
        assert not restart.done() and not start.done()
        old.signal(signal.SIGCONT)
        assert [((await task).status, (await task).name) for task in (restart, start)] == [(503, "NotLeader")] * 2
        await old.until_role("follower")
        assert (await Caller(new.url).change(1, "restart")).told["executionId"] == 2
        assert await Caller(new.url).status(2) == "STARTING"
    finally:
        old.kill()
        new.kill()


async def test_a_leader_that_is_killed_is_replaced(settings: Make, tmp_path: Path) -> None:
    made = settings()
    one, two = Process(tmp_path / "one", *words(made)), Process(tmp_path / "two", *words(made))
    try:
        one.start()
        await one.until_role("leader")
        two.start()
        await two.until_role("follower")
        await Caller(one.url).start()
        one.kill()
        await two.until_role("leader")
        assert (await Caller(two.url).start()).told["executionId"] == 2
        one.start()
        await one.until_role("follower")
        assert await Caller(one.url).status(2) == "STARTING"
    finally:
        one.kill()
        two.kill()


async def test_logs_of_a_purged_job_instance_are_dropped(settings: Make) -> None:
    made = settings()
    async with running(made) as instance:
        caller = Caller(instance.url)
        for work in (1, 2):
            await caller.start("short")
            await caller.claim()
            await caller.finish(work, log=f"log {work}")
        await caller.ask("DELETE", "/batch/jobinstances/1")
    async with running(made) as instance:
        table = await connect(made)

        async def is_dropped() -> bool:
            return [row["work"] for row in await table.fetch("select work from job_host_work_log")] == [2]

        await until(is_dropped)
        await table.close()
        assert (await Caller(instance.url).ask("GET", "/batch/jobexecutions/2/joblogs")).told[0]["log"] == "log 2"


@pytest.mark.parametrize("name", ["fsync", "full_page_writes", "synchronous_commit"])
async def test_a_server_that_may_lose_a_commit_is_refused(settings: Make, postgres: PostgresServer, name: str) -> None:
    postgres.sql(f"alter system set {name} = off")
    postgres.sql("select pg_reload_conf()")
    try:
        await asyncio.sleep(0.3)
        with pytest.raises(Fatal, match=f"{name} is off"):
            async with running(settings()):
                pass
    finally:
        postgres.sql(f"alter system reset {name}")
        postgres.sql("select pg_reload_conf()")
        await asyncio.sleep(0.3)
