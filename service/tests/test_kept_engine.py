"""What an instance over PostgreSQL knows of the history outlives a lost connection and a term, if the table has it all."""

from __future__ import annotations

import asyncio
from collections.abc import Callable, Iterator
from pathlib import Path
from typing import Any

import asyncpg
import pytest
from instances import Caller, Instance, running, until
from kept import engine_of, executions, make_some, until_epoch
from postgres_server import PostgresServer

from job_host.commands.program import find_batchctl
from job_host.service.history.coprocess import CoProcessEnded
from job_host.service.history.engine import Engine
from job_host.service.settings import Bounds, ServeSettings
from job_host.service.stores.postgres import PostgresStore

Make = Callable[..., ServeSettings]


async def cut_off(instance: Instance) -> None:
    """Ends its connections from the server's side. Returns after it has noticed."""
    keeper: Any = instance.service.keeper
    store = keeper._store
    table = await asyncpg.connect(keeper._settings.postgres[0])
    for connection in (store._commits, store._reads):
        await table.fetchval("select pg_terminate_backend($1)", connection.get_server_pid())
    await table.close()

    async def has_noticed() -> bool:
        return keeper._store is not store

    await until(has_noticed)


async def test_a_follower_whose_connection_is_lost_goes_on(settings: Make, started: list[str], entered: list[Any]) -> None:
    async with running(settings()) as one, running(settings(), "follower") as two:
        first, second = Caller(one.url), Caller(two.url)
        await make_some(one.url)
        assert (await second.ask("GET", "/batch/jobs?atLeast=10")).status == 200
        engine = engine_of(two)
        started.clear()
        await cut_off(two)
        await first.start("short", key="a")
        entered.clear()
        told = await second.ask("GET", "/batch/jobexecutions/5?atLeast=11")
        assert (told.told["batchStatus"], told.operations, started, engine_of(two)) == ("STARTING", 11, [], engine)
        assert sum(len(given[0]) for given in entered) == 1
        await one.stop()
        await two.until_role("leader")
        assert ((await second.start("short", key="a")).told["executionId"], started) == (5, [])
        assert (await Caller(two.url, "two").finish(3)).operations == 12


async def test_a_leader_that_has_nothing_uncommitted_goes_on(settings: Make, started: list[str], entered: list[Any]) -> None:
    async with running(settings()) as instance:
        caller = Caller(instance.url)
        await make_some(instance.url)
        engine = engine_of(instance)
        started.clear()
        entered.clear()
        await cut_off(instance)
        await until_epoch(instance, 2)
        assert (started, entered, engine_of(instance)) == ([], [], engine)
        assert (await caller.start("short", key="a")).operations == 11 and await executions(caller) == [5, 4, 3, 2]
        assert (await Caller(instance.url, "two").finish(3)).operations == 12
        await cut_off(instance)
        await until_epoch(instance, 3)
        assert (await caller.start("short", key="a")).operations == 11 and started == []


async def test_a_commit_whose_answer_is_lost_throws_nothing_away(settings: Make, started: list[str]) -> None:
    async with running(settings()) as instance:
        caller, term = Caller(instance.url), instance.service.keeper.term
        store: Any = term._store  # type: ignore[union-attr]
        commit = store.commit
        started.clear()

        async def commit_and_lose(*given: Any) -> bool:
            await commit(*given)
            raise OSError("the answer is lost")

        store.commit = commit_and_lose
        assert (await caller.start(key="again")).name == "CommitFailed"
        await until_epoch(instance, 2)
        again = await caller.start(key="again")
        assert (again.told["executionId"], again.operations, started) == (1, 1, [])


async def test_what_is_not_committed_is_thrown_away(settings: Make) -> None:
    """The commit never came to the server. Nobody sees what the co-process had entered."""
    async with running(settings()) as instance:
        caller, term, engine = Caller(instance.url), instance.service.keeper.term, engine_of(instance)
        await caller.start()
        store: Any = term._store  # type: ignore[union-attr]

        async def lose(*given: Any) -> bool:
            raise OSError("the server is gone")

        store.commit = lose
        assert (await caller.start("wide", key="a")).name == "CommitFailed"
        await until_epoch(instance, 2)
        assert engine_of(instance) is not engine and engine.process.has_ended
        assert (await executions(caller), (await caller.start("short", key="b")).operations) == ([1], 2)


async def test_a_leader_that_has_to_replay_all_resigns(settings: Make, monkeypatch: pytest.MonkeyPatch) -> None:
    """The follower leads at once, though it would wait a minute for a leader that is silent."""
    made = settings(takeover_after=60.0)
    async with running(made) as one, running(made, "follower") as two:
        keeper: Any = one.service.keeper
        assert (await Caller(one.url).start()).status == 201

        async def lose(*given: Any) -> bool:
            raise OSError("the server is gone")

        async def refused(*words: Any) -> Engine:
            raise CoProcessEnded("no memory")

        monkeypatch.setattr(keeper, "_start_engine", refused)
        keeper._store.commit = lose
        assert (await Caller(one.url).start()).name == "CommitFailed"
        await asyncio.wait_for(two.until_role("leader"), 10.0)
        assert (await Caller(two.url).start()).told["executionId"] == 2


async def test_a_call_is_told_why_the_term_has_failed(settings: Make) -> None:
    """Another instance leads. The call looks for its key while the old leader's connections end."""
    async with running(settings()) as instance:
        term: Any = instance.service.keeper.term
        caller = Caller(instance.url)
        await caller.start()
        is_asked, go_on = asyncio.Event(), asyncio.Event()

        async def ask_and_lose(*given: Any) -> None:
            is_asked.set()
            await go_on.wait()
            raise asyncpg.InterfaceError("connection is closed")

        async def fenced(*given: Any) -> bool:
            return False

        term._store.request = ask_and_lose
        # As if the keys of the store weren't read yet.
        term.keys.is_whole = False
        starting = asyncio.create_task(caller.start(key="a"))
        await is_asked.wait()
        term._store.commit = fenced
        await until(lambda: has_failed(term))
        go_on.set()
        assert ((await starting).status, starting.result().name) == (503, "NotLeader")


async def has_failed(term: Any) -> bool:
    return term.failure is not None


@pytest.mark.parametrize("is_lost", [False, True])
async def test_another_leader_wrote_operations_meanwhile(
    settings: Make, monkeypatch: pytest.MonkeyPatch, is_lost: bool
) -> None:
    """The old leader comes back: it had all in the table, or one operation that isn't there. Another one has its number."""
    made = settings(takeover_after=1.0)
    may_come_back, opened = asyncio.Event(), PostgresStore.open
    async with running(made) as one, running(made, "follower") as two:
        first, second, engine = Caller(one.url), Caller(two.url), engine_of(one)
        await first.start("short")
        store: Any = one.service.keeper._store  # type: ignore[attr-defined]

        async def lose(*given: Any) -> bool:
            raise OSError("the server is gone")

        async def wait_and_open(*given: Any) -> PostgresStore:
            await may_come_back.wait()
            return await opened(*given)

        monkeypatch.setattr(PostgresStore, "open", wait_and_open)
        store.commit = lose
        assert not is_lost or (await first.start("wide", key="a")).status == 503
        await two.until_role("leader")
        assert (await second.start("nightly")).told["executionId"] == 2
        assert (await second.start("nightly")).told["executionId"] == 3
        may_come_back.set()
        await one.until_role("follower")
        told = await first.ask("GET", "/batch/jobexecutions/2?atLeast=3")
        assert (told.told["jobName"], told.operations, engine_of(one) is engine) == ("nightly", 3, not is_lost)
        assert await executions(first, "?atLeast=3") == [3, 2, 1]


async def test_a_table_that_lacks_what_a_follower_has_read(settings: Make) -> None:
    """As if a standby without it were promoted."""
    async with running(settings()) as one, running(settings(), "follower") as two:
        first, second, engine = Caller(one.url), Caller(two.url), engine_of(two)
        for job in ("short", "wide"):
            await first.start(job)
        assert (await second.ask("GET", "/batch/jobexecutions/2?atLeast=2")).status == 200
        await one.stop()
        table = await asyncpg.connect(settings().postgres[0])
        await table.execute("delete from job_host_operation where number = 2")
        await table.close()
        await cut_off(two)
        await two.until_role("leader")
        assert engine_of(two) is not engine
        assert ((await second.start("nightly")).operations, await executions(second)) == (2, [2, 1])


@pytest.fixture
def own_server() -> Iterator[PostgresServer]:
    server = PostgresServer.make()
    server.start()
    yield server
    server.remove()


async def test_a_server_that_is_started_again(own_server: PostgresServer, catalogue: Path, started: list[str]) -> None:
    """Leader and follower go on, and what they had is right."""
    given: dict[str, Any] = {"port": 0, "takeover_after": 60.0, "bounds": Bounds(at_least_seconds=0.3)}
    made = ServeSettings(catalogue, find_batchctl(None), postgres=(own_server.dsn,), **given)
    async with running(made) as one, running(made, "follower") as two:
        await make_some(one.url)
        assert (await Caller(two.url).ask("GET", "/batch/jobs?atLeast=10")).status == 200
        engines = [engine_of(one), engine_of(two)]
        started.clear()
        await asyncio.to_thread(own_server.kill)
        for instance in (one, two):
            await instance.until_role("starting")
            assert (await Caller(instance.url).ask("GET", "/batch/jobs")).name == "Starting"
        await asyncio.to_thread(own_server.start)
        await until_epoch(one, 2)
        assert (await Caller(one.url).start("short", key="a")).operations == 11

        async def has_followed() -> bool:
            return (await Caller(two.url).ask("GET", "/batch/jobs?atLeast=11")).status == 200

        await until(has_followed)
        assert await executions(Caller(two.url), "?atLeast=11") == [5, 4, 3, 2]
        assert ([engine_of(one), engine_of(two)], started) == (engines, [])
