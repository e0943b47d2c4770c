"""Client names are kept from their first accepted call on, and those that hold nothing make room for others."""

from __future__ import annotations

import asyncio
from collections.abc import Callable
from pathlib import Path
from typing import Any, cast

import asyncpg
import pytest
from instances import Caller, Instance, running, until
from workers import working

from job_host.service.keepers.postgres import PostgresKeeper
from job_host.service.problems import Problem
from job_host.service.settings import Bounds, ServeSettings
from job_host.service.terms.sessions import Sessions, Silent

Make = Callable[..., ServeSettings]
# The service looks for old keys and silent names at its start.
NO_TIME = Bounds(days_of_keys=0, name_seconds=0.0, clients=3)


def sessions_of(instance: Instance) -> Sessions:
    assert instance.service.keeper.term is not None
    return instance.service.keeper.term.sessions


async def until_sessions(instance: Instance, *numbers: int) -> None:
    """Returns after the service knows these sessions, and no others than its own."""

    async def are_known() -> bool:
        return sessions_of(instance).numbers()[1:] == list(numbers)

    await until(are_known)


async def test_a_name_that_holds_nothing_is_forgotten(either: Make) -> None:
    """Its number isn't given again, also if it was the greatest one."""
    async with running(either()) as instance:
        one, two, three = [Caller(instance.url, name) for name in ("one", "two", "three")]
        for key in "abc":
            await one.start("short", key=key)
        await one.claim()
        await two.claim(key="b")
        await two.finish(2)
        await three.start("short")
    async with running(either(bounds=NO_TIME)) as instance:
        await until_sessions(instance, 2, 4)
        assert (await Caller(instance.url, "four").start("short")).status == 201
        assert (await Caller(instance.url, "one").finish(1)).status == 200
    async with running(either(bounds=NO_TIME)) as instance:
        await until_sessions(instance, 5)
        assert (await Caller(instance.url, "two").claim(key="b")).told["work"]["work"] == 3
        assert sessions_of(instance).numbers()[1:] == [5, 6]


async def test_names_make_room_for_a_new_one_unless_they_hold_work(either: Make) -> None:
    """The one that was heard longest ago is forgotten, and found again by its session: its key and its work items are there."""
    async with running(either(bounds=Bounds(clients=3))) as instance:
        callers = [Caller(instance.url, name) for name in ("one", "two", "three", "four", "five")]
        for caller in callers[:3]:
            assert (await caller.start("short", key="a")).status == 201
        assert (await callers[0].claim()).told["work"]["work"] == 1
        for caller in callers[3:]:
            assert (await caller.start("short", key="a")).status == 201
        assert sessions_of(instance).numbers() == [1, 2, 5, 6]
        assert [(await caller.start("short", key="a")).told["executionId"] for caller in callers] == [1, 2, 3, 4, 5]
        assert sessions_of(instance).numbers() == [1, 2, 5, 6]
        for caller in callers[1:3]:
            assert (await caller.claim()).status == 200
        assert sessions_of(instance).numbers() == [1, 2, 3, 4]
        refused = await callers[3].start("short")
        assert (refused.status, refused.name) == (429, "TooManyClients")
        assert "3 client names are kept, and no more: each of them holds a work item" in refused.told["detail"]
        assert (await callers[0].finish(1)).status == 200
        assert (await callers[3].start("short")).status == 201
        assert sessions_of(instance).numbers() == [1, 3, 4, 5]


async def refused_calls(caller: Caller, key: str | None = None) -> list[tuple[int, str]]:
    """Calls of one client that are all refused, or find no work."""
    answers = [
        await caller.ask("POST", "/batch/work", {}, key),
        await caller.ask("POST", "/batch/jobinstances", {"jobName": "none"}, key and key + "1"),
        await caller.ask("POST", "/batch/jobinstances?once=true", {"jobName": "none"}, key or "once"),
        await caller.ask("PUT", "/batch/work/9?action=finish", {"outcome": "COMPLETED"}, key and key + "2"),
        await caller.ask("PUT", "/batch/work/9?action=heartbeat", {}, key and key + "3"),
        await caller.ask("PUT", "/batch/jobexecutions/9?action=stop", None, key and key + "4"),
        await caller.ask("DELETE", "/batch/jobinstances/9", None, key and key + "5"),
    ]
    return [(answer.status, answer.told.get("title", "nothing")) for answer in answers]


async def kept_names(instance: Instance) -> set[str]:
    """The names in the store."""
    keeper: Any = instance.service.keeper
    if isinstance(keeper, PostgresKeeper):
        return set(await cast(Any, keeper._store).clients(100_000))
    return set(await keeper._beside.do(lambda store: store.clients(100_000)))


async def test_a_refused_call_leaves_no_name(either: Make) -> None:
    made = either(bounds=Bounds(clients=3))
    async with running(made) as instance:
        for turn in range(4):
            callers = [Caller(instance.url, f"stranger{turn}-{place}") for place in range(20)]
            told = await asyncio.gather(*(refused_calls(caller) for caller in callers))
            assert all(one == told[0] for one in told)
            assert [status for status, _ in told[0]] == [200, 404, 404, 404, 409, 404, 404]
            assert sessions_of(instance).numbers() == [1]
        assert (await Caller(instance.url, "operator").start("short")).operations == 1
        assert (await Caller(instance.url, "worker").claim(wait=5)).told["work"]["work"] == 1
        assert len(sessions_of(instance).numbers()) == 3
        assert await kept_names(instance) == {"operator", "worker"}
    async with running(made) as instance:
        assert len(sessions_of(instance).numbers()) == 3
        assert (await Caller(instance.url, "worker").finish(1)).status == 200
        assert (await Caller(instance.url, "operator").finish(1)).name == "WorkNotRunning"


async def test_a_refused_call_with_a_key_has_its_first_reply(either: Make) -> None:
    """Its client's name is kept with the key, and takes no other one's room."""
    made = either(bounds=Bounds(clients=2))
    async with running(made) as instance:
        strangers = [Caller(instance.url, f"stranger{place}") for place in range(10)]
        told = await asyncio.gather(*(refused_calls(caller, "k") for caller in strangers))
        assert sessions_of(instance).numbers() == [1]
        await Caller(instance.url, "operator").start("short")
    async with running(made) as instance:
        stranger = Caller(instance.url, "stranger3")
        await stranger.start("short")
        for _ in range(9):
            await stranger.start("short")
        works = [(await stranger.claim()).told["work"]["work"] for _ in range(9)]
        assert works[-1] == 9
        again = await stranger.ask("PUT", "/batch/work/9?action=finish", {"outcome": "COMPLETED"}, "k2")
        assert (again.status, again.name) == told[3][3] == (404, "NoSuchWork")
        assert (await stranger.finish(9)).status == 200


async def test_calls_of_one_new_client_at_a_time_have_one_session(either: Make) -> None:
    """Some are refused before, some after the first is accepted."""
    async with running(either()) as instance:
        for place in range(10):
            caller = Caller(instance.url, f"new{place}")
            calls = [
                caller.start("none", key="a"),
                caller.start("short", key="b"),
                caller.claim(),
                caller.start("short", key="c"),
            ]
            answers = await asyncio.gather(*calls, caller.claim(wait=5), refused_calls(caller))
            assert [answers[1].status, answers[3].status, answers[4].status] == [201, 201, 200]
            assert len(sessions_of(instance).numbers()) == place + 2
            held = [one for one in (await caller.ask("GET", "/batch/work")).told if one["client"] == f"new{place}"]
            for work in [one["work"] for one in held]:
                assert (await caller.finish(work)).status == 200
            assert (await caller.start("none", key="a")).status == 404
            assert (await caller.start("short", key="c")).told == answers[3].told


async def test_the_key_of_a_name_that_was_forgotten_gives_the_first_reply(either: Make) -> None:
    """The name counts no more, and its session is found when it is heard again."""
    async with running(either()) as instance:
        for name in ("one", "two", "three"):
            await Caller(instance.url, name).start("short", key="a")
    async with running(either(bounds=Bounds(name_seconds=0.0, clients=3))) as instance:
        await until_sessions(instance, 4)
        answers = await asyncio.gather(*(Caller(instance.url, "one").start("short", key="a") for _ in range(3)))
        assert [answer.told["executionId"] for answer in answers] == [1, 1, 1]
        assert (await Caller(instance.url, "four").start("short", key="a")).told["executionId"] == 4
        assert (await Caller(instance.url, "two").start("short", key="a")).told["executionId"] == 2
        assert sessions_of(instance).numbers() == [1, 4, 5]


async def test_work_that_is_over_has_its_client_while_that_holds_a_key(either: Make) -> None:
    async with running(either()) as instance:
        caller = Caller(instance.url, "one")
        await caller.start("short")
        await caller.claim(key="a")
        await caller.finish(1)
        await Caller(instance.url, "two").start("short")
    async with running(either(bounds=Bounds(name_seconds=0.0))) as instance:
        await until_sessions(instance, 3)
        items = await Caller(instance.url, "two").ask("GET", "/batch/jobexecutions/1/workitems")
        assert items.told[0]["client"] == "one"


async def test_a_name_that_was_heard_today_is_kept(either: Make) -> None:
    for _ in range(2):
        async with running(either(bounds=Bounds(days_of_keys=0))) as instance:
            await Caller(instance.url, "one").start("short")
            await Caller(instance.url, "two").start("short")
            sessions = sessions_of(instance).numbers()
    assert sessions == [1, 2, 3]


def test_a_name_that_is_heard_or_holds_work_is_not_forgotten() -> None:
    sessions = Sessions({"one": 2, "two": 3, "three": 4, "four": 5, "five": 6}, 10)
    assert sessions.take_heard() == []
    assert sessions.number("two") == 3
    silent = [Silent("one", 2, False), Silent("two", 3, False), Silent("three", 4, False), Silent("four", 5, True)]
    with sessions.forgetting([*silent, Silent("five", 7, False), Silent("six", 8, False)], {4}) as dropped:
        assert dropped == {"one": 2, "six": 8}
        assert sessions.is_known("one") and not sessions.is_known("four")
        with sessions.hearing("one"):
            sessions.remember("one", 2)
            assert [sessions.number(name) for name in ("one", "two", "one")] == [7, 3, 7]
            sessions.keep("one", 7)
    with sessions.hearing("four"), sessions.hearing("six"):
        sessions.remember("four", 5)
        assert [sessions.number(name) for name in ("four", "three", "five", "six")] == [5, 4, 6, 8]
        with sessions.forgetting([Silent("four", 5, False), Silent("six", 3, False)], ()) as dropped:
            assert dropped == {}
        sessions.keep("four", 5)
    assert sorted(sessions.take_heard()) == [3, 4, 5, 6, 7]
    assert sessions.numbers() == [1, 3, 4, 6, 7, 5] and sessions.known("six") is None
    with sessions.hearing("six"):
        assert sessions.number("six") == 9


async def test_the_next_leader_has_a_name_that_was_forgotten_and_heard_again(settings: Make) -> None:
    """The name stands in the table when it is heard again: it has its new number there."""
    async with running(settings()) as instance:
        caller = Caller(instance.url, "one")
        await caller.start("short")
        sessions_of(instance).take_heard()
        with sessions_of(instance).forgetting([Silent("one", 2, False)], ()) as dropped:
            assert dropped == {"one": 2}
            assert (await caller.start("short", key="a")).told["executionId"] == 2
    async with running(settings()) as instance:
        assert (await Caller(instance.url, "one").start("short", key="a")).told["executionId"] == 2
        assert sessions_of(instance).numbers() == [1, 3]


async def test_tables_of_an_earlier_version_and_a_leader_that_was_cut_off(settings: Make, dsn: str) -> None:
    """The table that an earlier version lacks is made, and only the epoch that stands drops names."""
    async with running(settings()) as instance:
        for name in ("one", "two"):
            await Caller(instance.url, name).start("short")
    database = await asyncpg.connect(dsn)
    await database.execute("drop table job_host_client_heard, job_host_version")
    await database.close()
    async with running(settings()) as instance:
        keeper = instance.service.keeper
        assert isinstance(keeper, PostgresKeeper) and keeper._store is not None
        await keeper._store.drop_clients(keeper.epoch - 1, {"one": 2})
        assert await keeper._store.session_of("one") == 2
        await keeper._store.drop_clients(keeper.epoch, {"one": 2, "two": 7})
        assert [await keeper._store.session_of(name) for name in ("one", "two")] == [None, 3]


async def test_a_worker_says_why_it_gets_no_work(settings: Make, night: Path, artifacts: Path) -> None:
    async with running(settings(catalogue=night, bounds=Bounds(clients=1))) as instance:
        await Caller(instance.url).start("says")
        await Caller(instance.url).claim()
        async with working(instance.url, artifacts) as worker:

            async def has_said() -> bool:
                return "TooManyClients: 1 client names are kept" in worker.log.read_text()

            await until(has_said)


async def test_a_worker_has_one_claim_for_all_its_slots(settings: Make, night: Path, artifacts: Path) -> None:
    async with running(settings(catalogue=night)) as instance, working(instance.url, artifacts, 4):
        caller, server = Caller(instance.url), cast(Any, instance.service._runner).server
        for held in range(4):
            await instance.until_claims_wait(1, 10)
            assert len(server.connections) <= 3
            await caller.start("stubborn")
            await until_held(caller, held + 1)
        await instance.until_claims_wait(0, 10)
        (artifacts / "go-on").touch()
        await until_held(caller, 0)
        await instance.until_claims_wait(1, 10)


async def until_held(caller: Caller, count: int) -> None:
    """Returns after so many work items are busy."""

    async def are_held() -> bool:
        return len((await caller.ask("GET", "/batch/work")).told) == count

    await until(are_held)


def test_the_refusal_of_a_name_says_what_to_wait_for() -> None:
    with pytest.raises(Problem, match="each of them holds a work item"):
        Sessions({"one": 2}, 1, holding=lambda: {2}).number("two")
