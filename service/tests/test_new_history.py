"""A new history: request keys and logs belong to the one before it, and no key of that is known."""

from __future__ import annotations

import shutil
import sqlite3
from collections.abc import Callable
from contextlib import closing
from pathlib import Path

import asyncpg
import pytest
from instances import Caller, Instance, running
from policed import Ahead, end_next, failed, hasten, policing, until_round, with_policies
from receivers import receiving, words
from test_scheduled_starts import DAILY, DAY, dates, parameters

from job_host.service.keepers.embedded import LOG_NAME
from job_host.service.policies import delivery
from job_host.service.policies.schedules import mark_of
from job_host.service.settings import HistoryBounds, ServeSettings

Make = Callable[..., ServeSettings]


async def fail_first(instance: Instance) -> str:
    """Starts a job by a key, and by one that says once. Its step fails. Returns the identity of the history."""
    caller = Caller(instance.url)
    assert (await caller.start("wide", key="a")).operations == 1
    assert (await caller.start_once("b")).operations == 2
    await caller.claim(key="c")
    await caller.finish(1, "FAILED", log="no space left")
    return str((await caller.ask("GET", "/batch/history")).told.get("history"))


async def check_nothing_is_known(instance: Instance, before: str) -> None:
    """Each key of the history before is that of a new operation."""
    caller = Caller(instance.url)
    once = await caller.start_once("b")
    assert (once.status, once.told["jobName"], once.operations) == (201, "short", 1)
    begun = await caller.start("wide", key="a")
    assert (begun.told["executionId"], begun.operations, instance.service.keeper.operations) == (2, 2, 2)
    claimed = await caller.claim(key="c")
    assert (claimed.told["jobName"], claimed.operations) == ("short", 3)
    assert (await caller.ask("GET", "/batch/jobexecutions/1/joblogs")).told == []
    assert (await caller.ask("GET", "/batch/history")).told["history"] not in ("", before)


async def test_a_new_log_knows_no_key_of_the_old_one(embedded: Make) -> None:
    made = embedded()
    log, old, new = (made.data / name for name in (LOG_NAME, "old.log", "new.log"))
    async with running(made) as instance:
        before = await fail_first(instance)
    log.rename(old)
    async with running(made) as instance:
        await check_nothing_is_known(instance, before)
        after = instance.service.keeper.history
    for history, gone, back, job in [(before, new, old, "wide"), (after, old, new, "short")]:
        log.rename(gone)
        back.rename(log)
        async with running(made) as instance:
            caller = Caller(instance.url)
            assert instance.service.keeper.history == history
            assert (await caller.start_once("b")).operations == (2 if job == "wide" else 1)
            assert (await caller.claim(key="c")).told["jobName"] == job
            assert len((await caller.ask("GET", "/batch/jobexecutions/1/joblogs")).told) == (1 if job == "wide" else 0)


async def test_a_log_that_comes_back_before_the_new_one_had_an_operation(embedded: Make) -> None:
    made = embedded()
    log, old = made.data / LOG_NAME, made.data / "old.log"
    async with running(made) as instance:
        before = await fail_first(instance)
    log.rename(old)
    async with running(made) as instance:
        assert (await Caller(instance.url).change(1, "stop", key="a")).name == "NoSuchJobExecutionException"
    old.rename(log)
    async with running(made) as instance:
        assert instance.service.keeper.history == before
        assert (await Caller(instance.url).start("wide", key="a")).operations == 1


async def test_a_log_and_its_file_that_are_moved_together_are_one_history(embedded: Make) -> None:
    made = embedded()
    async with running(made) as instance:
        before = await fail_first(instance)
    moved = made.data.with_name("moved")
    made.data.rename(moved)
    async with running(embedded(data=moved)) as instance:
        assert instance.service.keeper.history == before
        assert (await Caller(instance.url).start("wide", key="a")).operations == 1
    async with running(made) as instance:
        await check_nothing_is_known(instance, before)


async def test_an_older_copy_of_the_log_knows_no_key_of_what_it_lacks(embedded: Make) -> None:
    made = embedded()
    log, copy = made.data / LOG_NAME, made.data / "copy.log"
    async with running(made) as instance:
        await Caller(instance.url).start("wide", key="a")
    shutil.copy(log, copy)
    async with running(made) as instance:
        assert (await Caller(instance.url).start("short", key="b")).operations == 2
    copy.rename(log)
    async with running(made) as instance:
        caller = Caller(instance.url)
        assert (await caller.start("nightly", key="c")).operations == 2
        assert ((await caller.start("wide", key="a")).operations, (await caller.start("short", key="b")).operations) == (1, 3)


@pytest.mark.parametrize("is_new", [False, True])
async def test_a_file_of_an_earlier_version_goes_with_a_log_that_has_operations(embedded: Make, is_new: bool) -> None:
    made = embedded()
    async with running(made) as instance:
        before = await fail_first(instance)
    with closing(sqlite3.connect(made.data / "beside.sqlite", isolation_level=None)) as beside:
        beside.executescript("drop table history; pragma user_version = 0")
    if is_new:
        (made.data / LOG_NAME).unlink()
    async with running(made) as instance:
        if is_new:
            await check_nothing_is_known(instance, before)
        else:
            assert (await Caller(instance.url).start("wide", key="a")).operations == 1


@pytest.mark.parametrize("is_earlier", [False, True])
async def test_emptied_tables_know_no_key(settings: Make, is_earlier: bool) -> None:
    """Tables of an earlier version are brought up to date, and keep their keys until they are emptied."""
    made = settings()
    async with running(made) as instance:
        before = await fail_first(instance)
    table = await asyncpg.connect(made.postgres[0])
    if is_earlier:
        await table.execute("alter table job_host_leader drop column history, drop column first_operation")
        await table.execute("drop table job_host_version")
        async with running(made) as instance:
            assert (await Caller(instance.url).start("wide", key="a")).operations == 1
            before = instance.service.keeper.history
    async with running(made) as instance:
        assert instance.service.keeper.history == before
        assert (await Caller(instance.url).start_once("b")).operations == 2
    await table.execute("truncate job_host_operation, job_host_catalogue")
    await table.close()
    async with running(made) as instance:
        await check_nothing_is_known(instance, before)


async def until_told(instance: Instance) -> None:
    await until_round(instance.service.policies.finding)
    await until_round(instance.service.policies.sending)


@pytest.fixture
def soon(monkeypatch: pytest.MonkeyPatch) -> None:
    hasten(monkeypatch)
    for wait in ("FIRST_WAIT", "FIRST_REST", "LONGEST_WAIT", "LONGEST_REST"):
        monkeypatch.setattr(delivery, wait, 20)


@pytest.mark.usefixtures("soon")
async def test_a_new_history_tells_of_itself_and_starts_no_date_again(either: Make, tmp_path: Path) -> None:
    """Nothing is told of the one before. That it is almost full is told anew. A schedule goes on behind its last start."""
    async with receiving() as receiver:
        receiver.status = 503
        folder, bounds = with_policies(tmp_path / "jobs", {"schedule": DAILY}), HistoryBounds(100, 1, 90)
        made = either(catalogue=folder, is_folder=True, other_history=bounds, **words(tmp_path, receiver))
        async with policing(made, Ahead(3 * DAY)) as instance:
            await until_round(instance.service.policies.schedules)
            assert await parameters(Caller(instance.url)) == dates(3)
            await end_next(Caller(instance.url))
            await until_told(instance)
            before, marks = instance.service.keeper.history, await instance.service.keeper.notes().marks()
            assert await instance.service.keeper.notes().count() == 2
        await begin_anew(made)
        receiver.status = 200
        async with policing(made, Ahead(3 * DAY)) as instance:
            caller, keeper = Caller(instance.url), instance.service.keeper
            await until_told(instance)
            await until_round(instance.service.policies.schedules)
            assert await parameters(caller) == [] and receiver.taken == []
            assert (await keeper.notes().marks())[mark_of("nightly")] == marks[mark_of("nightly")]
            await failed(caller)
            await receiver.until_taken(2)
            await until_told(instance)
            after = keeper.history
        async with policing(made, Ahead(4 * DAY)) as instance:
            await until_round(instance.service.policies.schedules)
            assert (await parameters(Caller(instance.url)))[1:] == dates(1, 4)
    assert sorted(receiver.kinds) == [("ALMOST_FULL", 0), ("FAILED", 1)]
    assert {one["history"] for one in receiver.taken} == {after} != {before}


async def begin_anew(made: ServeSettings) -> None:
    """Takes the operations away, and nothing else."""
    if not made.postgres:
        (made.data / LOG_NAME).rename(made.data / "old.log")
        return
    table = await asyncpg.connect(made.postgres[0])
    await table.execute("truncate job_host_operation, job_host_catalogue")
    await table.close()


@pytest.mark.usefixtures("soon")
async def test_a_log_that_comes_back_has_its_own_marks(embedded: Make, tmp_path: Path) -> None:
    """What another history has started meanwhile wasn't started in this one. What waited is told."""
    async with receiving() as receiver:
        receiver.status = 503
        folder = with_policies(tmp_path / "jobs", {"schedule": DAILY})
        made = embedded(catalogue=folder, is_folder=True, **words(tmp_path, receiver))
        async with policing(made, Ahead(DAY)) as instance:
            await until_told(instance)
            await until_round(instance.service.policies.schedules)
            await end_next(Caller(instance.url))
            await until_told(instance)
        await begin_anew(made)
        async with policing(made, Ahead(2 * DAY)) as instance:
            await until_round(instance.service.policies.schedules)
            assert await parameters(Caller(instance.url)) == dates(1, 2)
        (made.data / "old.log").rename(made.data / LOG_NAME)
        receiver.status = 200
        async with policing(made, Ahead(3 * DAY)) as instance:
            await until_round(instance.service.policies.schedules)
            assert await parameters(Caller(instance.url)) == dates(3)
            await receiver.until_taken(1)
    assert receiver.kinds == [("FAILED", 1)]
