"""Policies over bases: what a base has replaced counts as before, and nothing is done or told twice."""

from __future__ import annotations

from collections.abc import Callable, Sequence
from dataclasses import replace
from pathlib import Path
from typing import Any

import based as logs
import postgres_bases
import pytest
from instances import Caller, Instance
from policed import Ahead, done_to, end_next, executions_of, failed, hasten, policing, until_round, with_policies
from receivers import receiving, words
from test_beside_base import forget_store
from test_scheduled_starts import DAILY, DAY, dates, parameters

from job_host.protocol.lines import fingerprint
from job_host.service.keepers import late
from job_host.service.keepers.postgres import PostgresKeeper
from job_host.service.policies import delivery, notifications
from job_host.service.policies.known import RESTARTER, SCHEDULER, TIMER, session_of
from job_host.service.policies.notifications import Finder
from job_host.service.settings import ServeSettings
from job_host.service.terms import moments
from job_host.service.terms.calls import Call

Make = Callable[..., ServeSettings]
TEMPORARY = {"restart": {"exitStatuses": ["TEMP*"], "most": 2, "wait": "PT30S"}}


@pytest.fixture(autouse=True)
def soon(monkeypatch: pytest.MonkeyPatch) -> None:
    hasten(monkeypatch)
    for wait in ("FIRST_WAIT", "FIRST_REST", "LONGEST_WAIT", "LONGEST_REST"):
        monkeypatch.setattr(delivery, wait, 20)


async def compact(instance: Instance) -> None:
    """Lets a base stand for all that was done until now."""
    keeper = instance.service.keeper
    over_postgres = isinstance(keeper, PostgresKeeper)
    compaction = await (postgres_bases.compact(instance) if over_postgres else logs.compact(instance))
    assert compaction.failure == "" and keeper.reading().based == keeper.operations > 0


async def until_restarts(instance: Instance) -> None:
    await until_round(instance.service.policies.restarts)


async def until_found(instance: Instance) -> None:
    await until_round(instance.service.policies.finding)
    await until_round(instance.service.policies.sending)


async def test_restarts_and_lost_workers_before_a_base_count(based: Make, tmp_path: Path) -> None:
    """A leader that begins with the base alone knows how often the policy has restarted the job, and what was lost."""
    policies = {"restart": {"afterLostWorker": True, "most": 2}}
    made = based(catalogue=with_policies(tmp_path / "jobs", policies), is_folder=True)
    for number in (1, 2, 3):
        async with policing(made, Ahead()) as instance:
            caller = Caller(instance.url)
            if number == 1:
                await caller.start("nightly")
            work = (await caller.claim()).told["work"]["work"]
            assert (await caller.ask("PUT", f"/batch/work/{work}?action=lose")).status == 200
            await compact(instance)
        async with policing(made, Ahead(1_000)) as instance:
            caller, engine = Caller(instance.url), instance.service.keeper.reading()
            assert engine.based == 3 * number
            await until_restarts(instance)
            assert await executions_of(caller) == [*range(1, min(number + 2, 4))]


async def test_a_restart_before_a_base_is_made_once(based: Make, tmp_path: Path) -> None:
    """Its key gives the first reply, and who made it is told. What somebody asked to stop before a base stays."""
    made = based(catalogue=with_policies(tmp_path / "jobs", TEMPORARY), is_folder=True)
    async with policing(made, Ahead(60)) as instance:
        caller = Caller(instance.url)
        await failed(caller, "TEMPORARY")
        await until_restarts(instance)
        assert await end_next(caller, "OTHER") == 2
        stopped = (await caller.start("nightly")).told["executionId"]
        work = (await caller.claim()).told["work"]["work"]
        assert (await caller.change(stopped, "stop")).status == 200
        assert (await caller.finish(work, "FAILED", exit="TEMPORARY")).status == 200
        await compact(instance)
        operations = instance.service.keeper.operations
    async with policing(made, Ahead(1_000)) as instance:
        caller, keeper = Caller(instance.url), instance.service.keeper
        await until_restarts(instance)
        assert keeper.reading().based == operations and keeper.restart_times == {}
        # By that its name is kept.
        assert await session_of(keeper.leading(), RESTARTER) in keeper.reading().actions.sessions
        call = Call(RESTARTER, "restart", {"execution": 1}, "restart-1", fingerprint("restart", 1))
        assert (await keeper.submit(call)).told()["execution"] == 2
        assert keeper.operations == operations
        assert await done_to(caller, 1) == [("start", "tester"), ("restart", RESTARTER)]
        assert await done_to(caller, 2) == [("restart", RESTARTER)]


async def test_what_is_planned_as_a_base_is_made_comes_in_its_time(based: Make, tmp_path: Path) -> None:
    """In the same term, and in the next one. A client that comes behind the base isn't taken for the policy."""
    clock = Ahead()
    made = based(catalogue=with_policies(tmp_path / "jobs", TEMPORARY), is_folder=True)
    async with policing(made, clock) as instance:
        caller, keeper = Caller(instance.url), instance.service.keeper
        await failed(caller, "TEMPORARY")
        await until_restarts(instance)
        planned = dict(keeper.restart_times)
        assert list(planned) == [1]
        await compact(instance)
        await until_restarts(instance)
        assert keeper.restart_times == planned
        clock.seconds = 30
        await until_restarts(instance)
        assert await executions_of(caller) == [1, 2] and await end_next(caller, "TEMPORARY") == 2
        await compact(instance)
    async with policing(made, Ahead(30)) as instance:
        caller, keeper = Caller(instance.url), instance.service.keeper
        await until_restarts(instance)
        # Twice the first wait.
        (due,) = keeper.restart_times.values()
        assert due - keeper.reading().last_moment == 60_000
        assert (await Caller(instance.url, "another").start("nightly")).status == 201
    async with policing(made, Ahead(60)) as instance:
        caller = Caller(instance.url)
        await until_restarts(instance)
        assert await executions_of(caller) == [1, 2, 4]
        done = [await done_to(caller, number) for number in (2, 3, 4)]
        assert done == [2 * [("restart", RESTARTER)], [("start", "another")], [("restart", RESTARTER)]]


async def test_a_job_that_ran_before_a_base_is_stopped_once(
    based: Make, tmp_path: Path, monkeypatch: pytest.MonkeyPatch
) -> None:
    """After the time of its job, from its begin on; and it is told as late after its grace."""
    clock = Ahead()
    monkeypatch.setattr(late, "clock", clock)
    folder = with_policies(tmp_path / "jobs", {"timeout": 60, "grace": 5})
    made = based(catalogue=folder, is_folder=True, lease=1_000.0)
    async with policing(made, clock) as instance:
        caller = Caller(instance.url)
        await caller.start("nightly")
        await caller.claim()
        await compact(instance)
    clock.seconds = 61
    async with policing(made, clock) as instance:
        await until_round(instance.service.policies.timeouts)
        assert await Caller(instance.url).status(1) == "STOPPING"
        await compact(instance)
        operations = instance.service.keeper.operations
    clock.seconds = 66
    async with policing(made, clock) as instance:
        caller = Caller(instance.url)
        await until_round(instance.service.policies.timeouts)
        assert instance.service.keeper.operations == operations
        assert await done_to(caller, 1) == [("start", "tester"), ("stop", TIMER)]
        shown = (await caller.ask("GET", "/batch/open")).told["late"]
        assert [(one["executionId"], one["timeout"], one["client"]) for one in shown] == [(1, 60, "tester")]


async def test_a_date_that_was_started_before_a_base_isnt_started_again(based: Make, tmp_path: Path) -> None:
    """By its mark, without it by the history, and without both by its key. A start by somebody else isn't the schedule's."""
    made = based(catalogue=with_policies(tmp_path / "jobs", {"schedule": DAILY}), is_folder=True)
    async with policing(made, Ahead(2 * DAY)) as instance:
        await until_round(instance.service.policies.schedules)
        assert await parameters(Caller(instance.url)) == dates(2)
        last = instance.service.keeper.reading().last_moment
        assert (await Caller(instance.url).start("nightly")).status == 201
        await compact(instance)
    async with policing(made, Ahead(2 * DAY)) as instance:
        await until_round(instance.service.policies.schedules)
        caller, keeper = Caller(instance.url), instance.service.keeper
        assert (keeper.reading().based, keeper.operations) == (3, 3)
        part: Any = instance.service.policies.schedules._begin(keeper.leading())
        schedule = keeper.policies("nightly").schedule
        assert keeper.book is not None and schedule is not None
        part._marks = {}
        assert await part._done(keeper.book, "nightly", schedule) == last
        begun = keeper.book.changes_of("nightly")[0].moment
        assert await part._start_all("nightly", schedule, begun, last + 2 * DAY * 1_000) > last
        assert await parameters(caller) == [*dates(2), {}] and keeper.operations == 3
        assert await done_to(caller, 2) == [("start", SCHEDULER)]
    async with policing(made, Ahead(3 * DAY)) as instance:
        await until_round(instance.service.policies.schedules)
        assert await parameters(Caller(instance.url)) == [*dates(2), {}, *dates(1, 3)]


async def test_what_was_told_before_a_base_isnt_told_again(based: Make, tmp_path: Path) -> None:
    """And what came behind the mark, and before the base, is told once: who lost which work item, too."""
    async with receiving() as receiver:
        plain = based(catalogue=with_policies(tmp_path / "jobs", {}), is_folder=True)
        telling = based(catalogue=tmp_path / "jobs", is_folder=True, **words(tmp_path, receiver))
        async with policing(telling, Ahead()) as instance:
            await until_found(instance)
            await failed(Caller(instance.url))
            await receiver.until_taken(1)
            await compact(instance)
            await until_found(instance)
        async with policing(plain, Ahead()) as instance:
            caller = Caller(instance.url)
            await failed(caller)
            await caller.start("nightly")
            work = (await Caller(instance.url, "worker-1").claim()).told["work"]["work"]
            assert (await caller.ask("PUT", f"/batch/work/{work}?action=lose")).status == 200
            await compact(instance)
        for _ in range(2):
            async with policing(telling, Ahead()) as instance:
                await receiver.until_taken(4)
                await until_found(instance)
                assert await instance.service.keeper.notes().count() == 0
    assert receiver.kinds == [("FAILED", 1), ("FAILED", 2), ("LOST_WORKER", 3), ("FAILED", 3)]
    assert len({one["history"] for one in receiver.taken}) == 1
    lost = receiver.taken[2]
    assert (lost["work"], lost["stepName"], lost["by"]) == (work, "only", "tester")


async def test_one_that_waits_outlives_a_base(based: Make, tmp_path: Path) -> None:
    """And what there was no room for is made out of the base. Each comes once."""
    async with receiving() as receiver:
        receiver.status = 503
        made = based(catalogue=with_policies(tmp_path / "jobs", {}), is_folder=True, **words(tmp_path, receiver))
        with pytest.MonkeyPatch.context() as patch:
            patch.setattr(notifications, "MOST_WAITING", 1)
            async with policing(made, Ahead()) as instance:
                for _ in range(3):
                    await failed(Caller(instance.url))
                    await until_round(instance.service.policies.finding)
                assert await instance.service.keeper.notes().count() == 1
                await compact(instance)
        receiver.status = 200
        async with policing(made, Ahead()) as instance:
            await receiver.until_taken(3)
            await until_found(instance)
    assert sorted(receiver.kinds) == [("FAILED", 1), ("FAILED", 2), ("FAILED", 3)]
    first = [one for one in receiver.attempts if one["executionId"] == 1]
    assert len(first) > 1 and all(one == first[0] for one in first)


async def test_a_purge_just_before_a_base_lets_nobody_look_at_all_again(
    based: Make, tmp_path: Path, monkeypatch: pytest.MonkeyPatch
) -> None:
    """As each night with retention: the base doesn't tell the moment of that purge, so its last one is before the mark."""
    looked: set[int] = set()
    find = Finder._events_of

    async def note(finder: Finder, some: Sequence[int], *moments: int) -> Any:
        looked.update(some)
        return await find(finder, some, *moments)

    async with receiving() as receiver:
        made = based(catalogue=with_policies(tmp_path / "jobs", {}), is_folder=True, **words(tmp_path, receiver))
        async with policing(made, Ahead()) as instance:
            caller = Caller(instance.url)
            await until_found(instance)
            for _ in range(2):
                await failed(caller)
            await receiver.until_taken(2)
            assert (await caller.ask("DELETE", "/batch/jobinstances/1")).status == 200
            moment = instance.service.keeper.reading().last_moment
            await until_found(instance)
            await compact(instance)
        monkeypatch.setattr(Finder, "_events_of", note)
        async with policing(made, Ahead()) as instance:
            await until_found(instance)
            assert instance.service.keeper.reading().last_moment < moment and looked == set()
            await failed(Caller(instance.url))
            await receiver.until_taken(3)
    assert receiver.kinds == [("FAILED", 1), ("FAILED", 2), ("FAILED", 3)] and looked == {3}


@pytest.mark.parametrize("based", ["log"], indirect=True)
async def test_a_restart_before_a_base_counts_also_if_its_maker_is_forgotten(
    based: Make, tmp_path: Path, monkeypatch: pytest.MonkeyPatch
) -> None:
    """Without its file nobody knows who restarted a job instance before the base: the policy may have."""
    clock = Ahead()
    monkeypatch.setattr(moments, "clock", clock)
    policies = {"restart": {"exitStatuses": ["TEMP*"], "afterLostWorker": True, "most": 1, "wait": 30}}
    made = based(catalogue=with_policies(tmp_path / "jobs", policies), is_folder=True)
    async with policing(made, clock) as instance:
        caller = Caller(instance.url)
        await failed(caller, "TEMPORARY")
        clock.seconds += 31
        await until_restarts(instance)
        assert await end_next(caller, "TEMPORARY") == 2
        await caller.start("nightly")
        work = (await caller.claim()).told["work"]["work"]
        await compact(instance)
    forget_store(made.data)
    clock.seconds += 100
    async with policing(replace(made, forget_keys=True), clock) as instance:
        caller, keeper = Caller(instance.url), instance.service.keeper
        await until_restarts(instance)
        assert keeper.restart_times == {} and await executions_of(caller) == [1, 2]
        assert await done_to(caller, 2) == []
        # A start is none.
        assert (await caller.ask("PUT", f"/batch/work/{work}?action=lose")).status == 200
        await until_restarts(instance)
        assert keeper.restart_times == {3: keeper.reading().last_moment + 30_000}


@pytest.mark.parametrize("based", ["log"], indirect=True)
async def test_a_start_before_a_base_counts_also_if_its_maker_is_forgotten(
    based: Make, tmp_path: Path, monkeypatch: pytest.MonkeyPatch
) -> None:
    """Without its file there is neither mark nor key, and nobody knows who started the job: its schedule may have."""
    clock = Ahead()
    monkeypatch.setattr(moments, "clock", clock)
    made = based(catalogue=with_policies(tmp_path / "jobs", {"schedule": DAILY}), is_folder=True)
    async with policing(made, clock) as instance:
        await until_round(instance.service.policies.schedules)
        clock.seconds = 2 * DAY
        await until_round(instance.service.policies.schedules)
        await compact(instance)
        assert await parameters(Caller(instance.url)) == dates(2)
    forget_store(made.data)
    async with policing(replace(made, forget_keys=True), clock) as instance:
        await until_round(instance.service.policies.schedules)
        assert instance.service.keeper.reading().based == instance.service.keeper.operations == 2
        clock.seconds = 3 * DAY
        await until_round(instance.service.policies.schedules)
        assert await parameters(Caller(instance.url)) == dates(3)
