"""Restarts by policy: what is restarted, when, how often, and what people's operations do to that."""

from __future__ import annotations

from collections.abc import Callable, Sequence
from pathlib import Path

import pytest
from instances import SHORT_PAUSE, Caller, Instance, until
from policed import Ahead, done_to, end_next, executions_of, failed, hasten, policing, until_round, with_policies

from job_host.catalogue.patterns import matches
from job_host.catalogue.policies import RestartPolicy
from job_host.protocol.lines import fingerprint
from job_host.protocol.moments import moment
from job_host.service.policies.known import RESTARTER
from job_host.service.policies.restarts import Plan, Restarts
from job_host.service.settings import HistoryBounds, ServeSettings
from job_host.service.stores.postgres import PostgresStore
from job_host.service.terms.calls import Call, Item

Make = Callable[..., ServeSettings]
TEMPORARY = {"restart": {"exitStatuses": ["TEMP*"], "most": 2, "wait": "PT30S", "longestWait": "PT50S"}}
LOST = {"restart": {"afterLostWorker": True, "wait": 30}}


@pytest.fixture(autouse=True)
def soon(monkeypatch: pytest.MonkeyPatch) -> None:
    hasten(monkeypatch)


async def until_restarts(instance: Instance) -> None:
    await until_round(instance.service.policies.restarts)


@pytest.mark.parametrize(
    ("pattern", "text", "is_taken"),
    [
        ("", "", True),
        ("", "a", False),
        ("*", "", True),
        ("?", "", False),
        ("?", "é", True),
        ("TEMP*", "TEMP", True),
        ("TEMP*", "TEMPORARY", True),
        ("TEMP*", "A TEMP", False),
        ("*TEMP", "TEMP TEMP", True),
        ("*a*b", "xaxab", True),
        ("*a*b", "xaxa", False),
        ("a?c", "abc", True),
        ("a?c", "ac", False),
        ("temp", "TEMP", False),
        ("**", "x", True),
    ],
)
def test_patterns_are_those_of_transition_elements(pattern: str, text: str, is_taken: bool) -> None:
    assert matches(pattern, text) is is_taken


def test_waits_double_up_to_the_longest() -> None:
    policy = RestartPolicy(True, wait=30, longest_wait=100)
    assert [policy.wait_after(made) for made in (0, 1, 2, 3, 1_000)] == [30, 60, 100, 100, 100]
    assert RestartPolicy(True, wait=1, longest_wait=4_294_967_295).wait_after(1_000) == 4_294_967_295


async def test_a_failed_step_is_restarted_after_its_wait_with_its_parameters(either: Make, tmp_path: Path) -> None:
    """It is made once, and then again after twice the wait, up to the longest, and not more often than it says."""
    clock = Ahead()
    folder = with_policies(tmp_path / "jobs", TEMPORARY)
    async with policing(either(catalogue=folder, is_folder=True), clock) as instance:
        caller, told = Caller(instance.url), instance.service.keeper
        for number, wait in ((1, 30), (2, 50)):
            assert await (failed(caller, "TEMPORARY", day="m") if number == 1 else end_next(caller, "TEMPO")) == number
            await until_restarts(instance)
            (due,) = told.restart_times.values()
            assert due - told.reading().last_moment == wait * 1_000
            shown = (await caller.ask("GET", "/batch/open")).told["jobInstances"]
            assert [(one["executionId"], one["restartTime"]) for one in shown] == [(number, moment(due))]
            clock.seconds = wait - 5
            await until_restarts(instance)
            assert await executions_of(caller) == [*range(1, number + 1)]
            clock.seconds = wait
            await until_restarts(instance)
            assert await executions_of(caller) == [*range(1, number + 2)]
        assert (await caller.ask("GET", "/batch/jobexecutions/3")).told["jobParameters"] == {"day": "m"}
        assert await done_to(caller, 3) == [("restart", RESTARTER)]
        assert await done_to(caller, 1) == [("start", "tester"), ("restart", RESTARTER)]
        assert await end_next(caller, "TEMPORARY") == 3
        clock.seconds += 10_000
        await until_restarts(instance)
        assert await executions_of(caller) == [1, 2, 3] and told.restart_times == {}
        assert "restartTime" not in (await caller.ask("GET", "/batch/open")).told["jobInstances"][0]


async def test_what_isnt_named_stays(embedded: Make, tmp_path: Path) -> None:
    """Another exit status; a stopped one; an abandoned one; one that failed after somebody asked it to stop; a lost one."""
    folder = with_policies(tmp_path / "jobs", TEMPORARY)
    async with policing(embedded(catalogue=folder, is_folder=True, lease=0.3), Ahead()) as instance:
        caller = Caller(instance.url)
        others = [await failed(caller, "OTHER"), await failed(caller)]
        abandoned = await failed(caller, "TEMPORARY")
        assert (await caller.change(abandoned, "abandon")).status == 200
        for outcome in ("STOPPED", "FAILED"):
            stopped = (await caller.start("nightly")).told["executionId"]
            work = (await caller.claim()).told["work"]["work"]
            assert (await caller.change(stopped, "stop")).status == 200
            assert (await caller.finish(work, outcome, exit="TEMPORARY")).status == 200
            others.append(stopped)
        lost = (await caller.start("nightly")).told["executionId"]
        await caller.claim()

        async def is_lost() -> bool:
            return await caller.status(lost) == "FAILED"

        await until(is_lost, longest=SHORT_PAUSE)
        operations = instance.service.keeper.operations
        await until_restarts(instance)
        assert instance.service.keeper.restart_times == {}
        assert instance.service.keeper.operations == operations


@pytest.mark.parametrize("by_person", [False, True])
async def test_a_lost_worker_is_a_cause(either: Make, tmp_path: Path, by_person: bool) -> None:
    """Its lease ends, or a person says that it is gone."""
    folder, clock = with_policies(tmp_path / "jobs", LOST), Ahead()
    lease = 10.0 if by_person else 0.3
    async with policing(either(catalogue=folder, is_folder=True, lease=lease), clock) as instance:
        caller = Caller(instance.url)
        assert (await caller.start("nightly", day="m")).status == 201
        work = (await caller.claim()).told["work"]["work"]
        if by_person:
            assert (await caller.ask("PUT", f"/batch/work/{work}?action=lose")).status == 200

        async def is_planned() -> bool:
            return list(instance.service.keeper.restart_times) == [1]

        await until(is_planned, longest=SHORT_PAUSE)
        clock.seconds = 30
        await until_restarts(instance)
        assert await executions_of(caller) == [1, 2]
        # An exit status of a step isn't named.
        assert await end_next(caller, "TEMPORARY") == 2
        clock.seconds = 10_000
        await until_restarts(instance)
        assert await executions_of(caller) == [1, 2]


async def test_all_that_failed_has_to_be_named(embedded: Make, tmp_path: Path) -> None:
    """Of two partitions one fails otherwise: a restart wouldn't help."""
    step = """<step id="only"><batchlet ref="only"/><partition><plan partitions="2"/></partition></step>\n"""
    folder, clock = with_policies(tmp_path / "jobs", TEMPORARY, file=step), Ahead(60)
    async with policing(embedded(catalogue=folder, is_folder=True), clock) as instance:
        caller = Caller(instance.url)
        for exits in (("TEMPORARY", "OTHER"), ("TEMPORARY", "TEMP")):
            assert (await caller.start("nightly")).status == 201
            works = [(await caller.claim()).told["work"]["work"] for _ in exits]
            for work, exit_status in zip(works, exits):
                assert (await caller.finish(work, "FAILED", exit=exit_status)).status == 200
        await until_restarts(instance)
        assert await executions_of(caller, 1) == [1] and await executions_of(caller, 2) == [2, 3]


async def test_a_persons_restart_or_abandonment_wins(embedded: Make, tmp_path: Path) -> None:
    """Also one that comes between the look and the restart."""
    folder = with_policies(tmp_path / "jobs", TEMPORARY)
    async with policing(embedded(catalogue=folder, is_folder=True), Ahead()) as instance:
        caller, keeper = Caller(instance.url), instance.service.keeper
        first, second, third = [await failed(caller, "TEMPORARY") for _ in range(3)]
        assert (await caller.change(first, "restart")).told["executionId"] == 4
        assert (await caller.change(second, "abandon")).status == 200
        restarts = Restarts(keeper, keeper.leading(), Ahead(60))
        operations = {one: keeper.reading().executions.changed_at(one) for one in (first, second, third)}
        before = keeper.operations
        for one in (first, second):
            stale = Plan(operations[one] - (one == second), 0)
            restarts._plans[one] = stale
            await restarts._restart(one, stale)
            assert one not in restarts._plans
        assert keeper.operations == before
        await restarts.round()
        assert await done_to(caller, third) == [("start", "tester"), ("restart", RESTARTER)]
        assert keeper.operations == before + 1


async def test_two_leaders_make_one_restart(settings: Make, tmp_path: Path) -> None:
    """One is gone behind the commit; the other one finds nothing due, and its key gives the first reply."""
    made = settings(catalogue=with_policies(tmp_path / "jobs", TEMPORARY), is_folder=True)
    async with policing(made, Ahead(60)) as first:
        caller = Caller(first.url)
        await failed(caller, "TEMPORARY")
        await until_restarts(first)
        assert await executions_of(caller) == [1, 2]
    async with policing(made, Ahead(60)) as second:
        caller = Caller(second.url)
        await until_restarts(second)
        assert await executions_of(caller) == [1, 2]
        print_of = fingerprint("restart", 1)
        call = Call(RESTARTER, "restart", {"execution": 1}, "restart-1", print_of)
        assert (await second.service.keeper.submit(call)).told()["execution"] == 2


async def test_a_commit_whose_answer_is_lost_makes_one_restart(
    settings: Make, tmp_path: Path, monkeypatch: pytest.MonkeyPatch
) -> None:
    """The restart is in the table, and its leader doesn't know. It begins again, and so does the next one."""
    made, lost = settings(catalogue=with_policies(tmp_path / "jobs", TEMPORARY), is_folder=True), list[int]()
    commit = PostgresStore.commit

    async def lose_answer(store: PostgresStore, epoch: int, items: Sequence[Item], clients: dict[str, int]) -> bool:
        stands = await commit(store, epoch, items, clients)
        if not lost and any(item.call is not None and item.call.client == RESTARTER for item in items):
            lost.append(epoch)
            raise ConnectionResetError("the answer is lost")
        return stands

    monkeypatch.setattr(PostgresStore, "commit", lose_answer)
    for _ in range(2):
        async with policing(made, Ahead(60)) as instance:
            caller = Caller(instance.url)
            if not lost:
                await failed(caller, "TEMPORARY")

            async def is_restarted() -> bool:
                return bool(lost) and instance.service.keeper.role == "leader"

            await until(is_restarted, longest=SHORT_PAUSE)
            await until_restarts(instance)
            assert await executions_of(caller) == [1, 2]
            assert await done_to(caller, 2) == [("restart", RESTARTER)]


async def test_what_is_due_is_found_after_a_start(either: Make, tmp_path: Path) -> None:
    """Also how often it was restarted before."""
    made = either(catalogue=with_policies(tmp_path / "jobs", TEMPORARY), is_folder=True)
    for number in (1, 2, 3):
        async with policing(made, Ahead()) as instance:
            caller = Caller(instance.url)
            assert await (failed(caller, "TEMP") if number == 1 else end_next(caller, "TEMP")) == number
            await until_restarts(instance)
            assert await executions_of(caller) == [*range(1, number + 1)]
        async with policing(made, Ahead(100)) as instance:
            caller = Caller(instance.url)
            await until_restarts(instance)
            assert await executions_of(caller) == [*range(1, min(number + 2, 4))]


async def test_a_history_that_is_almost_full_keeps_it_for_later(embedded: Make, tmp_path: Path) -> None:
    made = embedded(catalogue=with_policies(tmp_path / "jobs", TEMPORARY), is_folder=True)
    full = embedded(catalogue=tmp_path / "jobs", is_folder=True, other_history=HistoryBounds(100, 90, 3))
    async with policing(made, Ahead()) as instance:
        await failed(Caller(instance.url), "TEMP")
    async with policing(full, Ahead(60)) as instance:
        await until_restarts(instance)
        assert await executions_of(Caller(instance.url)) == [1]
        assert list(instance.service.keeper.restart_times) == [1]
    async with policing(made, Ahead(60)) as instance:
        await until_restarts(instance)
        assert await executions_of(Caller(instance.url)) == [1, 2]


async def test_a_restart_that_is_refused_is_not_tried_again(
    embedded: Make, tmp_path: Path, caplog: pytest.LogCaptureFixture
) -> None:
    """The policy doesn't ask again, until something is done to the job execution."""
    folder = with_policies(tmp_path / "jobs", TEMPORARY)
    async with policing(embedded(catalogue=folder, is_folder=True), Ahead()) as instance:
        caller, keeper = Caller(instance.url), instance.service.keeper
        await failed(caller, "TEMP")
        call = Call(RESTARTER, "restart", {"execution": 99}, "restart-1", fingerprint("restart", 1))
        assert (await keeper.submit(call)).told() == {"refused": "NoSuchJobExecutionException"}
        restarts = Restarts(keeper, keeper.leading(), Ahead(60))
        for _ in range(3):
            await restarts.round()
        assert await executions_of(caller) == [1]
    assert sum("job execution 1 stays FAILED: NoSuchJobExecutionException" in one for one in caplog.messages) == 1
