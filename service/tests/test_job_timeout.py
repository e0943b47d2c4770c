"""The time of a job: its job execution is stopped after it, once, and is late if it doesn't end then."""

from __future__ import annotations

from collections.abc import Callable
from pathlib import Path
from typing import Any

import pytest
from conftest import Say
from instances import Caller, Instance
from policed import Ahead, done_to, hasten, policing, until_round, with_policies

from job_host.service.keepers import late
from job_host.service.policies.known import TIMER
from job_host.service.settings import ServeSettings

Make = Callable[..., ServeSettings]
HOUR = {"timeout": "PT1H", "grace": "PT5M", "restart": {"afterLostWorker": True, "exitStatuses": ["*"]}}


@pytest.fixture(autouse=True)
def soon(monkeypatch: pytest.MonkeyPatch) -> None:
    hasten(monkeypatch)


async def until_looked(instance: Instance) -> None:
    await until_round(instance.service.policies.timeouts)
    await until_round(instance.service.policies.restarts)


async def late_rows(caller: Caller) -> list[dict[str, Any]]:
    return list((await caller.ask("GET", "/batch/open")).told["late"])


async def test_a_job_execution_is_stopped_after_its_time(either: Make, tmp_path: Path) -> None:
    """It counts from the first claim. Its worker hears of the stop. Nothing is restarted by itself then."""
    clock, folder = Ahead(), with_policies(tmp_path / "jobs", HOUR)
    async with policing(either(catalogue=folder, is_folder=True), clock) as instance:
        caller = Caller(instance.url)
        assert [(await caller.start("nightly")).status for _ in range(2)] == [201, 201]
        work = (await caller.claim()).told["work"]["work"]
        clock.seconds = 3_590
        await until_looked(instance)
        assert await caller.status(1) == "STARTED"
        clock.seconds = 3_600
        await until_looked(instance)
        assert [await caller.status(one) for one in (1, 2)] == ["STOPPING", "STARTING"]
        assert await done_to(caller, 1) == [("start", "tester"), ("stop", TIMER)]
        assert (await caller.ask("PUT", f"/batch/work/{work}?action=heartbeat")).told["stop"] is True
        operations = instance.service.keeper.operations
        await until_looked(instance)
        assert instance.service.keeper.operations == operations
        assert (await caller.finish(work, "STOPPED")).status == 200
        clock.seconds = 100_000
        await until_looked(instance)
        assert await caller.status(1) == "STOPPED"
        assert instance.service.keeper.operations == operations + 1


async def test_another_leader_goes_on(either: Make, tmp_path: Path) -> None:
    """Each stop is made once: what a person has stopped isn't stopped again."""
    made = either(catalogue=with_policies(tmp_path / "jobs", HOUR), is_folder=True)
    async with policing(made, Ahead()) as instance:
        caller = Caller(instance.url)
        for execution in (1, 2):
            assert (await caller.start("nightly")).status == 201
            await caller.claim()
        assert (await caller.change(2, "stop")).status == 200
    for _ in range(2):
        async with policing(made, Ahead(3_600)) as instance:
            caller = Caller(instance.url)
            await until_looked(instance)
            assert await done_to(caller, 1) == [("start", "tester"), ("stop", TIMER)]
            assert await done_to(caller, 2) == [("start", "tester"), ("stop", "tester")]


async def test_one_that_ends_meanwhile_is_left_alone(embedded: Make, tmp_path: Path) -> None:
    """The repository refuses the stop, and it isn't asked for again."""
    folder = with_policies(tmp_path / "jobs", HOUR)
    async with policing(embedded(catalogue=folder, is_folder=True), Ahead()) as instance:
        caller, timeouts = Caller(instance.url), instance.service.policies.timeouts
        assert (await caller.start("nightly")).status == 201
        assert (await caller.finish((await caller.claim()).told["work"]["work"])).status == 200
        part: Any = timeouts._begin(instance.service.keeper.leading())
        part._due = {1: 0}
        await part._stop(1)
        assert part._due == {} and await caller.status(1) == "COMPLETED"
        assert await done_to(caller, 1) == [("start", "tester")]


async def test_what_doesnt_end_is_late(embedded: Make, tmp_path: Path, say: Say, monkeypatch: pytest.MonkeyPatch) -> None:
    """After the grace, and not before. Another job without a time never is."""
    clock, folder = Ahead(), with_policies(tmp_path / "jobs", HOUR)
    with_policies(folder, {}, "other")
    monkeypatch.setattr(late, "clock", clock)
    async with policing(embedded(catalogue=folder, is_folder=True), clock) as instance:
        caller = Caller(instance.url)
        for job in ("nightly", "other"):
            assert (await caller.start(job)).status == 201
            await caller.claim()
        clock.seconds = 3_890
        await until_looked(instance)
        assert await caller.status(1) == "STOPPING" and await late_rows(caller) == []
        clock.seconds = 3_900
        (row,) = await late_rows(caller)
        shown = {name: row[name] for name in ("jobName", "executionId", "work", "stepName", "client", "timeout")}
        expected: dict[str, Any] = {"jobName": "nightly", "executionId": 1, "work": 1, "stepName": "only", "client": "tester"}
        assert shown == {**expected, "timeout": 3_600} and row["leaseRemaining"] is not None
        assert (await caller.ask("GET", "/batch/open?jobName=other")).told["late"] == []
        assert "jobhost_late_work_items 1.0\n" in (await caller.ask("GET", "/metrics")).told
        status, told = await say(instance.url, "open")
        line = "nightly: job execution 1 was asked to stop after 1 h 0 min, and hasn't ended: worker tester has work item 1"
        assert status == 0 and f"{line}, step only" in told
        assert (await caller.finish(1, "STOPPED")).status == 200
        assert await late_rows(caller) == []


async def test_a_job_without_a_busy_work_item_is_late_by_itself(
    embedded: Make, tmp_path: Path, monkeypatch: pytest.MonkeyPatch
) -> None:
    """As one whose next step nobody claims."""
    two = '<step id="a" next="b"><batchlet ref="a"/></step><step id="b"><batchlet ref="b"/></step>\n'
    clock, folder = Ahead(), with_policies(tmp_path / "jobs", HOUR, file=two)
    monkeypatch.setattr(late, "clock", clock)
    async with policing(embedded(catalogue=folder, is_folder=True), Ahead()) as instance:
        caller = Caller(instance.url)
        assert (await caller.start("nightly")).status == 201
        assert (await caller.finish((await caller.claim()).told["work"]["work"])).status == 200
        clock.seconds = 3_900
        (row,) = await late_rows(caller)
        assert (row["executionId"], row["work"], row["stepName"], row["timeout"]) == (1, None, None, 3_600)
