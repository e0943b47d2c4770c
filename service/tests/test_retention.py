"""Retention: what is purged after how many days, and what never is."""

from __future__ import annotations

import asyncio
import json
import shutil
from collections.abc import Callable, Sequence
from dataclasses import replace
from pathlib import Path
from typing import Any, NamedTuple, cast

import pytest
from conftest import SHORT, batchlet
from instances import Caller, Instance, until
from job_versions import fail_one, job_file, write_jobs
from kept import engine_of
from postgres_bases import compact, keeper_of
from retained import Later, archived, ended, purged_by, retaining, until_round, with_clock

from job_host.commands.command_line import make_parser, serve_settings
from job_host.commands.program import find_batchctl
from job_host.service.keepers.embedded_term import EmbeddedTerm
from job_host.service.problems import unavailable
from job_host.service.retention import rounds
from job_host.service.retention.finished import Finished
from job_host.service.retention.record import record_of
from job_host.service.retention.rounds import Retention
from job_host.service.settings import HistoryBounds, ServeSettings
from job_host.service.terms.calls import SERVICE_SESSION, Item

Make = Callable[..., ServeSettings]

ONCE = {"id": "once", "restartable": False, "elements": [batchlet("only", "only")]}
TWO = {"id": "two", "elements": [batchlet("first", "only", next="last"), batchlet("last", "only")]}


def hasten(monkeypatch: pytest.MonkeyPatch) -> None:
    """Rounds follow each other soon, and purges, too."""
    monkeypatch.setattr(rounds, "PERIOD_SECONDS", 0.02)
    monkeypatch.setattr(rounds, "RETRY_SECONDS", 0.02)
    monkeypatch.setattr(rounds, "LOOK_SECONDS", 0.01)
    monkeypatch.setattr(rounds, "PURGES_A_SECOND", 1_000)


@pytest.fixture(autouse=True)
def soon(monkeypatch: pytest.MonkeyPatch) -> None:
    hasten(monkeypatch)


class Scene(NamedTuple):
    """The data of a service with job instances of each kind, and their job executions."""

    jobs: Path
    data: Path
    made: dict[str, list[int]]
    operations: int


@pytest.fixture(scope="module")
def scene(tmp_path_factory: pytest.TempPathFactory, has_log: None) -> Scene:
    """Made once: each test has a copy."""
    folder = tmp_path_factory.mktemp("scene")
    jobs, data = folder / "retained.json", folder / "data"
    jobs.write_text(json.dumps({"jobs": [SHORT, ONCE, TWO]}))

    async def make() -> tuple[dict[str, list[int]], int]:
        settings = ServeSettings(jobs, find_batchctl(None), data=data, port=0, keep_days=1, keep_failed_days=1)
        async with retaining(settings, Later(0)) as instance:
            made = await make_each(Caller(instance.url))
            # Nothing is over for a day.
            await until_round(instance)
            return made, instance.service.keeper.operations

    with pytest.MonkeyPatch.context() as patched:
        hasten(patched)
        return Scene(jobs, data, *asyncio.run(make()))


async def make_each(caller: Caller) -> dict[str, list[int]]:
    """Job instances of each kind, and their job executions."""
    made = {"completed": [await ended(caller, "short", "COMPLETED")], "failed": [await ended(caller, "short", "FAILED")]}
    made["stopped"] = [await ended(caller, "short", "STOPPED")]
    made["abandoned"] = [await ended(caller, "short", "FAILED")]
    await caller.change(made["abandoned"][0], "abandon")
    made["not restartable"] = [await ended(caller, "once", "FAILED")]
    again = [await ended(caller, "short", "FAILED")]
    again.append((await caller.change(again[0], "restart")).told["executionId"])
    await caller.finish((await caller.claim()).told["work"]["work"])
    made["completed again"] = again
    first = [await ended(caller, "short", "FAILED")]
    first.append((await caller.change(first[0], "restart")).told["executionId"])
    await caller.claim()
    made["running again"] = first
    return made


OVER = {"completed", "abandoned", "not restartable", "completed again"}
OPEN = {"failed", "stopped"}


@pytest.mark.parametrize(
    "words, days, gone",
    [
        ({}, 900, set()),
        ({"keep_days": 30}, 29.9, set()),
        ({"keep_days": 30}, 30.1, OVER),
        ({"keep_failed_days": 30}, 29.9, set()),
        ({"keep_failed_days": 30}, 30.1, OPEN),
        ({"keep_days": 30, "keep_failed_days": 90}, 30.1, OVER),
        ({"keep_days": 90, "keep_failed_days": 30}, 30.1, OPEN),
        ({"keep_days": 30, "keep_failed_days": 30}, 900, OVER | OPEN),
    ],
)
async def test_which_job_instances_are_purged(
    scene: Scene, embedded: Make, tmp_path: Path, caplog: pytest.LogCaptureFixture, words: Any, days: float, gone: set[str]
) -> None:
    shutil.copytree(scene.data, tmp_path / "data")
    async with retaining(embedded(catalogue=scene.jobs, **words), Later(days)) as instance:
        caller = Caller(instance.url)
        if words:
            await until_round(instance)
        expected = {one: "" for kind in gone for one in scene.made[kind]}
        assert await purged_by(caller, [one for some in scene.made.values() for one in some]) == expected
        for kind, some in scene.made.items():
            statuses = {(await caller.ask("GET", f"/batch/jobexecutions/{one}")).status for one in some}
            assert statuses == {404 if kind in gone else 200}, kind
        assert instance.service.keeper.operations == scene.operations + len(gone)
    # No purge was asked for that the repository refuses.
    assert all(", 0 passed over, 0 left, in " in one for one in caplog.messages if one.startswith("retention: "))


async def test_the_oldest_come_first_and_are_purged_once(either: Make, caplog: pytest.LogCaptureFixture) -> None:
    """Also if the service begins again. The count stands in the history."""
    made = either(keep_days=1)
    async with retaining(made, Later(0)) as instance:
        caller = Caller(instance.url)
        # The second one ends before the first one.
        await caller.start("short")
        first = (await caller.claim()).told["work"]["work"]
        await ended(caller, "short", "COMPLETED")
        await caller.finish(first)
        await ended(caller, "short", "COMPLETED")
        await until_round(instance)
        instance.service.retention._clock.days = 1.1  # type: ignore[attr-defined]
        await until_round(instance)
        assert instance.service.keeper.engine is not None
        told = [(await caller.ask("GET", f"/batch/jobexecutions/{one}/operations")).told[0] for one in (2, 1, 3)]
        assert [one["action"] for one in told] == ["purge"] * 3
        assert [one["operation"] for one in told] == sorted(one["operation"] for one in told)
        metrics = (await caller.ask("GET", "/metrics")).told
        assert "jobhost_purged_job_instances 3.0\n" in metrics and "jobhost_retention_left 0.0\n" in metrics
        assert "jobhost_archived_job_instances_total 0.0\n" in metrics
    told_rounds = [one.message for one in caplog.records if one.message.startswith("retention: ")]
    assert len(told_rounds) == 1 and told_rounds[0].startswith("retention: 3 job instances purged, 0 passed over, 0 left, in ")
    async with retaining(made, Later(1.1)) as instance:
        await ended(Caller(instance.url), "short", "COMPLETED")
        await until_round(instance)
        engine = instance.service.keeper.engine
        assert engine is not None and engine.actions.purges_by == {SERVICE_SESSION: 4}
        assert instance.service.keeper.operations == 16


async def test_what_is_restarted_meanwhile_is_passed_over(either: Make, tmp_path: Path) -> None:
    """A restart comes after the look, and another one after the line of the archive: both stay, finished or not."""
    made = either(keep_failed_days=1, archive=tmp_path / "archive")
    clock = Later(0)
    async with retaining(made, clock) as instance:
        caller = Caller(instance.url)
        executions = [await ended(caller, "short", "FAILED") for _ in range(3)]
        purging: Any = instance.service.purging
        keep, restarted = purging.keep, list[int]()

        async def restart(execution: int) -> None:
            restarted.append((await caller.change(execution, "restart")).told["executionId"])
            await caller.finish((await caller.claim()).told["work"]["work"], "FAILED")

        async def keep_and_restart(archive: Any, call: Any, operations: Any) -> None:
            await keep(archive, call, operations)
            if call.members["instance"] == 1 and not restarted:
                # For this round the clock was read before.
                clock.days = 0
                await restart(executions[0])
                await restart(executions[1])

        purging.keep = keep_and_restart
        await until_round(instance)
        clock.days = 1.1
        await until_round(instance)
        rows = [(await caller.ask("GET", f"/batch/jobexecutions/{one}")).status for one in [*executions, *restarted]]
        assert rows == [200, 200, 404, 200, 200]
        assert await purged_by(caller, executions) == {3: ""}
        # The first one's line was there by then. It isn't archived again, and the second one never was.
        assert instances_in(tmp_path / "archive") == [1, 3]


def dying(monkeypatch: pytest.MonkeyPatch, times: int) -> list[int]:
    """The first purges each end batchctl, as a full disk of its log does. Returns the job instances that they were of."""
    died: list[int] = []
    hand = EmbeddedTerm.hand

    def die_and_hand(term: EmbeddedTerm, item: Any) -> None:
        if item.call.do == "purge" and len(died) < times:
            died.append(item.call.members["instance"])
            term.engine.process.kill()
        hand(term, item)

    monkeypatch.setattr(EmbeddedTerm, "hand", die_and_hand)
    return died


def instances_in(folder: Path) -> list[int]:
    """The job instances of an archive's lines."""
    return [one["jobInstance"]["instanceId"] for one in archived(folder)]


async def test_a_crash_after_the_line_and_before_the_purge(
    embedded: Make, tmp_path: Path, monkeypatch: pytest.MonkeyPatch
) -> None:
    """Then the line stands there twice, and the purge once."""
    made = embedded(keep_days=1, archive=tmp_path / "archive")
    clock = Later(0)
    async with retaining(made, clock) as instance:
        caller = Caller(instance.url)
        executions = [await ended(caller, "short", "COMPLETED") for _ in range(2)]
        dying(monkeypatch, 1_000)
        clock.days = 1.1
        await instance.until_role("starting")
    assert instances_in(tmp_path / "archive") == [1]
    monkeypatch.undo()
    monkeypatch.setattr(rounds, "LOOK_SECONDS", 0.01)
    async with retaining(made, clock) as instance:
        await until(lambda: is_purged(instance, 2))
        assert await purged_by(Caller(instance.url), executions) == {1: "", 2: ""}
        assert instances_in(tmp_path / "archive") == [1, 1, 2]
        assert instance.service.keeper.operations == 8


async def is_purged(instance: Instance, number: int) -> bool:
    engine = instance.service.keeper.engine
    return engine is not None and not engine.executions.has_instance(number)


async def test_purges_that_fail_leave_one_line(embedded: Make, tmp_path: Path, monkeypatch: pytest.MonkeyPatch) -> None:
    """Else a full disk of the history would fill that of the archive."""
    clock = Later(0)
    async with retaining(embedded(keep_days=1, archive=tmp_path / "archive"), clock) as instance:
        caller = Caller(instance.url)
        executions = [await ended(caller, "short", "COMPLETED") for _ in range(2)]
        died = dying(monkeypatch, 3)
        clock.days = 1.1
        await until(lambda: is_purged(instance, 2))
        assert died == [1, 1, 1] and instances_in(tmp_path / "archive") == [1, 2]
        assert await purged_by(caller, executions) == {1: "", 2: ""}
        assert instance.service.keeper.operations == 8


async def test_a_line_that_is_lost_is_appended_again(embedded: Make, tmp_path: Path, monkeypatch: pytest.MonkeyPatch) -> None:
    """What isn't archived isn't purged, though it was archived before."""
    folder = tmp_path / "archive"
    async with retaining(embedded(archive=folder), Later(0)) as instance:
        caller = Caller(instance.url)
        await ended(caller, "short", "COMPLETED")
        dying(monkeypatch, 2)
        for _ in range(2):
            assert (await caller.ask("DELETE", "/batch/jobinstances/1")).status == 503
            await instance.until_role("starting")
            await instance.until_role("leader")
        (file,) = folder.glob("*.jsonl")
        listing = "/batch/archive/jobexecutions"
        assert [row["purged"] for row in (await caller.ask("GET", listing)).told["jobExecutions"]] == [False]
        file.write_bytes(file.read_bytes().replace(b"short", b"shirt"))
        assert (await caller.ask("DELETE", "/batch/jobinstances/1")).status == 200
        assert len(file.read_bytes().splitlines()) == 2 and instances_in(folder) == [1]
        assert [row["purged"] for row in (await caller.ask("GET", listing)).told["jobExecutions"]] == [True]


async def test_a_round_that_failed_is_not_made_again_at_once(embedded: Make, monkeypatch: pytest.MonkeyPatch) -> None:
    """Else the purges of a service whose disk is full would end its batchctl again and again."""
    monkeypatch.setattr(rounds, "RETRY_SECONDS", 3_600.0)
    clock = Later(0)
    async with retaining(embedded(keep_days=1), clock) as instance:
        caller = Caller(instance.url)
        executions = [await ended(caller, "short", "COMPLETED") for _ in range(2)]
        dying(monkeypatch, 1)
        clock.days = 1.1
        await instance.until_role("starting")
        await instance.until_role("leader")
        await asyncio.sleep(0.3)
        assert await purged_by(caller, executions) == {}
        assert "CoProcessEnded" in instance.service.retention.last.failure


async def test_what_runs_keeps_the_rest_of_a_history(embedded: Make) -> None:
    """Retention leaves it to what can still end, as starts do. A person may purge."""
    clock = Later(0)
    made = embedded(keep_days=1, other_history=HistoryBounds(100, 9, 10))
    async with retaining(made, clock) as instance:
        caller = Caller(instance.url)
        executions = [await ended(caller, "short", "COMPLETED") for _ in range(3)]
        assert (await caller.start("short")).status == 201
        clock.days = 1.1
        await until_round(instance)
        assert await purged_by(caller, executions) == {} and instance.service.keeper.operations == 10
        assert instance.service.retention.last.failure.startswith("HistoryAlmostFull: ")
        assert (await caller.ask("DELETE", "/batch/jobinstances/1")).status == 200
        assert (await caller.claim()).status == 200


async def test_a_round_purges_no_more_than_some(embedded: Make, monkeypatch: pytest.MonkeyPatch) -> None:
    """The oldest ones. The next round follows at once, as long as there are others."""
    monkeypatch.setattr(rounds, "MOST_PURGES", 2)
    monkeypatch.setattr(rounds, "PERIOD_SECONDS", 3_600.0)
    made = embedded()
    async with retaining(made, Later(0)) as instance:
        caller, service = Caller(instance.url), instance.service
        for _ in range(5):
            await ended(caller, "short", "COMPLETED")
        retention = Retention(service.keeper, replace(made, keep_days=1), service.purging, Later(1.1))
        assert service.keeper.term is not None
        told = []
        for _ in range(3):
            pause = await retention._round(service.keeper.term)
            there = [one for one in range(1, 6) if not await is_purged(instance, one)]
            told.append((there, retention.last.left, pause == 0.0))
        assert told == [([3, 4, 5], 3, True), ([5], 1, True), ([], 0, False)]


async def test_a_purge_leaves_no_request_key(embedded: Make) -> None:
    """A job instance can't be purged twice, and a key for each would be kept for days."""
    clock = Later(0)
    async with retaining(embedded(keep_days=1), clock) as instance:
        await ended(Caller(instance.url), "short", "COMPLETED")
        clock.days = 1.1
        await until(lambda: is_purged(instance, 1))
        beside = instance.service.keeper._beside  # type: ignore[attr-defined]
        sessions = "select distinct session from request"
        assert SERVICE_SESSION not in await beside.do(lambda store: [row[0] for row in store._connection.execute(sessions)])


async def test_each_version_of_a_job_is_restartable_or_not(embedded: Make, tmp_path: Path) -> None:
    """And the archive says of which version a job execution was."""
    jobs, folder = write_jobs(tmp_path / "jobs", nightly="first"), tmp_path / "archive"
    clock = Later(0)
    async with retaining(embedded(catalogue=jobs, is_folder=True, keep_days=1, archive=folder), clock) as instance:
        caller = Caller(instance.url)
        first = await fail_one(caller)
        final = job_file("second").replace("<job ", '<job restartable="false" ')
        assert (await caller.apply("nightly", final)).told["version"] == 2
        second = await fail_one(caller)
        clock.days = 1.1
        await until_round(instance)
        assert await purged_by(caller, [first, second]) == {second: ""}
        # The one that stays may be restarted, in its version.
        assert (await caller.change(first, "restart")).status == 200
        rows = (await caller.ask("GET", "/batch/archive/jobexecutions?jobName=nightly")).told["jobExecutions"]
        assert [(row["executionId"], row["jobName"], row["version"]) for row in rows] == [(second, "nightly", 2)]
        shown = (await caller.ask("GET", f"/batch/archive/jobexecutions/{second}")).told
        assert (shown["jobName"], shown["version"], shown["batchStatus"]) == ("nightly", 2, "FAILED")
        (record,) = archived(folder)
        assert (record["jobInstance"]["jobName"], record["jobInstance"]["version"]) == ("nightly", 2)


async def test_a_leader_that_was_cut_off_purges_nothing(settings: Make, tmp_path: Path) -> None:
    """Another instance has taken over, and restarts what the first one has archived, and has purged but for the commit."""
    folder, clock, go_on = tmp_path / "archive", Later(0), asyncio.Event()
    first, second = [with_clock(settings(keep_failed_days=1, archive=folder), clock) for _ in range(2)]
    try:
        await first.start()
        await first.until_role("leader")
        execution = await ended(Caller(first.url), "short", "FAILED")
        await second.start()
        await second.until_role("follower")
        store: Any = first.service.keeper._store  # type: ignore[attr-defined]
        commit = store.commit

        async def wait_and_commit(*given: Any) -> Any:
            await go_on.wait()
            return await commit(*given)

        store.commit = wait_and_commit
        clock.days = 1.1
        await until(lambda: has_lines(folder, 1))
        clock.days = 0
        await second.until_role("leader")
        caller = Caller(second.url)
        again = (await caller.change(execution, "restart")).told["executionId"]
        go_on.set()
        await first.until_role("follower")
        assert await purged_by(caller, [execution, again]) == {}
        await caller.finish((await caller.claim()).told["work"]["work"], "FAILED")
        clock.days = 1.1
        await until(lambda: is_purged(second, 1))
        assert await purged_by(caller, [execution, again]) == {execution: "", again: ""}
        told = [[each["executionId"] for each in one["jobExecutions"]] for one in archived(folder)]
        assert told == [[execution], [again, execution]]
    finally:
        go_on.set()
        await first.stop()
        await second.stop()


async def has_lines(folder: Path, count: int) -> bool:
    return len(archived(folder)) == count


async def test_a_crash_after_the_purge_and_before_its_reply(embedded: Make) -> None:
    made = embedded(keep_days=1)
    clock = Later(0)
    async with retaining(made, clock) as instance:
        caller, term = Caller(instance.url), cast(Any, instance.service.keeper.term)
        executions = [await ended(caller, "short", "COMPLETED") for _ in range(2)]
        keep = term.keep

        async def keep_or_fail(items: Sequence[Item]) -> None:
            if any(item.call is not None and item.call.do == "purge" for item in items):
                raise unavailable("StoreLost", "the disk is full")
            await keep(items)

        term.keep = keep_or_fail
        clock.days = 1.1
        await instance.until_role("starting")
        await instance.until_role("leader")
        await until_round(instance)
        assert await purged_by(caller, executions) == {1: "", 2: ""}
        engine = instance.service.keeper.engine
        assert engine is not None and engine.actions.purges_by[SERVICE_SESSION] == 2
        assert instance.service.keeper.operations == 8


async def test_the_instance_that_takes_over_goes_on(settings: Make, monkeypatch: pytest.MonkeyPatch) -> None:
    monkeypatch.setattr(rounds, "PURGES_A_SECOND", 5)
    clock = Later(0)
    first, second = [with_clock(settings(keep_days=1), clock) for _ in range(2)]
    try:
        await first.start()
        await first.until_role("leader")
        caller = Caller(first.url)
        executions = [await ended(caller, "short", "COMPLETED") for _ in range(4)]
        await second.start()
        await second.until_role("follower")
        clock.days = 1.1

        async def has_begun() -> bool:
            return first.service.retention.last.purged >= 1

        await until(has_begun)
        await first.stop()
        await second.until_role("leader")
        assert first.service.retention.last.purged < 4
        await until_round(second)
        assert await purged_by(Caller(second.url), executions) == dict.fromkeys(executions, "")
        assert second.service.keeper.operations == 16
    finally:
        await second.stop()


@pytest.mark.parametrize("begins", ["before the base", "behind the base"])
async def test_whoever_takes_over_purges_what_ended_before_a_base_and_behind_it(
    basing: Make, monkeypatch: pytest.MonkeyPatch, begins: str
) -> None:
    """Also an instance that has noted the base, and one that knows nothing else of what was before it."""
    monkeypatch.setattr(rounds, "PURGES_A_SECOND", 5)
    clock = Later(0)
    first, second = [with_clock(basing(keep_days=1), clock) for _ in range(2)]
    try:
        await first.start()
        await first.until_role("leader")
        caller = Caller(first.url)
        executions = [await ended(caller, "short", "COMPLETED") for _ in range(2)]
        if begins == "before the base":
            await second.start()
            await second.until_role("follower")
        assert not (await compact(first)).failure
        executions += [await ended(caller, "short", "COMPLETED") for _ in range(2)]
        if begins == "behind the base":
            await second.start()
            await second.until_role("follower")
        clock.days = 1.1

        async def has_begun() -> bool:
            return first.service.retention.last.purged >= 1

        await until(has_begun)
        await first.stop()
        await second.until_role("leader")
        await until_round(second)
        assert await purged_by(Caller(second.url), executions) == dict.fromkeys(executions, "")
        assert second.service.keeper.operations == 16
    finally:
        await second.stop()


def failing_once(store: Any, is_kept: bool) -> None:
    """The commit of the first purge fails, or its answer doesn't come."""
    commit = store.commit

    async def commit_or_fail(epoch: int, items: Sequence[Item], clients: dict[str, int]) -> bool:
        has_purge = any(item.call is not None and item.call.do == "purge" for item in items)
        if is_kept or not has_purge:
            stands = await commit(epoch, items, clients)
        if has_purge:
            raise ConnectionError("the connection is lost")
        return bool(stands)

    store.commit = commit_or_fail


@pytest.mark.parametrize("harm", ["batchctl", "commit", "answer"])
async def test_a_purge_that_fails_behind_a_base_is_made_later_and_once(basing: Make, harm: str) -> None:
    """By the same leader, which begins again with the base, or goes on with what it knew."""
    clock = Later(0)
    async with retaining(basing(keep_days=1), clock) as instance:
        caller = Caller(instance.url)
        executions = [await ended(caller, "short", "COMPLETED") for _ in range(2)]
        assert not (await compact(instance)).failure
        executions += [await ended(caller, "short", "COMPLETED") for _ in range(2)]
        await until_round(instance)
        if harm == "batchctl":
            engine_of(instance).process.kill()
        else:
            failing_once(keeper_of(instance)._store, harm == "answer")
        clock.days = 1.1
        await instance.until_role("starting")
        await instance.until_role("leader")
        await until_round(instance)
        assert await purged_by(caller, executions) == dict.fromkeys(executions, "")
        assert engine_of(instance).actions.purges_by[SERVICE_SESSION] == 4 and instance.service.keeper.operations == 16


async def test_without_its_archive_nothing_is_purged(either: Make, tmp_path: Path, caplog: pytest.LogCaptureFixture) -> None:
    folder = tmp_path / "archive"
    clock = Later(0)
    async with retaining(either(keep_days=1, archive=folder), clock) as instance:
        caller = Caller(instance.url)
        executions = [await ended(caller, "short", "COMPLETED") for _ in range(2)]
        folder.rename(tmp_path / "elsewhere")
        clock.days = 1.1
        await until_round(instance)
        assert await purged_by(caller, executions) == {} and not folder.exists()
        refused = await caller.ask("DELETE", "/batch/jobinstances/1")
        assert (refused.status, refused.name) == (503, "ArchiveFailed")
        # An empty mount point.
        folder.mkdir()
        await until_round(instance)
        assert await purged_by(caller, executions) == {} and not list(folder.iterdir())
        folder.rmdir()
        shutil.move(tmp_path / "elsewhere", folder)
        await until_round(instance)
        assert await purged_by(caller, executions) == {1: "", 2: ""}
        assert [one["jobInstance"]["instanceId"] for one in archived(folder)] == [1, 2]
    told = [one.message for one in caplog.records]
    assert any("2 left, in " in one and "seconds: ArchiveFailed: nothing is purged: " in one for one in told)


async def test_what_a_person_purges_is_archived_too(either: Make, tmp_path: Path) -> None:
    folder = tmp_path / "archive"
    async with retaining(either(archive=folder), Later(900)) as instance:
        caller = Caller(instance.url, "ann")
        await ended(caller, "short", "FAILED", date="today")
        await caller.start("short")
        assert (await caller.ask("DELETE", "/batch/jobinstances/2")).name == "JobExecutionIsRunningException"
        assert (await caller.ask("DELETE", "/batch/jobinstances/9")).name == "NoSuchJobInstanceException"
        assert archived(folder) == []
        answers = [await caller.ask("DELETE", "/batch/jobinstances/1", key="one") for _ in range(2)]
        assert [one.told for one in answers] == [{"instance": 1, "purged": True}] * 2
        assert (await caller.ask("DELETE", "/batch/jobinstances/1")).name == "NoSuchJobInstanceException"
        assert "jobhost_archived_job_instances_total 1.0\n" in (await caller.ask("GET", "/metrics")).told
        (record,) = archived(folder)
        assert (record["archivedFor"], record["history"]) == ("ann", instance.service.keeper.history)


async def test_the_archive_has_what_queries_told(either: Make, tmp_path: Path) -> None:
    folder = tmp_path / "archive"
    clock = Later(0)
    async with retaining(either(keep_days=1, archive=folder), clock) as instance:
        caller = Caller(instance.url, "ann")
        execution = await ended(caller, "short", "FAILED", date="today")
        again = (await caller.change(execution, "restart")).told["executionId"]
        work = (await caller.claim()).told["work"]["work"]
        await caller.finish(work, metrics={"READ_COUNT": 3}, log="all went well")
        told: dict[int, dict[str, Any]] = {one: {} for one in (again, execution)}
        for one, found in told.items():
            path = f"/batch/jobexecutions/{one}"
            found.update((await caller.ask("GET", path)).told)
            del found["_links"]
            for name, part in (("operations", "operations"), ("workItems", "workitems"), ("logs", "joblogs")):
                found[name] = (await caller.ask("GET", f"{path}/{part}")).told
            found |= (await caller.ask("GET", f"{path}/causes")).told
        clock.days = 1.1
        await until_round(instance)
        (record,) = archived(folder)
    assert record["jobExecutions"] == list(told.values())
    newest, oldest = record["jobExecutions"]
    assert [log["log"] for log in newest["logs"] + oldest["logs"]] == ["all went well", "the log of 1"]
    assert newest["stepExecutions"][0]["metrics"]["READ_COUNT"] == 3
    assert [one["action"] for one in oldest["operations"]] == ["restart", "start"]
    assert record["jobInstance"] == {"jobName": "short", "instanceId": 1, "batchStatus": "COMPLETED", "exitStatus": "COMPLETED"}
    assert record["archivedFor"] == ""


async def test_what_is_answered_by_its_key_is_not_archived(embedded: Make, tmp_path: Path) -> None:
    """Else whoever may purge could fill the disk without a purge, and the archive would tell of what is still there."""
    folder = tmp_path / "archive"
    async with retaining(embedded(archive=folder), Later(0)) as instance:
        caller = Caller(instance.url)
        await ended(caller, "short", "COMPLETED")
        await caller.start("short", key="used")
        for _ in range(2):
            assert (await caller.ask("DELETE", "/batch/jobinstances/1", key="used")).name == "RequestKeyReused"
        assert archived(folder) == [] and not await is_purged(instance, 1)
        answers = [await caller.ask("DELETE", "/batch/jobinstances/1", key="one") for _ in range(2)]
        assert [one.status for one in answers] == [200, 200] and instances_in(folder) == [1]


async def test_an_archive_is_of_one_state(embedded: Make, tmp_path: Path) -> None:
    """What changes while a person's purge archives it is archived again, as it was purged."""
    folder = tmp_path / "archive"
    async with retaining(embedded(archive=folder), Later(0)) as instance:
        caller = Caller(instance.url)
        await ended(caller, "short", "FAILED")
        purging: Any = instance.service.purging
        keep, abandoned = purging.keep, list[int]()

        async def keep_and_abandon(*given: Any) -> None:
            await keep(*given)
            if not abandoned:
                abandoned.append((await caller.change(1, "abandon")).status)

        purging.keep = keep_and_abandon
        assert (await caller.ask("DELETE", "/batch/jobinstances/1")).status == 200
    assert [one["jobInstance"]["batchStatus"] for one in archived(folder)] == ["FAILED", "ABANDONED"]


async def test_starts_and_claims_go_on_beside_a_backlog(embedded: Make, monkeypatch: pytest.MonkeyPatch) -> None:
    monkeypatch.setattr(rounds, "PURGES_A_SECOND", 50)
    clock = Later(0)
    async with retaining(embedded(keep_days=1), clock) as instance:
        caller = Caller(instance.url)
        for _ in range(20):
            await ended(caller, "short", "COMPLETED")
        clock.days = 1.1
        made = await asyncio.gather(*(caller.start("short", number=str(one)) for one in range(20)))
        assert {one.status for one in made} == {201}
        for _ in range(20):
            assert "work" in (await caller.claim()).told
        clock.days = 0
        left = {(await caller.ask("GET", f"/batch/jobexecutions/{one.told['executionId']}")).status for one in made}
        assert left == {200}


def test_the_options_are_whole_days(capsys: pytest.CaptureFixture[str]) -> None:
    words = ["serve", "--catalogue", "jobs.json"]
    made = serve_settings(make_parser("serve").parse_args(words))
    assert (made.keep_days, made.keep_failed_days, made.archive) == (None, None, None)
    given = [*words, "--keep-days", "90", "--keep-failed-days", "365", "--archive", "old"]
    made = serve_settings(make_parser("serve").parse_args(given))
    assert (made.keep_days, made.keep_failed_days, made.archive) == (90, 365, Path("old"))
    for days in ("0", "-1", "1.5", "many"):
        with pytest.raises(SystemExit):
            make_parser("serve").parse_args([*words, f"--keep-days={days}"])
    assert "is no whole number from 1 on" in capsys.readouterr().err


async def test_an_archive_that_cannot_be_made_ends_the_start(embedded: Make, tmp_path: Path) -> None:
    (tmp_path / "file").write_text("")
    with pytest.raises(OSError):
        async with retaining(embedded(archive=tmp_path / "file"), Later(0)):
            pass


async def test_a_job_instance_is_as_it_was_looked_at(embedded: Make) -> None:
    async with retaining(embedded(), Later(0)) as instance:
        caller, engine = Caller(instance.url), instance.service.keeper.engine
        assert engine is not None
        await ended(caller, "short", "FAILED")
        finished = Finished(0, 1, 1, engine.executions.changed_at(1))
        assert finished.is_so(engine)
        await caller.change(1, "abandon")
        assert not finished.is_so(engine)
        assert finished._replace(operation=engine.executions.changed_at(1)).is_so(engine)
        assert (await record_of(instance.service.keeper, 1, "", 0))["archivedTime"] == "1970/01/01 00:00:00.000 +0000"
        await caller.ask("DELETE", "/batch/jobinstances/1")
        assert not finished._replace(operation=engine.executions.changed_at(1)).is_so(engine)
