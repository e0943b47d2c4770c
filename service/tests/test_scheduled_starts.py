"""Starts by schedule: each date once, whoever leads, and what becomes of dates that were missed."""

from __future__ import annotations

import json
from collections.abc import Callable
from datetime import datetime, timedelta, timezone
from pathlib import Path
from types import SimpleNamespace
from typing import Any, cast

import pytest
from conftest import Say
from instances import Caller, Instance
from job_versions import read_again, withdrawn
from policed import Ahead, done_to, hasten, policing, until_round, with_policies

from job_host.catalogue.cron import read_cron
from job_host.catalogue.jobs import ForWorkers, JobFile
from job_host.catalogue.names import id_of
from job_host.catalogue.policies import JobPolicies
from job_host.catalogue.schedules import CATCH_UP, Schedule
from job_host.service.keepers.keeper import Keeper
from job_host.service.policies import schedules
from job_host.service.policies.known import SCHEDULER
from job_host.service.policies.schedules import mark_of
from job_host.service.settings import HistoryBounds, ServeSettings
from job_host.service.versions.book import JobBook
from job_host.service.versions.changes import APPLY, RETURN, WITHDRAW, Change

Make = Callable[..., ServeSettings]
DAY = 86_400
DAILY: dict[str, Any] = {"cron": "0 0 * * *", "missed": "catchUp", "dateParameter": "date", "parameters": {"region": "north"}}


@pytest.fixture(autouse=True)
def soon(monkeypatch: pytest.MonkeyPatch) -> None:
    hasten(monkeypatch)


async def until_started(instance: Instance) -> None:
    await until_round(instance.service.policies.schedules)


async def parameters(caller: Caller) -> list[Any]:
    """The parameters of all job executions, the oldest first."""
    told = (await caller.ask("GET", "/batch/jobexecutions")).told["jobExecutions"]
    found = [(await caller.ask("GET", f"/batch/jobexecutions/{one['executionId']}")).told["jobParameters"] for one in told]
    return list(reversed(found))


def dates(count: int, first: int = 1) -> list[dict[str, str]]:
    """The parameters of the starts at the midnights to come."""
    today = datetime.now(timezone.utc).date()
    days = [today + timedelta(number) for number in range(first, first + count)]
    return [{"region": "north", "date": f"{day:%Y-%m-%d}"} for day in days]


async def test_each_date_is_started_once(either: Make, tmp_path: Path) -> None:
    """Also those of some days without a leader, by the next one. Before the schedule was there nothing was missed."""
    made = either(catalogue=with_policies(tmp_path / "jobs", {"schedule": DAILY}), is_folder=True)
    clock = Ahead()
    async with policing(made, clock) as instance:
        caller = Caller(instance.url)
        await until_started(instance)
        assert await parameters(caller) == []
        clock.seconds = DAY
        await until_started(instance)
        await until_started(instance)
        assert await parameters(caller) == dates(1)
        assert await done_to(caller, 1) == [("start", SCHEDULER)]
    for _ in range(2):
        async with policing(made, Ahead(4 * DAY)) as instance:
            await until_started(instance)
            assert await parameters(Caller(instance.url)) == dates(4)


async def test_a_lost_mark_starts_nothing_twice(either: Make, tmp_path: Path) -> None:
    """The request key is of the job and the moment; and the history tells of the last start."""
    made = either(catalogue=with_policies(tmp_path / "jobs", {"schedule": DAILY}), is_folder=True)
    async with policing(made, Ahead(3 * DAY)) as instance:
        await until_started(instance)
        caller, keeper = Caller(instance.url), instance.service.keeper
        assert await parameters(caller) == dates(3)
        part: Any = instance.service.policies.schedules._begin(keeper.leading())
        assert keeper.book is not None
        schedule = keeper.policies("nightly").schedule
        assert schedule is not None
        last = keeper.reading().last_moment
        part._marks = {}
        assert await part._done(keeper.book, "nightly", schedule) == last
        # As if the history didn't tell it, either.
        begun, operations = keeper.book.changes_of("nightly")[0].moment, keeper.operations
        assert await part._start_all("nightly", schedule, begun, last + 3 * DAY * 1_000) > last
        assert await parameters(caller) == dates(3) and keeper.operations == operations


async def test_missed_dates_are_skipped(embedded: Make, tmp_path: Path, caplog: pytest.LogCaptureFixture) -> None:
    """What is due is started within a minute, or not at all."""
    often = {"cron": "* * * * *", "momentParameter": "at"}
    made = embedded(catalogue=with_policies(tmp_path / "jobs", {"schedule": often}), is_folder=True)
    async with policing(made, Ahead(DAY)) as instance:
        await until_started(instance)
        found = await parameters(Caller(instance.url))
        assert len(found) == 1
        late = datetime.now(timezone.utc) + timedelta(seconds=DAY) - datetime.fromisoformat(found[0]["at"])
        assert timedelta(0) <= late < timedelta(seconds=120)
    daily = {"cron": "0 0 * * *", "missed": "skip"}
    made = embedded(catalogue=with_policies(tmp_path / "others", {"schedule": daily}), is_folder=True, data=tmp_path / "other")
    hour = 0 if datetime.now(timezone.utc).hour else 7_200
    async with policing(made, Ahead(DAY + hour)) as instance:
        await until_started(instance)
        assert await parameters(Caller(instance.url)) == []
        assert (await instance.service.keeper.notes().marks()).keys() == {mark_of("nightly")}
    assert sum("was missed, and is skipped" in one for one in caplog.messages) == 1


async def test_no_more_are_caught_up_with_than_a_bound(embedded: Make, tmp_path: Path, monkeypatch: pytest.MonkeyPatch) -> None:
    monkeypatch.setattr(schedules, "MOST_CAUGHT_UP", 2)
    made = embedded(catalogue=with_policies(tmp_path / "jobs", {"schedule": DAILY}), is_folder=True)
    async with policing(made, Ahead(5 * DAY)) as instance:
        await until_started(instance)
        await until_started(instance)
        assert await parameters(Caller(instance.url)) == dates(2, 4)


async def test_a_job_that_is_withdrawn_isnt_started(embedded: Make, tmp_path: Path) -> None:
    """When it is back, what was due meanwhile wasn't missed. A schedule that is changed begins anew."""
    folder = with_policies(tmp_path / "jobs", {"schedule": DAILY})
    clock = Ahead()
    async with policing(embedded(catalogue=folder, is_folder=True), clock) as instance:
        caller = Caller(instance.url)
        assert (await withdrawn(caller)).status == 200
        clock.seconds = DAY
        await until_started(instance)
        assert await parameters(caller) == []
        assert (await caller.ask("GET", "/batch/schedules")).told == {"jobs": []}
        settings = {"schedule": {**DAILY, "cron": "0 0 1 1 *"}}
        (folder / "nightly.settings.json").write_text(json.dumps(settings))
        assert (await caller.apply("nightly", (folder / "nightly.xml").read_text())).status == 200
        await until_started(instance)
        assert await parameters(caller) == []


async def test_the_newest_version_is_started(embedded: Make, tmp_path: Path) -> None:
    """Its schedule counts. One with the same moments isn't a new one, so that no date is left out by a change."""
    folder = with_policies(tmp_path / "jobs", {"schedule": DAILY})
    clock = Ahead()
    async with policing(embedded(catalogue=folder, is_folder=True), clock) as instance:
        caller = Caller(instance.url)
        with_policies(folder, {"schedule": {**DAILY, "parameters": {"region": "south"}}})
        await read_again(instance)
        clock.seconds = DAY
        await until_started(instance)
        assert await parameters(caller) == [{**dates(1)[0], "region": "south"}]
        assert (await caller.ask("GET", "/batch/jobexecutions/1")).told["version"] == 2
        with_policies(folder, {})
        await read_again(instance)
        clock.seconds = 3 * DAY
        await until_started(instance)
        assert len(await parameters(caller)) == 1


async def test_an_almost_full_history_is_waited_for(embedded: Make, tmp_path: Path) -> None:
    folder = with_policies(tmp_path / "jobs", {"schedule": DAILY})
    full = embedded(catalogue=folder, is_folder=True, other_history=HistoryBounds(100, 90, 0))
    async with policing(full, Ahead(2 * DAY)) as instance:
        await until_started(instance)
        assert await parameters(Caller(instance.url)) == []
    async with policing(embedded(catalogue=folder, is_folder=True), Ahead(2 * DAY)) as instance:
        await until_started(instance)
        assert await parameters(Caller(instance.url)) == dates(2)


async def test_what_comes_next_is_shown(either: Make, tmp_path: Path, say: Say) -> None:
    """Of all jobs and of one, over HTTP and by the command. A job of a catalogue has none."""
    folder = with_policies(tmp_path / "jobs", {"schedule": DAILY})
    with_policies(folder, {"schedule": {"cron": "30 12 * * *", "zone": "Asia/Tokyo"}}, "tokyo")
    with_policies(folder, {}, "never")
    async with policing(either(catalogue=folder, is_folder=True), Ahead()) as instance:
        caller = Caller(instance.url)
        nightly, tokyo = (await caller.ask("GET", "/batch/schedules")).told["jobs"]
        assert {name: nightly[name] for name in ("jobName", "cron", "zone", "missed")} == {
            **{"jobName": "nightly", "cron": "0 0 * * *"},
            **{"zone": "UTC", "missed": "catchUp"},
        }
        assert [one["jobParameters"] for one in nightly["next"]] == dates(5)
        assert all(one["local"].endswith("T12:30:00+09:00") for one in tokyo["next"]) and tokyo["missed"] == "skip"
        assert all(one["time"].endswith("03:30:00.000 +0000") for one in tokyo["next"])
        one = (await caller.ask("GET", "/batch/schedules?jobName=tokyo&count=1")).told["jobs"]
        assert one == [{**tokyo, "next": tokyo["next"][:1]}]
        assert (await caller.ask("GET", "/batch/schedules?jobName=none")).told == {"jobs": []}
        for wrong in ("count=0", "count=101", "page=1"):
            assert (await caller.ask("GET", f"/batch/schedules?{wrong}")).name == "BadRequest"
        status, told = await say(instance.url, "schedule", "--utc", "--count", "1")
        first, other = sorted((nightly, tokyo), key=lambda job: str(job["next"][0]["time"]))
        assert status == 0 and first["jobName"] in told and other["jobName"] not in told
        assert first["next"][0]["time"][:10] in told
        assert "nightly" not in (await say(instance.url, "schedule", "--job", "tokyo"))[1]


FIRST = JobPolicies(schedule=Schedule(read_cron("0 1 * * *"), "UTC"))
ALIKE = JobPolicies(schedule=Schedule(read_cron("0 1 * * *"), "UTC", CATCH_UP, (("a", "b"),)))
ZONED = JobPolicies(schedule=Schedule(read_cron("0 1 * * *"), "Asia/Tokyo"))


@pytest.mark.parametrize(
    ("done", "since"),
    [
        ([FIRST], 1),
        ([FIRST, ALIKE], 1),
        ([FIRST, ZONED], 2),
        ([FIRST, JobPolicies(), FIRST], 3),
        ([FIRST, WITHDRAW, RETURN], 3),
        ([FIRST, WITHDRAW, ALIKE], 3),
    ],
)
def test_since_when_a_schedule_is_there(done: list[Any], since: int) -> None:
    """Through versions with the same moments. What was due before wasn't missed."""
    known: dict[str, JobPolicies] = {}
    book = JobBook(lambda change: change.file, lambda file: ForWorkers(policies=known[file.name]))
    for moment, one in enumerate(done, 1):
        version = book.newest("nightly") + (not isinstance(one, str))
        name = id_of("nightly", version)
        file = None if isinstance(one, str) else JobFile(name, ".xml", b"")
        known |= {} if isinstance(one, str) else {name: one}
        action, job = (one, None) if isinstance(one, str) else (APPLY, {"id": name, "elements": []})
        book.enter([Change(action, "nightly", version, "", moment, job, file)])
    keeper = cast(Keeper, SimpleNamespace(policies=lambda job: book.for_workers(job).policies))
    schedule = keeper.policies(id_of("nightly", book.newest("nightly"))).schedule
    assert schedule is not None and schedules.in_force_since(keeper, book, "nightly", schedule) == since


async def test_jobs_of_a_catalogue_have_no_schedule(embedded: Make) -> None:
    async with policing(embedded(), Ahead()) as instance:
        assert (await Caller(instance.url).ask("GET", "/batch/schedules")).told == {"jobs": []}
