"""What goes on beside calls in each queue: policies within its bounds, notifications, the archive, the chain and events."""

from __future__ import annotations

from datetime import datetime, timedelta, timezone
from pathlib import Path
from typing import Any

import aiohttp
import pytest
from instances import Instance, running
from policed import Ahead, hasten
from queued import NIGHT, URGENT, QueueCaller, queued_settings, write_jobs
from receivers import receiving, words
from test_lists import Stream, follow

from job_host.service.policies.restarts import Restarts
from job_host.service.policies.schedules import Schedules
from job_host.service.queues.queue import Queue

# Two days from now, once a year. Three days from now that was due.
SOON = datetime.now(timezone.utc) + timedelta(days=2)
ONCE_SOON = {"cron": f"0 0 {SOON.day} {SOON.month} *", "missed": "catchUp"}
JOBS = {"day": ("default", 0), "alarm": ("urgent", 0), "dump": ("night", 0), "archive": ("night", 0)}


def queue_of(instance: Instance, name: str) -> Queue:
    return instance.service.queues.named(name)


async def names_of(caller: QueueCaller) -> list[str]:
    """The jobs of all job executions, the oldest first."""
    told = (await caller.ask("GET", "/batch/jobexecutions")).told["jobExecutions"]
    return [one["jobName"] for one in reversed(told)]


async def test_a_scheduled_start_waits_for_room(tmp_path: Path, has_log: None) -> None:
    """A job that runs one at a time keeps no other job from being started."""
    settings: dict[str, Any] = {"schedule": ONCE_SOON}
    jobs = write_jobs(tmp_path / "jobs", JOBS, archive={**settings, "oneAtATime": True}, dump=settings)
    async with running(queued_settings(tmp_path, jobs)) as instance:
        caller, keeper, clock = QueueCaller(instance.url), queue_of(instance, "night").keeper, Ahead()
        await caller.start("archive")
        rounds = Schedules(keeper, keeper.leading(), clock)
        await rounds.round()
        assert await names_of(caller) == ["archive"]
        clock.seconds = 3 * 86_400
        await rounds.round()
        assert await names_of(caller) == ["archive", "dump"]
        await caller.run_all("night")
        await rounds.round()
        assert await names_of(caller) == ["archive", "dump", "archive"]


async def test_a_restart_by_policy_waits_for_room(tmp_path: Path, has_log: None) -> None:
    jobs = write_jobs(tmp_path / "jobs", JOBS, dump={"restart": {"exitStatuses": ["BAD"], "wait": 1}})
    async with running(queued_settings(tmp_path, jobs, {"night": {"mostRunning": 1}})) as instance:
        caller, keeper = QueueCaller(instance.url), queue_of(instance, "night").keeper
        await caller.start("dump")
        await caller.finish((await caller.claim_of("night")).told["work"]["work"], "FAILED", exit="BAD")
        assert (await caller.start("archive")).status == 201
        rounds = Restarts(keeper, keeper.leading(), Ahead(10))
        await rounds.round()
        assert await names_of(caller) == ["dump", "archive"]
        assert (await caller.ask("GET", "/batch/open")).told["jobInstances"][0]["restartTime"]
        await caller.run_all("night")
        await rounds.round()
        assert await names_of(caller) == ["dump", "archive", "dump"]


async def test_a_notification_has_the_numbers_of_outside(
    tmp_path: Path, has_log: None, monkeypatch: pytest.MonkeyPatch
) -> None:
    hasten(monkeypatch)
    jobs = write_jobs(tmp_path / "jobs", JOBS)
    async with receiving() as receiver:
        async with running(queued_settings(tmp_path, jobs, **words(tmp_path, receiver))) as instance:
            caller = QueueCaller(instance.url)
            for job in ("dump", "day"):
                await caller.start(job)
                await caller.finish((await caller.claim_of("night", "default")).told["work"]["work"], "FAILED")
            await receiver.until_taken(2)
        assert sorted(receiver.kinds) == [("FAILED", 1), ("FAILED", NIGHT + 1)]
        (told,) = [one for one in receiver.taken if one["executionId"] > 1]
        assert (told["instanceId"], told["jobName"]) == (NIGHT + 1, "dump") and told["id"].endswith("/FAILED/1")


async def test_each_queue_is_archived_and_chained(tmp_path: Path, has_log: None) -> None:
    jobs, archive = write_jobs(tmp_path / "jobs", JOBS), tmp_path / "archive"
    async with running(queued_settings(tmp_path, jobs, archive=archive, chain=True)) as instance:
        caller = QueueCaller(instance.url)
        for job in ("alarm", "dump"):
            await caller.start(job)
        await caller.run_all("urgent", "night")
        assert (await caller.ask("DELETE", f"/batch/jobinstances/{NIGHT + 1}")).told["purged"] is True
        gone = await caller.ask("GET", f"/batch/jobexecutions/{NIGHT + 1}")
        assert gone.name == "NoSuchJobExecutionException"
        assert gone.told["archived"]["href"].startswith(f"/batch/archive/jobexecutions/{NIGHT + 1}?history=")
        shown = (await caller.ask("GET", gone.told["archived"]["href"])).told
        assert (shown["executionId"], shown["instanceId"], shown["workItems"][0]["work"]) == (NIGHT + 1,) * 3
        assert (await caller.ask("GET", f"/batch/archive/jobexecutions/{NIGHT + 1}")).told == shown
        (row,) = (await caller.ask("GET", "/batch/archive/jobexecutions")).told["jobExecutions"]
        assert (row["executionId"], row["jobName"], row["purged"]) == (NIGHT + 1, "dump", True)
        assert (await caller.ask("GET", f"/batch/archive/jobexecutions/{URGENT + 1}")).status == 404
        heads = (await caller.ask("GET", "/batch/audit/head")).told
        assert [(one["queue"], one["operation"]) for one in heads["queues"]] == [("default", 0), ("urgent", 3), ("night", 4)]
        assert heads["head"] == heads["queues"][0]["head"]
    assert {path.name for path in (tmp_path / "data").iterdir()} >= {"history.log", "queues", "queue-1", "queue-2"}


async def test_events_and_health_tell_of_all_queues(tmp_path: Path, has_log: None) -> None:
    jobs = write_jobs(tmp_path / "jobs", JOBS)
    async with running(queued_settings(tmp_path, jobs)) as instance, aiohttp.ClientSession() as session:
        caller = QueueCaller(instance.url)
        stream = Stream(await follow(session, instance))
        first = await stream.next()
        assert (first["operations"], first["role"]) == (0, "leader") and "executions" not in first
        for number, (job, made) in enumerate((("dump", NIGHT + 1), ("day", 1)), 1):
            await caller.start(job)
            event = await stream.next()
            assert (event["operations"], event["executions"]) == (number, [made])
        health = (await caller.ask("GET", "/health/leader")).told
        assert (health["role"], health["operations"]) == ("leader", 2)
        assert (await caller.ask("GET", "/readyz")).status == 200


async def test_schedules_and_busy_work_stand_queue_by_queue(tmp_path: Path, has_log: None) -> None:
    jobs = write_jobs(tmp_path / "jobs", JOBS, dump={"schedule": ONCE_SOON}, day={"schedule": ONCE_SOON})
    async with running(queued_settings(tmp_path, jobs)) as instance:
        caller = QueueCaller(instance.url)
        assert [one["jobName"] for one in (await caller.ask("GET", "/batch/schedules")).told["jobs"]] == ["day", "dump"]
        one = (await caller.ask("GET", "/batch/schedules?jobName=dump&count=1")).told["jobs"]
        assert [each["jobName"] for each in one] == ["dump"]
        for job in ("alarm", "day", "dump"):
            await caller.start(job)
        works = [(await caller.claim_of(queue)).told["work"]["work"] for queue in ("night", "urgent", "default")]
        assert works == [NIGHT + 1, URGENT + 1, 1]
        pages = [(await caller.ask("GET", f"/batch/work?pageSize=2&page={page}")).told for page in range(2)]
        assert [[row["work"] for row in page] for page in pages] == [[1, URGENT + 1], [NIGHT + 1]]
        for word, number in (("executionId", NIGHT + 1), ("work", NIGHT + 1)):
            (row,) = (await caller.ask("GET", f"/batch/work?{word}={number}&withJobs=true")).told
            assert (row["work"], row["jobName"]) == (NIGHT + 1, "dump")
        assert (await caller.ask("GET", f"/batch/work?work={NIGHT + 1}&executionId=1")).told == []
        told = (await caller.ask("PUT", "/batch/workers?action=drain")).told
        (worker,) = (await caller.ask("GET", "/batch/workers")).told["workers"]
        assert told == {"draining": True} and worker["draining"] and not worker["waits"]
        assert sorted(one["work"] for one in worker["work"]) == [1, URGENT + 1, NIGHT + 1]


async def test_pictures_and_shapes_are_those_of_the_job_s_queue(tmp_path: Path, has_log: None) -> None:
    jobs = write_jobs(tmp_path / "jobs", JOBS)
    async with running(queued_settings(tmp_path, jobs)) as instance:
        caller = QueueCaller(instance.url)
        assert (await caller.ask("GET", "/batch/catalogue?jobName=dump")).told["id"] == "dump"
        picture = (await caller.ask("GET", "/batch/catalogue/picture?jobName=dump")).told
        assert [one["element"] for one in picture["picture"]["items"]] == [0]
        assert (await caller.ask("GET", "/batch/catalogue?jobName=none")).name == "JobStartException"
