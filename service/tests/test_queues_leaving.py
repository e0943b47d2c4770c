"""Versions of jobs that leave the catalogue of their queue, as that one is compacted."""

from __future__ import annotations

import json
from collections.abc import Callable
from dataclasses import replace
from pathlib import Path
from types import SimpleNamespace
from typing import Any, cast

import pytest
from instances import Answer, Instance, running
from queued import NIGHT, URGENT, QueueCaller, jsl, queued_settings, write_jobs
from test_leaving import compact, ids, purge
from test_queues import Form

from job_host.service.settings import ServeSettings

Make = Callable[..., ServeSettings]


@pytest.fixture
def made(based: Make, tmp_path: Path) -> ServeSettings:
    """Settings of a service with three queues, over PostgreSQL, and over logs, whose program makes bases."""
    told = queued_settings(tmp_path, write_jobs(tmp_path / "jobs"))
    return replace(based(catalogue=told.catalogue, is_folder=True), queues=told.queues)


def queue_of(instance: Instance, name: str) -> Instance:
    """The service, as if that queue were all of it."""
    return cast(Instance, SimpleNamespace(service=SimpleNamespace(keeper=instance.service.queues.named(name).keeper)))


def jobs_in(instance: Instance) -> list[list[str]]:
    """The jobs of the catalogue of each queue, as its batchctl has them."""
    return [ids(queue_of(instance, one.name)) for one in instance.service.queues]


async def compact_all(instance: Instance) -> None:
    for one in instance.service.queues:
        assert (await compact(queue_of(instance, one.name))).failure == ""


async def applied(caller: QueueCaller, name: str, queue: str, ref: str | None = None) -> Answer:
    form = Form(jsl(name, ref=ref), json.dumps({"queue": queue}))
    return await caller.ask("PUT", f"/batch/jobs/{name}", form.body, **form.headers)


async def changes_of(caller: QueueCaller, name: str) -> tuple[str, list[Any]]:
    """The queue of a job, and its changes there, the oldest first."""
    told = (await caller.ask("GET", f"/batch/jobs/{name}/versions")).told
    return told["queue"], [(one["action"], one["version"]) for one in reversed(told["changes"])]


async def test_a_version_leaves_the_catalogue_of_its_queue(made: ServeSettings) -> None:
    async with running(made) as instance:
        caller = QueueCaller(instance.url)
        for job in ("day", "dump"):
            await caller.start(job)
        await caller.run_all("default", "night")
        assert (await applied(caller, "dump", "night", "other")).told["version"] == 2
        await compact_all(instance)
        assert jobs_in(instance) == [["day", "wide"], ["alarm"], ["archive", "dump", "dump@2"]]
        await purge(caller, NIGHT + 1)
        await compact_all(instance)
        assert jobs_in(instance) == [["day", "wide"], ["alarm"], ["archive", "dump@2"]]
        assert (await caller.start("dump")).told["executionId"] == NIGHT + 2
        # The job instance with the same number in another queue is still there.
        assert await caller.status(1) == "COMPLETED"
    async with running(made) as instance:
        caller = QueueCaller(instance.url)
        assert jobs_in(instance) == [["day", "wide"], ["alarm"], ["archive", "dump@2"]]
        assert (await caller.claim_of("night")).told["work"]["ref"] == "other"


async def test_a_job_leaves_its_old_queue_and_comes_back(made: ServeSettings) -> None:
    """Nothing is left in the catalogue of the old queue, which goes on without any job."""
    async with running(made) as instance:
        caller = QueueCaller(instance.url)
        await caller.start("alarm", key="first")
        await caller.run_all("urgent")
        await caller.ask("DELETE", "/batch/jobs/alarm")
        assert (await applied(caller, "alarm", "night")).told["version"] == 1
        await compact_all(instance)
        assert jobs_in(instance) == [["day", "wide"], ["alarm"], ["archive", "dump", "alarm"]]
        await purge(caller, URGENT + 1)
        await compact_all(instance)
        assert jobs_in(instance) == [["day", "wide"], [], ["archive", "dump", "alarm"]]
        assert (await caller.claim_of("urgent")).told == {"nothing": True}
        assert (await caller.start("alarm")).told["executionId"] == NIGHT + 1
        assert (await applied(caller, "alarm", "urgent")).name == "JobInOtherQueue"
    async with running(made) as instance:
        caller = QueueCaller(instance.url)
        assert jobs_in(instance) == [["day", "wide"], [], ["archive", "dump", "alarm"]]
        assert (await caller.start("alarm")).told["executionId"] == NIGHT + 2
        # What was started by a key before it left isn't started again.
        assert (await caller.start("alarm", key="first")).told["executionId"] == URGENT + 1
        await caller.run_all("night")
        await purge(caller, NIGHT + 1, NIGHT + 2)
        await caller.ask("DELETE", "/batch/jobs/alarm")
        assert (await applied(caller, "alarm", "urgent")).told == {"jobName": "alarm", "version": 1, "changed": True}
        assert await changes_of(caller, "alarm") == ("urgent", [("apply", 1), ("withdraw", 1), ("return", 1)])
        await compact_all(instance)
        assert jobs_in(instance) == [["day", "wide"], ["alarm"], ["archive", "dump"]]
        assert (await caller.start("alarm")).told["executionId"] == URGENT + 2
        shown = (await caller.ask("GET", "/batch/catalogue")).told["jobs"]
        assert sorted(one["jobName"] for one in shown) == ["alarm", "archive", "day", "dump", "wide"]
