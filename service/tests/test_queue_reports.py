"""Many reports of a worker in one request, over several queues: each goes to the queue of its work item."""

from __future__ import annotations

import asyncio
from collections.abc import AsyncIterator
from contextlib import asynccontextmanager
from pathlib import Path
from typing import Any

import pytest
from instances import Answer, Instance, running, until
from queued import NIGHT, URGENT, QueueCaller, queued_settings, write_jobs

from job_host.protocol.client import Address, Client, Refused
from job_host.worker.reports import Reports
from job_host.worker.worker import Worker, WorkOf

PATH = "/batch/work/reports"
DONE: dict[str, Any] = {"done": True}


@pytest.fixture
async def service(tmp_path: Path, has_log: None) -> AsyncIterator[Instance]:
    async with running(queued_settings(tmp_path, write_jobs(tmp_path / "jobs"))) as instance:
        yield instance


async def claimed(caller: QueueCaller, *jobs: str) -> list[int]:
    """Starts these jobs, and claims a work item of each. Returns their numbers."""
    works = []
    for job in jobs:
        await caller.start(job)
        works.append((await caller.claim_of("night", "urgent", "default")).told["work"]["work"])
    return works


async def report(caller: QueueCaller, *reports: Any) -> Answer:
    return await caller.ask("POST", PATH, {"reports": list(reports)})


def finish(work: int, **more: Any) -> dict[str, Any]:
    return {"action": "finish", "work": work, "outcome": "COMPLETED", **more}


def told_of(answer: Answer) -> list[Any]:
    """The status of each report, with its body, or with the name of its problem."""
    assert answer.status == 200
    return [(one["status"], one["body"].get("title", one["body"])) for one in answer.told["reports"]]


def operations_of(answer: Answer) -> list[Any]:
    return [one.get("operations") for one in answer.told["reports"]]


async def test_each_report_goes_to_the_queue_of_its_work_item(service: Instance) -> None:
    caller = QueueCaller(service.url)
    assert await claimed(caller, "day", "alarm", "dump") == [1, URGENT + 1, NIGHT + 1]
    answer = await report(
        caller,
        {"action": "heartbeat", "work": NIGHT + 1, "log": "dumps"},
        finish(NIGHT + 1, key="a", log="dumped", exit="ALL"),
        finish(URGENT + 1, key="a"),
        finish(1, key="a"),
        finish(2),
        finish(5 * URGENT + 1),
        {"action": "finish", "outcome": "COMPLETED"},
        {"action": "checkpoint", "work": URGENT + 1, "data": "1"},
    )
    lease = {"stop": False, "lease": 10.0}
    assert told_of(answer) == [
        (200, lease),
        (200, DONE),
        (200, DONE),
        (200, DONE),
        (404, "NoSuchWork"),
        (404, "NoSuchWork"),
        (400, "BadRequest"),
        (409, "WorkNotRunning"),
    ]
    # Each has seen what one of its own would have seen, and the answer has seen all of it.
    assert operations_of(answer) == ["0,0,2", "0,0,3", "0,3", "3", "3", "3", None, "0,3"]
    assert (answer.seen, answer.operations) == ("3,3,3", None)
    for execution in (1, URGENT + 1, NIGHT + 1):
        assert await caller.status(execution) == "COMPLETED"
    assert (await caller.ask("GET", f"/batch/jobexecutions/{NIGHT + 1}")).told["stepExecutions"][0]["exitStatus"] == "ALL"
    assert [one["log"] for one in (await caller.ask("GET", f"/batch/jobexecutions/{NIGHT + 1}/joblogs")).told] == ["dumped"]
    # A key is a queue's, and gives the first reply again, in a list and alone.
    again = await report(caller, finish(NIGHT + 1, key="a", exit="ALL"), finish(URGENT + 1, key="a"), finish(2, key="a"))
    assert told_of(again) == [(200, DONE), (200, DONE), (422, "RequestKeyReused")]
    alone = await caller.ask("PUT", f"/batch/work/{URGENT + 1}?action=finish", {"outcome": "COMPLETED"}, "a")
    assert (alone.told, alone.seen) == (DONE, "0,3")
    assert (await report(caller)).seen == "0"


async def test_a_queue_that_begins_again_holds_up_no_report_of_another(
    service: Instance, monkeypatch: pytest.MonkeyPatch
) -> None:
    caller = QueueCaller(service.url)
    await claimed(caller, "day", "alarm", "dump")
    with monkeypatch.context() as patch:
        patch.setattr(service.service.queues.default.keeper, "term", None)
        answer = await report(caller, finish(1, key="a"), finish(NIGHT + 1, key="a"))
        assert told_of(answer) == [(503, "Starting"), (200, DONE)] and operations_of(answer) == [None, "0,0,3"]
        # If none of them is led here, all of it is for another instance, or for later.
        refused = await report(caller, finish(1, key="a"), finish(2))
        assert (refused.status, refused.name) == (503, "Starting") and (await report(caller)).name == "Starting"
        async with Client(Address((service.url,), "tester")) as client:
            reports = Reports(client.operate)
            sent = [asyncio.ensure_future(reports.send(work, "finish", {"outcome": "COMPLETED"})) for work in (1, URGENT + 1)]
            assert await sent[1] == DONE and not sent[0].done()
            patch.undo()
            assert await sent[0] == DONE
    assert await caller.status(1) == await caller.status(URGENT + 1) == await caller.status(NIGHT + 1) == "COMPLETED"


async def test_reports_of_several_queues_are_refused_one_by_one(service: Instance) -> None:
    caller = QueueCaller(service.url, "w")
    works = await claimed(caller, "day", "alarm", "dump")
    async with Client(Address((service.url,), "w")) as client:
        reports = Reports(client.operate)
        numbers = [*works, NIGHT + 7]
        sent = (reports.send(work, "finish", {"outcome": "COMPLETED", "log": "all"}) for work in numbers)
        told = await asyncio.gather(*sent, return_exceptions=True)
        assert told[:3] == [DONE] * 3 and isinstance(told[3], Refused) and told[3].name == "NoSuchWork"
        # What the worker saw in the list it sees in each read behind it.
        assert (await client.read("/batch/jobexecutions"))["total"] == 3
        assert await calls_of(caller, "POST", PATH) == 1


async def calls_of(caller: QueueCaller, method: str, route: str) -> int:
    """How often a route was answered well."""
    name = f'jobhost_requests_total{{method="{method}",route="{route}",status="200"}} '
    lines = (await caller.ask("GET", "/metrics")).told.splitlines()
    return sum(int(float(line.removeprefix(name))) for line in lines if line.startswith(name))


class Together(Reports):
    """Reports of a worker that come one soon after another: they go together as soon as there are so many."""

    def __init__(self, client: Client, count: int) -> None:
        super().__init__(client.operate)
        self._count = count

    def _hand_over(self) -> None:
        if len(self._waiting) < self._count:
            asyncio.get_running_loop().call_later(0.02, self._hand_over)
        else:
            super()._hand_over()


@asynccontextmanager
async def worker_of(url: str, artifacts: Path, of: WorkOf, count: int) -> AsyncIterator[Worker]:
    """A worker in this process, which reports so many work items together."""
    async with Client(Address((url,), "w")) as client:
        worker = Worker(client, artifacts, 4, of=of)
        worker._reports = Together(client, count)
        working = asyncio.ensure_future(worker.run())
        try:
            yield worker
        finally:
            worker.ending.set()
            await asyncio.wait_for(working, 30)


async def test_a_worker_of_several_queues_reports_in_a_list(tmp_path: Path, has_log: None) -> None:
    jobs, artifacts = write_jobs(tmp_path / "jobs"), tmp_path / "artifacts"
    artifacts.mkdir()
    for name in ("alarm", "dump", "archive", "day"):
        (artifacts / name).write_text(f"#!/bin/sh\necho {name} ran\n")
        (artifacts / name).chmod(0o755)
    async with running(queued_settings(tmp_path, jobs, {"night": {"labels": ["tape"]}})) as service:
        caller = QueueCaller(service.url)
        made = [(await caller.start(job)).told["executionId"] for job in ("dump", "alarm", "archive", "day")]
        assert made == [NIGHT + 1, URGENT + 1, NIGHT + 2, 1]
        async with worker_of(service.url, artifacts, WorkOf(("night", "urgent"), ("tape", "disk")), 3):

            async def are_over() -> bool:
                return [await caller.status(one) for one in made[:3]] == ["COMPLETED"] * 3

            await until(are_over, 60)
        assert await calls_of(caller, "POST", PATH) == 1
        assert await calls_of(caller, "PUT", "/batch/work/{id}") == 0
        for execution, name in zip(made, ("dump", "alarm", "archive")):
            logs = (await caller.ask("GET", f"/batch/jobexecutions/{execution}/joblogs")).told
            assert [one["log"] for one in logs] == [f"{name} ran\n"]
        # Nobody asked for the work of the default queue.
        assert await caller.status(1) == "STARTING"
