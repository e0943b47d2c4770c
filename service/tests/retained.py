"""Services with retention under test: by a clock that tests set, and with rounds that follow each other soon."""

from __future__ import annotations

import json
from collections.abc import AsyncIterator
from contextlib import asynccontextmanager
from pathlib import Path
from typing import Any

from instances import Caller, Instance, until

from job_host.archive.lines import read_line
from job_host.archive.moments import DAY
from job_host.protocol.moments import moment
from job_host.service.retention.rounds import Retention
from job_host.service.settings import ServeSettings
from job_host.service.terms import moments

STEP: dict[str, Any] = {
    "stepExecutionId": 1,
    "stepName": "load",
    "batchStatus": "FAILED",
    "exitStatus": "FAILED",
    "metrics": {"READ_COUNT": 3},
}


class Later:
    """A clock that is so many days ahead of the machine's."""

    def __init__(self, days: float) -> None:
        self.days = days

    def __call__(self) -> int:
        return moments.clock() + int(self.days * DAY)


def with_clock(settings: ServeSettings, clock: Later) -> Instance:
    """A service whose retention goes by this clock. Operations have the machine's."""
    instance = Instance(settings)
    service = instance.service
    service.retention = Retention(service.keeper, settings, service.purging, clock)
    return instance


@asynccontextmanager
async def retaining(settings: ServeSettings, clock: Later) -> AsyncIterator[Instance]:
    instance = with_clock(settings, clock)
    await instance.start()
    try:
        await instance.until_role("leader")
        yield instance
    finally:
        await instance.stop()


async def ended(caller: Caller, job: str, outcome: str, **parameters: str) -> int:
    """Starts a job of one step, whose work item ends so. Returns its job execution."""
    begun = await caller.start(job, **parameters)
    work = (await caller.claim()).told["work"]["work"]
    if outcome == "STOPPED":
        assert (await caller.change(begun.told["executionId"], "stop")).status == 200
    assert (await caller.finish(work, outcome, log=f"the log of {work}")).status == 200
    return int(begun.told["executionId"])


async def purged_by(caller: Caller, executions: list[int]) -> dict[int, str]:
    """Who purged which of these job executions."""
    found: dict[int, str] = {}
    for one in executions:
        told = (await caller.ask("GET", f"/batch/jobexecutions/{one}/operations")).told
        found |= {one: row["client"] for row in told if row["action"] == "purge"}
    return found


async def until_round(instance: Instance) -> None:
    """Returns after a round has ended that began after this call."""
    retention: Any = instance.service.retention
    ends = 0

    async def has_ended() -> bool:
        return bool(retention.rounds >= ends)

    # The round that is under way may have begun before.
    ends = retention.rounds + 2
    await until(has_ended)


def archived(folder: Path) -> list[dict[str, Any]]:
    """The records of an archive, each by its own check."""
    lines = [line for path in sorted(folder.glob("*.jsonl")) for line in path.read_bytes().splitlines(keepends=True)]
    records = [read_line(line) for line in lines]
    assert all(json.loads(line) for line, record in zip(lines, records) if record is not None)
    return [record for record in records if record is not None]


def execution(number: int, instance: int, job: str, status: str, created: int, **parameters: str) -> dict[str, Any]:
    times = {"createTime": moment(created), "startTime": moment(created + 1), "endTime": moment(created + 2)}
    step = {**STEP, "executionId": number, "startTime": moment(created + 1), "endTime": moment(created + 2)}
    started = {"operation": 1, "action": "start", "client": "ann", "time": moment(created), "made": number, "work": None}
    return {
        **{"jobName": job, "executionId": number, "instanceId": instance, "batchStatus": status, "exitStatus": f"{job} ended"},
        **times,
        **{"jobParameters": parameters, "stepExecutions": [step], "operations": [started], "workItems": []},
        "logs": [{"work": 1, "stepName": "load", "partition": None, "log": f"the log of {number}"}],
    }


def record(archived: int, *executions: dict[str, Any], history: str = "one", client: str = "") -> dict[str, Any]:
    head = {"archivedTime": moment(archived), "archivedFor": client, "history": history}
    return {**head, "jobInstance": {"instanceId": executions[0]["instanceId"]}, "jobExecutions": list(executions)}
