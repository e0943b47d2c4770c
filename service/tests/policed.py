"""Services whose leader goes by policies, by a clock that tests set, and with rounds that follow each other soon."""

from __future__ import annotations

import json
from collections.abc import AsyncIterator, Callable
from contextlib import asynccontextmanager
from pathlib import Path
from typing import Any

import pytest
from instances import SHORT_PAUSE, Caller, Instance, until
from job_versions import JSL, job_file

from job_host.service.policies import rounds
from job_host.service.policies.leading import Policies
from job_host.service.policies.rounds import Rounds
from job_host.service.settings import ServeSettings
from job_host.service.terms.moments import clock

TWO = """<step id="first" next="last"><batchlet ref="a"/></step><step id="last"><batchlet ref="b"/></step>
"""


class Ahead:
    """A clock that is so many seconds ahead of the machine's."""

    def __init__(self, seconds: float = 0.0) -> None:
        self.seconds = seconds

    def __call__(self) -> int:
        return clock() + int(self.seconds * 1_000)


def hasten(monkeypatch: pytest.MonkeyPatch) -> None:
    """Rounds follow each other soon."""
    monkeypatch.setattr(rounds, "LOOK_SECONDS", 0.02)
    monkeypatch.setattr(rounds, "RETRY_SECONDS", 0.02)


def with_policies(folder: Path, settings: Any, job: str = "nightly", file: str | None = None) -> Path:
    """A folder with a job, and its settings."""
    folder.mkdir(exist_ok=True)
    (folder / f"{job}.xml").write_text(job_file("one", job) if file is None else JSL % (job, file))
    (folder / f"{job}.settings.json").write_text(json.dumps(settings))
    return folder


@asynccontextmanager
async def policing(settings: ServeSettings, clock: Callable[[], int], role: str = "leader") -> AsyncIterator[Instance]:
    """A service whose policies go by this clock. Operations have the machine's."""
    instance = Instance(settings)
    instance.service.policies = Policies(instance.service.keeper, settings, instance.service.receiver, clock)
    await instance.start()
    try:
        await instance.until_role(role)
        yield instance
    finally:
        await instance.stop()


async def until_round(of: Rounds) -> None:
    """Returns after a round has ended that began after this call."""
    # The round that is under way may have begun before.
    ends = of.count + 2

    async def has_ended() -> bool:
        return of.count >= ends

    await until(has_ended, longest=SHORT_PAUSE)


async def failed(caller: Caller, exit_status: str = "", outcome: str = "FAILED", day: str = "monday") -> int:
    """Starts the job, whose work item ends so. Returns the job execution."""
    execution = int((await caller.start("nightly", day=day)).told["executionId"])
    await end_next(caller, exit_status, outcome)
    return execution


async def end_next(caller: Caller, exit_status: str = "", outcome: str = "FAILED") -> int:
    """Claims the next work item, which ends so. Returns its job execution."""
    work = (await caller.claim()).told["work"]
    more = {"exit": exit_status} if exit_status else {}
    assert (await caller.finish(work["work"], outcome, **more)).status == 200
    return int(work["executionId"] if "executionId" in work else work["execution"])


async def done_to(caller: Caller, execution: int) -> list[tuple[str, str | None]]:
    """Who did what to a job execution, the oldest first."""
    told = (await caller.ask("GET", f"/batch/jobexecutions/{execution}/operations")).told
    return [(one["action"], one["client"]) for one in reversed(told)]


async def executions_of(caller: Caller, instance: int = 1) -> list[int]:
    told = (await caller.ask("GET", f"/batch/jobinstances/{instance}/jobexecutions")).told
    return sorted(one["executionId"] for one in told)
