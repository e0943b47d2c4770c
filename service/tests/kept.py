"""What tests of an engine that is kept have in common."""

from __future__ import annotations

from typing import Any

from instances import Caller, Instance, until

from job_host.service.history.engine import Engine


def engine_of(instance: Instance) -> Engine:
    assert instance.service.keeper.engine is not None
    return instance.service.keeper.engine


async def until_noted(instance: Instance) -> None:
    """Returns after all that was answered is noted in the file beside the log."""
    keeper: Any = instance.service.keeper
    await keeper._beside.do(lambda store: None)


async def executions(caller: Caller, words: str = "") -> list[int]:
    told = (await caller.ask("GET", "/batch/jobexecutions" + words)).told["jobExecutions"]
    return [one["executionId"] for one in told]


async def until_epoch(instance: Instance, epoch: int) -> None:
    async def leads() -> bool:
        return (instance.service.keeper.role, instance.service.keeper.epoch) == ("leader", epoch)

    await until(leads)


async def make_some(url: str) -> None:
    """A work item of a client is busy, others are over, and a job instance is purged: 10 operations."""
    caller = Caller(url, "one")
    for job in ("short", "short", "wide"):
        await caller.start(job, date=f"day-{job}")
    for work, outcome in ((1, "COMPLETED"), (2, "FAILED")):
        await caller.claim()
        await caller.finish(work, outcome)
    await caller.ask("DELETE", "/batch/jobinstances/1")
    await Caller(url, "two").claim()
    await caller.change(2, "restart")
