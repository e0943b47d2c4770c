"""What a list says of its job executions beside their own rows: which steps failed, and how long their jobs took before."""

from __future__ import annotations

import statistics
from collections.abc import Mapping, Sequence
from dataclasses import dataclass
from typing import Any

from job_host.protocol.lines import query, read
from job_host.service.history.causes import FAILED
from job_host.service.history.open_index import FEW
from job_host.service.keepers.keeper import Keeper
from job_host.service.keepers.open_items import causes_in

Told = Mapping[str, Any]


@dataclass(frozen=True)
class Past:
    """How long the last job executions of a job that were COMPLETED took, in seconds."""

    median: float
    longest: float


@dataclass(frozen=True)
class Details:
    """The steps and decisions by which a job execution is FAILED, and its job's past if it has one."""

    failed: Sequence[str]
    past: Past | None


async def details_of(keeper: Keeper, executions: Sequence[Told], at_least: int) -> list[Details]:
    """The details of job executions, as the repository tells these. Of one that was purged meanwhile nothing has failed."""
    failed = [one for one in executions if one["status"] == "FAILED"]
    # Meanwhile operations may come.
    await keeper.reading().open.settle(FEW)
    async with keeper.steps(at_least) as reads:
        engine = reads.engine
        await engine.open.settle()
        replies = await reads.ask([query("step_executions", execution=one["execution"]) for one in failed])
        pasts = {job: past_of(engine.open.past(job)) for job in {one["job"] for one in executions}}
    steps = {one["execution"]: read(reply).get("step_executions", ()) for one, reply in zip(failed, replies, strict=True)}

    def names(one: Told) -> list[str]:
        causes = causes_in(engine, one, steps[one["execution"]]) if one["execution"] in steps else []
        return list(dict.fromkeys(cause.element for cause in causes if cause.outcome in FAILED))

    return [Details(names(one), pasts[one["job"]]) for one in executions]


def past_of(took: Sequence[int]) -> Past | None:
    return Past(statistics.median(took) / 1000, max(took) / 1000) if took else None
