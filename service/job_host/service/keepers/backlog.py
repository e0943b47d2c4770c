"""The backlog of an instance, for whoever starts and ends workers by it."""

from __future__ import annotations

from job_host.service.history.backlog import Backlog, backlog_of
from job_host.service.history.open_index import FEW
from job_host.service.keepers.keeper import Keeper


async def backlog(keeper: Keeper) -> Backlog:
    """What is ready and busy in one state. All that it saw is kept."""
    # Meanwhile operations may come.
    await keeper.reading().open.settle(FEW)
    async with keeper.steps(0) as steps:
        await steps.engine.open.settle()
        found = backlog_of(steps.engine)
    return found
