"""What queries tell of a job instance, as the archive keeps it."""

from __future__ import annotations

from collections.abc import AsyncIterator, Awaitable, Callable, Sequence
from typing import Any, TypeVar

from job_host.protocol.lines import query, read
from job_host.protocol.moments import moment
from job_host.service.keepers.keeper import Keeper
from job_host.service.keepers.open_items import causes_for
from job_host.service.pages import Page
from job_host.service.problems import Problem, of_refusal
from job_host.service.routes import views
from job_host.service.routes.lists import work_item
from job_host.service.routes.open_list import causes, operation
from job_host.service.terms.calls import LogPage

T = TypeVar("T")

# So many rows are read at a time. A row of logs may have 64 KiB.
ROWS, LOG_ROWS = 1_000, 100
ASKS = ("job_execution", "parameters", "step_executions")

Told = dict[str, Any]


async def pages_of(read_page: Callable[[Page], Awaitable[Sequence[T]]], rows: int) -> AsyncIterator[T]:
    """The rows of a list, page by page."""
    start = 0
    while True:
        some = await read_page(Page(start, rows))
        for row in some:
            yield row
        if len(some) < rows:
            return
        start += rows


async def record_of(keeper: Keeper, instance: int, client: str, now: int) -> Told:
    """All that queries tell of a job instance, for the archive. Raises the problem of one that isn't there.

    Each part is kept when it is told. They are of one state only if nothing changes meanwhile.
    """
    if not keeper.reading().executions.has_instance(instance):
        raise Problem("NoSuchJobInstanceException", 404)
    numbers = keeper.reading().executions.of_instance(instance, Page(0, keeper.reading().executions.last))
    told = [await execution_record(keeper, one) for one in numbers]
    head = {"archivedTime": moment(now), "archivedFor": client, "history": keeper.history}
    newest = {
        name: told[0][name] for name in ("jobName", "version", "instanceId", "batchStatus", "exitStatus") if name in told[0]
    }
    return {**head, "jobInstance": newest, "jobExecutions": told}


async def execution_record(keeper: Keeper, execution: int) -> Told:
    answers = await keeper.ask([query(ask, execution=execution) for ask in ASKS])
    replies = [read(reply) for reply in answers.replies]
    problem = of_refusal(replies[0], answers.seen)
    if problem is not None:
        raise problem
    row, parameters, steps = [reply[ask] for reply, ask in zip(replies, ASKS, strict=True)]
    shown = views.job_execution(keeper.names.told(row), parameters, steps)
    del shown["_links"]
    why, _ = await causes_for(keeper, execution, 0)
    return {
        **shown,
        **causes(why),
        "operations": [one async for one in pages_of(lambda page: operations(keeper, execution, page), ROWS)],
        "workItems": [one async for one in pages_of(lambda page: work_items(keeper, execution, page), ROWS)],
        "logs": [one async for one in pages_of(lambda page: logs(keeper, execution, page), LOG_ROWS)],
    }


async def operations(keeper: Keeper, execution: int, page: Page) -> list[Told]:
    found, _ = await keeper.actions(execution, page, 0)
    return [operation(action, origin) for action, origin in found]


async def work_items(keeper: Keeper, execution: int, page: Page) -> list[Told]:
    """Those that the service knows: the last ones that ended."""
    items, _ = await keeper.work_items(execution, page, 0)
    return [work_item(ended, by) for ended, by in items]


async def logs(keeper: Keeper, execution: int, page: Page) -> list[Told]:
    found = await keeper.logs(LogPage(execution, None, page))
    return [{"work": one.work, "stepName": one.element, "partition": one.partition, "log": one.text} for one in found]
