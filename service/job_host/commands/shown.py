"""The client's commands that show tables: status, list, work, schedule and watch."""

from __future__ import annotations

import argparse
import asyncio
from datetime import datetime
from typing import Any
from urllib.parse import urlencode

from rich.console import Console
from rich.live import Live

from job_host.commands.jobs import POLL, STATUS, execution_of, rows_of
from job_host.commands.terminal import execution_table, instance_table, operation_table, schedule_table, work_table
from job_host.protocol.batch_statuses import UNFINISHED
from job_host.protocol.bounds import PAGE_SIZE
from job_host.protocol.client import Client
from job_host.protocol.moments import MOMENT

# So many moments of a job are told at most.
MOST_NEXT = 100


async def status(client: Client, given: argparse.Namespace) -> int:
    """Shows a job execution, and who did what to it. Of one that was purged the latter is left."""
    path = f"/batch/jobexecutions/{given.execution}/operations"
    operations = [one async for one in rows_of(client, path, PAGE_SIZE)]
    try:
        Console().print(execution_table(await execution_of(client, given.execution), given.utc))
    finally:
        Console().print(operation_table(operations, given.execution, given.utc))
    return 0


async def schedule(client: Client, given: argparse.Namespace) -> int:
    """Shows what comes next by the schedules of jobs, the next start first."""
    words = {"count": str(min(given.count, MOST_NEXT)), **({"jobName": given.job} if given.job else {})}
    told = (await client.read(f"/batch/schedules?{urlencode(words)}"))["jobs"]
    rows = [(datetime.strptime(one["time"], MOMENT), job, one) for job in told for one in job["next"]]
    rows.sort(key=lambda row: (row[0], row[1]["jobName"]))
    Console().print(schedule_table([(job, one) for _, job, one in rows[: given.count]], given.utc))
    return 0


async def instances(client: Client, job: str | None, count: int) -> list[dict[str, Any]]:
    given = {"page": "0", "pageSize": str(count), **({"jobName": job} if job else {})}
    return list(await client.read(f"/batch/jobinstances?{urlencode(given)}"))


async def list_instances(client: Client, given: argparse.Namespace) -> int:
    Console().print(instance_table(await instances(client, given.job, given.count), given.utc))
    return 0


async def show_work(client: Client, given: argparse.Namespace) -> int:
    told = [one async for one in rows_of(client, "/batch/work", PAGE_SIZE, withJobs="true")]
    Console().print(work_table(told, given.utc) if told else "no work item is under way")
    return 0


async def watch(client: Client, given: argparse.Namespace) -> int:
    """Shows a job execution until its end; without one, the newest job instances, until it is interrupted."""
    if given.execution is None:
        return await watch_all(client, given.utc)
    with Live(console=Console(), refresh_per_second=4) as live:
        while True:
            told = await execution_of(client, given.execution)
            live.update(execution_table(told, given.utc))
            if told["batchStatus"] not in UNFINISHED:
                return STATUS[told["batchStatus"]]
            await asyncio.sleep(POLL)


async def watch_all(client: Client, in_utc: bool) -> int:
    with Live(console=Console(), refresh_per_second=4) as live:
        while True:
            live.update(instance_table(await instances(client, None, 20), in_utc))
            await asyncio.sleep(POLL)
