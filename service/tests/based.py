"""Logs with a base, made by hand, and services whose logs are compacted under test."""

from __future__ import annotations

import asyncio
import json
from pathlib import Path
from typing import Any, cast

from instances import Caller, Instance, until
from kept import engine_of
from stand_in_batchctl import HEADER, record

from job_host.service.history import log_file
from job_host.service.keepers.compacting import Compacting
from job_host.service.keepers.embedded import LOG_NAME, EmbeddedKeeper
from job_host.service.keepers.embedded_term import Beside, EmbeddedTerm
from job_host.service.keepers.keeper import Compaction
from job_host.service.settings import ServeSettings

CATALOGUE = b'{"jobs":[]}'


def execution_row(number: int, instance: int, create: int, **more: Any) -> dict[str, Any]:
    """The row of a job execution as docs of the base's lines have it."""
    row = {"create": create, "execution": number, "instance": instance, "job": "short", "plan": {"from": "only"}}
    return {**row, "status": "STARTED", "updated": create, **more}


def work_row(number: int, execution: int, claimer: int, start: int, **more: Any) -> dict[str, Any]:
    return {
        "claimer": claimer,
        "element": "only",
        "execution": execution,
        "kind": "batchlet",
        "start": start,
        "work": number,
        **more,
    }


def over(outcome: str, end: int, ended: int) -> dict[str, Any]:
    """What the row of a work item has beside if it is over."""
    return {"outcome": outcome, "exit": outcome, "end": end, "ended": ended}


# Job instances 1 and 3, and job executions 1, 4 and 6, were purged. Job execution 5 restarted 2. 7 is of job instance 4.
ROWS = [
    execution_row(2, 2, 200, status="FAILED", end=250, updated=250),
    execution_row(3, 5, 300, status="COMPLETED", end=390, updated=390, parameters={"date": "x"}),
    execution_row(5, 2, 500),
    execution_row(7, 4, 700, stop=True, updated=720),
    work_row(1, 2, 3, 210, **over("FAILED", 250, 9)),
    work_row(4, 3, 8, 310, **over("COMPLETED", 390, 7)),
    work_row(6, 5, 4, 510, partition=2),
    work_row(7, 7, 4, 710),
    {"instance": 2, "mark": "7", "partition": 0, "step": "only"},
]
HEAD = {"count": 20, "execution": 8, "instance": 6, "work": 9, "rows": len(ROWS)}
START = b'{"do":"start","by":11,"at":%d,"job":"short"}'


def base_records(rows: list[dict[str, Any]], head: dict[str, int]) -> bytes:
    lines = [{"base": head}, *rows]
    return b"".join(record(b"b", json.dumps(line, separators=(",", ":")).encode()) for line in lines)


def based_log(behind: list[bytes], rows: list[dict[str, Any]] = ROWS, head: dict[str, int] = HEAD) -> bytes:
    """A log with a base, and with operations behind it. A catalogue that has grown stands between."""
    records = [record(b"o", line) for line in behind]
    records[1:1] = [record(b"c", b'{"jobs":[{}]}')]
    return HEADER + record(b"c", CATALOGUE) + base_records(rows, head) + b"".join(records) + b"000"


def compacting_of(instance: Instance) -> tuple[Compacting, EmbeddedTerm, Beside]:
    keeper, term = instance.service.keeper, instance.service.keeper.term
    assert isinstance(keeper, EmbeddedKeeper) and isinstance(term, EmbeddedTerm)
    return keeper._compacting, term, cast(Beside, keeper._beside)


async def compact(instance: Instance) -> Compaction:
    """Compacts the log of a service that leads."""
    compacting, term, beside = compacting_of(instance)
    return await compacting.compact(term, beside)


def fail(made: ServeSettings, *words: str) -> None:
    """Lets the stand-in's compactions fail, or last."""
    made.data.mkdir(exist_ok=True)
    (made.data / f"{LOG_NAME}.fault").write_text(" ".join(words))


def behind(path: Path) -> list[bytes]:
    """The operations behind the base of a log, or all of them."""
    return [record.line for record in log_file.records(path) if record.is_operation]


async def until_compacting(instance: Instance) -> None:
    """Returns after the co-process has ended, and before another one goes on."""

    async def has_ended() -> bool:
        return engine_of(instance).process.has_ended

    await until(has_ended)
    await asyncio.sleep(0.1)


async def make_history(url: str) -> None:
    """Job instance 1 is purged, 2 failed and is restarted, 3 has two busy work items of `two`, and 4 waits: 14 operations."""
    one, two = Caller(url, "one"), Caller(url, "two")
    for number in (1, 2):
        await one.start("short", date=f"day-{number}")
        await one.claim()
        await one.finish(number, ("COMPLETED", "FAILED")[number - 1], log=f"the log of {number}")
    await one.ask("DELETE", "/batch/jobinstances/1")
    await one.start("wide", key="wide")
    for _ in range(2):
        await two.claim()
    await two.finish(3, exit="OK")
    await two.claim()
    await one.start("chunky")
    await one.change(2, "restart", key="again")


async def lists(url: str) -> list[Any]:
    """What the service tells of its history, but for what changes by itself."""
    caller, told = Caller(url, "one"), list[Any]()
    for path in ("jobexecutions", "jobexecutions?mostRecent=true", "jobexecutions?search=day-2", "jobinstances", "open"):
        told.append((await caller.ask("GET", f"/batch/{path}")).told)
    for path in ("/batch/work", "/batch/jobexecutions/3/workitems"):
        rows = (await caller.ask("GET", path)).told
        told.append([{name: value for name, value in row.items() if name != "leaseRemaining"} for row in rows])
    return told
