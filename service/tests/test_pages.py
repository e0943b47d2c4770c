"""Lists that grow with the job executions of a job instance, with partitions or with workers come in pages."""

from __future__ import annotations

import asyncio
import json
import time
from collections.abc import Callable
from pathlib import Path
from typing import Any, cast

import pytest
from conftest import SHORT, Say, batchlet
from instances import Caller, running

from job_host.service.history.engine import Engine
from job_host.service.history.execution_index import ExecutionIndex
from job_host.service.pages import Page

from job_host.service.settings import Bounds, ServeSettings

Make = Callable[..., ServeSettings]

MANY = {"id": "many", "elements": [batchlet("first", "print", partitions=64, next="last"), batchlet("last", "print")]}
EXECUTIONS = "/batch/jobinstances/1/jobexecutions"


@pytest.fixture
def catalogue(tmp_path: Path) -> Path:
    path = tmp_path / "catalogue.json"
    path.write_text(json.dumps({"jobs": [SHORT, MANY]}))
    return path


async def rows(caller: Caller, path: str, name: str) -> list[Any]:
    """One member of each row of a list."""
    answer = await caller.ask("GET", path)
    assert answer.status == 200, answer.told
    return [row[name] for row in answer.told]


async def restart_often(caller: Caller, times: int) -> None:
    await caller.start("short", date="2026-11-29")
    for number in range(1, times + 1):
        await caller.claim()
        await caller.finish(number, "FAILED")
        await caller.change(number, "restart")


async def test_the_job_executions_of_a_job_instance(either: Make) -> None:
    async with running(either()) as instance:
        caller = Caller(instance.url)
        await restart_often(caller, 49)
        whole = (await caller.ask("GET", EXECUTIONS)).told
        assert [one["executionId"] for one in whole] == list(range(50, 0, -1))
        assert whole == [(await caller.ask("GET", f"/batch/jobexecutions/{number}")).told for number in range(50, 0, -1)]
        for number in range(50, 111):
            await caller.claim()
            await caller.finish(number, "FAILED")
            await caller.change(number, "restart")
        assert await rows(caller, EXECUTIONS, "executionId") == list(range(111, 61, -1))
        assert await rows(caller, EXECUTIONS + "?page=1", "executionId") == list(range(61, 11, -1))
        assert await rows(caller, EXECUTIONS + "?page=2", "executionId") == list(range(11, 0, -1))
        assert await rows(caller, EXECUTIONS + "?page=3", "executionId") == []
        assert await rows(caller, EXECUTIONS + "?pageSize=100&page=1", "executionId") == list(range(11, 0, -1))
        for words in ("?pageSize=0", "?pageSize=101", "?page=x", "?page=20001", "?page=-1"):
            assert (await caller.ask("GET", EXECUTIONS + words)).name == "BadRequest"


async def test_a_job_instance_has_links_to_its_newest_job_executions(settings: Make) -> None:
    async with running(settings()) as instance:
        caller = Caller(instance.url)
        await restart_often(caller, 60)
        one = (await caller.ask("GET", "/batch/jobinstances/1")).told
        linked = [link["href"] for link in one["_links"] if link["rel"] == "job execution"]
        assert linked == [f"/batch/jobexecutions/{number}" for number in range(61, 11, -1)]
        assert (one["executionId"], one["batchStatus"]) == (61, "STARTING")
        assert (await caller.ask("GET", "/batch/jobinstances")).told == [one]
        assert (await caller.ask("GET", "/batch/jobexecutions/5/jobinstance")).told == one
        assert (await caller.ask("GET", "/batch/catalogue")).told["jobs"][0]["newest"] == one


async def test_numbers_that_are_no_job_instance_or_a_purged_one(either: Make) -> None:
    """Each job instance has its own job executions, also after a new start."""
    made = either()
    async with running(made) as instance:
        caller = Caller(instance.url)
        for number in (1, 2, 3):
            await caller.start("short", number=str(number))
            await caller.claim()
            await caller.finish(number, "FAILED")
        for number in (2, 1, 4):
            await caller.change(number, "restart")
            await caller.claim()
            await caller.finish((await caller.ask("GET", "/batch/work")).told[0]["work"], "FAILED")
        await caller.ask("DELETE", "/batch/jobinstances/3")
        assert (await caller.ask("PUT", "/batch/jobinstances/1?action=restart")).told["executionId"] == 7
    async with running(made) as instance:
        caller = Caller(instance.url)
        assert [await rows(caller, f"/batch/jobinstances/{number}/jobexecutions", "executionId") for number in (1, 2)] == [
            [7, 5, 1],
            [6, 4, 2],
        ]
        for number in (0, 3, 4, 2**64 - 1):
            for path in ("", "/jobexecutions"):
                answer = await caller.ask("GET", f"/batch/jobinstances/{number}{path}")
                assert (answer.status, answer.name) == (404, "NoSuchJobInstanceException")
            answer = await caller.ask("PUT", f"/batch/jobinstances/{number}?action=restart")
            assert answer.name == "NoSuchJobInstanceException"


async def claim_many(caller: Caller, first: int = 1) -> None:
    """Claims all partitions of the job's first step."""
    await caller.start("many")
    for number in range(first, first + 64):
        assert (await caller.claim()).told["work"]["work"] == number


async def test_busy_work_items(settings: Make) -> None:
    async with running(settings()) as instance:
        caller, path = Caller(instance.url), "/batch/work"
        await claim_many(caller)
        await caller.start("short")
        assert (await caller.claim()).told["work"]["work"] == 65
        assert await rows(caller, path, "work") == list(range(1, 51))
        assert await rows(caller, path + "?page=1", "work") == list(range(51, 66))
        assert await rows(caller, path + "?pageSize=60&page=1&withJobs=true", "jobName") == ["many"] * 4 + ["short"]
        assert await rows(caller, path + "?executionId=2", "work") == [65]
        assert await rows(caller, path + "?executionId=1&pageSize=1000", "work") == list(range(1, 65))
        assert await rows(caller, path + "?work=7", "partition") == [6]
        assert await rows(caller, path + "?work=99", "work") == await rows(caller, path + "?work=7&executionId=2", "work") == []
        for words in ("?pageSize=1001", "?pageSize=0", "?work=x", "?executionId=-1"):
            assert (await caller.ask("GET", path + words)).name == "BadRequest"


async def finish_many(caller: Caller, count: int = 65) -> None:
    """Makes a job execution with so many work items, each with a log."""
    await claim_many(caller)
    for number in range(1, count + 1):
        if number == 65:
            await caller.claim()
        await caller.finish(number, "FAILED" if number == 65 else "COMPLETED", exit=f"{number} PAGES", log=f"log {number}")


async def test_work_items_and_logs_of_a_job_execution(either: Make) -> None:
    async with running(either()) as instance:
        caller, path = Caller(instance.url), "/batch/jobexecutions/1"
        await finish_many(caller)
        for name in ("workitems", "joblogs"):
            assert await rows(caller, f"{path}/{name}", "work") == list(range(1, 51))
            assert await rows(caller, f"{path}/{name}?page=1", "work") == list(range(51, 66))
            assert await rows(caller, f"{path}/{name}?pageSize=30&page=2", "work") == list(range(61, 66))
            assert await rows(caller, f"{path}/{name}?page=2", "work") == []
        assert len(await rows(caller, f"{path}/workitems?pageSize=1000", "work")) == 65
        assert await rows(caller, f"{path}/joblogs?stepName=last", "log") == ["log 65"]
        assert await rows(caller, f"{path}/joblogs?stepName=first&page=1", "work") == list(range(51, 65))
        assert await rows(caller, f"{path}/joblogs?stepName=%00", "work") == []
        text = (await caller.ask("GET", f"{path}/joblogs?type=text&pageSize=2&page=1")).told
        assert text == "# work item 3, first\nlog 3\n# work item 4, first\nlog 4\n"
        steps = (await caller.ask("GET", f"{path}/stepexecutions")).told
        assert [step["stepName"] for step in steps] == ["first", "last"]
        assert (await caller.ask("GET", f"{path}/stepexecutions?pageSize=1&page=1")).told == steps[1:]
        assert (await caller.ask("GET", path)).told["stepExecutions"] == steps
        for wrong in ("joblogs?pageSize=101", "workitems?pageSize=1001", "stepexecutions?pageSize=1001", "joblogs?page=x"):
            assert (await caller.ask("GET", f"{path}/{wrong}")).name == "BadRequest"


def test_the_newest_job_executions_of_many_are_found_at_once() -> None:
    index = ExecutionIndex(cast(Engine, None))
    index.note_made(1, None, 1)
    for number in range(2, 100_001):
        index.note_made(number, number - 1, number)
    begun = time.process_time()
    for _ in range(1_000):
        assert index.of_instance(1, Page(50, 2)) == [99_950, 99_949]
    assert time.process_time() - begun < 1.0
    assert index.of_instance(1, Page(99_998, 50)) == [2, 1]


async def test_other_bounds_of_a_page(settings: Make) -> None:
    async with running(settings(bounds=Bounds(page_size=3, page_of_large_rows=2))) as instance:
        caller = Caller(instance.url)
        await caller.start("short")
        for path, most in ((EXECUTIONS, 2), ("/batch/jobexecutions", 3), ("/batch/work", 3)):
            told = [(await caller.ask("GET", f"{path}?pageSize={size}")).status for size in (most, most + 1)]
            assert told == [200, 400], path


async def test_commands_show_all_pages(settings: Make, say: Say, monkeypatch: pytest.MonkeyPatch) -> None:
    monkeypatch.setattr("job_host.commands.shown.PAGE_SIZE", 20)
    monkeypatch.setattr("job_host.commands.jobs.PAGE_OF_LARGE_ROWS", 13)
    monkeypatch.setenv("COLUMNS", "200")
    async with running(settings()) as instance:
        await claim_many(Caller(instance.url))
        status, told = await say(instance.url, "work")
        assert (status, told.count(" many ")) == (0, 64)
        await asyncio.gather(*(Caller(instance.url).finish(number, log=f"log {number}") for number in range(1, 65)))
        await Caller(instance.url).claim()
        await Caller(instance.url).finish(65, "FAILED", log="no paper")
        status, told = await say(instance.url, "log", "1")
        assert [line for line in told.splitlines() if not line.startswith("#")] == [f"log {one}" for one in range(1, 65)] + [
            "no paper"
        ]
        status, told = await say(instance.url, "failed")
        assert told.splitlines() == [
            "many: job execution 1 is FAILED, exit status FAILED",
            "  step last: exit status FAILED",
            "    no paper",
            "  jobhost restart 1",
        ]
