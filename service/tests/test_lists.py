"""Reads for people: job executions by status with search, the catalogue, work items, the history; and the stream of events."""

from __future__ import annotations

import asyncio
import json
from collections.abc import Callable
from pathlib import Path
from typing import Any, cast

import aiohttp
import pytest
from conftest import JOBS
from instances import Caller, Instance, running

from job_host.service.history.answers import Answers
from job_host.service.history.engine import Engine
from job_host.service.history.execution_index import ExecutionIndex, Wanted
from job_host.service.history.work_items import Ended, EndedWork, Held
from job_host.service.settings import Bounds, HistoryBounds, ServeSettings

Make = Callable[..., ServeSettings]


async def numbers(caller: Caller, words: str = "") -> list[int]:
    told = (await caller.ask("GET", "/batch/jobexecutions" + words)).told
    return [one["executionId"] for one in told["jobExecutions"]]


async def fail(caller: Caller) -> None:
    """Claims a work item, and says that it failed."""
    work = (await caller.claim()).told["work"]["work"]
    await caller.finish(work, "FAILED", exit="DISK FULL")


async def test_job_executions_by_status_newest_first(settings: Make) -> None:
    async with running(settings()) as instance:
        caller = Caller(instance.url)
        for job in ("short", "nightly", "short"):
            await caller.start(job)
        await fail(caller)
        await caller.change(3, "stop")
        await caller.change(1, "restart")
        assert await numbers(caller) == [4, 3, 2, 1]
        assert await numbers(caller, "?status=FAILED") == [1]
        assert await numbers(caller, "?status=STARTING") == [4, 2]
        assert await numbers(caller, "?status=STOPPED&status=FAILED") == [3, 1]
        assert await numbers(caller, "?jobName=short") == [4, 3, 1]
        assert await numbers(caller, "?jobName=none") == []
        told = (await caller.ask("GET", "/batch/jobexecutions?status=STARTING&pageSize=1")).told
        assert (told["more"], told["total"], told["statusCounts"]) == (True, 2, {"FAILED": 1, "STARTING": 2, "STOPPED": 1})
        told = (await caller.ask("GET", "/batch/jobexecutions?status=STARTING&pageSize=1&page=1")).told
        assert [one["executionId"] for one in told["jobExecutions"]] == [2] and not told["more"]
        row = (await caller.ask("GET", "/batch/jobexecutions?jobName=short&status=FAILED")).told["jobExecutions"][0]
        whole = (await caller.ask("GET", "/batch/jobexecutions/1")).told
        assert {name: whole[name] for name in row if name in whole} == {name: row[name] for name in row if name in whole}
        assert row["exitStatus"] == "FAILED" and row["parameterText"] == ""


async def test_what_a_search_finds(settings: Make) -> None:
    async with running(settings()) as instance:
        caller = Caller(instance.url)
        await caller.start("short", date="2026-11-26", place="Ulm")
        await caller.start("nightly", date="2026-11-27")
        await fail(caller)
        assert await numbers(caller, "?search=2026-11") == [2, 1]
        assert await numbers(caller, "?search=date%3D2026-11-27") == [2]
        assert await numbers(caller, "?search=uLM") == [1]
        assert await numbers(caller, "?search=NIGHT") == [2]
        assert await numbers(caller, "?search=2") == [2, 1]
        assert await numbers(caller, "?search=failed") == [1]
        assert await numbers(caller, "?search=failed&status=STARTING") == []
        told = (await caller.ask("GET", "/batch/jobexecutions?search=2026&pageSize=1")).told
        assert (told["more"], told["total"]) == (True, None)
        assert told["jobExecutions"][0]["parameterText"] == "date=2026-11-27"


async def test_a_list_follows_operations_and_a_purge(settings: Make) -> None:
    async with running(settings()) as instance:
        caller = Caller(instance.url)
        await caller.start("short")
        await caller.start("short")
        assert await numbers(caller, "?status=STARTING") == [2, 1]
        await caller.change(1, "stop")
        assert await numbers(caller, "?status=STARTING") == [2]
        assert await numbers(caller, "?status=STOPPED") == [1]
        await caller.change(1, "abandon")
        assert await numbers(caller, "?status=ABANDONED") == [1]
        await caller.ask("DELETE", "/batch/jobinstances/1")
        assert await numbers(caller) == [2] and await numbers(caller, "?status=ABANDONED") == []
        assert await numbers(caller, "?search=short") == [2]
        for answer in [await caller.ask("GET", f"/batch/jobexecutions/1{rest}") for rest in ("", "/workitems")]:
            assert answer.name == "NoSuchJobExecutionException"


async def test_the_most_recent_job_execution_of_each_job_instance(settings: Make) -> None:
    """Also after a new start, and of a state that knows nothing of a later restart."""
    async with running(settings()) as instance:
        caller = Caller(instance.url)
        for _ in range(3):
            await caller.start("short")
            await fail(caller)
        assert await numbers(caller, "?status=FAILED&mostRecent=true") == [3, 2, 1]
        await caller.change(1, "restart")
        await caller.change(3, "restart")
        await fail(caller)
        assert await numbers(caller, "?status=FAILED") == [4, 3, 2, 1]
        assert await numbers(caller, "?status=FAILED&mostRecent=true") == [4, 2]
        assert await numbers(caller, "?mostRecent=true") == [5, 4, 2]
        told = (await caller.ask("GET", "/batch/jobexecutions")).told["jobExecutions"]
        assert [one["executionId"] for one in told if one["mostRecent"]] == [5, 4, 2]
        told = (await caller.ask("GET", "/batch/jobexecutions?status=FAILED&mostRecent=true&pageSize=1")).told
        assert ([one["executionId"] for one in told["jobExecutions"]], told["more"], told["total"]) == ([4], True, None)
        await caller.ask("DELETE", "/batch/jobinstances/2")
        assert await numbers(caller, "?status=FAILED&mostRecent=true") == [4]
    async with running(settings()) as instance:
        assert await numbers(Caller(instance.url), "?mostRecent=true&jobName=short") == [5, 4]


async def test_a_restart_that_an_answer_has_not_seen_changes_nothing_of_it() -> None:
    index = ExecutionIndex(cast(Engine, SlowEngine()))
    index.note_made(1, None, 1)
    index.note_made(2, 1, 7)
    assert [index.is_most_recent(1, seen) for seen in (6, 7)] == [True, False]


async def test_words_of_a_list_that_are_wrong(settings: Make) -> None:
    async with running(settings()) as instance:
        caller = Caller(instance.url)
        wrong = ("?status=RUNNING", "?pageSize=0", "?pageSize=1001", "?page=x", "?page=1000001", "?mostRecent=1")
        for words in (*wrong, "?search=" + "x" * 257):
            assert (await caller.ask("GET", "/batch/jobexecutions" + words)).name == "BadRequest"
        assert await numbers(caller, "?page=20000&pageSize=50") == []


async def test_a_follower_lists_too(settings: Make) -> None:
    async with running(settings()) as leader, running(settings(), "follower") as follower:
        caller = Caller(leader.url)
        seen = (await caller.start("short")).operations
        told = await Caller(follower.url).ask("GET", f"/batch/jobexecutions?atLeast={seen}")
        assert [one["executionId"] for one in told.told["jobExecutions"]] == [1]
        await fail(caller)
        told = await Caller(follower.url).ask("GET", "/batch/jobexecutions?atLeast=3&status=FAILED")
        assert [one["executionId"] for one in told.told["jobExecutions"]] == [1]


class SlowEngine:
    """Answers queries when it is told to."""

    def __init__(self) -> None:
        self.entered = 0
        self.waiting: asyncio.Future[Answers] | None = None

    def ask(self, queries: list[bytes]) -> asyncio.Future[Answers]:
        assert queries == [b'{"ask":"job_execution","execution":1}']
        self.waiting = asyncio.get_running_loop().create_future()
        return self.waiting

    def answer(self, status: str) -> None:
        assert self.waiting is not None
        told = {"job_execution": {"instance": 1, "job": "short", "status": status, "exit": None}}
        self.waiting.set_result(Answers([json.dumps(told).encode()], self.entered))
        self.waiting = None


async def test_an_operation_that_comes_while_a_list_is_read_is_not_missed() -> None:
    engine = SlowEngine()
    index = ExecutionIndex(cast(Engine, engine))
    found = []
    for operation, status in ((1, "STARTING"), (2, "STARTING"), (3, "STOPPED")):
        engine.entered = operation
        index.note_changed(1, operation)
        finding = asyncio.create_task(index.find(Wanted(frozenset({"STOPPED"})), 0, 10, None))
        await asyncio.sleep(0)
        if operation == 2:  # the answer doesn't know the operation that comes now
            engine.entered = 3
            index.note_changed(1, 3)
        engine.answer(status)
        found.append((await finding)[0])
    assert found == [[], [], [1]]
    assert (await index.find(Wanted(frozenset({"STOPPED"})), 0, 10, None))[0] == [1] and engine.waiting is None


class TellingEngine:
    """Answers queries by the batch statuses of job executions 1, 2, .., and knows which it was asked for."""

    def __init__(self, *statuses: str) -> None:
        self.entered = len(statuses)
        self.asked: list[int] = []
        self._statuses = statuses

    def ask(self, queries: list[bytes]) -> asyncio.Future[Answers]:
        numbers = [int(json.loads(line)["execution"]) for line in queries]
        self.asked += numbers
        told = [{"instance": one, "job": "short", "status": self._statuses[one - 1], "exit": None} for one in numbers]
        answered: asyncio.Future[Answers] = asyncio.get_running_loop().create_future()
        answered.set_result(Answers([json.dumps({"job_execution": one}).encode() for one in told], self.entered))
        return answered


async def test_a_list_ends_behind_the_last_job_execution_of_its_status(monkeypatch: pytest.MonkeyPatch) -> None:
    """Also if it leaves some of these out, as they were restarted, or are of another job."""
    monkeypatch.setattr("job_host.service.history.execution_index.BLOCK", 1)
    for wanted in (Wanted(frozenset({"FAILED"}), most_recent=True), Wanted(frozenset({"FAILED"}), job="wide")):
        engine = TellingEngine("COMPLETED", "COMPLETED", "FAILED", "COMPLETED")
        index = ExecutionIndex(cast(Engine, engine))
        for number in range(1, 5):
            index.note_changed(number, number)
            index.note_made(number, 3 if number == 4 else None, number)
        assert await index.find(wanted, 0, 10, 1) == ([], False)
        assert engine.asked == [4, 3]


async def test_the_catalogue_is_told(settings: Make) -> None:
    async with running(settings()) as instance:
        caller = Caller(instance.url)
        await caller.start("short")
        jobs = (await caller.ask("GET", "/batch/catalogue")).told["jobs"]
        assert [one["jobName"] for one in jobs] == [job["id"] for job in JOBS]
        by_name = {one["jobName"]: one for one in jobs}
        assert by_name["nightly"] == {"jobName": "nightly", "instances": 0, "newest": None}
        assert (by_name["short"]["instances"], by_name["short"]["newest"]["executionId"]) == (1, 1)
        assert (await caller.ask("GET", "/batch/catalogue?jobName=wide")).told == JOBS[2]
        assert (await caller.ask("GET", "/batch/catalogue?jobName=none")).name == "JobStartException"


async def work_items(caller: Caller, execution: int) -> list[tuple[Any, ...]]:
    told = (await caller.ask("GET", f"/batch/jobexecutions/{execution}/workitems")).told
    return [(one["stepName"], one["partition"], one["client"], one["outcome"], one["exitStatus"]) for one in told]


async def test_partitions_and_decisions_are_told(settings: Make) -> None:
    async with running(settings()) as instance:
        one, other = Caller(instance.url, "one"), Caller(instance.url, "other")
        await one.start("wide")
        first, second = [(await caller.claim()).told["work"]["work"] for caller in (one, other)]
        assert await work_items(one, 1) == [("print", 0, "one", None, None), ("print", 1, "other", None, None)]
        await one.finish(first, "COMPLETED", exit="12 PAGES")
        await one.ask("PUT", f"/batch/work/{second}?action=lose")
        assert await work_items(one, 1) == [("print", 0, "one", "COMPLETED", "12 PAGES"), ("print", 1, "other", "LOST", None)]
        await one.start("deciding")
        await one.change(1, "stop")
        decision = (await one.claim()).told["work"]
        assert decision["kind"] == "decision"
        await one.finish(decision["work"], "COMPLETED", exit="MONDAY")
        told = (await one.ask("GET", "/batch/jobexecutions/2/workitems")).told
        assert (told[0]["stepName"], told[0]["exitStatus"], told[0]["leaseRemaining"]) == ("day", "MONDAY", None)
        assert told[0]["since"] <= told[0]["until"]


async def test_work_items_are_told_after_a_new_start(settings: Make) -> None:
    async with running(settings()) as instance:
        caller = Caller(instance.url)
        await caller.start("short")
        await fail(caller)
    async with running(settings()) as instance:
        caller = Caller(instance.url)
        assert await work_items(caller, 1) == [("only", None, "tester", "FAILED", "DISK FULL")]
        assert await numbers(caller, "?status=FAILED") == [1]


def test_the_oldest_work_items_are_forgotten() -> None:
    ended = EndedWork(2)
    for number, execution in ((1, 7), (2, 7), (3, 8)):
        ended.note(Ended(Held(number, execution, "only", None, 1, 0), 1, "COMPLETED", None))
    assert [one.held.work for execution in (7, 8) for one in ended.of(execution)] == [2, 3]
    ended.note(Ended(Held(4, 8, "only", None, 1, 0), 1, "COMPLETED", None))
    assert [one.held.work for execution in (7, 8) for one in ended.of(execution)] == [3, 4]


async def test_how_full_the_history_is_and_who_asks(settings: Make, tmp_path: Path) -> None:
    tokens = tmp_path / "tokens"
    tokens.write_text(f"reader desk {'r' * 20}\noperator ops {'o' * 20}\n")
    async with running(settings(tokens=tokens, other_history=HistoryBounds(1_000_000, 3, 5))) as instance:
        reader, operator = Caller(instance.url, token="r" * 20), Caller(instance.url, token="o" * 20)
        assert (await reader.ask("GET", "/batch/caller")).told == {"name": "desk", "rights": ["read"]}
        assert (await operator.ask("GET", "/batch/caller")).told == {"name": "ops", "rights": ["operate", "read"]}
        await operator.start("short")
        told = (await reader.ask("GET", "/batch/history")).told
        assert (told["operations"], told["mostOperations"], told["warnFrom"], told["refuseFrom"]) == (1, 1_000_000, 3, 5)
        assert (told["role"], told["epoch"]) == ("leader", 1)


class Stream:
    """A client of the events."""

    def __init__(self, response: aiohttp.ClientResponse) -> None:
        self._response = response

    async def next(self) -> Any:
        """The next event."""
        while True:
            line = (await asyncio.wait_for(self._response.content.readline(), 20)).decode()
            if not line:
                raise EOFError
            if line.startswith("data: "):
                return json.loads(line[6:])


async def follow(session: aiohttp.ClientSession, instance: Instance, token: str | None = None) -> aiohttp.ClientResponse:
    headers = {"Authorization": f"Bearer {token}"} if token else {}
    return await session.get(instance.url + "/batch/events", headers=headers)


async def test_events_say_that_operations_were_entered(settings: Make) -> None:
    async with running(settings()) as instance, aiohttp.ClientSession() as session:
        response = await follow(session, instance)
        assert response.content_type == "text/event-stream"
        stream = Stream(response)
        assert await stream.next() == {"operations": 0, "role": "leader", "epoch": 1}
        await Caller(instance.url).start("short")
        assert (await stream.next())["operations"] == 1


async def test_so_many_follow_and_no_more(settings: Make) -> None:
    async with running(settings(bounds=Bounds(watchers=2))) as instance:
        watchers = instance.service.watchers
        async with aiohttp.ClientSession() as session:
            answers = [await follow(session, instance) for _ in range(3)]
            assert [answer.status for answer in answers] == [200, 200, 429]
            assert watchers.count == 2
        async with asyncio.timeout(20):
            while watchers.count:
                await asyncio.sleep(0.05)
        async with aiohttp.ClientSession() as session:
            assert (await follow(session, instance)).status == 200


async def test_events_need_a_token_where_tokens_are_used(settings: Make, tmp_path: Path) -> None:
    tokens = tmp_path / "tokens"
    tokens.write_text(f"reader desk {'r' * 20}\n")
    async with running(settings(tokens=tokens)) as instance, aiohttp.ClientSession() as session:
        assert (await follow(session, instance)).status == 401
        assert (await follow(session, instance, "r" * 20)).status == 200


@pytest.mark.parametrize("path", ["/batch/catalogue", "/batch/jobexecutions", "/batch/history", "/batch/caller"])
async def test_lists_need_a_token_where_tokens_are_used(settings: Make, tmp_path: Path, path: str) -> None:
    tokens = tmp_path / "tokens"
    tokens.write_text(f"reader desk {'r' * 20}\n")
    async with running(settings(tokens=tokens)) as instance:
        assert (await Caller(instance.url).ask("GET", path)).status == 401
        assert (await Caller(instance.url, token="r" * 20).ask("GET", path)).status == 200
