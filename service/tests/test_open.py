"""What is open, why, and who did what, as the service, its commands and its metrics tell it; and what a restart takes over."""

from __future__ import annotations

import asyncio
import json
import time
from collections.abc import Callable
from pathlib import Path
from typing import Any

import pytest
from conftest import DECIDING, NIGHTLY, SHORT, WIDE, Say, batchlet
from instances import Answer, Caller, Instance, running, until

from job_host.service.history import open_index
from job_host.service.keepers import keeper, open_items
from job_host.service.settings import Bounds, ServeSettings
from job_host.service.terms import moments

Make = Callable[..., ServeSettings]

NO_DATA = [{"kind": "fail", "on": "NO DATA"}]
NEVER = {"id": "never", "restartable": False, "elements": [batchlet("only", "only")]}
EMPTY = {"id": "empty", "elements": [batchlet("look", "look", transitions=NO_DATA)]}
LINES = [f"line {number} {'x' * 100}" for number in range(60)]
LOG, END = "\n".join(LINES) + "\n\n", "\n".join(LINES[-12:])


@pytest.fixture
def catalogue(tmp_path: Path) -> Path:
    path = tmp_path / "catalogue.json"
    path.write_text(json.dumps({"jobs": [WIDE, SHORT, NIGHTLY, NEVER, EMPTY, DECIDING]}))
    return path


async def end(farm: Caller, outcome: str, **more: Any) -> int:
    """Claims a work item, and ends it so."""
    work = int((await farm.claim()).told["work"]["work"])
    assert (await farm.finish(work, outcome, **more)).status == 200
    return work


async def fail_one_partition(desk: Caller, farm: Caller) -> None:
    """Of eight partitions, number 5 fails."""
    await desk.start("wide")
    works = [(await farm.claim()).told["work"]["work"] for _ in range(8)]
    for place, work in enumerate(works):
        outcome = {"outcome": "FAILED", "exit": "3"} if place == 5 else {}
        await farm.finish(work, **outcome, log=LOG if place == 5 else f"all is well with {place}")


async def make_night(url: str) -> None:
    """Job executions 1 to 11, of which 1, 2, 3, 4, 6 and 7 are open."""
    desk, farm, mate = [Caller(url, name) for name in ("desk", "farm", "mate")]
    await fail_one_partition(desk, farm)
    await desk.start("short")
    work = (await farm.claim()).told["work"]["work"]
    await desk.ask("PUT", f"/batch/work/{work}?action=lose")
    await desk.start("nightly")
    await mate.change(3, "stop")
    await desk.start("short")
    work = (await farm.claim()).told["work"]["work"]
    await mate.change(4, "stop")
    await farm.finish(work, "STOPPED", log="half done")
    for job, outcome in (("never", "FAILED"), ("empty", "COMPLETED"), ("deciding", "FAILED"), ("short", "FAILED")):
        await desk.start(job)
        await end(farm, outcome, **({"exit": "NO DATA"} if job == "empty" else {}), log=f"log of {job}")
    await mate.change(8, "restart")
    await end(farm, "COMPLETED")
    for number in (10, 11):
        await desk.start("short")
        await end(farm, "FAILED")
    await mate.change(10, "abandon")
    await mate.ask("DELETE", "/batch/jobinstances/10")


Cause = tuple[str, Any, str, str, Any]
# The job executions by which job instances are open, with the causes of each.
NIGHT: dict[int, list[Cause]] = {
    7: [("day", None, "FAILED", "FAILED", "log of deciding")],
    6: [("look", None, "COMPLETED", "NO DATA", "log of empty")],
    4: [("only", None, "STOPPED", "STOPPED", "half done")],
    3: [],
    2: [("only", None, "LOST", "FAILED", None)],
    1: [("print", 5, "FAILED", "3", END)],
}


def causes(told: Any) -> list[Cause]:
    assert told["moreCauses"] == 0
    return [(one["stepName"], one["partition"], one["outcome"], one["exitStatus"], one["logEnd"]) for one in told["causes"]]


async def to_restart(caller: Caller, words: str = "") -> list[int]:
    answer = await caller.ask("GET", "/batch/open" + words)
    assert answer.status == 200, answer.told
    return [one["executionId"] for one in answer.told["jobInstances"]]


async def check_night(caller: Caller) -> None:
    told = (await caller.ask("GET", "/batch/open")).told
    assert {one["executionId"]: causes(one) for one in told["jobInstances"]} == NIGHT
    assert [one["executionId"] for one in told["jobInstances"]] == list(NIGHT)
    assert [one["batchStatus"] for one in told["jobInstances"]] == [
        "FAILED",
        "FAILED",
        "STOPPED",
        "STOPPED",
        "FAILED",
        "FAILED",
    ]
    assert (told["counts"]["FAILED"], told["counts"]["STOPPED"], told["more"]) == (4, 2, False)
    for number, known in NIGHT.items():
        assert causes((await caller.ask("GET", f"/batch/jobexecutions/{number}/causes")).told) == known
    for number, count in ((8, 1), (9, 0), (5, 1), (99, 404)):
        answer = await caller.ask("GET", f"/batch/jobexecutions/{number}/causes")
        assert (len(answer.told["causes"]) if answer.status == 200 else answer.status) == count, number


async def check_words(caller: Caller) -> None:
    assert await to_restart(caller, "?status=STOPPED") == [4, 3]
    assert await to_restart(caller, "?status=STOPPED&status=FAILED&jobName=short") == [4, 2]
    assert [await to_restart(caller, f"?pageSize=4&page={page}") for page in (0, 1, 2)] == [[7, 6, 4, 3], [2, 1], []]
    for words, more in (
        ("pageSize=4", True),
        ("pageSize=4&page=1", False),
        ("pageSize=6", False),
        ("pageSize=2&status=STOPPED", False),
    ):
        assert (await caller.ask("GET", f"/batch/open?{words}")).told["more"] is more, words
    assert await to_restart(caller, "?jobName=none") == []
    for words in ("status=COMPLETED", "pageSize=0", "pageSize=101", "page=x", "page=1000001", "search=x"):
        assert (await caller.ask("GET", f"/batch/open?{words}")).name == "BadRequest", words
    told = (await caller.ask("GET", "/batch/open?status=RUNNING")).told["detail"]
    assert told == 'status is one of FAILED, STOPPED, and not "RUNNING"'


async def done(caller: Caller, execution: int, words: str = "") -> list[tuple[str, Any, Any]]:
    """What was done to a job execution, by whom, and to which of another one or work item, the newest first."""
    answer = await caller.ask("GET", f"/batch/jobexecutions/{execution}/operations{words}")
    assert answer.status == 200, answer.told
    times = [one["time"] for one in answer.told]
    assert times == sorted(times, reverse=True)
    return [(one["action"], one["client"], one["made"] or one["work"]) for one in answer.told]


async def check_operations(caller: Caller) -> None:
    assert await done(caller, 2) == [("lose", "desk", 9), ("start", "desk", 2)]
    assert await done(caller, 4) == [("stop", "mate", None), ("start", "desk", 4)]
    assert await done(caller, 8) == [("restart", "mate", 9), ("start", "desk", 8)]
    assert await done(caller, 9) == [("restart", "mate", 9)]
    assert await done(caller, 10) == [("abandon", "mate", None), ("start", "desk", 10)]
    assert await done(caller, 11) == [("purge", "mate", None), ("start", "desk", 11)]
    assert await done(caller, 11, "?pageSize=1&page=1") == [("start", "desk", 11)]
    for path, name in (("99/operations", "NoSuchJobExecutionException"), ("1/operations?pageSize=1001", "BadRequest")):
        assert (await caller.ask("GET", f"/batch/jobexecutions/{path}")).name == name


def metrics(answer: Answer) -> dict[str, float]:
    lines = [line.rsplit(" ", 1) for line in answer.told.splitlines() if line.startswith("jobhost_")]
    return {name.removeprefix("jobhost_"): float(value) for name, value in lines}


async def test_a_night_that_somebody_has_to_look_at(either: Make) -> None:
    """It is told alike after a new start, with the names of those who weren't heard since."""
    async with running(either()) as instance:
        await make_night(instance.url)
        caller = Caller(instance.url, "reader")
        await check_night(caller)
        await check_words(caller)
        await check_operations(caller)
        told = metrics(await caller.ask("GET", "/metrics"))
        assert [told[f'open_job_instances{{status="{one}"}}'] for one in ("FAILED", "STOPPED")] == [4.0, 2.0]
        await Caller(instance.url, "last").start("short")
    async with running(either(bounds=Bounds(name_seconds=0.0, days_of_keys=0))) as instance:
        async with asyncio.timeout(20):
            while instance.service.keeper.term is None or len(instance.service.keeper.term.sessions.numbers()) > 2:
                await asyncio.sleep(0.02)
        caller = Caller(instance.url, "reader")
        await check_night(caller)
        await check_operations(caller)
        assert (await Caller(instance.url, "mate").change(7, "restart")).status == 200
        assert await to_restart(caller) == [6, 4, 3, 2, 1]
        assert await done(caller, 7) == [("restart", "mate", 13), ("start", "desk", 7)]


async def test_a_follower_knows_what_is_open(settings: Make, say: Say, monkeypatch: pytest.MonkeyPatch) -> None:
    """But not who asks for work, and whose lease is late. It looks at most of it before it is asked."""
    monkeypatch.setattr(keeper, "ASK_SECONDS", 0.05)
    monkeypatch.setattr(open_index, "FEW", 0)
    async with running(settings()) as leader, running(settings(), "follower") as follower:
        await make_night(leader.url)
        index = follower.service.keeper.reading().open

        async def has_looked() -> bool:
            return index._looked == 11

        await until(has_looked)
        seen = (await Caller(leader.url).ask("GET", "/batch/open")).operations
        told = (await Caller(follower.url).ask("GET", f"/batch/open?atLeast={seen}")).told
        assert [one["executionId"] for one in told["jobInstances"]] == list(NIGHT)
        assert [(told[name], told["counts"][name]) for name in ("late", "waiting")] == [(None, None)] * 2
        last = (await say(follower.url, "open"))[1].splitlines()[-1]
        assert last == "the leader alone knows of late leases, and of jobs that wait though no worker asks"
        assert await done(Caller(follower.url), 8) == [("restart", "mate", 9), ("start", "desk", 8)]


async def test_many_partitions_that_failed_have_the_first_logs(
    settings: Make, say: Say, monkeypatch: pytest.MonkeyPatch
) -> None:
    """What was forgotten of them shows no log of a partition that didn't fail."""
    monkeypatch.setattr(open_items, "MOST_CAUSES", 2)
    async with running(settings()) as instance:
        caller = Caller(instance.url)
        await caller.start("wide")
        for number in range(8):
            await caller.claim()
        for number in range(8):
            await caller.finish(number + 1, "COMPLETED" if number == 0 else "FAILED", log=f"log {number}")
        told = (await caller.ask("GET", "/batch/open")).told["jobInstances"][0]
        assert [(one["work"], one["partition"], one["logEnd"]) for one in told["causes"]] == [(2, 1, "log 1"), (3, 2, "log 2")]
        assert told["moreCauses"] == 5
        lines = [
            "  step print, partition 1: exit status FAILED",
            "    log 1",
            "  step print, partition 2: exit status FAILED",
            "    log 2",
        ]
        head = "wide: job execution 1 is FAILED, exit status FAILED"
        assert (await say(instance.url, "failed"))[1].splitlines() == [
            head,
            *lines,
            "  and 5 more work items",
            "  jobhost restart 1",
        ]
        engine = instance.service.keeper.reading()
        for ended in (engine.failed_work, engine.ended_work):
            ended._by_execution.clear()
        told = (await caller.ask("GET", "/batch/jobexecutions/1/causes")).told["causes"]
        assert [(one["work"], one["stepName"], one["partition"], one["logEnd"]) for one in told] == [
            (None, "print", None, None)
        ]


class Clock:
    """The service's clock, as the test sets it."""

    def __init__(self, monkeypatch: pytest.MonkeyPatch) -> None:
        self.ahead = 0
        real = moments.clock
        monkeypatch.setattr(moments, "clock", lambda: real() + self.ahead)
        monkeypatch.setattr(moments, "uptime", lambda: self.ahead)


async def all_lists(caller: Caller, words: str = "") -> dict[str, list[int]]:
    """The job executions of each list but the first."""
    told = (await caller.ask("GET", "/batch/open" + words)).told
    names = ("long", "late", "waiting")
    assert "pageSize" in words or [told["counts"][name] for name in names] == [len(told[name]) for name in names]
    return {name: [one["executionId"] for one in told[name]] for name in names}


def make_late(instance: Instance, work: int) -> None:
    instance.service.keeper.leases._ends[work] = time.monotonic() + 40.0


async def test_what_runs_long_is_late_or_waits(settings: Make, say: Say, monkeypatch: pytest.MonkeyPatch) -> None:
    monkeypatch.setenv("COLUMNS", "200")
    clock = Clock(monkeypatch)
    async with running(settings(lease=100.0)) as instance:
        desk, farm = Caller(instance.url, "desk"), Caller(instance.url, "farm")
        assert await say(instance.url, "open") == (0, "nothing is open\n")
        await desk.start("short")
        await end(farm, "COMPLETED")
        for job in ("short", "nightly", "short", "short"):
            await desk.start(job)
        for _ in range(2):
            await farm.claim()
        assert await all_lists(desk) == {"long": [], "late": [], "waiting": []}
        clock.ahead = 3_600_000
        make_late(instance, 3)
        monkeypatch.setattr(open_items, "UNASKED_SECONDS", 0.0)
        assert await all_lists(desk) == {"long": [2], "late": [3], "waiting": [4, 5]}
        assert await all_lists(desk, "?jobName=short") == {"long": [2], "late": [], "waiting": [4, 5]}
        assert await all_lists(desk, "?jobName=nightly") == {"long": [], "late": [3], "waiting": []}
        assert await all_lists(desk, "?pageSize=1") == {"long": [2], "late": [3], "waiting": [4]}
        assert await all_lists(desk, "?page=1&pageSize=1") == {"long": [], "late": [], "waiting": [5]}
        text = metrics(await desk.ask("GET", "/metrics"))
        names = ("long_job_executions", "late_work_items", "waiting_job_executions")
        assert [text[name] for name in names] == [1.0, 1.0, 2.0]
        status, told = await say(instance.url, "open", "--utc", "--count", "1")
        long, late, waits, more = told.splitlines()
        assert (status, more) == (0, "more is open: these are the first 1 of each kind (--count)")
        assert len((await say(instance.url, "open"))[1].splitlines()) == 4
        assert long.startswith("short: job execution 2 has run for 1 h 0 min; the longest before took 0 s")
        start = "nightly: work item 3 of job execution 3, step load: no sign of its worker farm, "
        assert late.startswith(start) and late.endswith(" s of its lease are left")
        assert waits.startswith("short: job execution 4 waits since 20") and waits.endswith("+0000: no worker asks for work")
        claiming = asyncio.create_task(farm.claim(wait=20))
        assert (await claiming).told["work"]["work"] == 4
        assert (await all_lists(desk))["waiting"] == [5]


async def test_a_worker_that_asks_leaves_nothing_to_wait_in_vain(settings: Make, monkeypatch: pytest.MonkeyPatch) -> None:
    """A job execution that waits is told of after a while in which no claim came."""
    async with running(settings()) as instance:
        desk = Caller(instance.url)
        await desk.claim()
        await desk.start("short")
        assert (await all_lists(desk))["waiting"] == []
        assert instance.service.keeper.term is not None
        claims = instance.service.keeper.term.desk
        claims._asked_at -= open_items.UNASKED_SECONDS
        assert (await all_lists(desk))["waiting"] == [1]
        assert (await desk.claim()).told["work"]["work"] == 1
        await desk.start("short")
        assert (await all_lists(desk))["waiting"] == []
        assert (await desk.claim()).told["work"]["work"] == 2
        asking = asyncio.create_task(desk.claim(wait=0.5))
        await instance.until_claims_wait(1)
        claims._asked_at -= open_items.UNASKED_SECONDS
        assert (await asking).told == {"nothing": True}
        await desk.start("short")
        assert (await all_lists(desk))["waiting"] == []


async def test_a_restart_takes_over_the_parameters_if_it_names_none(settings: Make) -> None:
    async with running(settings()) as instance:
        caller = Caller(instance.url)
        await caller.start("short", date="2026-11-29", place="Ulm")

        async def restart(path: str, body: Any, key: str | None = None) -> Any:
            """The parameters of the job execution that a restart makes."""
            answer = await caller.ask("PUT", f"/batch/{path}?action=restart", body, key)
            assert answer.status == 200, answer.told
            return (await caller.ask("GET", f"/batch/jobexecutions/{answer.told['executionId']}")).told["jobParameters"]

        whole = {"date": "2026-11-29", "place": "Ulm"}
        told = []
        bare: list[tuple[str, Any]] = [("jobexecutions/1", None), ("jobinstances/1", {})]
        for number, (path, body) in enumerate(bare, 1):
            await end(caller, "FAILED")
            told.append(await restart(path, body, f"key-{number}"))
        assert told == [whole, whole]
        assert await restart("jobexecutions/1", None, "key-1") == whole
        await end(caller, "FAILED")
        assert await restart("jobexecutions/3", {"jobParameters": {"date": "today"}}) == {"date": "today"}
        await end(caller, "FAILED")
        assert await restart("jobinstances/1", {"jobParameters": {}}) == {}
        for path in ("jobexecutions/9", "jobinstances/9"):
            assert (await caller.ask("PUT", f"/batch/{path}?action=restart")).status == 404
        await end(caller, "FAILED")
        wrongs: list[Any] = [None, [], {"a": 1}]
        for wrong in wrongs:
            answer = await caller.ask("PUT", "/batch/jobexecutions/5?action=restart", {"jobParameters": wrong})
            assert answer.name == "BadLine"


async def test_who_did_what_is_shown_with_the_status(settings: Make, say: Say, monkeypatch: pytest.MonkeyPatch) -> None:
    monkeypatch.setenv("COLUMNS", "200")
    async with running(settings(lease=0.4)) as instance:
        desk = Caller(instance.url, "desk")
        await desk.start("short")
        await Caller(instance.url, "farm").claim()

        async def rows(*words: str) -> list[list[str]]:
            told = (await say(instance.url, "status", *words, "--utc"))[1]
            cells = [[cell.strip() for cell in line.split("│")[1:-1]] for line in told.splitlines() if line.startswith("│")]
            return [row[:5] for row in cells if row[0].isdigit()]

        async with asyncio.timeout(20):
            while await desk.status(1) != "FAILED":
                await asyncio.sleep(0.05)
        await desk.change(1, "restart")
        expected = [
            ["4", "restart, job execution 2", "desk", "", "127.0.0.1"],
            ["3", "lose, work item 1", "the service", "", ""],
            ["1", "start", "desk", "", "127.0.0.1"],
        ]
        assert await rows("1") == expected
        await desk.change(2, "stop")
        await desk.ask("DELETE", "/batch/jobinstances/1")
        assert await rows("1") == [["6", "purge", "desk", "", "127.0.0.1"], *expected]
        status, told = await say(instance.url, "status", "1")
        assert status == 1 and told.splitlines()[-1] == "jobhost: NoSuchJobExecutionException"
        assert await say(instance.url, "status", "9") == (1, "jobhost: NoSuchJobExecutionException\n")
