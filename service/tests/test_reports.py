"""Many reports of a worker in one request: each is answered, kept and audited as one of its own."""

from __future__ import annotations

import asyncio
from collections.abc import Callable
from pathlib import Path
from typing import Any

import pytest
from instances import Answer, Caller, Instance, running

from job_host.protocol.bounds import MOST_REPORTS
from job_host.service.settings import Bounds, ServeSettings
from job_host.service.terms.term import Observers

Make = Callable[..., ServeSettings]
PATH = "/batch/work/reports"
READER, OPERATOR, WORKER = ("r" * 20, "o" * 20, "w" * 20)
METRICS = {"READ_COUNT": 2, "COMMIT_COUNT": 1}


async def claimed(caller: Caller, *jobs: str) -> None:
    """Starts these jobs, and claims a work item of each."""
    for job in jobs:
        await caller.start(job)
        assert "work" in (await caller.claim()).told


async def report(caller: Caller, *reports: Any) -> Answer:
    return await caller.ask("POST", PATH, {"reports": list(reports)})


def told_of(answer: Answer) -> list[Any]:
    """The status of each report, with its body, or with the name of its problem."""
    assert answer.status == 200
    return [(one["status"], one["body"].get("title", one["body"])) for one in answer.told["reports"]]


async def test_each_report_is_answered_as_one_of_its_own(either: Make) -> None:
    async with running(either()) as instance:
        caller = Caller(instance.url)
        await claimed(caller, "chunky", "short", "nightly", "short")
        answer = await report(
            caller,
            {"action": "checkpoint", "work": 1, "key": "a", "data": "10", "metrics": METRICS},
            {"action": "finish", "work": 2, "key": "b", "outcome": "COMPLETED", "exit": "25 ROWS", "log": "25 rows"},
            {"action": "heartbeat", "work": 3, "log": "begins"},
            {"action": "finish", "work": 9, "key": "c", "outcome": "COMPLETED"},
            {"action": "finish", "work": 4, "outcome": "NONE"},
            {"action": "finish", "work": 4, "outcome": "STOPPED"},
        )
        assert told_of(answer) == [
            (200, {"go": True}),
            (200, {"done": True}),
            (200, {"stop": False, "lease": 10.0}),
            (404, "NoSuchWork"),
            (400, "BadLine"),
            (409, "NotStopping"),
        ]
        numbers = [one.get("operations") for one in answer.told["reports"]]
        assert sorted(numbers[:2]) == [9, 10] and answer.operations == 10 and instance.service.keeper.operations == 10
        alone = await caller.ask("PUT", "/batch/work/9?action=finish", {"outcome": "COMPLETED"})
        assert alone.told == answer.told["reports"][3]["body"]
        assert (await caller.ask("GET", "/batch/jobexecutions/2")).told["stepExecutions"][0]["exitStatus"] == "25 ROWS"
        assert [one["log"] for one in (await caller.ask("GET", "/batch/jobexecutions/2/joblogs")).told] == ["25 rows"]
        assert [one["log"] for one in (await caller.ask("GET", "/batch/jobexecutions/3/joblogs")).told] == ["begins"]


async def test_a_key_gives_the_first_reply_again_in_a_list_and_alone(either: Make) -> None:
    reports = [
        {"action": "checkpoint", "work": 1, "key": "a", "data": "10"},
        {"action": "finish", "work": 2, "key": "b", "outcome": "COMPLETED"},
    ]
    async with running(either()) as instance:
        caller = Caller(instance.url)
        await claimed(caller, "chunky", "short")
        first = await report(caller, *reports)
    async with running(either()) as instance:
        caller = Caller(instance.url)
        assert (await report(caller, *reports)).told == first.told
        body = {"data": "10"}
        assert (await caller.ask("PUT", "/batch/work/1?action=checkpoint", body, "a")).told == {"go": True}
        assert (await caller.ask("PUT", "/batch/work/1?action=checkpoint", {"data": "20"}, "a")).name == "RequestKeyReused"
        assert told_of(await report(caller, {**reports[0], "data": "20"})) == [(422, "RequestKeyReused")]
        assert instance.service.keeper.operations == 6


async def test_reports_of_one_work_item_are_made_in_turn(either: Make) -> None:
    async with running(either()) as instance:
        caller = Caller(instance.url)
        await claimed(caller, "chunky", "chunky")
        answer = await report(
            caller,
            {"action": "checkpoint", "work": 1, "data": "10"},
            {"action": "checkpoint", "work": 2, "data": "7"},
            {"action": "checkpoint", "work": 1, "data": "20"},
            {"action": "finish", "work": 1, "outcome": "FAILED"},
            {"action": "checkpoint", "work": 1, "data": "30"},
        )
        assert [status for status, _ in told_of(answer)] == [200, 200, 200, 200, 409]
        await caller.change(1, "restart")
        assert (await caller.claim()).told["work"]["checkpoint"] == "20"


async def test_the_audit_tells_each_report(either: Make) -> None:
    async with running(either()) as instance:
        caller = Caller(instance.url, "w1")
        await claimed(caller, "chunky", "short")
        await report(
            caller,
            {"action": "checkpoint", "work": 1, "data": "10"},
            {"action": "finish", "work": 2, "outcome": "COMPLETED"},
            {"action": "finish", "work": 3, "outcome": "COMPLETED"},
        )
        told = (await caller.ask("GET", "/batch/audit?pageSize=2")).told
        assert sorted((one["action"], one["client"], one["address"]) for one in told) == [
            ("checkpoint", "w1", "127.0.0.1"),
            ("finish", "w1", "127.0.0.1"),
        ]


async def test_a_list_is_kept_by_one_commit(settings: Make, monkeypatch: pytest.MonkeyPatch) -> None:
    async with running(settings()) as instance:
        caller = Caller(instance.url)
        await claimed(caller, *["short"] * 20)
        commits: list[int] = []
        term = instance.service.keeper.term
        assert term is not None
        term.observers = Observers(lambda seconds, replies: commits.append(replies))
        answer = await report(caller, *({"action": "finish", "work": work, "outcome": "COMPLETED"} for work in range(1, 21)))
        assert told_of(answer) == [(200, {"done": True})] * 20
        assert [count for count in commits if count] == [20]


BAD: list[Any] = [
    ({"action": "lose", "work": 1}, 400),
    ({"work": 1, "outcome": "COMPLETED"}, 400),
    ({"action": ["finish"], "work": 1}, 400),
    ({"action": "finish", "work": "1", "outcome": "COMPLETED"}, 400),
    ({"action": "finish", "work": True, "outcome": "COMPLETED"}, 400),
    ({"action": "finish", "work": -1, "outcome": "COMPLETED"}, 400),
    ({"action": "finish", "work": 2**64, "outcome": "COMPLETED"}, 400),
    ({"action": "finish", "work": [1], "outcome": "COMPLETED"}, 400),
    ({"action": "finish", "work": 1, "outcome": "COMPLETED", "key": "a b"}, 400),
    ({"action": "finish", "work": 1, "outcome": "COMPLETED", "key": "a" * 129}, 400),
    ({"action": "finish", "work": 1, "outcome": "COMPLETED", "key": 7}, 400),
    ({"action": "finish", "work": 1, "outcome": "COMPLETED", "log": 7}, 400),
    ({"action": "finish", "work": 1, "outcome": "COMPLETED", "exits": "A"}, 400),
    ({"action": "checkpoint", "work": 1, "outcome": "COMPLETED"}, 400),
    ({"action": "heartbeat", "work": 1, "data": "10"}, 400),
    ({"action": "heartbeat", "work": 7}, 409),
    ("finish", 400),
    (None, 400),
]


async def test_a_bad_report_stops_no_other_one(either: Make) -> None:
    async with running(either()) as instance:
        caller = Caller(instance.url)
        await claimed(caller, "short")
        good = {"action": "finish", "work": 1, "outcome": "COMPLETED", "key": "good"}
        answer = await report(caller, *(given for given, _ in BAD), good)
        statuses = [one["status"] for one in answer.told["reports"]]
        assert statuses == [*(status for _, status in BAD), 200]
        assert instance.service.keeper.operations == 3


async def test_a_list_has_bounds(either: Make) -> None:
    async with running(either()) as instance:
        caller = Caller(instance.url)
        beat = {"action": "heartbeat", "work": 1}
        bodies = [{}, {"reports": {}}, {"reports": [], "more": 1}, {"reports": [beat] * (MOST_REPORTS + 1)}]
        for body in bodies:
            assert (await caller.ask("POST", PATH, body)).name == "BadRequest"
        assert told_of(await report(caller)) == []
        full = await report(caller, *[beat] * MOST_REPORTS)
        assert told_of(full) == [(409, "NoLease")] * MOST_REPORTS
        assert (await report(caller, {**beat, "log": "a" * 2**20})).name == "RequestEntityTooLarge"
        nameless = Caller(instance.url)
        nameless.headers.clear()
        assert (await report(nameless, beat)).name == "BadRequest"


async def test_a_report_has_a_place_among_those_in_hand(either: Make) -> None:
    async with running(either(bounds=Bounds(requests_at_once=2))) as instance:
        caller = Caller(instance.url)
        await claimed(caller, "short", "short", "short")
        finish: dict[str, Any] = {"action": "finish", "outcome": "COMPLETED"}
        answer = await report(caller, *({**finish, "work": work} for work in (1, 2, 3)))
        assert told_of(answer) == [(200, {"done": True}), (200, {"done": True}), (429, "TooManyRequests")]
        assert told_of(await report(caller, {**finish, "work": 3})) == [(200, {"done": True})]


async def test_reports_are_for_workers(settings: Make, tmp_path: Path) -> None:
    path = tmp_path / "tokens"
    path.write_text(f"reader desk {READER}\noperator ops {OPERATOR}\nworker farm {WORKER}\n")
    async with running(settings(tokens=path)) as instance:
        await Caller(instance.url, token=OPERATOR).start("short")
        worker = Caller(instance.url, token=WORKER)
        await worker.claim()
        finish = {"action": "finish", "work": 1, "outcome": "COMPLETED"}
        statuses = [(await report(Caller(instance.url, token=token), finish)).status for token in (None, READER, OPERATOR)]
        assert statuses == [401, 403, 403]
        assert told_of(await report(Caller(instance.url, "other", WORKER), finish)) == [(409, "NotClaimer")]
        assert told_of(await report(worker, finish)) == [(200, {"done": True})]


async def test_one_that_does_not_lead_takes_no_list(settings: Make) -> None:
    async with running(settings()) as one, running(settings(), "follower") as two:
        assert one.service.keeper.role == "leader"
        assert (await report(Caller(two.url), {"action": "heartbeat", "work": 1})).name == "NotLeader"


async def until_died(instance: Instance) -> None:
    engine = instance.service.keeper.engine
    assert engine is not None
    engine.process.kill()
    await engine.process.wait()


async def test_reports_under_way_are_answered_when_batchctl_dies(either: Make) -> None:
    async with running(either()) as instance:
        caller = Caller(instance.url)
        await claimed(caller, *["short"] * 4)
        engine = instance.service.keeper.engine
        assert engine is not None
        async with engine.turn:
            reports = [{"action": "finish", "work": work, "outcome": "COMPLETED", "key": f"k{work}"} for work in range(1, 5)]
            reporting = asyncio.create_task(report(caller, *reports))
            await asyncio.sleep(0.2)
            await until_died(instance)
        assert [status for status, _ in told_of(await reporting)] == [503] * 4
        await instance.until_role("leader")
        assert told_of(await report(caller, *reports)) == [(200, {"done": True})] * 4
