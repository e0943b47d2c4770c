"""What is open, who did what, and why something failed, of a history that is made up: no program is asked."""

from __future__ import annotations

import asyncio
import json
import time
from collections import Counter
from typing import Any, cast

import pytest

from job_host.service.history.actions import Action, Actions
from job_host.service.history.causes import causes_of
from job_host.service.history.coprocess import CoProcess, CoProcessEnded
from job_host.service.history.engine import Engine
from job_host.service.history.execution_index import ExecutionIndex
from job_host.service.history.open_index import PAST, WAITING, OpenIndex
from job_host.service.history.work_items import Ended, Held
from job_host.service.pages import Page
from job_host.service.terms.claims import ClaimDesk
from job_host.service.terms.leases import Leases

BOTH = ("FAILED", "STOPPED")
ALL = Page(0, 50)


class History:
    """Job executions as a test says that they are. It knows which of them it was asked for."""

    def __init__(self) -> None:
        self.entered = 0
        self.told: dict[int, dict[str, Any] | None] = {}
        self.asked: list[int] = []
        self.ends = False
        self.busy = Counter[int]()
        self.executions = ExecutionIndex(cast(Engine, None))
        self.open = OpenIndex(cast(Engine, self), self.executions, self.busy, lambda job: job != "never")

    def ask(self, queries: list[bytes]) -> asyncio.Future[Any]:
        answered: asyncio.Future[Any] = asyncio.get_running_loop().create_future()
        if self.ends:
            answered.set_exception(CoProcessEnded("no more"))
            return answered
        numbers = [int(json.loads(line)["execution"]) for line in queries]
        self.asked += numbers
        known = [self.told[one] for one in numbers]
        told: list[dict[str, Any]] = [{"refused": "Gone"} if one is None else {"job_execution": one} for one in known]
        answered.set_result(type("Answers", (), {"replies": [json.dumps(one).encode() for one in told]}))
        return answered

    def begin(self, job: str, restarted: int | None = None) -> int:
        execution = self.executions.last + 1
        self._note(execution)
        self.executions.note_made(execution, restarted, self.entered)
        if restarted is not None:
            self.open.note_changed(restarted)
        self.change(execution, "STARTING", job=job, instance=self.executions.instance_of(execution), start=None, end=None)
        return execution

    def _note(self, execution: int) -> None:
        self.entered += 1
        self.executions.note_changed(execution, self.entered)
        self.open.note_changed(execution)

    def change(self, execution: int, status: str, **members: Any) -> None:
        self._note(execution)
        given = {"execution": execution, "status": status, "updated": self.entered, **members}
        self.told[execution] = {**(self.told.get(execution) or {}), **given}

    def purge(self, execution: int) -> None:
        self.entered += 1
        self.told[execution] = None
        self.executions.note_purged(self.executions._instances[execution], self.entered)
        self.open.note_changed(execution)

    async def restartable(self, job: str | None = None, page: Page = ALL, statuses: tuple[str, ...] = BOTH) -> list[int]:
        await self.open.settle()
        return self.open.restartable(statuses, job, page)


async def test_what_may_be_restarted_until_it_is_settled() -> None:
    history = History()
    for job in ("a", "b", "a", "never", "b"):
        history.change(history.begin(job), "FAILED")
    assert await history.restartable() == [5, 3, 2, 1]
    again = history.begin("a", 1)
    history.change(2, "ABANDONED")
    history.purge(3)
    history.change(5, "STOPPED")
    assert await history.restartable() == [5]
    history.change(again, "FAILED")
    assert await history.restartable() == [6, 5]
    assert [await history.restartable(statuses=(one,)) for one in BOTH] == [[6], [5]]
    assert [await history.restartable("b"), await history.restartable(page=Page(1, 1))] == [[5], [5]]
    assert [history.open.count(name, job) for name, job in (("FAILED", None), ("FAILED", "b"), ("STOPPED", "b"))] == [1, 0, 1]
    history.change(again, "COMPLETED", start=1, end=2)
    assert await history.restartable() == [5]


async def test_what_was_not_answered_is_asked_again() -> None:
    history = History()
    history.change(history.begin("a"), "FAILED")
    history.ends = True
    with pytest.raises(CoProcessEnded):
        await history.open.settle()
    history.ends = False
    assert await history.restartable() == [1]
    assert await history.restartable() == [1] and history.asked == [1]


async def test_operations_that_come_all_the_time_hold_up_nothing(monkeypatch: pytest.MonkeyPatch) -> None:
    history = History()
    for status in ("FAILED", "STARTED"):
        history.change(history.begin("a"), status, start=1)
    ask = history.ask

    def ask_and_begin(queries: list[bytes]) -> asyncio.Future[Any]:
        assert len(history.asked) < 9
        history.begin("b")
        return ask(queries)

    monkeypatch.setattr(history, "ask", ask_and_begin)
    await history.open.settle(1)
    assert history.asked == [1, 2] and history.open.restartable(BOTH, None, ALL) == [1]


async def test_of_many_job_executions_those_that_changed_are_asked_for() -> None:
    """After 30,000 job instances that failed, one more read costs next to nothing, whatever its page."""
    history = History()
    for _ in range(30_000):
        history.change(history.begin("a"), "FAILED")
    await history.open.settle()
    assert history.asked == list(range(1, 30_001))
    history.begin("a", 7)
    history.change(20_000, "STOPPED")
    history.asked.clear()
    begun = time.process_time()
    for start in (0, 1_000, 29_990):
        await history.restartable(page=Page(start, 10))
        history.open.count("FAILED", None)
    assert time.process_time() - begun < 0.5
    assert sorted(history.asked) == [7, 20_000, 30_001]
    assert await history.restartable(page=Page(29_990, 50)) == [10, 9, 8, 6, 5, 4, 3, 2, 1]


async def test_what_runs_much_longer_than_the_longest_of_its_past() -> None:
    history = History()
    minute = 60_000
    for took in (1, 3, 2):
        history.change(history.begin("a"), "COMPLETED", start=0, end=took * minute)
    history.change(history.begin("b"), "COMPLETED", start=0, end=minute // 2)
    for job in ("a", "b", "new"):
        one = history.begin(job)
        history.change(one, "STARTED", start=10 * minute)
        history.busy[one] = 1
    await history.open.settle()

    def long(minutes: float, job: str | None = None) -> list[tuple[int, int, int]]:
        found = history.open.long(int((10 + minutes) * minute), job)
        return [(one.running.execution, one.lasts // minute, one.longest) for one in found]

    half = minute // 2
    assert [long(1.5), long(1.6), long(6)] == [[], [(6, 1, half)], [(6, 6, half)]]
    assert long(6.1) == [(5, 6, 3 * minute), (6, 6, half)]
    assert long(6.1, "a") == [(5, 6, 3 * minute)]
    history.purge(2)
    await history.open.settle()
    assert long(4.1, "a") == [(5, 4, 2 * minute)]
    history.change(3, "ABANDONED")
    await history.open.settle()
    assert long(2.1, "a") == [(5, 2, minute)]
    history.change(history.begin("a"), "COMPLETED", start=50 * minute, end=52 * minute)
    for took in range(PAST):
        history.change(history.begin("a"), "COMPLETED", start=100 * minute, end=100 * minute + took)
    await history.open.settle()
    assert long(1.1, "a") == [(5, 1, PAST - 1)]
    del history.busy[5]
    assert long(9, "a") == []


async def test_what_is_not_finished_and_has_nothing_busy_waits() -> None:
    history = History()
    for job in ("b", "a", "a"):
        history.begin(job)
    history.busy[2] = 1
    history.change(2, "STARTED", start=5)

    async def waiting(job: str | None = None) -> list[int]:
        await history.open.settle()
        assert history.open.count(WAITING, job) == len(history.open.waiting(job, ALL))
        return history.open.waiting(job, ALL)

    assert [await waiting(), await waiting("a")] == [[1, 3], [3]]
    del history.busy[2]
    history.change(2, "STARTED")
    history.change(1, "STOPPED")
    assert await waiting() == [2, 3]
    running = history.open.running(2)
    assert running is not None and (running.job, running.start) == ("a", 5) and history.open.running(3) is None
    history.change(2, "COMPLETED", end=6)
    assert await waiting() == [3] and history.open.running(2) is None


def item(work: int, element: str, partition: int | None, outcome: str, exit: str | None = None, until: int = 9) -> Ended:
    return Ended(Held(work, 1, element, partition, 2, 0), until, outcome, exit)


def step(work: int, name: str, status: str, exit: str | None = None, end: int | None = 9) -> dict[str, Any]:
    return {"work": work, "step": name, "status": status, "exit": exit or status, "end": end}


LOADED, PRINTED = item(1, "load", None, "COMPLETED", "9 ROWS"), step(2, "print", "FAILED")
PARTS = [item(2, "print", 0, "COMPLETED"), item(3, "print", 1, "FAILED", "3"), item(4, "print", 2, "LOST")]
# The batch status, the steps that the repository tells, the work items that are known, and the causes.
CAUSES: list[tuple[str, list[dict[str, Any]], list[Ended], list[tuple[Any, ...]]]] = [
    ("FAILED", [PRINTED], [LOADED, *PARTS], [(3, "print", 1, "FAILED", "3"), (4, "print", 2, "LOST", "FAILED")]),
    (
        "FAILED",
        [PRINTED, step(9, "post", "FAILED", "7")],
        PARTS[1:2],
        [(3, "print", 1, "FAILED", "3"), (9, "post", None, "FAILED", "7")],
    ),
    ("FAILED", [PRINTED], [], [(2, "print", None, "FAILED", "FAILED")]),
    ("FAILED", [], [item(1, "day", None, "FAILED", "NO DAY")], [(1, "day", None, "FAILED", "NO DAY")]),
    (
        "FAILED",
        [step(1, "load", "COMPLETED", "NO DATA")],
        [item(1, "load", None, "COMPLETED", "NO DATA")],
        [(1, "load", None, "COMPLETED", "NO DATA")],
    ),
    ("FAILED", [step(2, "b", "COMPLETED", "X", 5), step(1, "a", "COMPLETED", "Y", 4)], [], [(2, "b", None, "COMPLETED", "X")]),
    ("FAILED", [], [LOADED, item(2, "b", None, "COMPLETED", "X", 12)], [(2, "b", None, "COMPLETED", "X")]),
    ("FAILED", [], [], []),
    (
        "STOPPED",
        [step(1, "load", "COMPLETED"), step(2, "b", "STOPPED")],
        [LOADED, item(2, "b", None, "STOPPED")],
        [(2, "b", None, "STOPPED", "STOPPED")],
    ),
    ("STOPPED", [step(1, "load", "COMPLETED")], [LOADED], [(1, "load", None, "COMPLETED", "9 ROWS")]),
    ("ABANDONED", [PRINTED], PARTS[1:2], [(3, "print", 1, "FAILED", "3")]),
    ("COMPLETED", [PRINTED], PARTS, []),
    ("STARTED", [PRINTED], PARTS, []),
]


@pytest.mark.parametrize("status, steps, ended, causes", CAUSES)
def test_the_causes_of_a_batch_status(status: str, steps: Any, ended: Any, causes: Any) -> None:
    found = causes_of({"status": status}, steps, ended)
    assert [tuple(one)[:5] for one in found] == causes
    known = {one.held.work for one in ended}
    assert [one.is_whole_step for one in found] == [one.work not in known for one in found]


def test_who_did_what_is_told_of_each_job_execution() -> None:
    actions = Actions()
    start, restart = Action(1, "start", 2, 100, 1), Action(5, "restart", 3, 500, 4)
    stop, lose, purge = Action(2, "stop", 2**40, 2**41, 0), Action(3, "lose", 1, 300, 7), Action(9, "purge", 4, 900, 0)
    for execution, action in ((1, start), (1, stop), (3, Action(4, "start", 2, 400, 3)), (1, lose), (4, restart), (1, restart)):
        actions.note(execution, action)
    actions.note_purge(8, purge)
    assert actions.of(1, 8, ALL) == [purge, restart, lose, stop, start]
    assert actions.of(1, 8, Page(1, 2)) == [restart, lose] and actions.of(1, 8, Page(5, 2)) == []
    assert actions.of(4, 8, ALL) == [purge, restart] and actions.of(4, 9, ALL) == [restart]
    assert actions.of(2, 9, ALL) == []
    assert actions.sessions == {1, 2, 3, 4, 2**40}


async def test_an_engine_notes_who_did_what_and_what_is_busy() -> None:
    engine = Engine(CoProcess())
    lines: list[tuple[dict[str, Any], dict[str, Any]]] = [
        ({"do": "start", "job": "short"}, {"execution": 1}),
        ({"do": "claim"}, {"work": {"element": "only", "execution": 1, "kind": "batchlet", "ref": "only", "work": 1}}),
        ({"do": "lose", "work": 1}, {"done": True}),
        ({"do": "restart", "execution": 1}, {"execution": 2}),
        ({"do": "claim"}, {"work": {"element": "only", "execution": 2, "kind": "batchlet", "ref": "only", "work": 2}}),
    ]
    told = [{**line, "by": 2 + number, "at": number} for number, (line, _) in enumerate(lines)]
    engine.enter([json.dumps(one).encode() for one in told], [json.dumps(reply).encode() for _, reply in lines])
    of_first, of_second = [engine.actions.of(one, 1, ALL) for one in (1, 2)]
    assert of_first == [Action(4, "restart", 5, 3, 2), Action(3, "lose", 4, 2, 1), Action(1, "start", 2, 0, 1)]
    assert (of_second, engine.busy) == (of_first[:1], {2: 1})
    assert [one.held.work for one in engine.failed_work.of(1)] == [1]


def test_a_lease_is_late_if_its_worker_should_have_renewed_it() -> None:
    leases, now = Leases(10.0), time.monotonic()
    leases._ends = {1: now + 4.9, 2: now + 9.9, 3: now + 1.0}
    assert leases.late([1, 2, 4]) == [1]


async def test_for_how_long_no_worker_has_asked() -> None:
    desk = ClaimDesk(cast(Any, None))
    desk._asked_at -= 20.0
    assert desk.silence >= 20.0
    desk.note_asked()
    assert desk.silence < 10.0
    desk._asked_at -= 20.0
    desk._waiting.append(cast(Any, None))
    assert desk.silence == 0.0
