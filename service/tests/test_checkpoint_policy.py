"""When a group of a chunk ends: after items, after seconds, or by an algorithm."""

from __future__ import annotations

import asyncio
from collections.abc import Callable
from typing import Any

import pytest
from chunk_parts import Bench

from job_host.worker import checkpoint_policy
from job_host.worker.artifacts import Ended
from job_host.worker.checkpoint_policy import CustomPolicy, ItemPolicy

ALGORITHM = {"checkpoint-algorithm": {"ref": "hourly"}}
USE = "checkpoint-algorithm"
BUSY = "rows.Busy"
RETRY = {"retryable-exception-classes": {"include": [BUSY]}}


async def test_a_group_ends_after_its_items_or_its_seconds() -> None:
    now = [100.0]
    policy = ItemPolicy(3, 10, lambda: now[0])
    assert await policy.begin() is None
    assert [await policy.is_ready(items) for items in (0, 1, 2, 3, 4)] == [False, False, False, True, True]
    now[0] = 109.9
    assert not await policy.is_ready(1)
    now[0] = 110.0
    assert await policy.is_ready(1)
    await policy.begin()
    assert not await policy.is_ready(1)


async def test_without_a_limit_of_seconds_the_items_alone_count() -> None:
    now = [0.0]
    policy = ItemPolicy(3, 0, lambda: now[0])
    await policy.begin()
    now[0] = 1e9
    assert [await policy.is_ready(items) for items in (0, 2, 3)] == [False, False, True]


@pytest.mark.parametrize(("seconds", "marks"), [(0, ["4", "5"]), (3, ["3", "5"]), (2, ["2", "4", "5"]), (4, ["4", "5"])])
async def test_a_chunk_takes_checkpoints_by_seconds_too(
    monkeypatch: pytest.MonkeyPatch, seconds: int, marks: list[str]
) -> None:
    """Each item takes a second. The checkpoint is taken after items or seconds, whichever comes first."""
    bench = Bench(5)
    monkeypatch.setattr(checkpoint_policy.ItemPolicy.__init__, "__defaults__", (0, lambda: float(bench.place)))
    assert await bench.run({"time-limit": seconds}, item_count=4) == Ended("COMPLETED")
    assert bench.marks == marks


async def test_seconds_end_a_group_whose_reads_are_all_skipped(monkeypatch: pytest.MonkeyPatch) -> None:
    bench = Bench(5, {f"read {number}": ["a.B"] for number in (1, 2, 3)})
    monkeypatch.setattr(checkpoint_policy.ItemPolicy.__init__, "__defaults__", (0, lambda: float(bench.place)))
    chunk = {"time-limit": 2, "skippable-exception-classes": {"include": ["a.B"]}}
    ended = await bench.run(chunk, item_count=4)
    assert (bench.marks, bench.written) == (["2", "4", "5"], [["4"], ["5"]])
    assert bench.sums(ended) == {"READ_COUNT": 2, "WRITE_COUNT": 2, "COMMIT_COUNT": 3, "READ_SKIP_COUNT": 3}


def after_items(*counts: int, **begin: Any) -> Callable[[dict[str, Any]], dict[str, Any]]:
    """An algorithm whose groups have so many items in turn."""
    turns, left = iter(counts), [0]

    def answer(asked: dict[str, Any]) -> dict[str, Any]:
        if asked["do"] == "begin":
            left[0] = next(turns)
            return begin
        if asked["do"] == "ready":
            left[0] -= 1
            return {"ready": left[0] == 0}
        return {}

    return answer


async def test_an_algorithm_is_asked_after_each_item() -> None:
    """The number of items counts for nothing then."""
    bench = Bench(4, {"process 2": ["a.B"]}, dropped=[1])
    bench.others[USE] = after_items(3, 2)
    chunk: dict[str, Any] = {**ALGORITHM, "skippable-exception-classes": {"include": ["a.B"]}}
    assert await bench.run(chunk, item_count=1) == Ended("COMPLETED")
    assert (bench.marks, bench.written) == (["3", "4"], [["3"], ["4"]])
    assert bench.told(USE, "writer", "reader") == [
        *("writer open None", "reader open None", f"{USE} open", f"{USE} begin"),
        *("reader read", f"{USE} ready", "reader read", f"{USE} ready", "reader read", f"{USE} ready"),
        *("reader checkpoint", "writer write ['3'] 1", f"{USE} end", f"{USE} begin"),
        *("reader read", f"{USE} ready", "reader read", "reader checkpoint", "writer write ['4'] 2", f"{USE} end"),
        *bench.told(USE, "writer", "reader")[-3:],
    ]


async def test_a_rerun_is_item_by_item_without_the_algorithm() -> None:
    bench = Bench(4, {"process 2": [BUSY]})
    bench.others[USE] = after_items(3, 3, 1)
    assert (await bench.run({**ALGORITHM, **RETRY}, item_count=1)).outcome == "COMPLETED"
    assert bench.written == [["1"], ["2"], ["3", "4"]]
    told = [line.removeprefix(f"{USE} ") for line in bench.told(USE)]
    assert told == ["open", "begin", "ready", "begin", "ready", "ready", "end", "closed"]


async def test_a_group_that_isnt_written_in_its_time_fails_the_chunk() -> None:
    bench = Bench(4)
    bench.others[USE] = after_items(2, 2, timeout=0.05)
    ask = CustomPolicy.is_ready

    async def late(policy: CustomPolicy, items: int) -> bool:
        await asyncio.sleep(0.5 if bench.place == 3 else 0)
        return await ask(policy, items)

    with pytest.MonkeyPatch.context() as patch:
        patch.setattr(CustomPolicy, "is_ready", late)
        ended = await bench.run(ALGORITHM)
    assert ended == Ended("FAILED", None, {"ROLLBACK_COUNT": 1})
    assert bench.written == [["1", "2"]]
    assert bench.tail.text() == "jobhost: the group took longer than 0.05 seconds\n"


@pytest.mark.parametrize(
    ("begin", "told"),
    [
        ({"timeout": "5"}, "the timeout of a group is a number of seconds"),
        ({"timeout": -1}, "the timeout of a group is a number of seconds"),
        ({"timeout": True}, "the timeout of a group is a number of seconds"),
        ({"fault": "no clock", "class": BUSY}, "begin: no clock"),
    ],
)
async def test_a_wrong_answer_of_an_algorithm_fails_the_chunk(begin: dict[str, Any], told: str) -> None:
    """Its faults are neither skipped nor tried again."""
    bench = Bench(4)
    bench.others[USE] = after_items(2, 2, **begin)
    assert await bench.run({**ALGORITHM, **RETRY}) == Ended("FAILED", None, {"ROLLBACK_COUNT": 1})
    assert told in bench.tail.text() and bench.written == []


@pytest.mark.parametrize("answer", [{}, {"ready": "true"}, {"ready": 1}, {"ready": None}])
async def test_ready_is_answered_a_truth_value(answer: dict[str, Any]) -> None:
    bench = Bench(4)
    bench.others[USE] = lambda asked: answer if asked["do"] == "ready" else {}
    assert (await bench.run(ALGORITHM)).outcome == "FAILED"
    assert "hourly: ready is answered true or false" in bench.tail.text()


@pytest.mark.parametrize(("answer", "seconds"), [({}, None), ({"timeout": 0}, None), ({"timeout": 2.5}, 2.5)])
async def test_an_algorithm_may_leave_the_time_out(answer: dict[str, Any], seconds: float | None) -> None:
    bench = Bench(0)
    bench.others[USE] = lambda _: answer
    assert await CustomPolicy("hourly", await bench.start(USE)).begin() == seconds
