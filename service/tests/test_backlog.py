"""The backlog: what is told to be ready is never more than claims find, in random histories; and how `/metrics` shows it."""

from __future__ import annotations

import json
import random
from collections.abc import AsyncIterator, Callable, Sequence
from contextlib import asynccontextmanager
from typing import Any

import pytest
from conftest import STAND_IN, batchlet
from instances import Caller, running

from job_host.commands.program import find_batchctl
from job_host.protocol.lines import command, compact, read
from job_host.service.history.backlog import Backlog, backlog_of, widths_in
from job_host.service.history.base import Base, LastEnded, MadeExecution
from job_host.service.history.coprocess import CoProcess
from job_host.service.history.engine import Engine
from job_host.service.history.log_file import Head
from job_host.service.history.work_items import Ended, EndedWork, Held
from job_host.service.problems import Problem
from job_host.service.settings import ServeSettings

Make = Callable[..., ServeSettings]
FIRST = {"id": "first", "elements": [batchlet("print", "x", partitions=5, next="mail"), batchlet("mail", "x")]}
ONE = {"id": "one", "elements": [batchlet("only", "x")]}
LATER = {
    "id": "later",
    "elements": [batchlet("load", "x", next="sort"), batchlet("sort", "x", partitions=4, next="end"), batchlet("end", "x")],
}
FLOWS = [
    {"kind": "flow", "id": "left", "elements": [batchlet("a", "x", partitions=2, next="b"), batchlet("b", "x")]},
    {"kind": "flow", "id": "right", "elements": [batchlet("c", "x", next="d"), batchlet("d", "x", partitions=3)]},
]
SPLIT = {"id": "split", "elements": [{"kind": "split", "id": "s", "flows": FLOWS, "next": "last"}, batchlet("last", "x")]}
# The stand-in knows no splits.
HAS_SPLITS = find_batchctl(None) != (str(STAND_IN),)
ALL = [FIRST, ONE, LATER, *([SPLIT] if HAS_SPLITS else [])]


class History:
    """A history that a test makes, in a program with an engine over it."""

    def __init__(self, engine: Engine) -> None:
        self.engine = engine
        self.lines: list[bytes] = []
        self.replies: list[dict[str, Any]] = []

    async def say(self, do: str, **members: Any) -> dict[str, Any]:
        """Makes a call. Its moment is its number."""
        line = command(do, 2, len(self.lines) + 1, members)
        heard: list[bytes | None] = []
        async with self.engine.turn:
            self.engine.command(line, lambda reply, number, seen: heard.append(reply))
            await self.engine.ask([b'{"ask":"status_counts"}'])
        assert heard[0] is not None
        told = read(heard[0])
        if not {"refused", "nothing"} & told.keys():
            self.lines.append(line)
        return told

    async def backlog(self) -> Backlog:
        await self.engine.open.settle()
        return backlog_of(self.engine)

    async def claims_that_find(self) -> int:
        """How many claims find something now. They are made in another program, with the same operations."""
        async with program(json.loads(self.engine.process.catalogue)["jobs"]) as process:
            for line in self.lines:
                await process.ask(line)
            count = 0
            while "nothing" not in read(await process.ask(command("claim", 3, 10**6 + count, {}))):
                count += 1
        return count


@asynccontextmanager
async def program(jobs: Sequence[Any]) -> AsyncIterator[CoProcess]:
    process = await CoProcess.start([*find_batchctl(None), "script"], compact({"jobs": jobs}))
    try:
        yield process
    finally:
        await process.close()


@asynccontextmanager
async def history(jobs: Sequence[Any], most_ended: int = 100_000) -> AsyncIterator[History]:
    async with program(jobs) as process:
        made = History(Engine(process))
        made.engine.ended_work = EndedWork(most_ended)
        yield made


async def go_on(made: History, dice: random.Random, words: Sequence[str]) -> None:
    """Makes one call of these."""
    word = dice.choice(words)
    executions = range(1, made.engine.executions.last + 1)
    if word == "start":
        names = [job["id"] for job in json.loads(made.engine.process.catalogue)["jobs"]]
        await made.say("start", job=dice.choice(names), parameters={})
    elif word == "claim":
        await made.say("claim")
    elif word in ("finish", "lose") and made.engine.held:
        outcome: dict[str, Any] = {"outcome": dice.choice(["COMPLETED", "COMPLETED", "FAILED"])} if word == "finish" else {}
        await made.say(word, work=dice.choice(list(made.engine.held)), **outcome)
    elif word in ("stop", "restart") and executions:
        more: dict[str, Any] = {"parameters": {}} if word == "restart" else {}
        await made.say(word, execution=dice.choice(executions), **more)


CALLS = ["start", "claim", "claim", "claim", "finish", "finish", "lose", "stop", "restart", "restart"]


@pytest.mark.parametrize("most_ended", [100_000, 3])
async def test_no_more_is_told_than_claims_find(most_ended: int) -> None:
    """Also after restarts, stops and splits, and if most of what ended is forgotten."""
    told, less = 0, 0
    for seed in range(6):
        dice = random.Random(seed)
        async with history(ALL, most_ended) as made:
            for _ in range(10):
                for _ in range(6):
                    await go_on(made, dice, CALLS)
                found, count = await made.backlog(), await made.claims_that_find()
                assert 0 <= found.ready <= count, (seed, made.lines)
                assert (found.since is None) == (found.ready == 0) and found.busy == len(made.engine.held)
                told, less = told + found.ready, less + (found.ready < count)
    assert told > 100 and less > 0


async def test_of_starts_whose_first_step_is_the_widest_all_is_told() -> None:
    for seed in range(4):
        dice = random.Random(seed)
        async with history([FIRST, ONE]) as made:
            for _ in range(10):
                for _ in range(4):
                    await go_on(made, dice, ["start", "claim", "claim", "claim", "finish", "finish", "stop"])
                assert (await made.backlog()).ready == await made.claims_that_find(), (seed, made.lines)


async def test_since_when_the_oldest_is_ready() -> None:
    """A moment is the number of its call. A partition is ready before the first claim of its step, whose moment is known."""
    async with history([FIRST, LATER]) as made:
        seen = [await made.backlog()]

        async def say(do: str, **members: Any) -> None:
            await made.say(do, **members)
            seen.append(await made.backlog())

        await say("start", job="later")
        await say("claim")
        await say("start", job="first")
        await say("claim")
        await say("finish", work=1, outcome="COMPLETED")
        for _ in range(4):
            await say("claim")
        await say("finish", work=2, outcome="COMPLETED")
    assert [tuple(one) for one in seen] == [
        (0, None, 0),
        *[(1, 1, 0), (0, None, 1), (5, 3, 1), (4, 4, 2)],
        # `sort` is come to: of its 4 partitions one is known until it is claimed.
        *[(5, 4, 1), (7, 4, 2), (6, 4, 3), (5, 4, 4), (4, 4, 5)],
        (4, 4, 4),
    ]


async def test_a_restart_has_what_was_not_completed() -> None:
    async with history([FIRST]) as made:
        await made.say("start", job="first", parameters={})
        for _ in range(5):
            await made.say("claim")
        for work, outcome in enumerate(["COMPLETED", "FAILED", "COMPLETED", "FAILED", "FAILED"], 1):
            await made.say("finish", work=work, outcome=outcome)
        await made.say("restart", execution=1, parameters={})
        assert (await made.backlog()).ready == 1
        await made.say("claim")
        assert (await made.backlog()).ready == 2 == await made.claims_that_find()
        await made.say("stop", execution=2)
        assert (await made.backlog()).ready == 0 == await made.claims_that_find()


async def test_what_a_base_has_forgotten_is_known() -> None:
    """A log was compacted of which more work items had ended than are told: so partitions of that time don't count."""
    base = Base(Head(9, 1, 1, 4, 5), [MadeExecution(1, 1, 5)], ended=LastEnded(1))
    # In a base they stand by their numbers, and not in the order of their ends.
    for work, operation in ((1, 8), (2, 7), (3, 6)):
        ended = Ended(Held(work, 1, "print", work, 2, 5 + work), 10 * operation, "COMPLETED", None)
        base.ended.add(operation, ended)
    engine = Engine(CoProcess())
    engine.begin(base)
    assert [one.held.work for one in engine.ended_work.of(1)] == [1]
    assert engine.ended_work.forgotten_until == 70 > engine.actions.made_at(1)


def test_widths_of_jobs() -> None:
    widths = widths_in(compact({"jobs": [FIRST, ONE, LATER, SPLIT]}))
    assert {name: (dict(one.steps), one.first) for name, one in widths.items()} == {
        "first": ({"print": 5}, 5),
        "one": ({}, 1),
        "later": ({"sort": 4}, 1),
        "split": ({"a": 2, "d": 3}, 3),
    }


def backlog_in(text: str) -> list[str]:
    return [line for line in text.splitlines() if line.startswith("jobhost_queue_")]


async def test_metrics_of_the_backlog(embedded: Make, monkeypatch: pytest.MonkeyPatch) -> None:
    async with running(embedded()) as instance:
        caller = Caller(instance.url)

        async def metrics() -> str:
            return str((await caller.ask("GET", "/metrics")).told)

        assert backlog_in(await metrics()) == [
            'jobhost_queue_ready_at_least{queue="default"} 0.0',
            'jobhost_queue_busy{queue="default"} 0.0',
            'jobhost_queue_oldest_ready_at_least_seconds{queue="default"} 0.0',
        ]
        await caller.start("wide")
        await caller.start("short")
        await caller.claim()
        since = instance.service.keeper.reading().last_moment
        monkeypatch.setattr("job_host.service.terms.moments.clock", lambda: since + 90_000)
        ready, busy, oldest = backlog_in(text := await metrics())
        assert (ready[-4:], busy[-4:]) == (" 8.0", " 1.0") and 90.0 <= float(oldest.split()[1]) < 100
        for name in ("ready_at_least", "busy", "oldest_ready_at_least_seconds"):
            assert f"# TYPE jobhost_queue_{name} gauge" in text
        assert "# HELP jobhost_queue_ready_at_least At least " in text

        async def fails(keeper: Any) -> Backlog:
            raise Problem("Starting", 503)

        monkeypatch.setattr("job_host.service.metrics.backlog", fails)
        assert backlog_in(await metrics()) == []


async def test_a_follower_shows_the_backlog_too(settings: Make) -> None:
    async with running(settings()) as leader, running(settings(), "follower") as follower:
        seen = (await Caller(leader.url).start("wide")).operations
        await Caller(follower.url).ask("GET", f"/batch/jobs?atLeast={seen}")
        told = backlog_in(str((await Caller(follower.url).ask("GET", "/metrics")).told))
        assert told[:2] == ['jobhost_queue_ready_at_least{queue="default"} 8.0', 'jobhost_queue_busy{queue="default"} 0.0']
