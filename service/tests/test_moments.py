"""Moments of operations: they never go back in the order of the history, and a clock that jumps is warned of once."""

from __future__ import annotations

import asyncio
import json
import random
from collections.abc import Callable
from typing import Any

import asyncpg
import pytest
from instances import Answer, Caller, Instance, running, until

from job_host.service.history import log_file
from job_host.service.keepers.embedded import LOG_NAME
from job_host.service.keepers.embedded_term import EmbeddedTerm
from job_host.service.problems import Problem
from job_host.service.settings import ServeSettings
from job_host.service.terms import moments
from job_host.service.terms.calls import Call
from job_host.service.terms.moments import JUMP, REST, Moments

Make = Callable[..., ServeSettings]

DAY = 86_400_000
# 2026-11-29 and 2100-01-01, in milliseconds.
NOW, FAR = 1_795_910_400_000, 4_102_444_800_000


class Clock:
    """The machine's clock and its uptime, as a test sets them."""

    def __init__(self, now: int) -> None:
        self.now, self.up = now, 1_000

    def pass_by(self, milliseconds: int) -> None:
        self.now += milliseconds
        self.up += milliseconds


@pytest.fixture
def clock(monkeypatch: pytest.MonkeyPatch) -> Clock:
    made = Clock(NOW)
    monkeypatch.setattr(moments, "clock", lambda: made.now)
    monkeypatch.setattr(moments, "uptime", lambda: made.up)
    return made


def warned(caplog: pytest.LogCaptureFixture) -> list[str]:
    """What was said of the clock, without its first words and its last ones."""
    lines = [record.getMessage() for record in caplog.records if record.name == "job_host.service.terms.moments"]
    assert all(line.startswith("this machine's clock, ") and line.endswith(moments.STAYS) for line in lines)
    return [line.partition("+0000, ")[2].partition(": ")[0] for line in lines]


def test_each_moment_is_greater_than_the_one_before_it(clock: Clock) -> None:
    made = Moments(NOW - 5)
    assert [made.next(), made.next()] == [NOW, NOW + 1]
    clock.pass_by(10)
    assert made.next() == NOW + 10
    clock.now -= DAY
    assert [made.next(), made.next()] == [NOW + 11, NOW + 12]


def test_a_clock_that_goes_on_is_not_warned_of(clock: Clock, caplog: pytest.LogCaptureFixture) -> None:
    """It rests for weeks, is set a little now and then, and a new history has no moment before."""
    Moments()
    made = Moments(NOW - REST + 1)
    for _ in range(100):
        clock.pass_by(DAY)
        made.look()
        clock.now += random.choice([-1, 1]) * (JUMP - 1)
        made.look()
        made.next()
    assert warned(caplog) == []


def test_a_clock_that_is_far_away_at_the_start_is_warned_of_once(clock: Clock, caplog: pytest.LogCaptureFixture) -> None:
    made = Moments(NOW - REST)
    for _ in range(100):
        made.look()
        assert made.next() >= NOW
    assert warned(caplog) == ["far ahead of the last operation's moment 2026/10/29 00:00:00.000 +0000"]
    caplog.clear()
    made = Moments(FAR)
    for number in range(1, 100):
        made.look()
        assert made.next() == FAR + number
    assert warned(caplog) == ["is far behind the last operation's moment 2100/01/01 00:00:00.000 +0000"]


def test_each_jump_of_the_clock_is_warned_of_once(clock: Clock, caplog: pytest.LogCaptureFixture) -> None:
    made = Moments(NOW - 1)
    for change, told in [
        (2 * JUMP, ["has jumped ahead from 2026/11/29 00:00:01.000 +0000"]),
        (-2 * JUMP, ["is far behind the last operation's moment 2026/11/29 00:02:01.000 +0000"]),
        (DAY, ["has jumped ahead from 2026/11/29 00:00:03.000 +0000"]),
        (-DAY, ["is far behind the last operation's moment 2026/11/30 00:00:03.000 +0000"]),
        (-DAY, []),
    ]:
        caplog.clear()
        clock.pass_by(1_000)
        clock.now += change
        for _ in range(10):
            made.look()
        made.next()
        assert warned(caplog) == told


async def operations(made: ServeSettings) -> list[dict[str, Any]]:
    """The lines of a history's operations, in their order."""
    if not made.postgres:
        return [json.loads(one.line) for one in log_file.records(made.data / LOG_NAME) if not one.is_catalogue]
    table = await asyncpg.connect(made.postgres[0])
    rows = await table.fetch("select line from job_host_operation order by number")
    await table.close()
    return [json.loads(row["line"]) for row in rows]


async def test_calls_wait_for_the_end_of_a_read_of_several_steps(embedded: Make) -> None:
    made = embedded()
    async with running(made) as instance:
        caller, engine = Caller(instance.url), instance.service.keeper.engine
        assert engine is not None and (await caller.start("short")).status == 201
        async with engine.turn:
            calls: list[asyncio.Task[Answer]] = []
            for number in range(6):
                body, key = {"jobName": "short"}, f"key-{number}" if number % 2 else None
                calls.append(asyncio.create_task(caller.ask("POST", "/batch/jobinstances", body, key)))
                await asyncio.sleep(0.05)
            assert engine.entered == 1
        assert [call.status for call in await asyncio.gather(*calls)] == [201] * 6
    given = [line["at"] for line in await operations(made)]
    assert len(given) == 7 and given == sorted(set(given))


async def begin_many(instance: Instance) -> list[Answer]:
    """Calls with keys and without, of clients that are known and of new ones, at random moments."""
    chance = random.Random(1)

    async def call(number: int) -> Answer:
        await asyncio.sleep(chance.uniform(0, 1.0))
        caller = Caller(instance.url, f"client-{chance.randrange(150)}")
        if chance.random() < 0.3:
            return await caller.ask("GET", "/batch/jobinstances")
        key = f"key-{number}" if chance.random() < 0.5 else None
        return await caller.ask("POST", "/batch/jobinstances", {"jobName": "short"}, key)

    return await asyncio.gather(*(call(number) for number in range(300)))


async def test_moments_never_go_back_in_the_order_of_the_history(either: Make) -> None:
    made = either()
    async with running(made) as instance:
        answers = await begin_many(instance)
    assert {answer.status for answer in answers} == {200, 201}
    given = [line["at"] for line in await operations(made)]
    assert len(given) > 100 and given == sorted(set(given))


async def test_a_call_that_makes_no_line_fails_alone(embedded: Make) -> None:
    """One has what isn't a number, and one more lists in one another than can be written."""
    deep: Any = []
    for _ in range(100_000):
        deep = [deep]
    async with running(embedded()) as instance:
        caller, term = Caller(instance.url), instance.service.keeper.term
        assert isinstance(term, EmbeddedTerm) and (await caller.start("short")).status == 201
        for members, fault in (({"work": float("nan")}, Problem), ({"work": 1, "metrics": deep}, RecursionError)):
            wrong = [term.begin(Call("tester", "finish", members, key)) for key in ("a", None)]
            answers = await asyncio.gather(*wrong, caller.start("short"), return_exceptions=True)
            assert [type(answer) for answer in answers] == [fault, fault, Answer]
            assert isinstance(answers[2], Answer) and answers[2].status == 201
        assert term.failure is None


async def test_a_history_of_the_year_2100_goes_on_there_and_says_so_once(
    either: Make, clock: Clock, caplog: pytest.LogCaptureFixture
) -> None:
    made = either()
    clock.now = FAR
    async with running(made) as instance:
        await Caller(instance.url).start("short")
    clock.now = NOW
    async with running(made) as instance:
        for _ in range(20):
            assert (await Caller(instance.url).start("short")).status == 201
        await asyncio.sleep(1.5)
        row = (await Caller(instance.url).ask("GET", "/batch/jobexecutions/21")).told
    assert row["createTime"].startswith("2100/01/01 00:00:00.0")
    assert [line["at"] for line in await operations(made)] == list(range(FAR, FAR + 21))
    assert warned(caplog) == ["is far behind the last operation's moment 2100/01/01 00:00:00.000 +0000"]


async def test_a_jump_is_told_before_the_next_operation(either: Make, clock: Clock, caplog: pytest.LogCaptureFixture) -> None:
    async with running(either()) as instance:
        await Caller(instance.url).start("short")
        clock.now = FAR

        async def is_told() -> bool:
            return warned(caplog) == ["has jumped ahead from 2026/11/29 00:00:00.000 +0000"]

        await until(is_told, 10.0)
        for _ in range(20):
            assert (await Caller(instance.url).start("short")).status == 201
        assert await is_told()
