"""What a list of job executions says if it is asked: failed steps, the job's past, and days; and a search in logs."""

from __future__ import annotations

from collections.abc import Callable
from typing import Any

import pytest
from instances import Caller, running
from test_open import Clock, end

from job_host.service.history.actions import Action, Actions
from job_host.service.keepers.details import Past, past_of
from job_host.service.settings import ServeSettings

Make = Callable[..., ServeSettings]
DAY = 86_400_000


async def rows(caller: Caller, words: str = "") -> list[Any]:
    answer = await caller.ask("GET", "/batch/jobexecutions" + words)
    assert answer.status == 200, answer.told
    return list(answer.told["jobExecutions"])


@pytest.mark.parametrize(
    ("took", "past"),
    [([], None), ([4000], Past(4.0, 4.0)), ([1000, 2000, 9000], Past(2.0, 9.0)), ([1, 2], Past(0.0015, 0.002))],
)
def test_the_past_of_a_job(took: list[int], past: Past | None) -> None:
    assert past_of(took) == past


async def test_failed_steps_and_the_past_if_details_are_asked(settings: Make, monkeypatch: pytest.MonkeyPatch) -> None:
    clock = Clock(monkeypatch)
    async with running(settings()) as instance:
        desk, farm = Caller(instance.url, "desk"), Caller(instance.url, "farm")
        for minutes in (5, 1, 3):
            await desk.start("short")
            await farm.claim()
            clock.ahead += minutes * 60_000
            await farm.finish((await desk.ask("GET", "/batch/work")).told[0]["work"])
        await desk.start("wide")
        for number in range(8):
            await farm.claim()
        for number in range(8):
            await farm.finish(number + 4, "FAILED" if number in (2, 5) else "COMPLETED")
        await desk.start("nightly")
        await end(farm, "COMPLETED")
        await end(farm, "FAILED")
        told = await rows(desk, "?details=true")
        assert [one["failedSteps"] for one in told] == [["report"], ["print"], [], [], []]
        assert [one["past"] for one in told[:2]] == [None, None]
        assert [(round(one["past"]["median"]), round(one["past"]["longest"])) for one in told[2:]] == [(180, 300)] * 3
        plain = await rows(desk)
        added = {"failedSteps", "past"}
        assert plain == [{name: value for name, value in one.items() if name not in added} for one in told]
        assert not added & plain[0].keys()
        assert (await desk.ask("GET", "/batch/jobexecutions?details=1")).name == "BadRequest"
        await desk.ask("DELETE", "/batch/jobinstances/1")
        assert round((await rows(desk, "?details=true&jobName=short"))[0]["past"]["longest"]) == 180


def test_when_a_job_execution_was_made() -> None:
    actions = Actions()
    for operation, execution in ((1, 1), (2, 2), (3, 1), (4, 1)):
        actions.note(execution, Action(operation, "start" if operation < 3 else "stop", 2, operation * 100, 0))
    assert [actions.made_at(execution) for execution in (1, 2)] == [100, 200]


async def test_job_executions_of_some_days(settings: Make, monkeypatch: pytest.MonkeyPatch) -> None:
    """A day ends with its last millisecond. A restart is of its own day."""
    clock = Clock(monkeypatch)
    async with running(settings()) as instance:
        caller = Caller(instance.url)
        assert await rows(caller, "?createdFrom=2000-01-01&createdUntil=2999-12-31") == []
        await caller.start("short")
        await end(caller, "FAILED")
        for change in ("start", "restart", "start"):
            clock.ahead += 2 * DAY
            await (caller.start("nightly") if change == "start" else caller.change(1, change))
        days = [one["createTime"][:10].replace("/", "-") for one in reversed(await rows(caller))]

        async def found(words: str) -> list[int]:
            return [one["executionId"] for one in await rows(caller, words)]

        assert await found(f"?createdFrom={days[1]}") == [4, 3, 2]
        assert await found(f"?createdUntil={days[1]}") == [2, 1]
        assert await found(f"?createdFrom={days[2]}&createdUntil={days[2]}") == [3]
        assert await found(f"?createdFrom={days[2]}&createdUntil={days[1]}") == []
        assert await found(f"?createdFrom={days[0]}&createdUntil={days[3]}") == [4, 3, 2, 1]
        assert await found(f"?createdUntil={days[2]}&status=FAILED") == [1]
        told = (await caller.ask("GET", f"/batch/jobexecutions?createdUntil={days[1]}&pageSize=1")).told
        assert (told["more"], told["total"], told["jobExecutions"][0]["executionId"]) == (True, None, 2)
        for wrong in ("2026-13-01", "27.11.2026", "", "2026-11-27T00:00"):
            assert (await caller.ask("GET", f"/batch/jobexecutions?createdFrom={wrong}")).name == "BadRequest"


async def test_logs_that_have_a_text(either: Make) -> None:
    async with running(either()) as instance:
        caller = Caller(instance.url)
        await caller.start("wide")
        for _ in range(4):
            await caller.claim()
        for work, log in enumerate(["all is well", "No SPACE left", "100% of it_self", "no space"], 1):
            await caller.finish(work, log=log)

        async def found(words: str) -> list[int]:
            answer = await caller.ask("GET", f"/batch/jobexecutions/1/joblogs?{words}")
            return [one["work"] for one in answer.told]

        assert await found("search=no+space") == await found("search=No+Space&sizes=true") == [2, 4]
        assert await found("search=no+space&pageSize=1&page=1") == [4]
        assert await found("search=space&stepName=none") == await found("search=nowhere") == await found("search=%00") == []
        assert await found("search=%25") == await found("search=t_s") == [3]
        assert await found("search=") == [1, 2, 3, 4]
        text = (await caller.ask("GET", "/batch/jobexecutions/1/joblogs?search=left&type=text")).told
        assert text == "# work item 2, print\nNo SPACE left\n"
        assert (await caller.ask("GET", f"/batch/jobexecutions/1/joblogs?search={'x' * 257}")).name == "BadRequest"
