"""Starts that say once: by whichever client, for longer than other keys are kept, as long as the job instance is there."""

from __future__ import annotations

import asyncio
import json
import sqlite3
from collections.abc import Callable
from pathlib import Path
from typing import Any

import pytest
from conftest import NIGHTLY, SHORT, Say
from instances import Caller, Instance, running, until

from job_host.service.settings import Bounds, ServeSettings
from job_host.service.terms.calls import EVERYBODY_SESSION

Make = Callable[..., ServeSettings]
# Keys are dropped as soon as the service looks for old ones, which it does at its start.
NO_DAYS = Bounds(days_of_keys=0)


async def until_dropped(instance: Instance, session: int, key: str) -> None:
    """Returns after a key isn't kept any more."""
    term: Any = instance.service.keeper.term

    async def is_dropped() -> bool:
        return await term.find(session, key) is None

    await until(is_dropped)


async def test_a_start_that_says_once_is_made_once(settings: Make) -> None:
    async with running(settings()) as instance:
        one, other = Caller(instance.url, "one"), Caller(instance.url, "other")
        answers = await asyncio.gather(*(caller.start_once("a", date="1") for caller in [one, other] * 5))
        assert {(answer.status, answer.told["executionId"], answer.operations) for answer in answers} == {(201, 1, 1)}
        assert (await other.start_once("a", date="2")).name == "RequestKeyReused"
        assert (await one.start("short", key="a", date="1")).told["executionId"] == 2
        assert (await one.start_once("b", date="1")).told["executionId"] == 3
        body = {"jobName": "short"}
        for path in ("/batch/jobinstances?once=true", "/batch/jobinstances?once=1"):
            assert (await one.ask("POST", path, body)).name == "BadRequest"
        assert instance.service.keeper.operations == 3


async def test_a_key_that_says_once_outlives_the_others(either: Make) -> None:
    async with running(either(bounds=NO_DAYS)) as instance:
        caller = Caller(instance.url)
        first = await caller.start_once("a")
        await caller.start("short", key="b")
    async with running(either(bounds=NO_DAYS)) as instance:
        await until_dropped(instance, 2, "b")
        again = await Caller(instance.url, "other").start_once("a")
        assert (again.told, again.operations) == (first.told, 1)
        assert (await Caller(instance.url).start("short", key="b")).told["executionId"] == 3


async def test_a_key_that_says_once_goes_with_its_job_instance(either: Make) -> None:
    async with running(either(bounds=NO_DAYS)) as instance:
        caller = Caller(instance.url)
        for key in ("a", "b"):
            execution = (await caller.start_once(key)).told["executionId"]
            await caller.change(execution, "stop")
            await caller.ask("DELETE", f"/batch/jobinstances/{execution}")
        again = [await caller.start_once("a"), await caller.start_once("a")]
        assert [(answer.status, answer.told["executionId"]) for answer in again] == [(201, 3), (201, 3)]
    async with running(either(bounds=NO_DAYS)) as instance:
        await until_dropped(instance, EVERYBODY_SESSION, "b")
        assert (await Caller(instance.url).start_once("a")).told["executionId"] == 3


async def test_a_refusal_is_not_kept_by_a_key_that_says_once(either: Make, tmp_path: Path) -> None:
    def write(*jobs: Any) -> Path:
        path = tmp_path / "next.json"
        path.write_text(json.dumps({"jobs": jobs}))
        return path

    async with running(either(catalogue=write(NIGHTLY))) as instance:
        answers = [await Caller(instance.url).start_once("a") for _ in range(2)]
        assert [answer.name for answer in answers] == ["JobStartException"] * 2
    async with running(either(catalogue=write(NIGHTLY, SHORT))) as instance:
        assert (await Caller(instance.url).start_once("a")).told["executionId"] == 1


async def test_a_crash_between_log_and_key_leaves_one_start(embedded: Make) -> None:
    async with running(embedded()) as instance:
        caller, term = Caller(instance.url), instance.service.keeper.term
        store: Any = term._beside._store  # type: ignore[union-attr]

        def fail(*given: Any) -> None:
            raise sqlite3.OperationalError("the disk is full")

        store.note = fail
        assert (await caller.start_once("a")).status == 201
        await instance.until_role("starting")
        await instance.until_role("leader")
        again = await Caller(instance.url, "other").start_once("a")
        assert (again.status, again.told["executionId"], again.operations) == (201, 1, 1)


async def test_the_next_leader_starts_nothing_again(settings: Make) -> None:
    async with running(settings()) as one:
        first = await Caller(one.url).start_once("a")
        async with running(settings(), "follower") as two:
            await one.stop()
            await two.until_role("leader")
            again = await Caller(two.url, "other").start_once("a")
    assert (again.told, again.operations) == (first.told, 1)


@pytest.mark.parametrize("words", [["--once"], ["--key", "night"]])
async def test_the_command_says_which_job_execution_it_was(settings: Make, say: Say, words: list[str]) -> None:
    made = "job execution 1 of job instance 1 was made\n"
    async with running(settings()) as instance:
        caller, url = Caller(instance.url), instance.url
        start = ["start", "short", "-p", "date=1", "-p", "place=2", *words]
        assert await say(url, *start, "--client", "one") == (0, made)
        again = ["start", "short", "-p", "place=2", "-p", "date=1", *words, "--client", "other"]
        assert await say(url, *again) == (0, made)
        await caller.claim()
        await caller.finish(1, "FAILED")
        assert await say(url, *again, "--wait") == (3, made + "job execution 1 is FAILED, exit status FAILED\n")
        other = await say(url, "start", "short", "-p", "date=2", *words)
        reused = (1, "jobhost: RequestKeyReused: another request was made with this key\n")
        assert other == ((0, made.replace("1", "2")) if words == ["--once"] else reused)
        assert (await say(url, *start[: -len(words)]))[0] == 0
        assert (await say(url, "start", "short", "--key", ""))[0] == 1
        with pytest.raises(SystemExit):
            await say(url, "start", "short", "--once", "--key", "night")
