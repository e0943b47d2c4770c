"""What an embedded service knows of the history outlives its batchctl: the log is compared, and not entered again."""

from __future__ import annotations

import asyncio
import shutil
import sqlite3
import subprocess
from collections.abc import Callable
from contextlib import closing
from dataclasses import replace
from pathlib import Path
from typing import Any, cast

import pytest
from instances import Caller, Instance, running, until
from kept import engine_of, executions, make_some, until_epoch, until_noted

from job_host.service.history import log_file
from job_host.service.history.coprocess import CoProcess
from job_host.service.history.engine import Engine
from job_host.service.history.tags import TAB
from job_host.service.keepers.embedded import LOG_NAME
from job_host.service.keepers.embedded_term import EmbeddedTerm
from job_host.service.settings import ServeSettings
from job_host.service.stores.beside_files import STORE_NAME

Make = Callable[..., ServeSettings]


async def kill_batchctl(instance: Instance) -> None:
    """Returns after the service leads again."""
    epoch = instance.service.keeper.epoch
    engine_of(instance).process.kill()
    await until_epoch(instance, epoch + 1)


async def until_state(engine: Engine) -> None:
    """Returns after batchctl was asked how things are after the last operation."""

    async def is_known() -> bool:
        return engine.state is not None

    await until(is_known)


async def test_after_a_kill_nothing_is_entered_again(
    embedded: Make, monkeypatch: pytest.MonkeyPatch, started: list[str], entered: list[Any]
) -> None:
    monkeypatch.setattr("job_host.service.keepers.keeper.ASK_SECONDS", 0.05)
    async with running(embedded()) as instance:
        one, two = Caller(instance.url, "one"), Caller(instance.url, "two")
        await make_some(instance.url)
        await until_state(engine_of(instance))
        before = [(await one.ask("GET", path)).told for path in ("/batch/work", "/batch/jobexecutions/3/workitems")]
        started.clear()
        entered.clear()
        await kill_batchctl(instance)
        assert (entered, started) == ([], ["", "--log"])
        after = [(await one.ask("GET", path)).told for path in ("/batch/work", "/batch/jobexecutions/3/workitems")]
        assert [[one["work"], one["client"]] for told in after for one in told] == [[3, "two"]] * 2
        assert [one["since"] for told in after for one in told] == [one["since"] for told in before for one in told]
        assert await executions(one) == [4, 3, 2] and await executions(one, "?mostRecent=true") == [4, 3]
        assert await executions(one, "?search=day-wide") == [3] and await executions(one, "?status=FAILED") == [2]
        assert (await one.finish(3)).name == "NotClaimer" and (await two.finish(3)).status == 200
        assert (await Caller(instance.url, "three").start("short")).operations == 12
        await until_noted(instance)
        assert len(engine_of(instance).recent) == 1
        await kill_batchctl(instance)
        assert await executions(one) == [5, 4, 3, 2] and engine_of(instance).entered == 12


async def lose_reply(instance: Instance, path: Path, make: Callable[[Caller], Any]) -> None:
    """Makes a call whose line is in the log, and whose reply never comes: batchctl is killed, and the service leads again."""
    term = instance.service.keeper.term
    assert isinstance(term, EmbeddedTerm)
    process, queue = term.engine.process, term._queue
    count, epoch = sum(1 for _ in log_file.records(path)), instance.service.keeper.epoch

    def hand(item: Any) -> None:
        queue.append(item)
        process._write(item.tag + TAB + item.line + b"\n")

    async def is_in_log() -> bool:
        return sum(1 for _ in log_file.records(path)) > count

    open_term = cast(Any, term)
    open_term.hand = hand
    call = asyncio.create_task(make(Caller(instance.url, "one")))
    await until(is_in_log)
    process.kill()
    assert (await call).status == 503
    await until_epoch(instance, epoch + 1)


async def test_an_operation_whose_reply_never_came_is_entered(embedded: Make, entered: list[Any]) -> None:
    made = embedded()
    path = made.data / LOG_NAME
    async with running(made) as instance:
        caller = Caller(instance.url, "one")
        await make_some(instance.url)
        for make in (lambda one: one.start("nightly", key="a"), lambda one: one.claim(key="b")):
            entered.clear()
            await lose_reply(instance, path, make)
            assert [list(given[0]) for given in entered] == [last_lines(path)]
        again = [await caller.start("nightly", key="a"), await caller.claim(key="b")]
        assert [answer.operations for answer in again] == [11, 12]
        assert (again[0].told["executionId"], again[1].told["work"]["work"]) == (5, 4)
        assert await executions(caller) == [5, 4, 3, 2]
        assert [one["work"] for one in (await caller.ask("GET", "/batch/work")).told] == [3, 4]
        assert (await caller.finish(4)).operations == 13


def last_lines(path: Path, count: int = 1) -> list[bytes]:
    return [record.line for record in log_file.records(path)][-count:]


async def lose_note(instance: Instance, make: Callable[[Caller], Any]) -> int:
    """Makes a call whose reply can't be kept beside its key: the service begins again, and leads. Returns the status."""
    term, epoch = instance.service.keeper.term, instance.service.keeper.epoch
    assert isinstance(term, EmbeddedTerm)
    store: Any = term._beside._store

    def fail(*given: Any) -> None:
        raise sqlite3.OperationalError("the disk is full")

    store.note = fail
    status: int = (await make(Caller(instance.url, "one"))).status
    await until_epoch(instance, epoch + 1)
    return status


async def test_a_key_whose_reply_was_heard_and_not_kept(embedded: Make, entered: list[Any]) -> None:
    """The log has what was accepted, which is answered. Nothing is entered again, and the key gives the reply."""
    async with running(embedded()) as instance:
        caller = Caller(instance.url, "one")
        await make_some(instance.url)
        await until_noted(instance)
        entered.clear()
        claimed = await lose_note(instance, lambda one: one.claim(key="a"))
        started = await lose_note(instance, lambda one: one.start("nightly", key="b"))
        assert (claimed, started, await lose_note(instance, lambda one: one.change(9, "stop", key="c"))) == (200, 201, 503)
        again = [await caller.claim(key="a"), await caller.start("nightly", key="b")]
        assert ([answer.operations for answer in again], len(entered)) == ([11, 12], 2)
        assert (again[0].told["work"]["work"], again[0].told["jobName"], again[1].told["executionId"]) == (4, "wide", 5)
        assert (await caller.change(9, "stop", key="c")).name == "NoSuchJobExecutionException"


async def test_what_is_not_noted_as_batchctl_dies_is_noted_then(
    embedded: Make, monkeypatch: pytest.MonkeyPatch, entered: list[Any]
) -> None:
    monkeypatch.setattr("job_host.service.keepers.embedded_term.NOTE_SECONDS", 3_600.0)
    async with running(embedded()) as instance:
        caller = Caller(instance.url, "one")
        await make_some(instance.url)
        await until_noted(instance)
        entered.clear()
        for key in "abc":
            await caller.start("short", key=key)
        await kill_batchctl(instance)
        assert [(await caller.start("short", key=key)).operations for key in "abc"] == [11, 12, 13]
        assert len(entered) == 3


async def test_notes_that_fail_are_made_again_without_a_replay(
    embedded: Make, monkeypatch: pytest.MonkeyPatch, entered: list[Any]
) -> None:
    """What the engine has entered is known until it is noted."""
    monkeypatch.setattr("job_host.service.keepers.embedded_term.NOTE_SECONDS", 0.5)
    async with running(embedded()) as instance:
        await make_some(instance.url)
        await until_noted(instance)
        entered.clear()

        async def start_some(one: Caller) -> Any:
            return [await one.start("short", key=key) for key in "abc"][-1]

        assert await lose_note(instance, start_some) == 201
        caller = Caller(instance.url, "one")
        assert [(await caller.start("short", key=key)).operations for key in "abc"] == [11, 12, 13]
        assert len(entered) == 3


async def test_an_open_key_that_the_engine_does_not_know_is_looked_up(embedded: Make, monkeypatch: pytest.MonkeyPatch) -> None:
    """As if the file of an earlier version were back: its key is open, though its operation is in the log for long."""
    monkeypatch.setattr("job_host.service.keepers.keeper.ASK_SECONDS", 0.05)
    made = embedded()
    async with running(made) as instance:
        caller = Caller(instance.url, "one")
        await caller.start("short", key="old")
        await make_some(instance.url)
        await until_state(engine_of(instance))
        await until_noted(instance)
        with closing(sqlite3.connect(made.data / STORE_NAME)) as store:
            store.execute("update request set reply = null, answers = null, seen = null where key = 'old'")
            store.commit()
        await kill_batchctl(instance)
        again = await caller.start("short", key="old")
        assert (again.told["executionId"], again.operations, engine_of(instance).entered) == (1, 1, 11)


async def test_an_older_file_beside_the_log_learns_what_it_lacks(embedded: Make, monkeypatch: pytest.MonkeyPatch) -> None:
    """It is put back while the service goes on: the engine doesn't have those replies any more."""
    monkeypatch.setattr("job_host.service.keepers.keeper.ASK_SECONDS", 0.05)
    made = embedded()
    async with running(made) as instance:
        caller = Caller(instance.url, "one")
        await caller.start("short", key="old")
        await make_some(instance.url)
        await until_state(engine_of(instance))
        await until_noted(instance)
        with closing(sqlite3.connect(made.data / STORE_NAME)) as store:
            store.execute("delete from request where key = 'old'")
            store.execute("delete from noted")
            store.commit()
        await kill_batchctl(instance)
        again = await caller.start("short", key="old")
        assert (again.told["executionId"], again.operations, engine_of(instance).entered) == (1, 1, 11)


@pytest.mark.parametrize("count", [1, 2, 3])
async def test_a_log_that_was_replaced_is_replayed(embedded: Make, caplog: pytest.LogCaptureFixture, count: int) -> None:
    """It has the same first operation, and in all less than was entered, as much, or more."""
    made = embedded()
    path, other = made.data / LOG_NAME, made.data / "other"
    async with running(made) as instance:
        caller, keeper = Caller(instance.url), cast(Any, instance.service.keeper)
        await caller.start("short")
        shutil.copy(path, other)
        lines = [made.catalogue.read_bytes().replace(b"\n", b"")]
        lines += [b'{"do":"start","by":2,"at":%d,"job":"wide"}' % (2**50 + number) for number in range(count - 1)]
        words = [*made.batchctl, "script", "--log", str(other), "--tags"]
        subprocess.run(words, input=b"\n".join(lines), check=True, capture_output=True)
        await caller.start("nightly")
        start = keeper._start

        async def replace_and_start() -> CoProcess:
            other.replace(path)
            keeper._start = start
            process: CoProcess = await start()
            return process

        keeper._start = replace_and_start
        await kill_batchctl(instance)
        assert await executions(caller, "?jobName=nightly") == []
        assert await executions(caller, "?jobName=wide") == list(range(count, 1, -1))
        assert (engine_of(instance).entered, "isn't what was entered before" in caplog.text) == (count, True)


async def test_another_state_of_the_same_log_lets_it_be_replayed(
    embedded: Make, entered: list[Any], caplog: pytest.LogCaptureFixture
) -> None:
    """As if another version of batchctl had been installed."""
    async with running(embedded()) as instance:
        caller, engine = Caller(instance.url), engine_of(instance)
        await caller.start("short")

        engine.look()
        await until_state(engine)
        assert engine.looked is not None and engine.state is not None
        engine.looked = replace(engine.looked, replies=[b'{"counts":{"FAILED":1}}', engine.state[1]])
        entered.clear()
        await kill_batchctl(instance)
        assert (len(entered), "isn't what was entered before" in caplog.text) == (1, True)
        assert engine_of(instance) is not engine and (await caller.start("short")).operations == 2


async def test_an_engine_that_could_not_enter_is_thrown_away(embedded: Make, monkeypatch: pytest.MonkeyPatch) -> None:
    async with running(embedded()) as instance:
        caller, engine = Caller(instance.url), engine_of(instance)
        await caller.start("short")
        index: Any = engine.executions
        index.note_changed = None
        starting = asyncio.create_task(caller.start("short", key="a"))

        async def has_failed() -> bool:
            return not engine.is_whole

        await until(has_failed)
        await kill_batchctl(instance)
        assert (await starting).status == 503
        assert (await caller.start("short", key="a")).operations == 2 and await executions(caller) == [2, 1]
        assert engine_of(instance) is not engine
