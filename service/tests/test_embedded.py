"""Keeping on one machine: operations in the log of batchctl, with their request keys, and an SQLite file beside it."""

from __future__ import annotations

import asyncio
import json
import signal
import sqlite3
import threading
from collections.abc import Callable
from concurrent.futures import ThreadPoolExecutor
from pathlib import Path
from typing import Any, cast

import pytest
from conftest import NIGHTLY, SHORT
from instances import Caller, Process, running, until

from job_host.service.history import log_file
from job_host.service.history.tags import read_tag
from job_host.service.keepers.embedded import LOG_NAME
from job_host.service.keepers.embedded_term import Beside, EmbeddedTerm
from job_host.service.keepers.keeper import Fatal
from job_host.service.problems import Problem
from job_host.service.settings import ServeSettings
from job_host.service.stores.sqlite import SqliteStore

Make = Callable[..., ServeSettings]


async def test_an_operation_is_in_the_log_when_it_is_answered(embedded: Make) -> None:
    made = embedded()
    async with running(made) as instance:
        assert (await Caller(instance.url).start(key="a", date="today")).told["executionId"] == 1
        assert (await Caller(instance.url).change(9, "stop")).name == "NoSuchJobExecutionException"
        records = list(log_file.records(made.data / LOG_NAME))
    assert [json.loads(record.line).get("do") for record in records] == [None, "start"]
    tag = read_tag(records[1].tag)
    assert tag is not None and (tag.client, tag.key, tag.is_once) == ("tester", "a", False) and len(tag.fingerprint) == 32


async def test_a_call_behind_the_end_of_its_term_is_unavailable() -> None:
    """A call that a term began with may come to the store after the term's end, as batchctl was killed."""
    thread = ThreadPoolExecutor(1)
    thread.shutdown()
    with pytest.raises(Problem) as told:
        await Beside(cast(SqliteStore, None), thread).do(lambda store: None)
    assert (told.value.name, told.value.status) == ("StoreLost", 503)


async def test_the_history_goes_on_after_a_kill(embedded: Make, tmp_path: Path) -> None:
    made = embedded()
    words = ["--catalogue", str(made.catalogue), "--batchctl", made.batchctl[0], "--data", str(made.data)]
    process = Process(tmp_path / "service", *words)
    caller = Caller(process.url)
    try:
        process.start()
        await process.until_role("leader")
        first = [await caller.start(key="a"), await caller.claim(key="b"), await caller.change(7, "stop", key="c")]
        await caller.finish(1, "FAILED", log="no space")
        process.kill()
        process.start()
        await process.until_role("leader")
        again = [await caller.start(key="a"), await caller.claim(key="b"), await caller.change(7, "stop", key="c")]
        assert [answer.told for answer in again] == [answer.told for answer in first]
        assert [answer.operations for answer in again] == [answer.operations for answer in first]
        assert (await caller.change(1, "restart")).told["executionId"] == 2
        assert (await caller.ask("GET", "/batch/jobexecutions/1/joblogs")).told[0]["log"] == "no space"
    finally:
        process.kill()


async def test_a_crash_between_log_and_key(embedded: Make) -> None:
    """The request key is found in the log with its operation, and the reply by a replay."""
    async with running(embedded()) as instance:
        caller, term = Caller(instance.url), instance.service.keeper.term
        assert isinstance(term, EmbeddedTerm)
        store: Any = term._beside._store
        await caller.start(key="first")

        def fail(*given: Any) -> None:
            raise sqlite3.OperationalError("the disk is full")

        store.note = fail
        answers = await asyncio.gather(caller.start(key="second"), caller.change(9, "stop", key="refused"))
        assert {answer.status for answer in answers} == {503}
        await instance.until_role("starting")
        await instance.until_role("leader")
        again = await caller.start(key="second")
        assert (again.status, again.told["executionId"], again.told["instanceId"], again.operations) == (201, 2, 2, 2)
        assert instance.service.keeper.operations == 2
        assert (await caller.change(9, "stop", key="refused")).name == "NoSuchJobExecutionException"


async def test_a_crash_before_the_log(embedded: Make) -> None:
    """The line never came to batchctl: asked again, the operation is made."""
    async with running(embedded()) as instance:
        caller, term = Caller(instance.url), instance.service.keeper.term
        assert isinstance(term, EmbeddedTerm)
        process, hand, open_term = term.engine.process, term.hand, cast(Any, term)

        def kill_and_hand(item: Any) -> None:
            process.kill()
            hand(item)

        open_term.hand = kill_and_hand
        assert (await caller.start(key="a")).status == 503
        await instance.until_role("starting")
        await instance.until_role("leader")
        again = await caller.start(key="a")
        assert (again.status, again.told["executionId"], instance.service.keeper.operations) == (201, 1, 1)


async def test_busy_work_items_are_read_out_of_the_log(embedded: Make) -> None:
    made = embedded()
    async with running(made) as instance:
        await Caller(instance.url).start("wide")
        for name in ("one", "two", "two"):
            await Caller(instance.url, name).claim()
        await Caller(instance.url, "one").finish(1)
    async with running(made) as instance:
        held = (await Caller(instance.url).ask("GET", "/batch/work")).told
        assert [(one["work"], one["client"], one["partition"]) for one in held] == [(2, "two", 1), (3, "two", 2)]
        assert (await Caller(instance.url, "one").finish(2)).name == "NotClaimer"
        assert (await Caller(instance.url, "two").finish(2)).status == 200


async def test_a_catalogue_may_add_jobs_and_change_none(embedded: Make, tmp_path: Path) -> None:
    def write(*jobs: Any) -> Path:
        path = tmp_path / "next.json"
        path.write_text(json.dumps({"jobs": jobs}))
        return path

    async with running(embedded(catalogue=write(NIGHTLY))) as instance:
        assert (await Caller(instance.url).start()).status == 201
    async with running(embedded(catalogue=write(SHORT, NIGHTLY))) as instance:
        assert (await Caller(instance.url).start("short")).status == 201
    with pytest.raises(Fatal, match="'nightly' is dropped"):
        async with running(embedded(catalogue=write(SHORT))):
            pass


async def test_two_services_never_have_one_log(embedded: Make, monkeypatch: pytest.MonkeyPatch) -> None:
    monkeypatch.setattr("job_host.service.keepers.opened_log.IN_USE_SECONDS", 0.5)
    made = embedded()
    async with running(made):
        with pytest.raises(Fatal, match="in use"):
            async with running(made):
                pass


async def test_calls_under_way_are_answered_when_batchctl_dies(embedded: Make) -> None:
    """A refusal waits for its key to be kept, replies wait for the next commit, and a claim waits for work."""
    async with running(embedded()) as instance:
        caller, keeper = Caller(instance.url), instance.service.keeper
        term, engine = keeper.term, keeper.engine
        assert isinstance(term, EmbeddedTerm) and engine is not None
        claim = asyncio.create_task(caller.claim(wait=60))
        await instance.until_claims_wait(1)
        store: Any = term._beside._store
        note, is_held, is_over = store.note, threading.Event(), threading.Event()

        def held(*words: Any) -> None:
            is_held.set()
            is_over.wait(10.0)
            note(*words)

        store.note = held
        first = asyncio.create_task(caller.start("none", key="first"))
        await asyncio.to_thread(is_held.wait, 10.0)
        others = [asyncio.create_task(caller.start(key=f"other-{number}")) for number in range(15)]
        await asyncio.sleep(0.2)
        threading.Timer(1.0, is_over.set).start()
        engine.process.kill()
        answers = await asyncio.wait_for(asyncio.gather(claim, first, *others), 20.0)
        assert {answer.status for answer in answers} == {503}
        await instance.until_role("leader")
        again = [await caller.start("none", key="first"), await caller.start(key="other-3")]
        assert [answer.status for answer in again] == [404, 201]


async def test_the_end_of_batchctl_is_logged(embedded: Make, caplog: pytest.LogCaptureFixture) -> None:
    async with running(embedded()) as instance:
        engine = instance.service.keeper.engine
        assert engine is not None
        engine.process._errors = b"batchctl: a word\nbatchctl: log fault\n"
        engine.process.kill()
        await until(lambda: is_logged(caplog, "batchctl ended with status -9: batchctl: log fault"))
        await instance.until_role("leader")


async def is_logged(caplog: pytest.LogCaptureFixture, text: str) -> bool:
    return text in caplog.text


async def test_sigterm_ends_what_waits_and_lets_calls_end(embedded: Make, tmp_path: Path) -> None:
    made = embedded()
    words = ["--catalogue", str(made.catalogue), "--batchctl", made.batchctl[0], "--data", str(made.data)]
    process = Process(tmp_path / "service", *words)
    try:
        process.start()
        await process.until_role("leader")
        caller = Caller(process.url)
        claim = asyncio.create_task(caller.claim(wait=30))

        async def does_wait() -> bool:
            return "jobhost_claims_waiting 1.0" in (await caller.ask("GET", "/metrics")).told

        await until(does_wait)
        process.signal(signal.SIGTERM)
        assert await asyncio.to_thread(process.wait, 8) == 0
        assert ((await claim).status, claim.result().name) == (503, "Starting")
    finally:
        process.kill()
