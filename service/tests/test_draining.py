"""Workers that are told to end: they claim nothing more, say so, and end what they have, or cut it off after their grace."""

from __future__ import annotations

import asyncio
import pkgutil
import signal
import time
from collections.abc import Callable
from pathlib import Path
from typing import Any, cast

import pytest
from conftest import Say
from instances import Caller, Instance, running, until
from workers import WorkerProcess, end_of, working

from job_host.protocol.client import Client, Refused, Unreachable
from job_host.service.settings import ServeSettings
from job_host.worker import draining
from job_host.worker.draining import CUT_OFF, CUT_OFF_SECONDS, DRAINED, Ending, tell_drain
from job_host.worker.worker import Worker

Make = Callable[..., ServeSettings]
LATE = ["--grace", "600"]


async def run_begun(instance: Instance, artifacts: Path, job: str, mark: str, **parameters: str) -> None:
    """Starts a job, and returns after its artifact has begun."""
    await Caller(instance.url).start(job, **parameters)

    async def has_begun() -> bool:
        return (artifacts / mark).exists()

    await until(has_begun)


async def status_of(worker: WorkerProcess) -> int:
    return await asyncio.to_thread(worker.process.wait, 60)


async def test_a_worker_that_drains_says_so_and_ends_what_it_has(
    embedded: Make, night: Path, artifacts: Path, say: Say, monkeypatch: pytest.MonkeyPatch
) -> None:
    monkeypatch.setenv("COLUMNS", "300")
    async with running(embedded(catalogue=night)) as instance, working(instance.url, artifacts, 2, LATE) as worker:
        caller = Caller(instance.url)

        async def told() -> list[Any]:
            (one,) = (await caller.ask("GET", "/batch/workers")).told["workers"]
            (held,) = (await caller.ask("GET", "/batch/work")).told or [{"draining": None}]
            return [one["draining"], one["waits"], len(one["work"]), held["draining"]]

        async def is_draining() -> bool:
            return (await told())[0] is True

        await run_begun(instance, artifacts, "stubborn", "is-running")
        await instance.until_claims_wait(1)
        assert await told() == [False, True, 1, False]
        worker.process.send_signal(signal.SIGTERM)
        await instance.until_claims_wait(0)
        await until(is_draining)
        await caller.start("says")
        assert await told() == [True, False, 1, True]
        assert " (draining) " in (await say(instance.url, "work"))[1]
        (artifacts / "go-on").touch()
        assert await status_of(worker) == DRAINED
        assert await told() == [True, False, 0, None]
        assert [await caller.status(execution) for execution in (1, 2)] == ["COMPLETED", "STARTING"]


@pytest.mark.parametrize("words", [["--grace", "0.2"], LATE], ids=["grace", "signals"])
async def test_what_is_left_is_cut_off_and_was_run_once(embedded: Make, night: Path, artifacts: Path, words: list[str]) -> None:
    """After the grace, or a second signal before its end: the work item is FAILED by a report, and the artifact is gone."""
    async with running(embedded(catalogue=night)) as instance:
        async with working(instance.url, artifacts, 1, words) as worker:
            await run_begun(instance, artifacts, "counted", "begun", seconds="300")
            worker.process.send_signal(signal.SIGTERM)
            if words is LATE:
                await asyncio.sleep(0.5)
                assert worker.process.poll() is None
                worker.process.send_signal(signal.SIGINT)
            assert await status_of(worker) == CUT_OFF
            caller = Caller(instance.url)
            (logged,) = (await caller.ask("GET", "/batch/jobexecutions/1/joblogs")).told
            (item,) = (await caller.ask("GET", "/batch/jobexecutions/1/workitems")).told
            (step,) = (await caller.ask("GET", "/batch/jobexecutions/1/stepexecutions")).told
        assert await caller.status(1) == "FAILED" and "the worker was told to end" in logged["log"]
        assert (item["exitStatus"], step["exitStatus"]) == ("cut off", "cut off")
        assert (item["outcome"], (artifacts / "begun").read_text(), (artifacts / "ended").exists()) == ("FAILED", "1\n", False)
    why = "told to end once more" if words is LATE else "the grace of 0.2 seconds is over"
    assert f"{why}: what is left is cut off" in worker.log.read_text()


async def test_a_chunk_that_was_cut_off_goes_on_at_its_last_checkpoint(embedded: Make, night: Path, artifacts: Path) -> None:
    (artifacts / "slow").touch()
    async with running(embedded(catalogue=night)) as instance:
        caller = Caller(instance.url)
        async with working(instance.url, artifacts, 1, ["--grace", "0"]) as worker:
            await run_begun(instance, artifacts, "copy", "written", items="40")
            worker.process.send_signal(signal.SIGTERM)
            assert await status_of(worker) == CUT_OFF
        log = (await caller.ask("GET", "/batch/jobexecutions/1/joblogs")).told[0]["log"]
        assert "rows opened at 0 in copy" in log
        assert (await end_of(caller, 1))["batchStatus"] == "FAILED"
        (artifacts / "slow").unlink()
        groups = len((artifacts / "written").read_text().splitlines())
        async with working(instance.url, artifacts, 1):
            await caller.ask("PUT", "/batch/jobexecutions/1?action=restart", {"jobParameters": {"items": "40"}})
            assert (await end_of(caller, 2))["batchStatus"] == "COMPLETED"
        log = (await caller.ask("GET", "/batch/jobexecutions/2/joblogs")).told[0]["log"]
    # The last group may have been written, and not reported yet.
    assert any(f"rows opened at {2 * one} in copy" in log for one in (groups, groups - 1)) and groups > 0
    assert "rows opened at 0 in copy" not in log or groups == 1


class Service:
    """Has one work item, which it gives to a claim that is withdrawn: the claim was made as the worker was told to end."""

    def __init__(self, is_gone: bool = False) -> None:
        self.is_gone = is_gone
        self.calls: list[str] = []

    async def operate(self, method: str, path: str, body: Any = None, *others: Any, **more: Any) -> dict[str, Any]:
        self.calls.append(f"{method} {path}")
        if method == "POST":
            await asyncio.Event().wait()
        if self.is_gone:
            raise Unreachable(path)
        if method == "DELETE":
            work = {"work": 7, "execution": 1, "element": "only", "kind": "batchlet", "ref": "says"}
            return {"work": work, "jobParameters": {}, "lease": 30.0}
        return {"done": True}


async def drained(service: Service, artifacts: Path) -> int:
    """The exit status of a worker that is told to end while its claim waits."""
    ending = Ending()
    worker = Worker(cast(Client, service), artifacts, 1, (), ending)
    working = asyncio.ensure_future(worker.run())

    async def claims() -> bool:
        return "POST /batch/work" in service.calls

    await until(claims)
    ending.tell()
    return await asyncio.wait_for(working, 20)


async def test_a_claim_that_was_made_as_the_worker_was_told_to_end_is_run(artifacts: Path) -> None:
    service = Service()
    assert await drained(service, artifacts) == DRAINED
    assert service.calls.count("POST /batch/work") == 1 and service.calls[-1] == "PUT /batch/work/7?action=finish"
    assert "PUT /batch/workers?action=drain" in service.calls


async def test_a_claim_that_cannot_be_withdrawn_may_be_cut_off(artifacts: Path) -> None:
    assert await drained(Service(is_gone=True), artifacts) == CUT_OFF


# A part and a listener that hang, and end neither with their input nor by SIGTERM.
HANGING = """#!/usr/bin/python3 -IS
import json, signal, sys, time
signal.signal(signal.SIGTERM, signal.SIG_IGN)
for line in sys.stdin:
    if json.loads(line)["do"] == "read":
        open("reads", "w").close()
        break
    print(json.dumps({"events": []}), flush=True)
while True:
    time.sleep(1)
"""


class Hanging(Service):
    """Has one work item, whose parts hang, and takes no report of it."""

    async def operate(self, method: str, path: str, body: Any = None, *others: Any, **more: Any) -> dict[str, Any]:
        self.calls.append(f"{method} {path}")
        if self.calls.count("POST /batch/work") > 1 or method == "PUT":
            await asyncio.Event().wait()
        parts = {name: name for name in ("reader", "processor", "writer")}
        work = {"work": 7, "execution": 1, "element": "copy", "kind": "chunk", **parts, "item-count": 2, "checkpoint": None}
        step = {"listeners": [{"ref": "audit", "use": "listener-1"}]}
        return {"work": work, "step": step, "jobParameters": {}, "lease": 600.0}


async def test_what_hangs_is_cut_off_in_the_time_that_is_told(tmp_path: Path, monkeypatch: pytest.MonkeyPatch) -> None:
    """Parts together, then listeners, then the report. The times are a fifth of the usual ones."""
    times = {"parts.CLOSE_SECONDS": 10.0, "artifacts.KILL_SECONDS": 5.0, "worker.HURRY_SECONDS": 5.0}
    for name, seconds in times.items():
        assert pkgutil.resolve_name(f"job_host.worker.{name}") == seconds
        monkeypatch.setattr(f"job_host.worker.{name}", seconds / 5)
    assert 2 * (10.0 + 5.0) + 5.0 < CUT_OFF_SECONDS
    for name in ("reader", "processor", "writer", "audit"):
        (tmp_path / name).write_text(HANGING)
        (tmp_path / name).chmod(0o755)
    ending = Ending()
    running = asyncio.ensure_future(Worker(cast(Client, Hanging()), tmp_path, 1, (), ending).run())

    async def reads() -> bool:
        return (tmp_path / "reads").exists()

    await until(reads)
    ending.tell()
    ending.tell()
    begun = time.monotonic()
    assert await asyncio.wait_for(running, 30) == CUT_OFF
    assert 6.0 < time.monotonic() - begun < CUT_OFF_SECONDS / 5 + 3.0


async def test_the_service_is_told_again_and_again(monkeypatch: pytest.MonkeyPatch) -> None:
    """Another instance may lead meanwhile. A service of an earlier version is asked once."""
    monkeypatch.setattr(draining, "TELL_SECONDS", 0.01)
    told: list[str] = []
    answers: list[Exception | None] = [None, Unreachable("gone"), None, Refused(405, {"title": "MethodNotAllowed"})]

    async def operate(method: str, path: str, **more: Any) -> Any:
        told.append(f"{method} {path}")
        answer = answers[len(told) - 1]
        if answer is not None:
            raise answer

    ending = Ending()
    telling = asyncio.ensure_future(tell_drain(ending, operate))
    await asyncio.sleep(0.05)
    assert told == []
    ending.tell()
    await asyncio.wait_for(telling, 10)
    assert told == ["PUT /batch/workers?action=drain"] * 4


async def test_a_service_hears_that_a_client_drains_until_it_claims_again(embedded: Make) -> None:
    async with running(embedded()) as instance:
        reader, farm = Caller(instance.url, "reader"), Caller(instance.url, "farm")

        async def drains() -> dict[str, bool]:
            told = (await reader.ask("GET", "/batch/workers")).told["workers"]
            return {one["client"]: one["draining"] for one in told}

        async def drain(caller: Caller) -> Any:
            return (await caller.ask("PUT", "/batch/workers?action=drain")).told

        await reader.start("wide")
        waiting = asyncio.create_task(farm.claim(20, "a"))
        await asyncio.sleep(0)
        assert (await waiting).told["work"]["work"] == 1 and await drains() == {"farm": False}
        assert await drain(farm) == {"draining": True} and await drains() == {"farm": True}
        await farm.finish(1)
        await farm.ask("PUT", "/batch/work/1?action=heartbeat")
        assert await drains() == {"farm": True}
        assert (await farm.claim()).told["work"]["work"] == 2 and await drains() == {"farm": False}


async def test_a_claim_that_ends_or_is_withdrawn_is_no_new_one(embedded: Make) -> None:
    """One that waits when its client says that it drains is withdrawn; another one is answered just then."""
    async with running(embedded()) as instance:
        callers = [Caller(instance.url, name) for name in ("one", "two")]
        waiting = [asyncio.create_task(caller.claim(20, "a")) for caller in callers]
        await instance.until_claims_wait(2)
        for caller in callers:
            await caller.ask("PUT", "/batch/workers?action=drain")
        assert (await callers[0].withdraw("a")).told == {"withdrawn": True}
        await callers[0].start("short")
        assert [(await one).status for one in waiting] == [409, 200]
        told = (await callers[0].ask("GET", "/batch/workers")).told["workers"]
        assert [(one["client"], one["draining"], len(one["work"])) for one in told] == [("one", True, 0), ("two", True, 1)]


async def test_words_that_are_no_drain_are_refused(embedded: Make, tmp_path: Path) -> None:
    tokens = tmp_path / "tokens"
    tokens.write_text(f"reader desk {'r' * 20}\nworker farm {'w' * 20}\n")
    async with running(embedded(tokens=tokens)) as instance:
        farm = Caller(instance.url, token="w" * 20)

        async def status(caller: Caller, words: str = "?action=drain", body: Any = None) -> int:
            return (await caller.ask("PUT", f"/batch/workers{words}", body)).status

        assert [await status(farm, words) for words in ("", "?action=lose", "?action=drain&more=1")] == [400] * 3
        assert await status(farm, body={"grace": 3}) == 400
        del farm.headers["Batch-Client"]
        assert await status(farm) == 400
        assert [await status(Caller(instance.url, token=letter * 20)) for letter in "rw"] == [403, 200]
