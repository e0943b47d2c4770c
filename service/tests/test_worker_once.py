"""`jobhost worker --once`: one work item, and how the worker ends."""

from __future__ import annotations

import asyncio
import signal
from collections.abc import Callable
from pathlib import Path
from typing import Any, cast

import pytest
from instances import Caller, running, until
from workers import working

from job_host.commands.command_line import main
from job_host.protocol.client import Client, Refused, Unreachable
from job_host.service.settings import ServeSettings
from job_host.worker import worker as workers
from job_host.worker.draining import CUT_OFF, DRAINED, NO_WORK, REFUSED
from job_host.worker.worker import Worker

Make = Callable[..., ServeSettings]
ONCE = ["--once", "--wait", "30"]


async def status_of(url: str, artifacts: Path, words: list[str]) -> int:
    async with working(url, artifacts, 1, words) as worker:
        return await asyncio.to_thread(worker.process.wait, 60)


async def test_one_work_item_is_run_whatever_comes_of_it(embedded: Make, night: Path, artifacts: Path) -> None:
    async with running(embedded(catalogue=night)) as instance:
        caller = Caller(instance.url)
        for job in ("three", "says", "says"):
            await caller.start(job)
        assert [await status_of(instance.url, artifacts, ONCE) for _ in range(2)] == [DRAINED, DRAINED]
        assert [await caller.status(one) for one in (1, 2, 3)] == ["FAILED", "COMPLETED", "STARTING"]
        (logged,) = (await caller.ask("GET", "/batch/jobexecutions/2/joblogs")).told
        assert logged["log"] == "SENT\nmore\n"


async def test_without_work_it_ends_and_nothing_is_claimed_for_it_later(embedded: Make, night: Path, artifacts: Path) -> None:
    async with running(embedded(catalogue=night)) as instance:
        told = await asyncio.gather(*(status_of(instance.url, artifacts, ["--once", "--wait", wait]) for wait in ("0", "1.5")))
        assert told == [NO_WORK, NO_WORK]
        await instance.until_claims_wait(0, 1)
        async with working(instance.url, artifacts, 1, ONCE) as worker:
            await instance.until_claims_wait(1)
            worker.process.send_signal(signal.SIGTERM)
            assert await asyncio.to_thread(worker.process.wait, 60) == NO_WORK
        await Caller(instance.url).start("says")
        assert await Caller(instance.url).status(1) == "STARTING"


async def test_a_work_item_that_another_one_has_given_up_was_not_reported(embedded: Make, night: Path, artifacts: Path) -> None:
    async with running(embedded(catalogue=night)) as instance, working(instance.url, artifacts, 1, ONCE) as worker:
        caller = Caller(instance.url)
        await caller.start("stubborn")

        async def is_running() -> bool:
            return (artifacts / "is-running").exists()

        await until(is_running)
        await caller.ask("PUT", "/batch/work/1?action=lose")
        (artifacts / "go-on").touch()
        assert await asyncio.to_thread(worker.process.wait, 60) == CUT_OFF


@pytest.mark.parametrize(
    "words",
    [
        *(["--once", "--slots", "2"], ["--wait", "1"], ["--once", "--wait", "-1"], ["--once", "--wait", "nan"]),
        *(["--grace", "-1"], ["--grace", "inf"], ["--grace", "soon"], ["--grace", "1e10"]),
    ],
)
def test_words_that_say_nothing_are_refused(artifacts: Path, words: list[str], capsys: pytest.CaptureFixture[str]) -> None:
    try:
        status: Any = main(["worker", "--artifacts", str(artifacts), *words])
    except SystemExit as ended:
        status = ended.code
    assert status == 2
    told = capsys.readouterr().err.splitlines()[-1]
    assert told.startswith("jobhost worker: ") and ("--once has one slot" in told or "is no number of seconds" in told)


class Service:
    """Answers claims in turn: an exception is raised, and none is no answer at all. Before it answers Nothing it waits."""

    def __init__(self, answers: list[Any], withdrawn: Any = None) -> None:
        self.answers = answers
        self.withdrawn = withdrawn or {"withdrawn": True}
        self.waits: list[float] = []
        self.finished = 0

    async def operate(self, method: str, path: str, body: Any = None, *others: Any, **more: Any) -> Any:
        if "finish" in path:
            self.finished += 1
            return {"done": True}
        if method == "POST":
            self.waits.append(body["wait"])
        answer = self.answers.pop(0) if method == "POST" else self.withdrawn
        if answer is None:
            await asyncio.Event().wait()
        if answer is NOTHING:
            await asyncio.sleep(body["wait"])
        if isinstance(answer, Exception):
            raise answer
        return answer


WORK = {"work": 1, "execution": 1, "element": "only", "kind": "batchlet", "ref": "silent"}
CLAIMED = {"work": WORK, "jobParameters": {}, "lease": 30.0}
NOTHING = {"nothing": True}


async def once(service: Service, artifacts: Path, seconds: float) -> int:
    return await asyncio.wait_for(Worker(cast(Client, service), artifacts, 1).run_once(seconds), 20)


async def test_a_job_execution_that_is_only_closed_is_no_work(artifacts: Path) -> None:
    """What is ready behind it is claimed, though the time is over."""
    service = Service([{"closed": 1}, {"closed": 2}, dict(CLAIMED), NOTHING])
    assert (await once(service, artifacts, 0), service.finished, len(service.answers)) == (DRAINED, 1, 1)
    assert await once(Service([{"closed": 1}, NOTHING]), artifacts, 0) == NO_WORK


@pytest.mark.parametrize(
    ("name", "status", "finished"), [("RoleLacksRight", REFUSED, 0), ("BadRequest", DRAINED, 1)], ids=["role", "earlier"]
)
async def test_a_claim_that_is_refused_is_no_want_of_work(artifacts: Path, name: str, status: int, finished: int) -> None:
    """A service of an earlier version, which knows no artifacts, is asked again without them."""
    service = Service([Refused(403, {"title": name}), dict(CLAIMED)])
    assert (await once(service, artifacts, 0), service.finished) == (status, finished)


async def test_it_waits_for_as_long_as_it_is_told(artifacts: Path, monkeypatch: pytest.MonkeyPatch) -> None:
    monkeypatch.setattr(workers, "CLAIM_SECONDS", 0.1)
    service = Service([NOTHING] * 5)
    assert await once(service, artifacts, 0.25) == NO_WORK
    assert service.waits[0] == 0.1 and max(service.waits) == 0.1 and service.waits[-1] == 0.0


@pytest.mark.parametrize(
    ("withdrawn", "status", "finished"),
    [({"withdrawn": True}, NO_WORK, 0), (dict(CLAIMED), DRAINED, 1), (Unreachable("gone"), CUT_OFF, 0)],
    ids=["withdrawn", "made", "gone"],
)
async def test_a_claim_without_an_answer_is_withdrawn(
    artifacts: Path, monkeypatch: pytest.MonkeyPatch, withdrawn: Any, status: int, finished: int
) -> None:
    """If it was made before, its work item is run."""
    monkeypatch.setattr(workers, "ANSWER_SECONDS", 0.2)
    service = Service([None], withdrawn)
    assert (await once(service, artifacts, 0), service.finished, service.answers) == (status, finished, [])
