"""A worker without its artifacts leaves the work to others."""

from __future__ import annotations

import asyncio
import logging
from collections.abc import AsyncIterator
from contextlib import asynccontextmanager
from pathlib import Path
from typing import Any, cast

import pytest
from instances import until

from job_host.protocol import executables
from job_host.protocol.client import Client
from job_host.worker import folder, worker
from job_host.worker.folder import ArtifactFolder, names_of
from job_host.worker.reports import PATH
from job_host.worker.worker import Worker

COUNT = 200


class Service:
    """Gives a work item to each claim, and notes how each ended."""

    def __init__(self, refs: list[str]) -> None:
        self.refs = refs
        self.claimed = 0
        self.ended: list[tuple[str, str]] = []

    async def operate(self, method: str, path: str, body: Any = None, *others: Any, **more: Any) -> dict[str, Any]:
        await asyncio.sleep(0.001)
        if path == PATH:
            reports = [(f"/batch/work/{one['work']}?action={one['action']}", one) for one in (body or {})["reports"]]
            return {"reports": [{"status": 200, "body": await self.operate("PUT", *report)} for report in reports]}
        if "finish" in path:
            self.ended.append((self.refs[int(path.rpartition("/")[2].partition("?")[0])], body["outcome"]))
            return {"done": True}
        if method != "POST" or self.claimed == len(self.refs):
            await asyncio.sleep(0.01)
            return {"withdrawn": True}
        work = {"work": self.claimed, "execution": 1, "element": "only", "kind": "batchlet", "ref": self.refs[self.claimed]}
        self.claimed += 1
        return {"work": work, "jobParameters": {}, "lease": 30.0}

    def failed(self) -> int:
        return sum(outcome == "FAILED" for _, outcome in self.ended)


@pytest.fixture(autouse=True)
def quick(monkeypatch: pytest.MonkeyPatch) -> None:
    """A tenth of the pauses."""
    monkeypatch.setattr("job_host.worker.folder.SHORTEST_SECONDS", 0.1, raising=True)
    monkeypatch.setattr("job_host.worker.folder.LONGEST_SECONDS", 6.0, raising=True)
    monkeypatch.setattr(worker, "LOOK_SECONDS", 0.02, raising=False)


@pytest.fixture
def artifacts(tmp_path: Path) -> Path:
    folder = tmp_path / "artifacts"
    folder.mkdir()
    add(folder, "good")
    return folder


def add(folder: Path, name: str) -> None:
    (folder / name).write_text("#!/bin/sh\n")
    (folder / name).chmod(0o755)


@asynccontextmanager
async def working(service: Service, folder: Path, slots: int = 4) -> AsyncIterator[Worker]:
    made = Worker(cast(Client, service), folder, slots)
    running = asyncio.ensure_future(made.run())
    try:
        yield made
    finally:
        made.ending.set()
        await asyncio.wait_for(running, 10)


async def test_a_worker_without_executables_fails_few_jobs(artifacts: Path, caplog: pytest.LogCaptureFixture) -> None:
    service = Service(["bad"] * COUNT)
    async with working(service, artifacts):
        await asyncio.sleep(1.0)
        # At 0, 0.1, 0.3 and 0.7 seconds.
        assert 2 <= service.failed() <= 4
        add(artifacts, "bad")
        failed = service.failed()

        async def goes_on() -> bool:
            return len(service.ended) > failed + 20

        await until(goes_on, 10)
        assert service.failed() == failed
    assert len([one for one in caplog.messages if "'bad' of step 'only' isn't in" in one]) == 1


async def test_a_worker_claims_nothing_while_its_folder_is_gone(artifacts: Path, caplog: pytest.LogCaptureFixture) -> None:
    caplog.set_level(logging.WARNING)
    service, away = Service(["good"] * COUNT), artifacts.with_name("away")
    async with working(service, artifacts):

        async def has_begun() -> bool:
            return len(service.ended) > 3

        await until(has_begun, 10)
        artifacts.rename(away)
        await asyncio.sleep(0.3)
        claimed, failed = service.claimed, service.failed()
        await asyncio.sleep(0.5)
        # One claim was on its way.
        assert service.claimed == claimed and failed <= 5
        away.rename(artifacts)

        async def goes_on() -> bool:
            return len(service.ended) > claimed + 3

        await until(goes_on, 10)
        assert service.failed() == failed
    gone = [one for one in caplog.messages if "is gone: nothing is claimed" in one]
    assert len(gone) == 1 and any("is back" in one for one in caplog.messages)


async def test_one_wrong_name_does_not_hold_up_others_for_long(artifacts: Path) -> None:
    service = Service(["bad", *["good"] * 10] * 3)
    async with working(service, artifacts):

        async def has_ended() -> bool:
            return len(service.ended) == 33

        await until(has_ended, 10)
    assert service.failed() == 3


async def test_a_worker_ends_at_once_though_it_claims_nothing(artifacts: Path) -> None:
    service = Service(["bad"] * COUNT)
    made = Worker(cast(Client, service), artifacts, 4)
    running = asyncio.ensure_future(made.run())
    await asyncio.sleep(0.5)
    made.ending.set()
    await asyncio.wait_for(running, 2)


@pytest.mark.parametrize(
    ("work", "names"),
    [
        ({"kind": "decision", "ref": "day"}, ["day"]),
        ({"kind": "chunk", "reader": "rows", "processor": None, "writer": "table"}, ["rows", "table"]),
    ],
)
def test_the_names_of_a_work_item(work: dict[str, Any], names: list[str]) -> None:
    assert names_of(work) == names


def test_the_names_of_a_step(tmp_path: Path, caplog: pytest.LogCaptureFixture) -> None:
    """Listeners and a checkpoint algorithm are wanted as the parts are."""
    work = {"element": "copy", "kind": "chunk", "reader": "rows", "processor": None, "writer": "table"}
    step = {"listeners": [{"ref": "audit", "use": "listener-1"}], "chunk": {"checkpoint-algorithm": {"ref": "hourly"}}}
    assert names_of(work, step) == ["rows", "table", "hourly", "audit"]
    for name in ("rows", "table", "audit"):
        (tmp_path / name).touch(0o755)
    one = ArtifactFolder(tmp_path)
    one.note(work, step)
    assert not one.may_claim() and "'hourly' of step 'copy' isn't in" in caplog.text
    (tmp_path / "hourly").touch(0o755)
    assert one.may_claim()


@pytest.mark.parametrize("name", ["x" * 255, "x" * 256, "a/b", ".a", "a\0b", ""])
def test_a_name_that_no_executable_has(tmp_path: Path, name: str) -> None:
    with pytest.raises(executables.NoArtifact):
        executables.find(tmp_path, name)
    assert not executables.is_stoppable(tmp_path, name)


def test_artifacts_are_told_at_first_after_a_change_and_now_and_then(tmp_path: Path, monkeypatch: pytest.MonkeyPatch) -> None:
    """What can't be executed is none."""
    for name in ("report", "load"):
        (tmp_path / name).touch(0o755)
    (tmp_path / "amounts").touch(0o644)
    (tmp_path / "more").mkdir()
    one = ArtifactFolder(tmp_path)
    assert one.news() == ["load", "report"]
    assert one.news() is None
    (tmp_path / "report").unlink()
    assert one.news() == ["load"] and one.news() is None
    monkeypatch.setattr(folder, "TELL_SECONDS", 0.0)
    (tmp_path / "post").touch(0o755)
    assert one.news() == one.news() == ["load", "post"]
    monkeypatch.setattr(folder, "MOST_ARTIFACTS", 1)
    assert one.news() == ["load"]
    assert ArtifactFolder(tmp_path / "none").news() == []
