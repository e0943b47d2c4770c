"""The time of a step: its processes are ended after it, whatever they do."""

from __future__ import annotations

import asyncio
import time
from pathlib import Path
from typing import Any

import pytest
from chunk_parts import Bench

from job_host.worker.artifacts import Ended
from job_host.worker.chunks import Chunk
from job_host.worker.listeners import Listeners
from job_host.worker.output import Tail
from job_host.worker.steps import StepRun
from job_host.worker.worker import Batchlet, Told

LATE = "jobhost: the step took longer than %s seconds\n"
# A process that notes its begin, answers some lines, and then hangs. It ends by SIGTERM.
HANGS = """#!/usr/bin/python3 -IS
import json, os, sys, time
from pathlib import Path
here, name = Path(__file__).resolve().parent, Path(sys.argv[0]).name
(here / f"begun-{name}").write_text(str(os.getpid()))
answers = {"open": {"events": ["beforeStep", "afterRead", "afterStep"]}, "checkpoint": {"checkpoint": "1"}, "read": {"item": 1}}
if name == "batchlet":
    time.sleep(60)
for line in sys.stdin:
    do = json.loads(line)["do"]
    if do == (here / f"hangs-{name}").read_text():
        time.sleep(60)
    with open(here / f"told-{name}", "a") as told:
        told.write(line)
    print(json.dumps(answers.get(do, {})), flush=True)
"""


class Folder:
    """Executables that hang at a line, and what a claim tells of them."""

    def __init__(self, path: Path, **hangs: str) -> None:
        self.path, self.tail, self.reported = path, Tail(), list[str]()
        for name in ("batchlet", "reader", "writer", "listener"):
            (path / name).write_text(HANGS)
            (path / name).chmod(0o755)
            (path / f"hangs-{name}").write_text(hangs.get(name, ""))

    async def run(self, kind: str, step: dict[str, Any]) -> Ended:
        parts = {"reader": "reader", "processor": None, "writer": "writer", "item-count": 1, "checkpoint": None}
        work = {"work": 7, "execution": 1, "element": "copy", "kind": kind, **(parts if kind == "chunk" else {"ref": kind})}
        claimed: dict[str, Any] = {"work": work, "step": step}

        def make(listeners: Listeners) -> Batchlet | Chunk:
            if kind == "chunk":
                return Chunk(self.path, claimed, self.tail, self.report, listeners)
            return Batchlet(self.path, claimed, self.tail, Told())

        return await StepRun(self.path, claimed, self.tail, make).run()

    async def report(self, mark: str, metrics: dict[str, int]) -> bool:
        self.reported.append(mark)
        return False

    def left(self) -> list[str]:
        """The processes that were begun and still run."""
        begun = [path for path in self.path.glob("begun-*")]
        assert begun
        return [path.name for path in begun if Path("/proc", path.read_text()).exists()]

    def told(self, name: str) -> str:
        return (self.path / f"told-{name}").read_text()


LISTENER = {"ref": "listener", "use": "listener-1"}


async def test_a_batchlet_is_ended_after_its_time(tmp_path: Path) -> None:
    folder = Folder(tmp_path)
    begun = time.monotonic()
    assert await folder.run("batchlet", {"timeout": 1}) == Ended("FAILED", "timeout")
    assert 1 <= time.monotonic() - begun < 5 and folder.left() == []
    assert folder.tail.text() == LATE % "1"


async def test_a_chunk_is_ended_after_its_time(tmp_path: Path) -> None:
    """Its parts aren't asked to end. The listener hears of the end."""
    folder = Folder(tmp_path, writer="write")
    begun = time.monotonic()
    ended = await folder.run("chunk", {"timeout": 1.5, "listeners": [LISTENER]})
    assert ended == Ended("FAILED", "timeout", {"ROLLBACK_COUNT": 1})
    assert 1.5 <= time.monotonic() - begun < 6 and folder.left() == []
    assert folder.told("listener").splitlines()[-1] == '{"do":"afterStep","outcome":"FAILED","exit":"timeout"}'
    assert folder.reported == []


@pytest.mark.parametrize("event", ["open", "beforeStep", "afterRead", "afterStep"])
async def test_a_listener_that_hangs_is_ended_too(tmp_path: Path, event: str) -> None:
    """What it owes an answer to is its last line."""
    folder = Folder(tmp_path, listener=event, reader="checkpoint" if event == "afterStep" else "")
    ended = await folder.run("chunk", {"timeout": 1.5, "listeners": [LISTENER]})
    assert (ended.outcome, ended.exit) == ("FAILED", "timeout")
    assert folder.left() == [] and (LATE % "1.5") in folder.tail.text()
    if event in ("beforeStep", "afterRead"):
        assert f"listener: it hasn't answered {event}" in folder.tail.text()


class FakeTask:
    """It runs for some time, and then ends as it is told."""

    def __init__(self, seconds: float, ended: Ended) -> None:
        self.seconds, self.ended, self.closed = seconds, ended, list[bool]()

    async def run(self) -> Ended:
        await asyncio.sleep(self.seconds)
        return self.ended

    async def close(self, at_once: bool = False) -> None:
        self.closed.append(at_once)

    def broken_off(self) -> dict[str, int]:
        return {"ROLLBACK_COUNT": 1, "READ_SKIP_COUNT": 2}


@pytest.mark.parametrize(
    ("seconds", "timeout", "ended", "closed"),
    [
        (0.0, None, Ended("COMPLETED", "DONE"), [False]),
        (0.01, 60, Ended("FAILED", "3"), [False]),
        (60.0, 0.05, Ended("FAILED", "timeout", {"ROLLBACK_COUNT": 1, "READ_SKIP_COUNT": 2}), [True]),
    ],
)
async def test_what_ends_in_its_time_ends_by_itself(
    seconds: float, timeout: float | None, ended: Ended, closed: list[bool]
) -> None:
    task = FakeTask(seconds, ended)
    tail = Tail()
    claimed = {"work": {"work": 1, "kind": "batchlet", "ref": "a"}, "step": {} if timeout is None else {"timeout": timeout}}
    assert await StepRun(Path(), claimed, tail, lambda _: task).run() == ended
    assert task.closed == closed
    assert (LATE % "0.05" in tail.text()) is (closed == [True])


async def test_a_worker_that_gives_up_ends_all(tmp_path: Path) -> None:
    """A second signal cancels what runs."""
    task, bench = FakeTask(60, Ended("COMPLETED")), Bench(1)
    claimed = {"work": {"work": 1, "kind": "batchlet", "ref": "a"}, "step": {"listeners": [bench.listens("afterStep")]}}
    running = asyncio.ensure_future(StepRun(tmp_path, claimed, Tail(), lambda _: task, bench).run())
    await asyncio.sleep(0.05)
    running.cancel()
    with pytest.raises(asyncio.CancelledError):
        await running
    assert task.closed == [False] and bench.told("listener-1", "files") == [
        *("listener-1 open", "listener-1 closed", "files removed")
    ]


async def test_the_end_of_a_batchlet_is_told_to_its_listener() -> None:
    for outcome, exit_status in (("COMPLETED", "SENT"), ("FAILED", "3"), ("STOPPED", None)):
        bench = Bench(0)
        task = FakeTask(0, Ended(outcome, exit_status))
        claimed = {"work": {"work": 1, "kind": "batchlet", "ref": "a"}, "step": {"listeners": [bench.listens("afterStep")]}}
        assert await StepRun(Path(), claimed, Tail(), lambda _: task, bench).run() == Ended(outcome, exit_status)
        assert bench.told("listener-1")[1:-1] == [f"listener-1 afterStep {outcome} {exit_status}"]


@pytest.mark.parametrize(
    ("ended", "then"),
    [
        (Ended("COMPLETED", "SENT"), Ended("FAILED")),
        (Ended("STOPPED"), Ended("FAILED")),
        (Ended("FAILED", "3", {"ROLLBACK_COUNT": 1}), Ended("FAILED", "3", {"ROLLBACK_COUNT": 1})),
    ],
)
async def test_a_fault_after_the_step_fails_it(ended: Ended, then: Ended) -> None:
    bench = Bench(0)
    given = bench.listens("afterStep", faults={"afterStep": None})
    claimed = {"work": {"work": 1, "kind": "batchlet", "ref": "a"}, "step": {"listeners": [given]}}
    assert await StepRun(Path(), claimed, Tail(), lambda _: FakeTask(0, ended), bench).run() == then


@pytest.mark.parametrize("missing", ["listener", "reader"])
async def test_without_an_executable_nothing_is_started(tmp_path: Path, missing: str) -> None:
    """Neither a listener nor a part is: all names are looked up before."""
    folder = Folder(tmp_path)
    (tmp_path / missing).unlink()
    assert await folder.run("chunk", {"listeners": [LISTENER]}) == Ended("FAILED")
    assert f"there is no executable '{missing}'" in folder.tail.text() and not list(tmp_path.glob("begun-*"))
