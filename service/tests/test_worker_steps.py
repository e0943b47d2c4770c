"""What a worker does by what a claim tells it of the step: with processes, and a service within the test."""

from __future__ import annotations

import asyncio
from pathlib import Path
from typing import Any, cast

import pytest
from instances import until

from job_host.protocol.client import Client
from job_host.worker import worker
from job_host.worker.worker import Worker

# A reader, a writer and a listener. Reading says one fault after another.
PART = """#!/usr/bin/python3 -IS
import json, sys
answers = {"open": {"events": ["afterStep"]}, "read": {"fault": "locked", "class": "rows.Busy"}}
for line in sys.stdin:
    print(json.dumps(answers.get(json.loads(line)["do"], {})), flush=True)
"""
RETRYABLE = {"retryable-exception-classes": {"include": ["rows.Busy"]}}
STEP = {"listeners": [{"ref": "audit", "use": "listener-1"}], "chunk": RETRYABLE}
PARTS = {"reader": "rows", "processor": None, "writer": "table", "item-count": 2, "checkpoint": None}
WORK = {"work": 1, "execution": 1, "element": "copy", "kind": "chunk", **PARTS}


class Service:
    """Gives one work item, and notes its end. To heartbeats it says stop after it has heard of a fault that was tried again."""

    def __init__(self, step: dict[str, Any], lease: float) -> None:
        self.claimed: list[dict[str, Any]] = [{"work": WORK, "step": step, "jobParameters": {}, "lease": lease}]
        self.ended: list[dict[str, Any]] = []
        self.says_stop = False

    async def operate(self, method: str, path: str, body: Any = None, *others: Any, **more: Any) -> dict[str, Any]:
        await asyncio.sleep(0.01)
        if "finish" in path:
            self.ended.append(body)
            return {"done": True}
        if "heartbeat" in path:
            self.says_stop = self.says_stop or "tried again" in body.get("log", "")
            return {"stop": self.says_stop}
        return self.claimed.pop() if method == "POST" and self.claimed else {"withdrawn": True}


async def ended(service: Service, artifacts: Path) -> dict[str, Any]:
    """How the work item ended."""
    made = Worker(cast(Client, service), artifacts, 1)
    running = asyncio.ensure_future(made.run())

    async def has_ended() -> bool:
        return bool(service.ended)

    await until(has_ended, 20)
    made.ending.set()
    await running
    return service.ended[0]


@pytest.fixture
def artifacts(tmp_path: Path) -> Path:
    folder = tmp_path / "artifacts"
    folder.mkdir()
    for name in ("rows", "table", "audit"):
        (folder / name).write_text(PART)
        (folder / name).chmod(0o755)
    return folder


@pytest.mark.parametrize("more", [{}, {"no-rollback-exception-classes": {"include": ["rows.Busy"]}}], ids=["rollback", "none"])
async def test_a_stop_ends_retries_without_a_limit(artifacts: Path, more: dict[str, Any]) -> None:
    """The worker hears of it by a heartbeat alone, as no group is reported."""
    told = await ended(Service({**STEP, "chunk": {**RETRYABLE, **more}}, lease=0.6), artifacts)
    assert told["outcome"] == "STOPPED" and told["metrics"]["ROLLBACK_COUNT"] >= 1
    assert "jobhost: tried again: rows: read: locked\n" in told["log"]


async def test_a_step_is_ended_in_its_time(artifacts: Path) -> None:
    told = await ended(Service({**STEP, "timeout": 1}, lease=600), artifacts)
    assert (told["outcome"], told["exit"]) == ("FAILED", "timeout")
    assert told["log"].endswith("jobhost: the step took longer than 1 seconds\n")


async def test_without_a_listener_the_work_is_left_to_others(
    artifacts: Path, caplog: pytest.LogCaptureFixture, monkeypatch: pytest.MonkeyPatch
) -> None:
    """As without a part: nothing is claimed for a while."""
    monkeypatch.setattr(worker, "LOOK_SECONDS", 0.02)
    (artifacts / "audit").unlink()
    told = await ended(Service(STEP, lease=600), artifacts)
    assert told["outcome"] == "FAILED" and "there is no executable 'audit'" in told["log"]
    assert "'audit' of step 'copy' isn't in" in caplog.text
