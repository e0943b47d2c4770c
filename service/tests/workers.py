"""Worker processes of tests, and the jobs that they run."""

from __future__ import annotations

import os
import subprocess
import sys
from collections.abc import AsyncIterator, Sequence
from contextlib import asynccontextmanager
from pathlib import Path
from typing import Any

from instances import COMMAND, Caller, until


class WorkerProcess:
    def __init__(self, url: str, artifacts: Path, slots: int = 4, more: Sequence[str] = ()) -> None:
        words = [sys.executable, str(COMMAND), "worker", "--url", url, "--artifacts", str(artifacts), "--slots", str(slots)]
        words += more
        self.log = artifacts.parent / "worker.log"
        with open(self.log, "ab") as log:
            self.process = subprocess.Popen(words, stdout=log, stderr=log, env=os.environ)

    def stop(self) -> None:
        if self.process.poll() is None:
            self.process.kill()
        self.process.wait()


@asynccontextmanager
async def working(url: str, artifacts: Path, slots: int = 4, more: Sequence[str] = ()) -> AsyncIterator[WorkerProcess]:
    worker = WorkerProcess(url, artifacts, slots, more)
    try:
        yield worker
    finally:
        worker.stop()


async def end_of(caller: Caller, execution: int) -> dict[str, Any]:
    """The job execution after its end."""
    told: dict[str, Any] = {}

    async def has_ended() -> bool:
        told.update((await caller.ask("GET", f"/batch/jobexecutions/{execution}")).told)
        return told["batchStatus"] in ("COMPLETED", "FAILED", "STOPPED")

    await until(has_ended, 60)
    return told


async def run_job(caller: Caller, job: str, **parameters: str) -> tuple[str, str, str]:
    """The status and exit status of a job's step, and its log."""
    execution = (await caller.start(job, **parameters)).told["executionId"]
    told = await end_of(caller, execution)
    step = told["stepExecutions"][0]
    logs = (await caller.ask("GET", f"/batch/jobexecutions/{execution}/joblogs")).told
    return step["batchStatus"], step["exitStatus"], logs[0]["log"]
