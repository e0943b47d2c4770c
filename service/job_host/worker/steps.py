"""A work item with what stands around its artifacts: the listeners of its step, and the step's time."""

from __future__ import annotations

import asyncio
from collections.abc import Callable, Mapping
from dataclasses import replace
from pathlib import Path
from typing import Any, Protocol

from job_host.protocol import executables
from job_host.worker.artifacts import Ended
from job_host.worker.folder import names_of
from job_host.worker.listeners import Listeners
from job_host.worker.output import Tail
from job_host.worker.parts import Fault, Starter, Starts

LATE = "timeout"


class Task(Protocol):
    """What a work item runs: a batchlet, a decision or a chunk."""

    async def run(self) -> Ended:
        """Runs it to its end."""

    async def close(self, at_once: bool = False) -> None:
        """Ends its processes. With `at_once` they are killed."""

    def broken_off(self) -> dict[str, int] | None:
        """The metrics that no report has told, if nothing more is run."""


class StepRun:
    """Runs one work item: before it and after it the listeners are told. Without both it is the artifact alone."""

    def __init__(
        self,
        folder: Path,
        claimed: Mapping[str, Any],
        tail: Tail,
        make: Callable[[Listeners], Task],
        starter: Starts | None = None,
    ) -> None:
        self._folder, self._claimed, self._tail, self._make = folder, claimed, tail, make
        step = claimed.get("step", {})
        self._given: list[Mapping[str, str]] = step.get("listeners", [])
        self._seconds: float | None = step.get("timeout")
        self._starter = starter
        self._listeners = Listeners()
        self._task: Task | None = None
        self._is_late = False

    async def run(self) -> Ended:
        try:
            ended = await self._in_time()
            return await self._after(ended) if self._given else ended
        finally:
            await self._listeners.close(self._is_late)
            if self._starter is not None:
                self._starter.remove()

    async def _in_time(self) -> Ended:
        running = asyncio.ensure_future(self._run())
        try:
            await asyncio.wait([running], timeout=self._seconds)
            if running.done():
                return running.result()
            return self._late(self._task.broken_off() if self._task is not None else None)
        finally:
            running.cancel()
            await asyncio.gather(running, return_exceptions=True)

    def _late(self, metrics: Mapping[str, int] | None) -> Ended:
        """Ends the processes at once, when they are closed."""
        self._is_late = True
        self._tail.say(f"the step took longer than {self._seconds:.12g} seconds")
        return Ended("FAILED", LATE, metrics)

    async def _run(self) -> Ended:
        try:
            await self._begin()
        except (Fault, executables.NoArtifact, OSError) as fault:
            self._tail.say(str(fault))
            return Ended("FAILED")
        self._task = self._make(self._listeners)
        try:
            return await self._task.run()
        finally:
            await self._task.close(self._is_late)

    async def _begin(self) -> None:
        """Looks up all names, and tells the listeners that the step begins. Raises Fault, NoArtifact and OSError."""
        if not self._given:
            return
        for name in names_of(self._claimed["work"], self._claimed["step"]) if self._starter is None else ():
            executables.find(self._folder, name)
        names = {one["use"]: one["ref"] for one in self._given}
        self._starter = self._starter or Starter(self._folder, self._claimed, names, self._tail)
        await self._listeners.open(self._starter, self._given, self._claimed["work"])
        await self._listeners.tell("beforeStep")

    async def _after(self, ended: Ended) -> Ended:
        """Tells how the step ended. The listeners have as much time for it as the step had."""
        try:
            async with asyncio.timeout(self._seconds):
                await self._listeners.tell("afterStep", outcome=ended.outcome, exit=ended.exit)
        except TimeoutError:
            return self._late(ended.metrics)
        except Fault as fault:
            self._tail.say(str(fault))
            return ended if ended.outcome == "FAILED" else replace(ended, outcome="FAILED", exit=None)
        return ended
