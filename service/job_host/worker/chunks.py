"""A chunk by executables: reader, processor and writer answer one line of JSON to each line of JSON.

The groups, the metrics and what a fault comes to are those of `run_item` (docs/WORKERS.md, "What is done with a work item").
But the writer is told the mark of its group, and may keep it with its data. So the reader is asked for the mark before the
write, and is opened after the writer, which may have a newer mark than the service. And a fault may be skipped, or tried again.
"""

from __future__ import annotations

import asyncio
from collections import Counter
from collections.abc import Awaitable, Callable, Mapping
from pathlib import Path
from typing import Any

from job_host.protocol import executables
from job_host.worker.artifacts import Ended
from job_host.worker.checkpoint_policy import CheckpointPolicy, CustomPolicy, ItemByItem, ItemPolicy
from job_host.worker.fault_rules import FaultRules
from job_host.worker.groups import Attempts, Group, RollBack
from job_host.worker.listeners import Listeners, told_of
from job_host.worker.output import Tail
from job_host.worker.parts import Asked, Fault, Starter, Starts

CHECKPOINT_BYTES = 65_536
ALGORITHM = "checkpoint-algorithm"
REOPENED = ("writer", "reader")

# Reports a group. Returns whether a stop was asked for.
Report = Callable[[str, dict[str, int]], Awaitable[bool]]


def never() -> bool:
    return False


class Chunk:
    """One work item of a chunk."""

    def __init__(
        self,
        folder: Path,
        claimed: Mapping[str, Any],
        tail: Tail,
        report: Report,
        listeners: Listeners | None = None,
        is_stop_asked: Callable[[], bool] = never,
        starter: Starts | None = None,
    ) -> None:
        self._folder = folder
        self._claimed = claimed
        self._work = claimed["work"]
        self._given: Mapping[str, Any] = claimed.get("step", {}).get("chunk", {})
        self._tail = tail
        self._report = report
        self._listeners = listeners or Listeners()
        self._is_stop_asked = is_stop_asked
        self._starter = starter
        self.parts: dict[str, Asked] = {}
        self._attempts = Attempts(FaultRules(self._given), self._listeners, tail.say, is_stop_asked)
        self._policy: CheckpointPolicy = ItemPolicy(self._work["item-count"], self._given.get("time-limit", 0))
        self._mark: str | None = self._work["checkpoint"]
        self._writer_keeps_marks = False
        self._group = 0
        self._is_in_group = False
        # Rollbacks that no report has told yet, and items that are run one by one after one.
        self._rollbacks = 0
        self._one_by_one = 0

    @property
    def names(self) -> dict[str, str]:
        """The artifacts of the chunk by their uses."""
        names = {use: self._work[use] for use in ("reader", "processor", "writer") if self._work[use] is not None}
        return names | ({ALGORITHM: self._given[ALGORITHM]["ref"]} if ALGORITHM in self._given else {})

    async def run(self) -> Ended:
        try:
            await self._open()
        except (Fault, executables.NoArtifact, OSError) as fault:
            self._tail.say(str(fault))
            return Ended("FAILED")
        self._is_in_group = True
        try:
            return Ended(await self._groups(), None, self._untold())
        except (Fault, OSError) as fault:
            self._tail.say(str(fault))
            await self._tell_error(fault)
            return Ended("FAILED", None, self.broken_off())

    async def close(self, at_once: bool = False) -> None:
        try:
            await asyncio.gather(*(part.close(at_once) for part in self.parts.values()))
        finally:
            if self._starter is not None:
                self._starter.remove()

    def broken_off(self) -> dict[str, int] | None:
        """What no report has told, if nothing more is run: a group that was begun is rolled back."""
        self._rollbacks += self._is_in_group
        return self._untold()

    def _untold(self) -> dict[str, int] | None:
        counts = Counter(self._attempts.counts)
        counts["ROLLBACK_COUNT"] += self._rollbacks
        return dict(+counts) or None

    async def _tell_error(self, fault: Exception) -> None:
        """Tells listeners of a chunk that is at fault."""
        if not self._is_in_group or not isinstance(fault, Fault):
            return
        try:
            await self._listeners.tell("onError", **told_of(fault))
        except Fault as another:
            self._tail.say(str(another))

    async def _open(self) -> None:
        """Starts all parts, and opens the writer first: the reader goes on at the writer's mark if that keeps one."""
        self._starter = self._starter or Starter(self._folder, self._claimed, self.names, self._tail)
        for use in self.names:
            self.parts[use] = await self._starter.start(use)
        await self._open_at_mark()
        if "processor" in self.parts:
            await self._open_part("processor", None)
        if ALGORITHM in self.parts:
            await self.parts[ALGORITHM].ask("open", partition=self._work.get("partition"), work=self._work["work"])
            self._policy = CustomPolicy(self.names[ALGORITHM], self.parts[ALGORITHM])

    async def _open_at_mark(self) -> None:
        told = await self._open_part("writer", self._mark)
        self._writer_keeps_marks = "checkpoint" in told
        mark = self._mark_of("writer", told)
        if self._mark is None and mark is not None:
            raise Fault(f"{self._work['writer']}: it has the mark of an earlier run, and was told that this one begins")
        await self._open_part("reader", self._mark if mark is None else mark)

    async def _open_part(self, use: str, checkpoint: str | None) -> dict[str, Any]:
        members = {"checkpoint": checkpoint, "partition": self._work.get("partition"), "work": self._work["work"]}
        return await self.parts[use].ask("open", **members)

    async def _groups(self) -> str:
        """Group by group, until the reader ends or a stop is asked for. Returns the outcome."""
        if await self._report_begin():
            return "STOPPED"
        while not self._is_stop_asked():
            outcome = await self._next_group()
            if outcome is not None:
                return outcome
        return "STOPPED"

    async def _report_begin(self) -> bool:
        """Reports where the reader begins, if the writer keeps marks. Returns whether a stop was asked for.

        From then on no checkpoint means that nothing was written in this run.
        """
        if not self._writer_keeps_marks or self._work["checkpoint"] is not None:
            return False
        return await self._report_group(await self._checkpoint(), {})

    async def _next_group(self) -> str | None:
        """Runs a group, and reports it. Returns the outcome of the work item, if it was the last."""
        policy: CheckpointPolicy = ItemByItem() if self._one_by_one else self._policy
        self._attempts.is_rerun = self._one_by_one > 0
        group = Group(self.parts, self.names, self._attempts)
        self._is_in_group = True
        try:
            seconds = await policy.begin()
            mark = await self._within(seconds, self._run_group(group, policy))
        except RollBack as rolled:
            await self._roll_back(rolled.fault, group)
            return None
        self._is_in_group = False
        is_stopped = mark is not None and await self._report_group(mark, group.metrics)
        self._one_by_one = max(0, self._one_by_one - group.touched)
        await policy.end()
        if is_stopped:
            return "STOPPED"
        return "COMPLETED" if group.is_at_end else None

    @staticmethod
    async def _within(seconds: float | None, running: Awaitable[str | None]) -> str | None:
        try:
            async with asyncio.timeout(seconds):
                return await running
        except TimeoutError as fault:
            raise Fault(f"the group took longer than {seconds:.12g} seconds") from fault

    async def _run_group(self, group: Group, policy: CheckpointPolicy) -> str | None:
        """Reads, processes and writes a group. Returns its mark; none if there was no item left."""
        await self._listeners.tell("beforeChunk")
        await group.gather(policy)
        mark = None
        if group.touched:
            self._group += 1
            mark = await self._checkpoint()
            await group.write({"work": self._work["work"], "group": self._group, "checkpoint": mark})
        await self._listeners.tell("afterChunk")
        return mark

    async def _report_group(self, mark: str, metrics: Mapping[str, int]) -> bool:
        """Reports a group, and what wasn't told before. Returns whether a stop was asked for."""
        is_stopped = await self._report(mark, {**metrics, **(self._untold() or {})})
        self._mark = mark
        self._rollbacks = 0
        self._attempts.counts.clear()
        return is_stopped

    async def _roll_back(self, fault: Fault, group: Group) -> None:
        """Goes back to the last checkpoint. What the group has touched is run item by item then."""
        await self._listeners.tell("onError", **told_of(fault))
        self._rollbacks += 1
        self._is_in_group = False
        self._one_by_one = max(self._one_by_one, group.touched)
        if self._is_stop_asked():
            return
        await asyncio.gather(*(self.parts[use].close() for use in REOPENED))
        assert self._starter is not None
        for use in REOPENED:
            self.parts[use] = await self._starter.start(use)
        await self._open_at_mark()

    async def _checkpoint(self) -> str:
        mark = self._mark_of("reader", await self.parts["reader"].ask("checkpoint"))
        if mark is None:
            raise Fault(f"{self._work['reader']}: checkpoint is answered a text")
        return mark

    def _mark_of(self, use: str, told: Mapping[str, Any]) -> str | None:
        """The mark of an answer, which may be null."""
        mark = told.get("checkpoint")
        if mark is None:
            return None
        if not isinstance(mark, str):
            raise Fault(f"{self._work[use]}: a checkpoint is a text")
        if len(mark.encode("utf-8", "surrogatepass")) > CHECKPOINT_BYTES:
            raise Fault(f"{self._work[use]}: the checkpoint has more than {CHECKPOINT_BYTES} bytes")
        return mark
