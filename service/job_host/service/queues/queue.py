"""One queue: its number and name, its bounds, and the keeper of its history."""

from __future__ import annotations

import json
from dataclasses import dataclass, field

from job_host.catalogue.queues import QueueBounds
from job_host.protocol.batch_statuses import UNFINISHED
from job_host.protocol.lines import query, read
from job_host.service.history.engine import Engine
from job_host.service.keepers.keeper import Keeper
from job_host.service.problems import Problem
from job_host.service.terms.calls import Call


@dataclass
class Queue:
    """A queue of a service. `is_declared` says that `--queues` names it: else it was there once, and nothing begins in it."""

    number: int
    name: str
    keeper: Keeper
    bounds: QueueBounds = field(default_factory=QueueBounds)
    is_declared: bool = True

    @property
    def is_full(self) -> bool:
        """Whether as many of its work items are busy as may be."""
        most, engine = self.bounds.most_busy, self.keeper.engine
        return most is not None and engine is not None and len(engine.held) >= most

    @property
    def is_held(self) -> bool:
        """Whether all its calls wait, as its log is compacted, or its catalogue grows."""
        engine, compaction = self.keeper.engine, self.keeper.compaction
        if compaction is not None and compaction.calls_wait and not compaction.is_over:
            return True
        return engine is not None and engine.process.is_held

    def is_for(self, labels: frozenset[str]) -> bool:
        """Whether a worker with these labels gets something of it."""
        return labels.issuperset(self.bounds.labels)

    async def admit(self, engine: Engine, call: Call) -> None:
        """Raises what keeps a job execution from being made now. No other line comes before the call's own."""
        if self.bounds.most_running is not None:
            await self._check_running(engine, self.bounds.most_running)
        job = await job_of(engine, call)
        if job is not None and self.keeper.is_versioned and self.keeper.policies(job).one_at_a_time:
            await self._check_alone(engine, job)

    async def _check_running(self, engine: Engine, most: int) -> None:
        (reply,) = (await engine.ask([query("status_counts")])).replies
        counts = read(reply)["counts"]
        running = sum(counts.get(status, 0) for status in UNFINISHED)
        if running >= most:
            told = f"{running} job executions of the queue {json.dumps(self.name)} aren't finished, and {most} may be so"
            raise Problem("QueueFull", 409, told)

    async def _check_alone(self, engine: Engine, job: str) -> None:
        """Raises JobIsRunning if a job execution of any version of the job isn't finished."""
        names = self.keeper.names
        name = names.name_of(job)
        lines = [query("running_executions", job=one) for one in names.versions_in(engine.process.catalogue).get(name, [])]
        replies = (await engine.ask(lines)).replies if lines else []
        running = [self.keeper.outside(one) for reply in replies for one in read(reply).get("running", ())]
        if running:
            told = f"the job {json.dumps(name)} runs one at a time, and job execution {running[0]} isn't finished"
            raise Problem("JobIsRunning", 409, told, executionId=running[0])


async def job_of(engine: Engine, call: Call) -> str | None:
    """The job of a start or a restart, as the catalogue names it. None if there is none: the repository refuses the call."""
    if "job" in call.members:
        job = call.members["job"]
        return job if isinstance(job, str) else None
    try:
        line = query("job_instance", execution=call.members["execution"])
    except ValueError:
        return None
    job = read((await engine.ask([line])).replies[0]).get("job")
    return job if isinstance(job, str) else None
