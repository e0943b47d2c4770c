"""Job instances that are finished, and since when. batchctl is asked for one once, and again after an operation on it."""

from __future__ import annotations

import asyncio
import json
from array import array
from collections.abc import Mapping, Sequence
from typing import Any, NamedTuple

from job_host.protocol.batch_statuses import UNFINISHED
from job_host.service.history.engine import Engine
from job_host.service.history.execution_index import ASK_EXECUTION
from job_host.service.history.open_index import RESTARTABLE

# So many are asked for at once, with a rest between, so that calls of clients come between them.
BLOCK = 100
REST = 0.005
# So many are looked at in memory, before others have their turn.
LOOKED_AT_ONCE = 5_000
RUNNING, OVER, MAY_RESTART = range(3)


class Finished(NamedTuple):
    """A job instance by the end of its newest job execution, in milliseconds since 1970.

    `operation` is the last one on that job execution: as long as it stays so, nothing has changed.
    """

    end: int
    instance: int
    execution: int
    operation: int

    def is_so(self, engine: Engine) -> bool:
        """Whether the job instance is there, and nothing was done to its newest job execution since."""
        executions = engine.executions
        if not executions.has_instance(self.instance) or executions.newest_of(self.instance) != self.execution:
            return False
        return executions.changed_at(self.execution) == self.operation


class FinishedIndex:
    """The job instances of one engine's history, by place. Numbers in arrays, since there may be hundreds of thousands."""

    def __init__(self, engine: Engine) -> None:
        self.engine = engine
        # Of each job instance: the last operation on its newest job execution that was looked at, what that is, and its end.
        self._seen = array("Q", [0])
        self._kinds = bytearray(1)
        self._ends = array("Q", [0])

    async def look(self) -> None:
        """Asks for what has changed since the last look."""
        missing = self.engine.executions.instance_count + 1 - len(self._seen)
        self._seen.extend([0] * missing)
        self._kinds.extend(bytes(missing))
        self._ends.extend([0] * missing)
        for first in range(1, len(self._seen), LOOKED_AT_ONCE):
            changed = [one for one in range(first, min(first + LOOKED_AT_ONCE, len(self._seen))) if self._has_changed(one)]
            await self._ask(changed)
            await asyncio.sleep(0)

    def _has_changed(self, place: int) -> bool:
        executions = self.engine.executions
        instance = executions.instance_at(place)
        if not executions.has_instance(instance):
            self._kinds[place] = RUNNING
            return False
        return self._seen[place] != executions.changed_at(executions.newest_of(instance))

    async def _ask(self, places: Sequence[int]) -> None:
        executions = self.engine.executions
        for begin in range(0, len(places), BLOCK):
            some = places[begin : begin + BLOCK]
            newest = [executions.newest_of(executions.instance_at(one)) for one in some]
            seen = [executions.changed_at(one) for one in newest]
            answers = await self.engine.ask([ASK_EXECUTION % one for one in newest])
            told = json.loads(b"[%b]" % b",".join(answers.replies))
            for place, operation, reply in zip(some, seen, told, strict=True):
                self._put(place, operation, reply.get("job_execution"))
            await asyncio.sleep(REST)

    def _put(self, place: int, operation: int, told: Mapping[str, Any] | None) -> None:
        """Notes the newest job execution of a job instance, which may have been purged meanwhile."""
        self._seen[place] = operation
        self._kinds[place] = RUNNING if told is None else self._kind(told)
        self._ends[place] = 0 if told is None else self._end(told)

    def _kind(self, told: Mapping[str, Any]) -> int:
        if told["status"] in UNFINISHED:
            return RUNNING
        return MAY_RESTART if told["status"] in RESTARTABLE and self.engine.may_restart(told["job"]) else OVER

    @staticmethod
    def _end(told: Mapping[str, Any]) -> int:
        """Its end. What was finished without one counts from its last change."""
        return int(told["updated"] if told["end"] is None else told["end"])

    async def due(self, over_before: int | None, restartable_before: int | None, most: int) -> tuple[list[Finished], int]:
        """Those that are over since before a moment, and those that may be restarted since before another.

        Without a moment none are. Returns the oldest ones, the oldest first, and how many there are in all.
        """
        oldest, count = list[Finished](), 0
        for first in range(1, len(self._seen), LOOKED_AT_ONCE):
            block = range(first, min(first + LOOKED_AT_ONCE, len(self._seen)))
            found = [self._finished(one) for one in block if self._is_due(one, over_before, restartable_before)]
            oldest, count = sorted(oldest + found)[:most], count + len(found)
            await asyncio.sleep(0)
        return oldest, count

    def _is_due(self, place: int, over_before: int | None, restartable_before: int | None) -> bool:
        kind = self._kinds[place]
        bound = restartable_before if kind == MAY_RESTART else over_before
        if kind == RUNNING or bound is None or self._ends[place] > bound:
            return False
        executions = self.engine.executions
        return executions.has_instance(executions.instance_at(place))

    def _finished(self, place: int) -> Finished:
        instance = self.engine.executions.instance_at(place)
        return Finished(self._ends[place], instance, self.engine.executions.newest_of(instance), self._seen[place])
