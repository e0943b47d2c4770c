"""What is open: job instances to restart, what runs long, and what waits for a worker.

batchctl is asked for a job execution after an operation on it, and once for those that were there before.
"""

from __future__ import annotations

import asyncio
import json
from bisect import bisect_left, insort
from collections.abc import Callable, Iterator, Mapping
from heapq import merge
from itertools import islice
from typing import Any, NamedTuple

from job_host.catalogue.names import PLAIN_NAMES, JobNames
from job_host.protocol.batch_statuses import UNFINISHED
from job_host.service.history.answers import Answering
from job_host.service.history.execution_index import ASK_EXECUTION, BLOCK, ExecutionIndex
from job_host.service.pages import Page

# Batch statuses of a job execution that may be restarted.
RESTARTABLE = ("FAILED", "STOPPED")
WAITING = "waiting"
# So many are looked at while no operation may come.
FEW = 100
# So many job executions of a job that were COMPLETED last are its past.
PAST = 20
# In milliseconds. What takes seconds isn't long at once.
LEAST_MORE = 60_000


class Running(NamedTuple):
    """A job execution that has begun, and isn't finished."""

    execution: int
    instance: int
    job: str
    status: str
    start: int
    version: int = 1


class Unfinished(NamedTuple):
    """A job execution that isn't finished, with its job as the catalogue has it, and the moment of the last operation on it."""

    execution: int
    instance: int
    job: str
    status: str
    updated: int


class Completed(NamedTuple):
    """When a job execution was COMPLETED, and how many milliseconds it took."""

    end: int
    took: int
    execution: int


class Long(NamedTuple):
    """What runs much longer than the longest of its job's past, both in milliseconds."""

    running: Running
    lasts: int
    longest: int


class RisingNumbers:
    def __init__(self) -> None:
        self._numbers: list[int] = []

    def __len__(self) -> int:
        return len(self._numbers)

    def __iter__(self) -> Iterator[int]:
        return iter(self._numbers)

    def __reversed__(self) -> Iterator[int]:
        return reversed(self._numbers)

    def add(self, number: int) -> None:
        insort(self._numbers, number)

    def remove(self, number: int) -> None:
        del self._numbers[bisect_left(self._numbers, number)]


class OpenIndex:
    """Job executions of one history, each in one list at most. `busy` has those of which work items are busy.

    Lists and pasts are those of a job's name: `may_restart` alone is asked for a version.
    """

    def __init__(
        self,
        engine: Answering,
        executions: ExecutionIndex,
        busy: Mapping[int, int],
        may_restart: Callable[[str], bool],
        names: JobNames = PLAIN_NAMES,
    ) -> None:
        self._engine = engine
        self._executions = executions
        self._busy = busy
        self._may_restart = may_restart
        self._names = names
        # Up to this place all were looked at. Of these, the ones that have changed since then.
        self._looked = 0
        self._changed: set[int] = set()
        self._lists: dict[tuple[str, str], RisingNumbers] = {}
        self._in_list: dict[int, RisingNumbers] = {}
        self._running: dict[int, Running] = {}
        self._unfinished: dict[int, Unfinished] = {}
        self._past: dict[str, list[Completed]] = {}
        self._turn = asyncio.Lock()
        self._settling: asyncio.Task[None] | None = None

    def note_changed(self, execution: int) -> None:
        if self._executions.numbers.place(execution) <= self._looked:
            self._changed.add(execution)

    def settle_soon(self) -> None:
        """Settles beside other things. If that fails, the next read does it."""
        if not self._turn.locked():
            self._settling = asyncio.ensure_future(self.settle(FEW))
            self._settling.add_done_callback(lambda done: done.cancelled() or done.exception())

    async def settle(self, left: int = 0) -> None:
        """Looks at what has changed, until no more than so many are left. What changes meanwhile counts, too.

        None are left only if no operation comes meanwhile: else a few may be, or there would be no end.
        """
        async with self._turn:
            while len(self._changed) + self._executions.count - self._looked > left:
                block = self._next_block()
                try:
                    answers = await self._engine.ask([ASK_EXECUTION % one for one in block])
                except BaseException:
                    self._changed.update(block)
                    raise
                for execution, told in zip(block, json.loads(b"[%b]" % b",".join(answers.replies)), strict=True):
                    self._put(execution, told.get("job_execution"))

    def _next_block(self) -> list[int]:
        """Those to look at next. What changes from now on is to be looked at again."""
        if self._changed:
            block = sorted(islice(self._changed, BLOCK))
            self._changed.difference_update(block)
            return block
        first = self._looked + 1
        self._looked = min(self._looked + BLOCK, self._executions.count)
        return self._executions.numbers_at(range(first, self._looked + 1))

    def _put(self, execution: int, told: Mapping[str, Any] | None) -> None:
        """Puts a job execution where it belongs. One that was purged belongs nowhere."""
        if execution in self._in_list:
            self._in_list.pop(execution).remove(execution)
        self._running.pop(execution, None)
        self._unfinished.pop(execution, None)
        if told is None:
            return
        (job, version), status = self._names.of(told["job"]), told["status"]
        if status in UNFINISHED:
            place = (execution, told["instance"], told["job"])
            self._unfinished[execution] = Unfinished(*place, status, told["updated"])
            self._put_unfinished(execution, {**told, "job": job}, version)
        elif status == "COMPLETED":
            self._note_completed(job, execution, told)
        elif status == "ABANDONED":
            self._past[job] = [one for one in self._past.get(job, ()) if one.execution != execution]
        elif status in RESTARTABLE and self._executions.is_newest(execution) and self._may_restart(told["job"]):
            self._put_in_list(execution, status, job)

    def _put_unfinished(self, execution: int, told: Mapping[str, Any], version: int) -> None:
        if told["start"] is not None:
            head = (execution, told["instance"], told["job"], told["status"], told["start"])
            self._running[execution] = Running(*head, version)
        if execution not in self._busy:
            self._put_in_list(execution, WAITING, told["job"])

    def _put_in_list(self, execution: int, name: str, job: str) -> None:
        numbers = self._lists.setdefault((name, job), RisingNumbers())
        numbers.add(execution)
        self._in_list[execution] = numbers

    def _note_completed(self, job: str, execution: int, told: Mapping[str, Any]) -> None:
        if told["start"] is None:
            return
        past = self._past.setdefault(job, [])
        one = Completed(told["end"], told["end"] - told["start"], execution)
        if one not in past:
            insort(past, one)
            del past[:-PAST]

    def _named(self, names: tuple[str, ...], job: str | None) -> list[RisingNumbers]:
        return [numbers for (name, of), numbers in self._lists.items() if name in names and job in (None, of)]

    def count(self, name: str, job: str | None) -> int:
        return sum(len(numbers) for numbers in self._named((name,), job))

    def restartable(self, statuses: tuple[str, ...], job: str | None, page: Page) -> list[int]:
        """Job executions by which a job instance is open, the newest first."""
        found = merge(*(reversed(numbers) for numbers in self._named(statuses, job)), reverse=True)
        return list(islice(found, page.start, page.start + page.size))

    def all_restartable(self, statuses: tuple[str, ...]) -> list[int]:
        """All job executions by which a job instance is open, in no order."""
        return [one for numbers in self._named(statuses, None) for one in numbers]

    def waiting(self, job: str | None, page: Page) -> list[int]:
        """Job executions that aren't finished, and of which nothing is busy, in the order in which claims find them."""
        return list(islice(merge(*self._named((WAITING,), job)), page.start, page.start + page.size))

    def long(self, now: int, job: str | None) -> list[Long]:
        """Of what is busy, the job executions that run much longer than their past, by rising number."""
        busy = [self._running[one] for one in sorted(self._busy) if one in self._running]
        longest = {one: self._longest(one) for one in {running.job for running in busy} if job in (None, one)}
        found = [Long(one, now - one.start, longest.get(one.job) or 0) for one in busy if longest.get(one.job) is not None]
        return [one for one in found if one.lasts > one.longest + max(one.longest, LEAST_MORE)]

    def past(self, job: str) -> list[int]:
        """How many milliseconds each of a job's past took, the shortest first. A restart runs a part of its job."""
        return sorted(one.took for one in self._past.get(job, ()) if self._executions.is_there(one.execution))

    def _longest(self, job: str) -> int | None:
        return max(self.past(job), default=None)

    def unfinished(self) -> list[Unfinished]:
        """All that aren't finished, busy or not."""
        return list(self._unfinished.values())

    def all_running(self) -> list[Running]:
        """All that have begun, and aren't finished."""
        return list(self._running.values())

    def running(self, execution: int) -> Running | None:
        return self._running.get(execution)
