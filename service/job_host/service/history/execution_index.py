"""Job executions by batch status, job and search, the newest first.

batchctl is asked for a job execution once, and again after an operation on it. What an operation is on stands in docs/LINES.md.
"""

from __future__ import annotations

import asyncio
from array import array
from collections.abc import Iterable, Sequence
from dataclasses import dataclass
from typing import NamedTuple

from job_host.catalogue.names import PLAIN_NAMES, JobNames
from job_host.protocol.lines import read
from job_host.protocol.parameters import parameter_text
from job_host.service.history.answers import Answering
from job_host.service.history.base import Base
from job_host.service.history.numbers import Numbers
from job_host.service.pages import Page

BLOCK = 1_000
PARAMETER_CHARACTERS = 1_000
ALL_NUMBERS = (1, None)
# Lines of thousands at once: written without an encoder each.
ASK_EXECUTION = b'{"ask":"job_execution","execution":%d}'
ASK_PARAMETERS = b'{"ask":"parameters","execution":%d}'


class Row(NamedTuple):
    """What is searched of a job execution, and how many operations it saw. A purged one has no status."""

    seen: int
    instance: int = 0
    job: str = ""
    status: str = ""
    exit: str = ""


@dataclass(frozen=True)
class Wanted:
    """A list's filter. Without statuses all of them are meant; `search` is in lower case.

    With `most_recent` only the most recent job execution of each job instance is meant. `numbers` are the first number that is
    meant, and the last one if there is one. A search for a number means it as it is outside: `more` of it than here.
    """

    statuses: frozenset[str] = frozenset()
    job: str | None = None
    search: str = ""
    most_recent: bool = False
    numbers: tuple[int, int | None] = ALL_NUMBERS
    more: int = 0

    @property
    def is_by_status_alone(self) -> bool:
        return self.job is None and not self.search and not self.most_recent and self.numbers == ALL_NUMBERS

    def has_status(self, row: Row) -> bool:
        return bool(row.status) and (not self.statuses or row.status in self.statuses)

    def takes(self, execution: int, row: Row, parameters: str) -> bool:
        """Whether a job execution with such a status is meant."""
        if self.job is not None and row.job != self.job:
            return False
        if not self.search or self.search in (str(self.more + execution), str(self.more + row.instance)):
            return True
        return any(self.search in text.lower() for text in (row.job, row.exit, parameters))


class ExecutionIndex:
    """Rows of one history. It is told of each operation, and asks for what a list needs and isn't known.

    A row has the job's name: versions are told apart elsewhere.
    """

    def __init__(self, engine: Answering, names: JobNames = PLAIN_NAMES) -> None:
        self._engine = engine
        self._names = names
        self._rows: dict[int, Row] = {}
        # As texts, of those that were searched. They never change.
        self._parameters: dict[int, str] = {}
        # Numbers that the base of a log lacks are those of purged job instances. The others have places, by which arrays go.
        self.numbers, self._instance_numbers = Numbers(), Numbers()
        # The last operation on each job execution, and on each purged job instance.
        self._changed = array("Q", [0])
        self._purged: dict[int, int] = {}
        # The operation that restarted a job execution: since then another one is its job instance's most recent one.
        self._restarted: dict[int, int] = {}
        # The most recent job execution of each job instance; of each job execution its job instance, and the one it restarted.
        self._newest = array("Q", [0])
        self._instances = array("Q", [0])
        self._earlier = array("Q", [0])
        self._turn = asyncio.Lock()

    def begin(self, base: Base) -> None:
        """Begins with the job executions of a base. Of what was done to them is known that it was before the base."""
        head, rows = base.head, base.executions
        self.numbers.begin((row.execution for row in rows), head.execution)
        self._instance_numbers.begin(sorted({row.instance for row in rows}), head.instance)
        self._changed = array("Q", [0] + [head.operations] * len(rows))
        self._instances = array("Q", [0, *(row.instance for row in rows)])
        self._newest = array("Q", [0] * self._instance_numbers.place(head.instance + 1))
        self._earlier = array("Q", [0])
        for row in rows:
            place = self._instance_numbers.place(row.instance)
            earlier, self._newest[place] = self._newest[place], row.execution
            self._earlier.append(earlier)
            if earlier:
                self._restarted[earlier] = head.operations

    @property
    def count(self) -> int:
        """How many job executions have a place."""
        return len(self._changed) - 1

    @property
    def last(self) -> int:
        """The greatest number of a job execution."""
        return self.numbers.last(self.count)

    @property
    def instance_count(self) -> int:
        """How many job instances have a place."""
        return len(self._newest) - 1

    @property
    def last_instance(self) -> int:
        """The greatest number of a job instance."""
        return self._instance_numbers.last(self.instance_count)

    def instance_at(self, place: int) -> int:
        """The number of the job instance at a place, from 1 on."""
        return self._instance_numbers.number(place)

    def numbers_at(self, places: Iterable[int]) -> list[int]:
        """The numbers of the job executions at these places."""
        return [self.numbers.number(place) for place in places]

    def changed_at(self, execution: int) -> int:
        """The last operation on a job execution, but for a purge. It may be an earlier one than the base's count."""
        return self._changed[self.numbers.place(execution)]

    def note_changed(self, execution: int, operation: int) -> None:
        place = self.numbers.place(execution)
        missing = place + 1 - len(self._changed)
        if missing > 0:
            self._changed.extend([0] * missing)
        self._changed[place] = operation

    def note_purged(self, instance: int, operation: int) -> None:
        self._purged[instance] = operation

    def note_made(self, execution: int, restarted: int | None, operation: int) -> None:
        """A start makes the next job instance, and a restart the next job execution of one."""
        if restarted is None:
            instance = self.last_instance + 1
            self._newest.append(execution)
        else:
            instance = self._instances[self.numbers.place(restarted)]
            self._newest[self._instance_numbers.place(instance)] = execution
            self._restarted[restarted] = operation
        self._instances.append(instance)
        self._earlier.append(restarted or 0)

    def numbers_there(self) -> list[int]:
        """The job executions whose job instances weren't purged."""
        return [one for one in self.numbers_at(range(1, self.count + 1)) if self.is_there(one)]

    def numbers_purged(self) -> list[int]:
        """The job executions of the job instances that were purged behind the base."""
        return [execution for instance in list(self._purged) for execution in self.every_of(instance)]

    def every_of(self, instance: int) -> list[int]:
        """All job executions of a job instance, the newest first."""
        return self.of_instance(instance, Page(0, self.last))

    def was_there(self, execution: int, operation: int) -> bool:
        """Whether its job instance wasn't purged by then."""
        return self._purged.get(self._instances[self.numbers.place(execution)], operation + 1) > operation

    def purged_between(self, since: int, until: int) -> list[int]:
        """The job instances that were purged behind an operation, up to another one."""
        return [instance for instance, operation in list(self._purged.items()) if since < operation <= until]

    def has_instance(self, instance: int) -> bool:
        return 0 < self._instance_numbers.place(instance) < len(self._newest) and instance not in self._purged

    def instance_of(self, execution: int) -> int | None:
        """The job instance of a job execution, also of one that was purged behind the base."""
        place = self.numbers.place(execution)
        return self._instances[place] if 0 < place < len(self._instances) else None

    def is_there(self, execution: int) -> bool:
        """Whether its job instance wasn't purged."""
        return self.has_instance(self._instances[self.numbers.place(execution)])

    def is_newest(self, execution: int) -> bool:
        """Whether it is the most recent job execution of its job instance."""
        return execution not in self._restarted

    def newest_of(self, instance: int) -> int:
        return self._newest[self._instance_numbers.place(instance)]

    def of_instance(self, instance: int, page: Page) -> list[int]:
        """The job executions of a job instance, the newest first."""
        found: list[int] = []
        execution = self.newest_of(instance)
        while execution and len(found) < page.start + page.size:
            found.append(execution)
            execution = self._earlier[self.numbers.place(execution)]
        return found[page.start :]

    def is_most_recent(self, execution: int, seen: int) -> bool:
        """Whether it is the most recent job execution of its job instance after so many operations."""
        return self._restarted.get(execution, seen + 1) > seen

    def _is_known(self, execution: int) -> bool:
        row = self._rows.get(execution)
        return row is not None and row.seen >= max(self.changed_at(execution), self._purged.get(row.instance, 0))

    async def _know(self, block: Sequence[int], with_parameters: bool) -> None:
        """Asks for those of a block that aren't known. An operation that comes meanwhile makes them unknown again."""
        async with self._turn:
            unknown = [one for one in block if not self._is_known(one)]
            seen = self._engine.entered
            told = await self._ask(ASK_EXECUTION, unknown)
            self._rows.update((one, self._row(seen, reply)) for one, reply in zip(unknown, told))
            if with_parameters:
                missing = [one for one in block if one not in self._parameters]
                texts = [read(reply).get("parameters", {}) for reply in await self._ask(ASK_PARAMETERS, missing)]
                self._parameters.update((one, parameter_text(text, PARAMETER_CHARACTERS)) for one, text in zip(missing, texts))

    def _row(self, seen: int, reply: bytes) -> Row:
        one = read(reply).get("job_execution")
        if one is None:
            return Row(seen)
        return Row(seen, one["instance"], self._names.name_of(one["job"]), one["status"], one["exit"] or "")

    async def _ask(self, line: bytes, executions: Sequence[int]) -> list[bytes]:
        return (await self._engine.ask([line % one for one in executions])).replies if executions else []

    async def find(self, wanted: Wanted, start: int, count: int, most: int | None) -> tuple[list[int], bool]:
        """The numbers of a page, and whether there are more behind it.

        `most` is how many have one of the statuses, if that is known: behind the last of these there are no more.
        """
        found: list[int] = []
        low, high = self._places(wanted.numbers)
        passed = 0
        while high >= low and len(found) <= start + count and (most is None or passed < most):
            block = self.numbers_at(range(high, max(low - 1, high - BLOCK), -1))
            await self._know(block, bool(wanted.search))
            with_status = [one for one in block if wanted.has_status(self._rows[one])]
            found += [one for one in with_status if self._is_wanted(wanted, one)]
            passed += len(with_status)
            high -= BLOCK
            await asyncio.sleep(0)
        return found[start : start + count], len(found) > start + count

    def _places(self, numbers: tuple[int, int | None]) -> tuple[int, int]:
        """The first and the last place of these numbers."""
        first, last = numbers
        return self.numbers.count_until(first - 1) + 1, min(
            self.numbers.count_until(self.last if last is None else last), self.count
        )

    def _is_wanted(self, wanted: Wanted, execution: int) -> bool:
        if wanted.most_recent and not self.is_newest(execution):
            return False
        return wanted.takes(execution, self._rows[execution], self._parameters.get(execution, ""))
