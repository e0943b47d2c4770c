"""All queues of a service: which one a number or a job belongs to, and their life from start to end."""

from __future__ import annotations

import asyncio
import json
from collections.abc import Iterator, Mapping, Sequence

from job_host.catalogue.jobs import ServedJobs
from job_host.protocol.seen import Seen, both, in_queue, of_queue
from job_host.service.ids import inside
from job_host.service.keepers.keeper import Keeper
from job_host.service.problems import Problem, bad_request
from job_host.service.queues.desk import ClaimsDesk
from job_host.service.queues.queue import Queue


class Queues:
    """The queues by their numbers. With one queue without bounds all is as without queues: `are_plain`."""

    def __init__(self, queues: Sequence[Queue], are_plain: bool = False) -> None:
        self._queues = {one.number: one for one in queues}
        self.are_plain = are_plain
        self.desk = ClaimsDesk()
        # A job begins in one queue at a time.
        self.turn = asyncio.Lock()
        for one in queues:
            one.keeper.number = one.number
            if not are_plain:
                self._join(one)

    def _join(self, queue: Queue) -> None:
        """Lets a keeper know of the other queues. The default one decides which instance leads."""
        queue.keeper.elsewhere = lambda name: self.elsewhere(name, queue)
        if queue is not self.default:
            queue.keeper.may_lead = self._may_lead_others

    def _may_lead_others(self) -> bool:
        is_known = all(one.keeper.book is not None or not one.keeper.is_versioned for one in self)
        return is_known and self.default.keeper.role == "leader"

    def __iter__(self) -> Iterator[Queue]:
        return iter(self._queues.values())

    def __len__(self) -> int:
        return len(self._queues)

    @property
    def default(self) -> Queue:
        return self._queues[0]

    @property
    def keepers(self) -> list[Keeper]:
        return [one.keeper for one in self]

    def of_number(self, number: int) -> tuple[Queue, int]:
        """The queue of a job instance, job execution or work item, and its number there.

        One that no queue has stays as it is: the repository of the default queue refuses it.
        """
        queue, there = inside(number)
        if queue in self._queues:
            return self._queues[queue], there
        return self.default, number

    def numbered(self, number: int) -> Queue:
        return self._queues[number]

    def named(self, name: str) -> Queue:
        """Raises a problem if there is no such queue."""
        for one in self:
            if one.name == name:
                return one
        told = f"there is no queue {json.dumps(name)}: there are {', '.join(each.name for each in self)}"
        raise Problem("NoSuchQueue", 404, told)

    def elsewhere(self, name: str, queue: Queue) -> str | None:
        """The other queue in which a job may be started."""
        for one in self:
            if one is not queue and one.keeper.book is not None and one.keeper.book.has(name):
                return one.name
        return None

    def home(self, job: str) -> Queue:
        """The queue in which a job may be started; else the one in which it was changed last; else the default one."""
        books = [(one, one.keeper.book) for one in self]
        has = [one for one, book in books if book is not None and book.has(job)]
        if has:
            return has[0]
        known = [(book.last_change(job), one) for one, book in books if book is not None and book.newest(job)]
        return max(known, key=lambda each: each[0])[1] if known else self.default

    def once_home(self, job: str) -> list[Queue]:
        """The other queues that have versions of a job."""
        home = self.home(job)
        books = [(one, one.keeper.book) for one in self if one is not home]
        return [one for one, book in books if book is not None and book.newest(job)]

    # ---- What was seen

    def check_known(self, seen: Seen) -> None:
        """Raises a problem if a queue that isn't there was seen."""
        if any(operations and number not in self._queues for number, operations in enumerate(seen)):
            raise bad_request(f"operations of a queue were seen that isn't here: the last one is {max(self._queues)}")

    def seen_in(self, queue: Queue, operations: int, before: Seen = ()) -> Seen:
        """So many operations of one queue, and what was seen before."""
        return both(before, of_queue(queue.number, operations))

    @staticmethod
    def at_least_in(queue: Queue, seen: Seen) -> int:
        return in_queue(seen, queue.number)

    @property
    def committed(self) -> Seen:
        """How many operations are kept in each queue."""
        seen: Seen = ()
        for one in self:
            seen = both(seen, of_queue(one.number, one.keeper.committed))
        return seen

    # ---- How they are

    @property
    def role(self) -> str:
        """That of all queues if it is one; an instance that leads some of them alone is about to lead all, or none."""
        roles = {keeper.role for keeper in self.keepers}
        return roles.pop() if len(roles) == 1 else "starting"

    @property
    def are_ready(self) -> bool:
        return all(keeper.is_ready for keeper in self.keepers)

    @property
    def fullest(self) -> int:
        """The operations of the queue that has most of them."""
        return max(keeper.committed for keeper in self.keepers)

    @property
    def waiting(self) -> int:
        """How many claims wait for work."""
        if self.are_plain:
            term = self.default.keeper.term
            return term.desk.waiting if term else 0
        return self.desk.waiting

    # ---- Their life

    async def run(self) -> None:
        """Keeps all histories until `close`. Raises Fatal if one of them can't go on: then none does."""
        if self.are_plain:
            await self.default.keeper.run()
            return
        for keeper in self.keepers:
            keeper.load_jobs()
        running = [asyncio.ensure_future(keeper.run()) for keeper in self.keepers]
        serving = asyncio.ensure_future(self.desk.run())
        try:
            await asyncio.wait(running, return_when=asyncio.FIRST_COMPLETED)
        finally:
            await self.close()
            await asyncio.wait(running)
            serving.cancel()
            await asyncio.gather(serving, return_exceptions=True)
        for one in running:
            one.result()

    async def close(self) -> None:
        for keeper in self.keepers:
            await keeper.close()

    def end_waits(self) -> None:
        """Ends the claims that wait, as the service ends."""
        for keeper in self.keepers:
            keeper.end_waits()
        self.desk.end()

    async def read_folder(self, served: Mapping[str, ServedJobs]) -> None:
        """Takes over what has changed in the folder of `--jobs`, queue by queue. Raises what the keepers raise."""
        async with self.turn:
            for one in self:
                if one.name in served:
                    await one.keeper.read_folder(served[one.name])
