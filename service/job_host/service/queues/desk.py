"""Claims on several queues: a claim is given to the first of its queues that has something to do.

One claim is made at a time, for those who wait in their order. A queue in which nothing was found isn't asked again until an
operation may have made work there. One whose calls wait holds up no claim of another queue.
"""

from __future__ import annotations

import asyncio
from collections import defaultdict
from collections.abc import Sequence
from contextlib import ExitStack
from dataclasses import dataclass, field

from job_host.service.problems import Problem, unavailable
from job_host.service.queues.queue import Queue
from job_host.service.terms.calls import Call, Item, Kept
from job_host.service.terms.claims import LOOK_SECONDS, MOST_WITHDRAWN, ClaimWithdrawn
from job_host.service.terms.term import Term

NOTHING = b'{"nothing":'
NOTHING_THERE = b'{"nothing":true}'


@dataclass(frozen=True)
class Claimed:
    """The reply to a claim, and the queue that it is of."""

    queue: Queue
    kept: Kept


@dataclass(eq=False)
class Waiter:
    """A claim that waits, within these terms of its queues. While it is tried it is in nobody else's hand."""

    call: Call
    queues: Sequence[Queue]
    terms: Sequence[Term]
    is_tried: bool = False
    is_late: bool = False
    served: asyncio.Future[tuple[Queue, Item] | None] = field(
        default_factory=lambda: asyncio.get_running_loop().create_future()
    )

    def end(self, problem: Exception) -> None:
        if not self.served.done():
            self.served.set_exception(problem)
            self.served.exception()


class ClaimsDesk:
    """Claims of all queues. `wake` says that there may be work in a queue."""

    def __init__(self) -> None:
        self._waiting: list[Waiter] = []
        self._empty: set[int] = set()
        self._wake = asyncio.Event()
        # Of each queue one claim is made at a time: it may have no more busy work items than its bounds say.
        self._turns: dict[int, asyncio.Lock] = defaultdict(asyncio.Lock)
        self._under_way: dict[tuple[str, str], asyncio.Task[Claimed]] = {}
        self._withdrawn: dict[tuple[str, str | None], None] = {}
        self._end: Problem | None = None

    def wake(self, number: int) -> None:
        self._empty.discard(number)
        self._wake.set()

    @property
    def waiting(self) -> int:
        return len(self._waiting)

    def waiting_for(self, queue: Queue) -> list[str]:
        """The clients whose claims wait for a queue."""
        return [one.call.client for one in self._waiting if queue in one.queues]

    # ---- Claims

    async def submit(self, call: Call, queues: Sequence[Queue]) -> Claimed:
        """Makes a claim, or gives the first reply of its request key. One claim with a key is under way at a time."""
        if call.key is None:
            return await self._once(call, queues)
        slot = (call.client, call.key)
        task = self._under_way.get(slot)
        if task is None:
            task = self._under_way[slot] = asyncio.get_running_loop().create_task(self._once(call, queues))
            task.add_done_callback(lambda done: self._leave(slot, done))
        return await asyncio.shield(task)

    def _leave(self, slot: tuple[str, str], done: asyncio.Task[Claimed]) -> None:
        self._under_way.pop(slot, None)
        if not done.cancelled():
            done.exception()

    async def _once(self, call: Call, queues: Sequence[Queue]) -> Claimed:
        terms = [one.keeper.leading() for one in queues]
        heard = ExitStack()
        try:
            for term in terms:
                heard.enter_context(term.sessions.hearing(call.client))
                await term.meet(call.client)
            return await self._kept(call, queues) or await self._made(call, queues)
        finally:
            heard.close()

    @staticmethod
    async def _kept(call: Call, queues: Sequence[Queue]) -> Claimed | None:
        """The first reply of the claim's key, in whichever of its queues that was."""
        for queue in queues if call.key is not None else ():
            kept = await queue.keeper.leading().kept_reply(call, call.key or "")
            if kept is not None:
                return Claimed(queue, kept)
        return None

    async def _made(self, call: Call, queues: Sequence[Queue]) -> Claimed:
        if self.is_withdrawn(call):
            raise ClaimWithdrawn()
        terms = [one.keeper.leading() for one in queues]
        for term in terms:
            term.desk.note_asked()
            term.workers.note_claim(call.client)
        claimed = await self._claim(call, queues)
        for term in terms:
            term.workers.note_claim(call.client, False)
        return claimed

    async def _claim(self, call: Call, queues: Sequence[Queue]) -> Claimed:
        """Waits for work for `call.wait` seconds. Then a last claim is made, and its reply counts."""
        found = await self._wait(call, queues) if call.wait > 0 else None
        if found is None:
            await self._until_heard(call)
            return await self._last(call, queues)
        queue, item = found
        return Claimed(queue, await item.done)

    async def _wait(self, call: Call, queues: Sequence[Queue]) -> tuple[Queue, Item] | None:
        if self._end is not None:
            raise self._end
        waiter = Waiter(call, queues, [one.keeper.leading() for one in queues])
        self._waiting.append(waiter)
        self._wake.set()
        try:
            await asyncio.wait([waiter.served], timeout=call.wait)
            waiter.is_late = True
            if not waiter.is_tried and not waiter.served.done():
                return None
            return await waiter.served
        finally:
            if waiter in self._waiting:
                self._waiting.remove(waiter)

    @staticmethod
    async def _until_heard(call: Call) -> None:
        """Returns after the client was heard. Raises a problem if it is gone."""
        while not call.is_gone() and call.is_unheard():
            await asyncio.sleep(LOOK_SECONDS)
        if call.is_gone():
            raise Problem("ClientGone", 408, "the client that waited is gone")

    async def _last(self, call: Call, queues: Sequence[Queue]) -> Claimed:
        """Claims of each queue that isn't full, last of those whose calls wait. Nothing is an answer, too."""
        asked: tuple[Queue, Item] | None = None
        for queue in sorted(queues, key=lambda one: one.is_held):
            item = await self._begin(queue, call)
            asked = asked if item is None else (queue, item)
            if item is not None and not item.reply.startswith(NOTHING):
                break
        if asked is not None:
            return Claimed(asked[0], await asked[1].done)
        if self.is_withdrawn(call):
            raise ClaimWithdrawn()
        term = queues[0].keeper.leading()
        await term.confirm()
        return Claimed(queues[0], Kept(NOTHING_THERE, (), term.committed))

    async def _begin(self, queue: Queue, call: Call) -> Item | None:
        """Claims of one queue, unless it is full. Its reply is there, and may not be kept yet."""
        async with self._turns[queue.number]:
            if queue.is_full:
                return None
            item = await queue.keeper.leading().begin(call)
            await item.heard
        return item

    async def _try(self, waiter: Waiter) -> tuple[Queue, Item] | None:
        """Claims of the first of its queues that has something to do."""
        for queue in waiter.queues:
            if not self._may_have(queue):
                continue
            # An operation that comes meanwhile takes it out again.
            self._empty.add(queue.number)
            item = await self._begin(queue, waiter.call)
            if item is None or not item.reply.startswith(NOTHING):
                self._empty.discard(queue.number)
            if item is not None and not item.reply.startswith(NOTHING):
                return queue, item
        return None

    def _may_have(self, queue: Queue) -> bool:
        """Whether a claim may find something now. Whether a queue is held is looked at again soon."""
        return queue.number not in self._empty and not queue.is_full and not queue.is_held

    # ---- Who waits

    async def run(self) -> None:
        """Serves, and looks after those who wait, for ever."""
        await asyncio.gather(self._serve(), self._watch())

    async def _serve(self) -> None:
        while True:
            await self._wake.wait()
            self._wake.clear()
            for waiter in list(self._waiting):
                if not self._end_gone(waiter) and not waiter.call.is_unheard() and self._may_find(waiter):
                    await self._serve_one(waiter)

    def _may_find(self, waiter: Waiter) -> bool:
        return any(map(self._may_have, waiter.queues))

    async def _serve_one(self, waiter: Waiter) -> None:
        if waiter not in self._waiting or waiter.served.done():
            return
        waiter.is_tried = True
        try:
            found = await self._try(waiter)
        except Exception as problem:
            waiter.end(problem)
            return
        finally:
            waiter.is_tried = False
        if found is not None or waiter.is_late:
            waiter.served.set_result(found)
        elif self.is_withdrawn(waiter.call):
            waiter.end(ClaimWithdrawn())
        elif self._end is not None:
            waiter.end(self._end)

    def _end_gone(self, waiter: Waiter) -> bool:
        """Ends a claim that waits if its client is gone, or a queue of it isn't led here any more."""
        if waiter.is_tried:
            return False
        if waiter.served.done():
            return True
        if waiter.call.is_gone():
            waiter.served.set_result(None)
            return True
        try:
            for queue, term in zip(waiter.queues, waiter.terms, strict=True):
                term.desk.note_asked()
                if term.failure is not None:
                    raise term.failure
                if queue.keeper.leading() is not term:
                    raise unavailable("Starting", f"the queue {queue.name} begins again")
        except Exception as problem:
            waiter.end(problem)
            return True
        return False

    async def _watch(self) -> None:
        """Ends those that can't be served any more, and tries those again that were unheard when there was work."""
        while True:
            await asyncio.sleep(LOOK_SECONDS)
            is_unheard = [one for one in list(self._waiting) if not self._end_gone(one) and one.call.is_unheard()]
            if is_unheard or self._waiting:
                self._wake.set()

    def end(self) -> None:
        """Whoever waits, or comes later, is told that the service ends."""
        self._end = unavailable("Starting", "this instance ends")
        for waiter in [one for one in self._waiting if not one.is_tried]:
            waiter.end(self._end)

    # ---- Withdrawn claims

    def is_withdrawn(self, call: Call) -> bool:
        return (call.client, call.key) in self._withdrawn

    async def withdraw(self, call: Call, queues: Sequence[Queue]) -> Claimed | None:
        """Withdraws a claim by its key. Returns its reply if it was made before; else it never is."""
        self._note_withdrawn(call, queues)
        try:
            return await self.submit(call, queues)
        except ClaimWithdrawn:
            for queue in queues:
                await queue.keeper.leading().confirm()
            return None

    def _note_withdrawn(self, call: Call, queues: Sequence[Queue]) -> None:
        self._withdrawn[call.client, call.key] = None
        if len(self._withdrawn) > MOST_WITHDRAWN:
            del self._withdrawn[next(iter(self._withdrawn))]
        for queue in queues:
            queue.keeper.leading().desk.withdraw(call)
        for waiter in list(self._waiting):
            if self.is_withdrawn(waiter.call) and not waiter.is_tried:
                waiter.end(ClaimWithdrawn())
