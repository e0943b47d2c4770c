"""Claims that wait for work: one claim at a time is made for those who wait, in their order."""

from __future__ import annotations

import asyncio
import time
from collections import deque
from collections.abc import Awaitable, Callable
from dataclasses import dataclass, field

from job_host.service.problems import Problem
from job_host.service.terms.calls import Call, Item, Kept

Begin = Callable[[Call], Awaitable[Item]]

# Whether clients that wait are gone, or are heard again, is looked at so often.
LOOK_SECONDS = 0.5
# So many withdrawn claims are known: the oldest are forgotten, whose requests came long ago.
MOST_WITHDRAWN = 10_000


class ClaimWithdrawn(Problem):
    """The claim was withdrawn before it was made."""

    def __init__(self) -> None:
        super().__init__("ClaimWithdrawn", 409, "the client has withdrawn the claim with this key")


@dataclass(eq=False)
class Waiter:
    call: Call
    is_late: bool = False
    served: asyncio.Future[Item | None] = field(default_factory=lambda: asyncio.get_running_loop().create_future())


class ClaimDesk:
    """Serves waiting claims after each operation that may have made work, until a claim is answered Nothing."""

    def __init__(self, begin: Begin) -> None:
        self._begin = begin
        self._waiting: deque[Waiter] = deque()
        self._withdrawn: dict[tuple[str, str | None], None] = {}
        self._failure: Exception | None = None
        self._is_passed_over = False
        self._wake = asyncio.Event()
        self._asked_at = time.monotonic()

    def wake(self) -> None:
        self._wake.set()

    @property
    def waiting(self) -> int:
        return len(self._waiting)

    @property
    def clients(self) -> set[str]:
        """The clients whose claims wait."""
        return {waiter.call.client for waiter in self._waiting}

    def note_asked(self) -> None:
        """A worker asks for work, or has asked until now."""
        self._asked_at = time.monotonic()

    @property
    def silence(self) -> float:
        """For how many seconds no worker has asked for work."""
        return 0.0 if self._waiting else time.monotonic() - self._asked_at

    def is_withdrawn(self, call: Call) -> bool:
        return call.do == "claim" and (call.client, call.key) in self._withdrawn

    def withdraw(self, call: Call) -> None:
        """From now on no claim of this client and key is made, also if its request comes late. One that waits ends."""
        self._withdrawn[call.client, call.key] = None
        if len(self._withdrawn) > MOST_WITHDRAWN:
            del self._withdrawn[next(iter(self._withdrawn))]
        for waiter in [one for one in self._waiting if self.is_withdrawn(one.call)]:
            self._waiting.remove(waiter)
            waiter.served.set_exception(ClaimWithdrawn())

    async def claim(self, call: Call) -> Kept:
        """Waits for work. After `call.wait` seconds a last claim is made, and its reply counts."""
        if self._failure is not None:
            raise self._failure
        waiter = Waiter(call)
        self._waiting.append(waiter)
        self.wake()
        await asyncio.wait([waiter.served], timeout=call.wait)
        self.note_asked()
        waiter.is_late = True
        item = None
        if waiter in self._waiting:
            self._waiting.remove(waiter)
        else:
            item = await waiter.served
        if item is None:
            await self._until_heard(call)
            item = await self._begin(call)
        return await item.done

    @staticmethod
    async def _until_heard(call: Call) -> None:
        """Returns after the client was heard. Raises a problem if it is gone: the system finds out which, within seconds."""
        while not call.is_gone() and call.is_unheard():
            await asyncio.sleep(LOOK_SECONDS)
        if call.is_gone():
            raise Problem("ClientGone", 408, "the client that waited is gone")

    async def serve(self) -> None:
        """Serves for ever. It ends with the exception by which a claim failed."""
        while True:
            await self._wake.wait()
            self._wake.clear()
            await self._serve_all()

    async def watch(self) -> None:
        """Ends claims whose clients are gone, and serves those that were unheard when there was work, for ever."""
        while True:
            await asyncio.sleep(LOOK_SECONDS)
            for waiter in list(self._waiting):
                self._end_gone(waiter)
            if self._is_passed_over:
                self.wake()

    async def _serve_all(self) -> None:
        self._is_passed_over = False
        while (waiter := self._next()) is not None and await self._serve_one(waiter):
            pass

    def _next(self) -> Waiter | None:
        """Takes the first who waits, and is heard: work isn't given to a machine that is gone, which nobody knows yet."""
        for waiter in list(self._waiting):
            if self._end_gone(waiter):
                continue
            if not waiter.call.is_unheard():
                self._waiting.remove(waiter)
                return waiter
            self._is_passed_over = True
        return None

    def _end_gone(self, waiter: Waiter) -> bool:
        """Ends a claim that waits if its client is gone. Returns whether it is."""
        if not waiter.call.is_gone():
            return False
        self._waiting.remove(waiter)
        waiter.served.set_result(None)
        return True

    async def _serve_one(self, waiter: Waiter) -> bool:
        """Claims for one who waited. Returns whether there may be more work."""
        try:
            item = await self._begin(waiter.call)
            reply = await item.heard
        except asyncio.CancelledError:
            # The term ends: whoever waits is told by `fail`, which may have come already.
            self._put_back(waiter)
            raise
        except Exception as problem:
            waiter.served.set_exception(problem)
            return True
        if not reply.startswith(b'{"nothing":'):
            waiter.served.set_result(item)
            return True
        if self.is_withdrawn(waiter.call):
            waiter.served.set_exception(ClaimWithdrawn())
        elif waiter.is_late:
            waiter.served.set_result(None)
        else:
            self._put_back(waiter)
        return False

    def _put_back(self, waiter: Waiter) -> None:
        if self._failure is not None:
            waiter.served.set_exception(self._failure)
        else:
            self._waiting.appendleft(waiter)

    def fail(self, problem: Exception) -> None:
        """Ends the desk: whoever waits, or comes later, is answered the problem."""
        self._failure = problem
        while self._waiting:
            waiter = self._waiting.popleft()
            if not waiter.served.done():
                waiter.served.set_exception(problem)
