"""Leases: each busy work item has one while the service leads. Where it runs out, the work item is lost."""

from __future__ import annotations

import asyncio
import time
from collections.abc import Iterable, Iterator
from contextlib import contextmanager

from job_host.service.terms.term import Term

TICK = 0.25
# A lease with less than this part of its time left is late: its worker should have renewed it.
LATE_PART = 0.5


class Leases:
    """The moments at which leases run out, by a clock that only rises, and rests in a pause. All begin anew with a term."""

    def __init__(self, seconds: float) -> None:
        self.seconds = seconds
        self._ends: dict[int, float] = {}
        self._paused = 0.0
        self._paused_at: float | None = None
        self._last_look = self.now()

    def now(self) -> float:
        return (time.monotonic() if self._paused_at is None else self._paused_at) - self._paused

    @contextmanager
    def pausing(self) -> Iterator[None]:
        """Within the block no lease grows older: calls wait, so a worker may have reported that isn't heard yet."""
        self._paused_at = time.monotonic()
        try:
            yield
        finally:
            self._paused += time.monotonic() - self._paused_at
            self._paused_at = None

    def renew(self, work: int) -> None:
        self._ends[work] = self.now() + self.seconds

    def over(self, held: Iterable[int], now: float) -> list[int]:
        """The busy work items whose lease has run out. One that is seen for the first time has a whole lease.

        If nobody looked for some time, as after a SIGSTOP of the service, nobody could renew a lease. Such time doesn't count.
        """
        pause = max(0.0, now - self._last_look - 4 * TICK)
        self._last_look = now
        ends = {work: self._ends.get(work, now + self.seconds) + pause for work in held}
        self._ends = ends
        return [work for work, end in ends.items() if end <= now]

    def remaining(self, work: int) -> float:
        now = self.now()
        return max(0.0, self._ends.get(work, now + self.seconds) - now)

    def late(self, held: Iterable[int]) -> list[int]:
        """Those of these work items whose lease is late."""
        bound = self.now() + self.seconds * LATE_PART
        return [work for work in held if self._ends.get(work, bound) < bound]

    async def watch(self, term: Term) -> None:
        """Loses what has run out, for ever. Raises the problem by which the term failed."""
        self._ends.clear()
        self._last_look = self.now()
        while True:
            await asyncio.sleep(TICK)
            await self._lose_over(term)

    async def _lose_over(self, term: Term) -> None:
        for work in self.over(list(term.engine.held), self.now()):
            await term.lose(work)
