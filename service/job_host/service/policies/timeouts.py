"""Timeouts of jobs: a job execution that runs for longer than its job's settings say is asked to stop, once.

Its begin stands in the history, so a new leader goes on. What doesn't end then is told as late.
"""

from __future__ import annotations

import logging
from collections.abc import Callable

from job_host.catalogue.names import id_of
from job_host.protocol.batch_statuses import STOPPING
from job_host.protocol.lines import fingerprint, refusal_of
from job_host.service.history.open_index import FEW, Running
from job_host.service.keepers.keeper import Keeper
from job_host.service.policies.known import TIMER
from job_host.service.terms import moments
from job_host.service.terms.calls import Call
from job_host.service.terms.term import Term

log = logging.getLogger(__name__)


class Timeouts:
    """The stops of one term."""

    def __init__(self, keeper: Keeper, term: Term, clock: Callable[[], int] = moments.clock) -> None:
        self._keeper = keeper
        self._term = term
        self._clock = clock
        self._seen = -1
        # The moments at which job executions are due, by number. Those that are asked to stop aren't.
        self._due: dict[int, int] = {}

    async def round(self) -> None:
        """Stops what is due. Without an operation since the last round nothing else is looked at."""
        engine = self._term.engine
        if self._seen != engine.entered:
            await engine.open.settle(FEW)
            async with self._keeper.steps(0):
                await engine.open.settle()
                seen, running = engine.entered, engine.open.all_running()
            self._due = {one.execution: due for one in running if (due := self._due_of(one)) is not None}
            self._seen = seen
        now = self._clock()
        for execution in sorted(one for one, due in self._due.items() if due <= now):
            await self._stop(execution)

    def _due_of(self, running: Running) -> int | None:
        timeout = self._keeper.policies(id_of(running.job, running.version)).timeout
        if timeout is None or running.status == STOPPING:
            return None
        return running.start + 1_000 * timeout.seconds

    async def _stop(self, execution: int) -> None:
        """Asks a job execution to stop. Its key is of the job execution. One that has ended meanwhile refuses it."""
        members = {"execution": execution}
        call = Call(TIMER, "stop", members, f"timeout-{execution}", fingerprint("stop", members))
        refusal = refusal_of((await self._term.submit(call)).told())
        del self._due[execution]
        if refusal is None:
            log.warning("timeout: job execution %d is asked to stop", self._keeper.outside(execution))
