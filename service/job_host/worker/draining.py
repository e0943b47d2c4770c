"""How a worker ends: it claims nothing more, says so to the service, and cuts off what isn't over after its grace."""

from __future__ import annotations

import asyncio
import logging
import signal
from collections.abc import Awaitable, Callable
from typing import Any

from job_host.protocol.client import Refused, Unreachable

log = logging.getLogger(__name__)

# Exit statuses of `jobhost worker`.
DRAINED, REFUSED, CUT_OFF, NO_WORK = 0, 1, 3, 4
# The exit status of a work item that is cut off, which a transition element or a restart policy may name.
CUT_OFF_EXIT = "cut off"
# What is cut off has ended, and was reported or given up, after so many seconds.
CUT_OFF_SECONDS = 40.0
# The service is told so often: another instance may lead meanwhile, which doesn't know.
TELL_SECONDS = 5.0


class Ending:
    """What a worker is told of its end. After `told` it claims nothing; after `hurry` it cuts off what it runs."""

    def __init__(self, grace: float | None = None) -> None:
        self._grace = grace
        self.told = asyncio.Event()
        self.hurry = asyncio.Event()

    def tell(self) -> None:
        """Lets the worker drain, for its grace. If it drains already, what is left is cut off."""
        if self.told.is_set():
            self._cut_off("told to end once more")
            return
        self.told.set()
        if self._grace is not None:
            told = f"the grace of {self._grace:g} seconds is over"
            asyncio.get_running_loop().call_later(self._grace, self._cut_off, told)

    def _cut_off(self, why: str) -> None:
        if not self.hurry.is_set():
            log.warning("%s: what is left is cut off", why)
            self.hurry.set()

    def listen(self) -> None:
        """Is told by SIGTERM and SIGINT from now on."""
        loop = asyncio.get_running_loop()
        for number in (signal.SIGTERM, signal.SIGINT):
            loop.add_signal_handler(number, self.tell)


async def tell_drain(ending: Ending, operate: Callable[..., Awaitable[Any]]) -> None:
    """Tells the service that this worker drains, from then on, until it is cancelled."""
    await ending.told.wait()
    while True:
        try:
            await operate("PUT", "/batch/workers?action=drain", patience=TELL_SECONDS, attempt=TELL_SECONDS)
        except Unreachable as fault:
            log.warning("the service isn't told that this worker drains: %s", fault)
        except Refused as refused:
            # A service of an earlier version knows no such call.
            log.warning("the service isn't told that this worker drains: %s", refused)
            return
        await asyncio.sleep(TELL_SECONDS)
