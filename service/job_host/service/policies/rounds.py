"""Rounds of one policy: as long as this instance leads, it is looked again and again what is due, and that is done.

Nothing that a round knows has to outlive the term: the next leader finds it in the history.
"""

from __future__ import annotations

import asyncio
import logging
from collections.abc import Callable
from typing import Protocol

from job_host.protocol.seldom import seldom
from job_host.service.history.coprocess import CoProcessEnded
from job_host.service.keepers.keeper import Keeper
from job_host.service.problems import Problem
from job_host.service.terms.term import Term

log = logging.getLogger(__name__)

# So often it is looked whether this instance leads, and what is due.
LOOK_SECONDS = 1.0
# After a round that failed, as by a history that is almost full.
RETRY_SECONDS = 10.0


class Part(Protocol):
    """One policy in one term."""

    async def round(self) -> None:
        """Does what is due. Raises a problem or CoProcessEnded if it can't now."""


class Rounds:
    """The rounds of one policy of one service. `count` counts those that ended."""

    def __init__(self, keeper: Keeper, name: str, begin: Callable[[Term], Part]) -> None:
        self._keeper = keeper
        self._name = name
        self._begin = begin
        self._say = seldom(log.warning)
        self.count = 0

    async def run(self) -> None:
        """Makes rounds for ever, whenever this instance leads. It never fails: what it can't do now is done later."""
        led: Term | None = None
        part: Part | None = None
        while True:
            term = self._keeper.term
            if term is None or term.failure is not None:
                await asyncio.sleep(LOOK_SECONDS)
                continue
            if part is None or led is not term:
                led, part = term, self._begin(term)
            is_done = await self._round(part)
            self.count += 1
            await asyncio.sleep(LOOK_SECONDS if is_done or self._keeper.term is not term else RETRY_SECONDS)

    async def _round(self, part: Part) -> bool:
        """One round. Returns whether it came to its end."""
        try:
            await part.round()
            return True
        except (Problem, CoProcessEnded) as fault:
            self._say(f"{self._name}: later, {fault}")
        except Exception:
            log.exception("%s: a round failed", self._name)
        return False
