"""All that the leader of one service does by itself, each with rounds of its own, so that none waits for another."""

from __future__ import annotations

import asyncio
from collections.abc import Callable

from job_host.service.ids import text_outside
from job_host.service.keepers.keeper import Keeper
from job_host.service.policies.delivery import Counts, Delivery, Sending
from job_host.service.policies.notifications import Finder
from job_host.service.policies.receiver import NotTaken
from job_host.service.policies.restarts import Restarts
from job_host.service.policies.rounds import Rounds
from job_host.service.policies.schedules import Schedules
from job_host.service.policies.timeouts import Timeouts
from job_host.service.settings import ServeSettings
from job_host.service.terms import moments


class Nobody:
    """Takes nothing: without a receiver nothing is sent."""

    async def send(self, number: str, text: str) -> None:
        raise NotTaken("there is no receiver")


class Outside:
    """Sends what a queue tells, with its numbers as they are outside."""

    def __init__(self, sending: Sending, queue: int) -> None:
        self._sending = sending
        self._queue = queue

    async def send(self, number: str, text: str) -> None:
        await self._sending.send(number, text_outside(text, self._queue))


class Policies:
    """The rounds of one service. Jobs of a catalogue have no settings; of them somebody may be told all the same."""

    def __init__(
        self,
        keeper: Keeper,
        settings: ServeSettings,
        receiver: Sending | None = None,
        clock: Callable[[], int] = moments.clock,
    ) -> None:
        self._keeper = keeper
        self._is_told = receiver is not None
        self.counts = Counts()
        self.restarts = Rounds(keeper, "restart policy", lambda term: Restarts(keeper, term, clock))
        self.timeouts = Rounds(keeper, "timeouts", lambda term: Timeouts(keeper, term, clock))
        self.schedules = Rounds(keeper, "schedules", lambda term: Schedules(keeper, term, clock))
        self.finding = Rounds(keeper, "notifications", lambda term: Finder(keeper, term, settings.history, clock))
        sending: Sending = receiver or Nobody()
        self.sending = Rounds(keeper, "notifications", lambda term: Delivery(keeper, sending, self.counts, clock))

    async def run(self) -> None:
        """Goes by the policies, for ever."""
        rounds = [self.restarts, self.timeouts, self.schedules] if self._keeper.is_versioned else []
        rounds += [self.finding, self.sending] if self._is_told else []
        await asyncio.gather(*(one.run() for one in rounds))
