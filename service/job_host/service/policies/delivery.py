"""Sends notifications until they are taken: in their order for each job execution, and again after waits that double."""

from __future__ import annotations

import logging
from collections.abc import Callable, Sequence
from typing import Protocol

from job_host.protocol.seldom import seldom
from job_host.service.keepers.keeper import Keeper
from job_host.service.policies.receiver import NotTaken
from job_host.service.stores.notifications import Notification, PolicyNotes
from job_host.service.terms import moments

log = logging.getLogger(__name__)

# In milliseconds: the wait after the first attempt, and the longest one, of a notification.
FIRST_WAIT, LONGEST_WAIT = 5_000, 3_600_000
# The same for all of them, while the receiver can't be reached.
FIRST_REST, LONGEST_REST = 1_000, 300_000
# So many are read at once, and sent in a round.
SENT_AT_ONCE, SENT_IN_ROUND = 100, 1_000


class Sending(Protocol):
    """Sends a notification by its id and its body. Raises NotTaken."""

    async def send(self, number: str, text: str) -> None:
        ...


class Counts:
    """How many notifications wait, and how many were taken, and attempts failed, since the start of the service."""

    def __init__(self) -> None:
        self.waiting = 0
        self.taken = 0
        self.failed = 0


class Delivery:
    """The sending of one term."""

    def __init__(self, keeper: Keeper, receiver: Sending, counts: Counts, clock: Callable[[], int] = moments.clock) -> None:
        self._keeper = keeper
        self._receiver = receiver
        self._counts = counts
        self._clock = clock
        self._say = seldom(log.warning)
        self._rests = 0
        self._rest_until = 0

    async def round(self) -> None:
        """Sends what is due. If the receiver can't be reached, nothing more is sent for a while."""
        notes = self._keeper.notes()
        self._counts.waiting = await notes.count()
        if self._clock() < self._rest_until:
            return
        left = SENT_IN_ROUND
        while left > 0 and (due := await notes.due(self._clock(), SENT_AT_ONCE)) and await self._send_all(notes, due):
            left -= len(due)

    async def _send_all(self, notes: PolicyNotes, due: Sequence[Notification]) -> bool:
        """Sends some of different job executions. Returns whether the receiver answers."""
        for one in due:
            if not await self._send(notes, one):
                return False
        return True

    async def _send(self, notes: PolicyNotes, one: Notification) -> bool:
        """Sends one. Returns whether the receiver answers."""
        try:
            await self._receiver.send(one.id, one.body)
        except NotTaken as fault:
            self._counts.failed += 1
            self._say(f"notification {one.id} wasn't taken, and is sent again: {fault}")
            await notes.postpone(one.number, self._clock() + wait_after(one.attempts, FIRST_WAIT, LONGEST_WAIT))
            self._note_rest(fault.is_here)
            return fault.is_here
        await notes.drop(one.number)
        self._note_rest(True)
        self._counts.taken += 1
        self._counts.waiting -= 1
        return True

    def _note_rest(self, is_here: bool) -> None:
        self._rest_until = 0 if is_here else self._clock() + wait_after(self._rests, FIRST_REST, LONGEST_REST)
        self._rests = 0 if is_here else self._rests + 1


def wait_after(attempts: int, first: int, longest: int) -> int:
    """The wait after so many attempts before, in milliseconds."""
    return min(first << min(attempts, 32), longest)
