"""Work items that are busy, and those that ended last: no query of batchctl tells partitions and decisions."""

from __future__ import annotations

from collections import deque
from typing import NamedTuple

MOST_ENDED = 100_000
LOST = "LOST"


class Held(NamedTuple):
    """A busy work item: the session that claimed it, and the moment of its claim."""

    work: int
    execution: int
    element: str
    partition: int | None
    session: int
    since: int


class Ended(NamedTuple):
    """A work item that is over: when, and what was told of it. One that was lost has the outcome LOST."""

    held: Held
    until: int
    outcome: str
    exit: str | None


class EndedWork:
    """The last work items that are over, by job execution. All that ended after `forgotten_until` are here."""

    def __init__(self, most: int = MOST_ENDED) -> None:
        self.forgotten_until = 0
        self._most = most
        # Lists: most have one or two, and an empty deque takes more than ten of these.
        self._by_execution: dict[int, list[Ended]] = {}
        self._order: deque[int] = deque()

    def note(self, ended: Ended) -> None:
        execution = ended.held.execution
        self._by_execution.setdefault(execution, []).append(ended)
        self._order.append(execution)
        if len(self._order) > self._most:
            self._forget(self._order.popleft())

    def _forget(self, execution: int) -> None:
        """Forgets the first one of a job execution."""
        ended = self._by_execution[execution]
        self.forgotten_until = max(self.forgotten_until, ended[0].until)
        del ended[0]
        if not ended:
            del self._by_execution[execution]

    def of(self, execution: int) -> list[Ended]:
        return list(self._by_execution.get(execution, ()))
