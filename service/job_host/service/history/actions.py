"""Who did what to job executions: each start, restart, stop, abandonment and purge, and each loss of a work item."""

from __future__ import annotations

from array import array
from collections import Counter
from collections.abc import Iterable, Iterator
from itertools import islice, takewhile
from typing import NamedTuple

from job_host.service.history.numbers import Numbers
from job_host.service.pages import Page

ACTIONS = ("start", "restart", "stop", "abandon", "purge", "lose")
MAKING = ("start", "restart")
PLACES = {name: place for place, name in enumerate(ACTIONS)}
# Numbers of a row: those of an action, and the row before it on the same job execution.
WIDTH = 6
PLACE_OF_MOMENT = 3


class Action(NamedTuple):
    """An operation, its session and its moment. `of` is the job execution that it made, or the work item that it lost, or 0."""

    operation: int
    name: str
    session: int
    moment: int
    of: int


class Actions:
    """Numbers in rows, since there may be as many as operations. Row 0 is none.

    What was done before a base isn't known, but for the moments at which its job executions were made.
    """

    def __init__(self, executions: Numbers | None = None) -> None:
        self._rows = array("Q", [0] * WIDTH)
        self._executions = Numbers() if executions is None else executions
        # The moments at which the job executions of the base were made, and the last row of each job execution, by its place.
        self._made = array("Q", [0])
        self._last = array("I", [0])
        # The row of each purged job instance.
        self._purges: dict[int, int] = {}
        # How many job instances each session has purged.
        self.purges_by: Counter[int] = Counter()
        # Clients that did something: their names are kept as long as the history.
        self.sessions: set[int] = set()

    def begin(self, made: Iterable[int]) -> None:
        """Begins with the moments at which the job executions of a base were made, by rising number."""
        self._made = array("Q", [0, *made])
        self._last = array("I", [0] * len(self._made))

    def _add(self, action: Action, before: int) -> int:
        operation, name, session, moment, of = action
        self._rows.extend((operation, PLACES[name], session, moment, of, before))
        self.sessions.add(session)
        return len(self._rows) // WIDTH - 1

    def note(self, execution: int, action: Action) -> None:
        place = self._executions.place(execution)
        missing = place + 1 - len(self._last)
        if missing > 0:
            self._last.extend([0] * missing)
        self._last[place] = self._add(action, self._last[place])

    def note_purge(self, instance: int, action: Action) -> None:
        self._purges[instance] = self._add(action, 0)
        self.purges_by[action.session] += 1

    def of(self, execution: int, instance: int, page: Page) -> list[Action]:
        """What was done to a job execution, the newest first."""
        rows = islice(self._of(execution, instance), page.start, page.start + page.size)
        return [self._action(row) for row in rows]

    def behind(self, execution: int, operation: int) -> list[Action]:
        """What was done to a job execution behind an operation, the newest first."""
        return list(takewhile(lambda one: one.operation > operation, map(self._action, self._rows_of(execution))))

    def making(self, execution: int) -> Action | None:
        """The start or restart that made a job execution. None if it was before a base, and who did what is forgotten."""
        made = (one for one in map(self._action, self._rows_of(execution)) if one.of == execution)
        return next((one for one in made if one.name in MAKING), None)

    def made_at(self, execution: int) -> int:
        """The moment of the start or restart that made a job execution. They rise with its number."""
        place = self._executions.place(execution)
        if place < len(self._made):
            return self._made[place]
        row = before = self._last[place]
        while before:
            row, before = before, self._rows[before * WIDTH + WIDTH - 1]
        return self._rows[row * WIDTH + PLACE_OF_MOMENT]

    def _of(self, execution: int, instance: int) -> Iterator[int]:
        if instance in self._purges:
            yield self._purges[instance]
        yield from self._rows_of(execution)

    def _rows_of(self, execution: int) -> Iterator[int]:
        row = self._last[self._executions.place(execution)]
        while row:
            yield row
            row = self._rows[row * WIDTH + WIDTH - 1]

    def _action(self, row: int) -> Action:
        operation, place, session, moment, of, _ = self._rows[row * WIDTH : (row + 1) * WIDTH]
        return Action(operation, ACTIONS[place], session, moment, of)
