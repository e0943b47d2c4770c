"""Finds the events that somebody is to be told of, and keeps them as notifications until they are taken.

A mark says up to which moment of the history that was done. So a new leader misses none, and what no room is kept for stays in
the history until there is room.
"""

from __future__ import annotations

import asyncio
import logging
from collections.abc import Callable, Sequence
from typing import Any

from job_host.protocol.lines import read
from job_host.protocol.seldom import seldom
from job_host.service.history.actions import Action
from job_host.service.history.causes import FAILED as FAILED_OUTCOMES
from job_host.service.keepers.keeper import Keeper
from job_host.service.keepers.late import Late, late_items, with_clients
from job_host.service.keepers.open_items import cause_queries, causes_in
from job_host.service.policies import events
from job_host.service.policies.events import Event
from job_host.service.settings import HistoryBounds
from job_host.service.stores.notifications import PolicyNotes
from job_host.service.terms import moments
from job_host.service.terms.calls import SERVICE, SERVICE_SESSION
from job_host.service.terms.term import Term

log = logging.getLogger(__name__)

# So many wait at most.
MOST_WAITING = 10_000
# So many job executions are asked for at once.
BLOCK = 100
# The last moment of which events were kept, the operations until then, and when the history was told to be almost full.
MOMENT, OPERATIONS, FULL = "notified-moment", "notified-operations", "notified-full"


class Finder:
    """Finds events in one term."""

    def __init__(self, keeper: Keeper, term: Term, bounds: HistoryBounds, clock: Callable[[], int] = moments.clock) -> None:
        self._keeper = keeper
        self._term = term
        self._bounds = bounds
        self._clock = clock
        self._say = seldom(log.warning)
        self._marks: dict[str, int] | None = None
        # Whether more was found than there was room for.
        self._is_cut = False
        # Of these it was told that they are late. It isn't kept: a new leader tells of them again, by the same ids.
        self._late: set[tuple[int | None, int | None]] = set()

    async def round(self) -> None:
        """Keeps notifications of what has come since the last round, if there is room."""
        notes = self._keeper.notes()
        marks = await self._known_marks(notes)
        room = MOST_WAITING - await notes.count()
        if room <= (MOST_WAITING // 2 if self._is_cut else 0):
            self._say(f"{MOST_WAITING - room} notifications wait: others are made as soon as there is room")
            return
        await self._keep_history(notes, marks, room)
        await self._keep_late(notes)
        await self._keep_full(notes, marks)

    async def _known_marks(self, notes: PolicyNotes) -> dict[str, int]:
        """The marks. If there are none, what was before isn't told."""
        if self._marks is None:
            marks = await notes.marks()
            if MOMENT not in marks:
                marks |= {MOMENT: self._term.engine.last_moment, OPERATIONS: self._term.engine.entered}
                await notes.add([], marks)
            self._marks = marks
        return self._marks

    async def _keep_history(self, notes: PolicyNotes, marks: dict[str, int], room: int) -> None:
        """Keeps what has come, the first events as far as there is room. What was cut off is found again by the mark."""
        engine = self._term.engine
        until, last = engine.entered, engine.last_moment
        if (until, last) == (marks[OPERATIONS], marks[MOMENT]):
            return
        found, self._is_cut = list[Event](), False
        # Later events have later moments. A base doesn't tell that of a purge, which may have come last.
        changed = self._changed(marks[OPERATIONS], until) if last > marks[MOMENT] else ()
        for begin in range(0, len(changed), BLOCK):
            found += await self._events_of(changed[begin : begin + BLOCK], marks[MOMENT], last)
            if len(found) > room:
                found, self._is_cut = first_of(found, room), True
            await asyncio.sleep(0)
        await self._term.until_committed(until)
        new = {MOMENT: found[-1].moment} if self._is_cut else {MOMENT: last, OPERATIONS: until}
        await notes.add([one.notification(self._keeper.history) for one in sorted(found, key=moment_of)], new)
        marks |= new

    def _changed(self, before: int, until: int) -> Sequence[int]:
        """The job executions on which operations behind `before` are."""
        # If an older copy of the history has taken its place, all of it is looked at.
        engine, before = self._term.engine, before if before < until else 0
        named = engine.changes.between(before, until)
        if named is not None:
            return [one for one in named if engine.executions.is_there(one)]
        return [one for one in engine.executions.numbers_there() if engine.executions.changed_at(one) > before]

    async def _events_of(self, some: Sequence[int], since: int, until: int) -> list[Event]:
        """The events of job executions behind a moment, up to another one. Those that were purged have none any more."""
        answers = await self._term.ask([line for one in some for line in cause_queries(one)])
        told = [read(reply) for reply in answers.replies]
        found = list[Event]()
        for first, steps in zip(told[::2], told[1::2], strict=True):
            row = first.get("job_execution")
            if row is not None:
                found += [*await self._lost(row, since, until), *self._failed(row, steps["step_executions"], since, until)]
        return found

    def _failed(self, row: dict[str, Any], steps: Sequence[Any], since: int, until: int) -> list[Event]:
        end = row["updated"] if row["end"] is None else row["end"]
        if row["status"] != "FAILED" or not since < end <= until:
            return []
        causes = [one for one in causes_in(self._term.engine, row, steps) if one.outcome in FAILED_OUTCOMES]
        return [events.failed(self._keeper.names.told(row), causes)]

    async def _lost(self, row: dict[str, Any], since: int, until: int) -> list[Event]:
        engine, execution = self._term.engine, row["execution"]
        found = [one for one in engine.actions.behind(execution, 0) if one.name == "lose" and since < one.moment <= until]
        if not found:
            return []
        names = {SERVICE_SESSION: SERVICE} | await self._keeper.client_names([one.session for one in found])
        return [self._lost_event(row, one, names.get(one.session)) for one in found]

    def _lost_event(self, row: dict[str, Any], action: Action, client: str | None) -> Event:
        ended = {one.held.work: one.held for one in self._term.engine.failed_work.of(row["execution"])}
        return events.lost(self._keeper.names.told(row), action.moment, action.of, client, ended.get(action.of))

    async def _keep_late(self, notes: PolicyNotes) -> None:
        """What is late now, and wasn't before. Of a job execution after its time it is told once."""
        found = late_items(self._keeper, self._term.engine, None) or []
        by_key = {key_of(one): one for one in reversed(found)}
        new = {key: one for key, one in by_key.items() if key not in self._late}
        if new:
            now = self._clock()
            told = [
                events.late(now, self._instance_of(one.late), one)
                for one in await with_clients(self._keeper, list(new.values()))
            ]
            await notes.add([one.notification(self._keeper.history) for one in told], {})
        self._late = set(by_key)

    def _instance_of(self, late: Late) -> int:
        execution = late.held.execution if late.held is not None else late.running.execution if late.running is not None else 0
        return self._term.engine.executions.instance_of(execution) or 0

    async def _keep_full(self, notes: PolicyNotes, marks: dict[str, int]) -> None:
        operations = self._keeper.committed
        if operations < self._bounds.warn_from or FULL in marks:
            return
        now = self._clock()
        event = events.almost_full(now, operations, self._bounds.most)
        await notes.add([event.notification(self._keeper.history)], {FULL: now})
        marks[FULL] = now


def moment_of(event: Event) -> int:
    return event.moment


def first_of(events: Sequence[Event], count: int) -> list[Event]:
    """The first so many events by their moments, and those that have the last one's moment, too."""
    by_moment = sorted(events, key=moment_of)
    bound = by_moment[count - 1].moment
    return [one for one in by_moment if one.moment <= bound]


def key_of(late: Late) -> tuple[int | None, int | None]:
    """What is told of once: a work item, or a job execution after its time."""
    if late.timeout is None and late.held is not None:
        return late.held.work, None
    return None, late.running.execution if late.running is not None else None
