"""Scheduled starts: each moment of a job's schedule starts the job once, whoever leads.

A mark in the store says up to which moment that was done. The request key of a start is of the job and the moment, for all
clients, so that a leader which doesn't find the mark starts nothing twice.
"""

from __future__ import annotations

import logging
from collections.abc import Callable
from typing import NamedTuple

from job_host.catalogue.names import id_of
from job_host.catalogue.schedules import SKIP, Schedule
from job_host.protocol.lines import Members, fingerprint, refusal_of
from job_host.protocol.moments import moment
from job_host.protocol.seldom import seldom
from job_host.service.history.execution_index import Wanted
from job_host.service.keepers.keeper import Keeper
from job_host.service.policies.known import HELD, SCHEDULER, session_of
from job_host.service.problems import Problem
from job_host.service.stores.notifications import SCHEDULE_MARKS
from job_host.service.terms import moments
from job_host.service.terms.calls import Call, once_by_parameters
from job_host.service.terms.term import Term
from job_host.service.versions.book import JobBook
from job_host.service.versions.changes import WITHDRAW

log = logging.getLogger(__name__)

# In milliseconds: what is started later than so much was missed.
ON_TIME = 60_000
# So many of the moments that were missed are caught up with, the last ones.
MOST_CAUGHT_UP = 100
# Without a mark the newest job executions of a job tell what was started.
LOOKED_AT = 50
# The core refuses these as long as something else is so, and a later round may be accepted.
LASTING = ("RepositoryFull",)


class Held(Exception):
    """The bounds of the job's queue keep it from being started now."""


class Planned(NamedTuple):
    """The next moment of a job's schedule, in this version of the job, behind the last one that was done."""

    version: str
    done: int
    next: int | None


class Schedules:
    """The starts of one term."""

    def __init__(self, keeper: Keeper, term: Term, clock: Callable[[], int] = moments.clock) -> None:
        self._keeper = keeper
        self._term = term
        self._clock = clock
        self._planned: dict[str, Planned] = {}
        self._marks: dict[str, int] | None = None
        self._say = seldom(log.warning)

    async def round(self) -> None:
        """Starts what is due. The moments of a job come in turn."""
        book = self._keeper.book
        if book is None:
            return
        if self._marks is None:
            self._marks = await self._keeper.notes().marks()
        scheduled = scheduled_jobs(self._keeper, book)
        for name, schedule in scheduled.items():
            try:
                await self._start_due(book, name, schedule)
            except Held as held:
                self._say(f"schedule: the job {name!r} isn't started yet: {held}")
        self._planned = {name: one for name, one in self._planned.items() if name in scheduled}

    async def _start_due(self, book: JobBook, name: str, schedule: Schedule) -> None:
        version, now = id_of(name, book.newest(name)), self._clock()
        planned = self._planned.get(name)
        if planned is None or planned.version != version:
            planned = self._plan(version, schedule, await self._done(book, name, schedule))
        if planned.next is not None and planned.next <= now:
            planned = self._plan(version, schedule, await self._start_all(name, schedule, planned.done, now))
        self._planned[name] = planned

    @staticmethod
    def _plan(version: str, schedule: Schedule, done: int) -> Planned:
        return Planned(version, done, next(iter(schedule.after(done, 1)), None))

    async def _done(self, book: JobBook, name: str, schedule: Schedule) -> int:
        """Up to which moment nothing is to be started any more: none before the schedule was there."""
        mark = (self._marks or {}).get(mark_of(name))
        begun = in_force_since(self._keeper, book, name, schedule)
        return max(begun, mark if mark is not None else await self._last_start(name, begun))

    async def _last_start(self, name: str, since: int) -> int:
        """When the schedule last started a job behind a moment, by the history. 0 if its newest job executions don't tell.

        Of those before a base it may be forgotten who made them: then the schedule may have.
        """
        engine, session = self._term.engine, await session_of(self._term, SCHEDULER)
        if session is None and engine.base is None:
            return 0
        wanted = Wanted(job=name, numbers=engine.made_between(since, None))
        found, _ = await engine.executions.find(wanted, 0, LOOKED_AT, None)
        return max((engine.actions.made_at(one) for one in found if self._may_have_made(one, session)), default=0)

    def _may_have_made(self, execution: int, session: int | None) -> bool:
        making = self._term.engine.actions.making(execution)
        return making is None or (making.name == "start" and making.session == session)

    async def _start_all(self, name: str, schedule: Schedule, done: int, now: int) -> int:
        """Starts what is due behind a moment. Returns up to which one that is done now."""
        due = schedule.between(done, now, MOST_CAUGHT_UP)
        if schedule.missed == SKIP:
            due = [one for one in due if one > now - ON_TIME]
        elif len(due) == MOST_CAUGHT_UP:
            log.warning("schedule: of what the job %r missed before %s, the last %d are started", name, moment(now), len(due))
        for one in due:
            await self._start(name, schedule, one)
            await self._mark(name, one)
        if not due:
            log.warning("schedule: what was due for the job %r before %s was missed, and is skipped", name, moment(now))
            await self._mark(name, now)
            return now
        return due[-1]

    async def _mark(self, name: str, done: int) -> None:
        await self._keeper.notes().add([], {mark_of(name): done})
        self._marks = {**(self._marks or {}), mark_of(name): done}

    async def _start(self, name: str, schedule: Schedule, at: int) -> None:
        """Starts a job once for a moment. Raises a problem if that may be accepted later."""
        parameters = schedule.parameters_at(at)

        async def resolve() -> Members:
            return {"job": self._keeper.known_jobs().id_to_start(name), "parameters": parameters}

        key = f"schedule:{fingerprint(name, at).hex()}"
        call = Call(SCHEDULER, "start", {}, key, fingerprint("schedule", name, at), resolve, is_once=True)
        if self._keeper.newest_policies(name).once_by_parameters:
            call = once_by_parameters(call, name, parameters)
        try:
            told = (await self._term.submit(call)).told()
        except Problem as problem:
            if problem.name in HELD:
                raise Held(str(problem)) from problem
            if problem.status >= 500:
                raise
            told = {"refused": problem.name}
        refusal = refusal_of(told)
        if refusal in LASTING:
            raise Problem(refusal, 503, f"the job {name!r} isn't started for {moment(at)}")
        if refusal is not None:
            log.warning("schedule: the job %r isn't started for %s: %s", name, moment(at), refusal)
        else:
            log.warning(
                "schedule: the job %r is started for %s: job execution %d",
                name,
                moment(at),
                self._keeper.outside(told["execution"]),
            )


def scheduled_jobs(keeper: Keeper, book: JobBook) -> dict[str, Schedule]:
    """The schedules of the newest versions of jobs that may be started, by the jobs' names."""
    names = [name for name in book.names() if not book.is_withdrawn(name)]
    found = {name: keeper.policies(id_of(name, book.newest(name))).schedule for name in names}
    return {name: schedule for name, schedule in found.items() if schedule is not None}


def in_force_since(keeper: Keeper, book: JobBook, name: str, schedule: Schedule) -> int:
    """Since when a job has this schedule, through all its versions, and may be started."""
    since = 0
    for change in book.changes_of(name):
        if change.action == WITHDRAW or not is_same(keeper.policies(change.id).schedule, schedule):
            break
        since = change.moment
    return since


def is_same(one: Schedule | None, other: Schedule) -> bool:
    """Whether two schedules have the same moments."""
    return one is not None and (one.cron, one.zone) == (other.cron, other.zone)


def mark_of(name: str) -> str:
    """The name of a job's mark: any name of a job can't be kept everywhere."""
    return f"{SCHEDULE_MARKS}{fingerprint(name).hex()}"
