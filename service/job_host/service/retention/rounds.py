"""Rounds of purges: as long as this instance leads, what is over for long is looked for now and then, and purged."""

from __future__ import annotations

import asyncio
import logging
import time
from collections.abc import Callable
from dataclasses import dataclass

from job_host.archive.moments import DAY
from job_host.protocol.lines import refusal_of
from job_host.service.history.coprocess import CoProcessEnded
from job_host.service.history.engine import Engine
from job_host.service.keepers.keeper import Keeper
from job_host.service.problems import Problem
from job_host.service.retention.finished import Finished, FinishedIndex
from job_host.service.retention.purging import LOOK, Changed, Purging
from job_host.service.settings import ServeSettings
from job_host.service.terms import moments
from job_host.service.terms.calls import SERVICE, Call
from job_host.service.terms.term import Term

log = logging.getLogger(__name__)

PERIOD_SECONDS = 3_600.0
# After a round that has failed, the next one comes sooner. It may have ended a co-process, as by a full disk.
RETRY_SECONDS = 60.0
# So often it is looked whether this instance leads.
LOOK_SECONDS = 0.5
# One purge is under way at a time, and no more than so many are made in a second.
PURGES_A_SECOND = 20
# A round has no more purges. Others are followed by another round at once: meanwhile more may be due.
MOST_PURGES = 1_000
# By these refusals no other purge would be accepted either.
LASTING = ("RepositoryFull",)
# Why a purge isn't made, beside a refusal.
CHANGED = "Changed"


class RoundFailed(Exception):
    """The rest of a round is left for later."""


@dataclass
class Round:
    """What a round did: how many it purged, how many the repository refused or had changed, and how many are left."""

    purged: int = 0
    passed_over: int = 0
    left: int = 0
    seconds: float = 0.0
    failure: str = ""

    def note(self, refusal: str | None) -> None:
        """A purge was made, or refused."""
        self.left -= 1
        self.purged += refusal is None
        self.passed_over += refusal is not None

    def told(self) -> str:
        what = f"retention: {self.purged} job instances purged, {self.passed_over} passed over, {self.left} left"
        return f"{what}, in {self.seconds:.1f} seconds" + (f": {self.failure}" if self.failure else "")


class Retention:
    """The rounds of one service. `last` is the last round, or the one under way, and `rounds` counts those that ended."""

    def __init__(
        self,
        keeper: Keeper,
        settings: ServeSettings,
        purging: Purging,
        clock: Callable[[], int] = moments.clock,
    ) -> None:
        self._keeper = keeper
        self._settings = settings
        self._purging = purging
        self._clock = clock
        self._index: FinishedIndex | None = None
        self.last = Round()
        self.rounds = 0

    @property
    def is_wanted(self) -> bool:
        return self._settings.keep_days is not None or self._settings.keep_failed_days is not None

    def take_archived(self) -> int:
        """How many job instances were archived since this was last asked."""
        archived, self._purging.archived = self._purging.archived, 0
        return archived

    async def run(self) -> None:
        """Purges for ever, whenever this instance leads. It never fails: what it can't do now is done later."""
        while self.is_wanted:
            term = self._keeper.term
            if term is None or term.failure is not None:
                await asyncio.sleep(LOOK_SECONDS)
                continue
            pause = await self._round(term)
            until = time.monotonic() + pause
            while (self._keeper.term is term or self.last.failure) and time.monotonic() < until:
                await asyncio.sleep(LOOK_SECONDS)

    async def _round(self, term: Term) -> float:
        """One round. Returns after how many seconds the next one begins."""
        begun, one = time.monotonic(), Round()
        try:
            await self._purge_due(term, one)
        except (Problem, CoProcessEnded, RoundFailed) as fault:
            one.failure = str(fault)
        except Exception as fault:
            log.exception("retention: a round failed")
            one.failure = f"{type(fault).__name__}: {fault}"
        self.last, self.rounds, one.seconds = one, self.rounds + 1, time.monotonic() - begun
        if one.purged or one.passed_over or one.failure:
            log.warning("%s", one.told())
        if one.failure:
            return RETRY_SECONDS
        return 0.0 if one.left and one.purged else max(0.0, PERIOD_SECONDS - one.seconds)

    async def _purge_due(self, term: Term, one: Round) -> None:
        index = self._index_of(term.engine)
        await index.look()
        before = self._before(self._settings.keep_days), self._before(self._settings.keep_failed_days)
        oldest, count = await index.due(*before, MOST_PURGES)
        self.last, one.left = one, count
        for each in oldest:
            begun = time.monotonic()
            await self._purge(term, each, one)
            await asyncio.sleep(max(0.0, 1 / PURGES_A_SECOND - (time.monotonic() - begun)))

    def _index_of(self, engine: Engine) -> FinishedIndex:
        if self._index is None or self._index.engine is not engine:
            self._index = FinishedIndex(engine)
        return self._index

    def _before(self, days: int | None) -> int | None:
        """The moment so many days ago."""
        return None if days is None else self._clock() - days * DAY

    async def _purge(self, term: Term, finished: Finished, one: Round) -> None:
        """Purges a job instance. Raises RoundFailed if no more may be purged."""
        if self._keeper.term is not term:
            raise RoundFailed("this instance leads no more")
        if term.engine.entered >= self._settings.history.refuse_from:
            raise RoundFailed("HistoryAlmostFull: what is left of the history is for job executions that run")
        if not finished.is_so(term.engine):
            one.note(CHANGED)
            return

        async def confirm() -> None:
            await term.engine.ask([LOOK])
            if not finished.is_so(term.engine):
                raise Changed()

        members = {"instance": finished.instance}
        call = Call(SERVICE, "purge", members, confirm=confirm)
        refusal: str | None = None
        try:
            refusal = refusal_of((await self._purging.purge(call)).told())
        except Changed:
            refusal = CHANGED
        except Problem as problem:
            if problem.status >= 500:
                raise
            refusal = problem.name
        if refusal in LASTING:
            raise RoundFailed(f"{refusal}: no more is purged")
        one.note(refusal)
