"""Versions of jobs that leave the catalogue of a service over PostgreSQL, as its leader makes a base."""

from __future__ import annotations

import asyncio
from functools import partial
from typing import NamedTuple

from job_host.service.history.engine import STATE
from job_host.service.keepers.base_making import LeanPlan, NotCompacted
from job_host.service.keepers.leaving import Leavers, Leaving
from job_host.service.keepers.postgres_term import PostgresTerm
from job_host.service.stores.postgres_bases import Leaner, Made, PostgresBases


class Planned(NamedTuple):
    """A base of the first operations, so many, all of which are kept, over a catalogue; and how jobs leave it, if some do."""

    until: int
    catalogue: bytes
    lean: LeanPlan | None


class PostgresLeaving:
    """What leaves in a term. While it holds `turn`, the catalogue doesn't grow, and no other base is kept."""

    def __init__(self, leaving: Leaving, term: PostgresTerm, turn: asyncio.Lock) -> None:
        self._leaving = leaving
        self._term = term
        self._turn = turn

    async def plan(self) -> Planned:
        """What may leave now: calls and changes of jobs wait for one look at the history. Behind that no start has it."""
        engine = self._term.engine
        async with self._leaving.resting(), engine.turn:
            state = await engine.ask(STATE)
            leavers, catalogue = self._leaving.leavers(state.replies), self._leaving.line
        await self._term.until_committed(state.seen)
        lean = None if leavers is None else LeanPlan(leavers.line, partial(self._put, leavers))
        return Planned(state.seen, catalogue, lean)

    async def _put(self, leavers: Leavers, bases: PostgresBases, made: Made) -> bool:
        """Keeps a base whose catalogue lacks these versions. Raises NotCompacted if one of them has come back meanwhile."""
        async with self._leaving.resting(), self._turn:
            line = self._leaving.line_now(leavers)
            if line is None:
                raise NotCompacted("a job that was to leave the catalogue was brought back meanwhile")
            is_kept = await bases.put(made, Leaner(line, self._term.growing))
            if is_kept:
                self._leaving.leave(leavers)
        return is_kept
