"""Restarts by policy: which FAILED job executions are due for one, and when.

All of it follows from the history: what failed, when, how often the policy has restarted its job instance, and what people did.
"""

from __future__ import annotations

import asyncio
import logging
import sys
from collections.abc import Callable, Sequence
from typing import NamedTuple

from job_host.catalogue.policies import RestartPolicy
from job_host.protocol.lines import Members, fingerprint, query, read, refusal_of
from job_host.service.history.causes import FAILED
from job_host.service.history.open_index import FEW
from job_host.service.keepers.keeper import Keeper
from job_host.service.keepers.open_items import cause_queries, causes_in
from job_host.service.pages import Page
from job_host.service.policies.known import HELD, RESTARTER, session_of
from job_host.service.problems import Problem
from job_host.service.retention.purging import LOOK, Changed
from job_host.service.terms import moments
from job_host.service.terms.calls import Call
from job_host.service.terms.term import Term

log = logging.getLogger(__name__)

# So many are asked for at once.
BLOCK = 100
ALL = Page(0, sys.maxsize)
STATUSES = ("FAILED",)


class Plan(NamedTuple):
    """What was found of a job execution, whose last operation was this one: the moment of its restart, if it has one."""

    operation: int
    due: int | None = None


class Restarts:
    """The restarts of one term. `keeper.restart_times` tells of those to come."""

    def __init__(self, keeper: Keeper, term: Term, clock: Callable[[], int] = moments.clock) -> None:
        self._keeper = keeper
        self._term = term
        self._clock = clock
        self._plans: dict[int, Plan] = {}
        self._seen = -1

    async def round(self) -> None:
        """Restarts what is due. Without an operation since the last round only what is planned is looked at."""
        engine = self._term.engine
        if self._seen != engine.entered:
            # Meanwhile operations may come.
            await engine.open.settle(FEW)
            async with self._keeper.steps(0):
                await engine.open.settle()
                seen, failed = engine.entered, engine.open.all_restartable(STATUSES)
            await self._plan_all(failed)
            self._seen = seen
        now = self._clock()
        due = sorted((plan.due, one) for one, plan in self._plans.items() if plan.due is not None)
        self._keeper.restart_times = {one: at for at, one in due}
        for at, execution in due:
            if at <= now:
                await self._restart(execution, self._plans[execution])

    async def _plan_all(self, failed: Sequence[int]) -> None:
        """Plans those that have changed, and forgets those that aren't FAILED any more."""
        executions = self._term.engine.executions
        there = set(failed)
        self._plans = {one: plan for one, plan in self._plans.items() if one in there}
        changed = [one for one in failed if not self._is_planned(one, executions.changed_at(one))]
        for begin in range(0, len(changed), BLOCK):
            await self._plan_some(changed[begin : begin + BLOCK])
            await asyncio.sleep(0)

    def _is_planned(self, execution: int, operation: int) -> bool:
        plan = self._plans.get(execution)
        return plan is not None and plan.operation == operation

    async def _plan_some(self, some: Sequence[int]) -> None:
        operations = [self._term.engine.executions.changed_at(one) for one in some]
        answers = await self._term.ask([line for one in some for line in cause_queries(one)])
        told = [read(reply) for reply in answers.replies]
        session = await session_of(self._term, RESTARTER)
        for one, operation, row, steps in zip(some, operations, told[::2], told[1::2], strict=True):
            due = self._due(row.get("job_execution"), steps.get("step_executions", ()), session)
            self._plans[one] = Plan(operation, due)

    def _due(self, told: Members | None, steps: Sequence[Members], session: int | None) -> int | None:
        """The moment at which a job execution is restarted. A purged one has no row, and one that somebody stopped stays."""
        if told is None or told["status"] not in STATUSES:
            return None
        policy = self._keeper.policies(told["job"]).restart
        if policy is None or self._is_stopped(told["execution"]) or not self._is_covered(policy, told, steps):
            return None
        made = self._made(told["instance"], session)
        if made >= policy.most:
            return None
        end = told["updated"] if told["end"] is None else told["end"]
        return int(end) + 1_000 * policy.wait_after(made)

    def _is_stopped(self, execution: int) -> bool:
        return any(action.name == "stop" for action in self._term.engine.actions.behind(execution, 0))

    def _is_covered(self, policy: RestartPolicy, told: Members, steps: Sequence[Members]) -> bool:
        """Whether all that failed is what the policy names: if something else did, a restart wouldn't help."""
        engine = self._term.engine
        lost = {one.of for one in engine.actions.behind(told["execution"], 0) if one.name == "lose"}
        failed = [one for one in causes_in(engine, told, steps) if one.outcome in FAILED]
        return bool(failed) and all(policy.covers(one.exit, one.work in lost) for one in failed)

    def _made(self, instance: int, session: int | None) -> int:
        """How many job executions of a job instance the policy has made, or may have made: it makes no more than it says."""
        engine = self._term.engine
        *restarts, _ = engine.executions.of_instance(instance, ALL)
        making = [engine.actions.making(one) for one in restarts]
        return sum(one is None or one.session == session for one in making)

    def _is_so(self, execution: int, plan: Plan) -> bool:
        """Whether nobody did anything to the job execution since it was planned."""
        executions = self._term.engine.executions
        is_newest = executions.is_there(execution) and executions.is_newest(execution)
        return is_newest and executions.changed_at(execution) == plan.operation

    async def _restart(self, execution: int, plan: Plan) -> None:
        """Makes one restart. Its key is of the job execution, so that two leaders make one. What people did wins."""

        async def resolve() -> Members:
            answers = await self._term.ask([query("parameters", execution=execution)])
            return {"execution": execution, "parameters": read(answers.replies[0]).get("parameters", {})}

        async def confirm() -> None:
            await self._term.engine.ask([LOOK])
            if not self._is_so(execution, plan):
                raise Changed()

        print_of = fingerprint("restart", execution)
        call = Call(RESTARTER, "restart", {}, f"restart-{execution}", print_of, resolve, confirm=confirm)
        self._plans[execution] = Plan(plan.operation)
        try:
            told = (await self._term.submit(call)).told()
        except Changed:
            del self._plans[execution]
            return
        except Problem as problem:
            self._plans[execution] = plan
            if problem.name in HELD:
                return
            raise
        refusal, number = refusal_of(told), self._keeper.outside(execution)
        if refusal is None:
            log.warning("restart policy: job execution %d is restarted as %d", number, self._keeper.outside(told["execution"]))
        else:
            log.warning("restart policy: job execution %d stays FAILED: %s", number, refusal)
