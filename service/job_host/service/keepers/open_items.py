"""What is open: one read, for the console, the commands and the metrics."""

from __future__ import annotations

from collections.abc import Mapping, Sequence
from dataclasses import dataclass
from typing import Any

from job_host.protocol.lines import query, read
from job_host.service.history.causes import Cause, causes_of
from job_host.service.history.engine import Engine
from job_host.service.history.open_index import FEW, RESTARTABLE, WAITING, Long
from job_host.service.keepers.keeper import Keeper, Steps
from job_host.service.keepers.late import LateBy, late_items, with_clients
from job_host.service.pages import Page
from job_host.service.problems import of_refusal
from job_host.service.terms import moments

# A job execution waits in vain if no worker has asked for work for so long. Between two claims of a worker there is less.
UNASKED_SECONDS = 10.0
# Of a job execution with many causes, the first ones.
MOST_CAUSES = 8
LOG_LINES = 12

Told = Mapping[str, Any]


@dataclass(frozen=True)
class OpenWanted:
    """Which job instances are meant, and which page of each list."""

    page: Page
    statuses: tuple[str, ...] = RESTARTABLE
    job: str | None = None


@dataclass(frozen=True)
class Caused:
    """A cause with the end of its log, if there is one."""

    cause: Cause
    log: str | None


@dataclass(frozen=True)
class ToRestart:
    """The job execution by which a job instance is open, as the repository tells it; its first causes, and their count."""

    execution: Told
    causes: Sequence[Caused]
    count: int


@dataclass(frozen=True)
class Open:
    """A page of each list, and how many there are in each. What only the leader knows is None elsewhere."""

    to_restart: Sequence[ToRestart]
    long: Sequence[Long]
    late: Sequence[LateBy] | None
    waiting: Sequence[Told] | None
    counts: Mapping[str, int | None]
    seen: int

    def has_more(self, wanted: OpenWanted) -> bool:
        """Whether a list has rows behind this page."""
        to_restart = sum(self.counts[status] or 0 for status in wanted.statuses)
        others = [count or 0 for name, count in self.counts.items() if name not in RESTARTABLE]
        return max(to_restart, *others) > wanted.page.start + wanted.page.size


async def open_items(keeper: Keeper, wanted: OpenWanted, at_least: int = 0) -> Open:
    await keeper.reach(at_least)
    # Meanwhile operations may come.
    await keeper.reading().open.settle(FEW)
    async with keeper.steps(at_least) as steps:
        await steps.engine.open.settle()
        rows = await _to_restart(steps, wanted)
        waiting, in_vain = await _waiting(keeper, steps, wanted)
        late = late_items(keeper, steps.engine, wanted.job)
        long = steps.engine.open.long(moments.clock(), wanted.job)
        counts = {status: steps.engine.open.count(status, wanted.job) for status in RESTARTABLE}
    lists = {"long": len(long), "late": None if late is None else len(late), WAITING: in_vain}
    causes = await with_logs(keeper, [causes for _, causes in rows])
    return Open(
        [ToRestart(told, shown, len(all_of)) for (told, all_of), shown in zip(rows, causes)],
        wanted.page.of(long),
        None if late is None else await with_clients(keeper, wanted.page.of(late)),
        waiting,
        counts | lists,
        steps.seen,
    )


async def _to_restart(steps: Steps, wanted: OpenWanted) -> list[tuple[Told, list[Cause]]]:
    numbers = steps.engine.open.restartable(wanted.statuses, wanted.job, wanted.page)
    replies = [read(reply) for reply in await steps.ask([line for one in numbers for line in cause_queries(one)])]
    told = [steps.engine.names.told(one["job_execution"]) for one in replies[::2]]
    return [(one, causes_in(steps.engine, one, more["step_executions"])) for one, more in zip(told, replies[1::2])]


def cause_queries(execution: int) -> list[bytes]:
    return [query(ask, execution=execution) for ask in ("job_execution", "step_executions")]


def causes_in(engine: Engine, execution: Told, steps: Sequence[Told]) -> list[Cause]:
    """The causes of one job execution, by what is known of its work items that are over."""
    number = execution["execution"]
    ended = {one.held.work: one for of in (engine.failed_work, engine.ended_work) for one in of.of(number)}
    return causes_of(execution, steps, list(ended.values()))


async def _waiting(keeper: Keeper, steps: Steps, wanted: OpenWanted) -> tuple[list[Told] | None, int | None]:
    """The job executions that wait in vain, and how many there are."""
    if keeper.term is None:
        return None, None
    if keeper.term.desk.silence < UNASKED_SECONDS:
        return [], 0
    numbers = steps.engine.open.waiting(wanted.job, wanted.page)
    replies = await steps.ask([query("job_execution", execution=one) for one in numbers])
    told: list[Told] = [steps.engine.names.told(read(reply)["job_execution"]) for reply in replies]
    return told, steps.engine.open.count(WAITING, wanted.job)


async def with_logs(keeper: Keeper, lists: Sequence[Sequence[Cause]]) -> list[list[Caused]]:
    """The first causes of each list, with the ends of their logs.

    A step of which no partition is known has the number of its first one: that log is of a work item that may not have failed.
    """
    shown = [causes[:MOST_CAUSES] for causes in lists]
    works = [one.work for causes in shown for one in causes]
    logs = {log.work: log for log in await keeper.log_ends(works)} if works else {}

    def caused(cause: Cause) -> Caused:
        log = logs.get(cause.work)
        if log is not None and cause.is_whole_step and log.partition is not None:
            return Caused(cause._replace(work=0), None)
        return Caused(cause, None if log is None else last_lines(log.text))

    return [[caused(one) for one in causes] for causes in shown]


def last_lines(text: str) -> str:
    """The last lines of a log that say something."""
    return "\n".join([line for line in text.splitlines() if line.strip()][-LOG_LINES:])


async def causes_for(keeper: Keeper, execution: int, at_least: int) -> tuple[ToRestart, int]:
    """Why a job execution is FAILED or STOPPED, open or not, and how many operations that saw."""
    answers = await keeper.ask(cause_queries(execution), at_least)
    told, steps = [read(reply) for reply in answers.replies]
    problem = of_refusal(told, answers.seen)
    if problem is not None:
        raise problem
    one = keeper.names.told(told["job_execution"])
    causes = causes_in(keeper.reading(), one, steps["step_executions"])
    (shown,) = await with_logs(keeper, [causes])
    return ToRestart(one, shown, len(causes)), answers.seen
