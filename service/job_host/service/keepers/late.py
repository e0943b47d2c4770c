"""What is late: busy work items whose lease is, and what is left of job executions that didn't end after their timeout."""

from __future__ import annotations

from collections.abc import Sequence
from typing import NamedTuple

from job_host.catalogue.names import id_of
from job_host.service.history.engine import Engine
from job_host.service.history.open_index import Running
from job_host.service.history.work_items import Held
from job_host.service.keepers.keeper import HeldBy, Keeper
from job_host.service.terms.moments import clock


class Late(NamedTuple):
    """A busy work item, or a job execution without one; and the job's timeout in seconds, if its grace is over.

    `running` is None if the job execution isn't known to have begun.
    """

    held: Held | None
    running: Running | None
    timeout: int | None


class LateBy(NamedTuple):
    """What is late, and whose it is."""

    late: Late
    by: HeldBy | None


def overdue(keeper: Keeper, engine: Engine, now: int) -> dict[int, int]:
    """The timeouts of the job executions that should have ended by now, by their numbers."""
    found = dict[int, int]()
    for one in engine.open.all_running():
        timeout = keeper.policies(id_of(one.job, one.version)).timeout if keeper.is_versioned else None
        if timeout is not None and one.start + 1_000 * (timeout.seconds + timeout.grace) <= now:
            found[one.execution] = timeout.seconds
    return found


def late_items(keeper: Keeper, engine: Engine, job: str | None) -> list[Late] | None:
    """All that is late, of one job or of all: work items by rising number, then job executions. A follower doesn't know."""
    if keeper.term is None:
        return None
    timeouts, leases = overdue(keeper, engine, clock()), set(keeper.leases.late(engine.held))
    held = [one for one in engine.held.values() if one.work in leases or one.execution in timeouts]
    busy = [Late(one, engine.open.running(one.execution), timeouts.get(one.execution)) for one in held]
    idle = [Late(None, engine.open.running(one), timeouts[one]) for one in sorted(timeouts) if one not in engine.busy]
    return [one for one in [*busy, *idle] if job is None or (one.running is not None and one.running.job == job)]


async def with_clients(keeper: Keeper, late: Sequence[Late]) -> list[LateBy]:
    names = await keeper.client_names([one.held.session for one in late if one.held is not None])
    return [LateBy(one, None if one.held is None else _held_by(keeper, one.held, names)) for one in late]


def _held_by(keeper: Keeper, held: Held, names: dict[int, str]) -> HeldBy:
    return HeldBy(held, names.get(held.session), keeper.leases.remaining(held.work))
