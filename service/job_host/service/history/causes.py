"""Why a job execution is FAILED or STOPPED: the work items that failed, or were stopped, each with its own exit status."""

from __future__ import annotations

from collections.abc import Mapping, Sequence
from typing import Any, NamedTuple

from job_host.service.history.work_items import LOST, Ended

FAILED = ("FAILED", LOST)
STOPPED = ("STOPPED",)
# Batch statuses that have causes.
WITH_CAUSES = ("FAILED", "STOPPED", "ABANDONED")


class Cause(NamedTuple):
    """A work item by which a job execution has ended so: `is_whole_step` says that no partition is known of it."""

    work: int
    element: str
    partition: int | None
    outcome: str
    exit: str
    is_whole_step: bool = False


def causes_of(execution: Mapping[str, Any], steps: Sequence[Mapping[str, Any]], ended: Sequence[Ended]) -> list[Cause]:
    """The work items that failed; if there are none, those that were stopped; else the one that ended last.

    The repository tells steps alone, and whole ones. `ended` has partitions and decisions, as far as they are known.
    """
    if execution["status"] not in WITH_CAUSES:
        return []
    return with_outcome(FAILED, steps, ended) or with_outcome(STOPPED, steps, ended) or the_last(steps, ended)


def with_outcome(outcomes: Sequence[str], steps: Sequence[Mapping[str, Any]], ended: Sequence[Ended]) -> list[Cause]:
    items = [of_item(one) for one in ended if one.outcome in outcomes]
    known = {one.element for one in items}
    more = [of_step(step) for step in steps if step["status"] in outcomes and step["step"] not in known]
    return sorted([*items, *more])


def the_last(steps: Sequence[Mapping[str, Any]], ended: Sequence[Ended]) -> list[Cause]:
    if ended:
        return [of_item(max(ended, key=lambda one: one.until))]
    return [of_step(max(steps, key=lambda step: int(step["end"] or 0)))] if steps else []


def of_item(ended: Ended) -> Cause:
    held = ended.held
    usual = "FAILED" if ended.outcome == LOST else ended.outcome
    return Cause(held.work, held.element, held.partition, ended.outcome, usual if ended.exit is None else ended.exit)


def of_step(step: Mapping[str, Any]) -> Cause:
    return Cause(step["work"], step["step"], None, step["status"], step["exit"] or step["status"], True)
