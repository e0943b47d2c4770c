"""The backlog: what claims would find now, as far as it is known without a replay.

No query of batchctl tells what is ready. So it is counted from below, by what is known of each unfinished job execution:

- One of which nothing is busy is taken up by a claim: it finds a work item, or closes the job execution. A start that wasn't
  taken up has all that its first element has.
- Of a partitioned step that has begun, each partition is ready that wasn't handed out, and that no earlier job execution of the
  job instance has completed.
- What a flow of a split comes to beside busy ones, and the partitions of a step that hasn't begun, aren't known.
"""

from __future__ import annotations

from collections.abc import Iterator, Mapping, Sequence
from functools import lru_cache
from typing import Any, NamedTuple

from job_host.catalogue.jobs import jobs_of
from job_host.service.history.engine import Engine
from job_host.service.history.open_index import Unfinished
from job_host.service.history.work_items import Held


class Ready(NamedTuple):
    """At least so many claims find something, which is ready since this moment or an earlier one."""

    claims: int
    since: int


class Backlog(NamedTuple):
    """What is ready, at least; since when the oldest of that is so, at the latest; and how many work items are busy."""

    ready: int
    since: int | None
    busy: int


class Widths(NamedTuple):
    """How many partitions the partitioned steps of a job have, and how many work items a start of it begins with."""

    steps: Mapping[str, int]
    first: int


@lru_cache(maxsize=2)
def widths_in(catalogue: bytes) -> dict[str, Widths]:
    """The widths of each job of a catalogue."""
    return {name: Widths(dict(partitioned(job)), first_width(job)) for name, job in jobs_of(catalogue).items()}


def partitioned(listing: Mapping[str, Any]) -> Iterator[tuple[str, int]]:
    """The partitioned steps of a job or a flow, at any depth."""
    for element in listing["elements"]:
        if "partitions" in element:
            yield element["id"], element["partitions"]
        for inner in [element] if "elements" in element else element.get("flows", ()):
            yield from partitioned(inner)


def first_width(listing: Mapping[str, Any]) -> int:
    """How many work items the first element of a job or a flow begins with."""
    first = listing["elements"][0]
    if first["kind"] == "split":
        return sum(first_width(flow) for flow in first["flows"])
    return first_width(first) if first["kind"] == "flow" else int(first.get("partitions", 1))


def backlog_of(engine: Engine) -> Backlog:
    """What is ready and busy, if the open index has settled, and no operation came since then."""
    held: dict[int, list[Held]] = {}
    for one in engine.held.values():
        held.setdefault(one.execution, []).append(one)
    each = [ready_of(engine, one, held.get(one.execution, ())) for one in engine.open.unfinished()]
    found = [ready for ready in each if ready.claims]
    return Backlog(sum(ready.claims for ready in found), min((ready.since for ready in found), default=None), len(engine.held))


def ready_of(engine: Engine, one: Unfinished, busy: Sequence[Held]) -> Ready:
    """What claims find of a job execution, at least. Nothing is handed out of one that was asked to stop."""
    if one.status == "STOPPING":
        return Ready(0, one.updated)
    widths = widths_in(engine.process.catalogue)[one.job]
    if one.status == "STARTING":
        is_start = widths.first == 1 or len(engine.executions.every_of(one.instance)) == 1
        return Ready(widths.first if is_start else 1, one.updated)
    left = partitions_left(engine, one, busy, widths.steps) if widths.steps else []
    claims = sum(step.claims for step in left)
    since = min((step.since for step in left), default=one.updated)
    return Ready(claims, since) if busy else Ready(max(1, claims), min(since, one.updated))


def partitions_left(engine: Engine, one: Unfinished, busy: Sequence[Held], steps: Mapping[str, int]) -> list[Ready]:
    """The partitions of each step that has begun which are left. None if some of what was done is forgotten."""
    attempts, ended = engine.executions.every_of(one.instance), engine.ended_work
    if engine.actions.made_at(attempts[-1]) <= ended.forgotten_until:
        return []
    earlier = [work for execution in attempts if execution != one.execution for work in ended.of(execution)]
    gone = {(work.held.element, work.held.partition) for work in earlier if work.outcome == "COMPLETED"}
    handed: dict[str, list[Held]] = {}
    for held in [*busy, *(work.held for work in ended.of(one.execution))]:
        if held.element in steps:
            handed.setdefault(held.element, []).append(held)
    gone.update((held.element, held.partition) for parts in handed.values() for held in parts)
    left = {step: steps[step] - sum(element == step for element, _ in gone) for step in handed}
    return [Ready(count, min(held.since for held in handed[step])) for step, count in left.items() if count]
