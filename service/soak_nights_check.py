"""What is compared after nights: the history, which is gathered before bases take its place, with a replay that has no base."""

from __future__ import annotations

import asyncio
import json
import os
from collections import Counter
from collections.abc import Iterable, Mapping, Sequence
from contextlib import suppress
from dataclasses import dataclass, field, replace
from pathlib import Path
from typing import Any

from soak_check import (
    Lost,
    Operation,
    Read,
    Replayed,
    Seen,
    Wrong,
    check_artifacts,
    check_beside,
    check_calls,
    check_moments,
    check_replies,
)

from job_host.archive.moments import DAY
from job_host.service.history import log_file
from job_host.service.history.tags import read_tag

TAKE_SECONDS = 0.005
# The tables' operations that a base takes away are kept beside them, in the transaction that takes them.
KEEP_OPERATIONS = """
create table soak_operation (like job_host_operation);
create function soak_keep() returns trigger language plpgsql as
    $$ begin insert into soak_operation select * from gone; return null; end $$;
create trigger soak_keep after delete on job_host_operation
    referencing old table as gone for each statement execute function soak_keep();
"""
OPERATIONS = """
select number, line, reply, request_key from soak_operation
union all select number, line, reply, request_key from job_host_operation order by number
"""
# By how much the base and a start may grow from one night to another: the numbers of job executions get more digits, what
# failed in the first night stays, and kills let more or fewer job executions be restarted in a night.
MOST_BYTES, FEW_BYTES = 1.25, 8_192
MOST_SECONDS, FEW_SECONDS = 1.5, 1.0


class LogPieces:
    """Hard links to all files that were the log: a compaction makes another one, and so does a start after a kill."""

    def __init__(self, path: Path, folder: Path) -> None:
        self._path = path
        self._folder = folder
        self._known: set[int] = set()
        folder.mkdir()

    def take(self) -> None:
        """Links the file that is the log now."""
        with suppress(FileNotFoundError):
            if self._path.stat().st_ino in self._known:
                return
            link = self._folder / f"{len(self._known):06}"
            os.link(self._path, link)
            number = link.stat().st_ino
            if number in self._known:
                link.unlink()
            self._known.add(number)

    async def watch(self) -> None:
        """Takes each file soon after it is there, for ever."""
        while True:
            self.take()
            await asyncio.sleep(TAKE_SECONDS)

    def operations(self) -> list[Operation]:
        """All operations that stood in one of the files. Their replies aren't known."""
        return joined(piece_of(path) for path in sorted(self._folder.iterdir()))


@dataclass(frozen=True)
class Piece:
    """A file that was the log: how many operations its base stands for, and those behind it."""

    based: int
    records: Sequence[log_file.LogRecord]


def piece_of(path: Path) -> Piece:
    base = log_file.known_base(path)
    records = [record for record in log_file.records(path) if record.is_operation]
    return Piece(0 if base is None else base.head.operations, records)


def joined(pieces: Iterable[Piece]) -> list[Operation]:
    """The operations of all pieces, from the first one on. Where pieces overlap, they have the same ones."""
    found: dict[int, log_file.LogRecord] = {}
    for piece in pieces:
        for number, record in enumerate(piece.records, piece.based + 1):
            before = found.setdefault(number, record)
            if before != record:
                raise Wrong(f"operation {number} stood in the log as {before}, and later as {record}")
    missing = [number for number in range(1, max(found, default=0)) if number not in found]
    if missing:
        raise Wrong(f"operations {missing[0]} to {missing[-1]} stood in no log")
    tags = {number: read_tag(record.tag) for number, record in found.items()}
    return [Operation(number, found[number].line, b"", tag.key if (tag := tags[number]) else None) for number in sorted(found)]


async def operations_of_tables(dsn: str) -> list[Operation]:
    """The operations in the tables, and those that bases have replaced."""
    import asyncpg

    connection = await asyncpg.connect(dsn)
    try:
        rows = await connection.fetch(OPERATIONS)
    finally:
        await connection.close()
    for place, row in enumerate(rows, 1):
        if row["number"] != place:
            raise Wrong(f"operation {place} is neither in the tables nor was it replaced by a base: {row['number']} is next")
    return [Operation(row["number"], row["line"].encode(), row["reply"].encode(), row["request_key"]) for row in rows]


@dataclass(frozen=True)
class Resumed:
    """A chunk went on: at which checkpoint, by which operation that was reported, and by which claim it goes on."""

    instance: int
    checkpoint: str
    reported: int
    claimed: int


@dataclass
class Walk:
    """Goes over a history by its lines and replies. What comes next follows from what was before, whatever batchctl decides."""

    kept_days: int
    # The job execution of each work item, the job instance of each job execution, and the moment of the last operation on each
    # job instance.
    works: dict[int, int] = field(default_factory=dict)
    instances: dict[int, int] = field(default_factory=dict)
    last: dict[int, int] = field(default_factory=dict)
    marks: dict[int, tuple[int, str]] = field(default_factory=dict)
    purged: set[int] = field(default_factory=set)
    resumed: list[Resumed] = field(default_factory=list)
    outcomes: dict[int, str] = field(default_factory=dict)

    def over(self, operations: Sequence[Operation]) -> Walk:
        for operation in operations:
            line, reply = json.loads(operation.line), json.loads(operation.reply)
            act = getattr(self, f"_{line['do']}", None)
            if act is None:
                raise Wrong(f"operation {operation.number} is {line}, and nobody asked for that")
            act(operation.number, line, reply)
        return self

    def items_of(self, execution: int) -> dict[int, str | None]:
        """How each work item of a job execution ended."""
        return {work: self.outcomes.get(work) for work, of in self.works.items() if of == execution}

    def _start(self, number: int, line: Any, reply: Any) -> None:
        self._made(number, line, reply, len(self.last) + 1)

    def _restart(self, number: int, line: Any, reply: Any) -> None:
        self._made(number, line, reply, self.instances[line["execution"]])

    def _made(self, number: int, line: Any, reply: Any, instance: int) -> None:
        if reply["execution"] != len(self.instances) + 1:
            raise Wrong(f"operation {number} made {reply}, and {len(self.instances)} job executions were made before")
        self.instances[reply["execution"]] = instance
        self.last[instance] = line["at"]

    def _claim(self, number: int, line: Any, reply: Any) -> None:
        work = reply["work"]
        if work["work"] != len(self.works) + 1:
            raise Wrong(f"operation {number} handed out {work}, and {len(self.works)} work items were handed out before")
        instance = self.instances[work["execution"]]
        self.works[work["work"]], self.last[instance] = work["execution"], line["at"]
        if work["kind"] != "chunk":
            return
        reported, checkpoint = self.marks.get(instance, (0, None))
        if work["checkpoint"] != checkpoint:
            raise Wrong(f"operation {number} handed out {work}, and its last checkpoint was {checkpoint}")
        if checkpoint is not None:
            self.resumed.append(Resumed(instance, checkpoint, reported, number))

    def _checkpoint(self, number: int, line: Any, reply: Any) -> None:
        instance = self.instances[self.works[line["work"]]]
        self.marks[instance] = number, line["data"]
        self.last[instance] = line["at"]

    def _finish(self, number: int, line: Any, reply: Any) -> None:
        if line["work"] in self.outcomes:
            raise Wrong(f"operation {number} ends work item {line['work']}, which was {self.outcomes[line['work']]} before")
        self.outcomes[line["work"]] = line.get("outcome", "FAILED")
        self.last[self.instances[self.works[line["work"]]]] = line["at"]

    _lose = _finish

    def _purge(self, number: int, line: Any, reply: Any) -> None:
        instance = line["instance"]
        if instance in self.purged:
            raise Wrong(f"operation {number} purges job instance {instance}, which was purged before")
        if line["at"] - self.last[instance] < self.kept_days * DAY:
            raise Wrong(
                f"operation {number} purges job instance {instance} at {line['at']}, last changed at {self.last[instance]}"
            )
        self.purged.add(instance)


@dataclass(frozen=True)
class History:
    """What was gathered of a run: the operations, what clients were answered, and where artifacts noted their runs."""

    operations: Sequence[Operation]
    seen: Seen
    artifacts: Path
    has_replies: bool


def check_instances(walk: Walk, seen: Seen) -> None:
    """Job instances have the numbers that clients were told."""
    for call in seen.calls:
        if call.do not in ("start", "restart") or call.status >= 400:
            continue
        if walk.instances[call.told["executionId"]] != call.told["instanceId"]:
            raise Wrong(f"{call} is of job instance {walk.instances[call.told['executionId']]}")


def check_history(history: History, batchctl: Sequence[str], catalogue: bytes, kept_days: int) -> tuple[Walk, dict[str, int]]:
    """Compares what was gathered with a replay of all of it. Returns what it comes to, and how much was compared."""
    seen, operations = history.seen, history.operations
    replayed = Replayed(batchctl, catalogue, operations, seen)
    if history.has_replies:
        check_replies(operations, replayed)
    else:
        operations = [replace(one, reply=reply) for one, reply in zip(operations, replayed.replies, strict=True)]
    check_moments(operations)
    check_calls(operations, seen, Lost())
    check_beside(replayed)
    walk = Walk(kept_days).over(operations)
    check_instances(walk, seen)
    check_artifacts(operations, history.artifacts, Lost())
    calls = Counter(call.do for call in seen.calls if call.status < 400)
    return walk, {
        "operations": len(operations),
        **{f"acknowledged calls to {do}": count for do, count in sorted(calls.items())},
        "refused calls": len(seen.calls) - calls.total(),
        "reads": len(seen.reads),
        "purges": len(walk.purged),
        "work items": len(walk.works),
        "artifact runs": len((history.artifacts / "begun").read_text().split()),
        "chunks that went on at a checkpoint": len(walk.resumed),
    }


@dataclass(frozen=True)
class Told:
    """What the service tells at the end: each job execution, the work items of those that are left, and counts by status."""

    reads: Sequence[Read]
    items: Mapping[int, Any]
    counts: Mapping[str, int]


def check_told(told: Told, walk: Walk, seen: Seen) -> dict[str, int]:
    """Each job execution is told unless it was purged, with each of its work items, and with the client that claimed it."""
    if [read.execution for read in told.reads] != list(range(1, len(walk.instances) + 1)):
        raise Wrong(f"{len(walk.instances)} job executions were made, and {len(told.reads)} were asked for at the end")
    for read in told.reads:
        is_purged = walk.instances[read.execution] in walk.purged
        if (read.status == 200) == is_purged:
            raise Wrong(f"at the end {read} is told, and it was purged: {is_purged}")
    there = [read for read in told.reads if read.status == 200]
    newest = {read.told["instanceId"]: read for read in there}
    for read in newest.values():
        if read.told["batchStatus"] != "COMPLETED":
            raise Wrong(f"at the end {read} isn't COMPLETED, and everything was restarted until it was")
    counts = Counter(read.told["batchStatus"] for read in there)
    if counts != told.counts:
        raise Wrong(f"at the end {told.counts} are told, and the job executions come to {dict(counts)}")
    claimers = {call.told["work"]["work"]: call.client for call in seen.calls if call.do == "claim"}
    for read in there:
        check_items(read.execution, told.items[read.execution], walk, claimers)
    return {
        "job executions that are told at the end": len(there),
        "that are gone": len(told.reads) - len(there),
        "work items that are told at the end": sum(map(len, told.items.values())),
    }


def check_items(execution: int, told: Sequence[Any], walk: Walk, claimers: Mapping[int, str]) -> None:
    """The work items of a job execution ended as the history says. One that was lost is FAILED behind a base."""
    found = {one["work"]: "FAILED" if one["outcome"] == "LOST" else one["outcome"] for one in told}
    if found != walk.items_of(execution):
        raise Wrong(f"job execution {execution} has the work items {found} at the end, and had {walk.items_of(execution)}")
    for one in told:
        if one["client"] != claimers.get(one["work"], one["client"]):
            raise Wrong(f"{one} is told at the end, and {claimers[one['work']]} was handed it")


def check_resumed(walk: Walk, instances: Sequence[int], first_base: int, last_base: int) -> int:
    """Chunks that failed before the first base went on behind the last one. Returns how many had a checkpoint."""
    found: dict[int, Resumed] = {}
    for one in walk.resumed:
        if one.claimed > last_base:
            found.setdefault(one.instance, one)
    for instance in instances:
        number, _ = walk.marks.get(instance, (0, ""))
        if number and instance not in found:
            raise Wrong(f"job instance {instance} has a checkpoint, and didn't go on at one behind the last base")
    early = [one for one in found.values() if one.instance in instances and one.reported <= first_base]
    return len(early)


@dataclass(frozen=True)
class State:
    """A night's end: how many operations there were, what the base has, and how long the service takes to start over it.

    Bytes are of the log or of the base's parts, and of all that is kept.
    """

    night: int
    operations: int
    rows: int
    base_bytes: int
    all_bytes: int
    seconds: float

    def __str__(self) -> str:
        kib = f"{self.base_bytes / 1024:10.1f} {self.all_bytes / 1024:10.1f}"
        return f"{self.night:5} {self.operations:10} {self.rows:8} {kib} {self.seconds:8.2f}"


HEADER = "night operations     rows   base KiB    all KiB  start s"


def compared_night(kept: int) -> int:
    """The first night after which as much is kept as after the last one: no earlier than the second."""
    return max(2, kept)


def check_growth(states: Sequence[State], kept: int, slowness: float = 1.0) -> str:
    """The base behind the last night and a start over it are as behind the first night with as many kept ones."""
    if len(states) <= compared_night(kept):
        return "too few nights to compare starts and bases"
    first, last = states[compared_night(kept) - 1], states[-1]
    if last.base_bytes > MOST_BYTES * first.base_bytes + FEW_BYTES:
        raise Wrong(f"the base has grown from {first.base_bytes} bytes of night {first.night} to {last.base_bytes}")
    if last.seconds > MOST_SECONDS * first.seconds + FEW_SECONDS * slowness:
        raise Wrong(f"a start took {first.seconds:.2f} seconds behind night {first.night}, and takes {last.seconds:.2f}")
    told = f"start behind night {first.night}: {first.seconds:.2f} s, {first.base_bytes} bytes of base"
    return f"{told}; behind night {last.night}: {last.seconds:.2f} s, {last.base_bytes} bytes"
