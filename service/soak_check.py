"""What is compared after a soak: each client's replies and reads, and the artifacts' runs, with a replay of the log."""

from __future__ import annotations

import json
import subprocess
import sys
from collections import Counter, defaultdict
from collections.abc import Iterator, Sequence
from dataclasses import dataclass, field, replace
from pathlib import Path
from typing import Any

sys.path.insert(0, str(Path(__file__).resolve().parent))

from job_host.protocol.lines import command, query  # noqa: E402
from job_host.service.ids import inside, told_outside  # noqa: E402
from job_host.service.routes import views  # noqa: E402


class Wrong(Exception):
    """What isn't as it has to be."""


@dataclass(frozen=True)
class Operation:
    """A kept operation. `key` is its request key, if it had one."""

    number: int
    line: bytes
    reply: bytes
    key: str | None


@dataclass(frozen=True)
class Acknowledged:
    """A call of a client that was answered, with what it was answered and how many operations that saw."""

    client: str
    key: str
    do: str
    members: dict[str, Any]
    status: int
    told: dict[str, Any]
    operations: int
    queue: int = 0


@dataclass(frozen=True)
class Read:
    """A read of a job execution. `least` is how many operations its client had seen before."""

    client: str
    execution: int
    status: int
    told: dict[str, Any]
    operations: int
    least: int
    queue: int = 0


@dataclass(frozen=True)
class Lost:
    """What faults took away. `stores` are how many operations there were at each loss of the SQLite file with its refused keys.

    `starts` is how many artifacts may not have been started, because their folder was gone.
    """

    stores: Sequence[int] = ()
    starts: int = 0

    def lies_between(self, seen: int, number: int) -> bool:
        """Whether a store was lost behind an answer that saw so many operations, and before the one with this number."""
        return any(seen <= operations < number for operations in self.stores)


@dataclass
class Seen:
    """All that clients were answered, in the order in which each was."""

    calls: list[Acknowledged] = field(default_factory=list)
    reads: list[Read] = field(default_factory=list)

    def of(self, queue: int) -> Seen:
        """What is about one queue, with the numbers of job executions as that has them."""
        calls = [replace(one, members=members_inside(one.members)) for one in self.calls if one.queue == queue]
        reads = [replace(one, execution=inside(one.execution).number) for one in self.reads if one.queue == queue]
        return Seen(calls, reads)


def members_inside(members: dict[str, Any]) -> dict[str, Any]:
    if "execution" not in members:
        return members
    return {**members, "execution": inside(members["execution"]).number}


def replay(
    batchctl: Sequence[str], catalogue: bytes, operations: Sequence[Operation], asides: dict[int, list[bytes]]
) -> list[Any]:
    """The replies to the operations, with for each number the replies to the lines that stand behind it.

    The lines beside the operations change nothing: they are queries, and calls that were refused.
    """
    lines = [catalogue, *asides.get(0, [])]
    for operation in operations:
        lines += [operation.line, *asides.get(operation.number, [])]
    done = subprocess.run([*batchctl, "script"], input=b"\n".join(lines) + b"\n", capture_output=True, check=True)
    return done.stdout.splitlines()


class Replayed:
    """A replay with every read and every refusal at its place."""

    def __init__(self, batchctl: Sequence[str], catalogue: bytes, operations: Sequence[Operation], seen: Seen) -> None:
        asides: dict[int, list[bytes]] = defaultdict(list)
        self._places: list[tuple[int, Any]] = []
        for item, at, lines in self._lines_of(seen):
            self._places.append((at, (item, len(asides[at]), len(lines))))
            asides[at] += lines
        replies = iter(replay(batchctl, catalogue, operations, asides))
        self._beside = {0: [next(replies) for _ in asides.get(0, [])]}
        self.replies = []
        for operation in operations:
            self.replies.append(next(replies))
            self._beside[operation.number] = [next(replies) for _ in asides.get(operation.number, [])]
        if next(replies, None) is not None:
            raise Wrong("the replay has more replies than lines")

    @staticmethod
    def _lines_of(seen: Seen) -> Iterator[tuple[Any, int, list[bytes]]]:
        for read in seen.reads:
            asks = ("job_execution", "parameters", "step_executions")
            yield read, read.operations, [query(ask, execution=read.execution) for ask in asks]
        for call in seen.calls:
            if call.status >= 400:
                yield call, call.operations, [command(call.do, 2, 0, call.members)]

    def beside(self) -> Iterator[tuple[Any, list[Any]]]:
        """Each read and each refused call with its replies."""
        for at, (item, place, count) in self._places:
            if at not in self._beside:
                raise Wrong(f"{item} saw {at} operations, and the history has fewer")
            yield item, [json.loads(reply) for reply in self._beside[at][place : place + count]]


def check_replies(operations: Sequence[Operation], replayed: Replayed) -> None:
    for operation, reply in zip(operations, replayed.replies, strict=True):
        if reply != operation.reply:
            raise Wrong(f"operation {operation.number} was answered {operation.reply!r}, and its replay {reply!r}")


def check_moments(operations: Sequence[Operation]) -> None:
    """Moments rise in the order of the history."""
    moments = [json.loads(operation.line)["at"] for operation in operations]
    for number, (before, moment) in enumerate(zip(moments, moments[1:]), 2):
        if moment <= before:
            raise Wrong(f"operation {number} has the moment {moment}, and the one before it {before}")


def by_key(operations: Sequence[Operation]) -> dict[str, Operation]:
    """The operation of each key."""
    found: dict[str, Operation] = {}
    for operation in operations:
        if operation.key is None:
            continue
        if operation.key in found:
            numbers = f"{found[operation.key].number} and {operation.number}"
            raise Wrong(f"operations {numbers} were both made by the key {operation.key}")
        found[operation.key] = operation
    return found


def check_calls(operations: Sequence[Operation], seen: Seen, lost: Lost) -> None:
    """Each acknowledged operation stands in the history once, with its reply; each client's in its order."""
    found = by_key(operations)
    last: dict[str, int] = defaultdict(int)
    for call in seen.calls:
        operation = found.get(call.key)
        if call.status >= 400:
            if operation is not None and not lost.lies_between(call.operations, operation.number):
                raise Wrong(f"{call} was refused, and is in the history")
            continue
        if operation is None:
            raise Wrong(f"{call} was acknowledged, and isn't in the history")
        check_call(call, operation)
        if operation.number <= last[call.client]:
            raise Wrong(f"{call} is before an earlier one of its client")
        last[call.client] = operation.number


def check_call(call: Acknowledged, operation: Operation) -> None:
    line, reply = json.loads(operation.line), json.loads(operation.reply)
    if line["do"] != call.do or any(line[name] != value for name, value in call.members.items()):
        raise Wrong(f"{call} is in the history as {line}")
    told = told_outside({"executionId": reply["execution"]} if "execution" in reply else {}, call.queue)
    if call.operations != operation.number or not told.items() <= call.told.items():
        raise Wrong(f"{call} is in the history as number {operation.number} with the reply {reply}")
    if call.told.get("work") != told_outside(reply, call.queue).get("work"):
        raise Wrong(f"{call} was handed a work item, and in the history the reply is {reply}")


def check_beside(replayed: Replayed) -> None:
    """Each read tells the state after what it saw, and each refusal was due there; no read goes back."""
    for item, replies in replayed.beside():
        if isinstance(item, Acknowledged):
            if replies[0].get("refused") != item.told.get("title"):
                raise Wrong(f"{item}: the replay answers {replies[0]}")
            continue
        if item.operations < item.least:
            raise Wrong(f"{item} goes back")
        if item.status == 200:
            execution, parameters, steps = replies
            told = views.job_execution(execution["job_execution"], parameters["parameters"], steps["step_executions"])
            if told_outside(told, item.queue) != item.told:
                raise Wrong(f"{item}: the replay tells {told}")
        elif replies[0].get("refused") != item.told.get("title"):
            raise Wrong(f"{item}: the replay answers {replies[0]}")


def finishes(operations: Sequence[Operation]) -> Iterator[dict[str, Any]]:
    for operation in operations:
        line = json.loads(operation.line)
        if line["do"] == "finish":
            yield line


def chunks_of(operations: Sequence[Operation]) -> set[int]:
    """The work items that are chunks."""
    return {json.loads(one.reply)["work"]["work"] for one in operations if b'"kind":"chunk"' in one.reply}


def unstarted(operations: Sequence[Operation]) -> list[int]:
    """The work items whose artifact couldn't be started: they are FAILED without an exit status, and no chunks."""
    failed = [line for line in finishes(operations) if line["outcome"] == "FAILED" and line.get("exit") is None]
    chunks = chunks_of(operations) if failed else set[int]()
    return [line["work"] for line in failed if line["work"] not in chunks]


def works_in(path: Path, queue: int) -> list[str]:
    """The work items of a queue that artifacts have noted, by their numbers there."""
    noted = [inside(int(number)) for number in path.read_text().split()]
    return [str(one.number) for one in noted if one.queue == queue]


def check_artifacts(operations: Sequence[Operation], folder: Path, lost: Lost, queue: int = 0) -> None:
    """An artifact ran at most once for each work item, and to its end for each that its worker finished COMPLETED.

    What an artifact left behind ended with it. No more work items are FAILED without an exit status than folders were lost for.
    """
    begun, ended = [Counter(works_in(folder / name, queue)) for name in ("begun", "ended")]
    twice = [work for work, times in begun.items() if times > 1]
    if twice:
        raise Wrong(f"artifacts ran twice for the work items {twice}")
    late = works_in(folder / "late", queue)
    if late:
        raise Wrong(f"processes that the artifacts of the work items {late} had left behind went on")
    missing = unstarted(operations)
    if len(missing) > lost.starts:
        raise Wrong(f"the artifacts of the work items {missing} weren't started, and only {lost.starts} may not have been")
    chunks = chunks_of(operations)
    for line in finishes(operations):
        if line["outcome"] == "COMPLETED" and line["work"] not in chunks and ended[str(line["work"])] != 1:
            raise Wrong(
                f"work item {line['work']} is COMPLETED, and its artifact ran to its end {ended[str(line['work'])]} times"
            )


def check(
    batchctl: Sequence[str],
    catalogue: bytes,
    operations: Sequence[Operation],
    seen: Seen,
    artifacts: Path,
    lost: Lost = Lost(),
    queue: int = 0,
) -> dict[str, int]:
    """Compares everything of a queue, and returns how much that was."""
    seen = seen.of(queue)
    replayed = Replayed(batchctl, catalogue, operations, seen)
    check_replies(operations, replayed)
    check_moments(operations)
    check_calls(operations, seen, lost)
    check_beside(replayed)
    check_artifacts(operations, artifacts, lost, queue)
    refused = sum(call.status >= 400 for call in seen.calls)
    return {
        "operations": len(operations),
        "acknowledged": len(seen.calls) - refused,
        "refused": refused,
        "reads": len(seen.reads),
        "artifact runs": len(works_in(artifacts / "begun", queue)),
        "of them with processes left behind": len(works_in(artifacts / "left", queue)),
        "artifacts that weren't started": len(unstarted(operations)),
    }
