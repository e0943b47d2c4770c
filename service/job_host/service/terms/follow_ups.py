"""The queries whose answers belong to the first reply of an operation. They ask for what never changes of a job execution."""

from __future__ import annotations

from collections.abc import Sequence
from typing import Any

# Written without an encoder for each.
UNCHANGING = (b'{"ask":"job_instance","execution":%d}', b'{"ask":"parameters","execution":%d}')
# What was told of the last job executions is remembered: of so many, and so many bytes.
MOST_REMEMBERED, MOST_BYTES = 10_000, 16_777_216


def unchanging_of(execution: int) -> list[bytes]:
    """The queries for all that never changes of a job execution."""
    return [ask % execution for ask in UNCHANGING]


def follow_ups(do: str, reply: dict[str, Any]) -> list[bytes]:
    """A start or restart tells its job instance, too, and a claim the job and the parameters of its work item."""
    execution = execution_of(do, reply)
    return [] if execution is None else unchanging_of(execution)[: count_of(do)]


def count_of(do: str) -> int:
    """How many of the queries belong to a command: a start or restart has its parameters itself."""
    return 2 if do == "claim" else 1


def execution_of(do: str, reply: dict[str, Any]) -> int | None:
    """The job execution that is asked for, if one is."""
    if do in ("start", "restart") and "execution" in reply:
        return int(reply["execution"])
    if do == "claim" and "work" in reply:
        return int(reply["work"]["execution"])
    return None


class Unchanging:
    """What batchctl told of the last job executions that were made, so that their claims ask for it no more."""

    def __init__(self, most: int = MOST_REMEMBERED, most_bytes: int = MOST_BYTES) -> None:
        self._most, self._most_bytes = most, most_bytes
        self._told: dict[int, tuple[bytes, ...]] = {}
        self._bytes = 0

    def note(self, execution: int, replies: Sequence[bytes]) -> None:
        """Remembers the answers to `unchanging_of`, and forgets the oldest ones."""
        self._bytes -= sum(map(len, self._told.pop(execution, ())))
        self._told[execution] = tuple(replies)
        self._bytes += sum(map(len, replies))
        while len(self._told) > self._most or self._bytes > self._most_bytes:
            self._bytes -= sum(map(len, self._told.pop(next(iter(self._told)))))

    def of(self, execution: int) -> tuple[bytes, ...] | None:
        return self._told.get(execution)
