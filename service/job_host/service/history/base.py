"""The base of a log: the rows that existed when it was compacted, in place of the operations before that."""

from __future__ import annotations

import json
from collections.abc import Mapping
from dataclasses import dataclass, field
from heapq import heappush, heappushpop
from pathlib import Path
from typing import Any, NamedTuple

from job_host.protocol.lines import LinesDigest
from job_host.service.history import log_file
from job_host.service.history.causes import FAILED
from job_host.service.history.log_file import Head, KnownBase
from job_host.service.history.work_items import MOST_ENDED, Ended, Held


class MadeExecution(NamedTuple):
    """A job execution of a base, its job instance, the moment at which it was made, and its job."""

    execution: int
    instance: int
    create: int
    job: str = ""


class LastEnded:
    """Of work items that are over, those that ended last."""

    def __init__(self, most: int = MOST_ENDED) -> None:
        self._most = most
        # All that ended after this moment are here.
        self.forgotten_until = 0
        # By the number of the operation that ended each: no two have one.
        self._heap: list[tuple[int, Ended]] = []

    def add(self, operation: int, ended: Ended) -> None:
        if len(self._heap) < self._most:
            heappush(self._heap, (operation, ended))
        else:
            _, forgotten = heappushpop(self._heap, (operation, ended))
            self.forgotten_until = max(self.forgotten_until, forgotten.until)

    def in_order(self) -> list[Ended]:
        """By the order of their ends."""
        return [ended for _, ended in sorted(self._heap)]


@dataclass
class Base:
    """What a base tells: its head, job executions by rising number, work items, and the last moment and session in them.

    `failed` has those that failed, also if they did so long ago.
    """

    head: Head
    executions: list[MadeExecution] = field(default_factory=list)
    held: list[Held] = field(default_factory=list)
    ended: LastEnded = field(default_factory=LastEnded)
    failed: LastEnded = field(default_factory=LastEnded)
    last_moment: int = 0
    last_session: int = 0
    digest: str = ""

    @property
    def known(self) -> KnownBase:
        return KnownBase(self.head, self.digest, self.executions[-1].create if self.executions else 0)

    def note(self, row: Mapping[str, Any]) -> None:
        """Notes a row. A checkpoint is known to batchctl alone."""
        if "work" in row:
            self._note_work(row)
        elif "job" in row:
            self.executions.append(MadeExecution(row["execution"], row["instance"], row["create"], row["job"]))
            self.last_moment = max(self.last_moment, row["create"], row["updated"])

    def _note_work(self, row: Mapping[str, Any]) -> None:
        place = (row["work"], row["execution"], row["element"], row.get("partition"))
        held = Held(*place, row["claimer"], row["start"])
        self.last_session = max(self.last_session, held.session)
        self.last_moment = max(self.last_moment, held.since, row.get("end", 0))
        if "outcome" not in row:
            self.held.append(held)
            return
        ended = Ended(held, row["end"], row["outcome"], row["exit"])
        self.ended.add(row["ended"], ended)
        if ended.outcome in FAILED:
            self.failed.add(row["ended"], ended)


def read_base(path: Path) -> Base | None:
    """The base of a log, if it has one. batchctl has checked it."""
    found: Base | None = None
    digest = LinesDigest()
    for lines in log_file.base_lines(path):
        digest.add(lines)
        rows = json.loads(b"[%b]" % b",".join(lines))
        if found is None:
            found = Base(log_file.head_in(rows.pop(0)))
        for row in rows:
            found.note(row)
    if found is not None:
        found.digest = digest.value()
    return found
