"""To which history an SQLite file belongs, and whether a log is of that."""

from __future__ import annotations

import sqlite3
from dataclasses import dataclass
from typing import NamedTuple

from job_host.service.history.log_file import Beginning, KnownBase


class Rest(NamedTuple):
    """How a log stood: how many operations it had, the last numbers that they gave, and when the last job execution was made
    of those that were there."""

    operations: int
    execution: int
    instance: int
    work: int
    made: int

    @classmethod
    def of(cls, base: KnownBase) -> Rest:
        """How a log stood as it was compacted."""
        return cls(*base.head[:4], base.made)


@dataclass(frozen=True)
class History:
    """The history to which a file belongs: its identity, and how it begins, as far as that was known. Also how its log stood
    when nothing was entered any more, and the bases that this had."""

    identity: str
    beginning: Beginning
    rest: Rest | None = None
    bases: frozenset[tuple[int, str]] = frozenset()

    def is_of(self, beginning: Beginning) -> bool:
        """Whether a log is of this history. One with a base tells by its identity, or by a base that is known, or has just
        what there was when it was compacted."""
        base = beginning.base
        if base is None:
            return self.beginning == beginning
        if beginning.identity:
            return self.identity == beginning.identity
        return self.knows(base)

    def knows(self, base: KnownBase) -> bool:
        """Whether a base was noted, or the log stood as its base does: all that is before it was noted then."""
        return (base.head.operations, base.digest) in self.bases or self.rest == Rest.of(base)


def history_in(connection: sqlite3.Connection) -> History | None:
    if connection.execute("select 1 from sqlite_master where name = 'history'").fetchone() is None:
        return None
    row = connection.execute("select identity, catalogue, first from history").fetchone()
    if row is None:
        return None
    beginning = Beginning(row[1], row[2])
    if connection.execute("select 1 from sqlite_master where name = 'rest'").fetchone() is None:
        return History(row[0], beginning)
    rest = connection.execute("select operations, execution, instance, work, made from rest").fetchone()
    bases = frozenset(connection.execute("select operations, digest from base"))
    return History(row[0], beginning, None if rest is None else Rest(*rest), bases)
