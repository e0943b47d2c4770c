"""Who made which operation, in the SQLite file beside a log.

Those behind the log's base have a table of their own. Of those before it this is kept beside what was done to job executions.
"""

from __future__ import annotations

import sqlite3
from collections.abc import Callable, Sequence
from contextlib import closing
from dataclasses import asdict
from pathlib import Path
from typing import Any

from job_host.service.history.audited import COLUMNS, Audited, AuditWanted, Origin
from job_host.service.stores.sqlite_rows import insert_all

ADD = f"insert or replace into operation ({COLUMNS}) values {{}}"
# A replay doesn't know the client of a session that its line doesn't name.
ADD_OF_SESSION = f"""
insert or replace into operation ({COLUMNS})
select :number, :name, :session, :moment, :execution, :job, :of, c.name,
    coalesce(:token, case when instr(c.name, '/') > 0 then substr(c.name, 1, instr(c.name, '/') - 1) end), :address
from (select coalesce(:client, (select name from client where session = :session)) as name) c
"""
# Rows of operations before the newest base are dropped by and by.
BASED = "(select coalesce(max(operations), 0) from base)"
# A restart stands there twice: it was done to the job execution that it made, too.
BEFORE = f"""
select operation as number, name, session, moment, execution, job, of, client, token, address
from action left join action_origin using (operation)
where operation <= {BASED} and (name not in ('start', 'restart') or of = execution)
"""
WANTED = f"""
select * from (select {COLUMNS} from operation where number > {BASED} union all select * from ({BEFORE}))
where {{}} order by number desc limit :size offset :start
"""
# Only those that are asked for: so a name is found by its index.
CONDITIONS = {
    "job": "job = :job",
    "client": "client = :client",
    "token": "token = :token",
    "since": "moment >= :since",
    "until": "moment < :until",
}
ORIGINS = f"""
select number, client, token, address from operation
where number in (select value from json_each(:numbers)) and number > {BASED}
union
select operation, client, token, address from action_origin
where operation in (select value from json_each(:numbers)) and operation <= {BASED}
"""
DROP_BASED = f"delete from operation where number in (select number from operation where number <= {BASED} limit ?)"
NOTE_DONE = """
insert or replace into action_origin select number, job, client, token, address from operation where number = ?
"""


def words_of(audited: Audited) -> dict[str, Any]:
    return {"number": audited.number, **audited.did._asdict(), **audited.origin._asdict()}


class AuditTable:
    def __init__(self, connection: sqlite3.Connection) -> None:
        self._connection = connection

    def add(self, operations: Sequence[Audited]) -> None:
        """Adds operations, in the transaction that is open, behind their clients."""
        named = [(one.number, *one.did, *one.origin) for one in operations if one.origin.client is not None]
        insert_all(self._connection, ADD, named)
        nameless = [words_of(one) for one in operations if one.origin.client is None]
        self._connection.executemany(ADD_OF_SESSION, nameless)

    def drop_based(self, most: int) -> bool:
        """Drops some rows of operations before the newest base, and returns whether there may be more."""
        with self._connection:
            return self._connection.execute(DROP_BASED, (most,)).rowcount == most

    def fill_jobs(self, job_of: Callable[[int], str]) -> None:
        """Notes the jobs of what an earlier version kept without them."""
        found = "select operation, execution from action join action_origin using (operation) where job is null"
        rows = self._connection.execute(found).fetchall()
        with self._connection:
            self._connection.execute("begin")
            filled = [(job_of(execution), operation) for operation, execution in rows]
            self._connection.executemany("update action_origin set job = ? where operation = ?", filled)

    def note_done(self, operations: Sequence[int]) -> None:
        """Notes who made these operations beside what was done to job executions, in the transaction that is open."""
        self._connection.executemany(NOTE_DONE, [(one,) for one in operations])

    def forget_done(self) -> None:
        """Forgets who did what isn't told any more, in the transaction that is open."""
        self._connection.execute("delete from action_origin where operation not in (select operation from action)")

    def origins(self, numbers: Sequence[int]) -> dict[int, Origin]:
        """Who made these operations, as far as it is known."""
        words = {"numbers": str(list(numbers))}
        return {row[0]: Origin(*row[1:]) for row in self._connection.execute(ORIGINS, words)}


def wanted_in(path: Path, wanted: AuditWanted) -> list[Audited]:
    """The operations of a file that are wanted, the newest first. By a connection of its own: no commit waits for it."""
    given = {name: value for name, value in asdict(wanted).items() if name in CONDITIONS and value is not None}
    statement = WANTED.format(" and ".join(["true", *(CONDITIONS[name] for name in given)]))
    with closing(sqlite3.connect(f"{path.resolve().as_uri()}?mode=ro", uri=True)) as connection:
        connection.execute("pragma busy_timeout = 5000")
        rows = connection.execute(statement, {**given, **wanted.page._asdict()})
        return [Audited.read(row) for row in rows]
