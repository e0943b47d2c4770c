"""What an embedded service keeps beside its log: workers' logs, the first replies to refused calls with a key, and of the log's
operations the client names and the first replies of request keys.

What the log has may be read out of it again. So a commit waits for the disk only if it has something else.
"""

from __future__ import annotations

import json
import os
import sqlite3
import stat
import time
import uuid
from collections.abc import Iterator, Mapping, Sequence
from contextlib import closing, contextmanager
from dataclasses import dataclass, field
from pathlib import Path
from typing import Any

from job_host.service.history.actions import Action
from job_host.service.history.log_file import Beginning, KnownBase
from job_host.service.history.audited import Audited
from job_host.service.stores.history import History, Rest, history_in
from job_host.service.stores.sqlite_audit import AuditTable
from job_host.service.stores.sqlite_notifications import NotificationTable
from job_host.service.stores.sqlite_rows import insert_all
from job_host.service.stores.sqlite_schema import migrate, refuse_later
from job_host.service.terms.calls import (
    EVERYBODY_SESSION,
    LOG_END_CHARACTERS,
    Kept,
    KeptRequest,
    LogPage,
    LogSize,
    WorkLog,
    answers_text,
)
from job_host.service.terms.known_keys import KeptKey
from job_host.service.terms.sessions import Silent

REQUEST = """
insert or replace into request (session, key, fingerprint, moment, line, reply, answers, seen, kept_at) values {}
"""
# By the index of the moments, which has the keys, too.
KEYS = """
select kept_at, session, key from request where (kept_at, session, key) > (?, ?, ?) order by kept_at, session, key limit ?
"""
BEFORE_ALL_KEYS = KeptKey(float("-inf"), 0, "")
WORK_LOG = "insert or replace into work_log values {}"
NOTED = """
insert into noted values (1, ?, ?) on conflict (one) do update set operations = excluded.operations, line = excluded.line
"""
# A name that was forgotten may still stand here, if it was heard again at once.
CLIENT = "insert into client values {} on conflict (name) do update set session = excluded.session"
# A client that was never noted is taken as heard now.
HEARD = """
insert into client_heard select session, :now from client
where session = :session or (:session is null and session not in (select session from client_heard))
on conflict (session) do update set heard_at = excluded.heard_at
"""
# The greatest number stays, so that the next one is greater.
SILENT = """
select name, session, exists (select 1 from request where request.session = client.session and reply is not null)
from client join client_heard using (session) where heard_at < ? and session < (select max(session) from client)
"""
LOGS = """
select work, execution, element, partition, log from work_log
where execution = :execution and (:element is null or element = :element)
and (:search = '' or instr(lower(log), lower(:search)) > 0) order by work limit :size offset :start
"""
LOG_SIZES = """
select work, element, partition, length(cast(log as blob)) from work_log
where execution = :execution and (:element is null or element = :element)
and (:search = '' or instr(lower(log), lower(:search)) > 0) order by work limit :size offset :start
"""
LOG = "select work, execution, element, partition, log from work_log where work = ?"
LOG_ENDS = """
select work, execution, element, partition, substr(log, ?) from work_log where work in (select value from json_each(?))
"""
ANSWER = "update request set reply = ?, answers = ?, seen = ? where session = ? and key = ?"


@dataclass(frozen=True)
class OpenRequest:
    """A request key of an earlier version, whose line was handed over, and whose reply isn't kept."""

    session: int
    key: str
    moment: int
    line: bytes


@dataclass(frozen=True)
class Request:
    """A request key with its first reply, and the line by which that call was made at a moment."""

    session: int
    key: str
    fingerprint: bytes
    moment: int
    line: bytes
    kept: Kept
    kept_at: float

    def row(self) -> tuple[Any, ...]:
        answers = answers_text(self.kept.answers)
        head = (self.session, self.key, self.fingerprint, self.moment, self.line)
        return (*head, self.kept.reply, answers, self.kept.seen, self.kept_at)


@dataclass(frozen=True)
class Noted:
    """How many operations of a log are known, and a digest of the line of the last of these."""

    operations: int = 0
    line: str = ""


@dataclass(frozen=True)
class Notes:
    """What operations tell: request keys with their replies, clients by name, logs of work items, and which is the last."""

    requests: Sequence[Request] = ()
    clients: Mapping[str, int] = field(default_factory=dict)
    logs: Sequence[WorkLog] = ()
    operations: Sequence[Audited] = ()
    last: Noted | None = None
    # The digest of the first operation of a history, if it is among them.
    first: str | None = None
    # Whether something is among them that the log doesn't have.
    is_alone: bool = False

    @property
    def is_empty(self) -> bool:
        return not (self.requests or self.clients or self.logs or self.operations) and self.first is None


def words_of(wanted: LogPage) -> dict[str, Any]:
    """The words of a statement that finds logs."""
    words = {"execution": wanted.execution, "element": wanted.element, "search": wanted.search}
    return {**words, **wanted.page._asdict()}


def refuse_later_file(path: Path) -> None:
    """Raises LaterVersion if a file's tables are of a later version. Nothing is written."""
    if path.exists():
        with closing(sqlite3.connect(path)) as connection:
            refuse_later(connection, path.name)


class SqliteStore:
    """One connection, for one thread. A new file is its owner's alone. A commit is on the disk when its call returns, but for
    that of notes that the log has, too.

    Its tables are brought to this version. Raises LaterVersion if they are of a later one.
    """

    def __init__(self, path: Path) -> None:
        refuse_later_file(path)
        os.close(os.open(path, os.O_RDWR | os.O_CREAT, stat.S_IRUSR | stat.S_IWUSR))
        self._connection = sqlite3.connect(path, isolation_level=None, check_same_thread=False)
        for pragma in ("journal_mode = wal", "synchronous = full", "busy_timeout = 5000"):
            self._connection.execute(f"pragma {pragma}")
        self._check()
        migrate(self._connection)
        self.notifications = NotificationTable(self._connection)
        self.audit = AuditTable(self._connection)

    def _check(self) -> None:
        """Raises a DatabaseError if the file is damaged."""
        told = [str(row[0]) for row in self._connection.execute("pragma quick_check(1)")]
        if told != ["ok"]:
            self._connection.close()
            raise sqlite3.DatabaseError("; ".join(told))

    def close(self) -> None:
        self._connection.close()

    def close_whole(self) -> None:
        """Closes a file that is then moved: nothing of it stands in another one. Raises if another program has it open."""
        with closing(self._connection):
            self._connection.execute("pragma journal_mode = delete")

    def history(self) -> History | None:
        return history_in(self._connection)

    def identity(self) -> str:
        kept = self.history()
        return "" if kept is None else kept.identity

    def is_empty(self) -> bool:
        return self._connection.execute("select 1 from request union all select 1 from client").fetchone() is None

    def begin_history(self, beginning: Beginning) -> None:
        """Gives the file's history an identity if it has none, that of the log if this names one, and keeps how it begins."""
        row = (beginning.identity or uuid.uuid4().hex, beginning.catalogue)
        with self._connection:
            self._connection.execute("begin")
            self._connection.execute("insert or ignore into history (one, identity, catalogue) values (1, ?, ?)", row)
            self._note_first(beginning.first)

    def _note_first(self, first: str | None) -> None:
        self._connection.execute("update history set first = ? where first is null", (first,))

    def clients(self, most: int) -> dict[str, int]:
        """Names with the greatest sessions, no more than so many, by rising session."""
        rows = self._connection.execute("select name, session from client order by session desc limit ?", (most,))
        return dict(reversed(rows.fetchall()))

    def session_of(self, name: str) -> int | None:
        row = self._connection.execute("select session from client where name = ?", (name,)).fetchone()
        return None if row is None else int(row[0])

    def name_of(self, session: int) -> str | None:
        row = self._connection.execute("select name from client where session = ?", (session,)).fetchone()
        return None if row is None else str(row[0])

    def name_unknown(self, sessions: Sequence[int]) -> None:
        """Names clients that nobody knows any more: no client can have such a name."""
        with self._connection:
            self._connection.execute("begin")
            insert_all(self._connection, CLIENT, [(f"?{one}", one) for one in sessions])

    def note_heard(self, sessions: Sequence[int]) -> None:
        """Keeps that these clients were heard until now."""
        now = time.time()
        with self._connection:
            self._connection.execute("begin")
            self._connection.executemany(HEARD, [{"now": now, "session": one} for one in [*sessions, None]])

    def silent_clients(self, seconds: float) -> list[Silent]:
        """Names that weren't heard for so long."""
        return [
            Silent(name, session, bool(key))
            for name, session, key in self._connection.execute(SILENT, (time.time() - seconds,))
        ]

    def drop_clients(self, clients: Mapping[str, int]) -> None:
        with self._connection:
            self._connection.execute("begin")
            self._connection.executemany("delete from client where name = ? and session = ?", clients.items())
            self._connection.executemany("delete from client_heard where session = ?", [(one,) for one in clients.values()])

    def noted(self) -> Noted:
        row = self._connection.execute("select operations, line from noted").fetchone()
        return Noted() if row is None else Noted(row[0], row[1])

    def note(self, notes: Notes) -> None:
        """Keeps notes, in one commit. It is on the disk at the end if something is among them that the log doesn't have."""
        with self._syncing(notes.is_alone), self._connection:
            self._connection.execute("begin")
            self._note_first(notes.first)
            insert_all(self._connection, CLIENT, list(notes.clients.items()))
            self.audit.add(notes.operations)
            insert_all(self._connection, REQUEST, [request.row() for request in notes.requests])
            rows = [(log.work, log.execution, log.element, log.partition, log.text) for log in notes.logs]
            insert_all(self._connection, WORK_LOG, rows)
            if notes.last is not None:
                self._connection.execute(NOTED, (notes.last.operations, notes.last.line))

    def last_action(self) -> int:
        """The last operation by which something was done to a job execution, of those that are kept here."""
        return int(self._connection.execute("select max(operation) from action").fetchone()[0] or 0)

    def actions(self, operations: int) -> list[tuple[int, Action]]:
        """What was done by the first so many operations, each with its job execution, in their order."""
        statement = "select execution, operation, name, session, moment, of from action where operation <= ? order by operation"
        return [(row[0], Action(*row[1:])) for row in self._connection.execute(statement, (operations,))]

    def note_actions(self, actions: Sequence[tuple[int, Action]], gone: Sequence[int]) -> None:
        """Keeps what was done to job executions, by whom, and forgets it of those that are gone."""
        with self._connection:
            self._connection.execute("begin")
            rows = [(execution, *action) for execution, action in actions]
            self._connection.executemany("insert or replace into action values (?, ?, ?, ?, ?, ?)", rows)
            self.audit.note_done([action.operation for _, action in actions])
            self._connection.executemany("delete from action where execution = ?", [(one,) for one in gone])
            self.audit.forget_done()

    def note_rest(self, rest: Rest) -> None:
        """Keeps how the log stands, all of which is noted. At the end this is on the disk, with what was noted before."""
        self._connection.execute("insert or replace into rest values (1, ?, ?, ?, ?, ?)", rest)

    def note_base(self, base: KnownBase, session: int) -> None:
        """Keeps by what the base of the log is known, unless it is kept already. No session above this one is known."""
        greatest = self._connection.execute("select max(session) from client").fetchone()[0] or 0
        row = (base.head.operations, base.digest, max(session, greatest))
        self._connection.execute("insert or ignore into base values (?, ?, ?)", row)

    def forget_behind(self, base: KnownBase) -> bool:
        """Forgets what was noted of a log behind its base, and the sessions that weren't known then. Logs of work items stay.

        Returns whether this file knows the base. If not, nothing is forgotten.
        """
        count = base.head.operations
        with self._connection:
            self._connection.execute("begin")
            row = self._connection.execute(
                "select session from base where operations = ? and digest = ?", (count, base.digest)
            ).fetchone()
            if row is None:
                return False
            words = {"count": count, "session": row[0], "everybody": EVERYBODY_SESSION}
            statement = "delete from request where seen > :count or (session > :session and session <> :everybody)"
            self._connection.execute(statement, words)
            self._connection.execute("delete from action where operation > :count", words)
            self._connection.execute("delete from operation where number > :count", words)
            self.audit.forget_done()
            self._connection.execute("delete from base where operations > :count", words)
            for table in ("client", "client_heard"):
                self._connection.execute(f"delete from {table} where session > :session", words)
            self._connection.execute(NOTED, (count, ""))
            return True

    @contextmanager
    def _syncing(self, is_waited_for: bool) -> Iterator[None]:
        """Commits within the block wait for the disk, or not. A later commit that waits for it waits for theirs, too."""
        if is_waited_for:
            yield
            return
        self._connection.execute("pragma synchronous = normal")
        try:
            yield
        finally:
            self._connection.execute("pragma synchronous = full")

    def keys_behind(self, last: KeptKey | None, most: int) -> list[KeptKey]:
        """The next request keys, so many at most, in their order."""
        words = (*(last or BEFORE_ALL_KEYS), most)
        return [KeptKey(*row) for row in self._connection.execute(KEYS, words)]

    def forget_log(self) -> None:
        """Forgets what was noted of a log, and the replies to refused calls. Logs of work items stay."""
        with self._connection:
            self._connection.execute("begin")
            for table in ("request", "client", "client_heard", "noted", "rest", "base", "action", "action_origin", "operation"):
                self._connection.execute(f"delete from {table}")

    def open_requests(self) -> list[OpenRequest]:
        rows = self._connection.execute("select session, key, moment, line from request where reply is null")
        return [OpenRequest(*row) for row in rows]

    def settle(self, request: OpenRequest, kept: Kept | None) -> None:
        """Keeps the reply that a replay gave, or forgets the key: its line was never entered, and nobody was told a reply."""
        statement, words = "delete from request where session = ? and key = ?", [request.session, request.key]
        if kept is not None:
            answers = json.dumps([answer.decode() for answer in kept.answers])
            statement, words = ANSWER, [kept.reply, answers, kept.seen, *words]
        self._connection.execute(statement, words)

    def drop_unseen(self, operations: int, works: int) -> None:
        """Drops what a log doesn't have that has so many operations and work items: an older copy has taken its place."""
        with self._connection:
            self._connection.execute("begin")
            self._connection.execute("delete from request where seen > ?", (operations,))
            self._connection.execute("delete from work_log where work > ?", (works,))

    def request(self, session: int, key: str) -> KeptRequest | None:
        statement = "select fingerprint, reply, answers, seen from request where session = ? and key = ? and reply is not null"
        row = self._connection.execute(statement, (session, key)).fetchone()
        if row is None:
            return None
        answers = tuple(text.encode() for text in json.loads(row[2]))
        return KeptRequest(row[0], Kept(row[1], answers, row[3]))

    def logs(self, wanted: LogPage) -> list[WorkLog]:
        return [WorkLog(*row) for row in self._connection.execute(LOGS, words_of(wanted))]

    def log_sizes(self, wanted: LogPage) -> list[LogSize]:
        return [LogSize(*row) for row in self._connection.execute(LOG_SIZES, words_of(wanted))]

    def log_of(self, work: int) -> WorkLog | None:
        row = self._connection.execute(LOG, (work,)).fetchone()
        return None if row is None else WorkLog(*row)

    def log_ends(self, works: Sequence[int]) -> list[WorkLog]:
        """The ends of the logs of these work items."""
        return [WorkLog(*row) for row in self._connection.execute(LOG_ENDS, (-LOG_END_CHARACTERS, json.dumps(list(works))))]

    def logged_executions(self) -> list[int]:
        return [row[0] for row in self._connection.execute("select distinct execution from work_log")]

    def drop_logs(self, executions: Sequence[int]) -> None:
        with self._connection:
            self._connection.execute("begin")
            self._connection.executemany("delete from work_log where execution = ?", [(one,) for one in executions])

    def drop_old_keys(self, days: int, most: int) -> bool:
        """Drops some keys that are older, and returns whether there may be more.

        Those that say once stay, if they have a reply: a refusal isn't kept.
        """
        old = "select session, key from request where kept_at < ? and (session <> ? or reply is null) limit ?"
        statement = f"delete from request where (session, key) in ({old})"
        with self._connection:
            words = (time.time() - days * 86_400, EVERYBODY_SESSION, most)
            return self._connection.execute(statement, words).rowcount == most

    def old_once(self, days: int) -> dict[str, bytes]:
        """The older keys that say once, with their first replies."""
        statement = "select key, reply from request where kept_at < ? and session = ? and reply is not null"
        return dict(self._connection.execute(statement, (time.time() - days * 86_400, EVERYBODY_SESSION)))

    def drop_once(self, once: Mapping[str, bytes]) -> None:
        """Drops keys that say once, as far as these are still their first replies."""
        rows = [(EVERYBODY_SESSION, key, reply) for key, reply in once.items()]
        with self._connection:
            self._connection.execute("begin")
            self._connection.executemany("delete from request where session = ? and key = ? and reply = ?", rows)
