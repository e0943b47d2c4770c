"""What the service keeps in PostgreSQL: operations, the leader's epoch, client names, request keys and workers' logs."""

from __future__ import annotations

import asyncio
import json
from collections.abc import AsyncIterator, Callable, Coroutine, Mapping, Sequence
from contextlib import asynccontextmanager
from dataclasses import dataclass, field
from typing import Any

import asyncpg

from job_host.catalogue.jobs import JobFile, SettingsFile
from job_host.protocol.lines import compact, digest
from job_host.service.history.audited import Audited, AuditWanted, Origin
from job_host.service.history.engine import Record
from job_host.service.stores.postgres_audit import audit_columns, origins_of, wanted_of
from job_host.service.stores.postgres_bases import NEWEST, KeptBase
from job_host.service.stores.postgres_connection import COMMITTING, NotDurable, closed_is_lost, connect_primary, or_drop
from job_host.service.stores.postgres_migrations import are_current, migrate
from job_host.service.stores.postgres_schema import (
    ADD_CHANGE,
    BEAT,
    BEGIN_HISTORY,
    BEGINNING,
    DROP_CLIENTS,
    GROW,
    HEARD,
    KEEP_CATALOGUE,
    LEADER,
    LOG,
    LOG_ENDS,
    LOG_SIZES,
    LOGS,
    NOTE_FIRST,
    RESIGN,
    ROUND,
    SILENT,
    TAKE_OVER,
)
from job_host.service.terms.calls import (
    EVERYBODY_SESSION,
    LOG_END_CHARACTERS,
    Item,
    Kept,
    KeptRequest,
    LogPage,
    LogSize,
    WorkLog,
    answers_text,
)
from job_host.service.terms.known_keys import KeptKey
from job_host.service.terms.sessions import Silent
from job_host.service.versions.changes import Change, Growth, change_in


BEFORE_ALL_KEYS = KeptKey(0.0, -1, "")


@dataclass(frozen=True)
class Leader:
    """The leader's row. An epoch is one term of one instance; beats rise as long as it lives. The history has an identity.

    `based` says how many operations are before its newest base. That is no sign of the leader.
    """

    epoch: int
    beats: int
    holder: str
    url: str
    history: str
    based: int = field(default=0, compare=False)


class PostgresStore:
    """Two connections to the primary: one commits rounds, the other reads. A store that failed is closed for good."""

    def __init__(self, commits: asyncpg.Connection, reads: asyncpg.Connection, timeout: float) -> None:
        self._commits = commits
        self._reads = reads
        self._timeout = timeout
        self._turn = asyncio.Lock()

    @classmethod
    async def open(cls, dsns: Sequence[str], timeout: float) -> PostgresStore:
        """Connects, and brings the tables to this version. Raises NoPrimary, NotDurable, LaterVersion or what LOST has."""
        commits = await connect_primary(dsns, None, COMMITTING)
        try:
            await or_drop(commits, timeout, cls._check_durable(commits))
            if not await or_drop(commits, timeout, are_current(commits)):
                # It has no limit: large tables take their time.
                await migrate(commits)
            reads = await connect_primary(dsns, timeout)
        except BaseException:
            commits.terminate()
            raise
        return cls(commits, reads, timeout)

    @staticmethod
    async def _check_durable(connection: asyncpg.Connection) -> None:
        for name in ("fsync", "synchronous_commit", "full_page_writes"):
            if await connection.fetchval("select current_setting($1)", name) == "off":
                raise NotDurable(f"{name} is off: a commit could be lost after it was acknowledged")
        if await connection.fetchval("select current_setting('server_encoding')") != "UTF8":
            raise NotDurable("the database's encoding isn't UTF8")

    def close(self) -> None:
        """Drops the connections without a word to the server, which may not answer."""
        self._commits.terminate()
        self._reads.terminate()

    @property
    def is_closed(self) -> bool:
        """Whether a connection is lost. A store doesn't make it again."""
        return bool(self._commits.is_closed() or self._reads.is_closed())

    @asynccontextmanager
    async def _reading(self) -> AsyncIterator[asyncpg.Connection]:
        """The connection that reads, for one read. It is dropped if nobody waits for the answer any more, as after a timeout.

        Else the next read would wait without limit until the server has ended this one, and for ever if it never does.
        """
        async with self._turn:
            try:
                with closed_is_lost(self._reads):
                    yield self._reads
            except (asyncio.TimeoutError, asyncio.CancelledError):
                self._reads.terminate()
                raise

    async def _fetch(self, statement: str, *arguments: Any) -> list[Any]:
        async with self._reading() as reads:
            return list(await reads.fetch(statement, *arguments))

    async def use(self, use: Callable[[asyncpg.Connection], Any]) -> Any:
        """Lends the connection that reads, for one statement."""
        async with self._reading() as reads:
            return await use(reads)

    async def leader(self) -> Leader:
        return Leader(*(await self._fetch(LEADER))[0])

    async def newest_base(self) -> KeptBase | None:
        """The newest base of the history, if it has one."""
        rows = await self._fetch(NEWEST)
        return KeptBase.of(rows[0]) if rows else None

    async def catalogue(self) -> bytes | None:
        """The catalogue of the last leader that brought one."""
        rows = await self._fetch("select line from job_host_catalogue order by epoch desc limit 1")
        return rows[0]["line"].encode() if rows else None

    async def job_changes(self) -> list[Change]:
        """All changes of jobs with their files, the oldest first."""
        rows = await self._fetch("select change, file, settings from job_host_job_change order by number")
        return [change_of(json.loads(row["change"]), row["file"], row["settings"]) for row in rows]

    async def grow(self, epoch: int, growth: Growth) -> int | None:
        """Keeps changes of jobs, and the catalogue that has them, under a new epoch. Returns it, if the earlier one stands."""
        grown = await self._or_drop(self._grow(epoch, growth))
        return int(grown) if grown is not None else None

    async def _grow(self, epoch: int, growth: Growth) -> Any:
        async with self._commits.transaction():
            grown = await self._commits.fetchval(GROW, epoch)
            if grown is None:
                return None
            if growth.catalogue is not None:
                await self._commits.execute(KEEP_CATALOGUE, grown, growth.catalogue.decode())
            for change in growth.changes:
                await self._commits.execute(ADD_CHANGE, compact(change.members()).decode(), *data_of(change.file))
        return grown

    async def operations_after(self, number: int, epoch: int, most: int) -> list[Record]:
        """The next operations, no more than so many, of this epoch and those before: a later one may know more jobs."""
        rows = await self._fetch(
            "select number, line, reply from job_host_operation where number > $1 and epoch <= $2 order by number limit $3",
            number,
            epoch,
            most,
        )
        return [Record(row["number"], row["line"].encode(), row["reply"].encode()) for row in rows]

    async def clients(self, most: int) -> dict[str, int]:
        """Names with the greatest sessions, no more than so many, by rising session."""
        rows = await self._fetch("select name, session from job_host_client order by session desc limit $1", most)
        return {row["name"]: row["session"] for row in reversed(rows)}

    async def session_of(self, name: str) -> int | None:
        rows = await self._fetch("select session from job_host_client where name = $1", name)
        return rows[0]["session"] if rows else None

    async def names_of(self, sessions: Sequence[int]) -> dict[int, str]:
        statement = "select name, session from job_host_client where session = any($1::bigint[])"
        return {row["session"]: row["name"] for row in await self._fetch(statement, list(sessions))}

    async def note_heard(self, sessions: Sequence[int]) -> None:
        """Keeps that these clients were heard until now."""
        async with self._reading() as reads:
            await reads.execute(HEARD, list(sessions))

    async def silent_clients(self, seconds: float) -> list[Silent]:
        """Names that weren't heard for so long."""
        return [Silent(*row) for row in await self._fetch(SILENT, seconds)]

    async def drop_clients(self, epoch: int, clients: Mapping[str, int]) -> None:
        """Drops names with these sessions, if the epoch stands."""
        async with self._reading() as reads:
            await reads.execute(DROP_CLIENTS, epoch, list(clients.keys()), list(clients.values()))

    async def request(self, session: int, key: str) -> KeptRequest | None:
        statement = "select fingerprint, reply, answers, seen from job_host_request where session = $1 and key = $2"
        rows = await self._fetch(statement, session, key)
        if not rows:
            return None
        answers = tuple(text.encode() for text in json.loads(rows[0]["answers"]))
        kept = Kept(rows[0]["reply"].encode(), answers, rows[0]["seen"])
        return KeptRequest(bytes(rows[0]["fingerprint"]), kept)

    async def keys_behind(self, last: KeptKey | None, most: int) -> list[KeptKey]:
        """The next request keys, so many at most, in their order."""
        statement = "select session, key from job_host_request where (session, key) > ($1, $2) order by session, key limit $3"
        _, session, key = last or BEFORE_ALL_KEYS
        return [KeptKey(0.0, *row) for row in await self._fetch(statement, session, key, most)]

    async def audit(self, wanted: AuditWanted) -> list[Audited]:
        """The operations that are wanted, the newest first."""
        return await wanted_of(self._fetch, wanted)

    async def origins(self, numbers: Sequence[int]) -> dict[int, Origin]:
        """Who made these operations, as far as it is known."""
        return await origins_of(self._fetch, numbers)

    async def logs(self, wanted: LogPage) -> list[WorkLog]:
        return [WorkLog(*row) for row in await self._fetch(LOGS, *words_of(wanted))]

    async def log_sizes(self, wanted: LogPage) -> list[LogSize]:
        return [LogSize(*row) for row in await self._fetch(LOG_SIZES, *words_of(wanted))]

    async def log_of(self, work: int) -> WorkLog | None:
        rows = await self._fetch(LOG, work)
        return WorkLog(*rows[0]) if rows else None

    async def log_ends(self, works: Sequence[int]) -> list[WorkLog]:
        """The ends of the logs of these work items."""
        return [WorkLog(*row) for row in await self._fetch(LOG_ENDS, LOG_END_CHARACTERS, list(works))]

    async def take_over(self, seen: Leader, holder: str, url: str, catalogue: bytes | None) -> int | None:
        """The next epoch, if the leader's row is still as it was seen. The catalogue is kept with it."""
        epoch = await self._or_drop(self._take_over(seen, holder, url, catalogue))
        return int(epoch) if epoch is not None else None

    async def _take_over(self, seen: Leader, holder: str, url: str, catalogue: bytes | None) -> Any:
        async with self._commits.transaction():
            epoch = await self._commits.fetchval(TAKE_OVER, holder, url, seen.epoch, seen.beats)
            if epoch is not None:
                await self._know_history()
            if epoch is not None and catalogue is not None:
                await self._commits.execute(KEEP_CATALOGUE, epoch, catalogue.decode())
        return epoch

    async def _know_history(self) -> None:
        """Begins another history if the first operation isn't the one that the leader's row has."""
        row = await self._commits.fetchrow(BEGINNING)
        first = None if row["line"] is None else digest(row["line"].encode())
        if row["first_operation"] not in (None, first):
            await self._commits.execute(BEGIN_HISTORY, first)
        elif row["first_operation"] is None:
            await self._commits.execute(NOTE_FIRST, first)

    async def _or_drop(self, commit: Coroutine[Any, Any, Any]) -> Any:
        return await or_drop(self._commits, self._timeout, commit)

    async def resign(self, epoch: int) -> None:
        """Lets another instance take over at once."""
        async with self._reading() as reads:
            await reads.execute(RESIGN, epoch)

    async def commit(self, epoch: int, items: Sequence[Item], clients: dict[str, int]) -> bool:
        """Keeps a round. Returns whether the epoch stands: if it doesn't, nothing was kept."""
        if not clients and all(item.number is None and not item.is_keyed and item.log is None for item in items):
            return await self._or_drop(self._commits.fetchval(BEAT, epoch)) is not None
        return await self._or_drop(self._commits.fetchval(ROUND, epoch, *_columns(items, clients))) is not None

    async def logged_executions(self) -> list[int]:
        return [row["execution"] for row in await self._fetch("select distinct execution from job_host_work_log")]

    async def drop_logs(self, executions: Sequence[int]) -> None:
        async with self._reading() as reads:
            await reads.execute("delete from job_host_work_log where execution = any($1::bigint[])", list(executions))

    async def drop_old_keys(self, days: int, most: int) -> bool:
        """Drops some keys that are older, and returns whether there may be more. Those that say once stay."""
        old = "select ctid from job_host_request where kept_at < now() - make_interval(days => $1) and session <> $2 limit $3"
        async with self._reading() as reads:
            told = await reads.execute(f"delete from job_host_request where ctid in ({old})", days, EVERYBODY_SESSION, most)
        return str(told) == f"DELETE {most}"

    async def old_once(self, days: int) -> dict[str, bytes]:
        """The older keys that say once, with their first replies."""
        statement = "select key, reply from job_host_request where kept_at < now() - make_interval(days => $1) and session = $2"
        return {row["key"]: row["reply"].encode() for row in await self._fetch(statement, days, EVERYBODY_SESSION)}

    async def drop_once(self, once: Mapping[str, bytes]) -> None:
        """Drops keys that say once, as far as these are still their first replies."""
        statement = """
            delete from job_host_request r using unnest($2::text[], $3::text[]) as o(key, reply)
            where r.session = $1 and r.key = o.key and r.reply = o.reply
        """
        replies = [reply.decode() for reply in once.values()]
        async with self._reading() as reads:
            await reads.execute(statement, EVERYBODY_SESSION, list(once), replies)


def data_of(file: JobFile | None) -> tuple[bytes | None, bytes | None]:
    """The data of a job's file, and of its settings."""
    if file is None:
        return None, None
    return file.data, None if file.settings is None else file.settings.data


def change_of(told: dict[str, Any], data: bytes | None, held: bytes | None) -> Change:
    settings = None if held is None else SettingsFile(told["settings"], bytes(held))
    file = None if data is None else JobFile(told["file"], told["suffix"], bytes(data), settings)
    return change_in(told, file)


def words_of(wanted: LogPage) -> tuple[Any, ...]:
    """The words of a statement that finds logs."""
    element = None if wanted.element is None else without_nul(wanted.element)
    return wanted.execution, element, *wanted.page, without_nul(wanted.search)


def without_nul(text: str) -> str:
    """A text as PostgreSQL keeps it."""
    return text.replace("\0", "\ufffd")


def _columns(items: Sequence[Item], clients: dict[str, int]) -> list[Any]:
    """The columns of a round's rows, in the order of its statement; a digest of the first operation; and who made each one."""
    entered = [item for item in items if item.number is not None]
    keyed = [item for item in items if item.is_keyed]
    logs = list({item.log.work: item.log for item in items if item.log is not None}.values())
    return [
        [item.number for item in entered],
        [item.line.decode() for item in entered],
        [item.reply.decode() for item in entered],
        [item.call.key if item.call else None for item in entered],
        list(clients.keys()),
        list(clients.values()),
        [item.key_session for item in keyed],
        [item.call.key if item.call else None for item in keyed],
        [item.call.fingerprint if item.call else b"" for item in keyed],
        [item.reply.decode() for item in keyed],
        [answers_text(item.answers) for item in keyed],
        [item.seen for item in keyed],
        [log.work for log in logs],
        [log.execution for log in logs],
        [without_nul(log.element) for log in logs],
        [log.partition for log in logs],
        [without_nul(log.text) for log in logs],
        next((digest(item.line) for item in entered if item.number == 1), None),
        *audit_columns(entered),
    ]
