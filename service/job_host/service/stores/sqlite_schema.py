"""The tables in the SQLite file, and how those of an earlier version are brought to this one."""

from __future__ import annotations

import sqlite3
from collections.abc import Iterable
from itertools import chain

from job_host.service.stores.versions import LaterVersion

# A file without a version may have some of these already.
FIRST = (
    """
create table if not exists history (
    one integer primary key check (one = 1),
    identity text not null,
    catalogue text not null,
    first text
)
""",
    "create table if not exists client (name text primary key, session integer not null unique)",
    "create table if not exists client_heard (session integer primary key, heard_at real not null)",
    """
create table if not exists request (
    session integer not null,
    key text not null,
    fingerprint blob not null,
    moment integer not null,
    line blob not null,
    reply blob,
    answers text,
    seen integer,
    kept_at real not null,
    primary key (session, key)
) without rowid
""",
    "create index if not exists request_open on request (moment) where reply is null",
    "create index if not exists request_kept_at on request (kept_at)",
    """
create table if not exists work_log (
    work integer primary key,
    execution integer not null,
    element text not null,
    partition integer,
    log text not null
)
""",
    "create index if not exists work_log_execution on work_log (execution)",
)
# How many operations of the log the file knows, and a digest of the line of the last of these.
SECOND = (
    """
create table if not exists noted (
    one integer primary key check (one = 1),
    operations integer not null,
    line text not null
)
""",
)
# The bases that the log had, each with the greatest session that was known then; how the log stood when it was ended, or was
# to be compacted; and who did what to job executions before the base.
THIRD = (
    """
create table if not exists base (
    operations integer not null,
    digest text not null,
    session integer not null,
    primary key (operations, digest)
) without rowid
""",
    """
create table if not exists rest (
    one integer primary key check (one = 1),
    operations integer not null,
    execution integer not null,
    instance integer not null,
    work integer not null,
    made integer not null
)
""",
    """
create table if not exists action (
    execution integer not null,
    operation integer not null,
    name text not null,
    session integer not null,
    moment integer not null,
    of integer not null,
    primary key (execution, operation)
) without rowid
""",
    "create index if not exists action_operation on action (operation)",
)
# What the leader remembers of its policies: moments by name, and notifications that wait for their receiver.
FOURTH = (
    "create table if not exists mark (name text primary key, value integer not null) without rowid",
    """
create table if not exists notification (
    number integer primary key autoincrement,
    id text not null unique,
    execution integer not null,
    body text not null,
    attempts integer not null default 0,
    due integer not null default 0
)
""",
    "create index if not exists notification_execution on notification (execution, number)",
)
# Who made which operation, by which token, and from where. The operations that the log has are read out of it again. Of what
# was done before its base an earlier version has kept the client's name, which has the token's. The job is filled in later.
FIFTH = (
    """
create table if not exists operation (
    number integer primary key,
    name text not null,
    session integer not null,
    moment integer not null,
    execution integer not null,
    job text not null,
    of integer not null,
    client text,
    token text,
    address text
)
""",
    "create index if not exists operation_job on operation (job, number)",
    "create index if not exists operation_client on operation (client, number)",
    "create index if not exists operation_token on operation (token, number) where token is not null",
    """
create table if not exists action_origin (
    operation integer primary key,
    job text,
    client text,
    token text,
    address text
)
""",
    """
insert or ignore into action_origin (operation, client)
select operation, case session when 1 then '' else (select name from client where client.session = action.session) end
from action
""",
    """
update action_origin set token = substr(client, 1, instr(client, '/') - 1)
where token is null and address is null and instr(client, '/') > 0
""",
    "delete from noted",
)
# The statements that bring each version to the next one. They are never changed: a later version has statements of its own.
MIGRATIONS: list[Iterable[str]] = [FIRST, SECOND, THIRD, FOURTH, FIFTH]


def version_of(connection: sqlite3.Connection) -> int:
    return int(connection.execute("pragma user_version").fetchone()[0])


def refuse_later(connection: sqlite3.Connection, file: str) -> None:
    """Raises LaterVersion if this program doesn't know the file's tables."""
    version = version_of(connection)
    if version > len(MIGRATIONS):
        raise LaterVersion(file, version, len(MIGRATIONS))


def migrate(connection: sqlite3.Connection) -> None:
    """Brings the tables to this version, in one transaction."""
    version = version_of(connection)
    if version == len(MIGRATIONS):
        return
    with connection:
        connection.execute("begin immediate")
        for statement in chain.from_iterable(MIGRATIONS[version:]):
            connection.execute(statement)
        connection.execute(f"pragma user_version = {len(MIGRATIONS)}")
