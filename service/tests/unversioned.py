"""Stores as the first release candidate made them: their tables have no version."""

from __future__ import annotations

import sqlite3
from contextlib import closing
from pathlib import Path

import asyncpg

SQLITE_TABLES = """
create table history (one integer primary key check (one = 1), identity text not null, catalogue text not null, first text);
create table client (name text primary key, session integer not null unique);
create table client_heard (session integer primary key, heard_at real not null);
create table request (
    session integer not null, key text not null, fingerprint blob not null, moment integer not null, line blob not null,
    reply blob, answers text, seen integer, kept_at real not null, primary key (session, key)
) without rowid;
create index request_open on request (moment) where reply is null;
create index request_kept_at on request (kept_at);
create table work_log (
    work integer primary key, execution integer not null, element text not null, partition integer, log text not null
);
create index work_log_execution on work_log (execution);
"""
POSTGRES_TABLES = """
create table job_host_leader (
    one boolean primary key default true check (one), epoch bigint not null, beats bigint not null, holder text not null,
    url text not null, history uuid not null default gen_random_uuid(), first_operation text
);
create table job_host_catalogue (epoch bigint primary key, line text not null);
create table job_host_operation (
    number bigint primary key, epoch bigint not null, line text not null, reply text not null, request_key text
);
create table job_host_client (name text primary key, session bigint not null unique);
create table job_host_client_heard (session bigint primary key, heard_at timestamptz not null default now());
create table job_host_request (
    session bigint not null, key text not null, fingerprint bytea not null, reply text not null, answers text not null,
    seen bigint not null, kept_at timestamptz not null default now(), primary key (session, key)
);
create index job_host_request_kept_at on job_host_request (kept_at);
create table job_host_work_log (
    work bigint primary key, execution bigint not null, element text not null, partition integer, log text not null
);
create index job_host_work_log_execution on job_host_work_log (execution);
"""
POSTGRES_NAMES = ["leader", "catalogue", "operation", "client", "client_heard", "request", "work_log"]


def make_unversioned(path: Path) -> None:
    """Puts the rows of a file into tables as they were without a version."""
    earlier = path.with_suffix(".earlier")
    with closing(sqlite3.connect(earlier, isolation_level=None)) as beside:
        beside.executescript(SQLITE_TABLES)
        beside.execute("attach ? as now", (str(path),))
        for name in ("history", "client", "client_heard", "request", "work_log"):
            beside.execute(f"insert into main.{name} select * from now.{name}")
    earlier.rename(path)


async def make_unversioned_tables(dsn: str) -> None:
    """Puts the rows of the tables into such as they were without a version."""
    table = await asyncpg.connect(dsn)
    await table.execute("create schema now")
    for name in (*POSTGRES_NAMES, "version", "job_change", "base", "base_part", "action", "mark", "notification"):
        await table.execute(f"alter table job_host_{name} set schema now")
    await table.execute(POSTGRES_TABLES)
    for name in POSTGRES_NAMES:
        columns = "number, epoch, line, reply, request_key" if name == "operation" else "*"
        await table.execute(f"insert into job_host_{name} select {columns} from now.job_host_{name}")
    await table.execute("drop schema now cascade")
    await table.close()
