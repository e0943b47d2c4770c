"""The statements that a job repository in SQL makes for a start, a claim, a checkpoint and a finish, a commit after each.

It works as Spring Batch's JDBC repository: tables for job instances, job executions, their parameters and contexts, step
executions and their contexts. It decides nothing: it is measured beside the service, on the same PostgreSQL.
"""

from __future__ import annotations

import hashlib

import asyncpg

SCHEMA = """
create sequence if not exists batch_job_seq;
create sequence if not exists batch_job_execution_seq;
create sequence if not exists batch_step_execution_seq;
create table if not exists batch_job_instance (
    job_instance_id bigint primary key, version bigint, job_name varchar(100) not null, job_key varchar(32) not null,
    unique (job_name, job_key)
);
create table if not exists batch_job_execution (
    job_execution_id bigint primary key, version bigint, job_instance_id bigint not null references batch_job_instance,
    create_time timestamp not null, start_time timestamp, end_time timestamp, status varchar(10), exit_code varchar(2500),
    exit_message varchar(2500), last_updated timestamp
);
create table if not exists batch_job_execution_params (
    job_execution_id bigint not null references batch_job_execution, parameter_name varchar(100) not null,
    parameter_type varchar(100) not null, parameter_value varchar(2500), identifying char(1) not null
);
create table if not exists batch_job_execution_context (
    job_execution_id bigint primary key references batch_job_execution, short_context varchar(2500) not null,
    serialized_context text
);
create table if not exists batch_step_execution (
    step_execution_id bigint primary key, version bigint not null, step_name varchar(100) not null,
    job_execution_id bigint not null references batch_job_execution, create_time timestamp not null, start_time timestamp,
    end_time timestamp, status varchar(10), commit_count bigint, read_count bigint, filter_count bigint, write_count bigint,
    read_skip_count bigint, write_skip_count bigint, process_skip_count bigint, rollback_count bigint, exit_code varchar(2500),
    exit_message varchar(2500), last_updated timestamp
);
create table if not exists batch_step_execution_context (
    step_execution_id bigint primary key references batch_step_execution, short_context varchar(2500) not null,
    serialized_context text
);
"""


class SqlRepository:
    """One client on one connection."""

    def __init__(self, connection: asyncpg.Connection) -> None:
        self._connection = connection
        self._execution = 0
        self._step = 0

    async def start(self, job: str, parameters: dict[str, str]) -> None:
        """Looks for the job instance, and makes it with its first job execution."""
        key = hashlib.md5(repr(sorted(parameters.items())).encode(), usedforsecurity=False).hexdigest()
        do = self._connection
        async with do.transaction():
            await do.fetch(
                "select job_instance_id, version from batch_job_instance where job_name = $1 and job_key = $2", job, key
            )
            instance = await do.fetchval("select nextval('batch_job_seq')")
            await do.execute("insert into batch_job_instance values ($1, 0, $2, $3)", instance, job, key)
            self._execution = await do.fetchval("select nextval('batch_job_execution_seq')")
            await do.execute(
                "insert into batch_job_execution values ($1, 0, $2, now(), null, null, 'STARTING', 'UNKNOWN', '', now())",
                self._execution,
                instance,
            )
            for name, value in parameters.items():
                await do.execute(
                    "insert into batch_job_execution_params values ($1, $2, 'java.lang.String', $3, 'Y')",
                    self._execution,
                    name,
                    value,
                )
            await do.execute("insert into batch_job_execution_context values ($1, '{}', null)", self._execution)

    async def claim(self, step: str) -> None:
        """Begins the job execution and its step."""
        do = self._connection
        async with do.transaction():
            await do.execute(
                "update batch_job_execution set status = 'STARTED', start_time = now(), version = version + 1, "
                "last_updated = now() where job_execution_id = $1 and version = 0",
                self._execution,
            )
        async with do.transaction():
            self._step = await do.fetchval("select nextval('batch_step_execution_seq')")
            await do.execute(
                "insert into batch_step_execution values "
                "($1, 0, $2, $3, now(), null, null, 'STARTING', 0, 0, 0, 0, 0, 0, 0, 0, 'EXECUTING', '', now())",
                self._step,
                step,
                self._execution,
            )
            await do.execute("insert into batch_step_execution_context values ($1, '{}', null)", self._step)
        await self._change_step("status = 'STARTED', start_time = now()", 0)

    async def checkpoint(self, mark: str) -> None:
        """Counts a chunk, and keeps its context."""
        do = self._connection
        async with do.transaction():
            await do.execute(
                "update batch_step_execution set commit_count = 1, read_count = 100, write_count = 100, version = version + 1, "
                "last_updated = now() where step_execution_id = $1 and version = 1",
                self._step,
            )
            await self._keep_context(mark)

    async def finish(self) -> None:
        do = self._connection
        await self._change_step("status = 'COMPLETED', exit_code = 'COMPLETED', end_time = now()", 2)
        async with do.transaction():
            await self._keep_context("{}")
        async with do.transaction():
            await do.execute(
                "update batch_job_execution set status = 'COMPLETED', exit_code = 'COMPLETED', end_time = now(), "
                "version = version + 1, last_updated = now() where job_execution_id = $1 and version = 1",
                self._execution,
            )

    async def _change_step(self, change: str, version: int) -> None:
        async with self._connection.transaction():
            await self._connection.execute(
                f"update batch_step_execution set {change}, version = version + 1, last_updated = now() "
                "where step_execution_id = $1 and version = $2",
                self._step,
                version,
            )

    async def _keep_context(self, context: str) -> None:
        statement = "update batch_step_execution_context set short_context = $2 where step_execution_id = $1"
        await self._connection.execute(statement, self._step, context)
