"""The tables in PostgreSQL, and the statement of a round."""

from __future__ import annotations

from job_host.service.stores.notifications import SCHEDULE_MARKS

SCHEMA = """
create table if not exists job_host_leader (
    one boolean primary key default true check (one),
    epoch bigint not null,
    beats bigint not null,
    holder text not null,
    url text not null,
    history uuid not null default gen_random_uuid(),
    first_operation text
);
create table if not exists job_host_catalogue (
    epoch bigint primary key,
    line text not null
);
create table if not exists job_host_operation (
    number bigint primary key,
    epoch bigint not null,
    line text not null,
    reply text not null,
    request_key text
);
create table if not exists job_host_client (
    name text primary key,
    session bigint not null unique
);
create table if not exists job_host_client_heard (
    session bigint primary key,
    heard_at timestamptz not null default now()
);
create table if not exists job_host_request (
    session bigint not null,
    key text not null,
    fingerprint bytea not null,
    reply text not null,
    answers text not null,
    seen bigint not null,
    kept_at timestamptz not null default now(),
    primary key (session, key)
);
create index if not exists job_host_request_kept_at on job_host_request (kept_at);
create table if not exists job_host_work_log (
    work bigint primary key,
    execution bigint not null,
    element text not null,
    partition integer,
    log text not null
);
create index if not exists job_host_work_log_execution on job_host_work_log (execution);
insert into job_host_leader values (true, 0, 0, '', '') on conflict do nothing;
"""

# What an earlier version's tables lack.
HAS_HISTORY = """
select exists (select from pg_attribute where attrelid = to_regclass('job_host_leader') and attname = 'history')
"""
ADD_HISTORY = """
alter table job_host_leader
    add column if not exists history uuid not null default gen_random_uuid(),
    add column if not exists first_operation text
"""
# The table that was added last: if it is there, all are.
NEWEST_TABLE = "job_host_client_heard"

# The second version. A change of a job is never changed itself.
ADD_JOB_CHANGES = """
create table if not exists job_host_job_change (
    number bigint primary key,
    change text not null,
    file bytea,
    settings bytea
)
"""

# The third version. A base has parts, which say in their order what its file is. Who did what before it stands beside it.
ADD_BASES = """
create table if not exists job_host_base (
    number bigint primary key,
    execution bigint not null,
    instance bigint not null,
    work bigint not null,
    rows bigint not null,
    digest text not null,
    made bigint not null,
    parts integer not null,
    history uuid not null
);
create table if not exists job_host_base_part (
    number bigint not null,
    part integer not null,
    bytes bytea not null,
    primary key (number, part)
);
create table if not exists job_host_action (
    operation bigint not null,
    execution bigint not null,
    name text not null,
    session bigint not null,
    moment bigint not null,
    of bigint not null,
    primary key (operation, execution)
);
create index if not exists job_host_action_execution on job_host_action (execution);
"""

# A number that only this package locks, so that two instances don't make the tables at once.
SCHEMA_LOCK = 7_402_118_431

# `to_regclass` wouldn't see a table that another instance made while this one waited for the lock.
HAS_VERSION = "select exists (select from pg_class where relname = 'job_host_version' and pg_table_is_visible(oid))"
VERSION = "select version from job_host_version"
MAKE_VERSION_TABLE = """
create table if not exists job_host_version (one boolean primary key default true check (one), version integer not null)
"""
KEEP_VERSION = """
insert into job_host_version (version) values ($1) on conflict (one) do update set version = excluded.version
"""

# The update finds no row if another epoch stands, and waits for a takeover that is under way. It is a write, so a primary that
# has lost its standby can't answer it. Everything else is written only if it found the row.
ROUND = """
with fence as (
    update job_host_leader set beats = beats + 1, first_operation = coalesce(first_operation, $19::text)
    where epoch = $1 returning epoch
), operation as (
    insert into job_host_operation (
        epoch, number, line, reply, request_key, name, session, moment, execution, job, of, client, token, address)
    select $1, o.*
    from unnest($2::bigint[], $3::text[], $4::text[], $5::text[], $20::text[], $21::bigint[], $22::bigint[], $23::bigint[],
        $24::text[], $25::bigint[], $26::text[], $27::text[], $28::text[]) as o
    where exists (select from fence)
), client as (
    insert into job_host_client (name, session)
    select c.name, c.session from unnest($6::text[], $7::bigint[]) as c(name, session) where exists (select from fence)
    on conflict (name) do update set session = excluded.session
), request as (
    insert into job_host_request (session, key, fingerprint, reply, answers, seen)
    select r.session, r.key, r.fingerprint, r.reply, r.answers, r.seen
    from unnest($8::bigint[], $9::text[], $10::bytea[], $11::text[], $12::text[], $13::bigint[])
        as r(session, key, fingerprint, reply, answers, seen)
    where exists (select from fence)
), work_log as (
    insert into job_host_work_log (work, execution, element, partition, log)
    select w.work, w.execution, w.element, w.partition, w.log
    from unnest($14::bigint[], $15::bigint[], $16::text[], $17::integer[], $18::text[])
        as w(work, execution, element, partition, log)
    where exists (select from fence)
    on conflict (work) do update set log = excluded.log
)
select epoch from fence
"""

# A round that keeps nothing: it only asks whether the epoch stands.
BEAT = "update job_host_leader set beats = beats + 1 where epoch = $1 returning epoch"

TAKE_OVER = """
update job_host_leader set epoch = epoch + 1, beats = 0, holder = $1, url = $2 where epoch = $3 and beats = $4 returning epoch
"""

LEADER = """
select epoch, beats, holder, url, l.history::text,
    (select coalesce(max(b.number), 0) from job_host_base b where b.history = l.history)
from job_host_leader l
"""

# Whether the operations are those of the history in the leader's row, which has a digest of the first one, if there was one.
# That one stays in the table as bases take the place of others.
BEGINNING = """
select first_operation, (select line from job_host_operation where number = 1) as line from job_host_leader
"""
NOTE_FIRST = "update job_host_leader set first_operation = $1"
# Another history: request keys, logs, bases and notifications belong to the one before it. The marks of schedules don't: these
# go by the clock.
BEGIN_HISTORY = f"""
with request as (delete from job_host_request), work_log as (delete from job_host_work_log),
    base as (delete from job_host_base), part as (delete from job_host_base_part), action as (delete from job_host_action),
    notification as (delete from job_host_notification),
    mark as (delete from job_host_mark where not starts_with(name, '{SCHEDULE_MARKS}'))
update job_host_leader set history = gen_random_uuid(), first_operation = $1
"""

# Another epoch of the same leader: the others look at the jobs again.
GROW = "update job_host_leader set epoch = epoch + 1, beats = beats + 1 where epoch = $1 returning epoch"
KEEP_CATALOGUE = "insert into job_host_catalogue (epoch, line) values ($1, $2)"
ADD_CHANGE = """
insert into job_host_job_change (number, change, file, settings)
select coalesce(max(number), 0) + 1, $1::text, $2::bytea, $3::bytea from job_host_job_change
"""

RESIGN = "update job_host_leader set beats = beats + 1, holder = '' where epoch = $1"

# Clients that were heard, and those that were never noted.
HEARD = """
insert into job_host_client_heard (session)
select c.session from job_host_client c left join job_host_client_heard h using (session)
where c.session = any($1::bigint[]) or h.session is null
on conflict (session) do update set heard_at = excluded.heard_at
"""

# Names that weren't heard for so long, and whether they hold a request key. The greatest number stays: the next one is greater.
SILENT = """
select c.name, c.session, exists (select from job_host_request r where r.session = c.session)
from job_host_client c join job_host_client_heard h using (session)
where h.heard_at < now() - make_interval(secs => $1) and c.session < (select max(session) from job_host_client)
"""

LOGS = """
select work, execution, element, partition, log from job_host_work_log
where execution = $1 and ($2::text is null or element = $2) and ($5::text = '' or position(lower($5::text) in lower(log)) > 0)
order by work offset $3 limit $4
"""

LOG_SIZES = """
select work, element, partition, octet_length(log) from job_host_work_log
where execution = $1 and ($2::text is null or element = $2) and ($5::text = '' or position(lower($5::text) in lower(log)) > 0)
order by work offset $3 limit $4
"""

LOG = "select work, execution, element, partition, log from job_host_work_log where work = $1"

LOG_ENDS = """
select work, execution, element, partition, right(log, $1) from job_host_work_log where work = any($2::bigint[])
"""

# A leader that was cut off drops nothing: a later one waits for the row, or has changed it.
DROP_CLIENTS = """
with fence as (
    select epoch from job_host_leader where epoch = $1 for share
), gone as (
    delete from job_host_client c using unnest($2::text[], $3::bigint[]) as g(name, session)
    where c.name = g.name and c.session = g.session and exists (select from fence) returning c.session
)
delete from job_host_client_heard h using gone where h.session = gone.session
"""
