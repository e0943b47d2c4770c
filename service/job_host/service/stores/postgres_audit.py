"""Who made which operation, in PostgreSQL: columns of an operation's row, and of the table of what was done before a base."""

from __future__ import annotations

from collections.abc import Awaitable, Callable, Sequence
from dataclasses import asdict
from typing import Any

from job_host.service.history.audited import COLUMNS, Audited, AuditWanted, Did, Origin
from job_host.service.terms.calls import Item

# The fifth version. Rows of an earlier version, and those that its leader adds meanwhile, have no name.
ADD_AUDIT = """
alter table job_host_operation
    add column if not exists name text, add column if not exists session bigint, add column if not exists moment bigint,
    add column if not exists execution bigint, add column if not exists job text, add column if not exists of bigint,
    add column if not exists client text, add column if not exists token text, add column if not exists address text;
create index if not exists job_host_operation_job on job_host_operation (job, number);
create index if not exists job_host_operation_client on job_host_operation (client, number);
create index if not exists job_host_operation_token on job_host_operation (token, number) where token is not null;
create index if not exists job_host_operation_unnamed on job_host_operation (number) where name is null;
alter table job_host_action
    add column if not exists job text, add column if not exists client text,
    add column if not exists token text, add column if not exists address text;
"""

# The first operation stays in its table as bases take the place of others. What is told of it is then told as of those.
BEHIND = "number > (select coalesce(max(b.number), 0) from job_host_base b join job_host_leader l using (history))"
# The client of a session, and the token whose name it begins with.
NAMED = "case when session = 1 then '' else (select c.name from job_host_client c where c.session = o.session) end as client"
TOKEN = "case when position('/' in client) > 0 then split_part(client, '/', 1) end as token"
# Of a row without a name the line and the reply tell most: the service writes a line's first members in this order.
UNNAMED = rf"""
select number, name, session, moment, execution, '' as job, of, client, {TOKEN}, null as address
from (select o.*, {NAMED} from (
    select number, substring(line from '^\{{"do":"([a-z]+)"') as name, substring(line from '"by":([0-9]+)')::bigint as session,
        substring(line from '"at":([0-9]+)')::bigint as moment,
        coalesce(substring(reply from '^\{{"(?:execution|closed)":([0-9]+)'), substring(reply from ',"execution":([0-9]+)'),
            substring(line from '"at":[0-9]+,"execution":([0-9]+)'))::bigint as execution,
        coalesce(substring(reply from '^\{{"execution":([0-9]+)'), substring(reply from ',"work":([0-9]+)'),
            substring(line from '"at":[0-9]+,"(?:work|instance)":([0-9]+)'))::bigint as of
    from job_host_operation where name is null and {BEHIND}) o) n
"""
# What an earlier version kept of what was done before a base has the client's name alone.
DONE = f"""
select number, name, session, moment, execution, job, of, client, coalesce(token, {TOKEN.removesuffix(" as token")}) as token,
    address
from (select operation as number, name, session, moment, execution, job, of, address, token,
    case when o.client is null then {NAMED.removesuffix(" as client")} else o.client end as client
    from job_host_action o where name not in ('start', 'restart') or of = execution) d
"""
# A restart stands in the table of what was done twice: it was done to the job execution that it made, too.
NAMED_ROWS = f"select {COLUMNS} from job_host_operation where name is not null and {BEHIND}"
ARMS = (NAMED_ROWS, UNNAMED, DONE)
# Each arm gives no more rows than the page needs, by an index.
ARM = "(select * from ({arm}) a where {conditions} order by number desc limit $1::bigint + $2::bigint)"
WANTED = f"select {COLUMNS} from ({{arms}}) o order by number desc offset $1::bigint limit $2::bigint"
# Only those that are asked for: so a name is found by its index.
CONDITIONS = {"job": "job = ", "client": "client = ", "token": "token = ", "since": "moment >= ", "until": "moment < "}
ORIGINS = " union all ".join(
    f"select number, client, token, address from ({arm}) a where number = any($1::bigint[])" for arm in ARMS
)

Fetch = Callable[..., Awaitable[list[Any]]]


async def wanted_of(fetch: Fetch, wanted: AuditWanted) -> list[Audited]:
    """The operations that are wanted, the newest first."""
    given = {name: value for name, value in asdict(wanted).items() if name in CONDITIONS and value is not None}
    conditions = " and ".join(["true", *(f"{CONDITIONS[name]}${place}" for place, name in enumerate(given, 3))])
    arms = " union all ".join(ARM.format(arm=arm, conditions=conditions) for arm in ARMS)
    return [Audited.read(row) for row in await fetch(WANTED.format(arms=arms), *wanted.page, *given.values())]


async def origins_of(fetch: Fetch, numbers: Sequence[int]) -> dict[int, Origin]:
    """Who made these operations, as far as it is known."""
    return {row[0]: Origin(*row[1:]) for row in await fetch(ORIGINS, list(numbers))}


def audit_columns(entered: Sequence[Item]) -> list[list[Any]]:
    """The columns of an audit that a round's rows of operations have. No text of PostgreSQL has a NUL."""
    told = [one for item in entered if (one := item.audited()) is not None]
    rows = [(*one.did._replace(job=one.did.job.replace("\0", "\ufffd")), *one.origin) for one in told]
    return [[row[place] for row in rows] for place in range(len(Did._fields) + len(Origin._fields))]
