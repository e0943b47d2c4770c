"""Who did what: each operation with its client, its token and its address, as the service keeps it and tells it."""

from __future__ import annotations

import sqlite3
from collections.abc import Callable
from contextlib import closing
from pathlib import Path
from typing import Any

import asyncpg
import pytest
from aiohttp.test_utils import make_mocked_request
from based import compact as compact_log
from conftest import Say
from instances import Caller, Instance, running
from kept import engine_of, until_epoch
from postgres_bases import compact as compact_tables

from job_host.service.history.audited import Audited, AuditWanted, Did, MadeJobs, Origin, token_of
from job_host.service.history.log_file import Head, KnownBase
from job_host.service.history.numbers import Numbers
from job_host.service.http import requests
from job_host.service.keepers.embedded import LOG_NAME
from job_host.service.pages import Page
from job_host.service.settings import ServeSettings
from job_host.service.stores import sqlite_schema
from job_host.service.stores.beside_files import STORE_NAME
from job_host.service.stores.sqlite import Notes, SqliteStore
from job_host.service.stores.sqlite_audit import wanted_in

Make = Callable[..., ServeSettings]

# Roles of tokens, by their names.
TOKENS = {"reader": "desk", "operator": "ops", "worker": "farm"}
HERE = "127.0.0.1"
SEEN = ("action", "client", "token", "address", "executionId", "jobName", "made", "instanceId", "work")
ANNA, FARM = ("ops/anna", "ops", HERE), ("farm/one", "farm", HERE)
NIGHT = [
    ("start", *ANNA, 1, "short", 1, None, None),
    ("claim", *FARM, 1, "short", None, None, 1),
    ("finish", *FARM, 1, "short", None, None, 1),
    ("restart", *ANNA, 2, "short", 2, None, None),
    ("start", *ANNA, 3, "wide", 3, None, None),
    ("stop", *ANNA, 2, "short", None, None, None),
    ("claim", *FARM, 3, "wide", None, None, 2),
    ("claim", *FARM, 3, "wide", None, None, 3),
    ("lose", "farm/two", "farm", HERE, 3, "wide", None, None, 2),
]
# Of those before a base, what was done to job executions.
DONE = [NIGHT[place] for place in (0, 3, 4, 5, 8)]


@pytest.fixture
def tokens(tmp_path: Path) -> Path:
    path = tmp_path / "tokens"
    path.write_text("".join(f"{role} {name} {name}-0123456789abcdef\n" for role, name in TOKENS.items()))
    return path


def caller(instance: Instance, token: str, client: str = "anna") -> Caller:
    return Caller(instance.url, client, f"{token}-0123456789abcdef")


async def make_night(instance: Instance) -> None:
    """Nine operations. Two have no request key, and the last is one by another client of the worker's token."""
    ops, farm = caller(instance, "ops"), caller(instance, "farm", "one")
    await ops.start("short", key="a")
    await farm.claim(key="b")
    await farm.finish(1, "FAILED")
    await ops.change(1, "restart")
    await ops.start("wide", key="c")
    await ops.change(2, "stop")
    await farm.claim(key="d")
    await farm.claim(key="e")
    await caller(instance, "farm", "two").ask("PUT", "/batch/work/2?action=lose", key="f")


async def audit(instance: Instance, words: str = "") -> list[dict[str, Any]]:
    answer = await caller(instance, "desk").ask("GET", f"/batch/audit{words}")
    assert answer.status == 200, answer.told
    return list(answer.told)


def seen(rows: list[dict[str, Any]]) -> list[tuple[Any, ...]]:
    """What rows tell, the oldest first, but for numbers and times."""
    return [tuple(row[name] for name in SEEN) for row in reversed(rows)]


async def test_each_operation_says_who_by_which_token_and_from_where(either: Make, tokens: Path) -> None:
    made = either(tokens=tokens)
    async with running(made) as instance:
        await make_night(instance)
        rows = await audit(instance)
        assert seen(rows) == NIGHT
        assert [row["operation"] for row in rows] == list(range(9, 0, -1))
        times = [row["time"] for row in reversed(rows)]
        assert times == sorted(times) and all(time.endswith("+0000") for time in times)
        told = (await caller(instance, "desk").ask("GET", "/batch/jobexecutions/2/operations")).told
        assert [(row["action"], row["client"], row["token"], row["address"]) for row in told] == [
            ("stop", *ANNA),
            ("restart", *ANNA),
        ]
    async with running(made) as instance:
        assert await audit(instance) == rows


async def test_filters_take_what_they_say_and_pages_follow_one_another(either: Make, tokens: Path) -> None:
    async with running(either(tokens=tokens)) as instance:
        await make_night(instance)
        rows = await audit(instance)
        for words, wanted in (
            ("?jobName=wide", [9, 8, 7, 5]),
            ("?client=farm/two", [9]),
            ("?token=ops", [6, 5, 4, 1]),
            ("?token=ops&jobName=wide&client=ops/anna", [5]),
            ("?token=farm&client=ops/anna", []),
            ("?jobName=none", []),
            ("?token=", []),
        ):
            assert [row["operation"] for row in await audit(instance, words)] == wanted, words
        pages = [await audit(instance, f"?page={page}&pageSize=4") for page in range(4)]
        assert [len(page) for page in pages] == [4, 4, 1, 0] and sum(pages, []) == rows


def iso(time: str) -> str:
    """A told moment as a query has it."""
    day, clock, _ = time.split(" ")
    return f"{day.replace('/', '-')}T{clock}Z"


async def test_times_narrow_to_the_millisecond(either: Make, tokens: Path) -> None:
    async with running(either(tokens=tokens)) as instance:
        await make_night(instance)
        rows = await audit(instance)
        middle = rows[4]["time"]
        since = [row for row in rows if row["time"] >= middle]
        assert await audit(instance, f"?from={iso(middle)}") == since
        assert await audit(instance, f"?until={iso(middle)}") == [row for row in rows if row["time"] < middle]
        day = middle.split(" ")[0].replace("/", "-")
        last = rows[0]["time"].split(" ")[0].replace("/", "-")
        assert await audit(instance, f"?from={day}&until={last}") == [row for row in rows if iso(row["time"]) >= day]
        assert await audit(instance, "?until=1999-12-31") == await audit(instance, "?from=9999-01-01T00:00:00%2B05:00") == []


BAD_TIME = "is a day, as 2026-11-27, or a time with its zone, as 2026-11-27T10:00:00Z"


@pytest.mark.parametrize(
    ("words", "told"),
    [
        ("?from=yesterday", f"from {BAD_TIME}"),
        ("?until=2026-11-27T10:00:00", f"until {BAD_TIME}"),
        ("?from=2026-02-30", f"from {BAD_TIME}"),
        ("?client=a%00b", "client is a name, and has no NUL"),
        ("?job=short", 'the query has words that aren\'t known here: ["job"]'),
        ("?token=a&token=b", "token comes more than once"),
        ("?pageSize=1001", "a page has 1 to 1000 rows, and begins within the first 1000000"),
    ],
)
async def test_a_bad_query_gets_the_exact_error(embedded: Make, words: str, told: str) -> None:
    async with running(embedded()) as instance:
        answer = await Caller(instance.url).ask("GET", f"/batch/audit{words}")
        assert (answer.status, answer.name, answer.told["detail"]) == (400, "BadRequest", told)


async def test_an_audit_needs_a_token_with_the_right_to_read(
    embedded: Make, tokens: Path, monkeypatch: pytest.MonkeyPatch
) -> None:
    async with running(embedded(tokens=tokens)) as instance:
        assert (await Caller(instance.url).ask("GET", "/batch/audit")).status == 401
        for token in TOKENS.values():
            assert (await caller(instance, token).ask("GET", "/batch/audit")).status == 200
        access = instance.service.access
        monkeypatch.setattr(access, "caller", lambda request: access_without_read())
        answer = await caller(instance, "desk").ask("GET", "/batch/audit")
        assert (answer.status, answer.name) == (403, "RoleLacksRight")


def access_without_read() -> Any:
    from job_host.service.http.access import Caller as Allowed

    return Allowed("desk/", frozenset({"work"}))


async def test_what_a_base_replaces_is_kept_with_what_was_done(based: Make, tokens: Path) -> None:
    made = based(tokens=tokens)
    async with running(made) as instance:
        await make_night(instance)
        before = (await caller(instance, "desk").ask("GET", "/batch/jobexecutions/2/operations")).told
        await (compact_tables if made.postgres else compact_log)(instance)
        assert seen(await audit(instance)) == DONE
        await caller(instance, "ops", "bert").change(3, "stop")
        stopped = ("stop", "ops/bert", "ops", HERE, 3, "wide", None, None, None)
        assert seen(await audit(instance)) == [*DONE, stopped]
        assert seen(await audit(instance, "?jobName=short&token=ops")) == [DONE[0], DONE[1], DONE[3]]
    async with running(made) as instance:
        assert seen(await audit(instance)) == [*DONE, stopped]
        assert (await caller(instance, "desk").ask("GET", "/batch/jobexecutions/2/operations")).told == before
        await caller(instance, "ops").ask("DELETE", "/batch/jobinstances/1")
        purged = ("purge", *ANNA, 2, "short", None, 1, None)
        assert seen(await audit(instance))[-1] == purged


def test_rows_before_a_base_are_dropped_some_at_a_time(tmp_path: Path) -> None:
    """They aren't told of before that, and those behind it stay."""
    store = SqliteStore(tmp_path / STORE_NAME)
    did = Did("claim", 2, 10, 1, "short", 1)
    store.note(Notes(operations=[Audited(number, did, Origin("one")) for number in range(1, 8)]))
    store.note_base(KnownBase(Head(5, 1, 1, 1, 0), "digest", 0), 2)
    wanted = AuditWanted(Page(0, 50))
    assert [one.number for one in wanted_in(tmp_path / STORE_NAME, wanted)] == [7, 6]
    assert list(store.audit.origins([4, 5, 6])) == [6]
    assert [store.audit.drop_based(2) for _ in range(4)] == [True, True, False, False]
    with closing(sqlite3.connect(tmp_path / STORE_NAME)) as beside:
        assert beside.execute("select group_concat(number) from operation").fetchone() == ("6,7",)
    store.close()


async def test_a_file_that_is_lost_is_read_out_of_the_log(embedded: Make, tokens: Path) -> None:
    made = embedded(tokens=tokens)
    async with running(made) as instance:
        await make_night(instance)
        rows = await audit(instance)
    (made.data / STORE_NAME).unlink()
    async with running(made) as instance:
        assert await audit(instance) == rows


async def test_a_file_that_is_lost_while_the_service_goes_on_is_read_out_of_the_log(embedded: Make, tokens: Path) -> None:
    """The engine that goes on has forgotten what those operations did, so the log is replayed."""
    made = embedded(tokens=tokens)
    async with running(made) as instance:
        await make_night(instance)
        rows = await audit(instance)
        with closing(sqlite3.connect(made.data / STORE_NAME, isolation_level=None)) as beside:
            beside.executescript("delete from noted; delete from operation")
        engine_of(instance).process.kill()
        await until_epoch(instance, 2)
        assert await audit(instance) == rows


async def test_a_log_and_a_file_of_an_earlier_version_still_open(
    embedded: Make, tokens: Path, monkeypatch: pytest.MonkeyPatch
) -> None:
    """Its tags have no address, and only a session's first line names it. The keys are found, and the rest is told of."""
    made = embedded(tokens=tokens)
    with monkeypatch.context() as patch:
        patch.setattr(requests, "address_of", lambda request: "")
        async with running(made) as instance:
            await make_night(instance)
    earlier_file(made.data / STORE_NAME)
    earlier = [(*row[:3], None, *row[4:]) for row in NIGHT]
    async with running(made) as instance:
        assert seen(await audit(instance)) == earlier
        again = await caller(instance, "ops").start("wide", key="c")
        assert (again.told["executionId"], again.operations) == (3, 5)
        await caller(instance, "ops").change(3, "stop", key="g")
        assert seen(await audit(instance))[9:] == [("stop", *ANNA, 3, "wide", None, None, None)]
    # The earlier lines stand as they were, and the last one has the second form.
    kept = (made.data / LOG_NAME).read_bytes()
    assert kept.count(b"=127.0.0.1\t") == 1


def earlier_file(path: Path) -> None:
    """Takes away from a file what the fifth version has added."""
    with closing(sqlite3.connect(path, isolation_level=None)) as beside:
        beside.executescript("drop table operation; drop table action_origin; pragma user_version = 4")


def test_the_actions_of_an_earlier_file_get_their_clients(tmp_path: Path) -> None:
    path = tmp_path / STORE_NAME
    SqliteStore(path).close()
    earlier_file(path)
    with closing(sqlite3.connect(path, isolation_level=None)) as beside:
        beside.executescript(
            """
            insert into client values ('ops/anna', 2), ('old', 3);
            insert into action values (1, 4, 'start', 2, 10, 1), (1, 5, 'stop', 3, 11, 0), (1, 6, 'lose', 1, 12, 7),
                (2, 8, 'start', 9, 13, 2);
            insert into base values (8, 'digest', 9);
            """
        )
    store = SqliteStore(path)
    store.audit.fill_jobs(lambda execution: f"job {execution}")
    assert store.audit.origins([4, 5, 6, 8]) == {
        4: Origin("ops/anna", "ops", None),
        5: Origin("old", None, None),
        6: Origin("", None, None),
        8: Origin(None, None, None),
    }
    store.close()
    with closing(sqlite3.connect(path)) as beside:
        assert beside.execute("select group_concat(job) from action_origin").fetchone() == ("job 1,job 1,job 1,job 2",)
        assert sqlite_schema.version_of(beside) == 5


async def test_rows_of_an_earlier_version_in_postgres_tell_what_they_can(settings: Make, tokens: Path) -> None:
    made = settings(tokens=tokens)
    unknown = ", ".join(f"{name} = null" for name in ("name", "session", "moment", "execution", "job", "of", "client", "token"))
    async with running(made) as instance:
        await make_night(instance)
        rows = await audit(instance)
        table = await asyncpg.connect(made.postgres[0])
        await table.execute(f"update job_host_operation set {unknown}, address = null where number < 9")
        await table.close()
        earlier = await audit(instance)
        assert earlier[0] == rows[0] and [row["time"] for row in earlier] == [row["time"] for row in rows]
        for row, one in zip(rows[1:], earlier[1:], strict=True):
            # Nothing but a claim says which job execution a work item is of.
            lost = ("address", "jobName", *(("executionId",) if row["action"] == "finish" else ()))
            assert one == {**row, **dict.fromkeys(lost)}
        assert [row["operation"] for row in await audit(instance, "?client=ops/anna&token=ops")] == [6, 5, 4, 1]
        told = (await caller(instance, "desk").ask("GET", "/batch/jobexecutions/2/operations")).told
        assert [(row["client"], row["token"], row["address"]) for row in told] == [("ops/anna", "ops", None)] * 2


@pytest.mark.parametrize(
    ("remote", "address"),
    [
        ("10.1.2.3", "10.1.2.3"),
        ("::ffff:10.1.2.3", "10.1.2.3"),
        ("2001:DB8::0:1", "2001:db8::1"),
        ("fe80::1%eth0", "fe80::1"),
        (None, ""),
        ("somewhere", ""),
    ],
)
def test_an_address_is_the_connections_and_no_headers(remote: str | None, address: str) -> None:
    request = make_mocked_request("GET", "/", headers={"X-Forwarded-For": "8.8.8.8", "Forwarded": "for=8.8.8.8"})
    assert requests.address_of(request.clone(remote=remote)) == address  # type: ignore[arg-type]


def test_a_token_is_what_stands_before_a_stroke() -> None:
    assert [token_of(name) for name in ("ops/anna", "anna", "", "(schedule)")] == ["ops", None, None, None]


def test_the_job_of_each_job_execution_is_known() -> None:
    numbers = Numbers()
    numbers.begin([2, 5], 8)
    jobs = MadeJobs(numbers)
    jobs.begin(["short", "wide"])
    jobs.note(9, "short")
    jobs.note(11, "nightly")
    assert [jobs.of(one) for one in (2, 5, 9, 10, 11, 12)] == ["short", "wide", "short", "", "nightly", ""]


async def test_the_command_shows_the_same_with_the_same_filters(
    either: Make, tokens: Path, tmp_path: Path, say: Say, monkeypatch: pytest.MonkeyPatch
) -> None:
    monkeypatch.setenv("COLUMNS", "160")
    file = tmp_path / "desk"
    file.write_text("desk-0123456789abcdef\n")
    async with running(either(tokens=tokens)) as instance:
        await make_night(instance)
        words = ("--token", str(file), "--utc")
        status, told = await say(instance.url, "audit", *words, "--by-token", "farm", "--job", "wide")
        assert status == 0 and "farm/two" in told and "work item 2" in told and "ops" not in told
        assert [line.split()[1] for line in told.splitlines() if line.startswith("│")] == ["9", "8", "7"]
        status, told = await say(instance.url, "audit", *words, "--count", "2")
        assert [line.split()[1] for line in told.splitlines() if line.startswith("│")] == ["9", "8"]
        assert await say(instance.url, "audit", *words, "--until", "1999-01-01") == (0, "no operation is told of\n")
        status, told = await say(instance.url, "audit", *words, "--since", "noon")
        assert status == 1 and f"from {BAD_TIME}" in told
        status, told = await say(instance.url, "status", "2", *words)
        assert status == 0 and "ops/anna" in told and HERE in told
