"""Many rows are added by few statements."""

from __future__ import annotations

import sqlite3

import pytest

from job_host.service.stores.sqlite_rows import insert_all


@pytest.mark.parametrize("count", [0, 1, 2, 3, 63, 64, 65, 200])
def test_all_rows_are_added_in_their_order(count: int) -> None:
    connection = sqlite3.connect(":memory:", isolation_level=None)
    connection.execute("create table row (number integer, text text, data blob)")
    statements: list[str] = []
    rows = [(number, f"a{number}\0b", b"\xff\0") for number in range(count)]
    connection.set_trace_callback(statements.append)
    insert_all(connection, "insert into row values {}", rows)
    connection.set_trace_callback(None)
    assert connection.execute("select * from row order by rowid").fetchall() == rows
    assert len(statements) == count // 64 + (count % 64).bit_count()


def test_a_later_row_takes_the_place_of_an_earlier_one() -> None:
    connection = sqlite3.connect(":memory:", isolation_level=None)
    connection.execute("create table client (name text primary key, session integer)")
    insert = "insert into client values {} on conflict (name) do update set session = excluded.session"
    insert_all(connection, insert, [("a", 1), ("b", 2), ("a", 3)])
    assert connection.execute("select * from client order by name").fetchall() == [("a", 3), ("b", 2)]
