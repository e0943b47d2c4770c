"""Many rows by few statements: each statement gives up Python's lock and takes it again, for which the event loop waits."""

from __future__ import annotations

import sqlite3
from collections.abc import Sequence
from typing import Any

# A statement has so many rows at most. Fewer are added by halves, so that SQLite's few prepared statements suffice.
MOST_ROWS = 64


def insert_all(connection: sqlite3.Connection, insert: str, rows: Sequence[Sequence[Any]]) -> None:
    """Adds rows in their order. `insert` is a statement up to the word `values`, and with what follows behind a `{}`."""
    place, count = 0, MOST_ROWS
    while place < len(rows):
        while count > len(rows) - place:
            count //= 2
        some = rows[place : place + count]
        row = "(" + ", ".join("?" * len(some[0])) + ")"
        connection.execute(insert.format(", ".join([row] * count)), [value for one in some for value in one])
        place += count
