"""Marks and notifications in the SQLite file."""

from __future__ import annotations

import sqlite3
from collections.abc import Mapping, Sequence

from job_host.service.stores.notifications import SCHEDULE_MARKS, NewNotification, Notification

ADD = "insert or ignore into notification (id, execution, body) values (?, ?, ?)"
MARK = "insert into mark values (?, ?) on conflict (name) do update set value = excluded.value"
DUE = """
select number, id, body, attempts from notification as one where due <= ? and not exists (
    select 1 from notification as earlier where earlier.execution = one.execution and earlier.number < one.number
) order by number limit ?
"""


class NotificationTable:
    """The tables over the connection of a store, for its thread. Each call is on the disk when it returns."""

    def __init__(self, connection: sqlite3.Connection) -> None:
        self._connection = connection

    def marks(self) -> dict[str, int]:
        return dict(self._connection.execute("select name, value from mark"))

    def scheduled(self) -> dict[str, int]:
        """The marks up to which moments jobs were started by their schedules."""
        return {name: value for name, value in self.marks().items() if name.startswith(SCHEDULE_MARKS)}

    def add(self, notifications: Sequence[NewNotification], marks: Mapping[str, int]) -> None:
        with self._connection:
            self._connection.execute("begin")
            self._connection.executemany(ADD, notifications)
            self._connection.executemany(MARK, marks.items())

    def count(self) -> int:
        return int(self._connection.execute("select count(*) from notification").fetchone()[0])

    def due(self, now: int, most: int) -> list[Notification]:
        return [Notification(*row) for row in self._connection.execute(DUE, (now, most))]

    def drop(self, number: int) -> None:
        self._connection.execute("delete from notification where number = ?", (number,))

    def postpone(self, number: int, due: int) -> None:
        self._connection.execute("update notification set attempts = attempts + 1, due = ? where number = ?", (due, number))
