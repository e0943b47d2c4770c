"""An index of an archive: an SQLite file beside its files. It may be thrown away: it is made again from them."""

from __future__ import annotations

import json
import os
import re
import sqlite3
from collections.abc import Iterable, Iterator, Mapping, Sequence
from contextlib import closing, contextmanager, suppress
from dataclasses import dataclass, field
from typing import Any, NamedTuple

from job_host.archive.folder import OWN_FILE, ArchiveFolder, Line, Place
from job_host.archive.lines import CHECK_BYTES, read_line
from job_host.archive.moments import milliseconds
from job_host.protocol.parameters import parameter_text

INDEX = "index.sqlite"
# The name by which SQLite makes a file of its own, which ends with its connection: an archive may have more than memory holds.
TEMPORARY = ""
VERSION = 1
BUSY_SECONDS = 60.0
# The greatest number of SQLite, and what a number of a search looks like.
MOST_NUMBER = 2**63 - 1
NUMBER = re.compile("[0-9]{1,18}")
# So much of the parameters is searched and listed.
PARAMETER_CHARACTERS = 1_000
# So many lines are entered in one transaction, or so many bytes: a line may have megabytes of logs.
LINES_AT_ONCE = 1_000
BYTES_AT_ONCE = 16_777_216

TABLES = """
create table if not exists file (name text primary key, size integer not null, tail blob not null, damaged integer not null);
create table if not exists execution (
    history text not null,
    execution integer not null,
    instance integer not null,
    job text not null,
    status text not null,
    exit text,
    created integer not null,
    archived integer not null,
    row text not null,
    searched text not null,
    parameters text not null,
    file text not null,
    offset integer not null,
    length integer not null,
    primary key (history, execution)
);
create index if not exists execution_number on execution (execution);
create index if not exists execution_created on execution (created);
create index if not exists execution_job on execution (job, created);
create index if not exists execution_status on execution (status, created);
"""
# A job execution that was archived twice stands there as it was archived last.
ENTER = """
insert into execution values (?, ?, ?, ?, ?, ?, ?, ?, ?, ?, ?, ?, ?, ?) on conflict (history, execution) do update set
    instance = excluded.instance, job = excluded.job, status = excluded.status, exit = excluded.exit,
    created = excluded.created, archived = excluded.archived, row = excluded.row, searched = excluded.searched,
    parameters = excluded.parameters, file = excluded.file, offset = excluded.offset, length = excluded.length
where excluded.archived >= execution.archived
"""
# Of a job execution that stands there for two histories, the one that was archived last.
ONE = """
select history, file, offset, length from execution where execution = :execution and (:history is null or history = :history)
order by archived desc limit 1
"""
IS_FOUND = "(instr(searched, ?) > 0 or execution = ? or instance = ?)"
HAS_PARAMETER = "exists (select 1 from json_each(execution.parameters) where key = ? and value = ?)"
# Of the record of a job instance: when it was archived, for whom, and of which history it is.
ORIGIN = ("archivedTime", "archivedFor", "history")
# Members of a row of a list, as a job execution has them.
ROW = ("jobName", "version", "executionId", "instanceId", "batchStatus", "exitStatus", "createTime", "startTime", "endTime")


@dataclass(frozen=True)
class Wanted:
    """A filter. `since` and `until` are moments in milliseconds: a job execution was made at the first one or later, and before
    the other one. `search` is in lower case: a part of a job's name, of an exit status or of the parameters, or a number.
    """

    job: str | None = None
    status: str | None = None
    since: int | None = None
    until: int | None = None
    search: str = ""
    parameters: Mapping[str, str] = field(default_factory=dict)

    def condition(self) -> tuple[str, list[Any]]:
        """The words of a statement, and their values."""
        bounds = [("job = ?", self.job), ("status = ?", self.status), ("created >= ?", self.since), ("created < ?", self.until)]
        given = [(words, [value]) for words, value in bounds if value is not None]
        given += [(HAS_PARAMETER, [name, value]) for name, value in self.parameters.items()]
        if self.search:
            number = int(self.search) if NUMBER.fullmatch(self.search) else -1
            given.append((IS_FOUND, [self.search, number, number]))
        words = " and ".join(words for words, _ in given) or "true"
        return words, [value for _, values in given for value in values]


class Found(NamedTuple):
    """A job execution of the archive with all that was told of it, and its job instance's record."""

    execution: dict[str, Any]
    record: dict[str, Any]
    place: Place


class Located(NamedTuple):
    """Where a job execution stands, and its row of a list."""

    row: dict[str, Any]
    place: Place


class Entered(NamedTuple):
    """A file as far as its lines were entered, and how many of them are damaged."""

    name: str
    size: int
    tail: bytes
    damaged: int


class Damaged(NamedTuple):
    """How many lines of a file are damaged, or cut off."""

    file: str
    lines: int


class ArchiveIndex:
    """An index that is open. Each read first enters what was appended since."""

    def __init__(self, folder: ArchiveFolder, connection: sqlite3.Connection) -> None:
        self._folder = folder
        self._connection = connection

    def bring_on(self) -> None:
        """Enters what the files have more than the index. If a file isn't the one that was entered, all is entered anew."""
        sizes = {name: (self._folder.path / name).stat().st_size for name in self._folder.files()}
        if not all(self._is_so(one, sizes) for one in self._entered()):
            self._forget()
        known = {one.name: one.size for one in self._entered()}
        for name, size in sizes.items():
            if size > known.get(name, 0):
                self._enter_file(name, size)

    def _entered(self) -> list[Entered]:
        return [Entered(*row) for row in self._connection.execute("select name, size, tail, damaged from file")]

    def _is_so(self, one: Entered, sizes: Mapping[str, int]) -> bool:
        """Whether a file still has what was entered: as long as it hasn't grown, its size says so, else the last line does."""
        size = sizes.get(one.name, -1)
        return size == one.size or (size > one.size and self._tail(one.name, one.size) == one.tail)

    def _tail(self, name: str, size: int) -> bytes:
        """What stands at the end of the last line that was entered."""
        length = min(size, CHECK_BYTES)
        return self._folder.text_at(Place(name, size - length, length))

    def _forget(self) -> None:
        with self._transaction():
            self._connection.execute("delete from execution")
            self._connection.execute("delete from file")

    @contextmanager
    def _transaction(self) -> Iterator[None]:
        with self._connection:
            self._connection.execute("begin immediate")
            yield

    def _enter_file(self, name: str, size: int) -> None:
        """Enters the lines of a file behind those that were entered, up to a size. Another program may do so at the same time.

        Raises NoArchive if the archive is closed meanwhile.
        """
        before, entered = -1, 0
        while before < entered < size:
            self._folder.check_open()
            with self._transaction():
                row = self._connection.execute("select size, damaged from file where name = ?", (name,)).fetchone()
                before, damaged = row or (0, 0)
                entered = self._enter_some(name, before, damaged)

    def _enter_some(self, name: str, begin: int, damaged: int) -> int:
        """Enters some lines behind so many bytes, one after the other. Returns where the last one ends."""
        end = begin
        for line in some_of(self._folder.lines(name, begin)):
            damaged += not self._enter(name, line)
            end = line.offset + len(line.text)
        if end > begin:
            row = (name, end, self._tail(name, end), damaged)
            self._connection.execute("insert or replace into file values (?, ?, ?, ?)", row)
        return end

    def _enter(self, name: str, line: Line) -> bool:
        """Enters the job executions of a line. Returns whether it has some: else it is damaged."""
        record = read_line(line.text)
        if record is None:
            return False
        try:
            place = Place(name, line.offset, len(line.text))
            rows = [row_of(record, one, place) for one in record["jobExecutions"]]
        except (KeyError, TypeError, ValueError):
            return False
        self._connection.executemany(ENTER, rows)
        return True

    def damaged(self) -> list[Damaged]:
        rows = self._connection.execute("select name, damaged from file where damaged > 0 order by length(name), name")
        return [Damaged(*row) for row in rows]

    def find(self, wanted: Wanted, start: int, count: int) -> list[dict[str, Any]]:
        """Rows of job executions, the newest first, each with its file and its place there."""
        condition, values = wanted.condition()
        order = "order by created desc, execution desc, history limit ? offset ?"
        words = f"select row, file, offset from execution where {condition} {order}"
        rows = self._connection.execute(words, [*values, count, start])
        return [{**json.loads(row), "file": file, "offset": offset} for row, file, offset in rows]

    def located(self, number: int, history: str) -> Located | None:
        """Where a job execution of this history stands, without a look at its line."""
        words = "select row, file, offset, length from execution where execution = ? and history = ?"
        row = self._connection.execute(words, (min(number, MOST_NUMBER), history)).fetchone()
        return None if row is None else Located(json.loads(row[0]), Place(*row[1:]))

    def execution(self, number: int, history: str | None = None) -> Found | None:
        """A job execution by its number, of this history or of the one that was archived last."""
        if number > MOST_NUMBER:
            return None
        for _ in range(2):
            row = self._connection.execute(ONE, {"execution": number, "history": history}).fetchone()
            if row is None:
                return None
            found = self._found(number, row[0], Place(*row[1:]))
            if found is not None:
                return found
            # The file isn't the one that was entered.
            self._forget()
            self.bring_on()
        return None

    def _found(self, number: int, history: str, place: Place) -> Found | None:
        record = read_line(self._folder.text_at(place))
        if record is None or record.get("history") != history:
            return None
        executions = [one for one in record["jobExecutions"] if one["executionId"] == number]
        return Found(executions[0], record, place) if executions else None


def some_of(lines: Iterable[Line]) -> Iterator[Line]:
    """As many lines as are entered in one transaction."""
    size = 0
    for number, line in enumerate(lines, 1):
        yield line
        size += len(line.text)
        if number >= LINES_AT_ONCE or size >= BYTES_AT_ONCE:
            return


def row_of(record: Mapping[str, Any], one: Mapping[str, Any], place: Place) -> tuple[Any, ...]:
    """The index's row of a job execution. Raises KeyError, TypeError or ValueError if a member is missing or another one."""
    shown = {name: one[name] for name in ROW if name in one}
    parameters = parameter_text(one["jobParameters"], PARAMETER_CHARACTERS)
    searched = "\n".join([one["jobName"], one["exitStatus"] or "", parameters]).lower()
    told = {**shown, "parameterText": parameters, **{name: record[name] for name in ORIGIN}}
    head = (record["history"], one["executionId"], one["instanceId"], one["jobName"], one["batchStatus"], one["exitStatus"])
    texts = (json.dumps(told), searched, json.dumps(one["jobParameters"]))
    return (*head, milliseconds(one["createTime"]), milliseconds(record["archivedTime"]), *texts, *place)


def connect(file: str) -> sqlite3.Connection:
    """The index's file, with its tables, which is its owner's alone. Raises sqlite3.Error, and OSError if it can't be made."""
    if file != TEMPORARY and not os.path.exists(file):
        os.close(os.open(file, os.O_RDWR | os.O_CREAT, OWN_FILE))
    connection = sqlite3.connect(file, timeout=BUSY_SECONDS, isolation_level=None)
    try:
        version = connection.execute("pragma user_version").fetchone()[0]
        if version == 0:
            connection.executescript(f"{TABLES}; pragma user_version = {VERSION}")
        elif version != VERSION:
            raise sqlite3.DatabaseError(f"version {version}")
    except BaseException:
        connection.close()
        raise
    return connection


def is_damaged(fault: Exception) -> bool:
    return isinstance(fault, sqlite3.DatabaseError) and not isinstance(fault, sqlite3.OperationalError)


@contextmanager
def opened(folder: ArchiveFolder) -> Iterator[ArchiveIndex]:
    """The index of an archive, with all that the archive has. If its file can't be written, another one is made for once.

    Raises OSError, and NoArchive if the folder is none.
    """
    folder.check()
    with closing(connection_of(folder, str(folder.path / INDEX))) as connection:
        yield ArchiveIndex(folder, connection)


def connection_of(folder: ArchiveFolder, file: str) -> sqlite3.Connection:
    """An index that has all that the archive has. One that is damaged is thrown away, and made again."""
    for place in (file, file, TEMPORARY):
        try:
            connection = connect(place)
        except (sqlite3.Error, OSError) as fault:
            throw_away(place, fault)
            continue
        try:
            ArchiveIndex(folder, connection).bring_on()
            return connection
        except sqlite3.Error as fault:
            connection.close()
            throw_away(place, fault)
        except BaseException:
            connection.close()
            raise
    raise OSError(f"{file} can't be read")


def throw_away(file: str, fault: Exception) -> None:
    """Removes a file that is damaged. One that can't be read or written stays."""
    if is_damaged(fault) and file != TEMPORARY:
        with suppress(OSError):
            os.unlink(file)


def listed(folder: ArchiveFolder, wanted: Wanted, start: int, count: int) -> tuple[list[dict[str, Any]], Sequence[Damaged]]:
    """Rows of job executions, the newest first, and which files have damaged lines."""
    with opened(folder) as index:
        return index.find(wanted, start, count), index.damaged()


def located(folder: ArchiveFolder, execution: int, history: str) -> Located | None:
    """Where an archive has a job execution of this history."""
    with opened(folder) as index:
        return index.located(execution, history)


def shown(folder: ArchiveFolder, execution: int, history: str | None = None) -> Found | None:
    """A job execution of an archive."""
    with opened(folder) as index:
        return index.execution(execution, history)
