"""Commands that read an archive by its folder alone: no service is needed."""

from __future__ import annotations

import argparse
import sqlite3
import sys
from collections.abc import Callable, Mapping
from pathlib import Path
from typing import Any

from rich.console import Console
from rich.table import Table

from job_host.archive.folder import ArchiveFolder
from job_host.archive.index import Found, Wanted, listed, shown
from job_host.archive.moments import DAY, begin_of_day
from job_host.commands.address import Subcommands
from job_host.commands.jobs import parameter_words, parameters_of
from job_host.commands.options import add_execution, add_parameters, add_utc, positive
from job_host.commands.terminal import (
    clock,
    execution_table,
    folded,
    job_text,
    operation_table,
    plain,
    plain_lines,
    status_text,
)
from job_host.protocol.batch_statuses import STATUSES, UNFINISHED
from job_host.protocol.printable import printable

Told = Mapping[str, Any]
FINISHED = tuple(status for status in STATUSES if status not in UNFINISHED)


def day(text: str) -> int:
    """The moment at which a day begins in UTC."""
    try:
        return begin_of_day(text)
    except ValueError as fault:
        raise argparse.ArgumentTypeError(f"{text!r} is no day, as 2026-11-27") from fault


def add_archive(subcommands: Subcommands[argparse.ArgumentParser]) -> None:
    told = "reads an archive of `jobhost serve --archive`, without a service"
    inner = subcommands.add_parser("archive", help=told, description=told).add_subparsers(required=True, metavar="ACTION")
    parser = add_command(inner, "find", find, "lists archived job executions, the newest first")
    add = parser.add_argument
    add("--job", metavar="JOB", help="shows job executions of this job alone (default: of all jobs)")
    search = "shows those with this part of a job's name, an exit status or the parameters, or with this number (default: all)"
    add("--search", default="", metavar="TEXT", help=search)
    add("--status", choices=FINISHED, help="shows those with this batch status alone (default: with any)")
    add(
        "--from",
        dest="since",
        type=day,
        metavar="DATE",
        help="shows those that were made on this day (UTC) or later (default: all)",
    )
    add(
        "--to",
        dest="until",
        type=day,
        metavar="DATE",
        help="shows those that were made on this day (UTC) or before (default: all)",
    )
    add_parameters(parser, "shows those with this parameter alone; the option may come several times (default: none)")
    add("--count", type=positive, default=50, help="how many are shown at most (default: %(default)s)")
    parser = add_command(inner, "show", show, "shows an archived job execution, who did what to it, and its logs")
    add_execution(parser)
    history = "the history of the job execution (default: the one that was archived last, if several have this number)"
    parser.add_argument("--history", metavar="ID", help=history)


def add_command(
    subcommands: Subcommands[argparse.ArgumentParser], name: str, command: Callable[[argparse.Namespace], int], told: str
) -> argparse.ArgumentParser:
    parser = subcommands.add_parser(name, help=told, description=told)
    parser.add_argument("--archive", type=Path, required=True, metavar="FOLDER", help="the folder of the archive")
    add_utc(parser)
    parser.set_defaults(run=lambda given: run(command, given))
    return parser


def run(command: Callable[[argparse.Namespace], int], given: argparse.Namespace) -> int:
    """Runs a command, and says in one line why it failed."""
    try:
        return command(given)
    except (OSError, ValueError, sqlite3.Error) as fault:
        print(printable(f"jobhost: {fault}"), file=sys.stderr)
        return 1


def find(given: argparse.Namespace) -> int:
    until = None if given.until is None else given.until + DAY
    search = given.search.strip().lower()
    wanted = Wanted(given.job, given.status, given.since, until, search, parameters_of(given.parameter))
    rows, damaged = listed(ArchiveFolder(given.archive), wanted, 0, given.count + 1)
    Console().print(row_table(rows[: given.count], given.utc) if rows else "no archived job execution is so")
    if len(rows) > given.count:
        print(f"there are more than {given.count}: --count shows more")
    for one in damaged:
        print(printable(f"jobhost: {one.lines} damaged lines of {one.file} are passed over"), file=sys.stderr)
    return 0


def row_table(rows: list[dict[str, Any]], in_utc: bool) -> Table:
    table = folded("job execution", "job instance", "job", "status", "exit status", "created", "parameters")
    for one in rows:
        head = [plain(one["executionId"]), plain(one["instanceId"]), plain(job_text(one)), status_text(one["batchStatus"])]
        created = clock(one["createTime"], in_utc)
        table.add_row(*head, plain(one["exitStatus"]), created, plain(one["parameterText"]))
    return table


def show(given: argparse.Namespace) -> int:
    found = shown(ArchiveFolder(given.archive), given.execution, given.history)
    if found is None:
        raise ValueError(f"the archive has no job execution {given.execution}")
    console = Console()
    console.print(execution_table(found.execution, given.utc))
    console.print(operation_table(found.execution["operations"], given.execution, given.utc))
    console.print(plain(f"parameters: {parameter_words(found.execution['jobParameters'])}"), soft_wrap=True)
    console.print(plain(archived_text(found)), soft_wrap=True)
    for log in found.execution["logs"]:
        console.print(plain_lines(f"# work item {log['work']}, {log['stepName']}\n{log['log']}"), soft_wrap=True)
    return 0


def archived_text(found: Found) -> str:
    """When a job execution was archived, for whom, and where it stands."""
    record: Told = found.record
    whom = record["archivedFor"] or "the service"
    where = f"{found.place.file}, byte {found.place.offset}"
    return f"archived {record['archivedTime']} for {whom}, of history {record['history']}: {where}"
