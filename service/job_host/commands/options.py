"""The words of the commands for people, with their help."""

from __future__ import annotations

import argparse
from datetime import datetime, time
from pathlib import Path

from job_host.commands import jobs
from job_host.commands.address import Subcommands, add_address
from job_host.commands.jobs import Command

# 31 years: no clock of the system ends before that.
MOST_SECONDS = 1e9
WAITS = "waits for the end: the exit status is 0 COMPLETED, 3 FAILED, 4 STOPPED, 5 ABANDONED"


def positive(text: str) -> int:
    """A whole number from 1 on."""
    if not text.isascii() or not text.isdigit() or int(text) < 1:
        raise argparse.ArgumentTypeError(f"{text!r} is no whole number from 1 on")
    return int(text)


def seconds(text: str) -> float:
    """A number of seconds from 0 on."""
    try:
        found = float(text)
    except ValueError:
        found = -1.0
    if not 0 <= found <= MOST_SECONDS:
        raise argparse.ArgumentTypeError(f"{text!r} is no number of seconds from 0 to {MOST_SECONDS:.0f}")
    return found


def time_of_day(text: str) -> time:
    """A time of the day, in hours and minutes."""
    try:
        return datetime.strptime(text, "%H:%M").time()
    except ValueError as fault:
        raise argparse.ArgumentTypeError(f"{text!r} is no time of the day, as 03:30") from fault


def add_command(
    subcommands: Subcommands[argparse.ArgumentParser], name: str, command: Command, told: str
) -> argparse.ArgumentParser:
    parser = subcommands.add_parser(name, help=told, description=told)
    add_address(parser)
    parser.set_defaults(run=lambda given: jobs.run(command, given))
    return parser


def add_execution(parser: argparse.ArgumentParser) -> None:
    parser.add_argument("execution", type=int, metavar="EXECUTION", help="the job execution's number")


def add_parameters(parser: argparse.ArgumentParser, told: str) -> None:
    parser.add_argument("--parameter", "-p", action="append", default=[], metavar="NAME=VALUE", help=told)


def add_utc(parser: argparse.ArgumentParser) -> None:
    parser.add_argument("--utc", action="store_true", help="shows times in UTC (default: in this machine's zone)")


def add_start(subcommands: Subcommands[argparse.ArgumentParser]) -> None:
    parser = add_command(subcommands, "start", jobs.start, "starts a job")
    parser.add_argument("job", metavar="JOB", help="the job's name in the catalogue")
    add_parameters(parser, "a parameter; the option may come several times (default: none)")
    keys = parser.add_mutually_exclusive_group()
    second = "a second start tells of the first one's job execution"
    keys.add_argument("--once", action="store_true", help=f"starts the job with these parameters once: {second}")
    keys.add_argument("--key", help=f"starts once by this key: {second} (default: none)")
    parser.add_argument("--wait", action="store_true", help=WAITS)


def add_restart(subcommands: Subcommands[argparse.ArgumentParser]) -> None:
    told = "restarts a job execution that is FAILED or STOPPED, with its parameters"
    parser = add_command(subcommands, "restart", jobs.restart, told)
    add_execution(parser)
    add_parameters(parser, "a parameter to add or to replace; the option may come several times (default: none)")
    parser.add_argument("--no-parameters", action="store_true", help="without the earlier job execution's parameters")
    parser.add_argument("--wait", action="store_true", help=WAITS)


def add_jobs(subcommands: Subcommands[argparse.ArgumentParser]) -> None:
    """Commands that change jobs of a running service, and show their versions."""
    from job_host.commands import job_versions

    told = "changes the jobs of a running service, and shows their versions"
    inner = subcommands.add_parser("jobs", help=told, description=told).add_subparsers(required=True, metavar="ACTION")
    told = "applies files of jobs: each job that is another one than before has a new version"
    parser = add_command(inner, "apply", job_versions.apply, told)
    told = "a folder of job files, or one file (*.xml or *.json), with their settings"
    parser.add_argument("path", type=Path, metavar="FOLDER", help=told)
    parser.add_argument("--check", action="store_true", help="says what would change, and applies nothing")
    told = "withdraws a job: its job executions can be restarted, and nothing is started"
    add_command(inner, "withdraw", job_versions.withdraw, told).add_argument("job", metavar="JOB", help="the job's name")
    parser = add_command(inner, "versions", job_versions.versions, "shows who applied which version of a job, and when")
    parser.add_argument("job", metavar="JOB", help="the job's name")
    add_utc(parser)


def add_changes(subcommands: Subcommands[argparse.ArgumentParser]) -> None:
    add_start(subcommands)
    add_jobs(subcommands)
    add_restart(subcommands)
    parser = add_command(subcommands, "stop", jobs.stop, "asks a job execution to stop")
    add_execution(parser)
    parser.add_argument("--wait", action="store_true", help="waits for the end")
    parser = add_command(subcommands, "abandon", jobs.abandon, "abandons a job execution that is finished")
    add_execution(parser)
    parser = add_command(subcommands, "purge", jobs.purge, "removes a job instance")
    parser.add_argument("instance", type=int, metavar="INSTANCE", help="the job instance's number")
    parser = add_command(subcommands, "lose", jobs.lose, "gives up a work item whose worker is gone: it is FAILED")
    parser.add_argument("work", type=int, metavar="WORK", help="the work item's number")


def add_lists(subcommands: Subcommands[argparse.ArgumentParser]) -> None:
    """Commands that show, and change nothing."""
    from job_host.commands import open_items, shown

    parser = add_command(subcommands, "status", shown.status, "shows a job execution")
    add_execution(parser)
    add_utc(parser)
    parser = add_command(subcommands, "list", shown.list_instances, "shows the newest job instances")
    add_count(parser)
    add_utc(parser)
    parser = add_command(subcommands, "failed", open_items.failed, "says what failed, why, and how it is restarted")
    add_count(parser)
    add_utc(parser)
    told = "says what failed or was stopped, runs long, has a late lease, or waits for a worker"
    parser = add_command(subcommands, "open", open_items.open_items, told)
    add_count(parser)
    add_utc(parser)
    add_utc(add_command(subcommands, "work", shown.show_work, "shows which worker holds which work item since when"))
    parser = add_command(subcommands, "schedule", shown.schedule, "shows what comes next by the schedules of jobs")
    parser.add_argument("--job", metavar="JOB", help="shows this job alone (default: all jobs)")
    parser.add_argument("--count", type=positive, default=20, help="how many starts are shown at most (default: %(default)s)")
    add_utc(parser)
    add_audit(subcommands)
    add_execution(add_command(subcommands, "log", jobs.show_log, "shows the logs of a job execution's work items"))
    parser = add_command(subcommands, "watch", shown.watch, "shows a job execution until its end, or the newest job instances")
    execution = "the job execution's number (default: none, and the newest job instances are shown)"
    parser.add_argument("execution", type=int, nargs="?", metavar="EXECUTION", help=execution)
    add_utc(parser)


def add_audit(subcommands: Subcommands[argparse.ArgumentParser]) -> None:
    from job_host.commands import audit

    told = "shows who did what: each operation by whom, by which token, from where and when, the newest first"
    parser = add_command(subcommands, "audit", audit.audit, told)
    parser.add_argument("--job", metavar="JOB", help="shows operations on this job alone (default: on all)")
    parser.add_argument("--by-client", metavar="NAME", help="shows operations of this client alone (default: of all)")
    parser.add_argument("--by-token", metavar="NAME", help="shows operations by the token of this name alone (default: by all)")
    time = "a day of UTC, as 2026-11-27, or a time with its zone, as 2026-11-27T10:00:00Z"
    parser.add_argument("--since", metavar="TIME", help=f"shows operations from then on: {time} (default: from the first on)")
    head = "shows the last operation of the chain and its hash, to be kept elsewhere for `jobhost verify` (default: operations)"
    parser.add_argument("--head", action="store_true", help=head)
    until = "shows operations up to the end of a day, or before a time"
    parser.add_argument("--until", metavar="TIME", help=f"{until}, written as for --since (default: up to the last)")
    parser.add_argument("--count", type=positive, default=50, help="how many are shown at most (default: %(default)s)")
    add_utc(parser)


def add_count(parser: argparse.ArgumentParser) -> None:
    parser.add_argument("--job", metavar="JOB", help="shows job instances of this job alone (default: of all jobs)")
    parser.add_argument("--count", type=positive, default=50, help="how many are shown at most (default: %(default)s)")
