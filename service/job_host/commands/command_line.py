"""The command `jobhost`."""

from __future__ import annotations

import argparse
import sys
from collections.abc import Sequence
from pathlib import Path
from typing import Any

from job_host.commands.program import find_batchctl
from job_host.protocol.addresses import DEFAULT_PORT
from job_host.protocol.bounds import REQUESTS_AT_ONCE
from job_host.protocol.printable import begin_log, printable
from job_host.service.settings import ServeSettings

# Each busy slot may have a heartbeat and a report in hand.
MOST_SLOTS = REQUESTS_AT_ONCE // 2
# So long `jobhost worker --once` waits for work, if it isn't told for how long.
ONCE_SECONDS = 30.0

Subcommands = argparse._SubParsersAction  # argparse has no public name for it


def add_serve(subcommands: Subcommands[argparse.ArgumentParser]) -> None:
    told = "serves a catalogue's jobs over HTTP"
    parser = subcommands.add_parser("serve", help=told, description=told)
    add = parser.add_argument
    add_jobs(parser)
    data = "the folder of the history, if it isn't in PostgreSQL (default: %(default)s)"
    add("--data", type=Path, default=Path("jobhost-data"), metavar="DIR", help=data)
    postgres = "a PostgreSQL server that may be the primary; the option may come several times (default: none, and --data)"
    add("--postgres", action="append", default=[], metavar="DSN", help=postgres)
    batchctl = "the program batchctl (default: JOBHOST_BATCHCTL, else the path's, else this clone's)"
    add("--batchctl", metavar="PROGRAM", help=batchctl)
    add_listening(parser)
    add_retention(parser)
    add_compaction(parser)
    add_notifications(parser)
    lease = "a work item is lost after so long without a sign of its worker (default: %(default)g)"
    add("--lease", type=float, default=30.0, metavar="SECONDS", help=lease)
    takeover = "over PostgreSQL, this instance takes over after so long without a sign of the leader (default: %(default)g)"
    add("--takeover-after", type=float, default=5.0, metavar="SECONDS", help=takeover)
    parser.set_defaults(run=run_serve)


def add_retention(parser: argparse.ArgumentParser) -> None:
    """When job instances are purged, and where they are kept then."""
    from job_host.commands.options import positive

    over = "purges a job instance so many days after its end, unless it may be restarted (default: none is purged)"
    parser.add_argument("--keep-days", type=positive, metavar="N", help=over)
    failed = "purges a job instance that may be restarted so many days after it was FAILED or STOPPED (default: none is purged)"
    parser.add_argument("--keep-failed-days", type=positive, metavar="N", help=failed)
    archive = "a folder to which all that is told of a job instance is written before its purge (default: none)"
    parser.add_argument("--archive", type=Path, metavar="FOLDER", help=archive)


def add_compaction(parser: argparse.ArgumentParser) -> None:
    """When the history is compacted, and what may be forgotten of one that was."""
    from job_host.commands.options import time_of_day

    at = "compacts the history each day at this local time; over a log calls wait (default: by itself, if it has grown much)"
    parser.add_argument("--compact-at", type=time_of_day, metavar="HH:MM", help=at)
    forget = "goes on though request keys from before a compaction are lost: calls that are made again by them are made twice"
    parser.add_argument("--forget-keys", action="store_true", help=f"{forget} (default: the service names the files, and ends)")
    chain = "chains the operations of the log by their hashes, for `jobhost verify` (default: they aren't chained)"
    parser.add_argument("--chain", action="store_true", help=chain)


def add_notifications(parser: argparse.ArgumentParser) -> None:
    """Who is told of what failed, is late or was lost."""
    notify = (
        "a URL that is told by POST of what failed, is late or was lost, and of a history that is almost full (default: none)"
    )
    parser.add_argument("--notify", default="", metavar="URL", help=notify)
    secret = "the file of the secret that signs what is told; --notify needs it (default: none)"
    parser.add_argument("--notify-secret", type=Path, metavar="FILE", help=secret)
    private = "lets the name in --notify have private addresses (default: only an address there, or localhost, may be private)"
    parser.add_argument("--notify-private", action="store_true", help=private)


def add_jobs(parser: argparse.ArgumentParser) -> None:
    """Where the jobs stand."""
    one = parser.add_mutually_exclusive_group(required=True)
    jobs = "the jobs, as docs/CATALOGUE.md has them (default: none, and --jobs)"
    one.add_argument("--catalogue", type=Path, metavar="FILE", help=jobs)
    folder = "a folder of jobs: each *.xml is a job in JSL, each *.json a job or a catalogue (default: none, and --catalogue)"
    one.add_argument("--jobs", type=Path, metavar="FOLDER", help=folder)
    queues = "a file of JSON that names the queues of the jobs of --jobs, and their bounds (default: none, and one queue alone)"
    parser.add_argument("--queues", type=Path, metavar="FILE", help=queues)
    allow = "a form of JSL to leave out, as of `jobhost catalogue`; the option may come several times (default: none)"
    parser.add_argument("--allow", action="append", default=[], metavar="NAME", help=allow)


def add_listening(parser: argparse.ArgumentParser) -> None:
    """Where the service listens, and who may ask."""
    add = parser.add_argument
    host = "the address to listen on; one that isn't loopback needs tokens and a certificate (default: %(default)s)"
    add("--host", default="127.0.0.1", help=host)
    add("--port", type=int, default=DEFAULT_PORT, help="the port to listen on; 0 means a free one (default: %(default)s)")
    advertise = "the URL at which clients of other instances find this one (default: that of --host and --port)"
    add("--advertise", default="", metavar="URL", help=advertise)
    tokens = "a file with lines of role, name and token (default: none, and everybody on this machine may do everything)"
    add("--tokens", type=Path, metavar="FILE", help=tokens)
    add("--certificate", type=Path, metavar="FILE", help="the certificate for TLS (default: none, and HTTP without TLS)")
    add("--certificate-key", type=Path, metavar="FILE", help="the private key of the certificate (default: none)")


def run_serve(given: argparse.Namespace) -> int:
    from job_host.catalogue.jobs import JobsRefused
    from job_host.catalogue.queues import QueuesRefused
    from job_host.service.http.access import SettingsRefused
    from job_host.service.server import serve

    if (given.allow and not may_allow(given)) or not may_compact(given):
        return 2
    try:
        return serve(serve_settings(given))
    except JobsRefused as refused:
        for line in (*refused.lines, f"jobhost serve: the jobs of {given.jobs} are refused"):
            print(printable(line), file=sys.stderr)
        return 1
    except QueuesRefused as refused:
        for line in refused.lines:
            print(printable(line), file=sys.stderr)
        return 2
    except (SettingsRefused, OSError) as fault:
        print(f"jobhost serve: {fault}", file=sys.stderr)
        return 2


def may_allow(given: argparse.Namespace) -> bool:
    """Whether forms of JSL may be left out: only a folder of jobs may have such."""
    from job_host.catalogue.jsl import REFUSED

    if given.jobs is not None and set(given.allow) <= set(REFUSED):
        return True
    print(f"jobhost serve: --allow NAME is for --jobs, and NAME is one of {', '.join(sorted(REFUSED))}", file=sys.stderr)
    return False


def may_compact(given: argparse.Namespace) -> bool:
    """Whether there is a log, if a word is for one."""
    words = [word for word, is_given in (("--forget-keys", given.forget_keys), ("--chain", given.chain)) if is_given]
    if not given.postgres or not words:
        return True
    print(f"jobhost serve: {words[0]} is for a log, and not for --postgres", file=sys.stderr)
    return False


def serve_settings(given: argparse.Namespace) -> ServeSettings:
    """Raises OSError, and QueuesRefused."""
    from job_host.catalogue.queues import read_queues

    scheme = "https" if given.certificate else "http"
    return ServeSettings(
        catalogue=given.jobs or given.catalogue,
        batchctl=find_batchctl(given.batchctl),
        is_folder=given.jobs is not None,
        allow=tuple(given.allow),
        data=given.data,
        postgres=tuple(given.postgres),
        host=given.host,
        port=given.port,
        advertise=given.advertise or f"{scheme}://{given.host}:{given.port}",
        tokens=given.tokens,
        certificate=given.certificate,
        certificate_key=given.certificate_key,
        lease=given.lease,
        takeover_after=given.takeover_after,
        keep_days=given.keep_days,
        keep_failed_days=given.keep_failed_days,
        archive=given.archive,
        compact_at=given.compact_at,
        forget_keys=given.forget_keys,
        chain=given.chain,
        queues={} if given.queues is None else read_queues(given.queues),
        notify=given.notify,
        notify_secret=given.notify_secret,
        notify_private=given.notify_private,
    )


def add_worker(subcommands: Subcommands[argparse.ArgumentParser]) -> None:
    from job_host.commands.address import OWN_NAME, add_address
    from job_host.commands.options import seconds

    told = "runs work items by the executables of a folder"
    parser = subcommands.add_parser("worker", help=told, description=told)
    add_address(parser, f"{OWN_NAME}, and a mark of this start")
    parser.add_argument("--artifacts", type=Path, required=True, metavar="DIR", help="the folder of executables")
    slots = f"how many work items run at a time, 1 to {MOST_SLOTS} (default: %(default)s)"
    parser.add_argument("--slots", type=int, default=1, metavar="N", help=slots)
    system = "a variable of this environment that jobs may name as a system property; it may come several times (default: none)"
    parser.add_argument("--system-property", action="append", default=[], metavar="NAME", help=system)
    queues = (
        "the queues whose work it runs, in the order in which it looks for some, with commas between them (default: default)"
    )
    parser.add_argument("--queues", default="", metavar="NAMES", help=queues)
    labels = "what it has that queues may want of their workers, with commas between them (default: nothing)"
    parser.add_argument("--labels", default="", metavar="NAMES", help=labels)
    grace = "after SIGTERM or SIGINT its work items have so long to end; what is left is cut off (default: %(default)g)"
    parser.add_argument("--grace", type=seconds, default=30.0, metavar="SECONDS", help=grace)
    once = "runs one work item, and ends: the exit status is 0 if its end was reported, 3 if not, 4 if no work came"
    parser.add_argument("--once", action="store_true", help=once)
    wait = f"with --once, for how long work is waited for (default: {ONCE_SECONDS:g})"
    parser.add_argument("--wait", type=seconds, metavar="SECONDS", help=wait)
    parser.set_defaults(run=run_worker)


def run_worker(given: argparse.Namespace) -> int:
    import asyncio

    from job_host.commands.address import address_of
    from job_host.protocol.client import separated
    from job_host.worker.worker import WorkerSettings, WorkOf, work, worker_address

    begin_log("jobhost worker")
    if not given.artifacts.is_dir() or not 1 <= given.slots <= MOST_SLOTS:
        print(f"jobhost worker: --artifacts is a folder, and --slots 1 to {MOST_SLOTS}", file=sys.stderr)
        return 2
    if (given.once and given.slots != 1) or (given.wait is not None and not given.once):
        print("jobhost worker: --once has one slot, and --wait is for --once", file=sys.stderr)
        return 2
    once = None if not given.once else ONCE_SECONDS if given.wait is None else given.wait
    of = WorkOf(separated(given.queues), separated(given.labels))
    settings = WorkerSettings(given.artifacts.resolve(), given.slots, given.system_property, given.grace, once, of)
    return asyncio.run(work(worker_address(address_of(given), given.client), settings))


class ShowVersion(argparse.Action):
    """Prints the versions, and ends with status 0."""

    def __init__(self, **given: Any) -> None:
        super().__init__(nargs=0, **given)

    def __call__(self, parser: argparse.ArgumentParser, *given: Any) -> None:
        from job_host.commands.versions import batchctl_version, own_version

        print(f"jobhost {own_version()}\n{batchctl_version()}")
        parser.exit()


def add_changes(subcommands: Subcommands[argparse.ArgumentParser]) -> None:
    from job_host.commands import options

    options.add_changes(subcommands)


def add_lists(subcommands: Subcommands[argparse.ArgumentParser]) -> None:
    from job_host.commands import options

    options.add_lists(subcommands)


def add_catalogue(subcommands: Subcommands[argparse.ArgumentParser]) -> None:
    from job_host.commands import catalogue

    catalogue.add_catalogue(subcommands)


def add_verify(subcommands: Subcommands[argparse.ArgumentParser]) -> None:
    from job_host.commands import verify

    verify.add_verify(subcommands)


def add_archive(subcommands: Subcommands[argparse.ArgumentParser]) -> None:
    from job_host.commands import archive

    archive.add_archive(subcommands)


# What adds one command. All others are the client's.
ALONE = {"serve": add_serve, "worker": add_worker, "catalogue": add_catalogue, "archive": add_archive, "verify": add_verify}
ALL = (add_serve, add_worker, add_changes, add_lists, add_catalogue, add_archive, add_verify)


def make_parser(command: str | None = None) -> argparse.ArgumentParser:
    """The words of the command line: of this command alone, or of all. What a command doesn't need isn't loaded with it."""
    parser = argparse.ArgumentParser(prog="jobhost", description="Serves, runs and watches batch jobs over batchctl script.")
    parser.add_argument("--version", action=ShowVersion, help="prints the versions of jobhost and of batchctl")
    subcommands = parser.add_subparsers(required=True, metavar="COMMAND")
    for add in (ALONE[command],) if command in ALONE else ALL:
        if command not in subcommands.choices:
            add(subcommands)
    return parser


def main(arguments: Sequence[str] | None = None) -> int:
    words = sys.argv[1:] if arguments is None else list(arguments)
    given = make_parser(words[0] if words else None).parse_args(words)
    return int(given.run(given))
