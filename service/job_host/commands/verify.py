"""The command that verifies a folder of a service with a chain, without a service."""

from __future__ import annotations

import argparse
import re
import sys
import tempfile
from pathlib import Path

from job_host.commands.address import Subcommands
from job_host.commands.program import find_batchctl
from job_host.protocol.printable import printable

HEAD = re.compile(r"([0-9]{1,20}):([0-9a-f]{64})")
# Exit statuses beside 0 and that of refused words.
DIFFERS, CANNOT = 1, 3
STATUS = "the exit status is 0 if all is as it was, 1 if not, 3 if it can't be told"


def head_in(text: str) -> tuple[int, str]:
    """A head, as `jobhost audit --head` tells it."""
    found = HEAD.fullmatch(text)
    if found is None:
        raise argparse.ArgumentTypeError(f"{text!r} is no head, NUMBER:HASH, as `jobhost audit --head` tells it")
    return int(found[1]), found[2]


def add_verify(subcommands: Subcommands[argparse.ArgumentParser]) -> None:
    told = "verifies the log of a service with --chain: names the first operation that was changed, dropped or moved"
    parser = subcommands.add_parser("verify", help=told, description=f"{told}; {STATUS}")
    parser.add_argument("folder", type=Path, metavar="FOLDER", help="the folder of the history, or a copy of it")
    head = (
        "a head that was kept elsewhere, as `jobhost audit --head` told it (default: none, and the chain beside the log counts)"
    )
    parser.add_argument("--head", type=head_in, metavar="NUMBER:HASH", help=head)
    batchctl = "the program batchctl (default: JOBHOST_BATCHCTL, else the path's, else this clone's)"
    parser.add_argument("--batchctl", metavar="PROGRAM", help=batchctl)
    parser.set_defaults(run=run_verify)


def run_verify(given: argparse.Namespace) -> int:
    from job_host.service.history.verified import CannotVerify, Head, verify
    from job_host.service.keepers.embedded import LOG_NAME

    head = None if given.head is None else Head(*given.head)
    try:
        with tempfile.TemporaryDirectory(prefix="jobhost-verify-") as scratch:
            found = verify(given.folder, LOG_NAME, find_batchctl(given.batchctl), head, Path(scratch))
    except (CannotVerify, OSError) as fault:
        print(printable(f"jobhost verify: {fault}"), file=sys.stderr)
        return CANNOT
    for line in found.differences or found.told:
        print(printable(line))
    return DIFFERS if found.differences else 0
