"""The client's command that tells who did what: each kept operation, by whom, by which token, from where, and when."""

from __future__ import annotations

import argparse
from collections.abc import Mapping
from typing import Any

from rich.console import Console

from job_host.commands.jobs import rows_of
from job_host.commands.terminal import audit_table
from job_host.protocol.bounds import PAGE_SIZE
from job_host.protocol.client import Client
from job_host.protocol.printable import printable

# Options by the words of the query.
WORDS = {"jobName": "job", "client": "by_client", "token": "by_token", "from": "since", "until": "until"}


def words_of(given: argparse.Namespace) -> dict[str, str]:
    return {word: getattr(given, name) for word, name in WORDS.items() if getattr(given, name) is not None}


async def audit(client: Client, given: argparse.Namespace) -> int:
    """Shows operations, the newest first, or the head of their chain. A row that moves to the next page is shown once."""
    if given.head:
        print(printable((await client.read("/batch/audit/head"))["head"]))
        return 0
    rows: dict[int, Mapping[str, Any]] = {}
    async for row in rows_of(client, "/batch/audit", min(given.count, PAGE_SIZE), **words_of(given)):
        rows.setdefault(row["operation"], row)
        if len(rows) == given.count:
            break
    Console().print(audit_table(list(rows.values()), given.utc) if rows else "no operation is told of")
    return 0
