"""`batchctl script --compact`: whether a program has it, and why a log wasn't compacted."""

from __future__ import annotations

import asyncio
import subprocess
import time
from collections.abc import Sequence

from job_host.service.history.coprocess import CoProcess

COMPACT = "--compact"
# A compaction takes about two openings of the log. One that takes longer is ended.
MOST_SECONDS = 3_600.0
# What batchctl writes on standard error if it goes on over the log as it was, and how long that may take to be heard.
NOT_COMPACTED = "the log is not compacted"
REASON_SECONDS = 1.0


def can_compact(batchctl: Sequence[str]) -> bool:
    """Whether the program knows the option."""
    told = subprocess.run([*batchctl, "script", "--help"], stdin=subprocess.DEVNULL, capture_output=True, check=False)
    return COMPACT.encode() in told.stdout


async def reason(process: CoProcess) -> str:
    """Why a log isn't compacted, as batchctl says on standard error."""
    until = time.monotonic() + REASON_SECONDS
    while time.monotonic() < until:
        told = [line for line in process.errors.splitlines() if NOT_COMPACTED in line]
        if told:
            return told[-1]
        await asyncio.sleep(REASON_SECONDS / 50)
    return "batchctl gave no reason"
