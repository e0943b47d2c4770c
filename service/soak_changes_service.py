#!/usr/bin/python3
"""`jobhost serve` that compacts its history over and over: each half a second, if an operation came since."""

from __future__ import annotations

import sys
import time

import soak_service

from job_host.service.history.engine import Engine
from job_host.service.keepers import compacting, due, postgres_compacting

# In place of a second, and of an hour.
LOOK_SECONDS, LEAST_SECONDS = 0.05, 0.5


def is_soon(one: due.Due, engine: Engine) -> bool:
    """Whether the history is compacted by itself, however few operations stand behind its base."""
    return one._tried_at is None or time.monotonic() > one._tried_at + LEAST_SECONDS


def main() -> int:
    for compacts in (compacting, postgres_compacting):
        setattr(compacts, "LOOK_SECONDS", LOOK_SECONDS)
    setattr(due.Due, "_is_by_itself", is_soon)
    return soak_service.main()


if __name__ == "__main__":
    sys.exit(main())
