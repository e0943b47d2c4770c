#!/usr/bin/python3
"""`jobhost`, which counts what its calls cost, and writes the counts to a file at each SIGUSR2.

    benches/counted_service.py FILE serve ...
"""

from __future__ import annotations

import asyncio
import json
import os
import signal
import sys
from collections import Counter
from collections.abc import Callable
from concurrent.futures import ThreadPoolExecutor
from pathlib import Path
from typing import Any

SERVICE = Path(__file__).resolve().parents[1] / "service"
sys.path.insert(0, str(SERVICE))

from job_host.commands.command_line import main  # noqa: E402
from job_host.service.stores import postgres  # noqa: E402

counts: Counter[str] = Counter()


def counting(owner: Any, name: str, what: str) -> None:
    """Counts the calls of a function."""
    function: Callable[..., Any] = getattr(owner, name)

    def count(*given: Any, **named: Any) -> Any:
        counts[what] += 1
        return function(*given, **named)

    setattr(owner, name, count)


def count_all() -> None:
    counting(json.JSONDecoder, "decode", "parses")
    counting(json.JSONEncoder, "encode", "serialisations")
    counting(ThreadPoolExecutor, "submit", "thread hops")
    counting(asyncio.unix_events._UnixWritePipeTransport, "write", "writes to batchctl")  # type: ignore[attr-defined]
    counting(asyncio.selector_events._SelectorSocketTransport, "write", "writes to sockets")  # type: ignore[attr-defined]
    counting(asyncio.events.Handle, "_run", "turns of the event loop's callbacks")
    counting(postgres.PostgresStore, "commit", "commits to PostgreSQL")
    counting(postgres.PostgresStore, "_fetch", "reads of PostgreSQL")


def write_counts(path: Path) -> None:
    new = path.with_suffix(".new")
    seconds = sum(os.times()[:2])
    new.write_text(json.dumps({**counts, "seconds": seconds}))
    new.rename(path)


if __name__ == "__main__":
    file = Path(sys.argv.pop(1))
    count_all()
    signal.signal(signal.SIGUSR2, lambda number, frame: write_counts(file))
    sys.exit(main())
