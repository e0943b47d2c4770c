#!/usr/bin/python3
"""`jobhost serve` for a soak: it gives up a batchctl that hangs, and a commit that isn't answered, after seconds.

At SIGUSR1 it writes where each of its tasks waits.
"""

from __future__ import annotations

import asyncio
import signal
import sys
from collections import Counter
from collections.abc import Iterator
from functools import partial
from pathlib import Path
from typing import Any

# Until there are tasks to write of.
signal.signal(signal.SIGUSR1, signal.SIG_IGN)
sys.path.insert(0, str(Path(__file__).resolve().parent))

from job_host.commands import command_line  # noqa: E402
from job_host.service.keepers import keeper  # noqa: E402
from job_host.service.settings import ServeSettings  # noqa: E402

# In place of 2, 10 and 60 seconds.
LIMITS = {"ASK_SECONDS": 0.5, "SILENT_SECONDS": 1.0, "KILL_SECONDS": 3.0}
# In place of 30 seconds.
COMMIT_SECONDS = 3.0


def places_of(waiting: Any) -> Iterator[str]:
    """The functions and lines of a coroutine and of those that it awaits, the outermost first."""
    while (frame := getattr(waiting, "cr_frame", None)) is not None:
        yield f"{frame.f_code.co_name} {frame.f_lineno}"
        waiting = waiting.cr_await


def write_tasks(number: int, frame: object) -> None:
    tasks = Counter(" > ".join(places_of(task.get_coro())) for task in asyncio.all_tasks())
    for place, count in tasks.items():
        print(f"{count} of its tasks: {place}", file=sys.stderr, flush=True)


def main() -> int:
    signal.signal(signal.SIGUSR1, write_tasks)
    for name, seconds in LIMITS.items():
        getattr(keeper, name)
        setattr(keeper, name, seconds)
    setattr(command_line, "ServeSettings", partial(ServeSettings, commit_timeout=COMMIT_SECONDS))
    return command_line.main()


if __name__ == "__main__":
    sys.exit(main())
