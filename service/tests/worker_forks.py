"""Forks workers that have imported everything, so that one begins in milliseconds: a line with a number for each line of input.

    python3 worker_forks.py URL FOLDER DATABASE
"""

from __future__ import annotations

import asyncio
import os
import signal
import sys
from pathlib import Path

sys.path.insert(0, str(Path(__file__).resolve().parents[1]))

from job_host.protocol.client import Address  # noqa: E402
from job_host.worker import worker  # noqa: E402


def run(url: str, folder: str, database: str) -> None:
    """A worker with one slot. The database is told which one it is."""
    signal.signal(signal.SIGCHLD, signal.SIG_DFL)
    os.environ["DATABASE"] = f"{database}?application_name={os.getpid()}"
    asyncio.run(worker.work(Address((url,), f"worker-{os.getpid()}"), worker.WorkerSettings(Path(folder))))


def main() -> None:
    signal.signal(signal.SIGCHLD, signal.SIG_IGN)
    for _ in sys.stdin:
        number = os.fork()
        if number == 0:
            run(*sys.argv[1:])
            os._exit(0)
        print(number, flush=True)


if __name__ == "__main__":
    main()
