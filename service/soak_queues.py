"""Three queues for a soak: the jobs of a soak as files with settings, and where the history of each queue is."""

from __future__ import annotations

import json
from collections.abc import Sequence
from pathlib import Path
from typing import Any

QUEUES = ("default", "urgent", "night")
NAMESPACE = "https://jakarta.ee/xml/ns/jakartaee"
# The queue of each job, by its number.
QUEUE_OF = {"one": 0, "three": 1, "wide": 2}


def queue_of_job(name: str) -> int:
    return QUEUE_OF[name]


def with_queues(place: int) -> str:
    """The queues of a worker: all of them, each worker begins with another one."""
    first = place % len(QUEUES)
    return ",".join((*QUEUES[first:], *QUEUES[:first]))


def write_jobs(folder: Path, jobs: Sequence[dict[str, Any]]) -> None:
    """The same jobs in JSL, each with its queue in its settings."""
    folder.mkdir()
    for job in jobs:
        steps = "".join(map(step_of, job["elements"]))
        (folder / f"{job['id']}.xml").write_text(f'<job id="{job["id"]}" xmlns="{NAMESPACE}" version="2.0">{steps}</job>')
        settings = {"queue": QUEUES[queue_of_job(job["id"])]}
        (folder / f"{job['id']}.settings.json").write_text(json.dumps(settings))


def step_of(step: dict[str, Any]) -> str:
    plan = f'<partition><plan partitions="{step["partitions"]}"/></partition>' if "partitions" in step else ""
    next_one = f' next="{step["next"]}"' if "next" in step else ""
    return f'<step id="{step["id"]}"{next_one}><batchlet ref="{step["batchlet"]["ref"]}"/>{plan}</step>'


def queues_file(folder: Path) -> Path:
    path = folder / "queues.json"
    path.write_text(json.dumps({name: {} for name in QUEUES[1:]}))
    return path


def data_of(data: Path, queue: int) -> Path:
    """The folder of a queue's log."""
    from job_host.service.queues.numbers import folder_of

    return folder_of(data, queue)


def tables_of(dsn: str, queue: int) -> str:
    """The DSN of a queue's tables."""
    from job_host.service.queues.postgres_numbers import dsn_of

    return dsn_of(dsn, queue)
