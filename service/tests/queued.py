"""A service with three queues, for tests: the default one, `urgent` and `night`, with a job or two each."""

from __future__ import annotations

import json
import uuid
from collections.abc import Mapping
from pathlib import Path
from typing import Any

from instances import Answer, Caller

from job_host.catalogue.queues import DEFAULT_QUEUE, QueueBounds, read_queues
from job_host.commands.program import find_batchctl
from job_host.service.settings import ServeSettings

NAMESPACE = "https://jakarta.ee/xml/ns/jakartaee"
# The queue of each job, and how many partitions its step has.
JOBS = {"day": ("default", 0), "wide": ("default", 8), "alarm": ("urgent", 0), "dump": ("night", 0), "archive": ("night", 0)}
OF_ONE_QUEUE = 4_294_967_296
URGENT, NIGHT = OF_ONE_QUEUE, 2 * OF_ONE_QUEUE


def jsl(name: str, partitions: int = 0, ref: str | None = None) -> str:
    plan = f'<partition><plan partitions="{partitions}"/></partition>' if partitions else ""
    step = f'<step id="work"><batchlet ref="{ref or name}"/>{plan}</step>'
    return f'<job id="{name}" xmlns="{NAMESPACE}" version="2.0">{step}</job>'


def write_jobs(folder: Path, jobs: Mapping[str, tuple[str, int]] | None = None, **settings: Any) -> Path:
    """The jobs' files, each with its settings: the queue, and those that are given by the job's name."""
    folder.mkdir(exist_ok=True)
    for name, (queue, partitions) in (jobs or JOBS).items():
        (folder / f"{name}.xml").write_text(jsl(name, partitions))
        told = {**({} if queue == DEFAULT_QUEUE else {"queue": queue}), **settings.get(name, {})}
        (folder / f"{name}.settings.json").write_text(json.dumps(told))
    return folder


def queues_file(folder: Path, **bounds: dict[str, Any]) -> Path:
    path = folder / "queues.json"
    path.write_text(json.dumps({"urgent": {}, "night": {}, **bounds}))
    return path


def queued_settings(folder: Path, jobs: Path, bounds: dict[str, Any] | None = None, **more: Any) -> ServeSettings:
    """Settings of a service with three queues, whose histories are in a folder."""
    queues: dict[str, QueueBounds] = read_queues(queues_file(folder, **(bounds or {})))
    given: dict[str, Any] = {"port": 0, "lease": 10.0, "data": folder / "data", "queues": queues, **more}
    return ServeSettings(catalogue=jobs, is_folder=True, batchctl=find_batchctl(None), **given)


class QueueCaller(Caller):
    """Claims of queues, in their order."""

    async def claim_of(self, *queues: str, wait: float = 0, key: str | None = None, labels: tuple[str, ...] = ()) -> Answer:
        body: dict[str, Any] = {"wait": wait, "queues": list(queues), **({"labels": list(labels)} if labels else {})}
        return await self.ask("POST", "/batch/work", body, key or uuid.uuid4().hex)

    async def seen(self, path: str, at_least: str) -> Answer:
        return await self.ask("GET", path, **{"Batch-At-Least": at_least})

    async def run_all(self, *queues: str) -> list[int]:
        """Claims and finishes work items until there are none. Returns their numbers."""
        done: list[int] = []
        while "work" in (told := (await self.claim_of(*queues)).told):
            done.append(told["work"]["work"])
            await self.finish(done[-1])
        return done
