"""What is served: a catalogue as one line, its jobs, and their order."""

from __future__ import annotations

import json
from collections.abc import Callable, Mapping, Sequence
from dataclasses import dataclass, field
from pathlib import Path
from typing import Any

from job_host.catalogue.policies import NO_POLICIES, JobPolicies
from job_host.catalogue.properties import JobProperties
from job_host.catalogue.text import NotJson, Reader, one_line, plain
from job_host.protocol.lines import compact

# What a claim tells of each step, by the steps' ids.
Steps = dict[str, dict[str, Any]]


@dataclass(frozen=True)
class ForWorkers:
    """What claims tell of a job that has no place in a catalogue: its properties, and what workers do for its steps.

    Its policies stand beside that: the leader goes by them.
    """

    properties: JobProperties = field(default_factory=JobProperties)
    steps: Steps = field(default_factory=dict)
    policies: JobPolicies = NO_POLICIES


class JobsRefused(Exception):
    """Job files that can't be served. `lines` has a line for each fault."""

    def __init__(self, lines: Sequence[str]) -> None:
        super().__init__("; ".join(lines))
        self.lines = lines


def as_it_is(answer: bytes, batchctl: Sequence[str] = ()) -> str:
    return answer.decode("utf-8", "replace")


@dataclass(frozen=True)
class SettingsFile:
    """What the settings' file of a job holds."""

    name: str
    data: bytes


@dataclass(frozen=True)
class JobFile:
    """What the file of a job holds, in JSL with the suffix .xml, in JSON with .json; and its settings, if it has some."""

    name: str
    suffix: str
    data: bytes
    settings: SettingsFile | None = None


@dataclass(frozen=True)
class ServedJobs:
    """The jobs of a service: their catalogue as one line, and how a fault of it is told, by batchctl's answer and its program.

    `for_workers` and `files` have those of each job of a folder, by its id. For a catalogue's file they are none: it has no
    place for what is for workers, and its jobs have no versions.
    """

    line: bytes
    told_fault: Callable[[bytes, Sequence[str]], str] = as_it_is
    for_workers: Mapping[str, ForWorkers] | None = None
    files: Mapping[str, JobFile] | None = None


def read_file(path: Path) -> bytes:
    """The catalogue of a file as one line. What is no JSON object keeps its tokens: batchctl names its fault."""
    data = path.read_bytes()
    try:
        value = plain(Reader(data.decode("utf-8")).read())
    except (NotJson, UnicodeDecodeError):
        return one_line(data)
    return compact(value) if isinstance(value, dict) else one_line(data)


def jobs_of(line: bytes | str) -> dict[str, Any]:
    """The jobs of a catalogue line that batchctl took, by their names and in their order."""
    return {job["id"]: job for job in json.loads(line)["jobs"]}


def arranged(kept: bytes | str, given: bytes | str) -> bytes:
    """The given catalogue with its jobs in the order of the kept one; those that it adds stand behind."""
    before, after = jobs_of(kept), jobs_of(given)
    jobs = [after[name] for name in before if name in after]
    return compact({"jobs": [*jobs, *(job for name, job in after.items() if name not in before)]})
