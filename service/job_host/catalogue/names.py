"""Names of jobs: a catalogue has the first version of a job as `nightly`, and later ones as `nightly@2`, `nightly@3`."""

from __future__ import annotations

import re
from collections.abc import Mapping
from functools import lru_cache
from typing import Any, NamedTuple

from job_host.catalogue.jobs import jobs_of

VERSIONED = re.compile(r"(.+)@([1-9][0-9]*)", re.DOTALL)


class Named(NamedTuple):
    """A job of a catalogue, as people name it."""

    name: str
    version: int


class JobNames:
    """A catalogue whose jobs have no versions: each is told by its id."""

    def of(self, job: str) -> Named:
        return Named(job, 1)

    def told(self, row: Mapping[str, Any]) -> dict[str, Any]:
        """What the repository tells, with the job's name, and with its version if that is above 1."""
        if "job" not in row:
            return dict(row)
        name, version = self.of(row["job"])
        return {**row, "job": name} if version == 1 else {**row, "job": name, "version": version}

    def name_of(self, job: str) -> str:
        return self.of(job).name

    def versions_in(self, catalogue: bytes) -> dict[str, list[str]]:
        """The jobs of a catalogue by name, each name with the ids of its versions, the newest last."""
        return _versions_in(catalogue, self)


class VersionedNames(JobNames):
    """A catalogue whose jobs have versions."""

    def of(self, job: str) -> Named:
        found = VERSIONED.fullmatch(job)
        if found is None or found[2] == "1":
            return Named(job, 1)
        return Named(found[1], int(found[2]))


PLAIN_NAMES, VERSIONED_NAMES = JobNames(), VersionedNames()


@lru_cache(maxsize=4)
def _versions_in(catalogue: bytes, names: JobNames) -> dict[str, list[str]]:
    found: dict[str, list[tuple[int, str]]] = {}
    for job in jobs_of(catalogue):
        name, version = names.of(job)
        found.setdefault(name, []).append((version, job))
    return {name: [job for _, job in sorted(versions)] for name, versions in found.items()}


def id_of(name: str, version: int) -> str:
    """The id of a version in the catalogue."""
    return name if version == 1 else f"{name}@{version}"
