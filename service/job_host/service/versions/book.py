"""The jobs of a history with all their versions, and the changes that made them, as this instance knows them."""

from __future__ import annotations

import json
from collections.abc import Callable, Collection, Mapping, Sequence
from typing import Any

from job_host.catalogue.jobs import ForWorkers, JobFile, jobs_of
from job_host.catalogue.forms import MOST_JOBS
from job_host.catalogue.text import MOST_LINE_BYTES
from job_host.catalogue.names import VERSIONED_NAMES, id_of
from job_host.protocol.lines import compact
from job_host.service.problems import Problem
from job_host.service.versions.changes import APPLY, RETURN, WITHDRAW, Change


class FileNotKept(Exception):
    """The file of a version isn't kept, so that nobody knows its properties, and what workers do for its steps."""


def nowhere(name: str) -> str | None:
    """There is one queue alone."""
    return None


class JobBook:
    """Versions by their ids in the catalogue's order. `file_of` gives the kept file of one, `read` what it has for workers.

    `elsewhere` names the other queue in which a job may be started, if there is one.
    """

    def __init__(
        self,
        file_of: Callable[[Change], JobFile | None],
        read: Callable[[JobFile], ForWorkers],
        elsewhere: Callable[[str], str | None] = nowhere,
    ) -> None:
        self._file_of = file_of
        self._read = read
        self.elsewhere = elsewhere
        # Those of the catalogue, and beside them those that have left it.
        self._jobs: dict[str, Mapping[str, Any]] = {}
        self._known: dict[str, Mapping[str, Any]] = {}
        self._applied: dict[str, Change] = {}
        self._for_workers: dict[str, ForWorkers] = {}
        self._withdrawn: set[str] = set()
        self._newest: dict[str, int] = {}
        self.changes: list[Change] = []
        self.line = compact({"jobs": []})

    def enter(self, changes: Sequence[Change]) -> None:
        """Notes changes that are kept."""
        for change in changes:
            self.changes.append(change)
            if change.action == WITHDRAW:
                self._withdrawn.add(change.name)
                continue
            self._withdrawn.discard(change.name)
            if change.action == APPLY and change.job is not None:
                self._applied[change.id] = change
                self._known.setdefault(change.id, change.job)
                self._newest[change.name] = max(self.newest(change.name), change.version)
            self._jobs |= self._added([change])
        self.line = self.with_changes(())

    def take_over(self, catalogue: bytes) -> None:
        """The catalogue that a history has: its jobs come first, as they are. A change that made another one isn't theirs.

        Behind them stand versions that can be started. Other ones have left the catalogue, or were never there.
        """
        kept = jobs_of(catalogue)
        self._applied = {job: one for job, one in self._applied.items() if job not in kept or one.job == kept[job]}
        self._for_workers.clear()
        for name, versions in VERSIONED_NAMES.versions_in(catalogue).items():
            self._newest[name] = max(self.newest(name), VERSIONED_NAMES.of(versions[-1]).version)
        others = {job: one for job, one in self._jobs.items() if job not in kept and self._can_be_started(job)}
        self._jobs = {**kept, **others}
        self._known |= kept
        self.line = self.with_changes(())

    def _can_be_started(self, job: str) -> bool:
        """Whether a start of its job has this version."""
        name, version = VERSIONED_NAMES.of(job)
        return version == self.newest(name) and name not in self._withdrawn

    def unneeded(self, used: Collection[str]) -> set[str]:
        """The versions that may leave the catalogue: no start has them, and they aren't `used`, by job instances.

        The newest version of a job that is withdrawn may come back, so it stays if its file isn't kept.
        """
        idle = {job: VERSIONED_NAMES.of(job) for job in self._jobs if job not in used and not self._can_be_started(job)}
        return {job for job, (name, version) in idle.items() if self.is_applied(job) or version < self.newest(name)}

    def without(self, jobs: Collection[str]) -> bytes:
        """The catalogue's line without these versions."""
        return compact({"jobs": [one for job, one in self._jobs.items() if job not in jobs]})

    def leave(self, jobs: Collection[str]) -> None:
        """These versions have left the catalogue."""
        self._jobs = {job: one for job, one in self._jobs.items() if job not in jobs}
        self.line = self.with_changes(())

    def _added(self, changes: Sequence[Change]) -> dict[str, Mapping[str, Any]]:
        """The versions that changes bring into the catalogue. One that has left it comes back as it was."""
        told = {one.id: self._known.get(one.id) if one.action == RETURN else one.job for one in changes}
        return {job: one for job, one in told.items() if one is not None and job not in self._jobs}

    def with_changes(self, changes: Sequence[Change]) -> bytes:
        """The catalogue's line, with the versions of these changes. Raises a problem if it has no room for them."""
        added = self._added(changes)
        line = compact({"jobs": [*self._jobs.values(), *added.values()]})
        if added and len(self._jobs) + len(added) > MOST_JOBS:
            raise catalogue_full(f"a history has at most {MOST_JOBS} jobs, and each version is one")
        if added and len(line) > MOST_LINE_BYTES:
            raise catalogue_full(f"the catalogue of a history has at most {MOST_LINE_BYTES} bytes, with all versions")
        return line

    def newest(self, name: str) -> int:
        """The newest version of a job, and 0 if there is none."""
        return self._newest.get(name, 0)

    def names(self) -> list[str]:
        return list(self._newest)

    def job(self, name: str, version: int) -> Mapping[str, Any]:
        """A version, which may have left the catalogue."""
        return self._known[id_of(name, version)]

    def is_withdrawn(self, name: str) -> bool:
        return name in self._withdrawn

    def has(self, name: str) -> bool:
        """Whether a job may be started here."""
        return name in self._newest and name not in self._withdrawn

    def last_change(self, name: str) -> int:
        """The moment of the last change of a job, and 0 if there is none."""
        return max((one.moment for one in self.changes if one.name == name), default=0)

    def is_applied(self, job: str) -> bool:
        """Whether somebody's change that made this version is kept, with its file."""
        return job in self._applied

    def changes_of(self, name: str) -> list[Change]:
        """The changes of a job, the newest first."""
        return [one for one in reversed(self.changes) if one.name == name]

    def by_key(self, client: str, key: str) -> Change | None:
        """The change that a client asked for by a request key."""
        found = (one for one in reversed(self.changes) if one.by is not None and one.client == client and one.by.key == key)
        return next(found, None)

    def id_to_start(self, name: str) -> str:
        """The newest version of a job. Raises a problem if it is withdrawn, or if people give a version that name."""
        if name in self._withdrawn:
            told = f"the job {json.dumps(name)} is withdrawn: what it has can be restarted, and nothing is started"
            raise Problem("JobWithdrawn", 409, told)
        if name not in self._newest and VERSIONED_NAMES.of(name).version > 1:
            raise Problem("JobStartException", 404, "the newest version of a job is started, by the job's name")
        return id_of(name, self.newest(name) or 1)

    def for_workers(self, job: str) -> ForWorkers:
        """What a version has for workers, by the file that is kept with it. Raises FileNotKept."""
        if job not in self._for_workers:
            change = self._applied.get(job)
            file = None if change is None else change.file or self._file_of(change)
            if file is None:
                raise FileNotKept(f"the file of {job!r} isn't kept, so its properties aren't known")
            self._for_workers[job] = self._read(file)
        return self._for_workers[job]


def catalogue_full(told: str) -> Problem:
    cure = "versions without job instances leave it as the history is compacted"
    return Problem("CatalogueFull", 409, f"{told}: {cure}")
