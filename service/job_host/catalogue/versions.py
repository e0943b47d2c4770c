"""Versions of jobs: what the file of a job has, and whether it is the job that was there before."""

from __future__ import annotations

from collections.abc import Collection, Sequence
from dataclasses import dataclass
from typing import Any

from job_host.catalogue import check, growth
from job_host.catalogue.faults import NOBODY, Fault
from job_host.catalogue.file import CatalogueFile
from job_host.catalogue.folder import UNRESERVED, faults_of, is_reserved, jobs_of_file, read_job_file, told_at
from job_host.catalogue.forms import MOST_JOBS, MOST_TEXT_BYTES
from job_host.catalogue.jobs import ForWorkers, JobFile, JobsRefused
from job_host.catalogue.names import id_of
from job_host.catalogue.text import plain
from job_host.catalogue.tree import shown
from job_host.protocol.lines import compact

ROOM = f'at most {MOST_TEXT_BYTES} bytes as "id", with the version'


@dataclass(frozen=True)
class ReadJob:
    """A job as its file has it. `told` says what was left out."""

    file: JobFile
    job: dict[str, Any]
    for_workers: ForWorkers
    told: Sequence[str] = ()

    def as_version(self, version: int) -> dict[str, Any]:
        """The job as a catalogue has this version of it."""
        return {**self.job, "id": id_of(self.job["id"], version)}


def read_for_workers(file: JobFile, allowed: Collection[str]) -> ForWorkers:
    """What a job has for workers, by its file."""
    return read_job_file(file, allowed).for_workers


def read_job(file: JobFile, name: str, allowed: Collection[str], batchctl: Sequence[str]) -> ReadJob:
    """The one job of a file, which has this name. Raises JobsRefused with a line for each fault, and NoVerdict."""
    given = read_job_file(file, allowed)
    read = given.file
    faults = [told_at(read, note) for note in faults_of(read)] or faults_of_job(read, name)
    if not faults:
        faults = [told_at(read, fault) for fault in check.check(read, batchctl).faults]
    if faults or given.beside:
        raise JobsRefused([*faults, *given.beside])
    (found,) = jobs_of_file(read)
    return ReadJob(file, plain(found.value), given.for_workers, [told_at(read, note) for note in read.told])


def faults_of_job(file: CatalogueFile, name: str) -> list[str]:
    """What keeps a file from being that of this job."""
    jobs = jobs_of_file(file)
    if len(jobs) != 1:
        return [told_at(file, Fault("OtherJobs", 0, NOBODY, f"the job {shown(name)} alone", f"{len(jobs)} jobs"))]
    (job,) = jobs
    if job.id is None:
        return []
    at, found = job.value.members["id"].value.at, shown(job.id)
    if is_reserved(job.id):
        return [told_at(file, Fault("ReservedId", at, job.owner(), UNRESERVED, found))]
    if job.id != name:
        return [told_at(file, Fault("OtherJob", at, job.owner(), f"the id {shown(name)}, as the path has it", found))]
    if len(id_of(name, MOST_JOBS).encode("utf-8", "replace")) > MOST_TEXT_BYTES:
        return [told_at(file, Fault("TextTooLong", at, job.owner(), ROOM, "more"))]
    return []


def is_same(batchctl: Sequence[str], kept: dict[str, Any], given: dict[str, Any]) -> bool:
    """Whether two jobs of one id are the same: batchctl decides if they aren't written so. Raises NoVerdict."""
    return kept == given or growth.is_begun_by(batchctl, compact({"jobs": [kept]}), compact({"jobs": [given]}))
