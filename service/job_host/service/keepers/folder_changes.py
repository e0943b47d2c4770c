"""What the folder of `--jobs` changes: jobs whose files aren't as they were read last, nor as the newest version."""

from __future__ import annotations

from collections.abc import Mapping, Sequence
from dataclasses import dataclass, field

from job_host.catalogue.jobs import ForWorkers, ServedJobs, jobs_of
from job_host.catalogue.versions import ReadJob, is_same
from job_host.service.terms.calls import SERVICE
from job_host.service.terms.moments import clock
from job_host.service.versions.book import FileNotKept, JobBook
from job_host.service.versions.changes import APPLY, Change, KeyedBy, digest_of_file, reply_of


@dataclass(frozen=True)
class FolderChanges:
    """Changes, digests of the files that were read, and a line for each file that changes nothing though it is another one."""

    changes: list[Change] = field(default_factory=list)
    seen: dict[str, str] = field(default_factory=dict)
    told: list[str] = field(default_factory=list)


def told_elsewhere(name: str, queue: str) -> str:
    """Why a job can't begin in another queue."""
    return f"the job {name!r} is in the queue {queue!r}: it begins in another one after `jobhost jobs withdraw` there"


def is_newest(book: JobBook, batchctl: Sequence[str], given: ReadJob) -> bool:
    """Whether a job is as its newest version, also in what is for workers. Raises NoVerdict."""
    name = given.job["id"]
    version = book.newest(name)
    if version == 0:
        return False
    wanted = given.as_version(version)
    try:
        if book.for_workers(wanted["id"]) != given.for_workers:
            return False
    except FileNotKept:
        # It was there before files were kept: what its job says is all that is known.
        pass
    return is_same(batchctl, dict(book.job(name, version)), wanted)


def version_of(book: JobBook, given: ReadJob, client: str, by: KeyedBy | None = None) -> Change:
    """The next version of a job."""
    name = given.job["id"]
    version = book.newest(name) + 1
    reply = reply_of(name, version, True, tuple(given.told))
    return Change(APPLY, name, version, client, clock(), given.as_version(version), given.file, by, reply)


def adopted(book: JobBook, given: ReadJob) -> Change:
    """The newest version of a job, whose file isn't kept, with this file."""
    name = given.job["id"]
    version = book.newest(name)
    return Change(APPLY, name, version, SERVICE, clock(), dict(book.job(name, version)), given.file)


def read_jobs_of(served: ServedJobs) -> list[ReadJob]:
    """The jobs of a folder."""
    files, for_workers = served.files or {}, served.for_workers or {}
    jobs = jobs_of(served.line)
    return [ReadJob(files[name], job, for_workers.get(name, ForWorkers())) for name, job in jobs.items()]


def known_files(book: JobBook, served: ServedJobs) -> dict[str, str]:
    """The files of a folder that a version of their job was made of, by their digests: such a file may be an old one."""
    made = {(one.name, digest_of_file(one.file)) for one in book.changes if one.file is not None}
    digests = {name: digest_of_file(file) for name, file in (served.files or {}).items()}
    return {name: digest for name, digest in digests.items() if (name, digest) in made}


def folder_changes(book: JobBook, batchctl: Sequence[str], served: ServedJobs, seen: Mapping[str, str]) -> FolderChanges:
    """What a folder changes, if its files were `seen` before. Raises NoVerdict."""
    found = FolderChanges(seen=dict(seen))
    for given in read_jobs_of(served):
        name, digest = given.job["id"], digest_of_file(given.file)
        if found.seen.get(name) == digest and book.newest(name):
            continue
        other = book.elsewhere(name)
        if other is not None:
            found.told.append(f"{given.file.name}: {told_elsewhere(name, other)}")
            continue
        found.seen[name] = digest
        if book.is_withdrawn(name):
            found.told.append(f"{given.file.name}: the job {name!r} is withdrawn: `jobhost jobs apply` brings it back")
        elif not is_newest(book, batchctl, given):
            found.changes.append(version_of(book, given, SERVICE))
        elif not book.is_applied(given.as_version(book.newest(name))["id"]):
            found.changes.append(adopted(book, given))
    return found
