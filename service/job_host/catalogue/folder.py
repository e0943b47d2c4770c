"""A folder of job files, as people have them: each `*.xml` is a job in JSL, each `*.json` a job or a catalogue.

But `NAME.settings.json` has the settings of the job in `NAME.xml`.

All of them together are one catalogue, whose jobs are in the order of the files' names. What is at fault in it is for batchctl
to say, and what can't be read is named here, with its file and its place.
"""

from __future__ import annotations

import json
import os
import re
import stat
from collections import Counter
from collections.abc import Collection, Iterator, Sequence
from dataclasses import dataclass, field, replace
from pathlib import Path

from job_host.catalogue.check import first_fault, jobs_in
from job_host.catalogue.faults import NOT_A_CATALOGUE, Fault, Note, NoVerdict
from job_host.catalogue.file import CatalogueFile, catalogue_of, read_json, translated
from job_host.catalogue.forms import MOST_JOBS
from job_host.catalogue.jobs import ForWorkers, JobFile, JobsRefused, ServedJobs, SettingsFile, as_it_is
from job_host.catalogue.jsl_steps import StepsTranslator
from job_host.catalogue.paths import spot_of
from job_host.catalogue.queues import DEFAULT_QUEUE
from job_host.catalogue.settings import SUFFIX, SettingsFinder, job_file_of, settings_of
from job_host.catalogue.text import MOST_LINE_BYTES, Members, Source, Value, plain
from job_host.catalogue.tree import Job, shown
from job_host.catalogue.verdicts import Answer, Verdict, ask
from job_host.catalogue.words import Words
from job_host.protocol.lines import compact

JSL_SUFFIX, JSON_SUFFIX = ".xml", ".json"
MOST_BYTES = {JSL_SUFFIX: 4_194_304, JSON_SUFFIX: MOST_LINE_BYTES}
# A job has at most 1,000 elements of a catalogue.
MOST_XML_ELEMENTS = 100_000
# A catalogue names the versions of a job so.
RESERVED = re.compile(r".*@[0-9]+", re.DOTALL)
UNRESERVED = "an id without `@` and digits at its end, as versions have"


class Unreadable(Exception):
    """A file whose bytes can't be read, or are too many."""


def told_at(file: CatalogueFile, note: Fault | Note) -> str:
    return f"{file.source.name}:{file.source.place(note.at)}: {note}"


def faults_of(file: CatalogueFile) -> list[Fault | Note]:
    """What keeps a file from being read as a catalogue."""
    return [*file.faults, *file.refused]


@dataclass
class JobFolder:
    """The files that could be read, in the order of their names. `beside` has the faults that none of them has by itself."""

    path: Path
    files: list[CatalogueFile] = field(default_factory=list)
    beside: list[str] = field(default_factory=list)
    for_workers: dict[str, ForWorkers] = field(default_factory=dict)
    sources: dict[str, JobFile] = field(default_factory=dict)

    def read(self, path: Path, allowed: Collection[str]) -> None:
        """Reads one file."""
        try:
            data = bytes_of(path)
        except (OSError, Unreadable) as fault:
            self.beside.append(unread(path, fault))
            return
        read = read_job_file(JobFile(str(path), path.suffix, data, self.settings(path)), allowed)
        self.files.append(read.file)
        self.beside += read.beside
        for job in jobs_of_file(read.file):
            if job.id is not None:
                self.for_workers[job.id] = read.for_workers
                self.sources[job.id] = read.source_of(path.name, job)

    def settings(self, path: Path) -> SettingsFile | None:
        """The settings of a job's file. If they can't be read, they are refused."""
        try:
            return settings_beside(path)
        except (OSError, Unreadable) as fault:
            self.beside.append(unread(settings_of(path), fault))
            return None

    def look_at_settings(self, paths: Sequence[Path]) -> None:
        """Refuses settings that no job file has."""
        self.beside += [unowned(path) for path in paths if path.name.endswith(SUFFIX) and not job_file_of(path).exists()]

    @property
    def refused(self) -> list[str]:
        """What keeps the files from being served."""
        return [*(told_at(file, note) for file in self.files for note in faults_of(file)), *self.beside]

    @property
    def told(self) -> list[str]:
        """What was left out, or written out."""
        return [told_at(file, note) for file in self.files for note in file.told]

    def jobs(self) -> Iterator[tuple[CatalogueFile, Job]]:
        """All jobs in turn, each with its file. They are numbered in their own files."""
        yield from ((file, job) for file in self.files for job in jobs_of_file(file))

    def refuse(self, file: CatalogueFile, name: str, job: Job, expected: str, found: str) -> None:
        """Refuses a job, by batchctl's name of its fault."""
        at = job.value.members["id"].value.at if job.id is not None else job.value.at
        self.beside.append(told_at(file, Fault(name, at, job.owner(), expected, found)))

    def look_at_all(self) -> None:
        """Refuses what no file has by itself: no job at all, too many jobs, and two jobs of one id."""
        first_with, counts = dict[str, str](), Counter[str]()
        for file, job in self.jobs():
            queue = self.queue_of(job)
            counts[queue] += 1
            if counts[queue] == MOST_JOBS + 1:
                where = "the folder" if queue == DEFAULT_QUEUE else f"the queue {shown(queue)}"
                self.refuse(file, "TooMany", job, f"at most {MOST_JOBS} jobs in {where}", "one more")
            if job.id is not None and is_reserved(job.id):
                self.refuse(file, "ReservedId", job, UNRESERVED, shown(job.id))
            place = f"{file.source.name}:{file.source.place(job.value.at)}"
            first = first_with.setdefault(job.id, place) if job.id is not None else place
            if first is not place:
                found = f"{shown(job.id or '')}, which another one has ({first})"
                self.refuse(file, "DuplicateId", job, "an id that no earlier job of the folder has", found)
        if not self.files and not self.beside:
            self.beside.append(f"{self.path}: there is no file *{JSL_SUFFIX} or *{JSON_SUFFIX}")
        elif not self.refused and any(len(self.part(queue).line) > MOST_LINE_BYTES for queue in self.queues):
            self.beside.append(f"{self.path}: the catalogue of all files has more than {MOST_LINE_BYTES} bytes")

    def queue_of(self, job: Job) -> str:
        """The queue of a job, by its settings."""
        return self.for_workers.get(job.id or "", ForWorkers()).policies.queue

    @property
    def queues(self) -> list[str]:
        """The queues of the jobs, each once."""
        return list(dict.fromkeys(self.queue_of(job) for _, job in self.jobs()))

    def part(self, queue: str) -> JobFolder:
        """The files whose jobs are of one queue: a file with several jobs has no settings, so all are of the default one."""
        files = [
            one for one in self.files if queue in {self.queue_of(job) for job in jobs_of_file(one)} or not jobs_of_file(one)
        ]
        names = {job.id for file in files for job in jobs_of_file(file)}
        for_workers = {name: one for name, one in self.for_workers.items() if name in names}
        return JobFolder(self.path, files, [], for_workers, {name: self.sources[name] for name in for_workers})

    def look_at_queues(self, known: Collection[str]) -> None:
        """Refuses a job whose queue isn't one of these."""
        for file, job in self.jobs():
            settings = self.sources[job.id].settings if job.id is not None else None
            if settings is not None and self.queue_of(job) not in known:
                self.beside.append(unknown_queue(str(settings_of(Path(file.source.name))), self.queue_of(job), known))

    @property
    def line(self) -> bytes:
        """The catalogue of all jobs."""
        roots = [file.root for file in self.files if file.root is not None]
        return compact({"jobs": [job for root in roots for job in plain(root)["jobs"]]})

    def served(self) -> ServedJobs:
        """Raises JobsRefused."""
        if self.refused:
            raise JobsRefused(self.refused)
        return ServedJobs(self.line, self.told_fault, self.for_workers, self.sources)

    def served_by_queues(self, known: Collection[str]) -> dict[str, ServedJobs]:
        """The jobs of each of these queues, also of those that have none. Raises JobsRefused."""
        self.look_at_queues(known)
        if self.refused:
            raise JobsRefused(self.refused)
        return {queue: self.part(queue).served() for queue in known}

    def told_fault(self, answer: bytes, batchctl: Sequence[str]) -> str:
        """A fault of the whole catalogue, as batchctl names it, at its place in the file of its job."""
        fault = json.loads(answer)
        number = fault.get("job")
        for file in self.files if isinstance(number, int) else []:
            count = len(jobs_of_file(file))
            if number < count:
                return told_at(file, fault_in(file, {**fault, "job": number}, batchctl))
            number -= count
        return as_it_is(answer)


def jobs_of_file(file: CatalogueFile) -> list[Job]:
    return jobs_in(file.root) if file.root is not None else []


def fault_in(file: CatalogueFile, answer: Answer, batchctl: Sequence[str]) -> Fault:
    """A fault of one file, with its jobs numbered in that file. batchctl is asked of it alone, for the place."""
    try:
        verdict = ask(batchctl, file.line or b"")
    except NoVerdict:
        verdict = Verdict(None)
    return first_fault(file, answer, verdict.member if verdict.answer == answer else None)


def unread(path: Path, fault: OSError | Unreadable) -> str:
    return f"{path}: {fault.strerror if isinstance(fault, OSError) else fault}"


def files_in(folder: Path) -> Sequence[Path]:
    """The job files of a folder and their settings, in the order of their names' bytes. Raises OSError if it can't be read."""
    found = [path for path in folder.iterdir() if path.suffix in MOST_BYTES and not path.name.startswith(".")]
    return sorted(found, key=lambda path: os.fsencode(path.name))


def paths_in(folder: Path) -> Sequence[Path]:
    """The job files of a folder. Raises OSError if it can't be read."""
    return [path for path in files_in(folder) if not path.name.endswith(SUFFIX)]


def bytes_of(path: Path) -> bytes:
    """Raises OSError, and Unreadable if it is no file or too large: neither a pipe nor a device is waited for."""
    with open(os.open(path, os.O_RDONLY | os.O_NONBLOCK | os.O_CLOEXEC), "rb") as file:
        if not stat.S_ISREG(os.fstat(file.fileno()).st_mode):
            raise Unreadable("this is no file")
        most = MOST_BYTES[path.suffix]
        data = file.read(most + 1)
    if len(data) > most:
        raise Unreadable(f"the file has more than {most} bytes")
    return data


def settings_beside(path: Path) -> SettingsFile | None:
    """The settings of a job's file in JSL, if it has some. Raises OSError, and Unreadable."""
    beside = settings_of(path)
    if path.suffix != JSL_SUFFIX or not os.path.lexists(beside):
        return None
    return SettingsFile(str(beside), bytes_of(beside))


def unknown_queue(settings: str, queue: str, known: Collection[str]) -> str:
    """What is told of a queue that the service hasn't."""
    return f"{settings}: expected a queue of this service, which are {', '.join(known)} (--queues), found {shown(queue)}"


def unowned(path: Path) -> str:
    return f"{path}: there is no job file {job_file_of(path).name}, whose settings these are"


@dataclass
class ReadFile:
    """What a file holds, and what its job in JSL has for workers. `beside` has a line for each fault of the job's settings."""

    given: JobFile
    file: CatalogueFile
    for_workers: ForWorkers = field(default_factory=ForWorkers)
    beside: list[str] = field(default_factory=list)

    def source_of(self, name: str, job: Job) -> JobFile:
        """The file of one of the jobs alone, by the file's name in its folder."""
        settings = self.given.settings
        if settings is not None:
            settings = replace(settings, name=Path(settings.name).name)
        data = self.given.data if len(jobs_of_file(self.file)) == 1 else compact(plain(job.value))
        return JobFile(name, self.given.suffix, data, settings)


def read_job_file(given: JobFile, allowed: Collection[str]) -> ReadFile:
    if given.suffix == JSON_SUFFIX:
        return ReadFile(given, read_json_file(given.name, given.data))
    translator = StepsTranslator(allowed)
    file = translated(given.name, given.data, translator, MOST_XML_ELEMENTS)
    file.beside = translator.artifacts
    read = ReadFile(given, file, ForWorkers(translator.kept, translator.steps))
    if given.settings is not None and jobs_of_file(file):
        found = SettingsFinder(given.settings.name, given.settings.data, jobs_of_file(file)[0])
        read.beside += found.told
        found.add_to(translator.steps)
        read.for_workers = replace(read.for_workers, policies=found.policies)
    return read


def is_reserved(name: str) -> bool:
    """Whether a version of a job may have this id."""
    return RESERVED.fullmatch(name) is not None


def read_json_file(name: str, data: bytes) -> CatalogueFile:
    """A job, or a catalogue."""
    file = read_json(name, data)
    if file.root is not None and isinstance(file.root.held, Members) and "jobs" not in file.root.members:
        file.root = catalogue_of([file.root])
        file.line = compact(plain(file.root))
    if file.root is not None:
        file.faults += faults_beside_others(file.source, file.root)
    return file


def faults_beside_others(source: Source, root: Value) -> list[Fault]:
    """What keeps the jobs of a file from standing beside those of other files: it is no object with their list alone."""
    others = sorted(name for name in root.members if name != "jobs")
    if not others and "jobs" in root.members and isinstance(root.members["jobs"].value.held, list):
        return []
    spot = spot_of(root, tuple(others[:1] or ["jobs"]) if isinstance(root.held, Members) else ())
    fault = Words(source, root).fault(NOT_A_CATALOGUE, spot) if spot is not None else None
    return [fault] if fault is not None else []


def read_folder(folder: Path, allowed: Collection[str]) -> JobFolder:
    """Raises OSError if the folder can't be read."""
    read = JobFolder(folder)
    for path in paths_in(folder):
        read.read(path, allowed)
    read.look_at_settings(files_in(folder))
    read.look_at_all()
    return read
