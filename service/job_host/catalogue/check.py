"""Checks a catalogue: batchctl gives the verdict on its line, and names what is at fault. Place and words are of the file."""

from __future__ import annotations

from collections.abc import Iterator, Sequence
from dataclasses import dataclass
from pathlib import Path

from job_host.catalogue.faults import Fault, Note
from job_host.catalogue.file import CatalogueFile
from job_host.catalogue.finder import FaultFinder
from job_host.catalogue.paths import spot_of, steps_of
from job_host.catalogue.text import Value
from job_host.catalogue.tree import Job, read_job
from job_host.catalogue.verdicts import Answer, Verdict, ask
from job_host.catalogue.warnings import Artifacts, Warner, jobs_alike, repeated
from job_host.catalogue.words import Words

NOTHING = Value(0, 0, None)


@dataclass(frozen=True)
class Checked:
    """What a check of a file found. The first of `faults` is the one for which batchctl refuses the line."""

    file: CatalogueFile
    verdict: Verdict | None
    faults: list[Fault]
    warnings: list[Note]

    @property
    def is_accepted(self) -> bool:
        return self.verdict is not None and self.verdict.answer is None and not self.file.refused


def jobs_in(root: Value) -> list[Job]:
    jobs = root.members.get("jobs")
    return [read_job(number, value) for number, value in enumerate(jobs.value.items)] if jobs is not None else []


def faults_in(file: CatalogueFile, verdict: Verdict, batchctl: Sequence[str]) -> tuple[list[Fault], list[Note]]:
    """The faults of a file, first the one that batchctl names, and where there may be more. Raises NoVerdict."""
    if verdict.answer is None:
        return [], []
    if file.root is not None and not file.faults:
        finder = FaultFinder(file.source, file.root, batchctl)
        finder.find(verdict)
        return finder.faults, finder.notes
    named = [fault for fault in file.faults if fault.name == verdict.answer["fault"]]
    others = [fault for fault in file.faults if fault.name != verdict.answer["fault"]]
    return [*(named or [first_fault(file, verdict.answer, None)]), *others], []


def first_fault(file: CatalogueFile, answer: Answer, member: str | None) -> Fault:
    """The fault that batchctl names of a file as it is."""
    words = Words(file.source, file.root or NOTHING)
    spot = spot_of(words.root, steps_of(member)) if member is not None else None
    fault = words.fault(answer["fault"], spot) if spot is not None else None
    return fault or words.unexplained(answer)


def warn(file: CatalogueFile, folder: Path | None, faults: list[Fault]) -> Iterator[Note]:
    """What a catalogue has that is legal and seldom meant."""
    if file.root is None:
        return
    yield from repeated(file.root, file.source)
    known = Artifacts(folder) if folder is not None else None
    at_fault = {fault.owner.job for fault in faults}
    jobs = jobs_in(file.root)
    yield from jobs_alike(jobs)
    for job in jobs:
        yield from Warner(job, known).warnings(job.number in at_fault)
    if known is not None:
        for artifact in file.beside:
            yield from known.warn(artifact.at, artifact.owner, artifact.name)


def check(file: CatalogueFile, batchctl: Sequence[str], folder: Path | None = None, verdict: Verdict | None = None) -> Checked:
    """The check of a file, by batchctl's verdict if it is known already. Raises NoVerdict."""
    if file.line is None:
        return Checked(file, None, file.faults, [])
    verdict = verdict or ask(batchctl, file.line)
    faults, notes = faults_in(file, verdict, batchctl)
    warnings = sorted([*warn(file, folder, faults), *notes], key=lambda note: note.at)
    return Checked(file, verdict, faults, warnings)
