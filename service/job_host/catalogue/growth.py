"""How a catalogue may differ from the one that was kept: batchctl decides, and here the difference is shown."""

from __future__ import annotations

import json
import subprocess
from collections.abc import Iterator, Sequence
from pathlib import Path
from tempfile import TemporaryDirectory

from job_host.catalogue.faults import NoVerdict
from job_host.catalogue.diff import changes_of_job
from job_host.catalogue.jobs import arranged, jobs_of
from job_host.protocol.lines import compact

OTHER_CATALOGUE = "LogOtherCatalogue"


class CatalogueChanged(Exception):
    """The file changes or drops a job that was kept. The text names each."""


def other_job(fault: bytes) -> int | None:
    """The number of the first job that isn't as a log has it, by the line with which batchctl refuses the log."""
    try:
        told = json.loads(fault)
    except ValueError:
        return None
    is_other = isinstance(told, dict) and told.get("fault") == OTHER_CATALOGUE
    return int(told["job"]) if is_other else None


def open_log(batchctl: Sequence[str], log: Path, catalogue: bytes) -> int | None:
    """Opens a log with a catalogue, or makes one. Returns the number of the first other job. Raises NoVerdict."""
    words = [*batchctl, "script", "--log", str(log)]
    try:
        done = subprocess.run(words, input=catalogue + b"\n", capture_output=True, check=False)
    except OSError as fault:
        raise NoVerdict(f"there is no program {batchctl[0]}: {fault}") from fault
    number = other_job(done.stdout)
    if done.returncode == 0 or number is not None:
        return number
    told = (done.stderr or done.stdout).decode("utf-8", "replace").strip()
    raise NoVerdict(f"{batchctl[0]} script --log ended with status {done.returncode}: {told[:400]}")


def is_begun_by(batchctl: Sequence[str], kept: bytes, given: bytes) -> bool:
    """Whether a log with one catalogue takes another one. Raises NoVerdict."""
    with TemporaryDirectory(prefix="jobhost-") as folder:
        log = Path(folder, "kept.log")
        open_log(batchctl, log, kept)
        return open_log(batchctl, log, given) is None


def changed_jobs(batchctl: Sequence[str], kept: bytes, given: bytes) -> list[str]:
    """The kept jobs that another catalogue changes or drops. Its order says nothing. Raises NoVerdict."""
    line, changed = arranged(kept, given), list[str]()
    if line == arranged(kept, kept):
        return changed
    before, after = (list(jobs_of(one).values()) for one in (kept, line))
    with TemporaryDirectory(prefix="jobhost-") as folder:
        log = Path(folder, "kept.log")
        open_log(batchctl, log, kept)
        for _ in before:
            number = open_log(batchctl, log, compact({"jobs": after}))
            if number is None:
                break
            name = before[number]["id"]
            is_there = number < len(after) and after[number]["id"] == name
            after[number : number + is_there] = [before[number]]
            changed.append(name)
    return changed


def difference(kept: bytes, given: bytes, changed: Sequence[str]) -> Iterator[str]:
    """A sentence for each of these jobs."""
    before, after = jobs_of(kept), jobs_of(given)
    for name in changed:
        if name in after:
            lines = [line.strip().removeprefix("~ ") for line in changes_of_job(before[name], after[name])]
            yield f"the job {name!r} is changed: {', '.join(lines)}"
        else:
            yield f"the job {name!r} is dropped"


def grown(batchctl: Sequence[str], kept: bytes, given: bytes) -> bytes:
    """The given catalogue with the kept jobs first. Raises CatalogueChanged if one is changed or dropped, and NoVerdict."""
    changed = changed_jobs(batchctl, kept, given)
    if changed:
        raise CatalogueChanged("; ".join(difference(kept, given, changed)))
    return arranged(kept, given)
