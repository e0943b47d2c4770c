"""The settings of a job, in a file `NAME.settings.json` beside its file `NAME.xml`: what JSL has no word for.

They say the job's queue, the time of steps, and what the leader does by itself. It is JSON, whose places are told as those of a
job file.
"""

from __future__ import annotations

from pathlib import Path

from job_host.catalogue.faults import NOT_JSON, NOBODY, Fault, Note, Owner
from job_host.catalogue.jobs import Steps
from job_host.catalogue.policies import JobPolicies
from job_host.catalogue.policy_settings import GRACE, RESTART, TIMEOUT, read_restart, read_timeout
from job_host.catalogue.queues import DEFAULT_QUEUE, NAME, NAMED
from job_host.catalogue.schedule_settings import SCHEDULE, ScheduleReader
from job_host.catalogue.settings_reader import SettingsReader
from job_host.catalogue.text import NotJson, Reader, Source, Value, decoded
from job_host.catalogue.tree import Job

SUFFIX = ".settings.json"
SETTINGS = "settings"
STEPS, QUEUE, ONE_AT_A_TIME, ONCE = "steps", "queue", "oneAtATime", "onceByParameters"
MEMBERS = (STEPS, TIMEOUT, GRACE, RESTART, SCHEDULE, QUEUE, ONE_AT_A_TIME, ONCE)


def settings_of(path: Path) -> Path:
    """The settings' file of a job's file."""
    return path.with_name(f"{path.stem}{SUFFIX}")


def job_file_of(path: Path) -> Path:
    """The job's file of a settings' file."""
    return path.with_name(f"{path.name.removesuffix(SUFFIX)}.xml")


class SettingsFinder:
    """Reads one file. `timeouts` has the seconds of steps then, `policies` those of the job, and `faults` what is wrong."""

    def __init__(self, name: str, data: bytes, job: Job) -> None:
        text, broken = decoded(data)
        self.source = Source(name, text)
        self.timeouts = dict[str, int]()
        self.policies = JobPolicies()
        self.faults: list[Fault | Note] = []
        self._job = job
        self._reader = SettingsReader(self.source, job, self.faults, SETTINGS)
        try:
            if broken is not None:
                raise broken
            self._read(Reader(text).read())
        except NotJson as fault:
            self.faults.append(Fault(NOT_JSON, fault.at, NOBODY, fault.expected, fault.found, fault.likely))

    @property
    def told(self) -> list[str]:
        faults = sorted(self.faults, key=lambda fault: fault.at)
        return [f"{self.source.name}:{self.source.place(fault.at)}: {fault}" for fault in faults]

    def add_to(self, steps: Steps) -> None:
        for name, seconds in self.timeouts.items():
            steps.setdefault(name, {})[TIMEOUT] = seconds

    def _read(self, root: Value) -> None:
        told = self._reader.members(root, self._job.owner(), "the settings", MEMBERS)
        if STEPS in told:
            self._read_steps(told[STEPS])
        restart = read_restart(self._reader, told[RESTART]) if RESTART in told else None
        schedule = ScheduleReader(self._reader).read(told[SCHEDULE]) if SCHEDULE in told else None
        queue = self._read_queue(told[QUEUE]) if QUEUE in told else DEFAULT_QUEUE
        owner = self._job.owner()
        truths = {name: self._reader.truth(told[name], owner, name) is True for name in (ONE_AT_A_TIME, ONCE) if name in told}
        starts = [truths.get(name, False) for name in (ONE_AT_A_TIME, ONCE)]
        self.policies = JobPolicies(restart, read_timeout(self._reader, told), schedule, queue, *starts)

    def _read_queue(self, value: Value) -> str:
        if isinstance(value.held, str) and NAME.fullmatch(value.held):
            return value.held
        self._reader.fault(value, self._job.owner(), f'the name of a queue, {NAMED}, as "{QUEUE}"')
        return DEFAULT_QUEUE

    def _read_steps(self, steps: Value) -> None:
        known = {element.id: element for element in self._job.elements if element.form == "step" and element.id is not None}
        for name, value in self._reader.members(steps, self._job.owner(), STEPS, tuple(known), "the id of a step").items():
            self._read_step(name, value, self._job.owner(known[name]))

    def _read_step(self, name: str, step: Value, owner: Owner) -> None:
        told = self._reader.members(step, owner, "the step", (TIMEOUT,))
        seconds = self._reader.seconds(told[TIMEOUT], owner, TIMEOUT) if TIMEOUT in told else None
        if seconds is not None:
            self.timeouts[name] = seconds
