"""The members of a job's settings that are policies, each with its bounds."""

from __future__ import annotations

from collections.abc import Callable, Mapping
from typing import Any

from job_host.catalogue.policies import USUAL_GRACE, JobTimeout, RestartPolicy
from job_host.catalogue.settings_reader import SettingsReader
from job_host.catalogue.text import Members, Value

RESTART, TIMEOUT, GRACE = "restart", "timeout", "grace"
AFTER_LOST_WORKER, EXIT_STATUSES = "afterLostWorker", "exitStatuses"
MOST, WAIT, LONGEST_WAIT = "most", "wait", "longestWait"
MOST_RESTARTS, MOST_PATTERNS = 1_000, 100


def read_restart(reader: SettingsReader, value: Value) -> RestartPolicy | None:
    """The policy of restarts. None if something of it is at fault."""
    owner = reader.job.owner()
    told = reader.members(value, owner, RESTART, (AFTER_LOST_WORKER, EXIT_STATUSES, MOST, WAIT, LONGEST_WAIT))
    read: dict[str, Callable[[Value], Any]] = {
        "after_lost_worker": lambda one: reader.truth(one, owner, AFTER_LOST_WORKER),
        "exit_statuses": lambda one: reader.texts(one, owner, EXIT_STATUSES, MOST_PATTERNS),
        "most": lambda one: reader.count(one, owner, MOST, MOST_RESTARTS),
        "wait": lambda one: reader.seconds(one, owner, WAIT),
        "longest_wait": lambda one: reader.seconds(one, owner, LONGEST_WAIT),
    }
    names = dict(zip(read, (AFTER_LOST_WORKER, EXIT_STATUSES, MOST, WAIT, LONGEST_WAIT)))
    found = {field: read[field](told[name]) for field, name in names.items() if name in told}
    if not isinstance(value.held, Members) or len(found) < len(value.members) or None in found.values():
        return None
    policy = RestartPolicy(**found)
    return policy if is_sound(reader, value, policy) else None


def is_sound(reader: SettingsReader, value: Value, policy: RestartPolicy) -> bool:
    """Whether the members fit together, and the job: a policy that could never do anything is at fault."""
    owner, restartable = reader.job.owner(), reader.job.value.members.get("restartable")
    if restartable is not None and restartable.value.held is False:
        reader.fault_at(value.at, owner, f'no "{RESTART}" in a job that may not be restarted', "one")
    elif not policy.after_lost_worker and not policy.exit_statuses:
        reader.fault(value, owner, f'"{AFTER_LOST_WORKER}": true, or "{EXIT_STATUSES}", in {RESTART}')
    elif policy.wait > policy.longest_wait:
        told = f'at most {policy.longest_wait} seconds, the "{LONGEST_WAIT}", as "{WAIT}"'
        reader.fault_at(value.at, owner, told, f"{policy.wait}")
    else:
        return True
    return False


def read_timeout(reader: SettingsReader, told: Mapping[str, Value]) -> JobTimeout | None:
    """The time of the job, and the grace behind it. A grace without a time is at fault."""
    owner = reader.job.owner()
    read = {name: reader.seconds(told[name], owner, name) for name in (TIMEOUT, GRACE) if name in told}
    if GRACE in told and TIMEOUT not in told:
        reader.fault_at(told[GRACE].at, owner, f'"{TIMEOUT}" beside "{GRACE}"', "none")
    seconds = read.get(TIMEOUT)
    return None if seconds is None else JobTimeout(seconds, read.get(GRACE) or USUAL_GRACE)
