"""What the settings of a job let the leader do by itself: policies that stand beside the job, and belong to its version."""

from __future__ import annotations

from dataclasses import dataclass

from job_host.catalogue.patterns import matches
from job_host.catalogue.queues import DEFAULT_QUEUE
from job_host.catalogue.schedules import Schedule

USUAL_RESTARTS = 3
USUAL_WAIT, USUAL_LONGEST_WAIT = 30, 3_600
USUAL_GRACE = 60


@dataclass(frozen=True)
class RestartPolicy:
    """When a FAILED job execution is restarted: at most so many times a job instance, and after which wait in seconds."""

    after_lost_worker: bool = False
    exit_statuses: tuple[str, ...] = ()
    most: int = USUAL_RESTARTS
    wait: int = USUAL_WAIT
    longest_wait: int = USUAL_LONGEST_WAIT

    def covers(self, exit_status: str, is_lost: bool) -> bool:
        """Whether a work item that failed so is a cause for a restart."""
        return (is_lost and self.after_lost_worker) or any(matches(one, exit_status) for one in self.exit_statuses)

    def wait_after(self, restarts: int) -> int:
        """The seconds before the next restart. Each restart that was made doubles them, up to the longest."""
        doubled = self.wait << min(restarts, self.longest_wait.bit_length())
        return min(doubled, self.longest_wait)


@dataclass(frozen=True)
class JobTimeout:
    """After how many seconds a job execution is stopped, and after how many more it is late if it hasn't ended."""

    seconds: int
    grace: int = USUAL_GRACE


@dataclass(frozen=True)
class JobPolicies:
    """The policies of one version of a job. What isn't there isn't done.

    With `one_at_a_time` nothing of the job is started or restarted while a job execution of it isn't finished. With
    `once_by_parameters` a second start with the same parameters tells of the first one, as long as that is there.
    """

    restart: RestartPolicy | None = None
    timeout: JobTimeout | None = None
    schedule: Schedule | None = None
    queue: str = DEFAULT_QUEUE
    one_at_a_time: bool = False
    once_by_parameters: bool = False


NO_POLICIES = JobPolicies()
