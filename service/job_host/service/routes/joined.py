"""What a service with several queues does otherwise: requests that are about all of them, or about that of a job.

A request with a number in its path is about the queue of that number, and isn't named here.
"""

from __future__ import annotations

from collections.abc import Mapping

from job_host.service.http.requests import Asked, Handler, Route
from job_host.service.problems import Problem
from job_host.service.routes import joined_jobs, joined_lists, joined_work

JOINED: Mapping[tuple[str, str], Handler] = {
    ("GET", "/batch/jobs"): joined_lists.list_jobs,
    ("GET", "/batch/catalogue"): joined_lists.show_catalogue,
    ("GET", "/batch/catalogue/picture"): joined_jobs.show_picture,
    ("GET", "/batch/jobinstances"): joined_lists.list_instances,
    ("POST", "/batch/jobinstances"): joined_jobs.start_instance,
    ("GET", "/batch/jobexecutions"): joined_lists.list_all_executions,
    ("GET", "/batch/open"): joined_lists.list_open,
    ("GET", "/batch/schedules"): joined_jobs.list_schedules,
    ("PUT", "/batch/jobs/{name}"): joined_jobs.apply_job,
    ("DELETE", "/batch/jobs/{name}"): joined_jobs.withdraw_job,
    ("GET", "/batch/jobs/{name}/versions"): joined_jobs.show_versions,
    ("GET", "/batch/history"): joined_jobs.show_history,
    ("GET", "/batch/audit"): joined_jobs.list_audit,
    ("GET", "/batch/audit/head"): joined_jobs.show_head,
    ("GET", "/batch/work"): joined_work.list_held,
    ("GET", "/batch/workers"): joined_work.list_workers,
    ("PUT", "/batch/workers"): joined_work.change_worker,
    ("POST", "/batch/work"): joined_work.claim,
    ("DELETE", "/batch/work"): joined_work.withdraw,
    ("POST", "/batch/work/reports"): joined_work.take_reports,
}


def chosen(asked: Asked, route: Route) -> tuple[Handler, Asked]:
    """Who answers a request, and about which queue."""
    if asked.host.queues.are_plain:
        return route.handler, asked
    if "{id}" in route.path:
        return route.handler, asked.by_path()
    return JOINED.get((route.method, route.path), route.handler), asked


def told_of_queue(asked: Asked, problem: Problem) -> Problem:
    """A problem that says how many operations it saw of a queue, as with several queues that is said."""
    if problem.operations is not None:
        problem.seen = asked.seen_text(problem.operations)
    return problem
