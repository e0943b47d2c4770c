"""Answers of the repository in the words of Open Liberty's batch REST interface."""

from __future__ import annotations

from collections.abc import Mapping, Sequence
from typing import Any

from job_host.protocol.moments import moment

Told = Mapping[str, Any]


def link(rel: str, href: str) -> dict[str, str]:
    return {"rel": rel, "href": href}


def execution_links(execution: int, instance: int) -> list[dict[str, str]]:
    path = f"/batch/jobexecutions/{execution}"
    return [
        link("self", path),
        link("job instance", f"/batch/jobinstances/{instance}"),
        link("step executions", f"{path}/stepexecutions"),
        link("job logs", f"{path}/joblogs"),
    ]


def instance_links(instance: int, executions: Sequence[int]) -> list[dict[str, str]]:
    path = f"/batch/jobinstances/{instance}"
    told = [link("self", path), link("job executions", f"{path}/jobexecutions")]
    return told + [link("job execution", f"/batch/jobexecutions/{execution}") for execution in executions]


def version_of(told: Told) -> dict[str, int]:
    """The version of the job that a row tells, if it is above 1."""
    return {"version": told["version"]} if "version" in told else {}


def job_instance(newest: Told, executions: Sequence[int]) -> dict[str, Any]:
    """A job instance by its newest job execution, and with links to these."""
    instance = newest["instance"]
    return {
        "jobName": newest["job"],
        "jobXMLName": newest["job"],
        **version_of(newest),
        "instanceId": instance,
        "batchStatus": newest["status"],
        "instanceState": newest["status"],
        "exitStatus": newest["exit"],
        "lastUpdatedTime": moment(newest["updated"]),
        "executionId": newest["execution"],
        "_links": instance_links(instance, executions),
    }


def job_execution_row(told: Told) -> dict[str, Any]:
    """A job execution without its parameters and step executions."""
    return {
        "jobName": told["job"],
        **version_of(told),
        "executionId": told["execution"],
        "instanceId": told["instance"],
        "batchStatus": told["status"],
        "exitStatus": told["exit"],
        "createTime": moment(told["create"]),
        "startTime": moment(told["start"]),
        "endTime": moment(told["end"]),
        "lastUpdatedTime": moment(told["updated"]),
    }


def job_execution(told: Told, parameters: Told, steps: Sequence[Told]) -> dict[str, Any]:
    execution, instance = told["execution"], told["instance"]
    return {
        **job_execution_row(told),
        "jobParameters": dict(parameters),
        "stepExecutions": [step_execution(step, instance) for step in steps],
        "_links": execution_links(execution, instance),
    }


def step_execution(told: Told, instance: int) -> dict[str, Any]:
    return {
        "stepExecutionId": told["work"],
        "stepName": told["step"],
        "executionId": told["execution"],
        "instanceId": instance,
        "batchStatus": told["status"],
        "exitStatus": told["exit"],
        "startTime": moment(told["start"]),
        "endTime": moment(told["end"]),
        "metrics": dict(told["metrics"]),
    }


def begun(execution: int, instance: Told) -> dict[str, Any]:
    """What a start or restart made. Its job instance may have been purged since, and is left out then."""
    told: dict[str, Any] = {"executionId": execution}
    if "instance" in instance:
        told |= {"instanceId": instance["instance"], "jobName": instance["job"], "jobXMLName": instance["job"]}
        told |= version_of(instance)
        told["_links"] = execution_links(execution, instance["instance"])
    return told


def work_item(work: Told, instance: Told, parameters: Told) -> dict[str, Any]:
    """A work item as the repository tells it, with the job and the parameters of its job execution."""
    told: dict[str, Any] = {"work": dict(work), "jobParameters": dict(parameters.get("parameters", {}))}
    if "instance" in instance:
        told |= {"jobName": instance["job"], **version_of(instance), "instanceId": instance["instance"]}
    return told
