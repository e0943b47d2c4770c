"""What a check tells of any catalogue: batchctl's fault first, and no fault that isn't there."""

from __future__ import annotations

from collections.abc import Sequence
from typing import Any

from job_host.catalogue.check import check
from job_host.catalogue.faults import Fault
from job_host.catalogue.file import read_json
from job_host.catalogue.finder import FaultFinder
from job_host.catalogue.text import one_line
from job_host.catalogue.verdicts import ask
from job_host.protocol.lines import compact


def answer_of(fault: Fault) -> dict[str, Any]:
    """The line with which batchctl refuses a catalogue that has this fault first."""
    if fault.owner.job is None:
        return {"fault": fault.name}
    element = {"element": fault.owner.element} if fault.name == "BadElement" else {}
    return {**element, "fault": fault.name, "job": fault.owner.job}


def told_wrongly(batchctl: Sequence[str], data: bytes) -> tuple[str, str]:
    """The fault that comes first, and what is told wrongly, which is nothing if all is well."""
    file = read_json("file", data)
    line = file.line or b""
    verdict = ask(batchctl, line)
    name = "accepted" if verdict.answer is None else str(verdict.answer["fault"])
    if b"\n" in line or one_line(line) != line:
        return name, "the line is none, or not the shortest"
    if verdict.answer is None or file.root is None or file.faults:
        faults = check(file, batchctl).faults
        return (
            name,
            "" if [answer_of(fault) for fault in faults[:1]] == [one for one in [verdict.answer] if one] else f"{faults}",
        )
    finder = FaultFinder(file.source, file.root, batchctl)
    finder.find(verdict)
    if answer_of(finder.faults[0]) != verdict.answer or finder.faults[0].expected == "no such fault":
        return name, f"{finder.faults[0]} is told of {verdict}"
    places = [(fault.name, fault.at) for fault in finder.faults]
    if len(set(places)) < len(places) or not all(0 <= at < len(file.source.text) for _, at in places):
        return name, f"{places} are told, in {len(file.source.text)} characters"
    # With all repairs it is a good catalogue: what was told is gone.
    jobs = [finder.repairs.job(number) for number in range(finder.repairs.count)]
    left = None if finder.notes else ask(batchctl, compact({"jobs": jobs})).answer
    return name, f"{left} is left after repairs" if left is not None else ""
