"""A log over another catalogue than its own: one that has more jobs behind is taken, any other is refused."""

from __future__ import annotations

import copy
import json
from collections.abc import Callable, Iterator
from functools import partial
from operator import delitem
from pathlib import Path
from typing import Any

from log_trial.log_file import Record, catalogue_record, log_of, operation_record
from log_trial.samples import JOB, OTHER_JOB, catalogue_of
from log_trial.script import Script, lines_of, script_of, want_log
from program import DONE, LOG_REFUSED, Ended, Program, want

# A job with each member that a catalogue may have.
RICH: dict[str, object] = {
    "id": "rich",
    "restartable": False,
    "elements": [
        {
            "kind": "step",
            "id": "first",
            "next": "parts",
            "start-limit": 2,
            "allow-start-if-complete": True,
            "partitions": 3,
            "chunk": {"item-count": 4, "reader": {"ref": "r"}, "processor": {"ref": "p"}, "writer": {"ref": "w"}},
        },
        {
            "kind": "split",
            "id": "parts",
            "next": "way",
            "flows": [
                {"kind": "flow", "id": "left", "elements": [{"kind": "step", "id": "one", "batchlet": {"ref": "ok"}}]},
                {"kind": "flow", "id": "right", "elements": [{"kind": "step", "id": "two", "batchlet": {"ref": "ok"}}]},
            ],
        },
        {
            "kind": "decision",
            "id": "way",
            "ref": "d",
            "transitions": [
                {"kind": "next", "on": "A*", "to": "last"},
                {"kind": "end", "on": "B", "exit-status": "OVER"},
                {"kind": "fail", "on": "C?", "exit-status": "BAD"},
                {"kind": "stop", "on": "D", "exit-status": "HELD", "restart": "first"},
            ],
        },
        {
            "kind": "flow",
            "id": "last",
            "elements": [{"kind": "step", "id": "three", "batchlet": {"ref": "ok"}}],
            "transitions": [{"kind": "end", "on": "*"}],
        },
    ],
}
# Members of that job by their path, and another value of each.
EDITS: list[tuple[str, object]] = [
    ("id", "poor"),
    ("restartable", True),
    ("elements/0/next", "way"),
    ("elements/0/start-limit", 3),
    ("elements/0/allow-start-if-complete", False),
    ("elements/0/partitions", 4),
    ("elements/0/chunk/item-count", 5),
    ("elements/0/chunk/reader/ref", "R"),
    ("elements/0/chunk/processor/ref", "P"),
    ("elements/0/chunk/writer/ref", "W"),
    ("elements/1/next", "last"),
    ("elements/1/flows/0/id", "Left"),
    ("elements/1/flows/0/elements/0/id", "uno"),
    ("elements/1/flows/1/elements/0/batchlet/ref", "no"),
    ("elements/2/ref", "D"),
    ("elements/2/transitions/0/on", "A"),
    ("elements/2/transitions/1/kind", "fail"),
    ("elements/2/transitions/1/exit-status", "over"),
    ("elements/2/transitions/2/exit-status", ""),
    ("elements/2/transitions/3/restart", "parts"),
    ("elements/3/elements/0/id", "four"),
    ("elements/3/transitions/0/on", "?"),
    ("elements/3/transitions", []),
]
# Members that may be left out, and lists whose order counts.
LEFT_OUT = [
    "restartable",
    "elements/0/next",
    "elements/0/start-limit",
    "elements/0/partitions",
    "elements/0/chunk/item-count",
    "elements/0/chunk/processor",
    "elements/2/transitions/1/exit-status",
    "elements/2/transitions/3/restart",
]
TURNED = ["elements", "elements/1/flows", "elements/2/transitions"]
# The same job as JOB: white space, another order of members, escapes, members with their default, one that comes twice.
SAME_JOBS = [
    b' { "jobs" : [ { "id" : "a" , "elements" : [ { "kind" : "step" , "id" : "s" , "batchlet" : { "ref" : "ok" } } ] } ] } ',
    b'{"jobs":[{"elements":[{"batchlet":{"ref":"ok"},"id":"s","kind":"step"}],"id":"a"}]}',
    b'\t{"jobs":[{"id":"\\u0061","elements":[{"kind":"step","id":"s","batchlet":{"ref":"\\u006f\\u006b"}}]}]}\r',
    b'{"jobs":[{"id":"a","restartable":true,"elements":[{"kind":"step","id":"s","start-limit":0,'
    b'"allow-start-if-complete":false,"transitions":[],"batchlet":{"ref":"ok"}}]}]}',
    b'{"jobs":[{"id":"z","id":"a","elements":[{"kind":"step","id":"s","batchlet":{"ref":"ok"}}]}]}',
]


def place_of(job: Any, path: str) -> tuple[Any, Any]:
    """The object or list in which a member stands, and its name or number there."""
    *way, last = [int(name) if name.isdigit() else name for name in path.split("/")]
    for name in way:
        job = job[name]
    return job, last


def changed(path: str, change: Callable[[Any, Any], object]) -> object:
    """That job with a change of one of its members, which is given by what it stands in and by its name."""
    job = copy.deepcopy(RICH)
    change(*place_of(job, path))
    return job


def put(value: object, within: Any, name: Any) -> None:
    within[name] = value


def other_jobs() -> Iterator[tuple[str, object]]:
    """Jobs that differ from that one, each in one place."""
    for path, value in EDITS:
        yield f"{path} is {value!r}", changed(path, partial(put, value))
    for path in LEFT_OUT:
        yield f"{path} left out", changed(path, delitem)
    for path in TURNED:
        yield f"{path} in another order", changed(path, lambda within, name: within[name].reverse())


def other_catalogues() -> Iterator[tuple[str, bytes, int]]:
    """Catalogues that do not begin with the jobs JOB, RICH and OTHER_JOB, and the number of the first job that differs."""
    for name, job in other_jobs():
        yield name, catalogue_of(JOB, job, OTHER_JOB), 1
    more, changed = {"id": "more", "elements": JOB["elements"]}, dict[str, object](restartable=False)
    yield "no job", catalogue_of(), 0
    yield "the first job dropped", catalogue_of(RICH, OTHER_JOB), 0
    yield "the second job dropped", catalogue_of(JOB, OTHER_JOB), 1
    yield "the last job dropped", catalogue_of(JOB, RICH), 2
    yield "two jobs dropped", catalogue_of(JOB), 1
    yield "two jobs moved", catalogue_of(JOB, OTHER_JOB, RICH), 1
    yield "the last job moved ahead", catalogue_of(OTHER_JOB, JOB, RICH), 0
    yield "a job ahead", catalogue_of(more, JOB, RICH, OTHER_JOB), 0
    yield "a job between", catalogue_of(JOB, RICH, more, OTHER_JOB), 2
    yield "a job changed and one behind", catalogue_of(JOB, RICH, OTHER_JOB | changed, more), 2
    yield "another job in place of the last", catalogue_of(JOB, RICH, more), 2


def check_others(program: Program, log: Path) -> None:
    """Catalogues that are refused. Each is one by itself."""
    first = catalogue_record(catalogue_of(JOB, RICH, OTHER_JOB))
    script = script_of(program, "two starts", first.line + b"\n" + starts("a", "b"))
    log.write_bytes(script.log)
    for name, given, number in other_catalogues():
        want(f"{name}: without a log", program.script(given + b"\n"), Ended(DONE))
        line = b'{"fault":"LogOtherCatalogue","job":%d}\n' % number
        want(name, program.over(log, given + b"\n" + starts("b")), Ended(LOG_REFUSED, line))
        want_log(name, log, script.log)
    want("the same catalogue", program.over(log, first.line + b"\n"), Ended(DONE))


def starts(*jobs: str) -> bytes:
    """A start of each job."""
    return lines_of({"do": "start", "by": 1, "at": 1, "job": job} for job in jobs)


def check_same(program: Program, log: Path) -> None:
    """The same catalogue in other words is taken, and nothing is written for it."""
    script = script_of(program, "a start", catalogue_of(JOB) + b"\n" + starts("a"))
    for given in SAME_JOBS:
        log.write_bytes(script.log)
        want(f"{given!r}", program.over(log, given + b"\n"), Ended(DONE))
        want_log(f"{given!r}", log, script.log)
    more = operation_record(starts("a").removesuffix(b"\n"), b'{"execution":2}\n')
    want(
        "a line over the same catalogue",
        program.over(log, SAME_JOBS[0] + b"\n" + starts("a")),
        Ended(DONE, b'{"execution":2}\n'),
    )
    want_log("a line over the same catalogue", log, log_of([*script.records, more]))


def grown_script(program: Program, count: int) -> Script:
    """A script over so many jobs, which starts each of them once."""
    names = [f"job {number}" for number in range(count)]
    line = catalogue_of(*({"id": name, "elements": JOB["elements"]} for name in names))
    return script_of(program, f"{count} jobs", line + b"\n" + starts(*names))


def check_growth(program: Program, log: Path) -> None:
    """Catalogues that grow one after another, from none: each is kept, once, and the ones before it are refused."""
    records = list[Record]()
    for count in range(5):
        script = grown_script(program, count)
        records.append(catalogue_record(script.catalogue))
        want(f"a catalogue of {count} jobs", program.over(log, script.text(0, 0)), Ended(DONE))
        want_log(f"a catalogue of {count} jobs", log, log_of(records))
        found = program.over(log, script.text(max(count - 1, 0)))
        want(f"a start over {count} jobs", found, Ended(DONE, script.told(max(count - 1, 0))))
        records += script.records[1:][-1:]
        want_log(f"a start over {count} jobs", log, log_of(records))
        want(f"{count} jobs again", program.over(log, json_again(script.catalogue) + b"\n"), Ended(DONE))
        want_log(f"{count} jobs again", log, log_of(records))
    for count in range(4):
        line = b'{"fault":"LogOtherCatalogue","job":%d}\n' % count
        want(f"{count} jobs over a log of 4", program.over(log, grown_script(program, count).text()), Ended(LOG_REFUSED, line))
    want_log("catalogues that had grown", log, log_of(records))


def json_again(line: bytes) -> bytes:
    """The same JSON with white space, and the members of each object in another order."""
    return json.dumps(json.loads(line), sort_keys=True).encode()


TRIALS = [check_others, check_same, check_growth]
