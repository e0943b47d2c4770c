"""Jobs in JSL whose workers skip, try again, take checkpoints in other ways, tell listeners and heed a time, in `jsl/steps`.

A worker runs each to its end. What is expected follows Jakarta Batch 2.1, worked out by hand. The rules of a chunk alone are
tested in test_chunk_faults.py, test_checkpoint_policy.py and test_listeners.py.
"""

from __future__ import annotations

import asyncio
import re
from collections.abc import Callable, Collection, Mapping
from pathlib import Path
from typing import Any, NamedTuple

import pytest
from instances import Caller, running, until
from workers import working

from job_host.catalogue import jsl
from job_host.catalogue.folder import read_folder
from job_host.catalogue.jobs import Steps
from job_host.commands.command_line import main
from job_host.service.settings import ServeSettings

Make = Callable[..., ServeSettings]
SAMPLES = Path(__file__).parent / "jsl" / "steps"
JSL = '<job id="a" xmlns="https://jakarta.ee/xml/ns/jakartaee" version="2.0">\n%s\n</job>\n'
OWNER = re.compile(r'(JSL|left out) in job "a"(, step "s")?: ')
# The parts of a chunk, a listener and an algorithm. Its properties say what it does: its items; at which of them, or at which
# events, it says in turn which classes, also after it was started anew; at which item it hangs.
ARTIFACT = """#!/usr/bin/python3 -IS
import json, os, sys, time
from pathlib import Path
own = json.loads(os.environ.get("BATCH_PROPERTIES", "{}"))
name, job = os.path.basename(sys.argv[0]), [os.environ[one] for one in ("BATCH_JOB", "BATCH_STEP")]
base = str(Path(__file__).resolve().parent / ".".join([*job, os.environ.get("BATCH_PARTITION", "")]))
faults = json.loads(own.get("faults", "{}"))
place = left = 0
def note(kind, text):
    with open(f"{base}.{kind}", "a") as file:
        file.write(text + "\\n")
def fault(key):
    said, path = faults.get(str(key), []), Path(f"{base}.{name}.{key}")
    count = len(path.read_text().splitlines()) if path.exists() else 0
    if count >= len(said):
        return {}
    note(f"{name}.{key}", said[count])
    classes = said[count].split()
    return {"fault": f"{name} {key}", "class": classes[0] if len(classes) == 1 else classes}
def read():
    global place
    time.sleep(float(own.get("seconds", 0)))
    if place == int(own["items"]):
        return {"end": True}
    said = fault(place + 1)
    place += 0 if said and "keeps" in own else 1
    return said or {"item": place}
def write(items):
    said = next(filter(None, map(fault, items)), {})
    if not said:
        if own.get("hangs") in map(str, items):
            time.sleep(60)
        note("written", json.dumps(items))
    return said
for line in sys.stdin:
    asked = json.loads(line)
    do, answer = asked["do"], {}
    if do == "open":
        place = int(asked.get("checkpoint") or 0)
        answer = {"events": own["events"].split()} if "events" in own else {}
    elif do == "read":
        answer = read()
    elif do == "checkpoint":
        answer = {"checkpoint": str(place)}
    elif do == "process":
        answer = fault(asked["item"]) or {"item": asked["item"]}
    elif do == "write":
        answer = write(asked["items"])
    elif do == "begin":
        left = int(own["after"])
        answer = {"timeout": float(own["timeout"])} if "timeout" in own else {}
    elif do == "ready":
        left -= 1
        answer = {"ready": left == 0}
    elif do != "end":
        note(f"{name}.heard", " ".join(str(value) for value in asked.values()))
        answer = fault(do)
    print(json.dumps(answer), flush=True)
"""
BATCHLETS = {"loads": "#!/bin/sh\necho LOADED\n", "sleeps": "#!/bin/sh\nsleep 60\n"}


class End(NamedTuple):
    """How a step ends: its batch status, its exit status, its metrics, and what its writer has written."""

    status: str
    exit: str
    metrics: Mapping[str, int] = {}
    written: str = ""


def counts(read: int, write: int, commit: int, **more: int) -> dict[str, int]:
    return {"READ_COUNT": read, "WRITE_COUNT": write, "COMMIT_COUNT": commit, **more}


def completed(metrics: Mapping[str, int], written: str) -> End:
    return End("COMPLETED", "COMPLETED", metrics, written)


def failed(metrics: Mapping[str, int], written: str = "") -> End:
    return End("FAILED", "FAILED", metrics, written)


SKIPPED = {"READ_SKIP_COUNT": 1, "PROCESS_SKIP_COUNT": 1, "WRITE_SKIP_COUNT": 1}
ROLLED_BACK = {"ROLLBACK_COUNT": 1}
# The steps of each job, by their ids.
ENDS: dict[str, dict[str, End]] = {
    "skip_limit": {"copy": completed(counts(5, 2, 2, **SKIPPED), "[1, 4]")},
    "skip_beyond": {
        "copy": failed(counts(2, 2, 1, READ_SKIP_COUNT=1, ROLLBACK_COUNT=1), "[2, 3]"),
        "excluded": failed(ROLLED_BACK),
    },
    "retry_limit": {
        "copy": completed(counts(5, 5, 4, ROLLBACK_COUNT=2), "[1] [2] [3] [4, 5]"),
        "keep": completed(counts(5, 5, 2), "[1, 2, 3] [4, 5]"),
    },
    "retry_beyond": {"copy": failed(counts(1, 1, 1, ROLLBACK_COUNT=2), "[1]"), "keep": failed(ROLLED_BACK)},
    "retry_skip": {"copy": completed(counts(5, 4, 5, ROLLBACK_COUNT=1, WRITE_SKIP_COUNT=1), "[1] [2] [4] [5]")},
    "checkpoint_custom": {
        "copy": completed(counts(5, 5, 2), "[1, 2, 3] [4, 5]"),
        "again": completed(counts(3, 3, 3), "[1] [2] [3]"),
    },
    # How many seconds a group of the first step takes isn't known so well: see the test.
    "checkpoint_time": {"again": completed(counts(3, 3, 2), "[1, 2] [3]")},
    "step_listeners": {
        "copy": completed(counts(3, 3, 2, READ_SKIP_COUNT=1), "[1, 2] [4]"),
        "load": End("COMPLETED", "LOADED"),
    },
    "partition_listeners": {"load": End("FAILED", "FAILED")},
    "step_timeouts": {
        "load": End("FAILED", "timeout"),
        "fast": End("COMPLETED", "LOADED"),
        "copy": End("FAILED", "timeout", counts(2, 2, 1, ROLLBACK_COUNT=1), "[1, 2]"),
    },
}
# What listeners have heard, by job, step, partition and listener.
HEARD = {
    "step_listeners.copy..audit": [
        *("beforeStep", "beforeChunk", "afterRead 1", "afterRead 2", "afterWrite [1, 2]", "afterChunk"),
        *("beforeChunk", "onSkipReadItem rows 3 ['rows.Bad']", "afterRead 4", "afterRead True", "afterWrite [4]", "afterChunk"),
        "afterStep COMPLETED None",
    ],
    "step_listeners.copy..timer": ["afterChunk", "afterChunk", "afterStep COMPLETED None"],
    "step_listeners.load..audit": ["beforeStep", "afterStep COMPLETED LOADED"],
    "partition_listeners.load.0.audit": ["beforeStep", "afterStep COMPLETED LOADED"],
    "partition_listeners.load.1.audit": ["beforeStep", "afterStep COMPLETED LOADED"],
}
BAD, BUSY, HARMLESS = {"include": ["rows.Bad"]}, {"include": ["rows.Busy"]}, {"include": ["com.example.Harmless"]}
BUT_FILES = {"include": ["java.lang.Exception"], "exclude": ["java.io.FileNotFoundException"]}
SKIPPABLE, RETRYABLE, WITHOUT_ROLLBACK = jsl.EXCEPTION_CLASSES
HOURLY = {"checkpoint-algorithm": {"ref": "hourly"}}


def listeners(*refs: str) -> dict[str, Any]:
    return {"listeners": [{"ref": ref, "use": f"listener-{place}"} for place, ref in enumerate(refs, 1)]}


# What a claim tells of the steps.
TOLD: dict[str, Steps] = {
    "skip_limit": {"copy": {"chunk": {"skip-limit": 3, SKIPPABLE: BUT_FILES}}},
    "skip_beyond": {"copy": {"chunk": {"skip-limit": 1, SKIPPABLE: BAD}}, "excluded": {"chunk": {SKIPPABLE: BUT_FILES}}},
    "retry_limit": {
        "copy": {"chunk": {"retry-limit": 2, RETRYABLE: {"include": ["java.sql.SQLException"]}, WITHOUT_ROLLBACK: HARMLESS}},
        "keep": {"chunk": {"retry-limit": 3, RETRYABLE: {"include": ["java.lang.Exception"]}, WITHOUT_ROLLBACK: HARMLESS}},
    },
    "retry_beyond": {
        "copy": {"chunk": {"retry-limit": 1, RETRYABLE: BUSY}},
        "keep": {"chunk": {"retry-limit": 1, RETRYABLE: BUSY, WITHOUT_ROLLBACK: {**BUSY, "exclude": ["rows.Other"]}}},
    },
    "retry_skip": {"copy": {"chunk": {"skip-limit": 1, SKIPPABLE: BAD, "retry-limit": 1, RETRYABLE: BAD}}},
    "checkpoint_custom": {"copy": {"chunk": HOURLY}, "again": {"chunk": HOURLY}},
    "checkpoint_time": {"copy": {"chunk": {"time-limit": 1}}, "again": {"chunk": {"time-limit": 3600}}},
    "step_listeners": {"copy": {**listeners("audit", "timer"), "chunk": {SKIPPABLE: BAD}}, "load": listeners("audit")},
    "partition_listeners": {"load": listeners("audit")},
    "step_timeouts": {"load": {"timeout": 1}, "fast": {"timeout": 600}, "copy": {"timeout": 4}},
}
UNFINISHED = "/batch/jobexecutions?status=STARTING&status=STARTED&status=STOPPING"


@pytest.fixture
def artifacts(tmp_path: Path) -> Path:
    folder = tmp_path / "artifacts"
    folder.mkdir()
    for name, text in {**dict.fromkeys(("rows", "texts", "table", "hourly", "audit", "timer"), ARTIFACT), **BATCHLETS}.items():
        (folder / name).write_text(text)
        (folder / name).chmod(0o755)
    return folder


async def until_all_have_ended(caller: Caller) -> None:
    async def has_none() -> bool:
        await asyncio.sleep(0.2)
        return not (await caller.ask("GET", UNFINISHED)).told["jobExecutions"]

    await until(has_none, 120)


def written(artifacts: Path, job: str, step: str) -> str:
    path = artifacts / f"{job}.{step}..written"
    return " ".join(path.read_text().splitlines()) if path.exists() else ""


async def ends_of(caller: Caller, execution: int, artifacts: Path, job: str) -> dict[str, End]:
    steps = (await caller.ask("GET", f"/batch/jobexecutions/{execution}")).told["stepExecutions"]
    return {
        one["stepName"]: End(one["batchStatus"], one["exitStatus"], one["metrics"], written(artifacts, job, one["stepName"]))
        for one in steps
    }


async def test_each_job_runs_to_its_end(settings: Make, artifacts: Path) -> None:
    async with running(settings(catalogue=SAMPLES, is_folder=True)) as instance, working(instance.url, artifacts, 4):
        caller = Caller(instance.url)
        started = {job: (await caller.start(job)).told["executionId"] for job in ENDS}
        await until_all_have_ended(caller)
        ends = {job: await ends_of(caller, execution, artifacts, job) for job, execution in started.items()}
        log = (await caller.ask("GET", f"/batch/jobexecutions/{started['retry_skip']}/joblogs")).told[0]["log"]
    slow = ends["checkpoint_time"].pop("copy")
    assert ends == ENDS
    heard = {path.name.removesuffix(".heard"): path.read_text().splitlines() for path in artifacts.glob("*.heard")}
    assert heard == HEARD
    assert slow.written.replace("] [", ", ") == "[1, 2, 3, 4]" and 2 <= slow.metrics["COMMIT_COUNT"] <= 4
    assert log == "jobhost: tried again: table: write: table 3\njobhost: skipped: table: write: table 3\n"


def test_each_job_is_told_to_its_workers() -> None:
    read = read_folder(SAMPLES, ())
    assert read.refused == []
    assert {job: one.steps for job, one in read.for_workers.items()} == TOLD
    assert set(ENDS) == set(TOLD)


def test_a_claim_tells_properties_of_listeners_and_algorithms() -> None:
    read = read_folder(SAMPLES, ())
    told = read.for_workers["step_listeners"].properties.at_claim({"element": "copy"}, {})
    events = "beforeStep afterStep beforeChunk afterRead onSkipReadItem afterWrite afterChunk"
    assert told["listener-1"] == {"events": events} and told["listener-2"] == {"events": "afterChunk afterStep"}
    told = read.for_workers["checkpoint_custom"].properties.at_claim({"element": "again"}, {})
    assert told["checkpoint-algorithm"] == {"after": "1", "timeout": "60"}
    told = read.for_workers["partition_listeners"].properties.at_claim({"element": "load", "partition": 1}, {})
    assert told["listener-1"]["faults"] == '{"afterStep": [""]}'


async def test_a_claim_tells_of_its_step_and_no_more(settings: Make) -> None:
    async with running(settings(catalogue=SAMPLES, is_folder=True)) as instance:
        caller = Caller(instance.url)
        await caller.start("retry_skip")
        assert (await caller.claim()).told["step"] == TOLD["retry_skip"]["copy"]
        await caller.start("step_timeouts")
        told = (await caller.claim()).told
        assert told["step"] == {"timeout": 1} and "properties" not in told


CHUNK = '<step id="s"><chunk%s><reader ref="r"/><writer ref="w"/>%s</chunk></step>'
INCLUDE = '<include class="a.B"/>'
SKIPS = f"<{SKIPPABLE}>{INCLUDE}</{SKIPPABLE}>"
RETRIES = f"<{RETRYABLE}>{INCLUDE}</{RETRYABLE}>"
ALGORITHM = '<checkpoint-algorithm ref="hourly"/>'
NUMBER = "expected a whole number from 0 to 4294967295 as"
# A fault, and behind which text it stands in the second line.
FAULTS = [
    (CHUNK % (' skip-limit="many"', SKIPS), "skip-limit=", f'{NUMBER} "skip-limit", found "many"'),
    (CHUNK % (' skip-limit="-1"', SKIPS), "skip-limit=", f'{NUMBER} "skip-limit", found "-1"'),
    (CHUNK % (' retry-limit="4294967296"', RETRIES), "retry-limit=", f'{NUMBER} "retry-limit", found "4294967296"'),
    (CHUNK % (' time-limit=""', ""), "time-limit=", f'{NUMBER} "time-limit", found ""'),
    (
        CHUNK % (' checkpoint-policy="costum"', ALGORITHM),
        "policy=",
        'expected "item" or "custom" as "checkpoint-policy", found "costum"; did you mean `custom`?',
    ),
    (
        CHUNK % (' checkpoint-policy="custom"', ""),
        "policy=",
        'expected <checkpoint-algorithm> beside checkpoint-policy="custom", found none',
    ),
    (
        CHUNK % (' checkpoint-policy="custom"', "<checkpoint-algorithm/>"),
        '<writer ref="w"/>',
        'expected "ref" in <checkpoint-algorithm>, found none',
    ),
    (
        CHUNK % ("", f"<{SKIPPABLE}><includes class='a.B'/></{SKIPPABLE}>"),
        f"<{SKIPPABLE}>",
        f"expected <include>, <exclude> in <{SKIPPABLE}>, found <includes>; did you mean `include`?",
    ),
    (CHUNK % ("", f"<{SKIPPABLE}><include/></{SKIPPABLE}>"), f"<{SKIPPABLE}>", 'expected "class" in <include>, found none'),
    (
        CHUNK % ("", f"<{SKIPPABLE}><exclude class=''/></{SKIPPABLE}>"),
        f"<{SKIPPABLE}>",
        'expected "class" in <exclude>, found an empty one',
    ),
    (
        CHUNK % ("", f"<{RETRYABLE}><include class='a.B' name='a.C'/></{RETRYABLE}>"),
        "'a.B' ",
        'expected "class" in <include>, found "name"',
    ),
    (CHUNK % ("", SKIPS + SKIPS), f"</{SKIPPABLE}>", f"expected one <{SKIPPABLE}> in <chunk>, found another one"),
    (
        '<step id="s"><listeners><listner ref="a"/></listeners><batchlet ref="b"/></step>',
        "<listeners>",
        "expected <listener> in <listeners>, found <listner>; did you mean `listener`?",
    ),
    (
        '<step id="s"><listeners><listener/></listeners><batchlet ref="b"/></step>',
        "<listeners>",
        'expected "ref" in <listener>, found none',
    ),
    (
        f'<step id="s"><listeners><listener ref="{"x" * 256}"/></listeners><batchlet ref="b"/></step>',
        "<listener ref=",
        'expected at most 255 bytes as "ref" of <listener>, found more',
    ),
    (
        '<step id="s"><listeners><listener ref="#{jobParameters[\'a\']}"/></listeners><batchlet ref="b"/></step>',
        "<listener ref=",
        'the substitution of jobParameters in "ref" has no place in a catalogue: a job parameter is known only after the start '
        "(--allow jobParameters takes it for not given)",
    ),
    (
        '<listeners><listener ref="audit"/></listeners><step id="s"><batchlet ref="b"/></step>',
        "",
        '<listeners> of "audit" has no place in a catalogue: no listener of a job is called, but those of its steps are '
        "(--allow listeners leaves it out)",
    ),
]


def read_one(folder: Path, inner: str, allowed: Collection[str] = ()) -> tuple[list[str], list[str], Steps]:
    """The faults of one job, what was left out of it, each without file, job and step; and what its steps are told."""
    (folder / "a.xml").write_text(JSL % inner)
    read = read_folder(folder, allowed)
    refused, told = (
        [OWNER.sub("", line.removeprefix(f"{folder}/a.xml:")) for line in some] for some in (read.refused, read.told)
    )
    return refused, told, read.for_workers["a"].steps if "a" in read.for_workers else {}


@pytest.mark.parametrize(("inner", "before", "fault"), FAULTS)
def test_a_fault_has_its_place(tmp_path: Path, inner: str, before: str, fault: str) -> None:
    refused, _, _ = read_one(tmp_path, inner)
    assert refused == [f"2:{inner.index(before) + len(before) + 1}: {fault}"]


HANDLED = CHUNK % (' skip-limit="1" retry-limit="2"', SKIPS + RETRIES + f"<{WITHOUT_ROLLBACK}>{INCLUDE}</{WITHOUT_ROLLBACK}>")
TAKEN_AT = CHUNK % (' checkpoint-policy="custom" item-count="3" time-limit="4"', ALGORITHM)
CLASSES = {"include": ["a.B"]}
RETRIED = {"chunk": {"retry-limit": 2, RETRYABLE: CLASSES, WITHOUT_ROLLBACK: CLASSES}}
# The forms that are allowed, what is left out then, and what the step is told.
LEFT_OUT: list[tuple[str, list[str], list[str], dict[str, Any]]] = [
    (HANDLED, [], [], {"chunk": {"skip-limit": 1, SKIPPABLE: CLASSES, **RETRIED["chunk"]}}),
    (HANDLED, ["skip-limit"], ['skip-limit="1"', f'<{SKIPPABLE}> of "a.B"'], RETRIED),
    (HANDLED, [SKIPPABLE], ['skip-limit="1"', f'<{SKIPPABLE}> of "a.B"'], RETRIED),
    (
        HANDLED,
        [WITHOUT_ROLLBACK],
        ['retry-limit="2"', f'<{RETRYABLE}> of "a.B"', f'<{WITHOUT_ROLLBACK}> of "a.B"'],
        {"chunk": {"skip-limit": 1, SKIPPABLE: CLASSES}},
    ),
    (CHUNK % (' skip-limit="1" retry-limit="1"', ""), [], ['skip-limit="1"', 'retry-limit="1"'], {}),
    (
        CHUNK % ("", f"<{WITHOUT_ROLLBACK}>{INCLUDE}</{WITHOUT_ROLLBACK}>"),
        [],
        [f'<{WITHOUT_ROLLBACK}> of "a.B"'],
        {},
    ),
    (TAKEN_AT, [], ['time-limit="4"'], {"chunk": HOURLY}),
    (
        TAKEN_AT,
        ["checkpoint-policy"],
        ['checkpoint-policy="custom"', '<checkpoint-algorithm> of "hourly"'],
        {"chunk": {"time-limit": 4}},
    ),
    (
        TAKEN_AT,
        ["checkpoint-algorithm", "time-limit"],
        ['checkpoint-policy="custom"', 'time-limit="4"', '<checkpoint-algorithm> of "hourly"'],
        {},
    ),
    (
        CHUNK % (' checkpoint-policy="item" time-limit="0"', ALGORITHM),
        [],
        ['checkpoint-policy="item"', 'time-limit="0"', '<checkpoint-algorithm> of "hourly"'],
        {},
    ),
    (
        '<step id="s"><listeners><listener ref="audit"/></listeners><batchlet ref="b"/></step>',
        ["listeners"],
        ['<listeners> of "audit"'],
        {},
    ),
]


@pytest.mark.parametrize(("inner", "allowed", "left_out", "step"), LEFT_OUT)
def test_what_is_left_out_is_named(
    tmp_path: Path, inner: str, allowed: list[str], left_out: list[str], step: dict[str, Any]
) -> None:
    """A form that says nothing, and one that is allowed with those that mean nothing without it."""
    refused, told, steps = read_one(tmp_path, inner, allowed)
    assert refused == [] and steps == ({"s": step} if step else {})
    assert [line.split(": ")[1] for line in told] == left_out


def test_a_step_inside_others_is_told_alone(tmp_path: Path) -> None:
    """Neither the elements around it nor those behind it have what it has."""
    step = '<step id="%s"><listeners><listener ref="%s"/></listeners><batchlet ref="b"/></step>'
    flow = f'<flow id="f"><step id="two"><listeners/><batchlet ref="b"/></step>{step % ("one", "audit")}</flow>'
    behind = f'{step % ("three", "timer")}<flow id="g">{CHUNK % ("", "")}</flow>'
    refused, _, steps = read_one(tmp_path, f'<split id="both">{flow}</split>{behind}')
    assert refused == [] and steps == {"one": listeners("audit"), "three": listeners("timer")}


def test_a_check_warns_of_executables_that_are_missing(
    artifacts: Path, tmp_path: Path, capfd: pytest.CaptureFixture[str]
) -> None:
    """Of listeners and algorithms too, each where it is named."""
    for name in ("timer", "hourly"):
        (artifacts / name).rename(artifacts / f"{name}s")
    main(["catalogue", "check", "--jobs", "--artifacts", str(artifacts), str(SAMPLES)])
    told = capfd.readouterr().out.replace(f"{SAMPLES}/", "")
    lost = f": no worker over {artifacts} has the artifact"
    warnings = sorted(line.replace(lost, " lacks") for line in told.splitlines() if lost in line)
    assert warnings == [
        'checkpoint_custom.xml:17:33: warning in job "checkpoint_custom", step "again" lacks "hourly"; did you mean `hourlys`?',
        'checkpoint_custom.xml:8:33: warning in job "checkpoint_custom", step "copy" lacks "hourly"; did you mean `hourlys`?',
        'step_listeners.xml:12:21: warning in job "step_listeners", step "copy" lacks "timer"; did you mean `timers`?',
    ]


def test_a_catalogue_has_no_place_for_them(capfd: pytest.CaptureFixture[str]) -> None:
    """Without a folder they are named as ever."""
    names = ["listeners", "listeners", "skippable-exception-classes", "listeners"]
    assert main(["catalogue", "line", str(SAMPLES / "step_listeners.xml")]) == 1
    told = [line for line in capfd.readouterr().err.splitlines() if "--allow properties" not in line]
    assert [line.split("--allow ")[1].split()[0] for line in told] == [names[0], names[2], names[3]]
    assert main(["catalogue", "line", str(SAMPLES)]) == 0
