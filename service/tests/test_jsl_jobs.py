"""Jobs in JSL as people have them, in `jsl/jobs` and `jsl/refused`: a worker runs them to their ends, or their forms are named.

What an artifact finds is compared with what "Job XML Substitution" of Jakarta Batch 2.1 wants, worked out by hand.
"""

from __future__ import annotations

import asyncio
import json
import re
import shutil
from collections.abc import Callable, Mapping
from pathlib import Path
from typing import Any, NamedTuple

import pytest
from instances import Caller, Instance, running, until
from workers import working

from job_host.catalogue import jsl
from job_host.catalogue.folder import read_folder
from job_host.service.settings import ServeSettings

Make = Callable[..., ServeSettings]
SAMPLES = Path(__file__).parent / "jsl"
ALLOW = re.compile(r"--allow ([\w-]+)")
# A batchlet, a decider, and the parts of a chunk. It tells its properties in its log, and has the exit status of `exit`.
ARTIFACT = """#!/usr/bin/python3 -IS
import json, os, sys
def read(name):
    return json.loads(os.environ.get(name, "{}"))
own = read("BATCH_PROPERTIES")
name, partition = os.path.basename(sys.argv[0]), os.environ.get("BATCH_PARTITION")
at = os.environ["BATCH_STEP"] + (partition and "." + partition or "") + (name != "shows" and "/" + name or "")
told = {"at": at, "own": own, "job": read("BATCH_JOB_PROPERTIES"), "step": read("BATCH_STEP_PROPERTIES")}
print(json.dumps(told), file=sys.stderr, flush=True)
if "exit" in own:
    open(os.environ["BATCH_EXIT_STATUS_FILE"], "w").write("exit-status: " + own["exit"])
place = 0
for line in sys.stdin:
    told = json.loads(line)
    answer = {}
    if told["do"] == "read":
        answer = {"item": place} if place < int(own.get("items") or 0) else {"end": True}
        place += 1
    elif told["do"] == "checkpoint":
        answer = {"checkpoint": str(place)}
    elif told["do"] == "process":
        answer = {"item": told["item"]}
    print(json.dumps(answer), flush=True)
"""


class Run(NamedTuple):
    """A start of a job, the end that it comes to, and the properties that each artifact finds."""

    job: str
    end: tuple[str, str]
    found: Mapping[str, Mapping[str, str]]
    parameters: Mapping[str, str] = {}


COMPLETED = ("COMPLETED", "COMPLETED")
SLY = "#{jobProperties['x']}?:y;"
INFILE = {"infile": "f.txt"}
RUNS = [
    Run("batchlet_properties", COMPLETED, {"load": {"infile": "in.txt", "outfile": "out.txt"}, "report": {}}),
    Run(
        "batchlet_escapes",
        COMPLETED,
        {
            "load": {
                "query": "select \"a\" from t where a < 3 && b > 'x'",
                "lines": "one\ntwo\tthree",
                "wrapped": "one two",
                "empty": "",
                "größe": "10 €",
            }
        },
    ),
    Run("job_properties", COMPLETED, {"load": {"infile": "postings.txt", "late": "late"}}),
    Run(
        "step_properties",
        COMPLETED,
        {"load": {"table": "public.rows_new", "again": "public.rows_new"}, "report": {"table": "rows"}},
    ),
    Run("chunk_parts", COMPLETED, {"copy/rows": {"items": "3"}, "copy/same": {"keep": "all"}, "copy/table": {"to": "t"}}),
    Run(
        "chunk_scopes",
        COMPLETED,
        {
            "copy/rows": {"name": "reader in step in job", "inner": "reader in step in job"},
            "copy/table": {"outer": "step in job", "inner": "unknown"},
        },
    ),
    Run("partition_batchlet", COMPLETED, {"print.0": {"filename": "file1.txt"}, "print.1": {"filename": "file2.txt"}}),
    Run(
        "partition_chunk",
        COMPLETED,
        {
            "copy.0/rows": {"items": "0"},
            "copy.0/table": {"to": "part-a"},
            "copy.1/rows": {"items": "2"},
            "copy.1/table": {"to": "part-b"},
            "copy.2/rows": {"items": "0"},
            "copy.2/table": {"to": "part-"},
        },
    ),
    Run(
        "partition_scopes",
        COMPLETED,
        {
            "print.0": {"path": "/srv/all/north.csv", "region": "north", "other": ""},
            "print.1": {"path": "", "region": "south", "other": ""},
            "report": {"region": ""},
        },
        {"suffix": "csv"},
    ),
    Run("decision_properties", COMPLETED, {"day": {"exit": "SUNDAY"}, "report": {}}),
    Run("decision_parameters", ("FAILED", "FAILED"), {"load": {}, "which": {"exit": "NONE"}}),
    Run(
        "decision_parameters",
        COMPLETED,
        {"load": {}, "which": {"exit": "MAIL"}, "mail": {"to": "MAIL@example.com"}},
        {"which": "MAIL"},
    ),
    Run(
        "flow_properties",
        COMPLETED,
        {"load": {"region": "north"}, "check": {"region": "south of north"}, "report": {"region": "north"}},
    ),
    Run("flow_nested", COMPLETED, {"first": {"exit": "READY"}, "last": {"after": "inner"}}),
    Run("split_properties", COMPLETED, {"load": {"side": "left"}, "copy": {"side": "none"}, "report": {}}),
    Run("split_nested", COMPLETED, {"which": {"exit": "GO"}, "deep": {"depth": "2"}}),
    Run(
        "parameters",
        COMPLETED,
        {"load": {"infile.name": "f.txt", "twice": "f.txt-f.txt", "none": "[]", "sly": SLY, "odd name": "\0"}},
        {**INFILE, "sly": SLY, "odd <name>": "\0"},
    ),
    Run(
        "parameters_defaults",
        COMPLETED,
        {
            "load": {
                "text": "in.txt",
                "given": "f.txt",
                "other": "postings.txt",
                "path": "/f.txt.txt",
                "two": "ab",
                "nothing": "",
                "no default": "a?:b;",
            }
        },
        INFILE,
    ),
    Run(
        "system_properties",
        COMPLETED,
        {"load": {"stage": "test", "path": "test/testtest.txt", "secret": "hidden", "home": "[]"}},
    ),
    Run("system_scopes", COMPLETED, {"load.0": {"file": "test/f.txt/0", "none": "test/f.txt"}}, INFILE),
    Run("property_names", COMPLETED, {"load": {"infile": "in.txt", "outfile": "in.txt.out", "twice": "12"}}),
    Run("transitions_next", ("COMPLETED", "NO ROWS"), {"load": {"exit": "AGAIN1"}, "mend": {"exit": "EMPTY"}}),
    Run("transitions_restart", ("FAILED", "NO FILE"), {"load": {"exit": "BAD"}}, {"exit": "BAD"}),
    Run("attributes", ("COMPLETED", "reported"), {"copy/rows": {"items": "2"}, "copy/table": {}, "report": {}}),
    Run("attributes_defaults", COMPLETED, {"print.0": INFILE, "print.1": INFILE}, {**INFILE, "partitions": "3"}),
    Run("first_version", COMPLETED, {"load": INFILE}, INFILE),
    Run("latin", COMPLETED, {"load": {"infile": "größe"}}),
]
# The restarts of `transitions_restart`, one after the other.
RESTARTS = [
    Run("transitions_restart", ("STOPPED", "WAITS"), {"load": {"exit": "LATER"}}, {"exit": "LATER"}),
    Run("transitions_restart", COMPLETED, {"report": {"told": "nothing"}}),
]
# What artifacts find of the properties around them.
AROUND: dict[str, dict[str, tuple[dict[str, str], dict[str, str]]]] = {
    "batchlet_properties": {"load": ({}, {})},
    "step_properties": {
        "load": ({"table": "rows", "schema": "public"}, {"table": "public.rows"}),
        "report": ({"table": "rows", "schema": "public"}, {}),
    },
    "partition_scopes": {"print.1": ({"folder": "/srv/all"}, {"region": "south"})},
    "system_scopes": {"load.0": ({"root": "test"}, {"folder": "test/f.txt"})},
}
UNFINISHED = "/batch/jobexecutions?status=STARTING&status=STARTED&status=STOPPING"


@pytest.fixture
def artifacts(tmp_path: Path) -> Path:
    folder = tmp_path / "artifacts"
    folder.mkdir()
    for name in ("shows", "rows", "same", "table"):
        (folder / name).write_text(ARTIFACT)
        (folder / name).chmod(0o755)
    return folder


async def until_all_have_ended(caller: Caller) -> None:
    async def has_none() -> bool:
        await asyncio.sleep(0.2)
        return not (await caller.ask("GET", UNFINISHED)).told["jobExecutions"]

    await until(has_none, 120)


async def told_of(caller: Caller, execution: int) -> tuple[tuple[str, str], dict[str, Any]]:
    """How a job execution ended, and what its artifacts have told."""
    told = (await caller.ask("GET", f"/batch/jobexecutions/{execution}")).told
    logs = (await caller.ask("GET", f"/batch/jobexecutions/{execution}/joblogs")).told
    lines = [json.loads(line) for log in logs for line in log["log"].splitlines() if line.startswith("{")]
    return (told["batchStatus"], told["exitStatus"]), {one["at"]: one for one in lines}


def own(found: Mapping[str, Any]) -> dict[str, Any]:
    return {at: one["own"] for at, one in found.items()}


async def test_each_job_runs_to_its_end(settings: Make, artifacts: Path, monkeypatch: pytest.MonkeyPatch) -> None:
    monkeypatch.setenv("STAGE", "test")
    monkeypatch.setenv("SECRET", "secret")
    monkeypatch.delenv("NONE", raising=False)
    given = settings(catalogue=SAMPLES / "jobs", is_folder=True, allow=("jobParameters",))
    words = ["--system-property", "STAGE", "--system-property", "NONE"]
    async with running(given) as instance, working(instance.url, artifacts, 4, words):
        caller = Caller(instance.url)
        started = [(await caller.start(run.job, **run.parameters)).told["executionId"] for run in RUNS]
        await until_all_have_ended(caller)
        told = [await told_of(caller, execution) for execution in started]
        for (end, found), run in zip(told, RUNS):
            assert (run.job, end, own(found)) == (run.job, run.end, run.found)
        await restart(caller, started[[run.job for run in RUNS].index("transitions_restart")])
    around = {run.job: {at: (one["job"], one["step"]) for at, one in found.items()} for (_, found), run in zip(told, RUNS)}
    assert {job: {at: around[job][at] for at in wanted} for job, wanted in AROUND.items()} == AROUND


async def restart(caller: Caller, execution: int) -> None:
    """A restart resolves anew, by its own parameters."""
    for run in RESTARTS:
        answer = await caller.ask(
            "PUT", f"/batch/jobexecutions/{execution}?action=restart", {"jobParameters": dict(run.parameters)}
        )
        execution = answer.told["executionId"]
        await until_all_have_ended(caller)
        end, found = await told_of(caller, execution)
        assert (end, own(found)) == (run.end, run.found)


def test_each_job_file_is_run() -> None:
    assert {path.stem for path in (SAMPLES / "jobs").iterdir()} == {run.job for run in RUNS}


# The forms of which the worker knows what to do: test_jsl_steps.py.
TAKEN = {
    *("properties", "checkpoint-policy", "checkpoint-algorithm", "time-limit", "skip-limit", "retry-limit"),
    *jsl.EXCEPTION_CLASSES,
}
# The forms that are named in each file, in the order of its text.
NAMED = {
    "job_listeners": ["listeners"],
    "job_listeners_two": ["listeners"],
    "partition_mapper": ["mapper", "reducer"],
    "partition_mapper_chunk": ["mapper", "collector", "analyzer", "reducer"],
    "partition_collector": ["collector", "analyzer"],
    "partition_threads": ["threads", "threads"],
    "split_next": ["transitions-in-split"],
    "split_transitions": ["transitions-in-split"] * 2,
    "inheritance_job": ["inheritance"] * 2,
    "inheritance_step": ["inheritance"] * 2,
    "attributes_of_parameters": ["jobParameters"] * 5,
    "attributes_of_others": ["systemProperties", "partitionPlan", "partitionPlan", "systemProperties"],
    "property_names": ["systemProperties"] * 2,
    "attribute_without_default": ["jobParameters"] * 2,
}
ATTACKS = {"entity", "external_entity"}
PLACE = re.compile(r'\d+:\d+: JSL in job "\w+"(, \w+ "\w+")*: ')


def refused(folder: Path, name: str, *allowed: str) -> tuple[list[str], list[str]]:
    """The faults of one file, and what was left out of it, without its path."""
    path = folder / f"{name}.xml"
    shutil.copy(SAMPLES / "refused" / path.name, path)
    read = read_folder(folder, allowed)
    path.unlink()
    faults, told = ([line.removeprefix(f"{path}:") for line in lines] for lines in (read.refused, read.told))
    return faults, told


@pytest.mark.parametrize("name", NAMED)
def test_what_the_core_has_no_place_for_is_named(tmp_path: Path, name: str) -> None:
    faults, _ = refused(tmp_path, name)
    assert [ALLOW.findall(fault)[0] for fault in faults] == NAMED[name]
    assert all(PLACE.match(fault) for fault in faults)
    faults, told = refused(tmp_path, name, *NAMED[name])
    left_out = [line for line in told if "left out" in line]
    assert len(left_out) >= len(NAMED[name])
    lost = 'the substitution of jobParameters in "%s" has no place in a catalogue, and it has no default'
    bare = ["on", "exit-status"] if name == "attribute_without_default" else []
    assert [fault.split(": ")[-1] for fault in faults] == [lost % attribute for attribute in bare]


def test_an_entity_is_refused(tmp_path: Path) -> None:
    for name in ATTACKS:
        faults, _ = refused(tmp_path, name)
        assert len(faults) == 1 and "a document type or an entity is declared, which JSL has none of" in faults[0]


def test_each_construct_is_named_at_least_twice() -> None:
    assert {path.stem for path in (SAMPLES / "refused").iterdir()} == {*NAMED, *ATTACKS}
    names = [name for some in NAMED.values() for name in some]
    assert {name for name in jsl.REFUSED if names.count(name) < 2} == TAKEN


async def test_the_instance_that_leads_resolves(settings: Make) -> None:
    """A claim is answered alike after a takeover, by its key."""
    given = settings(catalogue=SAMPLES / "jobs", is_folder=True, allow=("jobParameters",))
    async with running(given) as first:
        second = Instance(given)
        await second.start()
        await second.until_role("follower")
        caller = Caller(first.url)
        await caller.start("job_properties")
        told = (await caller.claim(key="k")).told
        await first.stop()
        await second.until_role("leader")
        again = (await Caller(second.url).claim(key="k")).told
        await second.stop()
    own = {"infile": "postings.txt", "late": "late"}
    job = {"early": "none", "filestem": "postings", "infile.name": "postings.txt", "late": "late"}
    assert told["properties"] == {"job": job, "batchlet": own}
    assert again == told


async def test_without_properties_a_claim_has_no_such_member(settings: Make, catalogue: Path) -> None:
    async with running(settings(catalogue=catalogue)) as instance:
        caller = Caller(instance.url)
        await caller.start("short")
        told = (await caller.claim()).told
    assert set(told) == {"work", "jobParameters", "jobName", "instanceId", "lease"}


async def test_what_comes_to_too_much_fails_its_work_item(either: Make, artifacts: Path, tmp_path: Path) -> None:
    """Nothing else is held up by it."""
    value = "#{jobParameters['x']}" * 10_000
    text = (SAMPLES / "jobs" / "first_version.xml").read_text().replace("#{jobParameters['infile']}", value)
    (tmp_path / "jobs").mkdir()
    (tmp_path / "jobs" / "large.xml").write_text(text)
    given = either(catalogue=tmp_path / "jobs", is_folder=True)
    async with running(given) as instance, working(instance.url, artifacts):
        caller = Caller(instance.url)
        await caller.start("first_version", x="x" * 250)
        await caller.start("first_version", x="x")
        await until_all_have_ended(caller)
        ends = [(await told_of(caller, execution))[0][0] for execution in (1, 2)]
        log = (await caller.ask("GET", "/batch/jobexecutions/1/joblogs")).told[0]["log"]
    assert ends == ["FAILED", "COMPLETED"]
    assert log == "jobhost: the properties can't be handed over: they come to more than 2097152 characters\n"


async def test_an_instance_needs_no_file_of_a_job_that_another_one_brings(settings: Make, tmp_path: Path) -> None:
    """The table has each version's file: by it the properties are resolved."""
    for folder, names in (("one", ["latin", "parameters"]), ("two", ["latin"])):
        (tmp_path / folder).mkdir()
        for name in names:
            shutil.copy(SAMPLES / "jobs" / f"{name}.xml", tmp_path / folder)
    one, two = (settings(catalogue=tmp_path / name, is_folder=True) for name in ("one", "two"))
    claims = []
    async with running(one) as instance, running(two, "follower") as follower:
        for _ in range(2):
            await Caller(instance.url).start("parameters")
        claims.append((await Caller(instance.url).claim()).told["properties"])
        await instance.stop()
        await follower.until_role("leader")
        claims.append((await Caller(follower.url).claim()).told["properties"])
    assert claims[0] == claims[1] != {}
