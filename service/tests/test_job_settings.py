"""`NAME.settings.json` beside `NAME.xml`: the time of each step, or each fault of the file is named."""

from __future__ import annotations

import json
import os
import re
from pathlib import Path

import pytest

from job_host.catalogue.cron import read_cron
from job_host.catalogue.folder import read_folder, settings_beside
from job_host.catalogue.jobs import JobFile
from job_host.catalogue.policies import JobPolicies, JobTimeout, RestartPolicy
from job_host.catalogue.schedules import Schedule
from job_host.catalogue.versions import read_for_workers
from job_host.commands.command_line import main

PAGE = Path(__file__).resolve().parents[2] / "docs" / "CATALOGUE.md"
JSL = """<job id="a" xmlns="https://jakarta.ee/xml/ns/jakartaee" version="2.0">
<step id="load" next="both"><batchlet ref="b"/></step>
<split id="both" next="day"><flow id="f"><step id="copy"><batchlet ref="b"/></step></flow></split>
<decision id="day" ref="day"><end on="*"/></decision>
</job>
"""


@pytest.fixture
def jobs(tmp_path: Path) -> Path:
    (tmp_path / "a.xml").write_text(JSL)
    return tmp_path


def refused(jobs: Path, settings: str | bytes) -> list[str]:
    data = settings.encode() if isinstance(settings, str) else settings
    (jobs / "a.settings.json").write_bytes(data)
    return [line.removeprefix(f"{jobs}/") for line in read_folder(jobs, ()).refused]


def test_each_step_has_its_time(jobs: Path) -> None:
    assert refused(jobs, json.dumps({"steps": {"load": {"timeout": 1}, "copy": {"timeout": 4_294_967_295}}})) == []
    read = read_folder(jobs, ())
    assert read.for_workers["a"].steps == {"load": {"timeout": 1}, "copy": {"timeout": 4_294_967_295}}
    # It is no job file: the folder has one job.
    assert [job["id"] for job in json.loads(read.line)["jobs"]] == ["a"]
    assert refused(jobs, json.dumps({"steps": {"load": {"timeout": "P1DT1H"}, "copy": {"timeout": "PT1M30S"}}})) == []
    assert read_folder(jobs, ()).for_workers["a"].steps == {"load": {"timeout": 90_000}, "copy": {"timeout": 90}}
    for nothing in ("{}", '{"steps": {}}', '{"steps": {"load": {}}}'):
        assert refused(jobs, nothing) == [] and read_folder(jobs, ()).for_workers["a"].steps == {}


def test_the_settings_that_the_page_shows_are_read(jobs: Path) -> None:
    shown = re.findall(r"^```conf\n(.*?)^```", PAGE.read_text(), re.M | re.S)
    assert [refused(jobs, settings) for settings in shown] == [[]]
    read = read_folder(jobs, ()).for_workers["a"]
    schedule = Schedule(read_cron("0 1 * * *"), "Europe/Berlin", "catchUp", (), "date")
    restart = RestartPolicy(True, ("TEMPORARY*",), 3, 30, 3_600)
    policies = JobPolicies(restart, JobTimeout(14_400, 60), schedule, "night", True, True)
    assert (read.steps, read.policies) == ({"load": {"timeout": 3_600}}, policies)


IN_JOB, IN_LOAD = 'settings in job "a"', 'settings in job "a", step "load" (number 0)'
SECONDS = 'expected a whole number of seconds from 1 to 4294967295, or a duration as `PT90S`, as "timeout"'
ZONE = 'a time zone of this machine, as `Europe/Berlin`, as "zone"'
CAUSE = '"afterLostWorker": true, or "exitStatuses", in restart'
MEMBERS = '"steps", "timeout", "grace", "restart", "schedule", "queue", "oneAtATime" or "onceByParameters"'
QUEUE = "the name of a queue, 1 to 64 letters, digits, points, dashes and underscores, with a letter or a digit in front"
FAULTS = [
    ("", "1:1: NotJson: expected a value, found the end of the file"),
    (b'{"\xff": 1}', "1:3: NotJson: expected UTF-8, found the byte 0xff"),
    ("[]", f"1:1: {IN_JOB}: expected an object, the settings, found `[]`"),
    ('{"step": {}}', f'1:2: {IN_JOB}: expected {MEMBERS} in the settings, found "step"; did you mean `steps`?'),
    ('{"queue": "a b"}', f'1:11: {IN_JOB}: expected {QUEUE}, as "queue", found `"a b"`'),
    ('{"queue": 5}', f'1:11: {IN_JOB}: expected {QUEUE}, as "queue", found `5`'),
    ('{"onceByParameters": "yes"}', f'1:22: {IN_JOB}: expected true or false as "onceByParameters", found `"yes"`'),
    ('{"oneAtATime": 1}', f'1:16: {IN_JOB}: expected true or false as "oneAtATime", found `1`'),
    ('{"steps": []}', f"1:11: {IN_JOB}: expected an object, steps, found `[]`"),
    ('{"steps": {"laod": {}}}', f'1:12: {IN_JOB}: expected the id of a step, found "laod"; did you mean `load`?'),
    ('{"steps": {"both": {}}}', f'1:12: {IN_JOB}: expected the id of a step, found "both"'),
    ('{"steps": {"day": {}}}', f'1:12: {IN_JOB}: expected the id of a step, found "day"'),
    ('{"steps": {"load": 5}}', f"1:20: {IN_LOAD}: expected an object, the step, found `5`"),
    (
        '{"steps": {"load": {"time": 5}}}',
        f'1:21: {IN_LOAD}: expected "timeout" in the step, found "time"; did you mean `timeout`?',
    ),
    ('{"grace": 5}', f'1:11: {IN_JOB}: expected "timeout" beside "grace", found none'),
    ('{"timeout": "1h"}', f'1:13: {IN_JOB}: {SECONDS}, found `"1h"`'),
    ('{"restart": 5}', f"1:13: {IN_JOB}: expected an object, restart, found `5`"),
    (
        '{"restart": {}}',
        f"1:13: {IN_JOB}: expected {CAUSE}, found `{{}}`",
    ),
    (
        '{"restart": {"afterLostWorker": false}}',
        f'1:13: {IN_JOB}: expected {CAUSE}, found `{{"afterLostWorker": false}}`',
    ),
    ('{"restart": {"afterLostWorker": 1}}', f'1:33: {IN_JOB}: expected true or false as "afterLostWorker", found `1`'),
    ('{"restart": {"exitStatuses": []}}', f'1:30: {IN_JOB}: expected a list of 1 to 100 texts as "exitStatuses", found `[]`'),
    (
        '{"restart": {"exitStatuses": ["A", ""]}}',
        f'1:36: {IN_JOB}: expected a text of 1 to 256 bytes as "exitStatuses", found `""`',
    ),
    (
        '{"restart": {"afterLostWorker": true, "most": 0}}',
        f'1:47: {IN_JOB}: expected a whole number from 1 to 1000 as "most", found `0`',
    ),
    (
        '{"restart": {"afterLostWorker": true, "wait": "PT2H"}}',
        f'1:13: {IN_JOB}: expected at most 3600 seconds, the "longestWait", as "wait", found 7200',
    ),
    (
        '{"restart": {"afterLostworker": true}}',
        f'1:14: {IN_JOB}: expected "afterLostWorker", "exitStatuses", "most", "wait" or "longestWait" in restart, '
        'found "afterLostworker"; did you mean `afterLostWorker`?',
    ),
    ('{"schedule": []}', f"1:14: {IN_JOB}: expected an object, schedule, found `[]`"),
    ('{"schedule": {}}', f'1:14: {IN_JOB}: expected "cron" in schedule, found `{{}}`'),
    ('{"schedule": {"cron": 5}}', f'1:23: {IN_JOB}: expected a text of five fields as "cron", found `5`'),
    (
        '{"schedule": {"cron": "60 * * * *"}}',
        f'1:23: {IN_JOB}: expected a minute from 0 to 59, as "cron", found `"60 * * * *"`',
    ),
    *(
        (
            '{"schedule": {"cron": "0 1 * * *", %s}}' % more,
            f"1:{at}: {IN_JOB}: expected {told}",
        )
        for more, at, told in (
            ('"zone": "Mars/Base"', 44, f'{ZONE}, found `"Mars/Base"`'),
            ('"zone": "../x"', 44, f'{ZONE}, found `"../x"`'),
            ('"zone": ""', 44, f'{ZONE}, found `""`'),
            ('"zone": 1', 44, f"{ZONE}, found `1`"),
            ('"missed": "run"', 46, '"catchUp" or "skip" as "missed", found `"run"`'),
            ('"parameters": []', 50, "an object of texts, parameters, found `[]`"),
            ('"parameters": {"a": 1}', 56, 'a text of at most 4096 bytes as "a", found `1`'),
            ('"dateParameter": ""', 53, 'a text of 1 to 256 bytes as "dateParameter", found `""`'),
            ('"parameters": {"d": ""}, "dateParameter": "d"', 78, 'a parameter that parameters hasn\'t, found `"d"`'),
            (
                '"dateParameter": "d", "momentParameter": "d"',
                77,
                'another name than "dateParameter" has, found `"d"`',
            ),
        )
    ),
    *(
        ('{"steps": {"load": {"timeout": %s}}}' % wrong, f"1:32: {IN_LOAD}: {SECONDS}, found `{wrong}`")
        for wrong in (
            "0",
            "-1",
            "1.5",
            '"5"',
            '"PT0S"',
            '"PT"',
            '"P1M"',
            '"1H"',
            '"PT1.5S"',
            "true",
            "null",
            "4294967296",
            "{}",
        )
    ),
]


@pytest.mark.parametrize(("text", "fault"), FAULTS)
def test_a_fault_has_its_place(jobs: Path, text: str | bytes, fault: str) -> None:
    assert refused(jobs, text) == [f"a.settings.json:{fault}"]


def test_policies_are_read(jobs: Path) -> None:
    restart = {"afterLostWorker": True, "exitStatuses": ["A*"], "most": 2, "wait": "PT1M", "longestWait": 600}
    assert refused(jobs, json.dumps({"restart": restart, "timeout": "PT1H", "grace": 5})) == []
    expected = JobPolicies(RestartPolicy(True, ("A*",), 2, 60, 600), JobTimeout(3_600, 5))
    assert read_folder(jobs, ()).for_workers["a"].policies == expected
    assert refused(jobs, '{"restart": {"exitStatuses": ["B"]}, "timeout": 1}') == []
    usual = JobPolicies(RestartPolicy(False, ("B",), 3, 30, 3_600), JobTimeout(1, 60))
    assert read_folder(jobs, ()).for_workers["a"].policies == usual
    assert refused(jobs, "{}") == [] and read_folder(jobs, ()).for_workers["a"].policies == JobPolicies()
    more = {"zone": "Asia/Tokyo", "missed": "catchUp", "parameters": {"a": "b"}, "dateParameter": "d", "momentParameter": "m"}
    assert refused(jobs, json.dumps({"schedule": {"cron": " 0  1 * * * ", **more}})) == []
    schedule = Schedule(read_cron("0 1 * * *"), "Asia/Tokyo", "catchUp", (("a", "b"),), "d", "m")
    assert read_folder(jobs, ()).for_workers["a"].policies == JobPolicies(schedule=schedule)
    assert refused(jobs, '{"schedule": {"cron": "0 1 * * *"}}') == []
    usual_schedule = Schedule(read_cron("0 1 * * *"), "UTC", "skip")
    assert read_folder(jobs, ()).for_workers["a"].policies == JobPolicies(schedule=usual_schedule)


def test_a_schedule_that_is_at_fault_is_none(jobs: Path) -> None:
    """A kept file is read again where a zone may be missing: nothing is started by another one then."""
    (jobs / "a.settings.json").write_text('{"schedule": {"cron": "0 1 * * *", "zone": "Mars/Base"}}')
    file = JobFile("a.xml", ".xml", JSL.encode(), settings_beside(jobs / "a.xml"))
    assert read_for_workers(file, ()).policies == JobPolicies()


def test_a_job_that_may_not_be_restarted_has_no_policy_for_that(jobs: Path) -> None:
    (jobs / "a.xml").write_text(JSL.replace('id="a"', 'id="a" restartable="false"'))
    told = f'a.settings.json:1:13: {IN_JOB}: expected no "restart" in a job that may not be restarted, found one'
    assert refused(jobs, '{"restart": {"afterLostWorker": true}}') == [told]


def test_all_faults_are_told(jobs: Path, capfd: pytest.CaptureFixture[str]) -> None:
    text = '{"steps": {"load": {"timeout": 0},\n "cpoy": {"timeout": 1}}, "job": 1}'
    assert [line.split(":")[1] for line in refused(jobs, text)] == ["1", "2", "2"]
    assert main(["serve", "--jobs", str(jobs)]) == 1
    assert len(capfd.readouterr().err.splitlines()) == 4


def test_settings_without_their_job_are_refused(jobs: Path) -> None:
    (jobs / "b.json").write_text('{"id": "b", "elements": []}')
    for name in ("b", "c"):
        (jobs / f"{name}.settings.json").write_text("{}")
    told = "there is no job file %s.xml, whose settings these are"
    assert read_folder(jobs, ()).refused == [f"{jobs}/{name}.settings.json: {told % name}" for name in ("b", "c")]


def test_settings_are_of_the_job_in_jsl(jobs: Path) -> None:
    """A job in JSON of the same name has none."""
    (jobs / "a.json").write_text('{"id": "b", "elements": [{"kind": "step", "id": "load", "batchlet": {"ref": "b"}}]}')
    assert refused(jobs, '{"steps": {"load": {"timeout": 1}, "copy": {"timeout": 2}}}') == []
    steps = {job: read.steps for job, read in read_folder(jobs, ()).for_workers.items()}
    assert steps == {"a": {"load": {"timeout": 1}, "copy": {"timeout": 2}}, "b": {}}


def test_settings_that_cant_be_read_are_refused(jobs: Path) -> None:
    """Neither a pipe nor a folder is waited for."""
    path = jobs / "a.settings.json"
    path.mkdir()
    assert read_folder(jobs, ()).refused == [f"{path}: Is a directory"]
    path.rmdir()
    os.mkfifo(path)
    assert read_folder(jobs, ()).refused == [f"{path}: this is no file"]
    path.unlink()
    path.symlink_to(jobs / "gone")
    assert read_folder(jobs, ()).refused == [f"{path}: No such file or directory"]


def test_of_a_job_that_cant_be_read_the_job_is_told_alone(jobs: Path) -> None:
    (jobs / "a.xml").write_text("<job")
    assert refused(jobs, '{"steps": {"load": 1}}') == ["a.xml:1:1: JSL: unclosed token"]


def test_hidden_settings_are_not_read(jobs: Path) -> None:
    (jobs / ".a.settings.json").write_text("no settings")
    (jobs / "a.settings.json~").write_text("no settings")
    assert read_folder(jobs, ()).refused == []
