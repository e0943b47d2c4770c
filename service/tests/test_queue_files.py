"""The file of `--queues`, and the numbers of queues: what is at fault is told with its place, and no number is given twice."""

from __future__ import annotations

import json
from pathlib import Path

import pytest
from queued import jsl, write_jobs

from job_host.catalogue.folder import read_folder
from job_host.catalogue.jobs import JobsRefused
from job_host.catalogue.queues import QueueBounds, QueuesRefused, read_queues
from job_host.commands.command_line import main
from job_host.service.keepers.keeper import Fatal
from job_host.service.queues.numbers import folder_of, kept_numbers, numbers_with

NAMED = "1 to 64 letters, digits, points, dashes and underscores, with a letter or a digit in front"
MEMBERS = '"mostRunning", "mostBusy" or "labels" in the bounds of a queue'


def read(tmp_path: Path, text: str) -> dict[str, QueueBounds]:
    path = tmp_path / "queues.json"
    path.write_text(text)
    return read_queues(path)


def test_queues_have_bounds(tmp_path: Path) -> None:
    text = '{"urgent": {"mostBusy": 4, "labels": ["gpu", "gpu"]}, "default": {"mostRunning": 1}, "night": {}}'
    found = read(tmp_path, text)
    assert list(found) == ["default", "urgent", "night"]
    assert found["default"] == QueueBounds(most_running=1) and found["night"] == QueueBounds()
    assert found["urgent"] == QueueBounds(None, 4, ("gpu",))
    assert list(read(tmp_path, "{}")) == ["default"]


@pytest.mark.parametrize(
    ("text", "fault"),
    [
        ("", "1:1: expected a value, found the end of the file"),
        ("[]", "1:1: expected an object, with a member for each queue, found `[]`"),
        ('{"a b": {}}', f'1:2: expected the name of a queue, {NAMED}, found "a b"'),
        ('{"a": {}, "a": {}}', '1:2: expected each queue once, found "a"'),
        ('{"a": 5}', "1:7: expected an object, the bounds of the queue, found `5`"),
        ('{"a": {"mostbusy": 5}}', f'1:8: expected {MEMBERS}, found "mostbusy"; did you mean `mostBusy`?'),
        ('{"a": {"mostBusy": 0}}', '1:20: expected a whole number from 1 to 4294967295 as "mostBusy", found `0`'),
        ('{"a": {"mostRunning": true}}', '1:23: expected a whole number from 1 to 4294967295 as "mostRunning", found `true`'),
        ('{"a": {"labels": []}}', '1:18: expected a list of 1 to 64 labels as "labels", found `[]`'),
        ('{"a": {"labels": ["x", " "]}}', f'1:24: expected a label, {NAMED}, found `" "`'),
    ],
)
def test_a_fault_has_its_place(tmp_path: Path, text: str, fault: str, capsys: pytest.CaptureFixture[str]) -> None:
    with pytest.raises(QueuesRefused) as refused:
        read(tmp_path, text)
    assert refused.value.lines == [f"{tmp_path}/queues.json:{fault}"]
    jobs = write_jobs(tmp_path / "jobs")
    assert main(["serve", "--jobs", str(jobs), "--queues", str(tmp_path / "queues.json")]) == 2
    assert capsys.readouterr().err == f"{tmp_path}/queues.json:{fault}\n"


def test_too_many_queues_are_refused(tmp_path: Path) -> None:
    names: dict[str, dict[str, int]] = {f"q{number}": {} for number in range(63)}
    assert len(read(tmp_path, json.dumps(names))) == 64
    with pytest.raises(QueuesRefused, match="at most 64 queues, with the default one, found 64"):
        read(tmp_path, json.dumps({**names, "one-more": {}}))


def test_no_number_is_given_twice(tmp_path: Path) -> None:
    data = tmp_path / "data"
    assert numbers_with(data, []) == {} and not data.exists()
    assert numbers_with(data, ["urgent", "night"]) == {"urgent": 1, "night": 2}
    assert numbers_with(data, ["late", "night"]) == {"urgent": 1, "night": 2, "late": 3}
    assert kept_numbers(data) == numbers_with(data, []) == {"urgent": 1, "night": 2, "late": 3}
    assert [folder_of(data, number) for number in (0, 2)] == [data, data / "queue-2"]


@pytest.mark.parametrize("text", ["x\n", '{"name":"a"}\n', '{"number":2,"name":"a"}\n', '{"number":1,"name":"a"}\n' * 2])
def test_a_damaged_file_of_numbers_ends_the_service(tmp_path: Path, text: str) -> None:
    (tmp_path / "queues").write_text(text)
    with pytest.raises(Fatal, match="DamagedQueues"):
        numbers_with(tmp_path, ["b"])
    assert (tmp_path / "queues").read_text() == text


def test_the_settings_of_a_job_name_its_queue(tmp_path: Path) -> None:
    jobs = write_jobs(tmp_path / "jobs", {"day": ("default", 0), "dump": ("night", 0)}, dump={"oneAtATime": True})
    (jobs / "two.json").write_text(json.dumps({"jobs": [job("one"), job("other")]}))
    found = read_folder(jobs, ()).served_by_queues(["default", "night", "idle"])
    names = {queue: [one["id"] for one in json.loads(served.line)["jobs"]] for queue, served in found.items()}
    assert names == {"default": ["day", "one", "other"], "night": ["dump"], "idle": []}
    policies = (found["night"].for_workers or {})["dump"].policies
    assert (policies.queue, policies.one_at_a_time) == ("night", True)
    # A fault that batchctl names by a job's number is told of the job with this number in its queue.
    assert "dump.xml" in found["night"].told_fault(b'{"fault":"NoSuchTarget","job":0,"element":0}', ["no-batchctl"])
    with pytest.raises(JobsRefused, match='which are default, idle .--queues., found "night"'):
        read_folder(jobs, ()).served_by_queues(["default", "idle"])


def job(name: str) -> dict[str, object]:
    return {"id": name, "elements": [{"kind": "step", "id": "work", "batchlet": {"ref": "a"}}]}


def test_each_queue_has_room_for_256_jobs(tmp_path: Path) -> None:
    jobs = write_jobs(tmp_path / "jobs", {f"j{number:03}": ("night" if number % 2 else "default", 0) for number in range(512)})
    assert len(read_folder(jobs, ()).served_by_queues(["default", "night"])) == 2
    (jobs / "more.xml").write_text(jsl("more"))
    (jobs / "more.settings.json").write_text('{"queue": "night"}')
    with pytest.raises(JobsRefused, match='at most 256 jobs in the queue "night", found one more'):
        read_folder(jobs, ()).served_by_queues(["default", "night"])
