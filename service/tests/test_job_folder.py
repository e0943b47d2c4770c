"""`jobhost serve --jobs` and `jobhost catalogue line` over a folder: its files become one catalogue, or each fault is named."""

from __future__ import annotations

import errno
import json
import os
import subprocess
from collections.abc import Callable, Sequence
from pathlib import Path
from typing import Any

import pytest
from instances import Caller, Instance, running

from job_host.catalogue import folder
from job_host.catalogue.folder import read_folder
from job_host.catalogue.jobs import JobsRefused
from job_host.commands.command_line import main
from job_host.service.keepers.keeper import Fatal
from job_host.service.settings import ServeSettings

Make = Callable[..., ServeSettings]
JSL = '<job id="%s" xmlns="https://jakarta.ee/xml/ns/jakartaee" version="2.0">\n%s\n</job>\n'
STEP = '<step id="only"><batchlet ref="only"/></step>'
ONLY = {"kind": "step", "id": "only", "batchlet": {"ref": "only"}}


@pytest.fixture
def jobs(tmp_path: Path) -> Path:
    """An empty folder of job files."""
    path = tmp_path / "jobs"
    path.mkdir()
    return path


def line_of(path: Path, capfd: pytest.CaptureFixture[str], *words: str) -> tuple[int, str, list[str]]:
    """What `jobhost catalogue line` says of a folder: its status, its line, and its faults without the folder's name."""
    capfd.readouterr()
    status = main(["catalogue", "line", *words, str(path)])
    told = capfd.readouterr()
    return status, told.out, told.err.replace(f"{path}/", "").splitlines()


def test_the_jobs_are_in_the_order_of_the_names(jobs: Path, capfd: pytest.CaptureFixture[str]) -> None:
    (jobs / "b.xml").write_text(JSL % ("first", STEP))
    (jobs / "c.json").write_text(json.dumps({"id": "second", "elements": [ONLY]}, indent=1))
    (jobs / "d.json").write_text(json.dumps({"jobs": [{"id": name, "elements": [ONLY]} for name in ("third", "fourth")]}))
    (jobs / "B.xml").write_text(
        JSL.replace("https://jakarta.ee/xml/ns/jakartaee", "http://xmlns.jcp.org/xml/ns/javaee") % ("z", STEP)
    )
    for other in ("README.md", ".hidden.xml", "old.xml~"):
        (jobs / other).write_text("<no job")
    status, line, told = line_of(jobs, capfd)
    assert (status, told) == (0, [])
    assert [job["id"] for job in json.loads(line)["jobs"]] == ["z", "first", "second", "third", "fourth"]
    assert all(job["elements"] == [ONLY] for job in json.loads(line)["jobs"]) and line.count("\n") == 1


def test_each_fault_has_its_file_and_its_place(jobs: Path, capfd: pytest.CaptureFixture[str]) -> None:
    (jobs / "a.xml").write_text(JSL % ("first", STEP))
    (jobs / "b.xml").write_bytes(b"<job id='\xff'/>")
    (jobs / "c.json").write_bytes(b'{"id": "\xff"}')
    (jobs / "d.json").write_text('{"jobs": [], "job": []}')
    (jobs / "e.json").write_text("<job/>")
    (jobs / "f.xml").write_text('{"id": "a"}')
    (jobs / "g.xml").mkdir()
    (jobs / "h.xml").symlink_to(jobs / "gone")
    os.mkfifo(jobs / "i.xml")
    (jobs / "j.json").write_text('{"id": "first", "elements": []}')
    status, line, told = line_of(jobs, capfd)
    assert (status, line) == (1, "")
    assert told == [
        "b.xml:1:10: JSL: the byte 0xff is not utf-8",
        "c.json:1:9: NotJson: expected UTF-8, found the byte 0xff",
        'd.json:1:14: NotACatalogue: expected "jobs" alone, found "job"',
        "e.json:1:1: NotJson: expected a value, found `<`",
        "f.xml:1:1: JSL: not well-formed (invalid token)",
        "g.xml: Is a directory",
        "h.xml: No such file or directory",
        "i.xml: this is no file",
        'j.json:1:8: DuplicateId in job "first": expected an id that no earlier job of the folder has, found "first", '
        "which another one has (a.xml:1:1)",
    ]


def test_a_file_that_may_not_be_read_is_named(jobs: Path, monkeypatch: pytest.MonkeyPatch) -> None:
    """Root may read each file, so the system's answer is made up."""
    (jobs / "a.xml").write_text(JSL % ("first", STEP))

    def refuse(path: Path, flags: int) -> int:
        raise PermissionError(errno.EACCES, os.strerror(errno.EACCES), str(path))

    monkeypatch.setattr(os, "open", refuse)
    assert read_folder(jobs, ()).refused == [f"{jobs}/a.xml: Permission denied"]


def test_a_file_that_vanishes_is_named(jobs: Path, monkeypatch: pytest.MonkeyPatch) -> None:
    """It was there when the folder was listed."""
    (jobs / "a.xml").write_text(JSL % ("first", STEP))
    paths_in = folder.paths_in
    monkeypatch.setattr(folder, "paths_in", lambda path: [*paths_in(path), path / "b.xml"])
    assert read_folder(jobs, ()).refused == [f"{jobs}/b.xml: No such file or directory"]


def test_a_check_of_a_folder_tells_all(jobs: Path, capfd: pytest.CaptureFixture[str]) -> None:
    """Each file has batchctl's verdict. What no file has by itself is told at the end."""
    (jobs / "a.xml").write_text(JSL % ("first", "<properties><property name='p' value='v'/></properties>" + STEP))
    (jobs / "b.json").write_text('{"id": "second", "elements": [%s]}' % json.dumps({**ONLY, "next": "onyl"}))
    (jobs / "c.json").write_text(json.dumps({"id": "first", "elements": [ONLY]}))
    assert main(["catalogue", "check", "--jobs", str(jobs)]) == 1
    told = capfd.readouterr().out.replace(f"{jobs}/", "").splitlines()
    assert [line.split(": expected")[0] for line in told] == [
        "a.xml: accepted, jobs: 1, elements: 1",
        'b.json:1:99: NoSuchTarget in job "second", step "only" (number 0)',
        'b.json: refused by batchctl, {"fault":"NoSuchTarget","job":0}',
        "c.json: accepted, jobs: 1, elements: 1",
        'c.json:1:8: DuplicateId in job "first"',
    ]
    assert main(["catalogue", "check", "--jobs", "--format", "json", str(jobs)]) == 1
    lines = [json.loads(line) for line in capfd.readouterr().out.splitlines()]
    assert [one.get("accepted") for one in lines] == [True, None, False, True, None]
    for name in ("b.json", "c.json"):
        (jobs / name).unlink()
    assert main(["catalogue", "check", "--jobs", str(jobs)]) == 0
    assert main(["catalogue", "check", "--jobs", str(jobs / "none")]) == 2


def test_batchctl_is_asked_once_of_a_good_folder(jobs: Path, monkeypatch: pytest.MonkeyPatch) -> None:
    (jobs / "a.xml").write_text(JSL % ("first", STEP))
    (jobs / "b.json").write_text(json.dumps({"id": "second", "elements": [ONLY]}))
    asked = list[Sequence[str]]()
    run = subprocess.run

    def count(words: Sequence[str], **more: Any) -> Any:
        asked.append(words[1:])
        return run(words, **more)

    monkeypatch.setattr(subprocess, "run", count)
    assert main(["catalogue", "check", "--jobs", str(jobs)]) == 0
    assert asked == [["check"]]


ATTACKS = [
    ('<!DOCTYPE job [<!ENTITY a "aaaa"><!ENTITY b "&a;&a;">]><job id="&b;"/>', "a document type or an entity is declared"),
    ('<!DOCTYPE job SYSTEM "file:///etc/passwd">\n<job id="a"/>', "a document type or an entity is declared"),
    ('<!DOCTYPE job [<!ENTITY e SYSTEM "file:///etc/passwd">]><job id="&e;"/>', "a document type or an entity is declared"),
    ('<job id="&none;"/>', "undefined entity"),
    ('<job id="a&#0;"/>', "reference to invalid character number"),
    ('<flow id="f">' * 70 + "</flow>" * 70, "elements are nested deeper than 60"),
    (JSL % ("a", "<step/>" * 100_000), "there are more than 100000 elements"),
    (JSL % ("a", " " * 4_194_304), "the file has more than 4194304 bytes"),
]


@pytest.mark.parametrize(("text", "fault"), ATTACKS, ids=[fault for _, fault in ATTACKS])
def test_an_attack_by_xml_is_refused(jobs: Path, text: str, fault: str) -> None:
    (jobs / "a.xml").write_text(text)
    (refused,) = read_folder(jobs, ()).refused
    assert refused.startswith(f"{jobs}/a.xml:") and fault in refused


def test_too_many_jobs_are_refused(jobs: Path) -> None:
    for number in range(257):
        (jobs / f"{number:03}.json").write_text(json.dumps({"id": f"job-{number}", "elements": [ONLY]}))
    told = 'TooMany in job "job-256": expected at most 256 jobs in the folder, found one more'
    assert read_folder(jobs, ()).refused == [f"{jobs}/256.json:1:8: {told}"]


def test_a_folder_without_job_files_is_refused(jobs: Path, capsys: pytest.CaptureFixture[str]) -> None:
    (jobs / "README.md").touch()
    assert main(["serve", "--jobs", str(jobs)]) == 1
    assert capsys.readouterr().err.splitlines() == [
        f"{jobs}: there is no file *.xml or *.json",
        f"jobhost serve: the jobs of {jobs} are refused",
    ]
    assert main(["serve", "--jobs", str(jobs / "none")]) == 2
    assert "No such file or directory" in capsys.readouterr().err


def test_serve_has_a_file_or_a_folder(jobs: Path, capsys: pytest.CaptureFixture[str]) -> None:
    wrong: list[list[str]] = [[], ["--jobs", str(jobs), "--catalogue", "catalogue.json"]]
    for words in wrong:
        with pytest.raises(SystemExit) as ended:
            main(["serve", *words])
        assert ended.value.code == 2
    assert main(["serve", "--jobs", str(jobs), "--allow", "nothing"]) == 2
    assert main(["serve", "--catalogue", "catalogue.json", "--allow", "listeners"]) == 2
    assert "--allow NAME is for --jobs" in capsys.readouterr().err


def test_a_form_that_is_left_out_is_named(jobs: Path, capfd: pytest.CaptureFixture[str]) -> None:
    (jobs / "a.xml").write_text(JSL % ("first", f'<listeners><listener ref="timer"/></listeners>{STEP}'))
    lost = 'a.xml:2:1: %s in job "first": <listeners> of "timer"%s: no listener of a job is called, but those of its steps are'
    refused = lost % ("JSL", " has no place in a catalogue") + " (--allow listeners leaves it out)"
    assert line_of(jobs, capfd) == (1, "", [refused])
    status, line, told = line_of(jobs, capfd, "--allow", "listeners")
    assert (status, told) == (0, [lost % ("left out", "")])
    assert json.loads(line) == {"jobs": [{"id": "first", "elements": [ONLY]}]}


async def test_batchctl_names_the_file_of_a_fault(jobs: Path, settings: Make) -> None:
    (jobs / "a.xml").write_text(JSL % ("first", STEP))
    (jobs / "b.json").write_text(json.dumps({"jobs": [{"id": "second", "elements": [ONLY]}]}))
    (jobs / "c.xml").write_text(JSL % ("third", STEP.replace('id="only"', 'id="only" next="onyl"')))
    instance = Instance(settings(catalogue=jobs, is_folder=True))
    await instance.start()
    told = 'c.xml:2:22: NoSuchTarget in job "third", step "only"'
    with pytest.raises(Fatal, match=f"the catalogue was refused: {jobs}/{told}"):
        await instance.ended()
    await instance.stop()


async def test_a_folder_may_grow(jobs: Path, settings: Make, has_log: None) -> None:
    """A job whose file stands before the others' comes last in the history."""
    (jobs / "b.xml").write_text(JSL % ("first", STEP))
    async with running(settings(catalogue=jobs, is_folder=True)) as instance:
        await Caller(instance.url).start("first")
    (jobs / "a.json").write_text(json.dumps({"id": "second", "elements": [ONLY]}))
    async with running(settings(catalogue=jobs, is_folder=True)) as instance:
        caller = Caller(instance.url)
        await caller.start("second")
        names = [one["jobName"] for one in (await caller.ask("GET", "/batch/jobinstances")).told]
    assert names == ["second", "first"]
    (jobs / "b.xml").unlink()
    async with running(settings(catalogue=jobs, is_folder=True)) as instance:
        assert (await Caller(instance.url).start("first")).status == 201


def test_a_folder_that_is_refused_serves_nothing(jobs: Path, settings: Make) -> None:
    (jobs / "a.xml").write_text("<job")
    with pytest.raises(JobsRefused, match="a.xml:1:1: JSL: unclosed token"):
        Instance(settings(catalogue=jobs, is_folder=True))
