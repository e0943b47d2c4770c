"""`jobhost catalogue` as it is called: exit statuses, what goes to which stream, and files that are none."""

from __future__ import annotations

import io
import json
import subprocess
import sys
from pathlib import Path

import pytest
from catalogue_samples import BATCHCTL, ROOT, one_job, step

from job_host.catalogue.schema import schema_of_catalogues
from job_host.commands.command_line import main

GOOD = one_job(step("s"))
BAD = '{"jobs": [\n{"id": "a\\u001b[31m", "elements": [7]}]}'
WEEKLY = '<job id="weekly"><listeners/><step id="s"><batchlet ref="ok"/></step></job>'
NEXT = '<job id="next"><step id="s"><batchlet ref="ok"/></step></job>'


@pytest.fixture(autouse=True)
def files(tmp_path: Path, monkeypatch: pytest.MonkeyPatch) -> None:
    monkeypatch.setenv("JOBHOST_BATCHCTL", str(Path(BATCHCTL[0]).resolve()))
    monkeypatch.chdir(tmp_path)
    texts = {"good.json": GOOD, "bad.json": BAD, "weekly.xml": WEEKLY, "next.xml": NEXT, "broken.xml": "<job"}
    for name, text in texts.items():
        Path(name).write_text(text)


def status(*words: str) -> int:
    try:
        return main(["catalogue", *words])
    except SystemExit as ended:
        return int(ended.code or 0)


@pytest.mark.parametrize(
    ("words", "expected"),
    [
        ("check good.json", 0),
        ("check good.json bad.json", 1),
        ("check bad.json good.json", 1),
        ("check weekly.xml", 1),
        ("check --allow listeners weekly.xml", 0),
        ("check broken.xml", 1),
        ("check", 2),
        ("check none.json", 2),
        ("check .", 2),
        ("check --artifacts none good.json", 2),
        ("check --allow nothing good.json", 2),
        ("check --batchctl /none good.json", 2),
        ("line good.json", 0),
        ("line bad.json", 0),
        ("line weekly.xml", 1),
        ("line next.xml", 0),
        ("line broken.xml", 1),
        ("line none", 2),
        ("from-jsl next.xml", 0),
        ("from-jsl weekly.xml", 1),
        ("from-jsl --allow listeners weekly.xml next.xml", 0),
        ("from-jsl next.xml next.xml", 1),
        ("from-jsl good.json", 1),
        ("from-jsl none", 2),
        ("check --format yaml good.json", 2),
        ("schema", 0),
        ("diagram good.json", 0),
        ("diagram --job a good.json", 0),
        ("diagram --job b good.json", 2),
        ("diagram bad.json", 1),
        ("diagram next.xml", 0),
        ("diff good.json good.json", 0),
        ("diff good.json next.xml", 1),
        ("diff good.json bad.json", 2),
        ("diff none good.json", 2),
        ("", 2),
        ("mend good.json", 2),
    ],
)
def test_exit_status(words: str, expected: int) -> None:
    assert status(*words.split()) == expected


def test_a_check_is_told_in_json(capsys: pytest.CaptureFixture[str]) -> None:
    assert status("check", "--format", "json", "bad.json", "weekly.xml", "good.json") == 1
    told = [json.loads(line) for line in capsys.readouterr().out.splitlines()]
    assert told == [
        {
            "file": "bad.json",
            "line": 2,
            "column": 36,
            "fault": "BadElement",
            "in": 'job "a\\u001b[31m", element (number 0)',
            "expected": "an object, an element",
            "found": "`7`",
        },
        {"file": "bad.json", "accepted": False},
        {
            "file": "weekly.xml",
            "line": 1,
            "column": 18,
            "note": "JSL",
            "in": 'job "weekly"',
            "told": "<listeners> has no place in a catalogue: no listener is called (--allow listeners leaves it out)",
        },
        {"file": "weekly.xml", "accepted": False},
        {"file": "good.json", "accepted": True},
    ]


def test_the_schema_is_printed(capsys: pytest.CaptureFixture[str]) -> None:
    assert status("schema") == 0
    assert json.loads(capsys.readouterr().out) == schema_of_catalogues()


def test_a_check_is_told_on_standard_output(capsys: pytest.CaptureFixture[str]) -> None:
    status("check", "good.json", "bad.json")
    told = capsys.readouterr()
    column = BAD.splitlines()[1].index("7]") + 1
    assert told.out.splitlines() == [
        "good.json: accepted, jobs: 1, elements: 1",
        f'bad.json:2:{column}: BadElement in job "a\\u001b[31m", element (number 0): expected an object, an element, found `7`',
        'bad.json: refused by batchctl, {"element":0,"fault":"BadElement","job":0}',
    ]
    assert told.err == ""


def test_nothing_that_acts_on_a_terminal_is_printed(capsys: pytest.CaptureFixture[str]) -> None:
    for text in ('{"jobs":\x1b[31m[]}', one_job(step("s", next="\x9b31m\u202e")), '{"\\u001b": 1}'):
        Path("odd.json").write_text(text)
        assert status("check", "odd.json") == 1
        assert all(mark.isprintable() or mark == "\n" for mark in capsys.readouterr().out)


def test_a_line_is_one_and_its_notes_are_apart(capfdbinary: pytest.CaptureFixture[bytes]) -> None:
    status("line", "--allow", "listeners", "weekly.xml")
    told = capfdbinary.readouterr()
    job = {"id": "weekly", "elements": [step("s")]}
    assert told.out == json.dumps({"jobs": [job]}, separators=(",", ":")).encode() + b"\n"
    assert told.err == b'weekly.xml:1:18: left out in job "weekly": <listeners>: no listener is called\n'


def test_jobs_of_several_files_become_one_catalogue(capsys: pytest.CaptureFixture[str]) -> None:
    assert status("from-jsl", "--allow", "listeners", "weekly.xml", "next.xml") == 0
    assert [job["id"] for job in json.loads(capsys.readouterr().out)["jobs"]] == ["weekly", "next"]
    assert status("from-jsl", "next.xml", "next.xml") == 1
    told = capsys.readouterr()
    assert told.out == ""
    assert told.err == 'jobhost catalogue: the files together are refused by batchctl, {"fault": "DuplicateId", "job": 1}\n'


def test_standard_input_is_a_file(monkeypatch: pytest.MonkeyPatch, capsys: pytest.CaptureFixture[str]) -> None:
    monkeypatch.setattr(sys, "stdin", io.TextIOWrapper(io.BytesIO(GOOD.encode())))
    assert status("check", "-") == 0
    assert capsys.readouterr().out == "-: accepted, jobs: 1, elements: 1\n"


def test_a_reader_that_goes_away_leaves_no_trace() -> None:
    Path("long.json").write_text("[" + "7, " * 100_000 + "7]")
    words = f"{ROOT}/service/jobhost catalogue line long.json | head -c 1"
    done = subprocess.run(["bash", "-c", words], capture_output=True, check=False)
    assert (done.stdout, done.stderr) == (b"[", b"")
