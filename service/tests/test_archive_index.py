"""What an archive answers, against rows that were worked out by hand: by the folder, by commands and over HTTP."""

from __future__ import annotations

import asyncio
import os
import sqlite3
import stat
import threading
import tracemalloc
from collections.abc import Callable
from pathlib import Path
from typing import Any

import pytest
from instances import Caller, running
from retained import Later, ended, execution, record, retaining

from job_host.archive import index as indexes
from job_host.archive.folder import ArchiveFolder, NoArchive
from job_host.archive.index import INDEX, ArchiveIndex, Wanted, listed, shown
from job_host.archive.lines import read_line, written
from job_host.archive.moments import DAY, begin_of_day, milliseconds
from job_host.commands.command_line import main
from job_host.protocol.moments import moment
from job_host.service.routes import archive as routes
from job_host.service.settings import ServeSettings

Make = Callable[..., ServeSettings]

# 2026-11-01 and 2026-12-01, both at 00:00 UTC.
NOVEMBER, DECEMBER = 1_793_491_200_000, 1_796_083_200_000


@pytest.fixture
def archive(tmp_path: Path) -> ArchiveFolder:
    """Job instance 1 with job executions 1 and 4, 2 with 2, 3 with 3, and of another history 1 with 1."""
    made = ArchiveFolder(tmp_path / "archive")
    made.begin()
    first = execution(1, 1, "night", "FAILED", NOVEMBER - 1, date="2026-10-31")
    again = execution(4, 1, "night", "COMPLETED", NOVEMBER + 3 * DAY, date="2026-10-31", full="yes")
    made.append(record(NOVEMBER + 90 * DAY, again, first), NOVEMBER)
    made.append(record(NOVEMBER + 91 * DAY, execution(2, 2, "day", "COMPLETED", NOVEMBER, date="2026-11-01")), NOVEMBER)
    made.append(record(NOVEMBER + 92 * DAY, execution(3, 3, "night", "ABANDONED", NOVEMBER + DAY - 1, client="a b")), DECEMBER)
    made.append(record(NOVEMBER + 93 * DAY, execution(1, 1, "day", "STOPPED", DECEMBER), history="two"), DECEMBER)
    return made


ROWS = [
    (Wanted(), [("two", 1), ("one", 4), ("one", 3), ("one", 2), ("one", 1)]),
    (Wanted(job="night"), [("one", 4), ("one", 3), ("one", 1)]),
    (Wanted(status="COMPLETED"), [("one", 4), ("one", 2)]),
    (Wanted(job="day", status="STOPPED"), [("two", 1)]),
    (Wanted(since=NOVEMBER), [("two", 1), ("one", 4), ("one", 3), ("one", 2)]),
    (Wanted(until=NOVEMBER), [("one", 1)]),
    (Wanted(since=NOVEMBER, until=NOVEMBER + DAY), [("one", 3), ("one", 2)]),
    (Wanted(since=DECEMBER), [("two", 1)]),
    (Wanted(parameters={"date": "2026-10-31"}), [("one", 4), ("one", 1)]),
    (Wanted(parameters={"date": "2026-10-31", "full": "yes"}), [("one", 4)]),
    (Wanted(parameters={"client": "a b"}), [("one", 3)]),
    (Wanted(parameters={"client": "a"}), []),
    (Wanted(job="nightly"), []),
    (Wanted(search="igh"), [("one", 4), ("one", 3), ("one", 1)]),
    (Wanted(search="date=2026-10-31, full"), [("one", 4)]),
    (Wanted(search="client=a b"), [("one", 3)]),
    (Wanted(search="day ended"), [("two", 1), ("one", 2)]),
    (Wanted(search="3"), [("one", 4), ("one", 3), ("one", 1)]),
    (Wanted(search="3", job="night", until=NOVEMBER), [("one", 1)]),
    (Wanted(search="%"), []),
    (Wanted(search="9" * 30), []),
]


def found(archive: ArchiveFolder, wanted: Wanted = Wanted(), start: int = 0, count: int = 100) -> list[tuple[str, int]]:
    return [(row["history"], row["executionId"]) for row in listed(archive, wanted, start, count)[0]]


@pytest.mark.parametrize("wanted, expected", ROWS)
def test_job_executions_are_found(archive: ArchiveFolder, wanted: Wanted, expected: list[tuple[str, int]]) -> None:
    assert found(archive, wanted) == expected
    assert [one for start in range(6) for one in found(archive, wanted, start, 1)] == expected


def test_a_job_execution_is_shown_whole(archive: ArchiveFolder) -> None:
    one = shown(archive, 4)
    assert one is not None and one.execution["logs"][0]["log"] == "the log of 4"
    assert [each["executionId"] for each in one.record["jobExecutions"]] == [4, 1]
    # Of two histories the one that was archived last.
    histories = [shown(archive, 1), shown(archive, 1, "one"), shown(archive, 1, "two")]
    assert [each and each.execution["jobName"] for each in histories] == ["day", "night", "day"]
    assert [shown(archive, 5), shown(archive, 4, "two"), shown(archive, 2**64 - 1)] == [None] * 3


def test_the_last_line_of_a_job_instance_counts(archive: ArchiveFolder) -> None:
    """Also if it stands in the file of an earlier month, as by another clock."""
    archive.append(record(NOVEMBER + 95 * DAY, execution(3, 3, "night", "FAILED", NOVEMBER + DAY - 1)), NOVEMBER)
    for _ in range(2):
        one = shown(archive, 3)
        assert one is not None and one.execution["batchStatus"] == "FAILED"
        assert found(archive, Wanted(status="ABANDONED")) == []
        (archive.path / INDEX).unlink()


def test_what_is_appended_is_found_and_files_are_not_read_again(
    archive: ArchiveFolder, monkeypatch: pytest.MonkeyPatch
) -> None:
    assert len(found(archive)) == 5
    read: list[tuple[str, int]] = []
    lines = ArchiveFolder.lines

    def note(folder: ArchiveFolder, name: str, offset: int) -> Any:
        read.append((name, offset))
        return lines(folder, name, offset)

    monkeypatch.setattr(ArchiveFolder, "lines", note)
    assert len(found(archive)) == 5 and read == []
    place = archive.append(record(DECEMBER, execution(9, 9, "late", "COMPLETED", DECEMBER)), DECEMBER)
    assert len(found(archive)) == 6 and read == [("2026-12.jsonl", place.offset)]


def test_damaged_lines_are_passed_over_and_told(archive: ArchiveFolder, capsys: pytest.CaptureFixture[str]) -> None:
    path = archive.path / "2026-11.jsonl"
    lines = path.read_bytes().splitlines(keepends=True)
    # A byte of the second line is another one, an empty line and one without job executions follow, and one that is cut off.
    wrong = lines[1].replace(b"day", b"dax")
    path.write_bytes(lines[0] + wrong + b"\n" + written({"a": 1}) + b"# no JSON\n" + lines[1][:50])
    rows, damaged = listed(archive, Wanted(), 0, 100)
    assert [(row["history"], row["executionId"]) for row in rows] == [("two", 1), ("one", 4), ("one", 3), ("one", 1)]
    assert [(one.file, one.lines) for one in damaged] == [("2026-11.jsonl", 4)]
    assert main(["archive", "find", "--archive", str(archive.path)]) == 0
    assert "jobhost: 4 damaged lines of 2026-11.jsonl are passed over\n" in capsys.readouterr().err
    archive.append(record(DECEMBER, execution(2, 2, "day", "COMPLETED", NOVEMBER)), NOVEMBER)
    assert ("one", 2) in found(archive)
    assert [(one.file, one.lines) for one in listed(archive, Wanted(), 0, 1)[1]] == [("2026-11.jsonl", 5)]


@pytest.mark.parametrize("text", [b"", b"SQLite format 3\0 and nothing else", b"x" * 5_000])
def test_an_index_is_made_again(archive: ArchiveFolder, text: bytes) -> None:
    expected = found(archive)
    (archive.path / INDEX).write_bytes(text)
    assert found(archive) == expected
    (archive.path / INDEX).unlink()
    assert found(archive) == expected


def test_an_index_of_another_version_is_made_again(archive: ArchiveFolder) -> None:
    expected = found(archive)
    with sqlite3.connect(archive.path / INDEX) as connection:
        connection.execute("drop table execution")
        connection.execute("pragma user_version = 99")
    connection.close()
    assert found(archive) == expected


def test_other_files_are_entered_anew(archive: ArchiveFolder) -> None:
    """A file that is shorter, one that is longer and another one, and one of the same size."""
    path = archive.path / "2026-11.jsonl"
    whole, lines = path.read_bytes(), path.read_bytes().splitlines(keepends=True)
    assert len(found(archive)) == 5
    path.write_bytes(lines[0])
    assert ("one", 2) not in found(archive) and len(found(archive)) == 4
    path.write_bytes(written(record(NOVEMBER, execution(7, 7, "new", "FAILED", NOVEMBER))) + whole)
    assert len(found(archive)) == 6
    path.write_bytes(lines[1] + lines[0] + written(record(NOVEMBER, execution(7, 7, "new", "FAILED", NOVEMBER))))
    path.write_bytes(whole)
    assert len(found(archive)) == 5
    path.write_bytes(lines[1] + lines[0])
    one = shown(archive, 4)
    assert one is not None and one.execution["executionId"] == 4
    # Lines of another history, each as long as the one in its place.
    path.write_bytes(b"".join(of_history(line, "six") for line in (lines[1], lines[0])))
    assert shown(archive, 4, "one") is None and shown(archive, 4, "six") is not None
    path.unlink()
    assert found(archive) == [("two", 1), ("one", 3)]


def of_history(line: bytes, history: str) -> bytes:
    """A line as it is, but for its history."""
    told = read_line(line) or {}
    return written({**{name: told[name] for name in told if name != "check"}, "history": history})


def test_an_archive_that_cannot_be_written_is_read(archive: ArchiveFolder, monkeypatch: pytest.MonkeyPatch) -> None:
    expected, connect = found(archive), indexes.connect

    def refuse(path: str, fault: Exception) -> sqlite3.Connection:
        if path != indexes.TEMPORARY:
            raise fault
        return connect(path)

    assert stat.S_IMODE((archive.path / INDEX).stat().st_mode) == 0o600
    for fault in (sqlite3.OperationalError("attempt to write a readonly database"), PermissionError("read-only")):
        monkeypatch.setattr(indexes, "connect", lambda path, fault=fault: refuse(path, fault))
        assert found(archive) == expected and (archive.path / INDEX).exists()


def long(number: int) -> dict[str, Any]:
    """A job execution with a long log."""
    one = execution(number, number, "long", "COMPLETED", NOVEMBER)
    return {**one, "logs": [{**one["logs"][0], "log": "x" * 524_288}]}


def test_an_archive_is_not_read_into_memory(archive: ArchiveFolder) -> None:
    """However long its lines are, one is read at a time."""
    for number in range(10, 22):
        archive.append(record(NOVEMBER, long(number)), DECEMBER)
    tracemalloc.start()
    try:
        assert len(found(archive)) == 17
        assert tracemalloc.get_traced_memory()[1] < 8 * 524_288
    finally:
        tracemalloc.stop()


def test_an_index_that_cannot_be_kept_is_on_the_disk_all_the_same(
    archive: ArchiveFolder, monkeypatch: pytest.MonkeyPatch
) -> None:
    """Its file is SQLite's own, which has no name and ends with it."""
    some = [execution(number, 1, "wide", "FAILED", NOVEMBER, text="x" * 4_000) for number in range(10, 610)]
    archive.append(record(NOVEMBER, *some), DECEMBER)
    (archive.path / INDEX).mkdir()
    with indexes.opened(archive) as index:
        assert len(index.find(Wanted(job="wide"), 0, 1_000)) == 600
        files = [os.readlink(f"/proc/self/fd/{one}") for one in os.listdir("/proc/self/fd") if is_open(one)]
    assert any("/etilqs_" in file for file in files)


def is_open(descriptor: str) -> bool:
    return os.path.lexists(f"/proc/self/fd/{descriptor}")


def test_what_an_index_has_entered_is_on_the_disk(archive: ArchiveFolder) -> None:
    """Else it might lack lines after a crash of the machine, and seem whole."""
    with indexes.opened(archive) as index:
        assert index._connection.execute("pragma synchronous").fetchone()[0] >= 2


def test_an_archive_that_is_closed_is_not_read_on(archive: ArchiveFolder, monkeypatch: pytest.MonkeyPatch) -> None:
    """Else the service's end waited until an archive of years was read."""
    monkeypatch.setattr(indexes, "LINES_AT_ONCE", 1)
    read = ArchiveFolder.lines

    def close_and_read(folder: ArchiveFolder, name: str, offset: int) -> Any:
        folder.close()
        return read(folder, name, offset)

    with monkeypatch.context() as patched:
        patched.setattr(ArchiveFolder, "lines", close_and_read)
        with pytest.raises(NoArchive, match="is closed"):
            found(archive)
    with sqlite3.connect(archive.path / INDEX) as connection:
        assert connection.execute("select count(*) from execution").fetchone() == (2,)
    connection.close()
    assert len(found(ArchiveFolder(archive.path))) == 5


def test_two_readers_enter_one_archive(archive: ArchiveFolder, monkeypatch: pytest.MonkeyPatch) -> None:
    """Each has looked at the sizes before the other one has entered lines."""
    enter = ArchiveIndex._enter_file
    inner: list[int] = []

    def enter_after_another(index: ArchiveIndex, name: str, size: int) -> None:
        if not inner:
            inner.append(1)
            assert len(found(ArchiveFolder(archive.path))) == 5
        enter(index, name, size)

    monkeypatch.setattr(ArchiveIndex, "_enter_file", enter_after_another)
    assert len(found(archive)) == 5 and inner == [1]


def test_a_folder_that_is_no_archive_is_told(tmp_path: Path, capsys: pytest.CaptureFixture[str]) -> None:
    with pytest.raises(NoArchive):
        listed(ArchiveFolder(tmp_path), Wanted(), 0, 1)
    assert main(["archive", "find", "--archive", str(tmp_path)]) == 1
    assert capsys.readouterr().err == f"jobhost: {tmp_path} is no archive: it has no file archive.json\n"
    assert list(tmp_path.iterdir()) == []


def test_moments_are_read_as_they_were_written() -> None:
    for one in (0, 1, 999, NOVEMBER - 1, NOVEMBER, 253_402_300_799_999, 2**63):
        assert milliseconds(moment(one)) == one
    assert (milliseconds(None), begin_of_day("2026-11-01"), begin_of_day("2026-12-01")) == (0, NOVEMBER, DECEMBER)


def command(archive: ArchiveFolder, capsys: pytest.CaptureFixture[str], *words: str) -> tuple[int, str]:
    capsys.readouterr()
    status = main(["archive", words[0], "--archive", str(archive.path), "--utc", *words[1:]])
    told = capsys.readouterr()
    return status, told.out + told.err


FIND = [
    ((), [1, 4, 3, 2, 1]),
    (("--job", "night"), [4, 3, 1]),
    (("--status", "COMPLETED"), [4, 2]),
    (("--from", "2026-11-01"), [1, 4, 3, 2]),
    (("--to", "2026-10-31"), [1]),
    (("--from", "2026-11-01", "--to", "2026-11-01"), [3, 2]),
    (("--search", " FULL=Yes "), [4]),
    (("-p", "date=2026-10-31"), [4, 1]),
    (("-p", "date=2026-10-31", "-p", "full=yes"), [4]),
    (("--count", "2"), [1, 4]),
]


@pytest.mark.parametrize("words, numbers", FIND)
def test_find_lists_rows(
    archive: ArchiveFolder,
    capsys: pytest.CaptureFixture[str],
    monkeypatch: pytest.MonkeyPatch,
    words: tuple[str, ...],
    numbers: list[int],
) -> None:
    monkeypatch.setenv("COLUMNS", "200")
    status, told = command(archive, capsys, "find", *words)
    rows = [[cell.strip() for cell in line.split("│")[1:-1]] for line in told.splitlines() if line.startswith("│")]
    assert status == 0 and [int(row[0]) for row in rows] == numbers
    assert ("there are more than 2" in told) == ("--count" in words)
    if numbers == [4]:
        created = "2026/11/04 00:00:00 +0000"
        assert rows == [["4", "1", "night", "COMPLETED", "night ended", created, "date=2026-10-31, full=yes"]]


def test_find_and_show_say_what_is_wrong(archive: ArchiveFolder, capsys: pytest.CaptureFixture[str]) -> None:
    assert command(archive, capsys, "find", "--job", "none") == (0, "no archived job execution is so\n")
    assert command(archive, capsys, "show", "5") == (1, "jobhost: the archive has no job execution 5\n")
    assert command(archive, capsys, "find", "-p", "date") == (1, "jobhost: date: a parameter is written NAME=VALUE\n")
    for words in (("--from", "2026-11-31"), ("--to", "yesterday"), ("--status", "STARTED")):
        with pytest.raises(SystemExit):
            command(archive, capsys, "find", *words)


def test_show_shows_all(archive: ArchiveFolder, capsys: pytest.CaptureFixture[str], monkeypatch: pytest.MonkeyPatch) -> None:
    monkeypatch.setenv("COLUMNS", "200")
    status, told = command(archive, capsys, "show", "4")
    assert status == 0 and "night: job execution 4 of job instance 1" in told
    for text in ("read=3", "start", "ann", "parameters: date=2026-10-31 full=yes", "# work item 1, load\nthe log of 4\n"):
        assert text in told, text
    assert f"archived {moment(NOVEMBER + 90 * DAY)} for the service, of history one: 2026-11.jsonl, byte 0\n" in told
    assert "day: job execution 1 of" in command(archive, capsys, "show", "1")[1]
    assert "night: job execution 1 of" in command(archive, capsys, "show", "1", "--history", "one")[1]


async def test_the_service_answers_from_its_archive(either: Make, archive: ArchiveFolder) -> None:
    async with retaining(either(archive=archive.path), Later(0)) as instance:
        caller = Caller(instance.url, "ann")
        path = "/batch/archive/jobexecutions"
        for words, numbers in [
            ("", [1, 4, 3, 2, 1]),
            ("?jobName=night&status=ABANDONED", [3]),
            ("?search=FULL&jobName=night", [4]),
            ("?from=2026-11-01&to=2026-11-01", [3, 2]),
            ("?page=1&pageSize=2", [3, 2]),
        ]:
            told = (await caller.ask("GET", path + words)).told
            assert [row["executionId"] for row in told["jobExecutions"]] == numbers and told["damagedLines"] == {}
            assert told["more"] == ("page=1" in words)
        for words in (
            "?status=GONE",
            "?from=2026",
            "?found=a",
            "?pageSize=0",
            "?status=FAILED&status=STOPPED",
            "/1?pageSize=101",
        ):
            assert (await caller.ask("GET", path + words)).name == "BadRequest", words
        assert (await caller.ask("GET", f"{path}/1")).told["jobName"] == "day"
        assert (await caller.ask("GET", f"{path}/1?history=one")).told["jobName"] == "night"
        # Of its own history first.
        purged = await ended(caller, "short", "COMPLETED", date="today")
        assert (await caller.ask("GET", f"{path}/{purged}")).told["jobName"] == "day"
        await caller.ask("DELETE", "/batch/jobinstances/1")
        own = (await caller.ask("GET", f"{path}/{purged}")).told
        assert (own["jobName"], own["logs"][0]["log"], own["archivedFor"]) == ("short", "the log of 1", "ann")
        assert own["history"] == instance.service.keeper.history
        await asyncio.gather(*(gone_and_archived(caller, purged, part) for part in ("", "/joblogs", "/causes", "?action=stop")))
        none = await caller.ask("GET", "/batch/jobexecutions/2")
        assert none.told.keys() == {"type", "title", "status"}


async def test_a_large_job_execution_is_told_in_pages(
    embedded: Make, archive: ArchiveFolder, monkeypatch: pytest.MonkeyPatch
) -> None:
    """And where it is, is told without a look at its logs."""
    one = execution(9, 9, "wide", "COMPLETED", NOVEMBER, text="x" * 4_000)
    logs = [{"work": number, "stepName": "load", "partition": number, "log": "a log"} for number in range(120)]
    async with retaining(embedded(archive=archive.path), Later(0)) as instance:
        history = instance.service.keeper.history
        archive.append(record(DECEMBER, {**one, "logs": logs, "workItems": logs[:3]}, history=history), DECEMBER)
        caller, path = Caller(instance.url), "/batch/archive/jobexecutions/9"
        (row,) = (await caller.ask("GET", "/batch/archive/jobexecutions?search=9")).told["jobExecutions"]
        assert len(row["parameterText"]) == 160 and "jobParameters" not in row
        told = (await caller.ask("GET", path)).told
        assert [len(told[name]) for name in ("operations", "workItems", "logs")] == [1, 3, 50]
        assert told["more"] == {"operations": False, "workItems": False, "logs": True}
        pages = [(await caller.ask("GET", f"{path}?page={page}&pageSize=100")).told for page in (0, 1)]
        assert [log["work"] for page in pages for log in page["logs"]] == list(range(120))
        assert [page["more"]["logs"] for page in pages] == [True, False] and pages[1]["workItems"] == []
        monkeypatch.setattr(ArchiveIndex, "execution", None)
        gone = (await caller.ask("GET", "/batch/jobexecutions/9")).told
        assert gone["archived"]["href"] == f"{path}?history={history}" and gone["archived"]["archivedFor"] == ""


async def test_the_archive_is_for_those_with_a_token(embedded: Make, archive: ArchiveFolder, tmp_path: Path) -> None:
    """Each role may read, as it may read the history. Without a token nobody learns what the archive has."""
    tokens = tmp_path / "tokens"
    tokens.write_text("".join(f"{role} {role} {role}-0123456789abcdef\n" for role in ("reader", "operator", "worker")))
    async with retaining(embedded(archive=archive.path, tokens=tokens), Later(0)) as instance:
        callers = [Caller(instance.url, token=f"{role}-0123456789abcdef") for role in ("operator", "worker", "reader")]
        operator, worker, _ = callers
        await operator.start("short")
        await worker.finish((await worker.claim()).told["work"]["work"])
        assert (await operator.ask("DELETE", "/batch/jobinstances/1")).status == 200
        path = "/batch/archive/jobexecutions"
        for each, status in ((path, 200), (f"{path}/1", 200), ("/batch/jobexecutions/1", 404)):
            assert [(await caller.ask("GET", each)).status for caller in callers] == [status] * 3
            for token in (None, "reader-0123456789abcdeg"):
                refused = await Caller(instance.url, token=token).ask("GET", each)
                assert (refused.status, refused.told) == (401, "")


async def gone_and_archived(caller: Caller, execution: int, part: str) -> None:
    told = await caller.ask("PUT" if "action" in part else "GET", f"/batch/jobexecutions/{execution}{part}")
    assert (told.status, told.name) == (404, "NoSuchJobExecutionException")
    href = told.told["archived"]["href"]
    assert href in told.told["detail"] and told.told["archived"]["file"].endswith(".jsonl")
    assert (await caller.ask("GET", href)).told["executionId"] == execution


async def test_an_archive_that_is_read_for_long_keeps_nobody_waiting(
    embedded: Make, archive: ArchiveFolder, monkeypatch: pytest.MonkeyPatch
) -> None:
    """What isn't there is told without it, and everything else goes on."""
    monkeypatch.setattr(routes, "MOST_SECONDS", 0.05)
    go_on = threading.Event()
    bring_on = ArchiveIndex.bring_on

    def wait_and_bring_on(index: ArchiveIndex) -> None:
        go_on.wait(30)
        bring_on(index)

    monkeypatch.setattr(ArchiveIndex, "bring_on", wait_and_bring_on)
    try:
        async with retaining(embedded(archive=archive.path), Later(0)) as instance:
            caller = Caller(instance.url)
            listing = asyncio.create_task(caller.ask("GET", "/batch/archive/jobexecutions"))
            for _ in range(20):
                assert (await caller.ask("GET", "/batch/jobexecutions/1")).told.keys() == {"type", "title", "status"}
            await ended(caller, "short", "COMPLETED")
            assert (await caller.ask("DELETE", "/batch/jobinstances/1")).status == 200
            assert not listing.done()
            go_on.set()
            assert len((await listing).told["jobExecutions"]) == 6
    finally:
        go_on.set()


async def test_a_service_without_an_archive_says_so(embedded: Make) -> None:
    async with running(embedded()) as instance:
        caller = Caller(instance.url)
        for path in ("", "/1"):
            told = await caller.ask("GET", f"/batch/archive/jobexecutions{path}")
            assert (told.status, told.name) == (404, "NoArchive")
        assert (await caller.ask("GET", "/batch/jobexecutions/1")).told.keys() == {"type", "title", "status"}


async def test_an_archive_that_is_gone_is_told(embedded: Make, tmp_path: Path) -> None:
    folder = tmp_path / "archive"
    async with running(embedded(archive=folder)) as instance:
        folder.rename(tmp_path / "elsewhere")
        caller = Caller(instance.url)
        assert (await caller.ask("GET", "/batch/archive/jobexecutions")).name == "ArchiveFailed"
        assert (await caller.ask("GET", "/batch/jobexecutions/1")).name == "NoSuchJobExecutionException"
        assert not os.path.exists(folder)
