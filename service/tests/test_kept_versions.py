"""Versions with their settings, as they are kept and compared: files of an embedded service, and the table of PostgreSQL."""

from __future__ import annotations

from collections.abc import Callable
from pathlib import Path

import pytest
from job_versions import limited, step_of, timeout

from job_host.catalogue.folder import read_folder
from job_host.catalogue.jobs import JobFile, JobsRefused, SettingsFile
from job_host.catalogue.versions import read_for_workers, read_job
from job_host.service.keepers.folder_changes import folder_changes, known_files, version_of
from job_host.service.stores.postgres import PostgresStore
from job_host.service.versions.book import FileNotKept, JobBook
from job_host.service.versions.changes import Change, Growth, digest_of, digest_of_file
from job_host.service.versions.files import JobFiles

# Takes each catalogue, as batchctl does one without faults.
ACCEPTS = ("sh", "-c", """cat > /dev/null; echo '{"jobs":1}'""")


def file_of(limit: int, settings: str | None) -> JobFile:
    held = None if settings is None else SettingsFile("nightly.settings.json", settings.encode())
    return JobFile("nightly.xml", ".xml", limited(limit).encode(), held)


def book_of(*files: JobFile) -> JobBook:
    """A book whose job has a version of each of these files."""
    book = JobBook(lambda change: None, lambda file: read_for_workers(file, ()))
    for file in files:
        book.enter([version_of(book, read_job(file, "nightly", (), ACCEPTS), "ann")])
    return book


FILES = [file_of(1, timeout(60)), file_of(1, None), file_of(2, timeout(60)), file_of(2, '{"steps":{}}')]
STEPS = [step_of(1, 60), step_of(1, None), step_of(2, 60), step_of(2, None)]


def is_whole(changes: list[Change], find: Callable[[Change], JobFile | None]) -> None:
    """Each version has its file with its settings, and a book what is for workers."""
    assert [find(change) for change in changes] == FILES
    book = JobBook(find, lambda file: read_for_workers(file, ()))
    book.enter(changes)
    ids = ["nightly", "nightly@2", "nightly@3", "nightly@4"]
    assert [book.for_workers(job).steps["only"] for job in ids] == STEPS


def test_files_have_each_version_with_its_settings(tmp_path: Path) -> None:
    JobFiles(tmp_path).keep(book_of(*FILES).changes)
    files = JobFiles(tmp_path)
    is_whole(files.load(), files.file_of)
    for name in ("nightly@1.settings.json", "nightly@3.xml"):
        (files.folder / name).unlink()
    (files.folder / "nightly@4.settings.json").write_text('{"steps": {}}')
    assert [files.file_of(change) for change in files.load()] == [None, FILES[1], None, None]
    book = JobBook(files.file_of, lambda file: read_for_workers(file, ()))
    book.enter(files.load())
    with pytest.raises(FileNotKept, match="the file of 'nightly' isn't kept, so its properties aren't known"):
        book.for_workers("nightly")


async def test_the_table_has_each_version_with_its_settings(dsn: str) -> None:
    book = book_of(*FILES)
    store = await PostgresStore.open((dsn,), 10.0)
    try:
        epoch = await store.take_over(await store.leader(), "one", "", None)
        assert epoch is not None and await store.grow(epoch, Growth(book.changes, book.line)) == epoch + 1
        changes = await store.job_changes()
    finally:
        store.close()
    assert changes == book.changes
    is_whole(changes, lambda change: change.file)


def test_a_digest_is_of_both_files() -> None:
    digests = {digest_of_file(file) for file in FILES}
    assert len(digests) == 4 and digest_of(FILES[1].data) in digests
    assert digest_of_file(file_of(1, timeout(60))) == digest_of_file(FILES[0])


@pytest.mark.parametrize(
    ("limit", "settings", "is_changed"),
    [
        (1, timeout(60), False),
        (1, timeout(60).replace(":", " :\n"), False),
        (1, timeout(61), True),
        (2, timeout(60), True),
        (1, None, True),
        (1, "{}", True),
    ],
)
def test_a_changed_limit_or_timeout_alone_is_a_version(
    tmp_path: Path, limit: int, settings: str | None, is_changed: bool
) -> None:
    (tmp_path / "nightly.xml").write_text(limited(limit))
    if settings is not None:
        (tmp_path / "nightly.settings.json").write_text(settings)
    book, served = book_of(FILES[0]), read_folder(tmp_path, ()).served()
    found = folder_changes(book, ACCEPTS, served, {})
    assert [change.id for change in found.changes] == (["nightly@2"] if is_changed else [])
    assert found.seen == {"nightly": digest_of_file((served.files or {})["nightly"])}
    assert folder_changes(book, ACCEPTS, served, found.seen).changes == []
    is_known = (limit, settings) == (1, timeout(60))
    assert known_files(book, served) == (found.seen if is_known else {})


def test_faults_of_a_file_and_of_its_settings_are_told_together() -> None:
    with pytest.raises(JobsRefused) as refused:
        read_job(file_of(-1, timeout(0)), "nightly", (), ACCEPTS)
    assert [line.split(" ")[0] for line in refused.value.lines] == ["nightly.xml:2:35:", "nightly.settings.json:1:32:"]
