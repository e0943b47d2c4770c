"""The files of an archive: whole lines, whatever is cut off, damaged, full or gone."""

from __future__ import annotations

import errno
import json
import os
import stat
from concurrent.futures import ThreadPoolExecutor
from pathlib import Path
from typing import Any

import pytest

from job_host.archive.folder import MARK, ArchiveFolder, NoArchive, Place
from job_host.archive.lines import CHECK_BYTES, read_line, written

# 2026-11-30 23:59:59.999 UTC, and a millisecond later.
NOVEMBER, DECEMBER = 1_796_083_199_999, 1_796_083_200_000


@pytest.fixture
def archive(tmp_path: Path) -> ArchiveFolder:
    made = ArchiveFolder(tmp_path / "archive")
    made.begin()
    return made


def records(archive: ArchiveFolder) -> list[Any]:
    """Each line of each file, None if it is damaged."""
    return [read_line(line.text) for name in archive.files() for line in archive.lines(name, 0)]


def test_a_line_is_json_and_is_known_by_its_check() -> None:
    record = {"text": 'a "quoted" one\n\u20ac', "number": 1, "list": [None, True]}
    line = written(record)
    assert line.endswith(b"\n") and line.count(b"\n") == 1 and line.isascii()
    told = json.loads(line)
    assert read_line(line) == told and {name: told[name] for name in record} == record
    assert list(told) == [*record, "check"] and len(line) - CHECK_BYTES == len(json.dumps(record, separators=(",", ":"))) - 1
    for place in range(len(line)):
        assert read_line(line[:place] + bytes([line[place] ^ 1]) + line[place + 1 :]) is None
        assert read_line(line[:place]) is None


def test_a_file_for_each_month_is_its_owners_alone(archive: ArchiveFolder) -> None:
    places = [archive.append({"number": number}, now) for number, now in enumerate((NOVEMBER, DECEMBER, DECEMBER))]
    assert archive.files() == ["2026-11.jsonl", "2026-12.jsonl"]
    assert [place.file for place in places] == ["2026-11.jsonl", "2026-12.jsonl", "2026-12.jsonl"]
    assert [json.loads(archive.text_at(place))["number"] for place in places] == [0, 1, 2]
    modes = {stat.S_IMODE(path.stat().st_mode) for path in archive.path.iterdir()}
    assert modes == {0o600} and stat.S_IMODE(archive.path.stat().st_mode) == 0o700


def test_a_line_that_was_cut_off_is_passed_over(archive: ArchiveFolder) -> None:
    archive.append({"number": 1}, NOVEMBER)
    path, line = archive.path / "2026-11.jsonl", written({"number": 2})
    whole = path.read_bytes()
    for cut in (1, len(line) // 2, len(line) - 1):
        path.write_bytes(whole + line[:cut])
        assert [one["number"] for one in records(archive)] == [1]
        place = ArchiveFolder(archive.path).append({"number": 3}, NOVEMBER)
        # Only its line feed may have been missing.
        assert [one and one["number"] for one in records(archive)] == [1, 2 if cut == len(line) - 1 else None, 3]
        assert json.loads(archive.text_at(place))["number"] == 3


def test_a_full_disk_leaves_the_file_as_it_was(archive: ArchiveFolder, monkeypatch: pytest.MonkeyPatch) -> None:
    archive.append({"number": 1}, NOVEMBER)
    path = archive.path / "2026-11.jsonl"
    whole, write = path.read_bytes(), os.write
    with monkeypatch.context() as patched:

        def part(descriptor: int, text: Any) -> int:
            if path.stat().st_size > len(whole):
                raise OSError(errno.ENOSPC, os.strerror(errno.ENOSPC))
            return write(descriptor, bytes(text)[:7])

        patched.setattr(os, "write", part)
        with pytest.raises(OSError, match="No space"):
            archive.append({"number": 2}, NOVEMBER)
    assert path.read_bytes() == whole
    monkeypatch.setattr(os, "write", lambda descriptor, text: write(descriptor, bytes(text)[:7]))
    archive.append({"number": 2}, NOVEMBER)
    assert [one["number"] for one in records(archive)] == [1, 2]


def test_a_line_is_synced_before_it_counts(archive: ArchiveFolder, monkeypatch: pytest.MonkeyPatch) -> None:
    synced: list[str] = []
    sync = os.fsync

    def note(descriptor: int) -> None:
        synced.append(Path(os.readlink(f"/proc/self/fd/{descriptor}")).name)
        sync(descriptor)

    monkeypatch.setattr(os, "fsync", note)
    for _ in range(2):
        archive.append({"number": 1}, NOVEMBER)
    assert synced == ["2026-11.jsonl", "archive", "2026-11.jsonl"]
    # Another process doesn't know whether the one that made the file came to sync the folder.
    ArchiveFolder(archive.path).append({"number": 1}, NOVEMBER)
    assert synced[3:] == ["2026-11.jsonl", "archive"]

    def fail(descriptor: int) -> None:
        raise OSError(errno.EIO, os.strerror(errno.EIO))

    whole = (archive.path / "2026-11.jsonl").read_bytes()
    monkeypatch.setattr(os, "fsync", fail)
    with pytest.raises(OSError):
        archive.append({"number": 2}, NOVEMBER)
    assert (archive.path / "2026-11.jsonl").read_bytes() == whole


def test_another_folder_in_its_place_is_refused(archive: ArchiveFolder, tmp_path: Path) -> None:
    archive.append({"number": 1}, NOVEMBER)
    archive.path.rename(tmp_path / "elsewhere")
    with pytest.raises(NoArchive, match="has no file archive.json"):
        archive.append({"number": 2}, NOVEMBER)
    other = ArchiveFolder(archive.path)
    other.begin()
    with pytest.raises(NoArchive, match="another archive than at the start"):
        archive.append({"number": 2}, NOVEMBER)
    assert other.files() == []
    (archive.path / MARK).write_text("{}")
    with pytest.raises(NoArchive, match="is damaged"):
        other.check()
    (archive.path / MARK).write_text('{"version": 2, "archive": "a"}')
    with pytest.raises(NoArchive, match="version 2, and this program knows version 1"):
        ArchiveFolder(archive.path).begin()


def test_two_instances_begin_one_archive(tmp_path: Path) -> None:
    both = [ArchiveFolder(tmp_path / "shared") for _ in range(2)]
    for one in both:
        one.begin()
    for one in both:
        one.append({"number": 1}, NOVEMBER)
    assert len(records(both[0])) == 2 and sorted(os.listdir(tmp_path / "shared")) == ["2026-11.jsonl", MARK]


def test_two_instances_append_at_once(archive: ArchiveFolder) -> None:
    """Each line is whole, and stands where its place says."""

    def append(first: int) -> list[tuple[int, Place]]:
        one = ArchiveFolder(archive.path)
        return [(number, one.append({"number": number, "text": "x" * number}, NOVEMBER)) for number in range(first, first + 40)]

    with ThreadPoolExecutor(4) as threads:
        places = dict(pair for pairs in threads.map(append, range(0, 160, 40)) for pair in pairs)
    assert sorted(one["number"] for one in records(archive)) == list(range(160))
    assert {number: json.loads(archive.text_at(place))["number"] for number, place in places.items()} == {
        number: number for number in range(160)
    }
