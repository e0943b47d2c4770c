"""Where the files are that an instance over PostgreSQL may lose, and that they go."""

from __future__ import annotations

import os
from pathlib import Path
from types import SimpleNamespace

import pytest

from job_host.service.stores import local_files
from job_host.service.stores.local_files import PREFIX, LocalFiles


def patch_memory(patch: pytest.MonkeyPatch, folder: Path) -> None:
    patch.delenv("TMPDIR", raising=False)
    patch.setattr(local_files, "MEMORY", folder)


def test_local_files_are_private_and_go(tmp_path: Path, monkeypatch: pytest.MonkeyPatch) -> None:
    """A folder that another instance has stays, and so does what isn't a folder."""
    patch_memory(monkeypatch, tmp_path)
    other, left, link = LocalFiles(), tmp_path / f"{PREFIX}left", tmp_path / f"{PREFIX}link"
    theirs = other.new()
    theirs.write_text("theirs")
    (left / "1").mkdir(parents=True)
    (left / "1" / "history.log").write_text("old")
    link.symlink_to(tmp_path)
    own = LocalFiles()
    path = own.new()
    assert path.parent.parent.stat().st_mode & 0o777 == 0o700 and path.parent.parent.parent == tmp_path
    assert not left.exists() and theirs.read_text() == "theirs" and link.is_symlink()
    path.write_text("one")
    second = own.new()
    second.write_text("two")
    own.drop(path)
    assert (path.parent.exists(), second.read_text()) == (False, "two")
    own.close()
    other.close()
    assert list(tmp_path.iterdir()) == [link]


def test_local_files_whose_folder_was_removed_have_another_one(tmp_path: Path, monkeypatch: pytest.MonkeyPatch) -> None:
    patch_memory(monkeypatch, tmp_path)
    files = LocalFiles()
    first = files.new()
    files.drop(first.parent)
    second = files.new()
    assert not first.parent.parent.exists() and second.parent.is_dir()
    files.close()


class Room:
    """A file system in memory that has so many bytes of room, or none. It is beside a folder of temporary files."""

    def __init__(self, patch: pytest.MonkeyPatch, folder: Path, room: int | None) -> None:
        self.room = room
        self.asked: list[Path] = []
        for one in ["disk", *(["memory"] if room is not None else [])]:
            (folder / one).mkdir()
        patch.delenv("TMPDIR", raising=False)
        patch.setattr("tempfile.tempdir", str(folder / "disk"))
        patch.setattr(local_files, "MEMORY", folder / "memory")
        patch.setattr(os, "statvfs", self._statvfs)

    def _statvfs(self, folder: Path) -> SimpleNamespace:
        self.asked.append(folder)
        if self.room is None:
            raise FileNotFoundError(folder)
        return SimpleNamespace(f_bavail=self.room, f_frsize=1)


@pytest.mark.parametrize(
    ("given", "room", "where"),
    [
        (None, local_files.ENOUGH_ROOM, "memory"),
        (None, local_files.ENOUGH_ROOM - 1, "disk"),
        (None, None, "disk"),
        ("given", local_files.ENOUGH_ROOM, "given"),
    ],
    ids=["room", "too little room", "no file system in memory", "TMPDIR"],
)
def test_where_local_files_are(
    tmp_path: Path, monkeypatch: pytest.MonkeyPatch, given: str | None, room: int | None, where: str
) -> None:
    memory = Room(monkeypatch, tmp_path, room)
    if given is not None:
        (tmp_path / given).mkdir()
        monkeypatch.setenv("TMPDIR", str(tmp_path / given))
        monkeypatch.setattr("tempfile.tempdir", None)
    files = LocalFiles()
    assert files.new().is_relative_to(tmp_path / where)
    files.close()
    assert [list(one.iterdir()) for one in tmp_path.iterdir()] == [[]] * len(list(tmp_path.iterdir()))
    assert memory.asked == ([] if given else [tmp_path / "memory"])


def test_memory_that_was_full_is_not_taken_again(tmp_path: Path, monkeypatch: pytest.MonkeyPatch) -> None:
    memory, files = Room(monkeypatch, tmp_path, local_files.ENOUGH_ROOM), LocalFiles()
    first, second = files.new(), files.new()
    memory.room = local_files.NO_ROOM
    files.drop(first)
    memory.room = local_files.ENOUGH_ROOM
    third = files.new()
    memory.room = local_files.NO_ROOM - 1
    files.drop(second)
    memory.room = local_files.ENOUGH_ROOM
    assert (third.is_relative_to(tmp_path / "memory"), files.new().is_relative_to(tmp_path / "disk")) == (True, True)
    files.close()
