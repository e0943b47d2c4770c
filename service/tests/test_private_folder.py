"""The folder of a history is its owner's alone."""

from __future__ import annotations

import logging
import os
from collections.abc import Callable, Iterator
from contextlib import closing
from pathlib import Path

import pytest
from instances import Caller, running

from job_host.service.history.log_file import Beginning
from job_host.service.settings import ServeSettings
from job_host.service.stores.private_folder import make_private
from job_host.service.stores.sqlite import SqliteStore


@pytest.fixture(autouse=True)
def usual_mask() -> Iterator[None]:
    before = os.umask(0o022)
    yield
    os.umask(before)


def modes(folder: Path) -> dict[str, str]:
    """The modes of a folder and of its files."""
    return {path.name: f"{path.stat().st_mode & 0o777:o}" for path in [folder, *folder.iterdir()]}


def test_a_new_folder_is_made_so(tmp_path: Path, caplog: pytest.LogCaptureFixture) -> None:
    folder = tmp_path / "over" / "data"
    make_private(folder)
    with closing(SqliteStore(folder / "beside.sqlite")) as store:
        store.begin_history(Beginning("", None))
        told = modes(folder)
    assert told == {"data": "700", "beside.sqlite": "600", "beside.sqlite-wal": "600", "beside.sqlite-shm": "600"}
    make_private(folder)
    assert caplog.messages == [] and f"{(tmp_path / 'over').stat().st_mode & 0o777:o}" == "755"


def test_an_existing_folder_is_closed_to_others(tmp_path: Path, caplog: pytest.LogCaptureFixture) -> None:
    caplog.set_level(logging.WARNING)
    folder = tmp_path / "data"
    folder.mkdir()
    names = ("history.log", "history.log.cut", "beside.sqlite", "beside-12.sqlite", "beside.sqlite-wal", "another")
    for name in names:
        (folder / name).touch()
    (tmp_path / "elsewhere").touch()
    (folder / "history.log.link").symlink_to(tmp_path / "elsewhere")
    make_private(folder)
    told = modes(folder)
    assert told.pop("another") == told.pop("history.log.link") == "644"
    assert told.pop("data") == "700" and set(told.values()) == {"600"}
    assert len(caplog.messages) == 6 and f"{folder} was open to others (755): it is its owner's alone now" in caplog.messages
    caplog.clear()
    make_private(folder)
    assert caplog.messages == []


async def test_a_service_closes_its_folder(embedded: Callable[..., ServeSettings]) -> None:
    made = embedded()
    async with running(made) as instance:
        await Caller(instance.url).start("short")
        told = modes(made.data)
    assert told.pop("data") == "700" and set(told) >= {"history.log", "beside.sqlite"} and set(told.values()) == {"600"}
