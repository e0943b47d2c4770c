"""The SQLite files beside a log: that of its history, and those of other histories, which are set aside."""

from __future__ import annotations

import logging
import sqlite3
import uuid
from contextlib import closing
from pathlib import Path

from job_host.service.history.log_file import Beginning
from job_host.service.stores.history import history_in
from job_host.service.stores.sqlite import SqliteStore
from job_host.service.stores.sqlite_schema import refuse_later
from job_host.service.stores.versions import LaterVersion

log = logging.getLogger(__name__)

STORE_NAME = "beside.sqlite"
SET_ASIDE = "beside-{}.sqlite"


class OtherStore(Exception):
    """The file beside a log with a base isn't of its history, or there is none: what is before the base can't be known."""


def open_store(folder: Path, beginning: Beginning, may_be_other: bool = False) -> SqliteStore:
    """The file of the log's history, or a new one. That of another history is set aside until its log is back.

    Raises LaterVersion if it is one that this program doesn't know, and OtherStore unless that may be.
    """
    store = SqliteStore(folder / STORE_NAME)
    kept, fits = store.history(), may_be_of(store, beginning)
    try:
        earlier = None if kept is not None and kept.is_of(beginning) else earlier_file(folder, beginning)
        if earlier is None and not fits and beginning.base is not None and not may_be_other:
            raise OtherStore()
    except (LaterVersion, OtherStore):
        store.close()
        raise
    if earlier is not None or not (fits or (kept is None and store.is_empty())):
        # Schedules go by the clock, and on in the new file. One that comes back has its own marks.
        scheduled = store.notifications.scheduled() if earlier is None else {}
        set_aside(store, folder)
        if earlier is not None:
            earlier.rename(folder / STORE_NAME)
        store = SqliteStore(folder / STORE_NAME)
        store.notifications.add([], scheduled)
    store.begin_history(beginning)
    return store


def may_be_of(store: SqliteStore, beginning: Beginning) -> bool:
    """Whether a file is of the log's history, as far as it says. One that names none is new, or of an earlier version."""
    kept = store.history()
    if beginning.base is not None:
        return kept is not None and kept.is_of(beginning)
    if kept is None:
        return beginning.first is not None or store.is_empty()
    if kept.bases and kept.beginning.first is None:
        # It was begun beside a base, and nobody knows the first operation.
        return False
    return kept.beginning.catalogue == beginning.catalogue and kept.beginning.first in (None, beginning.first)


def earlier_file(folder: Path, beginning: Beginning) -> Path | None:
    """The file that was set aside for the log's history."""
    for path in folder.glob(SET_ASIDE.format("*")) if beginning.first is not None or beginning.base is not None else ():
        with closing(sqlite3.connect(f"{path.resolve().as_uri()}?mode=ro", uri=True)) as connection:
            kept = history_in(connection)
            if kept is not None and kept.is_of(beginning):
                refuse_later(connection, path.name)
                return path
    return None


def set_aside(store: SqliteStore, folder: Path) -> None:
    """Closes a file, and gives it the name of its history."""
    kept = store.history()
    name = SET_ASIDE.format(uuid.uuid4().hex if kept is None else kept.identity)
    store.close_whole()
    (folder / STORE_NAME).rename(folder / name)
    log.warning("the log has another history: request keys and logs of the old one are set aside in %s", name)
