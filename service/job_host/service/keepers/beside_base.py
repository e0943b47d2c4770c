"""What the SQLite file has to know if the log has a base: request keys and names before that can't be read out of the log."""

from __future__ import annotations

import logging
from pathlib import Path

from job_host.service.history.engine import Engine
from job_host.service.history.log_file import Beginning, KnownBase
from job_host.service.keepers.embedded_term import Beside
from job_host.service.keepers.keeper import Fatal
from job_host.service.stores.beside_files import STORE_NAME, OtherStore, open_store
from job_host.service.stores.sqlite import SqliteStore
from job_host.service.terms.calls import SERVICE_SESSION

log = logging.getLogger(__name__)

# Of what isn't known, the first ones are named.
MOST_NAMED = 10


class BesideBase:
    """A log and the file beside it. If that lacks what is before the base, a person has to say that it may be forgotten."""

    def __init__(self, folder: Path, path: Path, may_forget: bool) -> None:
        self._folder = folder
        self._path = path
        self._may_forget = may_forget

    def _lacks(self, what: str) -> None:
        """Raises Fatal unless what the file lacks may be forgotten."""
        told = f"{self._folder / STORE_NAME} {what}, and the base of {self._path} doesn't tell it"
        if not self._may_forget:
            raise Fatal(f"{told}: restore the file, or start once with --forget-keys")
        log.warning("%s: it is forgotten", told)

    def open(self, beginning: Beginning) -> SqliteStore:
        """The file of the log's history. Raises Fatal if there is none, and the log has a base."""
        try:
            return open_store(self._folder, beginning)
        except OtherStore:
            self._lacks("isn't known to be of the log's history")
            return open_store(self._folder, beginning, may_be_other=True)

    async def begin(self, beside: Beside, base: KnownBase) -> None:
        """Raises Fatal if the file doesn't know all that is before the base."""
        noted, history = await beside.do(lambda store: (store.noted(), store.history()))
        count = base.head.operations
        if noted.operations <= count and (history is None or not history.knows(base)):
            self._lacks(f"doesn't know the request keys of the first {count} operations, or not all of them")

    async def forget(self, beside: Beside, base: KnownBase) -> None:
        """Forgets what the file knows of operations that aren't so in the log. Raises Fatal if it doesn't know the base."""
        if await beside.do(lambda store: store.forget_behind(base)):
            return
        self._lacks("is of another end of the log's history")
        await beside.do(lambda store: store.forget_log())

    async def restore(self, beside: Beside, engine: Engine) -> None:
        """Lets an engine that begins with a base know who did what before it."""
        engine.restore_actions(await beside.do(lambda store: store.actions(engine.based)))
        await beside.do(lambda store: store.audit.fill_jobs(engine.jobs.of))

    async def end(self, beside: Beside, engine: Engine, base: KnownBase) -> None:
        """Notes the base, after all behind it is noted. Raises Fatal if a client isn't known that holds a work item."""
        await self._check_names(beside, engine)
        await beside.do(lambda store: store.note_base(base, engine.last_session))

    async def _check_names(self, beside: Beside, engine: Engine) -> None:
        """Raises Fatal if a client isn't known that holds a work item."""
        sessions = sorted(engine.holding() - {SERVICE_SESSION})
        unknown = await beside.do(lambda store: [one for one in sessions if store.name_of(one) is None])
        works = [held.work for held in engine.held.values() if held.session in unknown]
        if works:
            more = "" if len(works) <= MOST_NAMED else f" and {len(works) - MOST_NAMED} more"
            self._lacks(f"doesn't name the clients of the work items {', '.join(map(str, works[:MOST_NAMED]))}{more}")
            await beside.do(lambda store: store.name_unknown(unknown))
