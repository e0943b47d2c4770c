"""A term over a log: each line has its client and its request key ahead of it, so that the log has them with the operation."""

from __future__ import annotations

import asyncio
import sqlite3
import time
from collections.abc import Callable, Sequence
from concurrent.futures import ThreadPoolExecutor
from contextlib import suppress
from functools import partial
from typing import Any, TypeVar

from job_host.protocol.lines import digest
from job_host.service.history.tags import Tag
from job_host.service.keepers.chaining import Chaining
from job_host.service.problems import Problem, unavailable
from job_host.service.stores.sqlite import Noted, Notes, Request, SqliteStore
from job_host.service.terms.calls import SERVICE_SESSION, Call, Item, Kept, KeptRequest
from job_host.service.terms.known_keys import KeptKey
from job_host.service.terms.term import Term

T = TypeVar("T")

# What the log has, too, is noted so long behind its replies, many at once; and before a reply leaves if so many aren't noted.
NOTE_SECONDS = 0.02
MOST_UNNOTED = 1_000


class Beside:
    """The SQLite file, by a thread of its own. What is to be noted there comes before each call: `note` hands it over."""

    def __init__(self, store: SqliteStore, thread: ThreadPoolExecutor) -> None:
        self._store = store
        self._thread = thread
        self.note: Callable[[], object] = lambda: None

    async def do(self, call: Callable[[SqliteStore], T]) -> T:
        """Calls it in its thread. Raises a problem if the disk fails, or the term is over."""
        self.note()
        return await told_by(self.hand(call))

    def hand(self, call: Callable[[SqliteStore], T]) -> asyncio.Future[T]:
        """Hands a call to its thread, behind those before it. Raises a problem if the term is over."""
        try:
            return asyncio.get_running_loop().run_in_executor(self._thread, lambda: call(self._store))
        except RuntimeError as ended:
            raise unavailable("StoreLost", "the term is over, and its thread with it") from ended


async def told_by(done: asyncio.Future[T]) -> T:
    """What a call of the file returns. Raises a problem if the disk fails."""
    try:
        return await done
    except sqlite3.Error as fault:
        raise store_lost(fault) from fault


def store_lost(fault: BaseException) -> Problem:
    return unavailable("StoreLost", f"{type(fault).__name__}: {fault}")


class EmbeddedTerm(Term):
    """An operation is on the disk, with its tag, when batchctl answers. The file beside the log may note it later.

    Before a reply leaves, what the log lacks is kept: the reply to a refused call with a key, and the log of a work item. The
    chain is brought on then, if there is one.
    """

    def __init__(self, beside: Beside, history: str, chaining: Chaining | None, *others: Any) -> None:
        super().__init__(*others)
        self._beside = beside
        self._chaining = chaining
        self._history = history
        # Sessions whose names the SQLite file has, and those that the log has named since this term began.
        self._noted_sessions = set(self.sessions.numbers())
        self._named_sessions = {SERVICE_SESSION}
        self._unnoted: list[Item] = []
        self._last_noted = self.engine.entered
        self._noting: asyncio.Future[None] | None = None
        self._note_timer: asyncio.TimerHandle | None = None
        beside.note = self._hand_notes

    @property
    def noted(self) -> int:
        return self._last_noted

    async def keys_behind(self, last: KeptKey | None, most: int) -> Sequence[KeptKey]:
        return await self._beside.do(lambda store: store.keys_behind(last, most))

    async def find(self, session: int, key: str) -> KeptRequest | None:
        return await self._beside.do(lambda store: store.request(session, key))

    async def session_of(self, name: str) -> int | None:
        return await self._beside.do(lambda store: store.session_of(name))

    async def forget(self, key: str, kept: Kept) -> None:
        await self._beside.do(lambda store: store.drop_once({key: kept.reply}))

    def item_of(self, call: Call) -> Item:
        item = super().item_of(call)
        history = self._history if self.engine.is_compact else ""
        if call.key is not None or call.address or history or item.session not in self._named_sessions:
            item.tag = Tag(call.client, call.key, call.fingerprint, call.is_once, history, call.address).written()
        return item

    def note_compacted(self) -> None:
        """The log names no session any more."""
        self._named_sessions = {SERVICE_SESSION}

    def note_accepted(self, client: str, session: int) -> None:
        super().note_accepted(client, session)
        self._named_sessions.add(session)

    async def keep(self, items: Sequence[Item]) -> None:
        told = [item for item in items if item.call is not None or item.log is not None]
        self._unnoted += told
        if any(is_alone(item) for item in told) or len(self._unnoted) >= MOST_UNNOTED:
            await self._noted()
        elif self._unnoted and self._note_timer is None:
            self._note_timer = asyncio.get_running_loop().call_later(NOTE_SECONDS, self._note_later)
        await self._chain(told)

    async def _noted(self) -> None:
        """Returns after all is noted that was handed over until now."""
        noting = self._hand_notes()
        if noting is not None:
            await told_by(asyncio.shield(noting))

    def _note_later(self) -> None:
        """Notes what has come, or waits for what is being noted."""
        self._note_timer = None
        if self._noting is None or self._noting.done():
            with suppress(Problem):
                self._hand_notes()
        else:
            self._note_timer = asyncio.get_running_loop().call_later(NOTE_SECONDS, self._note_later)

    def _hand_notes(self) -> asyncio.Future[None] | None:
        """Hands over what isn't noted yet. Returns what ends when it is, with all before it."""
        items, self._unnoted = self._unnoted, []
        notes = self._notes_of(items)
        if not notes.is_empty:
            self._noted_sessions.update(notes.clients.values())
            self._noting = self._beside.hand(lambda store: store.note(notes))
            self._noting.add_done_callback(partial(self._note_end, notes.last))
        return self._noting

    def _note_end(self, last: Noted | None, noting: asyncio.Future[None]) -> None:
        """Notes were kept. If they weren't, the term ends: the next one reads them out of the log."""
        if noting.cancelled():
            return
        fault = noting.exception()
        if fault is not None:
            self.fail(store_lost(fault))
        elif last is not None:
            self._last_noted = max(self._last_noted, last.operations)
            self.engine.note_kept(self._last_noted)

    async def _chain(self, items: Sequence[Item]) -> None:
        """Chains what the log has up to the last operation, if operations are chained."""
        last = max((item.number for item in items if item.number is not None), default=None)
        if self._chaining is not None and last is not None:
            follow = partial(self._chaining.follow, last)
            await self._beside.do(lambda store: follow())

    def _notes_of(self, items: Sequence[Item]) -> Notes:
        keyed = [item for item in items if item.is_keyed]
        entered = [item for item in items if item.number is not None]
        logs = [item.log for item in items if item.log is not None]
        return Notes(
            requests=[request for item in keyed for request in _requests_of(item)],
            clients=self._new_clients([*keyed, *entered]),
            logs=logs,
            operations=[told for item in entered if (told := item.audited()) is not None],
            last=Noted(entered[-1].number or 0, digest(entered[-1].line)) if entered else None,
            first=next((digest(item.line) for item in entered if item.number == 1), None),
            is_alone=any(map(is_alone, items)),
        )

    def _new_clients(self, items: Sequence[Item]) -> dict[str, int]:
        """The clients that the SQLite file doesn't name yet."""
        told = [(item.call.client, item.session) for item in items if item.call is not None]
        return {client: session for client, session in told if session not in self._noted_sessions}


def is_alone(item: Item) -> bool:
    """Whether an item has something that the log doesn't have: a worker's log, or the reply to a refused call with a key."""
    return item.log is not None or (item.number is None and item.is_keyed)


def _requests_of(item: Item) -> list[Request]:
    """The request key of a call with its first reply, if it has one."""
    if item.call is None or item.call.key is None:
        return []
    call, kept = item.call, item.kept()
    return [Request(item.key_session, str(call.key), call.fingerprint, item.moment, item.line, kept, time.time())]
