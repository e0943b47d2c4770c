"""One term of one service over one co-process: calls go in by the order of its pipe, and replies leave after they are kept."""

from __future__ import annotations

import asyncio
import time
from abc import ABC, abstractmethod
from collections import deque
from collections.abc import Awaitable, Callable, Sequence
from contextlib import ExitStack, suppress
from dataclasses import dataclass, replace
from functools import partial

from job_host.protocol.lines import command_members, compact, is_accepted, query, read, refusal_of
from job_host.service.history.actions import MAKING
from job_host.service.history.answers import Answers
from job_host.service.history.engine import Engine
from job_host.service.problems import Problem, unavailable
from job_host.service.terms.calls import EVERYBODY_SESSION, REPLY_NOT_KEPT, SERVICE, Call, Item, Kept, KeptRequest, WorkLog
from job_host.service.terms.claims import ClaimDesk, ClaimWithdrawn
from job_host.service.terms.follow_ups import Unchanging, count_of, execution_of, unchanging_of
from job_host.service.terms.known_keys import KeptKey, KnownKeys
from job_host.service.terms.moments import Moments
from job_host.service.terms.sessions import Sessions
from job_host.service.terms.workers import Workers
from job_host.service.versions.changes import Growth

# What a worker reports of its work items.
REPORTS = ("checkpoint", "finish")


@dataclass(frozen=True)
class Observers:
    """Who is told how long a commit took, and of how many replies it was; and that there may be work.

    `admit` raises what keeps a start or a restart from being made, with no other line between it and the call's own. Without
    it each is made.
    """

    commit: Callable[[float, int], None] = lambda seconds, replies: None
    work: Callable[[], None] = lambda: None
    admit: Callable[[Engine, Call], Awaitable[None]] | None = None


@dataclass(frozen=True)
class TermSettings:
    refuse_from: int
    beat: float = 1.0


class Term(ABC):
    """A term ends by `fail`: what wasn't kept until then is answered by a problem, and nothing more is handed over."""

    def __init__(self, engine: Engine, sessions: Sessions, settings: TermSettings, observers: Observers) -> None:
        self.engine = engine
        self.sessions = sessions
        self.settings = settings
        self.observers = observers
        self.moments = Moments(engine.last_moment)
        self.committed = engine.entered
        self.failure: Problem | None = None
        self.desk = ClaimDesk(self.begin)
        self.workers = Workers()
        self._queue: deque[Item] = deque()
        self._wake = asyncio.Event()
        self._under_way: dict[tuple[str | None, str], tuple[bytes, asyncio.Future[Kept]]] = {}
        self._readers: list[tuple[int, asyncio.Future[None]]] = []
        self.keys = KnownKeys()
        self._unchanging = Unchanging()
        # How many starts and restarts have no reply yet.
        self._making = 0
        # What is kept of a client's request key beside the replies: a change of a job.
        self.find_change: Callable[[str, str], KeptRequest | None] = lambda client, key: None
        engine.may_give_work = self._wake_claims
        observers.work()

    @abstractmethod
    async def find(self, session: int, key: str) -> KeptRequest | None:
        """What is kept of a request key."""

    @abstractmethod
    async def keys_behind(self, last: KeptKey | None, most: int) -> Sequence[KeptKey]:
        """The next request keys of the store, so many at most, in the order of KeptKey."""

    async def know_keys(self) -> None:
        """Reads which request keys the store has, and goes on without end."""
        await self.keys.read(self.keys_behind)
        await asyncio.Event().wait()

    @abstractmethod
    async def session_of(self, name: str) -> int | None:
        """The session that is kept of a client name."""

    @abstractmethod
    async def forget(self, key: str, kept: Kept) -> None:
        """Drops a key that says once, if this is still its first reply."""

    @abstractmethod
    async def keep(self, items: Sequence[Item]) -> None:
        """Keeps items. Raises a Problem by which the term fails if it can't, or if another one leads."""

    async def submit(self, call: Call) -> Kept:
        """Makes a call, or gives the first reply of its request key. One call with a key is under way at a time."""
        if call.key is None:
            with self.sessions.hearing(call.client):
                await self.meet(call.client)
                return await self._perform(call)
        slot = (None if call.is_once else call.client, call.key)
        before = self._under_way.get(slot)
        if before is None:
            done = self._at_once(call, call.key) or asyncio.get_running_loop().create_task(self._once(call, call.key))
            before = self._under_way[slot] = (call.fingerprint, done)
            done.add_done_callback(lambda done: self._leave(slot, done))
        if before[0] != call.fingerprint:
            raise key_reused()
        return await asyncio.shield(before[1])

    def _at_once(self, call: Call, key: str) -> asyncio.Future[Kept] | None:
        """Hands over a call by a new key if nothing has to be asked or waited for before. Returns none if something has."""
        is_plain = call.do != "claim" and call.make is None and call.resolve is None and call.confirm is None
        is_admitted = call.do not in MAKING or self.observers.admit is None
        if not (is_plain and is_admitted) or self.engine.turn.locked() or not self.sessions.is_known(call.client):
            return None
        if self._may_be_kept(call, key):
            return None
        with ExitStack() as in_hand:
            in_hand.enter_context(self.sessions.hearing(call.client))
            self.check(call)
            item = self.item_of(call)
            self.hand(item)
            heard = in_hand.pop_all()
        item.done.add_done_callback(lambda done: heard.close())
        return item.done

    def _may_be_kept(self, call: Call, key: str) -> bool:
        """Whether the key of a client that is known may have a reply."""
        session = EVERYBODY_SESSION if call.is_once else self.sessions.known(call.client)
        if session is not None and self.keys.may_have(session, key):
            return True
        return not call.is_once and self.find_change(call.client, key) is not None

    async def meet(self, client: str) -> None:
        """Looks up the session of a client that wasn't heard for long."""
        if not self.sessions.is_known(client):
            number = await self.session_of(client)
            if number is not None:
                self.sessions.remember(client, number)

    def _leave(self, slot: tuple[str | None, str], done: asyncio.Future[Kept]) -> None:
        self._under_way.pop(slot, None)
        if not done.cancelled():
            done.exception()

    async def _once(self, call: Call, key: str) -> Kept:
        with self.sessions.hearing(call.client):
            await self.meet(call.client)
            kept = await self.kept_reply(call, key)
            return kept if kept is not None else await self._perform(call)

    async def kept_before(self, call: Call) -> Kept | None:
        """The first reply of a call's key, if there was one."""
        if call.key is None:
            return None
        with self.sessions.hearing(call.client):
            await self.meet(call.client)
            return await self.kept_reply(call, call.key)

    async def kept_reply(self, call: Call, key: str) -> Kept | None:
        """The first reply of a call's key, if there was one. Its client has been met, and is heard now."""
        session = EVERYBODY_SESSION if call.is_once else self.sessions.known(call.client)
        may_be_found = session is not None and self.keys.may_have(session, key)
        found = await self.find(session, key) if session is not None and may_be_found else None
        if found is not None and call.is_once and await self._is_purged(found.kept):
            await self.forget(key, found.kept)
            found = None
        if found is None and not call.is_once:
            found = self.find_change(call.client, key)
        if found is None:
            return None
        if found.fingerprint != call.fingerprint:
            raise key_reused()
        if found.kept.reply == REPLY_NOT_KEPT:
            raise Problem("ReplyNotKept", 409, "a call with this key may stand before the base of the log: it isn't made again")
        return found.kept

    def _wake_claims(self) -> None:
        self.desk.wake()
        self.observers.work()

    async def _is_purged(self, started: Kept) -> bool:
        """Whether the job instance that a start made is there no more."""
        execution = started.told().get("execution")
        if execution is None:
            return False
        answers = await self.ask([query("job_instance", execution=execution)])
        return refusal_of(read(answers.replies[0])) is not None

    async def _perform(self, call: Call) -> Kept:
        if call.make is not None:
            return await self._make(call, call.make)
        if call.resolve is not None:
            call = replace(call, members=await call.resolve(), resolve=None)
        if call.do != "claim":
            return await self._made(call)
        self.desk.note_asked()
        self.workers.note_claim(call.client, not self.desk.is_withdrawn(call))
        kept = await (self.desk.claim(call) if call.wait > 0 else self._made(call))
        self.workers.note_claim(call.client, False)
        return kept

    async def _make(self, call: Call, make: Callable[[Call], Awaitable[bytes]]) -> Kept:
        """Makes a call that is no line of batchctl's, and keeps its reply beside its key."""
        self.check(call)
        reply = await make(call)
        if self.failure is not None:
            raise self.failure
        session = self.sessions.number(call.client)
        item = Item(call, session, moment=self.moments.last, reply=reply, seen=self.engine.entered)
        self._queue_up(item)
        self._make_ready(item)
        return await item.done

    async def _made(self, call: Call) -> Kept:
        return await (await self.begin(call)).done

    async def withdraw(self, claim: Call) -> Kept | None:
        """Withdraws a claim by its key. Returns its reply if it was made before; else it never is."""
        self.desk.withdraw(claim)
        try:
            return await self.submit(claim)
        except ClaimWithdrawn:
            await self.confirm()
            return None

    def check(self, call: Call) -> None:
        """Raises what keeps a call from being made."""
        if self.failure is not None:
            raise self.failure
        if self.desk.is_withdrawn(call):
            raise ClaimWithdrawn()
        if call.do in MAKING and self.engine.entered >= self.settings.refuse_from:
            told = f"from {self.settings.refuse_from} operations on what runs can end, and nothing can be started"
            raise unavailable("HistoryAlmostFull", told, operations=self.committed)

    async def begin(self, call: Call) -> Item:
        """Hands a call to the co-process. Its item tells when it is answered, and when that is kept."""
        async with self.engine.turn:
            if call.confirm is not None:
                await call.confirm()
            self.check(call)
            if call.do in MAKING and self.observers.admit is not None:
                await self.observers.admit(self.engine, call)
            item = self.item_of(call)
            self.hand(item)
        return item

    def item_of(self, call: Call) -> Item:
        """The line of a call with its moment. Lines are handed over in the order of their moments."""
        session = self.sessions.number(call.client)
        moment = self.moments.next()
        members = command_members(call.do, session, moment, call.members)
        try:
            line = compact(members)
        except ValueError as fault:
            raise Problem("BadLine", 400, str(fault)) from fault
        return Item(call, session, line, moment, members, log=self.log_of(call.members.get("work"), call.log))

    def note_accepted(self, client: str, session: int) -> None:
        """A call of a client was accepted, so its name is kept."""
        self.sessions.keep(client, session)

    def log_of(self, work: object, text: str | None) -> WorkLog | None:
        """A log to keep beside a busy work item."""
        held = self.engine.held.get(work) if isinstance(work, int) else None
        if held is None or text is None:
            return None
        return WorkLog(held.work, held.execution, held.element, held.partition, text)

    def _queue_up(self, item: Item) -> None:
        """From now on an item waits to be kept, and its key may have a reply."""
        if item.call is not None and item.call.key is not None:
            self.keys.add(item.key_session, item.call.key)
        self._queue.append(item)

    def hand(self, item: Item) -> None:
        self._queue_up(item)
        heard = partial(self._hear, item)
        self.engine.command(item.line, heard, item.tag, item.members)
        if item.members["do"] in MAKING:
            self._ask_ahead(item)

    def _ask_ahead(self, item: Item) -> None:
        """Asks with a start what belongs to its reply: of the job execution that it makes, if none before it is refused.

        So both come in one round through the pipe.
        """
        self._making += 1
        item.asked_ahead = self.engine.executions.last + self._making
        self.engine.ask_for(unchanging_of(item.asked_ahead), partial(self._hear_ahead, item))

    def _hear_ahead(self, item: Item, answers: Answers | None) -> None:
        """Takes answers that were asked for ahead, if they are of the job execution that was made."""
        if answers is None:
            self._fail_ended()
        elif item.did is not None and item.did.execution == item.asked_ahead:
            self._hear_answers(item, item.did.execution, answers)

    def _hear(self, item: Item, reply: bytes | None, number: int | None, seen: int) -> None:
        """Notes a reply, and asks what belongs to it."""
        if reply is None or item.call is None:
            return self._fail_ended()
        item.reply, item.number, item.seen = reply, number, seen
        self._making -= item.asked_ahead is not None
        if number is None:
            item.log = None
        else:
            item.did = self.engine.did[-1]
            self.note_accepted(item.call.client, item.session)
            if item.call.do in REPORTS:
                self.workers.note_sign(item.call.client)
        if not item.heard.done():
            item.heard.set_result(reply)
        if number is not None and self.engine.told:
            item.told = self.engine.told
        execution = None if item.told is None else execution_of(item.call.do, item.told)
        if execution is None:
            self._make_ready(item)
        elif execution != item.asked_ahead:
            self._ask_behind(item, execution)

    def _ask_behind(self, item: Item, execution: int) -> None:
        """Takes what belongs to a reply out of what was told before, or asks for it."""
        known = self._unchanging.of(execution)
        if known is not None:
            item.answers = known[: count_of(item.call.do)] if item.call is not None else ()
            self._make_ready(item)
        else:
            self.engine.ask_for(unchanging_of(execution), partial(self._hear_answers, item, execution))

    def _hear_answers(self, item: Item, execution: int, answers: Answers | None) -> None:
        if answers is None or item.call is None:
            return self._fail_ended()
        self._unchanging.note(execution, answers.replies)
        item.answers = tuple(answers.replies[: count_of(item.call.do)])
        self._make_ready(item)

    def _fail_ended(self) -> None:
        self.fail(unavailable("CoProcessEnded", "batchctl has ended; the operation may have been kept"))

    def _make_ready(self, item: Item) -> None:
        item.is_ready = True
        self._wake.set()

    async def confirm(self, log: WorkLog | None = None) -> None:
        """Returns after the leader's epoch was found to stand, and the log is kept."""
        if self.failure is not None:
            raise self.failure
        item = Item(None, 0, seen=self.engine.entered, log=log)
        self._queue.append(item)
        self._make_ready(item)
        await item.done

    async def keep_growth(self, growth: Growth) -> None:
        """Returns after changes of jobs are kept."""
        if self.failure is not None:
            raise self.failure
        item = Item(None, 0, seen=self.engine.entered, growth=growth)
        self._queue.append(item)
        self._make_ready(item)
        await item.done

    def _take_ready(self) -> list[Item]:
        """The first items, as far as they are answered."""
        taken = []
        while self._queue and self._queue[0].is_ready:
            taken.append(self._queue.popleft())
        return taken

    async def commit_rounds(self) -> None:
        """Keeps what is answered, round by round. Each beat has a round, with or without replies, and a look at the clock."""
        while self.failure is None:
            # Not by wait_for: it loses a cancellation that comes as the event is set, and the rounds would go on without end.
            with suppress(asyncio.TimeoutError):
                async with asyncio.timeout(self.settings.beat):
                    await self._wake.wait()
            self._wake.clear()
            self.moments.look()
            items = self._take_ready()
            try:
                await self._commit(items)
            except Problem as problem:
                self.fail(problem)
            finally:
                self._fail_items(items, self.failure or unavailable("CommitFailed", "the operation may have been kept"))

    async def _commit(self, items: list[Item]) -> None:
        begun = time.monotonic()
        await self.keep(items)
        self.observers.commit(time.monotonic() - begun, len(items))
        self.committed = max([self.committed, *(item.number for item in items if item.number is not None)])
        self.engine.note_kept(self.noted)
        for item in items:
            item.end()
        self._tell_readers()

    @property
    def noted(self) -> int:
        """Operations up to this one are known to whoever goes on with the engine, however the term ends."""
        return self.committed

    def _tell_readers(self) -> None:
        waiting = self._readers
        self._readers = [reader for reader in waiting if reader[0] > self.committed]
        for seen, future in waiting:
            if seen <= self.committed and not future.done():
                future.set_result(None)

    async def until_committed(self, seen: int) -> None:
        """Returns after so many operations are kept. Raises the failure of the term if they never are."""
        if seen <= self.committed:
            return
        if self.failure is not None:
            raise self.failure
        future: asyncio.Future[None] = asyncio.get_running_loop().create_future()
        self._readers.append((seen, future))
        await future

    async def ask(self, queries: Sequence[bytes], at_least: int = 0) -> Answers:
        """Asks queries of one state, in which at least so many operations are. All that it saw is kept when it is answered."""
        if self.failure is not None:
            raise self.failure
        if at_least > self.engine.entered:
            raise not_yet(at_least, self.committed)
        answers = await self.engine.ask(queries)
        await self.until_committed(answers.seen)
        return answers

    def _fail_items(self, items: Sequence[Item], problem: Problem) -> None:
        for item in items:
            item.fail(problem)

    def fail(self, problem: Problem) -> None:
        """Ends the term: whoever waits is answered the problem."""
        if self.failure is not None:
            return
        self.failure = problem
        self._fail_items(self._queue, problem)
        self._queue.clear()
        self.desk.fail(problem)
        for _, future in self._readers:
            if not future.done():
                future.set_exception(problem)
                future.exception()
        self._readers.clear()
        self._wake.set()

    async def lose(self, work: int) -> bool:
        """Says that a work item's worker is gone. Returns whether it was busy until then."""
        kept = await self.submit(Call(SERVICE, "lose", {"work": work}))
        return is_accepted(kept.reply)


def key_reused() -> Problem:
    return Problem("RequestKeyReused", 422, "another request was made with this key")


def not_yet(at_least: int, seen: int) -> Problem:
    told = f"{at_least} operations are wanted, and {seen} are here"
    return unavailable("NotYetSeen", told, operations=seen)
