"""One co-process over one history: how many operations it has entered, which work items are busy, and its queries."""

from __future__ import annotations

import asyncio
import json
from bisect import bisect_left
from collections import deque
from collections.abc import Callable, Iterable, Iterator, Sequence
from functools import lru_cache
from typing import Any, NamedTuple

from job_host.catalogue.jobs import jobs_of
from job_host.catalogue.names import PLAIN_NAMES, JobNames
from job_host.protocol.lines import LinesDigest, is_accepted, query
from job_host.service.history.actions import ACTIONS, MAKING, Action, Actions
from job_host.service.history.answers import Answers
from job_host.service.history.audited import Did, MadeJobs
from job_host.service.history.base import Base
from job_host.service.history.causes import FAILED
from job_host.service.history.changes import MOST_NAMED, Changes
from job_host.service.history.coprocess import CoProcess, CoProcessEnded
from job_host.service.history.execution_index import ExecutionIndex
from job_host.service.history.log_file import Entered, KnownBase
from job_host.service.history.open_index import OpenIndex
from job_host.service.history.tags import TAB
from job_host.service.history.work_items import LOST, Ended, EndedWork, Held
from job_host.service.pages import Page

# Commands whose replies tell what the operation is on.
TELLING = frozenset({"start", "restart", "claim"})
# Commands after which no claim finds more than before.
GIVES_NO_WORK = frozenset({"claim", "checkpoint"})
# By their answers two programs are compared, whether they have the same history.
STATE = (query("status_counts"), query("job_names"))
# A co-process that doesn't answer for so long isn't used further.
ANSWER_SECONDS = 10.0
# One more than an event names: so a purge of more is told without their numbers.
PURGED = Page(0, MOST_NAMED + 1)


@lru_cache(maxsize=2)
def not_restartable(catalogue: bytes) -> frozenset[str]:
    """The jobs that say that they may not be restarted."""
    return frozenset(name for name, job in jobs_of(catalogue).items() if job.get("restartable") is False)


class Record(NamedTuple):
    """An operation, and what it did, if that is known."""

    number: int
    line: bytes
    reply: bytes
    did: Did | None = None


class ReplayDiffers(Exception):
    """A replay was answered otherwise than the operation was when it was kept."""

    def __init__(self, record: Record, got: bytes) -> None:
        what = f"operation {record.number}, {record.line.decode()}"
        super().__init__(f"{what}, was kept with the reply {record.reply.decode()}, and is replayed with {got.decode()}")


# Heard are a reply, the number of the operation if it was entered, and how many operations had been entered then.
Heard = Callable[[bytes | None, int | None, int], None]


class Engine:
    """Counts what the co-process enters. `turn` is held by reads of several steps, so that no command comes between them.

    `recent` has the last operation that is known to be kept, and all behind it. `is_whole` says that each operation which the
    co-process was handed by a replay is noted here. `digest` is of the lines behind the base of the log, if it has one. `did`
    tells of the operations that were entered last.
    """

    def __init__(self, process: CoProcess, names: JobNames = PLAIN_NAMES) -> None:
        self.process = process
        self.names = names
        self.entered = 0
        self.last_moment = 0
        self.last_session = 0
        self.held: dict[int, Held] = {}
        # How many work items of each job execution are busy.
        self.busy: dict[int, int] = {}
        self.ended_work = EndedWork()
        self.last_work = 0
        # The work item of the last claim, or 0 if it found none.
        self._claimed = 0
        # Also those that failed long ago.
        self.failed_work = EndedWork()
        self.changes = Changes()
        self.executions = ExecutionIndex(self, names)
        self.actions = Actions(self.executions.numbers)
        self.jobs = MadeJobs(self.executions.numbers)
        self.did: list[Did] = []
        # The last reply that told what its operation is on.
        self.told: dict[str, Any] = {}
        self.open = OpenIndex(self, self.executions, self.busy, self.may_restart, names)
        self.recent: deque[Record] = deque()
        self.base: KnownBase | None = None
        self.digest = LinesDigest()
        self.is_whole = True
        self.looked: Answers | None = None
        self.turn = asyncio.Lock()
        self.may_give_work: Callable[[], None] = lambda: None

    def may_restart(self, job: str) -> bool:
        return job not in not_restartable(self.process.catalogue)

    def made_between(self, since: int | None, until: int | None) -> tuple[int, int | None]:
        """The numbers of the job executions that were made from a moment on, and before another one."""
        numbers = self.executions.numbers
        places = range(1, self.executions.count + 1)

        def before(moment: int) -> int:
            """How many were made before a moment."""
            return bisect_left(places, moment, key=lambda place: self.actions.made_at(numbers.number(place)))

        first = 1 if since is None else numbers.number(1 + before(since))
        return first, None if until is None else numbers.number(before(until))

    @property
    def based(self) -> int:
        """How many operations are before the base of the log."""
        return 0 if self.base is None else self.base.head.operations

    @property
    def last_made(self) -> int:
        """The moment at which the last job execution that is there was made."""
        executions = self.executions
        numbers = map(executions.numbers.number, range(executions.count, 0, -1))
        last = next((one for one in numbers if executions.is_there(one)), None)
        return 0 if last is None else self.actions.made_at(last)

    @property
    def is_compact(self) -> bool:
        """Whether no operation stands behind the base of the log. One without a base and without operations is so, too."""
        return self.entered == self.based

    @property
    def known(self) -> Entered:
        """By what the log is known again."""
        return Entered(self.base, self.entered, self.digest.value())

    def begin(self, base: Base) -> None:
        """Begins with what the base of a log tells, before anything is entered."""
        self.note_base(base.known)
        self.entered, self.last_work = base.head.operations, base.head.work
        self.last_moment, self.last_session = base.last_moment, base.last_session
        self.executions.begin(base)
        self.actions.begin(row.create for row in base.executions)
        self.jobs.begin(self.names.name_of(row.job) for row in base.executions)
        self.changes.begin(self.entered)
        for held in base.held:
            self._note_busy(held)
        self.ended_work.forgotten_until = base.ended.forgotten_until
        for ended in base.ended.in_order():
            self.ended_work.note(ended)
        for ended in base.failed.in_order():
            self.failed_work.note(ended)

    def actions_behind(self, operation: int) -> list[tuple[int, Action]]:
        """What was done to the job executions that are there, behind an operation."""
        return [(one, action) for one in self.executions.numbers_there() for action in self.actions.behind(one, operation)]

    def actions_between(self, places: Iterable[int], since: int, until: int) -> list[tuple[int, Action]]:
        """What was done behind an operation, up to another one, to the job executions at these places that were there then."""
        executions = [one for one in self.executions.numbers_at(places) if self.executions.was_there(one, until)]
        done = [(one, action) for one in executions for action in self.actions.behind(one, since)]
        return [(one, action) for one, action in done if action.operation <= until]

    def restore_actions(self, actions: Iterable[tuple[int, Action]]) -> None:
        """What was done to job executions before the base, in the order of the operations, before anything is entered."""
        for execution, action in actions:
            if self.executions.is_there(execution):
                self.actions.note(execution, action)

    def note_base(self, base: KnownBase) -> None:
        """The log has a base now, which stands for all that was entered."""
        self.base, self.digest = base, LinesDigest()

    def holding(self) -> set[int]:
        """The sessions that hold work items."""
        return {held.session for held in self.held.values()}

    def command(self, line: bytes, heard: Heard, tag: bytes = b"", members: dict[str, Any] | None = None) -> None:
        """Hands on a command, with a tag if it has one. Whoever calls it holds `turn`. `members` are those of its line."""

        def hear(reply: bytes | None) -> None:
            if reply is None:
                heard(None, None, self.entered)
            elif is_accepted(reply):
                self.enter([line], [reply], None if members is None else [members])
                self.recent.append(Record(self.entered, line, reply, self.did[-1]))
                heard(reply, self.entered, self.entered)
            else:
                heard(reply, None, self.entered)

        self.process.send(tag + TAB + line if tag else line, hear)

    def enter(self, lines: Sequence[bytes], replies: Sequence[bytes], members: Sequence[dict[str, Any]] | None = None) -> None:
        """Notes what operations are on: work items, and job executions. Many at once cost less than one by one.

        Whoever wrote the lines may give their members.
        """
        self.is_whole = False
        self.digest.add(lines)
        operations = json.loads(b"[%b]" % b",".join(lines)) if members is None else members
        telling = [reply for told, reply in zip(operations, replies, strict=True) if told["do"] in TELLING]
        answers = json.loads(b"[%b]" % b",".join(telling)) if telling else []
        self.told = answers[-1] if answers else {}
        each = iter(answers)
        self.did = [self._enter(told, each) for told in operations]
        self.last_moment = max(self.last_moment, *(told["at"] for told in operations))
        self.last_session = max(self.last_session, *(told["by"] for told in operations))
        self.is_whole = True
        if any(told["do"] not in GIVES_NO_WORK for told in operations):
            self.may_give_work()

    def _enter(self, told: dict[str, Any], answers: Iterator[dict[str, Any]]) -> Did:
        self.entered += 1
        do = told["do"]
        if do == "purge":
            return self._note_purge(told)
        execution = self._execution_of(do, told, answers)
        self.executions.note_changed(execution, self.entered)
        self.open.note_changed(execution)
        self.changes.note(self.entered, [execution, told["execution"]] if do == "restart" else [execution])
        if do in ACTIONS:
            self._note_action(do, told, execution)
        of = execution if do in MAKING else self._claimed if do == "claim" else told.get("work", 0)
        return Did(do, told["by"], told["at"], execution, self.jobs.of(execution), of)

    def _note_purge(self, told: dict[str, Any]) -> Did:
        instance = told["instance"]
        self.executions.note_purged(instance, self.entered)
        newest = self.executions.newest_of(instance)
        self.open.note_changed(newest)
        self.changes.note(self.entered, self.executions.of_instance(instance, PURGED))
        self.actions.note_purge(instance, Action(self.entered, "purge", told["by"], told["at"], 0))
        return Did("purge", told["by"], told["at"], newest, self.jobs.of(newest), instance)

    def _note_action(self, do: str, told: dict[str, Any], execution: int) -> None:
        """Notes what somebody did to a job execution. A restart is noted of both, the earlier one and the one that it made."""
        made = execution if do in MAKING else 0
        action = Action(self.entered, do, told["by"], told["at"], made or told.get("work", 0))
        self.actions.note(execution, action)
        if not made:
            return
        earlier = told.get("execution")
        self.executions.note_made(execution, earlier, self.entered)
        self.jobs.note(execution, self.names.name_of(told["job"]) if earlier is None else self.jobs.of(earlier))
        if earlier is not None:
            self.open.note_changed(earlier)
            self.actions.note(earlier, action)

    def _execution_of(self, do: str, told: dict[str, Any], answers: Iterator[dict[str, Any]]) -> int:
        """The job execution that an operation is on. Notes who claimed a work item, and which is over."""
        if do in MAKING:
            return int(next(answers)["execution"])
        if do == "claim":
            return self._note_claim(told, next(answers))
        if do in ("stop", "abandon"):
            return int(told["execution"])
        if do == "checkpoint":
            return self.held[told["work"]].execution
        held = self.held.pop(told["work"])
        self._note_free(held.execution)
        outcome = LOST if do == "lose" else told["outcome"]
        ended = Ended(held, told["at"], outcome, told.get("exit"))
        self.ended_work.note(ended)
        if outcome in FAILED:
            self.failed_work.note(ended)
        return held.execution

    def _note_free(self, execution: int) -> None:
        """A work item of a job execution is over."""
        left = self.busy.pop(execution) - 1
        if left:
            self.busy[execution] = left

    def _note_claim(self, told: dict[str, Any], reply: dict[str, Any]) -> int:
        work = reply.get("work")
        self._claimed = 0 if work is None else int(work["work"])
        if work is None:
            return int(reply["closed"])
        place = (work["work"], work["execution"], work["element"], work.get("partition"))
        self._note_busy(Held(*place, told["by"], told["at"]))
        self.last_work = max(self.last_work, work["work"])
        return int(work["execution"])

    def _note_busy(self, held: Held) -> None:
        self.held[held.work] = held
        self.busy[held.execution] = self.busy.get(held.execution, 0) + 1

    def note_kept(self, number: int) -> None:
        """Operations up to this one are kept. The last of them stays in `recent`: by it the history is known again."""
        while len(self.recent) > 1 and self.recent[1].number <= number:
            self.recent.popleft()

    async def replay(self, records: Sequence[Record]) -> None:
        """Hands on kept operations, and compares the replies. Raises ReplayDiffers at the first that differs.

        They are entered as the last reply is heard, so that no later query is said to have seen less.
        """
        replayed: asyncio.Future[None] = asyncio.get_running_loop().create_future()
        replies: list[bytes] = []

        def hear(reply: bytes | None) -> None:
            if replayed.done():
                return
            if reply is None:
                replayed.set_exception(CoProcessEnded("batchctl has ended"))
                return
            replies.append(reply)
            if len(replies) == len(records):
                try:
                    self._enter_kept(records, replies)
                    replayed.set_result(None)
                except Exception as fault:
                    replayed.set_exception(fault)

        if records:
            self.is_whole = False
            self.process.send_all([record.line for record in records], hear)
            await replayed

    def _enter_kept(self, records: Sequence[Record], replies: Sequence[bytes]) -> None:
        for number, (record, reply) in enumerate(zip(records, replies, strict=True), self.entered + 1):
            if reply != record.reply or record.number != number:
                raise ReplayDiffers(record, reply)
        self.enter([record.line for record in records], replies)
        self.recent = deque(records[-1:])

    async def has_noted_all(self) -> bool:
        """Whether the co-process lives, and all that it was handed is answered and noted here."""
        if not self.is_whole or self.process.has_ended:
            return False
        try:
            await asyncio.wait_for(self.ask(STATE), ANSWER_SECONDS)
        except (CoProcessEnded, asyncio.TimeoutError):
            return False
        return self.is_whole

    async def until_ended(self) -> None:
        """Returns after the co-process has ended, and no other one has taken its place."""
        process: CoProcess | None = None
        while process is not self.process:
            process = self.process
            await asyncio.shield(process.gone)

    @property
    def state(self) -> list[bytes] | None:
        """The answers to STATE after the last operation, if they were asked then."""
        return self.looked.replies if self.looked is not None and self.looked.seen == self.entered else None

    def look(self) -> None:
        """Asks how things are, and remembers it for `state`."""

        def note(asked: asyncio.Future[Answers]) -> None:
            if asked.exception() is None:
                self.looked = asked.result()

        self.ask(STATE).add_done_callback(note)

    def ask(self, queries: Sequence[bytes]) -> asyncio.Future[Answers]:
        """Asks queries of one state. There is at least one."""
        answered: asyncio.Future[Answers] = asyncio.get_running_loop().create_future()

        def hear(answers: Answers | None) -> None:
            if answered.done():
                return
            if answers is None:
                answered.set_exception(CoProcessEnded("batchctl has ended"))
            else:
                answered.set_result(answers)

        self.ask_for(queries, hear)
        return answered

    def ask_for(self, queries: Sequence[bytes], heard: Callable[[Answers | None], None]) -> None:
        """Asks queries of one state, and tells their answers as the last one is heard: none if batchctl has ended."""
        replies: list[bytes] = []
        has_ended = False

        def hear(reply: bytes | None) -> None:
            nonlocal has_ended
            if has_ended:
                return
            if reply is None:
                has_ended = True
                heard(None)
                return
            replies.append(reply)
            if len(replies) == len(queries):
                heard(Answers(replies, self.entered))

        self.process.send_all(queries, hear)
