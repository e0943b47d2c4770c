"""What a client asks for, and what became of it."""

from __future__ import annotations

import asyncio
import json
from collections.abc import Awaitable, Callable, Sequence
from dataclasses import dataclass, field, replace
from typing import Any

from job_host.protocol.lines import Members, fingerprint, is_accepted, read
from job_host.service.history.audited import Audited, Did, Origin
from job_host.service.pages import Page
from job_host.service.versions.changes import Growth

SERVICE = ""
SERVICE_SESSION = 1
# Stands for the reply to a request key whose call may be one of those before the base of the log.
REPLY_NOT_KEPT = b'{"refused":"ReplyNotKept"}'
# No client's session: keys that say once stand under it, as they are for all clients.
EVERYBODY_SESSION = 0


def nobody_left() -> bool:
    return False


def everybody_heard() -> bool:
    return False


@dataclass(frozen=True)
class Call:
    """A command of a client.

    `resolve` gives members that a query tells. It isn't asked if the key has a reply. With `wait`, a claim that is answered
    Nothing is made again until so many seconds are over, or until the client is gone. While its machine is `is_unheard`, no
    work is given to it. That answer isn't kept: a claim by the same key is a new one. With `is_once` the key is for all
    clients, as long as the job instance that the call made is there. A refusal isn't kept then. A call with `make` is no line
    of batchctl's: that makes it, and gives its reply. `confirm` raises what keeps a call from being made, with no other line
    between it and the call's own. `address` is where the request came from, if it came from elsewhere.
    """

    client: str
    do: str
    members: Members
    key: str | None = None
    fingerprint: bytes = b""
    resolve: Callable[[], Awaitable[Members]] | None = None
    log: str | None = None
    wait: float = 0.0
    is_gone: Callable[[], bool] = nobody_left
    is_unheard: Callable[[], bool] = everybody_heard
    is_once: bool = False
    make: Callable[[Call], Awaitable[bytes]] | None = None
    confirm: Callable[[], Awaitable[None]] | None = None
    address: str = ""


def once_by_parameters(call: Call, job: str, parameters: Any) -> Call:
    """A start whose key is its job with its parameters, whoever starts it."""
    key = f"parameters:{fingerprint(job, parameters).hex()}"
    return replace(call, key=key, fingerprint=fingerprint("start", job, parameters), is_once=True)


@dataclass(frozen=True)
class WorkLog:
    """The last of what a worker handed in as the log of a work item."""

    work: int
    execution: int
    element: str
    partition: int | None
    text: str


@dataclass(frozen=True)
class LogSize:
    """The log of a work item by its size in bytes."""

    work: int
    element: str
    partition: int | None
    size: int


# What is told as the end of a log.
LOG_END_CHARACTERS = 4_000


@dataclass(frozen=True)
class LogPage:
    """A page of the logs of a job execution, or of one element of it. With `search` those are meant that have this text."""

    execution: int
    element: str | None
    page: Page
    search: str = ""


@dataclass(frozen=True)
class Kept:
    """The first reply to a call, the answers that belong to it, and how many operations it saw.

    Whoever has read the reply before gives what it says.
    """

    reply: bytes
    answers: tuple[bytes, ...]
    seen: int
    is_read: dict[str, Any] | None = field(default=None, compare=False, repr=False)

    def told(self) -> dict[str, Any]:
        """What the reply says. It isn't changed."""
        return read(self.reply) if self.is_read is None else self.is_read


def answers_text(answers: Sequence[bytes]) -> str:
    """The answers that belong to a reply, as a store keeps them. Most replies have none."""
    return json.dumps([answer.decode() for answer in answers]) if answers else "[]"


@dataclass(frozen=True)
class KeptRequest:
    """What is kept of a request key: the request's fingerprint, and its first reply."""

    fingerprint: bytes
    kept: Kept


def _fail(future: asyncio.Future[Any], problem: Exception) -> None:
    """Ends a future, which nobody need await."""
    if not future.done():
        future.set_exception(problem)
        future.exception()


@dataclass
class Item:
    """A call on its way: handed to the co-process, answered, then kept.

    It has no call if it only asks whether the leader leads.
    """

    call: Call | None
    session: int
    line: bytes = b""
    moment: int = 0
    # Those of the line.
    members: dict[str, Any] = field(default_factory=dict)
    # What the log keeps ahead of the line.
    tag: bytes = b""
    reply: bytes = b""
    number: int | None = None
    did: Did | None = None
    seen: int = 0
    answers: tuple[bytes, ...] = ()
    is_ready: bool = False
    # What the reply says, if the engine has read it.
    told: dict[str, Any] | None = None
    # The job execution whose answers were asked for with the line, before its reply was heard.
    asked_ahead: int | None = None
    log: WorkLog | None = None
    growth: Growth | None = None
    heard: asyncio.Future[bytes] = field(default_factory=lambda: asyncio.get_running_loop().create_future())
    done: asyncio.Future[Kept] = field(default_factory=lambda: asyncio.get_running_loop().create_future())

    @property
    def is_keyed(self) -> bool:
        """Whether the reply is kept beside a request key."""
        if self.call is None or self.call.key is None:
            return False
        if self.call.is_once:
            return is_accepted(self.reply)
        return not self.reply.startswith(b'{"nothing":')

    @property
    def key_session(self) -> int:
        """The session under which the request key stands."""
        return EVERYBODY_SESSION if self.call is not None and self.call.is_once else self.session

    def audited(self) -> Audited | None:
        """The operation that the call became, if it became one, with who made it."""
        if self.call is None or self.number is None or self.did is None:
            return None
        return Audited(self.number, self.did, Origin.of(self.call.client, self.call.address))

    def kept(self) -> Kept:
        return Kept(self.reply, self.answers, self.seen, self.told)

    def end(self) -> None:
        if not self.done.done():
            self.done.set_result(self.kept())

    def fail(self, problem: Exception) -> None:
        _fail(self.heard, problem)
        _fail(self.done, problem)
