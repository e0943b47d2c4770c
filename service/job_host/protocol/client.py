"""A client of the service: it tries instances in turn, asks again by request key, and never reads less than it has seen."""

from __future__ import annotations

import asyncio
import json
import random
import ssl
import time
import uuid
from collections.abc import Callable, Sequence
from dataclasses import dataclass, field
from pathlib import Path
from types import TracebackType
from typing import Any

import aiohttp

from job_host.protocol.headers import AT_LEAST, CLIENT, OPERATIONS, REQUEST_KEY
from job_host.protocol.peers import notice_gone
from job_host.protocol.problem_statuses import LASTING, PASSING
from job_host.protocol.seen import NOTHING, Seen, both, read_seen, written

PAUSE = 0.2
LONGEST_PAUSE = 2.0
ASK_SECONDS = 30.0
CONNECT_SECONDS = 5.0
# A service whose machine acknowledges nothing for so long is gone.
GONE_SECONDS = 10.0


@dataclass(frozen=True)
class Document:
    """A body that is no JSON of the client's: its bytes, and their media type."""

    data: bytes
    kind: str


class Refused(Exception):
    """A problem document, by its name."""

    def __init__(self, status: int, document: dict[str, Any]) -> None:
        self.status = status
        self.document = document
        self.name = str(document.get("title", status))
        self.detail = str(document.get("detail", ""))
        self.leader = str(document.get("leader") or "")
        super().__init__(f"{self.name}: {self.detail}" if self.detail else self.name)


class Unreachable(Exception):
    """No instance answered in time. The text says what the last one did."""


@dataclass(frozen=True)
class Address:
    """Where a service is, and as whom it is called. `patience` is for how many seconds it is tried."""

    urls: tuple[str, ...]
    client: str
    token: str | None = None
    authority: Path | None = None
    patience: float = 30.0
    headers: dict[str, str] = field(default_factory=dict)


class Connector(aiohttp.TCPConnector):
    """Connections that end if the service's machine is gone, though it is long until an answer is due."""

    async def connect(self, *given: Any, **named: Any) -> Any:
        connection = await super().connect(*given, **named)
        if connection.transport is not None:
            notice_gone(connection.transport.get_extra_info("socket"), GONE_SECONDS)
        return connection


class Client:
    """An asynchronous client. One object is one client, whose reads don't go back.

    `note` is told why the service is asked again.
    """

    def __init__(self, address: Address, note: Callable[[str], None] = lambda text: None) -> None:
        self._address = address
        self._note = note
        self._seen: Seen = NOTHING
        self._urls = [url.rstrip("/") for url in address.urls]
        self._place = 0
        self._sessions: list[aiohttp.ClientSession] = []

    async def __aenter__(self) -> Client:
        headers = {CLIENT: self._address.client, **self._address.headers}
        if self._address.token is not None:
            headers["Authorization"] = f"Bearer {self._address.token}"
        tls = ssl.create_default_context(cafile=self._address.authority) if self._address.authority else None
        for force_close in (False, True):
            connector = Connector(ssl=tls if tls else True, limit=0, force_close=force_close)
            self._sessions.append(aiohttp.ClientSession(headers=headers, connector=connector))
        return self

    async def __aexit__(
        self, kind: type[BaseException] | None, fault: BaseException | None, trace: TracebackType | None
    ) -> None:
        while self._sessions:
            await self._sessions.pop().close()

    async def read(self, path: str) -> Any:
        return await self._until_answered("GET", path, None, None, 0.0, self._address.patience, ASK_SECONDS)

    async def operate(
        self,
        method: str,
        path: str,
        body: Any = None,
        wait: float = 0.0,
        patience: float | None = None,
        key: str | None = None,
        attempt: float = ASK_SECONDS,
    ) -> Any:
        """Makes one operation, by one request key for all attempts, so that it is made once.

        `wait` is for how many seconds it may poll, and `attempt` for how many more one attempt lasts.
        """
        longest = self._address.patience if patience is None else patience
        return await self._until_answered(method, path, body, uuid.uuid4().hex if key is None else key, wait, longest, attempt)

    async def _until_answered(
        self, method: str, path: str, body: Any, key: str | None, wait: float, patience: float, attempt: float
    ) -> Any:
        deadline, pause, fault, is_again = time.monotonic() + patience + wait, PAUSE, "nothing was tried", False
        while True:
            tried, leader = self._place, ""
            try:
                return await self._once(method, path, body, key, wait, attempt, is_again)
            except Refused as refused:
                if refused.status not in PASSING or refused.name in LASTING:
                    raise
                fault, leader = str(refused), refused.leader
            except (aiohttp.ClientError, asyncio.TimeoutError, OSError) as failed:
                fault = f"{type(failed).__name__} {failed}"
            if time.monotonic() + pause > deadline:
                raise Unreachable(f"{method} {path}: {fault}")
            self._note(f"asks again, {method} {path}: {fault}")
            self._go_on_from(tried, leader.rstrip("/"))
            is_again = True
            await asyncio.sleep(pause * random.uniform(0.5, 1.0))
            pause = min(pause * 1.5, LONGEST_PAUSE)

    def _go_on_from(self, tried: int, leader: str) -> None:
        """Goes on to the leader, if it is one of the instances, else to the next one. Another call may have done so."""
        if self._place == tried:
            self._place = self._urls.index(leader) if leader in self._urls else (tried + 1) % len(self._urls)

    async def _once(
        self, method: str, path: str, body: Any, key: str | None, wait: float, attempt: float, is_again: bool
    ) -> Any:
        """Asks one instance. A second attempt has a connection of its own, since a kept one may be cut without a word."""
        headers = {AT_LEAST: written(self._seen)} if key is None else {REQUEST_KEY: key}
        url = self._urls[self._place] + path
        limit = aiohttp.ClientTimeout(total=attempt + wait, sock_connect=min(CONNECT_SECONDS, attempt))
        session = self._sessions[is_again]
        given: dict[str, Any] = {"json": body}
        if isinstance(body, Document):
            given, headers["Content-Type"] = {"data": body.data}, body.kind
        async with session.request(method, url, headers=headers, timeout=limit, **given) as response:
            text = await response.text()
            if response.status >= 400:
                raise Refused(response.status, document_of(text))
            self._seen = both(self._seen, read_seen(response.headers.get(OPERATIONS, "0")))
            return json.loads(text) if response.content_type == "application/json" else text


def document_of(text: str) -> dict[str, Any]:
    try:
        value = json.loads(text)
    except ValueError:
        return {}
    return value if isinstance(value, dict) else {}


def read_token(path: Path | None) -> str | None:
    """A token from a file, so that it stands in no list of processes."""
    return path.read_text().strip() if path is not None else None


def separated(text: str) -> tuple[str, ...]:
    """What stands in a text with commas between: the URLs of one service's instances, or names."""
    return tuple(part.strip() for part in text.split(",") if part.strip())


__all__: Sequence[str] = ["Address", "Client", "Document", "Refused", "Unreachable", "read_token", "separated"]
